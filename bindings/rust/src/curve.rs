//! A curve that the library built, drove back or read, and the calls of the library. Every `unsafe` block of the crate is
//! here.

use crate::config::{
    HEIGHTS_PER_SEGMENT, MAX_AXES, MAX_REFINEMENTS, OutOfRangeMode, SmoothingConfig,
    SmoothingReport, SmoothingTolerance, Spacing,
};
use crate::error::PathError;
use crate::ffi;
use crate::workspace::{Workspace, cells};

/// The limit on segments that is tried first, or the count of waypoints where that is higher.
const FIRST_SEGMENTS: usize = 1024;

/// The curve of an accepted request or of a lane file, or such a curve driven back. Its fields are private to this module,
/// `build`, `from_lane_file` and `reversed` alone make one, and nothing changes one: so it is what the library's `build`,
/// `read_lane` and `return_lane` promise, a well-formed curve.
#[derive(Clone, Debug)]
pub(crate) struct Curve {
    d: usize,
    /// How many axes are smoothed.
    k: usize,
    /// The smoothed axes, 0 behind the k-th.
    axes: [usize; MAX_AXES],
    start: f64,
    end: f64,
    mode: OutOfRangeMode,
    smoothed: Set,
    other: Set,
}

/// The breaks and coefficients of the smoothed axes, or of the others; the widths of the segments lie behind the
/// coefficients.
#[derive(Clone, Debug)]
struct Set {
    breaks: Vec<f64>,
    coefficients: Vec<f64>,
}

/// A call of a library's function whose first arguments are the curve's numbers and slices. Its coefficients are cells of
/// f64 or, where the function's name is followed by `by_bits`, the same memory as cells of u64.
macro_rules! of_curve {
    ($function:ident, $($rest:expr),* $(,)?) => {
        of_curve!($function as f64, $($rest),*)
    };
    ($function:ident by_bits, $($rest:expr),* $(,)?) => {
        of_curve!($function as u64, $($rest),*)
    };
    ($function:ident as $cell:ty, $curve:expr, $($rest:expr),*) => {
        ffi::$function(
            $curve.d,
            $curve.k,
            &$curve.axes,
            $curve.start,
            $curve.end,
            matches!($curve.mode, OutOfRangeMode::Clamp),
            $curve.smoothed.segments(),
            $curve.other.segments(),
            $curve.smoothed.breaks.as_ptr(),
            $curve.smoothed.breaks.len(),
            $curve.smoothed.coefficients.as_ptr().cast::<$cell>(),
            $curve.smoothed.coefficients.len(),
            $curve.other.breaks.as_ptr(),
            $curve.other.breaks.len(),
            $curve.other.coefficients.as_ptr().cast::<$cell>(),
            $curve.other.coefficients.len(),
            $($rest),*
        )
    };
}

impl Set {
    fn segments(&self) -> usize {
        self.breaks.len().saturating_sub(1)
    }

    /// The used cells of a set with so many segments, each of so many axes; none if the slices do not hold them.
    fn used(breaks: &[f64], coefficients: &[f64], segments: usize, axes: usize) -> Option<Self> {
        let count = if segments == 0 {
            0
        } else {
            segments.checked_add(1)?
        };
        let cells = axes.checked_mul(6)?.checked_add(1)?.checked_mul(segments)?;
        Some(Self {
            breaks: breaks.get(..count)?.to_vec(),
            coefficients: coefficients.get(..cells)?.to_vec(),
        })
    }

    /// The coefficients, and the widths that lie behind them, one for each segment.
    fn rows_and_widths(&self) -> (&[f64], &[f64]) {
        let rows = self.coefficients.len().saturating_sub(self.segments());
        let parts = self.coefficients.split_at_checked(rows);
        parts.unwrap_or_default()
    }
}

/// The cells that a build needs: work, breaks, coefficients, other breaks, other coefficients, errors.
fn room(d: usize, n: usize, max_segments: usize) -> Result<[usize; 6], PathError> {
    let mut room = [0; 6];
    // SAFETY: the function has no precondition but that its pointer is to six numbers, which are lent for the call.
    match unsafe { ffi::pamitoye_room(d, n, max_segments, &mut room) } {
        0 => Ok(room),
        number => Err(PathError::of_request(number, f64::NAN)),
    }
}

/// The cutting order into the first cells of `order`; the answer's number.
pub(crate) fn cutting_order(lanes: usize, pairs: &[[usize; 2]], order: &mut [usize]) -> u64 {
    // SAFETY: the function has no precondition: it refuses what it cannot take. Each pointer with its count is a slice
    // that is borrowed for the call, the one that is written alone.
    unsafe {
        ffi::pamitoye_cutting_order(
            lanes,
            pairs.as_ptr(),
            pairs.len(),
            order.as_mut_ptr(),
            order.len(),
        )
    }
}

/// As many orders as slices are given, from the value up, and four slices, empty ones behind those given.
fn orders<'a>(out: &'a mut [&mut [f64]]) -> (usize, [&'a mut [f64]; 4]) {
    let count = out.len();
    let mut slices: [&mut [f64]; 4] = Default::default();
    for (slice, given) in slices.iter_mut().zip(out) {
        *slice = given;
    }
    (count, slices)
}

impl Curve {
    /// The library's `build`. Sizes above the domain are refused before anything is allocated.
    ///
    /// Room grows with the limit on segments, and most lanes need few. So a lower limit is tried first, and the one asked
    /// for only if that is refused for want of segments (8, 15): in every other case the answer under both limits is the
    /// same, which is proved (`higher-limits` in crates/smoothing/proofs/HigherLimits).
    pub(crate) fn build(
        workspace: &mut Workspace,
        points: &[f64],
        (d, n): (usize, usize),
        config: &SmoothingConfig,
    ) -> Result<(Self, SmoothingReport), PathError> {
        let most = config.max_segments;
        if config.max_refinements > MAX_REFINEMENTS {
            return Err(PathError::AboveDomain);
        }
        let all_room = room(d, n, most)?;
        if d.checked_mul(n) != Some(points.len()) {
            return Err(PathError::PointCells);
        }
        let first = FIRST_SEGMENTS.max(n);
        if first < most {
            let lent = workspace.lend(room(d, n, first)?);
            match Self::build_within(first, lent, points, (d, n), config) {
                Err(PathError::InitialSegments | PathError::SegmentsUsedUp) => {}
                answer => return answer,
            }
        }
        Self::build_within(most, workspace.lend(all_room), points, (d, n), config)
    }

    /// The library's `build` with at most so many segments, in slices of the lengths that `room` gives for them.
    fn build_within(
        max_segments: usize,
        lent: [&mut [f64]; 6],
        points: &[f64],
        (d, n): (usize, usize),
        config: &SmoothingConfig,
    ) -> Result<(Self, SmoothingReport), PathError> {
        let [
            work,
            breaks,
            coefficients,
            other_breaks,
            other_coefficients,
            errors,
        ] = lent;
        let axis_list = config.axes.as_deref();
        let axes_given = axis_list.unwrap_or_default();
        let (uniform, tolerance, tolerances) = match &config.tolerance {
            SmoothingTolerance::Uniform(tolerance) => (true, *tolerance, &[][..]),
            SmoothingTolerance::PerAxis(list) => (false, 0., list.as_slice()),
        };
        let parameter_list = config.parameters.as_deref();
        let parameters = parameter_list.unwrap_or_default();
        let spacing = config.spacing.number(parameter_list);
        let mode = config.out_of_range_mode;
        let mut counts = [0; 5];
        let (mut ratio, mut start, mut end) = (f64::NAN, f64::NAN, f64::NAN);
        let (mut k, mut axes) = (0, [0; MAX_AXES]);
        // SAFETY: the function has no precondition: it refuses what it cannot take. Each pointer with its count is a
        // slice that is borrowed for the call, those to be written are borrowed alone, and the single cells are those
        // of the types that the function names.
        let number = unsafe {
            ffi::pamitoye_build(
                points.as_ptr(),
                points.len(),
                d,
                n,
                axis_list.is_none(),
                axes_given.as_ptr(),
                axes_given.len(),
                uniform,
                tolerance,
                tolerances.as_ptr(),
                tolerances.len(),
                spacing,
                parameters.as_ptr(),
                parameters.len(),
                config.max_refinements,
                max_segments,
                matches!(mode, OutOfRangeMode::Clamp),
                work.as_mut_ptr(),
                work.len(),
                breaks.as_mut_ptr(),
                breaks.len(),
                coefficients.as_mut_ptr(),
                coefficients.len(),
                other_breaks.as_mut_ptr(),
                other_breaks.len(),
                other_coefficients.as_mut_ptr(),
                other_coefficients.len(),
                errors.as_mut_ptr(),
                errors.len(),
                &mut counts,
                &mut ratio,
                &mut k,
                &mut axes,
                &mut start,
                &mut end,
            )
        };
        if number != 0 {
            return Err(PathError::of_request(number, ratio).of_spacing(spacing));
        }
        let [segments, others, refinements, fitting_rows, checked] = counts;
        // What `build` promises lets none of these fail.
        let kept = || {
            let curve = Self {
                d,
                k,
                axes,
                start,
                end,
                mode,
                smoothed: Set::used(breaks, coefficients, segments, k)?,
                other: Set::used(other_breaks, other_coefficients, others, d.checked_sub(k)?)?,
            };
            let report = SmoothingReport {
                axes: axes.get(..k)?.to_vec(),
                segments,
                interpolated_segments: others,
                refinements,
                fitting_rows,
                checked_intervals: checked,
                max_errors: errors.get(..k)?.to_vec(),
            };
            Some((curve, report))
        };
        kept().ok_or(PathError::Malformed)
    }

    pub(crate) fn dim(&self) -> usize {
        self.d
    }

    pub(crate) fn range(&self) -> (f64, f64) {
        (self.start, self.end)
    }

    pub(crate) fn mode(&self) -> OutOfRangeMode {
        self.mode
    }

    /// The smoothed axes, in the order in which they were listed.
    pub(crate) fn axes(&self) -> &[usize] {
        self.axes.get(..self.k).unwrap_or_default()
    }

    /// The breaks, coefficients and widths of the smoothed axes.
    pub(crate) fn smoothed(&self) -> [&[f64]; 3] {
        let (rows, widths) = self.smoothed.rows_and_widths();
        [&self.smoothed.breaks, rows, widths]
    }

    /// The breaks, coefficients and widths of the other axes.
    pub(crate) fn other(&self) -> [&[f64]; 3] {
        let (rows, widths) = self.other.rows_and_widths();
        [&self.other.breaks, rows, widths]
    }

    /// The curve driven back. It has as many cells as this one, so that none is short.
    pub(crate) fn reversed(&self) -> Result<Self, PathError> {
        let mut back = self.clone();
        let lent = [
            &mut back.smoothed.breaks[..],
            &mut back.smoothed.coefficients,
            &mut back.other.breaks,
            &mut back.other.coefficients,
        ];
        match self.return_lane(lent) {
            0 => Ok(back),
            number => Err(PathError::of_request(number, f64::NAN)),
        }
    }

    /// The library's return lane into the first cells of these slices, as many as the curve's own have; the answer's
    /// number.
    fn return_lane(&self, lent: [&mut [f64]; 4]) -> u64 {
        let [breaks, coefficients, other_breaks, other_coefficients] = lent;
        // SAFETY: the function has no precondition: it refuses what it cannot take. Each pointer with its count is a
        // slice that is borrowed for the call, those to be written are borrowed alone.
        unsafe {
            of_curve!(
                pamitoye_return_lane,
                self,
                breaks.as_mut_ptr(),
                breaks.len(),
                coefficients.as_mut_ptr(),
                coefficients.len(),
                other_breaks.as_mut_ptr(),
                other_breaks.len(),
                other_coefficients.as_mut_ptr(),
                other_coefficients.len(),
            )
        }
    }

    /// The heights of an axis, in as many cells as they have.
    pub(crate) fn heights(&self, axis: usize) -> Result<Vec<i32>, PathError> {
        let segments = match axis {
            axis if self.axes().contains(&axis) => self.smoothed.segments(),
            axis if axis < self.d => self.other.segments(),
            // 3, whatever the slice.
            _ => 0,
        };
        let mut heights = cells(segments.saturating_mul(HEIGHTS_PER_SEGMENT))?;
        self.heights_into(axis, &mut heights)?;
        Ok(heights)
    }

    /// The library's heights into the first cells of this slice.
    pub(crate) fn heights_into(&self, axis: usize, heights: &mut [i32]) -> Result<(), PathError> {
        // SAFETY: the function has no precondition: it refuses what it cannot take. Each pointer with its count is a slice
        // that is borrowed for the call, the one that is written alone.
        let number = unsafe {
            of_curve!(
                pamitoye_heights,
                self,
                axis,
                heights.as_mut_ptr(),
                heights.len(),
            )
        };
        match number {
            0 => Ok(()),
            number => Err(PathError::of_heights(number)),
        }
    }

    /// The curve's lane file.
    pub(crate) fn to_lane_file(&self) -> Result<Vec<u8>, PathError> {
        let sets = [&self.smoothed, &self.other].into_iter();
        let slices = sets.flat_map(|set| [set.breaks.len(), set.coefficients.len()]);
        let room = slices.fold(41, |room: usize, len| {
            room.saturating_add(len.saturating_mul(8))
        });
        let mut file = cells(room)?;
        match self.write_lane(&mut file) {
            (0, count) => {
                file.truncate(count);
                file.shrink_to_fit();
                Ok(file)
            }
            (number, _) => Err(PathError::of_request(number, f64::NAN)),
        }
    }

    /// The library's `write_lane` into the first bytes of this slice: the answer's number, and how many bytes.
    fn write_lane(&self, file: &mut [u8]) -> (u64, usize) {
        let mut count = 0;
        // SAFETY: the function has no precondition: it refuses what it cannot take. Each pointer with its count is a slice
        // that is borrowed for the call, the one that is written alone, and the count is a cell of the type that the
        // function names. f64 and u64 have one size and one alignment, and all bits of an f64 are a u64.
        let number = unsafe {
            of_curve!(
                pamitoye_write_lane by_bits,
                self,
                file.as_mut_ptr(),
                file.len(),
                &mut count,
            )
        };
        (number, count)
    }

    /// The curve of a lane file. It is asked for without any cell first, and memory is taken only where that is what is
    /// missing (19): 27 and 24 come before it.
    pub(crate) fn from_lane_file(file: &[u8]) -> Result<Self, PathError> {
        match Self::read_lane(file, Default::default()) {
            Err(PathError::ShortSlice) => {}
            answer => return answer,
        }
        // A segment has one break and at least six coefficients in the file, and one width behind them in memory, and each
        // set has one break more: so a set has no more than this.
        let numbers = file.len() / 8;
        let ends = (numbers / 7).saturating_add(1);
        let (mut breaks, mut coefficients) = (cells(ends)?, cells(numbers)?);
        let (mut other_breaks, mut other_coefficients) = (cells(ends)?, cells(numbers)?);
        let lent = [
            &mut breaks[..],
            &mut coefficients,
            &mut other_breaks,
            &mut other_coefficients,
        ];
        Self::read_lane(file, lent)
    }

    /// The library's `read_lane` into these slices, of which the used cells are kept.
    fn read_lane(file: &[u8], lent: [&mut [f64]; 4]) -> Result<Self, PathError> {
        let [breaks, coefficients, other_breaks, other_coefficients] = lent;
        let (mut d, mut k, mut axes) = (0, 0, [0; MAX_AXES]);
        let (mut start, mut end, mut clamp) = (f64::NAN, f64::NAN, false);
        let (mut segments, mut others) = (0, 0);
        // SAFETY: the function has no precondition: it refuses what it cannot take. Each pointer with its count is a slice
        // that is borrowed for the call, those to be written are borrowed alone, and the single cells are those of the types
        // that the function names. f64 and u64 have one size and one alignment, and all bits of a u64 are an f64.
        let number = unsafe {
            ffi::pamitoye_read_lane(
                file.as_ptr(),
                file.len(),
                &mut d,
                &mut k,
                &mut axes,
                &mut start,
                &mut end,
                &mut clamp,
                &mut segments,
                &mut others,
                breaks.as_mut_ptr(),
                breaks.len(),
                coefficients.as_mut_ptr().cast::<u64>(),
                coefficients.len(),
                other_breaks.as_mut_ptr(),
                other_breaks.len(),
                other_coefficients.as_mut_ptr().cast::<u64>(),
                other_coefficients.len(),
            )
        };
        if number != 0 {
            return Err(PathError::of_request(number, f64::NAN));
        }
        let mode = match clamp {
            true => OutOfRangeMode::Clamp,
            false => OutOfRangeMode::Error,
        };
        // What `read_lane` promises lets neither fail.
        let kept = || {
            Some(Self {
                d,
                k,
                axes,
                start,
                end,
                mode,
                smoothed: Set::used(breaks, coefficients, segments, k)?,
                other: Set::used(other_breaks, other_coefficients, others, d.checked_sub(k)?)?,
            })
        };
        kept().ok_or(PathError::Malformed)
    }

    fn outside(&self, index: usize, value: f64) -> PathError {
        PathError::OutOfRangeS {
            s_min: self.start,
            s_max: self.end,
            index,
            value,
        }
    }

    /// The refusal of a query with this number.
    fn refused(&self, number: u64, index: usize, value: f64) -> PathError {
        match number {
            22 => self.outside(index, value),
            23 => PathError::OrderAboveThree,
            other => PathError::of_request(other, f64::NAN),
        }
    }

    /// One query. As many orders are asked as slices are given.
    pub(crate) fn evaluate(&self, x: f64, out: &mut [&mut [f64]]) -> Result<(), PathError> {
        let (count, [q, dq, ddq, dddq]) = orders(out);
        let Some(order) = count.checked_sub(1) else {
            return Ok(());
        };
        // SAFETY: the function's precondition is that the curve is well formed, and this one is: see `Curve`. Each
        // pointer with its count is a slice that is borrowed for the call, those to be written are borrowed alone.
        let number = unsafe {
            of_curve!(
                pamitoye_evaluate_formed,
                self,
                x,
                order,
                q.as_mut_ptr(),
                q.len(),
                dq.as_mut_ptr(),
                dq.len(),
                ddq.as_mut_ptr(),
                ddq.len(),
                dddq.as_mut_ptr(),
                dddq.len(),
            )
        };
        match number {
            0 => Ok(()),
            number => Err(self.refused(number, 0, x)),
        }
    }

    /// Many queries. As many orders are asked as slices are given.
    pub(crate) fn evaluate_all(&self, xs: &[f64], out: &mut [&mut [f64]]) -> Result<(), PathError> {
        let (count, [q, dq, ddq, dddq]) = orders(out);
        let Some(order) = count.checked_sub(1) else {
            return Ok(());
        };
        let mut refused_at = 0;
        // SAFETY: as in `evaluate`; the place of a refused parameter is a cell of the type that the function names.
        let number = unsafe {
            of_curve!(
                pamitoye_evaluate_all_formed,
                self,
                xs.as_ptr(),
                xs.len(),
                order,
                q.as_mut_ptr(),
                q.len(),
                dq.as_mut_ptr(),
                dq.len(),
                ddq.as_mut_ptr(),
                ddq.len(),
                dddq.as_mut_ptr(),
                dddq.len(),
                &mut refused_at,
            )
        };
        match number {
            0 => Ok(()),
            number => {
                let value = xs.get(refused_at).copied().unwrap_or(f64::NAN);
                Err(self.refused(number, refused_at, value))
            }
        }
    }

    /// The certified figure of an axis at a depth, against the line through these points, if there is one. Where no
    /// parameters are listed, the rule spaces them.
    pub(crate) fn certify(
        &self,
        axis: usize,
        depth: usize,
        points: &[f64],
        parameter_list: Option<&[f64]>,
        rule: Spacing,
    ) -> Result<Option<f64>, PathError> {
        let n = points.len().checked_div(self.d).unwrap_or(0);
        let parameters = parameter_list.unwrap_or_default();
        let spacing = rule.number(parameter_list);
        let (mut given, mut figure) = (false, f64::NAN);
        // SAFETY: the function has no precondition: it refuses what it cannot take. Each pointer with its count is a
        // slice that is borrowed for the call, and the two cells to be written are of the types that it names.
        let number = unsafe {
            of_curve!(
                pamitoye_certify,
                self,
                points.as_ptr(),
                points.len(),
                n,
                spacing,
                parameters.as_ptr(),
                parameters.len(),
                axis,
                depth,
                &mut given,
                &mut figure,
            )
        };
        match number {
            0 => Ok(given.then_some(figure)),
            number => Err(PathError::of_certificate(number).of_spacing(spacing)),
        }
    }
}

#[cfg(test)]
mod tests {
    use super::*;

    /// One axis in two segments that meet at this break, its coefficients 0, and with these widths. It need not be well
    /// formed, so that nothing may be asked of it that relies on that.
    fn two_segments(middle: f64, widths: [f64; 2]) -> Curve {
        Curve {
            d: 1,
            k: 1,
            axes: [0; MAX_AXES],
            start: 0.,
            end: 1.,
            mode: OutOfRangeMode::Clamp,
            smoothed: Set {
                breaks: vec![0., middle, 1.],
                coefficients: [[0.; 12].as_slice(), &widths].concat(),
            },
            other: Set {
                breaks: Vec::new(),
                coefficients: Vec::new(),
            },
        }
    }

    /// A return lane tests 24, then 19, then 29, and none of them writes. Cells behind the used ones are unchanged.
    #[test]
    fn numbers_of_a_return_lane() {
        let formed = two_segments(0.25, [0.25, 0.75]);
        let width = two_segments(1e-300, [1e-300, 1f64.next_down()]);
        let close = two_segments(1e-300, [1e-300, 1.]);
        for (curve, breaks, coefficients, wanted) in [
            (&width, 2, 13, 24),
            (&width, 3, 14, 24),
            (&close, 2, 14, 19),
            (&close, 3, 13, 19),
            (&close, 3, 14, 29),
            (&formed, 2, 14, 19),
            (&formed, 3, 13, 19),
            (&formed, 3, 14, 0),
            (&formed, 5, 20, 0),
        ] {
            let (mut a, mut b) = (vec![-7.; breaks], vec![-7.; coefficients]);
            let (mut c, mut d) = ([-7.; 2], [-7.; 2]);
            assert_eq!(curve.return_lane([&mut a, &mut b, &mut c, &mut d]), wanted);
            let used = if wanted == 0 { (3, 14) } else { (0, 0) };
            assert!(
                a.iter()
                    .skip(used.0)
                    .chain(b.iter().skip(used.1))
                    .all(|x| *x == -7.)
            );
            assert!(c.iter().chain(&d).all(|x| *x == -7.));
            if wanted == 0 {
                assert!(a.starts_with(&[0., 0.75, 1.]));
                assert_eq!(b.get(12..14), Some(&[0.75, 0.25][..]));
            }
        }
        assert_eq!(close.reversed().err(), Some(PathError::NotRising));
        assert_eq!(width.reversed().err(), Some(PathError::Malformed));
    }

    /// Heights test 24, then 3, then 19, then 28, and none of them writes. Cells behind the used ones are unchanged.
    #[test]
    fn numbers_of_heights() {
        let all = 2 * HEIGHTS_PER_SEGMENT;
        let formed = two_segments(0.25, [0.25, 0.75]);
        let width = two_segments(0.25, [0.25, 0.75f64.next_up()]);
        let mut large = formed.clone();
        if let Some(power) = large.smoothed.coefficients.get_mut(6) {
            *power = 20_000f64.next_up();
        }
        for (curve, axis, room, wanted) in [
            (&width, 1, 0, 24),
            (&width, 0, all, 24),
            (&large, 1, 0, 3),
            (&large, usize::MAX, all, 3),
            (&formed, 1, all, 3),
            (&large, 0, all - 1, 19),
            (&formed, 0, 0, 19),
            (&formed, 0, all - 1, 19),
            (&large, 0, all, 28),
            (&formed, 0, all, 0),
            (&formed, 0, all + 9, 0),
        ] {
            let mut heights = vec![-7; room];
            let answer = curve.heights_into(axis, &mut heights);
            assert_eq!(answer.as_ref().err().map_or(0, PathError::number), wanted);
            let used = if wanted == 0 { all } else { 0 };
            let (written, behind) = heights.split_at_checked(used).unwrap_or_default();
            assert!(written.iter().all(|height| *height == 0));
            assert!(behind.iter().all(|height| *height == -7));
        }
        assert_eq!(formed.heights(0).map(|heights| heights.len()), Ok(all));
        assert_eq!(formed.heights(1).err(), Some(PathError::NoSuchAxis));
        assert_eq!(large.heights(0).err(), Some(PathError::HeightTooLarge));
    }

    /// How many bytes the lane file of two segments has: six whole numbers, then two, three and twelve of eight bytes.
    const TWO_SEGMENTS: usize = 6 + 8 * (2 + 3 + 12);

    /// Writing tests 24, then 19, and neither writes. Bytes behind the file are unchanged.
    #[test]
    fn numbers_of_a_written_file() {
        let formed = two_segments(0.25, [0.25, 0.75]);
        let width = two_segments(0.25, [0.25, 0.75f64.next_up()]);
        for (curve, room, wanted) in [
            (&width, 0, 24),
            (&width, TWO_SEGMENTS, 24),
            (&formed, 0, 19),
            (&formed, TWO_SEGMENTS - 1, 19),
            (&formed, TWO_SEGMENTS, 0),
            (&formed, TWO_SEGMENTS + 9, 0),
        ] {
            let mut file = vec![0xa5; room];
            let (number, count) = curve.write_lane(&mut file);
            assert_eq!(number, wanted);
            assert_eq!(count, if wanted == 0 { TWO_SEGMENTS } else { 0 });
            assert!(file.iter().skip(count).all(|byte| *byte == 0xa5));
            if wanted == 0 {
                assert!(file.starts_with(&[1, 1, 0, 1, 2, 0]));
                assert_eq!(curve.to_lane_file().ok().as_deref(), file.get(..count));
            }
        }
        assert_eq!(width.to_lane_file().err(), Some(PathError::Malformed));
    }

    /// Reading tests 27, then 24, then 19, and none of them writes. Cells behind the used ones are unchanged.
    #[test]
    fn numbers_of_a_read_file() {
        let formed = two_segments(0.25, [0.25, 0.75]);
        let file = formed.to_lane_file().unwrap_or_default();
        let cut = file.split_last().map_or(&[][..], |parts| parts.1);
        // The number of segments is the fifth byte: with none of them the file has no breaks, which is 24.
        let none = [[1, 1, 0, 1, 0, 0].as_slice(), &[0; 16]].concat();
        let (file, none) = (file.as_slice(), none.as_slice());
        for (file, breaks, coefficients, wanted) in [
            (cut, 2, 13, 27),
            (cut, 3, 14, 27),
            (none, 0, 0, 24),
            (none, 3, 14, 24),
            (file, 2, 14, 19),
            (file, 3, 13, 19),
            (file, 3, 14, 0),
            (file, 5, 20, 0),
        ] {
            let (mut a, mut b) = (vec![-7.; breaks], vec![-7.; coefficients]);
            let (mut c, mut d) = ([-7.; 2], [-7.; 2]);
            let read = Curve::read_lane(file, [&mut a, &mut b, &mut c, &mut d]);
            assert_eq!(read.as_ref().err().map_or(0, PathError::number), wanted);
            let used = if wanted == 0 { (3, 14) } else { (0, 0) };
            let behind = a.iter().skip(used.0).chain(b.iter().skip(used.1));
            assert!(behind.chain(&c).chain(&d).all(|x| *x == -7.));
            if let Ok(read) = read {
                assert_eq!(read.smoothed.breaks, formed.smoothed.breaks);
                assert_eq!(read.smoothed.coefficients, formed.smoothed.coefficients);
                assert_eq!((read.d, read.k, read.axes), (1, 1, [0; MAX_AXES]));
                assert_eq!((read.range(), read.mode), ((0., 1.), formed.mode));
                assert!(read.other.breaks.is_empty() && read.other.coefficients.is_empty());
            }
        }
    }
}
