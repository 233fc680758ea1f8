//! A smoothed path: built, asked, certified, reversed, given in heights, written and read.

use crate::config::{OutOfRangeMode, SmoothingConfig, SmoothingReport, Spacing};
use crate::curve::Curve;
use crate::error::PathError;
use crate::workspace::{Workspace, cells};

/// Values of a path and the derivatives that were asked for, all with respect to the parameter.
///
/// Each list has the answers of one parameter after the other, an axis after the other within: axis `a` of parameter
/// `i` is cell `i * dim + a`. copp has a matrix with a column for each parameter, whose `as_slice` is the same list.
#[derive(Clone, Debug, Default, PartialEq)]
pub struct PathDerivatives {
    /// Values.
    pub q: Vec<f64>,
    /// First derivatives.
    pub dq: Option<Vec<f64>>,
    /// Second derivatives.
    pub ddq: Option<Vec<f64>>,
    /// Third derivatives.
    pub dddq: Option<Vec<f64>>,
}

/// Waypoints smoothed into quintic segments. An accepted build makes one, a lane file that is read
/// ([`from_lane_file`](Path::from_lane_file)), or [`reversed`](Path::reversed) of another; nothing changes it.
#[derive(Clone, Debug)]
pub struct Path {
    curve: Curve,
    /// The build's; none if the path was reversed or read.
    report: Option<SmoothingReport>,
    /// The rule for certificates without listed parameters: the build's, or even for a path that was read.
    spacing: Spacing,
}

impl Path {
    /// Smooths waypoints within a tolerance.
    ///
    /// `points` are the coordinates, waypoint after waypoint, and `shape` is (axes, waypoints). Of a nalgebra matrix
    /// `m` with a column for each waypoint they are `m.as_slice()` and `m.shape()`.
    ///
    /// On acceptance the curve starts and ends at the first and last waypoint, up to rounding, and each smoothed axis
    /// lies within its tolerance of its line, the straight connection of neighbouring waypoints at the same parameter,
    /// as far as an audit in f64 can tell ([`SmoothingReport::max_errors`]); [`certify`](Path::certify) tells it with
    /// proof. The other axes pass through every waypoint.
    ///
    /// Segments, report and refusals are those of copp's `Path::from_waypoints_fitting`, bit for bit; with
    /// [`Spacing::Chord`] they are those that copp has with [`chord_parameters`] listed.
    ///
    /// # Memory
    ///
    /// Work cells of 8 bytes, (E + 16)·(16d + 32), are allocated for the time of the build, E the larger of the
    /// waypoints and 1,024: 0.4 MB for d 1, 2.4 MB for d 16. If the curve needs more segments than E, the build is
    /// repeated with [`max_segments`](SmoothingConfig::max_segments) in E's place: 7.7 and 46 MB for 20,000. The path
    /// itself keeps only what it uses. Who builds many paths may keep the memory in a [`Workspace`].
    ///
    /// # Errors
    ///
    /// The reason as a [`PathError`]. More axes, waypoints, segments or refinements than [`MAX_AXES`](crate::MAX_AXES)
    /// and its neighbours say are refused before anything is allocated.
    ///
    /// ```
    /// use pamitoye::{Path, PathError, SmoothingConfig};
    ///
    /// let config = SmoothingConfig { tolerance: 1.0.into(), ..Default::default() };
    /// let path = Path::from_waypoints_fitting(&[0.0, 0.95, 0.0], (1, 3), config)?;
    /// assert_eq!(path.smoothing_report().map(|r| r.segments), Some(1));
    ///
    /// let refused = Path::from_waypoints_fitting(&[0.0, 0.95], (1, 3), Default::default());
    /// assert_eq!(refused.err(), Some(PathError::PointCells));
    /// # Ok::<(), PathError>(())
    /// ```
    pub fn from_waypoints_fitting(
        points: &[f64],
        shape: (usize, usize),
        config: SmoothingConfig,
    ) -> Result<Self, PathError> {
        Self::from_waypoints_fitting_in(&mut Workspace::default(), points, shape, &config)
    }

    /// [`from_waypoints_fitting`](Path::from_waypoints_fitting) with memory that is kept from one build to the next.
    ///
    /// # Errors
    ///
    /// As [`from_waypoints_fitting`](Path::from_waypoints_fitting).
    pub fn from_waypoints_fitting_in(
        workspace: &mut Workspace,
        points: &[f64],
        shape: (usize, usize),
        config: &SmoothingConfig,
    ) -> Result<Self, PathError> {
        let (curve, report) = Curve::build(workspace, points, shape, config)?;
        Ok(Self {
            curve,
            report: Some(report),
            spacing: config.spacing,
        })
    }

    /// The lane driven back: the path that has at start + end - t what this one has at t, but for rounding.
    ///
    /// Breaks are 1 minus the old ones in reverse, segments the old ones in reverse, each as the polynomial of 1 minus
    /// its local parameter, in both sets. Range, axes, mode and [`spacing`](Path::spacing) remain. Over exact fractions
    /// it is this path at 1 minus the normalised parameter, which is proved; what rounding does to it is not, so that it
    /// is certified anew, like any path, against the waypoints in reverse: [`reversed_waypoints`] has them and their
    /// parameters. It was not built: the build's report, whose errors are of the way out, is not its own, and it has none.
    ///
    /// # Errors
    ///
    /// [`PathError::NotRising`] (29) alone: two breaks are one number once they are taken from 1, as 0 and 10^-17 are.
    /// Breaks come from the waypoints' parameters, also those of a path that was read: see there for what helps.
    ///
    /// ```
    /// use pamitoye::{Path, PathError, SmoothingConfig, reversed_waypoints};
    ///
    /// // One axis, five waypoints, and their parameters.
    /// let (points, parameters) = ([0.0, 2.0, 2.0, 5.0, 4.0], [1.0, 2.0, 2.5, 4.0, 5.0]);
    /// let config = SmoothingConfig {
    ///     tolerance: 0.1.into(),
    ///     parameters: Some(parameters.to_vec()),
    ///     ..Default::default()
    /// };
    /// let path = Path::from_waypoints_fitting(&points, (1, 5), config)?;
    /// let back = path.reversed()?;
    ///
    /// let out = path.evaluate_up_to_2nd(&[1.0, 2.75, 5.0])?;
    /// let at = back.evaluate_up_to_2nd(&[5.0, 3.25, 1.0])?;
    /// for i in 0..3 {
    ///     assert!((at.q[i] - out.q[i]).abs() < 1e-12);
    /// }
    ///
    /// let (points_back, parameters_back) = reversed_waypoints(&points, 1, Some(&parameters));
    /// assert_eq!(points_back, [4.0, 5.0, 2.0, 2.0, 0.0]);
    /// assert_eq!(parameters_back, [1.0, 2.0, 3.5, 4.0, 5.0]);
    /// let figure = path.certify(0, 0, &points, Some(&parameters))?.unwrap_or(f64::INFINITY);
    /// let anew = back.certify(0, 0, &points_back, Some(&parameters_back))?.unwrap_or(f64::INFINITY);
    /// assert!(anew < 0.11 && (anew - figure).abs() < 1e-12);
    /// assert!(back.smoothing_report().is_none());
    /// # Ok::<(), PathError>(())
    /// ```
    pub fn reversed(&self) -> Result<Self, PathError> {
        let curve = self.curve.reversed()?;
        Ok(Self {
            curve,
            report: None,
            spacing: self.spacing,
        })
    }

    /// The heights of an axis, for a valve that takes whole hundredths, 256 steps to a segment: with coordinates in
    /// millimetres a height of 1 is a hundredth of a millimetre.
    ///
    /// The axis is any of the path's, smoothed or not. Cell `257 * i + j` is the height at step j of segment i, where the local
    /// parameter is j/256; the segments are those of the axis's set, between [`breaks`](Path::breaks) where it is smoothed,
    /// otherwise between [`other_breaks`](Path::other_breaks). Each has [`HEIGHTS_PER_SEGMENT`](crate::HEIGHTS_PER_SEGMENT)
    /// heights, for j from 0 to 256. Step 256 of a segment and step 0 of the next are the same place, and their heights may
    /// differ by the rounding of either's controls.
    ///
    /// The six Bernstein controls of a segment, as the build's audit computes them, are multiplied by 100, rounded once, and
    /// taken to the nearest whole number, halves away from zero. A height is the exact polynomial of these whole controls at
    /// j/256, to the nearest whole number, halves away from zero: it is never further from it than half a hundredth, and never
    /// beyond 2,000,000 in size, which is proved. Whole controls move the polynomial by half a hundredth at most, so that a
    /// height lies within a hundredth of the curve, but for what rounding in f64 does to controls and to a query.
    ///
    /// # Memory
    ///
    /// 1,028 bytes for each segment: 21 MB for 20,000.
    ///
    /// # Errors
    ///
    /// - [`PathError::NoSuchAxis`] (3): the axis is not below [`dim`](Path::dim).
    /// - [`PathError::ShortSlice`] (19): there is no memory for them.
    /// - [`PathError::HeightTooLarge`] (28): a control of any segment, times 100, is not finite or beyond 2,000,000 in size.
    ///   In millimetres that is 20 m; an offset that is subtracted from that coordinate helps.
    ///
    /// ```
    /// use pamitoye::{HEIGHTS_PER_SEGMENT, Path, PathError, SmoothingConfig};
    ///
    /// // Height and speed of three waypoints; height is smoothed, speed passes through each of them.
    /// let points = [0.0, 1.2, 0.95, 1.4, 0.5, 1.3];
    /// let config = SmoothingConfig {
    ///     tolerance: 1.0.into(),
    ///     axes: Some(vec![0]),
    ///     ..Default::default()
    /// };
    /// let path = Path::from_waypoints_fitting(&points, (2, 3), config.clone())?;
    ///
    /// // One segment of height, from 0 to 0.5; a quarter of the way it is 0.125, which is 12.5 hundredths.
    /// let heights = path.heights(0)?;
    /// assert_eq!(heights.len(), HEIGHTS_PER_SEGMENT);
    /// assert_eq!([heights[0], heights[64], heights[128], heights[256]], [0, 13, 25, 50]);
    ///
    /// // Two of speed: the second waypoint is step 256 of the first, and step 0 of the second.
    /// let speed = path.heights(1)?;
    /// assert_eq!(speed.len(), 2 * HEIGHTS_PER_SEGMENT);
    /// assert_eq!([speed[0], speed[256], speed[257], speed[513]], [120, 140, 140, 130]);
    ///
    /// assert_eq!(path.heights(2).err(), Some(PathError::NoSuchAxis));
    /// let far = points.map(|x| x + 20_000.0);
    /// let far = Path::from_waypoints_fitting(&far, (2, 3), config)?;
    /// assert_eq!(far.heights(0).err(), Some(PathError::HeightTooLarge));
    /// # Ok::<(), PathError>(())
    /// ```
    pub fn heights(&self, axis: usize) -> Result<Vec<i32>, PathError> {
        self.curve.heights(axis)
    }

    /// [`heights`](Path::heights) into the first cells of a slice of the caller's. The cells behind them are unchanged.
    /// Nothing is allocated.
    ///
    /// # Errors
    ///
    /// No such axis (3), a slice that is too short (19), a control that is too large (28). Then nothing is written.
    pub fn heights_into(&self, axis: usize, heights: &mut [i32]) -> Result<(), PathError> {
        self.curve.heights_into(axis, heights)
    }

    /// The path's lane file: its curve as bytes, as the second harvester loads it from a card.
    ///
    /// A lane file is, in this order: the number of axes, the number of smoothed axes, these axes, the mode (0 for
    /// [`OutOfRangeMode::Error`], 1 for [`OutOfRangeMode::Clamp`]), the number of segments of the smoothed axes and that of
    /// the others, each in groups of seven bits, low group first, the top bit set on all but the last; then, eight bytes each,
    /// low byte first, the first and the last parameter, [`breaks`](Path::breaks), [`coefficients`](Path::coefficients),
    /// [`other_breaks`](Path::other_breaks) and [`other_coefficients`](Path::other_coefficients). Widths, waypoints,
    /// tolerances, report and [`spacing`](Path::spacing) are not in it.
    ///
    /// [`from_lane_file`](Path::from_lane_file) gives the same curve back, bit by bit, NaNs too. Equal curves, bit by bit, have
    /// equal files, and unequal ones unequal files. All of it is proved of the library.
    ///
    /// # Errors
    ///
    /// [`PathError::ShortSlice`] (19) alone, where there is no memory for the file.
    ///
    /// ```
    /// use pamitoye::{Path, PathError, SmoothingConfig};
    ///
    /// let config = SmoothingConfig { tolerance: 1.0.into(), ..Default::default() };
    /// let path = Path::from_waypoints_fitting(&[0.0, 0.95, 0.0], (1, 3), config)?;
    /// let file = path.to_lane_file()?;
    ///
    /// // One axis, one of it smoothed, axis 0, mode Error, one segment, none of other axes.
    /// assert_eq!(file[..6], [1, 1, 0, 0, 1, 0]);
    /// // From 0 to 1, breaks 0 and 1, and six coefficients.
    /// assert_eq!(file.len(), 6 + 8 * (2 + 2 + 6));
    /// assert_eq!(file[14..22], 1f64.to_le_bytes());
    /// # Ok::<(), PathError>(())
    /// ```
    pub fn to_lane_file(&self) -> Result<Vec<u8>, PathError> {
        self.curve.to_lane_file()
    }

    /// The path of a lane file, all of whose bytes are given: the one that [`to_lane_file`](Path::to_lane_file) wrote, bit by
    /// bit, and [`to_lane_file`](Path::to_lane_file) of it gives the same bytes back.
    ///
    /// It was not built: it has no [report](Path::smoothing_report). A file does not tell how the waypoints' parameters were
    /// spaced, so that its [`spacing`](Path::spacing) is [`Spacing::Even`]: who has the waypoints and certifies it lists the
    /// parameters for [`certify`](Path::certify), those by chord length with [`chord_parameters`]. Coefficients may be any
    /// numbers, NaNs and infinities too; then so are values, and there is no certified figure.
    ///
    /// # Memory
    ///
    /// The path keeps what it uses, about as much as the file; while the file is read, some 2.3 times as much more is
    /// allocated. A file that is refused with 27 or 24 takes no memory, however long it is.
    ///
    /// # Errors
    ///
    /// - [`PathError::DoesNotRead`] (27): a whole number in more than three groups, or with an empty last group behind
    ///   another; a mode above 1; more smoothed axes than axes; bytes missing or left over.
    /// - [`PathError::Malformed`] (24): it reads, but not 1 to [`MAX_AXES`](crate::MAX_AXES) axes; no smoothed axis, one that
    ///   is repeated or that does not exist; not 1 to [`MAX_SEGMENTS`](crate::MAX_SEGMENTS) segments of a set, or segments of
    ///   other axes where there are none; breaks that do not rise strictly from 0 to 1; a range that is not finite or does
    ///   not rise.
    /// - [`PathError::ShortSlice`] (19): there is no memory for it.
    ///
    /// ```
    /// use pamitoye::{Path, PathError, SmoothingConfig};
    ///
    /// let points = [0.0, 2.0, 2.0, 5.0, 4.0];
    /// let config = SmoothingConfig { tolerance: 0.1.into(), ..Default::default() };
    /// let path = Path::from_waypoints_fitting(&points, (1, 5), config)?;
    /// let file = path.to_lane_file()?;
    ///
    /// let read = Path::from_lane_file(&file)?;
    /// assert_eq!(read.evaluate_up_to_3rd(&[0.0, 0.3, 1.0]), path.evaluate_up_to_3rd(&[0.0, 0.3, 1.0]));
    /// assert_eq!(read.certify(0, 0, &points, None), path.certify(0, 0, &points, None));
    /// assert_eq!(read.to_lane_file()?, file);
    /// assert!(read.smoothing_report().is_none());
    ///
    /// let cut = Path::from_lane_file(&file[..file.len() - 1]);
    /// assert_eq!(cut.err(), Some(PathError::DoesNotRead));
    /// # Ok::<(), PathError>(())
    /// ```
    pub fn from_lane_file(file: &[u8]) -> Result<Self, PathError> {
        let curve = Curve::from_lane_file(file)?;
        Ok(Self {
            curve,
            report: None,
            spacing: Spacing::default(),
        })
    }

    /// What the build did; none if the path was not built: [reversed](Path::reversed), or [read](Path::from_lane_file) from a
    /// lane file.
    pub fn smoothing_report(&self) -> Option<&SmoothingReport> {
        self.report.as_ref()
    }

    /// The smoothed axes, in the order in which they were listed: those of the report, where there is one.
    pub fn smoothed_axes(&self) -> &[usize] {
        self.curve.axes()
    }

    /// How many axes the path has, smoothed and others.
    pub fn dim(&self) -> usize {
        self.curve.dim()
    }

    /// The first and the last parameter.
    pub fn s_range(&self) -> (f64, f64) {
        self.curve.range()
    }

    /// What a query outside that range is answered with.
    pub fn out_of_range_mode(&self) -> OutOfRangeMode {
        self.curve.mode()
    }

    /// The rule that spaces the parameters of waypoints where [`certify`](Path::certify) is given none:
    /// [`SmoothingConfig::spacing`] of the build, also where the build's own parameters were listed. A reversed path has
    /// that of the way out. A path that was read from a lane file has [`Spacing::Even`], whatever the waypoints had: the file
    /// does not tell.
    pub fn spacing(&self) -> Spacing {
        self.spacing
    }

    /// Values at these parameters.
    ///
    /// # Errors
    ///
    /// [`PathError::OutOfRangeS`] with the first parameter that is refused.
    ///
    /// ```
    /// # use pamitoye::{Path, PathError, SmoothingConfig};
    /// let config = SmoothingConfig { tolerance: 0.1.into(), ..Default::default() };
    /// let path = Path::from_waypoints_fitting(&[0.0, 5.0, 2.0, 6.0], (2, 2), config)?;
    /// assert_eq!(path.evaluate_q(&[0.0, 0.5, 1.0])?.q, [0.0, 5.0, 1.0, 5.5, 2.0, 6.0]);
    /// assert_eq!(path.evaluate_q(&[0.5, 1.5]).map_err(|e| e.number()), Err(22));
    /// # Ok::<(), PathError>(())
    /// ```
    pub fn evaluate_q(&self, s: &[f64]) -> Result<PathDerivatives, PathError> {
        let mut q = self.room(s)?;
        self.evaluate_into(s, &mut [&mut q])?;
        Ok(PathDerivatives {
            q,
            ..Default::default()
        })
    }

    /// Values, first and second derivatives at these parameters.
    ///
    /// # Errors
    ///
    /// As [`evaluate_q`](Path::evaluate_q).
    pub fn evaluate_up_to_2nd(&self, s: &[f64]) -> Result<PathDerivatives, PathError> {
        let (mut q, mut dq, mut ddq) = (self.room(s)?, self.room(s)?, self.room(s)?);
        self.evaluate_into(s, &mut [&mut q, &mut dq, &mut ddq])?;
        Ok(PathDerivatives {
            q,
            dq: Some(dq),
            ddq: Some(ddq),
            dddq: None,
        })
    }

    /// Values and three derivatives at these parameters.
    ///
    /// # Errors
    ///
    /// As [`evaluate_q`](Path::evaluate_q).
    pub fn evaluate_up_to_3rd(&self, s: &[f64]) -> Result<PathDerivatives, PathError> {
        let (mut q, mut dq, mut ddq) = (self.room(s)?, self.room(s)?, self.room(s)?);
        let mut dddq = self.room(s)?;
        self.evaluate_into(s, &mut [&mut q, &mut dq, &mut ddq, &mut dddq])?;
        Ok(PathDerivatives {
            q,
            dq: Some(dq),
            ddq: Some(ddq),
            dddq: Some(dddq),
        })
    }

    /// The cells of one order for these parameters.
    fn room(&self, s: &[f64]) -> Result<Vec<f64>, PathError> {
        let count = s.len().checked_mul(self.dim());
        cells(count.ok_or(PathError::ShortSlice)?)
    }

    /// Values at these parameters, and as many derivatives as there are further slices, written into slices of the
    /// caller's, with `dim` cells for each parameter as in [`PathDerivatives`]. Nothing is allocated.
    ///
    /// # Errors
    ///
    /// More than four slices (23), a slice that is too short (19), a parameter that is refused (22). Then nothing is
    /// written.
    pub fn evaluate_into(&self, s: &[f64], out: &mut [&mut [f64]]) -> Result<(), PathError> {
        self.curve.evaluate_all(s, out)
    }

    /// [`evaluate_into`](Path::evaluate_into) for one parameter, with `dim` cells in each slice.
    ///
    /// # Errors
    ///
    /// As [`evaluate_into`](Path::evaluate_into).
    ///
    /// ```
    /// # use pamitoye::{Path, PathError};
    /// let path = Path::from_waypoints_fitting(&[1.0, 3.0], (1, 2), Default::default())?;
    /// let (mut q, mut dq) = ([0.0], [0.0]);
    /// path.evaluate_at(0.25, &mut [&mut q, &mut dq])?;
    /// assert_eq!((q, dq), ([1.5], [2.0]));
    /// # Ok::<(), PathError>(())
    /// ```
    pub fn evaluate_at(&self, s: f64, out: &mut [&mut [f64]]) -> Result<(), PathError> {
        self.curve.evaluate(s, out)
    }

    /// A figure that no point of this smoothed axis exceeds in its distance from the line, where there is one.
    ///
    /// `points` are waypoints as in [`from_waypoints_fitting`](Path::from_waypoints_fitting), with the path's axes, and
    /// `parameters` theirs, `None` for those that the path's rule of [`spacing`](Path::spacing) gives these points; both
    /// are, in general, what the path was built from or, of a path that was reversed, what [`reversed_waypoints`] makes of
    /// it. With `None` a reversed path has the rule taken over the points in reverse: by chords the sums then begin at the
    /// lane's other end, and the line's parameters may differ from that list by what is rounded. With `None` a path that was
    /// read from a lane file takes even parameters: where it was built by chords, list [`chord_parameters`].
    ///
    /// The promise, which is proved, is the distance rule: at every exact fraction of the parameter, the curve of the
    /// stored coefficients and the straight line between the two neighbouring waypoints, both taken without any
    /// rounding, differ by at most the figure. Rounding in a query's answer is not in it. The figure may lie above the
    /// tolerance, and above the error in the report.
    ///
    /// `depth`, from 0 to 6, is how often each piece of the curve may be halved to tighten its figure. A deeper figure
    /// is never larger than a shallower one, and is given where that is.
    ///
    /// # Errors
    ///
    /// A depth above 6 (23), too many points (18), points that are not whole waypoints (20), points or parameters that a
    /// build would refuse (1, 5, 6), an axis that is not smoothed (3). `Ok(None)` is no refusal: the end pairs overflowed.
    ///
    /// ```
    /// # use pamitoye::{Path, PathError, SmoothingConfig};
    /// let points = [0.0, 0.95, 0.0];
    /// let config = SmoothingConfig { tolerance: 1.0.into(), ..Default::default() };
    /// let path = Path::from_waypoints_fitting(&points, (1, 3), config)?;
    /// let figure = path.certify(0, 0, &points, None)?.unwrap_or(f64::INFINITY);
    /// assert!((0.95..0.951).contains(&figure));
    /// # Ok::<(), PathError>(())
    /// ```
    pub fn certify(
        &self,
        axis: usize,
        depth: usize,
        points: &[f64],
        parameters: Option<&[f64]>,
    ) -> Result<Option<f64>, PathError> {
        self.curve
            .certify(axis, depth, points, parameters, self.spacing)
    }

    /// The breaks between the smoothed axes' segments, rising from 0 to 1: the parameter less the first one, over the
    /// range.
    pub fn breaks(&self) -> &[f64] {
        let [breaks, _, _] = self.curve.smoothed();
        breaks
    }

    /// The coefficients of the smoothed axes: segment after segment, within it an axis after the other in the order of
    /// [`smoothed_axes`](Path::smoothed_axes), six each, for the powers 0 to 5 of a local parameter that runs from 0 to
    /// 1 over the segment.
    pub fn coefficients(&self) -> &[f64] {
        let [_, coefficients, _] = self.curve.smoothed();
        coefficients
    }

    /// The widths of the smoothed axes' segments, one for each: the rounded difference of its breaks, which queries
    /// divide by.
    pub fn widths(&self) -> &[f64] {
        let [_, _, widths] = self.curve.smoothed();
        widths
    }

    /// The breaks of the axes that are not smoothed; empty if all are.
    pub fn other_breaks(&self) -> &[f64] {
        let [breaks, _, _] = self.curve.other();
        breaks
    }

    /// The coefficients of the axes that are not smoothed, these in rising order; empty if all are.
    pub fn other_coefficients(&self) -> &[f64] {
        let [_, coefficients, _] = self.curve.other();
        coefficients
    }

    /// The [`widths`](Path::widths) of the other axes' segments; empty if all axes are smoothed.
    pub fn other_widths(&self) -> &[f64] {
        let [_, _, widths] = self.curve.other();
        widths
    }
}

/// The waypoints of a lane driven back, for [`Path::certify`] of a [reversed](Path::reversed) path: these points, of so
/// many axes each, in reverse, and parameters listed for them.
///
/// `parameters` are those of the way out, `None` for even ones, [`chord_parameters`] for those by chord length. Where a
/// waypoint's normalised parameter, less the first and over the range, is s, the one listed is first + range · (1 - s),
/// each operation rounded. So the list begins and ends exactly as that of the way out, never falls, and normalised it
/// differs from 1 - s, where the path has its break if there is one at the waypoint, by no more than these roundings.
/// Even parameters are listed too: 1 - i/(n - 1), the breaks' own bits, and not (n - 1 - i)/(n - 1), which may lie beside
/// them.
///
/// Two waypoints in the first half that are no further apart than about 2^-53 of the range may get one parameter; the
/// certificate then refuses the list with 5 or 6, also where no break lies there and the path is reversed. A list that it
/// refuses for the way out it refuses for the way back.
///
/// ```
/// use pamitoye::reversed_waypoints;
///
/// let (points, parameters) = reversed_waypoints(&[1.0, 10.0, 2.0, 20.0, 3.0, 30.0], 2, Some(&[0.0, 1.0, 4.0]));
/// assert_eq!(points, [3.0, 30.0, 2.0, 20.0, 1.0, 10.0]);
/// assert_eq!(parameters, [0.0, 3.0, 4.0]);
/// ```
pub fn reversed_waypoints(
    points: &[f64],
    axes: usize,
    parameters: Option<&[f64]>,
) -> (Vec<f64>, Vec<f64>) {
    let axes = axes.max(1);
    let waypoints = points.chunks(axes);
    let (n, last) = (waypoints.len(), waypoints.len().saturating_sub(1));
    let even = || (0..n).map(|i| i as f64 / last as f64).collect();
    let list = parameters.map_or_else(even, <[f64]>::to_vec);
    let points_back = waypoints.rev().flatten().copied().collect();
    let (start, end) = match list.as_slice() {
        [start, .., end] => (*start, *end),
        _ => return (points_back, list),
    };
    let range = end - start;
    let back = |p: &f64| match 1. - (p - start) / range {
        rest if rest >= 1. => end,
        rest if rest <= 0. => start,
        rest => start + range * rest,
    };
    (points_back, list.iter().rev().map(back).collect())
}

/// The parameters of these waypoints by chord length, of so many axes each: the list that [`Spacing::Chord`] stands for, bit
/// for bit, to plot, to keep, or to hand to [`reversed_waypoints`].
///
/// The first is 0. Each further one is the one before it plus the chord, the root of the sum of the squared differences of all
/// axes, the lowest axis first, each operation rounded to f64.
///
/// The list has one parameter for each whole waypoint: coordinates left over behind them are not read, and with 0 axes there
/// is no waypoint and the list is empty. It is the list of any coordinates, also of those that a build refuses: where two
/// neighbours are at the same place it does not rise, from an infinite chord on it is infinite, and behind a NaN all are
/// NaN.
///
/// ```
/// use pamitoye::{Path, PathError, SmoothingConfig, Spacing, chord_parameters, reversed_waypoints};
///
/// // Two axes, four waypoints: 5, 4 and 7 from one to the next.
/// let points = [0.0, 0.0, 3.0, 4.0, 3.0, 0.0, 10.0, 0.0];
/// let list = chord_parameters(&points, 2);
/// assert_eq!(list, [0.0, 5.0, 9.0, 16.0]);
///
/// let config = SmoothingConfig {
///     tolerance: 0.5.into(),
///     spacing: Spacing::Chord,
///     ..Default::default()
/// };
/// let path = Path::from_waypoints_fitting(&points, (2, 4), config.clone())?;
/// let listed = SmoothingConfig { parameters: Some(list.clone()), ..config.clone() };
/// let same = Path::from_waypoints_fitting(&points, (2, 4), listed)?;
/// assert_eq!(path.s_range(), (0.0, 16.0));
/// assert_eq!(path.coefficients(), same.coefficients());
/// assert_eq!(path.certify(0, 0, &points, None)?, path.certify(0, 0, &points, Some(&list))?);
///
/// let (points_back, list_back) = reversed_waypoints(&points, 2, Some(&list));
/// assert_eq!(list_back, [0.0, 7.0, 11.0, 16.0]);
/// assert!(path.reversed()?.certify(0, 0, &points_back, Some(&list_back))?.is_some());
///
/// // Twice at the same place.
/// let refused = Path::from_waypoints_fitting(&[0.0, 1.0, 1.0, 2.0], (1, 4), config);
/// assert_eq!(refused.err(), Some(PathError::BadChords));
/// # Ok::<(), PathError>(())
/// ```
pub fn chord_parameters(points: &[f64], axes: usize) -> Vec<f64> {
    if axes == 0 {
        return Vec::new();
    }
    let waypoints = points.chunks_exact(axes);
    let pairs = waypoints.clone().zip(waypoints.clone().skip(1));
    let chords = pairs.map(|(from, to)| {
        let squares = from.iter().zip(to).map(|(a, b)| (b - a) * (b - a));
        squares.fold(0., |sum: f64, square| sum + square).sqrt()
    });
    let steps = waypoints.take(1).map(|_| 0.).chain(chords);
    let sums = steps.scan(0., |sum, step| {
        *sum += step;
        Some(*sum)
    });
    sums.collect()
}
