//! Requests for `build`, and their generator.

use crate::path::OutOfRangeMode;
use crate::path::smoothing::{SmoothingConfig, SmoothingTolerance};
use crate::random::{Random, power_of_two, sine};
use crate::spacing::{Spacing, chords};
use std::borrow::Cow;

/// One call of `build`: points waypoint after waypoint, and the configuration.
#[derive(Clone, Debug)]
pub struct Request {
    pub d: usize,
    pub n: usize,
    pub points: Vec<f64>,
    pub config: SmoothingConfig,
    /// Whether parameters that are not listed go by the chords, which the source does not know.
    pub chord: bool,
    /// By how many cells each lent slice is longer than `room` asks, below 0 where it is shorter.
    pub more: [i8; 6],
}

/// Waypoints times refinements are kept below this: the source takes long beyond.
const MOST_WORK: usize = 1000;

impl Request {
    /// A request on these rows, one for each axis, with tolerance 1, even parameters
    /// and the source's default limits.
    pub fn of_rows(rows: &[Vec<f64>]) -> Self {
        let (d, n) = (rows.len(), rows.first().map_or(0, Vec::len));
        Self {
            d,
            n,
            points: (0..d * n).map(|i| rows[i % d][i / d]).collect(),
            config: SmoothingConfig {
                tolerance: SmoothingTolerance::Uniform(1.),
                axes: None,
                parameters: None,
                max_refinements: 20,
                max_segments: 20_000,
                out_of_range_mode: OutOfRangeMode::Error,
            },
            chord: false,
            more: [0; 6],
        }
    }

    /// Axis 0 selected and flat, `row` beside it.
    pub fn flat_beside(row: &[f64]) -> Self {
        let mut request = Self::of_rows(&[vec![0.; row.len()], row.to_vec()]);
        request.config.axes = Some(vec![0]);
        request
    }

    pub fn with(mut self, change: impl Fn(&mut Self)) -> Self {
        change(&mut self);
        self
    }

    pub fn with_parameters(self, list: &[f64]) -> Self {
        self.with(|q| q.config.parameters = Some(list.to_vec()))
    }

    pub fn by_chords(self) -> Self {
        self.with(|q| q.chord = true)
    }

    /// "Listed parameters override both."
    pub fn spacing(&self) -> Spacing {
        match (&self.config.parameters, self.chord) {
            (Some(_), _) => Spacing::Listed,
            (None, true) => Spacing::Chord,
            (None, false) => Spacing::Even,
        }
    }

    /// The same request with its chords listed.
    pub fn listed(&self) -> Self {
        let list = chords(&self.points, self.d, self.n);
        self.clone().with_parameters(&list)
    }

    /// The configuration for the source: "The Rust comparison for version 2 passes it the same parameters as a list."
    pub fn source_config(&self) -> Cow<'_, SmoothingConfig> {
        match self.spacing() {
            Spacing::Chord => Cow::Owned(self.listed().config),
            _ => Cow::Borrowed(&self.config),
        }
    }

    /// Document 01's room in the lent slices: work, breaks, coefficients, other breaks, other
    /// coefficients, errors.
    pub fn room(&self) -> [usize; 6] {
        let (d, n, segments) = (self.d, self.n, self.config.max_segments);
        [
            (n.max(segments) + 16) * (16 * d + 32),
            segments + 1,
            (6 * d + 1) * segments,
            n,
            (6 * d + 1) * n,
            d,
        ]
    }

    /// Document 01's 18, 20 and 19, in this order: they come before the source's own checks.
    pub fn refused_before_source(&self) -> Option<usize> {
        let config = &self.config;
        if self.d > 16 || self.n.max(config.max_segments) > 20_000 || config.max_refinements > 200 {
            return Some(18);
        }
        if self.points.len() != self.d * self.n {
            return Some(20);
        }
        let mut lent = self.room().into_iter().zip(self.more);
        let short = lent.any(|(needed, more)| needed > 0 && more < 0);
        short.then_some(19)
    }

    /// Document 02's 26: whether a coordinate of a smoothed axis exceeds its tolerance times 2^48.
    pub fn is_too_fine(&self) -> bool {
        let all: Vec<_> = (0..self.d).collect();
        let axes = self.config.axes.as_ref().unwrap_or(&all);
        axes.iter().enumerate().any(|(i, axis)| {
            let tolerance = match &self.config.tolerance {
                SmoothingTolerance::Uniform(x) => Some(x),
                SmoothingTolerance::PerAxis(list) => list.get(i),
            };
            let most = tolerance.map_or(f64::NAN, |x| x * 281_474_976_710_656.);
            let row = self.points.iter().skip(*axis).step_by(self.d.max(1));
            row.into_iter().any(|x| x.abs() > most)
        })
    }

    /// How many axes are smoothed.
    fn selected(&self) -> usize {
        self.config.axes.as_ref().map_or(self.d, Vec::len)
    }

    fn limit_work(mut self) -> Self {
        let most = MOST_WORK / self.n.max(1);
        self.config.max_refinements = self.config.max_refinements.min(most);
        self
    }
}

/// Any request: ordinary lanes, lanes near the refusals by the state, and faulty input.
pub fn draw(r: &mut Random) -> Request {
    match r.below(100) {
        0..=11 => faulty(r),
        12..=29 => extreme(r),
        30..=39 => small_limits(r),
        _ => {
            let d = dimension(r);
            let n = waypoints(r);
            lane(r, d, n)
        }
    }
    .limit_work()
}

/// Any request: those, and lanes whose largest numbers 26 lets through.
pub fn draw_any(r: &mut Random) -> Request {
    if r.chance(90) {
        draw(r)
    } else {
        carried(r).limit_work()
    }
}

/// A request from the part of the generator that meets the refusal `number` most often.
pub fn near_refusal(r: &mut Random, number: usize) -> Request {
    match number {
        1..=6 => faulty(r),
        8 | 14 | 15 => small_limits(r),
        7 | 11 | 13 | 16 | 17 => carried(r),
        _ => extreme(r),
    }
    .limit_work()
}

/// Puts the request outside: above the domain, with a lent slice too short, or with point cells that
/// differ from d times n (18, 19, 20).
pub fn put_outside(r: &mut Random, request: &mut Request, number: usize) {
    let config = &mut request.config;
    match number {
        18 => match r.below(4) {
            0 => request.d = r.between(17, 40),
            1 => request.n = r.between(20_001, 30_000),
            2 => config.max_segments = r.between(20_001, 30_000),
            _ => config.max_refinements = r.between(201, 300),
        },
        19 => request.more[r.below(6)] = -(r.between(1, 100) as i8),
        _ if r.chance(50) => request.points.push(0.),
        _ => {
            request.points.pop();
        }
    }
}

/// A lane small enough to store the states of its steps, mostly one that is fitted.
pub fn small_lane(r: &mut Random) -> Request {
    let d = r.pick(&[1, 1, 1, 2, 2, 3]);
    let n = match r.below(4) {
        0 => r.between(2, 6),
        1 => r.between(3, 12),
        _ => r.between(10, 40),
    };
    let mut request = lane(r, d, n);
    request.config.max_refinements = r.between(0, 8);
    request.limit_work()
}

/// A lane of few axes with many waypoints, whose fits have dense spans, and windows that leave
/// controls out.
pub fn long_lane(r: &mut Random) -> Request {
    let d = r.pick(&[1, 1, 1, 1, 2, 3]);
    let n = r.between(12, 110 / d);
    let mut request = lane(r, d, n);
    request.config.max_refinements = r.between(0, 8);
    request.limit_work()
}

fn dimension(r: &mut Random) -> usize {
    match r.below(10) {
        0..=4 => 1,
        5 | 6 => 2,
        7 | 8 => r.between(3, 5),
        _ => r.between(6, 16),
    }
}

fn waypoints(r: &mut Random) -> usize {
    match r.below(20) {
        0..=9 => r.between(2, 7),
        10..=15 => r.between(8, 18),
        16..=18 => r.between(19, 45),
        _ => r.between(46, 120),
    }
}

/// A valid request on `d` rows of `n` waypoints, drawn from all shapes.
fn lane(r: &mut Random, d: usize, n: usize) -> Request {
    let scale = match r.below(12) {
        0 => power_of_two(r.between(20, 60) as i32),
        1 => power_of_two(-(r.between(20, 60) as i32)),
        2 => power_of_two(r.between(200, 900) as i32),
        3 => power_of_two(-(r.between(200, 1000) as i32)),
        _ => 1.,
    };
    let ratio = r.pick(&[0.4, 1., 3., 10., 10., 30., 30., 100., 100., 1e3, 1e4, 1e6]);
    let rows: Vec<_> = (0..d).map(|_| row(r, n, scale)).collect();
    let mut request = Request::of_rows(&rows);
    if r.chance(45) {
        request.config.axes = Some(selection(r, d));
    }
    request.config.tolerance = if r.chance(60) {
        SmoothingTolerance::Uniform(scale / ratio)
    } else {
        let count = request.selected();
        let list = (0..count).map(|_| scale / ratio * (0.5 + r.unit()));
        SmoothingTolerance::PerAxis(list.collect())
    };
    if r.chance(45) {
        request.config.parameters = Some(parameters(r, n));
    }
    request.config.max_refinements = match r.below(8) {
        0 => r.below(3),
        1 => r.between(30, 200),
        _ => 20,
    };
    request.config.max_segments = r.pick(&[100, 300, 1000, 20_000]);
    request
}

/// Some of the axes below `d`, at least one, in any order.
pub fn selection(r: &mut Random, d: usize) -> Vec<usize> {
    let mut axes: Vec<_> = (0..d).collect();
    for i in (1..d).rev() {
        axes.swap(i, r.below(i + 1));
    }
    axes.truncate(r.between(1, d));
    axes
}

/// One row of `n` coordinates of about the size `scale`.
fn row(r: &mut Random, n: usize, scale: f64) -> Vec<f64> {
    let at = |i: usize| i as f64 / (n.max(2) - 1) as f64;
    let offset = if r.chance(50) { 0. } else { r.signed() };
    let noise = r.pick(&[0., 0., 1e-4, 1e-3, 0.02]);
    let (a, b) = (r.signed(), r.unit());
    let shape: Vec<f64> = match r.below(12) {
        0 => vec![a; n],
        1 => (0..n).map(|i| a * at(i)).collect(),
        2 => (0..n).map(|i| a * (at(i) - b).abs()).collect(),
        3 => (0..n).map(|i| a * (i % 2) as f64).collect(),
        4 | 5 => {
            let waves = r.pick(&[0.5, 1., 1., 2., 3., 5.]);
            (0..n).map(|i| a * sine(waves * at(i) + b)).collect()
        }
        6 => (0..n).map(|i| if at(i) < b { 0. } else { a }).collect(),
        7 => (0..n).map(|_| r.signed()).collect(),
        8 => {
            let place = r.below(n);
            (0..n).map(|i| if i == place { a } else { 0. }).collect()
        }
        9 => {
            let mut v = 0.;
            (0..n)
                .map(|_| {
                    v += 0.3 * r.signed();
                    v
                })
                .collect()
        }
        10 => (0..n).map(|i| a * at(i) * at(i) * (b - at(i))).collect(),
        _ => {
            let tiny = [0., -0., 5e-324, -5e-324, 1e-310, -1e-310, 2.3e-308, 1., -1.];
            return (0..n).map(|_| r.pick(&tiny)).collect();
        }
    };
    let repeat = r.chance(15);
    let mut out: Vec<f64> = Vec::new();
    for v in shape {
        match out.last() {
            Some(last) if repeat && r.chance(40) => out.push(*last),
            _ => out.push((offset + v + noise * r.signed()) * scale),
        }
    }
    out
}

/// Listed parameters that rise strictly before they are normalised.
pub fn parameters(r: &mut Random, n: usize) -> Vec<f64> {
    let start = r.pick(&[0., 0., -3.5, 100., 1e6]);
    let (mut x, style) = (start, r.below(10));
    let step = r.scaled(-6, 3).abs();
    let mut list = Vec::new();
    for i in 0..n {
        list.push(x);
        let gap = match style {
            0..=3 => 0.1 + r.unit(),
            4 => step,
            5 | 6 => r.unit() * power_of_two(-(r.below(12) as i32)),
            7 => r.unit() * power_of_two(-(r.below(44) as i32)),
            8 => r.unit() * power_of_two(-(r.below(70) as i32)),
            _ if i % 3 == 1 => 1e-12 * r.unit(),
            _ => 1.,
        };
        x = (x + gap).max(x.next_up());
    }
    match r.below(20) {
        0 => list.iter().map(|v| v * 1e-320).collect(),
        1 => list.iter().map(|v| v * 1e300).collect(),
        2 => list.iter().map(|v| v * power_of_two(-200)).collect(),
        _ => list,
    }
}

/// A fitted lane with limits that it may not keep.
fn small_limits(r: &mut Random) -> Request {
    let (d, n) = (r.between(1, 3), r.between(3, 20));
    let mut request = lane(r, d, n);
    request.config.max_refinements = r.below(5);
    request.config.max_segments = match r.below(3) {
        0 => r.below(5),
        1 => r.between(3, 12),
        _ => r.between(10, 60),
    };
    request
}

/// Input that is turned away, or all but; each refusal from 1 to 7.
fn faulty(r: &mut Random) -> Request {
    let (d, n) = (r.between(1, 4), r.between(2, 6));
    let mut request = lane(r, d, n);
    match r.below(14) {
        0..=2 => faulty_points(r, &mut request),
        3 => request.config.axes = Some(Vec::new()),
        4 => request.config.axes = Some(faulty_selection(r, d)),
        5..=7 => request.config.tolerance = faulty_tolerance(r, request.selected()),
        8..=11 => request.config.parameters = Some(faulty_parameters(r, n)),
        12 => {
            request.points[0] = -1.7e308;
            request.points[r.below(d * n)] = 1.7e308;
        }
        _ => {
            request.points.fill_with(|| 1e308 * r.signed());
            request.config.tolerance = SmoothingTolerance::Uniform(r.unit());
        }
    }
    request
}

/// No axis, fewer than two waypoints, or a point that is not finite.
fn faulty_points(r: &mut Random, request: &mut Request) {
    match r.below(3) {
        0 => {
            request.d = 0;
            request.points.clear();
        }
        1 => {
            request.n = r.below(2);
            request.points.truncate(request.d * request.n);
        }
        _ => {
            let place = r.below(request.points.len());
            request.points[place] = r.pick(&[f64::NAN, f64::INFINITY, f64::NEG_INFINITY]);
        }
    }
}

/// An axis twice, or one that is not below `d`.
fn faulty_selection(r: &mut Random, d: usize) -> Vec<usize> {
    let mut axes = selection(r, d);
    let extra = if r.chance(50) {
        r.pick(&axes)
    } else {
        d + r.below(4)
    };
    axes.insert(r.below(axes.len() + 1), extra);
    axes
}

/// A tolerance that is not finite and above 0, or a list that may be of the wrong length.
fn faulty_tolerance(r: &mut Random, axes: usize) -> SmoothingTolerance {
    let faulty = [0., -0., -1., f64::NAN, f64::INFINITY, f64::NEG_INFINITY];
    if r.chance(60) {
        return SmoothingTolerance::Uniform(r.pick(&faulty));
    }
    let mut list = vec![1.; r.between(axes - 1, axes + 2)];
    match list.last_mut() {
        Some(last) if r.chance(50) => *last = r.pick(&faulty),
        _ => {}
    }
    SmoothingTolerance::PerAxis(list)
}

/// Parameters that do not rise, once normalised at the latest, or not `n` of them.
pub fn faulty_parameters(r: &mut Random, n: usize) -> Vec<f64> {
    let mut list = parameters(r, n);
    match r.below(8) {
        0 => list.push(1e9),
        1 => list.truncate(n - 1),
        2 => list[n - 1] = r.pick(&[f64::NAN, f64::INFINITY]),
        3 => list[n - 1] = list[n - 2],
        4 | 5 => {
            list[0] = -1.5e308;
            list[n - 1] = 1.5e308;
        }
        _ => {
            list = (0..n).map(|i| i as f64 * 5e-324).collect();
            list[n - 1] = 1e10;
        }
    }
    list
}

/// The number itself, or one of about its size.
fn near(r: &mut Random, v: f64) -> f64 {
    if r.chance(50) {
        v
    } else {
        v * (0.5 + r.unit())
    }
}

/// Lanes on which the numbers run out, around the smallest inputs known for each refusal.
fn extreme(r: &mut Random) -> Request {
    match r.below(14) {
        // Axes not selected, with waypoints close together: 9, 10.
        0 => {
            Request::flat_beside(&[0., r.signed(), 0.]).with_parameters(&[0., near(r, 1e-100), 1.])
        }
        1 => Request::flat_beside(&[0., r.signed(), r.signed(), 1.]).with_parameters(&[
            0.,
            near(r, power_of_two(-28)),
            power_of_two(-14),
            1.,
        ]),
        // The same in the first fit: 10.
        2 => {
            let mut row = vec![0.; 12];
            row[r.between(1, 4)] = 5. * r.signed();
            let gap = near(r, 1e-7);
            let list: Vec<_> = (0..11).map(|i| f64::from(i) * gap).chain([1.]).collect();
            Request::of_rows(&[row]).with_parameters(&list)
        }
        // Large jumps: 11, 13, and 16 after many refinements.
        3 => Request::of_rows(&[vec![0., 0., near(r, 1e305)]]),
        4 => Request::of_rows(&[vec![0., near(r, 1e300), 0.]]),
        5 => {
            let mut request = Request::of_rows(&[vec![0., 0., near(r, 1e16)]]);
            request.config.max_refinements = 200;
            request
        }
        // Large coordinates: 17, and accepted curves with NaN coefficients.
        6 => Request::of_rows(&[vec![near(r, 1e300); r.between(2, 4)]]),
        7 => Request::flat_beside(&vec![near(r, 1e306); r.between(3, 6)]),
        // A range whose reciprocal overflows.
        8 => {
            let row: Vec<_> = (0..r.between(2, 4)).map(|_| r.signed()).collect();
            let gap = near(r, 1e-310);
            let list: Vec<_> = (0..row.len()).map(|i| i as f64 * gap).collect();
            Request::of_rows(&[row]).with_parameters(&list)
        }
        // A straight lane that the audit's rounding may refine: 14.
        9 => {
            let size = power_of_two(r.between(40, 60) as i32);
            Request::of_rows(&[vec![0., size * r.unit()]])
        }
        10 => threshold(r),
        11 => smallest(r),
        // A corner with few segments and refinements: 8, 14, 15.
        12 => {
            let mut request = Request::of_rows(&[vec![0., 1., 0.]]);
            request.config.tolerance = SmoothingTolerance::Uniform(near(r, 1e-3));
            request.config.max_segments = r.between(2, 9);
            request.config.max_refinements = r.below(3);
            request
        }
        _ => {
            let row = (0..r.between(2, 8)).map(|_| r.scaled(900, 1022)).collect();
            let mut request = Request::of_rows(&[row]);
            let tolerance = r.scaled(850, 1000).abs();
            request.config.tolerance = SmoothingTolerance::Uniform(tolerance);
            request
        }
    }
}

/// Lanes of the largest numbers that 26 lets through, around the smallest inputs known for 7, 11, 13,
/// 16 and 17; and coordinates at and next to its bound.
fn carried(r: &mut Random) -> Request {
    let wide = |r: &mut Random| (1.7 - 0.5 * r.unit()) * 1e308;
    match r.below(6) {
        // A difference that overflows: 7, and 11 beside a smoothed axis.
        0 => {
            let rows = [vec![-wide(r), wide(r)]];
            let tolerance = 1e294 * near(r, 1e3);
            Request::of_rows(&rows)
                .with(|q| q.config.tolerance = SmoothingTolerance::Uniform(tolerance))
        }
        1 => Request::flat_beside(&[-wide(r), wide(r)]),
        // A corner whose coefficients overflow in physical units: 13.
        2 => {
            let height = near(r, 1e306);
            let mut request = Request::of_rows(&[vec![0., height, 0.]]);
            let tolerance = height / r.between(2, 40) as f64;
            request.config.tolerance = SmoothingTolerance::Uniform(tolerance);
            request
        }
        // A spike and a fine tolerance: 16 after many refinements.
        3 => {
            let mut request = Request::of_rows(&[vec![0., 0., near(r, 1.), 0., 0.]]);
            let tolerance = power_of_two(-(r.between(38, 47) as i32));
            request.config.tolerance = SmoothingTolerance::Uniform(tolerance);
            request.config.max_refinements = 200;
            request.config.max_segments = 300;
            request
        }
        // Far from 0: 17.
        4 => {
            let x = power_of_two(47) * (1. + r.unit());
            let steps = r.pick(&[0., 0., 1., 3.]);
            let row = (0..r.between(2, 6)).map(|_| x + steps * r.signed());
            Request::of_rows(&[row.collect()])
        }
        // At the bound of 26.
        _ => {
            let tolerance = r.scaled(-1074, 1000).abs().max(5e-324);
            let most = tolerance * power_of_two(48);
            let most = r.pick(&[most, most.next_up(), most.next_down()]) * r.sign();
            let most = most.clamp(-f64::MAX, f64::MAX);
            let row = vec![r.pick(&[0., most, -most]), most];
            let mut request = Request::of_rows(&[row]);
            request.config.tolerance = SmoothingTolerance::Uniform(tolerance);
            request
        }
    }
}

/// A corner at the bound of 0.95 for a straight curve, or next to it.
fn threshold(r: &mut Random) -> Request {
    let height = r.pick(&[0.95, 0.95f64.next_up(), 0.95f64.next_down(), 0.96, 1.]);
    let scale = power_of_two(r.below(9) as i32);
    let mut request = Request::of_rows(&[vec![0., height * scale * r.sign(), 0.]]);
    request.config.tolerance = SmoothingTolerance::Uniform(scale);
    request
}

/// Coordinates and a tolerance of a few times the smallest number: rounding can make the
/// final error equal to the tolerance.
fn smallest(r: &mut Random) -> Request {
    let row = (0..r.between(2, 6)).map(|_| f64::from_bits(r.next() % 5));
    let mut request = Request::of_rows(&[row.collect()]);
    let tolerance = f64::from_bits(1 + r.next() % 4);
    request.config.tolerance = SmoothingTolerance::Uniform(tolerance);
    request
}
