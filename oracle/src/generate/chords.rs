//! Requests by chords: lanes of all scales, and waypoints whose chord is 0, is lost in the sum, or is infinite.

use crate::path::smoothing::SmoothingTolerance::{PerAxis, Uniform};
use crate::random::{Random, power_of_two};
use crate::request::{self, Request};

/// A lane of the other generators, most often with a row more, at any scale, at times with waypoints that are moved;
/// or chords next to what their sum can hold.
pub fn request(r: &mut Random) -> Request {
    let mut request = match r.below(10) {
        0 => halves(r),
        1..=4 => request::small_lane(r),
        5 => request::long_lane(r),
        _ => request::draw_any(r),
    };
    if r.chance(60) {
        add_row(r, &mut request);
    }
    scale(r, &mut request);
    if r.chance(35) {
        for _ in 0..r.pick(&[1, 1, 2]) {
            move_waypoint(r, &mut request.points, request.d);
        }
    }
    request.config.parameters = None;
    request.by_chords()
}

/// Chords of about half a unit in the last place of the sum before them; one unit may be lost when the parameters are
/// normalised by a larger last one.
pub fn halves(r: &mut Random) -> Request {
    let size = power_of_two(r.between(0, 80) as i32 - 40);
    let any = 1. + r.unit();
    let sum = size * r.pick(&[1., 1f64.next_up(), 1.5, 1.9, any]);
    let factor = r.pick(&[0.5, 1f64.next_down(), 1., 1f64.next_up(), 1.5, 2., 2., 3.]);
    let step = size * power_of_two(-53) * factor;
    let n = r.between(3, 7);
    let mut rows = [vec![sum; n], vec![0.; n]];
    rows[0][0] = 0.;
    for i in (2..n).step_by(2) {
        rows[1][i] = step;
    }
    if r.chance(50) {
        rows[0][n - 1] = sum * (1.5 + r.unit());
    }
    let axes = r.pick(&[None, Some(0), Some(1)]);
    Request::of_rows(&rows).with(|q| {
        q.config.axes = axes.map(|axis| vec![axis]);
        q.config.tolerance = Uniform(size);
    })
}

/// A row more, at any place, that is not smoothed; in some lanes it alone parts the waypoints.
fn add_row(r: &mut Random, request: &mut Request) {
    let (d, n) = (request.d, request.n);
    if d == 0 || d > 15 || request.points.len() != d * n {
        return;
    }
    let place = r.below(d + 1);
    let size = power_of_two(r.between(0, 60) as i32 - 30);
    let turns = r.chance(50);
    let mut points = Vec::with_capacity((d + 1) * n);
    let mut x = r.signed() * size;
    for waypoint in request.points.chunks_exact(d) {
        points.extend(&waypoint[..place]);
        points.push(x);
        points.extend(&waypoint[place..]);
        x += size * r.unit() * if turns { r.sign() } else { 1. };
    }
    let all = (0..d).collect();
    let axes = request.config.axes.take().unwrap_or(all);
    let axes = axes.into_iter().map(|a| a + usize::from(a >= place));
    request.config.axes = Some(axes.collect());
    request.d = d + 1;
    request.points = points;
}

/// Points and tolerances times a power of two: up to where squares overflow and down to where they are 0, and beyond.
fn scale(r: &mut Random, request: &mut Request) {
    let (low, high) = r.pick(&[
        (0, 0),
        (0, 0),
        (-500, 500),
        (-545, -505),
        (490, 515),
        (-830, 830),
    ]);
    let by = power_of_two(low + r.below((high - low + 1) as usize) as i32);
    request.points.iter_mut().for_each(|x| *x *= by);
    match &mut request.config.tolerance {
        Uniform(x) => *x *= by,
        PerAxis(list) => list.iter_mut().for_each(|x| *x *= by),
    }
}

/// Moves a waypoint to the one before it or next to that, or far away, or makes it no point at all.
pub fn move_waypoint(r: &mut Random, points: &mut [f64], d: usize) {
    let n = points.len().checked_div(d).unwrap_or(0);
    if n < 2 {
        return;
    }
    let i = r.between(1, n - 1);
    let (before, after) = points[(i - 1) * d..(i + 1) * d].split_at_mut(d);
    let row = r.below(d);
    match r.below(12) {
        // Equal, or equal but for one row.
        0 => after.copy_from_slice(before),
        1 | 2 => {
            after.copy_from_slice(before);
            after[row] += r.scaled(-60, 10);
        }
        // Zeros of both signs.
        3 => {
            before.fill(0.);
            after.fill(-0.);
        }
        4 => {
            before.fill(-0.);
            after.fill(0.);
            after[row] = r.pick(&[1., -1., 1e-150, -3e-162, 1e-162, 1e-200]);
        }
        // Squares that are subnormal or 0, of some rows.
        5 | 6 => {
            before.fill(0.);
            after.fill_with(|| r.pick(&[0., 1.]) * r.scaled(-545, -520));
            let (low, high) = r.pick(&[(-540, -536), (-540, -536), (-1022, -500)]);
            after[row] = r.scaled(low, high);
        }
        // A chord that may be lost in the sum before it.
        7 => {
            after.copy_from_slice(before);
            after[row] = r.pick(&[before[row].next_up(), before[row].next_down()]);
        }
        8 => {
            after.copy_from_slice(before);
            after[row] *= 1. + power_of_two(-(r.between(40, 53) as i32));
        }
        // A square or a sum of squares that overflows, or all but.
        9 => after[row] = r.scaled(505, 1023),
        10 => after.fill_with(|| r.scaled(509, 511)),
        _ => after[row] = r.pick(&[f64::NAN, f64::INFINITY, f64::NEG_INFINITY]),
    }
}
