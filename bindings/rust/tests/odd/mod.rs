//! Requests with odd numbers: both zeros, subnormals, infinities, NaN, very large and very small ones, sizes at
//! and above their limits. They are made of the oracle's requests, whose types are those of the crate that includes this.

use crate::path::OutOfRangeMode;
use crate::path::smoothing::SmoothingTolerance;
use crate::random::Random;
use crate::request::{self, Request, draw_any};

/// A number of any kind.
fn odd(r: &mut Random) -> f64 {
    match r.below(4) {
        0 => r.pick(&[0., -0., 5e-324, -5e-324, 1e300, -1e300, 1e-300, -1e-300]),
        1 => r.pick(&[
            f64::NAN,
            f64::INFINITY,
            f64::NEG_INFINITY,
            f64::MAX,
            f64::MIN,
        ]),
        _ => r.float(),
    }
}

/// The oracle's request, at times with numbers or sizes of any kind.
pub fn request(r: &mut Random) -> Request {
    let mut request = draw_any(r);
    if r.chance(50) {
        request.config.out_of_range_mode = OutOfRangeMode::Clamp;
    }
    match r.below(32) {
        0 => request.points.fill_with(|| odd(r)),
        1 => request.points.fill_with(|| finite(r)),
        2 => {
            if let Some(cell) = request.points.last_mut() {
                *cell = odd(r);
            }
        }
        3 => request.config.tolerance = SmoothingTolerance::Uniform(odd(r)),
        4 => {
            let list = (0..r.below(5)).map(|_| odd(r)).collect();
            request.config.tolerance = SmoothingTolerance::PerAxis(list);
        }
        5 => request.config.parameters = Some((0..request.n).map(|_| odd(r)).collect()),
        6 => {
            let mut list: Vec<f64> = (0..request.n).map(|_| finite(r)).collect();
            list.sort_by(f64::total_cmp);
            request.config.parameters = Some(list);
        }
        7 => request.config.axes = Some((0..r.below(20)).map(|_| r.below(18)).collect()),
        8 => request.config.axes = Some(vec![usize::MAX]),
        9 => sizes(r, &mut request),
        10 => {
            let number = r.pick(&[18, 20]);
            request::put_outside(r, &mut request, number);
        }
        _ => {}
    }
    request
}

/// A finite number of any size.
fn finite(r: &mut Random) -> f64 {
    let x = r.float();
    if x.is_finite() { x } else { 0. }
}

/// Sizes at a limit, above it, or as large as can be.
fn sizes(r: &mut Random, request: &mut Request) {
    let size = r.pick(&[0, 1, 16, 17, 200, 201, 20_001, usize::MAX / 2, usize::MAX]);
    match r.below(4) {
        0 => request.d = size,
        1 => request.n = size,
        2 => request.config.max_refinements = size,
        _ => request.config.max_segments = size,
    }
}
