//! Cases of `returned`: curves with any coefficients, breaks that collapse on the way back, lent slices
//! that are too short or longer, and what is turned away.

use super::damage::damage_curve;
use crate::case::{Case, Curve, Pieces};
use crate::handed::HandedCurve;
use crate::path::smoothing::reach;
use crate::random::{Random, power_of_two};
use crate::request;
use crate::returned::Returning;

/// How many cells a slice has at most.
const MOST: usize = 100;

pub fn returned(r: &mut Random) -> Case {
    Case::returned(&returning(r))
}

pub fn returning(r: &mut Random) -> Returning {
    loop {
        let Some(curve) = curve(r) else {
            continue;
        };
        let mut curve = HandedCurve::from(curve);
        if r.chance(15) {
            damage(r, &mut curve);
        }
        let lengths = lengths(r, curve.counts());
        if lengths.iter().all(|n| *n <= MOST) {
            return Returning { curve, lengths };
        }
    }
}

/// A curve that `build` returns, or one of any pieces, of which some collapse.
fn curve(r: &mut Random) -> Option<Curve> {
    if r.chance(20) {
        let built = reach::build(&request::small_lane(r)).ok()?;
        return Some(built.curve);
    }
    let d = match r.below(4) {
        0 => r.between(5, 16),
        _ => r.between(1, 4),
    };
    let axes = request::selection(r, d);
    let collapses = if r.chance(25) { r.below(2) } else { 2 };
    let selected = pieces(r, axes.len(), collapses == 0);
    let other = (axes.len() < d).then(|| pieces(r, d - axes.len(), collapses == 1));
    let (start, end) = r.pick(&[(0., 1.), (-3.5, 8.25), (0., 1e-310), (-1e307, 1e307)]);
    Some(Curve {
        d,
        axes,
        start,
        end,
        selected,
        other,
    })
}

/// At most six segments, as many as there is room for.
fn pieces(r: &mut Random, axes: usize, collapses: bool) -> Pieces {
    let most = (MOST / (6 * axes + 1)).min(6);
    let segments = r.between(1, most);
    let mut breaks = breaks(r, segments);
    if collapses && breaks.len() <= most {
        collapse(r, &mut breaks);
    }
    if r.chance(10) {
        breaks[0] = -0.;
    }
    let count = 6 * axes * (breaks.len() - 1);
    Pieces {
        breaks,
        coefficients: coefficients(r, count),
    }
}

/// Breaks of at most so many segments: all exact on the way back, even ones, or any.
fn breaks(r: &mut Random, segments: usize) -> Vec<f64> {
    let form = r.below(3);
    let inner = (1..segments).map(|i| match form {
        0 => r.between(1, 63) as f64 / 64.,
        1 => i as f64 / segments as f64,
        _ => r.unit(),
    });
    let mut breaks: Vec<_> = [0., 1.].into_iter().chain(inner).collect();
    breaks.sort_by(f64::total_cmp);
    breaks.dedup();
    breaks
}

/// One break more: so close to 0 that 1 minus it is 1, or next to another one; or the closest that stay
/// apart.
fn collapse(r: &mut Random, breaks: &mut Vec<f64>) {
    let near = r.pick(&breaks[..breaks.len() - 1]);
    let added = match r.below(8) {
        0 => 5e-324,
        1 => 1e-300,
        2 => power_of_two(-60),
        3 => power_of_two(-54),
        4 => power_of_two(-54).next_up(),
        5 => power_of_two(-53),
        _ => near.next_up(),
    };
    breaks.push(added);
    breaks.sort_by(f64::total_cmp);
    breaks.dedup();
}

/// Coefficients as lanes have them, whole ones, huge ones, subnormal ones, zeros of both signs, or any;
/// at times one is odd.
fn coefficients(r: &mut Random, count: usize) -> Vec<f64> {
    let form = r.below(7);
    let mut list: Vec<_> = (0..count)
        .map(|_| match form {
            0 => r.float(),
            1 => r.below(9) as f64 * r.sign(),
            2 => r.plain() * 1e307,
            3 => f64::from_bits(r.next() >> r.between(12, 63)) * r.sign(),
            4 => 0. * r.sign(),
            _ => r.plain(),
        })
        .collect();
    if r.chance(30) {
        let place = r.below(count);
        list[place] = r.pick(&[
            f64::NAN,
            f64::INFINITY,
            f64::NEG_INFINITY,
            1e308,
            -1e308,
            5e-324,
            -0.,
        ]);
    }
    list
}

/// Makes a curve that is not well formed, half of the time by one of its widths.
fn damage(r: &mut Random, curve: &mut HandedCurve) {
    if r.chance(50) {
        return damage_curve(r, curve);
    }
    let other = !curve.other_coefficients.is_empty() && r.chance(50);
    let (list, widths) = if other {
        (&mut curve.other_coefficients, curve.other_segments)
    } else {
        (&mut curve.coefficients, curve.segments)
    };
    let place = list.len() - 1 - r.below(widths);
    let v = list[place];
    list[place] = r.pick(&[v.next_up(), v.next_down(), -v, f64::NAN, -0., 1.5]);
}

/// As many cells as the curve's slices have, or a few more. In one of six cases one slice is too short,
/// by a cell or two or all.
fn lengths(r: &mut Random, counts: [usize; 4]) -> [usize; 4] {
    let short = if r.chance(16) { r.below(4) } else { 4 };
    std::array::from_fn(|i| {
        if i == short {
            counts[i].saturating_sub(r.pick(&[1, 1, 2, counts[i]]))
        } else {
            counts[i] + r.pick(&[0, 0, 0, 1, 3])
        }
    })
}
