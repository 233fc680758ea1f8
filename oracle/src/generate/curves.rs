//! Cases of piecewise polynomials: `audit` and `evaluate`.

use super::systems::{coordinates, samples};
use super::{most_cells, traced};
use crate::case::{Case, Curve, Kind, Pieces};
use crate::path::smoothing::reach;
use crate::random::Random;
use crate::request;

/// Breaks of at most `most` segments, which rise strictly from 0 to 1.
pub fn breaks(r: &mut Random, most: usize) -> Vec<f64> {
    let count = r.below(most);
    let mut breaks: Vec<_> = (0..count).map(|_| r.unit()).collect();
    breaks.extend([0., 1.]);
    breaks.sort_by(f64::total_cmp);
    breaks.dedup();
    breaks
}

/// Pieces for `d` axes.
fn pieces(r: &mut Random, d: usize, most: usize) -> Pieces {
    let breaks = breaks(r, most);
    let count = 6 * d * (breaks.len() - 1);
    Pieces {
        breaks,
        coefficients: any_coefficients(r, count),
    }
}

/// Coefficients, in a few curves huge ones.
pub fn any_coefficients(r: &mut Random, count: usize) -> Vec<f64> {
    let size = match r.below(8) {
        0 => 1e307,
        1 => 1e150,
        _ => 1.,
    };
    (0..count).map(|_| r.plain() * size).collect()
}

/// Steps of real lanes, and curves of any pieces against waypoints of which some stand at
/// breaks. What the slices hold before is any number, to show which cells stay.
pub fn audit(r: &mut Random) -> Case {
    if r.chance(40) {
        return traced(r, Kind::Audit);
    }
    let d = r.pick(&[1, 1, 1, 1, 2, 2, 3, 5, 16]);
    let most = match d {
        1 | 2 => 4,
        3 | 5 => 2,
        _ => 1,
    };
    let mut p = pieces(r, d, most);
    let count = r.pick(&[1, 2, 4, 10]);
    let s = samples(r, &p.breaks, count);
    let mut y = coordinates(r, d, s.len());
    if r.chance(15) {
        // The same error everywhere: the first of equal peaks gives the witness.
        y.fill(0.);
        for v in p.coefficients.as_chunks_mut().0 {
            *v = [1., 0., 0., 0., 0., 0.];
        }
    }
    if r.chance(6) {
        // Breaks that end before the last waypoint: the only way to number 12.
        for v in &mut p.breaks {
            *v *= 0.75;
        }
    }
    let intervals = s.len() - 1;
    let (first, last) = if r.chance(50) {
        (0, intervals)
    } else {
        let first = r.below(intervals);
        (first, r.between(first, intervals))
    };
    let bounds: Vec<_> = (0..intervals * d).map(|_| r.float()).collect();
    let witness: Vec<_> = (0..intervals).map(|_| r.float()).collect();
    Case::audit(d, (first, last), &p, &s, &y, &bounds, &witness)
}

/// Curves that `build` returns, those with NaN coefficients among them, and curves of any pieces.
pub fn evaluate(r: &mut Random) -> Case {
    let most = most_cells(r);
    loop {
        let curve = match r.below(4) {
            0 => made(r),
            1 => match reach::build(&request::small_lane(r)) {
                Ok(built) => built.curve,
                Err(_) => continue,
            },
            _ => match reach::build(&request::draw(r)) {
                Ok(built) => built.curve,
                Err(_) => continue,
            },
        };
        let queries = queries(r, &curve);
        let case = Case::evaluate(&curve, &queries);
        if case.cells.len() <= 2 * most {
            return case;
        }
    }
}

/// A well-formed curve of any pieces; in some any coefficient may be infinite or a NaN.
pub fn made(r: &mut Random) -> Curve {
    let d = match r.below(3) {
        0 => r.between(1, 16),
        _ => r.between(1, 4),
    };
    let axes = request::selection(r, d);
    let mut selected = pieces(r, axes.len(), 3);
    if r.chance(30) {
        for v in &mut selected.coefficients {
            *v = r.float();
        }
    }
    let other = (axes.len() < d).then(|| pieces(r, d - axes.len(), 3));
    let (start, end) = r.pick(&[
        (0., 1.),
        (-3.5, 8.25),
        (0., 1e-310),
        (1e15, 1e15 + 3.),
        (-1e307, 1e307),
        (-5e-324, 5e-324),
    ]);
    Curve {
        d,
        axes,
        start,
        end,
        selected,
        other,
    }
}

/// Parameters from start to end: the ends, breaks, their neighbours, and any.
fn queries(r: &mut Random, curve: &Curve) -> Vec<f64> {
    let (start, end) = (curve.start, curve.end);
    let mut places = curve.selected.breaks.clone();
    places.extend(curve.other.iter().flat_map(|p| &p.breaks));
    let count = if curve.d > 5 { 1 } else { r.between(1, 4) };
    let query = |_| {
        let at_break = start + r.pick(&places) * (end - start);
        let x = match r.below(8) {
            0 => start,
            1 => end,
            2 => at_break,
            3 => at_break.next_up(),
            4 => at_break.next_down(),
            _ => start + r.unit() * (end - start),
        };
        x.clamp(start, end)
    };
    (0..count).map(query).collect()
}
