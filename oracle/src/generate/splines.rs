//! Cases of the spline's steps, on knots of all spacings.

use super::traced;
use crate::case::{Case, Kind};
use crate::path::smoothing::reach;
use crate::random::{Random, power_of_two};

/// Open knots on 0 to 1 with at most `most` inside, which rise strictly.
pub fn knots(r: &mut Random, most: usize) -> Vec<f64> {
    let count = r.below(most + 1);
    knots_inside(r, count)
}

/// Open knots with `count` places drawn inside; equal ones and the ends are left out.
fn knots_inside(r: &mut Random, count: usize) -> Vec<f64> {
    let mut inside: Vec<f64> = match r.below(5) {
        0 => (1..=count).map(|i| i as f64 / (count + 1) as f64).collect(),
        1 => {
            let (middle, gap) = (r.unit(), power_of_two(-(r.between(8, 52) as i32)));
            (0..count).map(|_| middle + gap * r.unit()).collect()
        }
        2 => (0..count)
            .map(|_| match r.below(3) {
                0 => power_of_two(-(r.between(1, 1000) as i32)),
                1 => 1. - power_of_two(-(r.between(1, 53) as i32)),
                _ => r.unit(),
            })
            .collect(),
        _ => (0..count).map(|_| r.unit()).collect(),
    };
    inside.retain(|v| *v > 0. && *v < 1.);
    inside.sort_by(f64::total_cmp);
    inside.dedup();
    [&[0.; 6], &inside[..], &[1.; 6]].concat()
}

/// The same knots, at times with one inside repeated, for steps that allow it.
fn knots_repeated(r: &mut Random, most: usize) -> Vec<f64> {
    let mut t = knots(r, most);
    if t.len() > 12 && r.chance(10) {
        let place = r.between(6, t.len() - 7);
        t.insert(place, t[place]);
    }
    t
}

/// A parameter from 0 to 1: a knot, a neighbour of one, a middle, or any.
fn parameter(r: &mut Random, t: &[f64]) -> f64 {
    let place = r.between(5, t.len() - 7);
    match r.below(8) {
        0 | 1 => t[place],
        2 => t[place].next_up(),
        3 => t[place + 1].next_down(),
        4 => (t[place] + t[place + 1]) / 2.,
        5 => r.pick(&[0., 1.]),
        _ => r.unit(),
    }
}

/// A control for each of `d` axes and each basis function.
pub fn controls(r: &mut Random, t: &[f64], d: usize) -> Vec<f64> {
    (0..(t.len() - 6) * d).map(|_| r.plain()).collect()
}

/// Mostly one or two axes, at times up to 16.
pub fn axes(r: &mut Random) -> usize {
    match r.below(10) {
        0..=5 => 1,
        6 | 7 => 2,
        8 => r.between(3, 5),
        _ => r.between(6, 16),
    }
}

pub fn at_parameter(r: &mut Random, kind: Kind) -> Case {
    let t = knots_repeated(r, 12);
    let x = parameter(r, &t);
    Case::at_parameter(kind, &t, x)
}

pub fn powers(r: &mut Random) -> Case {
    let t = knots(r, 10);
    let span = r.between(5, t.len() - 7);
    let (left, h) = (t[span], t[span + 1] - t[span]);
    let x = match r.below(4) {
        0 | 1 => left,
        2 => left + r.unit() * h,
        _ => left + 0.5 * h,
    };
    Case::powers(&t, span, x)
}

/// A knot strictly inside a span.
pub fn insert(r: &mut Random) -> Case {
    if r.chance(40) {
        return traced(r, Kind::Insert);
    }
    let d = axes(r);
    let t = knots(r, if d > 3 { 2 } else { 10 });
    let c = controls(r, &t, d);
    loop {
        let x = parameter(r, &t);
        let span = reach::span(&t, x);
        if t[span] < x && x < t[span + 1] {
            return Case::insert(d, x, &t, &c);
        }
    }
}

pub fn polynomial(r: &mut Random) -> Case {
    if r.chance(40) {
        return traced(r, Kind::Polynomial);
    }
    let d = axes(r);
    let t = knots_repeated(r, if d > 3 { 1 } else { 5 });
    let c = controls(r, &t, d);
    Case::polynomial(d, &t, &c)
}

/// Places in a spline long enough to have windows that do not meet.
pub fn regions(r: &mut Random, sorted: bool) -> Case {
    if sorted && r.chance(40) {
        return traced(r, Kind::Regions);
    }
    let inside = match r.below(3) {
        0 => r.below(20),
        1 => r.between(20, 50),
        _ => r.between(50, 90),
    };
    let t = knots_inside(r, inside);
    let count = r.between(1, 6);
    let mut places: Vec<_> = (0..count).map(|_| parameter(r, &t)).collect();
    if sorted {
        places.sort_by(f64::total_cmp);
    }
    Case::regions(&t, &places)
}
