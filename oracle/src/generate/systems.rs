//! Cases of the normal system, of `fit` and of `seed`.

use super::splines::{axes, controls, knots};
use super::{traced, traced_where};
use crate::case::{Case, Kind, Row};
use crate::path::smoothing::reach;
use crate::random::{Random, power_of_two};
use crate::request;
use std::array::from_fn;

/// Systems of interpolation, and rows of basis values or of any values on any window.
/// Too few rows give 9 or 10, huge targets 11.
pub fn normal(r: &mut Random) -> Case {
    if r.chance(25) {
        return traced(r, Kind::Normal);
    }
    let d = axes(r);
    let t = knots(r, if d > 3 { 2 } else { 7 });
    let m = t.len() - 6;
    let (a, z) = window(r, 0, m);
    let c = match r.below(3) {
        0 => vec![0.; m * d],
        _ => controls(r, &t, d),
    };
    let count = match r.below(5) {
        0 => r.below(z - a + 1),
        _ => z - a + r.below(3),
    };
    let size = match r.below(12) {
        0 => 1e308,
        1 => power_of_two(-900),
        _ => 1.,
    };
    let mut rows = Vec::new();
    for i in 0..count {
        // The mean of a control's knots, where its basis value is large.
        let control = a + i % (z - a);
        let mean = t[control + 1..control + 6].iter().sum::<f64>() / 5.;
        let x = if r.chance(80) { mean } else { r.unit() };
        rows.push(one_row(r, d, &t, x, size));
    }
    Case::normal(d, a, z, &c, &rows)
}

fn one_row(r: &mut Random, d: usize, t: &[f64], x: f64, size: f64) -> Row {
    let (start, mut basis) = reach::values(t, x);
    if r.chance(10) {
        basis = std::array::from_fn(|_| r.plain());
    }
    let weight = match r.below(40) {
        0 => 0.,
        1 => r.scaled(-1000, -500).abs(),
        2 => r.scaled(500, 1000).abs(),
        _ => r.unit(),
    };
    let target = (0..d).map(|_| r.plain() * size).collect();
    Row {
        start,
        basis,
        weight,
        target,
    }
}

/// A window from `low` to `high`: of one control, at an end, whole, or any.
fn window(r: &mut Random, low: usize, high: usize) -> (usize, usize) {
    let a = r.between(low, high - 1);
    let z = r.between(a + 1, high);
    match r.below(5) {
        0 => (a, a + 1),
        1 => (low, z),
        2 => (a, high),
        3 => (low, high),
        _ => (a, z),
    }
}

/// Steps of real lanes: any, those with a dense span, and refits that leave controls out. And any
/// window on samples of which some stand at knots.
pub fn fit(r: &mut Random) -> Case {
    match r.below(20) {
        0 => crowded(r),
        1..=5 => traced(r, Kind::Fit),
        6..=8 => traced_long(r, |w| w.dense),
        9 | 10 => traced_long(r, |w| w.dense && w.part),
        11 => traced_long(r, |w| w.a > 1),
        _ => any_fit(r),
    }
}

/// A fit of a lane with many waypoints, whose window is as wanted.
fn traced_long(r: &mut Random, wanted: fn(Window) -> bool) -> Case {
    let most = r.pick(&[150, 200, 300, 400]);
    let wanted = |case: &Case| wanted(window_of(case));
    traced_where(r, Kind::Fit, most, request::long_lane, wanted)
}

/// The window of a fit: its first control, whether it leaves out a control that may change, and
/// whether it reaches a dense span.
pub struct Window {
    a: usize,
    part: bool,
    pub dense: bool,
}

pub fn window_of(case: &Case) -> Window {
    let [d, n, a, z, knots] = from_fn(|i| case.whole[i] as usize);
    let (t, m) = (&case.cells[1..=knots], knots - 6);
    let s = &case.cells[1 + knots + m * d..][..n];
    let samples = |left, right| s.iter().filter(|v| left <= **v && **v < right).count();
    Window {
        a,
        part: a > 1 || z < m - 1,
        dense: t[a..=z + 5].windows(2).any(|v| samples(v[0], v[1]) >= 8),
    }
}

/// Any window on any knots. Half have a dense span: in the window, where at times no other is, or
/// next after it, so that the sample at the window's right end is a row.
fn any_fit(r: &mut Random) -> Case {
    let d = r.pick(&[1, 1, 1, 1, 2, 3, 16]);
    let t = knots(r, if d > 3 { 1 } else { 6 });
    let m = t.len() - 6;
    let c = controls(r, &t, d);
    let count = match d {
        1 => r.between(4, 40),
        _ => r.between(1, 10),
    };
    let mut s = samples(r, &t, count);
    let (mut a, mut z) = window(r, 1, m - 1);
    if d < 16 && r.chance(50) {
        let mut span = r.between(a.max(5), (z + 4).min(m - 1));
        if m > 7 && r.chance(40) {
            z = r.between(2, m - 6);
            a = r.between(1, z - 1);
            span = z + 5;
        }
        let (left, width) = (t[span], t[span + 1] - t[span]);
        s.push(left);
        s.extend((0..r.between(7, 9)).map(|_| left + width * r.unit()));
        s.sort_by(f64::total_cmp);
        s.dedup();
    }
    let y = coordinates(r, d, s.len());
    let strength = 0.001 * power_of_two(-2 * r.below(6) as i32);
    Case::fit(d, (a, z), strength, &t, &c, &s, &y)
}

/// A first fit with nearly all waypoints next to 0, on which pivots run out (10).
fn crowded(r: &mut Random) -> Case {
    loop {
        let gap = r.scaled(-30, -20).abs();
        let s: Vec<_> = (0..11).map(|i| f64::from(i) * gap).chain([1.]).collect();
        let mut y = vec![0.; s.len()];
        y[r.between(1, 4)] = 2. + 4. * r.unit();
        let t = [&[0.; 6], &reach::seed(1, &s, &y)[..], &[1.; 6]].concat();
        let m = t.len() - 6;
        let c = vec![0.; m];
        if reach::fit(1, (1, m - 1), 0.001, &t, &c, &s, &y).is_err() {
            return Case::fit(1, (1, m - 1), 0.001, &t, &c, &s, &y);
        }
    }
}

/// Strictly rising from 0 to 1: some of the given places, and `count` others, spread or
/// in a cluster.
pub fn samples(r: &mut Random, places: &[f64], count: usize) -> Vec<f64> {
    let mut s: Vec<f64> = places.iter().copied().filter(|_| r.chance(40)).collect();
    let (low, width) = match r.below(3) {
        0 => (0.8 * r.unit(), 0.2),
        _ => (0., 1.),
    };
    s.extend((0..count).map(|_| low + width * r.unit()));
    s.extend([0., 1.]);
    s.sort_by(f64::total_cmp);
    s.dedup();
    s
}

/// `n` waypoints of `d` coordinates, at times with huge or equal ones.
pub fn coordinates(r: &mut Random, d: usize, n: usize) -> Vec<f64> {
    let size = match r.below(12) {
        0 => 1e307,
        1 => 1e100,
        2 => 0.,
        _ => 3.,
    };
    (0..n * d).map(|_| r.plain() * size).collect()
}

/// Lanes, and corners beside an axis so steep that its slopes overflow. The difference of
/// two infinite slopes is a NaN, which the largest jump must drop; so is an infinite slope
/// less the allowance of a subnormal gap, which the corridor must drop.
pub fn seed(r: &mut Random) -> Case {
    if r.chance(50) {
        return traced(r, Kind::Seed);
    }
    let count = r.between(1, 18);
    let mut s = match r.below(5) {
        0 => close(r),
        _ => samples(r, &[], count),
    };
    if r.chance(25) {
        s.insert(1, 1e-310 * (0.5 + r.unit()));
    }
    let d = r.between(1, 3);
    let mut y = coordinates(r, d, s.len());
    if d > 1 && r.chance(50) {
        let axis = r.below(d);
        for (i, x) in s.iter().enumerate() {
            y[i * d + axis] = 1.7e308 * x.sqrt();
        }
    }
    // `build` hands over finite coordinates only; between infinite ones the source's scan never ends.
    for v in &mut y {
        *v = v.clamp(-f64::MAX, f64::MAX);
    }
    Case::seed(d, &s, &y)
}

/// From 0 to 1 with neighbours a few times 2^-45 apart, the gap at which knots are kept.
fn close(r: &mut Random) -> Vec<f64> {
    let gap = power_of_two(-45);
    let mut s = vec![0., 1.];
    for middle in [0., 0.5, 1.] {
        let places = (-3..=3).map(|i| middle + f64::from(i) * gap);
        s.extend(places.filter(|v| *v > 0. && *v < 1. && r.chance(60)));
    }
    s.sort_by(f64::total_cmp);
    s
}
