//! Cases of the leaves: numbers over all exponents with the special ones often.

use super::traced;
use crate::case::{Case, Kind};
use crate::random::Random;

fn list(r: &mut Random, most: usize) -> Vec<f64> {
    let count = r.below(most + 1);
    (0..count).map(|_| r.float()).collect()
}

pub fn cells(r: &mut Random, kind: Kind) -> Case {
    Case::cells(kind, &list(r, 12))
}

pub fn copy(r: &mut Random) -> Case {
    let to = list(r, 12);
    let from: Vec<_> = to.iter().map(|_| r.float()).collect();
    Case::copy(&to, &from)
}

pub fn sqrt(r: &mut Random) -> Case {
    let count = r.between(1, 8);
    let root = |_| match r.below(3) {
        0 => r.square(),
        1 => r.square().next_down(),
        _ if r.chance(80) => r.float().abs(),
        _ => r.float(),
    };
    Case::cells(Kind::Sqrt, &(0..count).map(root).collect::<Vec<_>>())
}

/// Pairs, at times of neighbours or of equals. `max` and `min` of zeros of opposite sign
/// are left open by Rust, and the sign of a NaN decides its place in the total order, so
/// neither stands in a list.
pub fn pairs(r: &mut Random, kind: Kind) -> Case {
    let mut pairs = Vec::new();
    for _ in 0..r.between(1, 6) {
        let x = r.float();
        let y = match r.below(6) {
            0 => x,
            1 => -x,
            2 => x.next_up(),
            _ => r.float(),
        };
        let skipped = match kind {
            Kind::TotalCmp => x.is_nan() || y.is_nan(),
            _ => x == 0. && y == 0. && x.to_bits() != y.to_bits(),
        };
        if !skipped {
            pairs.push([x, y]);
        }
    }
    Case::pairs(kind, &pairs)
}

pub fn powi(r: &mut Random) -> Case {
    let exponent = match r.below(8) {
        0..=4 => r.below(8),
        5 => r.below(40),
        6 => r.below(201),
        _ => r.below(5000),
    };
    let count = r.between(1, 6);
    let base = |_| match r.below(4) {
        0 => r.float(),
        1 => 0.25,
        2 => r.unit(),
        _ => r.scaled(-2, 1),
    };
    Case::powi(exponent, &(0..count).map(base).collect::<Vec<_>>())
}

/// A list without NaN and a number often in it. A list that rises has each answer fixed.
pub fn partition_point(r: &mut Random, kind: Kind, sorted: bool) -> Case {
    let count = r.below(24);
    let mut list: Vec<f64> = Vec::new();
    for _ in 0..count {
        match list.last() {
            Some(last) if r.chance(20) => list.push(*last),
            _ if r.chance(70) => list.push(r.unit()),
            _ => list.push(r.float()),
        }
    }
    list.retain(|v| !v.is_nan());
    if sorted {
        list.sort_by(f64::total_cmp);
    }
    let x = match r.below(4) {
        0 | 1 if !list.is_empty() => r.pick(&list),
        2 if !list.is_empty() => r.pick(&list).next_up(),
        _ => r.unit(),
    };
    Case::partition_point(kind, x, &list)
}

/// A list without NaN, with equal numbers and zeros of both signs.
pub fn sort_dedup(r: &mut Random) -> Case {
    if r.chance(30) {
        return traced(r, Kind::SortDedup);
    }
    let mut list = list(r, 16);
    for i in 1..list.len() {
        if r.chance(40) {
            list[i] = list[r.below(i)] * r.sign();
        }
    }
    list.retain(|v| !v.is_nan());
    Case::cells(Kind::SortDedup, &list)
}
