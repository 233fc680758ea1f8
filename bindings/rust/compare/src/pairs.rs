//! Pairs of requests, built by the crate and by the source: what a higher limit changes (document 02, request 11), and
//! that rows which are not smoothed do not matter (request 10).

use crate::path::smoothing::SmoothingTolerance;
use crate::path::smoothing::reach::Built;
use crate::random::{Random, power_of_two};
use crate::refusal::Refusal;
use crate::request::{self, Request};
use crate::sides::{alike, build, same};
use crate::tests::{equal, wanted};
use pamitoye::{Path, PathError};
use std::collections::BTreeMap;

/// The crate's answer, which must be the source's.
fn answer(request: &Request) -> Result<Path, PathError> {
    let told: Result<Built, Refusal> = wanted(request);
    match (build(request), told) {
        (Ok(path), Ok(built)) => {
            assert!(equal(&path, &built), "{request:?}");
            Ok(path)
        }
        (Err(error), Err(refusal)) => {
            assert_eq!(error.number(), refusal.number as u64, "{request:?}");
            if let (Some(ratio), PathError::RefinementsUsedUp { ratio: given }) =
                (refusal.ratio, error)
            {
                assert!(same(given, ratio), "{request:?}");
            }
            Err(error)
        }
        (answer, told) => panic!("{request:?}\n{answer:?}\n{told:?}"),
    }
}

fn number(answer: &Result<Path, PathError>) -> u64 {
    answer.as_ref().map_or_else(PathError::number, |_| 0)
}

/// The same cells and counts.
fn agree(a: &Path, b: &Path) -> bool {
    a.dim() == b.dim()
        && selected_agree(a, b)
        && alike(a.other_breaks(), b.other_breaks())
        && alike(a.other_coefficients(), b.other_coefficients())
        && a.s_range() == b.s_range()
}

/// The same of the selected axes, and the same report.
fn selected_agree(a: &Path, b: &Path) -> bool {
    let (x, y) = (a.smoothing_report().unwrap(), b.smoothing_report().unwrap());
    alike(a.breaks(), b.breaks())
        && alike(a.coefficients(), b.coefficients())
        && alike(&x.max_errors, &y.max_errors)
        && x.axes == y.axes
        && x.segments == y.segments
        && x.interpolated_segments == y.interpolated_segments
        && x.refinements == y.refinements
        && x.fitting_rows == y.fitting_rows
        && x.checked_intervals == y.checked_intervals
}

/// A request whose limits may be too low.
fn limited(r: &mut Random) -> Request {
    match r.below(5) {
        0 | 1 => request::draw_any(r),
        2 => request::near_refusal(r, 17),
        _ => request::near_refusal(r, 14),
    }
}

/// The same request with limits that are nowhere lower. Waypoints times refinements are kept small, because the source
/// takes long beyond.
fn raised(r: &mut Random, request: &Request) -> Request {
    let mut higher = request.clone();
    let config = &mut higher.config;
    if r.chance(70) {
        let more = r.pick(&[1, 1, 2, 3, 5, 20, 1000]);
        config.max_segments = (config.max_segments + more).min(20_000);
    }
    if r.chance(70) {
        let most = (1000 / request.n.max(1)).clamp(config.max_refinements, 200);
        let more = r.pick(&[1, 1, 2, 3, 5, 20]);
        config.max_refinements = (config.max_refinements + more).min(most);
    }
    higher
}

/// Pairs that differ in their limits alone: the second answer is the first, unless 8 or 15 and max_segments grew, or
/// 14 and max_refinements grew. How often each number became which is counted.
fn higher_limits(seed: u64, count: usize) -> BTreeMap<(u64, u64), usize> {
    let mut r = Random::new(seed);
    let mut seen = BTreeMap::new();
    for _ in 0..count {
        let first = limited(&mut r);
        let second = raised(&mut r, &first);
        let (a, b) = (answer(&first), answer(&second));
        let segments = first.config.max_segments < second.config.max_segments;
        let refinements = first.config.max_refinements < second.config.max_refinements;
        let may_change = match number(&a) {
            8 | 15 => segments,
            14 => refinements,
            _ => false,
        };
        let unchanged = match (&a, &b) {
            (Ok(a), Ok(b)) => agree(a, b),
            (
                Err(PathError::RefinementsUsedUp { ratio: x }),
                Err(PathError::RefinementsUsedUp { ratio: y }),
            ) => same(*x, *y),
            _ => number(&a) == number(&b) && a.is_err(),
        };
        assert!(unchanged || may_change, "{first:?}\n{second:?}");
        *seen.entry((number(&a), number(&b))).or_insert(0) += 1;
    }
    println!("{count} pairs, as (first, second): {seen:?}");
    seen
}

/// Whether the number became another one at least once.
fn changed(seen: &BTreeMap<(u64, u64), usize>, number: u64) -> bool {
    seen.keys().any(|(a, b)| *a == number && a != b)
}

#[test]
fn higher_limits_change_8_14_and_15_alone() {
    let seen = higher_limits(11, 1500);
    assert!([8, 14, 15].iter().all(|number| changed(&seen, *number)));
}

/// Many more, for a run by hand: `cargo test --release --offline -- --ignored`.
#[test]
#[ignore = "takes a minute"]
fn higher_limits_more() {
    let seen = higher_limits(12, 20_000);
    assert!([8, 14, 15].iter().all(|number| changed(&seen, *number)));
    let others = (0..27).filter(|number| ![8, 14, 15].contains(number));
    assert!(others.into_iter().all(|number| !changed(&seen, number)));
}

/// A request with some axes that are not smoothed.
fn with_other_axes(r: &mut Random) -> Option<Request> {
    let mut request = request::draw_any(r);
    let d = request.d;
    if request.config.axes.is_none() && d > 1 {
        let mut axes = request::selection(r, d);
        axes.truncate(d - 1);
        if let SmoothingTolerance::PerAxis(list) = &mut request.config.tolerance {
            list.truncate(axes.len());
        }
        request.config.axes = Some(axes);
    }
    let listed = request.config.axes.as_ref().map_or(d, Vec::len);
    (listed < d && request.points.len() == d * request.n).then_some(request)
}

/// The same request with other finite numbers in the rows that are not smoothed.
fn with_other_rows(r: &mut Random, request: &Request) -> Request {
    let (mut other, style) = (request.clone(), r.below(5));
    let factor = r.signed() * power_of_two(r.between(0, 40) as i32 - 20);
    let one = r.below(request.points.len().max(1));
    let selected = request.config.axes.clone().unwrap_or_default();
    for (i, x) in other.points.iter_mut().enumerate() {
        if selected.contains(&(i % request.d)) {
            continue;
        }
        *x = match style {
            0 => *x * factor,
            1 => r.signed() * factor,
            2 => r.pick(&[0., -0., 5e-324, -5e-324, 1e-310, 1e300, -1e300, 1.7e308]),
            3 if i != one => *x,
            _ => -*x,
        };
    }
    other
}

/// Accepted pairs that differ in rows which are not smoothed: the same selected segments, the same report and, at each
/// depth, the same figures of the selected axes.
fn other_rows(seed: u64, count: usize) {
    let mut r = Random::new(seed);
    let (mut pairs, mut figures) = (0, 0);
    while pairs < count {
        let Some(first) = with_other_axes(&mut r) else {
            continue;
        };
        let second = with_other_rows(&mut r, &first);
        if bits(&first.points) == bits(&second.points) {
            continue;
        }
        let (Ok(a), Ok(b)) = (answer(&first), answer(&second)) else {
            continue;
        };
        assert!(selected_agree(&a, &b), "{first:?}\n{second:?}");
        let parameters = first.config.parameters.as_deref();
        for axis in &a.smoothing_report().unwrap().axes {
            let depth = r.below(7);
            let figure = |path: &Path, points| path.certify(*axis, depth, points, parameters);
            match (figure(&a, &first.points), figure(&b, &second.points)) {
                (Ok(Some(x)), Ok(Some(y))) => assert!(same(x, y), "{first:?}\n{second:?}"),
                (x, y) => assert_eq!(x, y, "{first:?}\n{second:?}"),
            }
            figures += 1;
        }
        pairs += 1;
    }
    println!("{pairs} pairs with other rows, {figures} figures");
}

fn bits(cells: &[f64]) -> Vec<u64> {
    cells.iter().map(|x| x.to_bits()).collect()
}

/// Accepted pairs that differ in their limits, either way: the same cells and counts.
fn other_limits(seed: u64, count: usize) {
    let mut r = Random::new(seed);
    let (mut pairs, mut lower) = (0, 0);
    while pairs < count {
        let first = limited(&mut r);
        let mut second = raised(&mut r, &first);
        if r.chance(50) {
            let needed = build(&first).map_or(0, |path| path.breaks().len() - 1);
            second.config.max_segments = needed.max(1);
        }
        let (x, y) = (&first.config, &second.config);
        if (x.max_segments, x.max_refinements) == (y.max_segments, y.max_refinements) {
            continue;
        }
        if let (Ok(a), Ok(b)) = (answer(&first), answer(&second)) {
            assert!(agree(&a, &b), "{first:?}\n{second:?}");
            pairs += 1;
            lower += usize::from(second.config.max_segments < first.config.max_segments);
        }
    }
    println!("{pairs} pairs with other limits, {lower} with fewer segments allowed");
}

#[test]
fn rows_that_are_not_smoothed_do_not_matter() {
    other_rows(21, 1000);
    other_limits(22, 1000);
}

/// Many more, for a run by hand.
#[test]
#[ignore = "takes minutes"]
fn rows_that_are_not_smoothed_more() {
    other_rows(23, 10_000);
    other_limits(24, 10_000);
}
