//! Cases of `query`, `queries` and `reader`: curves of both modes, orders, lent slices of any length,
//! parameters anywhere, and what is turned away.

use super::curves::made;
use super::damage::damage_curve;
use super::most_cells;
use crate::case::{Case, Curve, Kind};
use crate::path::smoothing::reach;
use crate::query::Queries;
use crate::random::Random;
use crate::request;

/// One query.
pub fn query(r: &mut Random) -> Case {
    draw(r, Kind::Query, |_| 1)
}

/// None up to eight in one call.
pub fn queries(r: &mut Random) -> Case {
    draw(r, Kind::Queries, |r| r.pick(&[0, 1, 2, 2, 3, 4, 5, 8]))
}

/// Two to eight of one reader, in rising or falling order or in any.
pub fn reader(r: &mut Random) -> Case {
    draw(r, Kind::Reader, |r| r.between(2, 8))
}

fn draw(r: &mut Random, kind: Kind, count: fn(&mut Random) -> usize) -> Case {
    let most = 2 * most_cells(r);
    loop {
        let Some(curve) = curve(r) else {
            continue;
        };
        let count = count(r);
        let mut parameters: Vec<_> = (0..count).map(|_| inside(r, &curve)).collect();
        if kind == Kind::Reader {
            match r.below(3) {
                0 => parameters.sort_by(f64::total_cmp),
                1 => parameters.sort_by(|a, b| b.total_cmp(a)),
                _ => {}
            }
        }
        put_outside(r, kind, &curve, &mut parameters);
        let orders = orders(r, kind);
        let needed = curve.d * if kind == Kind::Queries { count } else { 1 };
        // A reader's slices serve its highest order, or in some cases only the first.
        let order = match kind {
            Kind::Reader if r.chance(75) => orders.into_iter().filter(|v| *v < 4).max(),
            _ => Some(orders[0]),
        };
        let lengths = lengths(r, order.unwrap_or(0), needed);
        let mut queries = Queries {
            curve: curve.into(),
            clamp: r.chance(50),
            orders,
            lengths,
            parameters,
        };
        if r.chance(12) {
            damage_curve(r, &mut queries.curve);
        }
        let case = Case::queries(kind, &queries);
        let printed = lengths.iter().sum::<usize>() * if kind == Kind::Reader { count } else { 1 };
        if case.cells.len() <= most && printed <= most {
            return case;
        }
    }
}

/// A curve that `build` returns, or one of any pieces.
fn curve(r: &mut Random) -> Option<Curve> {
    match r.below(4) {
        0 => reach::build(&request::small_lane(r)).ok().map(|b| b.curve),
        1 => reach::build(&request::draw(r)).ok().map(|b| b.curve),
        _ => Some(made(r)),
    }
}

/// A parameter from start to end: an end or next to it, a break or next to it, or any.
fn inside(r: &mut Random, curve: &Curve) -> f64 {
    let (start, end) = (curve.start, curve.end);
    let mut places = curve.selected.breaks.clone();
    places.extend(curve.other.iter().flat_map(|p| &p.breaks));
    let at_break = start + r.pick(&places) * (end - start);
    let x = match r.below(10) {
        0 => start,
        1 => end,
        2 => start.next_up(),
        3 => end.next_down(),
        4 => at_break,
        5 => at_break.next_up(),
        6 => at_break.next_down(),
        _ => start + r.unit() * (end - start),
    };
    x.clamp(start, end)
}

/// Puts some parameters outside: next to an end, far away, infinite, or no number. One query is put
/// outside in half of the cases; of many one or two, so that those before them are inside.
fn put_outside(r: &mut Random, kind: Kind, curve: &Curve, parameters: &mut [f64]) {
    if parameters.is_empty() {
        return;
    }
    let times = match kind {
        Kind::Reader => r.below(4),
        _ => r.pick(&[0, 0, 1, 1, 2]),
    };
    for _ in 0..times {
        let place = r.below(parameters.len());
        parameters[place] = match r.below(8) {
            0 => curve.start.next_down(),
            1 => curve.end.next_up(),
            2 => f64::NEG_INFINITY,
            3 => f64::INFINITY,
            4 => f64::NAN,
            5 => -f64::MAX,
            6 => f64::MAX,
            _ => r.float(),
        };
    }
}

/// Orders 0 to 3, now and then one above.
fn orders(r: &mut Random, kind: Kind) -> [usize; 4] {
    let above: &[usize] = match kind {
        Kind::Reader => &[4, 5, 255],
        _ => &[4, 4, 5, 1 << 20, u32::MAX as usize],
    };
    [(); 4].map(|()| {
        if r.chance(8) {
            r.pick(above)
        } else {
            r.below(4)
        }
    })
}

/// Lengths of the four slices: as needed up to the order asked, or a few more; of any length above it.
/// In one of six cases one of all four is too short, which is refused if it is of an order asked.
fn lengths(r: &mut Random, order: usize, needed: usize) -> [usize; 4] {
    let short = if r.chance(16) { r.below(4) } else { 4 };
    let mut lengths = [0; 4];
    for (i, length) in lengths.iter_mut().enumerate() {
        *length = if i == short {
            needed.saturating_sub(r.pick(&[1, 1, 2, needed]))
        } else if i <= order {
            needed + r.pick(&[0, 0, 1, 3])
        } else {
            r.pick(&[0, 1, needed, needed + 1])
        };
    }
    lengths
}
