//! Cases of every kind from a seed. Cases are small, since lists of them are stored.

mod builds;
mod certificates;
pub mod chords;
mod curves;
mod damage;
pub mod jobs;
pub mod known;
mod leaves;
mod queries;
pub mod returns;
mod splines;
mod systems;

use crate::case::{Case, Kind};
use crate::path::smoothing::reach;
use crate::random::Random;
use crate::refusal::Refusal;
use crate::request::{self, Request};

/// Groups beside those named after a kind: three with lists in any order, certificates with the
/// curves of `build` alone, with a depth and by chords, and requests with little room, also by chords.
/// For `partition_point` with a list in any order the answer depends on how the standard library halves
/// it.
const SPECIAL: [(&str, fn(&mut Random) -> Case); 8] = [
    ("partition_point_le_unsorted", |r| {
        leaves::partition_point(r, Kind::PartitionPointLe, false)
    }),
    ("partition_point_lt_unsorted", |r| {
        leaves::partition_point(r, Kind::PartitionPointLt, false)
    }),
    ("regions_unsorted", |r| splines::regions(r, false)),
    ("certify_built", certificates::certify_built),
    ("certify_deep", certificates::certify_deep),
    ("build_small", builds::build_small),
    ("certify_chord", certificates::certify_chord),
    ("build_chord", builds::build_chord),
];

/// The group of requests with a known end, which no seed changes.
const KNOWN: &str = "build_known";

/// The names of all groups.
pub fn names() -> impl Iterator<Item = &'static str> {
    let kinds = Kind::ALL.iter().map(|k| k.1);
    kinds.chain(SPECIAL.iter().map(|g| g.0)).chain([KNOWN])
}

/// The group `name`: `count` cases drawn from `seed`.
pub fn group(name: &str, seed: u64, count: usize) -> Result<Vec<Case>, String> {
    let mut r = Random::new(seed);
    if name == KNOWN {
        return Ok(builds::build_known(count));
    }
    if let Some(special) = SPECIAL.iter().find(|g| g.0 == name) {
        return Ok((0..count).map(|_| special.1(&mut r)).collect());
    }
    let kind = Kind::ALL.iter().find(|k| k.1 == name);
    let kind = kind.ok_or_else(|| format!("no group is named {name}"))?.0;
    Ok((0..count).map(|_| draw(&mut r, kind)).collect())
}

fn draw(r: &mut Random, kind: Kind) -> Case {
    match kind {
        Kind::Clear | Kind::Abs | Kind::NextUp | Kind::NextDown | Kind::IsFinite => {
            leaves::cells(r, kind)
        }
        Kind::Copy => leaves::copy(r),
        Kind::Sqrt => leaves::sqrt(r),
        Kind::Max | Kind::Min | Kind::TotalCmp => leaves::pairs(r, kind),
        Kind::Powi => leaves::powi(r),
        Kind::PartitionPointLe | Kind::PartitionPointLt => leaves::partition_point(r, kind, true),
        Kind::SortDedup => leaves::sort_dedup(r),
        Kind::Span | Kind::Values => splines::at_parameter(r, kind),
        Kind::Powers => splines::powers(r),
        Kind::Insert => splines::insert(r),
        Kind::Polynomial => splines::polynomial(r),
        Kind::Regions => splines::regions(r, true),
        Kind::Normal => systems::normal(r),
        Kind::Fit => systems::fit(r),
        Kind::Seed => systems::seed(r),
        Kind::Audit => curves::audit(r),
        Kind::Evaluate => curves::evaluate(r),
        Kind::Query => queries::query(r),
        Kind::Queries => queries::queries(r),
        Kind::Reader => queries::reader(r),
        Kind::Returned => returns::returned(r),
        Kind::Certify => certificates::certify(r),
        Kind::Build => builds::build(r),
    }
}

/// How many cells a case may have; small limits are drawn more often.
fn most_cells(r: &mut Random) -> usize {
    r.pick(&[60, 60, 60, 80, 80, 150, 300])
}

/// A step of the given kind with the state that a lane's course of work has before it.
fn traced(r: &mut Random, kind: Kind) -> Case {
    let most = most_cells(r);
    let lane = |r: &mut Random| {
        if r.chance(75) {
            request::small_lane(r)
        } else {
            request::draw(r)
        }
    };
    traced_where(r, kind, most, lane, |_| true)
}

/// The same of a given lane, with at most `most` cells, and as wanted.
fn traced_where(
    r: &mut Random,
    kind: Kind,
    most: usize,
    lane: fn(&mut Random) -> Request,
    wanted: impl Fn(&Case) -> bool,
) -> Case {
    loop {
        let request = lane(r);
        let answer = reach::build(&request).map_err(Refusal::from);
        if answer.is_err_and(|refusal| refusal.number <= 7) {
            continue;
        }
        let mut found = Vec::new();
        // A refusal ends the course of work; the steps before it are kept.
        let _ = reach::trace(&request, &mut |case: Case| {
            if case.kind == kind && case.cells.len() <= most && wanted(&case) {
                found.push(case);
            }
        });
        if !found.is_empty() {
            return found.swap_remove(r.below(found.len()));
        }
    }
}
