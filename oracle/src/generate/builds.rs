//! Requests as cases of `build`.

use super::chords;
use super::known;
use super::most_cells;
use super::systems::window_of;
use crate::case::{Case, Kind};
use crate::path::smoothing::reach;
use crate::random::Random;
use crate::request::{self, Request};

/// What a request is to end in: accepted, as named; a refusal by its number; or any of these.
#[derive(Clone, Copy, PartialEq)]
enum Wanted {
    Refined,
    WithOther,
    Refused(usize),
    Any,
    /// At least three rounds.
    Rounds,
    /// A round with several windows.
    Regions,
    /// A fit with a dense span.
    Dense,
    /// Some axes, not in rising order, with a tolerance each.
    Unordered,
    /// Listed parameters.
    Listed,
    /// A coefficient that is not a number.
    NotANumber,
}

/// The refusals that requests of the domain reach.
const REACHED: [usize; 17] = [1, 2, 3, 4, 5, 6, 7, 8, 9, 10, 11, 13, 14, 15, 16, 17, 26];

/// Those that requests by chords often reach.
const REACHED_BY_CHORDS: [usize; 11] = [1, 2, 3, 4, 6, 8, 9, 10, 14, 15, 26];

/// A request that is small and, if accepted, has a small curve. What it ends in is drawn
/// beforehand, so that a short list has some of each.
pub fn build(r: &mut Random) -> Case {
    let most = most_cells(r);
    let wanted = match r.below(4) {
        0 => Wanted::Refined,
        1 => Wanted::WithOther,
        2 => Wanted::Refused(r.pick(&REACHED)),
        _ => Wanted::Any,
    };
    loop {
        let request = match wanted {
            Wanted::Refused(number) => request::near_refusal(r, number),
            _ => request::draw(r),
        };
        if let Some(case) = wanted.case(&request, most, 4 * most) {
            return case;
        }
    }
}

/// The same with few segments, so that the room is small, with more that is wanted and with 18 to
/// 20. In some the lent slices are longer than they need be.
pub fn build_small(r: &mut Random) -> Case {
    let wanted = match r.below(20) {
        0..=4 => Wanted::Refused(r.pick(&REACHED)),
        5 => Wanted::Refused(r.between(18, 20)),
        6 => Wanted::NotANumber,
        7..=9 => Wanted::Rounds,
        10..=12 => Wanted::Regions,
        13 | 14 => Wanted::Dense,
        15 | 16 => Wanted::Unordered,
        17 | 18 => Wanted::Listed,
        _ => Wanted::Any,
    };
    loop {
        let most = r.pick(&[100, 200, 300, 400]);
        let mut request = match wanted {
            Wanted::Refused(number) => request::near_refusal(r, number),
            Wanted::NotANumber => request::near_refusal(r, 9),
            Wanted::Dense | Wanted::Regions => request::long_lane(r),
            Wanted::Rounds => request::small_lane(r),
            _ => request::draw(r),
        };
        // The lanes known to end in 16 have more than 100 segments then.
        make_small(r, &mut request, wanted == Wanted::Refused(16));
        if let Wanted::Refused(number @ 18..=20) = wanted {
            request::put_outside(r, &mut request, number);
        }
        // Windows stand apart only among many controls.
        let most_of_curve = if wanted == Wanted::Regions { 600 } else { most };
        if let Some(case) = wanted.case(&request, most, most_of_curve) {
            return case;
        }
    }
}

/// At most 100 segments, or 300; in some slices are longer than they need be.
fn make_small(r: &mut Random, request: &mut Request, with_300: bool) {
    let most = if with_300 {
        300
    } else {
        r.pick(&[20, 40, 60, 100])
    };
    let segments = &mut request.config.max_segments;
    *segments = (*segments).min(most);
    if r.chance(20) {
        request.more = std::array::from_fn(|_| r.below(10) as i8);
    }
}

/// Requests by chords, as small as those.
pub fn build_chord(r: &mut Random) -> Case {
    let wanted = match r.below(10) {
        0 | 1 => Wanted::Refused(5),
        2 => Wanted::Refused(r.pick(&REACHED_BY_CHORDS)),
        3 => Wanted::Rounds,
        4 => Wanted::Refined,
        5 | 6 => Wanted::WithOther,
        _ => Wanted::Any,
    };
    loop {
        let most = r.pick(&[100, 200, 300, 400]);
        let mut request = chords::request(r);
        make_small(r, &mut request, false);
        if let Some(case) = wanted.case(&request, most, most) {
            return case;
        }
    }
}

/// The first `count` requests with a known end, over and over.
pub fn build_known(count: usize) -> Vec<Case> {
    let requests = known::requests();
    let requests = requests.iter().cycle().take(count);
    requests.map(|(_, request)| Case::build(request)).collect()
}

impl Wanted {
    /// The case of the request, if it ends as wanted and has no more cells than `most`, and its curve
    /// no more than `most_of_curve`.
    fn case(self, request: &Request, most: usize, most_of_curve: usize) -> Option<Case> {
        let case = Case::build(request);
        let fits = case.cells.len() <= most && self.is_met(request, most_of_curve);
        fits.then_some(case)
    }

    fn is_met(self, request: &Request, most_of_curve: usize) -> bool {
        match request.answer() {
            Ok(built) => {
                let curve = Case::evaluate(&built.curve, &[]).cells;
                let axes = &built.curve.axes;
                curve.len() <= most_of_curve
                    && match self {
                        Wanted::Refined => built.counts[2] > 0,
                        Wanted::WithOther => built.counts[1] > 0,
                        Wanted::Rounds => built.counts[2] >= 3,
                        Wanted::Regions => some_step(request, Kind::Regions, |case| {
                            reach::regions_of(case).len() > 1
                        }),
                        Wanted::Dense => {
                            some_step(request, Kind::Fit, |case| window_of(case).dense)
                        }
                        Wanted::Unordered => !axes.is_sorted() && axes.len() < request.d,
                        Wanted::Listed => request.config.parameters.is_some(),
                        Wanted::NotANumber => curve.iter().any(|v| v.is_nan()),
                        Wanted::Refused(_) => false,
                        Wanted::Any => true,
                    }
            }
            Err(refusal) => self == Wanted::Any || self == Wanted::Refused(refusal.number),
        }
    }
}

/// Whether a step of that kind in the request's course of work is as wanted.
fn some_step(request: &Request, kind: Kind, wanted: impl Fn(&Case) -> bool) -> bool {
    let mut found = false;
    // A refusal ends the course of work; the steps before it count.
    let _ = reach::trace(request, &mut |case: Case| {
        found |= case.kind == kind && wanted(&case);
    });
    found
}
