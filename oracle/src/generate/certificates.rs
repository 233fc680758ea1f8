//! Cases of `certify`: curves with waypoints, and input that is turned away.

use super::chords;
use super::curves::{any_coefficients, breaks};
use super::damage::{HUGE, damage_curve};
use super::most_cells;
use super::systems::{coordinates, samples};
use crate::case::{Case, Pieces};
use crate::certificate::Question;
use crate::handed::HandedCurve;
use crate::path::smoothing::reach;
use crate::random::{Random, power_of_two};
use crate::request::{self, Request};
use crate::spacing::Spacing;

/// Curves that `build` returns with their own waypoints or others, and curves of any pieces; one in
/// three is turned away.
pub fn certify(r: &mut Random) -> Case {
    Case::certify(&question(r))
}

/// The same with a depth, at times one that is turned away.
pub fn certify_deep(r: &mut Random) -> Case {
    let mut question = question(r);
    question.depth = r.pick(&[0, 1, 1, 2, 2, 3, 3, 4, 5, 6, 6, 7, 255]);
    Case::certify(&question)
}

/// The same with parameters that go by the chords, half with a depth; a list that is there is not read.
pub fn certify_chord(r: &mut Random) -> Case {
    let mut question = question_of(r, |r| {
        let request = chords::request(r);
        built_of(r, request)
    });
    question.spacing = Spacing::Chord;
    if question.curve.d == 2 && r.chance(10) {
        let lane = chords::halves(r);
        (question.n, question.points) = (lane.n, lane.points);
    }
    if r.chance(20) {
        chords::move_waypoint(r, &mut question.points, question.curve.d);
    }
    if r.chance(50) {
        question.depth = r.pick(&[1, 1, 2, 2, 3, 4, 5, 6, 7]);
    }
    Case::certify(&question)
}

fn question(r: &mut Random) -> Question {
    question_of(r, built)
}

/// A question on a curve that is built so, or on one of any pieces.
fn question_of(r: &mut Random, built: fn(&mut Random) -> Option<Question>) -> Question {
    let most = 2 * most_cells(r);
    loop {
        let Some(mut question) = (if r.chance(60) {
            built(r)
        } else {
            Some(made(r))
        }) else {
            continue;
        };
        if r.chance(35) {
            change(r, &mut question);
        }
        if r.chance(35) {
            let times = r.pick(&[1, 1, 1, 2, 3]);
            for _ in 0..times {
                let number = r.pick(&[18, 20, 1, 5, 6, 24, 24, 24, 3, 3]);
                damage(r, &mut question, number);
            }
        }
        if Case::certify(&question).cells.len() <= most {
            return question;
        }
    }
}

/// Curves that `build` returns, with their waypoints.
pub fn certify_built(r: &mut Random) -> Case {
    let most = 4 * most_cells(r);
    loop {
        if let Some(question) = built(r) {
            let case = Case::certify(&question);
            if case.cells.len() <= most {
                return case;
            }
        }
    }
}

/// An accepted request and one of its selected axes.
fn built(r: &mut Random) -> Option<Question> {
    let request = if r.chance(50) {
        request::small_lane(r)
    } else {
        request::draw(r)
    };
    built_of(r, request)
}

/// The same of this request.
fn built_of(r: &mut Random, request: Request) -> Option<Question> {
    let curve = reach::build(&request).ok()?.curve;
    Some(Question {
        axis: r.pick(&curve.axes),
        curve: curve.into(),
        n: request.n,
        spacing: request.spacing(),
        points: request.points,
        parameters: request.config.parameters.unwrap_or_default(),
        depth: 0,
    })
}

/// A well-formed curve of any pieces with any waypoints, of which some stand at breaks.
fn made(r: &mut Random) -> Question {
    let d = r.pick(&[1, 1, 1, 2, 2, 3, 4, 16]);
    let axes = request::selection(r, d);
    let k = axes.len();
    let axis = r.pick(&axes);
    let breaks = places(r);
    let segments = breaks.len() - 1;
    let others = if k < d { r.between(1, 3) } else { 0 };
    let other_breaks = (0..=others).map(|i| i as f64 / others as f64);
    let count = r.below(6);
    let s = match r.below(4) {
        0 => breaks.clone(),
        1 => samples(r, &[], count),
        _ => samples(r, &breaks, count),
    };
    let n = s.len();
    let (start, length) = r.pick(&[
        (0., 1.),
        (0., 1.),
        (0., 4.),
        (0., power_of_two(-1000)),
        (-3.5, 12.),
        (1e6, 1.),
        (-1e307, 2e307),
        (0., 1e-310),
    ]);
    let selected = Pieces {
        coefficients: any_coefficients(r, 6 * k * segments),
        breaks,
    };
    let other = Pieces {
        breaks: other_breaks
            .take(if k < d { others + 1 } else { 0 })
            .collect(),
        coefficients: any_coefficients(r, 6 * (d - k) * others),
    };
    let curve = HandedCurve {
        d,
        k,
        axes,
        start,
        end: start + length,
        segments,
        other_segments: others,
        coefficients: selected.with_widths(),
        other_coefficients: other.with_widths(),
        breaks: selected.breaks,
        other_breaks: other.breaks,
    };
    let mut question = Question {
        curve,
        n,
        points: coordinates(r, d, n),
        spacing: if r.chance(75) {
            Spacing::Listed
        } else {
            Spacing::Even
        },
        parameters: s.iter().map(|v| start + v * length).collect(),
        axis,
        depth: 0,
    };
    if r.chance(30) {
        straighten(r, &mut question, &s);
    }
    question
}

/// Strictly rising from 0 to 1: one segment, even ones, any, or some that are tiny.
fn places(r: &mut Random) -> Vec<f64> {
    let count = r.between(1, 5);
    let mut list: Vec<f64> = match r.below(5) {
        0 => vec![0., 1.],
        1 => (0..=count).map(|i| i as f64 / count as f64).collect(),
        2 => breaks(r, 5),
        _ => {
            let middle = r.pick(&[0., 0.5, 0.3, 1.]);
            let width = power_of_two(r.pick(&[-40, -40, -45, -52, -53]));
            let steps = (0..count).map(|i| middle + (i as f64 - 2.) * width);
            let steps = steps.filter(|v| *v > 0. && *v < 1.);
            [0., 1.].into_iter().chain(steps).collect()
        }
    };
    if r.chance(8) {
        let tiny = power_of_two(-(r.between(60, 1022) as i32));
        list.push(r.pick(&[tiny, tiny, 5e-324, 1e-323, 1e-310]));
    }
    list.sort_by(f64::total_cmp);
    list.dedup();
    if r.chance(15) {
        list[0] = -0.;
    }
    list
}

/// Puts the selected axes and their waypoints on one line, so that rounding alone parts them; in
/// some of them next to it. At times all is 0, or next to the smallest or the largest numbers.
fn straighten(r: &mut Random, question: &mut Question, s: &[f64]) {
    let scale = r.pick(&[1., 1., 1., 1., 0., 1e-320, 1e300]);
    let (first, rise) = (r.plain() * scale, r.plain() * scale);
    let noise = scale * r.pick(&[0., 0., power_of_two(-50), 1e-6]);
    question.spacing = Spacing::Listed;
    for v in &mut question.points {
        *v = first;
    }
    for (i, s) in s.iter().enumerate() {
        for axis in &question.curve.axes {
            question.points[i * question.curve.d + axis] += s * rise + noise * r.signed();
        }
    }
    let count = question.curve.rows();
    let rows = question.curve.coefficients[..count].as_chunks_mut().0;
    for (row, p) in rows.iter_mut().enumerate() {
        let m = row / question.curve.k;
        let (a, b) = (question.curve.breaks[m], question.curve.breaks[m + 1]);
        *p = [first + a * rise, (b - a) * rise, 0., 0., 0., 0.];
    }
}

/// Changes a question so that another figure or none is due, or shows what the figure does not
/// depend on.
fn change(r: &mut Random, question: &mut Question) {
    let (d, n) = (question.curve.d, question.n);
    let rows = question.curve.rows();
    let place = r.below(rows);
    let point = r.below(question.points.len());
    match r.below(12) {
        0 => question.curve.coefficients[place] = r.pick(&HUGE),
        1 => question.curve.coefficients[place] = r.float(),
        2 => question.points[point] = r.scaled(900, 1023),
        3 => question.points[point] += r.plain(),
        4 => question.points[point] = question.points[point].next_up(),
        5 => question.points = coordinates(r, d, n),
        6 => question.spacing = Spacing::Even,
        7 => {
            question.spacing = Spacing::Listed;
            question.parameters = request::parameters(r, n);
        }
        8 => {
            for v in &mut question.curve.coefficients[..rows] {
                *v = f64::from_bits(r.next() >> r.between(12, 63)) * r.sign();
            }
        }
        9 => question.curve.breaks[0] = -0.,
        10 => (question.curve.start, question.curve.end) = (-7., 9.5),
        // A segment's end moved to the next number: strictly between two waypoints.
        _ if question.curve.segments > 1 => {
            let place = r.between(1, question.curve.segments - 1);
            question.curve.breaks[place] = question.curve.breaks[place].next_up();
            question.curve.keep_widths();
        }
        _ => {}
    }
}

/// Damages a question so that it is turned away with the number, if with none that comes before.
fn damage(r: &mut Random, question: &mut Question, number: usize) {
    match number {
        18 if r.chance(50) => question.curve.d = r.pick(&[17, 17, 18, 255]),
        18 => question.n = r.pick(&[20_001, 20_001, 1 << 20]),
        20 => match r.below(4) {
            0 => question.points.push(1.),
            1 => question.points.clear(),
            2 => question.n += 1,
            _ => {
                question.points.pop();
            }
        },
        1 => damage_points(r, question),
        5 | 6 => {
            question.spacing = Spacing::Listed;
            question.parameters = request::faulty_parameters(r, question.n.clamp(2, 40));
        }
        24 => damage_curve(r, &mut question.curve),
        // Another axis, or one that is not below d.
        _ => {
            let others = (0..question.curve.d.min(16)).filter(|a| !question.curve.axes.contains(a));
            let others: Vec<_> = others
                .chain([question.curve.d.min(200) + r.below(3)])
                .collect();
            question.axis = r.pick(&others);
        }
    }
}

/// No axis, fewer than two waypoints, or a point of any axis that is not finite.
fn damage_points(r: &mut Random, question: &mut Question) {
    match r.below(4) {
        0 => {
            question.curve.d = 0;
            question.points.clear();
        }
        1 => {
            question.n = r.below(2);
            question.points.truncate(question.curve.d * question.n);
        }
        _ => {
            if !question.points.is_empty() {
                let place = r.below(question.points.len());
                question.points[place] = r.pick(&HUGE[..3]);
            }
        }
    }
}
