//! The certificate at depth 0 and above: the port's `certify` against the oracle's own computation from the documents,
//! bit for bit; then in time against the same formula in C++ with Boost.Interval, where that is there (`boost.cpp`), and
//! against the port's `build` of the same curve.
use crate::builds::{self, Lent, Shape};
use crate::certificate::{Certificate, Question};
use crate::chords;
use crate::declared::{declared, spacing_number};
use crate::handed::HandedCurve;
use crate::numbers::{number, same};
use crate::path::smoothing::reach;
use crate::random::Random;
use crate::request::Request;
use crate::spacing;
use std::hint::black_box;
use std::time::Duration;

declared! {
    pamitoye_certify(
        points: *const f64, points_len: usize, n: usize, spacing: u64,
        parameters: *const f64, parameters_len: usize, axis: usize, depth: usize,
        given: *mut bool, figure: *mut f64,
    ) -> u64;
}

/// Boost's figure of an axis, and the number of its intersections.
#[cfg(boost)]
fn boost(question: &Question) -> Option<(f64, usize)> {
    unsafe extern "C" {
        fn boost_certify(
            breaks: *const f64,
            segments: usize,
            coefficients: *const f64,
            d: usize,
            axis: usize,
            points: *const f64,
            n: usize,
            pieces: *mut usize,
        ) -> f64;
    }
    let curve = &question.curve;
    let mut pieces = 0;
    let figure = unsafe {
        boost_certify(
            curve.breaks.as_ptr(),
            curve.segments,
            curve.coefficients.as_ptr(),
            curve.d,
            question.axis,
            question.points.as_ptr(),
            question.n,
            &mut pieces,
        )
    };
    Some((figure, pieces))
}

#[cfg(not(boost))]
fn boost(_: &Question) -> Option<(f64, usize)> {
    None
}

/// What `given` and `figure` hold before a call.
const MARK: f64 = -6.0221407623e-123;

/// The port's `certify`. A refusal must leave both results as they were.
pub fn certify(question: &Question) -> Certificate {
    certify_as(question, spacing_number(question.spacing))
}

/// The same with this number for the spacing.
fn certify_as(question: &Question, spacing: u64) -> Certificate {
    let curve = &question.curve;
    let mut axes = [0; 16];
    for (to, from) in axes.iter_mut().zip(&curve.axes) {
        *to = *from;
    }
    let (mut given, mut figure) = (false, MARK);
    let number = unsafe {
        pamitoye_certify(
            curve.d,
            curve.k,
            &axes,
            curve.start,
            curve.end,
            false,
            curve.segments,
            curve.other_segments,
            curve.breaks.as_ptr(),
            curve.breaks.len(),
            curve.coefficients.as_ptr(),
            curve.coefficients.len(),
            curve.other_breaks.as_ptr(),
            curve.other_breaks.len(),
            curve.other_coefficients.as_ptr(),
            curve.other_coefficients.len(),
            question.points.as_ptr(),
            question.points.len(),
            question.n,
            spacing,
            question.parameters.as_ptr(),
            question.parameters.len(),
            question.axis,
            question.depth,
            &mut given,
            &mut figure,
        )
    };
    match (number, given) {
        (0, true) => Certificate::Figure(figure),
        (0, false) => Certificate::None,
        _ => Certificate::Refused(number as usize),
    }
}

pub fn alike(a: Certificate, b: Certificate) -> bool {
    match (a, b) {
        (Certificate::Figure(a), Certificate::Figure(b)) => same(a, b),
        (Certificate::None, Certificate::None) => true,
        (Certificate::Refused(a), Certificate::Refused(b)) => a == b,
        _ => false,
    }
}

/// A curve that the source builds, with its own waypoints.
pub fn built(request: &Request, axis: usize) -> Option<Question> {
    let curve: HandedCurve = reach::build(request).ok()?.curve.into();
    let parameters = request.config.parameters.clone();
    Some(Question {
        curve,
        n: request.n,
        points: request.points.clone(),
        spacing: request.spacing(),
        parameters: parameters.unwrap_or_default(),
        axis,
        depth: 0,
    })
}

/// Curves of drawn requests with their own waypoints or changed ones: zeros, small and large numbers, any bits; some
/// with a depth. With `by_chords` the parameters go by the chords, some waypoints are moved, and each question is also
/// asked with its chords listed, where any number but those of the other spacings says that they are.
fn compare(count: usize, by_chords: bool) {
    let mut r = Random::new(if by_chords { 8 } else { 5 });
    let (mut asked, mut figures, mut none, mut differences) = (0, 0, 0, 0);
    let (mut fives, mut listed_differ) = (0, 0);
    while asked < count {
        let request = if by_chords {
            chords::request(&mut r)
        } else {
            builds::draw(&mut r)
        };
        if request.d == 0 || request.refused_before_source().is_some() {
            continue;
        }
        let axis = r.below(request.d);
        let Some(mut question) = built(&request, axis) else {
            continue;
        };
        if r.chance(30) {
            question.depth = r.below(8);
        }
        if r.chance(60) {
            for _ in 0..r.between(1, 4) {
                let list = match r.below(4) {
                    0 => &mut question.points,
                    1 => &mut question.curve.breaks,
                    _ => &mut question.curve.coefficients,
                };
                if !list.is_empty() {
                    let at = r.below(list.len());
                    list[at] = match r.below(4) {
                        0 => number(&mut r),
                        1 => list[at] * r.scaled(-1070, 1020),
                        2 => 0. * list[at],
                        _ => r.signed(),
                    };
                }
            }
        }
        if by_chords && r.chance(30) {
            chords::move_waypoint(&mut r, &mut question.points, request.d);
        }
        let (wanted, told) = (question.certify(), certify(&question));
        asked += 1;
        fives += usize::from(matches!(wanted, Certificate::Refused(5)));
        figures += usize::from(matches!(wanted, Certificate::Figure(_)));
        none += usize::from(matches!(wanted, Certificate::None));
        if by_chords {
            let mut listed = question.clone();
            listed.parameters = spacing::chords(&question.points, request.d, request.n);
            let number = r.pick(&[0, 0, 3, 255, u64::MAX]);
            listed_differ += usize::from(!alike(wanted, certify_as(&listed, number)));
        }
        if !alike(wanted, told) {
            differences += 1;
            if differences <= 5 {
                println!("{question:?}: {wanted:?} wanted, {told:?}");
            }
        }
    }
    let by_chords = if by_chords {
        format!(" by chords, {fives} refused with 5; the same listed: {listed_differ} differences")
    } else {
        String::new()
    };
    println!(
        "certified  {asked} questions, {figures} figures, {none} without, {differences} differences{by_chords}"
    );
}

/// How a lane's waypoints are moved.
#[derive(Clone, Copy, PartialEq)]
enum Moved {
    Not,
    /// All of them, to grid coordinates: before the lane is built.
    Far,
    /// Further and further off, so that each intersection has a larger figure than all before it: after it is built.
    Rising,
}

/// One row: all axes of a smooth lane that is built with tolerance 1e-4.
fn measure(r: &mut Random, n: usize, d: usize, moved: Moved, time: Duration) {
    let mut request = builds::lane(r, Shape::Smooth, d, n, 1e-4);
    if moved == Moved::Far {
        for point in &mut request.points {
            *point += 5e6;
        }
    }
    let size = request.points.iter().fold(0., |m: f64, p| m.max(p.abs()));
    let mut questions: Vec<_> = (0..d).filter_map(|axis| built(&request, axis)).collect();
    if moved == Moved::Rising {
        for (i, point) in questions
            .iter_mut()
            .flat_map(|q| q.points.iter_mut().enumerate())
        {
            *point += 1e-3 * i as f64;
        }
    }
    let segments = questions[0].curve.segments;
    let tight = request.with(|q| q.config.max_segments = segments);
    let mut lent = Lent::default();
    lent.mark(&tight);
    let told: Vec<_> = questions.iter().map(certify).collect();
    let good = questions
        .iter()
        .zip(&told)
        .all(|(q, t)| alike(q.certify(), *t));
    let theirs: Vec<_> = questions.iter().filter_map(boost).collect();
    let near = theirs.iter().zip(&told).all(|((b, _), t)| match t {
        Certificate::Figure(f) => (b - f).abs() <= 1e-9 * f + 1e-12 + 2e-15 * size,
        _ => false,
    });
    let mut ours = || {
        for question in &questions {
            black_box(certify(black_box(question)));
        }
    };
    let mut other = || {
        for question in &questions {
            black_box(boost(black_box(question)));
        }
    };
    let mut building = || {
        black_box(builds::build(black_box(&tight), &mut lent));
    };
    let [a, b, c] = builds::least(time, [&mut ours, &mut other, &mut building]);
    let pieces: usize = theirs.iter().map(|(_, pieces)| pieces).sum();
    let against = if theirs.is_empty() {
        "      skipped".to_string()
    } else {
        let each = |ms: f64| ms * 1e6 / pieces as f64;
        format!(
            "{pieces:6} {:7.1} {:7.1} {:5.2}{}",
            each(a),
            each(b),
            a / b,
            if near { "" } else { " FAR" }
        )
    };
    println!(
        "{n:6} {d:2} {segments:5} | {against} | {a:8.3} {c:8.3} {:5.2} | {}",
        a / c,
        match (good, moved) {
            (true, Moved::Not) => "alike",
            (true, Moved::Far) => "alike, far",
            (true, Moved::Rising) => "alike, rising",
            _ => "DIFFERENT",
        }
    );
}

/// All: `certificates QUESTIONS SECONDS`, how many are compared, and for how long each row is measured.
pub fn run() {
    let argument = |i: usize| std::env::args().nth(i).and_then(|v| v.parse().ok());
    let count = argument(2).unwrap_or(20_000.) as usize;
    compare(count, false);
    compare(count, true);
    let seconds = argument(3).unwrap_or(1.);
    if seconds <= 0. {
        return;
    }
    if cfg!(not(boost)) {
        println!("Boost.Interval is skipped: it was not there when this was compiled");
    }
    println!(
        "n d segments | intersections, certify ns each, Boost ns each, ratio | certify ms, build ms, ratio"
    );
    let mut r = Random::new(6);
    for n in [100, 1000, 20_000] {
        for d in [1, 3] {
            measure(&mut r, n, d, Moved::Not, Duration::from_secs_f64(seconds));
        }
    }
    for moved in [Moved::Far, Moved::Rising] {
        measure(&mut r, 20_000, 3, moved, Duration::from_secs_f64(seconds));
    }
}
