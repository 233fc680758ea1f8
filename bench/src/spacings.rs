//! What a spacing costs: builds and certificates of one lane with even parameters, by chords, and with the same chords
//! listed, all in one run; the least time of each counts.
use crate::builds::{self, Lent, Shape, least};
use crate::certificate::Question;
use crate::certificates;
use crate::path::smoothing::timed;
use crate::random::Random;
use crate::request::Request;
use std::hint::black_box;
use std::time::Duration;

/// A request with no more segments than are made, its room, and whether the port answers it as the source does.
fn tight(request: Request) -> (Request, Lent, bool) {
    let mut lent = Lent::default();
    let segments = request.answer().map_or(20_000, |built| built.counts[0]);
    let request = request.with(|q| q.config.max_segments = segments);
    lent.mark(&request);
    let told = builds::build(&request, &mut lent);
    let good = builds::agrees(&request.answer(), &told, &lent);
    (request, lent, good)
}

/// One row: `build` with each spacing, the source with each list, and the certificate of axis 0 with each spacing.
fn measure(r: &mut Random, (shape, name): (Shape, &str), n: usize, d: usize, time: Duration) {
    let even = builds::lane(r, shape, d, n, 1e-4);
    let chord = even.clone().by_chords();
    let listed = chord.listed();
    let requests = [even, listed, chord];
    let mut all = requests.map(tight);
    let questions = all
        .each_ref()
        .map(|(request, ..)| certificates::built(request, 0));
    let certified = |question: &Question| {
        certificates::alike(question.certify(), certificates::certify(question))
    };
    let good = all.iter().all(|(_, _, good)| *good)
        && questions.iter().all(|q| q.as_ref().is_some_and(certified));
    let segments = all
        .each_ref()
        .map(|(request, ..)| request.config.max_segments);
    let source = [all[0].0.clone(), all[1].0.clone()];
    let [
        (even, even_lent, _),
        (listed, listed_lent, _),
        (chord, chord_lent, _),
    ] = &mut all;
    let build = |request: &Request, lent: &mut Lent| {
        black_box(builds::build(black_box(request), lent));
    };
    let build_source = |request: &Request| {
        black_box(timed::build(black_box(request)));
    };
    let certify = |question: &Option<Question>| {
        if let Some(question) = question {
            black_box(certificates::certify(black_box(question)));
        }
    };
    let times = least(
        time,
        [
            &mut || build(even, even_lent),
            &mut || build(listed, listed_lent),
            &mut || build(chord, chord_lent),
            &mut || build_source(&source[0]),
            &mut || build_source(&source[1]),
            &mut || certify(&questions[0]),
            &mut || certify(&questions[1]),
            &mut || certify(&questions[2]),
        ],
    );
    let [a, b, c, s, t, x, y, z] = times;
    println!(
        "{n:6} {d:2} {name:8} {:5} {:5} | {a:8.3} {b:8.3} {c:8.3} {:5.3} | {s:8.3} {t:8.3} | {x:7.3} {y:7.3} {z:7.3} {:5.3} | {}",
        segments[0],
        segments[2],
        c / b,
        z / y,
        if good { "alike" } else { "DIFFERENT" }
    );
}

/// All: `spacings SECONDS`, for how long each row is measured.
pub fn run() {
    let seconds = std::env::args().nth(2).and_then(|v| v.parse().ok());
    let time = Duration::from_secs_f64(seconds.unwrap_or(1.));
    println!(
        "n d lane, segments even and by chords | build ms: even, listed, chord, chord / listed | source ms: even, listed \
         | certify ms: even, listed, chord, chord / listed"
    );
    let mut r = Random::new(9);
    for shape in [(Shape::Straight, "straight"), (Shape::Smooth, "smooth")] {
        for n in [1000, 20_000] {
            for d in [1, 3, 16] {
                measure(&mut r, shape, n, d, time);
            }
        }
    }
}
