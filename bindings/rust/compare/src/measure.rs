//! Both sides in one run, each in its turn on the same input; the least time of each counts.

use crate::memory::peak;
use crate::path::smoothing::SmoothingTolerance;
use crate::path::smoothing::reach;
use crate::path::smoothing::timed;
use crate::random::{Random, sine};
use crate::request::Request;
use crate::sides::{alike, build, build_in};
use pamitoye::{Path, Workspace};
use std::hint::black_box;
use std::time::Instant;

/// Waves of d axes over n waypoints, with a little noise.
pub(crate) fn lane(d: usize, n: usize, noise: f64, tolerance: f64) -> Request {
    let mut r = Random::new(5);
    let rows: Vec<Vec<f64>> = (0..d)
        .map(|a| {
            let turns = |i: usize| (3 + a) as f64 * i as f64 / (n - 1) as f64;
            (0..n)
                .map(|i| sine(turns(i)) + noise * r.signed())
                .collect()
        })
        .collect();
    let mut request = Request::of_rows(&rows);
    request.config.tolerance = SmoothingTolerance::Uniform(tolerance);
    request
}

/// A path with at least so many segments, of the loosest tolerance tried that needs them, and the source's curve.
fn curve(d: usize, segments: usize) -> (Path, timed::Curve) {
    let mut tolerance = 8.;
    loop {
        let request = lane(d, 4001, 0., tolerance);
        if let (Ok(path), Ok(built)) = (build(&request), reach::build(&request))
            && path.breaks().len() > segments
        {
            let (curve, selected) = (built.curve, |c: &[f64]| c.to_vec());
            let pieces = (
                selected(&curve.selected.breaks),
                selected(&curve.selected.coefficients),
            );
            let range = (curve.start, curve.end);
            let source = timed::curve(d, &curve.axes, range, (&pieces.0, &pieces.1), (&[], &[]));
            return (path, source);
        }
        tolerance *= 0.9;
    }
}

type Orders = [Vec<f64>; 4];
type Work<'a> = &'a mut dyn FnMut(&[f64]);

fn room(cells: usize) -> Orders {
    std::array::from_fn(|_| vec![0.; cells])
}

/// The source's answers, one parameter after the other.
fn source(curve: &timed::Curve, d: usize, xs: &[f64], out: &mut Orders) {
    let [q, dq, ddq, dddq] = out;
    let rows = q
        .chunks_exact_mut(d)
        .zip(dq.chunks_exact_mut(d))
        .zip(ddq.chunks_exact_mut(d).zip(dddq.chunks_exact_mut(d)));
    for (x, ((q, dq), (ddq, dddq))) in xs.iter().zip(rows) {
        timed::evaluate(curve, *x, [q, dq, ddq, dddq]);
    }
}

/// The crate's, many in one call.
fn many(path: &Path, xs: &[f64], out: &mut Orders) {
    let mut slices = out.each_mut().map(Vec::as_mut_slice);
    black_box(path.evaluate_into(xs, &mut slices)).expect("within the range");
}

/// The crate's, one in each call.
fn single(path: &Path, d: usize, xs: &[f64], out: &mut Orders) {
    let [q, dq, ddq, dddq] = out;
    let rows = q
        .chunks_exact_mut(d)
        .zip(dq.chunks_exact_mut(d))
        .zip(ddq.chunks_exact_mut(d).zip(dddq.chunks_exact_mut(d)));
    for (x, ((q, dq), (ddq, dddq))) in xs.iter().zip(rows) {
        black_box(path.evaluate_at(*x, &mut [q, dq, ddq, dddq])).expect("within the range");
    }
}

/// The least nanoseconds a query of both, over rounds in which each has its turn.
fn least(sets: &[Vec<f64>], mut work: [Work<'_>; 2]) -> [f64; 2] {
    let mut best = [f64::MAX; 2];
    for round in 0..400 {
        let xs = black_box(&sets[round % sets.len()]);
        for (best, work) in best.iter_mut().zip(work.iter_mut()) {
            let start = Instant::now();
            work(xs);
            *best = best.min(start.elapsed().as_nanos() as f64 / xs.len() as f64);
        }
    }
    best
}

/// The table of queries, all four orders.
pub fn queries() {
    const QUERIES: usize = 1000;
    println!("Queries: nanoseconds of the crate, of the source, ratio; 1,000 parameters a round\n");
    println!("| d, segments | many, random | many, rising | many, allocated | single, random |");
    println!("|---|---|---|---|---|");
    let mut r = Random::new(9);
    for d in [1, 3] {
        for segments in [1, 100, 2000] {
            let (path, curve) = curve(d, segments);
            let drawn: Vec<Vec<f64>> = (0..40)
                .map(|_| (0..QUERIES).map(|_| r.unit()).collect())
                .collect();
            let mut rising = drawn.clone();
            rising.iter_mut().for_each(|xs| xs.sort_by(f64::total_cmp));
            let (mut ours, mut theirs) = (room(QUERIES * d), room(QUERIES * d));
            for xs in &drawn {
                source(&curve, d, xs, &mut theirs);
                many(&path, xs, &mut ours);
                assert!(ours.iter().zip(&theirs).all(|(a, b)| alike(a, b)));
                single(&path, d, xs, &mut ours);
                assert!(ours.iter().zip(&theirs).all(|(a, b)| alike(a, b)));
            }
            let mut of_source = |xs: &[f64]| source(&curve, d, xs, black_box(&mut theirs));
            let mut all = |xs: &[f64]| many(&path, xs, black_box(&mut ours));
            let random = least(&drawn, [&mut all, &mut of_source]);
            let sorted = least(&rising, [&mut all, &mut of_source]);
            let mut lists = |xs: &[f64]| {
                black_box(path.evaluate_up_to_3rd(xs)).expect("within the range");
            };
            let allocated = least(&drawn, [&mut lists, &mut of_source]);
            let mut each = |xs: &[f64]| single(&path, d, xs, black_box(&mut ours));
            let one = least(&drawn, [&mut each, &mut of_source]);
            print!("| {d}, {} |", path.breaks().len() - 1);
            for [a, b] in [random, sorted, allocated, one] {
                print!(" {a:.1} / {b:.1}, **{:.2}** |", a / b);
            }
            println!();
        }
    }
}

/// What one side's build costs: the least milliseconds, and the most bytes alive at a time.
#[derive(Clone, Copy)]
struct Cost {
    milliseconds: f64,
    bytes: usize,
}

impl std::fmt::Display for Cost {
    fn fmt(&self, f: &mut std::fmt::Formatter<'_>) -> std::fmt::Result {
        write!(f, "{:.3} ms, {} KB", self.milliseconds, self.bytes / 1000)
    }
}

/// The costs of these, each in its turn, for two seconds and at least five rounds.
fn costs<const N: usize>(mut work: [&mut dyn FnMut() -> bool; N]) -> [Cost; N] {
    let mut costs = work.each_mut().map(|work| Cost {
        milliseconds: f64::MAX,
        bytes: peak(work).0,
    });
    let start = Instant::now();
    for round in 0.. {
        if round >= 5 && start.elapsed().as_secs() >= 2 {
            break;
        }
        for (cost, work) in costs.iter_mut().zip(work.iter_mut()) {
            let begun = Instant::now();
            black_box(work());
            let took = begun.elapsed().as_secs_f64() * 1e3;
            cost.milliseconds = cost.milliseconds.min(took);
        }
    }
    costs
}

/// Lanes of the table of builds: noise, tolerance, name.
const LANES: [(f64, f64, &str); 2] = [
    (0., 8., "straight"),
    (1e-4, 1e-3, "noise 1e-4, tolerance 1e-3"),
];
/// Waypoints and axes.
const SIZES: [(usize, usize); 6] = [
    (100, 1),
    (100, 3),
    (100, 16),
    (1000, 3),
    (20_000, 1),
    (20_000, 16),
];

/// The table of builds: time and memory.
pub fn builds() {
    println!("\nBuilds: milliseconds, and the most bytes alive at a time in thousands\n");
    println!(
        "| n, d | lane | segments | crate | with a kept workspace | limit as made | source | work cells of limit 20,000 |"
    );
    println!("|---|---|---|---|---|---|---|---|");
    for (noise, tolerance, name) in LANES {
        for (n, d) in SIZES {
            let request = lane(d, n, noise, tolerance);
            let segments = reach::build(&request).map_or(0, |built| built.counts[0]);
            let as_made = request.clone().with(|q| q.config.max_segments = segments);
            let mut workspace = Workspace::default();
            let [plain, kept, made, source] = costs([
                &mut || build(&request).is_ok(),
                &mut || build_in(&mut workspace, &request).is_ok(),
                &mut || build(&as_made).is_ok(),
                &mut || timed::build(&request) > 0,
            ]);
            println!(
                "| {n}, {d} | {name} | {segments} | {plain} | {:.3} ms | {made} | {source} | {} KB |",
                kept.milliseconds,
                request.room()[0] * 8 / 1000
            );
        }
    }
}
