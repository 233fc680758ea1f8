//! Whole requests: the port's `build` against the unchanged source's. Every answer is compared, bit for bit, with the
//! lent cells that are to stay as they were or to be cleared; then both sides are measured in turn, and the least time
//! of each counts.
use crate::case::{Case, Kind};
use crate::chords;
use crate::declared::spacing_number;
use crate::known;
use crate::numbers::same;
use crate::path::smoothing::SmoothingTolerance::{PerAxis, Uniform};
use crate::path::smoothing::reach::{self, Built};
use crate::path::smoothing::timed;
use crate::random::{Random, sine};
use crate::refusal::Refusal;
use crate::request::{self, Request};
use std::hint::black_box;
use std::time::{Duration, Instant};

#[allow(improper_ctypes)]
unsafe extern "C" {
    fn pamitoye_build(
        points: *const f64,
        points_len: usize,
        d: usize,
        n: usize,
        all: bool,
        axis_list: *const usize,
        axis_list_len: usize,
        uniform: bool,
        tolerance: f64,
        tolerance_list: *const f64,
        tolerance_list_len: usize,
        spacing: u64,
        parameters: *const f64,
        parameters_len: usize,
        max_refinements: usize,
        max_segments: usize,
        clamp: bool,
        work: *mut f64,
        work_len: usize,
        breaks: *mut f64,
        breaks_len: usize,
        coefficients: *mut f64,
        coefficients_len: usize,
        other_breaks: *mut f64,
        other_breaks_len: usize,
        other_coefficients: *mut f64,
        other_coefficients_len: usize,
        errors: *mut f64,
        errors_len: usize,
        counts: *mut [usize; 5],
        ratio: *mut f64,
        k: *mut usize,
        axes: *mut [usize; 16],
        start: *mut f64,
        end: *mut f64,
    ) -> u64;
}

/// Cells before and after each lent slice, and what they and every lent cell hold before a call.
const GUARD: usize = 8;
const MARK: f64 = -6.0221407623e-123;

/// The lent slices in the order of `Request::room`, each with its guards.
#[derive(Default)]
pub struct Lent([Vec<f64>; 6]);

impl Lent {
    /// Marked room for a request. One above the domain is refused whatever the room, and gets next to none.
    pub fn mark(&mut self, request: &Request) {
        let above = request.refused_before_source() == Some(18);
        let room = if above { [1; 6] } else { request.room() };
        for ((slice, needed), more) in self.0.iter_mut().zip(room).zip(request.more) {
            slice.clear();
            let lent = needed.saturating_add_signed(more.into());
            slice.resize(lent + 2 * GUARD, MARK);
        }
    }

    fn part(&self, i: usize) -> &[f64] {
        let slice = &self.0[i];
        &slice[GUARD..slice.len() - GUARD]
    }
}

/// What the port answers beside the slices.
#[derive(Debug)]
pub struct Told {
    number: u64,
    counts: [usize; 5],
    ratio: f64,
    k: usize,
    axes: [usize; 16],
    start: f64,
    end: f64,
}

/// The port's `build`.
pub fn build(request: &Request, lent: &mut Lent) -> Told {
    build_as(request, spacing_number(request.spacing()), lent)
}

/// The same with this number for the spacing.
fn build_as(request: &Request, spacing: u64, lent: &mut Lent) -> Told {
    let config = &request.config;
    let axes = config.axes.as_deref();
    let (uniform, tolerance, tolerances) = match &config.tolerance {
        Uniform(x) => (true, *x, &[][..]),
        PerAxis(list) => (false, MARK, &list[..]),
    };
    let list = axes.unwrap_or(&[]);
    let given = config.parameters.as_deref().unwrap_or(&[]);
    let [
        work,
        breaks,
        coefficients,
        other_breaks,
        other_coefficients,
        errors,
    ] = lent.0.each_mut().map(|slice| {
        let end = slice.len() - GUARD;
        &mut slice[GUARD..end]
    });
    let mut told = Told {
        number: 0,
        counts: [usize::MAX; 5],
        ratio: MARK,
        k: usize::MAX,
        axes: [usize::MAX; 16],
        start: MARK,
        end: MARK,
    };
    told.number = unsafe {
        pamitoye_build(
            request.points.as_ptr(),
            request.points.len(),
            request.d,
            request.n,
            axes.is_none(),
            list.as_ptr(),
            list.len(),
            uniform,
            tolerance,
            tolerances.as_ptr(),
            tolerances.len(),
            spacing,
            given.as_ptr(),
            given.len(),
            config.max_refinements,
            config.max_segments,
            false,
            work.as_mut_ptr(),
            work.len(),
            breaks.as_mut_ptr(),
            breaks.len(),
            coefficients.as_mut_ptr(),
            coefficients.len(),
            other_breaks.as_mut_ptr(),
            other_breaks.len(),
            other_coefficients.as_mut_ptr(),
            other_coefficients.len(),
            errors.as_mut_ptr(),
            errors.len(),
            &mut told.counts,
            &mut told.ratio,
            &mut told.k,
            &mut told.axes,
            &mut told.start,
            &mut told.end,
        )
    };
    told
}

fn alike(a: &[f64], b: &[f64]) -> bool {
    a.len() == b.len() && a.iter().zip(b).all(|(a, b)| same(*a, *b))
}

fn all(cells: &[f64], v: f64) -> bool {
    cells.iter().all(|cell| cell.to_bits() == v.to_bits())
}

/// Whether the slice begins with the wanted cells and is marked elsewhere.
fn begins(slice: &[f64], wanted: &[f64]) -> bool {
    let used = GUARD + wanted.len();
    used + GUARD <= slice.len()
        && all(&slice[..GUARD], MARK)
        && alike(&slice[GUARD..used], wanted)
        && all(&slice[used..], MARK)
}

/// Whether the port's answer is the source's, with the lent cells as they should be.
pub fn agrees(wanted: &Result<Built, Refusal>, told: &Told, lent: &Lent) -> bool {
    let (number, results) = match wanted {
        Ok(built) => {
            let curve = &built.curve;
            let (breaks, coefficients) = match &curve.other {
                Some(other) => (other.breaks.clone(), other.with_widths()),
                None => (Vec::new(), Vec::new()),
            };
            let mut axes = [0; 16];
            axes[..curve.axes.len()].copy_from_slice(&curve.axes);
            let told_alike = told.counts == built.counts
                && (told.k, told.axes) == (curve.axes.len(), axes)
                && alike(&[told.start, told.end], &[curve.start, curve.end]);
            if !told_alike {
                return false;
            }
            let selected = &curve.selected;
            let results = [
                selected.breaks.clone(),
                selected.with_widths(),
                breaks,
                coefficients,
                built.max_errors.clone(),
            ];
            (0, results)
        }
        Err(refusal) => {
            let ratio = refusal.ratio.unwrap_or(MARK);
            let kept = told.counts == [usize::MAX; 5]
                && (told.k, told.axes) == (usize::MAX, [usize::MAX; 16])
                && all(&[told.start, told.end], MARK);
            if !kept || !same(told.ratio, ratio) {
                return false;
            }
            (refusal.number, Default::default())
        }
    };
    let guards = {
        let work = &lent.0[0];
        all(&work[..GUARD], MARK) && all(&work[work.len() - GUARD..], MARK)
    };
    let left = if (18..=20).contains(&number) {
        MARK
    } else {
        0.
    };
    told.number == number as u64
        && guards
        && all(lent.part(0), left)
        && lent.0[1..].iter().zip(results).all(|(a, b)| begins(a, &b))
}

/// A request of any kind; in some slices are longer than they need be, too short, or the list of axes is long.
pub fn draw(r: &mut Random) -> Request {
    let mut request = match r.below(20) {
        0..=2 => request::small_lane(r),
        3 => request::long_lane(r),
        _ => request::draw_any(r),
    };
    if r.chance(20) {
        request.more = std::array::from_fn(|_| r.below(20) as i8);
    }
    match r.below(40) {
        0 => {
            let number = r.between(18, 20);
            request::put_outside(r, &mut request, number);
        }
        1 => {
            let count = r.between(17, 40);
            request.config.axes = Some((0..count).map(|_| r.below(20)).collect());
        }
        _ => {}
    }
    request
}

/// What was met on the way.
#[derive(Default)]
struct Tally {
    requests: usize,
    differences: usize,
    cells: usize,
    /// Accepted ones at 0.
    numbers: [usize; 27],
    with_other: usize,
    rounds: usize,
    most_rounds: usize,
    windows: usize,
    /// Rounds with several windows.
    several: usize,
    most_windows: usize,
}

impl Tally {
    fn add(&mut self, request: &Request, lent: &mut Lent) {
        self.add_as(request, spacing_number(request.spacing()), lent);
    }

    /// The same with this number for the spacing.
    fn add_as(&mut self, request: &Request, spacing: u64, lent: &mut Lent) {
        let wanted = request.answer();
        lent.mark(request);
        let told = build_as(request, spacing, lent);
        self.requests += 1;
        self.cells += lent
            .0
            .iter()
            .map(|slice| slice.len() - 2 * GUARD)
            .sum::<usize>();
        let number = wanted.as_ref().map_or_else(|refusal| refusal.number, |_| 0);
        if !agrees(&wanted, &told, lent) {
            self.differences += 1;
            if self.differences <= 5 {
                println!("request {}: {number} wanted, {told:?}", self.requests);
                println!("{request:?}");
            }
        }
        self.numbers[number] += 1;
        if let Ok(built) = &wanted {
            self.with_other += usize::from(built.counts[1] > 0);
            self.most_rounds = self.most_rounds.max(built.counts[2]);
        }
        if number == 0 || (8..18).contains(&number) {
            self.add_windows(request);
        }
    }

    /// The windows of each round.
    fn add_windows(&mut self, request: &Request) {
        // A refusal ends the course of work; the rounds before it count.
        let _ = reach::trace(request, &mut |case: Case| {
            if case.kind == Kind::Regions {
                let windows = reach::regions_of(&case).len();
                self.rounds += 1;
                self.windows += windows;
                self.several += usize::from(windows > 1);
                self.most_windows = self.most_windows.max(windows);
            }
        });
    }

    fn print(&self) {
        println!(
            "builds     {} requests {} lent cells {} differences",
            self.requests, self.cells, self.differences
        );
        let refused = self
            .numbers
            .iter()
            .enumerate()
            .skip(1)
            .filter(|(_, n)| **n > 0);
        let refused: Vec<_> = refused.map(|(i, n)| format!("{i}: {n}")).collect();
        println!("refused    {}", refused.join(", "));
        println!(
            "accepted   {}, {} of them with other axes, at most {} rounds",
            self.numbers[0], self.with_other, self.most_rounds
        );
        println!(
            "rounds     {}, {} of them with several windows; {} windows, at most {} in a round",
            self.rounds, self.several, self.windows, self.most_windows
        );
    }
}

/// The known requests, and `count` drawn ones.
fn compare(count: usize) {
    let mut r = Random::new(3);
    let mut lent = Lent::default();
    let mut tally = Tally::default();
    for (_, request) in known::requests().iter().filter(|(_, q)| !q.chord) {
        tally.add(request, &mut lent);
    }
    for _ in 0..count {
        tally.add(&draw(&mut r), &mut lent);
    }
    tally.print();
}

/// The known requests by chords, and `count` drawn ones; each also with its chords listed, where any number but those of
/// the other spacings says that they are.
fn compare_chords(count: usize) {
    let mut r = Random::new(7);
    let mut lent = Lent::default();
    let (mut tally, mut listed) = (Tally::default(), Tally::default());
    let known = known::requests().into_iter().map(|(_, request)| request);
    let known: Vec<_> = known.filter(|request| request.chord).collect();
    for i in 0..known.len() + count {
        let request = known.get(i).cloned();
        let request = request.unwrap_or_else(|| chords::request(&mut r));
        tally.add(&request, &mut lent);
        if request.refused_before_source().is_none() {
            let number = r.pick(&[0, 0, 3, 255, u64::MAX]);
            listed.add_as(&request.listed(), number, &mut lent);
        }
    }
    println!(
        "by chords  {} requests, {} of them refused with 5; the same listed: {} requests {} differences",
        tally.requests, tally.numbers[5], listed.requests, listed.differences
    );
    tally.print();
}

/// A straight lane, waves with noise of 1e-4, or smooth waves.
#[derive(Clone, Copy)]
pub enum Shape {
    Straight,
    Noisy,
    Smooth,
}

const SHAPES: [(Shape, &str, f64); 3] = [
    (Shape::Straight, "straight", 1e-3),
    (Shape::Noisy, "noise 1e-4, tolerance 1e-3", 1e-3),
    (Shape::Smooth, "smooth, tolerance 1e-4", 1e-4),
];

pub fn lane(r: &mut Random, shape: Shape, d: usize, n: usize, tolerance: f64) -> Request {
    let mut row = |a: usize| -> Vec<f64> {
        let at = |i: usize| i as f64 / (n - 1) as f64;
        let wave = |i: usize| sine(at(i) + a as f64 / 7.);
        match shape {
            Shape::Straight => (0..n).map(|i| (1 + a) as f64 * at(i)).collect(),
            Shape::Noisy => (0..n).map(|i| wave(i) + 1e-4 * r.signed()).collect(),
            Shape::Smooth => (0..n).map(wave).collect(),
        }
    };
    let rows: Vec<_> = (0..d).map(&mut row).collect();
    Request::of_rows(&rows).with(|q| q.config.tolerance = Uniform(tolerance))
}

/// The least time of each in milliseconds, over rounds in which each has its turn, for at least `least_time`.
pub fn least<const N: usize>(least_time: Duration, work: [&mut dyn FnMut(); N]) -> [f64; N] {
    let mut best = [f64::MAX; N];
    let mut work = work;
    let begun = Instant::now();
    while best[0] == f64::MAX || begun.elapsed() < least_time {
        for (best, work) in best.iter_mut().zip(work.iter_mut()) {
            let start = Instant::now();
            work();
            *best = best.min(start.elapsed().as_secs_f64() * 1e3);
        }
    }
    best
}

/// One row: the port with the source's own limit of 20,000 segments, the port with no more than are made, the source, and the clearing
/// of that second port's work slice alone.
fn measure(name: &str, request: &Request, least_time: Duration) {
    let wanted = request.answer();
    let (segments, rounds) = match &wanted {
        Ok(built) => (built.counts[0], built.counts[2]),
        Err(_) => (request.config.max_segments, request.config.max_refinements),
    };
    let tight = request.clone().with(|q| q.config.max_segments = segments);
    let (mut roomy_lent, mut tight_lent) = (Lent::default(), Lent::default());
    roomy_lent.mark(request);
    tight_lent.mark(&tight);
    let told = build(request, &mut roomy_lent);
    let good = agrees(&wanted, &told, &roomy_lent);
    let mut roomy = || {
        black_box(build(black_box(request), &mut roomy_lent));
    };
    let mut narrow = || {
        black_box(build(black_box(&tight), &mut tight_lent));
    };
    let mut theirs = || {
        black_box(timed::build(black_box(request)));
    };
    let mut cells = vec![1.; tight.room()[0]];
    let mut clearing = || black_box(&mut cells).fill(0.);
    let [a, b, c, cleared] = least(
        least_time,
        [&mut roomy, &mut narrow, &mut theirs, &mut clearing],
    );
    println!(
        "{:6} {:2} {name:28} | {segments:5} {rounds:3} | {a:9.3} {:5.2} | {b:9.3} {:5.2} | {c:9.3} | {cleared:7.3} | {}",
        request.n,
        request.d,
        a / c,
        b / c,
        if good { "alike" } else { "DIFFERENT" }
    );
}

/// A lane whose tolerance lies below the rounding: 50 rounds of many windows, then 14.
fn restless(r: &mut Random) -> Request {
    let row: Vec<_> = (0..299).map(|_| r.signed()).collect();
    Request::of_rows(&[row]).with(|q| {
        q.config.tolerance = Uniform(1e-14);
        q.config.max_refinements = 50;
    })
}

/// All: `builds REQUESTS SECONDS`, how many requests are drawn, and for how long each row is measured. Without seconds
/// nothing is measured.
pub fn run() {
    let argument = |i: usize| std::env::args().nth(i).and_then(|v| v.parse().ok());
    let count = argument(2).unwrap_or(20_000.) as usize;
    compare(count);
    compare_chords(count);
    let seconds = argument(3).unwrap_or(1.);
    if seconds <= 0. {
        return;
    }
    let time = Duration::from_secs_f64(seconds);
    println!(
        "n d lane | segments rounds | port, limit 20,000: ms, ratio | port, limit as made | source: ms | clearing alone: ms"
    );
    let mut r = Random::new(4);
    for (shape, name, tolerance) in SHAPES {
        for n in [100, 1000, 20_000] {
            for d in [1, 3, 16] {
                measure(name, &lane(&mut r, shape, d, n, tolerance), time);
            }
        }
    }
    measure("any, tolerance 1e-14: 14", &restless(&mut r), time);
}
