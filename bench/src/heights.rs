//! Heights: the library's `pamitoye_heights` against plain C (`heights.c`) on drawn curves, every cell; then the time of a
//! height of both.
use crate::case::{Curve, Pieces};
use crate::damage::damage_curve;
use crate::declared::{declared, of_curve};
use crate::handed::HandedCurve;
use crate::numbers::number;
use crate::random::Random;
use crate::request;
use crate::times::{shown, times};
use crate::ways_back::long;
use std::collections::BTreeMap;
use std::hint::black_box;
use std::time::Duration;

declared! {
    pamitoye_heights(axis: usize, heights: *mut i32, heights_len: usize) -> u64;
    plain_heights_2(axis: usize, heights: *mut i32, heights_len: usize) -> u64;
    plain_heights_3(axis: usize, heights: *mut i32, heights_len: usize) -> u64;
    pamitoye_well_formed() -> bool;
}

/// Heights of a segment.
const ROW: usize = 257;
/// The largest control that is taken, in hundredths.
const LIMIT: usize = 2_000_000;
/// No height: beyond the limit.
const MARK: i32 = i32::MIN + 77;
/// Marked cells on both sides of those that are lent.
const EDGE: usize = 8;

/// One of the three functions, under one form: the number.
macro_rules! asked {
    ($name:ident, $function:ident) => {
        fn $name(curve: &HandedCurve, axis: usize, heights: &mut [i32]) -> u64 {
            let (cells, length) = (heights.as_mut_ptr(), heights.len());
            unsafe { of_curve!($function, curve, axis, cells, length) }
        }
    };
}
asked!(library, pamitoye_heights);
asked!(plain_2, plain_heights_2);
asked!(plain_3, plain_heights_3);

/// The six coefficients of Bernstein controls.
fn from_controls(c: [f64; 6]) -> [f64; 6] {
    let mut differences = c;
    let mut coefficients = [0.; 6];
    for (j, choose) in [1., 5., 10., 10., 5., 1.].into_iter().enumerate() {
        coefficients[j] = choose * differences[0];
        for i in 0..5 - j {
            differences[i] = differences[i + 1] - differences[i];
        }
    }
    coefficients
}

/// A segment's coefficients: controls in hundredths, in eighths of a millimetre (every other one a half of a hundredth), at
/// the limit or beside it; one power alone that is a half of a hundredth or beside it; numbers of lanes; next to nothing.
fn fitting(random: &mut Random) -> [f64; 6] {
    let size = random.pick(&[3, 300, LIMIT]);
    let whole = |r: &mut Random| r.between(0, size) as f64 * r.sign();
    match random.below(6) {
        0 => from_controls(std::array::from_fn(|_| whole(random) / 100.)),
        1 => from_controls(std::array::from_fn(|_| {
            whole(random).clamp(-160_000., 160_000.) / 8.
        })),
        2 => {
            let sign = random.sign();
            from_controls(std::array::from_fn(|_| {
                sign * random.pick(&[20_000., 20_000., 20_000f64.next_down()])
            }))
        }
        3 => {
            let half = (whole(random) + 0.5) / 100.;
            let x = random.pick(&[half, half, half.next_up(), half.next_down()]);
            let j = random.pick(&[0, 0, 5, 3]);
            std::array::from_fn(|i| if i == j { x } else { 0. * random.sign() })
        }
        4 => std::array::from_fn(|_| random.signed() * size as f64 / 10_000.),
        _ => std::array::from_fn(|_| {
            f64::from_bits(random.next() >> random.between(12, 63)) * random.sign()
        }),
    }
}

/// A segment's coefficients, at times with one that is odd, or any bits.
fn segment(random: &mut Random) -> [f64; 6] {
    let mut p = fitting(random);
    match random.below(60) {
        0 => p[random.below(6)] = number(random),
        1 => p[random.below(6)] = random.pick(&[1e308, -1e308, 1e300, 20_000.01, -30_000.]),
        2 => p[0] = 20_000f64.next_up() * random.sign(),
        3 => p = std::array::from_fn(|_| number(random)),
        _ => (),
    }
    p
}

/// Breaks of so many segments.
fn breaks(random: &mut Random, segments: usize) -> Vec<f64> {
    let mut inner: Vec<f64> = (1..segments).map(|_| random.unit()).collect();
    if random.chance(20) {
        inner = (1..segments as u64).map(f64::from_bits).collect();
    }
    inner.retain(|x| *x > 0.);
    inner.sort_by(f64::total_cmp);
    inner.dedup();
    let first = if random.chance(20) { -0. } else { 0. };
    [vec![first], inner, vec![1.]].concat()
}

/// A set of so many axes and at most so many segments.
fn pieces(random: &mut Random, axes: usize, most: usize) -> Pieces {
    let segments = random.between(1, most);
    let breaks = breaks(random, segments);
    let parts = axes * (breaks.len() - 1);
    let coefficients = (0..parts).flat_map(|_| segment(random)).collect();
    Pieces {
        breaks,
        coefficients,
    }
}

/// A curve, one in eight of them damaged.
fn curve(random: &mut Random) -> HandedCurve {
    let any = random.between(1, 16);
    let d = random.pick(&[1, 2, 3, any]);
    let axes = request::selection(random, d);
    let most = random.pick(&[1, 2, 5, 30]);
    let selected = pieces(random, axes.len(), most);
    let other = (axes.len() < d).then(|| pieces(random, d - axes.len(), most));
    let (start, end) = random.pick(&[(0., 1.), (-3.5, 8.25), (0., 1e-310), (-1e307, 1e307)]);
    let mut curve = HandedCurve::from(Curve {
        d,
        axes,
        start,
        end,
        selected,
        other,
    });
    if random.below(8) == 0 {
        damage_curve(random, &mut curve);
    }
    curve
}

/// What a run counted.
#[derive(Default)]
struct Counts {
    numbers: BTreeMap<u64, usize>,
    heights: usize,
    wrong: usize,
}

impl Counts {
    /// One question to both, in marked cells.
    fn ask(&mut self, curve: &HandedCurve, axis: usize, room: usize) {
        let before = curve.clone();
        let [(number, cells), (wanted, as_wanted)] = [library, plain_3].map(|function| {
            let mut cells = vec![MARK; room + 2 * EDGE];
            let number = function(curve, axis, &mut cells[EDGE..EDGE + room]);
            (number, cells)
        });
        let bits = |curve: &HandedCurve| {
            curve
                .cells()
                .iter()
                .map(|v| v.to_bits())
                .collect::<Vec<_>>()
        };
        let same = number == wanted && cells == as_wanted && bits(&before) == bits(curve);
        *self.numbers.entry(wanted).or_default() += 1;
        self.heights += cells.iter().filter(|height| **height != MARK).count();
        self.wrong += usize::from(!same);
    }

    /// Two axes of a curve, each with enough cells or too few; at times an axis that there is not.
    fn curve(&mut self, random: &mut Random) {
        let curve = curve(random);
        for _ in 0..2 {
            let axis = random.below(curve.d.clamp(1, 16));
            let none = random.pick(&[curve.d, 16, usize::MAX]);
            let axis = if random.below(10) == 0 { none } else { axis };
            let needed = ROW * curve.breaks.len().max(curve.other_breaks.len());
            let exact = if curve.axes.contains(&axis) {
                ROW * curve.segments.min(100)
            } else {
                ROW * curve.other_segments.min(100)
            };
            let room = random.pick(&[exact, exact, needed, needed + 3, exact.saturating_sub(1), 0]);
            self.ask(&curve, axis, room);
        }
    }
}

/// One row: a curve of n segments and d smoothed axes.
fn measure(random: &mut Random, n: usize, d: usize, time: Duration) {
    let mut curve = long(random, n, d);
    for cells in curve.coefficients[..6 * n * d].chunks_exact_mut(6) {
        cells.copy_from_slice(&from_controls(std::array::from_fn(|_| {
            2_000. * random.signed()
        })));
    }
    let axis = d / 2;
    let mut slices: [Vec<i32>; 3] = std::array::from_fn(|_| vec![MARK; ROW * n]);
    let [a, b, c] = &mut slices;
    let calls = 1 + 2_000 / n;
    let taken = times(
        time,
        calls,
        [
            &mut || assert_eq!(library(black_box(&curve), axis, black_box(a)), 0),
            &mut || assert_eq!(plain_3(black_box(&curve), axis, black_box(b)), 0),
            &mut || assert_eq!(plain_2(black_box(&curve), axis, black_box(c)), 0),
            &mut || assert!(unsafe { of_curve!(pamitoye_well_formed, black_box(&curve)) }),
        ],
    );
    let each = |(least, median): (f64, f64)| {
        let heights = (ROW * n) as f64;
        (least * 1e3 / heights, median * 1e3 / heights)
    };
    let [ours, plain_3, plain_2, test] = taken.map(each);
    let ratio = |plain: (f64, f64)| shown((ours.0 / plain.0, ours.1 / plain.1));
    println!(
        "| {n}, {d} | {} | {} | {} | {} | {} | {:.1} % | {}",
        shown(ours),
        shown(plain_3),
        ratio(plain_3),
        shown(plain_2),
        ratio(plain_2),
        100. * test.0 / ours.0,
        if slices[0] == slices[1] && slices[0] == slices[2] {
            "alike"
        } else {
            "DIFFERENT"
        }
    );
}

/// All: `heights CURVES SECONDS`, how many curves are compared and for how long each row is measured.
pub fn run() {
    let argument = |i: usize, default: f64| {
        let given = std::env::args().nth(i);
        given.and_then(|text| text.parse().ok()).unwrap_or(default)
    };
    let (curves, seconds) = (argument(2, 60_000.) as usize, argument(3, 1.));
    let mut random = Random::new(9);
    let mut counts = Counts::default();
    for _ in 0..curves {
        counts.curve(&mut random);
    }
    println!(
        "heights: {curves} curves, numbers {:?}, {} heights, {} differences",
        counts.numbers, counts.heights, counts.wrong
    );
    if seconds == 0. {
        return;
    }
    println!("nanoseconds a height: the least, the median");
    println!(
        "| segments, axes | pamitoye_heights | cc -O3 | ratio | cc -O2 | ratio | of it the test of the curve |"
    );
    println!("|---|---|---|---|---|---|---|");
    for d in [1, 3] {
        for n in [1, 10, 1_000, 20_000] {
            measure(&mut random, n, d, Duration::from_secs_f64(seconds));
        }
    }
}
