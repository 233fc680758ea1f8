//! Queries: many in one call, and one in each call, against the unchanged source's `evaluate`. All four orders are
//! asked. Every value is compared, bit for bit; then both sides are measured in turn, and the least time of each counts.
use crate::declared::declared;
use crate::numbers::{number, same};
use crate::path::smoothing::timed;
use crate::random::Random;
use std::hint::black_box;
use std::time::Instant;

/// The functions for one parameter, with what each has behind those that all have.
macro_rules! single {
    ($($name:ident($($more:ident: $kind:ty),*))*) => {
        declared! {
            $($name(
                x: f64, order: usize, q: *mut f64, q_len: usize, dq: *mut f64, dq_len: usize,
                ddq: *mut f64, ddq_len: usize, dddq: *mut f64, dddq_len: usize, $($more: $kind),*
            ) -> u64;)*
        }
    };
}
single!(pamitoye_evaluate() pamitoye_evaluate_formed() pamitoye_evaluate_near(span: *mut usize, other_span: *mut usize));

/// The functions for many.
macro_rules! many {
    ($($name:ident)*) => {
        declared! {
            $($name(
                xs: *const f64, xs_len: usize, order: usize, q: *mut f64, q_len: usize,
                dq: *mut f64, dq_len: usize, ddq: *mut f64, ddq_len: usize,
                dddq: *mut f64, dddq_len: usize, refused_at: *mut usize,
            ) -> u64;)*
        }
    };
}
many!(pamitoye_evaluate_all pamitoye_evaluate_all_formed);

/// A call whose first arguments are the curve's numbers and slices.
macro_rules! of_curve {
    ($function:ident, $curve:expr, $($rest:expr),* $(,)?) => {
        $function(
            $curve.d,
            $curve.k,
            &$curve.axes,
            $curve.start,
            $curve.end,
            $curve.clamp,
            $curve.breaks.len() - 1,
            $curve.other_breaks.len().saturating_sub(1),
            $curve.breaks.as_ptr(),
            $curve.breaks.len(),
            $curve.coefficients.as_ptr(),
            $curve.coefficients.len(),
            $curve.other_breaks.as_ptr(),
            $curve.other_breaks.len(),
            $curve.other_coefficients.as_ptr(),
            $curve.other_coefficients.len(),
            $($rest),*
        )
    };
}

/// A curve as plain numbers, and as the source has it.
struct Case {
    d: usize,
    k: usize,
    axes: [usize; 16],
    start: f64,
    end: f64,
    /// Mode Clamp; otherwise mode Error.
    clamp: bool,
    breaks: Vec<f64>,
    coefficients: Vec<f64>,
    other_breaks: Vec<f64>,
    other_coefficients: Vec<f64>,
    source: timed::Curve,
}

/// Breaks that rise from 0 to 1: even ones, each moved by less than half a step.
fn breaks(random: &mut Random, n: usize) -> Vec<f64> {
    if n == 0 {
        return Vec::new();
    }
    let mut list: Vec<f64> = (0..=n)
        .map(|i| (i as f64 + 0.8 * (random.unit() - 0.5)) / n as f64)
        .collect();
    list[0] = 0.;
    list[n] = 1.;
    list
}

/// Rising breaks of any size, subnormal ones among them, of which some lie side by side; the first may be -0.
fn wild_breaks(random: &mut Random, n: usize) -> Vec<f64> {
    if n == 0 {
        return Vec::new();
    }
    let mut list: Vec<f64> = (0..n - 1)
        .map(|_| match random.next() % 4 {
            0 => f64::from_bits(1 + random.next() % 0x3FEF_FFFF_FFFF_FFFF),
            1 => f64::from_bits(1 + random.next() % 8),
            2 => f64::from_bits(0x3FEF_FFFF_FFFF_FFFF - random.next() % 8),
            _ => random.unit().max(f64::MIN_POSITIVE),
        })
        .collect();
    list.push(if random.next().is_multiple_of(2) {
        0.
    } else {
        -0.
    });
    list.push(1.);
    list.sort_by(f64::total_cmp);
    list.dedup();
    list
}

impl Case {
    fn new(
        random: &mut Random,
        (d, k): (usize, usize),
        (start, end): (f64, f64),
        breaks: Vec<f64>,
        other_breaks: Vec<f64>,
        coefficient: fn(&mut Random) -> f64,
    ) -> Case {
        let mut order: Vec<usize> = (0..d).collect();
        for i in 0..d {
            order.swap(i, i + random.next() as usize % (d - i));
        }
        let mut axes = [0; 16];
        axes[..k].copy_from_slice(&order[..k]);
        let mut row = |n: usize| (0..n).map(|_| coefficient(random)).collect::<Vec<f64>>();
        let mut coefficients = row(6 * k * breaks.len().saturating_sub(1));
        let mut other_coefficients = row(6 * (d - k) * other_breaks.len().saturating_sub(1));
        let source = timed::curve(
            d,
            &axes[..k],
            (start, end),
            (&breaks, &coefficients),
            (&other_breaks, &other_coefficients),
        );
        // The widths behind the coefficients, which the source has not.
        coefficients.extend(breaks.windows(2).map(|v| v[1] - v[0]));
        other_coefficients.extend(other_breaks.windows(2).map(|v| v[1] - v[0]));
        Case {
            d,
            k,
            axes,
            start,
            end,
            clamp: false,
            breaks,
            coefficients,
            other_breaks,
            other_coefficients,
            source,
        }
    }

    /// The port's answers, many in one call; `formed`: of a curve that is not tested.
    fn all(&self, formed: bool, xs: &[f64], out: &mut [Vec<f64>; 4]) -> u64 {
        let [q, dq, ddq, dddq] = out;
        let mut refused_at = 0;
        let call = if formed {
            pamitoye_evaluate_all_formed
        } else {
            pamitoye_evaluate_all
        };
        unsafe {
            of_curve!(
                call,
                self,
                xs.as_ptr(),
                xs.len(),
                3,
                q.as_mut_ptr(),
                q.len(),
                dq.as_mut_ptr(),
                dq.len(),
                ddq.as_mut_ptr(),
                ddq.len(),
                dddq.as_mut_ptr(),
                dddq.len(),
                &mut refused_at,
            )
        }
    }

    /// The port's answers, one in each call; `formed`: of a curve that is not tested. The sum of the answers' numbers.
    fn each(&self, formed: bool, xs: &[f64], out: &mut [Vec<f64>; 4]) -> u64 {
        let d = self.d;
        let call = if formed {
            pamitoye_evaluate_formed
        } else {
            pamitoye_evaluate
        };
        let mut sum = 0;
        for (x, [q, dq, ddq, dddq]) in xs.iter().zip(rows(out, d)) {
            sum += unsafe {
                of_curve!(
                    call,
                    self,
                    *x,
                    3,
                    q.as_mut_ptr(),
                    d,
                    dq.as_mut_ptr(),
                    d,
                    ddq.as_mut_ptr(),
                    d,
                    dddq.as_mut_ptr(),
                    d,
                )
            };
        }
        sum
    }

    /// The port's answers, one in each call, with the segments of the one before, as a curve reader keeps them.
    fn in_turn(&self, xs: &[f64], out: &mut [Vec<f64>; 4]) -> u64 {
        let d = self.d;
        let (mut span, mut other_span) = (0, 0);
        let mut sum = 0;
        for (x, [q, dq, ddq, dddq]) in xs.iter().zip(rows(out, d)) {
            sum += unsafe {
                of_curve!(
                    pamitoye_evaluate_near,
                    self,
                    *x,
                    3,
                    q.as_mut_ptr(),
                    d,
                    dq.as_mut_ptr(),
                    d,
                    ddq.as_mut_ptr(),
                    d,
                    dddq.as_mut_ptr(),
                    d,
                    &mut span,
                    &mut other_span,
                )
            };
        }
        sum
    }

    /// The source's answers.
    fn source(&self, xs: &[f64], out: &mut [Vec<f64>; 4]) {
        for (x, row) in xs.iter().zip(rows(out, self.d)) {
            timed::evaluate(&self.source, *x, row);
        }
    }

    /// How many values of `all`, `each` and `in_turn` differ from the source's, where every cell was -1 before. For a parameter
    /// outside, the value is the source's at the nearer end, and every derivative +0.
    fn differences(&self, xs: &[f64]) -> usize {
        let room = || -> [Vec<f64>; 4] { std::array::from_fn(|_| vec![-1.; xs.len() * self.d]) };
        let mut source = room();
        let inside: Vec<f64> = xs.iter().map(|x| x.clamp(self.start, self.end)).collect();
        self.source(&inside, &mut source);
        for (x, [_, dq, ddq, dddq]) in xs.iter().zip(rows(&mut source, self.d)) {
            if *x < self.start || self.end < *x {
                for order in [dq, ddq, dddq] {
                    order.fill(0.);
                }
            }
        }
        let mut count = 0;
        for formed in [false, true] {
            let (mut many, mut single, mut turns) = (room(), room(), room());
            let numbers = self.all(formed, xs, &mut many)
                + self.each(formed, xs, &mut single)
                + self.in_turn(xs, &mut turns);
            count += usize::from(numbers != 0);
            for answers in [many, single, turns] {
                let pairs = answers.iter().flatten().zip(source.iter().flatten());
                count += pairs.filter(|(a, b)| !same(**a, **b)).count();
            }
        }
        count
    }
}

/// The cells of one query after the other.
fn rows(out: &mut [Vec<f64>; 4], d: usize) -> impl Iterator<Item = [&mut [f64]; 4]> {
    let [q, dq, ddq, dddq] = out;
    q.chunks_exact_mut(d)
        .zip(dq.chunks_exact_mut(d))
        .zip(ddq.chunks_exact_mut(d).zip(dddq.chunks_exact_mut(d)))
        .map(|((q, dq), (ddq, dddq))| [q, dq, ddq, dddq])
}

/// Curves of all sizes with awkward breaks, ranges and coefficients; parameters at, next to and between the breaks, and
/// in mode Clamp outside the range.
fn compare(random: &mut Random) {
    const CURVES: usize = 20_000;
    let (mut values, mut differences) = (0, 0);
    for _ in 0..CURVES {
        let d = 1 + random.next() as usize % 16;
        let k = 1 + random.next() as usize % d;
        let n = 1 + random.next() as usize % 40;
        let others = if k < d {
            1 + random.next() as usize % 40
        } else {
            0
        };
        let range = match random.next() % 4 {
            0 => (0., 1.),
            1 => (-1e300 * random.unit(), 1e300 * random.unit() + 1.),
            2 => (0., f64::from_bits(1 + random.next() % 64)),
            _ => (random.unit(), 2. + random.unit()),
        };
        let wild = random.next().is_multiple_of(2);
        let list = if wild {
            wild_breaks(random, n)
        } else {
            breaks(random, n)
        };
        let other = if wild {
            wild_breaks(random, others)
        } else {
            breaks(random, others)
        };
        let coefficient: fn(&mut Random) -> f64 = if random.next().is_multiple_of(4) {
            number
        } else {
            Random::unit
        };
        let mut case = Case::new(random, (d, k), range, list, other, coefficient);
        case.clamp = random.next().is_multiple_of(2);
        let length = range.1 - range.0;
        let mut xs = vec![range.0, range.1, range.0.next_up(), range.1.next_down()];
        for b in case.breaks.iter().chain(&case.other_breaks) {
            let x = range.0 + b * length;
            xs.extend([x, x.next_up(), x.next_down()]);
        }
        xs.extend((0..16).map(|_| range.0 + random.unit() * length));
        if !case.clamp || random.next().is_multiple_of(2) {
            xs.iter_mut().for_each(|x| *x = x.clamp(range.0, range.1));
        } else {
            xs.extend([
                range.0.next_down(),
                range.1.next_up(),
                -0.,
                -f64::MAX,
                f64::MAX,
            ]);
            xs.extend([range.0 - 1., range.1 + 1., f64::NEG_INFINITY, f64::INFINITY]);
        }
        values += 16 * d * xs.len();
        differences += case.differences(&xs);
    }
    println!("queries    {CURVES} curves {values} values {differences} differences");
}

/// The least time of each, over many rounds in which each has its turn on the same parameters, in nanoseconds a query.
/// The rounds go over many sets of parameters, so that no branch predictor has learnt the one at hand.
fn least(rounds: usize, sets: &[Vec<f64>], work: [&mut dyn FnMut(&[f64]); 2]) -> [f64; 2] {
    let mut best = [f64::MAX; 2];
    let mut work = work;
    for round in 0..rounds {
        let xs = black_box(&sets[round % sets.len()]);
        for (best, work) in best.iter_mut().zip(work.iter_mut()) {
            let start = Instant::now();
            work(xs);
            *best = best.min(start.elapsed().as_nanos() as f64 / xs.len() as f64);
        }
    }
    best
}

/// d, k, segments, other segments.
const ROWS: [(usize, usize, usize, usize); 11] = [
    (1, 1, 1, 0),
    (1, 1, 4, 0),
    (3, 3, 10, 0),
    (1, 1, 100, 0),
    (3, 3, 100, 0),
    (3, 2, 100, 200),
    (6, 4, 100, 300),
    (16, 16, 100, 0),
    (16, 8, 100, 200),
    (3, 3, 2000, 0),
    (1, 1, 5000, 0),
];

/// One row: many random parameters in one call, many rising ones, and random ones in a call each, of a curve that is
/// tested and of one that is not.
fn measure(random: &mut Random, row: (usize, usize, usize, usize), rounds: usize) {
    const QUERIES: usize = 1000;
    let (d, k, n, others) = row;
    let range = (0.5, 7.25);
    let (list, other) = (breaks(random, n), breaks(random, others));
    let case = Case::new(random, (d, k), range, list, other, Random::unit);
    let drawn: Vec<Vec<f64>> = (0..50)
        .map(|_| {
            (0..QUERIES)
                .map(|_| range.0 + random.unit() * (range.1 - range.0))
                .collect()
        })
        .collect();
    let mut rising = drawn.clone();
    rising.iter_mut().for_each(|xs| xs.sort_by(f64::total_cmp));
    let differences: usize = drawn
        .iter()
        .chain(&rising)
        .map(|xs| case.differences(xs))
        .sum();
    let room = || -> [Vec<f64>; 4] { std::array::from_fn(|_| vec![0.; QUERIES * d]) };
    let (mut ours, mut theirs) = (room(), room());
    let mut source = |xs: &[f64]| {
        case.source(xs, &mut theirs);
        black_box(&mut theirs);
    };
    let mut line = format!("{d:2} {k:2} {n:4} + {others:3}");
    for sets in [&drawn, &rising] {
        let mut all = |xs: &[f64]| {
            black_box(case.all(false, xs, &mut ours));
            black_box(&mut ours);
        };
        let [a, b] = least(rounds, sets, [&mut all, &mut source]);
        line += &format!(" | {a:7.1} {b:7.1} {:5.2}", a / b);
    }
    for formed in [false, true] {
        let mut each = |xs: &[f64]| {
            black_box(case.each(formed, xs, &mut ours));
            black_box(&mut ours);
        };
        let [a, b] = least(rounds / 10 + 1, &drawn, [&mut each, &mut source]);
        line += &format!(" | {a:8.1} {b:7.1} {:5.2}", a / b);
    }
    for sets in [&drawn, &rising] {
        let mut in_turn = |xs: &[f64]| {
            black_box(case.in_turn(xs, &mut ours));
            black_box(&mut ours);
        };
        let [a, b] = least(rounds / 10 + 1, sets, [&mut in_turn, &mut source]);
        line += &format!(" | {a:8.1} {b:7.1} {:5.2}", a / b);
    }
    println!("{line} | {differences} differences");
}

/// All; `rounds` is the second argument of the command.
pub fn run() {
    let rounds = std::env::args()
        .nth(2)
        .and_then(|n| n.parse().ok())
        .unwrap_or(1000);
    let mut random = Random::new(2);
    compare(&mut random);
    println!(
        "d k segments + others | many, random: ns a query of the port, of the source, ratio | many, rising \
         | single, random | single, formed | in turn, random | in turn, rising"
    );
    for row in ROWS {
        measure(&mut random, row, rounds);
    }
}
