//! Return lanes: the port's `return_lane` against the oracle's own computation from document 02, and queries of the
//! lanes that come back against the unchanged source's `evaluate`, bit for bit; widths that are damaged; then the time
//! of a return lane, beside that of copying its cells.
use crate::case::Pieces;
use crate::declared::{declared, of_curve};
use crate::handed::HandedCurve;
use crate::numbers::same;
use crate::query::{MARK, Queries, Told};
use crate::random::Random;
use crate::returns;
use std::hint::black_box;
use std::time::{Duration, Instant};

declared! {
    pamitoye_return_lane(
        lent_breaks: *mut f64, lent_breaks_len: usize,
        lent_coefficients: *mut f64, lent_coefficients_len: usize,
        lent_other_breaks: *mut f64, lent_other_breaks_len: usize,
        lent_other_coefficients: *mut f64, lent_other_coefficients_len: usize,
    ) -> u64;
    pamitoye_well_formed() -> bool;
    pamitoye_evaluate_all(
        xs: *const f64, xs_len: usize, order: usize,
        q: *mut f64, q_len: usize, dq: *mut f64, dq_len: usize,
        ddq: *mut f64, ddq_len: usize, dddq: *mut f64, dddq_len: usize,
        refused_at: *mut usize,
    ) -> u64;
}

/// The port's number, with all cells of the four lent slices after the call.
fn return_lane(curve: &HandedCurve, lent: &mut [Vec<f64>; 4]) -> u64 {
    let [a, b, c, e] = lent;
    unsafe {
        of_curve!(
            pamitoye_return_lane,
            curve,
            a.as_mut_ptr(),
            a.len(),
            b.as_mut_ptr(),
            b.len(),
            c.as_mut_ptr(),
            c.len(),
            e.as_mut_ptr(),
            e.len(),
        )
    }
}

fn well_formed(curve: &HandedCurve) -> bool {
    unsafe { of_curve!(pamitoye_well_formed, curve) }
}

/// The port's answer to queries of all orders, as the oracle tells it.
fn evaluate_all(curve: &HandedCurve, xs: &[f64]) -> Told {
    let mut out: [Vec<f64>; 4] = std::array::from_fn(|_| vec![MARK; xs.len() * curve.d]);
    let [q, dq, ddq, dddq] = &mut out;
    let mut place = 0;
    let number = unsafe {
        of_curve!(
            pamitoye_evaluate_all,
            curve,
            xs.as_ptr(),
            xs.len(),
            3,
            q.as_mut_ptr(),
            q.len(),
            dq.as_mut_ptr(),
            dq.len(),
            ddq.as_mut_ptr(),
            ddq.len(),
            dddq.as_mut_ptr(),
            dddq.len(),
            &mut place,
        )
    };
    let refused = match number {
        0 => None,
        22 => Some((22, Some(place))),
        other => Some((other as usize, None)),
    };
    Told {
        refused,
        cells: out.concat(),
    }
}

/// How many cells differ, with the answers themselves as one.
fn differences(a: &Told, b: &Told) -> usize {
    let cells = a.cells.iter().zip(&b.cells);
    usize::from(a.refused != b.refused || a.cells.len() != b.cells.len())
        + cells.filter(|(x, y)| !same(**x, **y)).count()
}

/// What a run counted.
#[derive(Default)]
struct Counts {
    curves: usize,
    returned: usize,
    refused: [usize; 30],
    damaged: usize,
    values: usize,
    wrong: usize,
}

impl Counts {
    /// One curve driven back; queries of what came back.
    fn curve(&mut self, random: &mut Random) {
        let asked = returns::returning(random);
        self.curves += 1;
        self.wrong += usize::from(well_formed(&asked.curve) != asked.curve.well_formed());
        let mut lent = asked.lengths.map(|n| vec![MARK; n]);
        let number = return_lane(&asked.curve, &mut lent) as usize;
        let told = Told {
            refused: (number != 0).then_some((number, None)),
            cells: lent.concat(),
        };
        self.wrong += differences(&told, &asked.told());
        match asked.lane() {
            Ok(lane) => {
                self.returned += 1;
                self.wrong += usize::from(!well_formed(&lane));
                self.queries(random, lane);
                self.damage(&asked.curve);
            }
            Err(number) => self.refused[number] += 1,
        }
    }

    /// Queries of a return lane, at its ends, its breaks and anywhere.
    fn queries(&mut self, random: &mut Random, lane: HandedCurve) {
        let length = lane.end - lane.start;
        let mut parameters = vec![lane.start, lane.end];
        parameters.extend(lane.breaks.iter().map(|b| lane.start + b * length));
        parameters.extend((0..8).map(|_| lane.start + random.unit() * length));
        parameters.retain(|x| lane.start <= *x && *x <= lane.end);
        let cells = parameters.len() * lane.d;
        let queries = Queries {
            curve: lane,
            clamp: false,
            orders: [3; 4],
            lengths: [cells; 4],
            parameters,
        };
        let told = evaluate_all(&queries.curve, &queries.parameters);
        self.values += told.cells.len();
        self.wrong += differences(&told, &queries.all());
    }

    /// Each width of a well-formed curve damaged: 24, nothing written.
    fn damage(&mut self, curve: &HandedCurve) {
        let rows = curve.rows();
        let others = 6 * (curve.d - curve.k) * curve.other_segments;
        for place in rows..rows + curve.segments + curve.other_segments {
            for kind in 0..5 {
                let mut bad = curve.clone();
                let width = match place.checked_sub(rows + curve.segments) {
                    None => &mut bad.coefficients[place],
                    Some(i) => &mut bad.other_coefficients[others + i],
                };
                *width = [width.next_up(), width.next_down(), -*width, f64::NAN, -0.][kind];
                let counts = bad.counts();
                let mut lent = counts.map(|n| vec![MARK; n]);
                let number = return_lane(&bad, &mut lent);
                let query = evaluate_all(&bad, &[bad.start]);
                self.damaged += 1;
                self.wrong += usize::from(
                    number != 24
                        || well_formed(&bad)
                        || query.refused != Some((24, None))
                        || lent.concat().iter().chain(&query.cells).any(|v| *v != MARK),
                );
            }
        }
    }
}

/// A curve of n segments and d smoothed axes.
pub fn long(random: &mut Random, n: usize, d: usize) -> HandedCurve {
    let pieces = Pieces {
        breaks: (0..=n).map(|i| i as f64 / n as f64).collect(),
        coefficients: (0..6 * n * d).map(|_| random.plain()).collect(),
    };
    HandedCurve {
        d,
        k: d,
        axes: (0..d).collect(),
        start: 0.,
        end: 1.,
        segments: n,
        other_segments: 0,
        coefficients: pieces.with_widths(),
        breaks: pieces.breaks,
        other_breaks: Vec::new(),
        other_coefficients: Vec::new(),
    }
}

/// The least time of a call, over so much time.
fn least(duration: Duration, mut call: impl FnMut()) -> Duration {
    let (begun, mut least) = (Instant::now(), Duration::MAX);
    while begun.elapsed() < duration {
        let before = Instant::now();
        call();
        least = least.min(before.elapsed());
    }
    least
}

pub fn run() {
    let argument = |i: usize, default: usize| {
        let given = std::env::args().nth(i);
        given.and_then(|text| text.parse().ok()).unwrap_or(default)
    };
    let (count, seconds) = (argument(2, 60_000), argument(3, 1));
    let mut random = Random::new(12);
    let mut counts = Counts::default();
    for _ in 0..count {
        counts.curve(&mut random);
    }
    println!(
        "return lanes: {} curves, {} driven back, 24: {}, 19: {}, 29: {}; {} values of queries of return lanes; \
         {} damaged widths; {} differences",
        counts.curves,
        counts.returned,
        counts.refused[24],
        counts.refused[19],
        counts.refused[29],
        counts.values,
        counts.damaged,
        counts.wrong
    );
    if seconds == 0 {
        return;
    }
    println!("| segments | axes | a return lane, ns a coefficient | a copy of its cells | ratio |");
    println!("|---|---|---|---|---|");
    for (n, d) in [(100, 1), (100, 3), (1_000, 3), (20_000, 3), (20_000, 16)] {
        let curve = long(&mut random, n, d);
        let lengths = curve.counts();
        let mut lent = lengths.map(|n| vec![MARK; n]);
        let half = Duration::from_secs(seconds as u64) / 2;
        let port = least(half, || {
            assert_eq!(black_box(return_lane(black_box(&curve), &mut lent)), 0);
        });
        let copy = least(half, || {
            lent[0].copy_from_slice(black_box(&curve.breaks));
            lent[1].copy_from_slice(black_box(&curve.coefficients));
            black_box(&lent);
        });
        let each = |t: Duration| t.as_secs_f64() * 1e9 / (6 * n * d) as f64;
        println!(
            "| {n} | {d} | {:.2} | {:.2} | {:.2} |",
            each(port),
            each(copy),
            each(port) / each(copy)
        );
    }
}
