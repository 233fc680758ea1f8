//! The float leaves: compared with Rust's own on many inputs, bit for bit; the square root measured against C's.
use crate::numbers::{number, same};
use crate::random::Random;
use std::cmp::Ordering;
use std::hint::black_box;
use std::time::Instant;

unsafe extern "C" {
    safe fn pamitoye_sqrt(x: f64) -> f64;
    safe fn pamitoye_abs(x: f64) -> f64;
    safe fn pamitoye_max(x: f64, y: f64) -> f64;
    safe fn pamitoye_min(x: f64, y: f64) -> f64;
    safe fn pamitoye_total_le(x: f64, y: f64) -> bool;
    safe fn pamitoye_powi(x: f64, n: u32) -> f64;
    safe fn pamitoye_next_up(x: f64) -> f64;
    safe fn pamitoye_next_down(x: f64) -> f64;
    safe fn pamitoye_is_finite(x: f64) -> bool;
    /// C's square root.
    safe fn sqrt(x: f64) -> f64;
}

/// The inputs tried, and the differences found, of one function.
#[derive(Default)]
struct Tally {
    inputs: u64,
    differences: u64,
}

impl Tally {
    fn add(&mut self, equal: bool) {
        self.inputs += 1;
        self.differences += u64::from(!equal);
    }

    fn print(&self, name: &str) {
        println!(
            "{name:10} {:>11} inputs {:>3} differences",
            self.inputs, self.differences
        );
    }
}

/// Square roots of all exponents, subnormals, any patterns, squares and products of neighbours with their neighbours.
fn roots(random: &mut Random) -> Tally {
    let mut tally = Tally::default();
    let mut attempt = |x: f64| tally.add(same(pamitoye_sqrt(x), x.sqrt()));
    for exponent in 0..2048u64 {
        for _ in 0..8000 {
            attempt(f64::from_bits((exponent << 52) | (random.next() >> 12)));
        }
    }
    for shift in 0..52 {
        for _ in 0..20_000 {
            attempt(f64::from_bits(random.next() >> (12 + shift)));
        }
    }
    for _ in 0..10_000_000 {
        attempt(f64::from_bits(random.next()));
    }
    for _ in 0..3_000_000 {
        let whole = (random.next() >> (38 + random.next() % 26)) as f64;
        let x = f64::from_bits(0x3FF0_0000_0000_0000 | (random.next() >> 12));
        for square in [whole * whole, x * x, x * x.next_up()] {
            attempt(square);
            attempt(square.next_up());
            attempt(square.next_down());
        }
    }
    tally
}

/// The other leaves. Of two zeros `max` and `min` give the first, which Rust leaves open; every NaN comes last in the total order.
fn others(random: &mut Random) {
    const NAMES: [&str; 8] = [
        "abs",
        "max",
        "min",
        "total_le",
        "next_up",
        "next_down",
        "is_finite",
        "powi",
    ];
    let mut tallies: [Tally; 8] = Default::default();
    for _ in 0..20_000_000 {
        let x = number(random);
        let y = if random.next().is_multiple_of(8) {
            x
        } else {
            number(random)
        };
        let zeros = x == 0. && y == 0.;
        let before = y.is_nan() || (!x.is_nan() && x.total_cmp(&y) != Ordering::Greater);
        let n = (random.next() % 201) as u32;
        let base = if random.next().is_multiple_of(4) {
            x
        } else {
            f64::from_bits(0x3FE0_0000_0000_0000 + (random.next() >> 10))
        };
        let equal = [
            same(pamitoye_abs(x), x.abs()),
            same(pamitoye_max(x, y), if zeros { x } else { x.max(y) }),
            same(pamitoye_min(x, y), if zeros { x } else { x.min(y) }),
            pamitoye_total_le(x, y) == before,
            same(pamitoye_next_up(x), x.next_up()),
            same(pamitoye_next_down(x), x.next_down()),
            pamitoye_is_finite(x) == x.is_finite(),
            same(
                pamitoye_powi(base, n),
                black_box(base).powi(black_box(n as i32)),
            ),
        ];
        for (tally, equal) in tallies.iter_mut().zip(equal) {
            tally.add(equal);
        }
    }
    for (tally, name) in tallies.iter().zip(NAMES) {
        tally.print(name);
    }
}

/// Nanoseconds a call, the best of seven rounds.
fn time(inputs: &[f64], f: impl Fn(f64) -> f64) -> f64 {
    const REPEATS: usize = 2000;
    let mut best = f64::MAX;
    for _ in 0..7 {
        let start = Instant::now();
        let mut sum = 0.;
        for _ in 0..REPEATS {
            for x in inputs {
                sum += f(black_box(*x));
            }
        }
        black_box(sum);
        best = best.min(start.elapsed().as_nanos() as f64 / (REPEATS * inputs.len()) as f64);
    }
    best
}

pub fn run() {
    let mut random = Random::new(1);
    roots(&mut random).print("sqrt");
    others(&mut random);
    let kinds: [(&str, fn(&mut Random) -> u64); 3] = [
        ("all exponents", |r| {
            ((1 + r.next() % 2046) << 52) | (r.next() >> 12)
        }),
        ("1e-3 to 1e3", |r| {
            ((1013 + r.next() % 20) << 52) | (r.next() >> 12)
        }),
        ("subnormals", |r| r.next() >> (12 + r.next() % 40)),
    ];
    for (name, bits) in kinds {
        let inputs: Vec<f64> = (0..4096)
            .map(|_| f64::from_bits(bits(&mut random)))
            .collect();
        let ours = time(&inputs, |x| pamitoye_sqrt(x));
        let c = time(&inputs, |x| sqrt(x));
        println!(
            "sqrt, {name}: {ours:.2} ns a call, C's {c:.2} ns, ratio {:.1}",
            ours / c
        );
    }
}
