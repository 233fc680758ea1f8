//! Times of calls that take turns.
use std::time::{Duration, Instant};

/// The least and the median time of each in microseconds, over turns of so many calls in which each has its own.
pub fn times<const N: usize>(
    time: Duration,
    calls: usize,
    mut work: [&mut dyn FnMut(); N],
) -> [(f64, f64); N] {
    let mut taken: [Vec<f64>; N] = std::array::from_fn(|_| Vec::new());
    let begun = Instant::now();
    while taken[0].len() < 5 || begun.elapsed() < time {
        for (taken, work) in taken.iter_mut().zip(work.iter_mut()) {
            let start = Instant::now();
            for _ in 0..calls {
                work();
            }
            taken.push(start.elapsed().as_secs_f64() * 1e6 / calls as f64);
        }
    }
    taken.map(|mut taken| {
        taken.sort_by(f64::total_cmp);
        (taken[0], taken[taken.len() / 2])
    })
}

/// Two numbers, to three digits behind the point or, above 10, to one.
pub fn shown((least, median): (f64, f64)) -> String {
    let digits = if least < 10. { 3 } else { 1 };
    format!("{least:.digits$}, {median:.digits$}")
}
