//! Lane files: the time of writing and of reading one, beside that of copying its breaks and coefficients, in the same
//! memory, with C's memcpy, and that of the test whether the curve is well formed.
use crate::declared::declared;
use crate::random::Random;
use crate::times::{shown, times};
use std::ffi::c_void;
use std::hint::black_box;
use std::time::Duration;

declared! {
    pamitoye_well_formed() -> bool;
}
declared! {
    u64;
    pamitoye_write_lane(file: *mut u8, file_len: usize, count: *mut usize) -> u64;
}

#[allow(improper_ctypes)]
unsafe extern "C" {
    fn memcpy(to: *mut c_void, from: *const c_void, bytes: usize) -> *mut c_void;
    fn pamitoye_read_lane(
        file: *const u8,
        file_len: usize,
        d: *mut usize,
        k: *mut usize,
        axes: *mut [usize; 16],
        start: *mut f64,
        end: *mut f64,
        clamp: *mut bool,
        segments: *mut usize,
        other_segments: *mut usize,
        breaks: *mut f64,
        breaks_len: usize,
        coefficients: *mut u64,
        coefficients_len: usize,
        other_breaks: *mut f64,
        other_breaks_len: usize,
        other_coefficients: *mut u64,
        other_coefficients_len: usize,
    ) -> u64;
}

/// A curve, coefficients as bit patterns with the widths behind them.
#[derive(Clone, PartialEq, Default)]
struct Lane {
    d: usize,
    k: usize,
    axes: [usize; 16],
    start: f64,
    end: f64,
    clamp: bool,
    segments: usize,
    other_segments: usize,
    breaks: Vec<f64>,
    coefficients: Vec<u64>,
    other_breaks: Vec<f64>,
    other_coefficients: Vec<u64>,
}

/// Breaks, and coefficients of any bits, of n segments and some axes.
fn set(random: &mut Random, n: usize, axes: usize) -> (Vec<f64>, Vec<u64>) {
    if n == 0 {
        return (Vec::new(), Vec::new());
    }
    let breaks: Vec<f64> = (0..=n).map(|i| i as f64 / n as f64).collect();
    let widths = breaks.windows(2).map(|pair| (pair[1] - pair[0]).to_bits());
    let coefficients = (0..6 * n * axes).map(|_| random.next());
    let cells = coefficients.chain(widths).collect();
    (breaks, cells)
}

impl Lane {
    /// A lane of n segments in each set.
    fn new(random: &mut Random, d: usize, k: usize, n: usize) -> Self {
        let others = if k < d { n } else { 0 };
        let (breaks, coefficients) = set(random, n, k);
        let (other_breaks, other_coefficients) = set(random, others, d - k);
        Lane {
            d,
            k,
            axes: std::array::from_fn(|i| if i < k { i } else { 0 }),
            start: 0.,
            end: 1.,
            clamp: true,
            segments: n,
            other_segments: others,
            breaks,
            coefficients,
            other_breaks,
            other_coefficients,
        }
    }

    /// The same lengths, nothing in them.
    fn blank(&self) -> Self {
        Lane {
            breaks: vec![0.; self.breaks.len()],
            coefficients: vec![0; self.coefficients.len()],
            other_breaks: vec![0.; self.other_breaks.len()],
            other_coefficients: vec![0; self.other_coefficients.len()],
            ..Lane::default()
        }
    }

    /// The cells of each slice that stand in a file: all but the widths.
    fn stored(&self) -> [usize; 4] {
        let rows = 6 * self.segments * self.k;
        let other_rows = 6 * self.other_segments * (self.d - self.k);
        [self.breaks.len(), rows, self.other_breaks.len(), other_rows]
    }

    fn write(&self, file: &mut [u8]) -> (u64, usize) {
        let mut count = 0;
        let number = unsafe {
            pamitoye_write_lane(
                self.d,
                self.k,
                &self.axes,
                self.start,
                self.end,
                self.clamp,
                self.segments,
                self.other_segments,
                self.breaks.as_ptr(),
                self.breaks.len(),
                self.coefficients.as_ptr(),
                self.coefficients.len(),
                self.other_breaks.as_ptr(),
                self.other_breaks.len(),
                self.other_coefficients.as_ptr(),
                self.other_coefficients.len(),
                file.as_mut_ptr(),
                file.len(),
                &mut count,
            )
        };
        (number, count)
    }

    fn well_formed(&self) -> bool {
        unsafe {
            pamitoye_well_formed(
                self.d,
                self.k,
                &self.axes,
                self.start,
                self.end,
                self.clamp,
                self.segments,
                self.other_segments,
                self.breaks.as_ptr(),
                self.breaks.len(),
                self.coefficients.as_ptr().cast(),
                self.coefficients.len(),
                self.other_breaks.as_ptr(),
                self.other_breaks.len(),
                self.other_coefficients.as_ptr().cast(),
                self.other_coefficients.len(),
            )
        }
    }

    fn read(&mut self, file: &[u8]) -> u64 {
        unsafe {
            pamitoye_read_lane(
                file.as_ptr(),
                file.len(),
                &mut self.d,
                &mut self.k,
                &mut self.axes,
                &mut self.start,
                &mut self.end,
                &mut self.clamp,
                &mut self.segments,
                &mut self.other_segments,
                self.breaks.as_mut_ptr(),
                self.breaks.len(),
                self.coefficients.as_mut_ptr(),
                self.coefficients.len(),
                self.other_breaks.as_mut_ptr(),
                self.other_breaks.len(),
                self.other_coefficients.as_mut_ptr(),
                self.other_coefficients.len(),
            )
        }
    }

    /// The cells to the places that they have in the file.
    fn copy_out(&self, stored: &[usize; 4], file: &mut [u8]) {
        let from: [*const c_void; 4] = [
            self.breaks.as_ptr().cast(),
            self.coefficients.as_ptr().cast(),
            self.other_breaks.as_ptr().cast(),
            self.other_coefficients.as_ptr().cast(),
        ];
        let mut at = file.len() - 8 * stored.iter().sum::<usize>();
        for (from, cells) in from.into_iter().zip(stored) {
            let to = &mut file[at..at + 8 * cells];
            unsafe { memcpy(to.as_mut_ptr().cast(), from, to.len()) };
            at += to.len();
        }
    }

    /// The cells of a file to the slices.
    fn copy_in(&mut self, stored: &[usize; 4], file: &[u8]) {
        let to: [*mut c_void; 4] = [
            self.breaks.as_mut_ptr().cast(),
            self.coefficients.as_mut_ptr().cast(),
            self.other_breaks.as_mut_ptr().cast(),
            self.other_coefficients.as_mut_ptr().cast(),
        ];
        let mut at = file.len() - 8 * stored.iter().sum::<usize>();
        for (to, cells) in to.into_iter().zip(stored) {
            let from = &file[at..at + 8 * cells];
            unsafe { memcpy(to, from.as_ptr().cast(), from.len()) };
            at += from.len();
        }
    }
}

/// One row.
fn measure(random: &mut Random, [d, k, n]: [usize; 3], time: Duration) {
    let lane = Lane::new(random, d, k, n);
    let stored = lane.stored();
    let mut file = vec![0; 41 + 8 * stored.iter().sum::<usize>()];
    let (number, count) = lane.write(&mut file);
    assert_eq!(number, 0);
    file.truncate(count);
    let head = count - 8 * stored.iter().sum::<usize>();
    let (mut written, mut copied) = (vec![0; count], vec![0; count]);
    copied[..head].copy_from_slice(&file[..head]);
    let (mut back, mut cells) = (lane.blank(), lane.blank());
    let calls = 1 + (1 << 20) / count;
    let [write, out, read, in_, test] = times(
        time,
        calls,
        [
            &mut || assert_eq!(black_box(&lane).write(black_box(&mut written)), (0, count)),
            &mut || black_box(&lane).copy_out(&stored, black_box(&mut copied)),
            &mut || assert_eq!(back.read(black_box(&file)), 0),
            &mut || cells.copy_in(&stored, black_box(&file)),
            &mut || assert!(black_box(&lane).well_formed()),
        ],
    );
    let mut again = vec![0; count];
    again[..head].copy_from_slice(&file[..head]);
    cells.copy_out(&stored, &mut again);
    let alike = written == file && copied == file && again == file && back == lane;
    let row = |work: (f64, f64), copy: (f64, f64)| {
        let ratio = (work.0 / copy.0, work.1 / copy.1);
        format!("{} | {} | {}", shown(work), shown(copy), shown(ratio))
    };
    println!(
        "| {d}, {k}, {n} | {count} | {} | {} | {} | {}",
        row(write, out),
        row(read, in_),
        shown(test),
        if alike { "alike" } else { "DIFFERENT" }
    );
}

/// All: `lane_files SECONDS`, for how long each row is measured.
pub fn run() {
    let seconds = std::env::args().nth(2).and_then(|v| v.parse().ok());
    let time = Duration::from_secs_f64(seconds.unwrap_or(1.));
    println!("lane files, microseconds: the least, the median");
    println!(
        "| axes, selected, segments | bytes | write | memcpy | ratio | read | memcpy | ratio | the test |"
    );
    println!("|---|---|---|---|---|---|---|---|---|");
    let mut random = Random::new(1);
    for size in [
        [16, 16, 20_000],
        [16, 8, 20_000],
        [3, 3, 1_000],
        [3, 3, 50],
        [3, 2, 50],
    ] {
        measure(&mut random, size, time);
    }
}
