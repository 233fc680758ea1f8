//! Lane files, put together from document 02's words.

use pamitoye::{OutOfRangeMode, Path};

/// A lane file before it is bytes: whole numbers, and numbers of eight bytes as their bits.
#[derive(Clone, Debug, Default)]
pub struct File {
    pub d: usize,
    pub k: usize,
    pub axes: Vec<usize>,
    pub mode: usize,
    pub segments: usize,
    pub other_segments: usize,
    pub start: u64,
    pub end: u64,
    pub breaks: Vec<u64>,
    pub coefficients: Vec<u64>,
    pub other_breaks: Vec<u64>,
    pub other_coefficients: Vec<u64>,
}

pub fn bits(numbers: &[f64]) -> Vec<u64> {
    numbers.iter().map(|x| x.to_bits()).collect()
}

/// A number "in groups of seven bits as in the job": low group first, the top bit set on all but the last.
pub fn groups(mut number: usize) -> Vec<u8> {
    let mut bytes = Vec::new();
    while number > 127 {
        bytes.push((number % 128) as u8 | 128);
        number /= 128;
    }
    bytes.push(number as u8);
    bytes
}

impl File {
    pub fn of(path: &Path) -> Self {
        let (start, end) = path.s_range();
        Self {
            d: path.dim(),
            k: path.smoothed_axes().len(),
            axes: path.smoothed_axes().to_vec(),
            mode: usize::from(path.out_of_range_mode() == OutOfRangeMode::Clamp),
            segments: path.widths().len(),
            other_segments: path.other_widths().len(),
            start: start.to_bits(),
            end: end.to_bits(),
            breaks: bits(path.breaks()),
            coefficients: bits(path.coefficients()),
            other_breaks: bits(path.other_breaks()),
            other_coefficients: bits(path.other_coefficients()),
        }
    }

    /// "d, k, axes, mode (0 Error, 1 Clamp), both segment counts", in this order.
    pub fn counts(&self) -> Vec<usize> {
        let counts = [self.mode, self.segments, self.other_segments];
        [&[self.d, self.k][..], &self.axes, &counts].concat()
    }

    /// "then start, end, selected breaks, selected coefficients and the same of the other set as eight-byte numbers, low byte
    /// first".
    pub fn numbers(&self) -> Vec<u8> {
        let range = [self.start, self.end];
        let slices = [&self.breaks, &self.coefficients];
        let others = [&self.other_breaks, &self.other_coefficients];
        let all = slices.into_iter().chain(others).flatten();
        range
            .iter()
            .chain(all)
            .flat_map(|x| x.to_le_bytes())
            .collect()
    }

    pub fn bytes(&self) -> Vec<u8> {
        let counts = self.counts().into_iter().flat_map(groups);
        counts.chain(self.numbers()).collect()
    }

    pub fn with(&self, change: impl Fn(&mut Self)) -> Self {
        let mut file = self.clone();
        change(&mut file);
        file
    }

    /// So many equal segments of d axes, the first k of them smoothed and in reverse order; coefficient after coefficient has
    /// another number.
    pub fn even(d: usize, k: usize, segments: usize, other_segments: usize) -> Self {
        let breaks = |n: usize| match n {
            0 => Vec::new(),
            n => (0..=n).map(|i| (i as f64 / n as f64).to_bits()).collect(),
        };
        let cells = |n: usize, axes: usize| {
            let count = 6 * n * axes;
            (0..count).map(|i| (i as f64 / 8.).to_bits()).collect()
        };
        Self {
            d,
            k,
            axes: (0..k).rev().collect(),
            mode: 0,
            segments,
            other_segments,
            start: (-2f64).to_bits(),
            end: 6f64.to_bits(),
            breaks: breaks(segments),
            coefficients: cells(segments, k),
            other_breaks: breaks(other_segments),
            other_coefficients: cells(other_segments, d.saturating_sub(k)),
        }
    }
}
