//! A curve as it is handed over, well formed or not.

use crate::case::{Curve, Pieces};

/// Nothing is taken for granted: counts and lengths may differ. `k` says how many axes are selected;
/// more than 16 can't be listed.
#[derive(Clone, Debug)]
pub struct HandedCurve {
    pub d: usize,
    pub k: usize,
    pub axes: Vec<usize>,
    pub start: f64,
    pub end: f64,
    pub segments: usize,
    pub other_segments: usize,
    pub breaks: Vec<f64>,
    pub coefficients: Vec<f64>,
    pub other_breaks: Vec<f64>,
    pub other_coefficients: Vec<f64>,
}

impl From<Curve> for HandedCurve {
    fn from(curve: Curve) -> Self {
        let other = curve.other.as_ref();
        Self {
            d: curve.d,
            k: curve.axes.len(),
            start: curve.start,
            end: curve.end,
            segments: curve.selected.segments(),
            other_segments: other.map_or(0, Pieces::segments),
            other_breaks: other.map_or(Vec::new(), |p| p.breaks.clone()),
            other_coefficients: other.map_or(Vec::new(), Pieces::with_widths),
            axes: curve.axes,
            coefficients: curve.selected.with_widths(),
            breaks: curve.selected.breaks,
        }
    }
}

impl HandedCurve {
    /// A curve "is well formed if ..".
    pub fn well_formed(&self) -> bool {
        let (d, k, axes) = (self.d, self.k, &self.axes);
        if !(1..=16).contains(&d) || !(1..=d).contains(&k) || axes.len() < k {
            return false;
        }
        let length = self.end - self.start;
        (0..k).all(|i| axes[i] < d && !axes[..i].contains(&axes[i]))
            && set_formed(k, self.segments, &self.breaks, &self.coefficients)
            && if k < d {
                let (breaks, coefficients) = (&self.other_breaks, &self.other_coefficients);
                set_formed(d - k, self.other_segments, breaks, coefficients)
            } else {
                self.other_segments == 0
                    && self.other_breaks.is_empty()
                    && self.other_coefficients.is_empty()
            }
            && self.start.is_finite()
            && self.end.is_finite()
            && length.is_finite()
            && length > 0.
    }

    /// The curve, which is well formed.
    pub fn formed(&self) -> Curve {
        let (rows, others) = (self.rows(), 6 * (self.d - self.k) * self.other_segments);
        let other = Pieces {
            breaks: self.other_breaks.clone(),
            coefficients: self.other_coefficients[..others].to_vec(),
        };
        Curve {
            d: self.d,
            axes: self.axes[..self.k].to_vec(),
            start: self.start,
            end: self.end,
            selected: Pieces {
                breaks: self.breaks.clone(),
                coefficients: self.coefficients[..rows].to_vec(),
            },
            other: (self.k < self.d).then_some(other),
        }
    }

    /// How many coefficients of selected axes there are; the widths follow.
    pub fn rows(&self) -> usize {
        6 * self.k * self.segments
    }

    /// The widths of the selected axes' breaks as they are, of a curve that was well formed.
    pub fn keep_widths(&mut self) {
        let rows = self.rows();
        self.coefficients.truncate(rows);
        let widths = self.breaks.windows(2).map(|v| v[1] - v[0]);
        self.coefficients.extend(widths);
    }

    /// How many cells each of the four slices has.
    pub fn counts(&self) -> [usize; 4] {
        [
            self.breaks.len(),
            self.coefficients.len(),
            self.other_breaks.len(),
            self.other_coefficients.len(),
        ]
    }

    /// The ends, then the four slices.
    pub fn cells(&self) -> Vec<f64> {
        [
            &[self.start, self.end],
            &self.breaks[..],
            &self.coefficients,
            &self.other_breaks,
            &self.other_coefficients,
        ]
        .concat()
    }
}

/// "slice lengths match, each set has at least one and at most 20,000 segments .., breaks rise
/// strictly from 0 to 1"; "a width that differs in bits is 24"
fn set_formed(axes: usize, segments: usize, breaks: &[f64], coefficients: &[f64]) -> bool {
    (1..=20_000).contains(&segments)
        && breaks.len() == segments + 1
        && coefficients.len() == (6 * axes + 1) * segments
        && breaks[0] == 0.
        && breaks.windows(2).all(|v| v[0] < v[1])
        && breaks[segments] == 1.
        && breaks
            .windows(2)
            .zip(&coefficients[6 * axes * segments..])
            .all(|(v, width)| (v[1] - v[0]).to_bits() == width.to_bits())
}
