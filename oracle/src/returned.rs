//! The return lane, a curve driven back, from document 02's request 12; the source has none.

use crate::case::Pieces;
use crate::handed::HandedCurve;
use crate::query::{MARK, Told};

/// A curve to be driven back.
#[derive(Clone, Debug)]
pub struct Returning {
    pub curve: HandedCurve,
    /// How many cells are lent for breaks, coefficients, other breaks and other coefficients.
    pub lengths: [usize; 4],
}

impl Returning {
    /// The return lane, or the number of a refusal: "29, after 24 and 19".
    pub fn lane(&self) -> Result<HandedCurve, usize> {
        let curve = &self.curve;
        if !curve.well_formed() {
            return Err(24);
        }
        if (0..4).any(|i| self.lengths[i] < curve.counts()[i]) {
            return Err(19);
        }
        let (k, others) = (curve.k, curve.d - curve.k);
        let selected = set(k, &curve.breaks, &curve.coefficients);
        let other = set(others, &curve.other_breaks, &curve.other_coefficients);
        if !rises(&selected.breaks) || !rises(&other.breaks) {
            return Err(29);
        }
        Ok(HandedCurve {
            coefficients: selected.with_widths(),
            breaks: selected.breaks,
            other_coefficients: other.with_widths(),
            other_breaks: other.breaks,
            ..curve.clone()
        })
    }

    /// The refusal, if there is one, and all cells of the four lent slices after the call.
    pub fn told(&self) -> Told {
        let mut slices = self.lengths.map(|n| vec![MARK; n]);
        let lane = self.lane();
        if let Ok(lane) = &lane {
            let parts = [
                &lane.breaks,
                &lane.coefficients,
                &lane.other_breaks,
                &lane.other_coefficients,
            ];
            for (slice, part) in slices.iter_mut().zip(parts) {
                slice[..part.len()].copy_from_slice(part);
            }
        }
        Told {
            refused: lane.err().map(|number| (number, None)),
            cells: slices.concat(),
        }
    }
}

/// "breaks become 1 minus the old ones in reverse, segments are taken in reverse"
fn set(axes: usize, breaks: &[f64], coefficients: &[f64]) -> Pieces {
    let segments = breaks.len().saturating_sub(1);
    let rows = coefficients.as_chunks::<6>().0;
    let mut returned = Vec::new();
    for i in (0..segments).rev() {
        for row in &rows[i * axes..(i + 1) * axes] {
            returned.extend(driven_back(row));
        }
    }
    Pieces {
        breaks: breaks.iter().rev().map(|v| 1. - v).collect(),
        coefficients: returned,
    }
}

/// "coefficient k becomes (-1)^k times the sum over j from k to 5 of C(j,k)·p_j, added to 0 in rising j"
fn driven_back(p: &[f64; 6]) -> [f64; 6] {
    let choose = triangle();
    std::array::from_fn(|k| {
        let mut sum = 0.;
        for j in k..6 {
            sum += choose[j][k] * p[j];
        }
        if k % 2 == 1 { -sum } else { sum }
    })
}

/// Pascal's triangle: row j has C(j,0) to C(j,j).
fn triangle() -> [[f64; 6]; 6] {
    let mut rows = [[0.; 6]; 6];
    for j in 0..6 {
        rows[j][0] = 1.;
        for k in 1..=j {
            rows[j][k] = rows[j - 1][k - 1] + rows[j - 1][k];
        }
    }
    rows
}

fn rises(breaks: &[f64]) -> bool {
    breaks.windows(2).all(|v| v[0] < v[1])
}
