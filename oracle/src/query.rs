//! Queries of a curve, with document 01's checks and range handling before the source's `evaluate`.

use crate::handed::HandedCurve;
use crate::path::smoothing::reach;

/// What every cell of the output slices holds before a call.
pub const MARK: f64 = -6.0221407623e-123;

/// Queries of one curve: one, many in one call, or in turn of one curve reader.
#[derive(Clone, Debug)]
pub struct Queries {
    pub curve: HandedCurve,
    /// Mode Clamp, otherwise Error.
    pub clamp: bool,
    /// The order asked; with a reader, query i asks order i mod 4 of these.
    pub orders: [usize; 4],
    /// How many cells the slices of the orders 0 to 3 have.
    pub lengths: [usize; 4],
    pub parameters: Vec<f64>,
}

/// A refusal with the place of the query in question, where it tells one, and all cells of the four
/// slices after the call.
#[derive(Clone, Debug, PartialEq)]
pub struct Told {
    pub refused: Option<(usize, Option<usize>)>,
    pub cells: Vec<f64>,
}

impl Queries {
    /// The query at the first parameter.
    pub fn single(&self) -> Told {
        let mut told = self.all_of(self.orders[0], &self.parameters[..1]);
        if let Some((_, place)) = &mut told.refused {
            *place = None;
        }
        told
    }

    /// All in one call.
    pub fn all(&self) -> Told {
        self.all_of(self.orders[0], &self.parameters)
    }

    /// One after the other: a reader "answers as a single query does".
    pub fn in_turn(&self) -> Vec<Told> {
        let one = |(i, x): (usize, &f64)| {
            let mut query = self.clone();
            query.orders[0] = self.orders[i % 4];
            query.parameters = vec![*x];
            query.single()
        };
        self.parameters.iter().enumerate().map(one).collect()
    }

    fn all_of(&self, order: usize, parameters: &[f64]) -> Told {
        let mut slices = self.lengths.map(|n| vec![MARK; n]);
        let refused = match self.values(order, parameters) {
            Ok(values) => {
                // For each query d cells of each order up to the one asked.
                let d = self.curve.d;
                for (i, orders) in values.chunks_exact(4 * d).enumerate() {
                    for r in 0..=order {
                        let part = &orders[r * d..(r + 1) * d];
                        slices[r][i * d..(i + 1) * d].copy_from_slice(part);
                    }
                }
                None
            }
            Err(refused) => Some(refused),
        };
        Told {
            refused,
            cells: slices.concat(),
        }
    }

    /// "Query: 24, 23, 19, 22", and the source's four orders at each parameter.
    fn values(&self, order: usize, parameters: &[f64]) -> Result<Vec<f64>, (usize, Option<usize>)> {
        if !self.curve.well_formed() {
            return Err((24, None));
        }
        if order > 3 {
            return Err((23, None));
        }
        let needed = self.curve.d * parameters.len();
        if self.lengths[..=order].iter().any(|n| *n < needed) {
            return Err((19, None));
        }
        let mut answered_at = Vec::new();
        for (i, x) in parameters.iter().enumerate() {
            answered_at.push(self.ranged(*x).ok_or((22, Some(i)))?);
        }
        let mut values = reach::evaluate(&self.curve.formed(), &answered_at);
        let d = self.curve.d;
        for (x, orders) in parameters.iter().zip(values.chunks_exact_mut(4 * d)) {
            if *x < self.curve.start || self.curve.end < *x {
                orders[d..].fill(0.);
            }
        }
        Ok(values)
    }

    /// "Mode Error refuses a parameter outside start to end"; 22 for a NaN in both modes. "Outside start to
    /// end, Clamp keeps the end's value and gives +0 for derivatives one to three" (document 02, request 2).
    fn ranged(&self, x: f64) -> Option<f64> {
        let (start, end) = (self.curve.start, self.curve.end);
        if x.is_nan() {
            None
        } else if start <= x && x <= end {
            Some(x)
        } else if self.clamp {
            Some(if x < start { start } else { end })
        } else {
            None
        }
    }
}
