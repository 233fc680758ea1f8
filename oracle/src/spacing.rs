//! Where the parameters of waypoints come from: a list, or the rule of spacing of document 02, request 3.

/// Version 1 of the rule is even, version 2 goes by the chords; a list overrides both. The numbers are the
/// parameter modes of a case.
#[derive(Clone, Copy, Debug, PartialEq, Eq)]
pub enum Spacing {
    Even = 0,
    Listed = 1,
    Chord = 2,
}

impl Spacing {
    /// The spacing of a case's parameter mode.
    pub fn of_mode(mode: usize) -> Option<Self> {
        [Self::Even, Self::Listed, Self::Chord].get(mode).copied()
    }
}

/// "parameters start at 0 and grow by the root of the sum of squared differences, rows summed lowest first"; "every
/// row counts". Each step is rounded once, and nothing is divided by the total.
pub fn chords(points: &[f64], d: usize, n: usize) -> Vec<f64> {
    let mut list = Vec::with_capacity(n);
    let mut parameter = 0.;
    for i in 0..n {
        if i > 0 {
            let mut sum = 0.;
            for row in 0..d {
                let difference = points[i * d + row] - points[(i - 1) * d + row];
                sum += difference * difference;
            }
            parameter += sum.sqrt();
        }
        list.push(parameter);
    }
    list
}
