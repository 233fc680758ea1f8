//! Document 01's numbers for the messages of the source.

use crate::diag::PathError;

/// A refusal by its number; number 14 carries the worst ratio of error to tolerance.
#[derive(Clone, Copy, Debug)]
pub struct Refusal {
    pub number: usize,
    pub ratio: Option<f64>,
}

const MESSAGES: [(usize, &str); 16] = [
    (
        1,
        "expected finite (dim, n_points) matrix, dim > 0, n_points >= 2",
    ),
    (2, "axes must not be empty"),
    (3, "axes must be distinct valid indices"),
    (4, "positive tolerance required for each selected axis"),
    (
        5,
        "parameters must be finite, strictly increasing and match the point count",
    ),
    (6, "parameter range cannot be represented reliably"),
    (7, "coordinate/tolerance scale overflow"),
    (8, "initial segment budget exceeded"),
    (9, "unsupported knot layout"),
    (10, "non-positive banded factorization"),
    (11, "non-finite coefficients"),
    (12, "parameter resolution exhausted during audit"),
    (13, "non-finite interval error bound"),
    (15, "refinement segment budget exceeded"),
    (16, "parameter resolution exhausted"),
    (17, "final physical-unit interval audit failed"),
];

/// The beginning of message 14. What follows is the ratio in the shortest decimal
/// digits that read back as the same number.
const MESSAGE_14: &str = "refinement limit reached; error/tolerance=";

impl From<usize> for Refusal {
    /// A refusal that carries nothing.
    fn from(number: usize) -> Self {
        Self {
            number,
            ratio: None,
        }
    }
}

impl From<PathError> for Refusal {
    fn from(PathError::Smoothing { message }: PathError) -> Self {
        if let Some(ratio) = message.strip_prefix(MESSAGE_14) {
            return Self {
                number: 14,
                ratio: Some(ratio.parse().expect("a ratio")),
            };
        }
        let known = MESSAGES.iter().find(|m| m.1 == message);
        known
            .unwrap_or_else(|| panic!("unknown message {message:?}"))
            .0
            .into()
    }
}
