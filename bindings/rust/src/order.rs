//! Which lane is cut first.

use crate::curve;
use std::fmt;

/// The most lanes that can be ordered.
pub const MAX_LANES: usize = 64;
/// The most pairs that can be handed in, repeated ones counted.
pub const MAX_PAIRS: usize = 1024;

/// Why no order was given. Each case has the number that the library gives it, see
/// [`number`](OrderError::number).
#[derive(Clone, Copy, Debug, PartialEq, Eq)]
#[non_exhaustive]
pub enum OrderError {
    /// 18: more than [`MAX_LANES`] lanes or [`MAX_PAIRS`] pairs.
    AboveLimits,
    /// 31: a pair names a lane that is not below the number of lanes.
    NoSuchLane,
    /// 19: the slice has fewer cells than there are lanes, or there is no memory for one.
    ShortSlice,
    /// 32: no order meets all pairs.
    Ring,
    /// A number that this crate does not know: the archive is of another version.
    Unknown(u64),
}

impl OrderError {
    /// The refusal's number.
    pub fn number(&self) -> u64 {
        match *self {
            Self::AboveLimits => 18,
            Self::ShortSlice => 19,
            Self::NoSuchLane => 31,
            Self::Ring => 32,
            Self::Unknown(number) => number,
        }
    }

    fn of_number(number: u64) -> Self {
        match number {
            18 => Self::AboveLimits,
            19 => Self::ShortSlice,
            31 => Self::NoSuchLane,
            32 => Self::Ring,
            other => Self::Unknown(other),
        }
    }
}

impl fmt::Display for OrderError {
    fn fmt(&self, f: &mut fmt::Formatter<'_>) -> fmt::Result {
        match *self {
            Self::AboveLimits => {
                write!(
                    f,
                    "at most {MAX_LANES} lanes and {MAX_PAIRS} pairs are taken"
                )
            }
            Self::NoSuchLane => f.write_str("a pair names a lane that is not there"),
            Self::ShortSlice => {
                f.write_str("the slice for the order is too short, or there is no memory for it")
            }
            Self::Ring => f.write_str("no order meets all pairs: they form a ring"),
            Self::Unknown(number) => {
                write!(f, "the library refused with the unknown number {number}")
            }
        }
    }
}

impl std::error::Error for OrderError {}

/// The cutting order of the lanes `0 .. lanes` that takes the lowest-numbered ready lane each time. A pair `[a, b]` says
/// that lane a is cut before lane b; a lane is ready once every lane that has to come before it is cut.
///
/// The order meets all pairs, and any other that does has a higher-numbered lane at the first place that differs. It is
/// refused as a [ring](OrderError::Ring) exactly where no order meets all pairs. Neither the order of the pairs matters
/// nor whether one is repeated; a lane before itself is a ring.
///
/// ```
/// use pamitoye::{OrderError, cutting_order};
///
/// assert_eq!(cutting_order(4, &[[3, 0], [2, 1]]), Ok(vec![2, 1, 3, 0]));
/// assert_eq!(cutting_order(2, &[[0, 1], [1, 0]]), Err(OrderError::Ring));
/// ```
pub fn cutting_order(lanes: usize, pairs: &[[usize; 2]]) -> Result<Vec<usize>, OrderError> {
    let mut order = Vec::new();
    // More lanes are refused whatever the slice: no memory is asked for.
    if lanes <= MAX_LANES {
        order
            .try_reserve_exact(lanes)
            .map_err(|_| OrderError::ShortSlice)?;
        order.resize(lanes, 0);
    }
    cutting_order_into(lanes, pairs, &mut order)?;
    Ok(order)
}

/// [`cutting_order`] into the first cells of `order`, one for each lane. The cells behind them are unchanged; a refusal
/// changes none.
pub fn cutting_order_into(
    lanes: usize,
    pairs: &[[usize; 2]],
    order: &mut [usize],
) -> Result<(), OrderError> {
    match curve::cutting_order(lanes, pairs, order) {
        0 => Ok(()),
        number => Err(OrderError::of_number(number)),
    }
}

#[cfg(test)]
mod tests {
    use super::*;

    #[test]
    fn a_number_names_its_case() {
        for number in [18, 19, 31, 32, 77] {
            let error = OrderError::of_number(number);
            assert_eq!(error.number(), number);
            assert!(!error.to_string().is_empty());
        }
    }
}
