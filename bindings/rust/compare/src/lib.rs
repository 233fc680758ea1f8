//! The crate `pamitoye` against the unchanged source, compiled as the oracle does it: compared in the tests, measured by
//! the program `measure`. Without the source there is nothing here.
#![cfg(smoothing_source)]

// `smoothing.rs` says `use nalgebra::DMatrixView`: this crate stands in for nalgebra.
extern crate self as nalgebra;
pub(crate) use standin::DMatrixView;

pub mod measure;
pub mod memory;
#[cfg(test)]
mod pairs;
mod sides;
#[cfg(test)]
mod tests;

// The oracle's: what the source takes from elsewhere, requests with their generator, and what its appendix hands out.
#[path = "../../../../oracle/src/case.rs"]
#[allow(dead_code)]
mod case;
#[path = "../../../../oracle/src/certificate.rs"]
#[allow(dead_code)]
mod certificate;
#[path = "../../../../oracle/src/handed.rs"]
#[allow(dead_code)]
mod handed;
#[cfg(test)]
#[path = "../../../../oracle/src/generate/known.rs"]
mod known;
#[path = "../../../../oracle/src/port.rs"]
#[allow(dead_code)]
mod port;
#[path = "../../../../oracle/src/query.rs"]
#[allow(dead_code)]
mod query;
#[path = "../../../../oracle/src/random.rs"]
#[allow(dead_code)]
mod random;
#[path = "../../../../oracle/src/refusal.rs"]
#[allow(dead_code)]
mod refusal;
#[path = "../../../../oracle/src/request.rs"]
#[allow(dead_code)]
mod request;
#[path = "../../../../oracle/src/returned.rs"]
#[allow(dead_code)]
mod returned;
#[path = "../../../../oracle/src/spacing.rs"]
#[allow(dead_code)]
mod spacing;
#[path = "../../../../oracle/src/standin.rs"]
#[allow(dead_code)]
mod standin;

// Requests with odd numbers, which the crate's own tests draw too.
#[cfg(test)]
#[path = "../../tests/odd/mod.rs"]
mod odd;

/// Where `smoothing.rs` looks for its error.
mod diag {
    pub(crate) use crate::standin::PathError;
}

/// The module that `smoothing.rs` belongs to.
mod path {
    pub(crate) use crate::standin::OutOfRangeMode;
    include!(concat!(env!("OUT_DIR"), "/load.rs"));
}
