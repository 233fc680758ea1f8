//! Compares the proved functions with Rust's own, bit for bit, and measures both: README.md.

// `smoothing.rs` says `use nalgebra::DMatrixView`: this crate stands in for nalgebra.
extern crate self as nalgebra;
pub(crate) use standin::DMatrixView;

mod builds;
mod certificates;
mod declared;
mod heights;
mod lane_files;
mod leaves;
mod numbers;
mod queries;
mod spacings;
mod times;
mod ways_back;

// The oracle's: what the source takes from elsewhere, requests with their generator, and what its appendix hands out.
#[path = "../../oracle/src/case.rs"]
#[allow(dead_code)]
mod case;
#[path = "../../oracle/src/certificate.rs"]
#[allow(dead_code)]
mod certificate;
#[path = "../../oracle/src/generate/chords.rs"]
mod chords;
#[path = "../../oracle/src/generate/damage.rs"]
#[allow(dead_code)]
mod damage;
#[path = "../../oracle/src/handed.rs"]
#[allow(dead_code)]
mod handed;
#[path = "../../oracle/src/generate/known.rs"]
mod known;
#[path = "../../oracle/src/port.rs"]
#[allow(dead_code)]
mod port;
#[path = "../../oracle/src/query.rs"]
#[allow(dead_code)]
mod query;
#[path = "../../oracle/src/random.rs"]
#[allow(dead_code)]
mod random;
#[path = "../../oracle/src/refusal.rs"]
mod refusal;
#[path = "../../oracle/src/request.rs"]
#[allow(dead_code)]
mod request;
#[path = "../../oracle/src/returned.rs"]
#[allow(dead_code)]
mod returned;
#[path = "../../oracle/src/generate/returns.rs"]
#[allow(dead_code)]
mod returns;
#[path = "../../oracle/src/spacing.rs"]
#[allow(dead_code)]
mod spacing;
#[path = "../../oracle/src/standin.rs"]
#[allow(dead_code)]
mod standin;

/// Where `smoothing.rs` looks for its error.
mod diag {
    pub(crate) use crate::standin::PathError;
}

/// The module that `smoothing.rs` belongs to.
mod path {
    pub(crate) use crate::standin::OutOfRangeMode;
    include!(concat!(env!("OUT_DIR"), "/load.rs"));
}

fn main() {
    let wanted = std::env::args().nth(1);
    let asked = |name: &str| wanted.as_deref().is_none_or(|w| w == name);
    if asked("leaves") {
        leaves::run();
    }
    if asked("queries") {
        queries::run();
    }
    if asked("returns") {
        ways_back::run();
    }
    if asked("builds") {
        builds::run();
    }
    if asked("certificates") {
        certificates::run();
    }
    if asked("spacings") {
        spacings::run();
    }
    if asked("lane_files") {
        lane_files::run();
    }
    if asked("heights") {
        heights::run();
    }
}
