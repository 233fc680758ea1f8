//! Waypoints smoothed into quintic segments within a tolerance, by proved code.
//!
//! The crate calls the library `pamitoye`: copp's smoothing module, ported to Rattle, with a proof for each function. Names and
//! results are those of copp's `path` module, so that a program on copp changes an import and hands its matrix in as
//! a slice with its shape:
//!
//! ```
//! use pamitoye::{Path, SmoothingConfig};
//!
//! // Two axes, four waypoints, one after the other.
//! let points = [0.0, 0.0, 1.0, 0.4, 2.0, 0.1, 3.0, 0.5];
//! let config = SmoothingConfig { tolerance: 0.05.into(), ..Default::default() };
//! let path = Path::from_waypoints_fitting(&points, (2, 4), config)?;
//!
//! let at = path.evaluate_up_to_3rd(&[0.0, 0.5, 1.0])?;
//! assert_eq!(at.q.len(), 6);
//! for (axis, error) in path.smoothing_report().map_or(&[][..], |r| &r.max_errors).iter().enumerate() {
//!     assert!(*error <= 0.05);
//!     // What no point of the axis exceeds, proved; the report's error is what an audit in f64 found.
//!     assert!(path.certify(axis, 0, &points, None)?.is_some_and(|figure| figure < 0.051));
//! }
//! # Ok::<(), pamitoye::PathError>(())
//! ```
//!
//! # What differs from copp
//!
//! - Waypoints are a slice and a shape, answers are lists: nalgebra is not needed. Cells lie as in nalgebra's matrices.
//! - [`PathError`] has a case for each reason, with its [number](PathError::number).
//! - [`SmoothingConfig`] has one field more, `spacing`: where a program names all of copp's fields, it adds
//!   `..Default::default()`.
//! - Sizes above [`MAX_AXES`], [`MAX_WAYPOINTS`], [`MAX_SEGMENTS`] and [`MAX_REFINEMENTS`] are refused.
//! - New: [`Path::certify`], [`Path::evaluate_into`] and [`Path::evaluate_at`], the breaks, the coefficients and the
//!   widths, [`Workspace`]; [`Spacing::Chord`], parameters by chord length, with [`chord_parameters`];
//!   [`Path::reversed`], the lane driven back, with [`reversed_waypoints`]; [`Path::heights`], an axis in whole hundredths
//!   for a valve; [`Path::to_lane_file`] and [`Path::from_lane_file`], the curve as bytes; and [`cutting_order`], which lane
//!   is cut first.
//!
//! # What is relied on
//!
//! No function panics, on any input. A [`Path`] is made by an accepted build, by [`Path::from_lane_file`], which tests what
//! it reads, or by [`Path::reversed`] alone and never changes, so queries need not test its curve again. The proofs cover
//! the library; this crate, which lends it memory, is not proved. Its `unsafe` blocks stand in one module, each with its
//! reason.

#![deny(missing_docs)]
#![deny(unsafe_code)]
#![deny(unsafe_op_in_unsafe_fn)]
#![deny(clippy::undocumented_unsafe_blocks)]
#![deny(clippy::unwrap_used, clippy::expect_used, clippy::panic)]
#![deny(clippy::indexing_slicing, clippy::arithmetic_side_effects)]

mod config;
#[allow(unsafe_code)]
mod curve;
mod error;
#[allow(unsafe_code)]
mod ffi;
mod order;
mod path;
mod workspace;

pub use config::{
    HEIGHTS_PER_SEGMENT, MAX_AXES, MAX_REFINEMENTS, MAX_SEGMENTS, MAX_WAYPOINTS, OutOfRangeMode,
    SmoothingConfig, SmoothingReport, SmoothingTolerance, Spacing,
};
pub use error::PathError;
pub use order::{MAX_LANES, MAX_PAIRS, OrderError, cutting_order, cutting_order_into};
pub use path::{Path, PathDerivatives, chord_parameters, reversed_waypoints};
pub use workspace::Workspace;
