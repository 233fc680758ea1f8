//! Sizes; what a request asks for, and what an accepted one reports.

use crate::ffi;

/// The most axes (d) that a request may have.
pub const MAX_AXES: usize = 16;
/// The most waypoints (n) that a request may have.
pub const MAX_WAYPOINTS: usize = 20_000;
/// The largest [`SmoothingConfig::max_segments`].
pub const MAX_SEGMENTS: usize = 20_000;
/// The largest [`SmoothingConfig::max_refinements`].
pub const MAX_REFINEMENTS: usize = 200;
/// How many heights a segment has: one for each step from 0 to 256, see [`Path::heights`](crate::Path::heights).
pub const HEIGHTS_PER_SEGMENT: usize = 257;

/// How far a smoothed axis may lie from its line, in the units of its coordinates.
#[derive(Clone, Debug, PartialEq)]
pub enum SmoothingTolerance {
    /// The same for every smoothed axis.
    Uniform(f64),
    /// One for each smoothed axis, in the order of [`SmoothingConfig::axes`].
    PerAxis(Vec<f64>),
}

impl From<f64> for SmoothingTolerance {
    fn from(tolerance: f64) -> Self {
        Self::Uniform(tolerance)
    }
}

/// What a query outside the parameters' range is answered with.
#[derive(Clone, Copy, Debug, PartialEq, Eq)]
pub enum OutOfRangeMode {
    /// A refusal.
    Error,
    /// The value at the nearer end, and +0 for every derivative: past its ends the curve stands still. At
    /// the ends themselves the derivatives are the curve's own. A NaN is refused all the same.
    Clamp,
}

/// The rule that spaces the parameters of waypoints where none are listed.
#[derive(Clone, Copy, Debug, Default, PartialEq, Eq)]
pub enum Spacing {
    /// Version 1 of the rule: even from 0 to 1. Parameter i of n is i / (n - 1).
    #[default]
    Even,
    /// Version 2: by chord length. The first parameter is 0, and each further one is the one before it plus the chord, the
    /// distance of the two waypoints over all axes, also those that are not smoothed. Nothing is divided by the total: the
    /// last parameter is the length of the line through the waypoints.
    ///
    /// [`chord_parameters`](crate::chord_parameters) has the list. It is refused, with
    /// [`PathError::BadChords`](crate::PathError::BadChords) (5), where two neighbours are at the same place.
    Chord,
}

impl Spacing {
    /// The library's number for this rule, or for a list where there is one.
    pub(crate) fn number(self, list: Option<&[f64]>) -> u64 {
        match (list, self) {
            (Some(_), _) => ffi::LISTED,
            (None, Self::Even) => ffi::EVEN,
            (None, Self::Chord) => ffi::CHORD,
        }
    }
}

/// How waypoints are to be smoothed. The fields and their defaults are copp's, but for `spacing`, which copp does not have.
///
/// ```
/// use pamitoye::{SmoothingConfig, SmoothingTolerance};
///
/// let config = SmoothingConfig {
///     axes: Some(vec![0, 2]),
///     tolerance: SmoothingTolerance::PerAxis(vec![0.001, 0.01]),
///     ..Default::default()
/// };
/// assert_eq!(config.max_segments, 20_000);
/// ```
#[derive(Clone, Debug, PartialEq)]
pub struct SmoothingConfig {
    /// The tolerance; 0.001 for every axis unless given.
    pub tolerance: SmoothingTolerance,
    /// The axes to smooth, distinct, in the order of the report; `None`, the default, is all of them. The others pass
    /// through every waypoint.
    pub axes: Option<Vec<usize>>,
    /// A parameter for each waypoint, strictly rising; `None`, the default, leaves them to `spacing`.
    pub parameters: Option<Vec<f64>>,
    /// The rule that spaces the parameters, read where none are listed; even, as in copp, unless given. copp has no such
    /// field: what [`Spacing::Chord`] gives here, copp gives, bit for bit, with
    /// [`chord_parameters`](crate::chord_parameters) listed.
    pub spacing: Spacing,
    /// How many rounds of refinement are allowed, at most [`MAX_REFINEMENTS`]; 20 unless given.
    pub max_refinements: usize,
    /// How many segments the smoothed axes may have, at most [`MAX_SEGMENTS`]; 20,000 unless given.
    pub max_segments: usize,
    /// What a query outside the range is answered with; a refusal unless given.
    pub out_of_range_mode: OutOfRangeMode,
}

impl Default for SmoothingConfig {
    fn default() -> Self {
        Self {
            tolerance: SmoothingTolerance::Uniform(0.001),
            axes: None,
            parameters: None,
            spacing: Spacing::Even,
            max_refinements: 20,
            max_segments: MAX_SEGMENTS,
            out_of_range_mode: OutOfRangeMode::Error,
        }
    }
}

/// What a build did. The fields are copp's, and their values are too, bit for bit.
#[derive(Clone, Debug, PartialEq)]
pub struct SmoothingReport {
    /// The smoothed axes, as they were listed.
    pub axes: Vec<usize>,
    /// How many segments the smoothed axes have.
    pub segments: usize,
    /// How many segments the other axes have, 0 if every axis is smoothed.
    pub interpolated_segments: usize,
    /// How many rounds of refinement there were.
    pub refinements: usize,
    /// How many rows were fitted, in all rounds.
    pub fitting_rows: usize,
    /// How many waypoint intervals were audited, in all rounds and at the end.
    pub checked_intervals: usize,
    /// For each smoothed axis the largest error that the final audit found, in the order of `axes`. It was computed with
    /// rounding; [`Path::certify`](crate::Path::certify) gives a figure that holds.
    pub max_errors: Vec<f64>,
}
