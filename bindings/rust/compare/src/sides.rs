//! A request for both sides, and when numbers are alike.

use crate::path;
use crate::path::smoothing as source;
use crate::request::Request;
use pamitoye::{
    OutOfRangeMode, Path, PathError, SmoothingConfig, SmoothingTolerance, Spacing, Workspace,
};

/// The same bits, or both a NaN.
pub fn same(a: f64, b: f64) -> bool {
    a.to_bits() == b.to_bits() || a.is_nan() && b.is_nan()
}

/// As many numbers, each the same.
pub fn alike(a: &[f64], b: &[f64]) -> bool {
    a.len() == b.len() && a.iter().zip(b).all(|(a, b)| same(*a, *b))
}

/// The source's configuration as the crate's.
pub fn config(config: &source::SmoothingConfig) -> SmoothingConfig {
    SmoothingConfig {
        tolerance: match &config.tolerance {
            source::SmoothingTolerance::Uniform(x) => SmoothingTolerance::Uniform(*x),
            source::SmoothingTolerance::PerAxis(list) => SmoothingTolerance::PerAxis(list.clone()),
        },
        axes: config.axes.clone(),
        parameters: config.parameters.clone(),
        spacing: Default::default(),
        max_refinements: config.max_refinements,
        max_segments: config.max_segments,
        out_of_range_mode: match config.out_of_range_mode {
            path::OutOfRangeMode::Error => OutOfRangeMode::Error,
            path::OutOfRangeMode::Clamp => OutOfRangeMode::Clamp,
        },
    }
}

/// The request's configuration as the crate's, by chords where the request is.
fn config_of(request: &Request) -> SmoothingConfig {
    let spacing = match request.chord {
        true => Spacing::Chord,
        false => Spacing::Even,
    };
    SmoothingConfig {
        spacing,
        ..config(&request.config)
    }
}

/// The crate's answer to a request.
pub fn build(request: &Request) -> Result<Path, PathError> {
    let shape = (request.d, request.n);
    Path::from_waypoints_fitting(&request.points, shape, config_of(request))
}

/// The same with memory that is kept.
pub fn build_in(workspace: &mut Workspace, request: &Request) -> Result<Path, PathError> {
    let (shape, config) = ((request.d, request.n), config_of(request));
    Path::from_waypoints_fitting_in(workspace, &request.points, shape, &config)
}
