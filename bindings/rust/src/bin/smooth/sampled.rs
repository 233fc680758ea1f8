//! The curve and the line at many parameters: what a picture draws, and where an axis is furthest from its line.

use crate::lane::Lane;
use pamitoye::{Path, PathError};

/// About how many parameters are taken, if there are fewer intervals.
const SAMPLES: usize = 4000;

/// The curve at parameters on every interval of a list, its ends included.
pub struct Sampled {
    pub parameters: Vec<f64>,
    /// The interval of each parameter, and how far in it lies, from 0 to 1.
    places: Vec<(usize, f64)>,
    /// Of each parameter, an axis after the other.
    values: Vec<f64>,
    /// How many axes there are.
    d: usize,
}

impl Sampled {
    /// The path on every interval between waypoints.
    pub fn of_lane(lane: &Lane, path: &Path) -> Result<Self, PathError> {
        Self::new(path, &lane.parameters)
    }

    /// The path on every interval between these parameters, which rise.
    pub fn new(path: &Path, list: &[f64]) -> Result<Self, PathError> {
        let intervals = list.len().saturating_sub(1);
        let at = |i: usize| list.get(i).copied().unwrap_or(f64::NAN);
        let steps = SAMPLES.checked_div(intervals).unwrap_or(0).max(2);
        let (start, end) = path.s_range();
        let mut places: Vec<(usize, f64)> = (0..intervals)
            .flat_map(|i| (0..steps).map(move |j| (i, j as f64 / steps as f64)))
            .collect();
        places.push((intervals.saturating_sub(1), 1.));
        let parameters: Vec<f64> = places
            .iter()
            .map(|(i, part)| between(at(*i), at(i + 1), *part).clamp(start, end))
            .collect();
        let values = path.evaluate_q(&parameters)?.q;
        Ok(Self {
            parameters,
            places,
            values,
            d: path.dim(),
        })
    }

    /// An axis's curve.
    pub fn curve(&self, axis: usize) -> Vec<(f64, f64)> {
        let values = self.values.iter().skip(axis).step_by(self.d.max(1));
        self.parameters
            .iter()
            .copied()
            .zip(values.copied())
            .collect()
    }

    /// An axis's distance from its line, where the intervals are those between the lane's waypoints.
    pub fn distance(&self, lane: &Lane, axis: usize) -> Vec<(f64, f64)> {
        let curve = self.curve(axis);
        let places = curve.iter().zip(&self.places);
        places
            .map(|((x, value), (i, part))| {
                let line = between(lane.point(*i, axis), lane.point(i + 1, axis), *part);
                (*x, (value - line).abs())
            })
            .collect()
    }

    /// Where that distance is largest; none if it is 0 everywhere.
    pub fn furthest(&self, lane: &Lane, axis: usize) -> Option<Spot> {
        let distances = self.distance(lane, axis);
        let mut furthest = None;
        let mut most = 0.;
        for ((parameter, distance), (interval, _)) in distances.into_iter().zip(&self.places) {
            if distance > most && distance.is_finite() {
                most = distance;
                furthest = Some(Spot {
                    parameter,
                    distance,
                    interval: *interval,
                });
            }
        }
        furthest
    }
}

/// A place on a lane.
pub struct Spot {
    pub parameter: f64,
    pub distance: f64,
    pub interval: usize,
}

impl Spot {
    /// The lines of the waypoints around it.
    pub fn between(&self, lane: &Lane) -> Option<String> {
        let left = lane.lines.get(self.interval)?;
        let right = lane.lines.get(self.interval + 1)?;
        Some(format!("between lines {left} and {right}"))
    }
}

/// An axis's line through the lane's waypoints at this parameter, which is within theirs.
pub fn line_at(lane: &Lane, axis: usize, x: f64) -> f64 {
    let above = lane.parameters.partition_point(|p| *p <= x);
    let right = above.clamp(1, lane.n().saturating_sub(1).max(1));
    let left = right - 1;
    let (from, to) = (lane.parameter(left), lane.parameter(right));
    let part = (x - from) / (to - from);
    between(lane.point(left, axis), lane.point(right, axis), part)
}

/// The number so far from `a` to `b`; the ends exactly.
fn between(a: f64, b: f64, part: f64) -> f64 {
    if part == 0. {
        a
    } else if part == 1. {
        b
    } else {
        a * (1. - part) + b * part
    }
}
