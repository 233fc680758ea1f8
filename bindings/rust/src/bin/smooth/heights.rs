//! The heights of an axis for the blade valve: as CSV, in words, and where they are drawn.

use crate::csv::quoted;
use crate::lane::Lane;
use crate::names::Names;
use crate::sampled::line_at;
use crate::sets::{parameter, set_of, sets};
use crate::{counted, number};
use pamitoye::{HEIGHTS_PER_SEGMENT, Path, PathError};
use std::fmt::Write;

/// The coordinate in millimetres beyond which the valve takes no height.
const MOST: f64 = 20_000.;

pub struct Heights {
    pub axis: usize,
    /// The heights in hundredths, segment after segment.
    cells: Vec<i32>,
    /// The parameter of each of them.
    parameters: Vec<f64>,
}

/// A height, and where it is taken.
#[derive(Clone, Copy)]
struct Step {
    segment: usize,
    /// From 0 to 256.
    step: usize,
    parameter: f64,
    height: i32,
}

impl Heights {
    /// The heights of this axis of a path, if one is asked for.
    pub fn of(path: &Path, axis: Option<usize>) -> Result<Option<Self>, PathError> {
        let Some(axis) = axis else {
            return Ok(None);
        };
        let cells = path.heights(axis)?;
        let sets = sets(path);
        let breaks = set_of(&sets, axis).map_or(&[][..], |set| set.breaks);
        let places = breaks.windows(2).flat_map(places);
        let parameters = places.map(|place| parameter(path, place)).collect();
        Ok(Some(Self {
            axis,
            cells,
            parameters,
        }))
    }

    fn steps(&self) -> impl Iterator<Item = Step> {
        let cells = self.cells.iter().zip(&self.parameters).enumerate();
        cells.map(|(i, (height, parameter))| Step {
            segment: i / HEIGHTS_PER_SEGMENT,
            step: i % HEIGHTS_PER_SEGMENT,
            parameter: *parameter,
            height: *height,
        })
    }

    /// A line for each step.
    pub fn table(&self, names: &Names) -> String {
        let axis = quoted(&format!("{} in hundredths", names.axis(self.axis)));
        let mut text = format!("segment,step,{},{axis}\n", quoted(&names.parameter));
        for at in self.steps() {
            let (x, height) = (number(at.parameter), at.height);
            let _ = writeln!(text, "{},{},{x},{height}", at.segment, at.step);
        }
        text
    }

    /// The first of the lowest and the first of the highest.
    fn ends(&self) -> Option<[Step; 2]> {
        let lowest = self.steps().min_by_key(|at| at.height)?;
        let highest = self.steps().min_by_key(|at| -at.height)?;
        Some([lowest, highest])
    }

    /// How many there are, the lowest and the highest, and what no certified figure counts.
    pub fn report(&self, names: &Names) -> String {
        let segments = self.cells.len() / HEIGHTS_PER_SEGMENT;
        let mut text = format!(
            "heights of {}: {} in whole hundredths of a millimetre, steps 0 to 256 of {}; its coordinates are taken as millimetres\n",
            names.axis(self.axis),
            self.cells.len(),
            counted(segments, "segment")
        );
        for (word, at) in ["lowest", "highest"]
            .iter()
            .zip(self.ends().into_iter().flatten())
        {
            let _ = writeln!(
                text,
                "{word}: {} hundredths, {} mm, at {} {}, segment {}, step {}",
                at.height,
                millimetres(at.height),
                names.parameter,
                number(at.parameter),
                at.segment,
                at.step
            );
        }
        text += "a height may lie a hundredth from the curve: a certified figure, which is of the curve, does not count that\n";
        text
    }

    /// From the lowest to the highest.
    pub fn range(&self) -> String {
        let ends = self
            .ends()
            .map(|ends| ends.map(|at| millimetres(at.height)));
        let [lowest, highest] = ends.unwrap_or_default();
        format!("heights for the valve from {lowest} to {highest} mm")
    }

    /// Parameter and millimetres of the steps of each segment.
    pub fn places(&self) -> impl Iterator<Item = Vec<(f64, f64)>> {
        let cells = self.cells.chunks(HEIGHTS_PER_SEGMENT);
        let parameters = self.parameters.chunks(HEIGHTS_PER_SEGMENT);
        parameters.zip(cells).map(|(parameters, cells)| {
            let heights = cells.iter().map(|height| f64::from(*height) / 100.);
            parameters.iter().copied().zip(heights).collect()
        })
    }

    /// The same with the distance from the line instead of the height.
    pub fn distances(&self, lane: &Lane) -> impl Iterator<Item = Vec<(f64, f64)>> {
        self.places().map(|places| {
            let distance = |(x, y): (f64, f64)| (x, (y - line_at(lane, self.axis, x)).abs());
            places.into_iter().map(distance).collect()
        })
    }
}

/// The places of a segment's steps between its breaks: the breaks exactly at the first and the last.
fn places(ends: &[f64]) -> impl Iterator<Item = f64> {
    let (left, right) = match ends {
        [left, right] => (*left, *right),
        _ => (f64::NAN, f64::NAN),
    };
    (0..HEIGHTS_PER_SEGMENT).map(move |step| match step {
        0 => left,
        256 => right,
        step => (left + (right - left) * step as f64 / 256.).min(right),
    })
}

/// Hundredths of a millimetre as millimetres.
fn millimetres(height: i32) -> String {
    let (sign, size) = (if height < 0 { "-" } else { "" }, height.unsigned_abs());
    format!("{sign}{}.{:02}", size / 100, size % 100)
}

/// Whether the valve does not take this coordinate.
pub fn too_large(coordinate: f64) -> bool {
    !(-MOST..=MOST).contains(&coordinate)
}

/// What helps where a height of this axis is too large, and where that is.
pub fn remedy(axis: &str, place: &str) -> String {
    let most = number(MOST);
    format!(
        "an offset subtracted from {axis}, taken as millimetres, so that it stays within {most} (20 m); {place}"
    )
}

#[cfg(test)]
mod tests {
    use super::*;

    #[test]
    fn hundredths_have_two_decimals() {
        for (height, text) in [
            (0, "0.00"),
            (7, "0.07"),
            (-7, "-0.07"),
            (-123, "-1.23"),
            (2_000_000, "20000.00"),
        ] {
            assert_eq!(millimetres(height), text);
        }
    }

    /// Steps rise from break to break, also where a segment is as narrow as can be.
    #[test]
    fn steps_lie_between_the_breaks() {
        for ends in [[0., 1.], [0.1, 0.3], [0.5, 0.5f64.next_up()], [0., 5e-324]] {
            let places: Vec<f64> = places(&ends).collect();
            assert_eq!(places.len(), HEIGHTS_PER_SEGMENT);
            assert_eq!(
                places.first().zip(places.last()),
                Some((&ends[0], &ends[1]))
            );
            assert!(places.is_sorted());
        }
        let halves: Vec<f64> = places(&[0.25, 0.75]).collect();
        assert_eq!(halves.get(128), Some(&0.5));
    }

    #[test]
    fn the_valve_takes_20_metres() {
        assert!([20_000., -20_000., 0.].iter().all(|x| !too_large(*x)));
        let odd = [f64::NAN, f64::INFINITY, 20_000f64.next_up(), -20_001.];
        assert!(odd.iter().all(|x| too_large(*x)));
    }
}
