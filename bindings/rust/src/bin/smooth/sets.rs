//! The two sets of a path's axes, each with segments of its own.

use pamitoye::Path;

pub struct Set<'a> {
    pub name: &'static str,
    /// In the order of the coefficients.
    pub axes: Vec<usize>,
    /// The segments' ends, from 0 to 1.
    pub breaks: &'a [f64],
    coefficients: &'a [f64],
}

/// One axis on one segment.
pub struct Piece<'a> {
    pub axis: usize,
    pub segment: usize,
    /// The segment's breaks, left and right.
    pub ends: &'a [f64],
    /// The six coefficients, from power 0 up.
    pub powers: &'a [f64],
}

/// The smoothed axes, and the others.
pub fn sets(path: &Path) -> [Set<'_>; 2] {
    let smoothed = path.smoothed_axes();
    [
        Set {
            name: "smoothed",
            axes: smoothed.to_vec(),
            breaks: path.breaks(),
            coefficients: path.coefficients(),
        },
        Set {
            name: "other",
            axes: (0..path.dim()).filter(|a| !smoothed.contains(a)).collect(),
            breaks: path.other_breaks(),
            coefficients: path.other_coefficients(),
        },
    ]
}

impl<'a> Set<'a> {
    /// How many segments there are.
    pub fn segments(&self) -> usize {
        self.breaks.len().saturating_sub(1)
    }

    /// Every axis on every segment, in the order of the coefficients.
    pub fn pieces(&self) -> impl Iterator<Item = Piece<'a>> {
        let rows = self.coefficients.chunks_exact((6 * self.axes.len()).max(1));
        let segments = self.breaks.windows(2).zip(rows).enumerate();
        segments.flat_map(move |(segment, (ends, row))| {
            let axes = self.axes.iter().zip(row.chunks_exact(6));
            axes.map(move |(axis, powers)| Piece {
                axis: *axis,
                segment,
                ends,
                powers,
            })
        })
    }

    /// The parameters at which the segments end.
    pub fn ends(&self, path: &Path) -> Vec<f64> {
        let ends = self.breaks.iter().map(|b| parameter(path, *b));
        ends.collect()
    }
}

/// The set that has this axis.
pub fn set_of<'a, 'b>(sets: &'b [Set<'a>], axis: usize) -> Option<&'b Set<'a>> {
    sets.iter().find(|set| set.axes.contains(&axis))
}

/// The parameter at a place between the breaks, from 0 to 1: at 0 exactly the first one, at 1 the last, and none beyond it.
pub fn parameter(path: &Path, place: f64) -> f64 {
    let (start, end) = path.s_range();
    if place < 1. {
        (start + place * (end - start)).min(end)
    } else {
        end
    }
}
