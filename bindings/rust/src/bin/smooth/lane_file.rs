//! A lane file: a curve without the waypoints that it was made of, and what can be told of it.

use crate::columns::Columns;
use crate::heights;
use crate::names::{self, Names};
use crate::options::Options;
use crate::report::{advice, reason, table};
use crate::sampled::Sampled;
use crate::sets::{set_of, sets};
use crate::{counted, number};
use pamitoye::{OutOfRangeMode, Path, PathError};
use std::fmt::Write;

pub struct LaneFile {
    pub names: Names,
    pub path: Path,
    /// How many bytes it has.
    bytes: usize,
    /// The axis whose heights are asked for, if they are.
    pub height_axis: Option<usize>,
    /// Whether it is driven back.
    pub back: bool,
}

impl LaneFile {
    /// Reads it; or the words of the refusal.
    pub fn read(name: &str, bytes: &[u8]) -> Result<Self, String> {
        let count = bytes.len();
        let path = Path::from_lane_file(bytes).map_err(|error| {
            let head = format!("{name}: {}\n", counted(count, "byte"));
            head + &reason(&error) + &advice(remedy(&error))
        })?;
        Ok(Self {
            names: Names {
                input: name.to_string(),
                axes: (0..path.dim()).map(names::column).collect(),
                parameter: names::PARAMETER.to_string(),
            },
            path,
            bytes: count,
            height_axis: None,
            back: false,
        })
    }

    /// The same with the axis whose heights are asked for.
    pub fn with_heights(self, options: &Options) -> Result<Self, String> {
        let axes: Vec<usize> = (0..self.path.dim()).collect();
        let height_axis = Columns::numbered(axes.len()).height_axis(options, &axes)?;
        Ok(Self {
            height_axis,
            ..self
        })
    }

    /// The lane driven back; or the words of the refusal.
    pub fn reversed(&self) -> Result<Self, String> {
        let path = self.path.reversed().map_err(|error| self.refusal(&error))?;
        Ok(Self {
            names: self.names.back(),
            path,
            back: true,
            ..*self
        })
    }

    /// The words of a refusal of what was read.
    pub fn refusal(&self, error: &PathError) -> String {
        let remedy = match error {
            PathError::NotRising => self.too_close(),
            PathError::HeightTooLarge => self.too_high(),
            _ => remedy(error),
        };
        self.head() + &reason(error) + &advice(remedy)
    }

    /// The first line: what was read.
    fn head(&self) -> String {
        format!("{}: {}\n", self.names.input, self.made())
    }

    /// What it is, in words.
    pub fn made(&self) -> String {
        let (bytes, axes) = (counted(self.bytes, "byte"), crate::axes(self.path.dim()));
        format!("lane file of {bytes}, {axes}")
    }

    /// The curve on every interval between ends of segments.
    pub fn sampled(&self) -> Result<Sampled, PathError> {
        let sets = sets(&self.path);
        let mut ends: Vec<f64> = sets.iter().flat_map(|set| set.ends(&self.path)).collect();
        ends.sort_by(f64::total_cmp);
        ends.dedup();
        Sampled::new(&self.path, &ends)
    }

    /// What the file tells, and what it does not.
    pub fn report(&self) -> Result<String, PathError> {
        let (path, names) = (&self.path, &self.names);
        let (start, end) = path.s_range();
        let mut text = self.head();
        let mode = match path.out_of_range_mode() {
            OutOfRangeMode::Error => "mode error: past its ends samples are refused",
            OutOfRangeMode::Clamp => "mode clamp: past its ends the lane stands still",
        };
        let (first, last) = (number(start), number(end));
        let _ = writeln!(text, "parameter from {first} to {last}; {mode}");
        if self.back {
            let (back, out) = (&names.parameter, names::PARAMETER);
            let _ = writeln!(text, "driven back: {back} is {first} + ({last} - {out})");
        }
        let [smoothed, others] = sets(path);
        for (words, set) in [("smoothed", &smoothed), ("not smoothed", &others)] {
            if !set.axes.is_empty() {
                let segments = counted(set.segments(), "segment");
                let _ = writeln!(text, "{words}: {}; {segments}", names.joined(&set.axes));
            }
        }
        text += &self.not_finite();
        text.push('\n');
        let values = path.evaluate_q(&[start, end])?.q;
        let (at_start, at_end) = values.split_at_checked(path.dim()).unwrap_or_default();
        let column = |values: &[f64]| values.iter().map(|x| number(*x)).collect();
        text += &table(&[
            ("axis", names.axes.clone()),
            ("at the start", column(at_start)),
            ("at the end", column(at_end)),
        ]);
        text += "\na lane file has no waypoints, so that nothing is certified here: certify the lane in the program that has them.\n";
        Ok(text)
    }

    /// The warning about coefficients that are not finite, if there are any.
    fn not_finite(&self) -> String {
        let sets = sets(&self.path);
        let pieces = || sets.iter().flat_map(|set| set.pieces());
        let all: usize = pieces().map(|piece| piece.powers.len()).sum();
        let count: usize = pieces().map(|piece| wrong(piece.powers)).sum();
        if count == 0 {
            return String::new();
        }
        let mut axes: Vec<usize> = pieces()
            .filter(|piece| wrong(piece.powers) > 0)
            .map(|piece| piece.axis)
            .collect();
        axes.sort_unstable();
        axes.dedup();
        let names = self.names.joined(&axes);
        format!(
            "warning: coefficients that are not finite: {count} of {all}, in {names}; \
             no value of their segments is finite\n"
        )
    }

    /// The first end of a segment where the valve does not take the coordinate. No offset helps against one that is not finite.
    fn too_high(&self) -> Option<String> {
        let (axis, sets) = (self.height_axis?, sets(&self.path));
        let set = set_of(&sets, axis)?;
        let name = self.names.axis(axis);
        let mut pieces = set.pieces().filter(|piece| piece.axis == axis);
        if let Some(piece) = pieces.find(|piece| wrong(piece.powers) > 0) {
            let segment = piece.segment;
            return Some(format!(
                "the lane smoothed anew; coefficients of {name} on segment {segment} are not finite"
            ));
        }
        let ends = set.ends(&self.path);
        let values = self.path.evaluate_q(&ends).ok()?.q;
        let values = values.iter().skip(axis).step_by(self.path.dim().max(1));
        let mut ends = ends.iter().zip(values);
        let place = match ends.find(|(_, it)| heights::too_large(**it)) {
            Some((x, it)) => {
                let (x, it) = (number(*x), number(*it));
                format!("at {} {x} it is {it}", self.names.parameter)
            }
            None => "where segments end it is, but not all controls between".to_string(),
        };
        Some(heights::remedy(name, &place))
    }

    /// The first two breaks that are one number on the way back.
    fn too_close(&self) -> Option<String> {
        let sets = sets(&self.path);
        let mut pairs = sets.iter().flat_map(|set| set.breaks.windows(2));
        let [left, right] = pairs.find_map(|pair| match pair {
            [left, right] if 1. - left <= 1. - right => Some([left, right]),
            _ => None,
        })?;
        let (left, right) = (number(*left), number(*right));
        Some(format!(
            "the lane smoothed anew with waypoints that are further apart; \
             breaks {left} and {right} are one number on the way back"
        ))
    }
}

/// How many of these are not finite.
fn wrong(numbers: &[f64]) -> usize {
    numbers.iter().filter(|x| !x.is_finite()).count()
}

fn remedy(error: &PathError) -> Option<String> {
    let words = match error {
        PathError::DoesNotRead => {
            "the file copied again, or written anew; without --from-lane-file if it is a CSV file"
        }
        PathError::Malformed => "the file written anew: it is whole, but what it holds is no lane",
        PathError::OutOfRangeS { .. } => {
            "--from and --to within the parameter's range: the file's mode is error"
        }
        _ => return None,
    };
    Some(words.to_string())
}
