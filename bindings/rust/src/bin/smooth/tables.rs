//! Segments and samples as CSV.

use crate::csv::quoted;
use crate::names::Names;
use crate::number;
use crate::options::Options;
use crate::sets::sets;
use pamitoye::{Path, PathError};
use std::fmt::Write;

/// The segments of both sets.
pub fn segments(names: &Names, path: &Path) -> String {
    let mut text = "axis,set,segment,left,right,p0,p1,p2,p3,p4,p5\n".to_string();
    for set in sets(path) {
        for piece in set.pieces() {
            let (name, segment) = (quoted(names.axis(piece.axis)), piece.segment);
            let numbers = piece.ends.iter().chain(piece.powers);
            let numbers: Vec<String> = numbers.map(|x| number(*x)).collect();
            let _ = writeln!(text, "{name},{},{segment},{}", set.name, numbers.join(","));
        }
    }
    text
}

/// Values and three derivatives, evenly over the range that is asked for.
pub fn samples(options: &Options, names: &Names, path: &Path) -> Result<String, PathError> {
    let (start, end) = path.s_range();
    let (from, to) = (options.from.unwrap_or(start), options.to.unwrap_or(end));
    let last = options.count.saturating_sub(1).max(1);
    let parameters: Vec<f64> = (0..=last)
        .map(|i| match i {
            0 => from,
            i if i == last => to,
            i => {
                let part = i as f64 / last as f64;
                (from * (1. - part) + to * part).clamp(from.min(to), from.max(to))
            }
        })
        .collect();
    let lists = path.evaluate_up_to_3rd(&parameters)?;
    let orders = [Some(lists.q), lists.dq, lists.ddq, lists.dddq].map(Option::unwrap_or_default);
    let mut text = quoted(&names.parameter);
    for axis in &names.axes {
        for order in ["", " d1", " d2", " d3"] {
            let _ = write!(text, ",{}", quoted(&format!("{axis}{order}")));
        }
    }
    text.push('\n');
    for (i, x) in parameters.iter().enumerate() {
        text.push_str(&number(*x));
        for axis in 0..path.dim() {
            for order in &orders {
                let cell = order.get(i * path.dim() + axis).copied();
                let _ = write!(text, ",{}", number(cell.unwrap_or(f64::NAN)));
            }
        }
        text.push('\n');
    }
    Ok(text)
}
