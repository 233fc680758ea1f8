//! The program `lane`, as document 01 has it: the bytes of a job, the source's answer and its text.

use crate::answer::digits;
use crate::path::smoothing::SmoothingTolerance;
use crate::request::Request;
use std::fmt::Write;

/// d, n, max_refinements and max_segments may not be above these.
pub const LIMITS: [usize; 4] = [2, 100, 200, 100];

/// What the program prints for these bytes.
pub fn print(bytes: &[u8]) -> String {
    match read(bytes) {
        Ok(request) => print_build(&request),
        Err(number) => format!("refused {number}\n"),
    }
}

/// The request of a job, or the number of the refusal.
fn read(bytes: &[u8]) -> Result<Request, usize> {
    let mut rest = bytes;
    let mut counts = [0; 4];
    for count in &mut counts {
        *count = read_count(&mut rest).ok_or(25usize)?;
    }
    if counts
        .iter()
        .zip(LIMITS)
        .any(|(count, limit)| *count > limit)
    {
        return Err(18);
    }
    let [d, n, max_refinements, max_segments] = counts;
    if rest.len() != 8 * (1 + d * n) {
        return Err(25);
    }
    let mut numbers = rest
        .chunks_exact(8)
        .map(|eight| f64::from_le_bytes(eight.try_into().expect("eight bytes")));
    let tolerance = numbers.next().expect("a tolerance");
    let mut request = Request::of_rows(&[]);
    request.d = d;
    request.n = n;
    request.points = numbers.collect();
    request.config.tolerance = SmoothingTolerance::Uniform(tolerance);
    request.config.max_refinements = max_refinements;
    request.config.max_segments = max_segments;
    Ok(request)
}

/// A count in front of the bytes: groups of seven bits, low group first, the top bit set on all but
/// the last; at most three, and the last is 0 only where it is the only one.
fn read_count(rest: &mut &[u8]) -> Option<usize> {
    let length = 1 + rest.iter().take_while(|byte| **byte >= 128).count();
    if length > 3 || length > rest.len() {
        return None;
    }
    let (groups, after) = rest.split_at(length);
    if length > 1 && groups[length - 1] == 0 {
        return None;
    }
    *rest = after;
    let value = |sum, group: &u8| sum * 128 + usize::from(*group % 128);
    Some(groups.iter().rev().fold(0, value))
}

/// The bytes of a count, where it is below 128 to the power of three.
pub fn write_count(bytes: &mut Vec<u8>, count: usize) {
    let mut rest = count;
    while rest >= 128 {
        bytes.push((rest % 128) as u8 + 128);
        rest /= 128;
    }
    bytes.push(rest as u8);
}

/// The bytes of a job.
pub fn write(counts: [usize; 4], tolerance: f64, points: &[f64]) -> Vec<u8> {
    let mut bytes = Vec::new();
    for count in counts {
        write_count(&mut bytes, count);
    }
    for number in std::iter::once(&tolerance).chain(points) {
        bytes.extend(number.to_le_bytes());
    }
    bytes
}

/// The lines of the answer.
fn print_build(request: &Request) -> String {
    let mut text = String::new();
    match request.answer() {
        Ok(built) => {
            text.push_str("accepted");
            for count in built.counts {
                write!(text, " {count}").unwrap();
            }
            for error in built.max_errors {
                write!(text, "\n{}", digits(error)).unwrap();
            }
        }
        Err(refusal) => {
            write!(text, "refused {}", refusal.number).unwrap();
            if let Some(ratio) = refusal.ratio {
                write!(text, " {}", digits(ratio)).unwrap();
            }
        }
    }
    text.push('\n');
    text
}
