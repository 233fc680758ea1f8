//! A season: lane files one after another, each led by its byte count. The program `totals` adds up the heights of the first
//! axis over all of them (document 02, request 13).

use crate::counted;
use crate::report::{advice, reason};
use crate::sets::{Set, set_of, sets};
use pamitoye::{Path, PathError};
use std::fmt::Write;

/// The most bytes of a lane file, and the most lane files, that `totals` takes.
const MOST_BYTES: usize = 60_000;
const MOST_FILES: usize = 65_535;

/// The lane files that were put together so far.
#[derive(Default)]
pub struct Season {
    pub bytes: Vec<u8>,
    /// A line for each of them.
    lines: String,
    files: usize,
    /// Those that `totals` will count, and the segments of their first axes.
    lanes: usize,
    segments: usize,
}

impl Season {
    /// One lane file more; or the words of the refusal.
    pub fn add(&mut self, name: &str, file: &[u8]) -> Result<(), String> {
        let head = format!("{name}: {}", counted(file.len(), "byte"));
        if self.files == MOST_FILES {
            let head = format!("{head}, after {MOST_FILES} lane files");
            let why = format!("a season has at most {MOST_FILES} lane files");
            return Err(refused(&head, &why, "two seasons"));
        }
        if file.len() > MOST_BYTES {
            let why = format!("a lane file of a season has at most {MOST_BYTES} bytes");
            return Err(refused(&head, &why, too_long(file)));
        }
        let line = match segments(file) {
            Ok(segments) => {
                self.lanes += 1;
                self.segments += segments;
                of_first_axis(segments)
            }
            Err(
                error @ (PathError::DoesNotRead | PathError::Malformed | PathError::HeightTooLarge),
            ) => {
                format!("totals will turn it away ({}): {error}", error.number())
            }
            Err(error) => return Err(format!("{head}\n{}", reason(&error))),
        };
        let _ = writeln!(self.lines, "{name}: {line}");
        self.files += 1;
        add_groups(&mut self.bytes, file.len());
        self.bytes.extend_from_slice(file);
        Ok(())
    }

    /// What was put together, and what `totals` will count.
    pub fn report(&self, name: &str) -> String {
        let (files, bytes) = (
            counted(self.files, "lane file"),
            counted(self.bytes.len(), "byte"),
        );
        let (lanes, segments) = (self.lanes, of_first_axis(self.segments));
        let counts = format!("totals will count {lanes} of {files}, {segments}");
        format!("{name}: {files}, {bytes}\n{}{counts}\n", self.lines)
    }
}

/// Segments in words.
fn of_first_axis(segments: usize) -> String {
    counted(segments, "segment") + " of the first axis"
}

/// How many segments of its first axis a lane file has, if `totals` counts it.
fn segments(file: &[u8]) -> Result<usize, PathError> {
    let path = Path::from_lane_file(file)?;
    path.heights(0)?;
    Ok(set_of(&sets(&path), 0).map_or(0, Set::segments))
}

/// A count in groups of seven bits, the low ones first, with 128 added to all but the last.
fn add_groups(bytes: &mut Vec<u8>, count: usize) {
    let low = (count % 128) as u8;
    if count < 128 {
        bytes.push(low);
    } else {
        bytes.push(128 + low);
        add_groups(bytes, count / 128);
    }
}

/// The words of a refusal with 30, which is what `totals` would print.
fn refused(head: &str, why: &str, remedy: &str) -> String {
    format!("{head}\nrefused (30): {why}\n") + &advice(Some(remedy.to_string()))
}

/// What helps where a file is too long.
fn too_long(file: &[u8]) -> &'static str {
    match Path::from_lane_file(file) {
        Ok(_) => "fewer segments, by a larger --tolerance or fewer waypoints; or the lane in two",
        Err(_) => "another file: this one holds no lane",
    }
}

/// Refuses to write a season over a lane file: it was meant to be read, and the season's name is missing.
pub fn keep_lane_file(season: &std::path::Path) -> Result<(), String> {
    let lane = season.is_file()
        && std::fs::read(season).is_ok_and(|bytes| Path::from_lane_file(&bytes).is_ok());
    match lane {
        true => Err(format!(
            "{} is a lane file, and not written over: --season needs the name of the season before those of its lane files",
            season.display()
        )),
        false => Ok(()),
    }
}

#[cfg(test)]
mod tests {
    use super::*;
    use pamitoye::SmoothingConfig;

    /// The lane file of a straight line, whose second axis is not smoothed and has a segment from waypoint to waypoint.
    fn lane(waypoints: u32, scale: f64) -> Vec<u8> {
        let points: Vec<f64> = (0..waypoints)
            .flat_map(|i| [scale * f64::from(i), f64::from(i)])
            .collect();
        let config = SmoothingConfig {
            axes: Some(vec![0]),
            ..SmoothingConfig::default()
        };
        let path = Path::from_waypoints_fitting(&points, (2, waypoints as usize), config);
        path.and_then(|path| path.to_lane_file())
            .unwrap_or_default()
    }

    #[test]
    fn counts_are_in_groups_of_seven_bits() {
        for (count, groups) in [
            (0, &[0][..]),
            (127, &[127]),
            (128, &[128, 1]),
            (16_383, &[255, 127]),
            (16_384, &[128, 128, 1]),
            (60_000, &[224, 212, 3]),
        ] {
            let mut bytes = Vec::new();
            add_groups(&mut bytes, count);
            assert_eq!(bytes, groups);
        }
    }

    /// Each file is led by its count, also those that `totals` turns away.
    #[test]
    fn files_stand_one_after_another() {
        let (near, far) = (lane(2, 1.), lane(2, 30_000.));
        let mut season = Season::default();
        for (name, file) in [
            ("near", &near[..]),
            ("far", &far),
            ("none", &[]),
            ("again", &near),
        ] {
            assert_eq!(season.add(name, file), Ok(()));
        }
        let count = |file: &[u8]| vec![128 + (file.len() % 128) as u8, (file.len() / 128) as u8];
        let wanted = [
            count(&near),
            near.clone(),
            count(&far),
            far,
            vec![0],
            count(&near),
            near,
        ];
        assert_eq!(season.bytes, wanted.concat());
        let all = format!("all: 4 lane files, {} bytes", season.bytes.len());
        let lines = [
            &all,
            "near: 1 segment of the first axis",
            "far: totals will turn it away (28): a control of the axis is not finite or beyond 20000",
            "none: totals will turn it away (27): the bytes are no lane file",
            "again: 1 segment of the first axis",
            "totals will count 2 of 4 lane files, 2 segments of the first axis",
        ];
        let report = season.report("all");
        assert_eq!(report.lines().count(), lines.len());
        for (line, wanted) in report.lines().zip(lines) {
            assert!(line.starts_with(wanted), "{line}");
        }
    }

    #[test]
    fn a_file_has_at_most_60_000_bytes() {
        let mut season = Season::default();
        assert_eq!(season.add("zeros", &[0; MOST_BYTES]), Ok(()));
        assert_eq!(season.bytes.len(), MOST_BYTES + 3);
        let long = lane(1_100, 1.);
        assert!(long.len() > MOST_BYTES);
        for (file, remedy) in [
            (&[0; MOST_BYTES + 1][..], "another file"),
            (&long, "a larger --tolerance"),
        ] {
            let words = season.add("long", file).err().unwrap_or_default();
            assert!(words.starts_with(&format!("long: {} bytes\nrefused (30): ", file.len())));
            assert!(words.contains("60000 bytes") && words.contains(remedy));
        }
        assert_eq!((season.bytes.len(), season.files), (MOST_BYTES + 3, 1));
    }

    #[test]
    fn a_season_has_at_most_65_535_files() {
        let mut season = Season::default();
        for _ in 0..MOST_FILES {
            assert_eq!(season.add("empty", &[]), Ok(()));
        }
        let words = season.add("last", &[]).err().unwrap_or_default();
        assert!(words.starts_with("last: 0 bytes, after 65535 lane files\nrefused (30): "));
        assert_eq!(season.bytes, [0; MOST_FILES]);
    }

    /// A lane file that stands where the season is to be written is kept; all else is written over, or is none yet.
    #[test]
    fn a_lane_file_is_not_written_over() {
        let examples = std::path::Path::new(env!("CARGO_MANIFEST_DIR")).join("../../examples");
        for (name, kept) in [
            ("lane_files/lane95.lane", true),
            ("lane_files/short.lane", false),
            ("csv/corner.csv", false),
            ("lane_files", false),
            ("no_such_file", false),
        ] {
            assert_eq!(
                keep_lane_file(&examples.join(name)).is_err(),
                kept,
                "{name}"
            );
        }
    }
}
