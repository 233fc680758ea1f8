//! `smooth`: waypoints from a CSV file, smoothed; a report in words, and on request segments, samples, heights, a picture and a
//! lane file. Or a lane file: what it holds, and the same on request. Or lane files that are put together to a season.

#![deny(unsafe_code)]
#![deny(
    clippy::unwrap_used,
    clippy::expect_used,
    clippy::panic,
    clippy::indexing_slicing
)]

mod columns;
mod csv;
mod heights;
mod lane;
mod lane_file;
mod names;
mod options;
mod picture;
mod plot;
mod report;
mod sampled;
mod season;
mod sets;
mod svg;
mod tables;

use heights::Heights;
use lane::Lane;
use lane_file::LaneFile;
use names::Names;
use options::{Command, Input, Options, SeasonFiles};
use pamitoye::{Path, PathError, SmoothingTolerance};
use season::Season;
use std::io::{Read, Write};
use std::process::ExitCode;

/// How a run ended, with what is to be printed.
enum Outcome {
    Done(String),
    Refused(String),
}

fn main() -> ExitCode {
    let (text, status) = match run() {
        Ok(Outcome::Done(text)) => (text, 0),
        Ok(Outcome::Refused(text)) => (text, 1),
        Err(wrong) => {
            // Where standard error is closed there is nobody to tell.
            let _ = writeln!(std::io::stderr(), "smooth: {wrong}");
            return ExitCode::from(2);
        }
    };
    match std::io::stdout().write_all(text.as_bytes()) {
        Ok(()) => ExitCode::from(status),
        Err(_) => ExitCode::from(2),
    }
}

fn run() -> Result<Outcome, String> {
    let command = options::read(std::env::args_os().skip(1))?;
    let made = match &command {
        Command::Help => return Ok(Outcome::Done(options::help())),
        Command::Season(files) => made_of_season(files)?,
        Command::Smooth(options) => {
            let bytes = read(&options.input)?;
            match options.from_lane_file {
                true => made_of_file(options, &bytes)?,
                false => made_of_csv(options, &bytes)?,
            }
        }
    };
    let (report, files) = match made {
        Ok(made) => made,
        Err(words) => return Ok(Outcome::Refused(words)),
    };
    for (file, contents) in &files {
        std::fs::write(file, contents).map_err(|e| format!("{}: {e}", file.display()))?;
    }
    Ok(Outcome::Done(report))
}

/// The bytes of a file, or of standard input.
fn read(input: &Input) -> Result<Vec<u8>, String> {
    let mut bytes = Vec::new();
    let read = match &input.0 {
        Some(file) => std::fs::read(file).map(|read| bytes = read),
        None => std::io::stdin().read_to_end(&mut bytes).map(|_| ()),
    };
    read.map_err(|e| format!("{}: {e}", input.name()))?;
    Ok(bytes)
}

/// The report and the files to be written, or the words of a refusal, with no file.
type Made<'a> = Result<(String, Files<'a>), String>;

/// What is to be written, and where.
type Files<'a> = Vec<(&'a std::path::Path, Vec<u8>)>;

/// What is made of the bytes of a CSV file, if they are one.
fn made_of_csv<'a>(options: &'a Options, bytes: &[u8]) -> Result<Made<'a>, String> {
    let table =
        csv::read(&options.input.name(), bytes).map_err(|wrong| {
            match Path::from_lane_file(bytes) {
                Ok(_) => format!("{wrong}; it is a lane file, which --from-lane-file reads"),
                Err(_) => wrong,
            }
        })?;
    let lane = Lane::new(options, table)?;
    let made = smoothed(options, &lane);
    Ok(made.map_err(|error| report::refusal(options, &lane, &error)))
}

/// The report and the files of the lane, or of the lane driven back.
fn smoothed<'a>(options: &'a Options, lane: &Lane) -> Result<(String, Files<'a>), PathError> {
    let path = &lane.build(options)?;
    let back = match options.back {
        true => Some((lane.reversed(), path.reversed()?)),
        false => None,
    };
    let back = back.as_ref().map(|(lane, path)| (lane, path));
    let report = report::accepted((lane, path), back)?;
    let (shown, driven) = back.unwrap_or((lane, path));
    let heights = Heights::of(driven, lane.height_axis)?;
    let picture = || picture::of_lane((shown, driven), &report::build(path), heights.as_ref());
    let files = files(options, &shown.names, driven, heights.as_ref(), picture)?;
    Ok((
        report + &heights_in_words(&shown.names, heights.as_ref()),
        files,
    ))
}

/// What is made of the bytes of a lane file.
fn made_of_file<'a>(options: &'a Options, bytes: &[u8]) -> Result<Made<'a>, String> {
    match LaneFile::read(&options.input.name(), bytes) {
        Ok(file) => Ok(shown(options, file.with_heights(options)?)),
        Err(words) => Ok(Err(words)),
    }
}

/// What is made of lane files that are put together.
fn made_of_season(files: &SeasonFiles) -> Result<Made<'_>, String> {
    season::keep_lane_file(&files.file)?;
    let mut season = Season::default();
    for lane in &files.lanes {
        if let Err(words) = season.add(&lane.name(), &read(lane)?) {
            return Ok(Err(words));
        }
    }
    let report = season.report(&files.file.display().to_string());
    Ok(Ok((report, vec![(&files.file, season.bytes)])))
}

/// The report and the files of a lane file, or of its lane driven back.
fn shown(options: &Options, out: LaneFile) -> Made<'_> {
    let shown = match options.back {
        true => out.reversed()?,
        false => out,
    };
    let made = || {
        let (names, path) = (&shown.names, &shown.path);
        let heights = Heights::of(path, shown.height_axis)?;
        let picture = || picture::of_file(&shown, heights.as_ref());
        let files = files(options, names, path, heights.as_ref(), picture)?;
        Ok((
            shown.report()? + &heights_in_words(names, heights.as_ref()),
            files,
        ))
    };
    made().map_err(|error| shown.refusal(&error))
}

/// What the report says of the heights, if they are asked for.
fn heights_in_words(names: &Names, heights: Option<&Heights>) -> String {
    heights.map_or_else(String::new, |heights| heights.report(names))
}

/// The files that are asked for, of this path and the heights of its axis.
fn files<'a>(
    options: &'a Options,
    names: &Names,
    path: &Path,
    heights: Option<&Heights>,
    picture: impl Fn() -> Result<String, PathError>,
) -> Result<Files<'a>, PathError> {
    let mut files = Files::new();
    if let Some(file) = &options.segments {
        files.push((file, tables::segments(names, path).into_bytes()));
    }
    if let Some(file) = &options.samples {
        files.push((file, tables::samples(options, names, path)?.into_bytes()));
    }
    if let (Some(file), Some(heights)) = (&options.heights, heights) {
        files.push((file, heights.table(names).into_bytes()));
    }
    if let Some(file) = &options.picture {
        files.push((file, picture()?.into_bytes()));
    }
    if let Some(file) = &options.lane_file {
        files.push((file, path.to_lane_file()?));
    }
    Ok(files)
}

/// A number in its shortest digits that read back as the same number.
fn number(x: f64) -> String {
    if x == 0. || (1e-5..1e15).contains(&x.abs()) {
        x.to_string()
    } else {
        format!("{x:e}")
    }
}

/// The tolerance of the smoothed axis at this place of the list.
fn tolerance_at(tolerance: &SmoothingTolerance, place: usize) -> f64 {
    match tolerance {
        SmoothingTolerance::Uniform(x) => *x,
        SmoothingTolerance::PerAxis(list) => list.get(place).copied().unwrap_or(f64::NAN),
    }
}

/// A count with its word, which has an s unless the count is one.
fn counted(count: usize, word: &str) -> String {
    let plural = if count == 1 { "" } else { "s" };
    format!("{count} {word}{plural}")
}

/// A count of axes.
fn axes(count: usize) -> String {
    match count {
        1 => "1 axis".to_string(),
        count => format!("{count} axes"),
    }
}
