//! The report in words and numbers.

use crate::heights;
use crate::lane::{Lane, Source};
use crate::options::Options;
use crate::sampled::Sampled;
use crate::sets::sets;
use crate::{counted, number, tolerance_at};
use pamitoye::{MAX_REFINEMENTS, MAX_SEGMENTS, Path, PathError, Spacing, chord_parameters};
use std::fmt::Write;

/// What is known of a smoothed axis's distance from its line.
pub struct Margin {
    pub axis: usize,
    pub tolerance: f64,
    /// The certified figure, where there is one.
    pub figure: Option<f64>,
}

impl Margin {
    /// The margins of the smoothed axes, in their order.
    pub fn all(lane: &Lane, path: &Path) -> Result<Vec<Self>, PathError> {
        let axes = path.smoothed_axes().iter().enumerate();
        axes.map(|(place, axis)| {
            Ok(Self {
                axis: *axis,
                tolerance: tolerance_at(&lane.tolerance, place),
                figure: path.certify(*axis, lane.depth, &lane.points, lane.listed())?,
            })
        })
        .collect()
    }

    /// The certified figure in words.
    pub fn certified(&self) -> String {
        self.figure.map_or("none".to_string(), number)
    }

    /// The figure as a part of the tolerance, in percent and rounded up.
    pub fn share(&self) -> String {
        let Some(figure) = self.figure else {
            return "-".to_string();
        };
        let percent = (figure / self.tolerance * 1000.).ceil() / 10.;
        if percent < 1e6 {
            format!("{percent:.1} %")
        } else {
            "over 1000000 %".to_string()
        }
    }

    /// Whether the tolerance is certified.
    fn within(&self) -> bool {
        self.figure.is_some_and(|figure| figure <= self.tolerance)
    }
}

/// The depth of the certificate in words; none for 0.
pub fn at_depth(lane: &Lane) -> String {
    match lane.depth {
        0 => String::new(),
        depth => format!(" at depth {depth}"),
    }
}

/// The first line: what was read.
fn input(lane: &Lane) -> String {
    let axes = crate::axes(lane.d());
    let parameters = match lane.source {
        Source::Listed => format!("parameters from {}", lane.names.parameter),
        Source::Spaced(Spacing::Even) => "even parameters".to_string(),
        Source::Spaced(Spacing::Chord) => "parameters by chord length".to_string(),
    };
    let waypoints = counted(lane.n(), "waypoint");
    format!("{}: {waypoints}, {axes}, {parameters}\n", lane.names.input)
}

/// What the build did.
pub fn build(path: &Path) -> String {
    let Some(report) = path.smoothing_report() else {
        return String::new();
    };
    format!(
        "{} after {}",
        counted(report.segments, "segment"),
        counted(report.refinements, "refinement")
    )
}

/// The report of a lane that was smoothed and, if it was driven back, of the way back beside the way out.
pub fn accepted(out: (&Lane, &Path), back: Option<(&Lane, &Path)>) -> Result<String, PathError> {
    let (lane, path) = back.unwrap_or(out);
    let (mut text, errors) = made(out);
    if back.is_some() {
        text += &driven_back(out, lane);
    }
    text.push('\n');
    let margins = Margin::all(lane, path)?;
    let column = |cell: fn(&Margin) -> String| margins.iter().map(cell).collect::<Vec<_>>();
    let names = margins
        .iter()
        .map(|margin| lane.names.axis(margin.axis).to_string());
    let mut columns = vec![
        ("axis", names.collect()),
        ("tolerance", column(|m| number(m.tolerance))),
    ];
    if back.is_some() {
        let figures = Margin::all(out.0, out.1)?;
        columns.push(("error out", errors));
        columns.push((
            "certified out",
            figures.iter().map(Margin::certified).collect(),
        ));
        columns.push(("certified back", column(Margin::certified)));
    } else {
        columns.push(("error", errors));
        columns.push(("certified", column(Margin::certified)));
    }
    columns.push(("of tolerance", column(Margin::share)));
    text += &table(&columns);
    text += &others(lane, path);
    let depth = at_depth(lane);
    let _ = writeln!(
        text,
        "\ncertified{depth}: no point of the axis lies further from its line than this figure, which is proved."
    );
    if back.is_some() {
        text += "error out: what the audit of the way out found; the way back is not audited, it is certified anew.\n";
    }
    for margin in margins.iter().filter(|margin| !margin.within()) {
        let name = lane.names.axis(margin.axis);
        let found = if back.is_some() {
            "the way out within its tolerance; of the way back that is not certified"
        } else {
            "it within its tolerance; that is not certified"
        };
        let _ = writeln!(text, "{name}: the audit, in rounded numbers, found {found}");
    }
    if let Ok(sampled) = Sampled::of_lane(lane, path) {
        for margin in &margins {
            text += &furthest(lane, &sampled, margin).unwrap_or_default();
        }
    }
    Ok(text)
}

/// The first lines, what was read and built, and the error of each smoothed axis that the audit found.
fn made((lane, path): (&Lane, &Path)) -> (String, Vec<String>) {
    let mut text = input(lane);
    let Some(report) = path.smoothing_report() else {
        return (text, Vec::new());
    };
    let _ = writeln!(
        text,
        "accepted: {}, {}, {}",
        build(path),
        counted(report.fitting_rows, "fitting row"),
        counted(report.checked_intervals, "checked interval")
    );
    let errors = report.max_errors.iter().map(|error| number(*error));
    (text, errors.collect())
}

/// The line that says where the way back begins and ends, and what its parameter is.
fn driven_back((lane, path): (&Lane, &Path), back: &Lane) -> String {
    let (start, end) = path.s_range();
    let (first, last) = (back.lines.first(), back.lines.last());
    format!(
        "driven back: from line {} to line {}; {} is {} + ({} - {})\n",
        first.copied().unwrap_or_default(),
        last.copied().unwrap_or_default(),
        back.names.parameter,
        number(start),
        number(end),
        lane.names.parameter
    )
}

/// The line about the axes that are not smoothed, if there are any.
fn others(lane: &Lane, path: &Path) -> String {
    let [_, others] = sets(path);
    if others.axes.is_empty() {
        return String::new();
    }
    let names = lane.names.joined(&others.axes);
    let segments = counted(others.segments(), "segment");
    format!("not smoothed, through every waypoint: {names}; {segments}\n")
}

/// Where the axis is furthest from its line, as far as was looked.
fn furthest(lane: &Lane, sampled: &Sampled, margin: &Margin) -> Option<String> {
    let spot = sampled.furthest(lane, margin.axis)?;
    let (name, at) = (lane.names.axis(margin.axis), number(spot.parameter));
    let (parameter, between) = (&lane.names.parameter, spot.between(lane)?);
    Some(format!(
        "{name} lies furthest from its line about {parameter} {at}, {between}\n"
    ))
}

/// Columns side by side, each below its name.
pub fn table(columns: &[(&str, Vec<String>)]) -> String {
    let rows = columns.iter().map(|(_, cells)| cells.len()).max();
    let mut lines = vec![String::new(); 1 + rows.unwrap_or_default()];
    for (name, cells) in columns {
        let cells: Vec<&str> = [*name]
            .into_iter()
            .chain(cells.iter().map(String::as_str))
            .collect();
        let width = cells.iter().map(|cell| cell.chars().count()).max();
        for (line, cell) in lines.iter_mut().zip(cells) {
            let _ = write!(line, "{cell:width$}  ", width = width.unwrap_or_default());
        }
    }
    lines
        .iter()
        .fold(String::new(), |text, line| text + line.trim_end() + "\n")
}

/// The report of a lane that was turned away, with what is likely to help.
pub fn refusal(options: &Options, lane: &Lane, error: &PathError) -> String {
    let limit = limit(options, error) + "\n";
    input(lane) + &reason(error) + &limit + &advice(remedy(options, lane, error))
}

/// The line with a refusal's number and its words.
pub fn reason(error: &PathError) -> String {
    format!("refused ({}): {error}\n", error.number())
}

/// The line with what is likely to help, if something is.
pub fn advice(remedy: Option<String>) -> String {
    remedy.map_or_else(String::new, |remedy| format!("try: {remedy}\n"))
}

const LARGER: &str = "a larger --tolerance";

/// Whether a higher limit may help.
fn limit(options: &Options, error: &PathError) -> String {
    let config = &options.config;
    let (name, at, most) = match error {
        PathError::RefinementsUsedUp { .. } => {
            ("--max-refinements", config.max_refinements, MAX_REFINEMENTS)
        }
        _ => ("--max-segments", config.max_segments, MAX_SEGMENTS),
    };
    if !error.higher_limit_may_help() {
        "no higher limit changes this".to_string()
    } else if at < most {
        format!("a higher limit may help: {name}")
    } else {
        format!("a higher limit may help, but {name} is at its highest, {most}")
    }
}

fn remedy(options: &Options, lane: &Lane, error: &PathError) -> Option<String> {
    let config = &options.config;
    let segments = format!(
        "--max-segments above {}, at most {MAX_SEGMENTS}, or {LARGER}",
        config.max_segments
    );
    Some(match error {
        PathError::BadPoints if lane.d() == 0 => {
            "a column beside that of the parameters".to_string()
        }
        PathError::BadPoints => "two lines of numbers or more".to_string(),
        PathError::BadTolerance => "one --tolerance above 0 for all smoothed axes".to_string(),
        PathError::BadParameters => falls(lane).or_else(|| too_close(lane))?,
        PathError::BadChords => no_chord(lane)?,
        PathError::BadRange => lost_chord(lane)
            .unwrap_or_else(|| "parameters of about the same distance from each other".to_string()),
        PathError::Overflow | PathError::NotFinite | PathError::BadSolution => {
            format!("{LARGER}, or coordinates in a larger unit")
        }
        PathError::InitialSegments | PathError::SegmentsUsedUp
            if config.max_segments >= MAX_SEGMENTS =>
        {
            format!("{LARGER}, or the lane in parts")
        }
        PathError::InitialSegments | PathError::SegmentsUsedUp => segments,
        PathError::BadDiagonal | PathError::BadPivot => {
            "no waypoints that are very close together beside wide gaps".to_string()
        }
        PathError::RefinementsUsedUp { .. } if config.max_refinements >= MAX_REFINEMENTS => {
            LARGER.to_string()
        }
        PathError::RefinementsUsedUp { .. } => format!(
            "--max-refinements above {}, at most {MAX_REFINEMENTS}, or {LARGER}",
            config.max_refinements
        ),
        PathError::BadMidpoint => LARGER.to_string(),
        PathError::ErrorAboveTolerance => {
            format!("{LARGER}, or coordinates from which a common offset is subtracted")
        }
        PathError::ToleranceTooFine => {
            format!("coordinates from which a common offset is subtracted, or {LARGER}")
        }
        PathError::AboveDomain => "the lane in parts, or lower limits".to_string(),
        PathError::NotRising => too_close(lane).unwrap_or_else(|| LARGER.to_string()),
        PathError::OutOfRangeS { .. } => {
            "--from and --to within the parameters, or --mode clamp".to_string()
        }
        PathError::HeightTooLarge => too_high(lane)?,
        _ => return None,
    })
}

/// The first line whose coordinate the valve does not take.
fn too_high(lane: &Lane) -> Option<String> {
    let axis = lane.height_axis?;
    let line = (0..lane.n()).find(|i| heights::too_large(lane.point(*i, axis)));
    let place = match line {
        Some(i) => {
            let (line, it) = (lane.lines.get(i)?, number(lane.point(i, axis)));
            format!("in line {line} it is {it}")
        }
        None => "its waypoints are within it, but not all controls of its curve".to_string(),
    };
    Some(heights::remedy(lane.names.axis(axis), &place))
}

/// The first line whose parameter is not above the one before.
fn falls(lane: &Lane) -> Option<String> {
    let list = lane.listed()?;
    let place = list
        .windows(2)
        .position(|pair| pair.first() >= pair.last())?;
    let (before, after) = (list.get(place)?, list.get(place + 1)?);
    Some(format!(
        "lines in the order of {}; in line {} it is {}, after {}",
        lane.names.parameter,
        lane.lines.get(place + 1)?,
        number(*after),
        number(*before)
    ))
}

/// The first two lines whose parameters are one number on the way back.
fn too_close(lane: &Lane) -> Option<String> {
    let back = lane.reversed();
    let mut pairs = back.parameters.windows(2).zip(back.lines.windows(2));
    let (_, lines) = pairs.rfind(|(pair, _)| pair.first() >= pair.last())?;
    Some(format!(
        "lines {} and {} further apart in {}, or one of them left out; on the way back they are not told apart",
        lines.last()?,
        lines.first()?,
        lane.names.parameter
    ))
}

/// What helps where two neighbouring lines have no chord that can be seen, and why.
fn apart(first: usize, second: usize, why: &str) -> String {
    format!("one of lines {first} and {second} left out, or a column for --parameters; they {why}")
}

/// The first two lines between which the parameters by chord length do not rise.
fn no_chord(lane: &Lane) -> Option<String> {
    let rises = |pair: &[f64]| pair.first() < pair.last() && pair.iter().all(|p| p.is_finite());
    let place = lane.parameters.windows(2).position(|pair| !rises(pair))?;
    let (first, second) = (*lane.lines.get(place)?, *lane.lines.get(place + 1)?);
    let together = (0..lane.d()).all(|a| lane.point(place, a) == lane.point(place + 1, a));
    let chord = chord_of(lane, place)?;
    if !chord.is_finite() {
        return Some(format!(
            "coordinates in a larger unit, or a column for --parameters; \
             the distance of lines {first} and {second} is infinite"
        ));
    }
    let why = if together {
        "are at the same place".to_string()
    } else if chord == 0. {
        "are so close together that their distance is rounded to 0".to_string()
    } else {
        lost(chord, "before them", lane.parameter(place))
    };
    Some(apart(first, second, &why))
}

/// Where the parameters are by chord length, the first two lines for which they are one number once divided by the last.
fn lost_chord(lane: &Lane) -> Option<String> {
    let Source::Spaced(Spacing::Chord) = lane.source else {
        return None;
    };
    let length = *lane.parameters.last()?;
    let share = |p: Option<&f64>| p.map(|p| p / length);
    let mut pairs = lane.parameters.windows(2);
    let place = pairs.position(|pair| share(pair.first()) >= share(pair.last()))?;
    let (first, second) = (*lane.lines.get(place)?, *lane.lines.get(place + 1)?);
    let why = lost(chord_of(lane, place)?, "in all", length);
    Some(apart(first, second, &why))
}

/// That a chord is not seen beside a length.
fn lost(chord: f64, which: &str, length: f64) -> String {
    let (chord, length) = (number(chord), number(length));
    format!("are {chord} apart, which is lost beside the length {which}, {length}")
}

/// The chord from the waypoint at this place to the next.
fn chord_of(lane: &Lane, place: usize) -> Option<f64> {
    let both = lane.points.get(place * lane.d()..(place + 2) * lane.d())?;
    chord_parameters(both, lane.d()).last().copied()
}
