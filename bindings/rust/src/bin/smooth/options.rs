//! The command line.

use pamitoye::{OutOfRangeMode, SmoothingConfig, SmoothingTolerance};
use std::ffi::OsString;
use std::path::PathBuf;

const HELP: &str = "\
smooth: waypoints from a CSV file, smoothed into quintic segments within a tolerance

usage: smooth [OPTIONS] [FILE]
       smooth --season SEASON [LANE..]

FILE has a line for each waypoint and a column for each axis, parted by commas, semicolons or tabs. A first line
without a number is a header; blank lines and lines that begin with # are passed over. Without FILE, or with -,
standard input is read.

  -t, --tolerance X[,Y..]  how far an axis may lie from its line: one for all, or one for each smoothed axis (0.001)
  -a, --axes A[,B..]       the columns to smooth, by header or by number from 1 (all); the others pass through
                           every waypoint
  -p, --parameters COLUMN  the column with the parameters, strictly rising, by header or by number from 1
      --parameters even    parameters from 0 to 1 at even steps (the default)
      --parameters chord   parameters by chord length: from 0 on, each the one before plus the distance of the two
                           waypoints; all columns count, also those that are not smoothed. A column that is called
                           even or chord is named by its number
      --max-refinements N  rounds of refinement, 200 at most (20)
      --max-segments N     segments of the smoothed axes, 20000 at most (20000)
      --segments FILE      writes the segments as CSV: axis, set, segment, left and right break, p0 to p5
      --samples FILE       writes values and three derivatives as CSV
      --count N            how many samples (201)
      --from X, --to X     the samples' range (that of the parameters)
      --mode error|clamp   samples outside that of the parameters: refused, or standing still at the nearer end (error);
                           a lane file that is written keeps the mode
      --depth N            halvings of a piece of the curve, 6 at most, that may tighten the certified figure (0)
      --heights FILE       writes the heights of an axis for the blade valve as CSV: segment, step, parameter, and the
                           height in whole hundredths; a segment has steps 0 to 256, a coordinate is taken as millimetres
      --height-axis COLUMN the axis of --heights, smoothed or not, by header or by number from 1 (the first axis)
      --picture FILE       writes a picture as SVG: waypoints, curve, tolerance, and the distance between curve and line;
                           with --heights, these too
      --back               the lane driven back: report, picture and files are those of the way back, which is certified
                           anew against the waypoints in reverse; the report has the figure of the way out beside it
      --lane-file FILE     writes a lane file: the curve as bytes, for a machine to load
      --from-lane-file     FILE is a lane file, not a CSV file: the report says what it holds, and --segments, --samples,
                           --heights, --picture, --back and --lane-file work as above. It has no waypoints, so that
                           nothing is smoothed or certified; its columns are called by their numbers, and its mode is
                           its own
      --season SEASON      puts lane files together for the program totals, which adds up the heights of the first axis over
                           all of them: writes SEASON, every LANE in turn, each led by its byte count. Without LANE, or
                           with -, standard input is a lane file. The report says which lanes totals will count and
                           which it will turn away, and why. Lane files of more than 60000 bytes, and more than 65535
                           of them, are refused (30). No other option goes with it
  -h, --help               prints this

Of a segment: u = (parameter - first) / (last - first), v = (u - left) / (right - left), value = p0 + p1 v + .. + p5 v^5.
At a step v = step / 256, and the height is 100 times the value as a whole number, within one hundredth of it. The
valve takes 20 m: where the axis goes further, heights are refused (28), and an offset subtracted from its column helps.
On the way back the parameter of a waypoint is first + (last - its parameter), so that it rises from first to last again.
By chord length the parameter goes from 0 to the length of the line through the waypoints; --from and --to are in it too.

When a lane is refused, its number tells whether another try with a higher limit may help: 8 and 15 may change with a
higher --max-segments, 14 with a higher --max-refinements. No other refusal changes with a limit, and a lane that is
smoothed stays as it is, in every digit.

examples:
  smooth --tolerance 0.05 lane.csv
  smooth --tolerance 0.05,0.2 --axes x,z --parameters time --picture lane.svg lane.csv
  smooth --tolerance 0.05 --parameters chord lane.csv
  smooth -t 1 --segments segments.csv --samples samples.csv --count 1001 < lane.csv
  smooth --tolerance 0.05 --heights valve.csv --height-axis z --picture lane.svg lane.csv
  smooth --tolerance 0.05 --lane-file card.lane lane.csv
  smooth --from-lane-file --picture card.svg card.lane
  smooth --season all.season north.lane south.lane

status: 0 smoothed, read or put together; 1 refused, with the reason; 2 wrong input, or a file that cannot be read or written
";

/// What is asked for.
pub enum Command {
    Help,
    Smooth(Box<Options>),
    Season(SeasonFiles),
}

/// The lane files that are put together, and the file that they are written to.
pub struct SeasonFiles {
    pub file: PathBuf,
    pub lanes: Vec<Input>,
}

/// Where bytes are read from: a file, none for standard input.
pub struct Input(pub Option<PathBuf>);

impl Input {
    fn named(argument: OsString) -> Self {
        Self((argument != "-").then(|| PathBuf::from(argument)))
    }

    /// What messages call it.
    pub fn name(&self) -> String {
        match &self.0 {
            Some(file) => file.display().to_string(),
            None => "standard input".to_string(),
        }
    }
}

/// The options of a run.
pub struct Options {
    pub input: Input,
    /// Columns by header or number; none for all.
    pub axes: Option<Vec<String>>,
    /// The column with the parameters, or the rule that spaces them; none for even ones.
    pub parameters: Option<String>,
    /// Tolerance, limits and mode; axes, parameters and their spacing come from the lane.
    pub config: SmoothingConfig,
    pub segments: Option<PathBuf>,
    pub samples: Option<PathBuf>,
    pub heights: Option<PathBuf>,
    /// The column whose heights they are; none for the first axis.
    pub height_axis: Option<String>,
    pub picture: Option<PathBuf>,
    pub lane_file: Option<PathBuf>,
    /// Whether the input is a lane file.
    pub from_lane_file: bool,
    /// Where a season is written that lane files are put together to.
    season: Option<PathBuf>,
    /// Whether the lane is driven back.
    pub back: bool,
    /// The depth of the certificate.
    pub depth: usize,
    pub count: usize,
    pub from: Option<f64>,
    pub to: Option<f64>,
}

pub fn help() -> String {
    HELP.to_string()
}

/// The most samples.
const MOST_SAMPLES: usize = 1_000_000;

/// Reads the arguments.
pub fn read(arguments: impl Iterator<Item = OsString>) -> Result<Command, String> {
    let mut options = Options {
        input: Input(None),
        axes: None,
        parameters: None,
        config: SmoothingConfig::default(),
        segments: None,
        samples: None,
        heights: None,
        height_axis: None,
        picture: None,
        lane_file: None,
        from_lane_file: false,
        season: None,
        back: false,
        depth: 0,
        count: 201,
        from: None,
        to: None,
    };
    let (mut files, mut names) = (Vec::new(), Vec::new());
    let mut arguments = arguments;
    while let Some(argument) = arguments.next() {
        let text = argument.to_string_lossy().into_owned();
        if text == "-" || !text.starts_with('-') {
            files.push(argument);
            continue;
        }
        let (name, given) = match text.split_once('=') {
            Some((name, value)) if name.starts_with("--") => (name, Some(OsString::from(value))),
            _ => (text.as_str(), None),
        };
        if matches!(name, "-h" | "--help") {
            return Ok(Command::Help);
        }
        if let Some(flag) = flag(&mut options, name) {
            if given.is_some() {
                return Err(format!("{name} takes no value"));
            }
            *flag = true;
            names.push(name.to_string());
            continue;
        }
        if !NAMES.contains(&name) {
            return Err(format!("there is no option {name}; see smooth --help"));
        }
        let value = given
            .or_else(|| arguments.next())
            .ok_or_else(|| format!("{name} needs a value"))?;
        set(&mut options, name, value)?;
        names.push(name.to_string());
    }
    if let Some(file) = options.season {
        names.iter().try_for_each(|name| beside_season(name))?;
        return season(file, files);
    }
    if options.from_lane_file {
        names.iter().try_for_each(|name| without_waypoints(name))?;
    }
    if options.height_axis.is_some() && options.heights.is_none() {
        return Err("--height-axis names the axis of --heights, which is missing".to_string());
    }
    let mut files = files.into_iter();
    options.input = files.next().map_or(Input(None), Input::named);
    match files.next() {
        Some(second) => Err(format!(
            "one file at a time: {} is too many",
            second.to_string_lossy()
        )),
        None => Ok(Command::Smooth(Box::new(options))),
    }
}

/// The lane files of a season; none named is standard input, as a single one.
fn season(file: PathBuf, files: Vec<OsString>) -> Result<Command, String> {
    let mut lanes: Vec<Input> = files.into_iter().map(Input::named).collect();
    if lanes.is_empty() {
        lanes.push(Input(None));
    }
    if lanes.iter().filter(|lane| lane.0.is_none()).count() > 1 {
        return Err("standard input is one lane file: - is there more than once".to_string());
    }
    if lanes.iter().any(|lane| lane.0.as_ref() == Some(&file)) {
        let name = file.display();
        return Err(format!(
            "{name} is the season that is written, and can't be one of its lane files"
        ));
    }
    Ok(Command::Season(SeasonFiles { file, lanes }))
}

/// Refuses the options that have no meaning beside --season.
fn beside_season(name: &str) -> Result<(), String> {
    match name {
        "--season" => Ok(()),
        _ => Err(format!(
            "{name} is not for a season: its lane files are taken as they are"
        )),
    }
}

/// What an option without a value sets; none if it is not one.
fn flag<'a>(options: &'a mut Options, name: &str) -> Option<&'a mut bool> {
    match name {
        "--back" => Some(&mut options.back),
        "--from-lane-file" => Some(&mut options.from_lane_file),
        _ => None,
    }
}

/// The options that have a value.
const NAMES: [&str; 20] = [
    "-t",
    "--tolerance",
    "-a",
    "--axes",
    "-p",
    "--parameters",
    "--max-refinements",
    "--max-segments",
    "--segments",
    "--samples",
    "--count",
    "--from",
    "--to",
    "--mode",
    "--depth",
    "--heights",
    "--height-axis",
    "--picture",
    "--lane-file",
    "--season",
];

/// Refuses the options that have no meaning for a lane file.
fn without_waypoints(name: &str) -> Result<(), String> {
    let why = match name {
        "-t" | "--tolerance" | "-a" | "--axes" | "-p" | "--parameters" | "--max-refinements"
        | "--max-segments" => "it has no waypoints to smooth",
        "--depth" => "it has no waypoints to certify the curve against",
        "--mode" => "its mode is its own",
        _ => return Ok(()),
    };
    Err(format!("{name} is not for a lane file: {why}"))
}

/// Takes one option.
fn set(options: &mut Options, name: &str, value: OsString) -> Result<(), String> {
    let text = value.to_string_lossy().into_owned();
    let config = &mut options.config;
    match name {
        "-t" | "--tolerance" => config.tolerance = tolerance(name, &text)?,
        "-a" | "--axes" => options.axes = Some(list(&text)),
        "-p" | "--parameters" => options.parameters = Some(text.trim().to_string()),
        "--max-refinements" => config.max_refinements = whole(name, &text)?,
        "--max-segments" => config.max_segments = whole(name, &text)?,
        "--segments" => options.segments = Some(value.into()),
        "--samples" => options.samples = Some(value.into()),
        "--heights" => options.heights = Some(value.into()),
        "--height-axis" => options.height_axis = Some(text.trim().to_string()),
        "--picture" => options.picture = Some(value.into()),
        "--lane-file" => options.lane_file = Some(value.into()),
        "--season" => options.season = Some(value.into()),
        "--depth" => options.depth = depth(name, &text)?,
        "--count" => options.count = samples(name, &text)?,
        "--from" => options.from = Some(finite(name, &text)?),
        "--to" => options.to = Some(finite(name, &text)?),
        _ => config.out_of_range_mode = mode(name, &text)?,
    }
    Ok(())
}

fn list(text: &str) -> Vec<String> {
    text.split(',')
        .map(|part| part.trim().to_string())
        .collect()
}

fn tolerance(name: &str, text: &str) -> Result<SmoothingTolerance, String> {
    let numbers: Result<Vec<f64>, String> = list(text).iter().map(|x| above(name, x)).collect();
    let numbers = numbers?;
    Ok(match numbers.as_slice() {
        [one] => SmoothingTolerance::Uniform(*one),
        _ => SmoothingTolerance::PerAxis(numbers),
    })
}

fn above(name: &str, text: &str) -> Result<f64, String> {
    match finite(name, text)? {
        x if x > 0. => Ok(x),
        _ => Err(format!("{name}: {text} is not above 0")),
    }
}

fn finite(name: &str, text: &str) -> Result<f64, String> {
    match text.parse::<f64>() {
        Ok(x) if x.is_finite() => Ok(x),
        _ => Err(format!("{name}: \"{text}\" is not a finite number")),
    }
}

fn whole(name: &str, text: &str) -> Result<usize, String> {
    text.parse()
        .map_err(|_| format!("{name}: \"{text}\" is not a whole number"))
}

fn samples(name: &str, text: &str) -> Result<usize, String> {
    match whole(name, text)? {
        count @ 2..=MOST_SAMPLES => Ok(count),
        _ => Err(format!("{name}: {text} is not from 2 to {MOST_SAMPLES}")),
    }
}

fn depth(name: &str, text: &str) -> Result<usize, String> {
    match whole(name, text)? {
        depth @ 0..=6 => Ok(depth),
        _ => Err(format!("{name}: {text} is not from 0 to 6")),
    }
}

fn mode(name: &str, text: &str) -> Result<OutOfRangeMode, String> {
    match text {
        "error" => Ok(OutOfRangeMode::Error),
        "clamp" => Ok(OutOfRangeMode::Clamp),
        _ => Err(format!("{name}: \"{text}\" is neither error nor clamp")),
    }
}
