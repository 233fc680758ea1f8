//! The pictures. Of a lane: for each axis the waypoints, the curve and the tolerance around the line, and below it the
//! distance between curve and line, with tolerance and certified figure. Of a lane file, which has no waypoints: the curve of
//! each axis. Where heights are asked for, their steps are stairs over the curve of their axis. The pictures read in print and on
//! a dark screen, and no line is told from another by its colour alone.

use crate::heights::Heights;
use crate::lane::Lane;
use crate::lane_file::LaneFile;
use crate::plot::{Frame, Place, Range, columns, exponent, straightened, ten_to};
use crate::report::{self, Margin};
use crate::sampled::{Sampled, Spot};
use crate::sets::{Set, set_of, sets};
use crate::svg::{HEIGHT_STYLE, STYLE, Svg, escaped, length};
use crate::{counted, number};
use pamitoye::{Path, PathError};

const WIDTH: f64 = 1000.;
/// Right of the frames: the names of the levels.
const RIGHT: f64 = 124.;
const UPPER: f64 = 230.;
const LOWER: f64 = 130.;
const GAP: f64 = 14.;
/// About the width of a character.
const CHARACTER: f64 = 6.9;

/// A picture: its head, and a block for each axis.
struct Picture<'a> {
    title: String,
    /// The line below the title.
    made: String,
    /// What the legend shows: classes of the style.
    legend: Vec<&'static str>,
    /// The parameter's name and range.
    parameter: &'a str,
    across: Range,
    blocks: Vec<Block<'a>>,
}

/// What is drawn for one axis.
struct Block<'a> {
    name: &'a str,
    /// The lines below the name.
    words: Vec<String>,
    waypoints: Vec<(f64, f64)>,
    curve: Vec<(f64, f64)>,
    /// The parameters at which segments end.
    ends: Vec<f64>,
    up: Range,
    heights: Option<&'a Heights>,
    /// Of a smoothed axis of a lane.
    distance: Option<Distance<'a>>,
}

/// An axis's distance from its line.
struct Distance<'a> {
    margin: &'a Margin,
    curve: Vec<(f64, f64)>,
    furthest: Option<Spot>,
    heights: Option<Steps<'a>>,
}

/// The heights of an axis beside its line.
struct Steps<'a> {
    heights: &'a Heights,
    lane: &'a Lane,
    /// The largest distance of a height from the line.
    furthest: f64,
}

impl<'a> Steps<'a> {
    fn new(heights: &'a Heights, lane: &'a Lane) -> Self {
        let distances = heights.distances(lane).flatten();
        Self {
            heights,
            lane,
            furthest: distances.fold(0., |most, place| place.1.max(most)),
        }
    }
}

/// The range of these numbers, or from 0 to 1 where none is finite.
fn range(numbers: impl Iterator<Item = f64>) -> Range {
    Range::of(numbers).unwrap_or(Range { low: 0., high: 1. })
}

impl<'a> Block<'a> {
    /// An axis of a lane.
    fn of_lane(
        (lane, path): (&'a Lane, &Path),
        sampled: &Sampled,
        margins: &'a [Margin],
        heights: Option<&'a Heights>,
        axis: usize,
    ) -> Self {
        let heights = heights.filter(|heights| heights.axis == axis);
        let margin = margins.iter().find(|margin| margin.axis == axis);
        let around = margin.map_or(0., |margin| margin.tolerance);
        let curve = sampled.curve(axis);
        let waypoints: Vec<(f64, f64)> = (0..lane.n())
            .map(|i| (lane.parameter(i), lane.point(i, axis)))
            .collect();
        let band = waypoints.iter().flat_map(|(_, y)| [y - around, y + around]);
        let up = range(band.chain(shown(&curve, heights)));
        let distance = margin.map(|margin| Distance {
            margin,
            curve: sampled.distance(lane, axis),
            furthest: sampled.furthest(lane, axis),
            heights: heights.map(|heights| Steps::new(heights, lane)),
        });
        let mut words = match &distance {
            Some(distance) => distance.words(lane),
            None => vec!["not smoothed: through every waypoint".to_string()],
        };
        let steps = distance.as_ref().and_then(|d| d.heights.as_ref());
        words.extend(heights.map(|heights| in_words(heights, steps)));
        Self {
            name: lane.names.axis(axis),
            words,
            waypoints,
            curve,
            ends: set_of(&sets(path), axis).map_or_else(Vec::new, |set| set.ends(path)),
            up: up.widened(0.05),
            heights,
            distance,
        }
    }

    /// An axis of a lane file.
    fn of_file(
        file: &'a LaneFile,
        sampled: &Sampled,
        heights: Option<&'a Heights>,
        axis: usize,
    ) -> Self {
        let heights = heights.filter(|heights| heights.axis == axis);
        let curve = sampled.curve(axis);
        let up = range(shown(&curve, heights));
        let sets = sets(&file.path);
        let set = set_of(&sets, axis);
        let segments = counted(set.map_or(0, Set::segments), "segment");
        let smoothed = match file.path.smoothed_axes().contains(&axis) {
            true => "smoothed",
            false => "not smoothed",
        };
        let mut words = vec![format!("{smoothed}, {segments}")];
        if curve.iter().any(|place| !place.1.is_finite()) {
            words.push("not drawn where its values are not finite".to_string());
        }
        words.extend(heights.map(|heights| in_words(heights, None)));
        Self {
            name: file.names.axis(axis),
            words,
            waypoints: Vec::new(),
            curve,
            ends: set.map_or_else(Vec::new, |set| set.ends(&file.path)),
            up: up.widened(0.05),
            heights,
            distance: None,
        }
    }

    /// The height of the heading.
    fn head(&self) -> f64 {
        20. * (1 + self.words.len()) as f64 + 10.
    }

    fn height(&self) -> f64 {
        let lower = if self.distance.is_some() {
            GAP + LOWER
        } else {
            0.
        };
        self.head() + UPPER + lower + 56.
    }
}

/// The numbers that an axis's scale has to show: those of the curve and the heights.
fn shown(curve: &[(f64, f64)], heights: Option<&Heights>) -> impl Iterator<Item = f64> {
    let heights = heights.into_iter().flat_map(Heights::places).flatten();
    let places = curve.iter().copied().chain(heights);
    places.map(|place| place.1)
}

/// The range of the heights and, of a smoothed axis of a lane, their largest distance from the line.
fn in_words(heights: &Heights, steps: Option<&Steps>) -> String {
    let from_line = steps.map(|steps| {
        let furthest = rounded_up(steps.furthest);
        format!(", each at most {furthest} from the line")
    });
    heights.range() + &from_line.unwrap_or_default()
}

impl Distance<'_> {
    /// Tolerance, certified figure, and where the axis is furthest from its line.
    fn words(&self, lane: &Lane) -> Vec<String> {
        let figure = self.margin.figure.map_or("none".to_string(), rounded_up);
        let (tolerance, share) = (number(self.margin.tolerance), self.margin.share());
        let depth = report::at_depth(lane);
        let mut words = vec![format!(
            "tolerance {tolerance}; certified{depth} {figure}, {share} of it"
        )];
        if let Some(spot) = &self.furthest {
            let at = rounded_up(spot.parameter);
            let between = spot.between(lane).unwrap_or_default();
            let name = clipped(&lane.names.parameter, 40);
            words.push(format!(
                "furthest from the line about {name} {at}, {between}"
            ));
        }
        words
    }

    /// The scale: the certified figure is in it unless it is far above the tolerance, and all heights are.
    fn scale(&self) -> Range {
        let tolerance = self.margin.tolerance;
        let figure = self.margin.figure.unwrap_or(0.);
        let high = if figure <= 3. * tolerance {
            figure.max(tolerance)
        } else {
            tolerance
        };
        let high = self
            .heights
            .iter()
            .fold(high, |high, steps| steps.furthest.max(high));
        let high = if high * 1.22 < f64::MAX {
            high * 1.22
        } else {
            f64::MAX
        };
        Range { low: 0., high }
    }
}

/// What is added to a title.
fn back(driven_back: bool) -> &'static str {
    if driven_back { ", driven back" } else { "" }
}

/// What the legend shows of a lane.
const OF_LANE: [&str; 9] = [
    "point",
    "line",
    "curve",
    "break",
    "band",
    "distance",
    "tolerance",
    "certified",
    "mark",
];

/// The legend with the heights, if there are any.
fn with_heights(shown: &[&'static str], heights: Option<&Heights>) -> Vec<&'static str> {
    let heights = heights.map(|_| "height");
    shown.iter().copied().chain(heights).collect()
}

/// The picture of a lane and its path, with what the build did in words.
pub fn of_lane(
    (lane, path): (&Lane, &Path),
    built: &str,
    heights: Option<&Heights>,
) -> Result<String, PathError> {
    let sampled = Sampled::of_lane(lane, path)?;
    let margins = Margin::all(lane, path)?;
    let blocks = (0..lane.d())
        .map(|axis| Block::of_lane((lane, path), &sampled, &margins, heights, axis))
        .collect();
    let picture = Picture {
        title: format!("{}, smoothed{}", lane.names.file_name(), back(lane.back)),
        made: format!("{}, {built}", counted(lane.n(), "waypoint")),
        legend: with_heights(&OF_LANE, heights),
        parameter: &lane.names.parameter,
        across: range(sampled.parameters.iter().copied()),
        blocks,
    };
    Ok(picture.drawn())
}

/// The picture of a lane file.
pub fn of_file(file: &LaneFile, heights: Option<&Heights>) -> Result<String, PathError> {
    let sampled = file.sampled()?;
    let blocks = (0..file.path.dim())
        .map(|axis| Block::of_file(file, &sampled, heights, axis))
        .collect();
    let picture = Picture {
        title: format!("{}{}", file.names.file_name(), back(file.back)),
        made: file.made(),
        legend: with_heights(&["curve", "break"], heights),
        parameter: &file.names.parameter,
        across: range(sampled.parameters.iter().copied()),
        blocks,
    };
    Ok(picture.drawn())
}

impl Picture<'_> {
    fn drawn(&self) -> String {
        let left = left(&self.blocks);
        let mut body = Svg(String::new());
        body.text((20., 34.), "class=\"title\"", &self.title);
        body.text((20., 56.), "", &self.made);
        let mut top = legend(&mut body, 76., &self.legend);
        for block in &self.blocks {
            let upper = Frame {
                left,
                top: top + block.head(),
                width: WIDTH - left - RIGHT,
                height: UPPER,
                across: self.across,
                up: block.up,
            };
            heading(&mut body, block, (left, top));
            upper_frame(&mut body, block, &upper);
            let lowest = match &block.distance {
                Some(distance) => lower_frame(&mut body, distance, &upper),
                None => upper,
            };
            across_labels(&mut body, self.parameter, &lowest);
            top += block.height();
        }

        let height = length(top);
        let mut svg = Svg(String::new());
        svg.add(format_args!(
            "<svg xmlns=\"http://www.w3.org/2000/svg\" viewBox=\"0 0 {WIDTH} {height}\" width=\"{WIDTH}\" height=\"{height}\" role=\"img\">"
        ));
        svg.add(format_args!("<title>{}</title>", escaped(&self.title)));
        svg.add(format_args!("<desc>{}</desc>", escaped(&self.made)));
        let more = match self.legend.contains(&"height") {
            true => HEIGHT_STYLE,
            false => "",
        };
        svg.add(format_args!("<style>\n{STYLE}{more}</style>"));
        svg.rectangle("paper", (0., 0.), (WIDTH, top));
        svg.0 + &body.0 + "</svg>\n"
    }
}

/// How far from the left edge the frames begin: the ticks' texts stand there.
fn left(blocks: &[Block]) -> f64 {
    let scales = blocks.iter().flat_map(|block| {
        let distance = block.distance.as_ref();
        let lower = distance.map(|distance| distance.scale().ticks(4));
        [Some(block.up.ticks(6)), lower]
    });
    let ticks = scales.flatten().flatten();
    let longest = ticks.map(|(_, text)| text.chars().count()).max();
    48. + CHARACTER * longest.unwrap_or(1) as f64
}

/// The legend, in as many rows as it needs. Returns where it ends.
fn legend(svg: &mut Svg, top: f64, shown: &[&str]) -> f64 {
    let items = [
        ("point", "waypoint"),
        ("line", "line through the waypoints"),
        ("curve", "curve"),
        ("break", "end of a segment"),
        ("band", "within the tolerance"),
        ("distance", "distance between curve and line"),
        ("tolerance", "tolerance"),
        ("certified", "certified: no point lies further away"),
        ("mark", "furthest from the line"),
        ("height", "height for the valve, in whole hundredths"),
    ];
    let (mut x, mut y) = (20., top);
    for (class, text) in items.into_iter().filter(|item| shown.contains(&item.0)) {
        let width = 42. + CHARACTER * text.chars().count() as f64 + 14.;
        if x + width > WIDTH - 10. {
            (x, y) = (20., y + 22.);
        }
        let middle = (x + 16., y);
        match class {
            "point" => svg.circle(middle, 3.2),
            "break" => svg.line(class, (x + 16., y - 5.), (x + 16., y + 5.)),
            "mark" => svg.diamond(middle),
            "height" => {
                let stairs = [
                    (0., 5.),
                    (8., 5.),
                    (8., 0.),
                    (20., 0.),
                    (20., -5.),
                    (32., -5.),
                ];
                let stairs = stairs.map(|(right, down)| (x + right, y + down));
                svg.path(class, &[stairs.to_vec()], "");
            }
            "band" => {
                svg.rectangle(class, (x, y - 6.), (32., 12.));
                svg.line("edge", (x, y - 6.), (x + 32., y - 6.));
                svg.line("edge", (x, y + 6.), (x + 32., y + 6.));
            }
            _ => svg.line(class, (x, y), (x + 32., y)),
        }
        svg.text((x + 40., y + 4.5), "", text);
        x += width;
    }
    y + 20.
}

/// An axis's name and its numbers.
fn heading(svg: &mut Svg, block: &Block, (left, top): Place) {
    let name = clipped(block.name, 80);
    svg.text((left, top + 20.), "class=\"head\"", &name);
    for (i, words) in block.words.iter().enumerate() {
        svg.text((left, top + 20. * (i + 2) as f64), "", words);
    }
}

/// The text with at most so many characters.
fn clipped(text: &str, most: usize) -> String {
    if text.chars().count() <= most {
        return text.to_string();
    }
    text.chars().take(most).chain(['…']).collect()
}

/// The number in five digits, not below it.
fn rounded_up(x: f64) -> String {
    let digits = |x: f64| format!("{x:.4e}").parse().unwrap_or(x);
    let (near, unit) = (digits(x), ten_to(exponent(x.abs()) - 4));
    number(if near < x { digits(near + unit) } else { near })
}

/// The frame with the grid and the texts of its upward scale.
fn scale(svg: &mut Svg, frame: &Frame, ticks: usize, name: &str) {
    for (x, _) in frame.across.ticks(8) {
        svg.line(
            "grid",
            (frame.x(x), frame.top),
            (frame.x(x), frame.bottom()),
        );
    }
    for (v, text) in frame.up.ticks(ticks) {
        let y = frame.y(v);
        svg.line("grid", (frame.left, y), (frame.right(), y));
        svg.text(
            (frame.left - 7., y + 4.),
            "class=\"tick\" text-anchor=\"end\"",
            &text,
        );
    }
    let (x, y) = (22., frame.top + frame.height / 2.);
    let style = format!(
        "text-anchor=\"middle\" transform=\"rotate(-90 {} {})\"",
        length(x),
        length(y)
    );
    svg.text((x, y), &style, &clipped(name, 26));
}

/// Waypoints, line, curve and tolerance.
fn upper_frame(svg: &mut Svg, block: &Block, frame: &Frame) {
    scale(svg, frame, 6, block.name);
    if let Some(distance) = &block.distance {
        let tolerance = distance.margin.tolerance;
        let moved = |by: f64| -> Vec<Place> {
            let places: Vec<Place> = block
                .waypoints
                .iter()
                .map(|(x, y)| (frame.x(*x), frame.y(y + by)))
                .collect();
            straightened(&columns(&places, 1.))
        };
        let (above, below) = (moved(tolerance), moved(-tolerance));
        let around: Vec<Place> = above.iter().chain(below.iter().rev()).copied().collect();
        svg.path("band", &[around], "Z");
        svg.path("edge", &[above, below], "");
    }
    svg.path("line", &frame.lines(&block.waypoints), "");
    svg.path("curve", &frame.lines(&block.curve), "");
    if let Some(heights) = block.heights {
        svg.path("height", &[frame.stairs(heights.places())], "");
    }
    let places: Vec<Place> = block
        .ends
        .iter()
        .map(|end| (frame.x(*end), frame.bottom()))
        .collect();
    for (x, y) in columns(&places, 2.) {
        svg.line("break", (x, y), (x, y - 7.));
    }
    let places: Vec<Place> = block
        .waypoints
        .iter()
        .map(|(x, y)| (frame.x(*x), frame.y(*y)))
        .collect();
    let (drawn, radius) = match places.len() {
        0..=120 => (places, 3.2),
        121..=400 => (places, 2.),
        _ => (columns(&places, 3.), 1.3),
    };
    for place in drawn {
        svg.circle(place, radius);
    }
    svg.rectangle(
        "frame",
        (frame.left, frame.top),
        (frame.width, frame.height),
    );
}

/// The distance between curve and line, with tolerance and certified figure.
fn lower_frame(svg: &mut Svg, distance: &Distance, upper: &Frame) -> Frame {
    let frame = Frame {
        top: upper.bottom() + GAP,
        height: LOWER,
        up: distance.scale(),
        ..*upper
    };
    scale(svg, &frame, 4, "distance");
    let lines = frame.lines(&distance.curve);
    let areas: Vec<Vec<Place>> = lines
        .iter()
        .map(|line| grounded(line, frame.bottom()))
        .collect();
    svg.path("area", &areas, "Z");
    svg.path("distance", &lines, "");
    if let Some(steps) = &distance.heights {
        let distances = steps.heights.distances(steps.lane);
        svg.path("height", &[frame.stairs(distances)], "");
    }
    levels(svg, &frame, distance.margin);
    if let Some(spot) = &distance.furthest {
        let place = (frame.x(spot.parameter), frame.y(spot.distance));
        svg.line("spot", (place.0, upper.top), (place.0, frame.bottom()));
        svg.diamond(place);
    }
    svg.rectangle(
        "frame",
        (frame.left, frame.top),
        (frame.width, frame.height),
    );
    frame
}

/// The line with an end on the ground below both of its ends.
fn grounded(line: &[Place], ground: f64) -> Vec<Place> {
    let first = line.first().map(|place| (place.0, ground));
    let last = line.last().map(|place| (place.0, ground));
    first
        .into_iter()
        .chain(line.iter().copied())
        .chain(last)
        .collect()
}

/// Tolerance and certified figure as levels, the upper one's name above the lower one's.
fn levels(svg: &mut Svg, frame: &Frame, margin: &Margin) {
    let mut levels = vec![("tolerance", margin.tolerance)];
    match margin.figure {
        Some(figure) if figure <= frame.up.high => levels.push(("certified", figure)),
        Some(_) => {
            let place = (frame.right() + 8., frame.top + 12.);
            svg.text(place, "class=\"tick\"", "certified: above");
        }
        None => {}
    }
    levels.sort_by(|a, b| b.1.total_cmp(&a.1));
    let heights: Vec<f64> = levels.iter().map(|(_, v)| frame.y(*v)).collect();
    let apart = heights
        .first()
        .zip(heights.get(1))
        .map_or(f64::MAX, |(a, b)| b - a);
    let shift = ((16. - apart) / 2.).max(0.);
    for ((class, _), (y, shift)) in levels.iter().zip(heights.iter().zip([-shift, shift])) {
        svg.line(class, (frame.left, *y), (frame.right(), *y));
        let place = (frame.right() + 8., y + 4. + shift);
        svg.text(place, "class=\"tick\"", class);
    }
}

/// The texts of the parameters' scale.
fn across_labels(svg: &mut Svg, parameter: &str, frame: &Frame) {
    for (x, text) in frame.across.ticks(8) {
        let place = (frame.x(x), frame.bottom() + 17.);
        svg.text(place, "class=\"tick\" text-anchor=\"middle\"", &text);
    }
    let place = (frame.left + frame.width / 2., frame.bottom() + 36.);
    let name = clipped(parameter, 80);
    svg.text(place, "text-anchor=\"middle\"", &name);
}

#[cfg(test)]
mod tests {
    use super::*;

    #[test]
    fn few_digits_are_not_below() {
        for (x, text) in [
            (0.30499068228, "0.305"),
            (0.305, "0.305"),
            (1.00000001, "1.0001"),
            (9.99991e-7, "1e-6"),
            (123456.7, "123460"),
            (0., "0"),
        ] {
            assert_eq!(rounded_up(x), text);
        }
    }

    /// Two segments, one coefficient of the second odd, over wide and narrow ranges: every place and every tick is a number.
    #[test]
    fn odd_curves_are_drawn() {
        let odd = [f64::NAN, f64::INFINITY, f64::MAX, f64::MIN, 1e-320, -0.];
        let ranges = [[0., 1.], [-1e308, 7e307], [0., 5e-324], [1e300, 1.1e300]];
        for (number, power) in odd.into_iter().flat_map(|x| (0..6).map(move |p| (x, p))) {
            for range in ranges {
                let mut second = [0.; 6];
                second
                    .iter_mut()
                    .skip(power)
                    .take(1)
                    .for_each(|p| *p = number);
                let breaks = [0., 0.5, 1.];
                let numbers = [&range[..], &breaks, &[0.; 6], &second].concat();
                let bytes = numbers.iter().flat_map(|x| x.to_le_bytes());
                let bytes: Vec<u8> = [1, 1, 0, 0, 2, 0].into_iter().chain(bytes).collect();
                let svg = LaneFile::read("f", &bytes).map(|file| {
                    let heights = Heights::of(&file.path, Some(0)).unwrap_or_default();
                    let small = number.abs() < 1.;
                    assert_eq!(heights.is_some(), small);
                    of_file(&file, heights.as_ref()).unwrap_or_default()
                });
                let body = svg.as_ref().map(|svg| svg.rsplit("</style>").next());
                let mut words = body.ok().flatten().into_iter().flat_map(words);
                assert!(words.clone().any(|word| word == "curve"));
                assert!(words.all(|word| word != "NaN" && word != "inf"));
            }
        }
    }

    fn words(text: &str) -> impl Iterator<Item = &str> + Clone {
        text.split(|c: char| !c.is_alphabetic())
    }

    #[test]
    fn names_are_clipped() {
        assert_eq!(clipped("abc", 2), "ab…");
        assert_eq!(clipped("abc", 3), "abc");
    }
}
