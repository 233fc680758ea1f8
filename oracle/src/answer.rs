//! Answers one case by calling the source, and prints the answer as one line of text.

use crate::case::{ALL_AXES, AXIS_WORDS, Case, Curve, Kind, Pieces, Row, unpack};
use crate::certificate::{Certificate, Question};
use crate::handed::HandedCurve;
use crate::path::OutOfRangeMode;
use crate::path::smoothing::{SmoothingConfig, SmoothingTolerance, reach};
use crate::query::{Queries, Told};
use crate::refusal::Refusal;
use crate::request::Request;
use crate::returned::Returning;
use crate::spacing::Spacing;
use std::fmt::Write;

/// What a case is answered with: whole numbers, then cells; a figure or none; calls one after the
/// other, with the cells of their slices; or a refusal.
pub enum Answer {
    Given(Vec<usize>, Vec<f64>),
    Figure(Option<f64>),
    Queried(Vec<Told>),
    Refused(Refusal),
}

impl Answer {
    /// The line of text, without its end.
    pub fn line(&self, kind: Kind) -> String {
        let mut line = kind.name().to_string();
        let (whole, cells) = match self {
            Self::Queried(list) => {
                list.iter().for_each(|told| add(&mut line, told));
                return line;
            }
            Self::Given(whole, cells) => (whole, cells),
            Self::Figure(figure) => {
                line.push_str(if figure.is_some() { " figure" } else { " none" });
                (&Vec::new(), &figure.iter().copied().collect())
            }
            Self::Refused(refusal) => {
                line.push_str(" refused");
                (&vec![refusal.number], &refusal.ratio.into_iter().collect())
            }
        };
        for v in whole {
            write!(line, " {v}").unwrap();
        }
        add_cells(&mut line, cells);
        line
    }

    /// The answer of a step that may refuse.
    fn of(result: Result<(Vec<usize>, Vec<f64>), impl Into<Refusal>>) -> Self {
        match result {
            Ok((whole, cells)) => Self::Given(whole, cells),
            Err(e) => Self::Refused(e.into()),
        }
    }
}

/// A call's refusal, with the place of the query where it tells one, and the cells of its slices.
fn add(line: &mut String, told: &Told) {
    if let Some((number, place)) = told.refused {
        write!(line, " refused {number}").unwrap();
        if let Some(place) = place {
            write!(line, " {place}").unwrap();
        }
    }
    add_cells(line, &told.cells);
}

fn add_cells(line: &mut String, cells: &[f64]) {
    for v in cells {
        line.push(' ');
        line.push_str(&digits(*v));
    }
}

/// Sixteen upper-case hexadecimal digits of the bits, or `NaN`.
pub fn digits(v: f64) -> String {
    if v.is_nan() {
        "NaN".to_string()
    } else {
        format!("{:016X}", v.to_bits())
    }
}

/// A case being read: its cells are taken from the front, and all must be taken.
struct Input<'a> {
    case: &'a Case,
    taken: usize,
}

impl<'a> Input<'a> {
    fn whole<const N: usize>(&self) -> Result<[usize; N], String> {
        let whole: Vec<_> = self.case.whole.iter().map(|v| *v as usize).collect();
        let count = whole.len();
        whole
            .try_into()
            .map_err(|_| format!("{count} whole numbers, {N} wanted"))
    }

    fn cells(&mut self, count: usize) -> Result<&'a [f64], String> {
        let part = self.case.cells.get(self.taken..self.taken + count);
        self.taken += count;
        part.ok_or_else(|| format!("cells end before {}", self.taken))
    }

    fn cell(&mut self) -> Result<f64, String> {
        Ok(self.cells(1)?[0])
    }

    fn end(&self) -> Result<(), String> {
        let count = self.case.cells.len();
        require(self.taken == count, || {
            format!("{count} cells, {} wanted", self.taken)
        })
    }

    /// The only whole number is a count of groups, each of `width` cells.
    fn groups(&mut self, width: usize) -> Result<&'a [f64], String> {
        let [n] = self.whole()?;
        let cells = self.cells(width * n)?;
        self.end()?;
        Ok(cells)
    }

    /// Knots of an open spline; the number of controls is six less.
    fn knots(&mut self, count: usize) -> Result<&'a [f64], String> {
        require(count >= 12, || format!("{count} knots, at least 12 wanted"))?;
        self.cells(count)
    }
}

fn require(holds: bool, message: impl Fn() -> String) -> Result<(), String> {
    if holds { Ok(()) } else { Err(message()) }
}

/// Answers a case, or says why its counts do not fit.
pub fn answer(case: &Case) -> Result<Answer, String> {
    let mut input = Input { case, taken: 0 };
    match case.kind {
        Kind::Clear => input.groups(1).map(clear),
        Kind::Copy => input.groups(2).map(copy),
        Kind::Sqrt => input.groups(1).map(|v| each(v, f64::sqrt)),
        Kind::Abs => input.groups(1).map(|v| each(v, f64::abs)),
        Kind::NextUp => input.groups(1).map(|v| each(v, f64::next_up)),
        Kind::NextDown => input.groups(1).map(|v| each(v, f64::next_down)),
        Kind::Max => input.groups(2).map(|v| each_pair(v, f64::max)),
        Kind::Min => input.groups(2).map(|v| each_pair(v, f64::min)),
        Kind::TotalCmp => input.groups(2).map(total_cmp),
        Kind::IsFinite => input.groups(1).map(is_finite),
        Kind::SortDedup => input.groups(1).map(sort_dedup),
        Kind::Powi => powi(input),
        Kind::PartitionPointLe => partition_point(input, |v, x| v <= x),
        Kind::PartitionPointLt => partition_point(input, |v, x| v < x),
        Kind::Span | Kind::Values => at_parameter(input),
        Kind::Powers => powers(input),
        Kind::Insert => insert(input),
        Kind::Polynomial => polynomial(input),
        Kind::Normal => normal(input),
        Kind::Fit => fit(input),
        Kind::Audit => audit(input),
        Kind::Seed => seed(input),
        Kind::Regions => regions(input),
        Kind::Build => build(input),
        Kind::Evaluate => evaluate(input),
        Kind::Query => queries(input, Kind::Query),
        Kind::Queries => queries(input, Kind::Queries),
        Kind::Reader => queries(input, Kind::Reader),
        Kind::Returned => returned(input),
        Kind::Certify => certify(input),
    }
    .map_err(|e| format!("{}: {e}", case.kind.name()))
}

fn clear(cells: &[f64]) -> Answer {
    let mut cells = cells.to_vec();
    cells.fill(0.);
    Answer::Given(Vec::new(), cells)
}

fn copy(cells: &[f64]) -> Answer {
    let (to, from) = cells.split_at(cells.len() / 2);
    let mut to = to.to_vec();
    to.copy_from_slice(from);
    Answer::Given(Vec::new(), to)
}

fn each(cells: &[f64], f: fn(f64) -> f64) -> Answer {
    Answer::Given(Vec::new(), cells.iter().map(|v| f(*v)).collect())
}

fn each_pair(cells: &[f64], f: fn(f64, f64) -> f64) -> Answer {
    let cells = cells.chunks_exact(2).map(|v| f(v[0], v[1])).collect();
    Answer::Given(Vec::new(), cells)
}

fn total_cmp(cells: &[f64]) -> Answer {
    let order = |v: &[f64]| (v[0].total_cmp(&v[1]) as i8 + 1) as usize;
    Answer::Given(cells.chunks_exact(2).map(order).collect(), Vec::new())
}

fn is_finite(cells: &[f64]) -> Answer {
    let whole = cells.iter().map(|v| usize::from(v.is_finite())).collect();
    Answer::Given(whole, Vec::new())
}

fn sort_dedup(cells: &[f64]) -> Answer {
    let mut cells = cells.to_vec();
    cells.sort_by(f64::total_cmp);
    cells.dedup();
    Answer::Given(vec![cells.len()], cells)
}

fn powi(mut input: Input) -> Result<Answer, String> {
    let [n, exponent] = input.whole()?;
    let exponent = i32::try_from(exponent).map_err(|e| e.to_string())?;
    let cells = input.cells(n)?;
    input.end()?;
    let cells = cells.iter().map(|v| v.powi(exponent)).collect();
    Ok(Answer::Given(Vec::new(), cells))
}

fn partition_point(mut input: Input, below: fn(f64, f64) -> bool) -> Result<Answer, String> {
    let [n] = input.whole()?;
    let x = input.cell()?;
    let list = input.cells(n)?;
    input.end()?;
    let index = list.partition_point(|v| below(*v, x));
    Ok(Answer::Given(vec![index], Vec::new()))
}

fn at_parameter(mut input: Input) -> Result<Answer, String> {
    let [knots] = input.whole()?;
    let t = input.knots(knots)?;
    let x = input.cell()?;
    input.end()?;
    if input.case.kind == Kind::Span {
        return Ok(Answer::Given(vec![reach::span(t, x)], Vec::new()));
    }
    let (start, values) = reach::values(t, x);
    Ok(Answer::Given(vec![start], values.to_vec()))
}

fn powers(mut input: Input) -> Result<Answer, String> {
    let [knots, span] = input.whole()?;
    let t = input.knots(knots)?;
    let x = input.cell()?;
    input.end()?;
    require((5..knots - 6).contains(&span), || format!("span {span}"))?;
    let powers = reach::powers(t, span, x);
    Ok(Answer::Given(Vec::new(), powers.concat()))
}

fn insert(mut input: Input) -> Result<Answer, String> {
    let [d, knots] = input.whole()?;
    let x = input.cell()?;
    let t = input.knots(knots)?;
    let c = input.cells((knots - 6) * d)?;
    input.end()?;
    require(d > 0, || "no axis".to_string())?;
    let (t, c) = reach::insert(d, x, t, c);
    Ok(Answer::Given(Vec::new(), [t, c].concat()))
}

fn polynomial(mut input: Input) -> Result<Answer, String> {
    let [d, knots] = input.whole()?;
    let t = input.knots(knots)?;
    let c = input.cells((knots - 6) * d)?;
    input.end()?;
    require(d > 0, || "no axis".to_string())?;
    let p = reach::polynomial(d, t, c);
    let segments = p.segments();
    Ok(Answer::Given(
        vec![segments],
        [p.breaks, p.coefficients].concat(),
    ))
}

fn normal(mut input: Input) -> Result<Answer, String> {
    let [d, a, z, controls, count] = input.whole()?;
    require(d > 0 && a <= z && z <= controls, || "window".to_string())?;
    let c = input.cells(controls * d)?;
    let mut rows = Vec::new();
    for _ in 0..count {
        let start = input.cell()?;
        let row = Row {
            start: start as usize,
            basis: input.cells(6)?.try_into().unwrap(),
            weight: input.cell()?,
            target: input.cells(d)?.to_vec(),
        };
        require(
            row.start as f64 == start && row.start.saturating_add(6) <= controls,
            || format!("a row starts at {start}"),
        )?;
        rows.push(row);
    }
    input.end()?;
    let solution = reach::normal(d, (a, z), c, &rows);
    Ok(Answer::of(solution.map(|v| (Vec::new(), v))))
}

fn fit(mut input: Input) -> Result<Answer, String> {
    let [d, n, a, z, knots] = input.whole()?;
    let strength = input.cell()?;
    let t = input.knots(knots)?;
    let c = input.cells((knots - 6) * d)?;
    let s = input.cells(n)?;
    let y = input.cells(n * d)?;
    input.end()?;
    require(d > 0 && n >= 2 && a <= z && z <= knots - 6, || {
        "window or counts".to_string()
    })?;
    let result = reach::fit(d, (a, z), strength, t, c, s, y);
    Ok(Answer::of(result.map(|(whole, c)| (whole.to_vec(), c))))
}

fn audit(mut input: Input) -> Result<Answer, String> {
    let [d, n, first, last, segments] = input.whole()?;
    require(d > 0 && n >= 2 && segments > 0, || "counts".to_string())?;
    require(first <= last && last < n, || "intervals".to_string())?;
    let p = Pieces {
        breaks: input.cells(segments + 1)?.to_vec(),
        coefficients: input.cells(6 * d * segments)?.to_vec(),
    };
    let s = input.cells(n)?;
    let y = input.cells(n * d)?;
    let mut bounds = input.cells((n - 1) * d)?.to_vec();
    let mut witness = input.cells(n - 1)?.to_vec();
    input.end()?;
    let result = reach::audit(d, (first, last), &p, s, y, &mut bounds, &mut witness);
    Ok(Answer::of(
        result.map(|()| (Vec::new(), [bounds, witness].concat())),
    ))
}

fn seed(mut input: Input) -> Result<Answer, String> {
    let [d, n] = input.whole()?;
    let s = input.cells(n)?;
    let y = input.cells(n * d)?;
    input.end()?;
    require(d > 0 && n >= 2, || "counts".to_string())?;
    let knots = reach::seed(d, s, y);
    Ok(Answer::Given(vec![knots.len()], knots))
}

fn regions(mut input: Input) -> Result<Answer, String> {
    let [knots, count] = input.whole()?;
    let t = input.knots(knots)?;
    let x = input.cells(count)?;
    input.end()?;
    let regions = reach::regions(t, x);
    let mut whole = vec![regions.len()];
    whole.extend(regions.iter().flat_map(|(a, z)| [*a, *z]));
    Ok(Answer::Given(whole, Vec::new()))
}

fn build(input: Input) -> Result<Answer, String> {
    let request = request(input)?;
    let result = request.answer().map(|built| {
        let curve = built.curve;
        let whole = [&built.counts[..], &curve.axes].concat();
        let mut cells = vec![curve.start, curve.end];
        cells.extend(built.max_errors);
        for p in [Some(curve.selected), curve.other].into_iter().flatten() {
            let coefficients = p.with_widths();
            cells.extend(p.breaks);
            cells.extend(coefficients);
        }
        (whole, cells)
    });
    Ok(Answer::of(result))
}

/// The request of a `build` case. Without the last three whole numbers the lent slices have
/// document 01's room, and the point cells are d times n.
fn request(mut input: Input) -> Result<Request, String> {
    let whole: [usize; 16] = match input.whole::<13>() {
        Ok(w) => std::array::from_fn(|i| match i {
            0..13 => w[i],
            15 => w[0].saturating_mul(w[1]),
            _ => 0,
        }),
        Err(_) => input.whole()?,
    };
    let [
        d,
        n,
        k,
        tolerance_mode,
        tolerances,
        parameter_mode,
        parameters,
        max_refinements,
        max_segments,
        w0,
        w1,
        w2,
        w3,
        m0,
        m1,
        points,
    ] = whole;
    require(k <= ALL_AXES, || format!("{k} axes"))?;
    let tolerance = match (tolerance_mode, input.cells(tolerances)?) {
        (0, [x]) => SmoothingTolerance::Uniform(*x),
        (1, list) => SmoothingTolerance::PerAxis(list.to_vec()),
        _ => return Err("tolerance mode or count".to_string()),
    };
    let points = input.cells(points)?.to_vec();
    let spacing = Spacing::of_mode(parameter_mode);
    let parameters = match (spacing, input.cells(parameters)?) {
        (Some(Spacing::Listed), list) => Some(list.to_vec()),
        (Some(_), []) => None,
        _ => return Err("parameter mode or count".to_string()),
    };
    input.end()?;
    let config = SmoothingConfig {
        tolerance,
        axes: (k < ALL_AXES).then(|| unpack(&[w0, w1, w2, w3], k)),
        parameters,
        max_refinements,
        max_segments,
        out_of_range_mode: OutOfRangeMode::Error,
    };
    let more = unpack(&[m0, m1, 0, 0], 6);
    Ok(Request {
        d,
        n,
        points,
        config,
        chord: spacing == Some(Spacing::Chord),
        more: std::array::from_fn(|i| more[i] as u8 as i8),
    })
}

fn evaluate(mut input: Input) -> Result<Answer, String> {
    let [d, k, selected, other, count, w0, w1, w2, w3] = input.whole()?;
    require(
        k > 0 && k <= d && k <= 4 * AXIS_WORDS && selected > 0 && (k < d) == (other > 0),
        || "axes or segments".to_string(),
    )?;
    let axes = unpack(&[w0, w1, w2, w3], k);
    require(axes.iter().all(|a| *a < d), || "an axis".to_string())?;
    let start = input.cell()?;
    let end = input.cell()?;
    let selected = pieces(&mut input, selected, k)?;
    let other = if other > 0 {
        Some(pieces(&mut input, other, d - k)?)
    } else {
        None
    };
    let queries = input.cells(count)?;
    input.end()?;
    let curve = Curve {
        d,
        axes,
        start,
        end,
        selected,
        other,
    };
    Ok(Answer::Given(Vec::new(), reach::evaluate(&curve, queries)))
}

/// The widths behind the coefficients are passed over: the source has none.
fn pieces(input: &mut Input, segments: usize, axes: usize) -> Result<Pieces, String> {
    let pieces = Pieces {
        breaks: input.cells(segments + 1)?.to_vec(),
        coefficients: input.cells(6 * axes * segments)?.to_vec(),
    };
    input.cells(segments)?;
    Ok(pieces)
}

/// The curve of a case that takes nothing for granted: its counts, the packed axes and how many cells
/// each slice has.
fn handed(
    input: &mut Input,
    [d, k, segments, other_segments]: [usize; 4],
    axes: [usize; AXIS_WORDS],
    counts: [usize; 4],
) -> Result<HandedCurve, String> {
    Ok(HandedCurve {
        d,
        k,
        axes: unpack(&axes, k.min(4 * AXIS_WORDS)),
        start: input.cell()?,
        end: input.cell()?,
        segments,
        other_segments,
        breaks: input.cells(counts[0])?.to_vec(),
        coefficients: input.cells(counts[1])?.to_vec(),
        other_breaks: input.cells(counts[2])?.to_vec(),
        other_coefficients: input.cells(counts[3])?.to_vec(),
    })
}

/// Four bytes of a whole number.
fn four(word: usize) -> [usize; 4] {
    std::array::from_fn(|i| unpack(&[word, 0, 0, 0], 4)[i])
}

fn queries(mut input: Input, kind: Kind) -> Result<Answer, String> {
    let whole = input.whole::<16>()?;
    let [
        d,
        k,
        n,
        m,
        w0,
        w1,
        w2,
        w3,
        c0,
        c1,
        c2,
        c3,
        orders,
        mode,
        lengths,
        count,
    ] = whole;
    require(mode <= 1, || format!("mode {mode}"))?;
    let queries = Queries {
        curve: handed(&mut input, [d, k, n, m], [w0, w1, w2, w3], [c0, c1, c2, c3])?,
        clamp: mode == 1,
        orders: if kind == Kind::Reader {
            four(orders)
        } else {
            [orders; 4]
        },
        lengths: four(lengths),
        parameters: input.cells(count)?.to_vec(),
    };
    input.end()?;
    match kind {
        Kind::Query => {
            require(count == 1, || format!("{count} queries"))?;
            Ok(Answer::Queried(vec![queries.single()]))
        }
        Kind::Queries => Ok(Answer::Queried(vec![queries.all()])),
        _ => Ok(Answer::Queried(queries.in_turn())),
    }
}

fn returned(mut input: Input) -> Result<Answer, String> {
    let [d, k, n, m, w0, w1, w2, w3, c0, c1, c2, c3, lengths] = input.whole()?;
    let returning = Returning {
        curve: handed(&mut input, [d, k, n, m], [w0, w1, w2, w3], [c0, c1, c2, c3])?,
        lengths: four(lengths),
    };
    input.end()?;
    Ok(Answer::Queried(vec![returning.told()]))
}

fn certify(mut input: Input) -> Result<Answer, String> {
    let whole = input.whole::<16>()?;
    let [
        d,
        k,
        segments,
        others,
        n,
        w0,
        w1,
        w2,
        w3,
        c0,
        c1,
        c2,
        c3,
        points,
        parameters,
        word,
    ] = whole;
    let (axis, mode, depth) = (word % 256, word / 256 % 256, word / 65_536);
    let spacing = Spacing::of_mode(mode).ok_or_else(|| format!("parameter mode {mode}"))?;
    let counts = [d, k, segments, others];
    let question = Question {
        curve: handed(&mut input, counts, [w0, w1, w2, w3], [c0, c1, c2, c3])?,
        n,
        points: input.cells(points)?.to_vec(),
        spacing,
        parameters: input.cells(parameters)?.to_vec(),
        axis,
        depth,
    };
    input.end()?;
    Ok(match question.certify() {
        Certificate::Figure(figure) => Answer::Figure(Some(figure)),
        Certificate::None => Answer::Figure(None),
        Certificate::Refused(number) => Answer::Refused(number.into()),
    })
}
