//! A case: its kind, its whole numbers and its cells. README.md's table says what
//! the numbers and cells of each kind are; the functions here put them in that order.

use crate::certificate::Question;
use crate::path::smoothing::SmoothingTolerance;
use crate::query::Queries;
use crate::request::Request;
use crate::returned::Returning;

/// What is asked, with its number in the list.
#[derive(Clone, Copy, Debug, PartialEq, Eq)]
pub enum Kind {
    Clear = 1,
    Copy = 2,
    Sqrt = 10,
    Abs = 11,
    Max = 12,
    Min = 13,
    NextUp = 14,
    NextDown = 15,
    TotalCmp = 16,
    Powi = 17,
    IsFinite = 18,
    PartitionPointLe = 20,
    PartitionPointLt = 21,
    Span = 22,
    Values = 23,
    Powers = 24,
    Insert = 25,
    Polynomial = 26,
    Normal = 30,
    Fit = 40,
    Audit = 50,
    Seed = 60,
    Regions = 61,
    SortDedup = 62,
    Build = 70,
    Evaluate = 80,
    Query = 81,
    Queries = 82,
    Reader = 83,
    Returned = 84,
    Certify = 90,
}

impl Kind {
    /// Every kind with its name.
    pub const ALL: [(Kind, &'static str); 31] = [
        (Kind::Clear, "clear"),
        (Kind::Copy, "copy"),
        (Kind::Sqrt, "sqrt"),
        (Kind::Abs, "abs"),
        (Kind::Max, "max"),
        (Kind::Min, "min"),
        (Kind::NextUp, "next_up"),
        (Kind::NextDown, "next_down"),
        (Kind::TotalCmp, "total_cmp"),
        (Kind::Powi, "powi"),
        (Kind::IsFinite, "is_finite"),
        (Kind::PartitionPointLe, "partition_point_le"),
        (Kind::PartitionPointLt, "partition_point_lt"),
        (Kind::Span, "span"),
        (Kind::Values, "values"),
        (Kind::Powers, "powers"),
        (Kind::Insert, "insert"),
        (Kind::Polynomial, "polynomial"),
        (Kind::Normal, "normal"),
        (Kind::Fit, "fit"),
        (Kind::Audit, "audit"),
        (Kind::Seed, "seed"),
        (Kind::Regions, "regions"),
        (Kind::SortDedup, "sort_dedup"),
        (Kind::Build, "build"),
        (Kind::Evaluate, "evaluate"),
        (Kind::Query, "query"),
        (Kind::Queries, "queries"),
        (Kind::Reader, "reader"),
        (Kind::Returned, "returned"),
        (Kind::Certify, "certify"),
    ];

    pub fn name(self) -> &'static str {
        Self::ALL.iter().find(|k| k.0 == self).unwrap().1
    }

    pub fn from_number(number: u8) -> Option<Kind> {
        Self::ALL.iter().map(|k| k.0).find(|k| *k as u8 == number)
    }
}

/// One case of a list.
#[derive(Clone, Debug)]
pub struct Case {
    pub kind: Kind,
    pub whole: Vec<u32>,
    pub cells: Vec<f64>,
}

/// A piecewise polynomial: breaks, then six coefficients for each segment and, within it, axis.
#[derive(Clone, Debug)]
pub struct Pieces {
    pub breaks: Vec<f64>,
    pub coefficients: Vec<f64>,
}

impl Pieces {
    pub fn segments(&self) -> usize {
        self.breaks.len() - 1
    }

    /// The coefficients, and behind them the width of each segment, as document 02's request 12 has a
    /// curve keep it.
    pub fn with_widths(&self) -> Vec<f64> {
        let widths = self.breaks.windows(2).map(|v| v[1] - v[0]);
        self.coefficients.iter().copied().chain(widths).collect()
    }
}

/// A curve as document 01 describes it; `other` is there when an axis is not selected.
#[derive(Clone, Debug)]
pub struct Curve {
    pub d: usize,
    pub axes: Vec<usize>,
    pub start: f64,
    pub end: f64,
    pub selected: Pieces,
    pub other: Option<Pieces>,
}

/// One row given to the normal system.
#[derive(Clone, Debug)]
pub struct Row {
    pub start: usize,
    pub basis: [f64; 6],
    pub weight: f64,
    pub target: Vec<f64>,
}

/// Marks that all axes are selected, where the number of listed axes stands.
pub const ALL_AXES: usize = 17;

/// How many whole numbers hold the listed axes, four axes to a number.
pub const AXIS_WORDS: usize = 4;

/// At most 16 axes below 256, four to a whole number, the first in the low byte.
fn pack(axes: &[usize]) -> [usize; AXIS_WORDS] {
    assert!(axes.len() <= 4 * AXIS_WORDS);
    let mut words = [0; AXIS_WORDS];
    for (i, axis) in axes.iter().enumerate() {
        assert!(*axis < 256);
        words[i / 4] |= axis << (8 * (i % 4));
    }
    words
}

/// The first `count` axes of packed whole numbers.
pub fn unpack(words: &[usize; AXIS_WORDS], count: usize) -> Vec<usize> {
    (0..count)
        .map(|i| words[i / 4] >> (8 * (i % 4)) & 255)
        .collect()
}

impl Case {
    fn new(kind: Kind, whole: &[usize], cells: &[&[f64]]) -> Self {
        Self {
            kind,
            whole: whole.iter().map(|v| u32::try_from(*v).unwrap()).collect(),
            cells: cells.concat(),
        }
    }

    /// A leaf that answers each cell by itself, or a sort.
    pub fn cells(kind: Kind, cells: &[f64]) -> Self {
        Self::new(kind, &[cells.len()], &[cells])
    }

    /// A leaf that answers each pair of cells by itself.
    pub fn pairs(kind: Kind, pairs: &[[f64; 2]]) -> Self {
        Self::new(kind, &[pairs.len()], &[&pairs.concat()])
    }

    pub fn copy(to: &[f64], from: &[f64]) -> Self {
        Self::new(Kind::Copy, &[to.len()], &[to, from])
    }

    pub fn powi(exponent: usize, cells: &[f64]) -> Self {
        Self::new(Kind::Powi, &[cells.len(), exponent], &[cells])
    }

    pub fn partition_point(kind: Kind, x: f64, list: &[f64]) -> Self {
        Self::new(kind, &[list.len()], &[&[x], list])
    }

    /// `span` or `values`.
    pub fn at_parameter(kind: Kind, t: &[f64], x: f64) -> Self {
        Self::new(kind, &[t.len()], &[t, &[x]])
    }

    pub fn powers(t: &[f64], span: usize, x: f64) -> Self {
        Self::new(Kind::Powers, &[t.len(), span], &[t, &[x]])
    }

    pub fn insert(d: usize, x: f64, t: &[f64], c: &[f64]) -> Self {
        Self::new(Kind::Insert, &[d, t.len()], &[&[x], t, c])
    }

    pub fn polynomial(d: usize, t: &[f64], c: &[f64]) -> Self {
        Self::new(Kind::Polynomial, &[d, t.len()], &[t, c])
    }

    pub fn normal(d: usize, a: usize, z: usize, c: &[f64], rows: &[Row]) -> Self {
        let mut cells = c.to_vec();
        for row in rows {
            cells.push(row.start as f64);
            cells.extend(row.basis);
            cells.push(row.weight);
            cells.extend(&row.target);
        }
        Self::new(Kind::Normal, &[d, a, z, c.len() / d, rows.len()], &[&cells])
    }

    pub fn fit(
        d: usize,
        (a, z): (usize, usize),
        strength: f64,
        t: &[f64],
        c: &[f64],
        s: &[f64],
        y: &[f64],
    ) -> Self {
        Self::new(
            Kind::Fit,
            &[d, s.len(), a, z, t.len()],
            &[&[strength], t, c, s, y],
        )
    }

    pub fn audit(
        d: usize,
        (first, last): (usize, usize),
        p: &Pieces,
        s: &[f64],
        y: &[f64],
        bounds: &[f64],
        witness: &[f64],
    ) -> Self {
        Self::new(
            Kind::Audit,
            &[d, s.len(), first, last, p.segments()],
            &[&p.breaks, &p.coefficients, s, y, bounds, witness],
        )
    }

    pub fn seed(d: usize, s: &[f64], y: &[f64]) -> Self {
        Self::new(Kind::Seed, &[d, s.len()], &[s, y])
    }

    pub fn regions(t: &[f64], x: &[f64]) -> Self {
        Self::new(Kind::Regions, &[t.len(), x.len()], &[t, x])
    }

    pub fn build(request: &Request) -> Self {
        let config = &request.config;
        let axes = config.axes.as_deref();
        let (tolerance_mode, tolerances) = match &config.tolerance {
            SmoothingTolerance::Uniform(x) => (0, vec![*x]),
            SmoothingTolerance::PerAxis(list) => (1, list.clone()),
        };
        let parameters = config.parameters.as_deref().unwrap_or(&[]);
        let counts = [
            request.d,
            request.n,
            axes.map_or(ALL_AXES, <[usize]>::len),
            tolerance_mode,
            tolerances.len(),
            request.spacing() as usize,
            parameters.len(),
            config.max_refinements,
            config.max_segments,
        ];
        let mut whole = [&counts[..], &pack(axes.unwrap_or(&[]))].concat();
        let points = request.points.len();
        if request.more != [0; 6] || points != request.d * request.n {
            let more = request.more.map(|v| usize::from(v as u8));
            whole.extend(&pack(&more)[..2]);
            whole.push(points);
        }
        Self::new(
            Kind::Build,
            &whole,
            &[&tolerances, &request.points, parameters],
        )
    }

    pub fn evaluate(curve: &Curve, queries: &[f64]) -> Self {
        let none = Pieces {
            breaks: Vec::new(),
            coefficients: Vec::new(),
        };
        let other = curve.other.as_ref();
        let counts = [
            curve.d,
            curve.axes.len(),
            curve.selected.segments(),
            other.map_or(0, Pieces::segments),
            queries.len(),
        ];
        let whole = [&counts[..], &pack(&curve.axes)].concat();
        let other = other.unwrap_or(&none);
        Self::new(
            Kind::Evaluate,
            &whole,
            &[
                &[curve.start, curve.end],
                &curve.selected.breaks,
                &curve.selected.with_widths(),
                &other.breaks,
                &other.with_widths(),
                queries,
            ],
        )
    }

    pub fn certify(question: &Question) -> Self {
        let curve = &question.curve;
        let whole = [
            &[curve.d, curve.k, curve.segments, curve.other_segments],
            &[question.n][..],
            &pack(&curve.axes),
            &curve.counts(),
            &[question.points.len(), question.parameters.len()],
            &pack(&[question.axis, question.spacing as usize, question.depth])[..1],
        ];
        let cells = curve.cells();
        let cells = [&cells[..], &question.points, &question.parameters];
        Self::new(Kind::Certify, &whole.concat(), &cells)
    }

    /// `query`, `queries` or `reader`, the last with four orders.
    pub fn queries(kind: Kind, queries: &Queries) -> Self {
        let curve = &queries.curve;
        let orders = match kind {
            Kind::Reader => pack(&queries.orders)[0],
            _ => queries.orders[0],
        };
        let whole = [
            &[curve.d, curve.k, curve.segments, curve.other_segments],
            &pack(&curve.axes)[..],
            &curve.counts(),
            &[orders, usize::from(queries.clamp)],
            &pack(&queries.lengths)[..1],
            &[queries.parameters.len()],
        ];
        let cells = [&curve.cells()[..], &queries.parameters];
        Self::new(kind, &whole.concat(), &cells)
    }

    pub fn returned(returning: &Returning) -> Self {
        let curve = &returning.curve;
        let whole = [
            &[curve.d, curve.k, curve.segments, curve.other_segments],
            &pack(&curve.axes)[..],
            &curve.counts(),
            &pack(&returning.lengths)[..1],
        ];
        Self::new(Kind::Returned, &whole.concat(), &[&curve.cells()])
    }
}
