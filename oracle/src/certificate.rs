//! The certified figure, computed straight from document 01 ("The certified figure"), its sums and
//! differences from document 02, request 7, its halving from request 8. The source has no such
//! step. Here every waypoint interval is paired with every segment, in plain loops.

use crate::handed::HandedCurve;
use crate::spacing::{Spacing, chords};
use std::array::from_fn;
use std::ops::{Add, Div, Mul, Sub};

/// What is to be certified. Nothing is taken for granted: counts and lengths may differ.
#[derive(Clone, Debug)]
pub struct Question {
    pub curve: HandedCurve,
    pub n: usize,
    pub points: Vec<f64>,
    /// Unless the parameters are listed, the list is not read.
    pub spacing: Spacing,
    pub parameters: Vec<f64>,
    pub axis: usize,
    pub depth: usize,
}

/// "the certificate a figure or none", or a refusal by its number.
#[derive(Clone, Copy, Debug)]
pub enum Certificate {
    Figure(f64),
    None,
    Refused(usize),
}

/// What the figure is computed from: an axis's breaks and coefficients, the normalised parameters
/// and its waypoints.
struct Axis {
    breaks: Vec<f64>,
    coefficients: Vec<[f64; 6]>,
    s: Vec<f64>,
    y: Vec<f64>,
}

impl Question {
    pub fn certify(&self) -> Certificate {
        match self.checked().map(|axis| axis.figure(self.depth)) {
            Ok(Some(figure)) => Certificate::Figure(figure),
            Ok(None) => Certificate::None,
            Err(number) => Certificate::Refused(number),
        }
    }

    /// "depth above 6 is 23, first among the certificate's"; then "Certifying: 18, 20, 1, 5, 6, 24, 3."
    fn checked(&self) -> Result<Axis, usize> {
        let (curve, d, n) = (&self.curve, self.curve.d, self.n);
        refuse(23, self.depth > 6)?;
        refuse(18, d > 16 || n > 20_000)?;
        refuse(20, self.points.len() != d * n)?;
        let finite = self.points.iter().all(|v| v.is_finite());
        refuse(1, d == 0 || n < 2 || !finite)?;
        let parameters: Vec<f64> = match self.spacing {
            Spacing::Listed => self.parameters.clone(),
            Spacing::Even => (0..n).map(|i| i as f64 / (n - 1) as f64).collect(),
            Spacing::Chord => chords(&self.points, d, n),
        };
        let finite = parameters.iter().all(|v| v.is_finite());
        refuse(5, parameters.len() != n || !finite || !rise(&parameters))?;
        let length = parameters[n - 1] - parameters[0];
        let normalised = |v| (v - parameters[0]) / length;
        let s: Vec<f64> = parameters.iter().map(normalised).collect();
        refuse(6, !length.is_finite() || !rise(&s))?;
        refuse(24, !curve.well_formed())?;
        let place = curve.axes[..curve.k].iter().position(|a| *a == self.axis);
        let place = place.ok_or(3usize)?;
        let rows = curve.coefficients.as_chunks().0;
        Ok(Axis {
            breaks: curve.breaks.clone(),
            coefficients: (0..curve.segments)
                .map(|m| rows[m * curve.k + place])
                .collect(),
            s,
            y: (0..n).map(|i| self.points[i * d + self.axis]).collect(),
        })
    }
}

fn refuse(number: usize, refused: bool) -> Result<(), usize> {
    if refused { Err(number) } else { Ok(()) }
}

/// The source's test, which lets a NaN pass.
fn rise(list: &[f64]) -> bool {
    !list.windows(2).any(|v| v[1] <= v[0])
}

impl Axis {
    /// "The figure is the largest absolute end", over all intersections, each halved to the depth.
    fn figure(&self, depth: usize) -> Option<f64> {
        let mut figure = 0f64;
        for (s, y) in self.s.windows(2).zip(self.y.windows(2)) {
            for (ab, p) in self.breaks.windows(2).zip(&self.coefficients) {
                let left = if ab[0] < s[0] { s[0] } else { ab[0] };
                let right = if s[1] < ab[1] { s[1] } else { ab[1] };
                if left < right {
                    let pairs = bernstein((ab[0], ab[1]), p, (left, right), s, y);
                    figure = figure.max(halved(pairs, depth)?);
                }
            }
        }
        Some(figure)
    }
}

/// The figure of six Bernstein pairs: "the smaller of its own and the larger of its two halves; if a
/// half has none, its own".
fn halved(pairs: [Pair; 6], depth: usize) -> Option<f64> {
    let mut own = 0f64;
    for pair in pairs {
        let [low, high] = pair.0?;
        own = own.max(low.abs()).max(high.abs());
    }
    if depth == 0 {
        return Some(own);
    }
    let [left, right] = halves(pairs).map(|half| halved(half, depth - 1));
    Some(match (left, right) {
        (Some(left), Some(right)) => own.min(left.max(right)),
        _ => own,
    })
}

/// "two halves by de Casteljau's midpoints, in the same end arithmetic (add, then divide by 2)"
fn halves(mut row: [Pair; 6]) -> [[Pair; 6]; 2] {
    let (mut left, mut right) = (row, row);
    for last in (0..5).rev() {
        for i in 0..=last {
            row[i] = (row[i] + row[i + 1]) / Pair::of(2.);
        }
        left[5 - last] = row[0];
        right[last] = row[last];
    }
    [left, right]
}

/// The Bernstein pairs of the curve's segment [a, b] less the line, on [left, right].
fn bernstein(
    (a, b): (f64, f64),
    p: &[f64; 6],
    (left, right): (f64, f64),
    s: &[f64],
    y: &[f64],
) -> [Pair; 6] {
    let [a, b, left, right] = [a, b, left, right].map(Pair::of);
    let [s0, s1, y0, y1] = [s[0], s[1], y[0], y[1]].map(Pair::of);
    let u = (left - a) / (b - a);
    let w = (right - left) / (b - a);
    let mut power: [Pair; 6] = from_fn(|j| {
        let term = |k: usize| binomial(k, j) * Pair::of(p[k]) * raised(u, k - j);
        sum((j..=5).map(term)) * raised(w, j)
    });
    let rise = y1 - y0;
    let length = s1 - s0;
    power[0] = power[0] - (y0 + (left - s0) / length * rise);
    power[1] = power[1] - (right - left) / length * rise;
    from_fn(|k| sum((0..=k).map(|j| power[j] * binomial(k, j) / binomial(5, j))))
}

/// "Powers multiply up from 1."
fn raised(x: Pair, k: usize) -> Pair {
    (0..k).fold(Pair::of(1.), |power, _| power * x)
}

/// "sums start at 0 and rise"
fn sum(terms: impl Iterator<Item = Pair>) -> Pair {
    terms.fold(Pair::of(0.), |sum, term| sum + term)
}

/// C(n, k), for n up to 5.
fn binomial(n: usize, k: usize) -> Pair {
    let row = [
        [1., 0., 0., 0., 0., 0.],
        [1., 1., 0., 0., 0., 0.],
        [1., 2., 1., 0., 0., 0.],
        [1., 3., 3., 1., 0., 0.],
        [1., 4., 6., 4., 1., 0.],
        [1., 5., 10., 10., 5., 1.],
    ];
    Pair::of(row[n][k])
}

/// A low and a high end, or none.
#[derive(Clone, Copy)]
struct Pair(Option<[f64; 2]>);

impl Pair {
    /// "Every number read .. enters as a pair of equal ends"; if not finite, there is no figure.
    fn of(x: f64) -> Self {
        Self(x.is_finite().then_some([x, x]))
    }

    /// "all combinations of ends, each rounded once; lowest and highest taken; then every finite
    /// end is moved to the next number outward, exact results too. An end not finite before or
    /// after the move .. gives no figure."
    fn combined(self, other: Self, operation: fn(f64, f64) -> f64) -> Self {
        let (Some(x), Some(y)) = (self.0, other.0) else {
            return Self(None);
        };
        let all = x.map(|x| y.map(|y| operation(x, y))).concat();
        let low = all.iter().copied().fold(f64::INFINITY, f64::min);
        let high = all.iter().copied().fold(f64::NEG_INFINITY, f64::max);
        let moved = [low.next_down(), high.next_up()];
        let finite = [low, high, moved[0], moved[1]]
            .iter()
            .all(|v| v.is_finite());
        Self(finite.then_some(moved))
    }
}

/// "the largest f64 not above the exact result .. an exact zero is +0", of x + y. What the rounded
/// sum lacks is found without a rounding from the larger operand (Dekker); an infinite sum of
/// finite numbers lacks an infinity.
fn down(x: f64, y: f64) -> f64 {
    let sum = x + y;
    let (large, small) = if x.abs() < y.abs() { (y, x) } else { (x, y) };
    let lacking = small - (sum - large);
    if lacking < 0. {
        sum.next_down()
    } else {
        sum + 0.
    }
}

/// "the smallest not below"
fn up(x: f64, y: f64) -> f64 {
    0. - down(-x, -y)
}

/// "no figure, as before, where an end is not finite"
fn added(x: Pair, y: Pair) -> Pair {
    let (Some([a, b]), Some([c, d])) = (x.0, y.0) else {
        return Pair(None);
    };
    let ends = [down(a, c), up(b, d)];
    Pair(ends.iter().all(|v| v.is_finite()).then_some(ends))
}

impl Add for Pair {
    type Output = Self;
    fn add(self, other: Self) -> Self {
        added(self, other)
    }
}

impl Sub for Pair {
    type Output = Self;
    fn sub(self, other: Self) -> Self {
        added(self, Self(other.0.map(|[low, high]| [-high, -low])))
    }
}

impl Mul for Pair {
    type Output = Self;
    fn mul(self, other: Self) -> Self {
        self.combined(other, |x, y| x * y)
    }
}

impl Div for Pair {
    type Output = Self;
    /// "a divisor whose low end is not above 0, gives no figure"
    fn div(self, other: Self) -> Self {
        match other.0 {
            Some([low, _]) if low > 0. => self.combined(other, |x, y| x / y),
            _ => Self(None),
        }
    }
}
