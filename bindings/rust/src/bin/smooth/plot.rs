//! A frame with two scales: where numbers lie in it, its ticks, and lines with no more points than can be seen.

/// A place in the picture, to the right and down.
pub type Place = (f64, f64);

/// A range of numbers.
#[derive(Clone, Copy, Debug)]
pub struct Range {
    pub low: f64,
    pub high: f64,
}

impl Range {
    /// The range of the finite ones of these numbers, none if there are none.
    pub fn of(numbers: impl Iterator<Item = f64>) -> Option<Self> {
        numbers
            .filter(|x| x.is_finite())
            .fold(None, |range: Option<Self>, x| {
                Some(range.map_or(Self { low: x, high: x }, |r| Self {
                    low: r.low.min(x),
                    high: r.high.max(x),
                }))
            })
    }

    /// The range with a part of its width more at both ends; a single number gets room around it.
    pub fn widened(self, part: f64) -> Self {
        let width = self.high - self.low;
        let more = if width > 0. {
            width * part
        } else if self.low == 0. {
            1.
        } else {
            self.low.abs() * 0.1
        };
        Self {
            low: (self.low - more).max(f64::MIN),
            high: (self.high + more).min(f64::MAX),
        }
    }

    /// How far from the low end to the high end the number lies; in the middle where that can't be told.
    fn part(self, x: f64) -> f64 {
        let [low, high, x] = [self.low, self.high, x].map(|v| v * 0.5);
        let part = (x - low) / (high - low);
        if part.is_finite() { part } else { 0.5 }
    }

    /// At most about `most` numbers at even steps, with the text of each.
    pub fn ticks(self, most: usize) -> Vec<(f64, String)> {
        let width = self.high - self.low;
        if !(width.is_finite() && width > 0.) {
            return [self.low, self.high]
                .map(|x| (x, format!("{x:.1e}")))
                .to_vec();
        }
        let (step, exponent) = step(width / most as f64);
        let first = (self.low / step - 1e-6).ceil();
        let mut ticks: Vec<(f64, String)> = Vec::new();
        for i in 0..=2 * most {
            let x = (first + i as f64) * step;
            let above = x > self.high + step * 1e-6 || x.is_infinite();
            if above || ticks.last().is_some_and(|(before, _)| x <= *before) {
                break;
            }
            if x >= self.low - step * 1e-6 {
                ticks.push((x, label(x, exponent)));
            }
        }
        ticks
    }
}

/// The exponent of ten of a number above 0.
pub fn exponent(x: f64) -> i32 {
    let text = format!("{x:e}");
    let digits = text.rsplit('e').next().unwrap_or_default();
    digits.parse().unwrap_or(0)
}

/// Ten to this power, rounded once.
pub fn ten_to(exponent: i32) -> f64 {
    format!("1e{exponent}").parse().unwrap_or(1.)
}

/// The smallest of 1, 2 and 5 times a power of ten that is not below `least`, up to rounding, and the power's exponent.
fn step(least: f64) -> (f64, i32) {
    let power = exponent(least);
    for factor in [1., 2., 5.] {
        let step = factor * ten_to(power);
        if step >= least * 0.999_999 {
            return (step, power);
        }
    }
    (ten_to(power + 1), power + 1)
}

/// A tick's text, with as many digits as a step of this exponent needs.
fn label(x: f64, step: i32) -> String {
    let x = if x == 0. { 0. } else { x };
    let size = if x == 0. { step } else { exponent(x.abs()) };
    if x == 0. {
        "0".to_string()
    } else if size > 6 || step < -5 {
        format!("{x:.*e}", usize::try_from(size - step).unwrap_or(0))
    } else {
        format!("{x:.*}", usize::try_from(-step).unwrap_or(0))
    }
}

/// A rectangle with a scale to the right and one up.
#[derive(Clone, Copy, Debug)]
pub struct Frame {
    pub left: f64,
    pub top: f64,
    pub width: f64,
    pub height: f64,
    pub across: Range,
    pub up: Range,
}

impl Frame {
    pub fn x(&self, v: f64) -> f64 {
        self.left + self.across.part(v) * self.width
    }

    pub fn y(&self, v: f64) -> f64 {
        self.top + (1. - self.up.part(v)) * self.height
    }

    pub fn right(&self) -> f64 {
        self.left + self.width
    }

    pub fn bottom(&self) -> f64 {
        self.top + self.height
    }

    /// The lines through these numbers, broken where one is not finite, without what can't be seen.
    pub fn lines(&self, numbers: &[(f64, f64)]) -> Vec<Vec<Place>> {
        numbers
            .split(|(x, y)| !(x.is_finite() && y.is_finite()))
            .filter(|part| !part.is_empty())
            .map(|part| {
                let places: Vec<Place> =
                    part.iter().map(|(x, y)| (self.x(*x), self.y(*y))).collect();
                straightened(&columns(&places, COLUMN))
            })
            .collect()
    }

    /// The stairs through these numbers, part after part, without what can't be seen. They rise halfway between numbers.
    pub fn stairs(&self, parts: impl Iterator<Item = Vec<(f64, f64)>>) -> Vec<Place> {
        let mut before: Option<Place> = None;
        let places = parts.flat_map(|part| {
            let places = part.iter().map(|(x, y)| (self.x(*x), self.y(*y)));
            let steps = places.flat_map(|(x, y)| {
                let rise = before.replace((x, y)).map(|(left, last)| {
                    let middle = (left + x) / 2.;
                    [(middle, last), (middle, y)]
                });
                rise.into_iter().flatten().chain([(x, y)])
            });
            columns(&steps.collect::<Vec<Place>>(), COLUMN)
        });
        straightened(&columns(&places.collect::<Vec<Place>>(), COLUMN))
    }
}

/// The width of the columns in which a line is thinned out.
const COLUMN: f64 = 0.5;

/// Of the places in each column of this width the first, the lowest, the highest and the last, in their order.
pub fn columns(places: &[Place], width: f64) -> Vec<Place> {
    let column = |place: &Place| (place.0 / width).floor();
    let mut kept = Vec::new();
    for group in places.chunk_by(|a, b| column(a) == column(b)) {
        let by_height = |a: &(usize, &Place), b: &(usize, &Place)| a.1.1.total_cmp(&b.1.1);
        let (low, high) = (
            group.iter().enumerate().min_by(by_height),
            group.iter().enumerate().max_by(by_height),
        );
        let ends = [
            Some(0),
            low.map(|l| l.0),
            high.map(|h| h.0),
            group.len().checked_sub(1),
        ];
        let mut chosen: Vec<usize> = ends.into_iter().flatten().collect();
        chosen.sort_unstable();
        chosen.dedup();
        kept.extend(chosen.into_iter().filter_map(|i| group.get(i).copied()));
    }
    kept
}

/// How far a place may lie from a line that leaves it out.
const UNSEEN: f64 = 0.06;

/// The places that a line through them needs (Ramer, Douglas and Peucker).
pub fn straightened(places: &[Place]) -> Vec<Place> {
    let Some(last) = places.len().checked_sub(1) else {
        return Vec::new();
    };
    let mut kept = vec![0, last];
    let mut parts = vec![(0, last)];
    while let Some((a, b)) = parts.pop() {
        let (Some(from), Some(to)) = (places.get(a), places.get(b)) else {
            continue;
        };
        let inner = places.iter().enumerate().take(b).skip(a + 1);
        let furthest = inner
            .map(|(i, place)| (i, distance(*place, *from, *to)))
            .max_by(|a, b| a.1.total_cmp(&b.1));
        if let Some((i, far)) = furthest
            && far > UNSEEN
        {
            kept.push(i);
            parts.extend([(a, i), (i, b)]);
        }
    }
    kept.sort_unstable();
    kept.dedup();
    kept.into_iter()
        .filter_map(|i| places.get(i).copied())
        .collect()
}

/// The distance of a place from the straight connection of two others.
fn distance(place: Place, from: Place, to: Place) -> f64 {
    let (dx, dy) = (to.0 - from.0, to.1 - from.1);
    let (px, py) = (place.0 - from.0, place.1 - from.1);
    let square = dx * dx + dy * dy;
    let part = if square > 0. {
        ((px * dx + py * dy) / square).clamp(0., 1.)
    } else {
        0.
    };
    let (x, y) = (px - part * dx, py - part * dy);
    (x * x + y * y).sqrt()
}

#[cfg(test)]
mod tests {
    use super::*;

    fn texts(low: f64, high: f64) -> Vec<String> {
        let range = Range { low, high };
        range.ticks(5).into_iter().map(|tick| tick.1).collect()
    }

    #[test]
    fn ticks_have_the_digits_they_need() {
        assert_eq!(texts(0., 1.), ["0", "0.2", "0.4", "0.6", "0.8", "1.0"]);
        assert_eq!(texts(-30., 40.), ["-20", "0", "20", "40"]);
        assert!((5..=6).contains(&texts(1e6, 1e6 + 1e-3).len()));
        assert_eq!(texts(0., 3e-9), ["0", "1e-9", "2e-9", "3e-9"]);
        assert_eq!(texts(-1.7e308, 1.7e308).len(), 2);
        assert_eq!(texts(1.5e308, f64::MAX), ["1.5e308", "1.6e308", "1.7e308"]);
        assert!(texts(5e-324, 1e-323).len() < 12);
        assert!(texts(f64::NAN, f64::NAN).len() < 12);
    }

    #[test]
    fn stairs_rise_halfway() {
        let unit = Range { low: 0., high: 1. };
        let frame = Frame {
            left: 0.,
            top: 0.,
            width: 100.,
            height: 10.,
            across: unit,
            up: unit,
        };
        let parts = [
            vec![(0., 0.), (0.2, 0.), (0.4, 1.)],
            vec![(0.4, 1.), (1., 0.5)],
        ];
        let wanted = [
            (0., 10.),
            (30., 10.),
            (30., 0.),
            (70., 0.),
            (70., 5.),
            (100., 5.),
        ];
        assert_eq!(frame.stairs(parts.into_iter()), wanted);
        // As many parts as there may be segments: a few places for each column.
        let part = |i: u32| (0..257).map(move |j| f64::from(i * 257 + j) / 5_140_000.);
        let parts = (0..20_000).map(|i| part(i).map(|x| (x, (x * 9e5) % 1.)).collect());
        assert!(frame.stairs(parts).len() < 4 * 2 * 101);
    }

    #[test]
    fn a_line_keeps_its_corners() {
        let places: Vec<Place> = (0..=100i32)
            .map(|i| (f64::from(i), f64::from((i - 50).abs())))
            .collect();
        assert_eq!(straightened(&places), [(0., 50.), (50., 0.), (100., 50.)]);
        let many: Vec<Place> = (0..1000)
            .map(|i| (f64::from(i) / 1000., f64::from(i % 7)))
            .collect();
        assert_eq!(columns(&many, 1.), [(0., 0.), (0.993, 6.), (0.999, 5.)]);
    }
}
