//! Curves that are not well formed.

use crate::handed::HandedCurve;
use crate::random::Random;

/// Numbers that are not finite, or overflow soon.
pub const HUGE: [f64; 6] = [
    f64::NAN,
    f64::INFINITY,
    f64::NEG_INFINITY,
    1e300,
    1e308,
    f64::MAX,
];

/// Makes a curve that is not well formed.
pub fn damage_curve(r: &mut Random, curve: &mut HandedCurve) {
    if curve.breaks.is_empty() {
        return;
    }
    let last = curve.breaks.len() - 1;
    let place = r.below(last + 1);
    let not_finite = r.pick(&HUGE[..3]);
    match r.below(30) {
        0 => curve.k = 0,
        1 => curve.k = curve.d.min(200) + 1,
        2 => curve.k = r.pick(&[16, 17, 255]),
        3 => curve.axes[0] = curve.d.min(200) + r.below(2),
        4 => {
            curve.axes.truncate(15);
            curve.axes.push(curve.axes[0]);
            curve.k = curve.axes.len();
        }
        5 => curve.segments += 1,
        6 => curve.segments = curve.segments.saturating_sub(1),
        7 => curve.segments = r.pick(&[0, 20_001, 1 << 20]),
        8 => curve.other_segments += 1,
        9 => curve.other_segments = 0,
        10 => curve.breaks.push(2.),
        11 => {
            curve.breaks.pop();
        }
        12 => curve.coefficients.push(0.),
        13 => {
            curve.coefficients.pop();
        }
        14 => curve.other_breaks.push(1.),
        15 => curve.other_breaks.clear(),
        16 => curve.other_coefficients.push(0.),
        17 => {
            curve.other_coefficients.pop();
        }
        18 => curve.breaks[place] = not_finite,
        19 => curve.breaks[0] = r.pick(&[5e-324, -5e-324, 0.25]),
        20 => curve.breaks[last] = r.pick(&[1f64.next_up(), 1f64.next_down(), 0.]),
        21 => curve.breaks.insert(place, curve.breaks[place]),
        22 => {
            // One segment more, of no width.
            curve.breaks.insert(place, curve.breaks[place]);
            curve.coefficients.extend(vec![0.; 6 * curve.k.min(16)]);
            curve.segments += 1;
        }
        23 => curve.start = not_finite,
        24 => curve.end = not_finite,
        25 => curve.end = curve.start,
        26 => (curve.start, curve.end) = (curve.end, curve.start),
        // A width that is another number, or the same with its sign turned.
        27 => {
            if let Some(v) = curve.coefficients.last_mut() {
                *v = r.pick(&[v.next_up(), -*v, f64::NAN, 0.]);
            }
        }
        28 => {
            if let Some(v) = curve.other_coefficients.last_mut() {
                *v = v.next_down();
            }
        }
        _ => (curve.start, curve.end) = (-1e308, 1e308),
    }
}
