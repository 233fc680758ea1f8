//! Heights: what `heights` gives against document 02's words, computed here once more over whole numbers; of paths that were
//! built, read and driven back; and what is refused.

use pamitoye::{HEIGHTS_PER_SEGMENT, MAX_SEGMENTS, Path, PathError};

mod drawn;
#[allow(dead_code)]
mod file;

use drawn::*;
use file::{File, bits};
use random::{Random, power_of_two};

/// C(n, k).
fn choose(n: usize, k: usize) -> i128 {
    (0..k).fold(1, |c, i| c * (n - i) as i128 / (i + 1) as i128)
}

/// "Each segment's six Bernstein controls, computed as in `audit` over the whole segment without the reference line".
fn controls(p: &[f64], a: f64, b: f64) -> [f64; 6] {
    let c = |n, k| choose(n, k) as f64;
    let (left, right) = (a, b);
    let (u, w) = ((left - a) / (b - a), (right - left) / (b - a));
    let power: [f64; 6] = std::array::from_fn(|j| {
        let terms = (j..6).map(|k| c(k, j) * p[k] * u.powi((k - j) as i32));
        terms.fold(0., |sum, term| sum + term) * w.powi(j as i32)
    });
    std::array::from_fn(|k| (0..=k).fold(0., |sum, j| sum + power[j] * c(k, j) / c(5, j)))
}

/// "multiplied by 100, rounded once, then taken to the nearest whole, halves away from zero"; none for "a control that after
/// the multiplication is not finite or beyond ±2,000,000".
fn whole(control: f64) -> Option<i128> {
    let hundredths = control * 100.;
    (hundredths.abs() <= 2_000_000.).then(|| hundredths.round() as i128)
}

/// C(5,k)·j^k·(256-j)^(5-k), in row j.
fn weights() -> Vec<[i128; 6]> {
    let weight = |j: i128, k: usize| choose(5, k) * j.pow(k as u32) * (256 - j).pow(5 - k as u32);
    (0..257)
        .map(|j| std::array::from_fn(|k| weight(j, k)))
        .collect()
}

/// "the sum over k of control k times" its weight, "divided by 2^40, nearest whole, halves away from zero".
fn height(controls: &[i128], weights: &[i128; 6]) -> i32 {
    let sum: i128 = controls.iter().zip(weights).map(|(c, w)| c * w).sum();
    let size = (2 * sum.abs() + (1 << 40)) / (1 << 41);
    (size * sum.signum()) as i32
}

/// The breaks of an axis's set, and its six coefficients on each segment.
fn segments(path: &Path, axis: usize) -> (&[f64], Vec<&[f64]>) {
    let k = path.smoothed_axes().len();
    let selected = path.smoothed_axes().iter().position(|a| *a == axis);
    let (breaks, coefficients, axes, place) = match selected {
        Some(place) => (path.breaks(), path.coefficients(), k, place),
        None => {
            let smoothed = path.smoothed_axes().iter().filter(|a| **a < axis);
            let place = axis - smoothed.count();
            let coefficients = path.other_coefficients();
            (path.other_breaks(), coefficients, path.dim() - k, place)
        }
    };
    let rows = coefficients.chunks(6).skip(place).step_by(axes);
    (breaks, rows.collect())
}

/// The heights by the document's words; none where they are refused.
fn wanted(path: &Path, axis: usize, weights: &[[i128; 6]]) -> Option<Vec<i32>> {
    let (breaks, rows) = segments(path, axis);
    let mut heights = Vec::new();
    for (ends, p) in breaks.windows(2).zip(rows) {
        let controls = controls(p, ends[0], ends[1]).map(whole);
        let controls: Option<Vec<i128>> = controls.into_iter().collect();
        let controls = controls?;
        heights.extend(weights.iter().map(|weights| height(&controls, weights)));
    }
    Some(heights)
}

/// What was seen.
#[derive(Debug, Default)]
struct Seen {
    paths: usize,
    axes: usize,
    /// Axes that are not smoothed.
    others: usize,
    refused: usize,
    heights: usize,
    /// Heights that are not 0.
    not_zero: usize,
    /// Places where two segments meet.
    joints: usize,
    reversed: usize,
    /// The largest distance of a height from the curve, in hundredths.
    furthest: f64,
}

/// A height lies within a hundredth of the curve, but for rounding.
fn near_the_curve(path: &Path, axis: usize, heights: &[i32], seen: &mut Seen) {
    let (_, rows) = segments(path, axis);
    for (p, heights) in rows.iter().zip(heights.chunks(HEIGHTS_PER_SEGMENT)) {
        let size: f64 = p.iter().map(|p| p.abs()).sum();
        for (j, height) in heights.iter().enumerate() {
            let at = j as f64 / 256.;
            let value = p.iter().rev().fold(0., |sum, p| sum * at + p);
            let distance = (f64::from(*height) - 100. * value).abs();
            assert!(distance <= 1. + 100. * size * power_of_two(-48));
            seen.furthest = seen.furthest.max(distance);
        }
    }
}

/// Step 256 of a segment and step 0 of the next are one place: their heights differ by 1 at most.
fn joints(path: &Path, axis: usize, heights: &[i32], seen: &mut Seen) {
    let (_, rows) = segments(path, axis);
    let segments: Vec<&[i32]> = heights.chunks(HEIGHTS_PER_SEGMENT).collect();
    for (p, pair) in rows.iter().zip(segments.windows(2)) {
        // With larger coefficients rounding may move a value by a hundredth.
        if p.iter().all(|p| p.abs() < 1e9) {
            assert!(pair[0][256].abs_diff(pair[1][0]) <= 1);
            seen.joints += 1;
        }
    }
}

/// The heights of every axis by the document's words, and those of the path once it was written and read.
fn check(path: &Path, weights: &[[i128; 6]], seen: &mut Seen) {
    let read = Path::from_lane_file(&path.to_lane_file().unwrap()).unwrap();
    for axis in 0..path.dim() {
        let heights = path.heights(axis);
        let wanted = wanted(path, axis, weights);
        assert_eq!(heights, wanted.ok_or(PathError::HeightTooLarge));
        assert_eq!(read.heights(axis), heights);
        seen.axes += 1;
        seen.others += usize::from(!path.smoothed_axes().contains(&axis));
        let Ok(heights) = heights else {
            seen.refused += 1;
            continue;
        };
        let (breaks, _) = segments(path, axis);
        assert_eq!(heights.len(), HEIGHTS_PER_SEGMENT * (breaks.len() - 1));
        assert!(heights.iter().all(|height| height.abs() <= 2_000_000));
        seen.heights += heights.len();
        seen.not_zero += heights.iter().filter(|height| **height != 0).count();
        near_the_curve(path, axis, &heights, seen);
        joints(path, axis, &heights, seen);
    }
    for axis in [path.dim(), path.dim() + 1, usize::MAX] {
        assert_eq!(path.heights(axis), Err(PathError::NoSuchAxis));
    }
}

/// The heights of the way back are those of the way out in reverse, but for the rounding of its coefficients.
fn check_back(path: &Path, back: &Path, seen: &mut Seen) {
    for axis in 0..path.dim() {
        if let (Ok(out), Ok(back)) = (path.heights(axis), back.heights(axis)) {
            assert_eq!(out.len(), back.len());
            let mut pairs = out.iter().rev().zip(&back);
            assert!(pairs.all(|(out, back)| out.abs_diff(*back) <= 2));
        }
    }
    seen.reversed += 1;
}

#[test]
fn drawn_paths() {
    let (mut r, mut seen, weights) = (Random::new(9), Seen::default(), weights());
    for _ in 0..2500 {
        let mut request = odd::request(&mut r);
        if r.chance(50) {
            // Into the valve's range, with digits behind the hundredths.
            let most = request.points.iter().fold(1e-9, |m: f64, x| m.max(x.abs()));
            let factor = r.pick(&[0.3, 10., 500., 19_000., 20_000.]) / most;
            request.points.iter_mut().for_each(|x| *x *= factor);
        }
        let (shape, config) = ((request.d, request.n), request.config.clone().into());
        let Ok(path) = Path::from_waypoints_fitting(&request.points, shape, config) else {
            continue;
        };
        seen.paths += 1;
        check(&path, &weights, &mut seen);
        if let Ok(back) = path.reversed() {
            check(&back, &weights, &mut seen);
            check_back(&path, &back, &mut seen);
        }
    }
    println!("{seen:?}");
    assert!(seen.paths > 900 && seen.others > 500 && seen.refused > 300);
    assert!(seen.heights > 5_000_000 && seen.not_zero > 2_000_000);
    assert!(seen.joints > 10_000 && seen.reversed > 800);
    assert!(seen.furthest > 0.9);
}

/// The powers of a segment with these controls, both in eighths: nothing is rounded.
fn powers(controls: [i64; 6]) -> [f64; 6] {
    let mut differences = controls.to_vec();
    std::array::from_fn(|j| {
        let power = choose(5, j) * i128::from(differences[0]);
        differences = differences.windows(2).map(|d| d[1] - d[0]).collect();
        power as f64 / 8.
    })
}

/// A path with these coefficients for the axes 1 and 0, which are smoothed, and 2, which is not, on two segments each.
fn two_segments(rows: [[f64; 6]; 6]) -> Path {
    let [a, b, c, d, e, f] = rows;
    let file = File::even(3, 2, 2, 2).with(|file| {
        file.coefficients = bits(&[a, b, c, d].concat());
        file.other_coefficients = bits(&[e, f].concat());
    });
    Path::from_lane_file(&file.bytes()).unwrap()
}

/// The rows of `two_segments` that have this axis, first segment first.
fn rows_of(axis: usize) -> [usize; 2] {
    match axis {
        1 => [0, 2],
        0 => [1, 3],
        _ => [4, 5],
    }
}

/// Controls at odd eighths have halves after the multiplication; a height halfway between two controls has them after the
/// division.
#[test]
fn halves() {
    let (mut r, weights) = (Random::new(28), weights());
    let (mut whole_halves, mut step_halves) = (0, 0);
    for _ in 0..2000 {
        let most = r.pick(&[3, 40, 159_999]);
        let mut draw = || r.below(2 * most + 1) as i64 - most as i64;
        let eighths: [[i64; 6]; 6] = std::array::from_fn(|_| std::array::from_fn(|_| draw()));
        let path = two_segments(eighths.map(powers));
        for axis in 0..3 {
            let mut exact = Vec::new();
            for row in rows_of(axis) {
                // A control in hundredths is 12.5 times its eighths.
                let away = |twice: i64| (twice + twice.signum()) / 2;
                let controls = eighths[row].map(|c| {
                    i128::from(match 25 * c {
                        twice if twice % 2 == 0 => twice / 2,
                        twice => away(twice),
                    })
                });
                whole_halves += eighths[row].iter().filter(|c| *c % 2 != 0).count();
                for weights in &weights {
                    let sum: i128 = controls.iter().zip(weights).map(|(c, w)| c * w).sum();
                    step_halves += usize::from(sum.rem_euclid(1 << 40) == 1 << 39);
                    exact.push(height(&controls, weights));
                }
            }
            assert_eq!(path.heights(axis).as_ref(), Ok(&exact));
            assert_eq!(wanted(&path, axis, &weights).as_ref(), Some(&exact));
        }
    }
    println!("{whole_halves} halves of controls, {step_halves} of heights");
    assert!(whole_halves > 10_000 && step_halves > 200);
}

/// The same controls with their fractions rounded first: another order of roundings.
fn fractions_first(p: &[f64]) -> [f64; 6] {
    let fraction = |k, j| choose(k, j) as f64 / choose(5, j) as f64;
    std::array::from_fn(|k| (0..=k).fold(0., |sum, j| sum + p[j] * fraction(k, j)))
}

/// Controls that are a half after the multiplication, to about the last bit: there every rounding on the way to them shows.
#[test]
fn roundings() {
    let (mut r, weights) = (Random::new(100), weights());
    let mut shown = 0;
    for _ in 0..4000 {
        let rows = std::array::from_fn(|_| {
            let mut p: [f64; 6] = std::array::from_fn(|_| 10. * r.signed());
            let half = (r.below(4000) as f64 - 1999.5) / 100.;
            p[0] = 0.;
            p[0] = half - controls(&p, 0., 1.)[r.between(1, 5)];
            for _ in 0..r.below(4) {
                p[0] = p[0].next_up();
            }
            let whole_controls = |controls: [f64; 6]| controls.map(whole);
            let other = whole_controls(fractions_first(&p));
            shown += usize::from(whole_controls(controls(&p, 0., 1.)) != other);
            p
        });
        let path = two_segments(rows);
        for axis in 0..3 {
            assert_eq!(path.heights(axis).ok(), wanted(&path, axis, &weights));
        }
    }
    println!("{shown} of 24000 segments show another order of roundings");
    assert!(shown > 300);
}

/// The weights of a step total 2^40, so that equal controls are the height at every step: zeros, halves and both limits.
#[test]
fn equal_controls() {
    assert!(
        weights()
            .iter()
            .all(|row| row.iter().sum::<i128>() == 1 << 40)
    );
    for (coordinate, height) in [
        (0., 0),
        (-0., 0),
        (0.004, 0),
        (0.005, 1),
        (-0.005, -1),
        (0.015, 2),
        (-0.125, -13),
        (5e-324, 0),
        (1., 100),
        (123.456, 12_346),
        (20_000., 2_000_000),
        (-20_000., -2_000_000),
    ] {
        let row = [coordinate, 0., 0., 0., 0., 0.];
        let path = two_segments([row; 6]);
        for axis in 0..3 {
            assert_eq!(
                path.heights(axis),
                Ok(vec![height; 2 * 257]),
                "{coordinate}"
            );
        }
    }
    // The same place, rounded down at the end of one segment and up at the start of the next.
    let flat = |x: f64| [x, 0., 0., 0., 0., 0.];
    let (below, half) = (flat(0.125f64.next_down()), flat(0.125));
    let heights = two_segments([below, below, half, half, below, half]).heights(0);
    assert_eq!(heights, Ok([[12; 257], [13; 257]].concat()));
    // A straight line of 512 hundredths: two for each step.
    let path = two_segments([[0., 5.12, 0., 0., 0., 0.]; 6]);
    let line: Vec<i32> = (0..257).map(|j| 2 * j).collect();
    assert_eq!(path.heights(0), Ok([&line[..], &line].concat()));
    // The fifth power: 32768 hundredths times (j/256)^5, of which step 128 has 1024.
    let path = two_segments([[0., 0., 0., 0., 0., 327.68]; 6]);
    let heights = path.heights(2).unwrap();
    assert_eq!(
        (heights[64], heights[128], heights[256]),
        (32, 1024, 32_768)
    );
}

/// 28 for one control that is not finite or too large, in any power of any segment of the axis, and for no other axis.
#[test]
fn too_large() {
    for odd in [
        20_000f64.next_up(),
        -20_000f64.next_up(),
        20_000.004,
        1e18,
        f64::MAX,
        f64::MIN,
        f64::INFINITY,
        f64::NEG_INFINITY,
        f64::NAN,
    ] {
        for (row, power) in (0..6).flat_map(|row| (0..6).map(move |power| (row, power))) {
            let mut rows = [[1., 0., 0., 0., 0., 0.]; 6];
            rows[row] = [0.; 6];
            rows[row][power] = odd;
            let path = two_segments(rows);
            for axis in 0..3 {
                let mut heights = vec![-7; 2 * 257 + 3];
                let answer = path.heights_into(axis, &mut heights);
                if rows_of(axis).contains(&row) {
                    assert_eq!(answer, Err(PathError::HeightTooLarge), "{odd} {power}");
                    assert!(heights.iter().all(|height| *height == -7));
                } else {
                    assert_eq!(answer, Ok(()));
                    assert!(heights[..514].iter().all(|height| *height == 100));
                    assert_eq!(heights[514..], [-7; 3]);
                }
            }
        }
    }
    // The curve stays below 11,000; its control does not.
    let path = two_segments([powers([0, 0, 8 * 30_000, 0, 0, 0]); 6]);
    let at = path.evaluate_q(&[-2., -0.5, 2.]).unwrap().q;
    assert!(at.iter().all(|x| x.abs() < 11_000.));
    assert_eq!(path.heights(0), Err(PathError::HeightTooLarge));
    let error = PathError::HeightTooLarge;
    assert!(error.number() == 28 && error.to_string().contains("offset"));
    assert!(!error.higher_limit_may_help());
}

/// As many cells as a set's segments need, up to the most; 3 before 19 before 28, and none writes.
#[test]
fn sizes() {
    for (count, others) in [(1, 3), (130, 1), (MAX_SEGMENTS, 2), (1, MAX_SEGMENTS)] {
        let path = Path::from_lane_file(&File::even(2, 1, count, others).bytes()).unwrap();
        for (axis, count) in [(0, count), (1, others)] {
            let all = 257 * count;
            let mut heights = vec![-7; all + 1];
            let short = path.heights_into(axis, &mut heights[..all - 1]);
            assert_eq!(short, Err(PathError::ShortSlice));
            assert_eq!(path.heights_into(axis, &mut []), short);
            assert!(heights.iter().all(|height| *height == -7));
            let none = path.heights_into(2, &mut heights);
            assert_eq!(none, Err(PathError::NoSuchAxis));
            assert_eq!(path.heights_into(2, &mut []), none);
            // Coefficients rise from cell to cell: with many segments the last ones are beyond 20,000.
            let answer = path.heights_into(axis, &mut heights);
            if count < 1000 {
                assert_eq!(answer, Ok(()));
                assert_eq!(heights[all], -7);
                assert_eq!(path.heights(axis).as_deref(), Ok(&heights[..all]));
            } else {
                assert_eq!(answer, Err(PathError::HeightTooLarge));
                assert!(heights.iter().all(|height| *height == -7));
                assert_eq!(path.heights(axis), Err(PathError::HeightTooLarge));
            }
        }
    }
    let flat = File::even(1, 1, MAX_SEGMENTS, 0).with(|file| file.coefficients.fill(0));
    let path = Path::from_lane_file(&flat.bytes()).unwrap();
    assert_eq!(path.heights(0), Ok(vec![0; 257 * MAX_SEGMENTS]));
}
