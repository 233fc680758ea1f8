//! Lanes driven back: the paths of drawn requests, reversed, against document 02's definition, computed here once more;
//! their values and certified figures beside those of the way out.

use pamitoye::{Path, PathError, SmoothingConfig, reversed_waypoints};

mod drawn;

use drawn::*;
use path::OutOfRangeMode;
use random::{Random, power_of_two};
use request::Request;

/// C(j, k) in row j.
const BINOMIALS: [[f64; 6]; 6] = [
    [1., 0., 0., 0., 0., 0.],
    [1., 1., 0., 0., 0., 0.],
    [1., 2., 1., 0., 0., 0.],
    [1., 3., 3., 1., 0., 0.],
    [1., 4., 6., 4., 1., 0.],
    [1., 5., 10., 10., 5., 1.],
];

/// A set of axes: its breaks, coefficients and widths, and how many axes it has.
struct Set<'a> {
    breaks: &'a [f64],
    coefficients: &'a [f64],
    widths: &'a [f64],
    axes: usize,
}

fn sets(path: &Path) -> [Set<'_>; 2] {
    let k = path.smoothed_axes().len();
    [
        Set {
            breaks: path.breaks(),
            coefficients: path.coefficients(),
            widths: path.widths(),
            axes: k,
        },
        Set {
            breaks: path.other_breaks(),
            coefficients: path.other_coefficients(),
            widths: path.other_widths(),
            axes: path.dim() - k,
        },
    ]
}

impl Set<'_> {
    fn segments(&self) -> usize {
        self.breaks.len().saturating_sub(1)
    }

    /// The six coefficients of an axis, by its place in the set.
    fn row(&self, segment: usize, place: usize) -> &[f64] {
        let from = (segment * self.axes + place) * 6;
        &self.coefficients[from..from + 6]
    }

    /// Whether the breaks rise strictly once each is taken from 1.
    fn rises_back(&self) -> bool {
        self.breaks.windows(2).all(|b| 1. - b[1] < 1. - b[0])
    }
}

/// The same bits, or both a NaN.
fn same(a: f64, b: f64) -> bool {
    a.to_bits() == b.to_bits() || a.is_nan() && b.is_nan()
}

fn alike(a: &[f64], b: &[f64]) -> bool {
    a.len() == b.len() && a.iter().zip(b).all(|(a, b)| same(*a, *b))
}

/// Document 02: coefficient k becomes (-1)^k times the sum over j from k to 5 of C(j,k)·p_j, added to 0 in rising j.
fn driven_back(p: &[f64]) -> [f64; 6] {
    std::array::from_fn(|k| {
        let sum = (k..6).fold(0., |sum, j| sum + BINOMIALS[j][k] * p[j]);
        if k % 2 == 0 { sum } else { -sum }
    })
}

/// Each segment has its width: the rounded difference of its breaks, bit for bit.
fn check_widths(path: &Path) {
    for set in sets(path) {
        let differences: Vec<f64> = set.breaks.windows(2).map(|b| b[1] - b[0]).collect();
        assert!(alike(set.widths, &differences));
        assert_eq!(set.coefficients.len(), 6 * set.axes * set.segments());
    }
}

/// The reversed path is document 02's, and all else remains.
fn check_definition(path: &Path, back: &Path) {
    for (old, new) in sets(path).iter().zip(&sets(back)) {
        let breaks: Vec<f64> = old.breaks.iter().rev().map(|b| 1. - b).collect();
        assert!(alike(new.breaks, &breaks));
        for segment in 0..old.segments() {
            for place in 0..old.axes {
                let wanted = driven_back(old.row(old.segments() - 1 - segment, place));
                assert!(alike(new.row(segment, place), &wanted));
            }
        }
    }
    check_widths(back);
    let (start, end) = path.s_range();
    assert!(alike(&[start, end], &[back.s_range().0, back.s_range().1]));
    assert_eq!(back.dim(), path.dim());
    assert_eq!(back.smoothed_axes(), path.smoothed_axes());
    assert_eq!(back.out_of_range_mode(), path.out_of_range_mode());
    assert_eq!(back.smoothing_report(), None);
}

/// Driven back twice: never refused, breaks as they were but for 2^-54, and coefficients but for rounding. From then on
/// breaks are the same at every second turn.
fn check_again(path: &Path, back: &Path) {
    let again = back.reversed().unwrap();
    let third = again.reversed().unwrap();
    check_widths(&again);
    for (old, new) in sets(path).iter().zip(&sets(&again)) {
        for (a, b) in old.breaks.iter().zip(new.breaks) {
            assert!((a - b).abs() <= power_of_two(-54));
            assert!(*a < 0.5 || same(*a, *b));
        }
        for segment in 0..old.segments() {
            for place in 0..old.axes {
                let (a, b) = (old.row(segment, place), new.row(segment, place));
                let size: f64 = a.iter().map(|p| p.abs()).sum();
                if size < 1e300 {
                    assert!(
                        a.iter()
                            .zip(b)
                            .all(|(a, b)| (a - b).abs() <= size * power_of_two(-38))
                    );
                }
            }
        }
    }
    assert!(alike(third.breaks(), back.breaks()));
    assert!(alike(third.other_breaks(), back.other_breaks()));
}

/// How far a place along the lane can move through rounding, normalised.
fn moved((start, end): (f64, f64)) -> f64 {
    power_of_two(-53) * (2. + start.abs().max(end.abs()) / (end - start))
}

/// How far the value of an axis can move through rounding: in the value itself, and in where along the lane it is taken.
fn leeway(path: &Path, axis: usize) -> f64 {
    let selected = path.smoothed_axes().iter().position(|a| *a == axis);
    let [smoothed, other] = sets(path);
    let (set, place) = match selected {
        Some(place) => (smoothed, place),
        None => {
            let before = path.smoothed_axes().iter().filter(|a| **a < axis);
            (other, axis - before.count())
        }
    };
    let (mut size, mut slope) = (0f64, 0f64);
    for segment in 0..set.segments() {
        let sum: f64 = set.row(segment, place).iter().map(|p| p.abs()).sum();
        if sum.is_nan() || sum > 1e300 {
            return f64::INFINITY;
        }
        size = size.max(sum);
        slope = slope.max(5. * sum / set.widths[segment]);
    }
    size * power_of_two(-48) + slope * moved(path.s_range()) + f64::MIN_POSITIVE
}

/// The same of the line through the waypoints, whose normalised parameters are s.
fn leeway_of_line(request: &Request, axis: usize, s: &[f64], range: (f64, f64)) -> f64 {
    let y: Vec<f64> = request
        .points
        .iter()
        .skip(axis)
        .step_by(request.d)
        .copied()
        .collect();
    let size = y.iter().fold(0f64, |most, y| most.max(y.abs()));
    let slopes = y
        .windows(2)
        .zip(s.windows(2))
        .map(|(y, s)| (y[1] - y[0]).abs() / (s[1] - s[0]));
    size * power_of_two(-48) + slopes.fold(0., f64::max) * moved(range)
}

/// What was seen.
#[derive(Debug, Default)]
struct Seen {
    paths: usize,
    refused: usize,
    others: usize,
    values: usize,
    /// Values whose leeway is below a millionth of the largest coordinate.
    sharp: usize,
    figures: usize,
    no_figure: usize,
    /// Lists that two waypoints too close together keep from rising.
    fallen: usize,
    worst_value: f64,
    worst_figure: f64,
}

/// Values of the way back at start + end - t are those of the way out at t.
fn check_values(r: &mut Random, request: &Request, path: &Path, back: &Path, seen: &mut Seen) {
    let (start, end) = path.s_range();
    let largest = request
        .points
        .iter()
        .fold(0f64, |most, x| most.max(x.abs()));
    for _ in 0..20 {
        let t = (start + (end - start) * r.unit()).clamp(start, end);
        let out = path.evaluate_q(&[t]).unwrap().q;
        let at = back
            .evaluate_q(&[(start + (end - t)).clamp(start, end)])
            .unwrap()
            .q;
        for axis in 0..path.dim() {
            let leeway = leeway(path, axis);
            if leeway < 1e300 {
                let difference = (out[axis] - at[axis]).abs();
                assert!(difference <= leeway, "{difference} {leeway} {request:?}");
                seen.values += 1;
                seen.sharp += usize::from(leeway < 1e-6 * largest);
                seen.worst_value = seen.worst_value.max(difference / leeway);
            }
        }
    }
}

/// The list for the way back begins and ends as the one of the way out, never falls, and normalised is 1 - s but for
/// rounding. Whether it rises strictly, also normalised.
fn check_list(list: &[f64], back: &[f64]) -> bool {
    let (start, end) = (list[0], list[list.len() - 1]);
    let normalised = |p: &f64| (p - start) / (end - start);
    assert_eq!(list.len(), back.len());
    assert!(same(back[0], start) && same(back[back.len() - 1], end));
    assert!(back.is_sorted());
    let most = power_of_two(-53) * (4. + 2. * (start.abs().max(end.abs()) / (end - start)));
    for (p, q) in list.iter().rev().zip(back) {
        let (rest, at) = (1. - normalised(p), normalised(q));
        assert!((at - rest).abs() <= most, "{at} {rest} {list:?}");
        if (start, end) == (0., 1.) {
            assert_eq!(at, rest);
        }
    }
    let rises = back.is_sorted_by(|a, b| a < b);
    rises && back.is_sorted_by(|a, b| normalised(a) < normalised(b))
}

/// Certified anew: against the points in reverse and the parameters listed for them.
fn check_figures(r: &mut Random, request: &Request, path: &Path, back: &Path, seen: &mut Seen) {
    let parameters = request.config.parameters.as_deref();
    let (points, list) = reversed_waypoints(&request.points, request.d, parameters);
    for i in 0..request.n {
        let (from, to) = ((request.n - 1 - i) * request.d, i * request.d);
        let (old, new) = (
            &request.points[from..from + request.d],
            &points[to..to + request.d],
        );
        assert!(alike(old, new));
    }
    let even: Vec<f64> = (0..request.n)
        .map(|i| i as f64 / (request.n - 1) as f64)
        .collect();
    let listed = parameters.unwrap_or(&even);
    let (start, end) = path.s_range();
    let s: Vec<f64> = listed.iter().map(|p| (p - start) / (end - start)).collect();
    let rises = check_list(listed, &list);
    if parameters.is_none() && path.smoothed_axes().len() < path.dim() {
        assert!(alike(&list, back.other_breaks()));
    }
    for axis in path.smoothed_axes() {
        let depth = r.below(7);
        let out = path
            .certify(*axis, depth, &request.points, parameters)
            .unwrap();
        match back.certify(*axis, depth, &points, Some(&list)) {
            Err(error) => {
                assert!(!rises && matches!(error.number(), 5 | 6));
                seen.fallen += 1;
            }
            Ok(anew) => {
                assert!(rises);
                let leeway =
                    leeway(path, *axis) + leeway_of_line(request, *axis, &s, path.s_range());
                if let (Some(out), Some(anew)) = (out, anew) {
                    seen.figures += 1;
                    if leeway < 1e300 {
                        assert!((out - anew).abs() <= leeway);
                        seen.worst_figure = seen.worst_figure.max((out - anew).abs() / leeway);
                    }
                } else {
                    seen.no_figure += 1;
                }
            }
        }
    }
}

fn check(r: &mut Random, request: &Request, seen: &mut Seen) {
    let shape = (request.d, request.n);
    let config = request.config.clone().into();
    let Ok(path) = Path::from_waypoints_fitting(&request.points, shape, config) else {
        return;
    };
    seen.paths += 1;
    seen.others += usize::from(!path.other_breaks().is_empty());
    check_widths(&path);
    let rises = sets(&path).iter().all(Set::rises_back);
    match path.reversed() {
        Ok(back) => {
            assert!(rises);
            check_definition(&path, &back);
            check_again(&path, &back);
            check_values(r, request, &path, &back, seen);
            check_figures(r, request, &path, &back, seen);
        }
        Err(error) => {
            assert!(!rises);
            assert_eq!(error, PathError::NotRising);
            seen.refused += 1;
        }
    }
}

#[test]
fn drawn_requests() {
    let (mut r, mut seen) = (Random::new(12), Seen::default());
    for _ in 0..3000 {
        let request = odd::request(&mut r);
        check(&mut r, &request, &mut seen);
    }
    println!("{seen:?}");
    assert!(seen.paths > 1000 && seen.others > 100);
    assert!(seen.sharp > 40_000 && seen.figures > 2000);
}

/// Two waypoints in the first half are about 2^-53 of the range apart, or less.
fn close(r: &mut Random) -> Request {
    let (d, n) = (r.between(1, 3), r.between(3, 8));
    let rows: Vec<Vec<f64>> = (0..d).map(|_| (0..n).map(|_| r.unit()).collect()).collect();
    let mut list: Vec<f64> = (0..n).map(|i| i as f64).collect();
    let place = r.pick(&[0, 0, 0, 1]);
    list[place + 1] = list[place] + (n - 1) as f64 * power_of_two(-(r.between(45, 70) as i32));
    let mut request = Request::of_rows(&rows).with_parameters(&list);
    if r.chance(80) {
        request.config.axes = Some(vec![r.below(d)]);
    }
    request
}

#[test]
fn close_waypoints() {
    let (mut r, mut seen) = (Random::new(29), Seen::default());
    for _ in 0..3000 {
        let request = close(&mut r);
        check(&mut r, &request, &mut seen);
    }
    println!("{seen:?}");
    assert!(seen.refused > 50 && seen.fallen > 500 && seen.figures > 500);
}

/// A flat smoothed axis beside one that passes through every waypoint, the second at this parameter.
fn second_at(x: f64) -> Result<Path, PathError> {
    let request = Request::flat_beside(&[0., 0., 1.]).with_parameters(&[0., x, 1.]);
    let config = SmoothingConfig {
        out_of_range_mode: OutOfRangeMode::Clamp,
        ..request.config.into()
    };
    Path::from_waypoints_fitting(&request.points, (2, 3), config)
}

/// 29 from the place on where 1 minus the second break is 1, and not before.
#[test]
fn breaks_that_do_not_rise() {
    for e in 40..70 {
        let path = second_at(power_of_two(-e)).unwrap();
        let refused = path.reversed().err();
        assert_eq!(refused, (e > 53).then_some(PathError::NotRising));
    }
    let error = second_at(1e-17).unwrap().reversed().unwrap_err();
    assert_eq!(error.number(), 29);
    assert!(error.to_string().contains("way back"));
    assert!(!error.higher_limit_may_help());
}

/// In mode Clamp the way back stands still past its ends, which are those of the way out in reverse.
#[test]
fn the_mode_remains() {
    let path = second_at(0.25).unwrap();
    let back = path.reversed().unwrap();
    assert_eq!(back.out_of_range_mode(), OutOfRangeMode::Clamp);
    let outside = back.evaluate_up_to_3rd(&[-1., 2.]).unwrap();
    let ends = path.evaluate_q(&[1., 0.]).unwrap().q;
    assert_eq!(outside.q.len(), ends.len());
    assert!(
        outside
            .q
            .iter()
            .zip(&ends)
            .all(|(a, b)| (a - b).abs() < 1e-12)
    );
    assert!(alike(&outside.dq.unwrap(), &[0.; 4]));
    let error = SmoothingConfig::default();
    let path = Path::from_waypoints_fitting(&[0., 1., 0.], (1, 3), error).unwrap();
    let refused = path.reversed().unwrap().evaluate_q(&[0.5, 1.5]);
    assert_eq!(refused.map_err(|e| e.number()), Err(22));
}

/// Whether a build takes these parameters.
fn taken(list: &[f64]) -> bool {
    let (Some(start), Some(end)) = (list.first(), list.last()) else {
        return false;
    };
    let length = end - start;
    list.iter().all(|p| p.is_finite())
        && list.is_sorted_by(|a, b| a < b)
        && length.is_finite()
        && list.is_sorted_by(|a, b| (a - start) / length < (b - start) / length)
}

/// Any numbers, in any count: none panics, no cell is lost, and a list that is refused stays one.
#[test]
fn lists_of_any_kind() {
    let mut r = Random::new(5);
    let (mut good, mut bad) = (0, 0);
    for _ in 0..20_000 {
        let mut list: Vec<f64> = (0..r.below(6)).map(|_| r.float()).collect();
        if r.chance(70) {
            list.sort_by(f64::total_cmp);
        }
        let points: Vec<f64> = (0..r.below(9)).map(|_| r.float()).collect();
        let axes = r.pick(&[0, 1, 2, 3, usize::MAX]);
        let (turned, back) = reversed_waypoints(&points, axes, Some(&list));
        assert_eq!(back.len(), list.len());
        if list.len() > 1 && taken(&list) {
            check_list(&list, &back);
            good += 1;
        } else {
            assert!(back.len() < 2 || !taken(&back), "{list:?} {back:?}");
            bad += 1;
        }
        let (again, _) = reversed_waypoints(&turned, axes, None);
        assert_eq!(turned.len(), points.len());
        let whole = points.len().is_multiple_of(axes.max(1));
        assert!(!whole || alike(&again, &points));
    }
    println!("{good} lists that a build takes, {bad} others");
    assert!(good > 1000 && bad > 1000);
}
