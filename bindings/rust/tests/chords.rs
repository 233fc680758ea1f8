//! Parameters by chord length: each answer is that of the same parameters as a list, bit for bit, and the list is document
//! 02's, computed here once more. What is refused, what a path remembers, and the way back.

use pamitoye::{
    Path, PathError, SmoothingConfig, Spacing, Workspace, chord_parameters, reversed_waypoints,
};

mod drawn;

use drawn::*;
use random::{Random, power_of_two};
use request::Request;

/// Document 02: "parameters start at 0 and grow by the root of the sum of squared differences, rows summed lowest first.
/// Every row counts, also unsmoothed ones."
fn by_document(points: &[f64], d: usize) -> Vec<f64> {
    let n = points.len().checked_div(d).unwrap_or(0);
    let mut list = Vec::new();
    for i in 0..n {
        if i == 0 {
            list.push(0.);
            continue;
        }
        let mut sum = 0f64;
        for row in 0..d {
            let difference = points[i * d + row] - points[(i - 1) * d + row];
            sum += difference * difference;
        }
        list.push(list[i - 1] + sum.sqrt());
    }
    list
}

/// Whether these are finite and rise strictly.
fn rises(list: &[f64]) -> bool {
    list.iter().all(|p| p.is_finite()) && list.is_sorted_by(|a, b| a < b)
}

/// The same bits, or both a NaN.
fn same(a: f64, b: f64) -> bool {
    a.to_bits() == b.to_bits() || a.is_nan() && b.is_nan()
}

fn alike(a: &[f64], b: &[f64]) -> bool {
    a.len() == b.len() && a.iter().zip(b).all(|(a, b)| same(*a, *b))
}

/// The request's configuration, by chords.
fn by_chords(request: &Request) -> SmoothingConfig {
    SmoothingConfig {
        parameters: None,
        spacing: Spacing::Chord,
        ..request.config.clone().into()
    }
}

/// The same with its parameters listed; the rule is not read.
fn listed(request: &Request, spacing: Spacing) -> SmoothingConfig {
    SmoothingConfig {
        parameters: Some(chord_parameters(&request.points, request.d)),
        spacing,
        ..by_chords(request)
    }
}

/// Range, mode, report and every cell.
fn equal(a: &Path, b: &Path) -> bool {
    let (one, other) = (a.smoothing_report(), b.smoothing_report());
    let cells = |path: &Path| {
        let (start, end) = path.s_range();
        let errors = path.smoothing_report().map(|r| r.max_errors.clone());
        [
            vec![start, end],
            errors.unwrap_or_default(),
            path.breaks().to_vec(),
            path.coefficients().to_vec(),
            path.widths().to_vec(),
            path.other_breaks().to_vec(),
            path.other_coefficients().to_vec(),
            path.other_widths().to_vec(),
        ]
    };
    let (left, right) = (cells(a), cells(b));
    one == other
        && a.dim() == b.dim()
        && a.out_of_range_mode() == b.out_of_range_mode()
        && left.iter().zip(&right).all(|(a, b)| alike(a, b))
}

/// The same figure, none, or the same number.
fn agree(a: Result<Option<f64>, PathError>, b: Result<Option<f64>, PathError>) -> bool {
    match (a, b) {
        (Ok(Some(a)), Ok(Some(b))) => same(a, b),
        (Ok(None), Ok(None)) => true,
        (Err(a), Err(b)) => a.number() == b.number() && a != PathError::BadParameters,
        _ => false,
    }
}

/// What was seen.
#[derive(Debug, Default)]
struct Seen {
    accepted: usize,
    refused: [usize; 27],
    /// Paths with axes that are not smoothed.
    others: usize,
    values: usize,
    figures: usize,
    no_figure: usize,
    /// Lists of other points that do not rise.
    fallen: usize,
    back: usize,
    /// Half of the builds by chords are made in it, whatever it held before.
    workspace: Workspace,
}

impl Seen {
    fn print(&self) {
        let refused = self.refused.iter().enumerate().filter(|r| *r.1 > 0);
        println!(
            "{} accepted, {} with other axes, {} values, {} figures, {} without, {} back, {} lists fall; refused {:?}",
            self.accepted,
            self.others,
            self.values,
            self.figures,
            self.no_figure,
            self.back,
            self.fallen,
            refused.collect::<Vec<_>>()
        );
    }
}

/// Queries of every order at the same parameters, inside and outside.
fn queries(r: &mut Random, chords: &Path, list: &Path, seen: &mut Seen) {
    let (start, end) = chords.s_range();
    let mut xs: Vec<f64> = (0..12).map(|_| start + r.unit() * (end - start)).collect();
    xs.extend(
        chords
            .breaks()
            .iter()
            .take(8)
            .map(|b| start + b * (end - start)),
    );
    xs.iter_mut().for_each(|x| *x = x.clamp(start, end));
    xs.extend([start, end]);
    if r.chance(20) {
        xs.extend([start - 1., end + 1.]);
    }
    match (chords.evaluate_up_to_3rd(&xs), list.evaluate_up_to_3rd(&xs)) {
        (Ok(a), Ok(b)) => {
            let lists = [
                (Some(a.q), Some(b.q)),
                (a.dq, b.dq),
                (a.ddq, b.ddq),
                (a.dddq, b.dddq),
            ];
            for (a, b) in lists {
                let (a, b) = (a.unwrap(), b.unwrap());
                assert!(alike(&a, &b));
                seen.values += a.len();
            }
        }
        (a, b) => assert_eq!(a.err(), b.err()),
    }
}

/// Certificates at depth 0 and another, also of other points, and of the way back.
fn figures(r: &mut Random, request: &Request, chords: &Path, list: &Path, seen: &mut Seen) {
    let (points, d) = (&request.points, request.d);
    let parameters = chord_parameters(points, d);
    let mut moved = points.clone();
    let place = r.below(moved.len());
    moved[place] = if r.chance(50) {
        r.plain()
    } else {
        moved[place % d]
    };
    let moved_parameters = chord_parameters(&moved, d);
    seen.fallen += usize::from(!rises(&moved_parameters));
    let back = chords.reversed().ok();
    let (points_back, _) = reversed_waypoints(points, d, Some(&parameters));
    let parameters_back = chord_parameters(&points_back, d);
    for axis in chords.smoothed_axes() {
        for depth in [0, r.between(1, 6)] {
            let figure = chords.certify(*axis, depth, points, None);
            for path in [chords, list] {
                let wanted = path.certify(*axis, depth, points, Some(&parameters));
                assert!(figure.is_ok() && agree(figure, wanted), "{request:?}");
            }
            seen.figures += usize::from(figure.is_ok_and(|f| f.is_some()));
            seen.no_figure += usize::from(figure.is_ok_and(|f| f.is_none()));
            let other = chords.certify(*axis, depth, &moved, None);
            let wanted = list.certify(*axis, depth, &moved, Some(&moved_parameters));
            assert!(agree(other, wanted), "{request:?}");
            if let Some(back) = &back {
                assert_eq!(back.spacing(), Spacing::Chord);
                let anew = back.certify(*axis, depth, &points_back, None);
                let wanted = back.certify(*axis, depth, &points_back, Some(&parameters_back));
                assert!(agree(anew, wanted), "{request:?}");
                seen.back += 1;
            }
        }
    }
}

/// Builds the request by chords and with the list, and compares all that is answered. Returns the number.
fn check(r: &mut Random, request: &Request, seen: &mut Seen) -> u64 {
    let (shape, points) = ((request.d, request.n), &request.points);
    let parameters = chord_parameters(points, request.d);
    assert!(alike(&parameters, &by_document(points, request.d)));
    let chords = match by_chords(request) {
        config if r.chance(50) => {
            Path::from_waypoints_fitting_in(&mut seen.workspace, points, shape, &config)
        }
        config => Path::from_waypoints_fitting(points, shape, config),
    };
    let spacing = r.pick(&[Spacing::Even, Spacing::Chord]);
    let list = Path::from_waypoints_fitting(points, shape, listed(request, spacing));
    match (chords, list) {
        (Ok(chords), Ok(list)) => {
            assert!(equal(&chords, &list), "{request:?}\n{chords:?}\n{list:?}");
            assert!(rises(&parameters));
            let (start, end) = chords.s_range();
            assert!(same(start, 0.) && Some(&end) == parameters.last());
            assert_eq!(
                (chords.spacing(), list.spacing()),
                (Spacing::Chord, spacing)
            );
            queries(r, &chords, &list, seen);
            figures(r, request, &chords, &list, seen);
            seen.accepted += 1;
            seen.others += usize::from(!chords.other_breaks().is_empty());
            0
        }
        (Err(chords), Err(list)) => {
            let number = chords.number();
            assert_eq!(number, list.number(), "{request:?}");
            assert_eq!(chords == PathError::BadChords, number == 5);
            assert_eq!(list == PathError::BadParameters, number == 5);
            assert!(number != 5 || !rises(&parameters), "{request:?}");
            if let (
                PathError::RefinementsUsedUp { ratio: a },
                PathError::RefinementsUsedUp { ratio: b },
            ) = (chords, list)
            {
                assert!(same(a, b));
            }
            seen.refused[number as usize] += 1;
            number
        }
        (chords, list) => panic!("{request:?}\n{chords:?}\n{list:?}"),
    }
}

#[test]
fn drawn_requests() {
    let (mut r, mut seen) = (Random::new(3), Seen::default());
    for _ in 0..4000 {
        let request = odd::request(&mut r);
        check(&mut r, &request, &mut seen);
    }
    seen.print();
    assert!(seen.accepted > 1000 && seen.others > 200 && seen.figures > 2000);
    assert!(seen.values > 100_000 && seen.back > 2000 && seen.fallen > 20);
    for number in [1, 2, 3, 4, 5, 8, 14, 15, 18, 20, 26] {
        assert!(seen.refused[number] > 0, "none is refused with {number}");
    }
}

/// Every power of ten: differences whose squares vanish, are subnormal, ordinary, and overflow.
#[test]
fn all_scales() {
    let (mut r, mut seen) = (Random::new(250), Seen::default());
    for e in -250..=250 {
        let scale: f64 = format!("1e{e}").parse().unwrap();
        for _ in 0..6 {
            let (d, n) = (r.between(1, 3), r.between(3, 9));
            let row = |r: &mut Random| (0..n).map(|_| scale * r.signed()).collect::<Vec<f64>>();
            let rows: Vec<_> = (0..d).map(|_| row(&mut r)).collect();
            let mut request = Request::of_rows(&rows);
            request.config.tolerance = (scale * r.pick(&[0.02, 0.1, 0.5, 3.])).into();
            request.config.axes = r.chance(50).then(|| vec![r.below(d)]);
            let number = check(&mut r, &request, &mut seen);
            match e {
                ..-170 | 161.. => assert_eq!(number, 5, "1e{e}"),
                -150..150 => assert_ne!(number, 5, "1e{e}"),
                _ => {}
            }
        }
    }
    seen.print();
    assert!(seen.accepted > 1000 && seen.refused[5] > 900);
}

/// Two axes and waypoints 5, 4, 13, 8 and 10 apart.
const POINTS: [f64; 12] = [0., 0., 3., 4., 3., 0., 8., 12., 8., 4., 16., 10.];
const LIST: [f64; 6] = [0., 5., 9., 22., 30., 40.];

fn config() -> SmoothingConfig {
    SmoothingConfig {
        tolerance: 0.5.into(),
        spacing: Spacing::Chord,
        ..Default::default()
    }
}

/// By chords, with axes of so many coordinates.
fn build(points: &[f64], d: usize, config: SmoothingConfig) -> Result<Path, PathError> {
    Path::from_waypoints_fitting(points, (d, points.len() / d), config)
}

#[test]
fn equal_neighbours() {
    let path = build(&POINTS, 2, config()).unwrap();
    for place in 0..5 {
        let mut twice = POINTS;
        twice.copy_within(2 * place..2 * place + 2, 2 * place + 2);
        let list = chord_parameters(&twice, 2);
        assert!(
            list.windows(2)
                .enumerate()
                .all(|(i, p)| (p[0] == p[1]) == (i == place))
        );
        let error = build(&twice, 2, config()).unwrap_err();
        assert_eq!(error, PathError::BadChords);
        assert_eq!(error.number(), 5);
        assert_eq!(path.certify(0, 0, &twice, None), Err(PathError::BadChords));
        let other = path.certify(0, 0, &twice, Some(&list));
        assert_eq!(other, Err(PathError::BadParameters));
        // Listed parameters override the rule.
        let listed = SmoothingConfig {
            parameters: Some(LIST.to_vec()),
            ..config()
        };
        assert!(build(&twice, 2, listed).is_ok());
        assert!(path.certify(0, 0, &twice, Some(&LIST)).is_ok());
    }
    // Both zeros are one place.
    assert_eq!(
        build(&[0., -0.], 1, config()).err(),
        Some(PathError::BadChords)
    );
}

/// A row that is not smoothed counts, also alone.
#[test]
fn a_row_that_is_not_smoothed() {
    let flat = [7.; 4];
    assert_eq!(build(&flat, 1, config()).err(), Some(PathError::BadChords));
    let beside = [7., 0., 7., 1., 7., 3., 7., 4.];
    let one = SmoothingConfig {
        axes: Some(vec![0]),
        ..config()
    };
    let path = build(&beside, 2, one.clone()).unwrap();
    assert_eq!(chord_parameters(&beside, 2), [0., 1., 3., 4.]);
    assert_eq!(path.s_range(), (0., 4.));
    assert_eq!(path.other_breaks(), [0., 0.25, 0.75, 1.]);
    assert_eq!(
        path.certify(0, 0, &beside, None),
        path.certify(0, 0, &beside, Some(&[0., 1., 3., 4.]))
    );
    // Another row beside it is another spacing.
    let other = [7., 0., 7., 2., 7., 3., 7., 4.];
    let other = build(&other, 2, one).unwrap();
    assert_eq!(other.other_breaks(), [0., 0.5, 0.75, 1.]);
}

/// Chords around the smallest and the largest, and beside a sum that they are lost in.
#[test]
fn chords_that_are_not_seen() {
    let number = |points: &[f64], tolerance: f64| {
        let config = SmoothingConfig {
            tolerance: tolerance.into(),
            ..config()
        };
        build(points, 1, config).map_or_else(|e| e.number(), |_| 0)
    };
    // Its square is the smallest number above 0; half of it is rounded to 0.
    let smallest = power_of_two(-537);
    assert_eq!(chord_parameters(&[0., smallest], 1), [0., smallest]);
    assert_eq!(number(&[0., smallest], 1.), 0);
    assert_eq!(chord_parameters(&[0., smallest / 2.], 1), [0., 0.]);
    assert_eq!(number(&[0., smallest / 2.], 1.), 5);
    assert_eq!(number(&[0., 1.4e-162], 1.), 5);
    assert_eq!(number(&[0., 1.6e-162], 1.), 0);
    // Its square is infinite.
    assert_eq!(number(&[0., 1.3e154], 1e152), 0);
    assert_eq!(
        chord_parameters(&[0., 1.4e154, 0.], 1),
        [0., f64::INFINITY, f64::INFINITY]
    );
    assert_eq!(number(&[0., 1.4e154], 1e152), 5);
    assert_eq!(number(&[-1.7e308, 1.7e308], 1e300), 5);
    // Behind 2^54, 1 is lost and 4 is not.
    let half = power_of_two(53);
    assert_eq!(number(&[0., half, 0., 1.], 1e3), 5);
    assert_ne!(number(&[0., half, 0., 4.], 1e3), 5);
    // Neighbours next to each other may be one number once they are divided by the lane's length.
    let (mut r, mut seen) = (Random::new(6), Seen::default());
    for _ in 0..200 {
        let (near, length) = (1.5 + 0.5 * r.unit(), 4. + 4. * r.unit());
        let request = Request::of_rows(&[vec![0., near, near.next_up(), length]]);
        check(&mut r, &request, &mut seen);
    }
    seen.print();
    assert!(seen.refused[6] > 20);
}

/// 5 keeps its place: behind 18, 20, 1 to 4 and 26, before 6 and what follows.
#[test]
fn the_order_of_refusals() {
    let twice = [1., 1., 4., 5., 4., 5.];
    let number = |points: &[f64], config| {
        let built = Path::from_waypoints_fitting(points, (2, 3), config);
        built.map_or_else(|e| e.number(), |_| 0)
    };
    let mut bad = twice;
    for wrong in [f64::NAN, f64::INFINITY, f64::NEG_INFINITY] {
        for cell in 0..6 {
            bad[cell] = wrong;
            assert_eq!(number(&bad, config()), 1);
            bad = twice;
        }
    }
    assert_eq!(number(&twice[..4], config()), 20);
    let with = |change: fn(&mut SmoothingConfig)| {
        let mut config = config();
        change(&mut config);
        number(&twice, config)
    };
    assert_eq!(with(|c| c.max_refinements = 201), 18);
    assert_eq!(with(|c| c.axes = Some(Vec::new())), 2);
    assert_eq!(with(|c| c.axes = Some(vec![0, 2])), 3);
    assert_eq!(with(|c| c.tolerance = 0.0.into()), 4);
    assert_eq!(with(|c| c.tolerance = 1e-20.into()), 26);
    assert_eq!(with(|c| c.max_segments = 0), 5);
    assert_eq!(with(|_| {}), 5);
}

/// A path remembers its rule, and a list overrides it.
#[test]
fn what_a_path_remembers() {
    assert_eq!(Spacing::default(), Spacing::Even);
    assert_eq!(chord_parameters(&POINTS, 2), LIST);
    let even: Vec<f64> = (0..6).map(|i| f64::from(i) / 5.).collect();
    let figure =
        |path: &Path, list: Option<&[f64]>| path.certify(1, 0, &POINTS, list).unwrap().unwrap();

    let chords = build(&POINTS, 2, config()).unwrap();
    assert_eq!(chords.spacing(), Spacing::Chord);
    assert_eq!(chords.clone().spacing(), Spacing::Chord);
    assert!(same(figure(&chords, None), figure(&chords, Some(&LIST))));
    assert!(figure(&chords, None) <= 0.501 && figure(&chords, Some(&even)) > 0.501);

    let default = SmoothingConfig {
        spacing: Spacing::Even,
        ..config()
    };
    let path = build(&POINTS, 2, default).unwrap();
    assert_eq!(path.spacing(), Spacing::Even);
    assert!(same(figure(&path, None), figure(&path, Some(&even))));
    assert!(figure(&path, None) <= 0.501 && figure(&path, Some(&LIST)) > 0.501);

    // The curve is that of the list, the rule is kept for certificates.
    let list = |spacing| SmoothingConfig {
        parameters: Some(even.clone()),
        spacing,
        ..config()
    };
    let (a, b) = (list(Spacing::Chord), list(Spacing::Even));
    let (a, b) = (build(&POINTS, 2, a).unwrap(), build(&POINTS, 2, b).unwrap());
    assert!(equal(&a, &b) && equal(&a, &path));
    assert!(same(figure(&a, None), figure(&a, Some(&LIST))));
    assert!(same(figure(&b, None), figure(&b, Some(&even))));
}

/// The way back keeps the rule and takes it over the points in reverse. Here nothing is rounded in either list.
#[test]
fn the_way_back() {
    let points = [0., 0., 3., 4., 3., 0., 10., 0.];
    let path = build(&points, 2, config()).unwrap();
    let back = path.reversed().unwrap();
    assert_eq!(back.spacing(), Spacing::Chord);
    let list = chord_parameters(&points, 2);
    let (points_back, list_back) = reversed_waypoints(&points, 2, Some(&list));
    assert_eq!(list_back, [0., 7., 11., 16.]);
    assert_eq!(chord_parameters(&points_back, 2), list_back);
    for axis in [0, 1] {
        let anew = back.certify(axis, 3, &points_back, None).unwrap().unwrap();
        let wanted = back.certify(axis, 3, &points_back, Some(&list_back));
        assert!(same(anew, wanted.unwrap().unwrap()));
        let out = path.certify(axis, 3, &points, None).unwrap().unwrap();
        assert!((anew - out).abs() < 1e-12 && out < 0.501);
        // Even ones are another line.
        let (_, even) = reversed_waypoints(&points, 2, None);
        assert!(back.certify(axis, 3, &points_back, Some(&even)).unwrap() > Some(0.501));
    }
}

/// As many waypoints as there may be, a step apart.
#[test]
fn a_long_lane() {
    let points: Vec<f64> = (0..20_000).map(f64::from).collect();
    let path = build(&points, 1, config()).unwrap();
    assert_eq!(path.s_range(), (0., 19_999.));
    assert_eq!(path.breaks(), [0., 1.]);
    let figure = path.certify(0, 0, &points, None).unwrap();
    assert!(figure.is_some_and(|figure| figure < 1e-9));
}

/// Any numbers, and any count of axes: no panic, one parameter for each whole waypoint, document 02's.
#[test]
fn lists_of_any_kind() {
    assert!(chord_parameters(&[], 1).is_empty());
    assert!(chord_parameters(&[1., 2., 3.], 0).is_empty());
    assert!(chord_parameters(&[1., 2., 3.], 4).is_empty());
    assert_eq!(chord_parameters(&[5.], 1), [0.]);
    assert_eq!(chord_parameters(&[0., 0., 3., 4., 9.], 2), [0., 5.]);
    let mut r = Random::new(5);
    let mut rising = 0;
    for _ in 0..20_000 {
        let points: Vec<f64> = (0..r.below(13)).map(|_| r.float()).collect();
        let axes = r.pick(&[0, 1, 1, 2, 3, 5, usize::MAX]);
        let list = chord_parameters(&points, axes);
        assert_eq!(list.len(), points.len().checked_div(axes).unwrap_or(0));
        assert!(alike(&list, &by_document(&points, axes)));
        assert!(list.first().is_none_or(|p| same(*p, 0.)));
        rising += usize::from(list.len() > 2 && rises(&list));
    }
    println!("{rising} lists of three or more rise");
    assert!(rising > 500);
}
