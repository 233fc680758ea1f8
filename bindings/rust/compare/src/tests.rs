//! Requests, queries and certified figures: each answer of the crate must be the source's, bit for bit. What the
//! source does not have is answered from documents 01 and 02: 18, 20 and 26, range handling, the figure.

use crate::case::Curve;
use crate::certificate::{Certificate, Question};
use crate::path::smoothing::reach::{self, Built};
use crate::random::Random;
use crate::refusal::Refusal;
use crate::request::{self, Request};
use crate::sides::{alike, build, build_in, same};
use crate::{known, measure, odd};
use pamitoye::{OutOfRangeMode, Path, PathDerivatives, PathError, Workspace};

/// How many requests of each kind were compared.
#[derive(Default)]
struct Seen {
    accepted: usize,
    refused: [usize; 27],
    values: usize,
    figures: usize,
    no_figure: usize,
    /// Half of the requests are built in it, whatever it held before.
    workspace: Workspace,
}

impl Seen {
    fn print(&self) {
        let Self {
            accepted,
            refused,
            values,
            figures,
            no_figure,
            ..
        } = self;
        let refused: Vec<_> = refused.iter().enumerate().filter(|r| *r.1 > 0).collect();
        println!(
            "{accepted} accepted, {values} values, {figures} figures, {no_figure} without; refused {refused:?}"
        );
    }
}

/// Document 01's 18 and 20, document 02's 26, or the source's answer.
pub fn wanted(request: &Request) -> Result<Built, Refusal> {
    let config = &request.config;
    if request.d > 16 || request.n.max(config.max_segments) > 20_000 || config.max_refinements > 200
    {
        return Err(18.into());
    }
    if request.points.len() != request.d * request.n {
        return Err(20.into());
    }
    request.answer_with_room()
}

/// Compares the crate's answer to a request, and to queries and certificates of its curve, with the source's.
fn compare(r: &mut Random, request: &Request, seen: &mut Seen) {
    let answer = if r.chance(50) {
        build_in(&mut seen.workspace, request)
    } else {
        build(request)
    };
    match (answer, wanted(request)) {
        (Ok(path), Ok(built)) => {
            assert!(equal(&path, &built), "{request:?}\n{path:?}\n{built:?}");
            queries(r, &path, &built.curve, seen);
            certificates(request, &path, &built.curve, seen);
            seen.accepted += 1;
        }
        (Err(error), Err(refusal)) => {
            assert_eq!(error.number(), refusal.number as u64, "{request:?}");
            if let Some(wanted) = refusal.ratio {
                let PathError::RefinementsUsedUp { ratio } = error else {
                    panic!("{error:?} has no ratio");
                };
                assert!(same(ratio, wanted), "{request:?}");
            }
            seen.refused[refusal.number] += 1;
        }
        (answer, wanted) => panic!("{request:?}\n{answer:?}\n{wanted:?}"),
    }
}

/// Report, range, breaks and coefficients.
pub fn equal(path: &Path, built: &Built) -> bool {
    let (report, curve) = (path.smoothing_report().unwrap(), &built.curve);
    let counts = [
        report.segments,
        report.interpolated_segments,
        report.refinements,
        report.fitting_rows,
        report.checked_intervals,
    ];
    let (breaks, coefficients) = match &curve.other {
        Some(other) => (&other.breaks[..], &other.coefficients[..]),
        None => (&[][..], &[][..]),
    };
    let (start, end) = path.s_range();
    counts == built.counts
        && path.dim() == curve.d
        && report.axes == curve.axes
        && alike(&report.max_errors, &built.max_errors)
        && alike(&[start, end], &[curve.start, curve.end])
        && alike(path.breaks(), &curve.selected.breaks)
        && alike(path.coefficients(), &curve.selected.coefficients)
        && alike(path.other_breaks(), breaks)
        && alike(path.other_coefficients(), coefficients)
}

/// Parameters at, next to and between the breaks, and a few outside.
fn parameters(r: &mut Random, curve: &Curve) -> Vec<f64> {
    let (start, end) = (curve.start, curve.end);
    let length = end - start;
    let mut xs = vec![start, end, start.next_up(), end.next_down()];
    for _ in 0..12 {
        let x = start + r.pick(&curve.selected.breaks) * length;
        xs.extend([x, x.next_up(), x.next_down(), start + r.unit() * length]);
    }
    if let Some(other) = &curve.other {
        xs.extend((0..8).map(|_| start + r.pick(&other.breaks) * length));
    }
    xs.iter_mut().for_each(|x| *x = x.clamp(start, end));
    if r.chance(30) {
        xs.extend([start.next_down(), end.next_up(), f64::INFINITY]);
        xs.extend([f64::NEG_INFINITY, start - 1., end + 1., -0., r.float()]);
    }
    if r.chance(10) {
        xs.insert(r.below(xs.len()), f64::NAN);
    }
    xs
}

/// Every way to ask, in every order.
fn queries(r: &mut Random, path: &Path, curve: &Curve, seen: &mut Seen) {
    let xs = parameters(r, curve);
    let (start, end, d) = (curve.start, curve.end, curve.d);
    let clamp = path.out_of_range_mode() == OutOfRangeMode::Clamp;
    let refused = |x: f64| x.is_nan() || !clamp && !(start..=end).contains(&x);
    let first = xs.iter().position(|x| refused(*x));
    let inside: Vec<f64> = xs.iter().map(|x| x.clamp(start, end)).collect();
    let mut rows = reach::evaluate(curve, &inside);
    // Outside, where it is not refused, the curve stands still.
    for (x, row) in xs.iter().zip(rows.chunks_exact_mut(4 * d)) {
        if *x < start || end < *x {
            row[d..].fill(0.);
        }
    }
    let order = |o: usize| -> Vec<f64> {
        let rows = rows.chunks_exact(4 * d);
        rows.flat_map(|row| &row[o * d..(o + 1) * d])
            .copied()
            .collect()
    };
    let answers = [
        path.evaluate_q(&xs),
        path.evaluate_up_to_2nd(&xs),
        path.evaluate_up_to_3rd(&xs),
    ];
    for (answer, highest) in answers.into_iter().zip([0, 2, 3]) {
        match (answer, first) {
            (Ok(PathDerivatives { q, dq, ddq, dddq }), None) => {
                let lists = [Some(q), dq, ddq, dddq];
                for (o, list) in lists.iter().enumerate() {
                    assert_eq!(list.is_some(), o <= highest);
                    if let Some(list) = list {
                        assert!(alike(list, &order(o)), "order {o} of {path:?}");
                        seen.values += list.len();
                    }
                }
            }
            (Err(error), Some(index)) => assert!(outside(error, (start, end), index, xs[index])),
            (answer, first) => panic!("{answer:?} where {first:?} is refused"),
        }
    }
    // One at a time: the cells of the orders asked, and no other, are written.
    for (i, x) in xs.iter().enumerate() {
        for count in 0..=5 {
            let mut out = vec![vec![-7.; d]; count];
            let mut slices: Vec<&mut [f64]> = out.iter_mut().map(Vec::as_mut_slice).collect();
            let answer = path.evaluate_at(*x, &mut slices);
            if count == 0 {
                assert_eq!(answer, Ok(()));
            } else if count == 5 {
                assert_eq!(answer, Err(PathError::OrderAboveThree));
            } else if refused(*x) {
                assert!(outside(answer.unwrap_err(), (start, end), 0, *x));
                assert!(out.iter().flatten().all(|v| *v == -7.));
            } else {
                assert_eq!(answer, Ok(()));
                for (o, cells) in out.iter().enumerate() {
                    assert!(alike(cells, &rows[4 * d * i + o * d..][..d]));
                }
                seen.values += count * d;
            }
        }
    }
}

fn outside(error: PathError, range: (f64, f64), at: usize, x: f64) -> bool {
    let PathError::OutOfRangeS {
        s_min,
        s_max,
        index,
        value,
    } = error
    else {
        return false;
    };
    (s_min, s_max) == range && index == at && same(value, x)
}

/// The figure of each axis, at one depth after the other, against the oracle's computation from documents 01 and 02.
fn certificates(request: &Request, path: &Path, curve: &Curve, seen: &mut Seen) {
    // Without a list the path's rule is taken.
    let parameters = request.config.parameters.as_deref();
    let mut question = Question {
        curve: curve.clone().into(),
        n: request.n,
        points: request.points.clone(),
        spacing: request.spacing(),
        parameters: parameters.unwrap_or_default().to_vec(),
        axis: 0,
        depth: 0,
    };
    for axis in (0..curve.d).chain([curve.d, usize::MAX]) {
        let depth = axis.wrapping_add(seen.accepted) % 8;
        (question.axis, question.depth) = (axis, depth);
        match (
            path.certify(axis, depth, &request.points, parameters),
            question.certify(),
        ) {
            (Ok(Some(figure)), Certificate::Figure(wanted)) => {
                assert!(same(figure, wanted), "{request:?}");
                seen.figures += 1;
            }
            (Ok(None), Certificate::None) => seen.no_figure += 1,
            (Err(PathError::NotSelected), Certificate::Refused(3)) => {}
            (Err(PathError::DepthAboveSix), Certificate::Refused(23)) => {}
            (answer, wanted) => panic!("{answer:?}, {wanted:?}: {request:?}"),
        }
    }
    if curve.d > 1 {
        let cut = &request.points[1..];
        assert_eq!(
            path.certify(0, 0, cut, parameters),
            Err(PathError::PointCells)
        );
    }
    assert_eq!(
        path.certify(0, 0, &[], parameters),
        Err(PathError::BadPoints)
    );
}

#[test]
fn known_requests() {
    let (mut r, mut seen) = (Random::new(1), Seen::default());
    for (number, request) in known::requests() {
        compare(&mut r, &request, &mut seen);
        // The crate lends enough room, whatever a known request lends.
        if number != 19 {
            let answer = build(&request).map_or_else(|e| e.number(), |_| 0);
            assert_eq!(answer, number as u64);
        }
    }
    seen.print();
}

/// Drawn requests, in as many seeds as there are tests below, which run side by side.
fn drawn(seed: u64, count: usize) {
    let (mut r, mut seen) = (Random::new(seed), Seen::default());
    for _ in 0..count {
        let request = odd::request(&mut r);
        compare(&mut r, &request, &mut seen);
    }
    seen.print();
    assert!(seen.accepted > count / 3 && seen.figures > count / 3);
    let refused = [
        1, 2, 3, 4, 5, 6, 7, 8, 9, 10, 11, 13, 14, 15, 16, 17, 18, 20, 26,
    ];
    for number in refused {
        assert!(seen.refused[number] > 0, "none is refused with {number}");
    }
}

#[test]
fn drawn_requests_1() {
    drawn(1, 1500);
}

#[test]
fn drawn_requests_2() {
    drawn(2, 1500);
}

/// By chords: the source has the same parameters as a list.
#[test]
fn drawn_chords() {
    let (mut r, mut seen) = (Random::new(5), Seen::default());
    for _ in 0..2000 {
        let request = odd::request(&mut r).with(|q| q.config.parameters = None);
        compare(&mut r, &request.by_chords(), &mut seen);
    }
    seen.print();
    assert!(seen.accepted > 500 && seen.figures > 500 && seen.refused[5] > 200);
}

/// Many more, for a run by hand: `cargo test --release --offline -- --ignored`.
#[test]
#[ignore = "takes minutes"]
fn drawn_requests_more() {
    for seed in 10..30 {
        drawn(seed, 2000);
    }
}

/// Lanes with many waypoints.
#[test]
fn long_lanes() {
    let (mut r, mut seen) = (Random::new(3), Seen::default());
    for _ in 0..200 {
        let request = request::long_lane(&mut r);
        compare(&mut r, &request, &mut seen);
    }
    seen.print();
}

/// More segments than the crate tries at first, under limits around that and around what is needed.
#[test]
fn many_segments() {
    let (mut r, mut seen) = (Random::new(4), Seen::default());
    let lanes = [
        (300, 0., 1e-6, &[0, 2, 20][..]),
        (200, 0.1, 1e-4, &[1, 3, 20]),
        (900, 0.1, 1e-2, &[0]),
    ];
    for (n, noise, tolerance, refinements) in lanes {
        let mut request = measure::lane(1, n, noise, tolerance);
        let needed = reach::build(&request).map_or(0, |built| built.counts[0]);
        assert!(needed > 1024, "{needed} segments");
        for limit in [1023, 1024, 1025, needed - 1, needed, 20_000] {
            for most in refinements {
                request.config.max_segments = limit;
                request.config.max_refinements = *most;
                compare(&mut r, &request, &mut seen);
            }
        }
    }
    seen.print();
    assert!([8, 14, 15].iter().all(|number| seen.refused[*number] > 0) && seen.accepted > 0);
}

/// Waypoints so far apart that the end pairs overflow.
#[test]
fn no_figure() {
    let request = Request::of_rows(&[vec![0., 0.]]);
    let mut apart = request.clone();
    apart.points = vec![-1.7e308, 1.7e308];
    let (path, built) = (build(&request).unwrap(), reach::build(&request).unwrap());
    let mut seen = Seen::default();
    certificates(&apart, &path, &built.curve, &mut seen);
    assert_eq!((seen.figures, seen.no_figure), (0, 1));
}

#[test]
fn defaults_are_the_source_s() {
    let source = crate::path::smoothing::SmoothingConfig::default();
    assert_eq!(
        crate::sides::config(&source),
        pamitoye::SmoothingConfig::default()
    );
}
