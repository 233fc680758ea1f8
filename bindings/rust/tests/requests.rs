//! Requests of any kind: none panics, and what is accepted holds together. The oracle's generator draws them.

use pamitoye::{Path, PathError};

mod drawn;

use drawn::*;
use path::OutOfRangeMode;
use path::smoothing::{SmoothingConfig, SmoothingTolerance};
use random::Random;
use request::Request;

fn tolerance_of(config: &SmoothingConfig, place: usize) -> f64 {
    match &config.tolerance {
        SmoothingTolerance::Uniform(x) => *x,
        SmoothingTolerance::PerAxis(list) => list[place],
    }
}

/// Whether these are the breaks of a set of segments with so many coefficients for each.
fn rises(breaks: &[f64], coefficients: &[f64], axes: usize) -> bool {
    breaks.first() == Some(&0.)
        && breaks.last() == Some(&1.)
        && breaks.is_sorted_by(|a, b| a < b)
        && coefficients.len() == (breaks.len() - 1) * axes * 6
}

/// The shape of an accepted request's path.
fn holds_together(request: &Request, path: &Path) {
    let (d, config) = (request.d, &request.config);
    let report = path.smoothing_report().unwrap();
    let k = report.axes.len();
    let all: Vec<usize> = (0..d).collect();
    assert_eq!(&report.axes, config.axes.as_ref().unwrap_or(&all));
    assert_eq!(path.dim(), d);
    assert_eq!(report.segments, path.breaks().len() - 1);
    assert!(report.segments <= config.max_segments);
    assert!(report.refinements <= config.max_refinements);
    assert!(rises(path.breaks(), path.coefficients(), k));
    if k < d {
        assert_eq!(report.interpolated_segments, path.other_breaks().len() - 1);
        assert!(rises(path.other_breaks(), path.other_coefficients(), d - k));
    } else {
        assert_eq!(report.interpolated_segments, 0);
        assert!(path.other_breaks().is_empty() && path.other_coefficients().is_empty());
    }
    assert_eq!(report.max_errors.len(), k);
    for (place, error) in report.max_errors.iter().enumerate() {
        assert!(*error <= tolerance_of(config, place));
    }
    let range = match &config.parameters {
        Some(list) => (list[0], list[request.n - 1]),
        None => (0., 1.),
    };
    assert_eq!(path.s_range(), range);
    assert_eq!(path.out_of_range_mode(), config.out_of_range_mode);
}

/// Queries of any kind.
fn queries(r: &mut Random, path: &Path) {
    let (start, end) = path.s_range();
    assert_eq!(path.evaluate_q(&[]), Ok(Default::default()));
    let ends = path.evaluate_up_to_3rd(&[start, end]).unwrap();
    assert_eq!(ends.q.len(), 2 * path.dim());
    let xs: Vec<f64> = (0..r.below(9)).map(|_| r.float()).collect();
    let clamp = path.out_of_range_mode() == OutOfRangeMode::Clamp;
    let refused = |x: &f64| x.is_nan() || !clamp && !(start..=end).contains(x);
    let first = xs.iter().position(refused);
    match path.evaluate_up_to_2nd(&xs) {
        Ok(lists) => assert!(first.is_none() && lists.dddq.is_none()),
        Err(PathError::OutOfRangeS { index, .. }) => assert_eq!(Some(index), first),
        Err(error) => panic!("{error:?}"),
    }
    // Slices that are short for one order only, and longer than need be.
    let (d, mut q, mut dq) = (path.dim(), [-7.; 40], [-7.; 40]);
    let short = path.evaluate_at(start, &mut [&mut q, &mut dq[..d - 1]]);
    assert_eq!(short, Err(PathError::ShortSlice));
    assert!(q == [-7.; 40] && dq == [-7.; 40]);
    path.evaluate_at(start, &mut [&mut q, &mut dq]).unwrap();
    assert!(q[d..].iter().chain(&dq[d..]).all(|v| *v == -7.));
    let mut cells = vec![-7.; 2 * d - 1];
    let short = path.evaluate_into(&[start, end], &mut [&mut cells]);
    assert_eq!(short, Err(PathError::ShortSlice));
    assert!(cells.iter().all(|v| *v == -7.));
}

#[test]
fn no_request_panics() {
    let mut r = Random::new(11);
    let mut accepted = 0;
    for _ in 0..3000 {
        let request = odd::request(&mut r);
        let shape = (request.d, request.n);
        let config = request.config.clone().into();
        match Path::from_waypoints_fitting(&request.points, shape, config) {
            Ok(path) => {
                holds_together(&request, &path);
                queries(&mut r, &path);
                let parameters = request.config.parameters.as_deref();
                for axis in [0, 1, request.d, usize::MAX] {
                    let figure = path.certify(axis, r.below(7), &request.points, parameters);
                    let selected = path.smoothing_report().unwrap().axes.contains(&axis);
                    assert_eq!(figure.is_ok(), selected);
                }
                // Any other points and parameters, too.
                let points: Vec<f64> = (0..r.below(40)).map(|_| r.float()).collect();
                let _ = path.certify(r.below(3), r.below(9), &points, Some(&points));
                let _ = path.certify(r.below(3), r.below(9), &points, None);
                accepted += 1;
            }
            Err(error) => {
                assert!(matches!(error.number(), 1..=20 | 26));
                assert!(!error.to_string().is_empty());
            }
        }
    }
    println!("3000 requests, {accepted} accepted");
    assert!(accepted > 1000);
}
