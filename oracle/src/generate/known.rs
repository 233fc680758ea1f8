//! Requests with known ends: document 01's lanes, the smallest inputs known for each refusal, every
//! check and their order, and parameters by chords.

use crate::path::smoothing::SmoothingTolerance::{PerAxis, Uniform};
use crate::random::{power_of_two, sine};
use crate::request::Request;

/// A request on these rows with at most 40 segments.
fn rows(rows: &[&[f64]]) -> Request {
    let rows: Vec<_> = rows.iter().map(|row| row.to_vec()).collect();
    few(Request::of_rows(&rows))
}

fn row(row: &[f64]) -> Request {
    rows(&[row])
}

/// At most 40 segments, so that little room is needed.
fn few(request: Request) -> Request {
    request.with(|q| q.config.max_segments = 40)
}

fn flat() -> Request {
    row(&[0., 0.])
}

fn axes(request: Request, list: &[usize]) -> Request {
    request.with(|q| q.config.axes = Some(list.to_vec()))
}

fn uniform(request: Request, x: f64) -> Request {
    request.with(|q| q.config.tolerance = Uniform(x))
}

fn each(request: Request, list: &[f64]) -> Request {
    request.with(|q| q.config.tolerance = PerAxis(list.to_vec()))
}

fn limits(request: Request, refinements: usize, segments: usize) -> Request {
    request.with(|q| {
        q.config.max_refinements = refinements;
        q.config.max_segments = segments;
    })
}

/// A corner that is fitted.
fn corner(refinements: usize, segments: usize) -> Request {
    limits(uniform(row(&[0., 1., 0.]), 1e-3), refinements, segments)
}

/// `n` waypoints of d waves.
fn waves(d: usize, n: usize) -> Request {
    let at = |i: usize| i as f64 / (n - 1) as f64;
    let wave = |a: usize, i: usize| sine((1 + a % 3) as f64 * at(i) + a as f64 / 7.);
    let list: Vec<Vec<f64>> = (0..d)
        .map(|a| (0..n).map(|i| wave(a, i)).collect())
        .collect();
    few(Request::of_rows(&list))
}

/// Requests with the numbers that they end in, 0 where they are accepted.
pub fn requests() -> Vec<(usize, Request)> {
    let groups = [
        document_01(),
        accepted(),
        points(),
        selections(),
        tolerances(),
        parameters(),
        courses(),
        too_fine(),
        outside(),
        by_chords(),
    ];
    groups.into_iter().flatten().collect()
}

/// Document 01's lanes.
fn document_01() -> Vec<(usize, Request)> {
    let steep = row(&[-1.7e308, 1.7e308]);
    vec![
        (0, flat()),
        (8, limits(flat(), 20, 0)),
        (1, row(&[0.])),
        (1, axes(row(&[0.]), &[])),
        (2, axes(flat(), &[])),
        (3, axes(flat(), &[0, 0])),
        (4, uniform(flat(), 0.)),
        (5, flat().with_parameters(&[1., 1.])),
        (6, flat().with_parameters(&[-1.5e308, 1.5e308])),
        (7, uniform(steep, 1e300)),
        (18, rows(&[&[0., 0.][..]; 17])),
        (0, row(&[0., 0.95, 0.])),
        (0, row(&[0., 0.96, 0.])),
    ]
}

/// Accepted: next to the bound for a straight curve, two waypoints, many axes, axes in any order, a
/// tolerance for each, coefficients that are no numbers, and parameters of every kind.
fn accepted() -> Vec<(usize, Request)> {
    let wave = || uniform(waves(1, 7), 0.01);
    let squares = |x: f64| (0..7).map(|i| f64::from(i * i) * x).collect::<Vec<_>>();
    vec![
        (0, row(&[0., 0.95f64.next_up(), 0.])),
        (0, row(&[0., -0.95, 0., 0.95, 0.])),
        (0, row(&[1., 3.])),
        (0, row(&[-0., 0.])),
        (0, row(&[5e-324, 0., -5e-324])),
        (0, axes(rows(&[&[0., 1.], &[2., 5.]]), &[1])),
        (0, corner(20, 6)),
        (0, uniform(waves(16, 3), 0.5)),
        (0, axes(uniform(waves(16, 3), 0.05), &[15, 3, 8, 0, 11])),
        (0, each(axes(waves(3, 9), &[2, 0]), &[0.05, 0.3])),
        (0, each(waves(2, 12), &[0.5, 0.1])),
        (0, few(Request::flat_beside(&[1e306; 4]))),
        (0, wave().with_parameters(&squares(1.))),
        (0, wave().with_parameters(&squares(1e306))),
        (0, wave().with_parameters(&squares(1e-310))),
        (0, wave().with_parameters(&[-0., 1., 2., 3., 4., 5., 5.5])),
        (
            0,
            wave().with_parameters(&[-7., -3.5, -1., 1e-9, 2e-9, 1., 1e3]),
        ),
        (0, uniform(waves(1, 40), 0.2)),
        (0, limits(uniform(waves(1, 15), 1e-4), 200, 300)),
    ]
}

/// 1, each way.
fn points() -> Vec<(usize, Request)> {
    let beside = |v: f64| axes(rows(&[&[0., 0.], &[0., v]]), &[0]);
    vec![
        (1, rows(&[])),
        (1, rows(&[&[], &[]])),
        (1, row(&[f64::NAN, 0.])),
        (1, beside(f64::INFINITY)),
        (1, beside(f64::NEG_INFINITY)),
    ]
}

/// 2 and 3.
fn selections() -> Vec<(usize, Request)> {
    let two = || rows(&[&[0., 0.], &[0., 1.]]);
    vec![
        (2, uniform(axes(two(), &[]), 0.)),
        (3, axes(two(), &[2])),
        (3, axes(two(), &[0, 255])),
        (3, axes(two(), &[1, 0, 1])),
        (
            3,
            axes(two(), &[0, 1, 0, 1, 0, 1, 0, 1, 0, 1, 0, 1, 0, 1, 0, 1]),
        ),
    ]
}

/// 4, of one tolerance and of a list.
fn tolerances() -> Vec<(usize, Request)> {
    let two = || rows(&[&[0., 0.], &[0., 1.]]);
    let mut list: Vec<_> = [-0., -1., f64::NAN, f64::INFINITY, f64::NEG_INFINITY]
        .map(|x| (4, uniform(flat(), x)))
        .into();
    list.extend([
        (4, each(two(), &[])),
        (4, each(two(), &[1.])),
        (4, each(two(), &[1., 1., 1.])),
        (4, each(axes(two(), &[1]), &[1., 1.])),
        (4, each(two(), &[1., 0.])),
        (4, each(two(), &[f64::NAN, 1.]).with_parameters(&[])),
    ]);
    list
}

/// 5 and 6.
fn parameters() -> Vec<(usize, Request)> {
    let three = |list: &[f64]| row(&[0., 3., 1.]).with_parameters(list);
    vec![
        (5, three(&[])),
        (5, three(&[0., 1.])),
        (5, three(&[0., 1., 2., 3.])),
        (5, three(&[f64::NAN, 1., 2.])),
        (5, three(&[0., 1., f64::INFINITY])),
        (5, three(&[0., 2., 1.])),
        (5, three(&[0., -0., 1.])),
        (6, three(&[-1e308, 0., 1e308])),
        (6, three(&[0., 5e-324, 1e10])),
    ]
}

/// 7 to 17 in the course of work, other axes last.
fn courses() -> Vec<(usize, Request)> {
    let mut spike = [0.; 12];
    spike[1] = 5.;
    let close: Vec<_> = (0..11).map(|i| f64::from(i) * 1e-7).chain([1.]).collect();
    let beside = |row: &[f64]| few(Request::flat_beside(row));
    let gaps = [0., power_of_two(-28), power_of_two(-14), 1.];
    let spike_of_five = uniform(row(&[0., 0., 1., 0., 0.]), power_of_two(-45));
    vec![
        (7, uniform(row(&[-1e308, 1e308]), 6e293)),
        (8, corner(20, 3)),
        (9, beside(&[0., 1., 0.]).with_parameters(&[0., 1e-100, 1.])),
        (10, beside(&[0., 1., 0., 1.]).with_parameters(&gaps)),
        (10, row(&spike).with_parameters(&close)),
        (11, beside(&[-1.7e308, 1.7e308])),
        (13, uniform(row(&[0., 1e306, 0.]), 1e305)),
        (14, corner(0, 40)),
        (14, limits(uniform(waves(2, 7), 1e-4), 2, 200)),
        (15, corner(20, 5)),
        (16, limits(spike_of_five, 200, 100)),
        (17, row(&[229572142130613.56; 2])),
    ]
}

/// Document 02's 26: the bound itself and the numbers next to it, either sign, one tolerance and a list,
/// after 4 and before 5, and an axis that is not smoothed. The source ends the first six with 17, 0, 7, 13,
/// 14 and 16.
fn too_fine() -> Vec<(usize, Request)> {
    let bound = power_of_two(48);
    let above = bound.next_up();
    let beside = |v: f64| rows(&[&[0., 0.], &[v, v]]);
    vec![
        (26, row(&[above.next_up(); 2])),
        (26, row(&[above; 2])),
        (26, uniform(row(&[0., 1e300]), 1e-10)),
        (26, row(&[0., 1e300, 0.])),
        (26, row(&[0., 1e17 / 3.])),
        (26, limits(row(&[0., 0., 1e16]), 200, 300)),
        (26, row(&[0., 0., 1e305])),
        (0, row(&[0., bound])),
        (0, row(&[0., -bound])),
        (26, row(&[0., -above])),
        (26, uniform(row(&[412345678.901, 412345679.233]), 1e-6)),
        (0, uniform(row(&[0., bound * 5e-324]), 5e-324)),
        (26, uniform(row(&[0., bound * 1e-323]), 5e-324)),
        (26, each(beside(above), &[2., 1.])),
        (0, each(beside(bound), &[1e-3, 1.])),
        (26, each(axes(beside(above), &[1, 0]), &[1., 2.])),
        (0, axes(beside(1e300), &[0])),
        (4, uniform(row(&[above; 2]), 0.)),
        (4, each(beside(above), &[1.])),
        (26, row(&[above; 2]).with_parameters(&[1., 1.])),
        (26, row(&[above; 2]).with_parameters(&[])),
    ]
}

/// 18, 20 and 19: each way, and that they come in this order, before 1 to 17. Slices that are longer
/// than they need be.
fn outside() -> Vec<(usize, Request)> {
    let more = |request: Request, more: [i8; 6]| request.with(|q| q.more = more);
    let cells = |request: Request, count: usize| request.with(|q| q.points.resize(count, 0.));
    let wide = |n| row(&[0., 0.]).with(|q| q.n = n);
    let two = || axes(rows(&[&[0., 1.], &[2., 5.]]), &[1]);
    let bad = || more(cells(row(&[f64::NAN]), 3), [-1; 6]);
    let mut list = vec![
        (18, wide(20_001)),
        (18, limits(flat(), 20, 20_001)),
        (18, limits(flat(), 201, 40)),
        (18, limits(bad(), 201, 40)),
        (20, bad()),
        (20, cells(flat(), 1)),
        (20, cells(flat(), 3)),
        (20, cells(two(), 0)),
        (20, cells(rows(&[]), 1)),
        (20, wide(1000)),
        (19, more(row(&[f64::NAN]), [-1; 6])),
        (19, more(rows(&[]), [-1, 0, 0, 0, 0, 0])),
        (1, more(rows(&[]), [0, 0, 0, -1, -1, -1])),
        // The widths need their cells also without an axis.
        (19, more(rows(&[]), [0, 0, -1, 0, 0, 0])),
        (8, more(limits(flat(), 20, 0), [0, 0, -1, 0, 0, 0])),
        (0, limits(flat(), 200, 40)),
        (0, more(two(), [1, 2, 3, 4, 5, 6])),
        (14, more(corner(0, 40), [7; 6])),
    ];
    for i in 0..6 {
        list.push((19, more(flat(), std::array::from_fn(|j| -i8::from(i == j)))));
    }
    list.push((19, more(two(), [0, 0, 0, 0, 0, -128])));
    list
}

/// Document 02's chords: equal neighbours, chords that are 0, lost in the sum or infinite, in the place of 5; rows that
/// are not smoothed count too.
fn by_chords() -> Vec<(usize, Request)> {
    // The least number whose square is above half of the least number, 2^-1075.
    let least = std::f64::consts::SQRT_2 * power_of_two(-538);
    let ulp = power_of_two(-52);
    let beside = |v: &[f64]| axes(rows(&[&vec![0.; v.len()], v]), &[0]);
    let lost = |x: f64| rows(&[&[0., 1., 1.], &[0., 0., x]]);
    let collapsed = [0., 1.9, 1.9, 1.9, 1.9, 3.6];
    let list = vec![
        (0, rows(&[&[0., 3., 3.], &[0., 4., 0.]])),
        (0, uniform(waves(1, 9), 0.05)),
        (0, axes(uniform(waves(16, 3), 0.05), &[15, 3, 8, 0, 11])),
        (0, each(axes(waves(3, 9), &[2, 0]), &[0.05, 0.3])),
        // Equal neighbours.
        (5, flat()),
        (5, row(&[-0., 0.])),
        (5, rows(&[&[1., 2., 2., 3.], &[5., 5., 5., 7.]])),
        (0, rows(&[&[-0., 0.], &[0., 1.]])),
        // Rows that are not smoothed.
        (0, beside(&[0., 1., 3.])),
        (5, beside(&[0., 1., 1.])),
        (5, beside(&[0., 1e200])),
        (9, beside(&[0., 1e-100, 1.])),
        // A square that is 0, and the least that is not.
        (5, row(&[0., power_of_two(-600)])),
        (5, row(&[0., least.next_down()])),
        (0, row(&[0., least])),
        (0, row(&[least, 3. * least, -least])),
        // Lost in the sum, at the tie, and not lost.
        (5, lost(power_of_two(-60))),
        (5, lost(ulp / 2.)),
        (0, lost((ulp / 2.).next_up())),
        (6, rows(&[&collapsed, &[0., 0., ulp, 0., ulp, ulp]])),
        // A difference, a square or a sum of squares that is infinite.
        (5, uniform(row(&[-1.7e308, 1.7e308]), 1e300)),
        (5, uniform(row(&[0., 1.4e154]), 1e150)),
        (0, uniform(row(&[0., 1.3e154]), 1e150)),
        (5, uniform(rows(&[&[0., 1.3e154], &[0., 1.3e154]]), 1e150)),
        // What comes before 5 and after it.
        (1, row(&[0., f64::INFINITY])),
        (4, uniform(flat(), 0.)),
        (26, row(&[power_of_two(49); 2])),
        (14, limits(uniform(waves(2, 7), 1e-4), 0, 40)),
        (20, flat().with(|q| q.points.push(0.))),
        (19, flat().with(|q| q.more[0] = -1)),
    ];
    let list = list.into_iter();
    list.map(|(number, q)| (number, q.by_chords())).collect()
}
