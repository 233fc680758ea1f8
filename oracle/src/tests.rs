//! What the answers rest on: the compiled text, the list's form, known inputs with
//! known answers, and generators that give the same cases everywhere.

use crate::answer::{Answer, answer, digits};
use crate::case::{Case, Kind};
use crate::certificate::{Certificate, Question};
use crate::generate::{chords, known, returns};
use crate::handed::HandedCurve;
use crate::path::smoothing::{SmoothingTolerance, reach};
use crate::query::{MARK, Queries, Told};
use crate::random::{Random, power_of_two};
use crate::refusal::Refusal;
use crate::request::{Request, draw};
use crate::returned::Returning;
use crate::spacing::{self, Spacing};
use crate::{generate, job, list, recipe, requests, table};
use std::fs;

#[test]
fn compiled_text_is_the_source_and_the_appendix() {
    let mut wanted = fs::read(env!("SMOOTHING_SOURCE")).unwrap();
    wanted.extend(include_bytes!("appendix.rs"));
    let compiled = fs::read(env!("SMOOTHING_COMPILED")).unwrap();
    assert!(compiled == wanted, "build again: the source has changed");
}

/// Some cases of every group.
fn every_group(count: usize) -> Vec<Case> {
    let group = |name| generate::group(name, 1, count).unwrap();
    generate::names().flat_map(group).collect()
}

#[test]
fn list_reads_as_written() {
    let cases = every_group(10);
    let bytes = list::write(&cases);
    let read = list::read(&bytes).unwrap();
    assert_eq!(read.len(), cases.len());
    assert_eq!(list::write(&read), bytes);
}

#[test]
fn damaged_list_is_refused() {
    let bytes = list::write(&[Case::cells(Kind::Clear, &[1., 2.])]);
    assert!(list::read(&bytes).is_ok());
    for end in 0..bytes.len() {
        // The head alone is a list without cases.
        assert_eq!(list::read(&bytes[..end]).is_ok(), end == 8);
    }
    let unknown_kind = [&bytes[..8], &[200], &bytes[9..]].concat();
    assert!(list::read(&unknown_kind).is_err());
}

#[test]
fn case_with_wrong_counts_is_refused() {
    for case in every_group(10) {
        let mut more_cells = case.clone();
        more_cells.cells.push(0.);
        assert!(answer(&more_cells).is_err());
        let mut more_whole = case.clone();
        more_whole.whole.push(0);
        assert!(answer(&more_whole).is_err());
        let mut fewer_cells = case.clone();
        if fewer_cells.cells.pop().is_some() {
            assert!(answer(&fewer_cells).is_err());
        }
    }
}

#[test]
fn every_generated_case_is_answered() {
    for case in every_group(100) {
        answer(&case).unwrap();
    }
}

/// The line that answers a request, shortened to its first words.
fn line(request: &Request, words: usize) -> String {
    let case = Case::build(request);
    let line = answer(&case).unwrap().line(case.kind);
    line.split(' ').take(words).collect::<Vec<_>>().join(" ")
}

fn one_row(row: &[f64]) -> Request {
    Request::of_rows(&[row.to_vec()])
}

#[test]
fn known_requests_end_as_noted() {
    for (i, (number, request)) in known::requests().iter().enumerate() {
        let case = Case::build(request);
        let found = match answer(&case).unwrap() {
            Answer::Refused(refusal) => refusal.number,
            _ => 0,
        };
        assert_eq!(found, *number, "request {i}: {request:?}");
    }
}

/// What the source gives for requests that are 26, as docs/DIFFERENCES.md tells.
#[test]
fn requests_that_are_too_fine_end_otherwise_in_the_source() {
    let requests = known::requests();
    let fine = requests.iter().filter(|(number, _)| *number == 26);
    let ends = fine.map(|(_, q)| reach::build(q).map_or_else(|e| Refusal::from(e).number, |_| 0));
    let ends: Vec<_> = ends.take(8).collect();
    assert_eq!(ends, [17, 0, 7, 13, 14, 16, 11, 0]);
}

#[test]
fn lines_of_known_lanes() {
    let flat = one_row(&[0., 0.]);
    let ends = "0000000000000000 3FF0000000000000";
    let told = format!("build 1 0 0 0 2 0 {ends} 0000000000000000");
    assert_eq!(line(&flat, 10), told);
    let straight = one_row(&[0., 0.95, 0.]);
    let told = format!("build 1 0 0 0 4 0 {ends} 3FEE666666666666");
    assert_eq!(line(&straight, 10), told);
    let fitted = reach::build(&one_row(&[0., 0.96, 0.])).unwrap();
    assert!(fitted.counts[3] > 0);
    let corner = |segments: usize, refinements: usize| {
        one_row(&[0., 1., 0.]).with(|q| {
            q.config.tolerance = SmoothingTolerance::Uniform(1e-3);
            q.config.max_segments = segments;
            q.config.max_refinements = refinements;
        })
    };
    let told = "build refused 14 406938D88BB438B4";
    assert_eq!(line(&corner(20_000, 0), 9), told);
    assert_eq!(line(&corner(6, 20), 6), "build 6 0 1 60 6");
}

#[test]
fn accepted_curve_can_hold_nan() {
    let built = reach::build(&Request::flat_beside(&[1e306; 4])).unwrap();
    let other = built.curve.other.unwrap();
    assert!(other.coefficients.iter().any(|v| v.is_nan()));
}

#[test]
fn powi_squares_from_the_low_bit() {
    let mut r = Random::new(5);
    for _ in 0..300_000 {
        let x = if r.chance(50) {
            r.float()
        } else {
            r.scaled(-2, 1)
        };
        let exponent = if r.chance(80) {
            r.below(12)
        } else {
            r.below(3000)
        };
        let (mut result, mut square, mut rest) = (1., x, exponent);
        while rest > 0 {
            if rest % 2 == 1 {
                result *= square;
            }
            square *= square;
            rest /= 2;
        }
        assert_eq!(
            digits(x.powi(exponent as i32)),
            digits(result),
            "{x:e} to the power {exponent}"
        );
    }
}

/// The traced course of work is a copy of `build`'s: both end alike.
#[test]
fn trace_follows_build() {
    let mut r = Random::new(6);
    let mut compared = 0;
    for _ in 0..600 {
        let request = draw(&mut r);
        let built = reach::build(&request).map_err(Refusal::from);
        if built.as_ref().is_err_and(|refusal| refusal.number <= 7) {
            continue;
        }
        compared += 1;
        let traced = reach::trace(&request, &mut |_| ()).map_err(Refusal::from);
        match (built, traced) {
            (Ok(built), Ok((counts, selected))) => {
                assert_eq!(built.counts, counts);
                let wanted = built.curve.selected;
                assert!(same(&wanted.breaks, &selected.breaks));
                assert!(same(&wanted.coefficients, &selected.coefficients));
            }
            (Err(built), Err(traced)) => {
                assert_eq!(built.number, traced.number);
                assert_eq!(
                    built.ratio.map(f64::to_bits),
                    traced.ratio.map(f64::to_bits)
                );
            }
            _ => panic!("one is refused, the other is not"),
        }
    }
    assert!(compared > 400);
}

fn same(a: &[f64], b: &[f64]) -> bool {
    a.len() == b.len() && a.iter().zip(b).all(|(a, b)| digits(*a) == digits(*b))
}

#[test]
fn requests_reach_every_refusal_but_12() {
    let table = table::table(1, 2000);
    for number in 1..=17 {
        let line = table.lines().nth(number).unwrap();
        let words: Vec<_> = line.split_whitespace().collect();
        assert_eq!(words[..2], ["refused", &number.to_string()]);
        assert_eq!(words[2] == "0", number == 12, "{line}");
    }
}

/// What the stored list of requests has: every refusal but 12, rounds, other axes, and cells that are
/// no numbers.
#[test]
fn stored_requests_reach_every_answer() {
    let mut found = [0; 27];
    let (mut rounds, mut others, mut nan) = (0, 0, 0);
    for case in recipe("builds.txt").unwrap() {
        match answer(&case).unwrap() {
            Answer::Given(whole, cells) => {
                found[0] += 1;
                rounds += usize::from(whole[2] > 2);
                others += usize::from(whole[1] > 0);
                nan += usize::from(cells.iter().any(|v| v.is_nan()));
            }
            Answer::Refused(refusal) => found[refusal.number] += 1,
            _ => panic!("no answer of this kind"),
        }
    }
    for (number, count) in found.iter().enumerate() {
        assert_eq!(
            *count == 0,
            matches!(number, 12 | 21..26),
            "{number}: {count}"
        );
    }
    assert!(rounds > 10 && others > 10 && nan > 2);
}

/// A straight curve of one axis beside another, with a corner of 0.95 between its waypoints.
fn corner() -> Question {
    Question {
        curve: HandedCurve {
            d: 2,
            k: 1,
            axes: vec![1],
            start: 0.,
            end: 1.,
            segments: 1,
            other_segments: 1,
            breaks: vec![0., 1.],
            coefficients: vec![0., 0., 0., 0., 0., 0., 1.],
            other_breaks: vec![0., 1.],
            other_coefficients: vec![0., 0., 0., 0., 0., 0., 1.],
        },
        n: 3,
        points: vec![0., 0., 0., 0.95, 0., 0.],
        spacing: Spacing::Even,
        parameters: Vec::new(),
        axis: 1,
        depth: 0,
    }
}

fn number(question: &Question) -> usize {
    match question.certify() {
        Certificate::Refused(number) => number,
        _ => 0,
    }
}

/// Faults put in one by one, the last to be met first, give "18, 20, 1, 5, 6, 24, 3" from the end, and then
/// request 8's 23.
#[test]
fn certifying_checks_in_order() {
    let mut question = corner();
    assert_eq!(number(&question), 0);
    question.axis = 0;
    assert_eq!(number(&question), 3);
    question.curve.breaks[1] = 2.;
    assert_eq!(number(&question), 24);
    question.spacing = Spacing::Listed;
    question.parameters = vec![-1e308, 0., 1e308];
    assert_eq!(number(&question), 6);
    question.parameters[1] = f64::NAN;
    assert_eq!(number(&question), 5);
    question.points[0] = f64::INFINITY;
    assert_eq!(number(&question), 1);
    question.points.pop();
    assert_eq!(number(&question), 20);
    question.n = 20_001;
    assert_eq!(number(&question), 18);
    question.depth = 7;
    assert_eq!(number(&question), 23);
}

/// A deeper figure is there where a shallower one is, and is never larger; a bulge's comes close to its
/// height.
#[test]
fn deeper_figures_are_no_larger() {
    let mut bulge = corner();
    bulge.points.fill(0.);
    bulge.curve.coefficients = vec![0., 0., 16., -32., 16., 0., 1.];
    let mut last = f64::INFINITY;
    for depth in 0..=6 {
        bulge.depth = depth;
        let Certificate::Figure(figure) = bulge.certify() else {
            panic!("no figure");
        };
        assert!(figure <= last && figure > 1.);
        last = figure;
    }
    assert!(last < 1.001);
    for case in generate::group("certify", 17, 300).unwrap() {
        let answers: Vec<_> = (0..=6)
            .map(|depth| {
                let mut deeper = case.clone();
                deeper.whole[15] |= depth << 16;
                answer(&deeper).unwrap()
            })
            .collect();
        for pair in answers.windows(2) {
            match (&pair[0], &pair[1]) {
                (Answer::Figure(Some(x)), Answer::Figure(Some(y))) => assert!(y <= x),
                (Answer::Figure(None), Answer::Figure(None)) => {}
                (Answer::Refused(x), Answer::Refused(y)) => assert_eq!(x.number, y.number),
                _ => panic!("another answer at another depth"),
            }
        }
    }
}

#[test]
fn figure_is_the_largest_end() {
    let figure = |question: &Question| match question.certify() {
        Certificate::Figure(figure) => figure,
        other => panic!("{other:?}"),
    };
    // Half of the corner's lines lie on each side of it, so that both intersections have its 0.95.
    let at_corner = figure(&corner());
    assert!(at_corner > 0.95 && at_corner < 0.95 * (1. + power_of_two(-46)));
    // Exact products and quotients are moved outward too: zeros all over give a figure above 0.
    let mut flat = corner();
    flat.points.fill(0.);
    let figure_of_zeros = figure(&flat);
    assert!(figure_of_zeros > 0. && figure_of_zeros < power_of_two(-1000));
    // The curve's start and end, and its other axes, have no part in it.
    let mut elsewhere = corner();
    elsewhere.curve.start = -3.;
    elsewhere.curve.other_coefficients[..6].fill(f64::NAN);
    assert_eq!(figure(&elsewhere).to_bits(), at_corner.to_bits());
    // One coefficient that is not finite, or a product that overflows, gives none.
    for v in [f64::NAN, f64::INFINITY, 1e308] {
        let mut none = corner();
        none.curve.coefficients[5] = v;
        assert!(matches!(none.certify(), Certificate::None));
    }
}

#[test]
fn certify_cases_reach_every_answer() {
    let mut found = [0; 25];
    let (mut figures, mut none) = (0, 0);
    for case in generate::group("certify", 90, 2000).unwrap() {
        match answer(&case).unwrap() {
            Answer::Figure(Some(_)) => figures += 1,
            Answer::Figure(None) => none += 1,
            Answer::Refused(refusal) => found[refusal.number] += 1,
            _ => panic!("no answer of this kind"),
        }
    }
    for number in [1, 3, 5, 6, 18, 20, 24] {
        assert!(found[number] > 20, "refused {number}: {}", found[number]);
    }
    assert!(figures > 800 && none > 50);
    let deep = generate::group("certify_deep", 90, 300).unwrap();
    let refused = |case| matches!(answer(case).unwrap(), Answer::Refused(r) if r.number == 23);
    assert!(deep.iter().filter(|case| refused(case)).count() > 20);
}

/// Whatever the whole numbers are, there is an answer or a message.
#[test]
fn odd_certify_cases_end() {
    odd_cases_end("certify");
    odd_cases_end("certify_chord");
}

fn odd_cases_end(name: &str) {
    let mut r = Random::new(9);
    for case in generate::group(name, 9, 400).unwrap() {
        for _ in 0..50 {
            let mut odd = case.clone();
            let place = r.below(odd.whole.len());
            odd.whole[place] = match r.below(4) {
                0 => r.next() as u32,
                1 => odd.whole[place].wrapping_add(1),
                2 => odd.whole[place].wrapping_sub(1),
                _ => odd.whole[place] ^ 1 << r.below(32),
            };
            let _ = answer(&odd);
        }
    }
}

/// The figure of a curve that `build` returns is about the error that `build` reports.
#[test]
fn figure_of_a_built_curve_is_its_error() {
    for row in [[0., 0.95, 0.], [0., 3., -2.], [1., 1.5, 2.]] {
        let built = reach::build(&one_row(&row)).unwrap();
        let question = Question {
            curve: built.curve.into(),
            points: row.to_vec(),
            axis: 0,
            ..corner()
        };
        let Certificate::Figure(figure) = question.certify() else {
            panic!("no figure");
        };
        let error = built.max_errors[0];
        assert!((figure - error).abs() < 1e-13, "{figure} {error}");
    }
}

/// The list by chords in whole numbers: every step exact, then rounded once where it is made an f64. The points are whole
/// and at most 2^53.
fn chords_of_whole(points: &[i64], d: usize) -> Vec<f64> {
    let unit = power_of_two(52);
    let mut list = vec![0.];
    for pair in points.windows(2 * d).step_by(d) {
        let mut sum = 0f64;
        for row in 0..d {
            let difference = (pair[d + row] - pair[row]).unsigned_abs() as f64;
            let square = (difference as u128 * difference as u128) as f64;
            sum = (sum as u128 + square as u128) as f64;
        }
        let last = *list.last().unwrap();
        list.push(((last * unit) as u128 + (root(sum as u128) * unit) as u128) as f64 / unit);
    }
    list
}

/// The root of a whole number, rounded once: with some 60 bits, and one that says whether more would follow.
fn root(x: u128) -> f64 {
    if x == 0 {
        return 0.;
    }
    let shift = x.leading_zeros() / 2;
    let shifted = x << (2 * shift);
    let floor = shifted.isqrt();
    let more = u128::from(floor * floor != shifted);
    (2 * floor + more) as f64 * power_of_two(-1 - shift as i32)
}

/// The list of points of whole numbers up to 2^53 is that of whole-number steps, at any scale. Rows in another order, or
/// products that are not rounded, would be seen.
#[test]
fn chord_list_is_that_of_whole_numbers() {
    let mut r = Random::new(31);
    let (mut from_the_last, mut fused, mut equal) = (0, 0, 0);
    for _ in 0..20_000 {
        let (d, n) = (r.between(1, 16), r.between(2, 6));
        let bits = r.between(11, 63);
        let mut whole: Vec<i64> = (0..d * n)
            .map(|_| (r.next() >> bits) as i64 * r.sign() as i64)
            .collect();
        if r.chance(10) {
            whole.copy_within(..d, d);
        }
        let scale = power_of_two(r.between(0, 400) as i32 - 200);
        let points: Vec<f64> = whole.iter().map(|v| *v as f64 * scale).collect();
        let list = spacing::chords(&points, d, n);
        let wanted = chords_of_whole(&whole, d);
        let wanted: Vec<f64> = wanted.iter().map(|v| v * scale).collect();
        assert!(same(&list, &wanted), "{d} {points:?}");
        equal += usize::from(list.windows(2).any(|v| v[0] == v[1]));
        let chord = |rows: &mut dyn Iterator<Item = usize>, add: fn(f64, f64) -> f64| {
            rows.fold(0., |sum, row| add(sum, points[d + row] - points[row]))
                .sqrt()
        };
        let rounded = |sum: f64, v: f64| sum + v * v;
        from_the_last += usize::from(chord(&mut (0..d).rev(), rounded) != list[1]);
        fused += usize::from(chord(&mut (0..d), |sum, v| v.mul_add(v, sum)) != list[1]);
    }
    assert!(from_the_last > 1000 && fused > 1000 && equal > 1000);
}

/// The points (0, 0), (3, 4), (3, 0), and what is known of the ends of the range.
#[test]
fn known_chord_lists() {
    let list = |rows: &[&[f64]]| {
        let rows: Vec<_> = rows.iter().map(|row| row.to_vec()).collect();
        let request = Request::of_rows(&rows).by_chords();
        spacing::chords(&request.points, request.d, request.n)
    };
    assert!(same(&list(&[&[0., 3., 3.], &[0., 4., 0.]]), &[0., 5., 9.]));
    assert!(same(&list(&[&[-0., 0., -0.]]), &[0., 0., 0.]));
    assert!(same(&list(&[&[0., power_of_two(-600)]]), &[0., 0.]));
    let least = power_of_two(-537);
    assert!(same(&list(&[&[0., 1.2 * least]]), &[0., least]));
    let inf = f64::INFINITY;
    assert!(same(&list(&[&[0., 1e200, 0.]]), &[0., inf, inf]));
    assert!(same(&list(&[&[1., 2.], &[0., f64::NAN]]), &[0., f64::NAN]));
    let mut known = known::requests().into_iter().filter(|(_, q)| q.chord);
    let built = reach::build(&known.next().unwrap().1).unwrap();
    assert_eq!((built.curve.start, built.curve.end), (0., 9.));
}

/// A request by chords has the answer of the same list; its start, end and other breaks are the list's.
#[test]
fn requests_by_chords_are_answered_as_listed() {
    let mut r = Random::new(32);
    let (mut accepted, mut refused, mut others) = (0, 0, 0);
    for _ in 0..3000 {
        let request = chords::request(&mut r);
        let given = request.listed();
        assert_eq!(Case::build(&request).whole[5..7], [2, 0]);
        assert_eq!(Case::build(&given).whole[5..7], [1, request.n as u32]);
        assert_eq!(line(&request, usize::MAX), line(&given, usize::MAX));
        let list = given.config.parameters.unwrap();
        match request.answer() {
            Ok(built) => {
                accepted += 1;
                let (start, end) = (list[0], list[request.n - 1]);
                assert!(same(&[built.curve.start, built.curve.end], &[start, end]));
                if let Some(other) = built.curve.other {
                    others += 1;
                    let normalised = list.iter().map(|v| (v - start) / (end - start));
                    assert!(same(&other.breaks, &normalised.collect::<Vec<_>>()));
                }
            }
            Err(refusal) => refused += usize::from(refusal.number == 5),
        }
    }
    assert!(accepted > 1000 && refused > 300 && others > 300);
}

/// The corner's two chords are equal, so that its figure is that of even parameters; the checks come in their order.
#[test]
fn certificates_by_chords() {
    let mut question = corner();
    let even = question.certify();
    question.spacing = Spacing::Chord;
    // A list that is there is not read.
    question.parameters = vec![1., 0.];
    match (even, question.certify()) {
        (Certificate::Figure(x), Certificate::Figure(y)) => assert_eq!(x.to_bits(), y.to_bits()),
        other => panic!("{other:?}"),
    }
    question.axis = 0;
    assert_eq!(number(&question), 3);
    question.curve.breaks[1] = 2.;
    assert_eq!(number(&question), 24);
    question.points[4..].copy_from_slice(&[0., 0.95]);
    assert_eq!(number(&question), 5);
    question.points[4] = f64::INFINITY;
    assert_eq!(number(&question), 1);
    for case in generate::group("certify_chord", 33, 500).unwrap() {
        let (d, n) = (case.whole[0] as usize, case.whole[4] as usize);
        let (points, parameters) = (case.whole[13] as usize, case.whole[14] as usize);
        assert_eq!(case.whole[15] >> 8 & 255, 2);
        if points != d * n || points == 0 {
            continue;
        }
        let at = case.cells.len() - parameters;
        let mut given = case.clone();
        given.whole[15] -= 1 << 8;
        given.whole[14] = n as u32;
        given.cells.truncate(at);
        given
            .cells
            .extend(spacing::chords(&case.cells[at - points..at], d, n));
        let told = |case: &Case| answer(case).unwrap().line(case.kind);
        assert_eq!(told(&case), told(&given));
    }
}

/// What the stored lists have by chords: accepted requests with and without other axes, 5 and others; figures with and
/// without a depth, none, and 5.
#[test]
fn stored_cases_by_chords_reach_every_answer() {
    let (mut accepted, mut others, mut refused) = (0, 0, [0; 27]);
    for case in recipe("builds.txt").unwrap() {
        match answer(&case).unwrap() {
            _ if case.whole[5] != 2 => {}
            Answer::Given(whole, _) => {
                accepted += 1;
                others += usize::from(whole[1] > 0);
            }
            Answer::Refused(refusal) => refused[refusal.number] += 1,
            _ => panic!("no answer of this kind"),
        }
    }
    let alone = accepted - others;
    assert!(others > 15 && alone > 5, "{others}, {alone}");
    for number in [1, 3, 4, 6, 8, 9, 10, 14, 15, 17, 19, 20, 26] {
        assert!(refused[number] > 0, "refused {number}: {refused:?}");
    }
    assert!(refused[5] > 20, "{refused:?}");
    let (mut figures, mut none, mut refused) = ([0; 2], 0, [0; 25]);
    for case in stored(&["certify_chord"]) {
        match answer(&case).unwrap() {
            Answer::Figure(Some(_)) => figures[usize::from(case.whole[15] >> 16 > 0)] += 1,
            Answer::Figure(None) => none += 1,
            Answer::Refused(refusal) => refused[refusal.number] += 1,
            _ => panic!("no answer of this kind"),
        }
    }
    assert!(figures.iter().all(|n| *n > 5), "{figures:?}");
    for number in [1, 3, 6, 18, 20, 23, 24] {
        assert!(refused[number] > 0, "refused {number}: {refused:?}");
    }
    assert!(none > 0 && refused[5] > 5, "{none}, {refused:?}");
}

/// One query of a line from 0 to 3 beside a constant 7, over -1 to 2, with marked cells behind.
fn line_query(x: f64, order: usize, clamp: bool) -> Queries {
    let mut curve = corner().curve;
    (curve.start, curve.end) = (-1., 2.);
    curve.coefficients[1] = 3.;
    curve.other_coefficients[0] = 7.;
    Queries {
        curve,
        clamp,
        orders: [order; 4],
        lengths: [2, 3, 2, 4],
        parameters: vec![x],
    }
}

/// Faults put in one by one, the last to be met first, give "24, 23, 19, 22" from the end.
#[test]
fn queries_check_in_order() {
    let number = |query: &Queries| query.single().refused.map(|v| v.0);
    let mut query = line_query(2., 1, false);
    assert_eq!(number(&query), None);
    query.parameters[0] = 2f64.next_up();
    assert_eq!(number(&query), Some(22));
    query.lengths[1] = 1;
    assert_eq!(number(&query), Some(19));
    query.orders = [4; 4];
    assert_eq!(number(&query), Some(23));
    query.curve.end = -1.;
    assert_eq!(number(&query), Some(24));
}

/// A value of 2 and a slope of 1 at 1, and a slope of 1 at both ends; outside, in mode Clamp, the end's value
/// and a slope of +0, and 22 in mode Error; a NaN is 22 in both. Cells behind those asked for stay, and on a
/// refusal all.
#[test]
fn queries_outside_and_their_cells() {
    let told = |x, order, clamp| line_query(x, order, clamp).single();
    let given = |cells: &[f64]| Told {
        refused: None,
        cells: cells.to_vec(),
    };
    let m = MARK;
    let slices = |value: f64, slope: f64| given(&[7., value, 0., slope, m, m, m, m, m, m, m]);
    assert_eq!(told(1., 1, false), slices(2., 1.));
    for (x, value) in [
        (f64::NEG_INFINITY, 0.),
        (-1.5, 0.),
        (2.5, 3.),
        (f64::MAX, 3.),
    ] {
        let answer = told(x, 1, true);
        assert_eq!(answer, slices(value, 0.));
        assert!(answer.cells[2..4].iter().all(|v| v.to_bits() == 0));
    }
    for clamp in [false, true] {
        assert_eq!(told(-1., 1, clamp), slices(0., 1.));
        assert_eq!(told(2., 1, clamp), slices(3., 1.));
    }
    let values = given(&[7., 2., m, m, m, m, m, m, m, m, m]);
    assert_eq!(told(1., 0, false), values);
    let refused = Told {
        refused: Some((22, None)),
        cells: vec![m; 11],
    };
    for (x, clamp) in [
        (-1.5, false),
        (f64::INFINITY, false),
        (f64::NAN, false),
        (f64::NAN, true),
    ] {
        assert_eq!(told(x, 1, clamp), refused);
    }
}

/// Many in one call: the first that is refused gives the place; otherwise each as a single query.
#[test]
fn many_queries_are_single_ones() {
    let mut many = line_query(0., 1, false);
    many.lengths = [6; 4];
    many.parameters = vec![0., 3., f64::NAN];
    assert_eq!(many.all().refused, Some((22, Some(1))));
    many.parameters[1] = 2.;
    assert_eq!(many.all().refused, Some((22, Some(2))));
    many.parameters[2] = 0.5;
    let all = many.all();
    assert_eq!(all.refused, None);
    for (i, single) in many.in_turn().iter().enumerate() {
        assert_eq!(single.refused, None);
        for r in [0, 6] {
            assert_eq!(all.cells[r + 2 * i..][..2], single.cells[r..][..2]);
        }
    }
}

#[test]
fn query_cases_reach_every_answer() {
    for (name, seed) in [("query", 81), ("queries", 82), ("reader", 83)] {
        let mut found = [0; 25];
        let mut later = 0;
        for case in generate::group(name, seed, 1000).unwrap() {
            let Answer::Queried(list) = answer(&case).unwrap() else {
                panic!("no answer of this kind");
            };
            for told in list {
                found[told.refused.map_or(0, |v| v.0)] += 1;
                later += usize::from(told.refused.is_some_and(|v| v.1 > Some(0)));
            }
        }
        for number in [0, 19, 22, 23, 24] {
            assert!(found[number] > 50, "{name} {number}: {}", found[number]);
        }
        assert_eq!(later > 50, name == "queries");
    }
}

/// The cases of the stored list in groups of these names.
fn stored(names: &[&str]) -> Vec<Case> {
    let text = std::fs::read_to_string("lists.txt").unwrap();
    let mut cases = Vec::new();
    for line in text.lines() {
        let words: Vec<_> = line.split_whitespace().collect();
        if let [name, seed, count] = words[..]
            && names.contains(&name)
        {
            let (seed, count) = (seed.parse().unwrap(), count.parse().unwrap());
            cases.extend(generate::group(name, seed, count).unwrap());
        }
    }
    cases
}

/// What the stored list has of queries: every answer of each kind, in both modes; of single calls every
/// order; of a reader, queries refused between others that are answered.
#[test]
fn stored_queries_reach_every_answer() {
    let cases = stored(&["query", "queries", "reader"]);
    for kind in [Kind::Query, Kind::Queries, Kind::Reader] {
        let (mut found, mut orders, mut mixed) = ([[0; 25]; 2], [0; 4], 0);
        for case in cases.iter().filter(|case| case.kind == kind) {
            let Answer::Queried(list) = answer(case).unwrap() else {
                panic!("no answer of this kind");
            };
            let refused = list.iter().filter(|told| told.refused.is_some()).count();
            mixed += usize::from(0 < refused && refused < list.len());
            for told in list {
                found[case.whole[13] as usize][told.refused.map_or(0, |v| v.0)] += 1;
                if told.refused.is_none() && kind != Kind::Reader {
                    orders[case.whole[12] as usize] += 1;
                }
            }
        }
        for number in [0, 19, 22, 23, 24] {
            assert!(found[0][number] > 0 && found[1][number] > 0, "{found:?}");
        }
        let reader = kind == Kind::Reader;
        assert!(reader || orders.iter().all(|n| *n > 1), "{orders:?}");
        assert!(!reader || mixed > 10, "{mixed}");
    }
}

#[test]
fn odd_query_cases_end() {
    odd_cases_end("query");
    odd_cases_end("queries");
    odd_cases_end("reader");
}

/// The curve with as many cells lent as it needs, of one axis from 0 to 1 beside the same of another.
fn returning(breaks: &[f64], coefficients: &[f64]) -> Returning {
    let mut curve = corner().curve;
    curve.segments = breaks.len() - 1;
    curve.other_segments = curve.segments;
    curve.breaks = breaks.to_vec();
    curve.coefficients = coefficients.to_vec();
    curve.keep_widths();
    curve.other_breaks = curve.breaks.clone();
    curve.other_coefficients = curve.coefficients.clone();
    Returning {
        lengths: curve.counts(),
        curve,
    }
}

#[test]
fn known_return_lanes() {
    let of_one = |p: &[f64]| returning(&[0., 1.], p).lane().unwrap().coefficients;
    let one_and_two = of_one(&[1., 2., 0., 0., 0., 0.]);
    assert!(same(&one_and_two, &[3., -2., 0., -0., 0., -0., 1.]));
    let fifth_power = of_one(&[0., 0., 0., 0., 0., 1.]);
    assert!(same(&fifth_power, &[1., -5., 10., -10., 5., -1., 1.]));
    // Added to +0 in rising j: signs of zeros, and a sum that overflows on the way.
    let zeros = of_one(&[-0.; 6]);
    assert!(same(&zeros, &[0., -0., 0., -0., 0., -0., 1.]));
    let inf = f64::INFINITY;
    let huge = of_one(&[1e308, 1e308, -1e308, 0., 0., 0.]);
    assert!(same(&huge[..3], &[inf, inf, -1e308]));
    let none = of_one(&[inf, -inf, 0., 0., 0., 0.]);
    assert!(same(&none, &[f64::NAN, inf, 0., -0., 0., -0., 1.]));
    // Two segments of two axes each, and another set of one: segments in reverse, axes as they are.
    let mut two = returning(
        &[0., 0.25, 1.],
        &[1., 2., 0., 0., 0., 0., 5., 0., 0., 0., 0., 0.],
    );
    two.curve.d = 3;
    two.curve.k = 2;
    two.curve.axes = vec![2, 0];
    two.curve.coefficients = [[1.; 6], [2.; 6], [3.; 6], [4.; 6]].concat();
    two.curve.coefficients.extend([0.25, 0.75]);
    two.lengths = two.curve.counts();
    let lane = two.lane().unwrap();
    let six = [6., -15., 20., -15., 6., -1.];
    let wanted: Vec<_> = [3., 4., 1., 2.]
        .iter()
        .flat_map(|v| six.map(|c| c * v))
        .chain([0.75, 0.25])
        .collect();
    assert!(same(&lane.coefficients, &wanted));
    assert!(same(&lane.breaks, &[0., 0.75, 1.]));
    assert!(same(&lane.other_breaks, &[0., 0.75, 1.]));
    let others = [
        5., -0., 0., -0., 0., -0., 3., -2., 0., -0., 0., -0., 0.75, 0.25,
    ];
    assert!(same(&lane.other_coefficients, &others));
    assert_eq!(lane.axes, [2, 0]);
    // All axes selected: nothing of the other set.
    let mut alone = returning(&[0., 1.], &[1., 2., 0., 0., 0., 0.]);
    alone.curve.d = 1;
    alone.curve.axes = vec![0];
    alone.curve.other_segments = 0;
    alone.curve.other_breaks.clear();
    alone.curve.other_coefficients.clear();
    alone.lengths = [3, 7, 2, 0];
    let m = MARK;
    let cells = [0., 1., m, 3., -2., 0., -0., 0., -0., 1., m, m];
    let told = alone.told();
    assert!(told.refused.is_none() && same(&told.cells, &cells));
}

/// Faults put in one by one, the last to be met first, give "29, after 24 and 19"; cells then stay.
#[test]
fn return_lanes_check_in_order() {
    let number = |lane: &Returning| {
        let told = lane.told();
        let stays = told.cells.iter().all(|v| *v == MARK);
        assert_eq!(told.cells.len(), lane.lengths.iter().sum::<usize>());
        assert_eq!(stays, told.refused.is_some());
        told.refused.map(|v| v.0)
    };
    let good = returning(&[0., 0.5, 1.], &[0.; 12]);
    assert_eq!(number(&good), None);
    let fine = returning(&[0., power_of_two(-53), 1.], &[0.; 12]);
    assert_eq!(number(&fine), None);
    let close = returning(&[0., power_of_two(-54), 1.], &[0.; 12]);
    assert_eq!(number(&close), Some(29));
    for other in [false, true] {
        // One set alone collapses.
        let mut lane = good.clone();
        if other {
            lane.curve.other_breaks = close.curve.other_breaks.clone();
            lane.curve.other_coefficients = close.curve.other_coefficients.clone();
        } else {
            lane.curve.breaks = close.curve.breaks.clone();
            lane.curve.coefficients = close.curve.coefficients.clone();
        }
        assert_eq!(number(&lane), Some(29));
        for i in 0..4 {
            let mut short = lane.clone();
            short.lengths[i] -= 1;
            assert_eq!(number(&short), Some(19));
            short.lengths = [0; 4];
            assert_eq!(number(&short), Some(19));
            let widths = if other {
                &mut short.curve.other_coefficients
            } else {
                &mut short.curve.coefficients
            };
            let place = widths.len() - 1 - i % 2;
            let v = widths[place];
            widths[place] = [v.next_up(), -v, f64::NAN, -0.][i];
            assert_eq!(number(&short), Some(24));
        }
    }
}

#[test]
fn returned_cases_reach_every_answer() {
    let mut found = [0; 30];
    let (mut alone, mut nan, mut negative) = (0, 0, 0);
    for case in generate::group("returned", 84, 1000).unwrap() {
        let Answer::Queried(list) = answer(&case).unwrap() else {
            panic!("no answer of this kind");
        };
        found[list[0].refused.map_or(0, |v| v.0)] += 1;
        if list[0].refused.is_none() {
            alone += usize::from(case.whole[0] == case.whole[1]);
            nan += usize::from(list[0].cells.iter().any(|v| v.is_nan()));
            negative += usize::from(case.cells[2].is_sign_negative());
        }
    }
    for (number, count) in found.iter().enumerate() {
        assert_eq!(*count > 50, matches!(number, 0 | 19 | 24 | 29), "{found:?}");
    }
    assert!(alone > 50 && nan > 50 && negative > 20);
}

/// What the stored list has of return lanes: every answer, 29 by either set, and lanes with another set,
/// without one, and with cells that are no numbers.
#[test]
fn stored_return_lanes_reach_every_answer() {
    let mut found = [0; 30];
    let (mut collapsed, mut alone, mut nan) = ([0; 2], 0, 0);
    for case in stored(&["returned"]) {
        let Answer::Queried(list) = answer(&case).unwrap() else {
            panic!("no answer of this kind");
        };
        let number = list[0].refused.map_or(0, |v| v.0);
        found[number] += 1;
        let counts = case.whole[8..12].iter().map(|n| *n as usize);
        let counts: Vec<_> = counts.collect();
        let selected = &case.cells[2..][..counts[0]];
        let other = &case.cells[2 + counts[0] + counts[1]..][..counts[2]];
        for (i, breaks) in [selected, other].iter().enumerate() {
            let rises = breaks.windows(2).all(|v| 1. - v[1] < 1. - v[0]);
            collapsed[i] += usize::from(number == 29 && !rises);
        }
        if number == 0 {
            alone += usize::from(counts[2] == 0);
            nan += usize::from(list[0].cells.iter().any(|v| v.is_nan()));
        }
    }
    for (number, count) in found.iter().enumerate() {
        assert_eq!(*count > 2, matches!(number, 0 | 19 | 24 | 29), "{found:?}");
    }
    assert!(collapsed[0] > 0 && collapsed[1] > 0, "{collapsed:?}");
    assert!(alone > 2 && alone + 2 < found[0] && nan > 2);
}

/// Driven back twice, a lane has its breaks and widths again where 1 minus a break is exact, and whole
/// coefficients too.
#[test]
fn returned_twice() {
    let mut r = Random::new(85);
    let mut exact = 0;
    for _ in 0..1000 {
        let mut there = returns::returning(&mut r);
        there.lengths = there.curve.counts();
        let Ok(back) = there.lane() else {
            continue;
        };
        assert!(back.well_formed());
        let lane = &there.curve;
        let all_exact = |list: &[f64]| list.iter().all(|v| 1. - (1. - v) == *v);
        if !all_exact(&lane.breaks) || !all_exact(&lane.other_breaks) {
            continue;
        }
        exact += 1;
        let again = Returning {
            curve: back,
            lengths: there.lengths,
        };
        let again = again.lane().unwrap();
        let rows = lane.rows();
        assert_eq!(again.breaks, lane.breaks);
        assert_eq!(again.other_breaks, lane.other_breaks);
        assert!(same(
            &again.coefficients[rows..],
            &lane.coefficients[rows..]
        ));
        let whole = |v: &f64| v.abs() < 1e9 && v.fract() == 0.;
        if lane.coefficients[..rows].iter().all(whole) {
            assert_eq!(again.coefficients[..rows], lane.coefficients[..rows]);
        }
    }
    assert!(exact > 200, "{exact}");
}

/// A built curve's values at the mirrored parameters, to some digits.
#[test]
fn return_lane_of_a_built_curve() {
    let built = reach::build(&one_row(&[0., 3., -2., 1., 1.5, 7.])).unwrap();
    let curve = HandedCurve::from(built.curve);
    let there = Returning {
        lengths: curve.counts(),
        curve,
    };
    let (start, end) = (there.curve.start, there.curve.end);
    let values = |curve: &HandedCurve, x: f64| {
        let one = Queries {
            curve: curve.clone(),
            clamp: false,
            orders: [1; 4],
            lengths: [1, 1, 0, 0],
            parameters: vec![x],
        };
        one.single().cells
    };
    let back = there.lane().unwrap();
    for i in 0..=20 {
        let x = f64::from(i) / 20. * (end - start);
        let forth = values(&there.curve, start + x);
        let mirrored = values(&back, end - x);
        assert!((forth[0] - mirrored[0]).abs() < 1e-12, "{x}");
        assert!((forth[1] + mirrored[1]).abs() < 1e-9, "{x}");
    }
}

#[test]
fn odd_returned_cases_end() {
    odd_cases_end("returned");
}

/// Fowler, Noll and Vo's checksum, 1a, of 64 bits.
fn checksum(bytes: &[u8]) -> u64 {
    bytes.iter().fold(0xCBF2_9CE4_8422_2325, |sum, byte| {
        (sum ^ u64::from(*byte)).wrapping_mul(0x0100_0000_01B3)
    })
}

#[test]
fn generators_are_fixed_by_their_seed() {
    let requests = list::write(&requests(1, 200));
    assert_eq!(checksum(&requests), REQUESTS_1_200);
    let groups = list::write(&every_group(20));
    assert_eq!(checksum(&groups), GROUPS_1_20);
}

/// The source's `seed` never ends between two infinite coordinates, and `build` has none.
#[test]
fn seed_cases_are_finite() {
    for case in generate::group("seed", 60, 2000).unwrap() {
        assert!(case.cells.iter().all(|v| v.is_finite()));
    }
}

/// Recorded; a change of a generator changes them, and the stored list with them.
const REQUESTS_1_200: u64 = 0x1D20_11BE_0FC4_2712;
const GROUPS_1_20: u64 = 0xBF95_24D8_341F_2A81;

#[test]
fn refusal_14_prints_its_ratio() {
    let refused = Answer::Refused(Refusal {
        number: 14,
        ratio: Some(1.5),
    });
    assert_eq!(
        refused.line(Kind::Build),
        "build refused 14 3FF8000000000000"
    );
}

/// The 0.95 lane, as document 01 has it.
const LANE: &[u8] =
    b"\x01\x03\x14\x64\0\0\0\0\0\0\xF0\x3F\0\0\0\0\0\0\0\0ffffff\xEE\x3F\0\0\0\0\0\0\0\0";

#[test]
fn the_job_of_document_01() {
    assert_eq!(job::print(LANE), "accepted 1 0 0 0 4\n3FEE666666666666\n");
    assert_eq!(job::write([1, 3, 20, 100], 1., &[0., 0.95, 0.]), LANE);
}

#[test]
fn jobs_that_do_not_read() {
    let behind = |counts: &[u8]| job::print(&[counts, &LANE[4..]].concat());
    // a fourth group, padding, and a count that is cut off
    assert_eq!(behind(&[0x81, 0x80, 0x80, 1, 3, 20, 100]), "refused 25\n");
    assert_eq!(behind(&[0x81, 0, 3, 20, 100]), "refused 25\n");
    assert_eq!(job::print(&[1, 3, 20, 0x80]), "refused 25\n");
    // a count above its limit comes before numbers that are missing, and after counts that do not read
    assert_eq!(job::print(&[1, 0xFF, 0xFF, 0x7F, 20, 100]), "refused 18\n");
    assert_eq!(job::print(&[3, 3, 20, 0x80]), "refused 25\n");
    // short, and left over
    assert_eq!(job::print(&LANE[..LANE.len() - 1]), "refused 25\n");
    assert_eq!(job::print(&[LANE, &[0]].concat()), "refused 25\n");
    assert_eq!(job::print(&[]), "refused 25\n");
}
