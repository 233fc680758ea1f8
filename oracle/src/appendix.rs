/// Appended to the source file by the build script. A child module sees its parent's
/// private items; it hands plain numbers in and out and never edits the text above.
pub(crate) mod reach {
    use super::*;
    use crate::case::{Case, Curve, Pieces, Row};
    use crate::request::Request;

    /// What an accepted request returns.
    #[derive(Debug)]
    pub(crate) struct Built {
        /// Segments, interpolated segments, refinements, fitting rows, checked intervals.
        pub(crate) counts: [usize; 5],
        pub(crate) max_errors: Vec<f64>,
        pub(crate) curve: Curve,
    }

    impl From<Polynomial> for Pieces {
        fn from(p: Polynomial) -> Self {
            Self {
                breaks: p.breaks,
                coefficients: p.coefficients.concat(),
            }
        }
    }

    impl Polynomial {
        fn from_pieces(p: &Pieces, d: usize) -> Self {
            Self {
                breaks: p.breaks.clone(),
                coefficients: p.coefficients.as_chunks().0.to_vec(),
                d,
            }
        }
    }

    fn spline(d: usize, t: &[f64], c: &[f64]) -> BSpline {
        BSpline {
            t: t.to_vec(),
            c: c.to_vec(),
            d,
        }
    }

    /// A spline of one axis, for what depends on the knots alone.
    fn knots(t: &[f64]) -> BSpline {
        spline(1, t, &vec![0.; t.len() - 6])
    }

    pub(crate) fn span(t: &[f64], x: f64) -> usize {
        knots(t).span(x)
    }

    pub(crate) fn values(t: &[f64], x: f64) -> (usize, [f64; 6]) {
        knots(t).values(x)
    }

    pub(crate) fn powers(t: &[f64], span: usize, x: f64) -> [[f64; 6]; 6] {
        knots(t).powers(span, x)
    }

    pub(crate) fn insert(d: usize, x: f64, t: &[f64], c: &[f64]) -> (Vec<f64>, Vec<f64>) {
        let mut b = spline(d, t, c);
        b.insert(x);
        (b.t, b.c)
    }

    pub(crate) fn polynomial(d: usize, t: &[f64], c: &[f64]) -> Pieces {
        spline(d, t, c).polynomial().into()
    }

    pub(crate) fn normal(
        d: usize,
        (a, z): (usize, usize),
        c: &[f64],
        rows: &[Row],
    ) -> Result<Vec<f64>, PathError> {
        let mut system = Normal::new(a, z, d);
        for row in rows {
            system.add(row.start, &row.basis, &row.target, row.weight, c);
        }
        system.solve()
    }

    /// First, last and rows, then the controls after.
    pub(crate) fn fit(
        d: usize,
        (a, z): (usize, usize),
        strength: f64,
        t: &[f64],
        c: &[f64],
        s: &[f64],
        y: &[f64],
    ) -> Result<([usize; 3], Vec<f64>), PathError> {
        let mut b = spline(d, t, c);
        let (first, last, rows) = super::fit(&mut b, s, y, a, z, strength)?;
        Ok(([first, last, rows], b.c))
    }

    pub(crate) fn audit(
        d: usize,
        (first, last): (usize, usize),
        p: &Pieces,
        s: &[f64],
        y: &[f64],
        bounds: &mut [f64],
        witness: &mut [f64],
    ) -> Result<(), PathError> {
        let p = Polynomial::from_pieces(p, d);
        super::audit(&p, s, y, first, last, bounds, witness)
    }

    pub(crate) fn seed(d: usize, s: &[f64], y: &[f64]) -> Vec<f64> {
        super::seed(s, y, d)
    }

    pub(crate) fn regions(t: &[f64], x: &[f64]) -> Vec<(usize, usize)> {
        super::regions(&knots(t), x)
    }

    /// The windows of a case of kind `regions`.
    pub(crate) fn regions_of(case: &Case) -> Vec<(usize, usize)> {
        let (t, x) = case.cells.split_at(case.whole[0] as usize);
        regions(t, x)
    }

    pub(crate) fn build(request: &Request) -> Result<Built, PathError> {
        let points = DMatrixView::from_slice(&request.points, request.d, request.n);
        let built = SmoothedSpline::build(points, &request.source_config())?;
        let report = built.report;
        Ok(Built {
            counts: [
                report.segments,
                report.interpolated_segments,
                report.refinements,
                report.fitting_rows,
                report.checked_intervals,
            ],
            max_errors: report.max_errors,
            curve: Curve {
                d: request.d,
                axes: built.axes,
                start: built.start,
                end: built.end,
                selected: built.selected.into(),
                other: built.unchanged.map(Pieces::from),
            },
        })
    }

    /// For each query d values, then d first, second and third derivatives.
    pub(crate) fn evaluate(curve: &Curve, queries: &[f64]) -> Vec<f64> {
        let d = curve.d;
        let other: Vec<_> = (0..d).filter(|a| !curve.axes.contains(a)).collect();
        let smoothed = SmoothedSpline {
            selected: Polynomial::from_pieces(&curve.selected, curve.axes.len()),
            unchanged: curve
                .other
                .as_ref()
                .map(|p| Polynomial::from_pieces(p, other.len())),
            axes: curve.axes.clone(),
            other,
            start: curve.start,
            end: curve.end,
            report: SmoothingReport {
                axes: Vec::new(),
                segments: 0,
                interpolated_segments: 0,
                refinements: 0,
                fitting_rows: 0,
                checked_intervals: 0,
                max_errors: Vec::new(),
            },
        };
        let mut out = vec![0.; 4 * d * queries.len()];
        for (x, part) in queries.iter().zip(out.chunks_exact_mut(4 * d)) {
            let (q, part) = part.split_at_mut(d);
            let (dq, part) = part.split_at_mut(d);
            let (ddq, dddq) = part.split_at_mut(d);
            smoothed.evaluate(*x, q, Some(dq), Some(ddq), Some(dddq));
        }
        out
    }

    /// `build`'s course of work after its checks 1 to 7, with the state before each
    /// step handed to `seen` as a case. Returns the counts and the selected pieces.
    pub(crate) fn trace(
        request: &Request,
        seen: &mut dyn FnMut(Case),
    ) -> Result<([usize; 5], Pieces), PathError> {
        let (d, n, points) = (request.d, request.n, &request.points);
        let cfg = &request.source_config();
        let axes = cfg.axes.clone().unwrap_or_else(|| (0..d).collect());
        let k = axes.len();
        let eps = match &cfg.tolerance {
            SmoothingTolerance::Uniform(x) => vec![*x; k],
            SmoothingTolerance::PerAxis(v) => v.clone(),
        };
        let s = normalised(cfg, n);
        let gathered: Vec<_> = (0..n * k)
            .map(|i| points[i / k * d + axes[i % k]])
            .collect();
        let mut y: Vec<_> = (0..n * k)
            .map(|i| (gathered[i] - gathered[i % k]) / eps[i % k])
            .collect();

        let linear = (0..n)
            .all(|i| (0..k).all(|a| (y[i * k + a] - s[i] * y[(n - 1) * k + a]).abs() <= 0.95));
        seen(Case::seed(k, &s, &y));
        let knots = if linear {
            Vec::new()
        } else {
            super::seed(&s, &y, k)
        };
        if knots.len() + 1 > cfg.max_segments {
            return Err(fail("initial segment budget exceeded"));
        }
        let mut t = vec![0.; 6];
        t.extend(knots);
        t.extend([1.; 6]);
        let mut c = vec![0.; (t.len() - 6) * k];
        for i in 0..t.len() - 6 {
            let u = t[i + 1..i + 6].iter().sum::<f64>() / 5.;
            for a in 0..k {
                c[i * k + a] = u * y[(n - 1) * k + a];
            }
        }
        let mut b = BSpline { t, c, d: k };
        let (mut refinements, mut fitting_rows, mut checked) = (0, 0, 0);
        if !linear {
            let window = (1, b.m() - 1);
            fitting_rows += seen_fit(&mut b, &s, &y, window, 0.001, seen)?.2;
        }
        let mut bounds = vec![0.; (n - 1) * k];
        let mut witness = vec![0.; n - 1];
        checked += seen_audit(&b, &s, &y, (0, n - 1), &mut bounds, &mut witness, seen)?;
        loop {
            let worst = bounds.iter().copied().fold(0., f64::max);
            if worst <= 0.99 {
                break;
            }
            if refinements >= cfg.max_refinements {
                return Err(fail(format!(
                    "refinement limit reached; error/tolerance={worst}"
                )));
            }
            let mut locations = Vec::new();
            for i in 0..n - 1 {
                if bounds[i * k..(i + 1) * k].iter().any(|v| *v > 0.9) {
                    let span = b.span(witness[i]);
                    locations.push((b.t[span] + b.t[span + 1]) / 2.);
                }
            }
            seen(Case::cells(crate::case::Kind::SortDedup, &locations));
            locations.sort_by(f64::total_cmp);
            locations.dedup();
            if b.m() - 5 + locations.len() > cfg.max_segments {
                return Err(fail("refinement segment budget exceeded"));
            }
            for &x in &locations {
                let span = b.span(x);
                if x <= b.t[span] || x >= b.t[span + 1] {
                    return Err(fail("parameter resolution exhausted"));
                }
                seen(Case::insert(k, x, &b.t, &b.c));
                b.insert(x);
            }
            refinements += 1;
            seen(Case::regions(&b.t, &locations));
            for window in super::regions(&b, &locations) {
                let strength = 0.001 * 0.25f64.powi(refinements as i32);
                let (first, last, rows) = seen_fit(&mut b, &s, &y, window, strength, seen)?;
                fitting_rows += rows;
                let part = (first.saturating_sub(1), last.min(n - 1));
                checked += seen_audit(&b, &s, &y, part, &mut bounds, &mut witness, seen)?;
            }
        }
        for (i, v) in b.c.iter_mut().enumerate() {
            *v = *v * eps[i % k] + gathered[i % k];
        }
        y = gathered;
        checked += seen_audit(&b, &s, &y, (0, n - 1), &mut bounds, &mut witness, seen)?;
        for a in 0..k {
            let error = (0..n - 1).map(|i| bounds[i * k + a]).fold(0., f64::max);
            if error > eps[a] {
                return Err(fail("final physical-unit interval audit failed"));
            }
        }
        let other: Vec<_> = (0..d).filter(|a| !axes.contains(a)).collect();
        let mut interpolated_segments = 0;
        if !other.is_empty() {
            seen(interpolation(request, &s, &other));
            let view = DMatrixView::from_slice(points, d, n);
            interpolated_segments = interpolate(view, &s, &other)?.segments();
        }
        let selected = b.polynomial();
        let counts = [
            selected.segments(),
            interpolated_segments,
            refinements,
            fitting_rows,
            checked,
        ];
        Ok((counts, selected.into()))
    }

    fn seen_fit(
        b: &mut BSpline,
        s: &[f64],
        y: &[f64],
        (a, z): (usize, usize),
        strength: f64,
        seen: &mut dyn FnMut(Case),
    ) -> Result<(usize, usize, usize), PathError> {
        seen(Case::fit(b.d, (a, z), strength, &b.t, &b.c, s, y));
        super::fit(b, s, y, a, z, strength)
    }

    /// Audits and returns how many intervals were checked.
    fn seen_audit(
        b: &BSpline,
        s: &[f64],
        y: &[f64],
        part: (usize, usize),
        bounds: &mut [f64],
        witness: &mut [f64],
        seen: &mut dyn FnMut(Case),
    ) -> Result<usize, PathError> {
        seen(Case::polynomial(b.d, &b.t, &b.c));
        let p = Pieces::from(b.polynomial());
        seen(Case::audit(b.d, part, &p, s, y, bounds, witness));
        super::audit(&b.polynomial(), s, y, part.0, part.1, bounds, witness)?;
        Ok(part.1 - part.0)
    }

    /// The parameters of a request mapped to 0 to 1.
    fn normalised(cfg: &SmoothingConfig, n: usize) -> Vec<f64> {
        let parameters = cfg
            .parameters
            .clone()
            .unwrap_or_else(|| (0..n).map(|i| i as f64 / (n - 1) as f64).collect());
        let start = parameters[0];
        let length = parameters[n - 1] - start;
        parameters.iter().map(|v| (v - start) / length).collect()
    }

    /// The normal system that `interpolate` makes for the axes not selected.
    fn interpolation(request: &Request, s: &[f64], axes: &[usize]) -> Case {
        let (d, n) = (axes.len(), s.len());
        let t = [&[0.; 6], &s[1..n - 1], &[1.; 6]].concat();
        let b = knots(&t);
        let mut rows = Vec::new();
        for (i, x) in s.iter().enumerate() {
            let (start, basis) = b.values(*x);
            let target = axes.iter().map(|a| request.points[i * request.d + a]);
            rows.push(Row {
                start,
                basis,
                weight: 1.,
                target: target.collect(),
            });
        }
        for (x, h) in [(0., s[1] - s[0]), (1., s[n - 1] - s[n - 2])] {
            let span = b.span(x);
            let power = b.powers(span, x);
            for r in 1..=2 {
                rows.push(Row {
                    start: span - P,
                    basis: std::array::from_fn(|i| power[i][r] * FACT[r] * h.powi(r as i32)),
                    weight: 1.,
                    target: vec![0.; d],
                });
            }
        }
        Case::normal(d, 0, b.m(), &vec![0.; b.m() * d], &rows)
    }
}
