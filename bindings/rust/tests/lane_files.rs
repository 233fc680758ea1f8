//! Lane files: what `to_lane_file` writes against document 02's words, put together here once more; what is read back, bit by
//! bit; what is refused; and the files stored in examples/lane_files.

use pamitoye::{Path, PathError, SmoothingConfig, Spacing, chord_parameters};

mod drawn;
mod file;

use drawn::*;
use file::{File, bits, groups};
use path::OutOfRangeMode;
use random::{Random, power_of_two};

/// Document 01's lane 0, 0.95, 0.
fn lane95() -> File {
    let zero_to_one = bits(&[0., 1.]);
    File {
        d: 1,
        k: 1,
        axes: vec![0],
        segments: 1,
        end: 1f64.to_bits(),
        breaks: zero_to_one,
        coefficients: bits(&[0.; 6]),
        ..File::default()
    }
}

/// Both sets, mode Clamp, the smoothed axes not in rising order: axis 2 is 4 u (1 - u), axis 0 is 8 u, and axis 1, which is
/// not smoothed, 1 + u - u^5.
fn two_sets() -> File {
    File {
        d: 3,
        k: 2,
        axes: vec![2, 0],
        mode: 1,
        segments: 2,
        other_segments: 1,
        start: (-1f64).to_bits(),
        end: 3f64.to_bits(),
        breaks: bits(&[0., 0.25, 1.]),
        coefficients: bits(&[
            0., 1., -0.25, 0., 0., 0., 0., 2., 0., 0., 0., 0., //
            0.75, 1.5, -2.25, 0., 0., 0., 2., 6., 0., 0., 0., 0.,
        ]),
        other_breaks: bits(&[0., 1.]),
        other_coefficients: bits(&[1., 1., 0., 0., 0., -1.]),
    }
}

/// Numbers that are not finite, and -0: NaNs with a quiet bit and without, with either sign and with other bits set, and the
/// infinities.
const ODD: [u64; 12] = [
    0x7FF8_0000_0000_0000,
    0xFFF8_0000_0000_0000,
    0x7FF0_0000_0000_0001,
    0xFFF0_0000_0000_0001,
    0x7FF7_FFFF_FFFF_FFFF,
    0x7FFC_0000_0000_0123,
    0xFFFF_FFFF_FFFF_FFFF,
    0x7FFF_FFFF_FFFF_FFFF,
    0xFFF4_0000_DEAD_BEEF,
    0x7FF0_0000_0000_0000,
    0xFFF0_0000_0000_0000,
    0x8000_0000_0000_0000,
];

/// The middle one of three segments of axis 0 has odd numbers for coefficients.
fn with_nans() -> File {
    let mut coefficients = bits(&[
        0., 1., 0., 0., 0., 0., 1., 0., 0., 0., 0., 0., 1., -1., 0., 0., 0., 0.,
    ]);
    let middle = [0, 2, 5, 8, 10, 11].map(|i| ODD[i]);
    coefficients[6..12].copy_from_slice(&middle);
    File {
        d: 2,
        k: 1,
        axes: vec![0],
        segments: 3,
        other_segments: 1,
        end: 4f64.to_bits(),
        breaks: bits(&[0., 0.25, 0.75, 1.]),
        coefficients,
        other_breaks: bits(&[0., 1.]),
        other_coefficients: bits(&[-0., 3., 0., -2., 0., 0.]),
        ..File::default()
    }
}

fn refused(bytes: &[u8]) -> Option<u64> {
    Path::from_lane_file(bytes)
        .err()
        .map(|error| error.number())
}

/// Every number of both paths, by its bits; the report and the rule of spacing are not in a lane file.
fn same_curve(a: &Path, b: &Path) -> bool {
    let cells = |path: &Path| {
        let (start, end) = path.s_range();
        [
            bits(&[start, end]),
            bits(path.breaks()),
            bits(path.coefficients()),
            bits(path.widths()),
            bits(path.other_breaks()),
            bits(path.other_coefficients()),
            bits(path.other_widths()),
        ]
    };
    a.dim() == b.dim()
        && a.smoothed_axes() == b.smoothed_axes()
        && a.out_of_range_mode() == b.out_of_range_mode()
        && cells(a) == cells(b)
}

/// Queries of both paths to the third derivative, one by one: values by their bits, refusals with their places.
fn same_queries(r: &mut Random, a: &Path, b: &Path) -> usize {
    let (start, end) = a.s_range();
    let mut xs: Vec<f64> = (0..10).map(|_| start + r.unit() * (end - start)).collect();
    let breaks = a.breaks().iter().chain(a.other_breaks());
    xs.extend(breaks.take(8).map(|b| start + b * (end - start)));
    xs.extend([start, end, start - 1., end.next_up(), f64::NAN]);
    let mut values = 0;
    for x in xs {
        match (a.evaluate_up_to_3rd(&[x]), b.evaluate_up_to_3rd(&[x])) {
            (Ok(a), Ok(b)) => {
                let lists = |v: pamitoye::PathDerivatives| {
                    let orders = [Some(v.q), v.dq, v.ddq, v.dddq];
                    orders.map(|order| bits(&order.unwrap()))
                };
                let (a, b) = (lists(a), lists(b));
                values += a.iter().map(Vec::len).sum::<usize>();
                assert_eq!(a, b);
            }
            (a, b) => assert_eq!(format!("{a:?}"), format!("{b:?}")),
        }
    }
    values
}

/// Writes a path, by the document's words too, reads it back, and writes that.
fn there_and_back(path: &Path) -> (Vec<u8>, Path) {
    let file = path.to_lane_file().unwrap();
    assert_eq!(file, File::of(path).bytes());
    let read = Path::from_lane_file(&file).unwrap();
    assert!(same_curve(path, &read));
    assert!(read.smoothing_report().is_none());
    assert_eq!(read.spacing(), Spacing::Even);
    assert_eq!(read.to_lane_file().as_ref(), Ok(&file));
    (file, read)
}

/// What was seen.
#[derive(Debug, Default)]
struct Seen {
    paths: usize,
    /// Paths by how many axes they have.
    axes: [usize; 17],
    others: usize,
    /// Smoothed axes that are not in rising order.
    unordered: usize,
    clamped: usize,
    /// Paths that differ from the one before.
    unequal: usize,
    /// Counts of segments in two groups.
    two_groups: usize,
    reversed: usize,
    values: usize,
    figures: usize,
}

#[test]
fn drawn_paths() {
    let (mut r, mut seen) = (Random::new(1), Seen::default());
    let mut before: Option<(Vec<u8>, Path)> = None;
    for _ in 0..4000 {
        let request = odd::request(&mut r);
        let build = || {
            let (shape, config) = ((request.d, request.n), request.config.clone().into());
            Path::from_waypoints_fitting(&request.points, shape, config)
        };
        let Ok(path) = build() else {
            continue;
        };
        let (file, read) = there_and_back(&path);
        if r.chance(10) {
            assert_eq!(build().unwrap().to_lane_file().as_ref(), Ok(&file));
        }
        if let Some((other_file, other)) = before.replace((file.clone(), path.clone())) {
            assert_eq!(other_file == file, same_curve(&other, &path));
            seen.unequal += usize::from(other_file != file);
        }
        seen.paths += 1;
        seen.axes[path.dim()] += 1;
        seen.others += usize::from(!path.other_breaks().is_empty());
        seen.unordered += usize::from(!path.smoothed_axes().is_sorted());
        seen.clamped += usize::from(path.out_of_range_mode() == OutOfRangeMode::Clamp);
        seen.two_groups += usize::from(path.widths().len() > 127);
        seen.values += same_queries(&mut r, &path, &read);
        let parameters = request.config.parameters.as_deref();
        for axis in path.smoothed_axes() {
            let depth = r.below(7);
            let figure = path.certify(*axis, depth, &request.points, parameters);
            let anew = read.certify(*axis, depth, &request.points, parameters);
            assert_eq!(figure, anew);
            seen.figures += usize::from(figure.is_ok_and(|figure| figure.is_some()));
        }
        match (path.reversed(), read.reversed()) {
            (Ok(back), Ok(read_back)) => {
                let (file_back, read_again) = there_and_back(&back);
                assert!(same_curve(&back, &read_back) && same_curve(&back, &read_again));
                assert_eq!(file_back == file, same_curve(&back, &path));
                seen.values += same_queries(&mut r, &back, &read_again);
                seen.reversed += 1;
            }
            (out, read) => assert_eq!(out.err(), read.err()),
        }
    }
    println!("{seen:?}");
    assert!(seen.paths > 1500 && seen.others > 200 && seen.unordered > 100);
    assert!(seen.clamped > 500 && seen.two_groups > 20 && seen.reversed > 1500);
    assert!(seen.axes[1..].iter().all(|count| *count > 0));
    assert!(seen.values > 100_000 && seen.figures > 2000 && seen.unequal > 1000);
}

/// A path by chords is certified as before once it was read, where its parameters are listed.
#[test]
fn chords_are_listed() {
    let points = [0., 0., 3., 4., 3., 0., 10., 0.];
    let config = SmoothingConfig {
        tolerance: 0.5.into(),
        spacing: Spacing::Chord,
        ..Default::default()
    };
    let path = Path::from_waypoints_fitting(&points, (2, 4), config).unwrap();
    let (_, read) = there_and_back(&path);
    let list = chord_parameters(&points, 2);
    for axis in [0, 1] {
        let figure = path.certify(axis, 2, &points, None).unwrap();
        assert!(figure.is_some_and(|figure| figure < 0.51));
        assert_eq!(read.certify(axis, 2, &points, Some(&list)), Ok(figure));
        let even = read.certify(axis, 2, &points, None);
        assert!(even.is_ok_and(|even| even > figure));
    }
}

/// Counts of one, two and three groups, up to the largest curve's, in both sets.
#[test]
fn counts_of_all_sizes() {
    for segments in [1, 2, 127, 128, 129, 16_383, 16_384, 20_000] {
        for (d, k) in [(1, 1), (2, 1), (16, 15), (16, 16)] {
            let others = if k < d { segments } else { 0 };
            let file = File::even(d, k, segments, others);
            let bytes = file.bytes();
            let path = Path::from_lane_file(&bytes).unwrap();
            assert_eq!(path.widths().len(), segments);
            assert_eq!(path.other_widths().len(), others);
            assert_eq!(path.to_lane_file(), Ok(bytes));
        }
    }
    for (segments, others) in [(1, 20_000), (20_000, 1), (200, 17_000)] {
        let bytes = File::even(3, 2, segments, others).bytes();
        assert_eq!(
            Path::from_lane_file(&bytes).unwrap().to_lane_file(),
            Ok(bytes)
        );
    }
    assert_eq!(groups(128), [128, 1]);
    assert_eq!(groups(20_000), [160, 156, 1]);
}

/// Any bits for coefficients, NaNs too, travel unchanged: read, kept, copied and written.
#[test]
fn odd_coefficients() {
    let mut r = Random::new(27);
    for round in 0..2000 {
        let (d, segments) = (r.between(1, 4), r.between(1, 5));
        let k = r.between(1, d);
        let others = if k < d { r.between(1, 5) } else { 0 };
        let mut file = File::even(d, k, segments, others);
        let cells = file.coefficients.iter_mut();
        for cell in cells.chain(&mut file.other_coefficients) {
            *cell = match round % 3 {
                0 => r.pick(&ODD),
                1 => r.next(),
                _ => r.next() | 0x7FF0_0000_0000_0000,
            };
        }
        let bytes = file.bytes();
        let path = Path::from_lane_file(&bytes).unwrap();
        assert_eq!(bits(path.coefficients()), file.coefficients);
        assert_eq!(bits(path.other_coefficients()), file.other_coefficients);
        assert_eq!(path.to_lane_file().as_ref(), Ok(&bytes));
        assert_eq!(path.clone().to_lane_file(), Ok(bytes));
        let at = path.evaluate_up_to_3rd(&[-2., 1., 6.]).unwrap();
        assert_eq!(at.q.len(), 3 * d);
        if round % 3 == 2 {
            assert!(at.q.iter().all(|x| !x.is_finite()));
            let points = vec![0.; 2 * d];
            assert_eq!(path.certify(0, 1, &points, Some(&[-2., 6.])), Ok(None));
        }
    }
}

/// One coefficient that is not finite is enough: no value of its segment is, and every other value is.
#[test]
fn one_odd_coefficient() {
    for odd in ODD.into_iter().filter(|x| !f64::from_bits(*x).is_finite()) {
        for power in 0..6 {
            let file = two_sets().with(|f| f.coefficients[12 + power] = odd);
            let path = Path::from_lane_file(&file.bytes()).unwrap();
            // Axis 2 on its second segment, from parameter 0 to 3.
            for x in [0., 1., 2.5, 3., 9.] {
                let q = path.evaluate_q(&[x]).unwrap().q;
                assert!(!q[2].is_finite() && q[0].is_finite() && q[1].is_finite());
            }
            let before = path.evaluate_q(&[-1., -0.5]).unwrap().q;
            assert!(before.iter().all(|x| x.is_finite()));
        }
    }
}

/// -0 is not +0: in coefficients, in the range, and as the first break, which is 0 either way.
#[test]
fn both_zeros() {
    let minus = (-0f64).to_bits();
    for file in [
        lane95().with(|f| f.coefficients[3] = minus),
        lane95().with(|f| f.start = minus),
        lane95().with(|f| (f.start, f.end) = ((-1f64).to_bits(), minus)),
        lane95().with(|f| f.breaks[0] = minus),
        two_sets().with(|f| f.other_breaks[0] = minus),
    ] {
        let path = Path::from_lane_file(&file.bytes()).unwrap();
        assert_eq!(File::of(&path).bytes(), file.bytes());
        assert_eq!(path.to_lane_file(), Ok(file.bytes()));
    }
}

/// 27 for bytes missing or left over, at every length.
#[test]
fn cut_off_or_left_over() {
    for file in [lane95(), two_sets(), with_nans()] {
        let bytes = file.bytes();
        assert_eq!(refused(&bytes), None);
        for length in 0..bytes.len() {
            assert_eq!(refused(&bytes[..length]), Some(27), "{length}");
        }
        for more in [&[0][..], &[255], &[0; 8], &bytes] {
            assert_eq!(refused(&[&bytes, more].concat()), Some(27));
        }
    }
}

/// 27 for a whole number that is not in the shortest groups, or in more than three.
#[test]
fn groups_that_do_not_read() {
    for file in [lane95(), two_sets(), File::even(3, 2, 200, 16_384)] {
        let counts = file.counts();
        for place in 0..counts.len() {
            let with = |spelled: &[u8]| {
                let all = counts.iter().enumerate();
                let head = all.flat_map(|(i, count)| match i == place {
                    true => spelled.to_vec(),
                    false => groups(*count),
                });
                head.chain(file.numbers()).collect::<Vec<u8>>()
            };
            let shortest = groups(counts[place]);
            assert_eq!(refused(&with(&shortest)), None);
            let (last, before) = shortest.split_last().unwrap();
            let open = [before, &[last | 128]].concat();
            for more in [&[0][..], &[128, 0], &[128, 128, 0]] {
                assert_eq!(refused(&with(&[&open[..], more].concat())), Some(27));
            }
        }
    }
    // Four groups where nothing else is wrong with the groups, beside three.
    assert_eq!([2_097_151, 2_097_152].map(|n| groups(n).len()), [3, 4]);
    for (large, wanted) in [(2_097_151, 24), (2_097_152, 27)] {
        let axes = two_sets().with(|f| f.axes[1] = large);
        assert_eq!(refused(&axes.bytes()), Some(wanted));
        let d = File::even(large, 1, 1, 0);
        assert_eq!(refused(&d.bytes()), Some(wanted));
    }
}

/// 27 for a mode above 1 and a k above d, whatever else there is.
#[test]
fn mode_and_k() {
    for mode in [2, 3, 127, 128, 16_384, 2_097_151] {
        assert_eq!(refused(&lane95().with(|f| f.mode = mode).bytes()), Some(27));
    }
    for k in [2, 3, 16, 17, 127, 128] {
        let file = lane95().with(|f| {
            f.k = k;
            f.axes = (0..k).collect();
            f.coefficients = vec![0; 6 * k];
        });
        assert_eq!(refused(&file.bytes()), Some(27), "{k}");
    }
    // 27 comes before 24.
    let both = lane95().with(|f| (f.mode, f.end) = (2, f.start));
    assert_eq!(refused(&both.bytes()), Some(27));
}

/// 24 for what reads, but is no well-formed curve.
#[test]
fn not_well_formed() {
    let number = f64::to_bits;
    let even = File::even;
    let axes = |list: &[usize]| two_sets().with(|f| f.axes = list.to_vec());
    let breaks = |list: &[f64]| two_sets().with(|f| f.breaks = bits(list));
    let range = |start: f64, end: f64| {
        lane95().with(|f| (f.start, f.end) = (start.to_bits(), end.to_bits()))
    };
    for (what, file) in [
        ("d 17", even(17, 17, 1, 0)),
        ("d 17, k 1", even(17, 1, 1, 1)),
        ("d 200", even(200, 200, 1, 0)),
        ("d 0", even(0, 0, 0, 0)),
        ("k 0", even(1, 0, 0, 1)),
        ("k 0 with segments of no axis", even(1, 0, 1, 1)),
        ("a repeated axis", axes(&[2, 2])),
        ("axis 3 of 3", axes(&[3, 0])),
        ("a large axis", axes(&[2, 2_097_151])),
        ("no segments", even(1, 1, 0, 0)),
        ("no segments beside others", even(2, 1, 0, 1)),
        ("20,001 segments", even(1, 1, 20_001, 0)),
        ("20,001 other segments", even(2, 1, 1, 20_001)),
        ("no other segments", even(2, 1, 1, 0)),
        ("other segments of no axis", even(1, 1, 1, 1)),
        ("equal breaks", breaks(&[0., 0., 1.])),
        ("the same at the end", breaks(&[0., 1., 1.])),
        ("breaks that fall", breaks(&[0., 1.5, 1.])),
        ("a break below 0", breaks(&[0., -0.25, 1.])),
        ("a break that is a NaN", breaks(&[0., f64::NAN, 1.])),
        ("a first break above 0", breaks(&[0.125, 0.25, 1.])),
        ("a first break that is a NaN", breaks(&[f64::NAN, 0.25, 1.])),
        ("a last break below 1", breaks(&[0., 0.25, 0.75])),
        ("a last break above 1", breaks(&[0., 0.25, 1f64.next_up()])),
        (
            "other breaks that do not rise",
            two_sets().with(|f| f.other_breaks = bits(&[0., -1.])),
        ),
        ("start at the end", range(1., 1.)),
        ("start above the end", range(1., 0.)),
        ("-0 to +0", range(-0., 0.)),
        ("start is a NaN", range(f64::NAN, 1.)),
        ("end is a NaN", range(0., f64::NAN)),
        ("an infinite start", range(f64::NEG_INFINITY, 1.)),
        ("an infinite end", range(0., f64::INFINITY)),
        ("an infinite range", range(-1e308, 1e308)),
        (
            "an odd NaN for the start",
            lane95().with(|f| f.start = 0x7FF0_0000_0000_0001),
        ),
        (
            "breaks that do not rise beside NaNs",
            with_nans().with(|f| f.breaks[1] = number(0.75)),
        ),
    ] {
        let bytes = file.bytes();
        assert_eq!(refused(&bytes), Some(24), "{what}");
        assert_eq!(refused(&bytes[..bytes.len() - 1]), Some(27), "{what}");
    }
    let refusal = Path::from_lane_file(&range(1., 0.).bytes()).unwrap_err();
    assert_eq!(refusal, PathError::Malformed);
    assert!(refusal.to_string().contains("range"));
    assert_eq!(refused(&range(-8e307, 8e307).bytes()), None);
}

/// Equal curves have equal files, unequal ones unequal files: every bit of a file turned gives another curve or none.
#[test]
fn every_bit_counts() {
    for file in [lane95(), two_sets(), with_nans(), File::even(2, 2, 130, 0)] {
        let bytes = file.bytes();
        let path = Path::from_lane_file(&bytes).unwrap();
        assert_eq!(path.clone().to_lane_file().as_ref(), Ok(&bytes));
        let mut other = 0;
        for place in 0..bytes.len() * 8 {
            let mut turned = bytes.clone();
            turned[place / 8] ^= 1 << (place % 8);
            match Path::from_lane_file(&turned) {
                Ok(read) => {
                    assert!(!same_curve(&read, &path));
                    assert_eq!(read.to_lane_file(), Ok(turned));
                    other += 1;
                }
                Err(error) => assert!(matches!(error.number(), 24 | 27)),
            }
        }
        // Those of coefficients and of the mode at least.
        assert!(other > 64 * (file.coefficients.len() + file.other_coefficients.len()));
    }
}

/// Any bytes are read or refused, and what is read is written as it was.
#[test]
fn no_bytes_panic() {
    let mut r = Random::new(24);
    let (mut read, mut malformed, mut none) = (0, 0, 0);
    for _ in 0..60_000 {
        let (d, k) = (r.below(4), r.below(4));
        let (segments, others) = (r.below(3), r.below(3));
        let mut file = File::even(d, k, segments, others);
        let mut bytes = match r.below(4) {
            0 => (0..r.below(120)).map(|_| r.next() as u8).collect(),
            1 => {
                let slices = [&mut file.breaks, &mut file.other_breaks];
                if let Some(cell) = slices.into_iter().flatten().next() {
                    *cell = r.float().to_bits();
                }
                file.bytes()
            }
            2 => file
                .with(|f| (f.start, f.end) = (0, power_of_two(-1074).to_bits()))
                .bytes(),
            _ => file.bytes(),
        };
        if r.chance(20) && !bytes.is_empty() {
            let place = r.below(bytes.len());
            bytes[place] = r.next() as u8;
        }
        match Path::from_lane_file(&bytes) {
            Ok(path) => {
                assert_eq!(path.to_lane_file(), Ok(bytes));
                read += 1;
            }
            Err(PathError::Malformed) => malformed += 1,
            Err(error) => {
                assert_eq!(error, PathError::DoesNotRead);
                none += 1;
            }
        }
    }
    println!("{read} read, {malformed} not well formed, {none} no lane file");
    assert!(read > 1000 && malformed > 10_000 && none > 10_000);
}

/// The files in examples/lane_files are these, and are read or refused as the texts beside them say.
#[test]
fn stored_files() {
    let bytes = lane95().bytes();
    assert_eq!(bytes.len(), 86);
    let (first, rest) = bytes.split_first().unwrap();
    for (name, stored, wanted) in [
        ("lane95", bytes.clone(), None),
        ("two_sets", two_sets().bytes(), None),
        ("with_nans", with_nans().bytes(), None),
        ("short", bytes[..85].to_vec(), Some(27)),
        ("left_over", [&bytes[..], &[0]].concat(), Some(27)),
        ("padded", [&[first | 128, 0], rest].concat(), Some(27)),
        (
            "four_groups",
            [&groups(2_097_152)[..], rest].concat(),
            Some(27),
        ),
        ("mode_2", lane95().with(|f| f.mode = 2).bytes(), Some(27)),
        (
            "k_above_d",
            lane95()
                .with(|f| (f.k, f.axes, f.coefficients) = (2, vec![0, 1], vec![0; 12]))
                .bytes(),
            Some(27),
        ),
        ("d_17", File::even(17, 17, 1, 0).bytes(), Some(24)),
        (
            "not_rising",
            lane95()
                .with(|f| {
                    (f.segments, f.breaks) = (2, bits(&[0., 1., 1.]));
                    f.coefficients = vec![0; 12];
                })
                .bytes(),
            Some(24),
        ),
    ] {
        let folder = concat!(env!("CARGO_MANIFEST_DIR"), "/../../examples/lane_files");
        let file = std::fs::read(format!("{folder}/{name}.lane")).unwrap();
        assert_eq!(file, stored, "{name}");
        assert_eq!(refused(&file), wanted, "{name}");
    }
}
