//! What is refused, with its number and its words.

use crate::ffi;
use std::fmt;

/// Why a request, a query or a lane file was turned away. Each case has the number that the library gives it, see
/// [`number`](PathError::number).
///
/// copp has one case for every failed construction, with a text. Here each reason is a case of its own;
/// [`OutOfRangeS`](PathError::OutOfRangeS) has copp's name and fields.
#[derive(Clone, Copy, Debug, PartialEq)]
#[non_exhaustive]
pub enum PathError {
    /// 1: no axis, fewer than two waypoints, or a coordinate that is not finite.
    BadPoints,
    /// 2: axes are listed, and the list is empty.
    NoAxes,
    /// 3: a listed axis is repeated, or there is no such axis.
    BadAxes,
    /// 3, when certifying: the axis is not one of the smoothed axes.
    NotSelected,
    /// 3, of heights: there is no such axis.
    NoSuchAxis,
    /// 4: not one tolerance for each smoothed axis, or one that is not finite and above 0.
    BadTolerance,
    /// 5: parameters of a wrong count, not finite or not strictly rising.
    BadParameters,
    /// 5, of parameters by chord length ([`Spacing::Chord`](crate::Spacing::Chord)): two neighbouring waypoints are at the
    /// same place, or their distance is infinite, rounds to 0 (differences below about 1.5e-162) or is lost in the sum
    /// of those before. One of the two left out helps, or listed parameters.
    BadChords,
    /// 6: the parameters' range is not finite, or they no longer rise once they are normalised.
    BadRange,
    /// 7: a coordinate's distance from the first one, over its tolerance, is not finite.
    Overflow,
    /// 8: the first knots already need more than `max_segments` segments.
    InitialSegments,
    /// 9: a diagonal's root in the band system is not finite or not above 0.
    BadDiagonal,
    /// 10: a pivot in the band system is not finite or not above 0.
    BadPivot,
    /// 11: a solution of the band system is not finite.
    BadSolution,
    /// 12: in the audit the right end of a piece is not above its left one. No request ends so.
    NotAbove,
    /// 13: an error bound is not finite.
    NotFinite,
    /// 14: `max_refinements` rounds were not enough.
    RefinementsUsedUp {
        /// The worst ratio of error to tolerance that was left.
        ratio: f64,
    },
    /// 15: the next round needs more than `max_segments` segments.
    SegmentsUsedUp,
    /// 16: the middle of a segment is not strictly inside it.
    BadMidpoint,
    /// 17: the final error is above the tolerance.
    ErrorAboveTolerance,
    /// 18: more axes, waypoints, segments or refinements than the library takes.
    AboveDomain,
    /// 19: a result slice is too short, or there is no memory for one.
    ShortSlice,
    /// 20: the count of coordinates differs from axes times waypoints.
    PointCells,
    /// 26: a smoothed coordinate exceeds its tolerance times 2^48. Coordinates from which an offset is subtracted
    /// help, or a larger tolerance.
    ToleranceTooFine,
    /// 22: a parameter is outside the range in mode `Error`, or a NaN in any mode.
    OutOfRangeS {
        /// The lower end of the range.
        s_min: f64,
        /// The upper end of the range.
        s_max: f64,
        /// The place of the first refused parameter.
        index: usize,
        /// That parameter.
        value: f64,
    },
    /// 23: a derivative above the third is asked for.
    OrderAboveThree,
    /// 23, when certifying: the depth is above 6.
    DepthAboveSix,
    /// 24: the curve is not well formed. A path's curve always is: this is met where a lane file is read that is whole, but
    /// whose counts, axes, breaks or range are not those of a curve. The library writes no such file; one written anew helps.
    Malformed,
    /// 27, when a lane file is read: the bytes are none. They are cut off, too long, damaged, or something else; the file
    /// copied again helps, or written anew.
    DoesNotRead,
    /// 28, of heights: a Bernstein control of the axis, times 100, is not finite or beyond 2,000,000 in size. With coordinates
    /// in millimetres that is 20 m, the most that the valve takes. An offset that is subtracted from that coordinate helps.
    HeightTooLarge,
    /// 29, when a path is reversed: its breaks do not rise strictly once each is taken from 1, since two of them in the
    /// first half are no further apart than 2^-53 of the range. Parameters that are further apart there help, or one
    /// waypoint of the two left out.
    NotRising,
    /// A number that this crate does not know: the archive is of another version.
    Unknown(u64),
}

impl PathError {
    /// The refusal's number.
    pub fn number(&self) -> u64 {
        match *self {
            Self::BadPoints => 1,
            Self::NoAxes => 2,
            Self::BadAxes | Self::NotSelected | Self::NoSuchAxis => 3,
            Self::BadTolerance => 4,
            Self::BadParameters | Self::BadChords => 5,
            Self::BadRange => 6,
            Self::Overflow => 7,
            Self::InitialSegments => 8,
            Self::BadDiagonal => 9,
            Self::BadPivot => 10,
            Self::BadSolution => 11,
            Self::NotAbove => 12,
            Self::NotFinite => 13,
            Self::RefinementsUsedUp { .. } => 14,
            Self::SegmentsUsedUp => 15,
            Self::BadMidpoint => 16,
            Self::ErrorAboveTolerance => 17,
            Self::AboveDomain => 18,
            Self::ShortSlice => 19,
            Self::PointCells => 20,
            Self::ToleranceTooFine => 26,
            Self::OutOfRangeS { .. } => 22,
            Self::OrderAboveThree | Self::DepthAboveSix => 23,
            Self::Malformed => 24,
            Self::DoesNotRead => 27,
            Self::HeightTooLarge => 28,
            Self::NotRising => 29,
            Self::Unknown(number) => number,
        }
    }

    /// Whether the same request with a higher limit may get another answer: for 8 and 15 with more `max_segments`, for
    /// 14 with more `max_refinements`. No other refusal changes, as is proved (docs/CLAIMS.md, "Two calls").
    pub fn higher_limit_may_help(&self) -> bool {
        matches!(
            self,
            Self::InitialSegments | Self::SegmentsUsedUp | Self::RefinementsUsedUp { .. }
        )
    }

    /// The refusal of a request with this number. `ratio` is looked at for 14 alone.
    pub(crate) fn of_request(number: u64, ratio: f64) -> Self {
        match number {
            1 => Self::BadPoints,
            2 => Self::NoAxes,
            3 => Self::BadAxes,
            4 => Self::BadTolerance,
            5 => Self::BadParameters,
            6 => Self::BadRange,
            7 => Self::Overflow,
            8 => Self::InitialSegments,
            9 => Self::BadDiagonal,
            10 => Self::BadPivot,
            11 => Self::BadSolution,
            12 => Self::NotAbove,
            13 => Self::NotFinite,
            14 => Self::RefinementsUsedUp { ratio },
            15 => Self::SegmentsUsedUp,
            16 => Self::BadMidpoint,
            17 => Self::ErrorAboveTolerance,
            18 => Self::AboveDomain,
            19 => Self::ShortSlice,
            20 => Self::PointCells,
            24 => Self::Malformed,
            26 => Self::ToleranceTooFine,
            27 => Self::DoesNotRead,
            28 => Self::HeightTooLarge,
            29 => Self::NotRising,
            other => Self::Unknown(other),
        }
    }

    /// The same refusal where the parameters have this spacing, by the library's number for it.
    pub(crate) fn of_spacing(self, spacing: u64) -> Self {
        match (self, spacing) {
            (Self::BadParameters, ffi::CHORD) => Self::BadChords,
            (error, _) => error,
        }
    }

    /// The refusal with this number of a curve that is to be certified.
    pub(crate) fn of_certificate(number: u64) -> Self {
        match number {
            3 => Self::NotSelected,
            23 => Self::DepthAboveSix,
            other => Self::of_request(other, f64::NAN),
        }
    }

    /// The refusal with this number of the heights of an axis.
    pub(crate) fn of_heights(number: u64) -> Self {
        match number {
            3 => Self::NoSuchAxis,
            other => Self::of_request(other, f64::NAN),
        }
    }
}

impl fmt::Display for PathError {
    fn fmt(&self, f: &mut fmt::Formatter<'_>) -> fmt::Result {
        let words = match *self {
            Self::BadPoints => "at least one axis, two waypoints and finite coordinates are needed",
            Self::NoAxes => "the list of axes is empty",
            Self::BadAxes => "a listed axis is repeated or does not exist",
            Self::NotSelected => "the axis is not one of the smoothed axes",
            Self::NoSuchAxis => "there is no such axis",
            Self::BadTolerance => "each smoothed axis needs a tolerance that is finite and above 0",
            Self::BadParameters => {
                "the parameters must be finite, rise strictly and be as many as the waypoints"
            }
            Self::BadChords => {
                "neighbouring waypoints are at the same place, or their distance is infinite or lost in the sum: \
                 leave one of them out, or list parameters"
            }
            Self::BadRange => {
                "the parameters' range is too wide, or some are too close together for it"
            }
            Self::Overflow => "a coordinate is too large for its tolerance",
            Self::InitialSegments => "the first knots need more segments than are allowed",
            Self::BadDiagonal => "the knots do not determine the curve: a diagonal is not above 0",
            Self::BadPivot => "the knots do not determine the curve: a pivot is not above 0",
            Self::BadSolution => "a coefficient of the curve is not finite",
            Self::NotAbove => "the parameters are too close together to be audited",
            Self::NotFinite => "an error bound is not finite",
            Self::RefinementsUsedUp { ratio } => {
                return write!(
                    f,
                    "the refinements are used up; error / tolerance is still {ratio}"
                );
            }
            Self::SegmentsUsedUp => "a refinement needs more segments than are allowed",
            Self::BadMidpoint => "a segment is too short to be halved",
            Self::ErrorAboveTolerance => "the final error is above the tolerance",
            Self::AboveDomain => {
                return write!(
                    f,
                    "at most {} axes, {} waypoints, {} segments and {} refinements are taken",
                    crate::MAX_AXES,
                    crate::MAX_WAYPOINTS,
                    crate::MAX_SEGMENTS,
                    crate::MAX_REFINEMENTS
                );
            }
            Self::ShortSlice => "a result slice is too short, or there is no memory for it",
            Self::PointCells => "the count of coordinates is not axes times waypoints",
            Self::ToleranceTooFine => "a coordinate has too many digits for its tolerance",
            Self::OutOfRangeS {
                s_min,
                s_max,
                index,
                value,
            } => {
                return write!(
                    f,
                    "parameter {value} at place {index} is not within {s_min} to {s_max}"
                );
            }
            Self::DepthAboveSix => "the depth of a certificate is 6 at most",
            Self::OrderAboveThree => "only a value and three derivatives can be asked for",
            Self::Malformed => {
                "the curve is not well formed: its counts, axes, breaks or range can't be those of a lane"
            }
            Self::DoesNotRead => {
                "the bytes are no lane file: they are cut off, too long, damaged, or something else"
            }
            Self::HeightTooLarge => {
                "a control of the axis is not finite or beyond 20000 (in millimetres 20 m), the most that the valve takes: \
                 subtract an offset from that coordinate"
            }
            Self::NotRising => "two breaks are too close together to be told apart on the way back",
            Self::Unknown(number) => {
                return write!(f, "the library refused with the unknown number {number}");
            }
        };
        f.write_str(words)
    }
}

impl std::error::Error for PathError {}

#[cfg(test)]
mod tests {
    use super::*;

    #[test]
    fn a_number_names_its_case() {
        for number in (1..=20).chain([24, 26, 27, 28, 29, 77]) {
            assert_eq!(PathError::of_request(number, 2.5).number(), number);
            assert_eq!(PathError::of_certificate(number).number(), number);
            assert_eq!(PathError::of_heights(number).number(), number);
            assert_eq!(
                matches!(PathError::of_request(number, 2.5), PathError::Unknown(_)),
                number == 77
            );
        }
        let helped = (0..100).filter(|n| PathError::of_request(*n, 2.5).higher_limit_may_help());
        assert_eq!(helped.collect::<Vec<_>>(), [8, 14, 15]);
        let used_up = PathError::of_request(14, 2.5);
        assert_eq!(used_up, PathError::RefinementsUsedUp { ratio: 2.5 });
        assert_eq!(PathError::of_certificate(3), PathError::NotSelected);
        assert_eq!(PathError::of_certificate(23), PathError::DepthAboveSix);
        assert_eq!(PathError::of_heights(3), PathError::NoSuchAxis);
        assert_eq!(PathError::of_heights(28), PathError::HeightTooLarge);
        assert!(used_up.to_string().ends_with("2.5"));
        assert_eq!(PathError::of_request(27, 2.5), PathError::DoesNotRead);
        assert_eq!(PathError::of_request(29, 2.5), PathError::NotRising);
    }

    /// 5 has words of its own where the parameters are by chord length, and no other number has.
    #[test]
    fn chords_have_their_words() {
        for number in (1..=20).chain([24, 26, 27, 28, 29, 77]) {
            let error = PathError::of_request(number, 2.5);
            for spacing in [ffi::LISTED, ffi::EVEN] {
                assert_eq!(error.of_spacing(spacing), error);
            }
            let by_chords = error.of_spacing(ffi::CHORD);
            assert_eq!(by_chords.number(), number);
            assert_eq!(by_chords == error, number != 5);
        }
        assert!(PathError::BadChords.to_string().contains("same place"));
        assert!(!PathError::BadChords.higher_limit_may_help());
    }
}
