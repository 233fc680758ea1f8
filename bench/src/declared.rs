//! How the library's functions are declared here: those that take a curve have the same first parameters.
use crate::handed::HandedCurve;
use crate::spacing::Spacing;

/// The number of a spacing in the header, `enum pamitoye_spacing`.
pub fn spacing_number(spacing: Spacing) -> u64 {
    match spacing {
        Spacing::Listed => 0,
        Spacing::Even => 1,
        Spacing::Chord => 2,
    }
}

/// Functions whose first parameters are the curve's numbers and slices, with the others and the answer. Coefficients are cells
/// of f64, or of the type that stands before the functions.
macro_rules! declared {
    ($($name:ident($($more:ident: $kind:ty),* $(,)?) -> $answer:ty;)*) => {
        crate::declared::declared! { f64; $($name($($more: $kind),*) -> $answer;)* }
    };
    ($cell:ty; $($name:ident($($more:ident: $kind:ty),* $(,)?) -> $answer:ty;)*) => {
        #[allow(improper_ctypes)]
        unsafe extern "C" {
            $(fn $name(
                d: usize,
                k: usize,
                axes: *const [usize; 16],
                start: f64,
                end: f64,
                clamp: bool,
                segments: usize,
                other_segments: usize,
                breaks: *const f64,
                breaks_len: usize,
                coefficients: *const $cell,
                coefficients_len: usize,
                other_breaks: *const f64,
                other_breaks_len: usize,
                other_coefficients: *const $cell,
                other_coefficients_len: usize,
                $($more: $kind,)*
            ) -> $answer;)*
        }
    };
}
pub(crate) use declared;

/// A call whose first arguments are the curve's numbers and slices.
macro_rules! of_curve {
    ($function:ident, $curve:expr $(, $rest:expr)* $(,)?) => {
        $function(
            $curve.d,
            $curve.k,
            &crate::declared::axes($curve),
            $curve.start,
            $curve.end,
            false,
            $curve.segments,
            $curve.other_segments,
            $curve.breaks.as_ptr(),
            $curve.breaks.len(),
            $curve.coefficients.as_ptr(),
            $curve.coefficients.len(),
            $curve.other_breaks.as_ptr(),
            $curve.other_breaks.len(),
            $curve.other_coefficients.as_ptr(),
            $curve.other_coefficients.len(),
            $($rest),*
        )
    };
}
pub(crate) use of_curve;

/// The axes, and 0 behind them.
pub fn axes(curve: &HandedCurve) -> [usize; 16] {
    let mut axes = [0; 16];
    for (to, from) in axes.iter_mut().zip(&curve.axes) {
        *to = *from;
    }
    axes
}
