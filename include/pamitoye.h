/* Pamitoye: smooths waypoints into a curve, answers queries of it, certifies how far it strays, gives
 * its heights in whole hundredths, and writes and reads it as a lane file; and orders lanes that are
 * to be cut.
 *
 * The functions are proved: each ends, and does what its comment says, for every input that keeps
 * to what is asked of a caller below. Their code is crates/pamitoye, whose contracts say the same
 * as equations. `rt staticlib pamitoye` proves it and writes target/staticlib/libpamitoye.a, for
 * x86-64 Linux, which needs the C library alone. examples/c/lane95.c is a whole program.
 *
 * Answers. A function returns a number: 0, PAMITOYE_DONE, where nothing is refused, otherwise the
 * reason, a case of `enum pamitoye_number`. A refusal leaves no state behind.
 *
 * Memory. The library allocates nothing, frees nothing and keeps no pointer: the caller owns every
 * slice, lends it for the call, and has it back when the call returns. A slice is a pointer and a
 * length in cells (double, uint64_t, int32_t, size_t, a pair of size_t, or bytes), in this order.
 *
 * What the caller must keep to. Nothing tests it; a call that breaks it is undefined.
 * - A pointer is not null, also where its length is 0, and is aligned for its type.
 * - It points to as many cells as its length says (an array: as its bound says; a single output:
 *   one), and each has been written before, also those lent for work and results (calloc does it).
 *   A bool holds 0 or 1.
 * - What is not const overlaps nothing else that the call is passed; const slices may overlap each
 *   other, and a slice of length 0 overlaps nothing. During the call no other thread writes a lent
 *   cell, or reads one that is not const.
 * - The floating-point environment is C's default: rounding to nearest, subnormal numbers kept.
 * - For pamitoye_evaluate_near and the two functions whose names end in `_formed`, the curve is well
 *   formed.
 * All else may be anything: wrong counts, short slices and NaNs get a number as their answer.
 *
 * Threads. There is no global state: calls on slices of their own may run at once.
 *
 * Curves. A curve is eight numbers and four slices, in this order in every function:
 *     d               coordinates of a waypoint, 1 to 16; an axis is one of them, 0 to d - 1
 *     k, axes         the selected (smoothed) axes are the first k cells of axes; those behind
 *                     mean nothing
 *     start, end      the parameter goes from start to end
 *     clamp           what a parameter outside gets: true, the value at the nearer end and +0
 *                     for every derivative (mode Clamp: past its ends the curve stands still);
 *                     false, PAMITOYE_OUTSIDE (mode Error). At start and end themselves the
 *                     derivatives are the curve's own
 *     segments        of the selected axes
 *     other_segments  of the other axes
 *     breaks          segments + 1 cells
 *     coefficients    6 * segments * k cells, then segments cells for the widths
 *     other_breaks    other_segments + 1 cells, or 0 cells where k is d
 *     other_coefficients   6 * other_segments * (d - k) cells, then other_segments cells
 * Coefficients lie segment after segment, in it axis after axis (the others in rising order), six
 * each, from power 0 up, of a parameter that goes from 0 to 1 on the segment. Behind them lies the
 * width of each segment, the rounded difference of its two breaks. The curve is well formed if the
 * lengths are these, each width has the bits of that difference, 1 <= k <= d <= 16, the axes are
 * distinct and below d, each set has 1 to 20000 segments (the other set none where k is d), breaks
 * rise strictly from 0 to 1, and start, end and end - start are finite, the last above 0.
 */
#ifndef PAMITOYE_H
#define PAMITOYE_H

#include <stdbool.h>
#include <stddef.h>
#include <stdint.h>

#ifdef __cplusplus
extern "C" {
#endif

/* What a number says. There is no 21, and 25 is the program `lane`'s alone. */
enum pamitoye_number {
    /* nothing is refused */
    PAMITOYE_DONE = 0,
    /* d is 0, n is below 2, or a point is not finite */
    PAMITOYE_BAD_POINTS = 1,
    /* the list of axes is empty */
    PAMITOYE_NO_AXES = 2,
    /* an axis is repeated or not below d; when certifying, the axis is not selected; of heights, it
     * is not below d */
    PAMITOYE_BAD_AXES = 3,
    /* wrong count of tolerances, or one that is not finite and above 0 */
    PAMITOYE_BAD_TOLERANCE = 4,
    /* wrong count of parameters, one that is not finite, or they do not rise strictly; by chords:
     * neighbours are equal, or their distance is infinite or too small to be seen in the sum */
    PAMITOYE_BAD_PARAMETERS = 5,
    /* end - start is not finite, or the normalised parameters do not rise strictly */
    PAMITOYE_BAD_RANGE = 6,
    /* a centred coordinate over its tolerance is not finite */
    PAMITOYE_OVERFLOW = 7,
    /* the first knots need more segments than max_segments */
    PAMITOYE_INITIAL_SEGMENTS = 8,
    /* a diagonal's root is not finite or not above 0 */
    PAMITOYE_BAD_DIAGONAL = 9,
    /* a pivot is not finite or not above 0 */
    PAMITOYE_BAD_PIVOT = 10,
    /* a solution is not finite */
    PAMITOYE_BAD_SOLUTION = 11,
    /* audit: a right end is not above the left; proved never to be answered */
    PAMITOYE_NOT_ABOVE = 12,
    /* audit: a Bernstein coefficient is not finite */
    PAMITOYE_NOT_FINITE = 13,
    /* max_refinements rounds were made; comes with the worst ratio of error to tolerance */
    PAMITOYE_REFINEMENTS_USED_UP = 14,
    /* a round needs more segments than max_segments */
    PAMITOYE_SEGMENTS_USED_UP = 15,
    /* a midpoint is not strictly inside its span */
    PAMITOYE_BAD_MIDPOINT = 16,
    /* the final error is above the tolerance */
    PAMITOYE_ERROR_ABOVE_TOLERANCE = 17,
    /* d above 16, n or max_segments above 20000, or max_refinements above 200; more than 64 lanes or
     * 1024 pairs */
    PAMITOYE_ABOVE_DOMAIN = 18,
    /* a lent slice is too short */
    PAMITOYE_SHORT_SLICE = 19,
    /* points_len is not d * n */
    PAMITOYE_POINT_CELLS = 20,
    /* a query is a NaN or, without clamp, outside start to end */
    PAMITOYE_OUTSIDE = 22,
    /* the order is above 3; when certifying, the depth is above 6 */
    PAMITOYE_ORDER_ABOVE_THREE = 23,
    /* the curve is not well formed */
    PAMITOYE_MALFORMED = 24,
    /* a smoothed coordinate, without its sign, exceeds its tolerance times 2^48: subtract an offset
     * from the coordinates, or take a larger tolerance */
    PAMITOYE_TOLERANCE_TOO_FINE = 26,
    /* the bytes are no lane file: cut off, too long, damaged, or something else; copy or write the
     * file anew */
    PAMITOYE_DOES_NOT_READ = 27,
    /* a control of the axis, times 100, is not finite or beyond 2000000 in size: the valve takes
     * heights of at most 20 m; subtract an offset from this coordinate */
    PAMITOYE_HEIGHT_TOO_LARGE = 28,
    /* the breaks of a return lane do not rise strictly: 1 minus two old ones is one number, since
     * they are no further apart than 2^-53 in the lane's first half; take parameters that are
     * further apart there, or leave out one waypoint of the two */
    PAMITOYE_NOT_RISING = 29,
    /* a pair names a lane that is not below the number of lanes */
    PAMITOYE_NO_SUCH_LANE = 31,
    /* a ring: no order meets all pairs */
    PAMITOYE_RING = 32
};

/* Where the parameters of n waypoints come from. Any other number is as PAMITOYE_LISTED: without n
 * numbers in `parameters` that is 5. */
enum pamitoye_spacing {
    /* `parameters` has n numbers that rise strictly */
    PAMITOYE_LISTED = 0,
    /* version 1 of the rule of spacing: parameter i is i / (n - 1); `parameters` is not read */
    PAMITOYE_EVEN = 1,
    /* version 2: parameter 0 is 0, and parameter i + 1 is parameter i plus the chord, the distance of
     * waypoints i and i + 1 over all d coordinates; `parameters` is not read */
    PAMITOYE_CHORD = 2
};

/* How long the slices lent to pamitoye_build must be, in cells of double. On 0 room holds, with E
 * for the larger of n and max_segments, plus 16:
 *     room[0]  work                E * (16 * d + 32)
 *     room[1]  breaks              max_segments + 1
 *     room[2]  coefficients        6 * d * max_segments + max_segments
 *     room[3]  other_breaks        n
 *     room[4]  other_coefficients  6 * d * n + n
 *     room[5]  errors              d
 * Slices of at least these lengths are never too short (19). 18 where d, n or max_segments is above
 * the domain; room is then unchanged. */
uint64_t pamitoye_room(size_t d, size_t n, size_t max_segments, size_t room[6]);

/* Smooths n waypoints of d coordinates, which lie waypoint after waypoint in points.
 *     all         true: every axis is smoothed, and axis_list is not read; false: those listed
 *     uniform     true: tolerance is every smoothed axis's, and tolerance_list is not read; false:
 *                 tolerance_list has one for each smoothed axis
 *     spacing     where the parameters come from, a case of `enum pamitoye_spacing`
 *     max_refinements, max_segments      limits, at most 200 and 20000
 *     clamp       the curve's mode; it changes nothing here
 * The axes that are not smoothed are interpolated. Numbers: 18, 20, 19, 1 to 4, 26, 5 to 7, then 8 to
 * 17, in the order in which they are met.
 *
 * On 0:
 *     counts      segments, other (interpolated) segments, refinements, fitting rows, checked
 *                 intervals
 *     *k, axes    the smoothed axes, and 0 in the cells behind
 *     *start, *end    the first and the last parameter
 *     errors      k cells: the largest error of each smoothed axis, none above its tolerance
 *     breaks, coefficients, other_breaks, other_coefficients
 *                 the curve's, in as many cells as it has (see "Curves"; its segments are counts[0]
 *                 and counts[1])
 * Cells behind these are unchanged, and *ratio is. The curve is well formed: it is d, *k, axes,
 * *start, *end, clamp, counts[0], counts[1], with slices of exactly the lengths under "Curves".
 *
 * On 14 *ratio is the worst ratio of error to tolerance. A refusal changes nothing else but work:
 * work is unchanged by 18, 19 and 20, and after any other answer, 0 too, all its cells are +0. */
uint64_t pamitoye_build(
    const double *points, size_t points_len, size_t d, size_t n,
    bool all, const size_t *axis_list, size_t axis_list_len,
    bool uniform, double tolerance, const double *tolerance_list, size_t tolerance_list_len,
    uint64_t spacing, const double *parameters, size_t parameters_len,
    size_t max_refinements, size_t max_segments, bool clamp,
    double *work, size_t work_len,
    double *breaks, size_t breaks_len,
    double *coefficients, size_t coefficients_len,
    double *other_breaks, size_t other_breaks_len,
    double *other_coefficients, size_t other_coefficients_len,
    double *errors, size_t errors_len,
    size_t counts[5], double *ratio, size_t *k, size_t axes[16], double *start, double *end);

/* Whether a curve is well formed. */
bool pamitoye_well_formed(
    size_t d, size_t k, const size_t axes[16], double start, double end, bool clamp,
    size_t segments, size_t other_segments,
    const double *breaks, size_t breaks_len,
    const double *coefficients, size_t coefficients_len,
    const double *other_breaks, size_t other_breaks_len,
    const double *other_coefficients, size_t other_coefficients_len);

/* One query: the value of every axis at x goes to q, its first, second and third derivative by the
 * parameter to dq, ddq and dddq, as far as order, 0 to 3, asks. On 0 the first d cells of each
 * slice up to the order asked are written, axis by axis; the cells behind them are unchanged, and
 * so are the slices of higher orders, which may have any length. A refusal writes nothing.
 * Numbers: 24, 23, 19 (a slice up to the order asked has fewer than d cells), 22, in this order. */
uint64_t pamitoye_evaluate(
    size_t d, size_t k, const size_t axes[16], double start, double end, bool clamp,
    size_t segments, size_t other_segments,
    const double *breaks, size_t breaks_len,
    const double *coefficients, size_t coefficients_len,
    const double *other_breaks, size_t other_breaks_len,
    const double *other_coefficients, size_t other_coefficients_len,
    double x, size_t order,
    double *q, size_t q_len, double *dq, size_t dq_len,
    double *ddq, size_t ddq_len, double *dddq, size_t dddq_len);

/* The queries at all of xs, each as pamitoye_evaluate answers it. The cells of xs[i] begin at i * d
 * of each slice, so that xs_len * d cells are needed (19) and written. The curve is tested once.
 * With 22, *refused_at is the place in xs of the first query that is refused; any other answer
 * leaves it unchanged. A refusal writes nothing else. Numbers: 24, 23, 19, 22, in this order. */
uint64_t pamitoye_evaluate_all(
    size_t d, size_t k, const size_t axes[16], double start, double end, bool clamp,
    size_t segments, size_t other_segments,
    const double *breaks, size_t breaks_len,
    const double *coefficients, size_t coefficients_len,
    const double *other_breaks, size_t other_breaks_len,
    const double *other_coefficients, size_t other_coefficients_len,
    const double *xs, size_t xs_len, size_t order,
    double *q, size_t q_len, double *dq, size_t dq_len,
    double *ddq, size_t ddq_len, double *dddq, size_t dddq_len,
    size_t *refused_at);

/* As pamitoye_evaluate, for a curve that is known to be well formed: an accepted build's, a return
 * lane, one that pamitoye_read_lane has read, or one of which pamitoye_well_formed has said so. The
 * curve is not tested, which takes time that grows with its segments; if it is not well formed the
 * call is undefined. Never 24. */
uint64_t pamitoye_evaluate_formed(
    size_t d, size_t k, const size_t axes[16], double start, double end, bool clamp,
    size_t segments, size_t other_segments,
    const double *breaks, size_t breaks_len,
    const double *coefficients, size_t coefficients_len,
    const double *other_breaks, size_t other_breaks_len,
    const double *other_coefficients, size_t other_coefficients_len,
    double x, size_t order,
    double *q, size_t q_len, double *dq, size_t dq_len,
    double *ddq, size_t ddq_len, double *dddq, size_t dddq_len);

/* As pamitoye_evaluate_formed, for queries that follow each other: *span and *other_span are the
 * segments of the selected and of the other axes that are tried first, any numbers, 0 for the first
 * query; on 0 they become those of this query, on a refusal they are unchanged. They can't change
 * an answer; where parameters rise or fall the search is shorter. */
uint64_t pamitoye_evaluate_near(
    size_t d, size_t k, const size_t axes[16], double start, double end, bool clamp,
    size_t segments, size_t other_segments,
    const double *breaks, size_t breaks_len,
    const double *coefficients, size_t coefficients_len,
    const double *other_breaks, size_t other_breaks_len,
    const double *other_coefficients, size_t other_coefficients_len,
    double x, size_t order,
    double *q, size_t q_len, double *dq, size_t dq_len,
    double *ddq, size_t ddq_len, double *dddq, size_t dddq_len,
    size_t *span, size_t *other_span);

/* As pamitoye_evaluate_all, for a curve that is known to be well formed. The curve is not tested;
 * if it is not well formed the call is undefined. Never 24. */
uint64_t pamitoye_evaluate_all_formed(
    size_t d, size_t k, const size_t axes[16], double start, double end, bool clamp,
    size_t segments, size_t other_segments,
    const double *breaks, size_t breaks_len,
    const double *coefficients, size_t coefficients_len,
    const double *other_breaks, size_t other_breaks_len,
    const double *other_coefficients, size_t other_coefficients_len,
    const double *xs, size_t xs_len, size_t order,
    double *q, size_t q_len, double *dq, size_t dq_len,
    double *ddq, size_t ddq_len, double *dddq, size_t dddq_len,
    size_t *refused_at);

/* The certified figure of a selected axis: how far the curve can lie from the lines between n
 * waypoints of d coordinates (points, spacing and parameters as for pamitoye_build). On 0 *given
 * tells whether there is a figure, and if so it is *figure: nowhere is the exact distance, nothing
 * rounded, above it. Where there is none *figure is unchanged. A refusal writes neither.
 * depth, 0 to 6, is how often a piece of the curve may be halved to tighten the figure; a deeper
 * figure is never larger than a shallower one, and is given where that is.
 * Numbers: 23 (of depth), 18 (of d and n), 20, 1, 5, 6, 24, 3, in this order. */
uint64_t pamitoye_certify(
    size_t d, size_t k, const size_t axes[16], double start, double end, bool clamp,
    size_t segments, size_t other_segments,
    const double *breaks, size_t breaks_len,
    const double *coefficients, size_t coefficients_len,
    const double *other_breaks, size_t other_breaks_len,
    const double *other_coefficients, size_t other_coefficients_len,
    const double *points, size_t points_len, size_t n,
    uint64_t spacing, const double *parameters, size_t parameters_len,
    size_t axis, size_t depth, bool *given, double *figure);

/* The lane driven back: the curve of the same eight numbers whose breaks are 1 minus the old ones
 * in reverse, whose segments are the old ones in reverse, each as the polynomial of 1 minus the old
 * parameter, and whose widths are those of the new breaks. At start + end - x it is, up to rounding,
 * the lane at x. On 0 the first cells of the lent slices, as many as the curve's own slices have,
 * are the return lane, and it is well formed; the cells behind are unchanged. A refusal writes
 * nothing.
 * A certified figure of the way out is none of the way back, whose coefficients are rounded anew:
 * pass pamitoye_certify the points in reverse and list parameters for them, start + (end - p) for
 * each p, in reverse; PAMITOYE_CHORD over the points in reverse gives the same list, up to rounding,
 * where the way out is by chords. Coefficients of some 1e306 may overflow on the way back; then there
 * is no figure.
 * Numbers: 24, 19 (a lent slice is shorter than the curve's own), 29, in this order. */
uint64_t pamitoye_return_lane(
    size_t d, size_t k, const size_t axes[16], double start, double end, bool clamp,
    size_t segments, size_t other_segments,
    const double *breaks, size_t breaks_len,
    const double *coefficients, size_t coefficients_len,
    const double *other_breaks, size_t other_breaks_len,
    const double *other_coefficients, size_t other_coefficients_len,
    double *lent_breaks, size_t lent_breaks_len,
    double *lent_coefficients, size_t lent_coefficients_len,
    double *lent_other_breaks, size_t lent_other_breaks_len,
    double *lent_other_coefficients, size_t lent_other_coefficients_len);

/* The heights of an axis for a valve that takes whole hundredths, 256 steps to a segment: with
 * coordinates in millimetres a height of 1 is a hundredth of a millimetre. The axis is any of the d,
 * smoothed or not; its set has `segments` segments if it is one of the k selected axes, otherwise
 * other_segments. On 0 cell 257 * i + j of heights, for each segment i of that set and each j from 0
 * to 256, is the height at step j, where the local parameter is j / 256; the cells behind are
 * unchanged. Step 256 of a segment and step 0 of the next are the same place, and their heights may
 * differ by the rounding of either's controls. A refusal writes nothing.
 * The six Bernstein controls of the segment's polynomial (as the audit of pamitoye_build computes
 * them) are multiplied by 100, rounded once, and taken to the nearest whole number, halves away from
 * zero. A height is the exact polynomial of these whole controls at j / 256, to the nearest whole
 * number, halves away from zero: it is never further from it than half a hundredth. None is beyond
 * 2000000 in size.
 * The figure of pamitoye_certify is of the curve and not of its heights: whole controls and a whole
 * height are each half a hundredth off at most, beside what the controls lose in rounding, so that a
 * height may lie a hundredth further from the line than the figure says.
 * Numbers: 24, 3, 19 (heights has fewer than 257 cells for each segment of the axis's set), 28 (of
 * any control of any segment), in this order. */
uint64_t pamitoye_heights(
    size_t d, size_t k, const size_t axes[16], double start, double end, bool clamp,
    size_t segments, size_t other_segments,
    const double *breaks, size_t breaks_len,
    const double *coefficients, size_t coefficients_len,
    const double *other_breaks, size_t other_breaks_len,
    const double *other_coefficients, size_t other_coefficients_len,
    size_t axis, int32_t *heights, size_t heights_len);

/* Lane files. A lane file is one curve as bytes. First come whole numbers: d, k, the k axes, the mode
 * (0 Error, 1 Clamp), segments, other_segments, each in groups of seven bits, low group first, the top
 * bit set on all but the last, at most three groups (so below 2097152) and none that is 0 behind
 * another. Then come numbers of eight bytes, low byte first: start, end, breaks, coefficients,
 * other_breaks, other_coefficients. A count of 0 has no breaks. Widths are not in it: reading makes
 * them from the breaks.
 *
 * Coefficients and widths are passed as bit patterns, uint64_t, since they may be NaNs, whose bits
 * travel unchanged. Where they are kept as doubles the same memory is passed, and nothing is copied:
 *     (const uint64_t *)coefficients        (uint64_t *)coefficients
 * (the library is machine code of its own, so that C's rule of aliasing does not bear on it).
 * The doubles there then have the bits that the file has, also where they are NaNs, as long as they
 * are moved as memory (memcpy, fwrite); a double that went through arithmetic, or on some machines
 * through a register, is still a NaN, but its bits may be others.
 *
 * Equal curves, bit by bit, have equal files, and unequal ones unequal files; cells of axes from k on
 * do not count. */

/* Writes the lane file of a curve. On 0 it is the first *count bytes of file; the bytes behind are
 * unchanged. pamitoye_read_lane gives the same curve back from it, bit by bit, with 0 in the cells of
 * axes from k on. A file of 41 + 8 * (breaks_len + coefficients_len + other_breaks_len +
 * other_coefficients_len) bytes is never too short. A refusal writes nothing.
 * Numbers: 24, 19 (file is too short), in this order. */
uint64_t pamitoye_write_lane(
    size_t d, size_t k, const size_t axes[16], double start, double end, bool clamp,
    size_t segments, size_t other_segments,
    const double *breaks, size_t breaks_len,
    const uint64_t *coefficients, size_t coefficients_len,
    const double *other_breaks, size_t other_breaks_len,
    const uint64_t *other_coefficients, size_t other_coefficients_len,
    uint8_t *file, size_t file_len, size_t *count);

/* Reads a lane file: all of the bytes. On 0 the eight numbers are the curve's, with 0 in the cells of
 * axes from k on, and so are the first cells of the slices, as many as it has (see "Curves"); the
 * cells behind are unchanged. The curve is well formed in slices of exactly these lengths, and
 * pamitoye_write_lane gives the same file back from them. Slices of file_len / 8 cells each are never
 * too short. A refusal writes nothing.
 * Numbers: 27 (a number in groups is too long, has an empty last group or is cut off, the mode is
 * above 1, k is above d, bytes are missing or left over; all else reads, however large its counts),
 * 24, 19 (a lent slice is too short), in this order. */
uint64_t pamitoye_read_lane(
    const uint8_t *file, size_t file_len,
    size_t *d, size_t *k, size_t axes[16], double *start, double *end, bool *clamp,
    size_t *segments, size_t *other_segments,
    double *breaks, size_t breaks_len,
    uint64_t *coefficients, size_t coefficients_len,
    double *other_breaks, size_t other_breaks_len,
    uint64_t *other_coefficients, size_t other_coefficients_len);

/* Which lane is cut first. Lanes are numbered from 0, and pairs[i] says that lane pairs[i][0] is cut
 * before lane pairs[i][1]; pairs_len counts pairs. On 0 the first cells of order, one for each lane,
 * are the order that takes the lowest-numbered ready lane each time, a lane being ready once every
 * lane that has to come before it is cut. It meets all pairs, and any other order that does has a
 * higher-numbered lane at the first place that differs. The cells behind are unchanged; a refusal
 * writes nothing. Neither the order of the pairs matters nor whether one is repeated; a lane before
 * itself is a ring; no lanes and no pairs give an empty order.
 * Numbers: 18 (more than 64 lanes or 1024 pairs, repeated ones counted), 31, 19 (order has fewer
 * cells than there are lanes), 32 (exactly where no order meets all pairs), in this order. */
uint64_t pamitoye_cutting_order(
    size_t lanes, const size_t (*pairs)[2], size_t pairs_len, size_t *order, size_t order_len);

#ifdef __cplusplus
}
#endif

#endif
