/* What the programs here that keep a curve share: building it, passing it, giving it back. */
#include <stdbool.h>
#include <stddef.h>
#include <stdlib.h>
#include <string.h>

#include "expect.h"
#include "pamitoye.h"

enum { MAX_REFINEMENTS = 20, MAX_SEGMENTS = 100 };

/* A slice of doubles: its cells, and how many of them are lent. */
struct slice {
    double *cells;
    size_t len;
};

/* A curve: eight numbers and four slices, as the header has them. */
struct curve {
    size_t d, k, axes[16];
    double start, end;
    bool clamp;
    size_t segments, other_segments;
    struct slice breaks, coefficients, other_breaks, other_coefficients;
};

/* What a curve is built of: n waypoints of d coordinates, and one tolerance for all smoothed axes.
 * No axes stand for all of them, and no parameters for even ones. */
struct lane {
    size_t d, n;
    const double *points;
    double tolerance;
    size_t axis_count;
    const size_t *axes;
    const double *parameters;
};

#define SLICE(s) (s).cells, (s).len
#define SLICES(c)                                                                                  \
    SLICE((c).breaks), SLICE((c).coefficients), SLICE((c).other_breaks),                           \
        SLICE((c).other_coefficients)
#define CURVE(c)                                                                                   \
    (c).d, (c).k, (c).axes, (c).start, (c).end, (c).clamp, (c).segments, (c).other_segments,       \
        SLICES(c)

/* So many cells, all written: at least one, so that the pointer is not null. */
static struct slice zeros(size_t n) {
    struct slice made = {calloc(n ? n : 1, sizeof(double)), n};
    if (!made.cells)
        exit(2);
    return made;
}

/* The lane's curve, in mode Error; *error is the largest error of its first smoothed axis. */
static struct curve build(const struct lane *lane, double *error) {
    const double no_list[1] = {0}; /* for slices of length 0 */
    const size_t no_axes[1] = {0};
    const bool all = lane->axis_count == 0, listed = lane->parameters != NULL;
    struct curve c = {.d = lane->d, .clamp = false};
    size_t room[6] = {0}, counts[5] = {0};
    double ratio = 0;
    expect("room", pamitoye_room(lane->d, lane->n, MAX_SEGMENTS, room), PAMITOYE_DONE);
    struct slice work = zeros(room[0]), errors = zeros(room[5]);
    c.breaks = zeros(room[1]);
    c.coefficients = zeros(room[2]);
    c.other_breaks = zeros(room[3]);
    c.other_coefficients = zeros(room[4]);
    expect("build", pamitoye_build(lane->points, lane->d * lane->n, lane->d, lane->n, all,
        all ? no_axes : lane->axes, lane->axis_count, true, lane->tolerance, no_list, 0,
        listed ? PAMITOYE_LISTED : PAMITOYE_EVEN, listed ? lane->parameters : no_list,
        listed ? lane->n : 0, MAX_REFINEMENTS, MAX_SEGMENTS, c.clamp, SLICE(work), SLICES(c),
        SLICE(errors), counts, &ratio, &c.k, c.axes, &c.start, &c.end), PAMITOYE_DONE);
    /* the used cells: coefficients, and behind them a width for each segment */
    c.segments = counts[0];
    c.other_segments = counts[1];
    c.breaks.len = c.segments + 1;
    c.coefficients.len = (6 * c.k + 1) * c.segments;
    c.other_breaks.len = c.other_segments ? c.other_segments + 1 : 0;
    c.other_coefficients.len = (6 * (c.d - c.k) + 1) * c.other_segments;
    *error = errors.cells[0];
    free(work.cells);
    free(errors.cells);
    return c;
}

static void give_back(struct curve *c) {
    free(c->breaks.cells);
    free(c->coefficients.cells);
    free(c->other_breaks.cells);
    free(c->other_coefficients.cells);
}

/* Turns the lowest bit of a number: of a width, so that the curve is not well formed. */
static void turn_a_bit(double *cell) {
    uint64_t bits;
    memcpy(&bits, cell, sizeof bits);
    bits ^= 1;
    memcpy(cell, &bits, sizeof bits);
}
