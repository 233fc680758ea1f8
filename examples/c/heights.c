/* Heights for a valve that takes whole hundredths, from C: height is smoothed, speed is not, so that
 * the curve has both sets. Asks for the heights of both axes, compares them with the curve and where
 * segments meet, and shows what is refused and what helps. To compile: as lane95.c; it writes
 * examples/c/heights.txt, and ends with 1 where something is not as the header says.
 */
#include <inttypes.h>
#include <math.h>
#include <stdio.h>
#include <stdlib.h>

#include "curve.h"

/* A segment has steps 0 to 256. */
enum { D = 2, N = 5, HEIGHT = 0, SPEED = 1, LAST = 256, STEPS = LAST + 1 };

static const char *const NAMES[D] = {"height", "speed"};

/* What a lent cell holds before a call. */
#define MARK INT32_C(-7000007)

/* Heights, and how many of them are lent. */
struct heights {
    int32_t *cells;
    size_t len;
};

static struct heights marked(size_t n) {
    struct heights made = {malloc((n ? n : 1) * sizeof(int32_t)), n};
    if (!made.cells)
        exit(2);
    for (size_t i = 0; i < n; i++)
        made.cells[i] = MARK;
    return made;
}

static bool all_marked(const int32_t *cells, size_t n) {
    for (size_t i = 0; i < n; i++)
        if (cells[i] != MARK)
            return false;
    return true;
}

/* How many segments the axis's set has: HEIGHT is the one selected axis. */
static size_t segments_of(const struct curve *c, size_t axis) {
    return axis == HEIGHT ? c->segments : c->other_segments;
}

static struct curve lane(const double *points) {
    const size_t smoothed[1] = {HEIGHT};
    const struct lane lane = {.d = D, .n = N, .points = points, .tolerance = 0.2, .axis_count = 1,
        .axes = smoothed};
    double error = 0;
    struct curve c = build(&lane, &error);
    printf("  %zu segments of height, %zu of speed\n", c.segments, c.other_segments);
    return c;
}

/* The coordinate at a step, by a query. */
static double value_at(const struct curve *c, size_t axis, size_t segment, size_t step) {
    const double *breaks = axis == HEIGHT ? c->breaks.cells : c->other_breaks.cells;
    const double left = breaks[segment], right = breaks[segment + 1];
    const double place = step == LAST ? right : left + (right - left) * (double)step / LAST;
    double q[D] = {0}, none[1] = {0};
    check("a query", pamitoye_evaluate(CURVE(*c), c->start + (c->end - c->start) * place, 0, q, D,
        none, 0, none, 0, none, 0) == PAMITOYE_DONE);
    return q[axis];
}

/* The lowest and the highest, five steps of each segment, and what holds of all. */
static void show(const struct curve *c, size_t axis, const int32_t *heights) {
    const size_t segments = segments_of(c, axis);
    int32_t lowest = heights[0], highest = heights[0];
    double furthest = 0;
    for (size_t i = 0; i < segments; i++)
        for (size_t j = 0; j < STEPS; j++) {
            const int32_t height = heights[STEPS * i + j];
            lowest = height < lowest ? height : lowest;
            highest = height > highest ? height : highest;
            const double far = fabs(height - 100 * value_at(c, axis, i, j));
            furthest = far > furthest ? far : furthest;
        }
    printf("  %zu heights from %" PRId32 " to %" PRId32 " hundredths\n", STEPS * segments, lowest,
        highest);
    /* half a hundredth for the controls, half for the step, and what queries round */
    check("within a hundredth of the curve", furthest < 1.000001);
    for (size_t i = 0; i < segments; i++) {
        printf("  segment %zu:", i);
        for (size_t j = 0; j < STEPS; j += 64)
            printf(" %" PRId32, heights[STEPS * i + j]);
        printf("\n");
    }
    /* step 256 of a segment and step 0 of the next are one place */
    for (size_t i = 0; i + 1 < segments; i++) {
        const int32_t left = heights[STEPS * i + LAST], right = heights[STEPS * (i + 1)];
        check("neighbours differ by 1 at most", left - right <= 1 && right - left <= 1);
    }
}

/* The heights of one axis; a cell is lent that is not used. */
static void heights(const struct curve *c, size_t axis) {
    const size_t used = STEPS * segments_of(c, axis);
    struct heights lent = marked(used + 1);
    char call[32];
    snprintf(call, sizeof call, "heights of %s", NAMES[axis]);
    expect(call, pamitoye_heights(CURVE(*c), axis, SLICE(lent)), PAMITOYE_DONE);
    check("the cell behind is unchanged", lent.cells[used] == MARK);
    show(c, axis, lent.cells);
    free(lent.cells);
}

/* 24, 3, 19 and 28, each before the next; none writes a cell. */
static void refusals(const struct curve *c) {
    const size_t used = STEPS * c->segments;
    struct heights all = marked(used), less = {all.cells, used - 1};
    double *width = c->coefficients.cells + 6 * c->k * c->segments;
    double *power = c->coefficients.cells + 6 * (c->segments - 1) + 5;
    const double kept = *power;
    *power = INFINITY;
    turn_a_bit(width);
    expect("heights, one bit of a width turned, of axis 2",
        pamitoye_heights(CURVE(*c), D, SLICE(less)), PAMITOYE_MALFORMED);
    turn_a_bit(width);
    expect("heights of axis 2, a cell short", pamitoye_heights(CURVE(*c), D, SLICE(less)),
        PAMITOYE_BAD_AXES);
    expect("heights, a cell short and a coefficient infinite",
        pamitoye_heights(CURVE(*c), HEIGHT, SLICE(less)), PAMITOYE_SHORT_SLICE);
    expect("heights, the last coefficient infinite",
        pamitoye_heights(CURVE(*c), HEIGHT, SLICE(all)), PAMITOYE_HEIGHT_TOO_LARGE);
    check("nothing is written", all_marked(all.cells, all.len));
    *power = kept;
    expect("heights, as it was", pamitoye_heights(CURVE(*c), HEIGHT, SLICE(all)), PAMITOYE_DONE);
    free(all.cells);
}

/* A height above sea level: the valve takes 20 m, and an offset helps. */
static void offset(const double *points) {
    double far[D * N];
    for (size_t i = 0; i < D * N; i++)
        far[i] = points[i] + (i % D == HEIGHT ? 912000 : 0);
    struct curve c = lane(far);
    struct heights lent = marked(STEPS * c.segments);
    expect("heights, 912 m up", pamitoye_heights(CURVE(c), HEIGHT, SLICE(lent)),
        PAMITOYE_HEIGHT_TOO_LARGE);
    check("nothing is written", all_marked(lent.cells, lent.len));
    free(lent.cells);
    /* the other axis has its heights all the same */
    lent = marked(STEPS * c.other_segments);
    expect("heights of its speed", pamitoye_heights(CURVE(c), SPEED, SLICE(lent)), PAMITOYE_DONE);
    free(lent.cells);
    give_back(&c);
    for (size_t i = 0; i < N; i++)
        far[D * i + HEIGHT] -= 912000;
    c = lane(far);
    lent = marked(STEPS * c.segments);
    expect("heights, the offset subtracted", pamitoye_heights(CURVE(c), HEIGHT, SLICE(lent)),
        PAMITOYE_DONE);
    printf("  from %" PRId32 " to %" PRId32 "\n", lent.cells[0], lent.cells[lent.len - 1]);
    free(lent.cells);
    give_back(&c);
}

int main(void) {
    /* millimetres, and metres a second */
    const double points[D * N] = {120, 1.2, 120.125, 1.25, 123.5, 1.1, 123.375, 1.3, 121, 1.28};
    struct curve c = lane(points);
    if (failures)
        return 1;
    for (size_t axis = 0; axis < D; axis++)
        heights(&c, axis);
    refusals(&c);
    give_back(&c);
    offset(points);
    return failures ? 1 : 0;
}
