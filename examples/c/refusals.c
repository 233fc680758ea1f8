/* Every function of the library from C, refused and answered: what a refusal leaves unchanged, and
 * that the queries agree. Three axes, of which two are smoothed. To compile: as lane95.c; it writes
 * examples/c/refusals.txt, and ends with 1 where something is not as the header says.
 */
#include <inttypes.h>
#include <math.h>
#include <stdio.h>
#include <stdlib.h>
#include <string.h>

#include "expect.h"
#include "pamitoye.h"

enum { D = 3, N = 5, MAX_REFINEMENTS = 20, MAX_SEGMENTS = 50 };

/* What every output holds before a call. */
#define MARK (-7.0)
#define COUNT_MARK ((size_t)77)

static bool all_are(const double *cells, size_t n, double x) {
    for (size_t i = 0; i < n; i++)
        if (memcmp(&cells[i], &x, sizeof x) != 0)
            return false;
    return true;
}

static bool counts_are(const size_t *cells, size_t n, size_t x) {
    for (size_t i = 0; i < n; i++)
        if (cells[i] != x)
            return false;
    return true;
}

static void mark(double *cells, size_t n) {
    for (size_t i = 0; i < n; i++)
        cells[i] = MARK;
}

/* All that a build writes, and room for it. */
struct built {
    size_t room[6], counts[5], k, axes[16];
    double *work, *breaks, *coefficients, *other_breaks, *other_coefficients, *errors;
    double ratio, start, end;
};

static double *marked(size_t n) {
    double *made = malloc((n ? n : 1) * sizeof(double));
    if (!made)
        exit(2);
    mark(made, n);
    return made;
}

static void lend(struct built *b) {
    expect("room", pamitoye_room(D, N, MAX_SEGMENTS, b->room), PAMITOYE_DONE);
    b->work = marked(b->room[0]);
    b->breaks = marked(b->room[1]);
    b->coefficients = marked(b->room[2]);
    b->other_breaks = marked(b->room[3]);
    b->other_coefficients = marked(b->room[4]);
    b->errors = marked(b->room[5]);
    b->k = COUNT_MARK;
    for (size_t i = 0; i < 5; i++)
        b->counts[i] = COUNT_MARK;
    for (size_t i = 0; i < 16; i++)
        b->axes[i] = COUNT_MARK;
    b->ratio = b->start = b->end = MARK;
}

static void give_back(struct built *b) {
    free(b->work);
    free(b->breaks);
    free(b->coefficients);
    free(b->other_breaks);
    free(b->other_coefficients);
    free(b->errors);
}

/* Axes 2 and 0 with a tolerance each, and listed parameters. */
static uint64_t build(struct built *b, const double *points, double tolerance, size_t work_len,
                      size_t max_refinements) {
    const size_t axis_list[2] = {2, 0};
    const double tolerance_list[2] = {tolerance, tolerance};
    const double parameters[N] = {-1, 0, 0.5, 2, 3};
    return pamitoye_build(points, D * N, D, N, false, axis_list, 2, false, 0, tolerance_list, 2,
        PAMITOYE_LISTED, parameters, N, max_refinements, MAX_SEGMENTS, false, b->work, work_len,
        b->breaks, b->room[1], b->coefficients, b->room[2], b->other_breaks, b->room[3],
        b->other_coefficients, b->room[4], b->errors, b->room[5], b->counts, &b->ratio, &b->k,
        b->axes, &b->start, &b->end);
}

/* A refusal leaves all but work and ratio as it was. */
static void check_untouched(const struct built *b) {
    check("results are unchanged", all_are(b->breaks, b->room[1], MARK)
        && all_are(b->coefficients, b->room[2], MARK) && all_are(b->other_breaks, b->room[3], MARK)
        && all_are(b->other_coefficients, b->room[4], MARK)
        && all_are(b->errors, b->room[5], MARK));
    check("counts, k and axes are unchanged", counts_are(b->counts, 5, COUNT_MARK)
        && b->k == COUNT_MARK && counts_are(b->axes, 16, COUNT_MARK));
    check("start and end are unchanged", b->start == MARK && b->end == MARK);
}

/* The curve of an accepted build, in its used cells: d to other_segments, and the four slices. */
#define NUMBERS(b) D, (b).k, (b).axes, (b).start, (b).end, false, (b).counts[0], (b).counts[1]
#define SLICES(b)                                                                                  \
    (b).breaks, (b).counts[0] + 1, (b).coefficients, (6 * (b).k + 1) * (b).counts[0], (b).other_breaks, \
        (b).counts[1] + 1, (b).other_coefficients, (6 * (D - (b).k) + 1) * (b).counts[1]

/* Four slices of n cells, one for each order; a query of x asks for D cells, four for 4 * D. */
enum { SLICE = 4 * D, CELLS = 4 * SLICE };
#define ORDERS(out, n) out, n, out + SLICE, n, out + 2 * SLICE, n, out + 3 * SLICE, n

static void rooms(void) {
    size_t room[6];
    for (size_t i = 0; i < 6; i++)
        room[i] = COUNT_MARK;
    expect("room of 17 axes", pamitoye_room(17, N, MAX_SEGMENTS, room), PAMITOYE_ABOVE_DOMAIN);
    expect("room of 20001 waypoints", pamitoye_room(D, 20001, 1, room), PAMITOYE_ABOVE_DOMAIN);
    expect("room of 20001 segments", pamitoye_room(D, N, 20001, room), PAMITOYE_ABOVE_DOMAIN);
    check("room is unchanged", counts_are(room, 6, COUNT_MARK));
    expect("the largest room", pamitoye_room(16, 20000, 20000, room), PAMITOYE_DONE);
    printf("  %zu %zu %zu %zu %zu %zu\n", room[0], room[1], room[2], room[3], room[4], room[5]);
}

static void builds(struct built *b, const double *points) {
    expect("build, work too short", build(b, points, 0.5, b->room[0] - 1, MAX_REFINEMENTS),
        PAMITOYE_SHORT_SLICE);
    check("work is unchanged", all_are(b->work, b->room[0], MARK));
    check_untouched(b);
    expect("build, tolerance 0", build(b, points, 0, b->room[0], MAX_REFINEMENTS),
        PAMITOYE_BAD_TOLERANCE);
    check("work is +0", all_are(b->work, b->room[0], 0.0));
    check_untouched(b);
    check("ratio is unchanged", b->ratio == MARK);
    expect("build, no refinements", build(b, points, 1e-9, b->room[0], 0),
        PAMITOYE_REFINEMENTS_USED_UP);
    check("a ratio above 1", b->ratio > 1);
    check_untouched(b);
    b->ratio = MARK;
    expect("build", build(b, points, 0.5, b->room[0], MAX_REFINEMENTS), PAMITOYE_DONE);
    check("k, axes, start and end", b->k == 2 && b->axes[0] == 2 && b->axes[1] == 0
        && counts_are(b->axes + 2, 14, 0) && b->start == -1 && b->end == 3 && b->ratio == MARK);
    check("errors", b->errors[0] <= 0.5 && b->errors[1] <= 0.5 && b->errors[2] == MARK);
    check("work is +0", all_are(b->work, b->room[0], 0.0));
}

static void queries(const struct built *b) {
    double out[CELLS], formed[CELLS], many[CELLS];
    const double xs[4] = {-1, 0.25, 3, 9};
    size_t refused_at = COUNT_MARK;
    mark(out, CELLS);
    mark(formed, CELLS);
    mark(many, CELLS);
    check("well formed", pamitoye_well_formed(NUMBERS(*b), SLICES(*b)));
    check("not well formed with a segment more", !pamitoye_well_formed(D, b->k, b->axes, b->start,
        b->end, false, b->counts[0] + 1, b->counts[1], SLICES(*b)));
    expect("query with k 0", pamitoye_evaluate(D, 0, b->axes, b->start, b->end, false, b->counts[0],
        b->counts[1], SLICES(*b), 0.25, 3, ORDERS(out, D)), PAMITOYE_MALFORMED);
    expect("query of order 4", pamitoye_evaluate(NUMBERS(*b), SLICES(*b), 0.25, 4, ORDERS(out, D)),
        PAMITOYE_ORDER_ABOVE_THREE);
    expect("query, two cells", pamitoye_evaluate(NUMBERS(*b), SLICES(*b), 0.25, 3, ORDERS(out, 2)),
        PAMITOYE_SHORT_SLICE);
    expect("query at NaN", pamitoye_evaluate(NUMBERS(*b), SLICES(*b), NAN, 3, ORDERS(out, D)),
        PAMITOYE_OUTSIDE);
    check("nothing is written", all_are(out, CELLS, MARK));
    expect("query", pamitoye_evaluate(NUMBERS(*b), SLICES(*b), 0.25, 3, ORDERS(out, D)),
        PAMITOYE_DONE);
    expect("query, formed",
        pamitoye_evaluate_formed(NUMBERS(*b), SLICES(*b), 0.25, 3, ORDERS(formed, D)),
        PAMITOYE_DONE);
    check("the same", memcmp(out, formed, sizeof out) == 0);
    size_t span = 99, other_span = COUNT_MARK;
    mark(formed, CELLS);
    expect("query, near segments that are not there",
        pamitoye_evaluate_near(NUMBERS(*b), SLICES(*b), 0.25, 3, ORDERS(formed, D), &span,
            &other_span), PAMITOYE_DONE);
    check("the same, and the segments are kept", memcmp(out, formed, sizeof out) == 0
        && span < b->counts[0] && other_span < b->counts[1]);
    check("d cells are written", all_are(out + D, SLICE - D, MARK)
        && out[3 * SLICE + D - 1] != MARK);
    expect("four queries", pamitoye_evaluate_all(NUMBERS(*b), SLICES(*b), xs, 4, 3,
        ORDERS(many, SLICE), &refused_at), PAMITOYE_OUTSIDE);
    check("the fourth is refused", refused_at == 3 && all_are(many, CELLS, MARK));
    refused_at = COUNT_MARK;
    expect("three queries", pamitoye_evaluate_all(NUMBERS(*b), SLICES(*b), xs, 3, 3,
        ORDERS(many, SLICE), &refused_at), PAMITOYE_DONE);
    check("the second is the single one", refused_at == COUNT_MARK
        && memcmp(many + D, out, D * sizeof(double)) == 0
        && memcmp(many + 3 * SLICE + D, out + 3 * SLICE, D * sizeof(double)) == 0);
    mark(formed, CELLS);
    expect("three queries, formed", pamitoye_evaluate_all_formed(NUMBERS(*b), SLICES(*b), xs, 3, 3,
        ORDERS(formed, SLICE), &refused_at), PAMITOYE_DONE);
    check("the same", memcmp(many, formed, sizeof many) == 0 && refused_at == COUNT_MARK);
}

static void certificates(const struct built *b, const double *points) {
    const double parameters[N] = {-1, 0, 0.5, 2, 3};
    bool given = true;
    double figure = MARK;
    expect("certify, points cut", pamitoye_certify(NUMBERS(*b), SLICES(*b), points, D * N - 1, N,
        PAMITOYE_LISTED, parameters, N, 0, 0, &given, &figure), PAMITOYE_POINT_CELLS);
    expect("certify an axis that is not smoothed", pamitoye_certify(NUMBERS(*b), SLICES(*b), points,
        D * N, N, PAMITOYE_LISTED, parameters, N, 1, 0, &given, &figure), PAMITOYE_BAD_AXES);
    expect("certify, depth 7", pamitoye_certify(NUMBERS(*b), SLICES(*b), points, D * N, N,
        PAMITOYE_LISTED, parameters, N, 2, 7, &given, &figure), PAMITOYE_ORDER_ABOVE_THREE);
    check("given and figure are unchanged", given && figure == MARK);
    given = false;
    expect("certify", pamitoye_certify(NUMBERS(*b), SLICES(*b), points, D * N, N, PAMITOYE_LISTED,
        parameters, N, 2, 0, &given, &figure), PAMITOYE_DONE);
    check("a figure at or above the error", given && figure >= b->errors[0] && figure < 0.5);
    const double own = figure;
    expect("certify, depth 6", pamitoye_certify(NUMBERS(*b), SLICES(*b), points, D * N, N,
        PAMITOYE_LISTED, parameters, N, 2, 6, &given, &figure), PAMITOYE_DONE);
    check("a deeper figure is not larger", given && figure <= own);
}

/* A pair more than the library takes. */
enum { LANES = 6, MANY = 1025 };

static void orders(void) {
    static size_t many[MANY][2];
    const size_t(*more)[2] = (const size_t(*)[2])many;
    const size_t pairs[6][2] = {{5, 0}, {3, 1}, {5, 0}, {1, 4}, {0, 2}, {1, 4}};
    const size_t ring[3][2] = {{0, 1}, {1, 2}, {2, 0}}, itself[1][2] = {{2, 2}};
    size_t order[LANES + 1];
    for (size_t i = 0; i <= LANES; i++)
        order[i] = COUNT_MARK;
    for (size_t i = 0; i < MANY; i++)
        many[i][1] = 1;
    expect("order of 65 lanes", pamitoye_cutting_order(65, pairs, 6, order, LANES),
        PAMITOYE_ABOVE_DOMAIN);
    expect("order with 1025 pairs", pamitoye_cutting_order(LANES, more, MANY, order, LANES),
        PAMITOYE_ABOVE_DOMAIN);
    expect("order of 5 lanes", pamitoye_cutting_order(5, pairs, 6, order, 0),
        PAMITOYE_NO_SUCH_LANE);
    expect("order of no lanes with a pair", pamitoye_cutting_order(0, itself, 1, order, LANES),
        PAMITOYE_NO_SUCH_LANE);
    expect("order, 5 cells", pamitoye_cutting_order(LANES, pairs, 6, order, LANES - 1),
        PAMITOYE_SHORT_SLICE);
    expect("order, a ring", pamitoye_cutting_order(LANES, ring, 3, order, LANES), PAMITOYE_RING);
    expect("order, a lane before itself", pamitoye_cutting_order(LANES, itself, 1, order, LANES),
        PAMITOYE_RING);
    expect("order of no lanes", pamitoye_cutting_order(0, pairs, 0, order, 0), PAMITOYE_DONE);
    check("nothing is written", counts_are(order, LANES + 1, COUNT_MARK));
    expect("order", pamitoye_cutting_order(LANES, pairs, 6, order, LANES + 1), PAMITOYE_DONE);
    printf(" ");
    for (size_t i = 0; i < LANES; i++)
        printf(" %zu", order[i]);
    printf("\n");
    check("the cell behind is unchanged", order[LANES] == COUNT_MARK);
    expect("order with 1024 pairs", pamitoye_cutting_order(LANES, more, MANY - 1, order, LANES),
        PAMITOYE_DONE);
}

int main(void) {
    const double points[D * N] = {0, 1, 2.5, 2.5, -1, 0.5, -1.5, 2, 0, 1, 0, -2, 2, 3, 1};
    struct built b;
    rooms();
    lend(&b);
    builds(&b, points);
    queries(&b);
    certificates(&b, points);
    orders();
    give_back(&b);
    return failures ? 1 : 0;
}
