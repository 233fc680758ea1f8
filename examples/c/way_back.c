/* A lane driven back, from C: height is smoothed, speed is not, so that the curve has both sets.
 * Builds it, makes its return lane, queries and certifies both ways, and shows what is refused. To
 * compile: as lane95.c; it writes examples/c/way_back.txt, and ends with 1 where something is not
 * as the header says.
 */
#include <stdio.h>
#include <stdlib.h>

#include "curve.h"

enum { D = 2, N = 9, HEIGHT = 0 };

/* What a lent cell holds before a call. */
#define MARK (-7.0)

static double *marked(size_t n) {
    double *made = malloc((n ? n : 1) * sizeof(double));
    if (!made)
        exit(2);
    for (size_t i = 0; i < n; i++)
        made[i] = MARK;
    return made;
}

static bool all_marked(const double *cells, size_t n) {
    for (size_t i = 0; i < n; i++)
        if (cells[i] != MARK)
            return false;
    return true;
}

/* The same numbers, and slices of its own for the way back: one marked cell more in each. */
static struct curve room_for(const struct curve *c) {
    struct curve back = *c;
    back.breaks.cells = marked(c->breaks.len + 1);
    back.coefficients.cells = marked(c->coefficients.len + 1);
    back.other_breaks.cells = marked(c->other_breaks.len + 1);
    back.other_coefficients.cells = marked(c->other_coefficients.len + 1);
    return back;
}

static bool none_written(const struct curve *c) {
    return all_marked(c->breaks.cells, c->breaks.len + 1)
        && all_marked(c->coefficients.cells, c->coefficients.len + 1)
        && all_marked(c->other_breaks.cells, c->other_breaks.len + 1)
        && all_marked(c->other_coefficients.cells, c->other_coefficients.len + 1);
}

/* The widths stand behind the coefficients: each is the difference of its breaks. */
static void widths(const struct curve *c) {
    const double *width = c->coefficients.cells + 6 * c->k * c->segments;
    for (size_t i = 0; i < c->segments; i++)
        check("a width is the difference of its breaks",
            width[i] == c->breaks.cells[i + 1] - c->breaks.cells[i]);
}

/* Values at x on the way out, and at start + end - x on the way back. */
static void queries(const struct curve *out, const struct curve *back) {
    const double xs[5] = {0, 7, 17.25, 24, 40};
    double none[1] = {MARK};
    for (size_t i = 0; i < 5; i++) {
        double q[D], dq[D], q_back[D], dq_back[D];
        for (size_t a = 0; a < D; a++)
            q[a] = dq[a] = q_back[a] = dq_back[a] = MARK;
        const double x = xs[i], x_back = out->start + (out->end - x);
        check("a query out", pamitoye_evaluate(CURVE(*out), x, 1, q, D, dq, D, none, 0, none, 0)
            == PAMITOYE_DONE);
        check("a query back", pamitoye_evaluate_formed(CURVE(*back), x_back, 1, q_back, D, dq_back,
            D, none, 0, none, 0) == PAMITOYE_DONE);
        printf("  out at %g: height %.17g slope %.17g, speed %.17g\n", x, q[0], dq[0], q[1]);
        printf("  back at %g: height %.17g slope %.17g, speed %.17g\n", x_back, q_back[0],
            dq_back[0], q_back[1]);
        for (size_t a = 0; a < D; a++) {
            const double moved = q_back[a] - q[a], turned = dq_back[a] + dq[a];
            check("the same place", moved < 1e-12 && moved > -1e-12);
            check("the other direction", turned < 1e-12 && turned > -1e-12);
        }
    }
}

static double certify(const char *call, const struct curve *c, const double *points,
                      const double *parameters, size_t depth) {
    bool given = false;
    double figure = MARK;
    expect(call, pamitoye_certify(CURVE(*c), points, D * N, N, PAMITOYE_LISTED, parameters, N,
        HEIGHT, depth, &given, &figure), PAMITOYE_DONE);
    check("a figure is given", given);
    return figure;
}

/* Both ways at both ends of the depths, side by side. */
static void figures(const struct curve *out, const struct curve *back, const double *points,
                    const double *parameters) {
    /* points in reverse, waypoint by waypoint, and parameters listed for them */
    double points_back[D * N], parameters_back[N];
    for (size_t i = 0; i < N; i++) {
        for (size_t a = 0; a < D; a++)
            points_back[D * i + a] = points[D * (N - 1 - i) + a];
        parameters_back[i] = out->start + (out->end - parameters[N - 1 - i]);
    }
    for (size_t depth = 0; depth <= 6; depth += 6) {
        const double figure = certify("certify the way out", out, points, parameters, depth);
        const double anew = certify("certify the way back", back, points_back, parameters_back,
            depth);
        printf("  depth %zu: out %.17g back %.17g\n", depth, figure, anew);
        check("within the tolerance", figure <= 0.4 && anew <= 0.4);
    }
}

/* 24, 19 and 29, each before the next; none writes a cell. */
static void refusals(const struct curve *out) {
    struct curve lent = room_for(out);
    double *width = out->coefficients.cells + 6 * out->k * out->segments + 1;
    turn_a_bit(width);
    lent.coefficients.len--;
    check("not well formed", !pamitoye_well_formed(CURVE(*out)));
    expect("return lane, one bit of a width turned and a cell short",
        pamitoye_return_lane(CURVE(*out), SLICES(lent)), PAMITOYE_MALFORMED);
    turn_a_bit(width);
    expect("return lane, a cell short", pamitoye_return_lane(CURVE(*out), SLICES(lent)),
        PAMITOYE_SHORT_SLICE);
    lent.coefficients.len++;
    lent.other_breaks.len--;
    expect("return lane, a break of the other set short",
        pamitoye_return_lane(CURVE(*out), SLICES(lent)), PAMITOYE_SHORT_SLICE);
    lent.other_breaks.len++;
    check("nothing is written", none_written(&lent));
    give_back(&lent);

    /* one axis, two segments: 1 - 1e-300 is 1 */
    double breaks[3] = {0, 1e-300, 1}, coefficients[14] = {0}, none[1] = {0};
    coefficients[12] = breaks[1] - breaks[0];
    coefficients[13] = breaks[2] - breaks[1];
    const struct curve close = {.d = 1, .k = 1, .start = 0, .end = 1, .segments = 2,
        .breaks = {breaks, 3}, .coefficients = {coefficients, 14}, .other_breaks = {none, 0},
        .other_coefficients = {none, 0}};
    lent = room_for(&close);
    check("well formed", pamitoye_well_formed(CURVE(close)));
    lent.breaks.len--;
    expect("return lane, breaks 0 1e-300 1 and a cell short",
        pamitoye_return_lane(CURVE(close), SLICES(lent)), PAMITOYE_SHORT_SLICE);
    lent.breaks.len++;
    expect("return lane, breaks 0 1e-300 1", pamitoye_return_lane(CURVE(close), SLICES(lent)),
        PAMITOYE_NOT_RISING);
    check("nothing is written", none_written(&lent));
    give_back(&lent);
}

int main(void) {
    const double points[D * N] = {0, 1.2, 0, 1.25, 8, 1.1, 8, 1.3, 3, 1.28, 3, 1.2, 9, 1.22, 9,
        1.26, 1, 1.2};
    const double parameters[N] = {0, 6, 10, 16, 18, 24, 30, 34, 40};
    const size_t smoothed[1] = {HEIGHT};
    const struct lane lane = {.d = D, .n = N, .points = points, .tolerance = 0.4, .axis_count = 1,
        .axes = smoothed, .parameters = parameters};
    double error = 0;
    struct curve out = build(&lane, &error), back = room_for(&out);
    printf("  %zu segments of height, %zu of speed, error %.17g\n", out.segments,
        out.other_segments, error);
    widths(&out);
    expect("return lane", pamitoye_return_lane(CURVE(out), SLICES(back)), PAMITOYE_DONE);
    const bool formed = pamitoye_well_formed(CURVE(back));
    printf("  %s\n", formed ? "well formed" : "not well formed");
    check("the return lane is well formed", formed);
    check("the cells behind are unchanged", back.breaks.cells[back.breaks.len] == MARK
        && back.coefficients.cells[back.coefficients.len] == MARK
        && back.other_breaks.cells[back.other_breaks.len] == MARK
        && back.other_coefficients.cells[back.other_coefficients.len] == MARK);
    widths(&back);
    if (failures)
        return 1; /* the queries of the way back rely on a well-formed curve */
    queries(&out, &back);
    figures(&out, &back, points, parameters);
    refusals(&out);
    give_back(&back);
    give_back(&out);
    return failures ? 1 : 0;
}
