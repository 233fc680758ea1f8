/* The 0.95 lane of document 01 from C: points 0, 0.95, 0, tolerance 1. Smooths it, queries it and
 * certifies it. From the repository's root, after `./build.sh pamitoye`:
 *
 *     cc -std=c11 -Wall -Wextra -Werror -Iinclude examples/c/lane95.c \
 *         target/staticlib/libpamitoye.a -o lane95
 *     ./lane95        # writes examples/c/lane95.txt
 */
#include <inttypes.h>
#include <stdio.h>
#include <stdlib.h>

#include "pamitoye.h"

/* A refusal ends the program. */
static void expect_done(const char *call, uint64_t number) {
    if (number != PAMITOYE_DONE) {
        fprintf(stderr, "%s: refused %" PRIu64 "\n", call, number);
        exit(1);
    }
}

/* Cells for a slice, all 0: at least one, so that the pointer is not null. */
static double *cells(size_t n) {
    double *made = calloc(n ? n : 1, sizeof(double));
    if (!made) {
        fprintf(stderr, "out of memory\n");
        exit(1);
    }
    return made;
}

int main(void) {
    enum { D = 1, N = 3, MAX_REFINEMENTS = 20, MAX_SEGMENTS = 100 };
    const double points[D * N] = {0, 0.95, 0};
    const double no_list[1] = {0}; /* for slices of length 0 */
    const size_t no_axes[1] = {0};

    size_t room[6] = {0};
    expect_done("room", pamitoye_room(D, N, MAX_SEGMENTS, room));
    double *work = cells(room[0]);
    double *breaks = cells(room[1]);
    double *coefficients = cells(room[2]);
    double *other_breaks = cells(room[3]);
    double *other_coefficients = cells(room[4]);
    double *errors = cells(room[5]);

    size_t counts[5] = {0}, k = 0, axes[16] = {0};
    double ratio = 0, start = 0, end = 0;
    expect_done("build", pamitoye_build(points, D * N, D, N, true, no_axes, 0, true, 1.0,
        no_list, 0, PAMITOYE_EVEN, no_list, 0, MAX_REFINEMENTS, MAX_SEGMENTS, false, work, room[0],
        breaks, room[1], coefficients, room[2], other_breaks, room[3], other_coefficients, room[4],
        errors, room[5], counts, &ratio, &k, axes, &start, &end));
    printf("accepted %zu %zu %zu %zu %zu\n", counts[0], counts[1], counts[2], counts[3], counts[4]);
    for (size_t i = 0; i < k; i++)
        printf("axis %zu error %.17g\n", axes[i], errors[i]);

    /* the cells of the curve: all axes are smoothed, so that the other set is empty */
    const size_t breaks_len = counts[0] + 1, coefficients_len = (6 * k + 1) * counts[0];

    const double xs[3] = {0, 0.5, 1};
    double q[3 * D] = {0}, dq[3 * D] = {0};
    size_t refused_at = 0;
    expect_done("evaluate", pamitoye_evaluate_all_formed(D, k, axes, start, end, false, counts[0],
        counts[1], breaks, breaks_len, coefficients, coefficients_len, other_breaks, 0,
        other_coefficients, 0, xs, 3, 1, q, 3 * D, dq, 3 * D, work, 0, work, 0, &refused_at));
    for (size_t i = 0; i < 3; i++)
        printf("at %g value %.17g slope %.17g\n", xs[i], q[i], dq[i]);

    bool given = false;
    double figure = 0;
    expect_done("certify", pamitoye_certify(D, k, axes, start, end, false, counts[0], counts[1],
        breaks, breaks_len, coefficients, coefficients_len, other_breaks, 0, other_coefficients, 0,
        points, D * N, N, PAMITOYE_EVEN, no_list, 0, 0, 0, &given, &figure));
    if (given)
        printf("certified %.17g\n", figure);
    else
        printf("no certified figure\n");

    free(work);
    free(breaks);
    free(coefficients);
    free(other_breaks);
    free(other_coefficients);
    free(errors);
    return given ? 0 : 1;
}
