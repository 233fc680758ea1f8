/* Parameters by chord length, from C: the same lane by the rule and with its parameters listed. The
 * distances between neighbouring waypoints are whole numbers, so that the list can be read off. To
 * compile: as lane95.c; it writes examples/c/chords.txt, and ends with 1 where something is not as
 * the header says.
 */
#include <inttypes.h>
#include <stdio.h>
#include <stdlib.h>
#include <string.h>

#include "expect.h"
#include "pamitoye.h"

enum { D = 2, N = 6, NORTH = 1, MAX_REFINEMENTS = 20, MAX_SEGMENTS = 100 };

/* What every output holds before a call. */
#define MARK (-7.0)
#define COUNT_MARK ((size_t)77)

/* A slice: its cells, and how many of them are lent. */
struct slice {
    double *cells;
    size_t len;
};

/* What a build is lent and writes: breaks, coefficients, both of the other set, and errors. */
enum { BREAKS, COEFFICIENTS, OTHER_BREAKS, OTHER_COEFFICIENTS, ERRORS, SLICES };

struct built {
    struct slice slices[SLICES];
    size_t counts[5], k, axes[16];
    double ratio, start, end;
};

#define SLICE(s) (s).cells, (s).len

static struct slice marked(size_t n) {
    struct slice s = {malloc((n ? n : 1) * sizeof(double)), n};
    if (!s.cells)
        exit(2);
    for (size_t i = 0; i < n; i++)
        s.cells[i] = MARK;
    return s;
}

/* North is smoothed with this tolerance, east is not: for the chords both count. */
static uint64_t build(struct built *b, const double *points, double tolerance, uint64_t spacing,
                      const double *parameters, size_t parameters_len) {
    const size_t axis_list[1] = {NORTH};
    const double no_list[1] = {0}; /* for a slice of length 0 */
    size_t room[6] = {0};
    if (pamitoye_room(D, N, MAX_SEGMENTS, room) != PAMITOYE_DONE)
        exit(2);
    struct slice work = marked(room[0]);
    for (size_t i = 0; i < SLICES; i++)
        b->slices[i] = marked(room[i + 1]);
    for (size_t i = 0; i < 5; i++)
        b->counts[i] = COUNT_MARK;
    for (size_t i = 0; i < 16; i++)
        b->axes[i] = COUNT_MARK;
    b->k = COUNT_MARK;
    b->ratio = b->start = b->end = MARK;
    const uint64_t number = pamitoye_build(points, D * N, D, N, false, axis_list, 1, true,
        tolerance, no_list, 0, spacing, parameters, parameters_len, MAX_REFINEMENTS, MAX_SEGMENTS,
        false, SLICE(work), SLICE(b->slices[BREAKS]), SLICE(b->slices[COEFFICIENTS]),
        SLICE(b->slices[OTHER_BREAKS]), SLICE(b->slices[OTHER_COEFFICIENTS]),
        SLICE(b->slices[ERRORS]), b->counts, &b->ratio, &b->k, b->axes, &b->start, &b->end);
    free(work.cells);
    return number;
}

static void give_back(struct built *b) {
    for (size_t i = 0; i < SLICES; i++)
        free(b->slices[i].cells);
}

/* A build that is refused: nothing is written. */
static void refused(const char *call, const double *points, double tolerance, uint64_t spacing) {
    const double no_list[1] = {0};
    struct built b;
    expect(call, build(&b, points, tolerance, spacing, no_list, 0), PAMITOYE_BAD_PARAMETERS);
    for (size_t i = 0; i < SLICES; i++)
        for (size_t j = 0; j < b.slices[i].len; j++)
            check("no cell is written", b.slices[i].cells[j] == MARK);
    check("nor a number", b.counts[0] == COUNT_MARK && b.k == COUNT_MARK && b.start == MARK
        && b.end == MARK);
    give_back(&b);
}

/* Every byte of both, used or not. */
static bool same(const struct built *a, const struct built *b) {
    for (size_t i = 0; i < SLICES; i++)
        if (memcmp(a->slices[i].cells, b->slices[i].cells, a->slices[i].len * sizeof(double)) != 0)
            return false;
    return memcmp(a->counts, b->counts, sizeof a->counts) == 0 && a->k == b->k
        && memcmp(a->axes, b->axes, sizeof a->axes) == 0
        && memcmp(&a->ratio, &b->ratio, sizeof a->ratio) == 0
        && memcmp(&a->start, &b->start, sizeof a->start) == 0
        && memcmp(&a->end, &b->end, sizeof a->end) == 0;
}

/* The certified figure of north. */
static uint64_t certify(const struct built *b, const double *points, uint64_t spacing,
                        const double *parameters, size_t parameters_len, size_t depth,
                        bool *given, double *figure) {
    const size_t *counts = b->counts;
    const struct slice *s = b->slices;
    return pamitoye_certify(D, b->k, b->axes, b->start, b->end, false, counts[0], counts[1],
        s[BREAKS].cells, counts[0] + 1, s[COEFFICIENTS].cells, (6 * b->k + 1) * counts[0],
        s[OTHER_BREAKS].cells, counts[1] + 1, s[OTHER_COEFFICIENTS].cells,
        (6 * (D - b->k) + 1) * counts[1], points, D * N, N, spacing, parameters, parameters_len,
        NORTH, depth, given, figure);
}

/* By chords and listed the same figure, bit for bit; against even parameters another. */
static void figures(const struct built *b, const double *points, const double *parameters) {
    const double no_list[1] = {0};
    for (size_t depth = 0; depth <= 6; depth += 6) {
        bool given[3] = {false, false, false};
        double figure[3] = {MARK, MARK, MARK};
        expect("certify by chords", certify(b, points, PAMITOYE_CHORD, no_list, 0, depth,
            &given[0], &figure[0]), PAMITOYE_DONE);
        expect("certify, listed", certify(b, points, PAMITOYE_LISTED, parameters, N, depth,
            &given[1], &figure[1]), PAMITOYE_DONE);
        expect("certify, even", certify(b, points, PAMITOYE_EVEN, no_list, 0, depth, &given[2],
            &figure[2]), PAMITOYE_DONE);
        printf("  depth %zu: chords %.17g listed %.17g even %.17g\n", depth, figure[0], figure[1],
            figure[2]);
        check("given", given[0] && given[1] && given[2]);
        check("the same figure", memcmp(&figure[0], &figure[1], sizeof(double)) == 0);
        check("within the tolerance, and another for even ones", figure[0] <= 0.5
            && figure[2] > 0.5);
    }
}

int main(void) {
    /* east and north; 5, 4, 13, 8 and 10 from one waypoint to the next */
    const double points[D * N] = {0, 0, 3, 4, 3, 0, 8, 12, 8, 4, 16, 10};
    const double parameters[N] = {0, 5, 9, 22, 30, 40};
    const double no_list[1] = {0};
    struct built chords, listed, other;
    expect("build by chords", build(&chords, points, 0.5, PAMITOYE_CHORD, no_list, 0),
        PAMITOYE_DONE);
    expect("build, listed", build(&listed, points, 0.5, PAMITOYE_LISTED, parameters, N),
        PAMITOYE_DONE);
    expect("build, listed, as an unknown spacing", build(&other, points, 0.5, 3, parameters, N),
        PAMITOYE_DONE);
    if (failures)
        return 1; /* nothing was built */
    printf("  from %g to %g, %zu segments of north, %zu of east, error %.17g\n", chords.start,
        chords.end, chords.counts[0], chords.counts[1], chords.slices[ERRORS].cells[0]);
    check("the same bytes", same(&chords, &listed) && same(&listed, &other));
    check("from 0 to 40", chords.start == 0 && chords.end == 40);
    figures(&chords, points, parameters);

    /* the third waypoint where the second is; one that is too far away; north the same, east not */
    double twice[D * N], far[D * N], level[D * N];
    memcpy(twice, points, sizeof twice);
    memcpy(far, points, sizeof far);
    memcpy(level, points, sizeof level);
    twice[2 * D + NORTH] = 4;
    far[2 * D + NORTH] = 1e160;
    level[3 * D + NORTH] = 0;
    refused("build by chords, twice at one place", twice, 0.5, PAMITOYE_CHORD);
    refused("build by chords, an infinite chord", far, 1e150, PAMITOYE_CHORD);
    refused("build without a list", points, 0.5, PAMITOYE_LISTED);
    refused("build without a list, spacing 3", points, 0.5, 3);
    refused("build without a list, the largest number", points, 0.5, UINT64_MAX);
    bool given = false;
    double figure = MARK;
    expect("certify by chords, twice at one place", certify(&chords, twice, PAMITOYE_CHORD, no_list,
        0, 0, &given, &figure), PAMITOYE_BAD_PARAMETERS);
    expect("certify without a list, spacing 3", certify(&chords, points, 3, no_list, 0, 0, &given,
        &figure), PAMITOYE_BAD_PARAMETERS);
    check("given and figure are unchanged", !given && figure == MARK);
    give_back(&other);
    expect("build by chords, east alone differs", build(&other, level, 0.5, PAMITOYE_CHORD, no_list,
        0), PAMITOYE_DONE);
    printf("  from %g to %.17g\n", other.start, other.end);
    give_back(&other);
    give_back(&listed);
    give_back(&chords);
    return failures ? 1 : 0;
}
