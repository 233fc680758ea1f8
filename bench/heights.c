/* Heights (document 02, request 9) in plain C: src/heights.rs compares them with the library's, and measures both. It is compiled
 * once for each of several levels of optimisation; HEIGHTS is the name that the function gets.
 *
 * As the library it has nowhere to keep controls, and computes them twice: to test all before anything is written, and to write. */
#include "pamitoye.h"

#include <math.h>
#include <string.h>

enum { STEPS = 256, ROW = STEPS + 1, MOST = 20000 };

/* The weights of step j, C(5,k) * j^k * (256 - j)^(5 - k). */
#define POWER2(x) ((int64_t)(x) * (x))
#define POWER4(x) (POWER2(x) * POWER2(x))
#define WEIGHTS(j, i)                                                                                                          \
    {POWER4(i) * (i),                 5 * POWER4(i) * (j),             10 * POWER2(i) * (i) * POWER2(j),                       \
     10 * POWER2(i) * POWER2(j) * (j), 5 * (i) * POWER4(j),             POWER4(j) * (j)}
#define ONE(j) WEIGHTS((j), STEPS - (j))
#define FOUR(j) ONE(j), ONE((j) + 1), ONE((j) + 2), ONE((j) + 3)
#define SIXTEEN(j) FOUR(j), FOUR((j) + 4), FOUR((j) + 8), FOUR((j) + 12)
#define SIXTY_FOUR(j) SIXTEEN(j), SIXTEEN((j) + 16), SIXTEEN((j) + 32), SIXTEEN((j) + 48)

static const int64_t weights[ROW][6] = {SIXTY_FOUR(0), SIXTY_FOUR(64), SIXTY_FOUR(128), SIXTY_FOUR(192), ONE(STEPS)};

static const double choose[6][6] = {
    {1}, {1, 1}, {1, 2, 1}, {1, 3, 3, 1}, {1, 4, 6, 4, 1}, {1, 5, 10, 10, 5, 1},
};

/* x to the n by squaring from the low bit of n, starting at 1. */
static double power(double x, unsigned n) {
    double result = 1;
    for (; n; n /= 2, x *= x)
        if (n % 2)
            result *= x;
    return result;
}

/* The Bernstein controls of a segment from a to b, as `audit` computes them, each times 100. */
static void hundredths(double a, double b, const double *p, double controls[6]) {
    double u[6], w[6], powers[6];
    for (unsigned k = 0; k < 6; k++) {
        u[k] = power((a - a) / (b - a), k);
        w[k] = power((b - a) / (b - a), k);
    }
    for (unsigned j = 0; j < 6; j++) {
        double sum = 0;
        for (unsigned k = j; k < 6; k++)
            sum += choose[k][j] * p[k] * u[k - j];
        powers[j] = sum * w[j];
    }
    for (unsigned k = 0; k < 6; k++) {
        double sum = 0;
        for (unsigned j = 0; j <= k; j++)
            sum += powers[j] * choose[k][j] / choose[5][j];
        controls[k] = sum * 100;
    }
}

static bool fit(const double controls[6]) {
    bool all = true;
    for (unsigned k = 0; k < 6; k++)
        all &= fabs(controls[k]) <= 2000000;
    return all;
}

static void heights_of(const double controls[6], int32_t *heights) {
    int64_t wholes[6];
    for (unsigned k = 0; k < 6; k++)
        wholes[k] = llround(controls[k]);
    for (unsigned j = 0; j < ROW; j++) {
        int64_t sum = 0, half = (int64_t)1 << 39;
        for (unsigned k = 0; k < 6; k++)
            sum += weights[j][k] * wholes[k];
        heights[j] = (int32_t)(sum < 0 ? -((half - sum) >> 40) : (half + sum) >> 40);
    }
}

/* Breaks, and coefficients with the widths behind them, of the selected or of the other axes. */
struct set {
    size_t axes, segments;
    const double *breaks;
    size_t breaks_len;
    const double *coefficients;
    size_t coefficients_len;
};

static bool set_formed(const struct set *set) {
    size_t segments = set->segments;
    if (segments < 1 || segments > MOST || set->breaks_len != segments + 1 ||
        set->coefficients_len != (6 * set->axes + 1) * segments)
        return false;
    const double *breaks = set->breaks, *widths = set->coefficients + 6 * set->axes * segments;
    bool formed = breaks[0] == 0 && breaks[segments] == 1;
    for (size_t i = 0; i < segments; i++) {
        double width = breaks[i + 1] - breaks[i];
        formed &= (breaks[i] < breaks[i + 1]) & (memcmp(&width, &widths[i], sizeof width) == 0);
    }
    return formed;
}

static bool well_formed(size_t d, size_t k, const size_t axes[16], double start, double end, const struct set sets[2]) {
    if (k < 1 || k > d || d > 16)
        return false;
    for (size_t i = 0; i < k; i++) {
        if (axes[i] >= d)
            return false;
        for (size_t j = 0; j < i; j++)
            if (axes[i] == axes[j])
                return false;
    }
    bool others = k < d ? set_formed(&sets[1]) : sets[1].segments == 0 && sets[1].breaks_len == 0 && sets[1].coefficients_len == 0;
    return others && set_formed(&sets[0]) && isfinite(start) && isfinite(end) && isfinite(end - start) && end - start > 0;
}

uint64_t HEIGHTS(size_t d, size_t k, const size_t axes[16], double start, double end, bool clamp, size_t segments,
                 size_t other_segments, const double *breaks, size_t breaks_len, const double *coefficients, size_t coefficients_len,
                 const double *other_breaks, size_t other_breaks_len, const double *other_coefficients, size_t other_coefficients_len,
                 size_t axis, int32_t *heights, size_t heights_len) {
    (void)clamp;
    const struct set sets[2] = {
        {k, segments, breaks, breaks_len, coefficients, coefficients_len},
        {d - k, other_segments, other_breaks, other_breaks_len, other_coefficients, other_coefficients_len},
    };
    if (!well_formed(d, k, axes, start, end, sets))
        return PAMITOYE_MALFORMED;
    if (axis >= d)
        return PAMITOYE_BAD_AXES;
    /* The axis is selected at `at`, or it is another one, and `before` of the selected ones are lower. */
    size_t at = k, before = 0;
    for (size_t i = 0; i < k; i++) {
        before += axes[i] < axis;
        if (axes[i] == axis)
            at = i;
    }
    const struct set *set = &sets[at == k];
    size_t place = at == k ? axis - before : at;
    if (heights_len / ROW < set->segments)
        return PAMITOYE_SHORT_SLICE;
    const double *p = set->coefficients + 6 * place;
    double controls[6];
    for (size_t i = 0; i < set->segments; i++) {
        hundredths(set->breaks[i], set->breaks[i + 1], p + 6 * set->axes * i, controls);
        if (!fit(controls))
            return PAMITOYE_HEIGHT_TOO_LARGE;
    }
    for (size_t i = 0; i < set->segments; i++) {
        hundredths(set->breaks[i], set->breaks[i + 1], p + 6 * set->axes * i, controls);
        heights_of(controls, heights + ROW * i);
    }
    return PAMITOYE_DONE;
}
