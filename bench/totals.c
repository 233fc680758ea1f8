/* Season totals (document 02, request 13) in plain C: totals.sh measures the program `totals` beside it. Lane files are taken for
 * whole and well formed, so that neither 27 nor 24 is looked for; a lane with 28 is turned away. */
#include <math.h>
#include <stdint.h>
#include <stdio.h>
#include <string.h>
#include <unistd.h>

enum { STEPS = 256, BLOCK = 65536, MOST = 2000000 };

typedef const unsigned char *bytes;

static const double choose[6][6] = {
    {1}, {1, 1}, {1, 2, 1}, {1, 3, 3, 1}, {1, 4, 6, 4, 1}, {1, 5, 10, 10, 5, 1},
};

/* C(5,k) * j^k * (256 - j)^(5 - k). */
static int64_t weights[STEPS][6];

static void make_weights(void) {
    for (int j = 0; j < STEPS; j++)
        for (int k = 0; k < 6; k++) {
            weights[j][k] = (int64_t)choose[5][k];
            for (int i = 0; i < 5; i++)
                weights[j][k] *= i < k ? j : STEPS - j;
        }
}

struct totals {
    int64_t lanes, segments, lowest, highest, sum, turned_away;
};

static const struct totals nothing = {.lowest = INT64_MAX, .highest = INT64_MIN};

static void add(struct totals *all, const struct totals *one) {
    all->lanes += one->lanes;
    all->segments += one->segments;
    all->lowest = one->lowest < all->lowest ? one->lowest : all->lowest;
    all->highest = one->highest > all->highest ? one->highest : all->highest;
    all->sum += one->sum;
    all->turned_away += one->turned_away;
}

/* The whole controls of a segment; false for 28. Over a whole segment what `audit` computes first are the coefficients again. */
static int controls_of(bytes at, int64_t wholes[6]) {
    double p[6];
    int fit = 1;
    memcpy(p, at, sizeof p);
    for (int k = 0; k < 6; k++) {
        double control = 0;
        for (int j = 0; j <= k; j++)
            control += p[j] * choose[k][j] / choose[5][j];
        control *= 100;
        fit &= fabs(control) <= MOST;
        wholes[k] = fit ? llround(control) : 0;
    }
    return fit;
}

/* The heights of a segment at steps 0 to 255. */
static void add_steps(struct totals *lane, const int64_t wholes[6]) {
    const int64_t half = (int64_t)1 << 39;
    int64_t lowest = INT64_MAX, highest = INT64_MIN, all = 0;
    for (int j = 0; j < STEPS; j++) {
        int64_t sum = 0;
        for (int k = 0; k < 6; k++)
            sum += weights[j][k] * wholes[k];
        int64_t height = sum < 0 ? -((half - sum) >> 40) : (half + sum) >> 40;
        lowest = height < lowest ? height : lowest;
        highest = height > highest ? height : highest;
        all += height;
    }
    struct totals one = {.segments = 1, .lowest = lowest, .highest = highest, .sum = all};
    add(lane, &one);
}

/* A whole number in at most three groups of seven bits, and the place behind it; null where the bytes end before. */
static bytes number(bytes at, bytes end, size_t *value) {
    *value = 0;
    for (int shift = 0; at < end && shift < 21; shift += 7) {
        *value |= (size_t)(*at & 127) << shift;
        if (*at++ < 128)
            return at;
    }
    return NULL;
}

/* The totals of a lane file. */
static struct totals totals_of(bytes at, bytes end) {
    size_t d, k, axis, mode, segments, other_segments;
    at = number(number(at, end, &d), end, &k);
    size_t place = k;
    for (size_t i = 0; i < k; i++) {
        at = number(at, end, &axis);
        if (axis == 0)
            place = i;
    }
    at = number(number(number(at, end, &mode), end, &segments), end, &other_segments);
    at += 16;
    /* Axis 0 is selected at `place`, or it is the first of the others. */
    size_t axes = k;
    if (place == k) {
        at += 8 * (segments + 1 + 6 * segments * k);
        axes = d - k;
        place = 0;
        segments = other_segments;
    }
    at += 8 * (segments + 1 + 6 * place);
    struct totals lane = nothing;
    lane.lanes = 1;
    for (size_t i = 0; i < segments; i++, at += 48 * axes) {
        int64_t wholes[6];
        if (!controls_of(at, wholes)) {
            lane = nothing;
            lane.turned_away = 1;
            return lane;
        }
        add_steps(&lane, wholes);
    }
    return lane;
}

static void print(const struct totals *all) {
    printf("%lld\n%lld\n", (long long)all->lanes, (long long)all->segments);
    if (all->lanes)
        printf("%lld\n%lld\n", (long long)all->lowest, (long long)all->highest);
    else
        printf("none\nnone\n");
    printf("%lld\n%lld\n", (long long)all->sum, (long long)all->turned_away);
}

int main(void) {
    static unsigned char buffer[BLOCK];
    struct totals all = nothing;
    size_t filled = 0;
    ssize_t count;
    make_weights();
    while ((count = read(STDIN_FILENO, buffer + filled, BLOCK - filled)) > 0) {
        bytes at = buffer, end = buffer + filled + count, from;
        size_t length;
        while ((from = number(at, end, &length)) && length <= (size_t)(end - from)) {
            at = from + length;
            struct totals one = totals_of(from, at);
            add(&all, &one);
        }
        filled = end - at;
        memmove(buffer, at, filled);
    }
    if (filled)
        puts("refused 30");
    else
        print(&all);
    return 0;
}
