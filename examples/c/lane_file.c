/* The lane file of the 0.95 lane, from C: smooths points 0, 0.95, 0 with tolerance 1, writes the
 * curve as a lane file, prints its bytes, reads it back and compares bits; lets the bits of NaNs
 * travel; and shows what is refused. To compile: as lane95.c; it writes examples/c/lane_file.txt,
 * and ends with 1 where something is not as the header says.
 */
#include <stdio.h>
#include <stdlib.h>
#include <string.h>

#include "curve.h"

/* What a byte holds before a call, also of the cells that are lent to the reader. */
enum { MARK = 0xa5 };

/* Coefficients are kept as doubles, and the same memory is passed as bit patterns. */
#define BITS(s) (uint64_t *)(s).cells, (s).len
#define SLICES_BY_BITS(c)                                                                          \
    SLICE((c).breaks), BITS((c).coefficients), SLICE((c).other_breaks),                            \
        BITS((c).other_coefficients)
#define WRITE(c, file, len, count)                                                                 \
    pamitoye_write_lane((c).d, (c).k, (c).axes, (c).start, (c).end, (c).clamp, (c).segments,       \
        (c).other_segments, SLICES_BY_BITS(c), (file), (len), (count))
#define READ(file, len, c)                                                                         \
    pamitoye_read_lane((file), (len), &(c).d, &(c).k, (c).axes, &(c).start, &(c).end, &(c).clamp,  \
        &(c).segments, &(c).other_segments, SLICES_BY_BITS(c))

/* Bytes for a slice, all marked: at least one, so that the pointer is not null. */
static void *marked(size_t bytes) {
    void *made = malloc(bytes ? bytes : 1);
    if (!made)
        exit(2);
    memset(made, MARK, bytes);
    return made;
}

static bool all_marked(const void *bytes, size_t n) {
    for (size_t i = 0; i < n; i++)
        if (((const unsigned char *)bytes)[i] != MARK)
            return false;
    return true;
}

static struct slice cells(size_t n) {
    struct slice made = {marked(n * sizeof(double)), n};
    return made;
}

/* A length that is never too short for the curve's file. */
static size_t room_for(const struct curve *c) {
    return 41 + 8 * (c->breaks.len + c->coefficients.len + c->other_breaks.len
        + c->other_coefficients.len);
}

/* Nothing but marks, and slices that are never too short for a file of so many bytes. */
static struct curve marked_curve(size_t file_len) {
    struct curve c;
    memset(&c, MARK, sizeof c);
    c.clamp = false; /* a bool holds 0 or 1 */
    c.breaks = cells(file_len / 8);
    c.coefficients = cells(file_len / 8);
    c.other_breaks = cells(file_len / 8);
    c.other_coefficients = cells(file_len / 8);
    return c;
}

static bool same_slice(struct slice a, struct slice b, size_t used) {
    return memcmp(a.cells, b.cells, used * sizeof(double)) == 0
        && all_marked(b.cells + used, (b.len - used) * sizeof(double));
}

/* Whether `read` has the numbers of `c`, bit by bit, and marks behind the used cells. */
static bool same_curve(const struct curve *c, const struct curve *read) {
    return read->d == c->d && read->k == c->k
        && memcmp(read->axes, c->axes, sizeof c->axes) == 0
        && memcmp(&read->start, &c->start, sizeof c->start) == 0
        && memcmp(&read->end, &c->end, sizeof c->end) == 0
        && read->clamp == c->clamp && read->segments == c->segments
        && read->other_segments == c->other_segments
        && same_slice(c->breaks, read->breaks, c->breaks.len)
        && same_slice(c->coefficients, read->coefficients, c->coefficients.len)
        && same_slice(c->other_breaks, read->other_breaks, c->other_breaks.len)
        && same_slice(c->other_coefficients, read->other_coefficients, c->other_coefficients.len);
}

static void print_line(const uint8_t *bytes, size_t n) {
    printf(" ");
    for (size_t i = 0; i < n; i++)
        printf(" %02X", bytes[i]);
    printf("\n");
}

/* The bytes in hex: the whole numbers in one line, then each number of eight bytes in its own. The
 * other set is empty, and the widths are not in the file. */
static void print(const struct curve *c, const uint8_t *file, size_t count) {
    const size_t numbers = 2 + c->breaks.len + c->coefficients.len - c->segments;
    print_line(file, count - 8 * numbers);
    for (size_t i = count - 8 * numbers; i < count; i += 8)
        print_line(file + i, 8);
}

/* Writes the curve's file; what lies behind it stays marked. The caller frees it. */
static uint8_t *written(const char *call, const struct curve *c, size_t *count) {
    const size_t len = room_for(c);
    uint8_t *file = marked(len);
    *count = 0;
    expect(call, WRITE(*c, file, len, count), PAMITOYE_DONE);
    printf("  %zu bytes\n", *count);
    check("the bytes behind are unchanged",
        *count < len && all_marked(file + *count, len - *count));
    return file;
}

/* Reads a curve's file back, and writes what was read: the same bytes. */
static void read_back(const char *call, const struct curve *c, const uint8_t *file, size_t count) {
    struct curve read = marked_curve(count);
    expect(call, READ(file, count, read), PAMITOYE_DONE);
    const bool same = same_curve(c, &read);
    printf("  %s\n", same ? "the same curve, bit by bit" : "another curve");
    check("the curve comes back", same);
    /* slices of exactly the used lengths, as every function takes them */
    read.breaks.len = c->breaks.len;
    read.coefficients.len = c->coefficients.len;
    read.other_breaks.len = c->other_breaks.len;
    read.other_coefficients.len = c->other_coefficients.len;
    size_t again = 0;
    uint8_t *anew = marked(room_for(&read));
    expect("write what was read", WRITE(read, anew, room_for(&read), &again), PAMITOYE_DONE);
    check("the same file", again == count && memcmp(anew, file, count) == 0);
    free(anew);
    give_back(&read);
}

/* NaNs, quiet and signalling, in the coefficients: put there and compared as memory. */
static void nans(struct curve *c) {
    const uint64_t patterns[6] = {UINT64_C(0x7FF8000000000000), UINT64_C(0x7FF0000000000001),
        UINT64_C(0xFFF4000000001234), UINT64_C(0xFFFFFFFFFFFFFFFF), UINT64_C(0x7FF0000000000000),
        UINT64_C(0x8000000000000000)};
    double kept[6];
    memcpy(kept, c->coefficients.cells, sizeof kept);
    memcpy(c->coefficients.cells, patterns, sizeof patterns);
    size_t count = 0;
    uint8_t *file = written("write, with NaNs", c, &count);
    print(c, file, count);
    read_back("read, with NaNs", c, file, count);
    free(file);
    memcpy(c->coefficients.cells, kept, sizeof kept);
}

/* Writing tests 24, then 19; neither changes a byte. */
static void write_refusals(struct curve *c, size_t needed) {
    uint8_t *file = marked(needed);
    size_t count = 7;
    double *width = c->coefficients.cells + 6 * c->k * c->segments;
    turn_a_bit(width);
    expect("write, one bit of a width turned and a byte short", WRITE(*c, file, needed - 1, &count),
        PAMITOYE_MALFORMED);
    turn_a_bit(width);
    expect("write, a byte short", WRITE(*c, file, needed - 1, &count), PAMITOYE_SHORT_SLICE);
    check("nothing is written", count == 7 && all_marked(file, needed));
    free(file);
}

/* Reads what is refused, into slices of this many cells for the coefficients; nothing changes. */
static void refused(const char *call, const uint8_t *file, size_t count, size_t coefficients,
                    uint64_t wanted) {
    struct curve read = marked_curve(count);
    read.coefficients.len = coefficients;
    struct curve before;
    memcpy(&before, &read, sizeof before);
    expect(call, READ(file, count, read), wanted);
    check("no number is written", memcmp(&read, &before, sizeof read) == 0);
    check("no cell is written", all_marked(read.breaks.cells, count / 8 * 8)
        && all_marked(read.coefficients.cells, count / 8 * 8)
        && all_marked(read.other_breaks.cells, count / 8 * 8)
        && all_marked(read.other_coefficients.cells, count / 8 * 8));
    give_back(&read);
}

/* Reading tests 27, then 24, then 19. */
static void read_refusals(uint8_t *file, size_t count) {
    refused("read, the last byte missing and a cell short", file, count - 1, 6,
        PAMITOYE_DOES_NOT_READ);
    uint8_t *longer = marked(count + 1);
    memcpy(longer, file, count);
    refused("read, a byte left over", longer, count + 1, 7, PAMITOYE_DOES_NOT_READ);
    free(longer);
    file[3] = 2;
    refused("read, mode 2", file, count, 7, PAMITOYE_DOES_NOT_READ);
    file[3] = 0;
    file[21] ^= 0x80; /* the sign of end, the second number of eight bytes */
    refused("read, from 0 to -1 and a cell short", file, count, 6, PAMITOYE_MALFORMED);
    file[21] ^= 0x80;
    refused("read, a cell short", file, count, 6, PAMITOYE_SHORT_SLICE);
}

int main(void) {
    const double points[3] = {0, 0.95, 0};
    const struct lane lane = {.d = 1, .n = 3, .points = points, .tolerance = 1.0};
    double error = 0;
    struct curve c = build(&lane, &error);
    if (failures)
        return 1;
    size_t count = 0;
    uint8_t *file = written("write", &c, &count);
    print(&c, file, count);
    read_back("read", &c, file, count);
    nans(&c);
    write_refusals(&c, count);
    read_refusals(file, count);
    free(file);
    give_back(&c);
    return failures ? 1 : 0;
}
