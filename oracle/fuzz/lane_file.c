/* A fuzzer of pamitoye_read_lane for libFuzzer; README.md of the folder above has how it is run.
 *
 * Each file is read by the library and by a second reader, written here from document 02, requests 1 and 12. The number, the
 * curve and every lent cell must be the same, those that have to stay as they were too, and what is accepted must be written
 * back as the same file. A difference aborts.
 *
 * An input is five bytes and a file. The first four choose how many cells are lent for each slice; the last chooses what *clamp
 * holds before the call, and on which side of a lent part lies a page that can't be touched. On the other side are marked bytes.
 */
#define _GNU_SOURCE
#include "pamitoye.h"

#include <math.h>
#include <stdio.h>
#include <stdlib.h>
#include <string.h>
#include <sys/mman.h>

enum { CHOICES = 5, PAGE = 4096, ROOM = 256 * PAGE, EDGE = 64, MARK = 0xA7 };
enum { FILE_ROOM = 4, BACK_ROOM = 5, ROOMS = 6 };

/* What a file holds. */
struct lane {
    size_t d, k, axes[16], mode, segments, other_segments;
    size_t head;       /* bytes of the whole numbers */
    size_t breaks[2];  /* cells of both sets */
    size_t rows[2];
    size_t lengths[4]; /* cells of the four slices, with widths */
};

/* A number in groups of seven bits, at *at. */
static bool groups(const uint8_t *file, size_t len, size_t *at, size_t *number) {
    *number = 0;
    for (int i = 0; i < 3; i++) {
        if (*at >= len)
            return false;
        uint8_t byte = file[(*at)++];
        *number |= (size_t)(byte & 127) << 7 * i;
        if (byte < 128)
            return i == 0 || byte != 0;
    }
    return false;
}

/* The whole numbers of a file; of the axes the first 16. */
static bool read_head(const uint8_t *file, size_t len, struct lane *lane) {
    size_t at = 0, axis;
    memset(lane, 0, sizeof *lane);
    if (!groups(file, len, &at, &lane->d) || !groups(file, len, &at, &lane->k) || lane->k > lane->d)
        return false;
    for (size_t i = 0; i < lane->k; i++) {
        if (!groups(file, len, &at, &axis))
            return false;
        if (i < 16)
            lane->axes[i] = axis;
    }
    if (!groups(file, len, &at, &lane->mode) || lane->mode > 1 || !groups(file, len, &at, &lane->segments) ||
        !groups(file, len, &at, &lane->other_segments))
        return false;
    size_t counts[2] = {lane->segments, lane->other_segments}, axes[2] = {lane->k, lane->d - lane->k};
    lane->head = at;
    for (int i = 0; i < 2; i++) {
        lane->breaks[i] = counts[i] ? counts[i] + 1 : 0;
        lane->rows[i] = 6 * counts[i] * axes[i];
        lane->lengths[2 * i] = lane->breaks[i];
        lane->lengths[2 * i + 1] = lane->rows[i] + counts[i];
    }
    return true;
}

/* Bytes of a whole file with this head. */
static size_t whole(const struct lane *lane) {
    return lane->head + 8 * (2 + lane->breaks[0] + lane->rows[0] + lane->breaks[1] + lane->rows[1]);
}

/* Cell i of a file behind its head. */
static uint64_t word(const uint8_t *file, const struct lane *lane, size_t i) {
    uint64_t bits = 0;
    for (int j = 7; j >= 0; j--)
        bits = bits << 8 | file[lane->head + 8 * i + j];
    return bits;
}

static double number(uint64_t bits) {
    double x;
    memcpy(&x, &bits, 8);
    return x;
}

/* Where the breaks of a set begin, in cells behind the head. */
static size_t begin(const struct lane *lane, int set) {
    return set ? 2 + lane->breaks[0] + lane->rows[0] : 2;
}

static double break_at(const uint8_t *file, const struct lane *lane, int set, size_t i) {
    return number(word(file, lane, begin(lane, set) + i));
}

static bool set_formed(const uint8_t *file, const struct lane *lane, int set, size_t segments) {
    if (segments < 1 || segments > 20000)
        return false;
    if (break_at(file, lane, set, 0) != 0 || break_at(file, lane, set, segments) != 1)
        return false;
    for (size_t i = 0; i < segments; i++)
        if (!(break_at(file, lane, set, i) < break_at(file, lane, set, i + 1)))
            return false;
    return true;
}

static bool well_formed(const uint8_t *file, const struct lane *lane) {
    if (lane->k < 1 || lane->d > 16)
        return false;
    for (size_t i = 0; i < lane->k; i++) {
        if (lane->axes[i] >= lane->d)
            return false;
        for (size_t j = 0; j < i; j++)
            if (lane->axes[i] == lane->axes[j])
                return false;
    }
    if (!set_formed(file, lane, 0, lane->segments))
        return false;
    if (lane->k == lane->d ? lane->other_segments != 0 : !set_formed(file, lane, 1, lane->other_segments))
        return false;
    double start = number(word(file, lane, 0)), end = number(word(file, lane, 1));
    return isfinite(start) && isfinite(end) && isfinite(end - start) && end - start > 0;
}

/* The number that is due. */
static uint64_t due(const uint8_t *file, size_t len, bool reads, const struct lane *lane, const size_t lent[4]) {
    if (!reads || whole(lane) != len)
        return PAMITOYE_DOES_NOT_READ;
    if (!well_formed(file, lane))
        return PAMITOYE_MALFORMED;
    for (int i = 0; i < 4; i++)
        if (lent[i] < lane->lengths[i])
            return PAMITOYE_SHORT_SLICE;
    return PAMITOYE_DONE;
}

/* Cell i of a slice of an accepted file; behind the coefficients lie the widths. */
static uint64_t cell(const uint8_t *file, const struct lane *lane, int slice, size_t i) {
    int set = slice / 2;
    if (slice % 2 == 0)
        return word(file, lane, begin(lane, set) + i);
    if (i < lane->rows[set])
        return word(file, lane, begin(lane, set) + lane->breaks[set] + i);
    double width = break_at(file, lane, set, i - lane->rows[set] + 1) - break_at(file, lane, set, i - lane->rows[set]);
    uint64_t bits;
    memcpy(&bits, &width, 8);
    return bits;
}

static uint8_t *rooms[ROOMS];
static size_t answers[28];

static void print_answers(void) {
    fprintf(stderr, "files read:");
    for (int i = 0; i < 28; i++)
        if (answers[i])
            fprintf(stderr, " %zu with %d,", answers[i], i);
    fprintf(stderr, " no difference\n");
}

int LLVMFuzzerInitialize(int *argc, char ***argv) {
    (void)argc, (void)argv;
    for (int i = 0; i < ROOMS; i++) {
        uint8_t *all = mmap(NULL, ROOM + 2 * PAGE, PROT_NONE, MAP_PRIVATE | MAP_ANONYMOUS, -1, 0);
        if (all == MAP_FAILED || mprotect(all + PAGE, ROOM, PROT_READ | PROT_WRITE))
            abort();
        rooms[i] = all + PAGE;
    }
    atexit(print_answers);
    return 0;
}

/* A part of a room, against its last page or its first, all marked, and so are the bytes on its other side. */
static uint8_t *lend(int room, size_t bytes, bool at_end) {
    uint8_t *from = at_end ? rooms[room] + ROOM - bytes - EDGE : rooms[room];
    memset(from, MARK, bytes + EDGE);
    return at_end ? from + EDGE : from;
}

static void ask(bool holds, const char *what) {
    if (!holds) {
        fprintf(stderr, "difference: %s\n", what);
        abort();
    }
}

static bool marked(const uint8_t *part, size_t bytes) {
    for (size_t i = 0; i < bytes; i++)
        if (part[i] != MARK)
            return false;
    return true;
}

/* The marked bytes beside a part are marked still. */
static bool kept(const uint8_t *part, size_t bytes, bool at_end) {
    return marked(at_end ? part - EDGE : part + bytes, EDGE);
}

/* The single outputs, with a marked cell between any two. */
enum { D = 1, K = 3, AXES = 5, START = 22, END = 24, CLAMP = 26, SEGMENTS = 28, OTHER_SEGMENTS = 30, CELLS = 32 };

int LLVMFuzzerTestOneInput(const uint8_t *data, size_t size) {
    if (size < CHOICES || size > ROOM - PAGE)
        return 0;
    const uint8_t *input = data + CHOICES;
    size_t len = size - CHOICES, lent[4];
    struct lane lane;
    bool reads = read_head(input, len, &lane), at_end = data[4] & 2;
    for (int i = 0; i < 4; i++) {
        size_t needed = reads && whole(&lane) == len ? lane.lengths[i] : len / 8;
        size_t chosen[8] = {needed, needed, needed, needed + 1, needed + 7, needed ? needed - 1 : 0, 0, len / 8};
        lent[i] = chosen[data[i] % 8];
    }

    uint8_t *file = lend(FILE_ROOM, len, at_end), *slices[4];
    memcpy(file, input, len);
    for (int i = 0; i < 4; i++)
        slices[i] = lend(i, 8 * lent[i], at_end);
    uint64_t numbers[CELLS], wanted[CELLS];
    memset(numbers, MARK, sizeof numbers);
    uint8_t *clamp = (uint8_t *)&numbers[CLAMP];
    *clamp = data[4] & 1;
    memcpy(wanted, numbers, sizeof wanted);

    uint64_t answer = pamitoye_read_lane(
        file, len, &numbers[D], &numbers[K], &numbers[AXES], (double *)&numbers[START], (double *)&numbers[END], (bool *)clamp,
        &numbers[SEGMENTS], &numbers[OTHER_SEGMENTS], (double *)slices[0], lent[0], (uint64_t *)slices[1], lent[1],
        (double *)slices[2], lent[2], (uint64_t *)slices[3], lent[3]);

    ask(answer == due(input, len, reads, &lane, lent), "the number");
    answers[answer]++;
    ask(memcmp(file, input, len) == 0 && kept(file, len, at_end), "the file was written");
    if (answer == PAMITOYE_DONE) {
        wanted[D] = lane.d, wanted[K] = lane.k;
        for (int i = 0; i < 16; i++)
            wanted[AXES + i] = lane.axes[i];
        wanted[START] = word(input, &lane, 0), wanted[END] = word(input, &lane, 1);
        *(uint8_t *)&wanted[CLAMP] = (uint8_t)lane.mode;
        wanted[SEGMENTS] = lane.segments, wanted[OTHER_SEGMENTS] = lane.other_segments;
    }
    ask(memcmp(numbers, wanted, sizeof numbers) == 0, "the curve's numbers");
    for (int i = 0; i < 4; i++) {
        size_t used = answer == PAMITOYE_DONE ? lane.lengths[i] : 0;
        for (size_t j = 0; j < used; j++) {
            uint64_t bits = cell(input, &lane, i, j);
            ask(memcmp(slices[i] + 8 * j, &bits, 8) == 0, "a cell");
        }
        ask(marked(slices[i] + 8 * used, 8 * (lent[i] - used)) && kept(slices[i], 8 * lent[i], at_end), "a cell that has to stay");
    }
    if (answer != PAMITOYE_DONE)
        return 0;

    uint8_t *back = lend(BACK_ROOM, len, at_end);
    size_t count = 0;
    uint64_t written = pamitoye_write_lane(
        numbers[D], numbers[K], &numbers[AXES], number(numbers[START]), number(numbers[END]), *clamp, numbers[SEGMENTS],
        numbers[OTHER_SEGMENTS], (double *)slices[0], lane.lengths[0], (uint64_t *)slices[1], lane.lengths[1],
        (double *)slices[2], lane.lengths[2], (uint64_t *)slices[3], lane.lengths[3], back, len, &count);
    ask(written == PAMITOYE_DONE && count == len && memcmp(back, input, len) == 0 && kept(back, len, at_end), "written back");
    return 0;
}

size_t LLVMFuzzerMutate(uint8_t *data, size_t size, size_t max_size);

/* Half of the inputs get as many bytes as their head asks for, so that another count still reads; half of these, even breaks. */
size_t LLVMFuzzerCustomMutator(uint8_t *data, size_t size, size_t max_size, unsigned seed) {
    size = LLVMFuzzerMutate(data, size, max_size);
    struct lane lane;
    if (seed % 2 || size <= CHOICES || !read_head(data + CHOICES, size - CHOICES, &lane) || CHOICES + whole(&lane) > max_size)
        return size;
    if (CHOICES + whole(&lane) > size)
        memset(data + size, 0, CHOICES + whole(&lane) - size);
    for (int set = 0; set < 2 && seed % 4 == 0; set++)
        for (size_t i = 0; i < lane.breaks[set]; i++) {
            double x = (double)i / (double)(lane.breaks[set] - 1);
            memcpy(data + CHOICES + lane.head + 8 * (begin(&lane, set) + i), &x, 8);
        }
    return CHOICES + whole(&lane);
}
