/* What the programs here that compare answers share: `failures` counts what was not as it had to be. */
#include <inttypes.h>
#include <stdbool.h>
#include <stdio.h>

static int failures = 0;

/* Prints the number of an answer, and compares it. */
static void expect(const char *call, uint64_t number, uint64_t wanted) {
    printf("%s: %" PRIu64 "\n", call, number);
    if (number != wanted) {
        printf("  wanted %" PRIu64 "\n", wanted);
        failures++;
    }
}

static void check(const char *what, bool holds) {
    if (!holds) {
        printf("  not so: %s\n", what);
        failures++;
    }
}
