/* The blocks of the library's machine code as coverage for libFuzzer, which knows only what its compiler has instrumented.
 *
 * The file that the environment variable BLOCKS names has the addresses at which blocks begin (blocks.py), in hexadecimal, rising,
 * one to a line. The first byte of each becomes a trap. When it is reached for the first time the byte comes back, and the
 * block's counter tells libFuzzer that the input reached something new; from then on the block costs nothing. */
#define _GNU_SOURCE
#include <signal.h>
#include <stdint.h>
#include <stdio.h>
#include <stdlib.h>
#include <sys/mman.h>
#include <ucontext.h>

enum { MOST = 1 << 14, PAGE = 4096, TRAP = 0xCC };

__attribute__((section("__libfuzzer_extra_counters"))) static uint8_t counters[MOST];
static uintptr_t blocks[MOST];
static uint8_t first_bytes[MOST];
static size_t count, reached;

static void reach(int signal_number, siginfo_t *info, void *context) {
    (void)signal_number, (void)info;
    greg_t *at = &((ucontext_t *)context)->uc_mcontext.gregs[REG_RIP];
    uintptr_t address = (uintptr_t)*at - 1;
    size_t low = 0, high = count;
    while (high - low > 1) {
        size_t middle = (low + high) / 2;
        *(blocks[middle] <= address ? &low : &high) = middle;
    }
    if (blocks[low] != address)
        abort();
    *(volatile uint8_t *)address = first_bytes[low];
    *at = (greg_t)address;
    counters[low] = 1;
    reached++;
}

static void print_reached(void) {
    fprintf(stderr, "blocks of the library reached: %zu of %zu\n", reached, count);
    for (size_t i = 0; i < count && getenv("UNREACHED"); i++)
        if (*(uint8_t *)blocks[i] == TRAP)
            fprintf(stderr, "not reached: %lx\n", blocks[i]);
}

__attribute__((constructor)) static void set_traps(void) {
    const char *name = getenv("BLOCKS");
    if (!name)
        return;
    FILE *list = fopen(name, "r");
    if (!list)
        abort();
    while (count < MOST && fscanf(list, "%lx", &blocks[count]) == 1)
        count++;
    fclose(list);
    if (count == 0 || count == MOST)
        abort();
    uintptr_t from = blocks[0] / PAGE * PAGE;
    if (mprotect((void *)from, blocks[count - 1] + 1 - from, PROT_READ | PROT_WRITE | PROT_EXEC))
        abort();
    struct sigaction action = {.sa_sigaction = reach, .sa_flags = SA_SIGINFO};
    if (sigaction(SIGTRAP, &action, NULL))
        abort();
    for (size_t i = 0; i < count; i++) {
        first_bytes[i] = *(uint8_t *)blocks[i];
        *(volatile uint8_t *)blocks[i] = TRAP;
    }
    atexit(print_reached);
}
