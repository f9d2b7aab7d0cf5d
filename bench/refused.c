/* How long a take takes that is refused: 8 GiB of memory (512 trees) that is all held, four cores, one of
 * them at work.
 *
 *     refused COUNT ROUNDS
 *
 * Such a take makes no locked step. It loads the own local word, the words of all trees (those that are
 * partly free are looked for), the words of all trees again (any that has frames enough), and the local
 * words of all cores, which have nothing to give back, so that no tree is looked at once more: 1029 loads.
 * `bare` are as many loads of as many words in the same order, each with its test, and nothing else. A line
 * for each round: order, what, tenths of a nanosecond for a take, and loads. The clock is the wall's. */
#define _GNU_SOURCE
#include "llfree.h"
#include <inttypes.h>
#include <stdio.h>
#include <stdlib.h>
#include <time.h>

enum { FRAMES = 2097152, TREES = FRAMES / 4096, CORES = 4, LOADS = 1 + 2 * TREES + CORES };

static llfree_core cores[CORES];
static uint64_t words[TREES], locals[CORES][8];

static void want(bool is_right, const char *what)
{
    if (!is_right) {
        fprintf(stderr, "refused: %s\n", what);
        exit(1);
    }
}

static uint64_t nanoseconds(void)
{
    struct timespec now;

    clock_gettime(CLOCK_MONOTONIC, &now);
    return (uint64_t)now.tv_sec * 1000000000u + (uint64_t)now.tv_nsec;
}

static void refused_takes(uint8_t order, long count)
{
    uint32_t frame;

    for (long i = 0; i < count; i++)
        want(llfree_take(&cores[0], order, &frame) == LLFREE_NO_BLOCK, "a take was not refused");
}

static bool is_any(void)
{
    for (int i = 0; i < TREES; i++)
        if (__atomic_load_n(&words[i], __ATOMIC_SEQ_CST) != 0)
            return true;
    return false;
}

static void bare_loads(uint8_t order, long count)
{
    (void)order;
    for (long i = 0; i < count; i++) {
        bool found = __atomic_load_n(&locals[0][0], __ATOMIC_SEQ_CST) != 0 || is_any() || is_any();

        for (int core = 0; core < CORES; core++)
            found |= __atomic_load_n(&locals[core][0], __ATOMIC_SEQ_CST) != 0;
        want(!found, "a word is not 0");
    }
}

static void measure(const char *what, void (*run)(uint8_t, long), uint8_t order, long count)
{
    uint64_t began = nanoseconds();

    run(order, count);
    printf("%d,%s,%" PRIu64 ",%d\n", order, what, (nanoseconds() - began) * 10 / (uint64_t)count, LOADS);
}

int main(int words_given, char **word)
{
    static const uint8_t orders[] = { 0, 3, 9 };
    long count = words_given > 1 ? atol(word[1]) : 20000;
    long rounds = words_given > 2 ? atol(word[2]) : 5;
    uint32_t frame;

    want(count > 0 && rounds > 0, "COUNT and ROUNDS are numbers above 0");
    want(llfree_open(cores, CORES, FRAMES, NULL, 0) == LLFREE_OK, "no memory");
    for (int i = 0; i < FRAMES / 512; i++)
        want(llfree_take(&cores[0], 9, &frame) == LLFREE_OK, "memory is full too early");
    refused_takes(0, 10); /* what rested with the core is given back */
    for (long round = 0; round < rounds; round++)
        for (size_t i = 0; i < sizeof orders / sizeof *orders; i++) {
            measure("llfree", refused_takes, orders[i], count);
            measure("bare", bare_loads, orders[i], count);
        }
    for (int i = 0; i < CORES; i++)
        llfree_close(&cores[i]);
    return 0;
}
