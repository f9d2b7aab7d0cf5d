/* How long an opening for several threads takes, and what its heap has to have: by numbers, by numbers
 * with 1,024 ranges held back, and without a list of what is out.
 *
 *     opening FRAMES ROUNDS
 *
 * A line for each: microseconds (the least of the rounds), pages touched for the first time (the most),
 * and the bytes of the heap's blocks that are kept and that it had at its peak. The heap is malloc, which
 * gives large blocks back to the system, so each round begins anew. The clock is the wall's. */
#define _GNU_SOURCE
#include "llfree.h"
#include <inttypes.h>
#include <stdio.h>
#include <stdlib.h>
#include <string.h>
#include <sys/resource.h>
#include <time.h>

enum { CORES = 4, RANGES = 1024, HEADER = 16 };

struct rattle_block {
    bool found;
    void *at;
};

struct rattle_block rattle_alloc(size_t size, size_t alignment);
struct rattle_block rattle_realloc(void *old, size_t kept, size_t size, size_t alignment);
void rattle_dealloc(void *block);

static size_t now, peak;
static llfree_range ranges[RANGES];

static void want(bool is_right, const char *what)
{
    if (!is_right) {
        fprintf(stderr, "opening: %s\n", what);
        exit(1);
    }
}

/* In front of each block stands its size. */
struct rattle_block rattle_alloc(size_t size, size_t alignment)
{
    size_t *block = malloc(HEADER + size);

    want(alignment <= HEADER && block != NULL, "no memory");
    *block = size;
    now += size;
    peak = now > peak ? now : peak;
    return (struct rattle_block) { true, (char *)block + HEADER };
}

void rattle_dealloc(void *block)
{
    size_t *begin = (size_t *)(void *)((char *)block - HEADER);

    now -= *begin;
    free(begin);
}

struct rattle_block rattle_realloc(void *old, size_t kept, size_t size, size_t alignment)
{
    struct rattle_block block = rattle_alloc(size, alignment);

    memcpy(block.at, old, kept < size ? kept : size);
    rattle_dealloc(old);
    return block;
}

static uint64_t nanoseconds(void)
{
    struct timespec time;

    clock_gettime(CLOCK_MONOTONIC, &time);
    return (uint64_t)time.tv_sec * 1000000000u + (uint64_t)time.tv_nsec;
}

static long first_touches(void)
{
    struct rusage usage;

    getrusage(RUSAGE_SELF, &usage);
    return usage.ru_minflt;
}

typedef enum llfree_status opening(llfree_core *, size_t, uint32_t, const llfree_range *, size_t);

static void measure(const char *what, opening *open, uint32_t frames, size_t count, long rounds)
{
    llfree_core cores[CORES] = { LLFREE_CLOSED };
    uint64_t least = UINT64_MAX;
    size_t kept = 0;
    long touches = 0;

    peak = now;
    for (long i = 0; i < rounds; i++) {
        long before = first_touches();
        uint64_t began = nanoseconds(), spent;

        want(open(cores, CORES, frames, ranges, count) == LLFREE_OK, "not opened");
        spent = nanoseconds() - began;
        least = spent < least ? spent : least;
        touches = first_touches() - before > touches ? first_touches() - before : touches;
        kept = now;
        for (int core = 0; core < CORES; core++)
            llfree_close(&cores[core]);
    }
    want(now == 0, "a block is left");
    printf("%s,%" PRIu32 ",%" PRIu64 ",%ld,%zu,%zu\n", what, frames, least / 1000, touches, kept, peak);
}

int main(int words, char **word)
{
    uint32_t frames = words > 1 ? (uint32_t)strtoul(word[1], NULL, 10) : 2097152;
    long rounds = words > 2 ? atol(word[2]) : 5;

    want(frames >= 2 * RANGES && rounds > 0, "FRAMES and ROUNDS are numbers, of frames at least 2048");
    for (uint32_t i = 0; i < RANGES; i++)
        ranges[i] = (llfree_range) { frames / RANGES * i, 1 };
    measure("by-numbers", llfree_open, frames, 0, rounds);
    measure("with-ranges", llfree_open, frames, RANGES, rounds);
    measure("in-structs", llfree_open_unchecked, frames, 0, rounds);
    return 0;
}
