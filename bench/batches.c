/* How long single frames take from C, several at once: by llfree_take_frames and llfree_give_frames (at once), by
 * llfree_take_frame and llfree_give_frame one after another (one by one), and from a buddy allocator with lists for each
 * processor, as Linux has it, one after another (lists).
 *
 *     batches FRAMES ROUNDS
 *
 * A round measures each in turn, on one thread, with 1, 8, 32, 64, 128 and 512 frames at once: `pairs` takes so many and
 * gives them, again and again, half of the memory in all; `take` takes half of the memory, and `give` gives it back, the
 * first one first. A line: what, how many at once, who, tenths of a nanosecond for a frame. */
#include "llfree.h"
#include "peers.h"
#include <inttypes.h>
#include <stdbool.h>
#include <stdio.h>
#include <stdlib.h>
#include <time.h>

enum { MOST = 512 };

static llfree_core core = LLFREE_CLOSED;
static struct peer *lists;
static llfree_block *blocks;
static uint32_t *numbers;

static void want(bool is_right, const char *what)
{
    if (!is_right) {
        fprintf(stderr, "batches: %s\n", what);
        exit(1);
    }
}

static uint64_t nanoseconds(void)
{
    struct timespec now;

    clock_gettime(CLOCK_MONOTONIC, &now);
    return (uint64_t)now.tv_sec * 1000000000u + (uint64_t)now.tv_nsec;
}

static void take_at_once(size_t from, size_t count)
{
    size_t taken;

    want(llfree_take_frames(&core, &blocks[from], count, &taken) == LLFREE_OK && taken == count, "a take was refused");
}

static void give_at_once(size_t from, size_t count)
{
    want(llfree_give_frames(&core, &blocks[from], count) == LLFREE_OK, "a give was refused");
}

static void take_one_by_one(size_t from, size_t count)
{
    for (size_t i = from; i < from + count; i++)
        want(llfree_take_frame(&core, &blocks[i]) == LLFREE_OK, "a take was refused");
}

static void give_one_by_one(size_t from, size_t count)
{
    for (size_t i = from; i < from + count; i++)
        want(llfree_give_frame(&core, &blocks[i]) == LLFREE_OK, "a give was refused");
}

static void take_from_lists(size_t from, size_t count)
{
    for (size_t i = from; i < from + count; i++)
        want((numbers[i] = peer_take(lists, 0, 0)) != NONE, "a take was refused");
}

static void give_to_lists(size_t from, size_t count)
{
    for (size_t i = from; i < from + count; i++)
        peer_give(lists, 0, numbers[i], 0);
}

static const struct {
    const char *name;
    void (*take)(size_t from, size_t count);
    void (*give)(size_t from, size_t count);
} ways[] = {
    { "at once", take_at_once, give_at_once },
    { "one by one", take_one_by_one, give_one_by_one },
    { "lists", take_from_lists, give_to_lists },
};

static void says(const char *what, size_t at_once, const char *who, uint64_t ns, size_t frames)
{
    printf("%s,%zu,%s,%" PRIu64 "\n", what, at_once, who, 10 * ns / frames);
}

int main(int words, char **word)
{
    static const size_t sizes[] = { 1, 8, 32, 64, 128, MOST };
    size_t frames = words == 3 ? (size_t)atol(word[1]) : 0, half = frames / 2 / MOST * MOST;
    long rounds = words == 3 ? atol(word[2]) : 0;

    want(half > 0 && rounds > 0 && frames <= UINT32_MAX, "usage: batches FRAMES ROUNDS");
    blocks = calloc(half, sizeof *blocks), numbers = calloc(half, sizeof *numbers);
    want(blocks && numbers && (lists = peer_open((uint32_t)frames, 1)) != NULL, "no memory");
    want(llfree_open_unchecked(&core, 1, (uint32_t)frames, NULL, 0) == LLFREE_OK, "no memory");
    while (rounds-- > 0)
        for (size_t s = 0; s < sizeof sizes / sizeof *sizes; s++)
            for (size_t w = 0; w < sizeof ways / sizeof *ways; w++) {
                size_t n = sizes[s];
                uint64_t began = nanoseconds();
                for (size_t i = 0; i < half; i += n) {
                    ways[w].take(0, n);
                    ways[w].give(0, n);
                }
                says("pairs", n, ways[w].name, nanoseconds() - began, half);
                llfree_drain(&core);
                began = nanoseconds();
                for (size_t i = 0; i < half; i += n)
                    ways[w].take(i, n);
                says("take", n, ways[w].name, nanoseconds() - began, half);
                began = nanoseconds();
                for (size_t i = 0; i < half; i += n)
                    ways[w].give(i, n);
                says("give", n, ways[w].name, nanoseconds() - began, half);
                llfree_drain(&core);
                want(llfree_free_frames(&core) == frames, "not all is free at the end");
            }
    llfree_close(&core);
    peer_close(lists);
    return 0;
}
