/* How long a take takes that finds nothing, in a memory cut up by single frames.
 *
 *     refusals FRAMES HELD COUNT ROUNDS
 *
 * One thread of four cores takes all frames and gives random ones until HELD of 1000 are held. Then it makes COUNT
 * takes of each order from 3 on; one that is had is given at once. Told are the least nanoseconds of a refused take
 * among the means of BATCH of them, and how many of 1000 were refused. */
#include "runs.h"

enum { BATCH = 20, LEAST_ORDER = 3, ORDERS = MOST_ORDER + 1 };

static char *blocks;
static uint32_t held, takes;
static double least[ORDERS];
static uint32_t refused[ORDERS];

/* Nanoseconds of a refused take in the mean of a batch, or 0 where all were had. */
INLINE double refused_batch(struct worker *me, const struct allocator *allocator, uint8_t order)
{
    char one[BLOCK_BYTES] = { 0 };
    uint64_t sum = 0;
    uint32_t many = 0;

    for (uint32_t i = 0; i < BATCH; i++) {
        uint64_t first = ticks();
        bool is_had = allocator->take(me, order, one);
        uint64_t last = ticks();
        if (is_had) {
            stamp(allocator, order, one, true);
            stamp(allocator, order, one, false);
            allocator->give(me, order, one);
        } else {
            sum += last - first;
            many++;
        }
    }
    refused[order] += many;
    return many ? (double)sum * tick() / many : 0;
}

INLINE uint32_t cut_up(struct worker *me, const struct allocator *allocator)
{
    uint32_t count = frames;

    for (uint32_t i = 0; i < frames; i++)
        want(allocator->take(me, 0, at(allocator, blocks, i)), "a take was refused");
    stamp_all(allocator, 0, blocks, frames, true);
    while (count > held) {
        void *one = at(allocator, blocks, below(me, count));
        stamp(allocator, 0, one, false);
        allocator->give(me, 0, one);
        count--;
        move(allocator, one, at(allocator, blocks, count));
    }
    return count;
}

INLINE void run(struct worker *me, const struct allocator *allocator)
{
    if (me->place > 0)
        return;
    uint32_t count = cut_up(me, allocator);
    for (uint8_t order = LEAST_ORDER; order < ORDERS; order++) {
        least[order] = refused[order] = 0;
        for (uint32_t made = 0; made < takes; made += BATCH) {
            double mean = refused_batch(me, allocator, order);
            if (mean > 0 && (least[order] == 0 || mean < least[order]))
                least[order] = mean;
        }
    }
    stamp_all(allocator, 0, blocks, count, false);
    for (uint32_t i = 0; i < count; i++)
        allocator->give(me, 0, at(allocator, blocks, i));
}

#define EACH(of) of(numbers) of(structs) of(lists) of(buddy) of(bitmap)
RUNS_OVER(EACH)

static void tell_refusals(const char *allocator)
{
    double made = (takes + BATCH - 1) / BATCH * BATCH;
    char which[64], order_word[8];

    snprintf(which, sizeof which, "%.1f %% held", 100.0 * held / frames);
    for (uint8_t order = LEAST_ORDER; order < ORDERS; order++) {
        snprintf(order_word, sizeof order_word, "%u", order);
        if (refused[order])
            tell(order_word, which, "ns", allocator, least[order]);
        tell(order_word, which, "refused of 1000", allocator, 1000 * refused[order] / made);
    }
}

int main(int count, char **words)
{
    want(count == 5, "refusals FRAMES HELD COUNT ROUNDS");
    frames = number_of(words[1]);
    threads = 4;
    held = (uint32_t)((uint64_t)frames * number_of(words[2]) / 1000);
    takes = number_of(words[3]);
    want(frames >= 4096 && held <= frames && takes > 0, "at least 4096 frames, HELD at most 1000, COUNT at least 1");
    tick();
    blocks = memory_of(frames, BLOCK_BYTES);
    measure_all(measured, COUNT(measured), number_of(words[4]), tell_refusals);
    return 0;
}
