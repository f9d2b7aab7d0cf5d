/* How long a take takes as a memory fills from empty, eighth by eighth.
 *
 *     climb FRAMES THREADS ORDER ROUNDS
 *
 * Each thread takes its share of the memory. Told are nanoseconds of a take in each eighth of it, in the mean of the
 * threads. At the end of a share takes may be refused while others search; more than 1 of 1000 may not. */
#include "runs.h"

enum { EIGHTHS = 8 };

static const char *const names[EIGHTHS] = { "1/8", "2/8", "3/8", "4/8", "5/8", "6/8", "7/8", "8/8" };
static char *blocks[MOST_THREADS];
static uint64_t times[MOST_THREADS][EIGHTHS];
static uint32_t share;
static uint8_t order;
static const char *order_word;

INLINE void run(struct worker *me, const struct allocator *allocator)
{
    char *own = blocks[me->place];
    uint32_t held = 0;

    meet();
    for (int eighth = 0; eighth < EIGHTHS; eighth++) {
        uint64_t began = nanoseconds();
        for (uint32_t i = 0; i < share / EIGHTHS; i++)
            if (allocator->take(me, order, at(allocator, own, held)))
                held++;
            else
                want(++me->refused <= share / 1000 + 1, "takes were refused");
        times[me->place][eighth] = nanoseconds() - began;
    }
    meet();
    stamp_all(allocator, order, own, held, true);
    meet();
    stamp_all(allocator, order, own, held, false);
    for (uint32_t i = 0; i < held; i++)
        allocator->give(me, order, at(allocator, own, i));
}

#define EACH(of) of(numbers) of(structs) of(lists) of(buddy) of(bitmap)
RUNS_OVER(EACH)

static void tell_eighths(const char *allocator)
{
    for (int eighth = 0; eighth < EIGHTHS; eighth++) {
        double sum = 0;
        for (uint32_t i = 0; i < threads; i++)
            sum += (double)times[i][eighth] / (share / EIGHTHS);
        tell(order_word, names[eighth], "ns", allocator, sum / threads);
    }
    tell(order_word, "all", "refused", allocator, (double)refused_takes());
}

int main(int count, char **words)
{
    read_words(count, words, 5, "climb FRAMES THREADS ORDER ROUNDS");
    order_word = words[3];
    order = (uint8_t)number_of(order_word);
    share = (frames >> order) / threads;
    want(order <= MOST_ORDER && share >= EIGHTHS, "orders 0 to 9, and frames enough for each thread");
    for (uint32_t i = 0; i < threads; i++)
        blocks[i] = memory_of(share, BLOCK_BYTES);
    measure_all(measured, COUNT(measured), number_of(words[4]), tell_eighths);
    return 0;
}
