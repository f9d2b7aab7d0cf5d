/* How long takes and gives take where so much of a memory is held, up to 99.9 %.
 *
 *     levels FRAMES THREADS ORDER CALLS ROUNDS
 *
 * The threads take all. For each level, from the highest down, each gives random blocks until so much of its share
 * is held, and then makes CALLS gives and as many takes: it gives BURST random blocks, and takes as many. A refused
 * take is made again. Told are the mean nanoseconds of a give, and of a take until it is had, without the clock's own
 * (the takes are timed one by one), and how many takes of a million were refused. */
#include "runs.h"

enum { BURST = 16, LEVELS = 5, MOST_TRIES = 1000000 };

static const struct level {
    const char *name;
    double share;
} levels[LEVELS] = { { "99.9", 0.999 }, { "99", 0.99 }, { "90", 0.9 }, { "50", 0.5 }, { "10", 0.1 } };

/* What a thread holds, and what its calls took at each level. */
struct holding {
    _Alignas(128) char *blocks;
    uint32_t held, most;
    uint64_t given[LEVELS], taken[LEVELS], refused[LEVELS];
};

static struct holding holdings[MOST_THREADS];
static uint64_t calls;
static uint8_t order;
static const char *order_word;

/* Brings a random block to the end, and answers it, which is no more of those that are held. */
INLINE void *drawn(struct worker *me, const struct allocator *allocator, struct holding *own)
{
    void *one = at(allocator, own->blocks, below(me, own->held));

    own->held--;
    void *last = at(allocator, own->blocks, own->held);
    swap(allocator, one, last);
    stamp(allocator, order, last, false);
    return last;
}

INLINE void give_until(struct worker *me, const struct allocator *allocator, struct holding *own, uint32_t least)
{
    while (own->held > least)
        allocator->give(me, order, drawn(me, allocator, own));
}

INLINE void give_some(struct worker *me, const struct allocator *allocator, struct holding *own, int level,
                      uint32_t some)
{
    for (uint32_t i = 0; i < some; i++)
        drawn(me, allocator, own);
    uint64_t first = ticks();
    for (uint32_t i = 0; i < some; i++)
        allocator->give(me, order, at(allocator, own->blocks, own->held + i));
    own->given[level] += ticks() - first;
}

/* A take that is made again until it is had, and how often it was refused. */
INLINE uint32_t take_surely(struct worker *me, const struct allocator *allocator, void *block)
{
    uint32_t refused = 0;

    while (!allocator->take(me, order, block))
        want(++refused < MOST_TRIES, "a take was refused again and again");
    return refused;
}

INLINE void take_some(struct worker *me, const struct allocator *allocator, struct holding *own, int level,
                      uint32_t some)
{
    for (uint32_t i = 0; i < some; i++) {
        uint64_t first = ticks();
        own->refused[level] += take_surely(me, allocator, at(allocator, own->blocks, own->held + i));
        own->taken[level] += ticks() - first;
    }
    stamp_all(allocator, order, at(allocator, own->blocks, own->held), some, true);
    own->held += some;
}

INLINE void run(struct worker *me, const struct allocator *allocator)
{
    struct holding *own = &holdings[me->place];

    for (own->held = 0; own->held < own->most; own->held++)
        take_surely(me, allocator, at(allocator, own->blocks, own->held));
    allocator->settle(me); /* others want it */
    stamp_all(allocator, order, own->blocks, own->held, true);
    for (int level = 0; level < LEVELS; level++) {
        give_until(me, allocator, own, (uint32_t)(own->most * levels[level].share));
        uint32_t some = own->held < BURST ? own->held : BURST;
        own->given[level] = own->taken[level] = own->refused[level] = 0;
        meet();
        for (uint64_t done = 0; done < calls; done += some) {
            give_some(me, allocator, own, level, some);
            take_some(me, allocator, own, level, some);
        }
        meet();
    }
    give_until(me, allocator, own, 0);
}

#define EACH(of) of(numbers) of(structs) of(resting) of(lists) of(buddy) of(bitmap)
RUNS_OVER(EACH)

static uint64_t clock_itself;

static double mean(uint64_t sum, double count)
{
    return (double)sum * tick() / count;
}

static void tell_levels(const char *allocator)
{
    for (int level = 0; level < LEVELS; level++) {
        uint64_t given = 0, taken = 0, refused = 0;
        for (uint32_t i = 0; i < threads; i++) {
            given += holdings[i].given[level];
            taken += holdings[i].taken[level];
            refused += holdings[i].refused[level];
        }
        double made = (double)threads * (double)((calls + BURST - 1) / BURST * BURST);
        double itself = (double)clock_itself * tick();
        tell(order_word, levels[level].name, "give ns", allocator, mean(given, made) - itself / BURST);
        tell(order_word, levels[level].name, "take ns", allocator, mean(taken, made) - itself);
        tell(order_word, levels[level].name, "refused", allocator, 1e6 * (double)refused / made);
    }
}

/* The least that stands between two looks at the clock. */
static void time_clock(void)
{
    clock_itself = UINT64_MAX;
    for (int i = 0; i < 10000; i++) {
        uint64_t first = ticks(), between = ticks() - first;
        clock_itself = between < clock_itself ? between : clock_itself;
    }
}

int main(int count, char **words)
{
    read_words(count, words, 6, "levels FRAMES THREADS ORDER CALLS ROUNDS");
    order_word = words[3];
    order = (uint8_t)number_of(order_word);
    calls = number_of(words[4]);
    want(order <= MOST_ORDER, "orders 0 to 9");
    for (uint32_t i = 0; i < threads; i++) {
        holdings[i].most = (frames >> order) / threads;
        want(holdings[i].most >= 16, "a thread has fewer than 16 blocks");
        holdings[i].blocks = memory_of(holdings[i].most, BLOCK_BYTES);
    }
    time_clock();
    measure_all(measured, COUNT(measured), number_of(words[5]), tell_levels);
    return 0;
}
