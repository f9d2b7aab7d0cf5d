/* How long single takes and gives take at most: their percentiles.
 *
 *     tails FRAMES THREADS CALLS BURST PREEMPTED ROUNDS
 *
 * Half of the memory is held. Each thread gives BURST random frames of its own and takes as many, each call timed by
 * itself, until it has made CALLS of each. With PREEMPTED above 0 a thread of higher priority stops each processor so
 * many microseconds in each millisecond, as an interrupt or a hypervisor does; that needs real-time priority. Told are
 * nanoseconds at the 50th, 99th, 99.9th and 99.99th percentile of all calls, which have the clock's own in them, and
 * how many of a million took more than 50 microseconds. */
#include "runs.h"

enum { STEPS = 32, STEP_BITS = 5, BUCKETS = 64 * STEPS, TAKES = 0, GIVES = 1, KINDS = 2 };

/* How many calls took so long: 32 buckets for each power of two. */
struct counts {
    uint64_t buckets[BUCKETS], all;
};

static struct counts counts[MOST_THREADS][KINDS];
static char *blocks[MOST_THREADS];
static uint32_t calls, burst, share, preempted;
static char name[32];
static atomic_bool is_over;

static uint32_t bucket_of(uint64_t ticks)
{
    if (ticks < STEPS)
        return (uint32_t)ticks;
    uint32_t high = 63 - (uint32_t)__builtin_clzll(ticks);
    return (high - STEP_BITS + 1) * STEPS + (ticks >> (high - STEP_BITS) & (STEPS - 1));
}

static uint64_t least_of(uint32_t bucket)
{
    if (bucket < STEPS)
        return bucket;
    uint32_t high = bucket / STEPS + STEP_BITS - 1;
    return (1ull << high) + ((uint64_t)(bucket % STEPS) << (high - STEP_BITS));
}

static void note(struct counts *counts, uint64_t ticks)
{
    counts->buckets[bucket_of(ticks)]++;
    counts->all++;
}

/* Random frames of the thread's own, stamped no more, at the end of what it holds. */
INLINE void draw(struct worker *me, const struct allocator *allocator, char *own, uint32_t many)
{
    for (uint32_t i = 0; i < many; i++) {
        void *last = at(allocator, own, share - 1 - i);
        swap(allocator, at(allocator, own, below(me, share - i)), last);
        stamp(allocator, 0, last, false);
    }
}

INLINE void give_some(struct worker *me, const struct allocator *allocator, char *own, uint32_t many)
{
    for (uint32_t i = 0; i < many; i++) {
        uint64_t first = ticks();
        allocator->give(me, 0, at(allocator, own, share - 1 - i));
        note(&counts[me->place][GIVES], ticks() - first);
    }
}

INLINE void take_some(struct worker *me, const struct allocator *allocator, char *own, uint32_t many)
{
    for (uint32_t i = 0; i < many; i++) {
        uint64_t first = ticks();
        bool is_had = allocator->take(me, 0, at(allocator, own, share - 1 - i));
        note(&counts[me->place][TAKES], ticks() - first);
        want(is_had, "a take was refused");
    }
    stamp_all(allocator, 0, at(allocator, own, share - many), many, true);
}

INLINE void run(struct worker *me, const struct allocator *allocator)
{
    char *own = blocks[me->place];

    memset(counts[me->place], 0, sizeof counts[me->place]);
    for (uint32_t i = 0; i < share; i++)
        want(allocator->take(me, 0, at(allocator, own, i)), "a take was refused");
    stamp_all(allocator, 0, own, share, true);
    meet();
    for (uint32_t done = 0; done < calls; done += burst) {
        draw(me, allocator, own, burst);
        give_some(me, allocator, own, burst);
        take_some(me, allocator, own, burst);
    }
    meet();
    stamp_all(allocator, 0, own, share, false);
    for (uint32_t i = 0; i < share; i++)
        allocator->give(me, 0, at(allocator, own, i));
}

#define EACH(of) of(numbers) of(structs) of(resting) of(lists) of(buddy) of(bitmap)
RUNS_OVER(EACH)

static void sum_of(struct counts *sum, int kind)
{
    memset(sum, 0, sizeof *sum);
    for (uint32_t i = 0; i < threads; i++) {
        for (uint32_t bucket = 0; bucket < BUCKETS; bucket++)
            sum->buckets[bucket] += counts[i][kind].buckets[bucket];
        sum->all += counts[i][kind].all;
    }
}

static double percentile(const struct counts *counts, double share_below)
{
    uint64_t seen = 0;
    uint32_t bucket = 0;

    while (bucket < BUCKETS - 1 && (double)(seen += counts->buckets[bucket]) < share_below * (double)counts->all)
        bucket++;
    return (double)least_of(bucket) * tick();
}

static double above(const struct counts *counts, double limit)
{
    uint64_t seen = 0;

    for (uint32_t bucket = 0; bucket < BUCKETS; bucket++)
        if ((double)least_of(bucket) * tick() > limit)
            seen += counts->buckets[bucket];
    return 1e6 * (double)seen / (double)counts->all;
}

static void tell_tails(const char *allocator)
{
    static const char *const kinds[KINDS] = { "take", "give" };
    static const char *const names[] = { "p50", "p99", "p99.9", "p99.99" };
    static const double shares[] = { 0.5, 0.99, 0.999, 0.9999 };
    static struct counts sum;
    char which[64];

    for (int kind = 0; kind < KINDS; kind++) {
        sum_of(&sum, kind);
        snprintf(which, sizeof which, "%s %s", name, kinds[kind]);
        for (size_t i = 0; i < COUNT(shares); i++)
            tell("0", which, names[i], allocator, percentile(&sum, shares[i]));
        tell("0", which, "above 50 us", allocator, above(&sum, 50000));
    }
}

/* Stops whoever runs on a processor. */
static void *preempt(void *processor)
{
    struct sched_param highest = { .sched_priority = 30 };
    struct timespec rest = { 0, 1000000 - 1000 * (long)preempted };

    stand_on((uint32_t)(uintptr_t)processor);
    want(!pthread_setschedparam(pthread_self(), SCHED_FIFO, &highest), "no real-time priority");
    while (!is_over) {
        nanosleep(&rest, NULL);
        for (uint64_t first = nanoseconds(); nanoseconds() - first < 1000 * (uint64_t)preempted;)
            __builtin_ia32_pause();
    }
    return NULL;
}

static void measure(uint32_t rounds)
{
    pthread_t preempting[MOST_THREADS];
    uint32_t many = preempted ? threads : 0;

    for (uintptr_t i = 0; i < many; i++)
        want(!pthread_create(&preempting[i], NULL, preempt, (void *)i), "no thread");
    measure_all(measured, COUNT(measured), rounds, tell_tails);
    is_over = true;
    for (uint32_t i = 0; i < many; i++)
        pthread_join(preempting[i], NULL);
}

int main(int count, char **words)
{
    read_words(count, words, 7, "tails FRAMES THREADS CALLS BURST PREEMPTED ROUNDS");
    calls = number_of(words[3]);
    burst = number_of(words[4]);
    preempted = number_of(words[5]);
    share = frames / 2 / threads;
    want(burst >= 1 && burst <= share && preempted < 1000, "BURST is 1 to what a thread holds, PREEMPTED below 1000");
    snprintf(name, sizeof name, "%s%s", burst > 1 ? "burst" : "pair", preempted ? " preempted" : "");
    for (uint32_t i = 0; i < threads; i++)
        blocks[i] = memory_of(share, BLOCK_BYTES);
    measure(number_of(words[6]));
    return 0;
}
