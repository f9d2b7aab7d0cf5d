/* How long a take and a give take from C: the library with a core for each thread, the same with blocks
 * in structs, and with single frames that rest with the core, in structs (resting) and by number (numbered), the
 * library for one thread, a buddy allocator with lists for each processor as Linux has it, a bitmap and a buddy
 * allocator, each under a mutex, and the C library's own aligned_alloc and free of as much memory, which nobody
 * touches.
 *
 *     pairs COUNT ROUNDS [zones]
 *
 * A round measures each allocator once, in turn, with 1, 2 and 4 threads and orders 0, 3 and 9: with `zones` the
 * library alone, by numbers, over as much memory in 1, 4 and 64 zones with holes between them. Each
 * thread stands on a processor of its own and makes COUNT takes, each with its give (of malloc's huge
 * blocks a hundredth as many). A line: threads, order, allocator, tenths of a nanosecond for a pair of
 * one thread. The clock is the wall's, from the first thread's begin to the last one's end. */
#define _GNU_SOURCE
#include "llfree.h"
#include "locked.h"
#include <inttypes.h>
#include <pthread.h>
#include <sched.h>
#include <stdio.h>
#include <stdlib.h>
#include <string.h>
#include <time.h>

enum { MOST_THREADS = 4, FRAME_BYTES = 4096 };

struct worker {
    _Alignas(128) llfree_core core; /* no two handles share a cache line */
    pthread_t thread;
    void (*run)(struct worker *);
    uint64_t began, ended;
};

static struct worker workers[MOST_THREADS];
static llfree_plain plain = LLFREE_CLOSED;
static struct peer *buddy, *lists;
static pthread_barrier_t start;
static int threads;
static uint8_t order;
static long pairs, count;

static void want(bool is_right, const char *what)
{
    if (!is_right) {
        fprintf(stderr, "pairs: %s\n", what);
        exit(1);
    }
}

static uint64_t nanoseconds(void)
{
    struct timespec now;

    clock_gettime(CLOCK_MONOTONIC, &now);
    return (uint64_t)now.tv_sec * 1000000000u + (uint64_t)now.tv_nsec;
}

/* A loop for each allocator, so that nothing stands between it and what it calls. */
#define PAIRS(name, type, take, give)                   \
    static void name(struct worker *me)                 \
    {                                                   \
        type block = { 0 };                             \
                                                        \
        (void)me;                                       \
        for (long i = 0; i < count; i++) {              \
            want(take, "a take was refused");           \
            want(give, "a give was refused");           \
        }                                               \
    }

PAIRS(core_pairs, uint32_t, llfree_take(&me->core, order, &block) == LLFREE_OK,
      llfree_give(&me->core, block, order) == LLFREE_OK)
PAIRS(unchecked_pairs, llfree_block, llfree_take_block(&me->core, order, &block) == LLFREE_OK,
      llfree_give_block(&me->core, &block) == LLFREE_OK)
PAIRS(resting_pairs, llfree_block, llfree_take_frame(&me->core, &block) == LLFREE_OK,
      llfree_give_frame(&me->core, &block) == LLFREE_OK)
PAIRS(numbered_pairs, uint32_t, llfree_take_number(&me->core, &block) == LLFREE_OK,
      llfree_give_number(&me->core, block) == LLFREE_OK)
PAIRS(plain_pairs, uint32_t, llfree_plain_take(&plain, order, &block) == LLFREE_OK,
      llfree_plain_give(&plain, block, order) == LLFREE_OK)
PAIRS(bitmap_pairs, uint32_t, (block = bitmap_take(order)) != NONE,
      (bitmap_give(block, order), true))
PAIRS(buddy_pairs, uint32_t, (block = peer_take(buddy, 0, order)) != NONE,
      (peer_give(buddy, 0, block, order), true))
PAIRS(lists_pairs, uint32_t, (block = peer_take(lists, (uint32_t)(me - workers), order)) != NONE,
      (peer_give(lists, (uint32_t)(me - workers), block, order), true))

static void release(void *memory)
{
    __asm__ volatile("" : : "r"(memory) : "memory"); /* or the compiler leaves out the pair */
    free(memory);
}

PAIRS(malloc_pairs, void *,
      (block = aligned_alloc(FRAME_BYTES, (size_t)FRAME_BYTES << order)) != NULL,
      (release(block), true))

typedef uint32_t opening(llfree_core *, size_t, uint32_t, const llfree_range *, size_t);

static void open_by(opening *open)
{
    llfree_core handles[MOST_THREADS] = { LLFREE_CLOSED };

    want(open(handles, (size_t)threads, FRAMES, NULL, 0) == LLFREE_OK, "no memory");
    for (int i = 0; i < threads; i++)
        workers[i].core = handles[i]; /* they move */
}

static void open_cores(void)
{
    open_by(llfree_open);
}

static void open_unchecked(void)
{
    open_by(llfree_open_unchecked);
}

enum { MOST_ZONES = 64 };

/* So many zones, each behind a hole as large as it is. */
static void open_zones(uint32_t zone_count)
{
    llfree_core handles[MOST_THREADS] = { LLFREE_CLOSED };
    llfree_range zones[MOST_ZONES];
    uint32_t frames = FRAMES / zone_count;

    for (uint32_t z = 0; z < zone_count; z++)
        zones[z] = (llfree_range) { (2 * z + 1) * frames, frames };
    want(llfree_open_zones(handles, (size_t)threads, zones, zone_count, NULL, 0) == LLFREE_OK, "no memory");
    for (int i = 0; i < threads; i++)
        workers[i].core = handles[i];
}

static void open_1_zone(void)
{
    open_zones(1);
}

static void open_4_zones(void)
{
    open_zones(4);
}

static void open_64_zones(void)
{
    open_zones(64);
}

static void close_cores(void)
{
    for (int i = 0; i < threads; i++)
        llfree_close(&workers[i].core);
}

static void open_plain(void)
{
    want(llfree_plain_open(&plain, FRAMES, NULL, 0) == LLFREE_OK, "no memory");
}

static void close_plain(void)
{
    llfree_plain_close(&plain);
}

static void open_buddy(void)
{
    want((buddy = peer_open(FRAMES, 0)) != NULL, "no memory");
}

static void close_buddy(void)
{
    peer_close(buddy);
}

static void open_lists(void)
{
    want((lists = peer_open(FRAMES, MOST_THREADS)) != NULL, "no memory");
}

static void close_lists(void)
{
    peer_close(lists);
}

static void nothing(void)
{
}

static const struct allocator {
    const char *name;
    int most_threads;
    uint8_t most_order;
    void (*open)(void);
    void (*run)(struct worker *);
    void (*close)(void);
} allocators[] = {
    { "llfree", MOST_THREADS, MOST_ORDER, open_cores, core_pairs, close_cores },
    { "unchecked", MOST_THREADS, MOST_ORDER, open_unchecked, unchecked_pairs, close_cores },
    { "resting", MOST_THREADS, 0, open_unchecked, resting_pairs, close_cores },
    { "numbered", MOST_THREADS, 0, open_cores, numbered_pairs, close_cores },
    { "plain", 1, MOST_ORDER, open_plain, plain_pairs, close_plain },
    { "bitmap", MOST_THREADS, MOST_ORDER, nothing, bitmap_pairs, nothing },
    { "lists", MOST_THREADS, MOST_ORDER, open_lists, lists_pairs, close_lists },
    { "buddy", MOST_THREADS, MOST_ORDER, open_buddy, buddy_pairs, close_buddy },
    { "malloc", MOST_THREADS, MOST_ORDER, nothing, malloc_pairs, nothing },
};

static const struct allocator in_zones[] = {
    { "1", MOST_THREADS, MOST_ORDER, open_1_zone, core_pairs, close_cores },
    { "4", MOST_THREADS, MOST_ORDER, open_4_zones, core_pairs, close_cores },
    { "64", MOST_THREADS, MOST_ORDER, open_64_zones, core_pairs, close_cores },
};

static void *work(void *worker)
{
    struct worker *me = worker;
    cpu_set_t own;

    CPU_ZERO(&own);
    CPU_SET((size_t)(me - workers), &own);
    want(!pthread_setaffinity_np(pthread_self(), sizeof own, &own), "no processor for a thread");
    pthread_barrier_wait(&start);
    me->began = nanoseconds();
    me->run(me);
    me->ended = nanoseconds();
    return NULL;
}

static void measure(const struct allocator *one)
{
    uint64_t began = UINT64_MAX, ended = 0;

    /* malloc may call the system for each huge block */
    count = one->run == malloc_pairs && order == MOST_ORDER ? (pairs + 99) / 100 : pairs;
    one->open();
    pthread_barrier_init(&start, NULL, (unsigned)threads);
    for (int i = 0; i < threads; i++) {
        workers[i].run = one->run;
        want(!pthread_create(&workers[i].thread, NULL, work, &workers[i]), "no thread");
    }
    for (int i = 0; i < threads; i++) {
        pthread_join(workers[i].thread, NULL);
        began = workers[i].began < began ? workers[i].began : began;
        ended = workers[i].ended > ended ? workers[i].ended : ended;
    }
    pthread_barrier_destroy(&start);
    one->close();
    uint64_t tenths = 10 * (ended - began) / (uint64_t)count;
    printf("%d,%d,%s,%" PRIu64 "\n", threads, order, one->name, tenths);
}

int main(int words, char **word)
{
    static const uint8_t orders[] = { 0, 3, 9 };
    bool zoned = words == 4 && strcmp(word[3], "zones") == 0;
    int rounds = words == 3 || zoned ? atoi(word[2]) : 0;
    const struct allocator *measured = zoned ? in_zones : allocators;
    size_t count_of = zoned ? sizeof in_zones / sizeof *in_zones : sizeof allocators / sizeof *allocators;

    pairs = words >= 3 ? atol(word[1]) : 0;
    want(pairs > 0 && rounds > 0, "usage: pairs COUNT ROUNDS [zones]");
    while (rounds-- > 0)
        for (threads = 1; threads <= MOST_THREADS; threads *= 2)
            for (size_t i = 0; i < sizeof orders; i++) {
                order = orders[i];
                for (size_t j = 0; j < count_of; j++)
                    if (threads <= measured[j].most_threads && order <= measured[j].most_order)
                        measure(&measured[j]);
            }
    return 0;
}
