/* Replays a trace on threads, as fast as it goes, through the library for C by numbers, and by structs with single
 * frames that rest with their core; through a buddy allocator with lists for each processor as Linux has it, and a
 * buddy allocator and a bitmap, each under a mutex.
 *
 *     replay THREADS CHILDREN REPEATS < TRACE
 *
 * The trace is one of tools/kernel_trace.py for so many cores: takes, gives, moves and rounds, and labels of up to
 * four letters and digits. Each thread stands on a processor of its own and makes the records of its core; all wait
 * for each other where a round ends. All but CHILDREN of the 1024 children are taken before as huge frames. A line
 * for each repeat: threads, allocator, tenths of a nanosecond of one thread for a record (without the waiting),
 * refused takes, and how many of the children nothing is held of at the end. */
#define _GNU_SOURCE
#include "llfree.h"
#include "locked.h"
#include <inttypes.h>
#include <pthread.h>
#include <sched.h>
#include <stdio.h>
#include <stdlib.h>
#include <string.h>
#include <time.h>

enum { MOST_THREADS = 4, MOST_RECORDS = 1000000, LABELS = 37 * 37 * 37 * 37 };

/* A take or a give: a block has the number of its take, so that it is found without its label. */
struct record {
    uint32_t block;
    uint8_t order;
    bool is_take;
};

struct worker {
    _Alignas(128) llfree_core core; /* no two handles share a cache line */
    pthread_t thread;
    struct record *records;
    uint32_t *ends; /* of each round, behind the last of its records */
    uint32_t count;
    uint64_t spent;
    long refused;
};

/* A take answers the first frame of a block, or NONE. A give is told the block, which has that frame, and the order. */
struct allocator {
    const char *name;
    bool is_library;
    uint32_t (*take)(struct worker *, uint32_t, uint8_t);
    void (*give)(struct worker *, uint32_t, uint8_t);
};

static struct worker workers[MOST_THREADS];
static const struct allocator *now;
static pthread_barrier_t barrier;
static uint32_t threads, rounds, blocks, kept;
/* the first frame of each block that is held, or NONE; behind the blocks of the trace those that are taken before */
static uint32_t frames[MOST_RECORDS + CHILDREN];
static llfree_block structs[MOST_RECORDS + CHILDREN];
static uint8_t orders[MOST_RECORDS];
static struct peer *lists, *buddy;

static void want(bool is_right, const char *what)
{
    if (!is_right) {
        fprintf(stderr, "replay: %s\n", what);
        exit(1);
    }
}

static uint64_t nanoseconds(void)
{
    struct timespec at;

    clock_gettime(CLOCK_MONOTONIC, &at);
    return (uint64_t)at.tv_sec * 1000000000u + (uint64_t)at.tv_nsec;
}

/* The allocators */

static uint32_t library_take(struct worker *me, uint32_t block, uint8_t order)
{
    uint32_t frame;

    (void)block;
    return llfree_take(&me->core, order, &frame) == LLFREE_OK ? frame : NONE;
}

static void library_give(struct worker *me, uint32_t block, uint8_t order)
{
    want(llfree_give(&me->core, frames[block], order) == LLFREE_OK, "a give was refused");
}

static uint32_t resting_take(struct worker *me, uint32_t block, uint8_t order)
{
    llfree_block *into = &structs[block];
    enum llfree_status status =
        order == 0 ? llfree_take_frame(&me->core, into) : llfree_take_block(&me->core, order, into);

    return status == LLFREE_OK ? into->frame : NONE;
}

static void resting_give(struct worker *me, uint32_t block, uint8_t order)
{
    llfree_block *from = &structs[block];
    enum llfree_status status =
        order == 0 ? llfree_give_frame(&me->core, from) : llfree_give_block(&me->core, from);

    want(status == LLFREE_OK, "a give was refused");
}

static uint32_t lists_take(struct worker *me, uint32_t block, uint8_t order)
{
    (void)block;
    return peer_take(lists, (uint32_t)(me - workers), order);
}

static void lists_give(struct worker *me, uint32_t block, uint8_t order)
{
    peer_give(lists, (uint32_t)(me - workers), frames[block], order);
}

static uint32_t buddy_take(struct worker *me, uint32_t block, uint8_t order)
{
    (void)me;
    (void)block;
    return peer_take(buddy, 0, order);
}

static void buddy_give(struct worker *me, uint32_t block, uint8_t order)
{
    (void)me;
    peer_give(buddy, 0, frames[block], order);
}

static uint32_t plain_bitmap_take(struct worker *me, uint32_t block, uint8_t order)
{
    (void)me;
    (void)block;
    return bitmap_take(order);
}

static void plain_bitmap_give(struct worker *me, uint32_t block, uint8_t order)
{
    (void)me;
    bitmap_give(frames[block], order);
}

static const struct allocator allocators[] = {
    { "llfree", true, library_take, library_give },
    { "resting", true, resting_take, resting_give },
    { "lists", false, lists_take, lists_give },
    { "buddy", false, buddy_take, buddy_give },
    { "bitmap", false, plain_bitmap_take, plain_bitmap_give },
};

/* The trace */

static uint32_t value_of(const char *label)
{
    uint32_t value = 0;

    want(strlen(label) <= 4, "a label of more than four letters and digits");
    for (; *label; label++)
        value = 37 * value + (uint32_t)(*label <= '9' ? *label - '0' + 1 : *label - 'a' + 11);
    want(value < LABELS, "a label of other letters");
    return value;
}

static void end_round(void)
{
    for (uint32_t i = 0; i < threads; i++)
        workers[i].ends[rounds] = workers[i].count;
    rounds++;
}

/* A block under each label of each core: it has the number of its take. */
static uint32_t *block_under(uint32_t core, const char *label)
{
    static uint32_t *under[MOST_THREADS];

    want(core < threads, "a core past the last thread");
    if (under[core] == NULL)
        under[core] = calloc(LABELS, sizeof *under[core]);
    want(under[core] != NULL, "no memory");
    return &under[core][value_of(label)];
}

static void read_trace(void)
{
    char line[80], kind[8], label[17];
    unsigned core, number;

    for (uint32_t i = 0; i < threads; i++) {
        workers[i].records = calloc(MOST_RECORDS, sizeof *workers[i].records);
        workers[i].ends = calloc(MOST_RECORDS + 1, sizeof *workers[i].ends);
        want(workers[i].records != NULL && workers[i].ends != NULL, "no memory");
    }
    while (fgets(line, sizeof line, stdin)) {
        if (strcmp(line, ",round,,\n") == 0) {
            end_round();
            continue;
        }
        number = 0;
        want(sscanf(line, "%u,%7[a-z],%16[a-z0-9],%u", &core, kind, label, &number) >= 3 && core < threads,
             "a record of another kind, or of a core past the last thread");
        struct worker *worker = &workers[core];
        uint32_t *block = block_under(core, label);
        if (strcmp(kind, "move") == 0) {
            *block_under(number, label) = *block;
            continue;
        }
        want(blocks < MOST_RECORDS && worker->count < MOST_RECORDS, "too many records");
        if (strcmp(kind, "take") == 0) {
            orders[blocks] = (uint8_t)number;
            *block = blocks++;
        }
        worker->records[worker->count++] =
            (struct record) { *block, orders[*block], strcmp(kind, "take") == 0 };
    }
    end_round();
}

/* The replay */

static void make(struct worker *me, const struct record *record)
{
    uint32_t *frame = &frames[record->block];

    if (record->is_take) {
        *frame = now->take(me, record->block, record->order);
        me->refused += *frame == NONE;
    } else if (*frame != NONE) {
        now->give(me, record->block, record->order);
        *frame = NONE;
    }
}

static void *work(void *worker)
{
    struct worker *me = worker;
    uint32_t at = 0;

    for (uint32_t round = 0; round < rounds; round++) {
        pthread_barrier_wait(&barrier);
        uint64_t began = nanoseconds();
        for (; at < me->ends[round]; at++)
            make(me, &me->records[at]);
        me->spent += nanoseconds() - began;
    }
    return NULL;
}

static void start(uint32_t place)
{
    cpu_set_t processor;
    pthread_attr_t attributes;

    CPU_ZERO(&processor);
    CPU_SET(place, &processor);
    pthread_attr_init(&attributes);
    /* where there are fewer processors they share one */
    pthread_attr_setaffinity_np(&attributes, sizeof processor, &processor);
    if (pthread_create(&workers[place].thread, &attributes, work, &workers[place]) != 0)
        want(pthread_create(&workers[place].thread, NULL, work, &workers[place]) == 0, "no thread");
    pthread_attr_destroy(&attributes);
}

/* How many children no block touches. */
static uint32_t free_children(void)
{
    static bool is_touched[CHILDREN];
    uint32_t count = 0;

    memset(is_touched, 0, sizeof is_touched);
    for (uint32_t block = 0; block < MOST_RECORDS + kept; block++)
        if (frames[block] != NONE)
            is_touched[frames[block] >> MOST_ORDER] = true;
    for (uint32_t child = 0; child < CHILDREN; child++)
        count += !is_touched[child];
    return count;
}

static void replay(const struct allocator *allocator)
{
    uint64_t spent = 0, records = 0;
    long refused = 0;

    now = allocator;
    memset(frames, 0xff, sizeof frames);
    for (uint32_t i = MOST_RECORDS; i < MOST_RECORDS + kept; i++)
        want((frames[i] = now->take(&workers[0], i, MOST_ORDER)) != NONE, "no huge frame before the replay");
    pthread_barrier_init(&barrier, NULL, threads);
    for (uint32_t i = 0; i < threads; i++) {
        workers[i].spent = 0;
        workers[i].refused = 0;
        start(i);
    }
    for (uint32_t i = 0; i < threads; i++) {
        pthread_join(workers[i].thread, NULL);
        spent += workers[i].spent;
        records += workers[i].count;
        refused += workers[i].refused;
    }
    pthread_barrier_destroy(&barrier);
    printf("%u,%s,%" PRIu64 ",%ld,%u\n", threads, now->name, 10 * spent / records, refused, free_children());
    for (uint32_t block = 0; block < blocks; block++)
        if (frames[block] != NONE)
            now->give(&workers[0], block, orders[block]);
    for (uint32_t i = MOST_RECORDS; i < MOST_RECORDS + kept; i++)
        now->give(&workers[0], i, MOST_ORDER);
}

static void open_library(void)
{
    llfree_core handles[MOST_THREADS] = { LLFREE_CLOSED, LLFREE_CLOSED, LLFREE_CLOSED, LLFREE_CLOSED };

    want(llfree_open(handles, threads, FRAMES, NULL, 0) == LLFREE_OK, "no allocator");
    for (uint32_t i = 0; i < threads; i++)
        workers[i].core = handles[i];
}

static void close_library(void)
{
    for (uint32_t i = 0; i < threads; i++)
        llfree_close(&workers[i].core);
}

int main(int count, char **words)
{
    want(count == 4, "replay THREADS CHILDREN REPEATS < TRACE");
    threads = (uint32_t)atoi(words[1]);
    want(threads >= 1 && threads <= MOST_THREADS, "THREADS is 1 to 4");
    want(atoi(words[2]) >= 1 && atoi(words[2]) <= CHILDREN, "CHILDREN is 1 to 1024");
    kept = CHILDREN - (uint32_t)atoi(words[2]);
    read_trace();
    want(blocks > 0, "a trace without a take");
    lists = peer_open(FRAMES, threads);
    buddy = peer_open(FRAMES, 0);
    want(lists != NULL && buddy != NULL, "no memory");
    for (int repeat = atoi(words[3]); repeat > 0; repeat--)
        for (size_t i = 0; i < sizeof allocators / sizeof *allocators; i++) {
            if (allocators[i].is_library)
                open_library();
            replay(&allocators[i]);
            if (allocators[i].is_library)
                close_library();
        }
    return 0;
}
