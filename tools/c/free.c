/* How much is free, by one thread and by cores: worked numbers, and call by call beside a plain table; beside other
 * threads never more than there is. For one thread also which blocks are held. */
#include "check.h"
#include <pthread.h>
#include <stdatomic.h>

enum { CHILD = 512, CORES = 3, CHILDREN = 6, END = 5 * CHILD + 77, ROUNDS = 20000 };

/* Both kinds of memory behind one face. */
struct memory {
    bool is_shared;
    llfree_plain plain;
    llfree_core cores[CORES];
    unsigned turn;
};

static llfree_core *next_core(struct memory *m)
{
    return &m->cores[m->turn++ % CORES];
}

static uint32_t open_memory(struct memory *m, uint32_t frames, const llfree_range *ranges, size_t count)
{
    return m->is_shared ? llfree_open(m->cores, CORES, frames, ranges, count)
                        : llfree_plain_open(&m->plain, frames, ranges, count);
}

/* The same with no list of what is out, where there is one. */
static uint32_t open_unchecked(struct memory *m, uint32_t frames, const llfree_range *ranges, size_t count)
{
    return m->is_shared ? llfree_open_unchecked(m->cores, CORES, frames, ranges, count)
                        : llfree_plain_open(&m->plain, frames, ranges, count);
}

static uint32_t take(struct memory *m, uint8_t order, uint32_t *frame)
{
    return m->is_shared ? llfree_take(next_core(m), order, frame) : llfree_plain_take(&m->plain, order, frame);
}

static uint32_t give(struct memory *m, uint32_t frame, uint8_t order)
{
    return m->is_shared ? llfree_give(next_core(m), frame, order) : llfree_plain_give(&m->plain, frame, order);
}

static uint32_t split(struct memory *m, uint32_t frame, uint8_t order)
{
    return m->is_shared ? llfree_split(next_core(m), frame, order) : llfree_plain_split(&m->plain, frame, order);
}

static void close_memory(struct memory *m)
{
    llfree_plain_close(&m->plain);
    for (int i = 0; i < CORES; i++)
        llfree_close(&m->cores[i]);
}

static uint32_t free_frames(struct memory *m)
{
    return m->is_shared ? llfree_free_frames(next_core(m)) : llfree_plain_free_frames(&m->plain);
}

static uint32_t free_huge(struct memory *m)
{
    return m->is_shared ? llfree_free_huge(next_core(m)) : llfree_plain_free_huge(&m->plain);
}

/* So many frames and huge frames are free, whichever core counts. */
static void check_free(struct memory *m, uint32_t frames, uint32_t huge)
{
    for (int i = 0; i < CORES; i++)
        CHECK(free_frames(m) == frames && free_huge(m) == huge);
}

/* Nothing is free behind a closed handle. */
static void closed(struct memory *m)
{
    check_free(m, 0, 0);
    CHECK(!llfree_plain_is_held(&m->plain, 0, 0));
}

/* Sizes of memories, of which the last child is cut, and what is free of them. */
static void sizes(struct memory *m)
{
    static const struct {
        uint32_t frames, count, free, huge;
        llfree_range ranges[2];
    } rows[] = {
        { 1, 0, 1, 0, { { 0, 0 } } },
        { CHILD - 1, 0, CHILD - 1, 0, { { 0, 0 } } },
        { CHILD, 0, CHILD, 1, { { 0, 0 } } },
        { CHILD + 1, 0, CHILD + 1, 1, { { 0, 0 } } },
        { CHILD, 1, 0, 0, { { 0, CHILD } } },
        { 3 * CHILD, 1, 3 * CHILD - 1, 2, { { CHILD, 1 } } },
        { 3 * CHILD, 2, 3 * CHILD - 2, 1, { { CHILD - 1, 1 }, { 2 * CHILD, 1 } } },
        { 4096 * CHILD, 0, 2097152, 4096, { { 0, 0 } } },
        { 4095 * CHILD + 1, 1, 4095 * CHILD, 4095, { { 4095 * CHILD, 1 } } },
    };

    for (size_t i = 0; i < sizeof rows / sizeof *rows; i++) {
        CHECK(open_unchecked(m, rows[i].frames, rows[i].ranges, rows[i].count) == LLFREE_OK);
        check_free(m, rows[i].free, rows[i].huge);
        close_memory(m);
    }
    closed(m);
}

/* Two children: what each call leaves free. */
static void worked(struct memory *m)
{
    uint32_t f = 0, huge = 0;

    CHECK(open_memory(m, 2 * CHILD, NULL, 0) == LLFREE_OK);
    check_free(m, 1024, 2);
    CHECK(take(m, 3, &f) == LLFREE_OK);
    check_free(m, 1016, 1);
    CHECK(take(m, LARGEST, &huge) == LLFREE_OK);
    check_free(m, 504, 0);
    CHECK(split(m, huge, LARGEST) == LLFREE_OK);
    check_free(m, 504, 0);
    CHECK(give(m, huge + 256, 8) == LLFREE_OK);
    check_free(m, 760, 0);
    CHECK(give(m, f, 3) == LLFREE_OK);
    check_free(m, 768, 1);
    CHECK(give(m, f, 3) == LLFREE_NOT_HELD);
    check_free(m, 768, 1);
    CHECK(give(m, huge, 8) == LLFREE_OK);
    check_free(m, 1024, 2);
    /* frame by frame, to the last */
    for (uint32_t n = 1; n <= 1024; n++) {
        CHECK(take(m, 0, &f) == LLFREE_OK);
        CHECK(free_frames(m) == 1024 - n && free_huge(m) <= (1024 - n) / CHILD);
    }
    CHECK(take(m, 0, &f) == LLFREE_NO_BLOCK);
    check_free(m, 0, 0);
    close_memory(m);
}

/* Calls at random on a memory with ranges that ends inside a child. What is held is remembered beside: a block of an
 * order begins at a frame where begins[frame] is the order and 1. */
static void random_calls(struct memory *m)
{
    static const llfree_range kept[] = { { 0, 1 }, { 600, 8 }, { 1024, 512 }, { END - 3, 2 } };
    static unsigned char begins[END], held[CHILDREN * CHILD];
    uint64_t x = 88172645463325252ull;
    uint32_t f = 0;

    memset(begins, 0, sizeof begins);
    memset(held, 0, sizeof held);
    memset(held + END, 1, sizeof held - END);
    for (size_t i = 0; i < 4; i++)
        memset(held + kept[i].first, 1, kept[i].frames);
    CHECK(open_memory(m, END, kept, 4) == LLFREE_OK);
    check_free(m, 2114, 2);
    for (int round = 0; round < ROUNDS; round++) {
        next_random(&x);
        uint8_t order = (x >> 8) % 8 == 0 ? (uint8_t)(x >> 11) % 10 : (uint8_t)(x >> 11) % 3;
        f = (uint32_t)(x >> 20) % END;
        if (x % 4 < 2 && take(m, order, &f) == LLFREE_OK) {
            begins[f] = order + 1;
            memset(held + f, 1, 1u << order);
        } else if (begins[f] && x % 4 == 2) {
            order = begins[f] - 1;
            CHECK(give(m, f, order) == LLFREE_OK);
            begins[f] = 0;
            memset(held + f, 0, 1u << order);
        } else if (begins[f] > 1) {
            order = begins[f] - 1;
            CHECK(split(m, f, order) == LLFREE_OK);
            begins[f] = begins[f + (1u << (order - 1))] = order;
        }
        uint32_t free = 0, huge = 0;
        for (uint32_t child = 0; child < CHILDREN; child++) {
            uint32_t its = 0;
            for (uint32_t i = 0; i < CHILD; i++)
                its += !held[CHILD * child + i];
            free += its;
            huge += its == CHILD;
        }
        check_free(m, free, huge);
        for (uint8_t of = 0; !m->is_shared && of <= LARGEST + 1; of++)
            CHECK(llfree_plain_is_held(&m->plain, f, of) == (begins[f] == of + 1));
    }
    CHECK(!llfree_plain_is_held(&m->plain, 0, 0) && !llfree_plain_is_held(&m->plain, 1024, LARGEST));
    CHECK(!llfree_plain_is_held(&m->plain, UINT32_MAX, 3) && !llfree_plain_is_held(&m->plain, END, 255));
    close_memory(m);
}

/* What an image holds and nobody claims is not free, nor held so that it could be given. */
static void reopened(struct memory *m)
{
    /* a huge frame, and six frames of the other child */
    static const uint64_t words[18] = { 32768, 0, 0, 0, 0, 0, 0, 0, 0, 506, 0xf3 };
    static const llfree_claim claim = { 516, 2 };

    if (m->is_shared)
        CHECK(llfree_reopen(m->cores, CORES, 2 * CHILD, words, 18, &claim, 1) == LLFREE_OK);
    else
        CHECK(llfree_plain_reopen(&m->plain, 2 * CHILD, words, 18, &claim, 1) == LLFREE_OK);
    check_free(m, CHILD - 6, 0);
    if (!m->is_shared) {
        CHECK(llfree_plain_is_held(&m->plain, 516, 2) && !llfree_plain_is_held(&m->plain, 516, 0));
        CHECK(!llfree_plain_is_held(&m->plain, 0, LARGEST) && !llfree_plain_is_held(&m->plain, 512, 0));
    }
    CHECK(give(m, 516, 2) == LLFREE_OK);
    check_free(m, CHILD - 2, 0);
    CHECK(!llfree_plain_is_held(&m->plain, 516, 2));
    close_memory(m);
}

static llfree_core cores[CORES];
static atomic_int working;

static void *work(void *handle)
{
    uint32_t f = 0;

    for (int round = 0; round < ROUNDS; round++)
        if (llfree_take(handle, round % 10, &f) == LLFREE_OK)
            CHECK(llfree_give(handle, f, round % 10) == LLFREE_OK);
    atomic_fetch_sub(&working, 1);
    return NULL;
}

/* One core counts while the others take and give: never more than there is, and all of it at the end. */
static void threads(void)
{
    enum { ALL = 3 * 4096 };
    pthread_t thread[CORES - 1];

    CHECK(llfree_open(cores, CORES, ALL, NULL, 0) == LLFREE_OK);
    atomic_store(&working, CORES - 1);
    for (int i = 0; i < CORES - 1; i++)
        CHECK(pthread_create(&thread[i], NULL, work, &cores[i + 1]) == 0);
    while (atomic_load(&working) > 0)
        CHECK(llfree_free_frames(&cores[0]) <= ALL && llfree_free_huge(&cores[0]) <= ALL / CHILD);
    for (int i = 0; i < CORES - 1; i++)
        CHECK(pthread_join(thread[i], NULL) == 0);
    for (int i = 0; i < CORES; i++)
        CHECK(llfree_free_frames(&cores[i]) == ALL && llfree_free_huge(&cores[i]) == ALL / CHILD);
    for (int i = 0; i < CORES; i++)
        llfree_close(&cores[i]);
}

int main(void)
{
    struct memory memories[2] = { { false, LLFREE_CLOSED, { LLFREE_CLOSED, LLFREE_CLOSED, LLFREE_CLOSED }, 0 },
                                  { true, LLFREE_CLOSED, { LLFREE_CLOSED, LLFREE_CLOSED, LLFREE_CLOSED }, 0 } };

    for (int i = 0; i < 2; i++) {
        closed(&memories[i]);
        sizes(&memories[i]);
        worked(&memories[i]);
        random_calls(&memories[i]);
        reopened(&memories[i]);
    }
    threads();
    puts("all checks passed");
    return 0;
}
