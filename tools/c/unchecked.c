/* The library for C with blocks in structs: every status, every frame once, splits, blocks that cross
 * between threads, and both kinds of calls on one allocator. */
#include "check.h"
#include <pthread.h>
#include <stdatomic.h>

enum { CORES = 4, CHILDREN = 32, FRAMES = CHILDREN * 512, HELD = 200, ROUNDS = 60000, CROSSING = 64 };

static llfree_core cores[CORES];
static _Atomic unsigned char owner[FRAMES];
static llfree_block crossing[CROSSING];
static pthread_mutex_t locks[CROSSING];

static bool is_empty(const llfree_block *block)
{
    return !block->live && block->frame == 0 && block->order == 0;
}

/* Each status of each call, with nobody else about. */
static void statuses(void)
{
    static const llfree_range all = { 0, 3 * 512 }, bad = { 3 * 512, 1 };
    llfree_core h[2] = { LLFREE_CLOSED, LLFREE_CLOSED };
    llfree_block a = LLFREE_EMPTY, b = LLFREE_EMPTY, c = LLFREE_EMPTY;
    uint32_t f = 77;
    uint8_t seen = 77;

    CHECK(llfree_take_block(&h[0], 0, &a) == LLFREE_CLOSED_HANDLE && is_empty(&a));
    CHECK(llfree_give_block(&h[0], &a) == LLFREE_CLOSED_HANDLE && is_empty(&a));
    CHECK(llfree_split_block(&h[0], &a, &b) == LLFREE_CLOSED_HANDLE && is_empty(&a) && is_empty(&b));
    CHECK(llfree_open_unchecked(h, 0, 3 * 512, NULL, 0) == LLFREE_BAD_GEOMETRY);
    CHECK(llfree_open_unchecked(h, 2, 0, NULL, 0) == LLFREE_BAD_GEOMETRY);
    CHECK(llfree_open_unchecked(h, 2, 2147483649u, NULL, 0) == LLFREE_BAD_GEOMETRY);
    CHECK(llfree_open_unchecked(h, 2, 3 * 512, &bad, 1) == LLFREE_BAD_RANGE);
    CHECK(llfree_open_unchecked(h, 2, 3 * 512, &all, 1) == LLFREE_OK);
    CHECK(llfree_take_block(&h[1], 0, &a) == LLFREE_NO_BLOCK && is_empty(&a));
    CHECK(llfree_open_unchecked(h, 2, 3 * 512, NULL, 0) == LLFREE_OPEN_HANDLE);
    llfree_close(&h[0]);
    llfree_close(&h[1]);
    CHECK(llfree_open_unchecked(h, 2, 3 * 512, NULL, 0) == LLFREE_OK);
    CHECK(llfree_frames(&h[1]) == 3 * 512);
    CHECK(llfree_take_block(&h[0], 10, &a) == LLFREE_BAD_ORDER && is_empty(&a));
    CHECK(llfree_take_block(&h[0], 255, &a) == LLFREE_BAD_ORDER && is_empty(&a));
    CHECK(llfree_give_block(&h[0], &a) == LLFREE_NOT_HELD && is_empty(&a));
    CHECK(llfree_split_block(&h[0], &a, &b) == LLFREE_NOT_HELD && is_empty(&b));
    CHECK(llfree_take_block(&h[0], 3, &a) == LLFREE_OK && a.live && a.order == 3);
    CHECK(a.frame % 8 == 0 && a.frame < 3 * 512);
    f = a.frame;
    CHECK(llfree_take_block(&h[0], 0, &a) == LLFREE_OPEN_HANDLE && a.live && a.frame == f && a.order == 3);
    CHECK(llfree_take_block(&h[1], 0, &b) == LLFREE_OK && b.order == 0);
    CHECK(llfree_split_block(&h[1], &a, &b) == LLFREE_OPEN_HANDLE && a.order == 3 && b.order == 0);
    CHECK(llfree_split_block(&h[1], &b, &c) == LLFREE_BAD_ORDER && b.live && is_empty(&c));
    CHECK(llfree_give_block(&h[0], &b) == LLFREE_OK && !b.live);
    CHECK(llfree_give_block(&h[0], &b) == LLFREE_NOT_HELD);
    CHECK(llfree_split_block(&h[1], &a, &b) == LLFREE_OK);
    CHECK(a.live && a.frame == f && a.order == 2 && b.live && b.frame == f + 4 && b.order == 2);
    CHECK(llfree_give_block(&h[1], &a) == LLFREE_OK && llfree_give_block(&h[0], &b) == LLFREE_OK);
    /* the calls by numbers find no list */
    CHECK(llfree_take(&h[0], 0, &f) == LLFREE_CONTENDED);
    CHECK(llfree_take_block(&h[0], 9, &a) == LLFREE_OK);
    CHECK(llfree_give(&h[0], a.frame, 9) == LLFREE_NOT_HELD);
    CHECK(llfree_split(&h[0], a.frame, 9) == LLFREE_NOT_HELD);
    for (uint8_t order = 0; order <= LARGEST; order++)
        CHECK(llfree_split_to(&h[0], a.frame, order, 0) == LLFREE_NOT_HELD);
    CHECK(llfree_order_at(&h[0], a.frame, &seen) == LLFREE_NOT_HELD && seen == 77);
    llfree_close(&h[0]);
    CHECK(llfree_give_block(&h[0], &a) == LLFREE_CLOSED_HANDLE && a.live);
    CHECK(llfree_give_block(&h[1], &a) == LLFREE_OK);
    llfree_close(&h[1]);
}

/* Every frame of a memory with holes is given out once, by every order; then all is free. */
static void every_frame_once(void)
{
    enum { END = 11 * 512 + 77 };
    static const llfree_range kept[] = { { 0, 1 }, { 600, 8 }, { 1024, 512 }, { END - 3, 2 } };
    static llfree_block blocks[END];
    static unsigned char held_back[END], seen[END];
    llfree_core h[2] = { LLFREE_CLOSED, LLFREE_CLOSED };

    for (size_t i = 0; i < 4; i++)
        memset(held_back + kept[i].first, 1, kept[i].frames);
    CHECK(llfree_open_unchecked(h, 2, END, kept, 4) == LLFREE_OK);
    for (uint8_t order = 0; order <= LARGEST; order++) {
        uint32_t count = 0, wanted = 0;
        memcpy(seen, held_back, END);
        while (llfree_take_block(&h[count % 2], order, &blocks[count]) == LLFREE_OK) {
            const llfree_block *b = &blocks[count++];
            CHECK(b->order == order && b->frame % (1u << order) == 0 && b->frame + (1u << order) <= END);
            for (uint32_t i = b->frame; i < b->frame + (1u << order); i++)
                CHECK(!seen[i]++);
        }
        CHECK(llfree_take_block(&h[0], order, &blocks[count]) == LLFREE_NO_BLOCK);
        for (uint32_t f = 0; f + (1u << order) <= END; f += 1u << order)
            wanted += !memchr(held_back + f, 1, 1u << order);
        CHECK(count == wanted);
        while (count-- > 0)
            CHECK(llfree_give_block(&h[count / 7 % 2], &blocks[count]) == LLFREE_OK);
    }
    llfree_close(&h[0]);
    llfree_close(&h[1]);
}

/* A huge frame is split by two cores down to single frames, each given, and is joined by that. */
static void splits(void)
{
    static llfree_block blocks[512];
    llfree_core h[2] = { LLFREE_CLOSED, LLFREE_CLOSED };
    llfree_block huge = LLFREE_EMPTY;
    static unsigned char seen[512];

    CHECK(llfree_open_unchecked(h, 2, 512, NULL, 0) == LLFREE_OK);
    CHECK(llfree_take_block(&h[0], LARGEST, &blocks[0]) == LLFREE_OK && blocks[0].frame == 0);
    for (uint32_t step = 512; step > 1; step /= 2)
        for (uint32_t i = 0; i < 512; i += step)
            CHECK(llfree_split_block(&h[i % 3 % 2], &blocks[i], &blocks[i + step / 2]) == LLFREE_OK);
    for (uint32_t i = 0; i < 512; i++)
        CHECK(blocks[i].live && blocks[i].order == 0 && blocks[i].frame == i && !seen[i]++);
    for (uint32_t i = 0; i < 512; i++) {
        CHECK(llfree_take_block(&h[0], LARGEST, &huge) != LLFREE_OK && is_empty(&huge));
        CHECK(llfree_give_block(&h[i % 2], &blocks[i]) == LLFREE_OK);
    }
    CHECK(llfree_take_block(&h[1], LARGEST, &huge) == LLFREE_OK && huge.frame == 0);
    llfree_close(&h[0]);
    llfree_close(&h[1]);
}

/* Blocks in structs and blocks by numbers, of one allocator with a list: each kind is given by its calls. */
static void both_kinds(void)
{
    enum { ALL = 2 * 512 };
    static llfree_block blocks[ALL / 2];
    static uint32_t frames[ALL / 2];
    static unsigned char seen[ALL];
    llfree_core h = LLFREE_CLOSED;
    llfree_block more = LLFREE_EMPTY;

    CHECK(llfree_open(&h, 1, ALL, NULL, 0) == LLFREE_OK);
    for (int i = 0; i < ALL / 2; i++) {
        CHECK(llfree_take_block(&h, 0, &blocks[i]) == LLFREE_OK && !seen[blocks[i].frame]++);
        CHECK(llfree_take(&h, 0, &frames[i]) == LLFREE_OK && !seen[frames[i]]++);
        CHECK(llfree_give(&h, blocks[i].frame, 0) == LLFREE_NOT_HELD);
    }
    CHECK(llfree_take_block(&h, 0, &more) == LLFREE_NO_BLOCK);
    for (int i = 0; i < ALL / 2; i++) {
        CHECK(llfree_give_block(&h, &blocks[i]) == LLFREE_OK);
        CHECK(llfree_give(&h, frames[i], 0) == LLFREE_OK);
    }
    CHECK(llfree_take_block(&h, LARGEST, &more) == LLFREE_OK);
    llfree_close(&h);
}

static void mark(const llfree_block *block, unsigned char from)
{
    CHECK(block->live && block->order <= LARGEST && block->frame % (1u << block->order) == 0);
    CHECK(block->frame + (1u << block->order) <= FRAMES);
    for (uint32_t i = block->frame; i < block->frame + (1u << block->order); i++)
        CHECK(atomic_exchange(&owner[i], !from) == from);
}

static void give(llfree_core *me, llfree_block *block)
{
    mark(block, 1);
    CHECK(llfree_give_block(me, block) == LLFREE_OK && !block->live);
}

/* What was left there before is handed on. */
static void cross(llfree_block *block, size_t at)
{
    llfree_block left;

    pthread_mutex_lock(&locks[at]);
    left = crossing[at];
    crossing[at] = *block;
    pthread_mutex_unlock(&locks[at]);
    *block = left;
}

static void *work(void *handle)
{
    llfree_core *me = handle;
    uint64_t x = 88172645463325252ull + (uint64_t)(me - cores) * 7919;
    llfree_block blocks[HELD + 1] = { LLFREE_EMPTY };
    int n = 0;

    for (int round = 0; round < ROUNDS; round++) {
        next_random(&x);
        uint8_t order = x % 16 < 12 ? 0 : x % 10;
        if (n < HELD && (x >> 20) % 2) {
            uint32_t status = llfree_take_block(me, order, &blocks[n]);
            CHECK(status == LLFREE_OK || status == LLFREE_NO_BLOCK || status == LLFREE_CONTENDED);
            if (status != LLFREE_OK)
                continue;
            CHECK(blocks[n].order == order);
            mark(&blocks[n++], 0);
        } else if (n > 0) {
            int i = (x >> 24) % n;
            llfree_block block = blocks[i], upper = LLFREE_EMPTY;
            blocks[i] = blocks[--n]; /* they move */
            blocks[n] = (llfree_block) LLFREE_EMPTY;
            if (block.order > 0 && (x >> 36) % 4 == 0) {
                CHECK(llfree_split_block(me, &block, &upper) == LLFREE_OK);
                CHECK(upper.frame == block.frame + (1u << block.order) && upper.order == block.order);
                give(me, &upper);
            }
            if ((x >> 40) % 4 == 0)
                cross(&block, (x >> 42) % CROSSING);
            if (block.live)
                give(me, &block);
        }
    }
    while (n > 0)
        give(me, &blocks[--n]);
    return NULL;
}

/* Four threads, a quarter of the gives by another thread than the take; at the end all is free. */
static void threads(void)
{
    llfree_block huge[CHILDREN + 1] = { LLFREE_EMPTY };
    pthread_t ids[CORES];

    for (int i = 0; i < CROSSING; i++)
        CHECK(pthread_mutex_init(&locks[i], NULL) == 0);
    CHECK(llfree_open_unchecked(cores, CORES, FRAMES, NULL, 0) == LLFREE_OK);
    for (int i = 0; i < CORES; i++)
        CHECK(pthread_create(&ids[i], NULL, work, &cores[i]) == 0);
    for (int i = 0; i < CORES; i++)
        CHECK(pthread_join(ids[i], NULL) == 0);
    for (int i = 0; i < CROSSING; i++)
        if (crossing[i].live)
            give(&cores[i % CORES], &crossing[i]);
    for (int i = 0; i < CHILDREN; i++)
        CHECK(llfree_take_block(&cores[i % CORES], LARGEST, &huge[i]) == LLFREE_OK);
    CHECK(llfree_take_block(&cores[0], 0, &huge[CHILDREN]) == LLFREE_NO_BLOCK);
    for (int i = 0; i < CORES; i++)
        llfree_close(&cores[i]);
}

int main(void)
{
    statuses();
    every_frame_once();
    splits();
    both_kinds();
    threads();
    puts("all checks passed");
    return 0;
}
