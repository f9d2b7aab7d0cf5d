/* The library for C with several single frames at once: every status, how many come and how many rest then, that all
 * are single frames of the memory that nobody else has, as many of few as there are, and threads that hand them on. */
#include "check.h"
#include <pthread.h>
#include <sched.h>
#include <stdatomic.h>

/* FRAMES are two trees, MANY two for each core. */
enum { MOST = 128, REFILL = 16, FLUSH = 8, FRAMES = 16 * 512, CORES = 4, MANY = CORES * FRAMES, ROOM = 200 };
#if defined __SANITIZE_THREAD__ || defined __SANITIZE_ADDRESS__
enum { ROUNDS = 2000 };
#else
enum { ROUNDS = 15000 };
#endif

static bool are_empty(const llfree_block *blocks, size_t count)
{
    for (size_t i = 0; i < count; i++)
        if (blocks[i].live || blocks[i].frame != 0 || blocks[i].order != 0)
            return false;
    return true;
}

static void open_two(llfree_core *h, uint32_t frames)
{
    h[0] = h[1] = (llfree_core) LLFREE_CLOSED;
    CHECK(llfree_open_unchecked(h, 2, frames, NULL, 0) == LLFREE_OK);
}

static void close_two(llfree_core *h)
{
    llfree_close(&h[0]);
    llfree_close(&h[1]);
}

/* Each status of each call, and that a refusal changes nothing. */
static void statuses(void)
{
    llfree_core h[2] = { LLFREE_CLOSED, LLFREE_CLOSED };
    llfree_block blocks[4] = { LLFREE_EMPTY }, were[4];
    size_t taken = 77;

    CHECK(llfree_take_frames(&h[0], blocks, 4, &taken) == LLFREE_CLOSED_HANDLE && taken == 77 && are_empty(blocks, 4));
    CHECK(llfree_give_frames(&h[0], blocks, 4) == LLFREE_CLOSED_HANDLE && are_empty(blocks, 4));
    open_two(h, 512);
    CHECK(llfree_take_frames(&h[0], NULL, 0, &taken) == LLFREE_OK && taken == 0);
    CHECK(llfree_give_frames(&h[0], NULL, 0) == LLFREE_OK && llfree_resting(&h[0]) == 0);
    CHECK(llfree_free_frames(&h[0]) == 512);
    /* a struct that holds a block, wherever it stands */
    for (int at = 0; at < 4; at++) {
        CHECK(llfree_take_block(&h[0], (uint8_t)at, &blocks[at]) == LLFREE_OK);
        memcpy(were, blocks, sizeof were);
        uint32_t left = llfree_free_frames(&h[1]);
        taken = 77;
        CHECK(llfree_take_frames(&h[0], blocks, 4, &taken) == LLFREE_OPEN_HANDLE && taken == 77);
        CHECK(!memcmp(were, blocks, sizeof were) && llfree_free_frames(&h[1]) == left && llfree_resting(&h[0]) == 0);
        CHECK(llfree_give_block(&h[1], &blocks[at]) == LLFREE_OK);
    }
    /* one that holds none, and one that holds a larger block */
    for (int at = 0; at < 4; at++)
        for (int is_larger = 0; is_larger < 2; is_larger++) {
            CHECK(llfree_take_frames(&h[0], blocks, 4, &taken) == LLFREE_OK && taken == 4);
            CHECK(llfree_give_block(&h[0], &blocks[at]) == LLFREE_OK);
            if (is_larger)
                CHECK(llfree_take_block(&h[0], 3, &blocks[at]) == LLFREE_OK);
            memcpy(were, blocks, sizeof were);
            uint32_t left = llfree_free_frames(&h[1]), rested = llfree_resting(&h[0]);
            CHECK(llfree_give_frames(&h[0], blocks, 4) == (is_larger ? LLFREE_BAD_ORDER : LLFREE_NOT_HELD));
            CHECK(!memcmp(were, blocks, sizeof were));
            CHECK(llfree_free_frames(&h[1]) == left && llfree_resting(&h[0]) == rested);
            for (int i = 0; i < 4; i++)
                CHECK(llfree_give_block(&h[1], &blocks[i]) == (is_larger || i != at ? LLFREE_OK : LLFREE_NOT_HELD));
        }
    llfree_close(&h[1]);
    CHECK(llfree_take_frames(&h[0], blocks, 4, &taken) == LLFREE_OK);
    llfree_close(&h[0]);
    CHECK(llfree_give_frames(&h[0], blocks, 4) == LLFREE_CLOSED_HANDLE && blocks[0].live);
    taken = 77;
    CHECK(llfree_take_frames(&h[0], blocks, 4, &taken) == LLFREE_CLOSED_HANDLE && taken == 77);
}

/* Of ample memory all that are wanted come, whatever rested before; each is had once, and goes back. From one give on
 * where 128 rest, 8 go back: 121 rest then, and 128 again after 7 more. */
static void counts(void)
{
    static const size_t rested_before[] = { 0, 1, 8, 15, 16, 17, 119, 120, 121, 127, 128 };
    static const size_t wanted[] = { 0, 1, 7, 8, 9, 15, 16, 17, 119, 120, 121, 127, 128, 129, 200, 1000, 4096, FRAMES };
    static llfree_block blocks[FRAMES + 1], few[MOST];
    llfree_core h[2];

    for (size_t b = 0; b < sizeof rested_before / sizeof *rested_before; b++)
        for (size_t i = 0; i < sizeof wanted / sizeof *wanted; i++) {
            static unsigned char seen[FRAMES];
            size_t rested = rested_before[b], n = wanted[i], taken = 77;
            open_two(h, FRAMES);
            memset(seen, 0, sizeof seen);
            CHECK(llfree_take_frames(&h[1], few, rested, &taken) == LLFREE_OK && taken == rested);
            llfree_drain(&h[1]);
            CHECK(llfree_give_frames(&h[0], few, rested) == LLFREE_OK && llfree_resting(&h[0]) == rested);
            CHECK(llfree_take_frames(&h[0], blocks, n, &taken) == LLFREE_OK && taken == n);
            uint32_t rests = llfree_resting(&h[0]);
            CHECK(n <= rested ? rests == rested - n : rests < REFILL);
            CHECK(llfree_free_frames(&h[1]) == FRAMES - n - rests);
            for (size_t k = 0; k < n; k++)
                CHECK(blocks[k].live && blocks[k].order == 0 && blocks[k].frame < FRAMES && !seen[blocks[k].frame]++);
            CHECK(are_empty(&blocks[n], FRAMES + 1 - n));
            CHECK(llfree_give_frames(&h[0], blocks, n) == LLFREE_OK && are_empty(blocks, n));
            uint32_t then = llfree_resting(&h[0]);
            CHECK(then == (rests + n <= MOST ? rests + n : 121 + (rests + n - 129) % FLUSH));
            CHECK(llfree_free_frames(&h[1]) == FRAMES - then);
            llfree_drain(&h[0]);
            CHECK(llfree_free_frames(&h[1]) == FRAMES && llfree_free_huge(&h[1]) == FRAMES / 512);
            close_two(h);
        }
}

/* What rested comes first, the last one first, as by one call after another. */
static void as_one_by_one(void)
{
    static llfree_block blocks[ROOM];
    static uint32_t frames[ROOM];
    llfree_core h[2];
    size_t taken = 0;

    open_two(h, FRAMES);
    CHECK(llfree_take_frames(&h[0], blocks, MOST, &taken) == LLFREE_OK);
    llfree_drain(&h[0]);
    for (int i = 0; i < MOST; i++)
        frames[i] = blocks[i].frame;
    CHECK(llfree_give_frames(&h[1], blocks, MOST) == LLFREE_OK);
    CHECK(llfree_take_frames(&h[1], blocks, 100, &taken) == LLFREE_OK && taken == 100);
    for (int i = 0; i < 100; i++)
        CHECK(blocks[i].frame == frames[MOST - 1 - i]);
    for (int i = MOST - 101; i >= 0; i--) {
        CHECK(llfree_take_frame(&h[1], &blocks[100]) == LLFREE_OK && blocks[100].frame == frames[i]);
        CHECK(llfree_give_block(&h[0], &blocks[100]) == LLFREE_OK);
    }
    CHECK(llfree_resting(&h[1]) == 0);
    /* the two handles take in turn, by either call, of trees of their own */
    llfree_core other[2];
    open_two(other, FRAMES);
    close_two(h);
    open_two(h, FRAMES);
    for (int i = 0; i < 30; i++) {
        size_t n = (size_t)(7 * i) % ROOM;
        memset(blocks, 0, sizeof blocks);
        CHECK(llfree_take_frames(&h[i % 2], blocks, n, &taken) == LLFREE_OK && taken == n);
        for (size_t k = 0; k < n; k++) {
            llfree_block block = LLFREE_EMPTY;
            CHECK(llfree_take_frame(&other[i % 2], &block) == LLFREE_OK && block.frame == blocks[k].frame);
        }
        CHECK(llfree_resting(&h[i % 2]) == llfree_resting(&other[i % 2]));
    }
    close_two(h);
    close_two(other);
}

/* Of fewer than are wanted all come, each once; then it is refused, and nothing rests. */
static void fewer(void)
{
    static const llfree_range two[2] = { { 1024, 700 }, { 4096, 600 } };
    enum { ALL = 700 + 600, END = 4096 + 600 };
    static llfree_block blocks[ALL + 1];
    static unsigned char seen[END];
    llfree_core h[2];
    size_t taken = 0, more = 77;

    for (int is_zoned = 0; is_zoned < 2; is_zoned++) {
        uint32_t all = is_zoned ? ALL : 1000;
        h[0] = h[1] = (llfree_core) LLFREE_CLOSED;
        CHECK((is_zoned ? llfree_open_zones(h, 2, two, 2, NULL, 0) :
                          llfree_open_unchecked(h, 2, all, NULL, 0)) == LLFREE_OK);
        memset(seen, 0, sizeof seen);
        memset(blocks, 0, sizeof blocks);
        CHECK(llfree_take_frames(&h[0], blocks, ALL + 1, &taken) == LLFREE_OK && taken == all);
        for (size_t i = 0; i < taken; i++) {
            uint32_t f = blocks[i].frame;
            CHECK(is_zoned ? (1024 <= f && f < 1724) || (4096 <= f && f < END) : f < all);
            CHECK(blocks[i].live && blocks[i].order == 0 && !seen[f]++);
        }
        CHECK(are_empty(&blocks[all], ALL + 1 - all) && llfree_resting(&h[0]) == 0 && llfree_free_frames(&h[0]) == 0);
        more = 77;
        CHECK(llfree_take_frames(&h[0], &blocks[all], 1, &more) == LLFREE_NO_BLOCK && more == 77);
        CHECK(llfree_take_frames(&h[1], &blocks[all], 1, &more) == LLFREE_NO_BLOCK && blocks[all].live == false);
        CHECK(llfree_take_frames(&h[0], &blocks[all], 0, &more) == LLFREE_OK && more == 0);
        /* what rests with one core the other one does not find */
        CHECK(llfree_give_frames(&h[1], blocks, 5) == LLFREE_OK);
        CHECK(llfree_take_frames(&h[0], blocks, 5, &more) == LLFREE_NO_BLOCK && are_empty(blocks, 5));
        CHECK(llfree_take_frames(&h[1], blocks, 3, &more) == LLFREE_OK && more == 3);
        llfree_drain(&h[1]);
        CHECK(llfree_take_frames(&h[0], &blocks[3], 2, &more) == LLFREE_OK && more == 2);
        CHECK(llfree_give_frames(&h[0], blocks, all) == LLFREE_OK);
        llfree_drain(&h[0]);
        CHECK(llfree_free_frames(&h[1]) == all);
        close_two(h);
    }
}

/* Where no two free frames lie side by side. */
static void holes(void)
{
    static llfree_block blocks[FRAMES], again[FRAMES / 2 + 1];
    llfree_core h[2];
    size_t taken = 0;

    open_two(h, FRAMES);
    CHECK(llfree_take_frames(&h[0], blocks, FRAMES, &taken) == LLFREE_OK && taken == FRAMES);
    for (uint32_t i = 0; i < FRAMES; i++)
        if (blocks[i].frame % 2)
            CHECK(llfree_give_block(&h[1], &blocks[i]) == LLFREE_OK);
    CHECK(llfree_take_frames(&h[1], again, FRAMES / 2 + 1, &taken) == LLFREE_OK && taken == FRAMES / 2);
    for (size_t i = 0; i < taken; i++)
        CHECK(again[i].frame % 2 == 1);
    CHECK(llfree_free_frames(&h[0]) == 0);
    close_two(h);
}

static _Atomic unsigned char owner[MANY];
static llfree_core cores[CORES];

static void mark(const llfree_block *blocks, size_t count, unsigned char from)
{
    for (size_t i = 0; i < count; i++)
        CHECK(blocks[i].live && blocks[i].order == 0 && atomic_exchange(&owner[blocks[i].frame], !from) == from);
}

/* What one thread took the next one gives: a place that is full, or empty, where the state says so. */
struct place {
    _Alignas(128) _Atomic uint32_t is_full;
    llfree_block blocks[ROOM];
    size_t count;
};

static struct place places[CORES];

static void *work(void *handle)
{
    llfree_core *me = handle;
    size_t number = (size_t)(me - cores), got = 0, put = 0, refused = 0;
    struct place *out = &places[number], *in = &places[(number + 1) % CORES];
    uint64_t x = 88172645463325252ull + number * 7919;
    llfree_block mine[ROOM] = { LLFREE_EMPTY }, theirs[ROOM];

    while (put < ROUNDS || got < ROUNDS) {
        next_random(&x);
        bool waits = true;
        if (put < ROUNDS && !atomic_load(&out->is_full)) {
            size_t wanted = (size_t)(x >> 20) % ROOM + 1, taken = 0;
            enum llfree_status status = llfree_take_frames(me, mine, wanted, &taken);
            CHECK(status == LLFREE_OK || status == LLFREE_NO_BLOCK || status == LLFREE_CONTENDED);
            CHECK(status == LLFREE_OK ? 0 < taken && taken <= wanted : taken == 0);
            refused += status != LLFREE_OK;
            mark(mine, taken, 0);
            if (x % 4 == 0) { /* some it gives itself */
                size_t half = taken / 2;
                mark(&mine[half], taken - half, 1);
                CHECK(llfree_give_frames(me, &mine[half], taken - half) == LLFREE_OK);
                taken = half;
            }
            memcpy(out->blocks, mine, sizeof mine);
            memset(mine, 0, sizeof mine);
            out->count = taken;
            atomic_store(&out->is_full, 1);
            put++;
            waits = false;
        }
        if (got < ROUNDS && atomic_load(&in->is_full)) {
            size_t count = in->count;
            memcpy(theirs, in->blocks, sizeof theirs);
            atomic_store(&in->is_full, 0);
            mark(theirs, count, 1);
            CHECK(llfree_give_frames(me, theirs, count) == LLFREE_OK && are_empty(theirs, count));
            got++;
            waits = false;
        }
        if (x % 256 == 2)
            llfree_drain(me);
        CHECK(llfree_resting(me) <= MOST);
        if (waits)
            sched_yield();
    }
    CHECK(refused < ROUNDS / 10);
    return NULL;
}

static void threads(void)
{
    pthread_t ids[CORES];

    CHECK(llfree_open_unchecked(cores, CORES, MANY, NULL, 0) == LLFREE_OK);
    for (int i = 0; i < CORES; i++)
        CHECK(pthread_create(&ids[i], NULL, work, &cores[i]) == 0);
    for (int i = 0; i < CORES; i++)
        CHECK(pthread_join(ids[i], NULL) == 0);
    uint32_t resting = 0;
    for (int i = 0; i < CORES; i++)
        resting += llfree_resting(&cores[i]);
    CHECK(resting > 0 && llfree_free_frames(&cores[0]) == MANY - resting);
    for (int i = 0; i < CORES; i++)
        llfree_drain(&cores[i]);
    CHECK(llfree_free_frames(&cores[0]) == MANY && llfree_free_huge(&cores[0]) == MANY / 512);
    for (int i = 0; i < CORES; i++)
        llfree_close(&cores[i]);
}

int main(void)
{
    statuses();
    counts();
    as_one_by_one();
    fewer();
    holes();
    threads();
    puts("all checks passed");
    return 0;
}
