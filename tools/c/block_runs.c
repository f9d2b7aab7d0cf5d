/* Runs of huge frames in structs, beside a byte a frame, in memories without and with a list: each number from 1 to 17,
 * and some up to 512; statuses; memories that are cut up; holes and parts of a memory; a huge frame that is lost in the
 * middle of a run, at each place of it; and threads that want runs beside blocks of all orders. */
#include "check.h"
#include <pthread.h>
#include <stdatomic.h>

/* The header's takes are lost where the test says so. */
static _Thread_local long lost_in = -1; /* after so many takes; below 0 none is lost */
static _Thread_local bool is_lost_for_good;
static _Thread_local enum llfree_status lost_as;

static enum llfree_status take_or_lose(llfree_core *handle, uint32_t frame, uint8_t order, llfree_block *block)
{
    if (lost_in == 0 || (lost_in < 0 && is_lost_for_good)) {
        lost_in = -1;
        return lost_as;
    }
    lost_in -= lost_in > 0;
    return llfree_take_block_at(handle, frame, order, block);
}

#define llfree_take_block_at take_or_lose
#include "llfree_runs.h"
#undef llfree_take_block_at

enum { CORES = 4, CHILD = 512, TREE = 4096, LONGEST = 512, CHILDREN = 1100, MOST = CHILDREN * CHILD, ROUNDS = 3000 };

static const uint32_t none = UINT32_MAX;

/* Beside the library: 0 where a frame is free, 1 where it is held, 2 where no zone has it. */
static unsigned char state[MOST];

static uint32_t rounded_up(uint32_t count)
{
    uint32_t power = 1;

    while (power < count)
        power *= 2;
    return power;
}

/* Where the first run of so many is free, or none. */
static uint32_t first_run(llfree_range within, uint32_t count)
{
    const uint32_t step = CHILD * rounded_up(count), end = within.first + within.frames;

    for (uint32_t first = 0; first + CHILD * count <= end; first += step) {
        uint32_t free = 0;
        while (first >= within.first && free < CHILD * count && state[first + free] == 0)
            free++;
        if (free == CHILD * count)
            return first;
    }
    return none;
}

static void turn(uint32_t first, uint32_t frames, unsigned char to)
{
    for (uint32_t f = first; f < first + frames; f++) {
        CHECK(state[f] == !to);
        state[f] = to;
    }
}

static bool are_empty(const llfree_block *blocks, size_t count)
{
    for (size_t i = 0; i < count; i++)
        if (blocks[i].live || blocks[i].frame != 0 || blocks[i].order != 0)
            return false;
    return true;
}

/* A take of a run finds the first one that is free, or is refused and holds nothing. */
static uint32_t take_within(llfree_core *core, llfree_range within, llfree_block *blocks, uint32_t count)
{
    const uint32_t want = first_run(within, count), free = llfree_free_frames(core);
    enum llfree_status status = llfree_take_block_run(core, within, blocks, count);

    CHECK(status == (want == none ? LLFREE_NO_BLOCK : LLFREE_OK));
    if (want == none) {
        CHECK(are_empty(blocks, count) && llfree_free_frames(core) == free);
        return none;
    }
    CHECK(want % (CHILD * rounded_up(count)) == 0 && llfree_free_frames(core) == free - CHILD * count);
    for (uint32_t i = 0; i < count; i++)
        CHECK(blocks[i].live && blocks[i].frame == want + CHILD * i && blocks[i].order == LARGEST);
    turn(want, CHILD * count, 1);
    return want;
}

static uint32_t take_run(llfree_core *core, llfree_block *blocks, uint32_t count)
{
    const llfree_range all = { 0, MOST };

    return take_within(core, all, blocks, count);
}

static void give_run(llfree_core *core, llfree_block *blocks, uint32_t count)
{
    turn(blocks[0].frame, CHILD * count, 0);
    CHECK(llfree_give_block_run(core, blocks, count) == LLFREE_OK && are_empty(blocks, count));
}

/* All frames of a new memory of one zone are free. */
static void begin(llfree_core *handles, size_t cores, uint32_t frames, bool has_list)
{
    memset(state, 0, frames);
    memset(state + frames, 2, sizeof state - frames);
    CHECK((has_list ? llfree_open(handles, cores, frames, NULL, 0) :
                      llfree_open_unchecked(handles, cores, frames, NULL, 0)) == LLFREE_OK);
}

static void close_all(llfree_core *handles, size_t count)
{
    for (size_t i = 0; i < count; i++)
        llfree_close(&handles[i]);
}

/* Each status of each call, with nobody else about. */
static void statuses(bool has_list)
{
    static llfree_block blocks[LONGEST + 1];
    const llfree_range all = { 0, 4 * CHILD }, wrong[] = { { 4 * CHILD, UINT32_MAX }, { UINT32_MAX, 1 }, { 1, 511 },
                                                           { 0, 511 }, { 1, 512 }, { 0, 0 }, { 4 * CHILD + 1, 0 } };
    llfree_core h[2] = { LLFREE_CLOSED, LLFREE_CLOSED };
    llfree_block small = LLFREE_EMPTY;

    CHECK(llfree_take_block_run(&h[0], all, blocks, 2) == LLFREE_CLOSED_HANDLE);
    CHECK(llfree_take_block_run(&h[0], all, blocks, 0) == LLFREE_CLOSED_HANDLE);
    CHECK(llfree_give_block_run(&h[0], blocks, 2) == LLFREE_CLOSED_HANDLE);
    begin(h, 2, 4 * CHILD, has_list);
    for (size_t count = 0; count <= LONGEST + 1; count += LONGEST + 1) {
        CHECK(llfree_take_block_run(&h[1], all, blocks, count) == LLFREE_BAD_ORDER);
        CHECK(llfree_give_block_run(&h[1], blocks, count) == LLFREE_BAD_ORDER);
    }
    for (size_t i = 0; i < sizeof wrong / sizeof *wrong; i++)
        CHECK(llfree_take_block_run(&h[0], wrong[i], blocks, 1) == LLFREE_NO_BLOCK && are_empty(blocks, LONGEST + 1));
    CHECK(take_run(&h[0], blocks, 3) == 0);
    for (uint32_t i = 0; i < 3; i++)
        CHECK(llfree_take_block_run(&h[1], all, blocks + i, 3) == LLFREE_OPEN_HANDLE);
    CHECK(take_run(&h[0], blocks + 3, 2) == none && take_run(&h[0], blocks + 3, 5) == none);
    CHECK(take_run(&h[0], blocks + 3, LONGEST - 3) == none);
    CHECK(take_run(&h[1], blocks + 3, 1) == 3 * CHILD && take_run(&h[0], blocks + 4, 1) == none);
    CHECK(llfree_free_frames(&h[0]) == 0);
    /* no struct of it is empty, and none holds a smaller block, or nothing changes */
    CHECK(llfree_give_block_run(&h[0], blocks, 5) == LLFREE_NOT_HELD && llfree_free_frames(&h[1]) == 0);
    CHECK(llfree_split_block(&h[0], &blocks[2], &small) == LLFREE_OK);
    CHECK(llfree_give_block_run(&h[0], blocks, 4) == LLFREE_BAD_ORDER && llfree_free_frames(&h[1]) == 0);
    CHECK(llfree_give_block(&h[1], &small) == LLFREE_OK && llfree_give_block(&h[1], &blocks[2]) == LLFREE_OK);
    turn(2 * CHILD, CHILD, 0);
    /* any part of it is given, by any core, and taken anew */
    give_run(&h[1], blocks, 2);
    CHECK(take_run(&h[0], blocks, 3) == 0);
    give_run(&h[1], blocks + 1, 3);
    CHECK(take_run(&h[1], blocks + 1, 2) == 2 * CHILD);
    CHECK(llfree_give_block(&h[0], &blocks[1]) == LLFREE_OK && llfree_give_block(&h[0], &blocks[2]) == LLFREE_OK);
    CHECK(llfree_give_block(&h[1], &blocks[0]) == LLFREE_OK && llfree_free_huge(&h[0]) == 4);
    close_all(h, 2);
    CHECK(llfree_take_block_run(&h[0], all, blocks, 1) == LLFREE_CLOSED_HANDLE);
}

/* Runs of one number until none is left, through both cores in turn: one at each place. */
static void fill(llfree_core *h, uint32_t count)
{
    static llfree_block blocks[CHILDREN + LONGEST];
    const uint32_t step = rounded_up(count);
    uint32_t had = 0, places = 0;

    for (uint32_t c = 0; c + count <= CHILDREN; c += step)
        places++;
    while (take_run(&h[had % 2], blocks + count * had, count) != none)
        had++;
    CHECK(had == places);
    while (had-- > 0)
        give_run(&h[had % 2], blocks + count * had, count);
}

static void each_count(void)
{
    static const uint32_t others[] = { 31, 32, 33, 64, 100, 129, 257, 511, LONGEST };
    llfree_core h[2] = { LLFREE_CLOSED, LLFREE_CLOSED };

    begin(h, 2, MOST, false);
    for (uint32_t count = 1; count <= 17; count++)
        fill(h, count);
    for (size_t i = 0; i < sizeof others / sizeof *others; i++)
        fill(h, others[i]);
    CHECK(llfree_free_huge(&h[0]) == CHILDREN);
    close_all(h, 2);
}

/* A frame is held in each place of a run: there is none. Where one frame is given, just this place is found. */
static void cut_up(bool has_list)
{
    enum { SOME = 96 };
    static llfree_block single[SOME], run[SOME];
    llfree_core h[2] = { LLFREE_CLOSED, LLFREE_CLOSED };

    for (uint32_t count = 1; count <= 17; count++) {
        const uint32_t step = rounded_up(count);
        begin(h, 2, SOME * CHILD, has_list);
        for (uint32_t c = 0; c + count <= SOME; c += step) {
            const uint32_t frame = CHILD * (c + c / step % count) + c % CHILD;
            CHECK(llfree_take_block_at(&h[c / step % 2], frame, 0, &single[c]) == LLFREE_OK);
            turn(frame, 1, 1);
        }
        CHECK(take_run(&h[0], run, count) == none && take_run(&h[1], run, count) == none);
        for (uint32_t c = 0; c + count <= SOME; c += step) {
            const uint32_t frame = single[c].frame;
            CHECK(llfree_give_block(&h[0], &single[c]) == LLFREE_OK);
            turn(frame, 1, 0);
            CHECK(take_run(&h[1], run, count) == CHILD * c && take_run(&h[0], run + count, count) == none);
            give_run(&h[1], run, count);
            CHECK(llfree_take_block_at(&h[1], frame, 0, &single[c]) == LLFREE_OK);
            turn(frame, 1, 1);
        }
        close_all(h, 2);
        memset(single, 0, sizeof single);
    }
}

/* Zones with holes: runs within each node, and over borders of zones that lie side by side. */
static void nodes(void)
{
    static const llfree_range three[3] = { { 0, 5 * CHILD }, { 5 * CHILD, 13 * CHILD }, { 32 * CHILD, 8 * CHILD + 3 } };
    static llfree_block run[40];
    llfree_core h = LLFREE_CLOSED;

    CHECK(llfree_open_zones_unchecked(&h, 1, three, 3, NULL, 0) == LLFREE_OK);
    memset(state, 2, sizeof state);
    for (int z = 0; z < 3; z++)
        memset(state + three[z].first, 0, three[z].frames);
    for (uint32_t first = 0; first < 44; first++)
        for (uint32_t frames = 0; first + frames < 44; frames++)
            for (uint32_t count = 1; count <= 20; count += 1 + count / 5) {
                const llfree_range within = { CHILD * first - 3 * (first % 2), CHILD * frames + 5 * (frames % 3) };
                if (take_within(&h, within, run, count) != none)
                    give_run(&h, run, count);
            }
    CHECK(llfree_free_huge(&h) == 26);
    llfree_close(&h);
}

/* A take in the middle of a run is lost: what was taken of it goes back, and the next place is had. */
static void lost(void)
{
    enum { SOME = 64 };
    static llfree_block run[SOME];
    const llfree_range all = { 0, SOME * CHILD };
    llfree_core h = LLFREE_CLOSED;

    begin(&h, 1, SOME * CHILD, false);
    for (uint32_t count = 1; count <= 17; count++)
        for (uint32_t at = 0; at < 2 * count; at++) {
            lost_in = at % count;
            lost_as = at < count ? LLFREE_NO_BLOCK : LLFREE_CONTENDED;
            CHECK(llfree_take_block_run(&h, all, run, count) == LLFREE_OK && lost_in == -1);
            CHECK(run[0].frame == CHILD * rounded_up(count));
            CHECK(run[count - 1].frame == run[0].frame + CHILD * (count - 1));
            CHECK(llfree_free_huge(&h) == SOME - count);
            CHECK(llfree_give_block_run(&h, run, count) == LLFREE_OK && llfree_free_huge(&h) == SOME);
            /* there is no next place */
            const llfree_range one = { 0, CHILD * rounded_up(count) };
            lost_in = at % count;
            CHECK(llfree_take_block_run(&h, one, run, count) == lost_as);
            CHECK(are_empty(run, count) && llfree_free_huge(&h) == SOME && lost_in == -1);
            /* each place is lost */
            is_lost_for_good = true;
            CHECK(llfree_take_block_run(&h, all, run, count) == lost_as);
            CHECK(are_empty(run, count) && llfree_free_huge(&h) == SOME);
            is_lost_for_good = false;
        }
    llfree_close(&h);
}

static llfree_core cores[CORES];
static _Atomic unsigned char owner[3 * TREE];
/* Runs of several huge frames that were had by any thread: while others hold all, one may have none. */
static _Atomic int long_runs;

static void mark(uint32_t first, uint32_t frames, unsigned char from)
{
    for (uint32_t f = first; f < first + frames; f++)
        CHECK(atomic_exchange(&owner[f], !from) == from);
}

/* A run of so many, or one block of any order. */
static void give(llfree_core *me, llfree_block *held, uint32_t count)
{
    mark(held->frame, count ? CHILD * count : 1u << held->order, 1);
    CHECK((count ? llfree_give_block_run(me, held, count) : llfree_give_block(me, held)) == LLFREE_OK);
}

/* Runs beside single frames and blocks; each frame has one owner. */
static void *work(void *handle)
{
    const llfree_range all = { 0, 3 * TREE };
    llfree_core *me = handle;
    uint64_t x = 88172645463325252ull + (uint64_t)(me - cores) * 7919;
    llfree_block held[6][6];
    uint32_t count[6];
    int n = 0;

    memset(held, 0, sizeof held);
    for (int round = 0; round < ROUNDS; round++) {
        uint64_t r = next_random(&x);
        int i = n ? (int)((r >> 40) % (unsigned)n) : 0;
        if (n < 6 && r & 1) {
            enum llfree_status status;
            count[n] = r & 6 ? 1 + (r >> 16) % 6 : 0;
            status = count[n] ? llfree_take_block_run(me, all, held[n], count[n]) :
                                llfree_take_block(me, (r >> 8) % 4 ? 0 : (r >> 10) % 8, held[n]);
            CHECK(status == LLFREE_OK || status == LLFREE_NO_BLOCK || status == LLFREE_CONTENDED);
            CHECK(status == LLFREE_OK || are_empty(held[n], 6));
            if (status != LLFREE_OK)
                continue;
            CHECK(count[n] == 0 || held[n][0].frame % (CHILD * rounded_up(count[n])) == 0);
            mark(held[n][0].frame, count[n] ? CHILD * count[n] : 1u << held[n][0].order, 0);
            long_runs += count[n] > 1;
            n++;
        } else if (n > 0) {
            give(me, held[i], count[i]);
            n--;
            if (i != n)
                memcpy(held[i], held[n], sizeof held[i]); /* moved: the old bytes are not used again */
            memset(held[n], 0, sizeof held[n]);
            count[i] = count[n];
        }
    }
    while (n-- > 0)
        give(me, held[n], count[n]);
    return NULL;
}

/* Four threads; at the end all is free, and a run of each core has all of it. */
static void threads(void)
{
    static llfree_block run[3 * TREE / CHILD];
    const llfree_range all = { 0, 3 * TREE };
    pthread_t threads[CORES];

    CHECK(llfree_open_unchecked(cores, CORES, 3 * TREE, NULL, 0) == LLFREE_OK);
    for (int i = 0; i < CORES; i++)
        CHECK(pthread_create(&threads[i], NULL, work, &cores[i]) == 0);
    for (int i = 0; i < CORES; i++)
        CHECK(pthread_join(threads[i], NULL) == 0);
    CHECK(long_runs > 0);
    CHECK(llfree_free_frames(&cores[0]) == 3 * TREE && llfree_free_huge(&cores[1]) == 3 * TREE / CHILD);
    for (int i = 0; i < CORES; i++) {
        CHECK(llfree_take_block_run(&cores[i], all, run, 3 * TREE / CHILD) == LLFREE_OK && run[0].frame == 0);
        CHECK(llfree_give_block_run(&cores[(i + 1) % CORES], run, 3 * TREE / CHILD) == LLFREE_OK);
    }
    close_all(cores, CORES);
}

int main(void)
{
    for (int has_list = 0; has_list < 2; has_list++) {
        statuses(has_list);
        cut_up(has_list);
    }
    each_count();
    nodes();
    lost();
    threads();
    puts("all checks passed");
    return 0;
}
