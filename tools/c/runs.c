/* The library for C with runs of huge frames, and with looks at blocks, beside a byte a frame: each number of huge
 * frames from 1 to 17, 64 and 512; memories that are cut up, with one place left, with ranges, holes and ends; what is
 * not held; calls at random; and threads that want runs beside blocks of all orders. */
#include "check.h"
#include <pthread.h>
#include <stdatomic.h>

enum { CORES = 4, CHILD = 512, TREE = 4096, LONGEST = 512, CHILDREN = 1100, MOST = CHILDREN * CHILD, ROUNDS = 3000 };

static const uint32_t none = UINT32_MAX;

/* Beside the library: 0 where a frame is free, 1 where it is held, 2 where no zone has it. */
static unsigned char state[MOST + CHILD];

/* The zone of each frame, for memories that have several. */
static unsigned char zone_of[MOST + CHILD];

static uint32_t rounded_up(uint32_t count)
{
    uint32_t power = 1;

    while (power < count)
        power *= 2;
    return power;
}

static bool are_free(uint32_t first, uint32_t frames)
{
    if (first > MOST || frames > MOST - first)
        return false;
    for (uint32_t f = first; f < first + frames; f++)
        if (state[f] != 0 || zone_of[f] != zone_of[first])
            return false;
    return true;
}

/* Where the first run of so many is free, or none. */
static uint32_t first_run(uint32_t count)
{
    const uint32_t step = CHILD * rounded_up(count);

    for (uint32_t first = 0; first + CHILD * count <= MOST; first += step)
        if (are_free(first, CHILD * count))
            return first;
    return none;
}

static void turn(uint32_t first, uint32_t frames, unsigned char to)
{
    for (uint32_t f = first; f < first + frames; f++) {
        CHECK(state[f] == !to);
        state[f] = to;
    }
}

/* All frames of a new memory of one zone are free. */
static void begin(uint32_t frames)
{
    memset(state, 0, frames);
    memset(state + frames, 2, sizeof state - frames);
    memset(zone_of, 0, sizeof zone_of);
}

/* A take of a run finds the first one that is free, or is refused and holds nothing. */
static uint32_t take_run(llfree_core *core, uint32_t count)
{
    const uint32_t want = first_run(count), free = llfree_free_frames(core);
    uint32_t frame = 77;
    uint8_t order = 77;
    enum llfree_status status = llfree_take_run(core, count, &frame);

    CHECK(status == (want == none ? LLFREE_NO_BLOCK : LLFREE_OK));
    if (want == none) {
        CHECK(frame == 77 && llfree_free_frames(core) == free);
        return none;
    }
    CHECK(frame == want && frame % (CHILD * rounded_up(count)) == 0);
    CHECK(llfree_free_frames(core) == free - CHILD * count);
    turn(frame, CHILD * count, 1);
    for (uint32_t i = 0; i < count; i++)
        CHECK(llfree_order_at(core, frame + CHILD * i, &order) == LLFREE_OK && order == LARGEST);
    return frame;
}

static void give_run(llfree_core *core, uint32_t frame, uint32_t count)
{
    turn(frame, CHILD * count, 0);
    CHECK(llfree_give_run(core, frame, count) == LLFREE_OK);
}

/* A give of what is not held, or not all of it, gives nothing. */
static void is_not_held(llfree_core *core, uint32_t frame, uint32_t count)
{
    const uint32_t free = llfree_free_frames(core);

    CHECK(llfree_give_run(core, frame, count) == LLFREE_NOT_HELD);
    CHECK(llfree_free_frames(core) == free);
}

static void hold(llfree_core *core, uint32_t frame, uint8_t order)
{
    CHECK(llfree_take_at(core, frame, order) == LLFREE_OK);
    turn(frame, 1u << order, 1);
}

static void let_go(llfree_core *core, uint32_t frame, uint8_t order)
{
    CHECK(llfree_give(core, frame, order) == LLFREE_OK);
    turn(frame, 1u << order, 0);
}

static void close_all(llfree_core *handles, size_t count)
{
    for (size_t i = 0; i < count; i++)
        llfree_close(&handles[i]);
}

/* Each status of each call, with nobody else about. */
static void statuses(void)
{
    static const uint32_t bad[] = { 0, LONGEST + 1, 1024, UINT32_MAX };
    llfree_core h[2] = { LLFREE_CLOSED, LLFREE_CLOSED };
    uint32_t frame = 77;
    uint8_t order = 0;

    CHECK(llfree_take_run(&h[0], 2, &frame) == LLFREE_CLOSED_HANDLE && frame == 77);
    CHECK(llfree_take_run(&h[0], 0, &frame) == LLFREE_CLOSED_HANDLE && frame == 77);
    CHECK(llfree_give_run(&h[0], 0, 2) == LLFREE_CLOSED_HANDLE && !llfree_is_free(&h[0], 0, 0));
    CHECK(llfree_open(h, 2, 4 * CHILD, NULL, 0) == LLFREE_OK);
    begin(4 * CHILD);
    for (size_t i = 0; i < sizeof bad / sizeof *bad; i++) {
        CHECK(llfree_take_run(&h[1], bad[i], &frame) == LLFREE_BAD_ORDER && frame == 77);
        CHECK(llfree_give_run(&h[1], 0, bad[i]) == LLFREE_BAD_ORDER);
    }
    CHECK(take_run(&h[0], 3) == 0);
    for (size_t i = 0; i < sizeof bad / sizeof *bad; i++)
        CHECK(llfree_give_run(&h[1], 0, bad[i]) == LLFREE_BAD_ORDER);
    CHECK(take_run(&h[1], 2) == none && take_run(&h[1], 5) == none && take_run(&h[1], LONGEST) == none);
    CHECK(take_run(&h[1], 1) == 3 * CHILD && take_run(&h[0], 1) == none);
    /* it was taken as one of 3 and one of 1: any part of it is a run too */
    is_not_held(&h[0], 512, 4);
    is_not_held(&h[0], 1, 1);
    is_not_held(&h[0], 511, 1);
    is_not_held(&h[0], 4 * CHILD, 1);
    is_not_held(&h[0], UINT32_MAX, 1);
    is_not_held(&h[0], UINT32_MAX - 511, LONGEST);
    is_not_held(&h[0], 3 * CHILD, 2);
    give_run(&h[1], CHILD, 3);
    is_not_held(&h[0], 0, 2);
    is_not_held(&h[0], CHILD, 1);
    /* each huge frame is a block for itself */
    CHECK(take_run(&h[0], 2) == 2 * CHILD);
    CHECK(llfree_split(&h[0], 3 * CHILD, LARGEST) == LLFREE_OK);
    is_not_held(&h[1], 2 * CHILD, 2);
    CHECK(llfree_order_at(&h[1], 2 * CHILD, &order) == LLFREE_OK && order == LARGEST);
    CHECK(llfree_order_at(&h[1], 3 * CHILD, &order) == LLFREE_OK && order == 8);
    let_go(&h[1], 3 * CHILD, 8);
    let_go(&h[0], 3 * CHILD + 256, 8);
    let_go(&h[1], 2 * CHILD, LARGEST);
    /* single huge frames that lie side by side are given as a run */
    hold(&h[0], CHILD, LARGEST);
    hold(&h[1], 2 * CHILD, LARGEST);
    give_run(&h[0], 0, 3);
    CHECK(llfree_free_huge(&h[1]) == 4);
    llfree_close(&h[0]);
    CHECK(llfree_take_run(&h[0], 1, &frame) == LLFREE_CLOSED_HANDLE && frame == 77);
    CHECK(llfree_give_run(&h[0], 0, 1) == LLFREE_CLOSED_HANDLE && !llfree_is_free(&h[0], 0, LARGEST));
    CHECK(llfree_is_free(&h[1], 0, LARGEST));
    llfree_close(&h[1]);
}

/* Runs of one number until none is left, through both cores in turn: one at each place. */
static void fill(llfree_core *h, uint32_t count)
{
    static bool is_place[CHILDREN];
    const uint32_t step = rounded_up(count);
    uint32_t places = 0, had = 0;

    for (uint32_t c = 0; c + count <= CHILDREN; c += step)
        places += is_place[c] = are_free(CHILD * c, CHILD * count);
    while (take_run(&h[had % 2], count) != none)
        had++;
    CHECK(had == places);
    for (uint32_t c = 0; c + count <= CHILDREN; c += step)
        if (is_place[c])
            give_run(&h[c / step % 2], CHILD * c, count);
}

static void each_count(void)
{
    static const uint32_t others[] = { 31, 32, 33, 64, 65, 100, 127, 128, 129, 256, 257, 511, LONGEST };
    llfree_core h[2] = { LLFREE_CLOSED, LLFREE_CLOSED };

    CHECK(llfree_open(h, 2, MOST, NULL, 0) == LLFREE_OK);
    begin(MOST);
    for (uint32_t count = 1; count <= 17; count++)
        fill(h, count);
    for (size_t i = 0; i < sizeof others / sizeof *others; i++)
        fill(h, others[i]);
    CHECK(llfree_free_huge(&h[0]) == CHILDREN);
    close_all(h, 2);
}

/* A frame is held in each group where a run may begin: there is none, though almost all is free. Where one frame is
 * given, just this place is found. */
static void cut_up(void)
{
    enum { SOME = 96 };
    llfree_core h[2] = { LLFREE_CLOSED, LLFREE_CLOSED };

    for (uint32_t count = 1; count <= 17; count++) {
        const uint32_t step = rounded_up(count);
        CHECK(llfree_open(h, 2, SOME * CHILD, NULL, 0) == LLFREE_OK);
        begin(SOME * CHILD);
        for (uint32_t c = 0; c + count <= SOME; c += step)
            hold(&h[c / step % 2], CHILD * (c + c / step % count) + c % CHILD, 0);
        CHECK(take_run(&h[0], count) == none && take_run(&h[1], count) == none);
        for (uint32_t c = 0; c + count <= SOME; c += step) {
            let_go(&h[0], CHILD * (c + c / step % count) + c % CHILD, 0);
            CHECK(take_run(&h[1], count) == CHILD * c && take_run(&h[0], count) == none);
            give_run(&h[1], CHILD * c, count);
            hold(&h[1], CHILD * (c + c / step % count) + c % CHILD, 0);
        }
        close_all(h, 2);
    }
}

/* Each block of each order is told free just where it is. */
static void sweep(llfree_core *h, uint32_t end)
{
    for (int order = 0; order < 256; order++)
        for (uint32_t f = 0; f < end + 2 * CHILD; f++) {
            bool is = order <= LARGEST && f % (1u << order) == 0 && are_free(f, 1u << order);
            CHECK(llfree_is_free(&h[f % 2], f, (uint8_t)order) == is);
            if (order > LARGEST)
                f += 97;
        }
    for (uint32_t back = 0; back < 2 * CHILD; back++)
        CHECK(!llfree_is_free(&h[0], UINT32_MAX - back, (uint8_t)(back % 12)));
}

static void looks(void)
{
    static const llfree_range kept[2] = { { 600, 8 }, { 1536, 512 } };
    enum { END = 5 * CHILD + 100 };
    llfree_core h[2] = { LLFREE_CLOSED, LLFREE_CLOSED };
    uint32_t frame;

    CHECK(llfree_open(h, 2, END, kept, 2) == LLFREE_OK);
    begin(END);
    turn(600, 8, 1);
    turn(1536, 512, 1);
    sweep(h, END);
    for (uint8_t order = 0; order <= LARGEST; order++) {
        hold(&h[order % 2], 1024, order);
        sweep(h, END);
        let_go(&h[0], 1024, order);
    }
    hold(&h[1], 2 * CHILD + 511, 0);
    hold(&h[1], 0, 6);
    hold(&h[0], 4 * CHILD, LARGEST);
    sweep(h, END);
    /* a frame that rests is held */
    CHECK(llfree_give_number(&h[0], 2 * CHILD + 511) == LLFREE_OK);
    sweep(h, END);
    CHECK(llfree_take_number(&h[0], &frame) == LLFREE_OK && frame == 2 * CHILD + 511);
    CHECK(llfree_give_number(&h[0], frame) == LLFREE_OK);
    llfree_drain(&h[0]);
    turn(frame, 1, 0);
    sweep(h, END);
    close_all(h, 2);
}

/* Zones that lie side by side and with holes: a run lies in one of them, at a multiple over all zones. */
static void zones(void)
{
    static const llfree_range four[4] = {
        { 0, 5 * CHILD }, { 5 * CHILD, 13 * CHILD }, { 32 * CHILD, 8 * CHILD + 3 }, { 51 * CHILD, 20 * CHILD }
    };
    static const llfree_range kept[2] = { { 12 * CHILD + 7, 1 }, { 60 * CHILD, CHILD } };
    llfree_core h[3] = { LLFREE_CLOSED, LLFREE_CLOSED, LLFREE_CLOSED };

    CHECK(llfree_open_zones(h, 3, four, 4, kept, 2) == LLFREE_OK);
    memset(state, 2, sizeof state);
    memset(zone_of, 9, sizeof zone_of);
    for (int z = 0; z < 4; z++) {
        memset(state + four[z].first, 0, four[z].frames);
        memset(zone_of + four[z].first, z, four[z].frames);
    }
    turn(kept[0].first, kept[0].frames, 1);
    turn(kept[1].first, kept[1].frames, 1);
    for (uint32_t count = 1; count <= 20; count++)
        fill(h + count % 2, count);
    sweep(h, 72 * CHILD);
    /* a run over a border of zones, or over a hole, is none, though each huge frame is held */
    hold(&h[0], 4 * CHILD, LARGEST);
    hold(&h[1], 5 * CHILD, LARGEST);
    is_not_held(&h[2], 4 * CHILD, 2);
    give_run(&h[2], 4 * CHILD, 1);
    give_run(&h[2], 5 * CHILD, 1);
    hold(&h[0], 39 * CHILD, LARGEST);
    hold(&h[0], 51 * CHILD, LARGEST);
    is_not_held(&h[1], 39 * CHILD, 13);
    is_not_held(&h[1], 39 * CHILD, 2);
    is_not_held(&h[1], 40 * CHILD, 1);
    is_not_held(&h[1], 31 * CHILD, 2);
    give_run(&h[1], 39 * CHILD, 1);
    give_run(&h[1], 51 * CHILD, 1);
    close_all(h, 3);
}

/* Trees that other cores have in reserve are no hindrance. In a memory without slots all is given back. */
static void others(void)
{
    llfree_core h[CORES] = { LLFREE_CLOSED };
    uint32_t f[CORES];

    CHECK(llfree_open(h, CORES, CORES * TREE, NULL, 0) == LLFREE_OK);
    begin(CORES * TREE);
    for (int i = 0; i < CORES; i++) {
        CHECK(llfree_take(&h[i], 0, &f[i]) == LLFREE_OK);
        turn(f[i], 1, 1);
    }
    for (uint32_t count = 1; count <= 17; count++)
        fill(h + count % 3, count);
    for (int i = 0; i < CORES; i++)
        let_go(&h[0], f[i], 0);
    CHECK(take_run(&h[2], 8 * CORES) == 0);
    for (int i = 0; i < CORES; i++)
        CHECK(llfree_take(&h[i], 0, &f[i]) == LLFREE_NO_BLOCK);
    give_run(&h[1], 0, 8 * CORES);
    CHECK(llfree_free_huge(&h[0]) == 8 * CORES);
    close_all(h, CORES);

    CHECK(llfree_open_unchecked(&h[0], 1, 8 * CHILD, NULL, 0) == LLFREE_OK);
    for (uint32_t count = 1; count <= 8; count++) {
        f[0] = 77;
        CHECK(llfree_take_run(&h[0], count, &f[0]) == LLFREE_CONTENDED && f[0] == 77);
        CHECK(llfree_give_run(&h[0], 0, count) == LLFREE_NOT_HELD);
        CHECK(llfree_free_frames(&h[0]) == 8 * CHILD && llfree_free_huge(&h[0]) == 8);
    }
    CHECK(llfree_take_run(&h[0], 9, &f[0]) == LLFREE_NO_BLOCK);
    llfree_close(&h[0]);
}

/* Runs, blocks and looks at random, through three cores. */
static void random_runs(void)
{
    enum { END = 61 * CHILD + 300, HELD = 40 };
    static struct {
        uint32_t frame, count;
        uint8_t order;
    } out[HELD];
    llfree_core h[3] = { LLFREE_CLOSED, LLFREE_CLOSED, LLFREE_CLOSED };
    uint32_t n = 0, had = 0, refused = 0;
    uint64_t x = 2463534242ull;

    begin(END);
    CHECK(llfree_open(h, 3, END, NULL, 0) == LLFREE_OK);
    for (int round = 0; round < 6000; round++) {
        uint64_t r = next_random(&x);
        llfree_core *me = &h[(r >> 8) % 3];
        uint32_t i = n ? (uint32_t)(r >> 40) % n : 0, f = (uint32_t)(r >> 24) % END;
        uint8_t order = (r >> 16) % 10;

        CHECK(llfree_is_free(me, f >> order << order, order) == are_free(f >> order << order, 1u << order));
        if (r % 8 < 3 && n < HELD) {
            out[n].count = 1 + (r >> 16) % 13;
            out[n].frame = take_run(me, out[n].count);
            out[n].order = LARGEST;
            had += out[n].frame != none;
            refused += out[n].frame == none;
            n += out[n].frame != none;
        } else if (r % 8 == 3 && n < HELD) {
            out[n].count = 0;
            out[n].frame = f >> order << order;
            out[n].order = order;
            if (are_free(out[n].frame, 1u << order)) {
                hold(me, out[n].frame, order);
                n++;
            }
        } else if (n > 0 && out[i].count == 0) {
            let_go(me, out[i].frame, out[i].order);
            out[i] = out[--n];
        } else if (n > 0) {
            /* whole, in two parts, or one by one */
            uint32_t first = (r >> 50) % out[i].count, c = 0;
            if (first > 0)
                give_run(me, out[i].frame, first);
            is_not_held(me, out[i].frame + (first == 0), out[i].count);
            if (r >> 63)
                give_run(&h[0], out[i].frame + CHILD * first, out[i].count - first);
            else
                for (c = first; c < out[i].count; c++)
                    let_go(me, out[i].frame + CHILD * c, LARGEST);
            out[i] = out[--n];
        }
    }
    CHECK(had > 300 && refused > 100);
    close_all(h, 3);
}

static llfree_core cores[CORES];
static _Atomic unsigned char owner[3 * TREE];
/* Runs of several huge frames that were had by any thread: while others hold all, one may have none. */
static _Atomic int long_runs;

static void mark(uint32_t first, uint32_t frames, unsigned char from)
{
    for (uint32_t f = first; f < first + frames; f++)
        CHECK(atomic_exchange(&owner[f], !from) == from);
}

/* Runs beside single frames and blocks; each frame has one owner. */
static void *work(void *handle)
{
    llfree_core *me = handle;
    uint64_t x = 88172645463325252ull + (uint64_t)(me - cores) * 7919;
    uint32_t frame[6], count[6];
    uint8_t orders[6];
    int n = 0;

    for (int round = 0; round < ROUNDS; round++) {
        uint64_t r = next_random(&x);
        int i = n ? (int)((r >> 40) % (unsigned)n) : 0;
        if (n < 6 && r & 1) {
            enum llfree_status status;
            orders[n] = (r >> 8) % 4 ? 0 : (r >> 10) % 8;
            count[n] = r & 6 ? 1 + (r >> 16) % 6 : 0;
            status = count[n] ? llfree_take_run(me, count[n], &frame[n]) : llfree_take(me, orders[n], &frame[n]);
            CHECK(status == LLFREE_OK || status == LLFREE_NO_BLOCK || status == LLFREE_CONTENDED);
            if (status != LLFREE_OK)
                continue;
            CHECK(count[n] == 0 || frame[n] % (CHILD * rounded_up(count[n])) == 0);
            mark(frame[n], count[n] ? CHILD * count[n] : 1u << orders[n], 0);
            long_runs += count[n] > 1;
            CHECK(!llfree_is_free(me, frame[n], 0));
            n++;
        } else if (n > 0) {
            mark(frame[i], count[i] ? CHILD * count[i] : 1u << orders[i], 1);
            if (count[i] == 0)
                CHECK(llfree_give(me, frame[i], orders[i]) == LLFREE_OK);
            else
                CHECK(llfree_give_run(me, frame[i], count[i]) == LLFREE_OK);
            n--;
            frame[i] = frame[n];
            count[i] = count[n];
            orders[i] = orders[n];
        }
    }
    while (n-- > 0) {
        mark(frame[n], count[n] ? CHILD * count[n] : 1u << orders[n], 1);
        CHECK((count[n] ? llfree_give_run(me, frame[n], count[n]) : llfree_give(me, frame[n], orders[n])) == LLFREE_OK);
    }
    return NULL;
}

/* Four threads; at the end all is free, and a run of each core has all of it. */
static void threads(void)
{
    pthread_t all[CORES];
    uint32_t frame = 77;

    CHECK(llfree_open(cores, CORES, 3 * TREE, NULL, 0) == LLFREE_OK);
    for (int i = 0; i < CORES; i++)
        CHECK(pthread_create(&all[i], NULL, work, &cores[i]) == 0);
    for (int i = 0; i < CORES; i++)
        CHECK(pthread_join(all[i], NULL) == 0);
    CHECK(long_runs > 0);
    CHECK(llfree_free_frames(&cores[0]) == 3 * TREE && llfree_free_huge(&cores[1]) == 3 * TREE / CHILD);
    for (int i = 0; i < CORES; i++) {
        CHECK(llfree_take_run(&cores[i], 3 * TREE / CHILD, &frame) == LLFREE_OK && frame == 0);
        CHECK(llfree_give_run(&cores[(i + 1) % CORES], 0, 3 * TREE / CHILD) == LLFREE_OK);
    }
    close_all(cores, CORES);
}

int main(void)
{
    statuses();
    each_count();
    cut_up();
    looks();
    zones();
    others();
    random_runs();
    threads();
    puts("all checks passed");
    return 0;
}
