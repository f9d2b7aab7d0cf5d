/* Counts of desks, and desks with two cores: each count by a script and beside what four threads had, while another one
 * reads; runs, places and gives through any desk; small memories; and how many huge frames stay whole beside small
 * blocks, in one thread that draws the same numbers for single cores and for pairs. */
#define LLFREE_POOL_COUNTS
#include <stddef.h>

/* Which desk a call asks first. */
static _Thread_local size_t here;
#define llfree_pool_here() (here)

#include "check.h"
#include "llfree_pool.h"
#include <pthread.h>
#include <stdatomic.h>

enum { DESKS = 4, TREE = 4096, FRAMES = 64 * TREE, MOST_BLOCKS = FRAMES, ROUNDS = 5000, HELD = 24 };

static llfree_desk desks[DESKS];
static llfree_core handles[2 * DESKS];
static _Atomic unsigned char owner[FRAMES];

static void turn(uint32_t frame, size_t frames, unsigned char to)
{
    for (uint32_t i = frame; i < frame + frames; i++)
        CHECK(atomic_exchange(&owner[i], to) == !to);
}

static void are(uint64_t takes, uint64_t gives, uint64_t no_block, uint64_t contended, uint64_t moved)
{
    const llfree_desk_counts counts = llfree_pool_counts(desks, DESKS);

    CHECK(counts.takes == takes && counts.gives == gives && counts.no_block == no_block);
    CHECK(counts.contended == contended && counts.moved == moved);
}

static void open_desks(uint32_t frames, size_t each)
{
    memset(desks, 0, sizeof desks);
    CHECK(llfree_open(handles, each * DESKS, frames, NULL, 0) == LLFREE_OK);
    if (each == 1)
        llfree_seat_all(desks, handles, DESKS);
    else
        CHECK(llfree_seat_pairs(desks, handles, DESKS));
    for (size_t i = 0; i < 2 * DESKS; i++)
        CHECK(llfree_frames(&handles[i]) == 0);
}

static void counts(size_t each)
{
    uint32_t frame = 0, run = 0, order_nine = 0;
    uint8_t order;

    here = 0;
    open_desks(FRAMES, each);
    are(0, 0, 0, 0, 0);
    CHECK(llfree_pool_take(desks, DESKS, 9, &order_nine) == LLFREE_OK);
    CHECK(llfree_pool_take(desks, DESKS, 3, &frame) == LLFREE_OK);
    CHECK(llfree_pool_take(desks, DESKS, 10, &frame) == LLFREE_BAD_ORDER);
    are(2, 0, 0, 0, 0);
    CHECK(llfree_pool_take_at(desks, DESKS, frame, 3) == LLFREE_NO_BLOCK);
    CHECK(llfree_pool_take_at(desks, DESKS, order_nine, 9) == LLFREE_NO_BLOCK);
    CHECK(llfree_pool_take_at(desks, DESKS, frame, 77) == LLFREE_BAD_ORDER);
    are(2, 0, 2, 0, 0);
    /* a run is one, however many blocks it is, and refused ones leave nothing */
    CHECK(llfree_pool_take_run(desks, DESKS, 1027, 1, &run) == LLFREE_OK);
    CHECK(llfree_pool_take_run(desks, DESKS, 0, 1, &run) == LLFREE_BAD_ORDER);
    CHECK(llfree_pool_take_run(desks, DESKS, FRAMES - 512, 1, &frame) == LLFREE_NO_BLOCK);
    are(3, 0, 3, 0, 0);
    CHECK(llfree_pool_give_run(desks, DESKS, run, 1027) == LLFREE_OK);
    CHECK(llfree_pool_give_run(desks, DESKS, run, 1027) == LLFREE_NOT_HELD);
    are(3, 1, 3, 0, 0);
    /* neither are splits and looks */
    CHECK(llfree_pool_split(desks, DESKS, frame, 3) == LLFREE_OK);
    CHECK(llfree_pool_split_to(desks, DESKS, order_nine, 9, 7) == LLFREE_OK);
    CHECK(llfree_pool_order_at(desks, DESKS, order_nine, &order) == LLFREE_OK && order == 7);
    are(3, 1, 3, 0, 0);
    for (uint32_t i = 0; i < 4; i++)
        CHECK(llfree_pool_give(desks, DESKS, order_nine + 128 * i, 7) == LLFREE_OK);
    CHECK(llfree_pool_give(desks, DESKS, frame, 3) == LLFREE_NOT_HELD);
    CHECK(llfree_pool_give(desks, DESKS, frame, 2) == LLFREE_OK);
    CHECK(llfree_pool_give(desks, DESKS, frame + 4, 2) == LLFREE_OK);
    are(3, 7, 3, 0, 0);
    /* all desks but the last are taken, then but the first, which is asked first */
    for (size_t i = 0; i < DESKS - 1; i++) {
        here = i;
        CHECK(llfree_sit(desks, DESKS) == &desks[i]);
    }
    for (here = 0; here < 3 * DESKS; here++)
        CHECK(llfree_pool_take(desks, DESKS, 0, &frame) == LLFREE_OK &&
              llfree_pool_give(desks, DESKS, frame, 0) == LLFREE_OK);
    are(3 + 3 * DESKS, 7 + 3 * DESKS, 3, 0, 2 * 3 * (DESKS - 1));
    CHECK(desks[DESKS - 1].counts.moved == 2 * 3 * (DESKS - 1) && desks[0].counts.takes == 3);
    for (size_t i = 0; i < DESKS - 1; i++)
        llfree_leave(&desks[i]);
    here = 0;
    llfree_sit_at_all(desks, DESKS);
    llfree_leave_all(desks, DESKS);
    are(3 + 3 * DESKS, 7 + 3 * DESKS, 3, 0, 2 * 3 * (DESKS - 1));
    llfree_pool_close(desks, DESKS);
}

/* A memory without a list has no place for a block, whichever desk is asked. */
static void contended(void)
{
    uint32_t frame = 77;

    memset(desks, 0, sizeof desks);
    CHECK(llfree_open_unchecked(handles, DESKS, FRAMES, NULL, 0) == LLFREE_OK);
    llfree_seat_all(desks, handles, DESKS);
    for (here = 0; here < DESKS; here++) {
        CHECK(llfree_pool_take(desks, DESKS, 3, &frame) == LLFREE_CONTENDED);
        CHECK(llfree_pool_take_at(desks, DESKS, 512, 9) == LLFREE_CONTENDED);
        CHECK(llfree_pool_take_run(desks, DESKS, 600, 1, &frame) == LLFREE_CONTENDED && frame == 77);
        CHECK(llfree_pool_give(desks, DESKS, 0, 0) == LLFREE_NOT_HELD);
    }
    are(0, 0, 0, 3 * DESKS, 0);
    here = 0;
    llfree_pool_close(desks, DESKS);
}

static _Atomic uint64_t tallies[4];
static atomic_bool is_over;

static void tally(enum llfree_status status)
{
    CHECK(status == LLFREE_OK || status == LLFREE_NO_BLOCK || status == LLFREE_CONTENDED);
    tallies[status == LLFREE_OK ? 0 : status == LLFREE_NO_BLOCK ? 2 : 3]++;
}

/* Blocks of all orders, and runs; two threads ask the same desk first. */
static void *work(void *number)
{
    uint64_t x = 88172645463325252u + (uint64_t)(size_t)number;
    uint32_t frames[HELD];
    size_t lengths[HELD];
    int held = 0;

    here = (size_t)number / 2;
    for (int round = 0; round < ROUNDS || held > 0; round++) {
        const uint64_t r = next_random(&x);
        if (round < ROUNDS && held < HELD && r & 1) {
            enum llfree_status status;
            lengths[held] = r & 30 ? (size_t)1 << (r >> 8) % 10 : 1 + (r >> 8) % 1600;
            status = r & 30 ? llfree_pool_take(desks, DESKS, (r >> 8) % 10, &frames[held]) :
                              llfree_pool_take_run(desks, DESKS, lengths[held], 1, &frames[held]);
            tally(status);
            if (status != LLFREE_OK)
                continue;
            turn(frames[held], lengths[held], 1);
            held++;
        } else if (held > 0) {
            held--;
            turn(frames[held], lengths[held], 0);
            /* a block is a run of its length */
            CHECK(llfree_pool_give_run(desks, DESKS, frames[held], lengths[held]) == LLFREE_OK);
            tallies[1]++;
        }
    }
    return NULL;
}

/* No count falls, and none is above what was called. */
static void *look(void *argument)
{
    llfree_desk_counts last = { 0, 0, 0, 0, 0 };

    (void)argument;
    while (!is_over) {
        const llfree_desk_counts now = llfree_pool_counts(desks, DESKS);
        CHECK(now.takes >= last.takes && now.gives >= last.gives && now.no_block >= last.no_block);
        CHECK(now.contended >= last.contended && now.moved >= last.moved);
        last = now;
    }
    return NULL;
}

static void threads(size_t each)
{
    pthread_t all[2 * DESKS], looking;
    llfree_desk_counts sums;

    open_desks(FRAMES, each);
    for (int i = 0; i < 4; i++)
        tallies[i] = 0;
    is_over = false;
    CHECK(pthread_create(&looking, NULL, look, NULL) == 0);
    for (size_t i = 0; i < 4; i++)
        CHECK(pthread_create(&all[i], NULL, work, (void *)i) == 0);
    for (size_t i = 0; i < 4; i++)
        CHECK(pthread_join(all[i], NULL) == 0);
    is_over = true;
    CHECK(pthread_join(looking, NULL) == 0);
    sums = llfree_pool_counts(desks, DESKS);
    CHECK(sums.takes == tallies[0] && sums.gives == tallies[1] && sums.no_block == tallies[2]);
    CHECK(sums.contended == tallies[3] && sums.takes == sums.gives);
    CHECK(llfree_free_frames(&desks[0].core) == FRAMES && llfree_free_huge(&desks[1].core) == FRAMES / 512);
    llfree_pool_close(desks, DESKS);
}

/* A memory that is too small for pairs has one core a desk, and all other handles are closed. */
static void small(void)
{
    uint32_t frame;

    here = 0;
    for (uint32_t less = 0; less < 2; less++) {
        const uint32_t frames = 2 * DESKS * LLFREE_POOL_PAIRED - less;
        CHECK(llfree_open(handles, 2 * DESKS, frames, NULL, 0) == LLFREE_OK);
        CHECK(llfree_seat_pairs(desks, handles, DESKS) == (less == 0));
        for (size_t i = 0; i < DESKS; i++) {
            CHECK(llfree_frames(&handles[i]) == 0 && llfree_frames(&handles[DESKS + i]) == 0);
            CHECK(llfree_frames(&desks[i].core) == frames && llfree_frames(&desks[i].huge) == (less ? 0 : frames));
        }
        for (uint8_t order = 0; order <= LARGEST; order++) {
            CHECK(llfree_pool_take(desks, DESKS, order, &frame) == LLFREE_OK);
            here = order;
            CHECK(llfree_pool_give(desks, DESKS, frame, order) == LLFREE_OK);
        }
        CHECK(llfree_free_frames(&desks[1].core) == frames);
        llfree_pool_close(desks, DESKS);
        for (size_t i = 0; i < DESKS; i++)
            CHECK(llfree_frames(&desks[i].core) == 0 && llfree_frames(&desks[i].huge) == 0);
    }
    memset(handles, 0, sizeof handles);
    CHECK(!llfree_seat_pairs(desks, handles, DESKS));
    CHECK(llfree_pool_take(desks, DESKS, 0, &frame) == LLFREE_CLOSED_HANDLE);
    are(0, 0, 0, 0, 0);
}

/* What a core of a pair took, any desk gives, in any order of calls. */
static void any_gives(void)
{
    uint32_t frame, run;

    open_desks(FRAMES, 2);
    for (size_t by = 0; by < DESKS; by++)
        for (size_t to = 0; to < DESKS; to++) {
            for (uint8_t order = 0; order <= LARGEST; order++) {
                CHECK(llfree_desk_take(&desks[by], order, &frame) == LLFREE_OK);
                CHECK(llfree_desk_give(&desks[to], frame, order) == LLFREE_OK);
                CHECK(llfree_desk_give(&desks[by], frame, order) == LLFREE_NOT_HELD);
                CHECK(llfree_desk_take_at(&desks[to], frame, order) == LLFREE_OK);
                CHECK(llfree_desk_give(&desks[by], frame, order) == LLFREE_OK);
            }
            for (size_t length = 1; length < 2100; length += 1 + length / 7) {
                CHECK(llfree_desk_take_run(&desks[by], length, 1, &run) == LLFREE_OK);
                turn(run, length, 1);
                CHECK(llfree_free_frames(&desks[to].huge) == FRAMES - length);
                turn(run, length, 0);
                CHECK(llfree_desk_give_run(&desks[to], run, length) == LLFREE_OK);
            }
        }
    CHECK(llfree_free_huge(&desks[0].core) == FRAMES / 512);
    llfree_pool_close(desks, DESKS);
}

/* Grows to half of the memory and falls to 40 %, by blocks of orders 0 to 3 and one in 400 of order 9, through desks at
 * random. Then all of order 9 are given: the share of the huge frames that are whole, of those that could be. */
static double whole(size_t each)
{
    static uint32_t frames[MOST_BLOCKS];
    static uint8_t orders[MOST_BLOCKS];
    uint64_t x = 2463534242u;
    uint32_t count = 0, held = 0, left;

    open_desks(FRAMES, each);
    for (int round = 0; round < 20; round++) {
        while (held < FRAMES / 2) {
            const uint64_t r = next_random(&x);
            orders[count] = r % 400 ? (r >> 8) % 4 : LARGEST;
            if (llfree_desk_take(&desks[(r >> 16) % DESKS], orders[count], &frames[count]) != LLFREE_OK)
                break;
            turn(frames[count], (size_t)1 << orders[count], 1);
            held += 1u << orders[count++];
        }
        while (held > FRAMES / 5 * 2) {
            const uint64_t r = next_random(&x);
            const uint32_t at = (r >> 24) % count;
            turn(frames[at], (size_t)1 << orders[at], 0);
            CHECK(llfree_desk_give(&desks[(r >> 16) % DESKS], frames[at], orders[at]) == LLFREE_OK);
            held -= 1u << orders[at];
            frames[at] = frames[--count];
            orders[at] = orders[count];
        }
    }
    for (uint32_t i = 0; i < count; i++)
        if (orders[i] == LARGEST) {
            turn(frames[i], 512, 0);
            CHECK(llfree_desk_give(&desks[i % DESKS], frames[i], LARGEST) == LLFREE_OK);
            held -= 512;
        }
    left = llfree_free_huge(&desks[0].core);
    CHECK(llfree_free_frames(&desks[0].core) == FRAMES - held);
    for (uint32_t i = 0; i < count; i++)
        if (orders[i] != LARGEST) {
            turn(frames[i], (size_t)1 << orders[i], 0);
            CHECK(llfree_desk_give(&desks[i % DESKS], frames[i], orders[i]) == LLFREE_OK);
        }
    CHECK(llfree_free_huge(&desks[0].core) == FRAMES / 512);
    llfree_pool_close(desks, DESKS);
    return (double)left / ((FRAMES - held) / 512);
}

int main(void)
{
    double single, paired;

    for (size_t each = 1; each <= 2; each++) {
        counts(each);
        threads(each);
    }
    contended();
    small();
    any_gives();
    single = whole(1);
    paired = whole(2);
    printf("of the huge frames that could be, %.2f are whole with single cores, %.2f with pairs\n", single, paired);
    CHECK(paired > 1.5 * single);
    return 0;
}
