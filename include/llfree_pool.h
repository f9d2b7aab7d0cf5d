/* Cores for any number of threads, which come and go. Each core stands at a desk. A call sits down at the desk of its
 * processor, or at the next one that is not taken. So a handle has one call at a time. A call waits only while all
 * desks are taken. For GCC and clang.
 *
 *     static llfree_desk desks[8];
 *     llfree_core cores[8] = { LLFREE_CLOSED, .. };
 *     if (llfree_open(cores, 8, frames, NULL, 0) == LLFREE_OK)
 *         llfree_seat_all(desks, cores, 8);
 *     llfree_pool_take(desks, 8, 3, &frame), llfree_pool_give(desks, 8, frame, 3);
 *     llfree_pool_take_run(desks, 8, 700, 1, &frame), llfree_pool_give_run(desks, 8, frame, 700);
 *
 * A desk may have two cores, one of them for huge frames (llfree_seat_pairs). Each call works with either kind.
 *
 * With LLFREE_POOL_COUNTS defined before this header is included, each desk counts what is called through it
 * (llfree_pool_counts). Files that count and files that do not may share desks.
 *
 * A program that forks while other threads run takes all desks before it, and leaves them after it on both sides:
 * pthread_atfork with functions that call llfree_sit_at_all and llfree_leave_all. A child that was forked without
 * has the desks as they were: one where a thread sat stays taken for good.
 *
 * A signal handler makes no call of a pool: the thread that it interrupts may sit at the desk that it would wait for.
 * It has a handle of its own. */
#ifndef LLFREE_POOL_H
#define LLFREE_POOL_H

#include "llfree.h"

/* Which desk a call asks first. Any number is right; the processor's keeps threads apart. */
#ifndef llfree_pool_here
#include <sched.h>
#ifdef __cplusplus
extern "C"
#else
extern
#endif
int sched_getcpu(void);
#define llfree_pool_here() ((size_t)(unsigned)sched_getcpu())
#endif

enum {
    LLFREE_POOL_TRIES = 20,          /* how often a take is made where other cores are in its way */
    LLFREE_POOL_LONGEST = 512 * 512, /* frames of a run */
    LLFREE_POOL_PAIRED = 2 * 4096,   /* frames for each handle, from which on two are at a desk */
};

/* What was called through a desk. A run is one take and one give. */
typedef struct llfree_desk_counts {
    uint64_t takes, gives;
    uint64_t no_block, contended; /* takes that were refused in all of their tries, by the last answer */
    uint64_t moved;               /* calls that found their first desk taken, and sat down here */
} llfree_desk_counts;

/* A core with cache lines of its own, or two. It starts with all bytes 0. */
typedef struct llfree_desk {
    llfree_core core;
    unsigned char is_taken;
    bool is_paired;
    llfree_core huge; /* where it is paired, for order 9 and runs of huge frames; the other one is for all else */
    llfree_desk_counts counts;
} __attribute__((aligned(128))) llfree_desk;

/* Moves the core behind a handle, or behind two, to a desk. */
static inline void llfree_seat(llfree_desk *desk, llfree_core *handle, llfree_core *huge)
{
    const llfree_core closed = LLFREE_CLOSED;
    const llfree_desk_counts none = { 0, 0, 0, 0, 0 };

    desk->core = *handle;
    *handle = closed;
    desk->is_paired = huge != NULL;
    desk->huge = huge ? *huge : closed;
    if (huge)
        *huge = closed;
    desk->counts = none;
    __atomic_store_n(&desk->is_taken, 0, __ATOMIC_RELEASE);
}

/* Moves the cores behind open handles to as many desks; the handles are closed then. */
static inline void llfree_seat_all(llfree_desk *desks, llfree_core *handles, size_t count)
{
    for (size_t i = 0; i < count; i++)
        llfree_seat(&desks[i], &handles[i], NULL);
}

/* Moves the cores behind twice as many open handles of one memory to the desks, two to each; the handles are closed
 * then. So small blocks stay together, and more huge frames stay whole (llfree.h, at llfree_core). In a memory of less
 * than 8192 frames for each handle pairs refuse more takes: then each desk has one core, the other handles are closed,
 * and the answer is false. */
static inline bool llfree_seat_pairs(llfree_desk *desks, llfree_core *handles, size_t count)
{
    const bool is_large = count > 0 && llfree_frames(&handles[0]) / LLFREE_POOL_PAIRED >= 2 * count;

    for (size_t i = 0; i < count; i++) {
        llfree_seat(&desks[i], &handles[2 * i], is_large ? &handles[2 * i + 1] : NULL);
        if (!is_large)
            llfree_close(&handles[2 * i + 1]);
    }
    return is_large;
}

/* Only who sits at the desk writes its counts: so a load and a store do, which another thread may read between. */
static inline void llfree_desk_count(uint64_t *count)
{
#ifdef LLFREE_POOL_COUNTS
    __atomic_store_n(count, __atomic_load_n(count, __ATOMIC_RELAXED) + 1, __ATOMIC_RELAXED);
#else
    (void)count;
#endif
}

/* A take ended with this status. Wrong arguments are not counted. */
static inline void llfree_desk_count_take(llfree_desk *desk, enum llfree_status status)
{
    if (status == LLFREE_OK)
        llfree_desk_count(&desk->counts.takes);
    else if (status == LLFREE_NO_BLOCK)
        llfree_desk_count(&desk->counts.no_block);
    else if (status == LLFREE_CONTENDED)
        llfree_desk_count(&desk->counts.contended);
}

static inline void llfree_desk_count_give(llfree_desk *desk, enum llfree_status status)
{
    if (status == LLFREE_OK)
        llfree_desk_count(&desk->counts.gives);
}

#ifdef LLFREE_POOL_COUNTS
/* The counts of all desks, since their cores were seated. Any thread may ask at any time, and takes no desk: each count
 * is as it was at some moment. */
static inline llfree_desk_counts llfree_pool_counts(const llfree_desk *desks, size_t count)
{
    llfree_desk_counts sums = { 0, 0, 0, 0, 0 };

    for (size_t i = 0; i < count; i++) {
        const llfree_desk_counts *counts = &desks[i].counts;
        sums.takes += __atomic_load_n(&counts->takes, __ATOMIC_RELAXED);
        sums.gives += __atomic_load_n(&counts->gives, __ATOMIC_RELAXED);
        sums.no_block += __atomic_load_n(&counts->no_block, __ATOMIC_RELAXED);
        sums.contended += __atomic_load_n(&counts->contended, __ATOMIC_RELAXED);
        sums.moved += __atomic_load_n(&counts->moved, __ATOMIC_RELAXED);
    }
    return sums;
}
#endif

/* Sits down at a desk: no other thread calls through its core until llfree_leave. There is at least one desk. */
static inline llfree_desk *llfree_sit(llfree_desk *desks, size_t count)
{
    const size_t first = llfree_pool_here();

    for (size_t at = first;; at++) {
        llfree_desk *desk = &desks[at % count];
        if (!__atomic_exchange_n(&desk->is_taken, 1, __ATOMIC_ACQUIRE)) {
            if (at != first)
                llfree_desk_count(&desk->counts.moved);
            return desk;
        }
        __builtin_ia32_pause();
    }
}

static inline void llfree_leave(llfree_desk *desk)
{
    __atomic_store_n(&desk->is_taken, 0, __ATOMIC_RELEASE);
}

/* Sits down at all desks, one after another, for instance before a fork. */
static inline void llfree_sit_at_all(llfree_desk *desks, size_t count)
{
    for (size_t i = 0; i < count; i++)
        while (__atomic_exchange_n(&desks[i].is_taken, 1, __ATOMIC_ACQUIRE))
            __builtin_ia32_pause();
}

static inline void llfree_leave_all(llfree_desk *desks, size_t count)
{
    for (size_t i = 0; i < count; i++)
        llfree_leave(&desks[i]);
}

/* The core of a desk through which blocks of an order are taken and given. */
static inline llfree_core *llfree_desk_core(llfree_desk *desk, uint8_t order)
{
    return order == 9 && desk->is_paired ? &desk->huge : &desk->core;
}

/* llfree_take by who sits at the desk, again where other cores are in the way. */
LLFREE_NODISCARD
static inline enum llfree_status llfree_desk_take(llfree_desk *desk, uint8_t order, uint32_t *frame)
{
    enum llfree_status status = llfree_take_retry(llfree_desk_core(desk, order), order, frame, LLFREE_POOL_TRIES);

    llfree_desk_count_take(desk, status);
    return status;
}

/* llfree_take_at by who sits at the desk, again where an exchange was lost to other cores. */
LLFREE_NODISCARD
static inline enum llfree_status llfree_desk_take_at(llfree_desk *desk, uint32_t frame, uint8_t order)
{
    llfree_core *core = llfree_desk_core(desk, order);
    enum llfree_status status = llfree_take_at(core, frame, order);

    for (int tries = LLFREE_POOL_TRIES; tries > 1 && status == LLFREE_CONTENDED; tries--)
        status = llfree_take_at(core, frame, order);
    llfree_desk_count_take(desk, status);
    return status;
}

/* llfree_give by who sits at the desk, whichever core took the block. */
static inline enum llfree_status llfree_desk_give(llfree_desk *desk, uint32_t frame, uint8_t order)
{
    enum llfree_status status = llfree_give(llfree_desk_core(desk, order), frame, order);

    llfree_desk_count_give(desk, status);
    return status;
}

/* llfree_desk_take through a desk. */
LLFREE_NODISCARD
static inline enum llfree_status llfree_pool_take(llfree_desk *desks, size_t count, uint8_t order, uint32_t *frame)
{
    llfree_desk *desk = llfree_sit(desks, count);
    enum llfree_status status = llfree_desk_take(desk, order, frame);
    llfree_leave(desk);
    return status;
}

/* llfree_desk_take_at through a desk. */
LLFREE_NODISCARD
static inline enum llfree_status llfree_pool_take_at(llfree_desk *desks, size_t count, uint32_t frame, uint8_t order)
{
    llfree_desk *desk = llfree_sit(desks, count);
    enum llfree_status status = llfree_desk_take_at(desk, frame, order);
    llfree_leave(desk);
    return status;
}

/* llfree_desk_give through a desk. */
static inline enum llfree_status llfree_pool_give(llfree_desk *desks, size_t count, uint32_t frame, uint8_t order)
{
    llfree_desk *desk = llfree_sit(desks, count);
    enum llfree_status status = llfree_desk_give(desk, frame, order);
    llfree_leave(desk);
    return status;
}

/* llfree_split through a desk. */
LLFREE_NODISCARD
static inline enum llfree_status llfree_pool_split(llfree_desk *desks, size_t count, uint32_t frame, uint8_t order)
{
    llfree_desk *desk = llfree_sit(desks, count);
    enum llfree_status status = llfree_split(&desk->core, frame, order);
    llfree_leave(desk);
    return status;
}

/* llfree_split_to through a desk. */
LLFREE_NODISCARD
static inline enum llfree_status llfree_pool_split_to(llfree_desk *desks, size_t count, uint32_t frame, uint8_t order,
                                                      uint8_t to)
{
    llfree_desk *desk = llfree_sit(desks, count);
    enum llfree_status status = llfree_split_to(&desk->core, frame, order, to);
    llfree_leave(desk);
    return status;
}

/* llfree_order_at through a desk. */
LLFREE_NODISCARD
static inline enum llfree_status llfree_pool_order_at(llfree_desk *desks, size_t count, uint32_t frame, uint8_t *order)
{
    llfree_desk *desk = llfree_sit(desks, count);
    enum llfree_status status = llfree_order_at(&desk->core, frame, order);
    llfree_leave(desk);
    return status;
}

/* Does a run end behind the last number of a frame? */
static inline bool llfree_desk_is_past_end(uint32_t frame, size_t frames)
{
    return (uint64_t)frame + frames > (uint64_t)1 << 32;
}

/* Gives the frames of a run, and does not count it. */
static inline enum llfree_status llfree_desk_put_run(llfree_desk *desk, uint32_t frame, size_t frames)
{
    const uint32_t huge = (uint32_t)(frames / 512);
    enum llfree_status status = LLFREE_OK;

    if (frames == 0 || frames > LLFREE_POOL_LONGEST || llfree_desk_is_past_end(frame, frames))
        return LLFREE_NOT_HELD;
    if (huge > 0)
        status = llfree_give_run(llfree_desk_core(desk, 9), frame, huge);
    frame += 512 * huge;
    for (uint8_t order = 9; status == LLFREE_OK && order-- > 0;)
        if (frames >> order & 1) {
            status = llfree_give(&desk->core, frame, order);
            frame += (uint32_t)1 << order;
        }
    return status;
}

/* Gives a run as it was taken: its whole huge frames by llfree_give_run, what lies behind them block by block. Refused
 * with NOT_HELD where a huge frame is not held, and nothing changes; or at the first block that is not held, and what
 * lies before it is given. */
static inline enum llfree_status llfree_desk_give_run(llfree_desk *desk, uint32_t frame, size_t frames)
{
    enum llfree_status status = llfree_desk_put_run(desk, frame, frames);

    llfree_desk_count_give(desk, status);
    return status;
}

/* Takes just these frames, 1 to 512, as a run: blocks of falling orders, one for each bit of their number. The first one
 * is a multiple of the largest. On failure nothing stays held. It is not counted. */
LLFREE_NODISCARD
static inline enum llfree_status llfree_desk_take_run_at(llfree_desk *desk, uint32_t frame, size_t frames)
{
    enum llfree_status status = LLFREE_OK;
    size_t taken = 0;

    for (uint8_t order = 10; status == LLFREE_OK && order-- > 0;)
        if (frames >> order & 1) {
            status = llfree_take_at(llfree_desk_core(desk, order), frame + (uint32_t)taken, order);
            taken += status == LLFREE_OK ? (size_t)1 << order : 0;
        }
    if (status != LLFREE_OK && taken > 0)
        llfree_desk_put_run(desk, frame, taken);
    return status;
}

/* One try at a run of up to 512 frames: the smallest block that has them is taken, to find a place, and given again,
 * and they are taken there. Where there is no such block, the largest that they have may have the others behind it. Of
 * a pair the core for small blocks looks for these, so that they do not come to lie beside huge frames. */
LLFREE_NODISCARD
static inline enum llfree_status llfree_desk_try_small(llfree_desk *desk, size_t frames, size_t alignment,
                                                       uint32_t *frame)
{
    llfree_core *core = llfree_desk_core(desk, frames < 512 ? 0 : 9);
    uint8_t above = 0, below = 9;

    while ((size_t)1 << above < frames || (size_t)1 << above < alignment)
        above++;
    while (frames < (size_t)1 << below)
        below--;
    enum llfree_status status = llfree_take(core, above, frame);
    if (status == LLFREE_OK && frames < (size_t)1 << above) {
        llfree_give(core, *frame, above);
        status = llfree_desk_take_run_at(desk, *frame, frames);
    } else if (status == LLFREE_NO_BLOCK && below < above && alignment <= frames) {
        const size_t taken = (size_t)1 << below;
        status = llfree_take(core, below, frame);
        if (status == LLFREE_OK) {
            status = LLFREE_NO_BLOCK;
            if (!llfree_desk_is_past_end(*frame, frames))
                status = llfree_desk_take_run_at(desk, *frame + (uint32_t)taken, frames - taken);
            if (status != LLFREE_OK)
                llfree_give(core, *frame, below);
        }
    }
    return status;
}

/* One try at a run that is larger, or aligned to more, than 512 frames: huge frames that have them are taken, those
 * behind them are given, and of the last one they are taken anew. */
LLFREE_NODISCARD
static inline enum llfree_status llfree_desk_try_large(llfree_desk *desk, size_t frames, size_t alignment,
                                                       uint32_t *frame)
{
    llfree_core *core = llfree_desk_core(desk, 9);
    const size_t least = frames > alignment ? frames : alignment;
    const uint32_t count = (uint32_t)((least + 511) / 512), whole = (uint32_t)(frames / 512);
    enum llfree_status status = llfree_take_run(core, count, frame);

    if (status == LLFREE_OK && whole < count) {
        llfree_give_run(core, *frame + 512 * whole, count - whole);
        status = llfree_desk_take_run_at(desk, *frame + 512 * whole, frames % 512);
        if (status != LLFREE_OK && whole > 0)
            llfree_give_run(core, *frame, whole);
    }
    return status;
}

/* Takes a run by who sits at the desk: frames side by side, 1 to 262144 (1 GiB), the first a multiple of the
 * alignment, a power of two up to as many. It is huge frames, and behind them blocks of falling orders, one for each
 * bit of the rest. No block is split for it. A try is made again, as by llfree_pool_take, where other cores are in its
 * way. On failure *frame is unchanged and nothing more is held. BAD_ORDER if the run is empty, or it or its alignment
 * too large. */
LLFREE_NODISCARD
static inline enum llfree_status llfree_desk_take_run(llfree_desk *desk, size_t frames, size_t alignment,
                                                      uint32_t *frame)
{
    enum llfree_status status = LLFREE_NO_BLOCK;
    uint32_t first = 0;

    if (frames == 0 || frames > LLFREE_POOL_LONGEST || alignment > LLFREE_POOL_LONGEST)
        return LLFREE_BAD_ORDER;
    for (int i = 0; i < LLFREE_POOL_TRIES && (status == LLFREE_NO_BLOCK || status == LLFREE_CONTENDED); i++)
        status = frames > 512 || alignment > 512 ? llfree_desk_try_large(desk, frames, alignment, &first) :
                                                   llfree_desk_try_small(desk, frames, alignment, &first);
    llfree_desk_count_take(desk, status);
    if (status == LLFREE_OK)
        *frame = first;
    return status;
}

/* llfree_desk_take_run through a desk. */
LLFREE_NODISCARD
static inline enum llfree_status llfree_pool_take_run(llfree_desk *desks, size_t count, size_t frames, size_t alignment,
                                                      uint32_t *frame)
{
    llfree_desk *desk = llfree_sit(desks, count);
    enum llfree_status status = llfree_desk_take_run(desk, frames, alignment, frame);
    llfree_leave(desk);
    return status;
}

/* llfree_desk_give_run through a desk. */
static inline enum llfree_status llfree_pool_give_run(llfree_desk *desks, size_t count, uint32_t frame, size_t frames)
{
    llfree_desk *desk = llfree_sit(desks, count);
    enum llfree_status status = llfree_desk_give_run(desk, frame, frames);
    llfree_leave(desk);
    return status;
}

/* llfree_close for each desk, once no thread calls any more. */
static inline void llfree_pool_close(llfree_desk *desks, size_t count)
{
    for (size_t i = 0; i < count; i++) {
        llfree_close(&desks[i].core);
        llfree_close(&desks[i].huge);
    }
}

#endif
