/* What the clients in C share: a region of page frames that any thread takes from and gives to. */
#ifndef FRAMES_H
#define FRAMES_H

#include "llfree.h"
#include "out.h"
#include <stdatomic.h>
#include <sys/mman.h>

/* the splits that the runs of llfree_pool.h make are counted */
static _Atomic unsigned long splits;
static inline enum llfree_status counted_split(llfree_core *handle, uint32_t frame, uint8_t order)
{
    atomic_fetch_add(&splits, 1);
    return llfree_split(handle, frame, order);
}
#define llfree_split counted_split
#include "llfree_pool.h"
#undef llfree_split

enum { DESKS = 8 };

static struct {
    llfree_desk desks[DESKS];
    uint32_t frames;
    char *base;
    struct out out;
    _Atomic unsigned long takes, gives, refused, too_large;
} region;

/* Opens the region, whose addresses are aligned to 1 GiB. It allocates nothing by malloc but what the opening does. */
static inline bool region_open(uint32_t frames)
{
    const size_t frame = LLFREE_FRAME_BYTES, longest = frame * LLFREE_POOL_LONGEST, bytes = frame * frames;
    const int access = PROT_READ | PROT_WRITE, how = MAP_PRIVATE | MAP_ANONYMOUS | MAP_NORESERVE;
    llfree_core cores[DESKS] = { LLFREE_CLOSED };
    void *at = mmap(NULL, bytes + longest, access, how, -1, 0), *marks = mmap(NULL, frames, access, how, -1, 0);

    if (at == MAP_FAILED || marks == MAP_FAILED || llfree_open(cores, DESKS, frames, NULL, 0) != LLFREE_OK)
        return false;
    region.frames = frames;
    region.base = (char *)(((uintptr_t)at + longest - 1) / longest * longest);
    region.out.bytes = marks;
    llfree_seat_all(region.desks, cores, DESKS);
    return true;
}

static inline bool region_has(const void *at)
{
    uintptr_t place = (uintptr_t)at - (uintptr_t)region.base;
    return region.base != NULL && place < (size_t)LLFREE_FRAME_BYTES * region.frames;
}

/* Takes pages side by side, aligned to a power of two of them; NULL where they are refused. Whoever has all desks
 * finds just those pages marked that are out. */
static inline void *region_take(size_t pages, size_t alignment)
{
    uint32_t frame;
    llfree_desk *desk = llfree_sit(region.desks, DESKS);
    enum llfree_status status = llfree_desk_take_run(desk, pages, alignment, &frame);

    if (status == LLFREE_OK)
        out_takes(&region.out, frame, (uint32_t)pages);
    llfree_leave(desk);
    atomic_fetch_add(status == LLFREE_OK ? &region.takes : status == LLFREE_BAD_ORDER ? &region.too_large :
                     &region.refused, 1);
    return status == LLFREE_OK ? llfree_address(region.base, frame) : NULL;
}

/* Gives pages just as they were taken. */
static inline void region_give(void *at, size_t pages)
{
    uint32_t frame = llfree_frame_at(region.base, at);
    llfree_desk *desk = llfree_sit(region.desks, DESKS);

    out_gives(&region.out, frame, (uint32_t)pages);
    enum llfree_status status = llfree_desk_give_run(desk, frame, pages);
    llfree_leave(desk);
    if (status != LLFREE_OK)
        fails("give", status);
    atomic_fetch_add(&region.gives, 1);
}

/* Whether what is out and what is free is all there is; others may be in calls. */
static inline bool region_adds_up(void)
{
    llfree_sit_at_all(region.desks, DESKS);
    bool is_right = out_adds_up(&region.out, region.frames, llfree_free_frames(&region.desks[0].core));
    llfree_leave_all(region.desks, DESKS);
    return is_right;
}

#endif
