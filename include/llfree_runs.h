/* Runs of huge frames in structs, for memories that keep no list of blocks (llfree_open_unchecked): there
 * llfree_take_run is refused. Inline over llfree_is_free and llfree_take_block_at: tested (tools/c/block_runs.c), not
 * proved. The duties of llfree_block hold. It works in any memory; such a run is on no list. */
#ifndef LLFREE_RUNS_H
#define LLFREE_RUNS_H

#include "llfree.h"

enum {
    LLFREE_RUN_LONGEST = 512, /* huge frames */
    LLFREE_RUN_FRAMES = 512,  /* of a huge frame */
};

/* Whether these huge frames are all free, as looks at one after another see them. */
static inline bool llfree_is_run_free(llfree_core *handle, uint64_t frame, uint32_t count)
{
    uint32_t free = 0;

    while (free < count && llfree_is_free(handle, (uint32_t)(frame + LLFREE_RUN_FRAMES * (uint64_t)free), 9))
        free++;
    return free == count;
}

/* Gives count huge frames, one in each struct, and empties the structs: a run that llfree_take_block_run took, a part
 * of one, or huge frames that were taken one by one. It never locks or waits.
 *  - NOT_HELD (a struct is empty), BAD_ORDER (count is 0 or above 512, or a struct holds a smaller block),
 *    CLOSED_HANDLE: nothing changes. */
static inline enum llfree_status llfree_give_block_run(llfree_core *handle, llfree_block *blocks, size_t count)
{
    enum llfree_status status = LLFREE_OK;

    if (llfree_frames(handle) == 0)
        return LLFREE_CLOSED_HANDLE;
    if (count == 0 || count > LLFREE_RUN_LONGEST)
        return LLFREE_BAD_ORDER;
    for (size_t i = 0; i < count; i++)
        if (!blocks[i].live || blocks[i].order != 9)
            return blocks[i].live ? LLFREE_BAD_ORDER : LLFREE_NOT_HELD;
    for (size_t i = 0; i < count && status == LLFREE_OK; i++)
        status = llfree_give_block(handle, &blocks[i]);
    return status;
}

/* Takes count huge frames, 1 to 512 (2 MiB to 1 GiB), that lie side by side, into as many empty structs: the first one
 * is a multiple of 512 times count, rounded up to a power of two. They lie within these frames, at the first place that
 * looks free; where a huge frame of it is lost, those before it go back, and the look goes on behind. Of a memory
 * without holes within is { 0, llfree_frames(handle) }; of others the frames of a node. It looks at each child in there
 * at most: it is for large and rare requests. On failure the structs are unchanged, and nothing more is held.
 *  - NO_BLOCK: no run was seen, and no exchange was lost in a take.
 *  - CONTENDED: the same, and an exchange was lost to another core: try again.
 *  - BAD_ORDER (count is 0 or above 512), OPEN_HANDLE (a struct holds a block), CLOSED_HANDLE: nothing was looked for.
 * Where no other thread is in a call, a run is found if there is one. A frame that rests with a core keeps its huge
 * frame from being free (llfree_drain). It never locks or waits. */
LLFREE_NODISCARD
static inline enum llfree_status llfree_take_block_run(llfree_core *handle, llfree_range within, llfree_block *blocks,
                                                       size_t count)
{
    const uint64_t numbers = (uint64_t)1 << 32, behind = (uint64_t)within.first + within.frames;
    const uint64_t end = behind < numbers ? behind : numbers;
    enum llfree_status status, refused = LLFREE_NO_BLOCK;
    uint64_t step = LLFREE_RUN_FRAMES;

    if (llfree_frames(handle) == 0)
        return LLFREE_CLOSED_HANDLE;
    if (count == 0 || count > LLFREE_RUN_LONGEST)
        return LLFREE_BAD_ORDER;
    for (size_t i = 0; i < count; i++)
        if (blocks[i].live)
            return LLFREE_OPEN_HANDLE;
    while (step < LLFREE_RUN_FRAMES * count)
        step *= 2;
    for (uint64_t at = (within.first + step - 1) / step * step; at + LLFREE_RUN_FRAMES * count <= end; at += step) {
        size_t taken = 0;
        if (!llfree_is_run_free(handle, at, (uint32_t)count))
            continue;
        do
            status = llfree_take_block_at(handle, (uint32_t)(at + LLFREE_RUN_FRAMES * taken), 9, &blocks[taken]);
        while (status == LLFREE_OK && ++taken < count);
        if (status == LLFREE_OK)
            return LLFREE_OK;
        refused = status == LLFREE_CONTENDED ? LLFREE_CONTENDED : refused;
        if (taken > 0)
            llfree_give_block_run(handle, blocks, taken);
    }
    return refused;
}

#endif
