/* For programs whose threads use the memory of their frames, under ThreadSanitizer or valgrind: takes and gives
 * that tell these tools what the library orders. The library is built without them. By themselves they see no order
 * between a give and the take that has the frame next, and report races where there are none.
 *
 * The address is that of frame 0; frame f lies LLFREE_FRAME_BYTES * f behind it. Where neither tool is at work the
 * calls do what those of llfree.h do, with the same answers.
 *  - ThreadSanitizer, helgrind, DRD: what a thread does before it gives a frame happens before what the next thread
 *    that takes it does, frame by frame and no more. A use after the give is still a race.
 *  - memcheck: memory that is given may not be touched until it is taken, and is undefined then. Before its first
 *    give it is what the program made of it.
 * A give is told before it is made, since afterwards another thread may have the frames. If it is refused, what was
 * told stays told. A split needs no telling, nor does llfree_plain, whose calls are in an order.
 *
 * A give of numbers is told only where they may be a block of the memory. Of a memory with holes no call says which
 * frames it has: there llfree_give_told_in and llfree_give_number_told_in are handed the zones that the opening was
 * handed. */
#ifndef LLFREE_TSAN_H
#define LLFREE_TSAN_H

#include "llfree.h"

#if defined __SANITIZE_THREAD__
#define LLFREE_TELLS_TSAN 1
#elif defined __has_feature
#if __has_feature(thread_sanitizer)
#define LLFREE_TELLS_TSAN 1
#endif
#endif
#ifdef LLFREE_TELLS_TSAN
#include <sanitizer/tsan_interface.h>
#endif

/* Outside of valgrind its requests cost some instructions; with NVALGRIND, which is its own name, none are made. */
#if defined __has_include && !defined NVALGRIND
#if __has_include(<valgrind/helgrind.h>) && __has_include(<valgrind/memcheck.h>)
#define LLFREE_TELLS_VALGRIND 1
#include <valgrind/helgrind.h>
#include <valgrind/memcheck.h>
#endif
#endif

#ifdef __cplusplus
extern "C" {
#endif

/* Tells that this block of the memory was just taken, or is about to be given. */
static inline void llfree_tell(void *address, uint32_t frame, uint8_t order, bool is_taken)
{
    uint32_t count = (uint32_t)1 << order;

#ifdef LLFREE_TELLS_TSAN
    for (uint32_t i = 0; i < count; i++) {
        void *at = (char *)address + LLFREE_FRAME_BYTES * ((size_t)frame + i);
        if (is_taken)
            __tsan_acquire(at);
        else
            __tsan_release(at);
    }
#endif
#ifdef LLFREE_TELLS_VALGRIND
    if (RUNNING_ON_VALGRIND) {
        char *from = (char *)address + (size_t)LLFREE_FRAME_BYTES * frame;
        size_t bytes = (size_t)LLFREE_FRAME_BYTES * count;
        /* DRD knows these two by the same numbers */
        int mark = is_taken ? _VG_USERREQ__HG_USERSO_RECV_POST : _VG_USERREQ__HG_USERSO_SEND_PRE;
        if (!is_taken)
            (void)VALGRIND_MAKE_MEM_NOACCESS(from, bytes);
        for (char *at = from; at < from + bytes; at += LLFREE_FRAME_BYTES)
            VALGRIND_DO_CLIENT_REQUEST_STMT(mark, at, 0, 0, 0, 0);
        if (is_taken)
            (void)VALGRIND_MAKE_MEM_UNDEFINED(from, bytes);
    }
#endif
    (void)address;
    (void)frame;
    (void)count;
    (void)is_taken;
}

/* Tells that these numbers are about to be given, where one of the zones has all of their frames. */
static inline void llfree_tell_give(void *address, const llfree_range *zones, size_t zone_count, uint32_t frame,
                                    uint8_t order)
{
    for (size_t z = 0; order < 10 && z < zone_count; z++) {
        uint32_t behind = frame - zones[z].first;
        if (frame < zones[z].first || behind >= zones[z].frames)
            continue;
        if (frame % ((uint32_t)1 << order) == 0 && (uint32_t)1 << order <= zones[z].frames - behind)
            llfree_tell(address, frame, order, false);
        return;
    }
}

/* llfree_take. */
LLFREE_NODISCARD
static inline enum llfree_status llfree_take_told(llfree_core *handle, void *address, uint8_t order,
                                                  uint32_t *frame)
{
    enum llfree_status status = llfree_take(handle, order, frame);

    if (status == LLFREE_OK)
        llfree_tell(address, *frame, order, true);
    return status;
}

/* llfree_take_at. */
LLFREE_NODISCARD
static inline enum llfree_status llfree_take_at_told(llfree_core *handle, void *address, uint32_t frame, uint8_t order)
{
    enum llfree_status status = llfree_take_at(handle, frame, order);

    if (status == LLFREE_OK)
        llfree_tell(address, frame, order, true);
    return status;
}

/* llfree_give, of a memory without holes. */
static inline enum llfree_status llfree_give_told(llfree_core *handle, void *address, uint32_t frame,
                                                  uint8_t order)
{
    llfree_range all = { 0, llfree_frames(handle) };

    llfree_tell_give(address, &all, 1, frame, order);
    return llfree_give(handle, frame, order);
}

/* llfree_give, of a memory of these zones. */
static inline enum llfree_status llfree_give_told_in(llfree_core *handle, void *address, const llfree_range *zones,
                                                     size_t zone_count, uint32_t frame, uint8_t order)
{
    llfree_tell_give(address, zones, zone_count, frame, order);
    return llfree_give(handle, frame, order);
}

/* llfree_take_run. Each of its huge frames is given by itself, by llfree_give_told. */
LLFREE_NODISCARD
static inline enum llfree_status llfree_take_run_told(llfree_core *handle, void *address, uint32_t count,
                                                      uint32_t *frame)
{
    enum llfree_status status = llfree_take_run(handle, count, frame);

    for (uint32_t i = 0; status == LLFREE_OK && i < count; i++)
        llfree_tell(address, *frame + 512 * i, 9, true);
    return status;
}

/* llfree_take_block. */
LLFREE_NODISCARD
static inline enum llfree_status llfree_take_block_told(llfree_core *handle, void *address, uint8_t order,
                                                        llfree_block *block)
{
    enum llfree_status status = llfree_take_block(handle, order, block);

    if (status == LLFREE_OK)
        llfree_tell(address, block->frame, block->order, true);
    return status;
}

/* llfree_take_block_at. */
LLFREE_NODISCARD
static inline enum llfree_status llfree_take_block_at_told(llfree_core *handle, void *address, uint32_t frame,
                                                           uint8_t order, llfree_block *block)
{
    enum llfree_status status = llfree_take_block_at(handle, frame, order, block);

    if (status == LLFREE_OK)
        llfree_tell(address, frame, order, true);
    return status;
}

/* llfree_give_block. */
static inline enum llfree_status llfree_give_block_told(llfree_core *handle, void *address, llfree_block *block)
{
    if (block->live)
        llfree_tell(address, block->frame, block->order, false);
    return llfree_give_block(handle, block);
}

/* llfree_take_frame. */
LLFREE_NODISCARD
static inline enum llfree_status llfree_take_frame_told(llfree_core *handle, void *address, llfree_block *block)
{
    enum llfree_status status = llfree_take_frame(handle, block);

    if (status == LLFREE_OK)
        llfree_tell(address, block->frame, 0, true);
    return status;
}

/* llfree_give_frame. */
static inline enum llfree_status llfree_give_frame_told(llfree_core *handle, void *address, llfree_block *block)
{
    if (block->live && block->order == 0)
        llfree_tell(address, block->frame, 0, false);
    return llfree_give_frame(handle, block);
}

/* llfree_take_number. */
LLFREE_NODISCARD
static inline enum llfree_status llfree_take_number_told(llfree_core *handle, void *address, uint32_t *frame)
{
    enum llfree_status status = llfree_take_number(handle, frame);

    if (status == LLFREE_OK)
        llfree_tell(address, *frame, 0, true);
    return status;
}

/* llfree_give_number, of a memory without holes. */
static inline enum llfree_status llfree_give_number_told(llfree_core *handle, void *address, uint32_t frame)
{
    llfree_range all = { 0, llfree_frames(handle) };

    llfree_tell_give(address, &all, 1, frame, 0);
    return llfree_give_number(handle, frame);
}

/* llfree_give_number, of a memory of these zones. */
static inline enum llfree_status llfree_give_number_told_in(llfree_core *handle, void *address,
                                                            const llfree_range *zones, size_t zone_count,
                                                            uint32_t frame)
{
    llfree_tell_give(address, zones, zone_count, frame, 0);
    return llfree_give_number(handle, frame);
}

/* llfree_take_frames. */
LLFREE_NODISCARD
static inline enum llfree_status llfree_take_frames_told(llfree_core *handle, void *address, llfree_block *blocks,
                                                         size_t count, size_t *taken)
{
    enum llfree_status status = llfree_take_frames(handle, blocks, count, taken);

    for (size_t i = 0; status == LLFREE_OK && i < *taken; i++)
        llfree_tell(address, blocks[i].frame, 0, true);
    return status;
}

/* llfree_give_frames. */
static inline enum llfree_status llfree_give_frames_told(llfree_core *handle, void *address, llfree_block *blocks,
                                                         size_t count)
{
    for (size_t i = 0; i < count; i++)
        if (blocks[i].live && blocks[i].order == 0)
            llfree_tell(address, blocks[i].frame, 0, false);
    return llfree_give_frames(handle, blocks, count);
}

#ifdef __cplusplus
}
#endif

#endif
