/* A stamp for each frame that is held, so that a block which overlaps another one is seen, and one that was never
 * given back. Stamps are set and taken off where no time is measured. */
#ifndef STAMPS_H
#define STAMPS_H

#include "allocators.h"
#include <stdatomic.h>

static atomic_uchar *stamps; /* one for each of the frames */

/* Sets, or takes off, the stamps of a block's frames; malloc's have none. */
INLINE void stamp(const struct allocator *allocator, uint8_t order, const void *block, bool is_held)
{
    if (allocator->frame == NULL)
        return;
    uint32_t first = allocator->frame(block), size = 1u << order;
    want(first % size == 0 && first < frames && size <= frames - first, "a block outside the memory, or not aligned");
    for (uint32_t frame = first; frame < first + size; frame++)
        want(atomic_exchange_explicit(&stamps[frame], is_held, memory_order_relaxed) == !is_held,
             is_held ? "a frame was had twice" : "a frame was given that nobody had");
}

INLINE void stamp_all(const struct allocator *allocator, uint8_t order, void *blocks, size_t count, bool is_held)
{
    for (size_t i = 0; i < count; i++)
        stamp(allocator, order, at(allocator, blocks, i), is_held);
}

/* How many children no block touches. */
static inline uint32_t free_children(void)
{
    uint32_t count = 0;

    for (uint32_t first = 0; first + 512 <= frames; first += 512)
        count += memchr((const void *)&stamps[first], 1, 512) == NULL;
    return count;
}

/* At the end no frame has a stamp, and one thread gets the whole memory as huge frames, each once. */
static inline void want_all_free(const struct allocator *allocator)
{
    uint32_t children = frames / 512;

    if (allocator->frame == NULL)
        return;
    want(memchr((const void *)stamps, 1, frames) == NULL, "a frame is held at the end");
    for (uint32_t i = 0; i < threads; i++)
        allocator->settle(&workers[i]);
    char *blocks = memory_of(children, allocator->size);
    for (uint32_t i = 0; i < children; i++) {
        want(allocator->take(&workers[0], MOST_ORDER, at(allocator, blocks, i)), "a huge frame is lost");
        stamp(allocator, MOST_ORDER, at(allocator, blocks, i), true);
    }
    for (uint32_t i = 0; i < children; i++) {
        stamp(allocator, MOST_ORDER, at(allocator, blocks, i), false);
        allocator->give(&workers[0], MOST_ORDER, at(allocator, blocks, i));
    }
    free(blocks);
}

#endif
