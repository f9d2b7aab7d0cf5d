/* What is measured, each by the same calls: the library by numbers, with blocks in structs (unchecked), so with single
 * frames that rest with a core (resting), and with two handles a thread; a buddy allocator with lists for each
 * processor as Linux has it; a buddy allocator and a bitmap, each under a mutex (../c/peers.h, ../c/locked.h); and the C
 * library's malloc.
 * A program's loops take an allocator that is a constant, so that nothing stands between them and what they call. */
#ifndef ALLOCATORS_H
#define ALLOCATORS_H

#include "threads.h" /* first: it wants the names of GNU */
#include "locked.h"
#include "peers.h"

#define INLINE static inline __attribute__((always_inline))

struct allocator {
    const char *name;
    size_t size; /* bytes of a block, as its caller keeps it */
    void (*open)(void);
    void (*close)(void);
    bool (*take)(struct worker *, uint8_t order, void *block);
    void (*give)(struct worker *, uint8_t order, void *block);
    uint32_t (*frame)(const void *block);
    void (*settle)(struct worker *); /* what rests with it goes back */
};

static struct peer *peer;

/* The library */

typedef uint32_t opening(llfree_core *, size_t, uint32_t, const llfree_range *, size_t);

static void open_by(opening *open, uint32_t handles_each)
{
    llfree_core handles[2 * MOST_THREADS];

    memset(handles, 0, sizeof handles);
    want(open(handles, handles_each * threads, frames, NULL, 0) == LLFREE_OK, "no memory");
    for (uint32_t i = 0; i < threads; i++) { /* they move */
        workers[i].core = handles[handles_each * i];
        if (handles_each == 2)
            workers[i].huge_core = handles[2 * i + 1];
    }
}

static void numbers_open(void)
{
    open_by(llfree_open, 1);
}

static void structs_open(void)
{
    open_by(llfree_open_unchecked, 1);
}

static void two_open(void)
{
    open_by(llfree_open_unchecked, 2);
}

static void numbers_close(void)
{
    for (uint32_t i = 0; i < threads; i++)
        llfree_close(&workers[i].core);
}

static void two_close(void)
{
    for (uint32_t i = 0; i < threads; i++) {
        llfree_close(&workers[i].core);
        llfree_close(&workers[i].huge_core);
    }
}

INLINE bool numbers_take(struct worker *me, uint8_t order, void *block)
{
    return llfree_take(&me->core, order, block) == LLFREE_OK;
}

INLINE void numbers_give(struct worker *me, uint8_t order, void *block)
{
    want(llfree_give(&me->core, *(uint32_t *)block, order) == LLFREE_OK, "a give was refused");
}

INLINE uint32_t number_frame(const void *block)
{
    return *(const uint32_t *)block;
}

INLINE bool take_block(llfree_core *core, uint8_t order, llfree_block *block)
{
    block->live = false; /* what stood there has moved */
    return llfree_take_block(core, order, block) == LLFREE_OK;
}

INLINE bool structs_take(struct worker *me, uint8_t order, void *block)
{
    return take_block(&me->core, order, block);
}

INLINE bool resting_take(struct worker *me, uint8_t order, void *block)
{
    llfree_block *to = block;

    to->live = false; /* what stood there has moved */
    return order > 0 ? take_block(&me->core, order, to) : llfree_take_frame(&me->core, to) == LLFREE_OK;
}

INLINE bool two_take(struct worker *me, uint8_t order, void *block)
{
    return take_block(order == MOST_ORDER ? &me->huge_core : &me->core, order, block);
}

INLINE void structs_give(struct worker *me, uint8_t order, void *block)
{
    (void)order;
    want(llfree_give_block(&me->core, block) == LLFREE_OK, "a give was refused");
}

INLINE void resting_give(struct worker *me, uint8_t order, void *block)
{
    want((order > 0 ? llfree_give_block : llfree_give_frame)(&me->core, block) == LLFREE_OK, "a give was refused");
}

static void resting_settle(struct worker *me)
{
    llfree_drain(&me->core);
}

INLINE void two_give(struct worker *me, uint8_t order, void *block)
{
    want(llfree_give_block(order == MOST_ORDER ? &me->huge_core : &me->core, block) == LLFREE_OK,
         "a give was refused");
}

INLINE uint32_t struct_frame(const void *block)
{
    return ((const llfree_block *)block)->frame;
}

/* Its peers */

static void lists_open(void)
{
    want((peer = peer_open(frames, threads)) != NULL, "no memory");
}

static void buddy_open(void)
{
    want((peer = peer_open(frames, 0)) != NULL, "no memory");
}

static void peers_close(void)
{
    peer_close(peer);
}

INLINE bool peers_take(struct worker *me, uint8_t order, void *block)
{
    return (*(uint32_t *)block = peer_take(peer, me->place, order)) != NONE;
}

INLINE void peers_give(struct worker *me, uint8_t order, void *block)
{
    peer_give(peer, me->place, *(uint32_t *)block, order);
}

static void bits_open(void)
{
    bitmap_open(frames);
}

static void nothing(void)
{
}

static void nothing_rests(struct worker *me)
{
    (void)me;
}

INLINE bool bits_take(struct worker *me, uint8_t order, void *block)
{
    (void)me;
    return (*(uint32_t *)block = bitmap_take(order)) != NONE;
}

INLINE void bits_give(struct worker *me, uint8_t order, void *block)
{
    (void)me;
    bitmap_give(*(uint32_t *)block, order);
}

INLINE bool malloc_take(struct worker *me, uint8_t order, void *block)
{
    (void)me;
    return (*(void **)block = aligned_alloc(LLFREE_FRAME_BYTES, (size_t)LLFREE_FRAME_BYTES << order)) != NULL;
}

INLINE void malloc_give(struct worker *me, uint8_t order, void *block)
{
    (void)me, (void)order;
    __asm__ volatile("" : : "r"(*(void **)block) : "memory"); /* or the compiler leaves out the pair */
    free(*(void **)block);
}

static const struct allocator numbers = { "llfree", sizeof(uint32_t), numbers_open, numbers_close, numbers_take,
                                          numbers_give, number_frame, nothing_rests };
static const struct allocator structs = { "unchecked", sizeof(llfree_block), structs_open, numbers_close,
                                          structs_take, structs_give, struct_frame, nothing_rests };
static const struct allocator resting = { "resting", sizeof(llfree_block), structs_open, numbers_close,
                                          resting_take, resting_give, struct_frame, resting_settle };
static const struct allocator two = { "two", sizeof(llfree_block), two_open, two_close, two_take, two_give,
                                      struct_frame, nothing_rests };
static const struct allocator lists = { "lists", sizeof(uint32_t), lists_open, peers_close, peers_take, peers_give,
                                        number_frame, nothing_rests };
static const struct allocator buddy = { "buddy", sizeof(uint32_t), buddy_open, peers_close, peers_take, peers_give,
                                        number_frame, nothing_rests };
static const struct allocator bitmap = { "bitmap", sizeof(uint32_t), bits_open, nothing, bits_take, bits_give,
                                         number_frame, nothing_rests };
static const struct allocator heap = { "malloc", sizeof(void *), nothing, nothing, malloc_take, malloc_give,
                                       NULL, nothing_rests };

/* The blocks that a caller keeps of an allocator */

INLINE void *at(const struct allocator *allocator, void *blocks, size_t place)
{
    return (char *)blocks + place * allocator->size;
}

INLINE void move(const struct allocator *allocator, void *to, const void *from)
{
    memcpy(to, from, allocator->size);
}

INLINE void swap(const struct allocator *allocator, void *one, void *other)
{
    char kept[sizeof(llfree_block)];

    memcpy(kept, one, allocator->size);
    memcpy(one, other, allocator->size);
    memcpy(other, kept, allocator->size);
}

enum { BLOCK_BYTES = sizeof(llfree_block) }; /* those of the largest */

#endif
