/* Free blocks of each order, each of them in no larger one, while a memory is open: what Linux shows as
 * /proc/buddyinfo. A heap of the program's own notes what an opening asks for, and so finds the words of the memory
 * (docs/C.md, "After a kill"); of a copy of these llfree_image_of_words makes an image, which is counted.
 *
 *     static llfree_noted noted[1 + LLFREE_NOTED_MORE];
 *     static llfree_block_counter counter;
 *     ..
 *     counter = llfree_counter_of(frames, cores, noted, 1 + LLFREE_NOTED_MORE);
 *     uint64_t *room = malloc(8 * llfree_counter_room(&counter));
 *     if (llfree_open(handles, cores, frames, NULL, 0) == LLFREE_OK && llfree_counter_find(&counter, handles, room))
 *         llfree_count_blocks(&counter, room, blocks);
 *
 * and in the heap: llfree_counter_note in rattle_alloc, llfree_counter_forget in rattle_dealloc, and both in
 * rattle_realloc.
 *
 * A count reads the words one after another, and takes and changes nothing; each reader has a room of its own, and any
 * number may read at once. It is exact while no other thread is in a call. Otherwise each word is as it was at some
 * moment of the count; the library promises nothing of such words, and it was tried that no frame counts as free which
 * is held all the while (tools/c/blocks.c, tested, not proved). Frames that rest with a core are held. After the last
 * handle is closed there are no words, and a count is an error.
 *
 * The header needs no C library, only the compiler's atomics (GCC, clang), so it is for kernels too. */
#ifndef LLFREE_BLOCKS_H
#define LLFREE_BLOCKS_H

#include "llfree.h"

enum {
    LLFREE_COUNTED_ORDERS = 10,
    LLFREE_NOTED_MORE = 8,         /* blocks that are noted besides the words of each zone */
    LLFREE_NOTED_BEFORE = 2,       /* of those that stay, so many were asked for before the words */
    LLFREE_COUNTED_ZONE = 2097152, /* frames of each zone but the last, where llfree_open makes several */
    LLFREE_COUNTED_CHILD = 512,
    LLFREE_COUNTED_HUGE = 32768,   /* in an image, a child that is held as one block */
};

/* A block of the heap that is aligned to 8. */
typedef struct llfree_noted {
    const uint64_t *words;
    size_t size;
} llfree_noted;

/* What counts the free blocks of a memory. */
typedef struct llfree_block_counter {
    uint32_t frames, cores;
    const llfree_range *zones; /* NULL for those that llfree_open makes */
    size_t zone_count;
    llfree_noted *noted; /* in the order in which they were asked for; from the first zone's words on once found */
    size_t room, count;
    bool is_found;
} llfree_block_counter;

/* Before an opening of this many frames by llfree_open or llfree_open_unchecked, or at an image: a counter with room to
 * note one block for each zone (of up to 2097152 frames) and LLFREE_NOTED_MORE. */
static inline llfree_block_counter llfree_counter_of(uint32_t frames, uint32_t cores, llfree_noted *noted, size_t room)
{
    llfree_block_counter counter = { frames, cores, NULL, 0, noted, room, 0, false };

    counter.zone_count = frames ? (frames - 1) / LLFREE_COUNTED_ZONE + 1 : 0;
    return counter;
}

/* The same before an opening of zones, whose list stays where it is as long as the counter is used. */
static inline llfree_block_counter llfree_counter_of_zones(const llfree_range *zones, size_t zone_count, uint32_t cores,
                                                           llfree_noted *noted, size_t room)
{
    llfree_block_counter counter = { 0, cores, zones, zone_count, noted, room, 0, false };

    return counter;
}

/* The heap handed out this block. */
static inline void llfree_counter_note(llfree_block_counter *counter, void *block, size_t size, size_t alignment)
{
    if (counter->is_found || alignment != sizeof(uint64_t) || counter->count == counter->room)
        return;
    counter->noted[counter->count].words = (const uint64_t *)block;
    counter->noted[counter->count++].size = size;
}

/* The heap was given this block back. */
static inline void llfree_counter_forget(llfree_block_counter *counter, const void *block)
{
    size_t at = 0;

    while (!counter->is_found && at < counter->count && counter->noted[at].words != block)
        at++;
    if (counter->is_found || at == counter->count)
        return;
    for (counter->count--; at < counter->count; at++)
        counter->noted[at] = counter->noted[at + 1];
}

/* The frames of a zone; 0 if there is no such zone. */
static inline uint32_t llfree_counter_frames(const llfree_block_counter *counter, size_t zone)
{
    if (zone >= counter->zone_count)
        return 0;
    if (counter->zones)
        return counter->zones[zone].frames;
    return zone + 1 < counter->zone_count ? (uint32_t)LLFREE_COUNTED_ZONE :
                                            counter->frames - (uint32_t)zone * LLFREE_COUNTED_ZONE;
}

/* How many numbers of 64 bits a reader has room for: the words of any zone and their image. */
static inline size_t llfree_counter_room(const llfree_block_counter *counter)
{
    size_t most = 0;

    for (size_t zone = 0; zone < counter->zone_count; zone++) {
        const uint32_t frames = llfree_counter_frames(counter, zone);
        const size_t words = llfree_words(frames, counter->cores) + llfree_image_words(frames);
        most = words > most ? words : most;
    }
    return most;
}

/* The image of a zone as it stands (llfree.h, at llfree_image_words), in the reader's room; NULL if there is no such
 * zone, or the words were not found. */
static inline const uint64_t *llfree_counter_image(const llfree_block_counter *counter, size_t zone, uint64_t *room)
{
    const uint32_t frames = llfree_counter_frames(counter, zone);
    const size_t count = llfree_words(frames, counter->cores), numbers = llfree_image_words(frames);

    if (count == 0 || !counter->is_found)
        return NULL;
    for (size_t i = 0; i < count; i++)
        room[i] = __atomic_load_n(&counter->noted[zone].words[i], __ATOMIC_RELAXED);
    if (llfree_image_of_words(frames, counter->cores, room, count, room + count, numbers) != LLFREE_OK)
        return NULL;
    return room + count;
}

/* How many bits are set, without an instruction or a library for it. */
static inline unsigned llfree_counter_ones(uint64_t word)
{
    const uint64_t ones = ~(uint64_t)0;

    word -= word >> 1 & ones / 3;
    word = (word & ones / 5) + (word >> 2 & ones / 5);
    return (unsigned)(((word + (word >> 4)) & ones / 17) * (ones / 255) >> 56);
}

/* Parts of an order are free where bits are set, each part at the multiple of its size. Two that are free side by side,
 * the first of which lies at a multiple of two parts, are one of the next order. Counts those that are in no larger
 * one, and answers whether all are one. */
static inline bool llfree_join_free(uint64_t free, unsigned parts, unsigned order, unsigned long *blocks)
{
    for (unsigned apart = 1; free && apart < parts; apart *= 2) {
        /* the first bit of each two parts */
        const uint64_t firsts = apart == 32 ? 1 : ~(uint64_t)0 / (((uint64_t)1 << 2 * apart) - 1);
        const uint64_t joined = free & free >> apart & firsts;

        blocks[order++] += llfree_counter_ones(free) - 2 * llfree_counter_ones(joined);
        free = joined;
    }
    return free != 0;
}

/* Adds the free blocks of each order (LLFREE_COUNTED_ORDERS of them) of a child whose frames are held where the bits of
 * eight words are set. */
static inline void llfree_add_free_blocks(const uint64_t *held, unsigned long *blocks)
{
    uint64_t free = 0;

    for (unsigned i = 0; i < 8; i++)
        free |= (uint64_t)llfree_join_free(~held[i], 64, 0, blocks) << i;
    blocks[LLFREE_COUNTED_ORDERS - 1] += llfree_join_free(free, 8, 6, blocks);
}

/* Writes how many free blocks of each order a zone has, by 8 times llfree_counter_room bytes of the reader's own. On
 * false there is no such zone, or its words were not found, and all are 0. */
static inline bool llfree_count_blocks_of(const llfree_block_counter *counter, size_t zone, uint64_t *room,
                                          unsigned long *blocks)
{
    const uint64_t *child = llfree_counter_image(counter, zone, room);
    const uint64_t *const end = child ? child + llfree_image_words(llfree_counter_frames(counter, zone)) : NULL;

    for (unsigned order = 0; order < LLFREE_COUNTED_ORDERS; order++)
        blocks[order] = 0;
    for (const uint64_t *at = child; at != end; at += 9)
        if (at[0] != LLFREE_COUNTED_HUGE)
            llfree_add_free_blocks(at + 1, blocks);
    return child != NULL;
}

/* The same of all zones together. */
static inline bool llfree_count_blocks(const llfree_block_counter *counter, uint64_t *room, unsigned long *blocks)
{
    bool is_read = counter->zone_count > 0;
    unsigned long of_zone[LLFREE_COUNTED_ORDERS];

    for (unsigned order = 0; order < LLFREE_COUNTED_ORDERS; order++)
        blocks[order] = 0;
    for (size_t zone = 0; zone < counter->zone_count; zone++) {
        is_read &= llfree_count_blocks_of(counter, zone, room, of_zone);
        for (unsigned order = 0; order < LLFREE_COUNTED_ORDERS; order++)
            blocks[order] += of_zone[order];
    }
    return is_read;
}

/* After an opening has answered LLFREE_OK, and before another call through its handles: finds the words of each zone
 * among the blocks that were noted, and compares their free frames with those that the library counts. From then on
 * the heap's calls of the counter do nothing. On false nothing can be counted, and nothing changes. */
LLFREE_NODISCARD
static inline bool llfree_counter_find(llfree_block_counter *counter, llfree_core *handle, uint64_t *room)
{
    const size_t zones = counter->zone_count;
    bool is_right = !counter->is_found && zones > 0 && counter->count >= LLFREE_NOTED_BEFORE + zones &&
                    zones == llfree_zones(handle);

    for (size_t zone = 0; is_right && zone < zones; zone++)
        is_right = counter->noted[LLFREE_NOTED_BEFORE + zone].size ==
                   sizeof(uint64_t) * llfree_words(llfree_counter_frames(counter, zone), counter->cores);
    if (!is_right)
        return false;
    counter->noted += LLFREE_NOTED_BEFORE;
    counter->is_found = true;
    for (size_t zone = 0; is_right && zone < zones; zone++) {
        unsigned long blocks[LLFREE_COUNTED_ORDERS];
        uint64_t free = 0;

        is_right = llfree_count_blocks_of(counter, zone, room, blocks);
        for (unsigned order = 0; order < LLFREE_COUNTED_ORDERS; order++)
            free += (uint64_t)blocks[order] << order;
        is_right &= free == llfree_free_frames_of(handle, (uint32_t)zone);
    }
    if (!is_right) {
        counter->noted -= LLFREE_NOTED_BEFORE;
        counter->is_found = false;
    }
    return is_right;
}

#endif
