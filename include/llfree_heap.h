/* How many bytes of heap an opening needs, before it is made: so a kernel sets its heap aside at boot. Each call has
 * the arguments of its opening, without the handles, and goes through what that asks its heap for, block by block. It
 * is exact for this version of the library (tested, not proved: tools/c/heap_bytes.c), and touches no heap.
 *
 *     llfree_heap heap = llfree_heap_bytes(cores, frames, NULL, 0);
 *     give_to_my_heap(reserve(heap.span), heap.span);
 *     llfree_open(handles, cores, frames, NULL, 0);
 *
 * A closing with an image, and an opening at one, may need more. */
#ifndef LLFREE_HEAP_H
#define LLFREE_HEAP_H

#include "llfree.h"

/* What an opening that answers LLFREE_OK asks of its heap. All are 0 where the opening is BAD_GEOMETRY or BAD_RANGE. */
typedef struct llfree_heap {
    size_t kept;   /* bytes of the blocks that stay until the last handle is closed */
    size_t peak;   /* bytes of all blocks when there are most; while one grows, its old bytes and its new ones */
    size_t span;   /* bytes for a heap that cuts off one block after another, each a multiple of 64 (or 16) bytes, and
                      never reuses one */
    size_t blocks; /* how many blocks that heap cuts off, each time that one grows too: with a header before each it
                      needs as many headers more */
} llfree_heap;

enum {
    LLFREE_HEAP_LINE = 64,
    LLFREE_HEAP_ZONE = 2097152, /* frames of a zone at most */
    LLFREE_HEAP_MOST = 1024,    /* cores, zones, ranges */
    LLFREE_HEAP_CHILD = 512,
};

/* Bytes of what an opening has one of or several, by the types of the library. */
enum {
    LLFREE_HEAP_PAIR = 8,     /* a range, or a zone, while it opens */
    LLFREE_HEAP_SPAN = 48,    /* a zone and what it holds back, while it opens */
    LLFREE_HEAP_FREE = 8,     /* a free block, while a list is made */
    LLFREE_HEAP_PARTS = 112,  /* a core, while it opens */
    LLFREE_HEAP_PART = 28,    /* a core's part of a zone */
    LLFREE_HEAP_TABLE = 104,  /* a zone */
    LLFREE_HEAP_LIST = 56,    /* the list of a zone */
    LLFREE_HEAP_SLOT = 8,     /* a block on the list, which has room for two a frame */
    LLFREE_HEAP_SHARED = 384, /* what all cores share */
    LLFREE_HEAP_REST = 576,   /* frames that rest with a core */
    LLFREE_HEAP_BATCH = 192,  /* and those that come to rest at once */
    LLFREE_HEAP_CORE = 408,
    LLFREE_HEAP_PLAIN = 336,  /* of an allocator for one thread: itself, its core, and frames on their way */
    LLFREE_HEAP_ALONE = 28,
    LLFREE_HEAP_PIECES = 8192,
};

/* A block is asked for, which may have no byte and has a place of its own then too. Until the end of an opening kept has
 * those that are there. */
static inline void llfree_heap_take(llfree_heap *heap, size_t bytes)
{
    heap->kept += bytes;
    heap->peak = heap->kept > heap->peak ? heap->kept : heap->peak;
    heap->span += (bytes + !bytes + LLFREE_HEAP_LINE - 1) / LLFREE_HEAP_LINE * LLFREE_HEAP_LINE;
    heap->blocks++;
}

/* Room for items that are known before, for which none is asked for where there are none. */
static inline void llfree_heap_room(llfree_heap *heap, size_t items, size_t bytes)
{
    if (items > 0)
        llfree_heap_take(heap, items * bytes);
}

/* A list grows to so many items, one after another: from 4 on it is doubled. Answers its bytes. */
static inline size_t llfree_heap_grow(llfree_heap *heap, size_t items, size_t bytes)
{
    size_t room = 0;

    while (room < items) {
        const size_t more = room ? 2 * room : 4;
        llfree_heap_take(heap, more * bytes);
        heap->kept -= room * bytes;
        room = more;
    }
    return room * bytes;
}

/* What is free from a frame up to another: how many blocks, each in no larger one, and whether the list has a place
 * before one of them that no block has. */
typedef struct llfree_heap_free {
    size_t blocks, listed;
    bool has_gap;
} llfree_heap_free;

static inline void llfree_heap_add_free(llfree_heap_free *free, uint32_t from, uint32_t to)
{
    while (from < to) {
        const size_t places = 2 * (size_t)from - free->listed;
        uint32_t frames = 1, many = 1;
        /* the one place between two children is no block's, and no gap */
        free->has_gap |= places > 1 || (places == 1 && from % LLFREE_HEAP_CHILD != 0);
        while (frames < LLFREE_HEAP_CHILD && from % (2 * frames) == 0 && to - from >= 2 * frames)
            frames *= 2;
        if (frames == LLFREE_HEAP_CHILD)
            many = (to - from) / frames;
        free->blocks += many;
        from += many * frames;
        free->listed = 2 * (size_t)from - 1;
    }
}

/* What a zone has of the ranges, each piece counted from the zone's first frame. */
typedef struct llfree_heap_pieces {
    size_t count;
    uint64_t frames;
    llfree_heap_free free;
} llfree_heap_pieces;

static inline llfree_heap_pieces llfree_heap_pieces_in(llfree_range zone, const llfree_range *ranges, size_t count)
{
    const uint64_t first = zone.first, end = first + zone.frames;
    llfree_heap_pieces pieces = { 0, 0, { 0, 0, false } };
    uint64_t behind = first;

    for (size_t i = 0; i < count; i++) {
        const uint64_t from = ranges[i].first > first ? ranges[i].first : first;
        const uint64_t range_end = (uint64_t)ranges[i].first + ranges[i].frames;
        const uint64_t to = range_end < end ? range_end : end;
        if (from >= to)
            continue;
        llfree_heap_add_free(&pieces.free, (uint32_t)(behind - first), (uint32_t)(from - first));
        pieces.count++;
        pieces.frames += to - from;
        behind = to;
    }
    llfree_heap_add_free(&pieces.free, (uint32_t)(behind - first), zone.frames);
    return pieces;
}

/* The zones of an opening: a list of them, or those that so many frames are split into. */
typedef struct llfree_heap_zones {
    const llfree_range *zones;
    size_t count;
    uint32_t frames;
} llfree_heap_zones;

static inline llfree_range llfree_heap_zone(const llfree_heap_zones *zones, size_t at)
{
    llfree_range zone = { (uint32_t)(LLFREE_HEAP_ZONE * at), LLFREE_HEAP_ZONE };

    if (zones->zones)
        return zones->zones[at];
    if (at + 1 == zones->count)
        zone.frames = zones->frames - zone.first;
    return zone;
}

/* Whether there is such an opening. */
static inline bool llfree_heap_is_lawful(size_t cores, const llfree_heap_zones *zones, const llfree_range *ranges,
                                         size_t count)
{
    uint64_t from = 0, held = 0, inside = 0;

    if (cores == 0 || cores > LLFREE_HEAP_MOST || zones->count == 0 || zones->count > LLFREE_HEAP_MOST ||
        count > LLFREE_HEAP_MOST)
        return false;
    for (size_t i = 0; i < count; i++) {
        if (ranges[i].frames == 0 || ranges[i].first < from)
            return false;
        from = (uint64_t)ranges[i].first + ranges[i].frames;
        held += ranges[i].frames;
    }
    from = 0;
    for (size_t at = 0; at < zones->count; at++) {
        const llfree_range zone = llfree_heap_zone(zones, at);
        if (zone.frames == 0 || zone.frames > LLFREE_HEAP_ZONE || zone.first % LLFREE_HEAP_CHILD || zone.first < from ||
            (uint64_t)zone.first + zone.frames > (uint64_t)1 << 32)
            return false;
        from = (uint64_t)zone.first + (zone.frames + LLFREE_HEAP_CHILD - 1) / LLFREE_HEAP_CHILD * LLFREE_HEAP_CHILD;
        inside += llfree_heap_pieces_in(zone, ranges, count).frames;
    }
    return inside == held;
}

/* The list of the blocks of a zone, and what is free while it is made. */
static inline void llfree_heap_list(llfree_heap *heap, uint32_t frames, const llfree_heap_free *free)
{
    const size_t places = 2 * (size_t)frames, words = (places + 31) / 32;
    size_t found;

    llfree_heap_take(heap, LLFREE_HEAP_SLOT * places);
    found = llfree_heap_grow(heap, free->blocks, LLFREE_HEAP_FREE);
    if (free->has_gap)
        llfree_heap_take(heap, sizeof(uint32_t) * (words < 4 ? 4 : words));
    heap->kept -= found;
}

/* All that an opening asks for, in its order. */
static inline llfree_heap llfree_heap_of(size_t cores, const llfree_heap_zones *zones, const llfree_range *ranges,
                                         size_t count, bool has_lists)
{
    llfree_heap heap = { 0, 0, 0, 0 };
    size_t opening = 0, room;

    if (!llfree_heap_is_lawful(cores, zones, ranges, count))
        return heap;
    llfree_heap_room(&heap, count, LLFREE_HEAP_PAIR);
    llfree_heap_take(&heap, LLFREE_HEAP_PAIR * zones->count);
    llfree_heap_take(&heap, LLFREE_HEAP_SPAN * zones->count);
    opening += LLFREE_HEAP_PAIR * (count + zones->count) + LLFREE_HEAP_SPAN * zones->count;
    for (size_t at = 0; at < zones->count; at++)
        opening += llfree_heap_grow(&heap, llfree_heap_pieces_in(llfree_heap_zone(zones, at), ranges, count).count,
                                    LLFREE_HEAP_PAIR);
    llfree_heap_take(&heap, LLFREE_HEAP_PARTS * cores);
    for (size_t core = 0; core < cores; core++)
        llfree_heap_take(&heap, LLFREE_HEAP_PART * (zones->count + 8));
    llfree_heap_take(&heap, LLFREE_HEAP_TABLE * (zones->count + 1));
    llfree_heap_take(&heap, sizeof(uint64_t) * (zones->count + 16));
    llfree_heap_take(&heap, sizeof(uint32_t) * (zones->count + 32));
    for (size_t at = 0; at < zones->count; at++) {
        const llfree_range zone = llfree_heap_zone(zones, at);
        const size_t words = sizeof(uint64_t) * llfree_words(zone.frames, (uint32_t)cores);
        const size_t pieces = llfree_heap_pieces_in(zone, ranges, count).count;
        /* an image, the pieces again, and the words, each of the last two with a block of no byte */
        llfree_heap_take(&heap, words);
        llfree_heap_room(&heap, pieces, LLFREE_HEAP_PAIR);
        llfree_heap_take(&heap, 0);
        llfree_heap_take(&heap, words);
        llfree_heap_take(&heap, 0);
        heap.kept -= words + LLFREE_HEAP_PAIR * pieces;
        /* the cores of the zone, before each is dealt its part */
        llfree_heap_take(&heap, LLFREE_HEAP_PART * cores);
        heap.kept -= LLFREE_HEAP_PART * cores;
    }
    llfree_heap_take(&heap, LLFREE_HEAP_LIST * (zones->count + 2));
    for (size_t at = 0; at < zones->count && has_lists; at++) {
        const llfree_range zone = llfree_heap_zone(zones, at);
        const llfree_heap_pieces pieces = llfree_heap_pieces_in(zone, ranges, count);
        llfree_heap_list(&heap, zone.frames, &pieces.free);
    }
    llfree_heap_take(&heap, LLFREE_HEAP_SHARED);
    room = 0;
    for (size_t core = 0; core < cores; core++) {
        llfree_heap_take(&heap, LLFREE_HEAP_REST);
        llfree_heap_take(&heap, LLFREE_HEAP_BATCH);
        if (core == room) {
            const size_t more = room ? 2 * room : 4;
            llfree_heap_take(&heap, LLFREE_HEAP_CORE * more);
            heap.kept -= LLFREE_HEAP_CORE * room;
            room = more;
        }
    }
    heap.kept -= LLFREE_HEAP_PARTS * cores;
    opening += LLFREE_HEAP_CORE * room;
    room = 0;
    for (size_t core = 0; core < cores; core++) {
        llfree_heap_take(&heap, LLFREE_HEAP_CORE);
        if (core == room) {
            const size_t more = room ? 2 * room : 4;
            llfree_heap_take(&heap, sizeof(void *) * more);
            heap.kept -= sizeof(void *) * room;
            room = more;
        }
    }
    heap.kept -= opening + sizeof(void *) * room;
    return heap;
}

/* llfree_open: zones of up to 2097152 frames, and a list for each. */
static inline llfree_heap llfree_heap_bytes(size_t cores, uint32_t frames, const llfree_range *ranges, size_t count)
{
    const llfree_heap_zones zones = { NULL, ((size_t)frames + LLFREE_HEAP_ZONE - 1) / LLFREE_HEAP_ZONE, frames };

    return llfree_heap_of(cores, &zones, ranges, count, true);
}

/* llfree_open_unchecked. */
static inline llfree_heap llfree_heap_bytes_unchecked(size_t cores, uint32_t frames, const llfree_range *ranges,
                                                      size_t count)
{
    const llfree_heap_zones zones = { NULL, ((size_t)frames + LLFREE_HEAP_ZONE - 1) / LLFREE_HEAP_ZONE, frames };

    return llfree_heap_of(cores, &zones, ranges, count, false);
}

/* llfree_open_zones. */
static inline llfree_heap llfree_heap_bytes_zones(size_t cores, const llfree_range *zones, size_t zone_count,
                                                  const llfree_range *ranges, size_t count)
{
    const llfree_heap_zones listed = { zones, zone_count, 0 };

    return llfree_heap_of(cores, &listed, ranges, count, true);
}

/* llfree_open_zones_unchecked. */
static inline llfree_heap llfree_heap_bytes_zones_unchecked(size_t cores, const llfree_range *zones, size_t zone_count,
                                                            const llfree_range *ranges, size_t count)
{
    const llfree_heap_zones listed = { zones, zone_count, 0 };

    return llfree_heap_of(cores, &listed, ranges, count, false);
}

/* llfree_plain_open. */
static inline llfree_heap llfree_heap_bytes_plain(uint32_t frames, const llfree_range *ranges, size_t count)
{
    const llfree_heap_zones zone = { NULL, 1, frames };
    const size_t children = ((size_t)frames + LLFREE_HEAP_CHILD - 1) / LLFREE_HEAP_CHILD;
    const size_t words = sizeof(uint64_t) * llfree_words(frames, 1);
    llfree_heap heap = { 0, 0, 0, 0 };

    if (words == 0 || !llfree_heap_is_lawful(1, &zone, ranges, count))
        return heap;
    llfree_heap_room(&heap, count, LLFREE_HEAP_PAIR);
    llfree_heap_take(&heap, LLFREE_HEAP_CHILD * children);
    llfree_heap_grow(&heap, 1, LLFREE_HEAP_ALONE);
    llfree_heap_take(&heap, words);
    llfree_heap_take(&heap, words);
    llfree_heap_take(&heap, LLFREE_HEAP_CHILD * children);
    llfree_heap_take(&heap, LLFREE_HEAP_PIECES);
    llfree_heap_take(&heap, sizeof(uint32_t) * (8 * children + 1));
    heap.kept -= words;
    llfree_heap_room(&heap, count, LLFREE_HEAP_PAIR);
    heap.kept -= LLFREE_HEAP_PAIR * count;
    llfree_heap_take(&heap, LLFREE_HEAP_PLAIN);
    return heap;
}

#endif
