/* What an opening asks its heap for, beside what llfree_heap.h says before: bytes kept and at the peak, and the blocks
 * and the span of a heap that never reuses one, to the byte; for each kind of opening, for memories from 1 frame to
 * more than 8 GiB, 1 to 1024 cores, ranges and zones. In just that span an opening is made, in a shorter one none. */
#include "check.h"
#include "llfree_heap.h"

enum { CHILD = 512, TREE = 4096, ZONE = 2097152, ALIGNMENT = 16 };
enum { MOST_CORES = 1024, MOST_ZONES = 1024, MOST_RANGES = 1024 };

struct rattle_block {
    bool found;
    void *at;
};

struct rattle_block rattle_alloc(size_t size, size_t alignment);
struct rattle_block rattle_realloc(void *old, size_t kept, size_t size, size_t alignment);
void rattle_dealloc(void *block);

/* In front of each block. */
struct size {
    _Alignas(ALIGNMENT) size_t bytes;
};

static llfree_heap heap; /* span is that of blocks cut off at multiples of a line */
static unsigned char *arena; /* of so many bytes that are left, where blocks are cut off and none is reused */
static size_t left;
static unsigned char nothing;

struct rattle_block rattle_alloc(size_t size, size_t alignment)
{
    /* a block of no byte has a place of its own */
    const size_t rounded = (size + !size + LLFREE_HEAP_LINE - 1) / LLFREE_HEAP_LINE * LLFREE_HEAP_LINE;
    struct size *block;

    CHECK(alignment <= ALIGNMENT);
    if (arena) {
        if (rounded > left)
            return (struct rattle_block) { false, &nothing };
        left -= rounded;
        arena += rounded;
        return (struct rattle_block) { true, arena - rounded };
    }
    block = malloc(sizeof *block + size);
    CHECK(block);
    block->bytes = size;
    heap.kept += size;
    heap.peak = heap.kept > heap.peak ? heap.kept : heap.peak;
    heap.span += rounded;
    heap.blocks++;
    return (struct rattle_block) { true, block + 1 };
}

void rattle_dealloc(void *at)
{
    struct size *block = (struct size *)at - 1;

    if (arena)
        return;
    heap.kept -= block->bytes;
    free(block);
}

struct rattle_block rattle_realloc(void *old, size_t kept, size_t size, size_t alignment)
{
    struct rattle_block block = rattle_alloc(size, alignment);

    if (block.found) {
        memcpy(block.at, old, kept < size ? kept : size);
        rattle_dealloc(old);
    }
    return block;
}

static size_t openings, spans;

/* One opening, of any kind. */
enum kind { CHECKED, UNCHECKED, OF_ZONES, OF_ZONES_UNCHECKED, PLAIN, KINDS };

struct opening {
    enum kind kind;
    size_t cores, zone_count, range_count;
    uint32_t frames;
    const llfree_range *zones, *ranges;
};

static llfree_core cores[MOST_CORES];
static llfree_plain plain;

static enum llfree_status open_it(const struct opening *o)
{
    switch (o->kind) {
    case CHECKED: return llfree_open(cores, o->cores, o->frames, o->ranges, o->range_count);
    case UNCHECKED: return llfree_open_unchecked(cores, o->cores, o->frames, o->ranges, o->range_count);
    case OF_ZONES:
        return llfree_open_zones(cores, o->cores, o->zones, o->zone_count, o->ranges, o->range_count);
    case OF_ZONES_UNCHECKED:
        return llfree_open_zones_unchecked(cores, o->cores, o->zones, o->zone_count, o->ranges, o->range_count);
    default: return llfree_plain_open(&plain, o->frames, o->ranges, o->range_count);
    }
}

static llfree_heap bytes_of(const struct opening *o)
{
    switch (o->kind) {
    case CHECKED: return llfree_heap_bytes(o->cores, o->frames, o->ranges, o->range_count);
    case UNCHECKED: return llfree_heap_bytes_unchecked(o->cores, o->frames, o->ranges, o->range_count);
    case OF_ZONES:
        return llfree_heap_bytes_zones(o->cores, o->zones, o->zone_count, o->ranges, o->range_count);
    case OF_ZONES_UNCHECKED:
        return llfree_heap_bytes_zones_unchecked(o->cores, o->zones, o->zone_count, o->ranges, o->range_count);
    default: return llfree_heap_bytes_plain(o->frames, o->ranges, o->range_count);
    }
}

static void close_it(void)
{
    for (size_t i = 0; i < MOST_CORES; i++)
        llfree_close(&cores[i]);
    llfree_plain_close(&plain);
}

static void differ(const struct opening *o, const char *what, size_t said, size_t was)
{
    fprintf(stderr, "opening %d, %zu cores, %u frames, %zu zones, %zu ranges: %s: %zu are said, %zu were asked for\n",
            (int)o->kind, o->cores, o->frames, o->zone_count, o->range_count, what, said, was);
    exit(1);
}

static void same(const struct opening *o, const char *what, size_t said, size_t was)
{
    if (said != was)
        differ(o, what, said, was);
}

/* By a heap that counts. */
static void compare(const struct opening *o)
{
    const llfree_heap said = bytes_of(o);

    memset(&heap, 0, sizeof heap);
    CHECK(open_it(o) == LLFREE_OK);
    same(o, "kept", said.kept, heap.kept);
    same(o, "peak", said.peak, heap.peak);
    same(o, "span", said.span, heap.span);
    same(o, "blocks", said.blocks, heap.blocks);
    close_it();
    CHECK(heap.kept == 0);
    openings++;
}

/* By a heap that has so many bytes, and by one with a byte less. */
static void fits(const struct opening *o)
{
    const size_t span = bytes_of(o).span;
    unsigned char *all = aligned_alloc(LLFREE_HEAP_LINE, span);

    CHECK(all);
    for (size_t less = 0; less < 2; less++) {
        arena = all;
        left = span - less;
        CHECK(open_it(o) == (less ? LLFREE_NO_MEMORY : LLFREE_OK));
        CHECK(less || left == 0);
        close_it();
    }
    arena = NULL;
    free(all);
    spans++;
}

static const size_t core_counts[] = { 1, 2, 3, 4, 5, 8, 9, 64, 65, 341, 1024 };
enum { CORE_COUNTS = sizeof core_counts / sizeof *core_counts };

/* At the borders of words, children and trees, and at some sizes between them, without ranges. */
static void sizes(void)
{
    static const uint32_t borders[] = { 1, 64, 128, CHILD, 2 * CHILD, 3 * CHILD, 4 * CHILD, 5 * CHILD, TREE, 2 * TREE,
                                        3 * TREE, 17 * TREE, 262144 };
    uint64_t x = 88172645463325252u;

    for (size_t at = 0; at < sizeof borders / sizeof *borders + 12; at++)
        for (uint32_t more = 0; more < 3; more++) {
            const bool is_border = at < sizeof borders / sizeof *borders;
            const uint32_t frames = is_border ? borders[at] + more - 1 : 1 + (uint32_t)(next_random(&x) >> 20) % 70000;
            for (size_t i = 0; i < CORE_COUNTS && frames > 0; i += 1 + 2 * (frames > TREE)) {
                struct opening o = { CHECKED, core_counts[(i + at) % CORE_COUNTS], 0, 0, frames, NULL, NULL };
                compare(&o);
                if (frames <= TREE && o.cores < 10)
                    fits(&o);
                o.kind = UNCHECKED;
                compare(&o);
                if (o.cores < 70)
                    fits(&o);
            }
            struct opening o = { PLAIN, 1, 0, 0, frames, NULL, NULL };
            if (frames > 0) {
                compare(&o);
                fits(&o);
            }
        }
}

/* 8 GiB and more. */
static void large(void)
{
    static const uint32_t frames[] = { ZONE - 1, ZONE, ZONE + 1, ZONE + 515, 2 * ZONE, 3 * ZONE + TREE - 1 };

    for (size_t i = 0; i < sizeof frames / sizeof *frames; i++)
        for (size_t k = 0; k < CORE_COUNTS; k++) {
            struct opening o = { UNCHECKED, core_counts[k], 0, 0, frames[i], NULL, NULL };
            compare(&o);
            o.kind = CHECKED;
            if (k == i)
                compare(&o);
            o.kind = PLAIN;
            if (k == 0 && frames[i] <= ZONE)
                compare(&o);
        }
    struct opening o = { UNCHECKED, 3, 0, 0, 100 * (uint32_t)ZONE + 5, NULL, NULL };
    compare(&o);
}

/* Ranges that lie anywhere. */
static void ranges(void)
{
    static llfree_range kept[MOST_RANGES];
    uint64_t x = 2463534242u;

    for (int round = 0; round < 200; round++) {
        const uint32_t frames = 1 + (uint32_t)(next_random(&x) >> 20) % (round % 4 ? 9000 : 60000);
        const uint32_t step = 1 + (uint32_t)(next_random(&x) >> 20) % (round % 3 ? 3000 : 60);
        const size_t most = round % 5 ? MOST_RANGES : 1 + round % 7;
        struct opening o = { CHECKED, core_counts[round % 7], 0, 0, frames, NULL, kept };

        for (uint32_t from = 0;;) {
            from += (uint32_t)(next_random(&x) >> 20) % step;
            uint32_t length = 1 + (uint32_t)(next_random(&x) >> 20) % step;
            if (round % 2)
                from = (from + 63) / 64 * 64;
            if (from >= frames || o.range_count == most)
                break;
            length = length < frames - from ? length : frames - from;
            kept[o.range_count++] = (llfree_range) { from, length };
            from += length;
        }
        compare(&o);
        o.kind = UNCHECKED;
        compare(&o);
        o.kind = PLAIN;
        compare(&o);
    }
    /* all of it, and most ranges */
    for (uint32_t i = 0; i < MOST_RANGES; i++)
        kept[i] = (llfree_range) { 2 * i, 1 + i % 2 };
    for (int kind = 0; kind < KINDS; kind += kind == UNCHECKED ? 3 : 1) {
        const llfree_range all = { 0, 5000 };
        struct opening o = { (enum kind)kind, 2, 0, MOST_RANGES, 5000, NULL, kept };
        compare(&o);
        o.ranges = &all;
        o.range_count = 1;
        compare(&o);
    }
}

/* Zones of all sizes, with holes and ranges that continue from one to the next. */
static void zones(void)
{
    static llfree_range listed[MOST_ZONES], kept[MOST_RANGES];
    uint64_t x = 521288629u;

    for (int round = 0; round < 61; round++) {
        const size_t most = round % 6 ? 1 + (next_random(&x) >> 20) % 20 : round == 60 ? MOST_ZONES : 100;
        struct opening o = { OF_ZONES, core_counts[round % (round % 6 ? CORE_COUNTS : 3)], 0, 0, 0, listed, kept };
        uint32_t first = 0;

        while (o.zone_count < most) {
            const uint32_t frames = 1 + (uint32_t)(next_random(&x) >> 20) % (most > 20 ? 600 : 5000);
            listed[o.zone_count++] = (llfree_range) { first, frames };
            if (round % 3 == 0 && frames > 5 && o.range_count < MOST_RANGES)
                kept[o.range_count++] = (llfree_range) { first + frames / 3, frames % 4 + 1 };
            first += (frames + CHILD - 1) / CHILD * CHILD + CHILD * ((next_random(&x) >> 20) % 3);
        }
        compare(&o);
        o.kind = OF_ZONES_UNCHECKED;
        compare(&o);
        fits(&o);
    }
    /* a range that three zones share */
    static const llfree_range three[3] = { { 512, 1024 }, { 1536, 512 }, { 2048, 700 } }, shared = { 1000, 1200 };
    for (int kind = OF_ZONES; kind <= OF_ZONES_UNCHECKED; kind++) {
        struct opening o = { (enum kind)kind, 2, 3, 1, 0, three, &shared };
        compare(&o);
        fits(&o);
    }
}

/* Where there is no opening all numbers are 0. */
static void refused(void)
{
    static const llfree_range bad[][2] = { { { 3, 0 }, { 9, 1 } }, { { 3, 2 }, { 4, 1 } }, { { 5, 1 }, { 3, 1 } },
                                           { { 0, 1 }, { 99, 2 } }, { { 100, 1 }, { 200, 1 } },
                                           { { UINT32_MAX, UINT32_MAX }, { 3, 1 } } };
    static const llfree_range wrong[][2] = { { { 0, 0 }, { 512, 1 } }, { { 0, 513 }, { 512, 1 } },
                                             { { 1, 1 }, { 512, 1 } }, { { 512, 1 }, { 0, 1 } },
                                             { { 0, 1 }, { 4294966784u, 513 } }, { { 0, ZONE + 1 }, { 4194304, 1 } } };
    static llfree_range many[MOST_RANGES + 1];

    for (uint32_t i = 0; i <= MOST_RANGES; i++)
        many[i] = (llfree_range) { 2 * i, 1 };
    const struct opening none[] = {
        { CHECKED, 0, 0, 0, 100, NULL, NULL },
        { CHECKED, MOST_CORES + 1, 0, 0, 100, NULL, NULL },
        { CHECKED, 1, 0, 0, 0, NULL, NULL },
        { CHECKED, 1, 0, 0, 2147483649u, NULL, NULL },
        { CHECKED, 1, 0, 0, UINT32_MAX, NULL, NULL },
        { CHECKED, 1, 0, MOST_RANGES + 1, 100000, NULL, many },
        { OF_ZONES, 1, 0, 0, 0, many, NULL },
        { OF_ZONES, 1, MOST_ZONES + 1, 0, 0, many, NULL },
        { PLAIN, 1, 0, 0, 0, NULL, NULL },
        { PLAIN, 1, 0, 0, ZONE + 1, NULL, NULL },
    };
    for (size_t i = 0; i < sizeof none / sizeof *none; i++)
        for (int unchecked = 0; unchecked < 2; unchecked++) {
            struct opening o = none[i];
            if (unchecked && o.kind != PLAIN)
                o.kind++;
            const llfree_heap said = bytes_of(&o);
            CHECK(said.kept == 0 && said.peak == 0 && said.span == 0 && said.blocks == 0);
        }
    for (size_t i = 0; i < sizeof bad / sizeof *bad; i++)
        for (int kind = 0; kind < KINDS; kind += kind == UNCHECKED ? 3 : 1) {
            const struct opening o = { (enum kind)kind, 1, 0, 2, 100, NULL, bad[i] };
            CHECK(open_it(&o) == LLFREE_BAD_RANGE && bytes_of(&o).span == 0);
        }
    for (size_t i = 0; i < sizeof wrong / sizeof *wrong; i++)
        for (int kind = OF_ZONES; kind <= OF_ZONES_UNCHECKED; kind++) {
            const struct opening o = { (enum kind)kind, 1, 2, 0, 0, wrong[i], NULL };
            CHECK(open_it(&o) == LLFREE_BAD_GEOMETRY && bytes_of(&o).span == 0);
        }
}

int main(void)
{
    refused();
    sizes();
    ranges();
    zones();
    large();
    printf("%zu openings asked for what was said; %zu were made in the least span\n", openings, spans);
    return 0;
}
