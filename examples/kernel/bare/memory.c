/* What is no usable memory becomes a range, or a hole between zones; what lies before the end of the heap a range. */
#include "memory.h"
#include "heap.h"

enum { FRAME = 4096, CHILD = 512, MAX_FRAMES = 2097152, FIRST_MEBIBYTE = 1 << 20, HEAP_OF_FRAME = 128 /* bytes */ };

struct memory one_run, apart;
uint64_t *image;

/* Where the stamp of a frame is: not always the first word of the page, which all share a set of the cache. */
static volatile uint64_t *word_of(uint64_t frame)
{
    return (volatile uint64_t *)(frame * FRAME + frame % 64 * 64);
}

static void add_range(struct memory *memory, uint64_t first, uint64_t end)
{
    if (first >= end)
        return;
    expect(memory->range_count < RANGES, "too many holes");
    memory->ranges[memory->range_count++] = (llfree_range){ (uint32_t)first, (uint32_t)(end - first) };
    memory->reserved += end - first;
}

static void add_zone(struct memory *memory, uint64_t first, uint64_t end)
{
    expect(memory->zone_count < RANGES, "too many zones");
    memory->zones[memory->zone_count++] = (llfree_range){ (uint32_t)first, (uint32_t)(end - first) };
    memory->frames += end - first;
    memory->numbers += llfree_image_words((uint32_t)(end - first));
}

static uint64_t first_frame_of(const struct span *span)
{
    return (span->address + FRAME - 1) / FRAME;
}

static uint64_t end_of(const struct span *span)
{
    uint64_t end = (span->address + span->bytes) / FRAME;

    return end < MAX_FRAMES ? end : MAX_FRAMES;
}

/* Lays the heap and the image behind the kernel, and says where they end. */
static uint64_t lay_heap(uint64_t frames)
{
    extern unsigned char kernel_end[];
    uint64_t kernel = ((uintptr_t)kernel_end + FRAME - 1) / FRAME;
    uint64_t end = kernel + (frames * HEAP_OF_FRAME + FIRST_MEBIBYTE) / FRAME;

    image = (uint64_t *)(end * FRAME) - llfree_image_words((uint32_t)frames) - CHILD; /* of zones it may be longer */
    heap_in((void *)(kernel * FRAME), image);
    return end;
}

static void print_memory(const char *name, const struct memory *memory)
{
    print("%s: %u frames, of which %u in %u ranges are never given out\n", name, memory->frames, memory->reserved,
          (uint64_t)memory->range_count);
    for (size_t i = 0; i < memory->zone_count; i++)
        print("  zone   %7u to %7u\n", (uint64_t)memory->zones[i].first,
              (uint64_t)(memory->zones[i].first + memory->zones[i].frames - 1));
    for (size_t i = 0; i < memory->range_count; i++)
        print("  frames %7u to %7u\n", (uint64_t)memory->ranges[i].first,
              (uint64_t)(memory->ranges[i].first + memory->ranges[i].frames - 1));
}

/* What lies between two pieces of memory: a hole of whole children parts two zones, the rest is a range. */
static void add_hole(uint64_t *zone, uint64_t from, uint64_t to)
{
    uint64_t first = to / CHILD * CHILD;

    add_range(&one_run, from, to);
    if (first > from) {
        add_zone(&apart, *zone, from);
        *zone = first;
        from = first;
    }
    add_range(&apart, from, to);
}

void read_memory(void)
{
    uint32_t spans;
    const struct span *map = memory_map(&spans);
    uint64_t frames = 0, zone = 0;
    bool has_room = false;

    for (uint32_t i = 0; i < spans; i++)
        if (map[i].type == USABLE)
            frames = end_of(&map[i]);
    uint64_t given_out = lay_heap(frames), next = given_out;
    add_range(&one_run, 0, next);
    add_range(&apart, 0, next);
    for (uint32_t i = 0; i < spans; i++) {
        uint64_t first = first_frame_of(&map[i]), end = end_of(&map[i]);

        if (map[i].type != USABLE)
            continue;
        print("  %11u bytes of memory at %11u\n", map[i].bytes, map[i].address);
        has_room |= map[i].address <= FIRST_MEBIBYTE && end > given_out;
        if (end <= next)
            continue;
        if (first > next)
            add_hole(&zone, next, first);
        next = end;
        for (uint64_t frame = first > given_out ? first : given_out; frame < end; frame++)
            *word_of(frame) = 0;
    }
    expect(has_room, "no room for the heap");
    add_zone(&one_run, 0, next);
    add_zone(&apart, zone, next);
    print_memory("one run", &one_run);
    print_memory("zones", &apart);
}

void stamp(const llfree_block *block, uint64_t from, uint64_t to)
{
    for (uint64_t frame = block->frame; frame < block->frame + (1ull << block->order); frame++) {
        expect(*word_of(frame) == (from ? from | frame : 0), "a page bears the stamp of somebody else");
        *word_of(frame) = to ? to | frame : 0;
    }
}
