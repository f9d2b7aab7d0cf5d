/* The pages that the module has of Linux, and the heap of the library's openings and closings. */
#include "module.h"
#include <linux/gfp.h>

enum { PART_ORDER = 10, PART_FRAMES = 1 << PART_ORDER, PARTS_OF_MEBIBYTE = 4, ALIGNMENT = 16 };

unsigned int frames;
static struct page **parts;
static unsigned int part_count;

bool get_pages(unsigned int mebibytes)
{
    unsigned int count = mebibytes / PARTS_OF_MEBIBYTE;

    parts = kvcalloc(count, sizeof(*parts), GFP_KERNEL);
    for (part_count = 0; parts && part_count < count; part_count++) {
        parts[part_count] = alloc_pages(GFP_KERNEL | __GFP_NOWARN, PART_ORDER);
        if (!parts[part_count])
            break;
    }
    frames = part_count << PART_ORDER;
    return parts && part_count == count;
}

void free_pages_of_region(void)
{
    for (unsigned int i = 0; i < part_count; i++)
        __free_pages(parts[i], PART_ORDER);
    kvfree(parts);
}

struct page *page_of(unsigned int frame)
{
    return parts[frame / PART_FRAMES] + frame % PART_FRAMES;
}

struct rattle_block {
    bool found;
    void *at;
};

struct rattle_block rattle_alloc(size_t size, size_t alignment);
struct rattle_block rattle_realloc(void *old, size_t kept, size_t size, size_t alignment);
void rattle_dealloc(void *block);

/* From 16 bytes on kvmalloc aligns to 16. Where there is no block the address is some other one. */
struct rattle_block rattle_alloc(size_t size, size_t alignment)
{
    void *at = alignment > ALIGNMENT ? NULL : kvmalloc(max_t(size_t, size, ALIGNMENT), GFP_KERNEL);

    return (struct rattle_block){ at, at ?: (void *)&parts };
}

void rattle_dealloc(void *block)
{
    kvfree(block);
}

struct rattle_block rattle_realloc(void *old, size_t kept, size_t size, size_t alignment)
{
    struct rattle_block block = rattle_alloc(size, alignment);

    if (block.found) {
        memcpy(block.at, old, min(kept, size));
        kvfree(old);
    }
    return block;
}
