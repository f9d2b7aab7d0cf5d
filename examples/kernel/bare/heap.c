/* The three functions that the library asks for. Blocks are cut from the span one after the other, the newest one
 * grows where it lies, and once the last one is freed the whole span is free again. */
#include "heap.h"
#include "machine.h"

struct rattle_block {
    bool found;
    void *at;
};

enum { ALIGNMENT = 16 };

/* Before each block, which is aligned as its size is. */
struct size {
    _Alignas(ALIGNMENT) size_t bytes;
};

static unsigned char *first, *top, *end;
static struct size *newest;
static size_t blocks, in_use;
static struct heap_peak peak;

void heap_in(void *from, void *to)
{
    first = top = from;
    end = to;
}

void heap_watch(void)
{
    peak = (struct heap_peak){ in_use, (size_t)(top - first) };
}

struct heap_peak heap_peak(void)
{
    return peak;
}

static void count(size_t bytes)
{
    if (bytes > peak.in_blocks)
        peak.in_blocks = bytes;
    if ((size_t)(top - first) > peak.span)
        peak.span = (size_t)(top - first);
}

struct rattle_block rattle_alloc(size_t bytes, size_t alignment)
{
    size_t room = (size_t)(end - top), size = (bytes + ALIGNMENT - 1) / ALIGNMENT * ALIGNMENT;

    if (alignment > ALIGNMENT || bytes > room || sizeof(struct size) + size > room)
        return (struct rattle_block){ false, first };
    newest = (struct size *)top;
    newest->bytes = bytes;
    top += sizeof(struct size) + size;
    blocks++;
    in_use += bytes;
    count(in_use);
    return (struct rattle_block){ true, newest + 1 };
}

void rattle_dealloc(void *block)
{
    struct size *freed = (struct size *)block - 1;

    in_use -= freed->bytes;
    if (freed == newest)
        top = (unsigned char *)newest;
    if (--blocks == 0)
        top = first;
}

struct rattle_block rattle_realloc(void *old, size_t kept, size_t bytes, size_t alignment)
{
    struct size *before = (struct size *)old - 1;
    size_t used = in_use;
    struct rattle_block block;

    if (before == newest) {
        unsigned char *old_top = top;

        rattle_dealloc(old);
        block = rattle_alloc(bytes, alignment);
        if (!block.found) {
            top = old_top;
            blocks++;
            in_use = used;
        } else if (block.at != old) {
            /* it was the only block, and lies at the start of the span now */
            memmove(block.at, old, kept < bytes ? kept : bytes);
        }
    } else {
        block = rattle_alloc(bytes, alignment);
        if (block.found) {
            memcpy(block.at, old, kept < bytes ? kept : bytes);
            rattle_dealloc(old);
        }
    }
    if (block.found)
        count(used + bytes);
    return block;
}
