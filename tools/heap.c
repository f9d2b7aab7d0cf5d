/* The heap of a program that brings none: the three functions that openings and closings call, over malloc.
 * They are weak, so that a program's own win. */
#include <stdbool.h>
#include <stddef.h>
#include <stdlib.h>
#include <string.h>

struct rattle_block {
    bool found;
    void *at;
};

#define LLFREE_WEAK __attribute__((weak))

LLFREE_WEAK struct rattle_block rattle_alloc(size_t size, size_t alignment)
{
    struct rattle_block block = { false, NULL };

    if (alignment < 16)
        alignment = 16;
    if (size > (size_t)-1 - alignment)
        return block;
    /* a multiple of the alignment, and never none: a block of no bytes has an address, too */
    block.at = aligned_alloc(alignment, (size + alignment) / alignment * alignment);
    block.found = block.at != NULL;
    return block;
}

LLFREE_WEAK void rattle_dealloc(void *block)
{
    free(block);
}

LLFREE_WEAK struct rattle_block rattle_realloc(void *old, size_t kept, size_t size, size_t alignment)
{
    struct rattle_block block = rattle_alloc(size, alignment);

    if (block.found) {
        memcpy(block.at, old, kept < size ? kept : size);
        rattle_dealloc(old);
    }
    return block;
}
