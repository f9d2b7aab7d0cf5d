/* A program with a heap of its own: the three functions that openings and closings call, over a static
 * array. It is linked without the kit's heap, as a program without a C library's malloc would be. */
#include "llfree.h"
#include <stdio.h>
#include <string.h>

/* What the library expects back: whether there is a block, and where. */
struct rattle_block {
    bool found;
    void *at;
};

enum { ROOM = 1 << 20, ALIGNMENT = 16, CORES = 2 };

/* Plain counts: here one thread opens and closes. Where several do so at once, they are behind a lock. */
static _Alignas(ALIGNMENT) unsigned char arena[ROOM];
static size_t used, blocks;

/* A block of so many bytes, aligned to 16. A block of no bytes has to have an address, too. */
struct rattle_block rattle_alloc(size_t size, size_t alignment)
{
    struct rattle_block none = { false, arena }, block = { true, arena + used };

    if (alignment > ALIGNMENT || size > ROOM - ALIGNMENT || used + size > ROOM - ALIGNMENT)
        return none;
    used += (size + ALIGNMENT) / ALIGNMENT * ALIGNMENT;
    blocks++;
    return block;
}

/* Once the last block is freed the arena is empty again. */
void rattle_dealloc(void *block)
{
    (void)block;
    if (--blocks == 0)
        used = 0;
}

/* A larger or smaller block in place of this one, with its first `kept` bytes. */
struct rattle_block rattle_realloc(void *old, size_t kept, size_t size, size_t alignment)
{
    struct rattle_block block = rattle_alloc(size, alignment);

    if (block.found) {
        memcpy(block.at, old, kept < size ? kept : size);
        rattle_dealloc(old);
    }
    return block;
}

static llfree_core cores[CORES];

static uint32_t open_cores(uint32_t frames)
{
    return llfree_open(cores, CORES, frames, NULL, 0);
}

int main(void)
{
    uint32_t frame;

    if (open_cores(1 << 20) == LLFREE_NO_MEMORY)
        printf("a memory that is too large for the heap is refused: %zu blocks are left\n", blocks);
    if (open_cores(4096) != LLFREE_OK) {
        fputs("no memory\n", stderr);
        return 1;
    }
    size_t before = used;
    for (int i = 0; i < 1000; i++)
        if (llfree_take(&cores[0], 3, &frame) != LLFREE_OK || llfree_give(&cores[1], frame, 3) != LLFREE_OK)
            return 1;
    puts(used == before ? "takes and gives need no heap" : "a take or a give called the heap");
    llfree_close(&cores[0]);
    llfree_close(&cores[1]);
    printf("after the last close %zu blocks are left\n", blocks);
    return 0;
}
