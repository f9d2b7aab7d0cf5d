/* A first program: blocks of page frames are taken, split and given back. */
#include "llfree.h"
#include <stdio.h>

int main(void)
{
    llfree_plain memory = LLFREE_CLOSED;
    llfree_range kept = { 0, 16 };
    uint32_t huge, frame;

    /* 4,096 frames of 4 KiB, of which the first sixteen are kept back. */
    if (llfree_plain_open(&memory, 4096, &kept, 1) != LLFREE_OK) {
        fputs("no memory\n", stderr);
        return 1;
    }
    if (llfree_plain_take(&memory, 9, &huge) != LLFREE_OK || llfree_plain_take(&memory, 0, &frame) != LLFREE_OK) {
        fputs("no block\n", stderr);
        return 1;
    }
    printf("a huge frame begins at frame %u\na frame: %u\n", huge, frame);

    /* The huge frame in halves: the upper one is given, the lower one stays held. */
    if (llfree_plain_split(&memory, huge, 9) == LLFREE_OK)
        printf("the upper half is given: %u\n", llfree_plain_give(&memory, huge + 256, 8));

    /* A wrong number is refused, and nothing changes. */
    if (llfree_plain_give(&memory, huge, 9) == LLFREE_NOT_HELD)
        puts("the whole huge frame is not held any more");

    llfree_plain_close(&memory);
    return 0;
}
