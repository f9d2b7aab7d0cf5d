/* Single frames beside huge frames, through a desk with one core and through one with two: one for orders 0 to 8, one
 * for order 9. A core has one tree of eight huge frames in hand for all orders. So with one core each tree in turn gets
 * single frames; with two these stay together, and most huge frames are whole again once the others are given. */
#include "llfree_pool.h"
#include <stdio.h>
#include <stdlib.h>

enum { CHILDREN = 64, FRAMES = CHILDREN * 512, ROUNDS = 48 };

/* Ends the program where a call was refused. */
static void must(const char *call, uint32_t status)
{
    if (status != LLFREE_OK) {
        fprintf(stderr, "%s: %u\n", call, status);
        exit(1);
    }
}

/* Takes a single frame and a huge frame by turns, and gives the huge frames: how many are free then. */
static uint32_t huge_left(size_t handles)
{
    static llfree_desk desk;
    llfree_core cores[2] = { LLFREE_CLOSED, LLFREE_CLOSED };
    uint32_t singles[ROUNDS], huges[ROUNDS], left;

    must("open", llfree_open(cores, handles, FRAMES, NULL, 0));
    if (handles == 1)
        llfree_seat_all(&desk, cores, 1);
    else
        llfree_seat_pairs(&desk, cores, 1);
    for (int i = 0; i < ROUNDS; i++) {
        must("take", llfree_pool_take(&desk, 1, 0, &singles[i]));
        must("take huge", llfree_pool_take(&desk, 1, 9, &huges[i]));
    }
    for (int i = 0; i < ROUNDS; i++)
        must("give huge", llfree_pool_give(&desk, 1, huges[i], 9));
    left = llfree_free_huge(&desk.core);
    for (int i = 0; i < ROUNDS; i++)
        must("give", llfree_pool_give(&desk, 1, singles[i], 0));
    llfree_pool_close(&desk, 1);
    return left;
}

int main(void)
{
    uint32_t one = huge_left(1), two = huge_left(2);

    printf("of %d huge frames, beside %d single frames, with one core %u are left\n", CHILDREN, ROUNDS, one);
    printf("with two cores %u\n", two);
    return 0;
}
