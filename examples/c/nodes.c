/* A machine of two nodes of 4 GiB with a hole of 12 GiB between them: one allocator with a zone for each. */
#include "llfree.h"
#include <stdio.h>
#include <stdlib.h>

enum { CORES = 2, NODE = 1048576 };

/* Ends the program where a call was refused. */
static void must(const char *call, uint32_t status)
{
    if (status != LLFREE_OK) {
        fprintf(stderr, "%s: %u\n", call, status);
        exit(1);
    }
}

static int node_of(uint32_t frame)
{
    return frame < NODE ? 0 : 1;
}

int main(void)
{
    static const llfree_range nodes[2] = { { 0, NODE }, { 4 * NODE, NODE } };
    static const llfree_range kept = { 0, 256 }; /* the first MiB is never given out */
    llfree_core cores[CORES] = { LLFREE_CLOSED, LLFREE_CLOSED };
    uint32_t frames[CORES], frame, huge = 0, second = 0;

    /* A range may not lie in the hole. */
    static const llfree_range hole = { 2 * NODE, 1 };
    printf("a range in the hole: %u\n", llfree_open_zones(cores, CORES, nodes, 2, &hole, 1));

    must("open", llfree_open_zones(cores, CORES, nodes, 2, &kept, 1));
    printf("%u frames, %u of them free\n", llfree_frames(&cores[0]), llfree_free_frames(&cores[0]));

    /* Each core takes from a node of its own, and any core gives what another took. */
    for (int i = 0; i < CORES; i++)
        must("take", llfree_take(&cores[i], 3, &frames[i]));
    printf("the cores take from two nodes: %s\n", node_of(frames[0]) != node_of(frames[1]) ? "yes" : "no");
    for (int i = 0; i < CORES; i++)
        must("give", llfree_give(&cores[1 - i], frames[i], 3));

    /* A core whose node is full takes from the other one. */
    while (llfree_take(&cores[0], 9, &frame) == LLFREE_OK) {
        huge++;
        second += node_of(frame);
        if (frame >= NODE && frame < 4 * NODE)
            puts("a frame in the hole");
    }
    printf("one core takes %u huge frames, %u of them from the second node\n", huge, second);
    printf("left: %u frames\n", llfree_free_frames(&cores[1]));

    for (int i = 0; i < CORES; i++)
        llfree_close(&cores[i]);
    return 0;
}
