/* A memory is closed with its image, and opened again at it: what was held is held. */
#include "llfree.h"
#include <stdio.h>
#include <stdlib.h>

enum { CORES = 2, FRAMES = 4096 };

/* Ends the program where a call was refused. */
static void must(const char *call, uint32_t status)
{
    if (status != LLFREE_OK) {
        fprintf(stderr, "%s: %u\n", call, status);
        exit(1);
    }
}

int main(void)
{
    llfree_core cores[CORES] = { LLFREE_CLOSED, LLFREE_CLOSED };
    llfree_claim held[2] = { { 0, 9 }, { 0, 3 } };
    size_t count = llfree_image_words(FRAMES);
    uint64_t *words = calloc(count, sizeof *words);

    if (!words)
        return 1;
    must("open", llfree_open(cores, CORES, FRAMES, NULL, 0));
    for (int i = 0; i < 2; i++) {
        must("take", llfree_take(&cores[i], held[i].order, &held[i].frame));
        printf("core %d has a block of order %u\n", i, held[i].order);
    }

    /* The last handle leaves the image. */
    if (llfree_close_image(&cores[0], words, count) == LLFREE_CORES_OPEN)
        puts("another core is open");
    llfree_close(&cores[1]);
    must("close", llfree_close_image(&cores[0], words, count));

    /* Both blocks are named again, so any core gives them. */
    must("reopen", llfree_reopen(cores, CORES, FRAMES, words, count, held, 2));
    must("give", llfree_give(&cores[1], held[0].frame, held[0].order));
    must("give", llfree_give(&cores[0], held[1].frame, held[1].order));
    puts("both were given back");

    for (int i = 0; i < CORES; i++)
        llfree_close(&cores[i]);
    free(words);
    return 0;
}
