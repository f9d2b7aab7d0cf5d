/* Four threads take, split and give blocks, each through a handle of its own, on cache lines of its own. A byte a frame
 * says whether it is held, by atomic exchanges: no frame is ever held twice. */
#include "llfree_pool.h"
#include <pthread.h>
#include <stdatomic.h>
#include <stdio.h>
#include <stdlib.h>

enum { CORES = 4, CHILDREN = 64, FRAMES = CHILDREN * 512, HELD = 64, ROUNDS = 50000 };

static llfree_desk desks[CORES];
static _Atomic unsigned char held[FRAMES];

static void mark(uint32_t frame, uint8_t order, unsigned char from)
{
    for (uint32_t i = frame; i < frame + (1u << order); i++)
        if (atomic_exchange(&held[i], !from) != from) {
            fprintf(stderr, "frame %u is held twice or not at all\n", i);
            exit(1);
        }
}

static void *work(void *desk)
{
    llfree_core *handle = &((llfree_desk *)desk)->core;
    uint32_t frames[HELD], x = 2463534242u + (uint32_t)((llfree_desk *)desk - desks);
    uint8_t orders[HELD];
    int count = 0;

    for (int round = 0; round < ROUNDS || count > 0; round++) {
        x ^= x << 13;
        x ^= x >> 17;
        x ^= x << 5;
        uint8_t order = x % 16 < 12 ? 0 : x % 10;
        if (round < ROUNDS && count < HELD && x & 64) {
            if (llfree_take(handle, order, &frames[count]) != LLFREE_OK)
                continue; /* none was free */
            mark(frames[count], order, 0);
            orders[count++] = order;
        } else if (count > 0) {
            count--;
            mark(frames[count], orders[count], 1);
            if (llfree_give(handle, frames[count], orders[count]) != LLFREE_OK) {
                fputs("a block that was held is refused\n", stderr);
                exit(1);
            }
        }
    }
    return NULL;
}

int main(void)
{
    llfree_core cores[CORES] = { LLFREE_CLOSED };
    pthread_t threads[CORES];
    uint32_t frame;
    int free = 0;

    if (llfree_open(cores, CORES, FRAMES, NULL, 0) != LLFREE_OK) {
        fputs("no memory\n", stderr);
        return 1;
    }
    llfree_seat_all(desks, cores, CORES);
    for (int i = 0; i < CORES; i++)
        if (pthread_create(&threads[i], NULL, work, &desks[i]))
            return 1;
    for (int i = 0; i < CORES; i++)
        pthread_join(threads[i], NULL);

    /* Any core gives what another took. */
    if (llfree_take(&desks[0].core, 3, &frame) == LLFREE_OK) {
        printf("another core gives it: %u\n", llfree_give(&desks[1].core, frame, 3));
        if (llfree_give(&desks[2].core, frame, 3) == LLFREE_NOT_HELD)
            puts("a second give is refused");
    }

    while (llfree_take(&desks[3].core, 9, &frame) == LLFREE_OK)
        free++;
    printf("all %d huge frames are free again\n", free);
    llfree_pool_close(desks, CORES);
    return 0;
}
