/* When takes of several threads are refused: never where each core has a tree, of 4096 frames, of which few
 * are out; and where all share one tree, a take that is made again is had. */
#include "check.h"
#include <pthread.h>
#include <sched.h>
#include <stdatomic.h>

enum { CORES = 4, TREE = 4096, ROUNDS = 100000, TRIES = 100 };

static llfree_core cores[CORES];
static _Atomic unsigned char owner[CORES * TREE];
static _Atomic int arrived;

/* All threads are there before any calls. */
static void meet(void)
{
    atomic_fetch_add(&arrived, 1);
    while (atomic_load(&arrived) < CORES)
        sched_yield();
}

static void hand_back(llfree_core *me, uint32_t frame)
{
    CHECK(atomic_exchange(&owner[frame], 1) == 0);
    CHECK(atomic_exchange(&owner[frame], 0) == 1);
    CHECK(llfree_give(me, frame, 0) == LLFREE_OK);
}

static void *take_once(void *me)
{
    uint32_t frame = 0;

    meet();
    for (int i = 0; i < ROUNDS; i++) {
        CHECK(llfree_take(me, 0, &frame) == LLFREE_OK);
        hand_back(me, frame);
    }
    return NULL;
}

static void *take_again(void *me)
{
    uint32_t frame = 0, status;

    meet();
    for (int i = 0; i < ROUNDS; i++) {
        /* who has the tree in hand may be without a processor */
        while ((status = llfree_take_retry(me, 0, &frame, TRIES)) != LLFREE_OK) {
            CHECK(status == LLFREE_NO_BLOCK || status == LLFREE_CONTENDED);
            sched_yield();
        }
        hand_back(me, frame);
    }
    return NULL;
}

/* Each thread holds at most one frame of the memory; at the end all of it is free. */
static void on_threads(uint32_t frames, void *(*run)(void *))
{
    pthread_t threads[CORES];
    uint32_t frame = 0;

    atomic_store(&arrived, 0);
    CHECK(llfree_open(cores, CORES, frames, NULL, 0) == LLFREE_OK);
    for (int i = 0; i < CORES; i++)
        CHECK(pthread_create(&threads[i], NULL, run, &cores[i]) == 0);
    for (int i = 0; i < CORES; i++)
        CHECK(pthread_join(threads[i], NULL) == 0);
    for (uint32_t i = 0; i < frames / 512; i++)
        CHECK(llfree_take(&cores[i % CORES], LARGEST, &frame) == LLFREE_OK);
    for (int i = 0; i < CORES; i++)
        llfree_close(&cores[i]);
}

/* With nobody else about a take that is made again answers as one that is not. */
static void statuses(void)
{
    llfree_core h = LLFREE_CLOSED;
    uint32_t frame = 77;

    CHECK(llfree_take_retry(&h, 0, &frame, 3) == LLFREE_CLOSED_HANDLE && frame == 77);
    CHECK(llfree_open(&h, 1, 3, NULL, 0) == LLFREE_OK);
    CHECK(llfree_take_retry(&h, 10, &frame, 3) == LLFREE_BAD_ORDER && frame == 77);
    for (uint32_t tries = 0; tries < 3; tries++)
        CHECK(llfree_take_retry(&h, 0, &frame, tries) == LLFREE_OK && frame < 3);
    frame = 77;
    for (uint32_t tries = 0; tries < 3; tries++)
        CHECK(llfree_take_retry(&h, 0, &frame, tries) == LLFREE_NO_BLOCK && frame == 77);
    llfree_close(&h);
}

int main(void)
{
    statuses();
    on_threads(CORES * TREE, take_once);
    on_threads(TREE, take_again);
    puts("all checks passed");
    return 0;
}
