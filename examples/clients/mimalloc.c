/* mimalloc out of page frames: its arenas are runs of huge frames, since it wants 32 MiB or more in one piece, and it
 * may ask the system for none. The load is that of stamps.c. It keeps its arenas, so they are given when nobody calls
 * it any more; then all frames are free again. */
#define _GNU_SOURCE
#include "frames.h"
#include <mimalloc.h>
#include <pthread.h>
#include <stdlib.h>

enum { FRAMES = 524288, PAGES = 16 * 512, MOST = FRAMES / PAGES };

static void *arenas[MOST];
static size_t count;
static pthread_mutex_t growth = PTHREAD_MUTEX_INITIALIZER;

/* One more arena, unless another thread has made one since this one was told that there is no room. */
static void grows(size_t seen)
{
    pthread_mutex_lock(&growth);
    if (count == seen) {
        void *at = seen < MOST ? region_take(PAGES, 1) : NULL;
        if (at == NULL || !mi_manage_os_memory(at, (size_t)PAGES * LLFREE_FRAME_BYTES, true, false, true, -1))
            fails("no arena", (uint32_t)seen);
        arenas[count++] = at;
    }
    pthread_mutex_unlock(&growth);
}

static void *changes(void *object, size_t size)
{
    for (;;) {
        size_t seen = __atomic_load_n(&count, __ATOMIC_ACQUIRE);
        void *at = mi_realloc(object, size);
        if (at != NULL && !region_has(at))
            fails("memory from elsewhere", 0);
        if (at != NULL)
            return at;
        grows(seen);
    }
}

static void *allocates(size_t size)
{
    return changes(NULL, size);
}

#define malloc allocates
#define realloc changes
#define free mi_free
#define main load
#include "stamps.c"
#undef main

int main(void)
{
    if (!region_open(FRAMES))
        fails("no memory", 0);
    grows(0);
    mi_option_enable(mi_option_limit_os_alloc);
    if (load() != 0)
        fails("no threads", 0);
    printf("arenas of %d huge frames: %zu, splits %lu\n", PAGES / 512, count, splits);
    fflush(stdout);
    if (!region_adds_up())
        fails("out and free are not all", 0);
    while (count > 0)
        region_give(arenas[--count], PAGES);
    if (!region_adds_up() || region.takes == 0 || region.out.taken != region.out.given)
        fails("not all frames are free again", 0);
    _exit(0);
}
