/* The memory of any program out of page frames: jemalloc's extents by its hooks.
 *
 *     LD_PRELOAD="./frames.so libjemalloc.so.2" PROGRAM
 *
 * An extent is a run of pages. What is larger than 1 GiB, or refused, comes from jemalloc's own hooks. Extents are
 * neither split nor merged, so each comes back as it was. At its end each process adds up, and tells in a line of the
 * file that FRAMES_LOG names. */
#define _GNU_SOURCE
#include "frames.h"
#include <jemalloc/jemalloc.h>
#include <pthread.h>
#include <stdlib.h>

enum { FRAMES = 262144 };

/* extents go back to their hooks at once, instead of being kept to be split later */
const char *malloc_conf = "retain:false,dirty_decay_ms:0,muzzy_decay_ms:0";
static extent_hooks_t *others;
static _Atomic unsigned long outside, outside_pages, pages_inside;

static void *takes(extent_hooks_t *hooks, void *wanted, size_t size, size_t alignment, bool *zero, bool *commit,
                   unsigned arena)
{
    void *at = wanted != NULL ? NULL : region_take(size / LLFREE_FRAME_BYTES, alignment / LLFREE_FRAME_BYTES);
    (void)hooks;
    if (at != NULL) {
        atomic_fetch_add(&pages_inside, size / LLFREE_FRAME_BYTES);
        *zero = *commit = true; /* what is given is let go of, below */
        return at;
    }
    if (region_has(wanted))
        return NULL;
    atomic_fetch_add(&outside, 1);
    atomic_fetch_add(&outside_pages, size / LLFREE_FRAME_BYTES);
    return others->alloc(others, wanted, size, alignment, zero, commit, arena);
}

static bool gives(extent_hooks_t *hooks, void *at, size_t size, bool is_committed, unsigned arena)
{
    (void)hooks;
    if (!region_has(at))
        return others->dalloc(others, at, size, is_committed, arena);
    if (madvise(at, size, MADV_DONTNEED) != 0)
        return true;
    region_give(at, size / LLFREE_FRAME_BYTES);
    return false;
}

static void destroys(extent_hooks_t *hooks, void *at, size_t size, bool is_committed, unsigned arena)
{
    (void)gives(hooks, at, size, is_committed, arena);
}

static extent_hooks_t hooks = { .alloc = takes, .dalloc = gives, .destroy = destroys };

static void sit_at_all(void)
{
    llfree_sit_at_all(region.desks, DESKS);
}

static void leave_all(void)
{
    llfree_leave_all(region.desks, DESKS);
}

__attribute__((constructor)) static void begins(void)
{
    unsigned arenas;
    size_t size = sizeof arenas, length = sizeof others;
    extent_hooks_t *new = &hooks;
    char name[64];

    if (!region_open(FRAMES) || mallctl("opt.narenas", &arenas, &size, NULL, 0) != 0 ||
        mallctl("arena.0.extent_hooks", &others, &length, NULL, 0) != 0)
        fails("jemalloc is not here", 0);
    for (unsigned i = 0; i < arenas; i++) {
        snprintf(name, sizeof name, "arena.%u.extent_hooks", i);
        if (mallctl(name, NULL, NULL, &new, sizeof new) != 0)
            fails("an arena keeps its hooks", i);
    }
    pthread_atfork(sit_at_all, leave_all, leave_all);
}

__attribute__((destructor)) static void ends(void)
{
    const char *name = getenv("FRAMES_LOG");
    FILE *log = name == NULL ? NULL : fopen(name, "a");
    unsigned long inside = pages_inside, other = outside_pages;

    if (!region_adds_up())
        fails("out and free are not all", 0);
    if (log == NULL)
        return;
    fprintf(log, "takes %lu gives %lu splits %lu refused %lu too large %lu; held at the end %lu; ", region.takes,
            region.gives, splits, region.refused, region.too_large, region.out.taken - region.out.given);
    fprintf(log, "pages %lu, from elsewhere %lu (%.1f %%) in %lu extents\n", inside, other,
            100.0 * (double)other / (double)(inside + other), outside);
    fclose(log);
}
