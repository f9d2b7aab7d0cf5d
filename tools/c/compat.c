/* A program by the names of llfree-c, on threads: what is had over this library, and what is refused. */
#include "check.h"
#include "llfree_compat.h"
#include <pthread.h>
#include <stdatomic.h>

enum { CORES = 4, END = 20 * 512 + 77, HELD = 40, ROUNDS = 20000 };

static llfree_t self;
static _Atomic unsigned char owner[END];

/* As a program for llfree-c opens one: with buffers of the sizes that it is told. */
static llfree_result_t open_as(size_t cores, size_t frames, uint8_t init)
{
    llfree_meta_size_t size = llfree_metadata_size(cores, frames);
    llfree_meta_t meta = { aligned_alloc(LLFREE_ALIGN, size.local), aligned_alloc(LLFREE_ALIGN, size.trees),
                           aligned_alloc(LLFREE_ALIGN, size.lower) };

    CHECK(meta.local && meta.trees && meta.lower);
    memset(&self, 0xa5, sizeof self);
    llfree_result_t result = llfree_init(&self, cores, frames, init, meta);
    free(meta.local);
    free(meta.trees);
    free(meta.lower);
    return result;
}

static void openings(void)
{
    static const struct {
        size_t cores, frames;
        uint8_t init;
        int64_t val;
    } rows[] = {
        { 1, 1, LLFREE_INIT_FREE, LLFREE_ERR_OK },          { 64, END, LLFREE_INIT_FREE, LLFREE_ERR_OK },
        { 0, END, LLFREE_INIT_FREE, LLFREE_ERR_INIT },      { 65, END, LLFREE_INIT_FREE, LLFREE_ERR_INIT },
        { 1, 0, LLFREE_INIT_FREE, LLFREE_ERR_INIT },        { 1, 0, LLFREE_INIT_ALLOC, LLFREE_ERR_INIT },
        { 1, 2097153, LLFREE_INIT_FREE, LLFREE_ERR_OK },    { 1, (size_t)1 << 32, LLFREE_INIT_FREE, LLFREE_ERR_INIT },
        { 1, 2147483649u, LLFREE_INIT_FREE, LLFREE_ERR_INIT },
        { 1, END, LLFREE_INIT_RECOVER, LLFREE_ERR_INIT },   { 1, END, LLFREE_INIT_NONE, LLFREE_ERR_INIT },
        { 1, 2147483649u, LLFREE_INIT_ALLOC, LLFREE_ERR_INIT },
        { 0, END, LLFREE_INIT_ALLOC, LLFREE_ERR_INIT },
    };

    for (size_t i = 0; i < sizeof rows / sizeof *rows; i++) {
        CHECK(open_as(rows[i].cores, rows[i].frames, rows[i].init).val == rows[i].val);
        CHECK(llfree_frames(&self) == (rows[i].val == 0 ? rows[i].frames : 0));
        CHECK(llfree_cores(&self) == (rows[i].val == 0 ? rows[i].cores : 0));
        CHECK(llfree_ok(llfree_get(&self, 3, llflags(0))) == (rows[i].val == 0));
        CHECK(rows[i].val == 0 || llfree_put(&self, 0, 0, llflags(0)).val == LLFREE_ERR_INIT);
        llfree_end(&self);
        CHECK(llfree_get(&self, 0, llflags(0)).val == LLFREE_ERR_INIT);
    }
}

/* All is held, is put frame by frame and block by block, and is free then. */
static void all_held(size_t frames)
{
    CHECK(llfree_ok(open_as(2, frames, LLFREE_INIT_ALLOC)));
    for (size_t order = 0; order <= LLFREE_MAX_ORDER; order++)
        CHECK(llfree_get(&self, order, llflags(order)).val == LLFREE_ERR_MEMORY);
    for (uint64_t f = 0; f < frames;) {
        size_t order = f % 512 == 0 && f / 512 % 2 == 0 && f + 512 <= frames ? LLFREE_HUGE_ORDER : 0;
        CHECK(llfree_put(&self, f, f, llflags(order)).val == LLFREE_ERR_OK);
        CHECK(llfree_put(&self, f, f, llflags(order)).val == LLFREE_ERR_ADDRESS);
        f += (uint64_t)1 << order;
    }
    for (size_t f = 0; f < frames; f++)
        CHECK(llfree_ok(llfree_get(&self, f, llflags(0))));
    CHECK(llfree_get(&self, 0, llflags(0)).val == LLFREE_ERR_MEMORY);
    llfree_end(&self);
}

static void puts_of_parts(void)
{
    llfree_core ours = LLFREE_CLOSED;

    CHECK(llfree_ok(open_as(2, END, LLFREE_INIT_FREE)));
    llfree_result_t huge = llfree_get(&self, 0, llflags(9));
    CHECK(llfree_ok(huge) && huge.val % 512 == 0);
    uint64_t first = (uint64_t)huge.val;
    CHECK(llfree_get(&self, 0, llflags(10)).val == LLFREE_ERR_ADDRESS);
    /* what is no block splits nothing */
    CHECK(llfree_put(&self, 0, first + 1, llflags(1)).val == LLFREE_ERR_ADDRESS);
    CHECK(llfree_put(&self, 0, first, llflags(9)).val == LLFREE_ERR_OK);
    huge = llfree_get(&self, 0, llflags(9));
    CHECK(llfree_ok(huge));
    first = (uint64_t)huge.val;
    CHECK(llfree_result_of(LLFREE_CONTENDED).val == LLFREE_ERR_RETRY);
    CHECK(llfree_get(&self, 0, llflags(100000)).val == LLFREE_ERR_ADDRESS);
    CHECK(llfree_put(&self, 1, END, llflags(0)).val == LLFREE_ERR_ADDRESS);
    CHECK(llfree_put(&self, 1, first, llflags(10)).val == LLFREE_ERR_ADDRESS);
    CHECK(llfree_put(&self, 1, first + 1, llflags(1)).val == LLFREE_ERR_ADDRESS);
    CHECK(llfree_put(&self, 1, first + ((uint64_t)1 << 32), llflags(9)).val == LLFREE_ERR_ADDRESS);
    /* refused puts leave it whole */
    CHECK(llfree_put(&self, 1, first + 77, llflags(0)).val == LLFREE_ERR_OK);
    CHECK(llfree_put(&self, 0, first + 77, llflags(0)).val == LLFREE_ERR_ADDRESS);
    CHECK(llfree_put(&self, 0, first, llflags(9)).val == LLFREE_ERR_ADDRESS);
    CHECK(llfree_put(&self, 0, first + 256, llflags(8)).val == LLFREE_ERR_OK);
    for (uint64_t f = first; f < first + 256; f++)
        CHECK(llfree_ok(llfree_put(&self, f, f, llflags(0))) == (f != first + 77));
    /* both calls of the one name */
    CHECK(llfree_frames(&self) == END && llfree_frames(&ours) == 0 && llfree_frames(&self.core[1].handle) == END);
    llfree_end(&self);
}

static void gets_at(void)
{
    static const struct {
        uint64_t frame;
        size_t order;
    } none[] = { { END, 0 }, { 1, 1 }, { 511, 9 }, { 0, 10 }, { 0, 100000 }, { END - 1, 1 }, { END / 512 * 512, 9 },
                 { (uint64_t)1 << 32, 0 }, { UINT64_MAX, 0 } };

    CHECK(llfree_ok(open_as(2, END, LLFREE_INIT_FREE)));
    for (size_t i = 0; i < sizeof none / sizeof *none; i++)
        CHECK(llfree_get_at(&self, i, none[i].frame, llflags(none[i].order)).val == LLFREE_ERR_ADDRESS);
    for (size_t order = 0; order <= LLFREE_MAX_ORDER; order++)
        for (uint64_t f = 0; f + (1u << order) <= END; f += 512) {
            CHECK(llfree_get_at(&self, order, f, llflags(order)).val == (int64_t)f);
            CHECK(llfree_get_at(&self, order, f, llflags(order / 2)).val == LLFREE_ERR_MEMORY);
            CHECK(llfree_put(&self, f, f, llflags(order)).val == LLFREE_ERR_OK);
        }
    for (uint64_t f = 0; f < END; f++)
        CHECK(llfree_get_at(&self, f, f, llflags(0)).val == (int64_t)f);
    CHECK(llfree_get(&self, 0, llflags(0)).val == LLFREE_ERR_MEMORY);
    llfree_end(&self);
    CHECK(llfree_get_at(&self, 0, 0, llflags(0)).val == LLFREE_ERR_INIT);
}

static void mark(uint64_t frame, uint8_t order, unsigned char from)
{
    for (uint64_t f = frame; f < frame + (1u << order); f++)
        CHECK(atomic_exchange(&owner[f], !from) == from);
}

static void *work(void *number)
{
    size_t core = (size_t)(uintptr_t)number, count = 0;
    uint64_t random = core + 77, frames[HELD];
    uint8_t orders[HELD];

    for (int round = 0; round < ROUNDS || count > 0; round++) {
        uint64_t r = next_random(&random);
        if (round < ROUNDS && count < HELD && r & 64) {
            uint8_t order = r % 16 < 12 ? 0 : r % 10;
            uint64_t place = (r >> 32) % (END - 512) >> order << order;
            llfree_result_t result = r & 1 << 20 ? llfree_get(&self, core, llflags(order)) :
                                                   llfree_get_at(&self, core, place, llflags(order));
            if (!llfree_ok(result))
                continue;
            mark((uint64_t)result.val, order, 0);
            frames[count] = (uint64_t)result.val;
            orders[count++] = order;
        } else if (count > 0) {
            size_t at = r / 128 % count;
            mark(frames[at], orders[at], 1);
            CHECK(llfree_ok(llfree_put(&self, core, frames[at], llflags(orders[at]))));
            frames[at] = frames[--count];
            orders[at] = orders[count];
        }
    }
    return NULL;
}

int main(void)
{
    pthread_t threads[CORES];

    openings();
    all_held(END);
    all_held(3 * 512);
    all_held(1);
    puts_of_parts();
    gets_at();
    CHECK(llfree_ok(open_as(CORES, END, LLFREE_INIT_FREE)));
    for (size_t i = 0; i < CORES; i++)
        CHECK(pthread_create(&threads[i], NULL, work, (void *)(uintptr_t)i) == 0);
    for (size_t i = 0; i < CORES; i++)
        CHECK(pthread_join(threads[i], NULL) == 0);
    for (size_t i = 0; i < 20; i++)
        CHECK(llfree_ok(llfree_get(&self, i, llflags(9))));
    CHECK(llfree_get(&self, 0, llflags(9)).val == LLFREE_ERR_MEMORY);
    llfree_end(&self);
    return 0;
}
