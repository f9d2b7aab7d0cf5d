/* The library for C with a handle for each core: every status, blocks that cross between threads,
 * wrong numbers under way, and races of threads for one give. */
#include "check.h"
#include <pthread.h>
#include <stdatomic.h>

enum { CORES = 4, CHILDREN = 32, FRAMES = CHILDREN * 512 };
enum { HELD = 200, ROUNDS = 60000, CROSSING = 256, RACES = 200, MOST_CORES = 1024 };

static llfree_core cores[CORES];
static _Atomic unsigned char owner[FRAMES];
static _Atomic uint64_t crossing[CROSSING];

/* Each status of each call, with nobody else about. */
static void statuses(void)
{
    llfree_core h[2] = { LLFREE_CLOSED, LLFREE_CLOSED };
    uint32_t f = 77, g = 77;
    uint8_t order = 77;

    CHECK(llfree_take(&h[0], 0, &f) == LLFREE_CLOSED_HANDLE && f == 77);
    CHECK(llfree_give(&h[0], 0, 0) == LLFREE_CLOSED_HANDLE);
    CHECK(llfree_split(&h[0], 0, 1) == LLFREE_CLOSED_HANDLE);
    CHECK(llfree_split_to(&h[0], 0, 1, 0) == LLFREE_CLOSED_HANDLE);
    CHECK(llfree_order_at(&h[0], 0, &order) == LLFREE_CLOSED_HANDLE && order == 77);
    llfree_close(&h[0]);
    CHECK(llfree_open(h, 0, 3 * 512, NULL, 0) == LLFREE_BAD_GEOMETRY);
    CHECK(llfree_open(h, 2, 0, NULL, 0) == LLFREE_BAD_GEOMETRY);
    CHECK(llfree_open(h, 2, 2147483649u, NULL, 0) == LLFREE_BAD_GEOMETRY);
    CHECK(llfree_open(h, 2, UINT32_MAX, NULL, 0) == LLFREE_BAD_GEOMETRY);
    CHECK(llfree_open(h + 1, 1, 512, NULL, 0) == LLFREE_OK);
    CHECK(llfree_open(h, 2, 3 * 512, NULL, 0) == LLFREE_OPEN_HANDLE);
    CHECK(llfree_take(&h[0], 0, &f) == LLFREE_CLOSED_HANDLE);
    llfree_close(&h[1]);
    CHECK(llfree_open(h, 2, 3 * 512, NULL, 0) == LLFREE_OK);
    CHECK(llfree_take(&h[0], 10, &f) == LLFREE_BAD_ORDER && f == 77);
    CHECK(llfree_take(&h[0], 255, &f) == LLFREE_BAD_ORDER && f == 77);
    CHECK(llfree_take(&h[0], 3, &f) == LLFREE_OK && f % 8 == 0 && f < 3 * 512);
    CHECK(llfree_give(&h[1], f, 2) == LLFREE_NOT_HELD);
    CHECK(llfree_give(&h[1], f + 1, 0) == LLFREE_NOT_HELD);
    CHECK(llfree_give(&h[1], f, 200) == LLFREE_NOT_HELD);
    CHECK(llfree_give(&h[1], UINT32_MAX, 3) == LLFREE_NOT_HELD);
    CHECK(llfree_split(&h[1], f, 2) == LLFREE_NOT_HELD);
    CHECK(llfree_split(&h[1], f, 0) == LLFREE_BAD_ORDER);
    for (int of = 0; of < 256; of++)
        for (int to = 0; to < 256; to++) {
            bool has_parts = of <= LARGEST && to <= of;
            CHECK(of == 3 || llfree_split_to(&h[1], f, (uint8_t)of, (uint8_t)to) ==
                                 (has_parts ? LLFREE_NOT_HELD : LLFREE_BAD_ORDER));
            CHECK(llfree_split_to(&h[1], f + 8, (uint8_t)of, (uint8_t)to) ==
                  (has_parts ? LLFREE_NOT_HELD : LLFREE_BAD_ORDER));
        }
    CHECK(llfree_split_to(&h[1], f, 3, 4) == LLFREE_BAD_ORDER);
    CHECK(llfree_split_to(&h[1], f, 3, 3) == LLFREE_OK);
    CHECK(llfree_split_to(&h[1], UINT32_MAX, 3, 0) == LLFREE_NOT_HELD);
    CHECK(llfree_order_at(&h[1], f, &order) == LLFREE_OK && order == 3);
    order = 77;
    for (uint32_t at = 0; at < 4 * 512; at++)
        CHECK(at == f || (llfree_order_at(&h[0], at, &order) == LLFREE_NOT_HELD && order == 77));
    CHECK(llfree_order_at(&h[0], UINT32_MAX, &order) == LLFREE_NOT_HELD && order == 77);
    CHECK(llfree_take(&h[1], LARGEST, &g) == LLFREE_OK && g % 512 == 0);
    CHECK(llfree_give(&h[1], f, 3) == LLFREE_OK);
    CHECK(llfree_give(&h[0], f, 3) == LLFREE_NOT_HELD);
    CHECK(llfree_give(&h[0], g, LARGEST) == LLFREE_OK);
    llfree_close(&h[0]);
    CHECK(llfree_take(&h[1], 0, &f) == LLFREE_OK);
    llfree_close(&h[1]);
    llfree_close(&h[1]);
}

/* As many cores as there may be: each takes frames of its own, and another gives them. */
static void most_cores(void)
{
    static llfree_core many[MOST_CORES + 1];
    static uint32_t singles[MOST_CORES], blocks[MOST_CORES];
    static unsigned char held[FRAMES];

    CHECK(llfree_open(many, MOST_CORES + 1, FRAMES, NULL, 0) == LLFREE_BAD_GEOMETRY);
    CHECK(llfree_words(FRAMES, MOST_CORES + 1) == 0);
    CHECK(llfree_open(many, MOST_CORES, FRAMES, NULL, 0) == LLFREE_OK);
    for (uint32_t i = 0; i < MOST_CORES; i++) {
        CHECK(llfree_take(&many[i], 0, &singles[i]) == LLFREE_OK && singles[i] < FRAMES && !held[singles[i]]++);
        CHECK(llfree_take(&many[i], 3, &blocks[i]) == LLFREE_OK && blocks[i] % 8 == 0 && blocks[i] < FRAMES);
        for (uint32_t at = blocks[i]; at < blocks[i] + 8; at++)
            CHECK(!held[at]++);
    }
    CHECK(llfree_free_frames(&many[0]) == FRAMES - 9 * MOST_CORES);
    for (uint32_t i = 0; i < MOST_CORES; i++) {
        CHECK(llfree_give(&many[MOST_CORES - 1 - i], singles[i], 0) == LLFREE_OK);
        CHECK(llfree_give(&many[MOST_CORES - 1 - i], singles[i], 0) == LLFREE_NOT_HELD);
        CHECK(llfree_give(&many[i], blocks[i], 3) == LLFREE_OK);
    }
    CHECK(llfree_free_frames(&many[MOST_CORES - 1]) == FRAMES);
    for (uint32_t i = 0; i < MOST_CORES; i++)
        llfree_close(&many[i]);
}

/* A memory that ends inside a child, with ranges: just the other frames are given out, once, and blocks
 * of every order are given beside the holes. */
static void holes(void)
{
    enum { END = 5 * 512 + 77 };
    static const llfree_range kept[] = { { 0, 1 }, { 600, 8 }, { 1024, 512 }, { END - 3, 2 } };
    static const llfree_range bad[] = { { 3, 2 }, { 4, 1 } };
    static unsigned char held_back[END], seen[END];
    llfree_core h[2] = { LLFREE_CLOSED, LLFREE_CLOSED };
    uint32_t f = 0;

    for (size_t i = 0; i < 4; i++)
        memset(held_back + kept[i].first, 1, kept[i].frames);
    CHECK(llfree_frames(&h[0]) == 0);
    CHECK(llfree_open(h, 2, END, bad, 2) == LLFREE_BAD_RANGE);
    CHECK(llfree_open(h, 2, 4, bad, 1) == LLFREE_BAD_RANGE);
    CHECK(llfree_open(h, 2, 5, bad, 1) == LLFREE_OK);
    CHECK(llfree_frames(&h[1]) == 5);
    llfree_close(&h[0]);
    llfree_close(&h[1]);
    CHECK(llfree_open(h, 2, END, kept, 4) == LLFREE_OK);
    CHECK(llfree_frames(&h[0]) == END && llfree_frames(&h[1]) == END);
    for (f = 0; f < END; f++)
        for (uint8_t order = 0; order <= LARGEST; order++)
            CHECK(llfree_give(&h[0], f, order) == LLFREE_NOT_HELD);
    for (uint8_t order = 0; order <= LARGEST; order++) {
        uint32_t blocks = 0;
        memcpy(seen, held_back, END);
        while (llfree_take(&h[blocks % 2], order, &f) == LLFREE_OK) {
            CHECK(f % (1u << order) == 0 && f + (1u << order) <= END);
            for (uint32_t i = f; i < f + (1u << order); i++)
                CHECK(!seen[i]++);
            blocks++;
        }
        /* no aligned block is left over, and each is given */
        for (f = 0; f + (1u << order) <= END; f += 1u << order) {
            bool hole = false;
            for (uint32_t i = f; i < f + (1u << order); i++)
                hole |= held_back[i];
            CHECK(llfree_give(&h[1], f, order) == (hole ? LLFREE_NOT_HELD : LLFREE_OK));
            blocks -= !hole;
        }
        CHECK(blocks == 0);
    }
    llfree_close(&h[0]);
    llfree_close(&h[1]);
}

/* The frames that a test holds by blocks below order 9, and the children that it holds whole. */
static unsigned char held[8 * 512], whole[8];

static void hold(uint32_t f, uint8_t order, unsigned char is_held)
{
    if (order == LARGEST)
        whole[f / 512] = is_held;
    else
        memset(held + f, is_held, 1u << order);
}

static void take_and_hold(llfree_core *core, uint8_t order, uint32_t *f)
{
    CHECK(llfree_take(core, order, f) == LLFREE_OK);
    hold(*f, order, 1);
}

/* The numbers say what is held, frame by frame, and count what is not. */
static void check_image(const uint64_t *words, uint32_t children)
{
    for (uint32_t child = 0; child < children; child++) {
        uint32_t free = 0;
        for (uint32_t i = 0; i < 512; i++) {
            CHECK((words[9 * child + 1 + i / 64] >> i % 64 & 1) == held[512 * child + i]);
            free += !held[512 * child + i];
        }
        CHECK(words[9 * child] == (whole[child] ? 32768 : free));
    }
}

/* The image that the last of three cores leaves, which took, gave and split what the others did. */
static void images(void)
{
    enum { END = 6 * 512 + 77, WORDS = 9 * 7 };
    static const llfree_range kept[] = { { 3, 2 }, { 600, 8 }, { END - 3, 2 } };
    static uint64_t words[WORDS + 1];
    llfree_core h[3] = { LLFREE_CLOSED, LLFREE_CLOSED, LLFREE_CLOSED };
    uint32_t f[LARGEST + 1], g = 0, huge = 0;

    CHECK(llfree_close_image(&h[0], words, WORDS) == LLFREE_CLOSED_HANDLE);
    CHECK(llfree_open(h, 3, END, kept, 3) == LLFREE_OK);
    for (size_t i = 0; i < 3; i++)
        memset(held + kept[i].first, 1, kept[i].frames);
    memset(held + END, 1, sizeof held - END);
    for (uint8_t order = 0; order <= LARGEST; order++)
        take_and_hold(&h[order % 3], order, &f[order]);
    /* one huge frame is split, and a part of it given; another one is given whole */
    take_and_hold(&h[1], LARGEST, &huge);
    CHECK(llfree_split(&h[2], huge, LARGEST) == LLFREE_OK);
    hold(huge, LARGEST, 0);
    hold(huge, 8, 1);
    CHECK(llfree_give(&h[0], huge + 256, 8) == LLFREE_OK);
    take_and_hold(&h[0], LARGEST, &g);
    CHECK(llfree_give(&h[2], g, LARGEST) == LLFREE_OK);
    hold(g, LARGEST, 0);
    for (uint8_t order = 1; order < LARGEST; order += 3) {
        CHECK(llfree_give(&h[2], f[order], order) == LLFREE_OK);
        hold(f[order], order, 0);
    }
    memset(words, 0xa5, sizeof words);
    llfree_close(&h[1]);
    CHECK(llfree_close_image(&h[2], words, WORDS) == LLFREE_CORES_OPEN);
    CHECK(llfree_close_image(&h[0], words, WORDS) == LLFREE_CORES_OPEN);
    CHECK(llfree_close_image(&h[0], words, WORDS - 1) == LLFREE_NO_ROOM);
    CHECK(llfree_close_image(&h[1], words, WORDS) == LLFREE_CLOSED_HANDLE);
    /* nothing changed: each of the two takes and gives */
    take_and_hold(&h[0], 2, &g);
    take_and_hold(&h[2], 1, &g);
    CHECK(llfree_give(&h[0], g, 1) == LLFREE_OK);
    hold(g, 1, 0);
    llfree_close(&h[0]);
    CHECK(llfree_close_image(&h[2], words, WORDS - 1) == LLFREE_NO_ROOM);
    CHECK(llfree_close_image(&h[2], NULL, 0) == LLFREE_NO_ROOM);
    CHECK(words[0] == 0xa5a5a5a5a5a5a5a5 && llfree_frames(&h[2]) == END);
    take_and_hold(&h[2], 0, &g);
    CHECK(llfree_close_image(&h[2], words, WORDS + 1) == LLFREE_OK);
    CHECK(words[WORDS] == 0xa5a5a5a5a5a5a5a5);
    CHECK(llfree_close_image(&h[2], words, WORDS) == LLFREE_CLOSED_HANDLE);
    CHECK(llfree_frames(&h[2]) == 0);
    check_image(words, 7);
}

/* Every frame is given out once, of a memory whose last tree is smaller than the others. */
static void every_frame_once(void)
{
    enum { ALL = 11 * 512 };
    static unsigned char seen[ALL];
    llfree_core h[2] = { LLFREE_CLOSED, LLFREE_CLOSED };
    uint32_t f = 0;

    CHECK(llfree_open(h, 2, ALL, NULL, 0) == LLFREE_OK);
    for (int i = 0; i < ALL; i++) {
        CHECK(llfree_take(&h[i % 2], 0, &f) == LLFREE_OK && f < ALL && !seen[f]);
        seen[f] = 1;
    }
    for (uint8_t order = 0; order <= LARGEST; order++)
        CHECK(llfree_take(&h[0], order, &f) == LLFREE_NO_BLOCK);
    for (uint32_t i = 0; i < ALL; i++)
        CHECK(llfree_give(&h[i / 7 % 2], i, 0) == LLFREE_OK);
    for (int i = 0; i < 11; i++)
        CHECK(llfree_take(&h[i % 2], LARGEST, &f) == LLFREE_OK);
    CHECK(llfree_take(&h[0], 0, &f) == LLFREE_NO_BLOCK);
    llfree_close(&h[0]);
    llfree_close(&h[1]);
}

/* A memory that ends anywhere in a child opens, its last frame held back or not, and gives each other frame out. */
static void sizes(void)
{
    for (uint32_t frames = 1; frames < 1100; frames += frames < 40 || frames % 512 < 5 || frames % 512 > 506 ? 1 : 37)
        for (size_t count = 0; count <= (frames > 1); count++) {
            llfree_core h = LLFREE_CLOSED;
            llfree_range last = { frames - 1, 1 };
            uint32_t f = 0, taken = 0;
            CHECK(llfree_open(&h, 1, frames, &last, count) == LLFREE_OK);
            while (llfree_take(&h, 0, &f) == LLFREE_OK && f < frames - count)
                taken++;
            CHECK(taken == frames - count);
            llfree_close(&h);
        }
}

/* A huge frame is split by two cores down to single frames, and joined by giving them. */
static void splits(void)
{
    llfree_core h[2] = { LLFREE_CLOSED, LLFREE_CLOSED };
    uint32_t f = 0;

    CHECK(llfree_open(h, 2, 512, NULL, 0) == LLFREE_OK);
    CHECK(llfree_take(&h[0], LARGEST, &f) == LLFREE_OK && f == 0);
    for (uint8_t order = LARGEST; order > 0; order--) {
        CHECK(llfree_split(&h[order % 2], 0, order) == LLFREE_OK);
        CHECK(llfree_give(&h[0], 0, order) == LLFREE_NOT_HELD);
        CHECK(llfree_give(&h[1], 1u << (order - 1), order - 1) == LLFREE_OK);
    }
    CHECK(llfree_give(&h[0], 0, 0) == LLFREE_OK);
    CHECK(llfree_take(&h[1], LARGEST, &f) == LLFREE_OK && f == 0);
    llfree_close(&h[0]);
    llfree_close(&h[1]);
}

/* A block of each order is split into all its blocks of each order below: just these are held then, and any core gives
 * each of them once, or splits it on. At the end all is free. */
static void splits_to(void)
{
    llfree_core h[2] = { LLFREE_CLOSED, LLFREE_CLOSED };
    uint32_t f = 0, g = 0;
    uint8_t seen = 0;

    CHECK(llfree_open(h, 2, 2 * 512, NULL, 0) == LLFREE_OK);
    for (uint8_t order = 0; order <= LARGEST; order++)
        for (uint8_t to = 0; to <= order; to++) {
            CHECK(llfree_take(&h[0], order, &f) == LLFREE_OK);
            CHECK(llfree_split_to(&h[1], f, order, to) == LLFREE_OK);
            CHECK(llfree_free_frames(&h[0]) == 2 * 512 - (1u << order));
            for (g = f; g < f + (1u << order); g++)
                CHECK((g - f) % (1u << to) == 0 ? llfree_order_at(&h[g % 2], g, &seen) == LLFREE_OK && seen == to :
                                                  llfree_order_at(&h[g % 2], g, &seen) == LLFREE_NOT_HELD);
            for (uint8_t of = 0; of <= LARGEST; of++)
                if (of != to)
                    for (g = f; g < f + (1u << order); g++)
                        CHECK(llfree_give(&h[0], g, of) == LLFREE_NOT_HELD);
            for (g = f; g < f + (1u << order); g++)
                if ((g - f) % (1u << to) != 0)
                    CHECK(llfree_give(&h[0], g, to) == LLFREE_NOT_HELD);
            CHECK(llfree_split_to(&h[0], f, order, to) == (order == to ? LLFREE_OK : LLFREE_NOT_HELD));
            for (g = f; g < f + (1u << order); g += 1u << to) {
                uint8_t least = (uint8_t)(g / (1u << to) % (to + 1));
                CHECK(llfree_split_to(&h[1], g, to, least) == LLFREE_OK);
                for (uint32_t i = g; i < g + (1u << to); i += 1u << least) {
                    CHECK(llfree_give(&h[i % 2], i, least) == LLFREE_OK);
                    CHECK(llfree_give(&h[i % 2], i, least) == LLFREE_NOT_HELD);
                }
            }
            CHECK(llfree_free_frames(&h[1]) == 2 * 512 && llfree_free_huge(&h[0]) == 2);
        }
    llfree_close(&h[0]);
    llfree_close(&h[1]);
}

static void mark(uint32_t f, uint8_t order, unsigned char from)
{
    CHECK(order <= LARGEST && f % (1u << order) == 0 && f + (1u << order) <= FRAMES);
    for (uint32_t i = f; i < f + (1u << order); i++)
        CHECK(atomic_exchange(&owner[i], !from) == from);
}

static void give(llfree_core *me, uint32_t f, uint8_t order)
{
    mark(f, order, 1);
    CHECK(llfree_give(me, f, order) == LLFREE_OK);
}

static void *work(void *handle)
{
    llfree_core *me = handle;
    uint64_t x = 88172645463325252ull + (uint64_t)(me - cores) * 7919;
    uint32_t frames[HELD + 1];
    uint8_t orders[HELD + 1];
    int n = 0;

    for (int round = 0; round < ROUNDS; round++) {
        next_random(&x);
        uint8_t order = x % 16 < 12 ? 0 : x % 10;
        if (n < HELD && (x >> 20) % 2) {
            uint32_t f = 0, status = llfree_take(me, order, &f);
            CHECK(status == LLFREE_OK || status == LLFREE_NO_BLOCK || status == LLFREE_CONTENDED);
            if (status != LLFREE_OK)
                continue;
            mark(f, order, 0);
            frames[n] = f;
            orders[n++] = order;
        } else if (n > 0) {
            int i = (x >> 24) % n;
            uint32_t f = frames[i];
            uint8_t of = orders[i];
            frames[i] = frames[--n];
            orders[i] = orders[n];
            /* wrong numbers: another order, and a frame past the end */
            if ((x >> 52) % 8 == 0)
                CHECK(llfree_give(me, f, of + 1) == LLFREE_NOT_HELD);
            CHECK(llfree_give(me, f + FRAMES, of) == LLFREE_NOT_HELD);
            if (of > 0 && (x >> 36) % 4 == 0) {
                CHECK(llfree_split(me, f, of) == LLFREE_OK);
                CHECK(llfree_split(me, f, of) == LLFREE_NOT_HELD);
                give(me, f + (1u << (of - 1)), of - 1);
                of--;
            }
            /* it goes to another thread, or is given here: what was left there before is given then */
            if ((x >> 40) % 4 == 0) {
                uint64_t put = ((uint64_t)f << 8 | of) + 1;
                uint64_t old = atomic_exchange(&crossing[(x >> 42) % CROSSING], put);
                if (!old)
                    continue;
                f = (uint32_t)((old - 1) >> 8);
                of = (uint8_t)(old - 1);
            }
            give(me, f, of);
        }
    }
    while (n > 0) {
        n--;
        give(me, frames[n], orders[n]);
    }
    return NULL;
}

static void on_threads(void *(*run)(void *))
{
    pthread_t threads[CORES];

    for (int i = 0; i < CORES; i++)
        CHECK(pthread_create(&threads[i], NULL, run, &cores[i]) == 0);
    for (int i = 0; i < CORES; i++)
        CHECK(pthread_join(threads[i], NULL) == 0);
}

/* Four threads; at the end all is free. A handle that another thread used may be moved. */
static void threads(void)
{
    llfree_core moved;
    uint32_t f = 0;

    CHECK(llfree_open(cores, CORES, FRAMES, NULL, 0) == LLFREE_OK);
    on_threads(work);
    for (int i = 0; i < CROSSING; i++) {
        uint64_t put = atomic_load(&crossing[i]);
        if (put)
            give(&cores[i % CORES], (uint32_t)((put - 1) >> 8), (uint8_t)(put - 1));
    }
    for (int i = 0; i < CHILDREN; i++)
        CHECK(llfree_take(&cores[i % CORES], LARGEST, &f) == LLFREE_OK);
    CHECK(llfree_take(&cores[0], 0, &f) == LLFREE_NO_BLOCK);
    for (int i = 1; i < CHILDREN; i++)
        CHECK(llfree_give(&cores[i % CORES], 512u * i, LARGEST) == LLFREE_OK);
    memcpy(&moved, &cores[1], sizeof moved);
    memset(&cores[1], 0, sizeof cores[1]);
    CHECK(llfree_give(&moved, 0, LARGEST) == LLFREE_OK);
    memcpy(&cores[1], &moved, sizeof moved);
}

static _Atomic int given, split, arrived;
static uint32_t target;
static int splitting, turn; /* not at all, into halves, or into single frames; by whom */

/* All threads are there before any calls. */
static void meet(void)
{
    atomic_fetch_add(&arrived, 1);
    while (atomic_load(&arrived) < CORES)
        ;
}

static void *race(void *handle)
{
    meet();
    if (splitting == 0 || ((llfree_core *)handle - cores + turn) % 2)
        atomic_fetch_add(&given, llfree_give(handle, target, 4) == LLFREE_OK);
    else if (splitting == 1)
        atomic_fetch_add(&split, llfree_split(handle, target, 4) == LLFREE_OK);
    else
        atomic_fetch_add(&split, llfree_split_to(handle, target, 4, 0) == LLFREE_OK);
    return NULL;
}

static void *race_for_single(void *handle)
{
    bool rests = ((llfree_core *)handle - cores + turn) % 2;

    meet();
    enum llfree_status status = rests ? llfree_give_number(handle, target) : llfree_give(handle, target, 0);
    atomic_fetch_add(&given, status == LLFREE_OK);
    return NULL;
}

/* Threads race for one give, gives for a split, and gives of a frame for one that lets it rest: exactly one has it. At
 * the end nothing is held. */
static void races(void)
{
    static uint64_t words[9 * CHILDREN];
    int splits[3] = { 0, 0, 0 };

    for (int i = 0; i < RACES; i++) {
        splitting = i % 3;
        turn = i;
        given = split = arrived = 0;
        CHECK(llfree_take(&cores[i % CORES], 4, &target) == LLFREE_OK);
        on_threads(race);
        CHECK(given + split == 1);
        splits[splitting] += split;
        uint32_t size = splitting == 2 ? 1 : 8;
        for (uint32_t f = target; split == 1 && f < target + 16; f += size)
            CHECK(llfree_give(&cores[f / size % CORES], f, size == 1 ? 0 : 3) == LLFREE_OK);
        for (uint32_t f = target; f < target + 16; f++)
            for (uint8_t order = 0; order <= 4; order++)
                CHECK(llfree_give(&cores[2], f, order) == LLFREE_NOT_HELD);
    }
    CHECK(splits[0] == 0 && splits[1] > 0 && splits[2] > 0);
    for (turn = 0; turn < RACES; turn++) {
        given = arrived = 0;
        CHECK(llfree_take_number(&cores[turn % CORES], &target) == LLFREE_OK);
        on_threads(race_for_single);
        CHECK(given == 1 && llfree_give_number(&cores[turn % CORES], target) == LLFREE_NOT_HELD);
    }
    for (int i = 1; i < CORES; i++)
        llfree_close(&cores[i]);
    CHECK(llfree_close_image(&cores[0], words, 9 * CHILDREN) == LLFREE_OK);
    for (int i = 0; i < 9 * CHILDREN; i++)
        CHECK(words[i] == (i % 9 == 0 ? 512 : 0));
}

/* A million calls with numbers at random, by one thread through two cores. What is held is remembered
 * beside: a block of an order begins at a frame where begins[frame] is the order and 1. */
static void random_numbers(void)
{
    enum { ALL = 4 * 512 };
    static unsigned char begins[ALL], taken[ALL];
    uint64_t x = 2463534242ull;
    llfree_core h[2] = { LLFREE_CLOSED, LLFREE_CLOSED };

    CHECK(llfree_open(h, 2, ALL, NULL, 0) == LLFREE_OK);
    for (int round = 0; round < 1000000; round++) {
        next_random(&x);
        llfree_core *me = &h[(x >> 60) % 2];
        uint8_t order = (uint8_t)((x >> 8) % 12);
        uint32_t f = (x >> 16) % 8 == 0 ? (uint32_t)(x >> 20) : (uint32_t)(x >> 20) % ALL;
        uint32_t size = order <= LARGEST ? 1u << order : 0;
        bool is_out = f < ALL && order <= LARGEST && begins[f] == order + 1;
        uint8_t seen = 77;
        if (f < ALL && begins[f] != 0)
            CHECK(llfree_order_at(me, f, &seen) == LLFREE_OK && seen + 1 == begins[f]);
        else
            CHECK(llfree_order_at(me, f, &seen) == LLFREE_NOT_HELD && seen == 77);
        if (x % 3 == 0) {
            uint32_t was = f, status = llfree_take(me, order, &f);
            if (status != LLFREE_OK) {
                CHECK(f == was);
                CHECK(status == (order > LARGEST ? LLFREE_BAD_ORDER : LLFREE_NO_BLOCK));
                continue;
            }
            CHECK(f % size == 0 && f + size <= ALL);
            for (uint32_t i = f; i < f + size; i++) {
                CHECK(!taken[i]);
                taken[i] = 1;
            }
            begins[f] = order + 1;
        } else if (x % 3 == 1) {
            CHECK(llfree_give(me, f, order) == (is_out ? LLFREE_OK : LLFREE_NOT_HELD));
            if (is_out) {
                memset(taken + f, 0, size);
                begins[f] = 0;
            }
        } else {
            uint32_t status = llfree_split(me, f, order);
            if (order == 0) {
                CHECK(status == LLFREE_BAD_ORDER);
            } else if (!is_out) {
                CHECK(status == LLFREE_NOT_HELD);
            } else {
                CHECK(status == LLFREE_OK);
                begins[f] = begins[f + size / 2] = order;
            }
        }
    }
    llfree_close(&h[1]);
    llfree_close(&h[0]);
}

int main(void)
{
    statuses();
    most_cores();
    holes();
    images();
    every_frame_once();
    sizes();
    splits();
    splits_to();
    random_numbers();
    threads();
    races();
    puts("all checks passed");
    return 0;
}
