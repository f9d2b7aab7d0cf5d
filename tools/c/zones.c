/* The library for C over zones: every status of the calls that open them, holes that are never handed out, takes that
 * go on to the next zone, homes that are set, what is free in each zone, images of two and of three zones, and 64 GiB in
 * eight zones with an owner byte a frame. */
#include "check.h"
#include <pthread.h>
#include <stdatomic.h>

enum { CHILD = 512, ZONE = 4096 * CHILD, CORES = 4, MOST_ZONES = 1024, MOST_RANGES = 1024 };
/* Of the large memory: a hole of 4 GiB is behind each zone. ThreadSanitizer has eight bytes for each of the library's. */
#ifdef __SANITIZE_THREAD__
enum { ZONES = 2 };
#else
enum { ZONES = 8 };
#endif
enum { STEP = ZONE + ZONE / 2, HELD = 200, ROUNDS = 60000, CROSSING = 64, MOST_CORES = 1024 };

static llfree_core cores[CORES];
static _Atomic unsigned char owner[ZONES * STEP];
static llfree_claim crossing[CROSSING];
static pthread_mutex_t locks[CROSSING];

typedef enum llfree_status opening(llfree_core *, size_t, const llfree_range *, size_t, const llfree_range *, size_t);

static opening *const openings[2] = { llfree_open_zones, llfree_open_zones_unchecked };

static void close_all(llfree_core *handles, size_t count)
{
    for (size_t i = 0; i < count; i++)
        llfree_close(&handles[i]);
}

/* Zones and ranges, and what is answered. */
static void statuses(opening *open)
{
    static const struct {
        llfree_range zones[3];
        size_t zone_count;
        llfree_range ranges[3];
        size_t range_count;
        enum llfree_status status;
    } rows[] = {
        { { { 0, 0 } }, 0, { { 0, 0 } }, 0, LLFREE_BAD_GEOMETRY },
        { { { 0, 0 } }, 1, { { 0, 0 } }, 0, LLFREE_BAD_GEOMETRY },
        { { { 0, 1024 }, { 2048, 0 } }, 2, { { 0, 0 } }, 0, LLFREE_BAD_GEOMETRY },
        { { { 0, ZONE } }, 1, { { 0, 0 } }, 0, LLFREE_OK },
        { { { 0, ZONE + 1 } }, 1, { { 0, 0 } }, 0, LLFREE_BAD_GEOMETRY },
        { { { 0, UINT32_MAX } }, 1, { { 0, 0 } }, 0, LLFREE_BAD_GEOMETRY },
        /* from a multiple of 512 on */
        { { { 256, 512 } }, 1, { { 0, 0 } }, 0, LLFREE_BAD_GEOMETRY },
        { { { 1, 1 } }, 1, { { 0, 0 } }, 0, LLFREE_BAD_GEOMETRY },
        { { { 512, 1 } }, 1, { { 0, 0 } }, 0, LLFREE_OK },
        /* behind the one before it */
        { { { 0, 1024 }, { 1024, 512 } }, 2, { { 0, 0 } }, 0, LLFREE_OK },
        { { { 0, 1024 }, { 512, 512 } }, 2, { { 0, 0 } }, 0, LLFREE_BAD_GEOMETRY },
        { { { 1024, 512 }, { 0, 512 } }, 2, { { 0, 0 } }, 0, LLFREE_BAD_GEOMETRY },
        { { { 512, 512 }, { 512, 512 } }, 2, { { 0, 0 } }, 0, LLFREE_BAD_GEOMETRY },
        { { { 0, 513 }, { 512, 512 } }, 2, { { 0, 0 } }, 0, LLFREE_BAD_GEOMETRY },
        { { { 0, 513 }, { 1024, 512 } }, 2, { { 0, 0 } }, 0, LLFREE_OK },
        { { { 0, 512 }, { 512, 1 }, { 1024, 1 } }, 3, { { 0, 0 } }, 0, LLFREE_OK },
        /* up to the last number */
        { { { 4294966784u, 512 } }, 1, { { UINT32_MAX, 1 } }, 1, LLFREE_OK },
        { { { 4294966784u, 513 } }, 1, { { 0, 0 } }, 0, LLFREE_BAD_GEOMETRY },
        { { { 0, 1 }, { 4294966784u, 511 } }, 2, { { 0, 0 } }, 0, LLFREE_OK },
        /* ranges in zones, also from one into the next */
        { { { 0, 512 }, { 512, 512 } }, 2, { { 500, 24 } }, 1, LLFREE_OK },
        { { { 0, 512 }, { 512, 512 } }, 2, { { 0, 1024 } }, 1, LLFREE_OK },
        { { { 0, 512 }, { 1024, 512 } }, 2, { { 0, 512 }, { 1024, 512 } }, 2, LLFREE_OK },
        { { { 0, 512 }, { 1024, 512 } }, 2, { { 511, 1 }, { 1024, 1 }, { 1025, 1 } }, 3, LLFREE_OK },
        { { { 0, 512 }, { 1024, 512 } }, 2, { { 511, 2 } }, 1, LLFREE_BAD_RANGE },
        { { { 0, 512 }, { 1024, 512 } }, 2, { { 512, 1 } }, 1, LLFREE_BAD_RANGE },
        { { { 0, 512 }, { 1024, 512 } }, 2, { { 0, 1536 } }, 1, LLFREE_BAD_RANGE },
        { { { 0, 512 }, { 1024, 512 } }, 2, { { 1023, 2 } }, 1, LLFREE_BAD_RANGE },
        { { { 0, 512 }, { 1024, 512 } }, 2, { { 1535, 2 } }, 1, LLFREE_BAD_RANGE },
        { { { 0, 512 }, { 1024, 512 } }, 2, { { 1024, UINT32_MAX } }, 1, LLFREE_BAD_RANGE },
        { { { 512, 512 }, { 1024, 512 } }, 2, { { 0, 1 } }, 1, LLFREE_BAD_RANGE },
        { { { 0, 513 }, { 1024, 512 } }, 2, { { 513, 1 } }, 1, LLFREE_BAD_RANGE },
        { { { 0, 512 }, { 1024, 512 } }, 2, { { 5, 0 } }, 1, LLFREE_BAD_RANGE },
        { { { 0, 512 }, { 1024, 512 } }, 2, { { 1024, 1 }, { 0, 1 } }, 2, LLFREE_BAD_RANGE },
        { { { 0, 512 }, { 1024, 512 } }, 2, { { 3, 2 }, { 4, 1 } }, 2, LLFREE_BAD_RANGE },
    };
    llfree_core h[2] = { LLFREE_CLOSED, LLFREE_CLOSED };

    for (size_t i = 0; i < sizeof rows / sizeof *rows; i++) {
        uint32_t frames = 0;

        for (size_t z = 0; z < rows[i].zone_count; z++)
            frames += rows[i].zones[z].frames;
        enum llfree_status status =
            open(h, 2, rows[i].zones, rows[i].zone_count, rows[i].ranges, rows[i].range_count);
        if (status != rows[i].status)
            fprintf(stderr, "row %zu: %u\n", i, status);
        CHECK(status == rows[i].status);
        CHECK(llfree_frames(&h[0]) == (status == LLFREE_OK ? frames : 0));
        CHECK(llfree_frames(&h[1]) == llfree_frames(&h[0]));
        close_all(h, 2);
    }
}

/* As many zones, ranges and cores as there may be, and one more; handles that are open. */
static void limits(opening *open)
{
    static const llfree_range two[2] = { { 0, 512 }, { 1024, 512 } };
    static llfree_range many[MOST_ZONES + 1], ranges[MOST_RANGES + 1];
    static llfree_core h[MOST_CORES + 1];
    llfree_block first = LLFREE_EMPTY, last = LLFREE_EMPTY;

    for (uint32_t i = 0; i <= MOST_ZONES; i++)
        many[i] = (llfree_range) { 4194304 * i, 1 + i % 3 };
    for (uint32_t i = 0; i <= MOST_RANGES; i++)
        ranges[i] = (llfree_range) { 2 * i, 1 };
    /* the last one's number would not fit, and there are too many */
    many[MOST_ZONES].first = many[MOST_ZONES - 1].first + CHILD;
    CHECK(open(h, 2, many, MOST_ZONES, NULL, 0) == LLFREE_OK);
    CHECK(llfree_frames(&h[1]) == 2047);
    CHECK(llfree_free_frames(&h[0]) == 2047 && llfree_free_huge(&h[0]) == 0);
    close_all(h, 2);
    CHECK(open(h, 2, many, MOST_ZONES + 1, NULL, 0) == LLFREE_BAD_GEOMETRY);
    CHECK(open(h, 0, two, 2, NULL, 0) == LLFREE_BAD_GEOMETRY);
    CHECK(open(h, MOST_CORES + 1, two, 2, NULL, 0) == LLFREE_BAD_GEOMETRY);
    CHECK(open(h, MOST_CORES, two, 2, NULL, 0) == LLFREE_OK);
    CHECK(llfree_take_block(&h[0], 0, &first) == LLFREE_OK && first.frame < CHILD);
    CHECK(llfree_take_block(&h[MOST_CORES - 1], 9, &last) == LLFREE_OK && last.frame == 2 * CHILD);
    CHECK(llfree_give_block(&h[MOST_CORES - 1], &first) == LLFREE_OK && llfree_give_block(&h[0], &last) == LLFREE_OK);
    CHECK(llfree_free_frames(&h[MOST_CORES / 2]) == 2 * CHILD);
    close_all(h, MOST_CORES);
    many[0].frames = 4 * MOST_RANGES;
    CHECK(open(h, 2, many, 2, ranges, MOST_RANGES) == LLFREE_OK);
    CHECK(llfree_free_frames(&h[1]) == 3 * MOST_RANGES + 2);
    close_all(h, 2);
    CHECK(open(h, 2, many, 2, ranges, MOST_RANGES + 1) == LLFREE_BAD_RANGE);
    CHECK(open(h + 1, 1, two, 2, NULL, 0) == LLFREE_OK);
    CHECK(open(h, 2, two, 2, NULL, 0) == LLFREE_OPEN_HANDLE);
    CHECK(llfree_frames(&h[0]) == 0 && llfree_frames(&h[1]) == 1024);
    llfree_close(&h[1]);
    /* so many frames without a hole are zones, too */
    CHECK(llfree_open_unchecked(h, 2, 3 * ZONE + 5, NULL, 0) == LLFREE_OK);
    CHECK(llfree_frames(&h[0]) == 3 * ZONE + 5 && llfree_free_huge(&h[1]) == 3 * 4096);
    close_all(h, 2);
    CHECK(llfree_open_unchecked(h, 2, 2147483649u, NULL, 0) == LLFREE_BAD_GEOMETRY);
    CHECK(llfree_open(h, 2, 2147483649u, NULL, 0) == LLFREE_BAD_GEOMETRY);
}

enum { END = 8192 + 700 };
static const llfree_range three[3] = { { 0, 1024 }, { 4096, 512 }, { 8192, 700 } };
static const llfree_range back[3] = { { 1000, 24 }, { 4096, 1 }, { 8800, 8 } };

static bool is_there(uint32_t frame)
{
    bool is = false;

    for (int z = 0; z < 3; z++)
        is |= frame - three[z].first < three[z].frames;
    for (int r = 0; r < 3; r++)
        is &= !(frame - back[r].first < back[r].frames);
    return is;
}

/* Three zones with holes and ranges: just the other frames are given out, each once, by numbers and in structs. */
static void holes(void)
{
    static uint32_t frames[END];
    static llfree_block blocks[END];
    static unsigned char seen[END];
    llfree_core h[3] = { LLFREE_CLOSED, LLFREE_CLOSED, LLFREE_CLOSED };
    uint8_t told = 77;
    uint32_t f = 0;

    for (int in_structs = 0; in_structs < 2; in_structs++) {
        CHECK(openings[in_structs](h, 3, three, 3, back, 3) == LLFREE_OK);
        CHECK(llfree_frames(&h[0]) == 2236);
        for (uint8_t order = 0; order <= LARGEST; order++) {
            uint32_t count = 0, wanted = 0;

            CHECK(llfree_free_frames(&h[order % 3]) == 2203 && llfree_free_huge(&h[order % 3]) == 2);
            memset(seen, 0, sizeof seen);
            for (;; count++) {
                llfree_core *core = &h[count % 3];
                enum llfree_status status = in_structs ? llfree_take_block(core, order, &blocks[count])
                                                       : llfree_take(core, order, &frames[count]);
                if (status != LLFREE_OK) {
                    CHECK(status == LLFREE_NO_BLOCK);
                    break;
                }
                f = in_structs ? blocks[count].frame : frames[count];
                CHECK(f % (1u << order) == 0);
                for (uint32_t i = f; i < f + (1u << order); i++)
                    CHECK(i < END && is_there(i) && !seen[i]++);
            }
            for (uint32_t from = 0; from < END; from += 1u << order) {
                uint32_t i = from;

                while (i < from + (1u << order) && is_there(i))
                    i++;
                wanted += i == from + (1u << order);
            }
            CHECK(count == wanted);
            while (count-- > 0) {
                llfree_core *core = &h[count / 7 % 3];

                if (in_structs) {
                    CHECK(llfree_give_block(core, &blocks[count]) == LLFREE_OK);
                } else {
                    CHECK(llfree_give(core, frames[count], order) == LLFREE_OK);
                    CHECK(llfree_give(core, frames[count], order) == LLFREE_NOT_HELD);
                }
            }
        }
        close_all(h, 3);
    }

    /* a number in a hole, past the end, in another zone: no block of it is held */
    CHECK(llfree_open_zones(h, 3, three, 3, back, 3) == LLFREE_OK);
    CHECK(llfree_take(&h[0], LARGEST, &f) == LLFREE_OK && (f == 0 || f == 8192));
    for (int i = 0; i < 3; i++) {
        static const uint32_t none[] = { 1024, 2048, 4095, 4096, 4608, 8191, 8892, 9000, 1u << 31, UINT32_MAX };

        for (size_t k = 0; k < sizeof none / sizeof *none; k++) {
            CHECK(llfree_give(&h[i], none[k], 0) == LLFREE_NOT_HELD);
            CHECK(llfree_split(&h[i], none[k], 1) == LLFREE_NOT_HELD);
            CHECK(llfree_split_to(&h[i], none[k], 1, 0) == LLFREE_NOT_HELD);
            CHECK(llfree_order_at(&h[i], none[k], &told) == LLFREE_NOT_HELD && told == 77);
        }
        CHECK(llfree_give(&h[i], 8192 - f, LARGEST) == LLFREE_NOT_HELD);
        CHECK(llfree_give(&h[i], f, 8) == LLFREE_NOT_HELD);
    }
    CHECK(llfree_split(&h[1], f, LARGEST) == LLFREE_OK);
    CHECK(llfree_split_to(&h[2], f, 8, 6) == LLFREE_OK);
    CHECK(llfree_order_at(&h[0], f + 128, &told) == LLFREE_OK && told == 6);
    for (uint32_t part = 0; part < 4; part++)
        CHECK(llfree_give(&h[part % 3], f + 64 * part, 6) == LLFREE_OK);
    CHECK(llfree_give(&h[2], f + 256, 8) == LLFREE_OK);
    CHECK(llfree_free_frames(&h[1]) == 2203);
    close_all(h, 3);
}

static void none_there(llfree_core *h, uint32_t zone)
{
    CHECK(llfree_free_frames_of(h, zone) == 0 && llfree_free_huge_of(h, zone) == 0);
}

/* So much is free in each of these zones, and in all of them together. */
static void are_free(llfree_core *h, uint32_t zones, const uint32_t *frames, const uint32_t *huge)
{
    uint32_t all = 0, all_huge = 0;

    CHECK(llfree_zones(h) == zones);
    for (uint32_t z = 0; z < zones; z++) {
        CHECK(llfree_free_frames_of(h, z) == frames[z] && llfree_free_huge_of(h, z) == huge[z]);
        all += frames[z];
        all_huge += huge[z];
    }
    CHECK(llfree_free_frames(h) == all && llfree_free_huge(h) == all_huge);
    none_there(h, zones);
    none_there(h, zones + 1);
    none_there(h, UINT32_MAX);
}

/* What is free in each zone, as blocks of all orders are taken and given through cores of all homes. */
static void counts(void)
{
    static const uint32_t nothing[3] = { 0 }, huge[3] = { 1, 0, 1 };
    static uint32_t held[END / CHILD + 1];
    static llfree_claim blocks[HELD];
    llfree_core h[3] = { LLFREE_CLOSED, LLFREE_CLOSED, LLFREE_CLOSED };
    uint64_t x = 88172645463325252ull;
    uint32_t frames[3] = { 1000, 511, 692 }, whole[3], n = 0;

    CHECK(llfree_zones(&h[0]) == 0);
    none_there(&h[0], 0);
    CHECK(llfree_open_zones(h, 3, three, 3, back, 3) == LLFREE_OK);
    are_free(&h[1], 3, frames, huge);
    for (int round = 0; round < 3000; round++) {
        next_random(&x);
        llfree_core *core = &h[x % 3];
        bool takes = n < HELD && (x >> 20) % 8 < (round / 500 % 2 ? 3 : 5);
        uint32_t i = n ? (uint32_t)(x >> 24) % n : 0;

        if (takes) {
            blocks[n] = (llfree_claim) { 0, (uint8_t)((x >> 40) % 10) };
            if (llfree_take(core, blocks[n].order, &blocks[n].frame) != LLFREE_OK)
                continue;
            i = n++;
        } else if (n > 0) {
            CHECK(llfree_give(core, blocks[i].frame, blocks[i].order) == LLFREE_OK);
        } else {
            continue;
        }
        uint32_t size = 1u << blocks[i].order, z = blocks[i].frame / 4096;

        frames[z] += takes ? -size : size;
        held[blocks[i].frame / CHILD] += takes ? size : -size;
        if (!takes)
            blocks[i] = blocks[--n];
        for (z = 0; z < 3; z++)
            whole[z] = huge[z] && held[three[z].first / CHILD] == 0;
        are_free(&h[(x >> 8) % 3], 3, frames, whole);
    }
    while (n-- > 0)
        CHECK(llfree_give(&h[n % 3], blocks[n].frame, blocks[n].order) == LLFREE_OK);
    are_free(&h[2], 3, (const uint32_t[]) { 1000, 511, 692 }, huge);
    while (llfree_take(&h[0], 0, &n) == LLFREE_OK)
        ;
    are_free(&h[1], 3, nothing, nothing);
    close_all(h, 3);
}

/* One core, whose home is the first zone: a full zone falls over to the next one, and each order to where it is. */
static void falls_over(void)
{
    static const llfree_range zones[3] = { { 512, 512 }, { 1536, 512 }, { 4096, 100 } };
    llfree_core h = LLFREE_CLOSED;
    llfree_block a = LLFREE_EMPTY, b = LLFREE_EMPTY, c = LLFREE_EMPTY;
    uint32_t f = 77;

    CHECK(llfree_open_zones(&h, 1, zones, 3, NULL, 0) == LLFREE_OK);
    CHECK(llfree_take(&h, LARGEST, &f) == LLFREE_OK && f == 512);
    CHECK(llfree_take(&h, LARGEST, &f) == LLFREE_OK && f == 1536);
    f = 77;
    CHECK(llfree_take(&h, LARGEST, &f) == LLFREE_NO_BLOCK && f == 77);
    CHECK(llfree_take(&h, 6, &f) == LLFREE_OK && f == 4096);
    CHECK(llfree_take(&h, 6, &f) == LLFREE_NO_BLOCK);
    CHECK(llfree_give(&h, 512, LARGEST) == LLFREE_OK);
    CHECK(llfree_take(&h, 6, &f) == LLFREE_OK && f / 512 == 1);
    CHECK(llfree_take(&h, 10, &f) == LLFREE_BAD_ORDER);
    llfree_close(&h);

    CHECK(llfree_open_zones_unchecked(&h, 1, zones, 3, NULL, 0) == LLFREE_OK);
    CHECK(llfree_take(&h, 0, &f) == LLFREE_CONTENDED && llfree_give(&h, 512, 0) == LLFREE_NOT_HELD);
    CHECK(llfree_take_block(&h, LARGEST, &a) == LLFREE_OK && a.frame == 512 && a.order == LARGEST);
    CHECK(llfree_take_block(&h, LARGEST, &b) == LLFREE_OK && b.frame == 1536 && b.order == LARGEST);
    CHECK(llfree_take_block(&h, LARGEST, &c) == LLFREE_NO_BLOCK && !c.live);
    CHECK(llfree_split_block(&h, &b, &c) == LLFREE_OK);
    CHECK(b.frame == 1536 && c.frame == 1792 && b.order == 8 && c.order == 8);
    CHECK(llfree_give_block(&h, &a) == LLFREE_OK && llfree_give_block(&h, &b) == LLFREE_OK);
    CHECK(llfree_free_frames(&h) == 868 && llfree_free_huge(&h) == 1);
    CHECK(llfree_give_block(&h, &c) == LLFREE_OK && llfree_free_huge(&h) == 2);
    llfree_close(&h);
}

/* Whether the numbers of a zone say that its frame is held, and in a huge frame. */
static bool is_huge(const uint64_t *words, uint32_t frame)
{
    return words[9 * (frame / CHILD)] >= 32768;
}

static bool is_held(const uint64_t *words, uint32_t frame)
{
    return is_huge(words, frame) || words[9 * (frame / CHILD) + 1 + frame % CHILD / 64] >> frame % 64 & 1;
}

/* The same zones at their image, where just these blocks of it are claimed: each is given once, by any core, and
 * what else is held, the frames of the ranges among it, stays so. */
/* The first takes of so many cores of four zones: each comes from the core's home. */
static void take_at_home(llfree_core *handles, uint32_t count)
{
    uint32_t f = 0;

    for (uint32_t i = 0; i < count; i++) {
        CHECK(llfree_take(&handles[i], 0, &f) == LLFREE_OK && f / 4096 == i * 4 / count);
        CHECK(llfree_give(&handles[i], f, 0) == LLFREE_OK);
    }
}

/* Homes lie evenly, and are the same after an opening at an image. */
static void homes(void)
{
    enum { WORDS = 4 * 9 * 8 };
    static const llfree_range zones[4] = { { 0, 4096 }, { 4096, 4096 }, { 8192, 4096 }, { 12288, 4096 } };
    static uint64_t words[WORDS];

    for (uint32_t count = 1; count <= 6; count++) {
        llfree_core h[6] = { LLFREE_CLOSED };

        CHECK(llfree_open_zones(h, count, zones, 4, NULL, 0) == LLFREE_OK);
        take_at_home(h, count);
        close_all(h, count - 1);
        CHECK(llfree_close_image(&h[count - 1], words, WORDS) == LLFREE_OK);
        CHECK(llfree_reopen_zones(h, count, zones, 4, words, WORDS, NULL, 0) == LLFREE_OK);
        take_at_home(h, count);
        close_all(h, count);
    }
}

/* Where the home is full takes of an order stay for 1024 takes in the zone that served one, and look at home then. */
static void stays(void)
{
    static const llfree_range zones[2] = { { 0, 4096 }, { 4096, 4096 } };
    llfree_core h = LLFREE_CLOSED;
    uint32_t f = 0;

    CHECK(llfree_open_zones(&h, 1, zones, 2, NULL, 0) == LLFREE_OK);
    for (int i = 0; i < 4096; i++)
        CHECK(llfree_take(&h, 0, &f) == LLFREE_OK && f < 4096);
    CHECK(llfree_take(&h, 0, &f) == LLFREE_OK && f >= 4096);
    CHECK(llfree_give(&h, 2, 0) == LLFREE_OK && llfree_give(&h, 3, 0) == LLFREE_OK);
    /* another order has its own */
    CHECK(llfree_take(&h, 1, &f) == LLFREE_OK && f == 2);
    CHECK(llfree_give(&h, 2, 1) == LLFREE_OK);
    for (int i = 0; i < 1024; i++)
        CHECK(llfree_take(&h, 0, &f) == LLFREE_OK && f >= 4096);
    for (int i = 0; i < 2; i++)
        CHECK(llfree_take(&h, 0, &f) == LLFREE_OK && f < 4096);
    CHECK(llfree_take(&h, 0, &f) == LLFREE_OK && f >= 4096);
    llfree_close(&h);
}

/* The next take of an order comes from the zone. */
static void takes_in(llfree_core *h, uint8_t order, uint32_t zone)
{
    uint32_t f = 0;

    CHECK(llfree_take(h, order, &f) == LLFREE_OK && f / 8192 == zone);
    CHECK(llfree_give(h, f, order) == LLFREE_OK);
}

/* Takes begin in the zone that was made the home, of each core by itself; there is no other zone. */
static void set_homes(llfree_core *h)
{
    static const uint32_t none[] = { 3, 4, 1u << 31, UINT32_MAX };

    CHECK(llfree_home(&h[0]) == 0 && llfree_home(&h[1]) == 1);
    for (uint32_t z = 0; z < 3; z++)
        for (int i = 0; i < 2; i++) {
            CHECK(llfree_set_home(&h[i], z) == LLFREE_OK && llfree_home(&h[i]) == z);
            for (uint8_t order = 0; order <= LARGEST; order++)
                takes_in(&h[i], order, z);
            for (size_t k = 0; k < sizeof none / sizeof *none; k++)
                CHECK(llfree_set_home(&h[i], none[k]) == LLFREE_BAD_RANGE && llfree_home(&h[i]) == z);
            takes_in(&h[i], 0, z);
            takes_in(&h[i], LARGEST, z);
            CHECK(llfree_home(&h[!i]) == (i ? z : z ? z - 1 : 1));
        }
}

/* Homes that are set: after an opening and after one at an image, where the home is full, and where an order stays. */
static void homes_are_set(void)
{
    enum { WORDS = 3 * 9 * 8 };
    static const llfree_range zones[3] = { { 0, 4096 }, { 8192, 4096 }, { 16384, 4096 } };
    static uint64_t words[WORDS];
    llfree_core h[2] = { LLFREE_CLOSED, LLFREE_CLOSED };
    llfree_block b = LLFREE_EMPTY;
    uint32_t f = 0;

    CHECK(llfree_set_home(&h[0], 0) == LLFREE_CLOSED_HANDLE && !h[0].live && llfree_home(&h[0]) == 0);
    CHECK(llfree_open_zones(h, 2, zones, 3, NULL, 0) == LLFREE_OK);
    set_homes(h);
    llfree_close(&h[1]);
    CHECK(llfree_close_image(&h[0], words, WORDS) == LLFREE_OK);
    CHECK(llfree_reopen_zones(h, 2, zones, 3, words, WORDS, NULL, 0) == LLFREE_OK);
    set_homes(h);
    close_all(h, 2);

    for (uint8_t order = 0; order <= LARGEST; order += LARGEST) {
        uint32_t count = 4096u >> order, size = 1u << order;

        CHECK(llfree_open_zones(h, 2, zones, 3, NULL, 0) == LLFREE_OK);
        CHECK(llfree_set_home(&h[0], 1) == LLFREE_OK);
        for (uint32_t i = 0; i < count; i++)
            CHECK(llfree_take(&h[0], order, &f) == LLFREE_OK && f / 8192 == 1);
        CHECK(llfree_take(&h[0], order, &f) == LLFREE_OK && f / 8192 == 2);
        CHECK(llfree_give(&h[0], 8192, order) == LLFREE_OK && llfree_give(&h[0], 8192 + size, order) == LLFREE_OK);
        /* the order stays, where no home was set, too */
        CHECK(llfree_take(&h[0], order, &f) == LLFREE_OK && f / 8192 == 2);
        CHECK(llfree_set_home(&h[0], 3) == LLFREE_BAD_RANGE);
        CHECK(llfree_take(&h[0], order, &f) == LLFREE_OK && f / 8192 == 2);
        CHECK(llfree_set_home(&h[0], 1) == LLFREE_OK);
        CHECK(llfree_take(&h[0], order, &f) == LLFREE_OK && f / 8192 == 1);
        CHECK(llfree_set_home(&h[0], 0) == LLFREE_OK);
        CHECK(llfree_take(&h[0], order, &f) == LLFREE_OK && f / 8192 == 0);
        CHECK(llfree_free_frames_of(&h[1], 0) == 4096 - size && llfree_free_frames_of(&h[1], 1) == size);
        CHECK(llfree_free_frames_of(&h[1], 2) == 4096 - 3 * size);
        close_all(h, 2);
    }

    /* of blocks in structs, and of single frames once what rests is gone */
    CHECK(llfree_open_zones_unchecked(h, 2, zones, 3, NULL, 0) == LLFREE_OK);
    for (uint32_t z = 3; z-- > 0;) {
        CHECK(llfree_set_home(&h[1], z) == LLFREE_OK);
        CHECK(llfree_take_block(&h[1], 3, &b) == LLFREE_OK && b.frame / 8192 == z);
        CHECK(llfree_give_block(&h[1], &b) == LLFREE_OK);
        CHECK(llfree_take_frame(&h[1], &b) == LLFREE_OK && b.frame / 8192 == z);
        CHECK(llfree_give_frame(&h[1], &b) == LLFREE_OK && llfree_resting(&h[1]) == 16);
        CHECK(llfree_set_home(&h[1], (z + 1) % 3) == LLFREE_OK && llfree_resting(&h[1]) == 16);
        CHECK(llfree_take_frame(&h[1], &b) == LLFREE_OK && b.frame / 8192 == z);
        CHECK(llfree_give_block(&h[1], &b) == LLFREE_OK);
        llfree_drain(&h[1]);
    }
    CHECK(llfree_free_frames(&h[0]) == 3 * 4096);
    close_all(h, 2);
}

static void opened_at(const uint64_t *words, size_t count, const llfree_claim *claims, size_t claimed)
{
    static const llfree_range other[3] = { { 0, 1024 }, { 2048, 512 }, { 4096, 512 } };
    llfree_core h[2] = { LLFREE_CLOSED, LLFREE_CLOSED };
    uint32_t is_free = 0;

    for (uint32_t i = 0; i < END; i++)
        is_free += is_there(i);
    for (size_t i = 0; i < claimed; i++)
        is_free -= 1u << claims[i].order;
    CHECK(llfree_reopen_zones(h, 2, three, 0, words, count, claims, claimed) == LLFREE_BAD_GEOMETRY);
    CHECK(llfree_reopen_zones(h, 0, three, 3, words, count, claims, claimed) == LLFREE_BAD_GEOMETRY);
    CHECK(llfree_reopen_zones(h, 2, three, 3, words, count - 1, claims, claimed) == LLFREE_BAD_IMAGE);
    CHECK(llfree_reopen_zones(h, 2, three, 2, words, count, claims, claimed) == LLFREE_BAD_IMAGE);
    CHECK(llfree_reopen_zones(h, 2, other, 3, words, count, claims, claimed) != LLFREE_OK);
    llfree_claim hole = { 1024, 0 };
    CHECK(llfree_reopen_zones(h, 2, three, 3, words, count, &hole, 1) == LLFREE_NOT_HELD);
    CHECK(llfree_frames(&h[0]) == 0);

    CHECK(llfree_reopen_zones(h, 2, three, 3, words, count, claims, claimed) == LLFREE_OK);
    CHECK(llfree_reopen_zones(h, 2, three, 3, words, count, claims, claimed) == LLFREE_OPEN_HANDLE);
    CHECK(llfree_free_frames(&h[0]) == is_free && llfree_frames(&h[1]) == 2236);
    for (size_t i = 0; i < claimed; i++) {
        CHECK(llfree_give(&h[i % 2], claims[i].frame, claims[i].order) == LLFREE_OK);
        CHECK(llfree_give(&h[i % 2], claims[i].frame, claims[i].order) == LLFREE_NOT_HELD);
        is_free += 1u << claims[i].order;
    }
    CHECK(llfree_free_frames(&h[1]) == is_free);
    close_all(h, 2);
}

/* An image has nine numbers for each child, zone after zone; what lies behind them stays. */
static void image_of_holes(void)
{
    enum { WORDS = 9 * 5, TAKEN = 60 };
    static const uint32_t from[3] = { 0, 9 * 2, 9 * 3 };
    llfree_claim blocks[TAKEN];
    uint64_t words[WORDS + 1];
    unsigned char held[END] = { 0 };
    llfree_core h[3] = { LLFREE_CLOSED, LLFREE_CLOSED, LLFREE_CLOSED };
    uint32_t f = 0;

    memset(words, 0x5a, sizeof words);
    CHECK(llfree_open_zones(h, 3, three, 3, back, 3) == LLFREE_OK);
    for (int i = 0; i < TAKEN; i++) {
        uint8_t order = i % 5;

        CHECK(llfree_take(&h[i % 3], order, &f) == LLFREE_OK);
        memset(held + f, 1, 1u << order);
        blocks[i] = (llfree_claim) { f, order };
    }
    CHECK(llfree_close_image(&h[1], words, WORDS) == LLFREE_CORES_OPEN);
    llfree_close(&h[0]);
    llfree_close(&h[2]);
    CHECK(llfree_close_image(&h[1], words, WORDS - 1) == LLFREE_NO_ROOM);
    for (int i = 0; i <= WORDS; i++)
        CHECK(words[i] == 0x5a5a5a5a5a5a5a5a);
    CHECK(llfree_frames(&h[1]) == 2236 && llfree_close_image(&h[1], words, WORDS + 1) == LLFREE_OK);
    CHECK(llfree_frames(&h[1]) == 0 && words[WORDS] == 0x5a5a5a5a5a5a5a5a);
    for (int z = 0; z < 3; z++)
        for (uint32_t i = 0; i < (three[z].frames + CHILD - 1) / CHILD * CHILD; i++) {
            uint32_t number = three[z].first + i;

            CHECK(is_held(words + from[z], i) == (number >= END || held[number] || !is_there(number)));
        }
    opened_at(words, WORDS, blocks, TAKEN);
}

/* So many frames without a hole, of which the last 1024 are a second zone: closed with an image and opened again. */
static void reopened(void)
{
    enum { FRAMES = ZONE + 1024, CHILDREN = FRAMES / CHILD, WORDS = 9 * CHILDREN, TAKEN = 6 };
    static uint64_t words[WORDS + 1];
    static const uint8_t orders[TAKEN] = { 9, 9, 3, 3, 0, 0 };
    llfree_core h[2] = { LLFREE_CLOSED, LLFREE_CLOSED };
    llfree_claim claims[TAKEN + 1];
    uint32_t f = 0, behind = 0;

    CHECK(llfree_image_words(FRAMES) == WORDS);
    CHECK(llfree_open(h, 2, FRAMES, NULL, 0) == LLFREE_OK);
    CHECK(llfree_frames(&h[0]) == FRAMES && llfree_free_huge(&h[1]) == CHILDREN);
    /* the homes are two zones */
    for (int i = 0; i < TAKEN; i++) {
        CHECK(llfree_take(&h[i % 2], orders[i], &f) == LLFREE_OK && f < FRAMES);
        claims[i] = (llfree_claim) { f, orders[i] };
        behind += f >= ZONE;
    }
    CHECK(behind == TAKEN / 2);
    words[WORDS] = 77;
    CHECK(llfree_close_image(&h[1], words, WORDS) == LLFREE_CORES_OPEN);
    llfree_close(&h[0]);
    CHECK(llfree_close_image(&h[1], words, WORDS - 1) == LLFREE_NO_ROOM);
    CHECK(llfree_close_image(&h[1], words, WORDS) == LLFREE_OK && words[WORDS] == 77);
    for (uint32_t i = 0; i < FRAMES; i++) {
        bool is = false, huge = false;

        for (int k = 0; k < TAKEN; k++) {
            is |= i - claims[k].frame < 1u << orders[k];
            huge |= i - claims[k].frame < 1u << orders[k] && orders[k] == LARGEST;
        }
        CHECK(is_held(words, i) == is && is_huge(words, i) == huge);
    }

    CHECK(llfree_reopen(h, 2, 2147483649u, words, WORDS, claims, TAKEN) == LLFREE_BAD_GEOMETRY);
    CHECK(llfree_reopen(h, 2, FRAMES, words, WORDS - 1, claims, TAKEN) == LLFREE_BAD_IMAGE);
    CHECK(llfree_reopen(h, 2, FRAMES, words, WORDS + 1, claims, TAKEN) == LLFREE_BAD_IMAGE);
    CHECK(llfree_reopen(h, 2, FRAMES - CHILD, words, WORDS, claims, TAKEN) == LLFREE_BAD_IMAGE);
    claims[TAKEN] = (llfree_claim) { FRAMES, 0 };
    CHECK(llfree_reopen(h, 2, FRAMES, words, WORDS, claims, TAKEN + 1) == LLFREE_NOT_HELD);
    claims[TAKEN] = claims[0];
    CHECK(llfree_reopen(h, 2, FRAMES, words, WORDS, claims, TAKEN + 1) == LLFREE_NOT_HELD);
    claims[TAKEN] = (llfree_claim) { ZONE - 1, 0 };
    CHECK(llfree_reopen(h, 2, FRAMES, words, WORDS, claims, TAKEN + 1) == LLFREE_NOT_HELD);
    claims[TAKEN].order = 10;
    CHECK(llfree_reopen(h, 2, FRAMES, words, WORDS, claims, TAKEN + 1) == LLFREE_BAD_ORDER);
    CHECK(llfree_frames(&h[0]) == 0 && llfree_frames(&h[1]) == 0);

    /* all but the last two are claimed; these are never given out */
    CHECK(llfree_reopen(h, 2, FRAMES, words, WORDS, claims, TAKEN - 2) == LLFREE_OK);
    CHECK(llfree_frames(&h[1]) == FRAMES && llfree_free_frames(&h[0]) == FRAMES - 2 * 512 - 2 * 8 - 2);
    CHECK(llfree_give(&h[0], claims[4].frame, 0) == LLFREE_NOT_HELD);
    for (int i = 0; i < TAKEN - 2; i++) {
        CHECK(llfree_give(&h[i / 2], claims[i].frame, claims[i].order) == LLFREE_OK);
        CHECK(llfree_give(&h[i % 2], claims[i].frame, claims[i].order) == LLFREE_NOT_HELD);
    }
    CHECK(llfree_free_frames(&h[1]) == FRAMES - 2);
    close_all(h, 2);
}

static void mark(uint32_t frame, uint8_t order, unsigned char from)
{
    CHECK(order <= LARGEST && frame % (1u << order) == 0 && frame < ZONES * STEP);
    CHECK(frame % STEP + (1u << order) <= ZONE);
    for (uint32_t i = frame; i < frame + (1u << order); i++)
        CHECK(atomic_exchange(&owner[i], !from) == from);
}

/* What was left there before is handed on; of order 255 it is nothing. */
static llfree_claim cross(llfree_claim block, size_t at)
{
    llfree_claim left;

    pthread_mutex_lock(&locks[at]);
    left = crossing[at];
    crossing[at] = block;
    pthread_mutex_unlock(&locks[at]);
    return left;
}

static void give(llfree_core *me, llfree_claim block)
{
    mark(block.frame, block.order, 1);
    CHECK(llfree_give(me, block.frame, block.order) == LLFREE_OK);
}

static void *work(void *handle)
{
    llfree_core *me = handle;
    uint64_t x = 88172645463325252ull + (uint64_t)(me - cores) * 7919;
    llfree_claim blocks[HELD];
    int n = 0;

    for (int round = 0; round < ROUNDS; round++) {
        next_random(&x);
        uint8_t order = x % 16 < 12 ? 0 : x % 10;
        if (n < HELD && (x >> 20) % 2) {
            uint32_t f = 0;
            enum llfree_status status = llfree_take(me, order, &f);

            CHECK(status == LLFREE_OK || status == LLFREE_NO_BLOCK || status == LLFREE_CONTENDED);
            if (status != LLFREE_OK)
                continue;
            mark(f, order, 0);
            blocks[n++] = (llfree_claim) { f, order };
        } else if (n > 0) {
            int i = (x >> 24) % n;
            llfree_claim block = blocks[i];

            blocks[i] = blocks[--n];
            if (block.order > 0 && (x >> 36) % 4 == 0) {
                CHECK(llfree_split(me, block.frame, block.order) == LLFREE_OK);
                block.order--;
                give(me, (llfree_claim) { block.frame + (1u << block.order), block.order });
            } else if ((x >> 40) % 2) {
                block = cross(block, (x >> 44) % CROSSING);
            }
            if (block.order <= LARGEST)
                give(me, block);
        }
        /* in no zone, held by nobody */
        if (round % 64 == 0)
            CHECK(llfree_give(me, ZONE + (uint32_t)(x >> 8) % (STEP - ZONE), 0) == LLFREE_NOT_HELD);
    }
    while (n-- > 0)
        give(me, blocks[n]);
    return NULL;
}

/* Four threads over eight zones of 8 GiB; then all is free, and each zone has all its huge frames. */
static void large(void)
{
    pthread_t threads[CORES];
    llfree_range zones[ZONES];
    uint32_t in_zone[ZONES] = { 0 }, f = 0;

    for (uint32_t z = 0; z < ZONES; z++)
        zones[z] = (llfree_range) { z * STEP, ZONE };
    for (size_t i = 0; i < CROSSING; i++) {
        crossing[i].order = 255;
        CHECK(pthread_mutex_init(&locks[i], NULL) == 0);
    }
    enum llfree_status status = llfree_open_zones(cores, CORES, zones, ZONES, NULL, 0);
    if (status == LLFREE_NO_MEMORY) {
        fputs("64 GiB in eight zones: no memory for their list\n", stderr);
        return;
    }
    CHECK(status == LLFREE_OK && llfree_frames(&cores[0]) == ZONES * ZONE);
    for (int i = 0; i < CORES; i++)
        CHECK(pthread_create(&threads[i], NULL, work, &cores[i]) == 0);
    for (int i = 0; i < CORES; i++)
        CHECK(pthread_join(threads[i], NULL) == 0);
    for (size_t i = 0; i < CROSSING; i++)
        if (crossing[i].order <= LARGEST)
            give(&cores[i % CORES], crossing[i]);
    for (int i = 0; i < CORES; i++)
        CHECK(llfree_free_frames(&cores[i]) == ZONES * ZONE && llfree_free_huge(&cores[i]) == ZONES * 4096);
    /* every huge frame of every zone, through one core */
    for (uint32_t i = 0; i < ZONES * 4096; i++) {
        CHECK(llfree_take(&cores[1], LARGEST, &f) == LLFREE_OK);
        mark(f, LARGEST, 0);
        in_zone[f / STEP]++;
    }
    CHECK(llfree_take(&cores[1], LARGEST, &f) == LLFREE_NO_BLOCK);
    for (int z = 0; z < ZONES; z++)
        CHECK(in_zone[z] == 4096);
    CHECK(llfree_free_frames(&cores[2]) == 0);
    close_all(cores, CORES);
}

int main(void)
{
    for (int i = 0; i < 2; i++) {
        statuses(openings[i]);
        limits(openings[i]);
    }
    holes();
    counts();
    falls_over();
    homes();
    stays();
    homes_are_set();
    image_of_holes();
    reopened();
    large();
    puts("all checks passed");
    return 0;
}
