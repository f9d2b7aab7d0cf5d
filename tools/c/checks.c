/* The library for C, called as a C program calls it, wrong numbers and all. */
#include "check.h"

enum { FRAMES = 512 };

/* Each status of each call. */
static void statuses(void)
{
    llfree_plain h = LLFREE_CLOSED;
    uint32_t f = 77, g = 77;

    CHECK(llfree_plain_take(&h, 0, &f) == LLFREE_CLOSED_HANDLE && f == 77);
    CHECK(llfree_plain_give(&h, 0, 0) == LLFREE_CLOSED_HANDLE);
    CHECK(llfree_plain_split(&h, 0, 1) == LLFREE_CLOSED_HANDLE);
    llfree_plain_close(&h);
    CHECK(llfree_plain_open(&h, 0, NULL, 0) == LLFREE_BAD_GEOMETRY);
    CHECK(llfree_plain_open(&h, 4096 * FRAMES + 1, NULL, 0) == LLFREE_BAD_GEOMETRY);
    CHECK(llfree_plain_open(&h, UINT32_MAX, NULL, 0) == LLFREE_BAD_GEOMETRY);
    CHECK(llfree_plain_open(&h, 3 * FRAMES, NULL, 0) == LLFREE_OK);
    CHECK(llfree_plain_open(&h, 3 * FRAMES, NULL, 0) == LLFREE_OPEN_HANDLE);
    CHECK(llfree_plain_take(&h, 10, &f) == LLFREE_BAD_ORDER && f == 77);
    CHECK(llfree_plain_take(&h, 255, &f) == LLFREE_BAD_ORDER && f == 77);
    CHECK(llfree_plain_take(&h, 3, &f) == LLFREE_OK && f % 8 == 0 && f < 3 * FRAMES);
    CHECK(llfree_plain_give(&h, f, 2) == LLFREE_NOT_HELD);
    CHECK(llfree_plain_give(&h, f + 1, 0) == LLFREE_NOT_HELD);
    CHECK(llfree_plain_give(&h, f, 200) == LLFREE_NOT_HELD);
    CHECK(llfree_plain_give(&h, UINT32_MAX, 3) == LLFREE_NOT_HELD);
    CHECK(llfree_plain_split(&h, f, 2) == LLFREE_NOT_HELD);
    CHECK(llfree_plain_take(&h, 9, &g) == LLFREE_OK && g % FRAMES == 0);
    CHECK(llfree_plain_give(&h, f, 3) == LLFREE_OK);
    CHECK(llfree_plain_give(&h, f, 3) == LLFREE_NOT_HELD);
    CHECK(llfree_plain_give(&h, g, 9) == LLFREE_OK);
    CHECK(llfree_plain_take(&h, 0, &f) == LLFREE_OK);
    CHECK(llfree_plain_split(&h, f, 0) == LLFREE_BAD_ORDER);
    CHECK(llfree_plain_give(&h, f, 0) == LLFREE_OK);
    llfree_plain_close(&h);
    llfree_plain_close(&h);
}

/* Ranges that may not be held back, and those that may. */
static void bad_ranges(void)
{
    static const struct {
        uint32_t frames, count, status;
        llfree_range ranges[3];
    } rows[] = {
        { 1000, 0, LLFREE_OK, { { 0, 0 } } },
        { 1000, 1, LLFREE_OK, { { 0, 1000 } } },
        { 1000, 1, LLFREE_OK, { { 999, 1 } } },
        { 1000, 1, LLFREE_BAD_RANGE, { { 999, 2 } } },
        { 1000, 1, LLFREE_BAD_RANGE, { { 1000, 1 } } },
        { 1000, 1, LLFREE_BAD_RANGE, { { 5, 0 } } },
        { 1000, 1, LLFREE_BAD_RANGE, { { UINT32_MAX, 2 } } },
        { 1000, 1, LLFREE_BAD_RANGE, { { 1, UINT32_MAX } } },
        { 1000, 2, LLFREE_OK, { { 0, 1 }, { 1, 1 } } },
        { 1000, 2, LLFREE_BAD_RANGE, { { 1, 1 }, { 0, 1 } } },
        { 1000, 2, LLFREE_BAD_RANGE, { { 0, 2 }, { 1, 1 } } },
        { 1000, 3, LLFREE_OK, { { 7, 1 }, { 64, 512 }, { 900, 100 } } },
        { 1000, 3, LLFREE_BAD_RANGE, { { 7, 1 }, { 64, 512 }, { 900, 101 } } },
        { 0, 1, LLFREE_BAD_GEOMETRY, { { 0, 1 } } },
    };
    static llfree_range many[1025];
    llfree_plain h = LLFREE_CLOSED;

    for (size_t i = 0; i < sizeof rows / sizeof *rows; i++) {
        CHECK(llfree_plain_open(&h, rows[i].frames, rows[i].ranges, rows[i].count) == rows[i].status);
        llfree_plain_close(&h);
    }
    for (uint32_t i = 0; i < 1025; i++)
        many[i] = (llfree_range){ 2 * i, 1 };
    CHECK(llfree_plain_open(&h, 4096, many, 1025) == LLFREE_BAD_RANGE);
    CHECK(llfree_plain_open(&h, 4096, many, 1024) == LLFREE_OK);
    CHECK(llfree_plain_frames(&h) == 4096);
    llfree_plain_close(&h);
}

/* A memory that ends inside a child, with ranges: just the other frames are given out, once. */
static void holes(void)
{
    enum { END = 5 * FRAMES + 77 };
    static const llfree_range kept[] = { { 0, 1 }, { 600, 8 }, { 1024, 512 }, { END - 3, 2 } };
    static unsigned char seen[END];
    llfree_plain h = LLFREE_CLOSED;
    uint32_t f = 0, free = END - 1 - 8 - 512 - 2;

    CHECK(llfree_plain_frames(&h) == 0);
    CHECK(llfree_plain_open(&h, END, kept, 4) == LLFREE_OK);
    CHECK(llfree_plain_frames(&h) == END);
    for (size_t i = 0; i < 4; i++)
        memset(seen + kept[i].first, 1, kept[i].frames);
    CHECK(llfree_plain_give(&h, 0, 0) == LLFREE_NOT_HELD);
    CHECK(llfree_plain_give(&h, 1024, LARGEST) == LLFREE_NOT_HELD);
    while (free-- > 0) {
        CHECK(llfree_plain_take(&h, 0, &f) == LLFREE_OK && f < END && !seen[f]);
        seen[f] = 1;
    }
    CHECK(llfree_plain_take(&h, 0, &f) == LLFREE_NO_BLOCK);
    for (f = 0; f < END; f++)
        CHECK(llfree_plain_give(&h, f, 0) == (f == 0 || (f >= 600 && f < 608) || (f >= 1024 && f < 1536)
            || (f >= END - 3 && f < END - 1) ? LLFREE_NOT_HELD : LLFREE_OK));
    /* of six children two are whole and have no range in them */
    CHECK(llfree_plain_take(&h, LARGEST, &f) == LLFREE_OK && (f == 1536 || f == 2048));
    CHECK(llfree_plain_take(&h, LARGEST, &f) == LLFREE_OK && (f == 1536 || f == 2048));
    CHECK(llfree_plain_take(&h, LARGEST, &f) == LLFREE_NO_BLOCK);
    CHECK(llfree_plain_frames(&h) == END);
    llfree_plain_close(&h);
}

/* The numbers that a closing leaves, bit by bit, of a memory with ranges that ends inside a child. */
static void images(void)
{
    enum { END = 3 * FRAMES + 70, WORDS = 9 * 4 };
    static const llfree_range kept[] = { { 5, 3 }, { END - 1, 1 } };
    static unsigned char held[4 * FRAMES];
    uint64_t words[WORDS + 1];
    llfree_plain h = LLFREE_CLOSED;
    uint32_t huge = 0, f = 0;

    CHECK(llfree_image_words(0) == 0 && llfree_image_words(1) == 9 && llfree_image_words(FRAMES) == 9);
    CHECK(llfree_image_words(FRAMES + 1) == 18 && llfree_image_words(END) == WORDS);
    CHECK(llfree_image_words(4096 * FRAMES) == 9 * 4096 && llfree_image_words(4096 * FRAMES + 1) == 9 * 4097);
    CHECK(llfree_image_words(2147483648u) == 9 * 4194304 && llfree_image_words(2147483649u) == 0);
    CHECK(llfree_image_words(UINT32_MAX) == 0);
    CHECK(llfree_plain_close_image(&h, words, WORDS) == LLFREE_CLOSED_HANDLE);

    CHECK(llfree_plain_open(&h, END, kept, 2) == LLFREE_OK);
    CHECK(llfree_plain_take(&h, LARGEST, &huge) == LLFREE_OK);
    memset(held + 5, 1, 3);
    memset(held + END - 1, 1, 4 * FRAMES - END + 1);
    for (uint8_t order = 0; order < LARGEST; order++) {
        CHECK(llfree_plain_take(&h, order, &f) == LLFREE_OK);
        memset(held + f, 1, 1u << order);
    }
    CHECK(llfree_plain_take(&h, 3, &f) == LLFREE_OK && llfree_plain_give(&h, f, 3) == LLFREE_OK);
    memset(words, 0xa5, sizeof words);
    CHECK(llfree_plain_close_image(&h, words, WORDS - 1) == LLFREE_NO_ROOM);
    CHECK(llfree_plain_close_image(&h, NULL, 0) == LLFREE_NO_ROOM);
    CHECK(words[0] == 0xa5a5a5a5a5a5a5a5 && llfree_plain_frames(&h) == END);
    CHECK(llfree_plain_close_image(&h, words, WORDS + 1) == LLFREE_OK);
    CHECK(words[WORDS] == 0xa5a5a5a5a5a5a5a5);
    CHECK(llfree_plain_close_image(&h, words, WORDS) == LLFREE_CLOSED_HANDLE);
    for (uint32_t child = 0; child < 4; child++) {
        uint32_t free = 0;
        for (uint32_t i = 0; i < FRAMES; i++) {
            CHECK((words[9 * child + 1 + i / 64] >> i % 64 & 1) == held[FRAMES * child + i]);
            free += !held[FRAMES * child + i];
        }
        CHECK(words[9 * child] == (huge == FRAMES * child ? 32768 : free));
    }
}

/* Every frame of a memory is given out once, and no more. */
static void every_frame_once(void)
{
    static unsigned char seen[3 * FRAMES];
    llfree_plain h = LLFREE_CLOSED;
    uint32_t f = 0;

    CHECK(llfree_plain_open(&h, 3 * FRAMES, NULL, 0) == LLFREE_OK);
    for (int i = 0; i < 3 * FRAMES; i++) {
        CHECK(llfree_plain_take(&h, 0, &f) == LLFREE_OK && f < 3 * FRAMES && !seen[f]);
        seen[f] = 1;
    }
    for (uint8_t order = 0; order <= LARGEST; order++)
        CHECK(llfree_plain_take(&h, order, &f) == LLFREE_NO_BLOCK);
    for (uint32_t i = 0; i < 3 * FRAMES; i++)
        CHECK(llfree_plain_give(&h, i, 0) == LLFREE_OK);
    for (int i = 0; i < 3; i++)
        CHECK(llfree_plain_take(&h, LARGEST, &f) == LLFREE_OK);
    llfree_plain_close(&h);
}

/* A huge frame is split down to single frames, and joined by giving them. */
static void splits(void)
{
    llfree_plain h = LLFREE_CLOSED;
    uint32_t f = 0;

    CHECK(llfree_plain_open(&h, FRAMES, NULL, 0) == LLFREE_OK);
    CHECK(llfree_plain_take(&h, LARGEST, &f) == LLFREE_OK && f == 0);
    for (uint8_t order = LARGEST; order > 0; order--) {
        CHECK(llfree_plain_split(&h, 0, order) == LLFREE_OK);
        CHECK(llfree_plain_give(&h, 0, order) == LLFREE_NOT_HELD);
        CHECK(llfree_plain_give(&h, 1u << (order - 1), order - 1) == LLFREE_OK);
    }
    CHECK(llfree_plain_give(&h, 0, 0) == LLFREE_OK);
    CHECK(llfree_plain_take(&h, LARGEST, &f) == LLFREE_OK && f == 0);
    llfree_plain_close(&h);
}

/* A million calls with numbers at random. What is held is remembered beside: a block of an order
 * begins at a frame where begins[frame] is the order and 1. */
static void random_numbers(void)
{
    enum { CHILDREN = 4, ALL = CHILDREN * FRAMES };
    static unsigned char begins[ALL], held[ALL];
    uint64_t x = 88172645463325252ull;
    uint32_t count = 0;
    llfree_plain h = LLFREE_CLOSED;

    CHECK(llfree_plain_open(&h, ALL, NULL, 0) == LLFREE_OK);
    for (int round = 0; round < 1000000; round++) {
        next_random(&x);
        uint8_t order = (uint8_t)((x >> 8) % 12);
        uint32_t f = (x >> 16) % 8 == 0 ? (uint32_t)(x >> 20) : (uint32_t)(x >> 20) % ALL;
        uint32_t size = order <= LARGEST ? 1u << order : 0;
        bool is_out = f < ALL && order <= LARGEST && begins[f] == order + 1;
        if (x % 3 == 0) {
            uint32_t was = f;
            uint32_t status = llfree_plain_take(&h, order, &f);
            if (status != LLFREE_OK) {
                CHECK(f == was);
                CHECK(status == (order > LARGEST ? LLFREE_BAD_ORDER : LLFREE_NO_BLOCK));
                continue;
            }
            CHECK(f % size == 0 && f + size <= ALL);
            for (uint32_t i = f; i < f + size; i++) {
                CHECK(!held[i]);
                held[i] = 1;
            }
            begins[f] = order + 1;
            count += size;
        } else if (x % 3 == 1) {
            CHECK(llfree_plain_give(&h, f, order) == (is_out ? LLFREE_OK : LLFREE_NOT_HELD));
            if (!is_out)
                continue;
            memset(held + f, 0, size);
            begins[f] = 0;
            count -= size;
        } else {
            uint32_t status = llfree_plain_split(&h, f, order);
            if (!is_out) {
                CHECK(status == LLFREE_NOT_HELD);
            } else if (order == 0) {
                CHECK(status == LLFREE_BAD_ORDER);
            } else {
                CHECK(status == LLFREE_OK);
                begins[f] = begins[f + size / 2] = order;
            }
        }
    }
    for (uint32_t f = 0; f < ALL; f++)
        if (begins[f]) {
            CHECK(llfree_plain_give(&h, f, begins[f] - 1) == LLFREE_OK);
            count -= 1u << (begins[f] - 1);
        }
    CHECK(count == 0);
    llfree_plain_close(&h);
}

/* A handle may be moved; two handles are two memories. */
static void handles(void)
{
    llfree_plain a = LLFREE_CLOSED, b = LLFREE_CLOSED, moved;
    uint32_t f = 1, g = 1;

    CHECK(llfree_plain_open(&a, FRAMES, NULL, 0) == LLFREE_OK && llfree_plain_open(&b, FRAMES, NULL, 0) == LLFREE_OK);
    CHECK(llfree_plain_take(&a, LARGEST, &f) == LLFREE_OK && f == 0);
    CHECK(llfree_plain_take(&b, LARGEST, &g) == LLFREE_OK && g == 0);
    memcpy(&moved, &a, sizeof moved);
    memset(&a, 0, sizeof a);
    CHECK(llfree_plain_give(&moved, 0, LARGEST) == LLFREE_OK);
    CHECK(llfree_plain_take(&b, 0, &g) == LLFREE_NO_BLOCK);
    llfree_plain_close(&moved);
    llfree_plain_close(&b);
}

int main(void)
{
    statuses();
    bad_ranges();
    holes();
    images();
    every_frame_once();
    splits();
    random_numbers();
    handles();
    puts("all checks passed");
    return 0;
}
