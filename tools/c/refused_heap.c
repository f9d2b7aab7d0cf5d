/* Openings and closings of the library for C with each call of their heap refused in turn, alone and for
 * good: the answer is NO_MEMORY, the handles are as they were, and no block is left. Takes, gives and
 * splits make no such call. */
#include "check.h"

enum { CORES = 3, FRAMES = 4300, WORDS = 9 * 9 };

struct rattle_block {
    bool found;
    void *at;
};

static long calls, refused, blocks; /* the refused call, and all after it where it is for good */
static bool for_good;
static unsigned char nothing;

struct rattle_block rattle_alloc(size_t size, size_t alignment);
struct rattle_block rattle_realloc(void *old, size_t kept, size_t size, size_t alignment);
void rattle_dealloc(void *block);

static bool is_refused(void)
{
    calls++;
    return calls == refused || (for_good && refused && calls > refused);
}

static struct rattle_block answer(void *block)
{
    return (struct rattle_block) { block != NULL, block ? block : &nothing };
}

struct rattle_block rattle_alloc(size_t size, size_t alignment)
{
    CHECK(alignment <= 16);
    struct rattle_block block = answer(is_refused() ? NULL : malloc(size ? size : 1));
    blocks += block.found;
    return block;
}

struct rattle_block rattle_realloc(void *old, size_t kept, size_t size, size_t alignment)
{
    CHECK(alignment <= 16 && kept <= size);
    return answer(is_refused() ? NULL : realloc(old, size ? size : 1));
}

void rattle_dealloc(void *block)
{
    blocks--;
    free(block);
}

static void refuse(long call, bool is_for_good)
{
    calls = 0;
    refused = call;
    for_good = is_for_good;
}

static const llfree_range kept[] = { { 3, 5 }, { 600, 512 } };

typedef uint32_t opening(llfree_core *, size_t, uint32_t, const llfree_range *, size_t);

/* The same frames as two zones. */
static uint32_t open_zones(llfree_core *cores, size_t count, uint32_t frames, const llfree_range *ranges, size_t held)
{
    const llfree_range zones[2] = { { 0, 2048 }, { 2048, frames - 2048 } };

    return llfree_open_zones(cores, count, zones, 2, ranges, held);
}

static uint32_t open_zones_unchecked(llfree_core *cores, size_t count, uint32_t frames, const llfree_range *ranges,
                                     size_t held)
{
    const llfree_range zones[2] = { { 0, 2048 }, { 2048, frames - 2048 } };

    return llfree_open_zones_unchecked(cores, count, zones, 2, ranges, held);
}

static uint32_t open_plain(llfree_plain *memory)
{
    return llfree_plain_open(memory, FRAMES, kept, 2);
}

/* How many calls of the heap an opening makes; each was refused. */
static long shared_opening(opening *open, bool is_for_good)
{
    llfree_core cores[CORES], were[CORES];
    long call = 0;

    memset(were, 0, sizeof were);
    for (;;) {
        memset(cores, 0, sizeof cores);
        refuse(++call, is_for_good);
        uint32_t status = open(cores, CORES, FRAMES, kept, 2);
        if (calls < call)
            break;
        CHECK(status == LLFREE_NO_MEMORY);
        CHECK(!memcmp(cores, were, sizeof cores) && blocks == 0);
        refuse(0, false);
        CHECK(open(cores, CORES, FRAMES, kept, 2) == LLFREE_OK);
        for (int i = 0; i < CORES; i++)
            llfree_close(&cores[i]);
        CHECK(blocks == 0);
    }
    for (int i = 0; i < CORES; i++)
        llfree_close(&cores[i]);
    CHECK(blocks == 0);
    return call - 1;
}

static long plain_opening(bool is_for_good)
{
    llfree_plain memory, was;
    long call = 0;

    memset(&was, 0, sizeof was);
    for (;;) {
        memset(&memory, 0, sizeof memory);
        refuse(++call, is_for_good);
        uint32_t status = open_plain(&memory);
        if (calls < call)
            break;
        CHECK(status == LLFREE_NO_MEMORY);
        CHECK(!memcmp(&memory, &was, sizeof memory) && blocks == 0);
    }
    llfree_plain_close(&memory);
    CHECK(blocks == 0);
    return call - 1;
}

/* A closing that is refused changes nothing: what is held is held, and it may be made again. */
static long plain_closing(bool is_for_good)
{
    static uint64_t words[WORDS];
    llfree_plain memory = LLFREE_CLOSED;
    uint32_t frame = 0;
    long call = 0, left;

    refuse(0, false);
    CHECK(llfree_image_words(FRAMES) == WORDS);
    CHECK(open_plain(&memory) == LLFREE_OK && llfree_plain_take(&memory, 4, &frame) == LLFREE_OK);
    left = blocks;
    for (;;) {
        refuse(++call, is_for_good);
        uint32_t status = llfree_plain_close_image(&memory, words, WORDS);
        if (calls < call) {
            CHECK(status == LLFREE_OK);
            break;
        }
        CHECK(status == LLFREE_NO_MEMORY && blocks == left);
        CHECK(llfree_plain_give(&memory, frame, 4) == LLFREE_OK);
        CHECK(llfree_plain_take(&memory, 4, &frame) == LLFREE_OK);
    }
    CHECK(blocks == 0);
    return call - 1;
}

/* The same of the last of several cores. */
static long shared_closing(opening *open, bool is_for_good)
{
    static uint64_t words[WORDS];
    llfree_core cores[CORES] = { LLFREE_CLOSED };
    uint32_t frame = 0;
    long call = 0, left;

    refuse(0, false);
    CHECK(open(cores, CORES, FRAMES, kept, 2) == LLFREE_OK);
    CHECK(llfree_take(&cores[1], 4, &frame) == LLFREE_OK);
    for (int i = 1; i < CORES; i++)
        llfree_close(&cores[i]);
    left = blocks;
    for (;;) {
        refuse(++call, is_for_good);
        uint32_t status = llfree_close_image(&cores[0], words, WORDS);
        if (calls < call) {
            CHECK(status == LLFREE_OK);
            break;
        }
        CHECK(status == LLFREE_NO_MEMORY && blocks == left);
        CHECK(llfree_give(&cores[0], frame, 4) == LLFREE_OK);
        CHECK(llfree_take(&cores[0], 4, &frame) == LLFREE_OK);
    }
    CHECK(blocks == 0);
    return call - 1;
}

/* How many calls of the heap an opening at an image makes; each was refused, and changed nothing. */
static long reopening(bool is_shared, bool is_for_good)
{
    static uint64_t words[WORDS];
    llfree_core cores[CORES], were[CORES];
    llfree_plain memory = LLFREE_CLOSED, was;
    llfree_claim claims[2] = { { 0, 4 }, { 0, 9 } };
    long call = 0;

    refuse(0, false);
    CHECK(open_plain(&memory) == LLFREE_OK);
    for (int i = 0; i < 2; i++)
        CHECK(llfree_plain_take(&memory, claims[i].order, &claims[i].frame) == LLFREE_OK);
    CHECK(llfree_plain_close_image(&memory, words, WORDS) == LLFREE_OK && blocks == 0);
    memset(were, 0, sizeof were);
    memset(&was, 0, sizeof was);
    for (;;) {
        memset(cores, 0, sizeof cores);
        memset(&memory, 0, sizeof memory);
        refuse(++call, is_for_good);
        uint32_t status = is_shared ? llfree_reopen(cores, CORES, FRAMES, words, WORDS, claims, 2)
                                    : llfree_plain_reopen(&memory, FRAMES, words, WORDS, claims, 2);
        if (calls < call)
            break;
        CHECK(status == LLFREE_NO_MEMORY && blocks == 0);
        CHECK(!memcmp(cores, were, sizeof cores) && !memcmp(&memory, &was, sizeof memory));
    }
    for (int i = 0; i < 2; i++)
        CHECK((is_shared ? llfree_give(&cores[i], claims[i].frame, claims[i].order)
                         : llfree_plain_give(&memory, claims[i].frame, claims[i].order)) == LLFREE_OK);
    llfree_plain_close(&memory);
    for (int i = 0; i < CORES; i++)
        llfree_close(&cores[i]);
    CHECK(blocks == 0);
    return call - 1;
}

/* Takes, gives, splits and what counts what is free call no heap, whether they are refused or not. */
static void no_calls(void)
{
    llfree_core cores[CORES] = { LLFREE_CLOSED };
    llfree_plain memory = LLFREE_CLOSED;
    llfree_block block = LLFREE_EMPTY, upper = LLFREE_EMPTY, rested[200] = { LLFREE_EMPTY };
    uint32_t frame = 0, numbers[200];

    refuse(0, false);
    CHECK(llfree_open(cores, CORES, FRAMES, kept, 2) == LLFREE_OK && open_plain(&memory) == LLFREE_OK);
    CHECK(calls > 0);
    calls = 0;
    for (uint8_t order = 0; order <= LARGEST; order++) {
        CHECK(llfree_take_at(&cores[0], 2048, order) == LLFREE_OK);
        CHECK(llfree_take_at(&cores[1], 2048, 0) == LLFREE_NO_BLOCK);
        CHECK(llfree_take_block_at(&cores[2], 2048, LARGEST, &block) == LLFREE_NO_BLOCK);
        CHECK(llfree_give(&cores[1], 2048, order) == LLFREE_OK);
        CHECK(llfree_take_block_at(&cores[2], 2048, order, &block) == LLFREE_OK);
        CHECK(llfree_give_block(&cores[0], &block) == LLFREE_OK);
    }
    for (uint8_t order = 1; order <= LARGEST; order++) {
        CHECK(llfree_take(&cores[0], order, &frame) == LLFREE_OK);
        CHECK(llfree_split(&cores[1], frame, order) == LLFREE_OK);
        CHECK(llfree_give(&cores[2], frame, order) == LLFREE_NOT_HELD);
        CHECK(llfree_give(&cores[2], frame, order - 1) == LLFREE_OK);
        CHECK(llfree_split_to(&cores[0], frame + (1u << (order - 1)), order - 1, 0) == LLFREE_OK);
        for (uint32_t f = frame + (1u << (order - 1)); f < frame + (1u << order); f++)
            CHECK(llfree_give(&cores[1], f, 0) == LLFREE_OK);
        CHECK(llfree_take_block(&cores[1], order, &block) == LLFREE_OK);
        CHECK(llfree_split_block(&cores[2], &block, &upper) == LLFREE_OK);
        CHECK(llfree_give_block(&cores[0], &block) == LLFREE_OK);
        CHECK(llfree_give_block(&cores[0], &upper) == LLFREE_OK);
        for (int i = 0; i < 200; i++)
            CHECK(llfree_take_frame(&cores[i % 2], &rested[i]) == LLFREE_OK);
        for (int i = 0; i < 200; i++)
            CHECK(llfree_give_frame(&cores[2], &rested[i]) == LLFREE_OK);
        size_t taken = 0;
        CHECK(llfree_take_frames(&cores[1], rested, 200, &taken) == LLFREE_OK && taken == 200);
        CHECK(llfree_give_frames(&cores[2], rested, 200) == LLFREE_OK);
        for (int i = 0; i < 200; i++)
            CHECK(llfree_take_number(&cores[i % 2], &numbers[i]) == LLFREE_OK);
        for (int i = 0; i < 200; i++)
            CHECK(llfree_give_number(&cores[2], numbers[i]) == LLFREE_OK);
        CHECK(llfree_resting(&cores[2]) > 0);
        for (int i = 0; i < 3; i++)
            llfree_drain(&cores[i]);
        CHECK(llfree_plain_take(&memory, order, &frame) == LLFREE_OK);
        CHECK(llfree_plain_split(&memory, frame, order) == LLFREE_OK);
        CHECK(llfree_plain_give(&memory, frame, order - 1) == LLFREE_OK);
    }
    CHECK(llfree_take_run(&cores[0], 3, &frame) == LLFREE_OK && !llfree_is_free(&cores[1], frame + 1024, LARGEST));
    CHECK(llfree_take_run(&cores[1], 9, &frame) == LLFREE_NO_BLOCK && llfree_give_run(&cores[2], frame, 4) != LLFREE_OK);
    CHECK(llfree_give_run(&cores[2], frame, 3) == LLFREE_OK && llfree_is_free(&cores[1], frame + 1024, LARGEST));
    while (llfree_take(&cores[0], 0, &frame) == LLFREE_OK)
        ;
    while (llfree_plain_take(&memory, 0, &frame) == LLFREE_OK)
        ;
    CHECK(llfree_take(&cores[1], 0, &frame) == LLFREE_NO_BLOCK);
    CHECK(llfree_free_frames(&cores[1]) == 0 && llfree_free_huge(&cores[2]) == 0);
    CHECK(llfree_free_frames_of(&cores[1], 0) == 0 && llfree_free_huge_of(&cores[2], 0) == 0);
    CHECK(llfree_zones(&cores[0]) == 1 && llfree_set_home(&cores[1], 0) == LLFREE_OK && llfree_home(&cores[1]) == 0);
    CHECK(llfree_plain_free_frames(&memory) == 0 && llfree_plain_free_huge(&memory) == 0);
    CHECK(llfree_plain_is_held(&memory, frame, 0));
    CHECK(calls == 0);
    llfree_plain_close(&memory);
    for (int i = 0; i < CORES; i++)
        llfree_close(&cores[i]);
    CHECK(blocks == 0);
}

int main(void)
{
    no_calls();
    for (int is_for_good = 0; is_for_good < 2; is_for_good++) {
        long shared = shared_opening(llfree_open, is_for_good), plain = plain_opening(is_for_good);
        long unchecked = shared_opening(llfree_open_unchecked, is_for_good);
        long again = reopening(true, is_for_good), plain_again = reopening(false, is_for_good);
        long closing = plain_closing(is_for_good), last = shared_closing(llfree_open, is_for_good);
        long zones = shared_opening(open_zones, is_for_good), last_of_two = shared_closing(open_zones, is_for_good);
        CHECK(shared > unchecked && unchecked > 0 && plain > 0 && closing > 0 && last > 0);
        CHECK(again > shared && plain_again > plain && last_of_two > last);
        CHECK(zones > shared && shared_opening(open_zones_unchecked, is_for_good) > unchecked);
        printf("calls refused, by opening: %ld, %ld, %ld; at an image: %ld, %ld; by closing: %ld, %ld\n",
               shared, unchecked, plain, again, plain_again, closing, last);
        printf("of two zones: by opening %ld, by closing %ld\n", zones, last_of_two);
    }
    return 0;
}
