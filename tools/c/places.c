/* The library for C with takes at a place: each frame and order of small memories beside a byte a frame, with blocks
 * held inside and around, ranges, holes and ends; trees that other cores have in reserve; frames that rest; runs of
 * huge frames; a memory opened at an image; calls at random; and threads that want the same places. */
#include "check.h"
#include <pthread.h>
#include <stdatomic.h>

enum { CORES = 4, MOST = 12 * 1024, TREE = 4096, HELD = 64, ROUNDS = 40000, RACES = 400 };

/* Beside the library: 0 where a frame is free, 1 where it is held, 2 where no zone has it. */
static unsigned char state[MOST];

/* A block that the test holds, by number or in a struct. */
typedef struct held {
    bool is_carried;
    uint32_t frame;
    uint8_t order;
    llfree_block block;
} held;

static bool is_empty(const llfree_block *block)
{
    return !block->live && block->frame == 0 && block->order == 0;
}

/* Whether the memory has this block and all of its frames are free. */
static bool is_free(uint32_t frame, uint8_t order)
{
    const uint32_t size = 1u << order;
    uint32_t i = 0;

    while (frame <= MOST - size && i < size && state[frame + i] == 0)
        i++;
    return frame % size == 0 && i == size;
}

static void turn(uint32_t frame, uint8_t order, unsigned char to)
{
    for (uint32_t i = frame; i < frame + (1u << order); i++) {
        CHECK(state[i] == !to);
        state[i] = to;
    }
}

/* By the call of its kind, which writes no struct where it is refused. */
static enum llfree_status take_at(llfree_core *core, uint32_t frame, uint8_t order, held *to)
{
    enum llfree_status status;

    to->frame = frame;
    to->order = order;
    if (!to->is_carried)
        return llfree_take_at(core, frame, order);
    status = llfree_take_block_at(core, frame, order, &to->block);
    CHECK(status == LLFREE_OK ? to->block.live && to->block.frame == frame && to->block.order == order :
                                is_empty(&to->block));
    return status;
}

static void give(llfree_core *core, held *one)
{
    CHECK((one->is_carried ? llfree_give_block(core, &one->block) : llfree_give(core, one->frame, one->order)) ==
          LLFREE_OK);
}

static void close_all(llfree_core *handles, size_t count)
{
    for (size_t i = 0; i < count; i++)
        llfree_close(&handles[i]);
}

/* Numbers of no block, and orders that there are not. */
static void wrong_numbers(llfree_core *core)
{
    static const uint32_t none[] = { MOST, 1u << 31, UINT32_MAX - 511, UINT32_MAX - 1, UINT32_MAX };
    llfree_block block = LLFREE_EMPTY;

    for (size_t i = 0; i < sizeof none / sizeof *none; i++)
        for (int order = 0; order < 256; order++) {
            enum llfree_status status = order <= LARGEST ? LLFREE_NO_BLOCK : LLFREE_BAD_ORDER;
            CHECK(llfree_take_at(core, none[i], (uint8_t)order) == status);
            CHECK(llfree_take_block_at(core, none[i], (uint8_t)order, &block) == status && is_empty(&block));
        }
    for (int order = LARGEST + 1; order < 256; order++)
        CHECK(llfree_take_at(core, 0, (uint8_t)order) == LLFREE_BAD_ORDER);
}

/* Each status of each call, with nobody else about. */
static void statuses(void)
{
    llfree_core h[2] = { LLFREE_CLOSED, LLFREE_CLOSED };
    llfree_block a = LLFREE_EMPTY, b = LLFREE_EMPTY;

    CHECK(llfree_take_at(&h[0], 0, 0) == LLFREE_CLOSED_HANDLE);
    CHECK(llfree_take_block_at(&h[0], 0, 0, &a) == LLFREE_CLOSED_HANDLE && is_empty(&a));
    CHECK(llfree_open(h, 2, 3 * 512, NULL, 0) == LLFREE_OK);
    wrong_numbers(&h[1]);
    CHECK(llfree_take_at(&h[0], 520, 3) == LLFREE_OK && llfree_take_at(&h[1], 520, 3) == LLFREE_NO_BLOCK);
    CHECK(llfree_take_block_at(&h[1], 520, 3, &a) == LLFREE_NO_BLOCK && is_empty(&a));
    CHECK(llfree_take_block_at(&h[1], 528, 4, &a) == LLFREE_OK && a.live && a.frame == 528 && a.order == 4);
    /* a struct that holds a block keeps it, whatever is asked for */
    for (int order = 0; order < 256; order++)
        CHECK(llfree_take_block_at(&h[0], 1024, (uint8_t)order, &a) == LLFREE_OPEN_HANDLE && a.live && a.frame == 528 &&
              a.order == 4);
    CHECK(llfree_free_frames(&h[0]) == 3 * 512 - 24);
    /* each is given, split and told by the calls of its kind */
    CHECK(llfree_give(&h[0], 528, 4) == LLFREE_NOT_HELD && llfree_give(&h[0], 520, 2) == LLFREE_NOT_HELD);
    CHECK(llfree_split_block(&h[0], &a, &b) == LLFREE_OK && a.order == 3 && b.frame == 536 && b.order == 3);
    CHECK(llfree_split(&h[1], 520, 3) == LLFREE_OK && llfree_give(&h[0], 524, 2) == LLFREE_OK);
    CHECK(llfree_take_at(&h[1], 524, 2) == LLFREE_OK && llfree_take_at(&h[1], 520, 2) == LLFREE_NO_BLOCK);
    CHECK(llfree_give(&h[1], 524, 2) == LLFREE_OK && llfree_give(&h[1], 520, 2) == LLFREE_OK);
    CHECK(llfree_give_block(&h[1], &a) == LLFREE_OK && llfree_give_block(&h[0], &b) == LLFREE_OK);
    CHECK(llfree_free_huge(&h[0]) == 3);
    llfree_close(&h[0]);
    CHECK(llfree_take_at(&h[0], 0, 0) == LLFREE_CLOSED_HANDLE);
    CHECK(llfree_take_block_at(&h[0], 0, 0, &a) == LLFREE_CLOSED_HANDLE && is_empty(&a));
    CHECK(llfree_take_at(&h[1], 0, LARGEST) == LLFREE_OK);
    llfree_close(&h[1]);
}

/* Each frame up to some behind the end and each order, through both cores in turn: just a free block is taken, once,
 * and again where it was given. */
static void sweep(llfree_core *h, uint32_t end, bool is_carried)
{
    const uint32_t free = llfree_free_frames(&h[0]);
    uint8_t seen = 77;

    for (uint8_t order = 0; order <= LARGEST; order++)
        for (uint32_t f = 0; f < end + 520; f++) {
            held one = { is_carried, 0, 0, LLFREE_EMPTY }, other = one;
            bool is = is_free(f, order);
            CHECK(take_at(&h[f >> order & 1], f, order, &one) == (is ? LLFREE_OK : LLFREE_NO_BLOCK));
            if (!is)
                continue;
            CHECK(llfree_free_frames(&h[1]) == free - (1u << order));
            CHECK(llfree_order_at(&h[0], f, &seen) == (is_carried ? LLFREE_NOT_HELD : LLFREE_OK));
            CHECK(is_carried || seen == order);
            CHECK(take_at(&h[0], f, order, &other) == LLFREE_NO_BLOCK);
            CHECK(take_at(&h[1], f, order / 2, &other) == LLFREE_NO_BLOCK);
            give(&h[f >> order >> 1 & 1], &one);
            CHECK(take_at(&h[1], f, order, &one) == LLFREE_OK);
            give(&h[0], &one);
        }
    CHECK(llfree_free_frames(&h[0]) == free);
}

/* Blocks of each order are held at several places, and all is tried around each and inside of it. */
static void around_each(llfree_core *h, uint32_t end, bool is_carried)
{
    sweep(h, end, is_carried);
    for (uint8_t order = 0; order <= LARGEST; order++)
        for (uint32_t third = 0; third < 3; third++) {
            uint32_t f = third * (end / 3) >> order << order;
            held one = { is_carried || third == 1, 0, 0, LLFREE_EMPTY };
            if (!is_free(f, order))
                continue;
            CHECK(take_at(&h[third % 2], f, order, &one) == LLFREE_OK);
            turn(f, order, 1);
            sweep(h, end, is_carried);
            turn(f, order, 0);
            give(&h[order % 2], &one);
        }
}

/* Memories that end anywhere in a child, with ranges, by numbers and in structs, with the list and without. */
static void every_place(void)
{
    static const llfree_range kept[] = { { 0, 1 }, { 600, 8 }, { 1030, 3 } };
    static const uint32_t ends[] = { 1, 2, 7, 64, 65, 511, 512, 513, 3 * 512 + 77 };

    for (size_t e = 0; e < sizeof ends / sizeof *ends; e++)
        for (int has_ranges = 0; has_ranges <= (ends[e] > 1); has_ranges++)
            for (int kind = 0; kind < 3; kind++) {
                const size_t count = !has_ranges ? 0 : ends[e] > 1100 ? 3 : 1;
                llfree_core h[2] = { LLFREE_CLOSED, LLFREE_CLOSED };
                memset(state, 0, ends[e]);
                memset(state + ends[e], 2, MOST - ends[e]);
                for (size_t i = 0; i < count; i++)
                    memset(state + kept[i].first, 1, kept[i].frames);
                CHECK((kind == 2 ? llfree_open_unchecked : llfree_open)(h, 2, ends[e], kept, count) == LLFREE_OK);
                wrong_numbers(&h[0]);
                if (ends[e] > 1100)
                    around_each(h, ends[e], kind > 0);
                else
                    sweep(h, ends[e], kind > 0);
                close_all(h, 2);
            }
}

/* Zones with holes between, from homes in others: no frame of a hole is had, and none of another zone is missed. */
static void zones(void)
{
    static const llfree_range three[3] = { { 0, 1024 }, { 4096, 512 }, { 8192, 700 } };
    static const llfree_range kept[3] = { { 1000, 24 }, { 4096, 1 }, { 8800, 8 } };
    llfree_core h[3] = { LLFREE_CLOSED, LLFREE_CLOSED, LLFREE_CLOSED };

    memset(state, 2, MOST);
    for (int z = 0; z < 3; z++)
        memset(state + three[z].first, 0, three[z].frames);
    for (int r = 0; r < 3; r++)
        memset(state + kept[r].first, 1, kept[r].frames);
    for (int kind = 0; kind < 3; kind++) {
        CHECK((kind == 2 ? llfree_open_zones_unchecked : llfree_open_zones)(h, 3, three, 3, kept, 3) == LLFREE_OK);
        wrong_numbers(&h[2]);
        sweep(h, 8192 + 700, kind > 0);
        sweep(h + 1, 8192 + 700, kind > 0);
        for (uint32_t f = 16; f < MOST; f += 4096) {
            held one = { kind > 0, 0, 0, LLFREE_EMPTY };
            CHECK(take_at(&h[2], f, 4, &one) == LLFREE_OK);
            turn(f, 4, 1);
            sweep(h, 8192 + 700, kind > 0);
            turn(f, 4, 0);
            give(&h[0], &one);
        }
        CHECK(llfree_free_frames(&h[0]) == 2203 && llfree_free_huge(&h[0]) == 2);
        close_all(h, 3);
    }
}

/* Without the list no number is answered, and nothing is held. */
static void without_list(void)
{
    llfree_core h = LLFREE_CLOSED;
    llfree_block block = LLFREE_EMPTY;

    CHECK(llfree_open_unchecked(&h, 1, 2 * 512, NULL, 0) == LLFREE_OK);
    for (uint8_t order = 0; order <= LARGEST; order++)
        for (uint32_t f = 0; f < 2 * 512; f++)
            CHECK(llfree_take_at(&h, f, order) == (f % (1u << order) == 0 ? LLFREE_CONTENDED : LLFREE_NO_BLOCK));
    CHECK(llfree_free_frames(&h) == 2 * 512 && llfree_free_huge(&h) == 2);
    CHECK(llfree_take_block_at(&h, 512, LARGEST, &block) == LLFREE_OK);
    CHECK(llfree_take_at(&h, 512, LARGEST) == LLFREE_NO_BLOCK && llfree_take_at(&h, 768, 0) == LLFREE_NO_BLOCK);
    CHECK(llfree_give_block(&h, &block) == LLFREE_OK);
    llfree_close(&h);
}

/* Each core has a tree in reserve: any other one takes each block of it, and takes go on in all trees. */
static void reserved(void)
{
    llfree_core h[CORES] = { LLFREE_CLOSED };
    uint32_t f = 0, mine[CORES];

    for (int round = 0; round < CORES; round++) {
        CHECK(llfree_open(h, CORES, CORES * TREE, NULL, 0) == LLFREE_OK);
        for (int i = 0; i < CORES; i++)
            CHECK(llfree_take(&h[i], 0, &mine[i]) == LLFREE_OK);
        for (uint32_t tree = 0; tree < CORES; tree++)
            for (uint8_t order = 0; order <= LARGEST; order++) {
                f = TREE * tree + 2048 + (1u << order);
                CHECK(llfree_take_at(&h[round], f, order) == LLFREE_OK);
                CHECK(llfree_take_at(&h[tree], f, order) == LLFREE_NO_BLOCK);
                CHECK(llfree_give(&h[tree], f, order) == LLFREE_OK);
                CHECK(llfree_take_at(&h[tree], f, order) == LLFREE_OK);
            }
        for (int i = 0; i < CORES; i++)
            CHECK(llfree_take_at(&h[round], mine[i], 0) == LLFREE_NO_BLOCK);
        for (uint32_t tree = 0; tree < CORES; tree++)
            for (uint8_t order = 0; order <= LARGEST; order++)
                CHECK(llfree_give(&h[round], TREE * tree + 2048 + (1u << order), order) == LLFREE_OK);
        for (int i = 0; i < CORES; i++)
            CHECK(llfree_give(&h[i], mine[i], 0) == LLFREE_OK);
        /* nothing was mislaid: all frames are taken, one by one and through all cores, and at their places */
        for (uint32_t i = 0; i < CORES * TREE / 2; i++)
            CHECK(llfree_take(&h[i % CORES], 0, &f) == LLFREE_OK);
        CHECK(llfree_free_frames(&h[0]) == CORES * TREE / 2);
        for (uint32_t i = 0; i < CORES * TREE; i++)
            (void)(llfree_take_at(&h[i / 7 % CORES], i, 0) == LLFREE_OK);
        CHECK(llfree_free_frames(&h[0]) == 0);
        for (uint32_t i = 0; i < CORES * TREE; i++)
            CHECK(llfree_give(&h[i % CORES], i, 0) == LLFREE_OK);
        CHECK(llfree_free_huge(&h[1]) == CORES * TREE / 512);
        close_all(h, CORES);
    }
}

/* A frame that rests is held, for its own core too, until that is drained. Of all places just the free ones are had. */
static void resting(void)
{
    llfree_core h[2] = { LLFREE_CLOSED, LLFREE_CLOSED };
    llfree_block block = LLFREE_EMPTY;
    uint32_t had = 0, free;

    CHECK(llfree_open(h, 2, 512, NULL, 0) == LLFREE_OK);
    CHECK(llfree_take_at(&h[0], 100, 0) == LLFREE_OK && llfree_give_number(&h[1], 100) == LLFREE_OK);
    for (int i = 0; i < 2; i++) {
        CHECK(llfree_take_at(&h[i], 100, 0) == LLFREE_NO_BLOCK && llfree_take_at(&h[i], 96, 3) == LLFREE_NO_BLOCK);
        CHECK(llfree_take_at(&h[i], 0, LARGEST) == LLFREE_NO_BLOCK);
        CHECK(llfree_take_block_at(&h[i], 100, 0, &block) == LLFREE_NO_BLOCK);
    }
    llfree_drain(&h[0]);
    CHECK(llfree_take_at(&h[0], 100, 0) == LLFREE_NO_BLOCK);
    llfree_drain(&h[1]);
    CHECK(llfree_take_at(&h[0], 96, 3) == LLFREE_OK && llfree_give(&h[1], 96, 3) == LLFREE_OK);
    /* a single frame that is taken at its place may rest, and is no other one than was asked for */
    CHECK(llfree_take_block_at(&h[0], 77, 0, &block) == LLFREE_OK && llfree_give_frame(&h[0], &block) == LLFREE_OK);
    CHECK(llfree_resting(&h[0]) == 1 && llfree_take_at(&h[0], 78, 0) == LLFREE_OK && llfree_resting(&h[0]) == 1);
    CHECK(llfree_take_frame(&h[0], &block) == LLFREE_OK && block.frame == 77);
    CHECK(llfree_give_block(&h[0], &block) == LLFREE_OK && llfree_give(&h[0], 78, 0) == LLFREE_OK);
    /* a take lets others rest */
    CHECK(llfree_take_frame(&h[0], &block) == LLFREE_OK);
    free = llfree_free_frames(&h[1]);
    CHECK(free + llfree_resting(&h[0]) == 511);
    for (uint32_t f = 0; f < 512; f++)
        had += llfree_take_at(&h[f % 2], f, 0) == LLFREE_OK;
    CHECK(had == free && llfree_free_frames(&h[1]) == 0);
    close_all(h, 2);
}

/* A block grows in place, by the one behind it, as long as that is free. */
static void grows(void)
{
    llfree_core h = LLFREE_CLOSED;

    CHECK(llfree_open(&h, 1, 2 * 512, NULL, 0) == LLFREE_OK);
    CHECK(llfree_take_at(&h, 0, 0) == LLFREE_OK);
    for (uint8_t order = 0; order < LARGEST; order++) {
        CHECK(llfree_take_at(&h, 1u << order, order) == LLFREE_OK);
        CHECK(llfree_free_frames(&h) == 2 * 512 - (2u << order));
    }
    CHECK(llfree_take_at(&h, 0, LARGEST) == LLFREE_NO_BLOCK && llfree_take_at(&h, 512, LARGEST) == LLFREE_OK);
    CHECK(llfree_take_at(&h, 1024, LARGEST) == LLFREE_NO_BLOCK && llfree_free_frames(&h) == 0);
    CHECK(llfree_give(&h, 512, LARGEST) == LLFREE_OK && llfree_give(&h, 0, 0) == LLFREE_OK);
    for (uint8_t order = 0; order < LARGEST; order++)
        CHECK(llfree_give(&h, 1u << order, order) == LLFREE_OK);
    CHECK(llfree_free_huge(&h) == 2);
    llfree_close(&h);
}

/* The first of so many children side by side that are taken, of a memory of children; or how many it has. */
static uint32_t run_of_huge(llfree_core *h, uint32_t children, uint32_t count)
{
    for (uint32_t first = 0; first + count <= children;) {
        uint32_t i = 0;
        while (i < count && llfree_take_at(h, 512 * (first + i), LARGEST) == LLFREE_OK)
            i++;
        if (i == count)
            return first;
        for (uint32_t back = 0; back < i; back++)
            CHECK(llfree_give(h, 512 * (first + back), LARGEST) == LLFREE_OK);
        first += i + 1;
    }
    return children;
}

/* Runs of huge frames, over a border of trees too, between children that are held whole or in part. */
static void runs_of_huge(void)
{
    enum { CHILDREN = 24 };
    llfree_core h = LLFREE_CLOSED;

    CHECK(llfree_open(&h, 1, CHILDREN * 512, NULL, 0) == LLFREE_OK);
    CHECK(llfree_take_at(&h, 2 * 512 + 77, 0) == LLFREE_OK && llfree_take_at(&h, 5 * 512, LARGEST) == LLFREE_OK);
    CHECK(llfree_take_at(&h, 14 * 512 + 256, 8) == LLFREE_OK);
    for (uint32_t count = 1; count <= 10; count++) {
        uint32_t first = run_of_huge(&h, CHILDREN, count);
        CHECK(first == (count < 3 ? 0 : count <= 8 ? 6 : count == 9 ? 15 : CHILDREN));
        for (uint32_t i = 0; first < CHILDREN && i < count; i++)
            CHECK(llfree_give(&h, 512 * (first + i), LARGEST) == LLFREE_OK);
        CHECK(llfree_free_frames(&h) == CHILDREN * 512 - 1 - 512 - 256);
    }
    llfree_close(&h);
}

/* A memory opened at an image: what is claimed and what stays held for good is refused, and what is given is had. */
static void reopened(void)
{
    enum { END = 2 * 512 + 100, WORDS = 9 * 3 };
    static uint64_t words[WORDS];
    static const llfree_claim claims[] = { { 64, 4 }, { 512, LARGEST } };
    llfree_core h[2] = { LLFREE_CLOSED, LLFREE_CLOSED };

    CHECK(llfree_open(h, 1, END, NULL, 0) == LLFREE_OK);
    CHECK(llfree_take_at(h, 64, 4) == LLFREE_OK && llfree_take_at(h, 512, LARGEST) == LLFREE_OK);
    CHECK(llfree_take_at(h, 8, 3) == LLFREE_OK && llfree_take_at(h, 1056, 5) == LLFREE_OK);
    CHECK(llfree_close_image(h, words, WORDS) == LLFREE_OK);
    CHECK(llfree_reopen(h, 2, END, words, WORDS, claims, 2) == LLFREE_OK);
    memset(state, 0, END);
    memset(state + END, 2, MOST - END);
    turn(64, 4, 1);
    turn(512, LARGEST, 1);
    turn(8, 3, 1);
    turn(1056, 5, 1);
    sweep(h, END, false);
    CHECK(llfree_give(&h[0], 64, 4) == LLFREE_OK && llfree_give(&h[1], 512, LARGEST) == LLFREE_OK);
    turn(64, 4, 0);
    turn(512, LARGEST, 0);
    sweep(h, END, true);
    close_all(h, 2);
}

/* Calls with numbers at random, through three cores of three trees, the last one cut off: a take at a place is refused
 * just where a frame of it is held, also by one that rests. */
static void random_places(void)
{
    enum { END = 2 * TREE + 700 };
    static held out[HELD];
    static uint32_t rests[CORES][100];
    llfree_core h[3] = { LLFREE_CLOSED, LLFREE_CLOSED, LLFREE_CLOSED };
    uint32_t resting[3] = { 0, 0, 0 }, n = 0, had = 0, refused = 0;
    uint64_t x = 2463534242ull;

    memset(state, 0, END);
    memset(state + END, 2, MOST - END);
    CHECK(llfree_open(h, 3, END, NULL, 0) == LLFREE_OK);
    for (int round = 0; round < 400000; round++) {
        uint64_t r = next_random(&x);
        uint32_t me = (r >> 8) % 3, i = n ? (uint32_t)(r >> 40) % n : 0;
        uint8_t order = (r >> 16) % 4 ? (r >> 18) % 4 : (r >> 18) % 10;

        if (r % 8 < 4 && n < HELD) {
            /* one in eight is at a misaligned number, and some are behind the end */
            uint32_t f = (uint32_t)(r >> 24) % (END + 300);
            f = (r >> 56) % 8 ? f >> order << order : f;
            bool is = is_free(f, order);
            out[n] = (held) { (r >> 60) & 1, 0, 0, LLFREE_EMPTY };
            CHECK(take_at(&h[me], f, order, &out[n]) == (is ? LLFREE_OK : LLFREE_NO_BLOCK));
            had += is;
            refused += !is;
            if (is)
                turn(f, out[n++].order, 1);
        } else if (r % 8 == 4 && n < HELD) {
            out[n] = (held) { false, 0, order, LLFREE_EMPTY };
            if (llfree_take(&h[me], order, &out[n].frame) == LLFREE_OK) {
                turn(out[n].frame, order, 1);
                n++;
            }
        } else if (n > 0 && out[i].is_carried && out[i].order == 0 && resting[me] < 100 && r & 1u << 30) {
            rests[me][resting[me]++] = out[i].frame;
            CHECK(llfree_give_frame(&h[me], &out[i].block) == LLFREE_OK);
            out[i] = out[--n];
        } else if (r % 64 == 5) {
            llfree_drain(&h[me]);
            while (resting[me] > 0)
                turn(rests[me][--resting[me]], 0, 0);
        } else if (n > 0) {
            turn(out[i].frame, out[i].order, 0);
            give(&h[me], &out[i]);
            out[i] = out[--n];
        }
    }
    CHECK(had > 40000 && refused > 40000);
    for (int i = 0; i < 3; i++)
        llfree_drain(&h[i]);
    for (; n > 0; n--)
        give(&h[n % 3], &out[n - 1]);
    CHECK(llfree_free_frames(&h[0]) == END && llfree_free_huge(&h[1]) == END / 512);
    close_all(h, 3);
}

static llfree_core cores[CORES];
static _Atomic unsigned char owner[2 * TREE];
/* Blocks at few places that were had by any thread: while others hold all, one may have none. */
static _Atomic int at_places;

static void mark(uint32_t f, uint8_t order, unsigned char from)
{
    for (uint32_t i = f; i < f + (1u << order); i++)
        CHECK(atomic_exchange(&owner[i], !from) == from);
}

/* Takes at few places, of all orders, beside takes that search; each frame has one owner. */
static void *work(void *handle)
{
    llfree_core *me = handle;
    uint64_t x = 88172645463325252ull + (uint64_t)(me - cores) * 7919;
    held out[8];
    int n = 0;

    for (int round = 0; round < ROUNDS; round++) {
        uint64_t r = next_random(&x);
        uint8_t order = r % 16 < 12 ? r % 4 : r % 10;
        if (n < 8 && (r >> 20) % 2) {
            /* the first frames of each of four children, in both trees */
            uint32_t f = (512 * ((r >> 24) % 4 * 4) + ((r >> 28) % 64)) >> order << order;
            enum llfree_status status;
            out[n] = (held) { (r >> 40) & 1, f, order, LLFREE_EMPTY };
            if ((r >> 44) % 4 == 0) {
                out[n].is_carried = false;
                status = llfree_take(me, order, &out[n].frame);
            } else {
                status = take_at(me, f, order, &out[n]);
                at_places += status == LLFREE_OK;
            }
            CHECK(status == LLFREE_OK || status == LLFREE_NO_BLOCK || status == LLFREE_CONTENDED);
            if (status != LLFREE_OK)
                continue;
            mark(out[n].frame, order, 0);
            n++;
        } else if (n > 0) {
            held *one = &out[(r >> 48) % (uint32_t)n];
            mark(one->frame, one->order, 1);
            give(me, one);
            *one = out[--n];
        }
    }
    while (n > 0) {
        n--;
        mark(out[n].frame, out[n].order, 1);
        give(me, &out[n]);
    }
    return NULL;
}

static void on_threads(void *(*run)(void *))
{
    pthread_t threads[CORES];

    for (int i = 0; i < CORES; i++)
        CHECK(pthread_create(&threads[i], NULL, run, &cores[i]) == 0);
    for (int i = 0; i < CORES; i++)
        CHECK(pthread_join(threads[i], NULL) == 0);
}

static _Atomic int arrived, winners;
static held wanted[CORES], winner;

static void *race(void *handle)
{
    held *mine = &wanted[(llfree_core *)handle - cores];

    atomic_fetch_add(&arrived, 1);
    while (atomic_load(&arrived) < CORES)
        ;
    enum llfree_status status = take_at(handle, mine->frame, mine->order, mine);
    CHECK(status == LLFREE_OK || status == LLFREE_NO_BLOCK || status == LLFREE_CONTENDED);
    if (status == LLFREE_OK) {
        CHECK(atomic_fetch_add(&winners, 1) == 0);
        winner = *mine;
    }
    return NULL;
}

/* Threads race for one frame, by one block or by blocks of several orders around it: at most one of them has it. When
 * it was given each of these blocks is had by a call with nobody else about. */
static void races(void)
{
    int won = 0;

    for (int turn = 0; turn < RACES; turn++) {
        uint32_t target = (uint32_t)turn * 977 % (2 * TREE);
        arrived = winners = 0;
        for (int i = 0; i < CORES; i++) {
            uint8_t order = (uint8_t)((turn / 2 + turn % 2 * 3 * i) % 10);
            wanted[i] = (held) { (turn + i) & 1, target >> order << order, order, LLFREE_EMPTY };
        }
        on_threads(race);
        if (winners == 1) {
            CHECK(llfree_free_frames(&cores[0]) == 2 * TREE - (1u << winner.order));
            give(&cores[turn % CORES], &winner);
            won++;
        }
        for (uint8_t order = 0; order <= LARGEST; order++) {
            CHECK(llfree_take_at(&cores[order % CORES], target >> order << order, order) == LLFREE_OK);
            CHECK(llfree_give(&cores[turn % CORES], target >> order << order, order) == LLFREE_OK);
        }
    }
    CHECK(won > 0);
}

/* Four threads; at the end all is free. */
static void threads(void)
{
    for (int kind = 0; kind < 2; kind++) {
        CHECK(llfree_open(cores, CORES, 2 * TREE, NULL, 0) == LLFREE_OK);
        if (kind == 0) {
            on_threads(work);
            CHECK(at_places > 0);
        } else {
            races();
        }
        CHECK(llfree_free_frames(&cores[0]) == 2 * TREE && llfree_free_huge(&cores[1]) == 2 * TREE / 512);
        for (uint32_t child = 0; child < 2 * TREE / 512; child++)
            CHECK(llfree_take_at(&cores[child % CORES], 512 * child, LARGEST) == LLFREE_OK);
        close_all(cores, CORES);
    }
}

int main(void)
{
    statuses();
    every_place();
    zones();
    without_list();
    reserved();
    resting();
    grows();
    runs_of_huge();
    reopened();
    random_places();
    threads();
    puts("all checks passed");
    return 0;
}
