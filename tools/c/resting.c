/* The library for C with single frames that rest with cores: every status, which frame comes next, what comes to rest
 * and goes back and when, what other cores see of it, closings, and frames that are taken here and given there.
 *
 *     resting [FRAMES [twice]]
 *
 * With a word just two threads run. Each mails so many frames to the other one, in whose memory stands who mailed them;
 * with `twice` each 64th is also given by its sender, so that it is in two hands, which has to be seen. */
#include "check.h"
#include <pthread.h>
#include <sched.h>
#include <stdatomic.h>

enum { MOST = 128, REFILL = 16, FLUSH = 8, FRAMES = 16 * 512, RING = 256, PAIRS = 2, MIXED = 40000 };
#if defined __SANITIZE_THREAD__ || defined __SANITIZE_ADDRESS__
enum { ROUNDS = 30000 };
#else
enum { ROUNDS = 500000 };
#endif

static bool is_empty(const llfree_block *block)
{
    return !block->live && block->frame == 0 && block->order == 0;
}

static void take(llfree_core *core, llfree_block *block)
{
    CHECK(llfree_take_frame(core, block) == LLFREE_OK && block->live && block->order == 0);
}

static void give(llfree_core *core, llfree_block *block)
{
    CHECK(llfree_give_frame(core, block) == LLFREE_OK && is_empty(block));
}

static void open_two(llfree_core *h, uint32_t frames)
{
    h[0] = h[1] = (llfree_core) LLFREE_CLOSED;
    CHECK(llfree_open_unchecked(h, 2, frames, NULL, 0) == LLFREE_OK);
    CHECK(llfree_resting(&h[0]) == 0 && llfree_resting(&h[1]) == 0);
}

static void close_two(llfree_core *h)
{
    llfree_close(&h[0]);
    llfree_close(&h[1]);
}

/* Each status of each call. */
static void statuses(void)
{
    llfree_core h[2] = { LLFREE_CLOSED, LLFREE_CLOSED };
    llfree_block a = LLFREE_EMPTY, b = LLFREE_EMPTY;

    CHECK(llfree_take_frame(&h[0], &a) == LLFREE_CLOSED_HANDLE && is_empty(&a));
    CHECK(llfree_give_frame(&h[0], &a) == LLFREE_CLOSED_HANDLE && is_empty(&a));
    llfree_drain(&h[0]);
    CHECK(!h[0].live && llfree_resting(&h[0]) == 0);
    open_two(h, 512);
    CHECK(llfree_give_frame(&h[0], &a) == LLFREE_NOT_HELD && is_empty(&a));
    take(&h[0], &a);
    llfree_drain(&h[0]);
    uint32_t f = a.frame;
    CHECK(llfree_take_frame(&h[0], &a) == LLFREE_OPEN_HANDLE && a.live && a.frame == f && a.order == 0);
    CHECK(llfree_take_block(&h[1], 3, &b) == LLFREE_OK);
    f = b.frame;
    CHECK(llfree_give_frame(&h[0], &b) == LLFREE_BAD_ORDER && b.live && b.frame == f && b.order == 3);
    CHECK(llfree_resting(&h[0]) == 0);
    CHECK(llfree_give_block(&h[0], &b) == LLFREE_OK);
    give(&h[1], &a);
    CHECK(llfree_give_frame(&h[1], &a) == LLFREE_NOT_HELD && is_empty(&a));
    CHECK(llfree_resting(&h[1]) == 1 && llfree_free_frames(&h[0]) == 511);
    llfree_close(&h[1]);
    CHECK(llfree_free_frames(&h[0]) == 512);
    take(&h[0], &a);
    llfree_close(&h[0]);
    CHECK(llfree_give_frame(&h[0], &a) == LLFREE_CLOSED_HANDLE && a.live);
    CHECK(llfree_take_frame(&h[0], &b) == LLFREE_CLOSED_HANDLE && is_empty(&b));
}

/* What came last is taken first, whichever core took it before. */
static void last_first(void)
{
    llfree_core h[2];
    llfree_block blocks[3] = { LLFREE_EMPTY };
    uint32_t frames[3];

    open_two(h, FRAMES);
    for (int i = 0; i < 3; i++) {
        take(&h[i == 1], &blocks[i]);
        frames[i] = blocks[i].frame;
    }
    llfree_drain(&h[0]);
    llfree_drain(&h[1]);
    for (uint32_t i = 0; i < 3; i++) {
        give(&h[0], &blocks[i]);
        CHECK(llfree_resting(&h[0]) == i + 1 && llfree_free_frames(&h[1]) == FRAMES - 3);
    }
    for (int i = 3; i-- > 0;) {
        take(&h[0], &blocks[i]);
        CHECK(blocks[i].frame == frames[i] && llfree_resting(&h[0]) == (uint32_t)i);
    }
    /* a larger block, and the calls by structs, leave what rests alone */
    give(&h[0], &blocks[0]);
    CHECK(llfree_take_block(&h[0], 0, &blocks[0]) == LLFREE_OK && blocks[0].frame != frames[0]);
    CHECK(llfree_give_block(&h[0], &blocks[0]) == LLFREE_OK && llfree_resting(&h[0]) == 1);
    for (int i = 1; i < 3; i++)
        give(&h[1], &blocks[i]);
    llfree_drain(&h[1]);
    CHECK(llfree_resting(&h[1]) == 0 && llfree_resting(&h[0]) == 1 && llfree_free_frames(&h[0]) == FRAMES - 1);
    llfree_drain(&h[0]);
    llfree_drain(&h[0]);
    CHECK(llfree_resting(&h[0]) == 0 && llfree_free_frames(&h[0]) == FRAMES);
    close_two(h);
}

/* No other call touches what rests with its core, or keeps a frame. */
static void left_alone(void)
{
    llfree_core core = LLFREE_CLOSED;
    uint32_t frame, singles[3], resting;
    uint8_t order;

    CHECK(llfree_open(&core, 1, FRAMES, NULL, 0) == LLFREE_OK);
    for (int i = 0; i < 3; i++)
        CHECK(llfree_take_number(&core, &singles[i]) == LLFREE_OK);
    for (int i = 0; i < 3; i++)
        CHECK(llfree_give_number(&core, singles[i]) == LLFREE_OK);
    resting = llfree_resting(&core);
    CHECK(resting >= 3 && llfree_free_frames(&core) == FRAMES - resting);
    (void)llfree_free_huge(&core);
    (void)llfree_free_frames_of(&core, 0);
    (void)llfree_free_huge_of(&core, 0);
    CHECK(llfree_is_free(&core, FRAMES - 512, 9) && llfree_resting(&core) == resting);
    CHECK(llfree_take(&core, 3, &frame) == LLFREE_OK && llfree_resting(&core) == resting);
    CHECK(llfree_order_at(&core, frame, &order) == LLFREE_OK && order == 3 && llfree_resting(&core) == resting);
    CHECK(llfree_split(&core, frame, 3) == LLFREE_OK && llfree_resting(&core) == resting);
    CHECK(llfree_split_to(&core, frame, 2, 0) == LLFREE_OK && llfree_resting(&core) == resting);
    for (uint32_t i = 0; i < 4; i++)
        CHECK(llfree_give(&core, frame + i, 0) == LLFREE_OK && llfree_resting(&core) == resting);
    CHECK(llfree_give(&core, frame + 4, 2) == LLFREE_OK && llfree_resting(&core) == resting);
    CHECK(llfree_take_at(&core, FRAMES - 512, 9) == LLFREE_OK && llfree_resting(&core) == resting);
    CHECK(llfree_give(&core, FRAMES - 512, 9) == LLFREE_OK);
    CHECK(llfree_take_run(&core, 2, &frame) == LLFREE_OK && llfree_resting(&core) == resting);
    CHECK(llfree_give_run(&core, frame, 2) == LLFREE_OK && llfree_resting(&core) == resting);
    CHECK(llfree_take_run(&core, FRAMES / 512, &frame) == LLFREE_NO_BLOCK && llfree_resting(&core) == resting);
    CHECK(llfree_give_run(&core, FRAMES - 1024, 2) == LLFREE_NOT_HELD && llfree_resting(&core) == resting);
    CHECK(llfree_free_frames(&core) == FRAMES - resting);
    llfree_drain(&core);
    CHECK(llfree_resting(&core) == 0 && llfree_free_frames(&core) == FRAMES);
    llfree_close(&core);
}

/* From one give on where 128 rest, the 8 that came first go back. */
static void borders(void)
{
    static llfree_block blocks[3 * MOST];
    static uint32_t frames[3 * MOST];
    llfree_core h[2];

    for (uint32_t count = MOST - 1; count <= 2 * MOST + 2; count++) {
        uint32_t resting = 0;
        open_two(h, FRAMES);
        for (uint32_t i = 0; i < count; i++) {
            take(&h[0], &blocks[i]);
            frames[i] = blocks[i].frame;
        }
        llfree_drain(&h[0]);
        for (uint32_t i = 0; i < count; i++) {
            resting = (resting == MOST ? MOST - FLUSH : resting) + 1;
            give(&h[0], &blocks[i]);
            CHECK(llfree_resting(&h[0]) == resting && resting <= MOST);
            CHECK(llfree_free_frames(&h[1]) == FRAMES - count + 1 + i - resting);
        }
        for (uint32_t i = 0; i < resting; i++) {
            take(&h[0], &blocks[i]);
            CHECK(blocks[i].frame == frames[count - 1 - i]);
        }
        CHECK(llfree_resting(&h[0]) == 0);
        for (uint32_t i = 0; i < resting; i++)
            give(&h[1], &blocks[i]);
        llfree_drain(&h[1]);
        CHECK(llfree_free_frames(&h[0]) == FRAMES);
        close_two(h);
    }
}

/* The 8 that go back are free, each by itself, and no other frame is: in whatever order they came, within a block of
 * 8 and over borders of one, of a word and of a child, side by side and apart. */
static void together(void)
{
    static const uint32_t ways[][FLUSH] = {
        { 0, 1, 2, 3, 4, 5, 6, 7 }, { 7, 6, 5, 4, 3, 2, 1, 0 }, { 1, 0, 3, 2, 5, 4, 7, 6 }, { 4, 5, 6, 7, 0, 1, 2, 3 },
        { 0, 2, 4, 6, 1, 3, 5, 7 }, { 0, 1, 2, 3, 8, 9, 10, 11 }, { 1, 2, 3, 4, 5, 6, 7, 8 },
        { 60, 61, 62, 63, 64, 65, 66, 67 }, { 511, 510, 509, 508, 515, 514, 513, 512 },
        { 0, 64, 128, 192, 256, 320, 384, 448 }, { 16, 17, 40, 41, 42, 43, 90, 600 }
    };
    static llfree_block blocks[2 * 512];
    llfree_core h[2];
    uint32_t free;

    for (size_t way = 0; way < sizeof ways / sizeof *ways; way++) {
        open_two(h, FRAMES);
        for (uint32_t i = 0; i < 2 * 512; i++)
            CHECK(llfree_take_block_at(&h[0], i, 0, &blocks[i]) == LLFREE_OK);
        for (int i = 0; i < FLUSH; i++)
            give(&h[0], &blocks[ways[way][i]]);
        for (uint32_t i = 2 * 512 - MOST; llfree_resting(&h[0]) < MOST; i++)
            give(&h[0], &blocks[i]);
        free = llfree_free_frames(&h[1]);
        CHECK(free == FRAMES - 2 * 512);
        give(&h[0], &blocks[2 * 512 - 1]);
        CHECK(llfree_resting(&h[0]) == MOST - FLUSH + 1 && llfree_free_frames(&h[1]) == free + FLUSH);
        for (int i = 0; i < FLUSH; i++)
            CHECK(llfree_take_block_at(&h[0], ways[way][i], 0, &blocks[ways[way][i]]) == LLFREE_OK);
        CHECK(llfree_free_frames(&h[1]) == free);
        for (uint32_t i = 0; i < 2 * 512; i++)
            if (blocks[i].live)
                give(&h[1], &blocks[i]);
        close_two(h);
    }
}

/* Where none rests up to 16 of the core's own tree come, and where that has none, one alone. They count as held. Of a
 * fresh memory all of a tree are had in order, and before the next one. */
static void batches(void)
{
    enum { TREE = 8 * 512 };
    static llfree_block blocks[FRAMES];
    static unsigned char seen[FRAMES];
    uint32_t batches = 0, ascend = 0;
    llfree_core h[2];

    open_two(h, FRAMES);
    memset(seen, 0, sizeof seen);
    for (uint32_t i = 0; i < FRAMES; i++) {
        uint32_t rested = llfree_resting(&h[0]);
        take(&h[0], &blocks[i]);
        uint32_t x = blocks[i].frame, rests = llfree_resting(&h[0]);
        CHECK(x < FRAMES && !seen[x]++ && x / TREE == blocks[i / TREE * TREE].frame / TREE);
        CHECK(rested > 0 ? rests == rested - 1 : rests < REFILL);
        CHECK(llfree_free_frames(&h[1]) == FRAMES - 1 - i - rests);
        batches += rested == 0;
        ascend += i > 0 && x == blocks[i - 1].frame + 1;
    }
    CHECK(batches <= FRAMES / REFILL + FRAMES / TREE && ascend >= FRAMES - FRAMES / TREE);
    CHECK(llfree_take_frame(&h[0], &(llfree_block) LLFREE_EMPTY) == LLFREE_NO_BLOCK && llfree_resting(&h[0]) == 0);
    /* and where no two free frames lie side by side */
    for (uint32_t i = 0; i < FRAMES; i++)
        if (blocks[i].frame % 2)
            CHECK(llfree_give_block(&h[1], &blocks[i]) == LLFREE_OK);
    for (uint32_t i = 0; i < FRAMES; i++)
        if (!blocks[i].live)
            take(&h[1], &blocks[i]);
    CHECK(llfree_free_frames(&h[0]) == 0 && llfree_resting(&h[1]) == 0);
    close_two(h);
}

/* Where the free frames lie scattered, from few of them to all, each one that is taken is the lowest of its tree. */
static void scattered(void)
{
    enum { TREE = 8 * 512, SIXTEENTHS = 16 };
    static llfree_block blocks[FRAMES];
    static unsigned char is_free[FRAMES];
    uint64_t x = 88172645463325252ull;

    for (uint32_t share = 1; share <= SIXTEENTHS; share++) {
        uint32_t frames = FRAMES - 37 * (share - 1), free = 0, lowest[FRAMES / TREE] = { 0, TREE };
        llfree_core h[2];

        open_two(h, frames);
        memset(blocks, 0, sizeof blocks);
        memset(is_free, 0, sizeof is_free);
        for (uint32_t i = 0; i < frames; i++)
            take(&h[0], &blocks[i]);
        for (uint32_t i = 0; i < frames; i++)
            if (next_random(&x) % SIXTEENTHS < share) {
                is_free[blocks[i].frame] = 1;
                CHECK(llfree_give_block(&h[1], &blocks[i]) == LLFREE_OK);
                free++;
            }
        for (; free > 0; free--) {
            llfree_block block = LLFREE_EMPTY;
            take(&h[1], &block);
            CHECK(block.frame < frames);
            uint32_t *next = &lowest[block.frame / TREE];
            while (*next < frames && !is_free[*next])
                (*next)++;
            CHECK(block.frame == (*next)++);
        }
        CHECK(llfree_free_frames(&h[0]) == 0 && llfree_resting(&h[1]) == 0);
        close_two(h);
    }
}

/* Behind a batch whose ends lie a huge frame or more apart 8 come at once, behind one that lies closer 16 again. The
 * last gives went to the upper tree, which the core has reserved. */
static void apart(void)
{
    static llfree_block blocks[FRAMES], again[32];
    static const uint32_t far[32] = { [0] = 16, [16] = 1, [17] = 8, [25] = 7 }, near[32] = { [0] = 8, [8] = 16, [24] = 8 };
    llfree_core h[2];

    open_two(h, FRAMES);
    for (uint32_t i = 0; i < FRAMES; i++)
        take(&h[0], &blocks[i]);
    for (int round = 0; round < 2; round++) {
        for (uint32_t i = 0; i < FRAMES; i++) {
            uint32_t x = blocks[i].frame;
            if (blocks[i].live && (round > 0 ? x / 32 == 33 : x % 512 == 7 || x % 512 == 300))
                CHECK(llfree_give_block(&h[1], &blocks[i]) == LLFREE_OK);
        }
        CHECK(llfree_free_frames(&h[0]) == 32);
        uint32_t rests = 0;
        for (uint32_t i = 0; i < 32; i++) {
            uint32_t come = round > 0 ? near[i] : far[i];
            again[i] = (llfree_block) LLFREE_EMPTY;
            take(&h[1], &again[i]);
            CHECK((rests == 0) == (come > 0));
            rests += come - 1;
            CHECK(llfree_resting(&h[1]) == rests);
        }
        CHECK(llfree_free_frames(&h[0]) == 0);
    }
    close_two(h);
}

/* Of a memory that is about as large as a batch, too: the first frame comes alone, and 15 come to rest with the next one
 * and with each sixteenth one behind it, or as many as there are. */
static void small_batches(void)
{
    static llfree_block blocks[2 * REFILL + 1];
    llfree_core h[2];

    for (uint32_t frames = 1; frames <= 2 * REFILL + 1; frames++) {
        uint64_t seen = 0;
        open_two(h, frames);
        memset(blocks, 0, sizeof blocks);
        for (uint32_t i = 0; i < frames; i++) {
            uint32_t left = frames - 1 - i, behind = i == 0 ? 0 : REFILL - 1 - (i - 1) % REFILL;
            uint32_t rests = behind < left ? behind : left;
            take(&h[0], &blocks[i]);
            CHECK(blocks[i].frame < frames && !(seen >> blocks[i].frame & 1));
            seen |= 1ull << blocks[i].frame;
            CHECK(llfree_resting(&h[0]) == rests && llfree_free_frames(&h[1]) == left - rests);
        }
        CHECK(llfree_take_frame(&h[0], &(llfree_block) LLFREE_EMPTY) == LLFREE_NO_BLOCK && llfree_resting(&h[0]) == 0);
        close_two(h);
    }
}

/* Memories that end at a border of a word, a child or a tree, or a frame before or behind it; with each number of frames
 * that may rest. All are had, each once, and those that rest come back. */
static void ends(void)
{
    static const uint32_t borders[] = { 1, 64, 128, 448, 512, 576, 1024, 4096, FRAMES };
    static llfree_block blocks[FRAMES + 2];
    static unsigned char seen[FRAMES + 1];

    for (size_t b = 0; b < sizeof borders / sizeof *borders; b++)
        for (uint32_t frames = borders[b] > 1 ? borders[b] - 1 : 1; frames <= borders[b] + 1; frames++)
            for (uint32_t resting = 0; resting <= MOST && resting <= frames; resting++) {
                llfree_core h[2];
                open_two(h, frames);
                memset(seen, 0, sizeof seen);
                for (uint32_t i = 0; i < frames; i++) {
                    take(&h[0], &blocks[i]);
                    CHECK(blocks[i].frame < frames && !seen[blocks[i].frame]++);
                }
                CHECK(llfree_resting(&h[0]) == 0 && llfree_free_frames(&h[0]) == 0);
                for (uint32_t i = 0; i < resting; i++)
                    give(&h[1], &blocks[i]);
                CHECK(llfree_resting(&h[1]) == resting && llfree_free_frames(&h[0]) == 0);
                CHECK(llfree_take_frame(&h[0], &blocks[frames]) == LLFREE_NO_BLOCK);
                for (uint32_t i = resting; i-- > 0;) {
                    take(&h[1], &blocks[i]);
                    CHECK(blocks[i].frame < frames && seen[blocks[i].frame] == 1);
                }
                CHECK(llfree_resting(&h[1]) == 0);
                for (uint32_t i = 0; i < frames; i++)
                    give(&h[i < resting], &blocks[i]);
                CHECK(llfree_resting(&h[1]) == resting);
                llfree_close(&h[1]);
                llfree_drain(&h[0]);
                CHECK(llfree_free_frames(&h[0]) == frames && llfree_free_huge(&h[0]) == frames / 512);
                llfree_close(&h[0]);
            }
}

/* Where the free frames lie on both sides of a border of a word, a child or a tree, few to more than a batch, just these
 * are had, in each tree the lowest first. */
static void across(void)
{
    enum { TREE = 8 * 512, WORD = 64 };
    static const uint32_t widths[] = { 1, 4, 7, 8, 9, REFILL, REFILL + 1 };
    static llfree_block blocks[FRAMES];
    llfree_block one = LLFREE_EMPTY;
    llfree_core h[2];

    open_two(h, FRAMES);
    for (uint32_t i = 0; i < FRAMES; i++) {
        take(&h[0], &one);
        blocks[one.frame] = one;
        one = (llfree_block) LLFREE_EMPTY;
    }
    for (uint32_t border = WORD; border < FRAMES; border += WORD)
        for (size_t w = 0; w < sizeof widths / sizeof *widths; w++) {
            uint32_t from = border - widths[w], to = border + widths[w];
            uint32_t next[] = { from, from < TREE ? TREE : from };
            for (uint32_t f = from; f < to; f++)
                CHECK(llfree_give_block(&h[1], &blocks[f]) == LLFREE_OK);
            for (uint32_t i = from; i < to; i++) {
                take(&h[1], &one);
                CHECK(one.frame < to && one.frame == next[one.frame / TREE]++ && !blocks[one.frame].live);
                CHECK(llfree_resting(&h[1]) < REFILL);
                blocks[one.frame] = one;
                one = (llfree_block) LLFREE_EMPTY;
            }
            CHECK(llfree_take_frame(&h[1], &one) == LLFREE_NO_BLOCK && llfree_free_frames(&h[0]) == 0);
        }
    close_two(h);
}

/* A take is refused only where nothing rests; what rests is hidden from larger takes and from others till a drain. */
static void refusals(void)
{
    static llfree_block blocks[512 + 1];
    static unsigned char seen[512];
    llfree_core h[2];
    llfree_block huge = LLFREE_EMPTY;

    open_two(h, 512);
    for (uint32_t i = 0; i < 512; i++) {
        take(&h[0], &blocks[i]);
        CHECK(blocks[i].frame < 512 && !seen[blocks[i].frame]++);
    }
    CHECK(llfree_take_frame(&h[0], &blocks[512]) == LLFREE_NO_BLOCK && is_empty(&blocks[512]));
    give(&h[0], &blocks[0]);
    CHECK(llfree_take_frame(&h[1], &blocks[512]) == LLFREE_NO_BLOCK);
    CHECK(llfree_take_block(&h[0], 0, &blocks[512]) == LLFREE_NO_BLOCK);
    take(&h[0], &blocks[0]);
    for (uint32_t i = 0; i < 512; i++)
        give(&h[0], &blocks[i]);
    CHECK(llfree_resting(&h[0]) > MOST - FLUSH && llfree_take_block(&h[0], LARGEST, &huge) == LLFREE_NO_BLOCK);
    llfree_drain(&h[0]);
    CHECK(llfree_take_block(&h[1], LARGEST, &huge) == LLFREE_OK && huge.frame == 0);
    CHECK(llfree_take_frame(&h[0], &blocks[0]) == LLFREE_NO_BLOCK);
    close_two(h);
}

/* A closing gives all back that rests, and one that is refused nothing. */
static void closings(void)
{
    enum { WORDS = 9 * 8, SMALL = 8 * 512 };
    static uint64_t words[WORDS];
    llfree_core h[2];
    llfree_block blocks[MOST] = { LLFREE_EMPTY }, one = LLFREE_EMPTY;

    open_two(h, SMALL);
    for (int i = 0; i < MOST; i++)
        take(&h[0], &blocks[i]);
    llfree_drain(&h[0]);
    for (int i = 0; i < MOST; i++)
        give(&h[1], &blocks[i]);
    CHECK(llfree_free_frames(&h[0]) == SMALL - MOST);
    llfree_close(&h[1]);
    CHECK(llfree_free_frames(&h[0]) == SMALL);
    close_two(h);

    open_two(h, SMALL);
    for (int i = 0; i < MOST; i++)
        take(&h[0], &blocks[i]);
    take(&h[0], &one);
    llfree_drain(&h[0]);
    for (int i = 0; i < MOST; i++)
        give(&h[0], &blocks[i]);
    CHECK(llfree_close_image(&h[0], words, WORDS - 1) == LLFREE_NO_ROOM && llfree_resting(&h[0]) == MOST);
    CHECK(llfree_close_image(&h[0], words, WORDS) == LLFREE_CORES_OPEN && llfree_resting(&h[0]) == MOST);
    llfree_close(&h[1]);
    CHECK(llfree_close_image(&h[0], words, WORDS) == LLFREE_OK && !h[0].live);
    for (uint32_t c = 0; c < 8; c++) {
        bool has_it = one.frame / 512 == c;
        CHECK(words[9 * c] == 512u - has_it);
        for (uint32_t w = 0; w < 8; w++)
            CHECK(words[9 * c + 1 + w] == (has_it && one.frame % 512 / 64 == w ? 1ull << one.frame % 64 : 0));
    }
}

static uint32_t take_number(llfree_core *core)
{
    uint32_t frame = UINT32_MAX;

    CHECK(llfree_take_number(core, &frame) == LLFREE_OK && frame != UINT32_MAX);
    return frame;
}

/* No core gives it, by either call. */
static void is_not_held(llfree_core *h, uint32_t frame)
{
    uint8_t order = 77;

    for (int k = 0; k < 2; k++)
        CHECK(llfree_give_number(&h[k], frame) == LLFREE_NOT_HELD && llfree_give(&h[k], frame, 0) == LLFREE_NOT_HELD);
    CHECK(llfree_order_at(&h[0], frame, &order) == LLFREE_NOT_HELD && order == 77);
}

/* By number each status of each call, what is not held, and what is taken by one call and given by another. */
static void numbers(void)
{
    llfree_core h[2] = { LLFREE_CLOSED, LLFREE_CLOSED };
    llfree_block block = LLFREE_EMPTY;
    uint32_t frames[3], f = 77, g = 77;
    uint8_t order = 77;

    CHECK(llfree_take_number(&h[0], &f) == LLFREE_CLOSED_HANDLE && f == 77);
    CHECK(llfree_give_number(&h[0], 0) == LLFREE_CLOSED_HANDLE);
    /* without a list no frame has a place there */
    open_two(h, 512);
    take(&h[0], &block);
    CHECK(llfree_take_number(&h[0], &f) == LLFREE_CONTENDED && f == 77);
    CHECK(llfree_give_number(&h[0], block.frame) == LLFREE_NOT_HELD && llfree_give_number(&h[1], 0) == LLFREE_NOT_HELD);
    give(&h[0], &block);
    llfree_drain(&h[0]);
    CHECK(llfree_free_frames(&h[0]) == 512);
    close_two(h);

    CHECK(llfree_open(h, 2, FRAMES, NULL, 0) == LLFREE_OK);
    for (f = 0; f <= FRAMES; f++)
        is_not_held(h, f);
    is_not_held(h, UINT32_MAX);
    for (int i = 0; i < 3; i++) {
        frames[i] = take_number(&h[i == 1]);
        CHECK(llfree_order_at(&h[0], frames[i], &order) == LLFREE_OK && order == 0);
        CHECK(llfree_give(&h[0], frames[i], 1) == LLFREE_NOT_HELD);
        CHECK(llfree_split(&h[0], frames[i], 1) == LLFREE_NOT_HELD);
    }
    llfree_drain(&h[0]);
    llfree_drain(&h[1]);
    for (uint32_t i = 0; i < 3; i++) {
        CHECK(llfree_give_number(&h[0], frames[i]) == LLFREE_OK);
        CHECK(llfree_resting(&h[0]) == i + 1 && llfree_free_frames(&h[1]) == FRAMES - 3);
        is_not_held(h, frames[i]);
    }
    for (int i = 3; i-- > 0;)
        CHECK(take_number(&h[0]) == frames[i] && llfree_resting(&h[0]) == (uint32_t)i);
    /* a frame of one form rests and is taken in the other one */
    CHECK(llfree_give_number(&h[1], frames[0]) == LLFREE_OK);
    take(&h[1], &block);
    CHECK(block.frame == frames[0]);
    is_not_held(h, frames[0]);
    give(&h[1], &block);
    CHECK(take_number(&h[1]) == frames[0] && llfree_resting(&h[1]) == 0);
    /* the calls for blocks: a frame is one, and parts of one are frames */
    CHECK(llfree_give(&h[1], frames[0], 0) == LLFREE_OK && llfree_resting(&h[1]) == 0);
    is_not_held(h, frames[0]);
    CHECK(llfree_take(&h[0], 0, &f) == LLFREE_OK && llfree_give_number(&h[1], f) == LLFREE_OK);
    CHECK(llfree_take(&h[0], 3, &g) == LLFREE_OK && llfree_give_number(&h[0], g) == LLFREE_NOT_HELD);
    CHECK(llfree_split_to(&h[0], g, 3, 0) == LLFREE_OK);
    for (uint32_t i = 0; i < 8; i++)
        CHECK(llfree_give_number(&h[1], g + i) == LLFREE_OK && llfree_resting(&h[1]) == 2 + i);
    for (int i = 1; i < 3; i++)
        CHECK(llfree_give_number(&h[0], frames[i]) == LLFREE_OK);
    llfree_close(&h[1]);
    CHECK(llfree_give_number(&h[1], g) == LLFREE_CLOSED_HANDLE);
    llfree_drain(&h[0]);
    CHECK(llfree_free_frames(&h[0]) == FRAMES && llfree_free_huge(&h[0]) == FRAMES / 512);
    close_two(h);
}

/* All frames by number, in zones with a hole between them: each once, the others are not held, and from one give on
 * where 128 rest the 8 that came first go back. */
static void numbers_of_zones(void)
{
    static const llfree_range two[2] = { { 1024, 700 }, { 4096, 600 } };
    enum { ALL = 700 + 600 };
    static uint32_t frames[ALL];
    static unsigned char seen[4096 + 600];
    llfree_core h[2] = { LLFREE_CLOSED, LLFREE_CLOSED };
    uint32_t resting = 0, f = 77;

    CHECK(llfree_open_zones(h, 2, two, 2, NULL, 0) == LLFREE_OK);
    for (uint32_t i = 0; i < ALL; i++) {
        f = frames[i] = take_number(&h[0]);
        CHECK(((1024 <= f && f < 1724) || (4096 <= f && f < 4696)) && !seen[f]++);
        CHECK(llfree_resting(&h[0]) < REFILL);
    }
    f = 77;
    for (int k = 0; k < 2; k++)
        CHECK(llfree_take_number(&h[k], &f) == LLFREE_NO_BLOCK && f == 77);
    for (uint32_t x = 0; x < 4096 + 700; x++)
        if (x >= 4096 + 600 || !seen[x])
            is_not_held(h, x);
    for (uint32_t i = 0; i < ALL; i++) {
        resting = (resting == MOST ? MOST - FLUSH : resting) + 1;
        CHECK(llfree_give_number(&h[1], frames[i]) == LLFREE_OK && llfree_resting(&h[1]) == resting);
        CHECK(llfree_free_frames(&h[0]) == i + 1 - resting);
        is_not_held(h, frames[i]);
    }
    for (uint32_t i = 0; i < resting; i++)
        CHECK(take_number(&h[1]) == frames[ALL - 1 - i]);
    for (uint32_t i = 0; i < resting; i++)
        CHECK(llfree_give_number(&h[0], frames[ALL - 1 - i]) == LLFREE_OK);
    llfree_drain(&h[0]);
    CHECK(llfree_free_frames(&h[1]) == ALL && llfree_free_huge(&h[1]) == 2);
    close_two(h);
}

/* The same calls beside those by numbers, and in zones with a hole between them. */
static void zones(void)
{
    static const llfree_range two[2] = { { 1024, 700 }, { 4096, 600 } };
    enum { ALL = 700 + 600 };
    static llfree_block blocks[ALL + 1];
    static unsigned char seen[4096 + 600];
    llfree_core h[2] = { LLFREE_CLOSED, LLFREE_CLOSED };
    uint32_t f = 0;

    CHECK(llfree_open_zones(h, 2, two, 2, NULL, 0) == LLFREE_OK);
    memset(seen, 0, sizeof seen);
    for (uint32_t i = 0; i < ALL; i++) {
        int k = i / 100 % 2; /* what rests with one core the other one is refused */
        if (llfree_take_frame(&h[k], &blocks[i]) != LLFREE_OK)
            take(&h[!k], &blocks[i]);
        uint32_t x = blocks[i].frame;
        CHECK((1024 <= x && x < 1724) || (4096 <= x && x < 4696));
        CHECK(!seen[x]++ && llfree_give(&h[0], x, 0) == LLFREE_NOT_HELD);
    }
    CHECK(llfree_take_frame(&h[0], &blocks[ALL]) == LLFREE_NO_BLOCK);
    CHECK(llfree_take_frame(&h[1], &blocks[ALL]) == LLFREE_NO_BLOCK);
    CHECK(llfree_resting(&h[0]) == 0 && llfree_resting(&h[1]) == 0);
    for (uint32_t i = 0; i < ALL; i++)
        give(&h[i / 7 % 2], &blocks[i]);
    CHECK(llfree_take(&h[0], 0, &f) == LLFREE_OK && llfree_give(&h[1], f, 0) == LLFREE_OK);
    llfree_drain(&h[1]);
    llfree_drain(&h[0]);
    CHECK(llfree_free_frames(&h[0]) == ALL && llfree_free_huge(&h[0]) == 2);
    close_two(h);
}

static _Atomic unsigned char owner[FRAMES];

static void mark(const llfree_block *block, unsigned char from)
{
    CHECK(block->live);
    for (uint32_t f = block->frame; f < block->frame + (1u << block->order); f++)
        CHECK(f < FRAMES && atomic_exchange(&owner[f], !from) == from);
}

/* A ring through which one thread hands blocks to another. */
struct ring {
    _Alignas(128) _Atomic uint32_t put;
    _Alignas(128) _Atomic uint32_t got;
    llfree_block blocks[RING];
};

static struct ring rings[2 * PAIRS];
static llfree_core cores[2 * PAIRS];

static bool puts_block(struct ring *ring, llfree_block *block)
{
    uint32_t at = atomic_load(&ring->put);

    if (at - atomic_load(&ring->got) == RING)
        return false;
    ring->blocks[at % RING] = *block;
    *block = (llfree_block) LLFREE_EMPTY;
    atomic_store(&ring->put, at + 1);
    return true;
}

static bool gets_block(struct ring *ring, llfree_block *block)
{
    uint32_t at = atomic_load(&ring->got);

    if (at == atomic_load(&ring->put))
        return false;
    *block = ring->blocks[at % RING];
    atomic_store(&ring->got, at + 1);
    return true;
}

/* Hands so many frames to its neighbour, who gives them, and gives as many of the neighbour's; now and then it gives one
 * of its own, and takes a larger block. */
static void *work(void *handle)
{
    llfree_core *me = handle;
    size_t number = (size_t)(me - cores);
    struct ring *out = &rings[number], *in = &rings[number ^ 1];
    uint64_t x = 88172645463325252ull + number * 7919;
    llfree_block mine = LLFREE_EMPTY, theirs = LLFREE_EMPTY, large = LLFREE_EMPTY;

    for (uint32_t put = 0, got = 0; put < ROUNDS || got < ROUNDS;) {
        bool waits = true;
        next_random(&x);
        if (put < ROUNDS && !mine.live) {
            enum llfree_status status = llfree_take_frame(me, &mine);
            CHECK(status == LLFREE_OK || status == LLFREE_NO_BLOCK || status == LLFREE_CONTENDED);
            if (status == LLFREE_OK)
                mark(&mine, 0);
        }
        if (mine.live && x % 8 == 0) {
            mark(&mine, 1);
            give(me, &mine);
        } else if (mine.live && puts_block(out, &mine)) {
            put++;
            waits = false;
        }
        if (got < ROUNDS && gets_block(in, &theirs)) {
            mark(&theirs, 1);
            give(me, &theirs);
            got++;
            waits = false;
        }
        if (x % 64 == 1 && llfree_take_block(me, (uint8_t)(x >> 20) % 4, &large) == LLFREE_OK) {
            mark(&large, 0);
            mark(&large, 1);
            CHECK(llfree_give_block(me, &large) == LLFREE_OK);
        }
        if (x % 4096 == 2)
            llfree_drain(me);
        CHECK(llfree_resting(me) <= MOST);
        if (waits)
            sched_yield();
    }
    CHECK(!mine.live);
    return NULL;
}

static void threads(void)
{
    pthread_t ids[2 * PAIRS];

    CHECK(llfree_open_unchecked(cores, 2 * PAIRS, FRAMES, NULL, 0) == LLFREE_OK);
    for (int i = 0; i < 2 * PAIRS; i++)
        CHECK(pthread_create(&ids[i], NULL, work, &cores[i]) == 0);
    for (int i = 0; i < 2 * PAIRS; i++)
        CHECK(pthread_join(ids[i], NULL) == 0);
    uint32_t resting = 0;
    for (int i = 0; i < 2 * PAIRS; i++)
        resting += llfree_resting(&cores[i]);
    CHECK(resting > 0 && llfree_free_frames(&cores[0]) == FRAMES - resting);
    for (int i = 1; i < 2 * PAIRS; i++)
        llfree_close(&cores[i]);
    llfree_drain(&cores[0]);
    CHECK(llfree_free_frames(&cores[0]) == FRAMES && llfree_free_huge(&cores[0]) == FRAMES / 512);
    llfree_close(&cores[0]);
}

static uint64_t mailed = ROUNDS;
static bool is_given_twice;
static void *memory;

/* Who mailed the frame, as which of its letters; never 0. */
static uint64_t stamp_of(size_t sender, uint64_t letter)
{
    return letter * 2 + sender + 1;
}

/* The frame's memory bears the one stamp, and then the other one. A word of each page, of many lines of a cache. */
static void stamp(const llfree_block *block, uint64_t from, uint64_t to)
{
    CHECK(block->live && block->order == 0 && block->frame < FRAMES);
    char *page = llfree_address(memory, block->frame);
    uint64_t stamp_there = atomic_exchange((_Atomic uint64_t *)(page + block->frame % 64 * 64), to);
    CHECK(stamp_there == from);
}

static bool mails(size_t me, uint64_t letter)
{
    struct ring *ring = &rings[me];
    llfree_block block = LLFREE_EMPTY;

    if (atomic_load(&ring->put) - atomic_load(&ring->got) == RING)
        return false;
    enum llfree_status status = llfree_take_frame(&cores[me], &block);
    CHECK(status == LLFREE_OK || status == LLFREE_NO_BLOCK || status == LLFREE_CONTENDED);
    if (status != LLFREE_OK)
        return false;
    stamp(&block, 0, stamp_of(me, letter));
    llfree_block copy = block;
    if (is_given_twice && letter % 64 == 63)
        give(&cores[me], &copy);
    return puts_block(ring, &block);
}

static bool opens(size_t me, uint64_t letter)
{
    llfree_block block = LLFREE_EMPTY;

    if (!gets_block(&rings[1 - me], &block))
        return false;
    stamp(&block, stamp_of(1 - me, letter), 0);
    give(&cores[me], &block);
    return true;
}

/* In bursts, so that what rests runs out, and overflows. */
static void *work_by_mail(void *handle)
{
    size_t me = (size_t)((llfree_core *)handle - cores);
    uint64_t x = 88172645463325252ull + me * 7919;

    for (uint64_t put = 0, got = 0; put < mailed || got < mailed;) {
        uint64_t before = put + got;
        for (uint64_t most = next_random(&x) % RING; most > 0 && put < mailed && mails(me, put); most--)
            put++;
        for (uint64_t most = next_random(&x) % RING; most > 0 && got < mailed && opens(me, got); most--)
            got++;
        if (put + got == before)
            sched_yield();
    }
    return NULL;
}

static void threads_by_mail(void)
{
    pthread_t ids[2];

    memory = calloc(FRAMES, LLFREE_FRAME_BYTES);
    CHECK(memory != NULL && llfree_open_unchecked(cores, 2, FRAMES, NULL, 0) == LLFREE_OK);
    for (int i = 0; i < 2; i++)
        CHECK(pthread_create(&ids[i], NULL, work_by_mail, &cores[i]) == 0);
    for (int i = 0; i < 2; i++)
        CHECK(pthread_join(ids[i], NULL) == 0);
    llfree_close(&cores[1]);
    llfree_drain(&cores[0]);
    CHECK(llfree_free_frames(&cores[0]) == FRAMES && llfree_free_huge(&cores[0]) == FRAMES / 512);
    llfree_close(&cores[0]);
    free(memory);
}

static _Atomic uint32_t crossing[RING];

/* By number: each frame is left for any thread, and what was left there before is given; of the calls a fourth lets
 * nothing rest. */
static void *work_by_number(void *handle)
{
    llfree_core *me = handle;
    uint64_t x = 88172645463325252ull + (uint64_t)(me - cores) * 7919;

    for (uint32_t round = 0; round < ROUNDS; round++) {
        uint32_t f = 0;
        next_random(&x);
        enum llfree_status status = x % 4 ? llfree_take_number(me, &f) : llfree_take(me, 0, &f);
        if (status != LLFREE_OK) {
            CHECK(status == LLFREE_NO_BLOCK || status == LLFREE_CONTENDED);
            continue;
        }
        CHECK(f < FRAMES && atomic_exchange(&owner[f], 1) == 0);
        uint32_t left = atomic_exchange(&crossing[(x >> 42) % RING], f + 1);
        if (left == 0)
            continue;
        f = left - 1;
        CHECK(atomic_exchange(&owner[f], 0) == 1 && llfree_give_number(me, f + FRAMES) == LLFREE_NOT_HELD);
        CHECK(((x >> 20) % 4 ? llfree_give_number(me, f) : llfree_give(me, f, 0)) == LLFREE_OK);
        CHECK(llfree_resting(me) <= MOST);
    }
    return NULL;
}

static void threads_by_number(void)
{
    pthread_t ids[2 * PAIRS];

    CHECK(llfree_open(cores, 2 * PAIRS, FRAMES, NULL, 0) == LLFREE_OK);
    for (int i = 0; i < 2 * PAIRS; i++)
        CHECK(pthread_create(&ids[i], NULL, work_by_number, &cores[i]) == 0);
    for (int i = 0; i < 2 * PAIRS; i++)
        CHECK(pthread_join(ids[i], NULL) == 0);
    for (uint32_t i = 0; i < RING; i++)
        CHECK(crossing[i] == 0 || llfree_give_number(&cores[i % (2 * PAIRS)], crossing[i] - 1) == LLFREE_OK);
    for (int i = 1; i < 2 * PAIRS; i++)
        llfree_close(&cores[i]);
    llfree_drain(&cores[0]);
    CHECK(llfree_free_frames(&cores[0]) == FRAMES && llfree_free_huge(&cores[0]) == FRAMES / 512);
    llfree_close(&cores[0]);
}

/* Many takes and gives of one thread beside a list of what is held. */
static void mixed(void)
{
    static llfree_block held[600];
    static unsigned char is_held[FRAMES];
    uint64_t x = 1234567;
    uint32_t n = 0;
    llfree_core h[2];

    open_two(h, FRAMES);
    for (uint32_t round = 0; round < MIXED; round++) {
        next_random(&x);
        llfree_core *core = &h[(x >> 50) % 2];
        if (n < 600 && (x % 600 >= n || (x >> 40) % 2)) {
            take(core, &held[n]);
            CHECK(!is_held[held[n++].frame]++);
        } else if (n > 0) {
            uint32_t i = (uint32_t)(x >> 20) % n;
            CHECK(is_held[held[i].frame]--);
            give(core, &held[i]);
            held[i] = held[--n];
            held[n] = (llfree_block) LLFREE_EMPTY;
        }
        CHECK(llfree_free_frames(core) + n + llfree_resting(&h[0]) + llfree_resting(&h[1]) == FRAMES);
    }
    close_two(h);
}

int main(int count, char **words)
{
    if (count > 1) {
        mailed = strtoull(words[1], NULL, 10);
        is_given_twice = count > 2;
        threads_by_mail();
        return 0;
    }
    statuses();
    last_first();
    left_alone();
    borders();
    together();
    batches();
    scattered();
    apart();
    small_batches();
    ends();
    across();
    refusals();
    closings();
    numbers();
    numbers_of_zones();
    zones();
    mixed();
    threads();
    threads_by_mail();
    threads_by_number();
    puts("all checks passed");
    return 0;
}
