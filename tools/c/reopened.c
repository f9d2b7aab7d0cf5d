/* Memories that are opened again at the numbers of an image, with blocks that the program holds from
 * before, by one thread and by cores: what is out, held for good and free then, and each refusal. */
#include "llfree.h"
#include <stdio.h>
#include <stdlib.h>
#include <string.h>

#define CHECK(x)                                                         \
    do {                                                                 \
        if (!(x)) {                                                      \
            fprintf(stderr, "%s:%d: %s\n", __FILE__, __LINE__, #x);      \
            exit(1);                                                     \
        }                                                                \
    } while (0)

enum { CORES = 3, CHILD = 512, LARGEST = 9, END = 5 * CHILD + 70, WORDS = 9 * 6, TAKEN = 12 };

/* Both kinds of memory behind one face. */
struct memory {
    bool is_shared;
    llfree_plain plain;
    llfree_core cores[CORES];
    unsigned turn;
};

static llfree_core *next_core(struct memory *m)
{
    return &m->cores[m->turn++ % CORES];
}

static uint32_t reopen(struct memory *m, uint32_t frames, const uint64_t *words, size_t count,
                       const llfree_claim *claims, size_t claimed)
{
    return m->is_shared ? llfree_reopen(m->cores, CORES, frames, words, count, claims, claimed)
                        : llfree_plain_reopen(&m->plain, frames, words, count, claims, claimed);
}

static uint32_t take(struct memory *m, uint8_t order, uint32_t *frame)
{
    return m->is_shared ? llfree_take(next_core(m), order, frame) : llfree_plain_take(&m->plain, order, frame);
}

static uint32_t give(struct memory *m, uint32_t frame, uint8_t order)
{
    return m->is_shared ? llfree_give(next_core(m), frame, order) : llfree_plain_give(&m->plain, frame, order);
}

static uint32_t split(struct memory *m, uint32_t frame, uint8_t order)
{
    return m->is_shared ? llfree_split(next_core(m), frame, order) : llfree_plain_split(&m->plain, frame, order);
}

static uint32_t frames_in(struct memory *m)
{
    return m->is_shared ? llfree_frames(next_core(m)) : llfree_plain_frames(&m->plain);
}

static void close_memory(struct memory *m)
{
    llfree_plain_close(&m->plain);
    for (int i = 0; i < CORES; i++)
        llfree_close(&m->cores[i]);
}

/* A memory of which blocks of all orders are out, as the numbers of its image. */
static void leave(uint64_t *words, llfree_claim *out)
{
    static const uint8_t orders[TAKEN] = { 9, 0, 3, 8, 1, 2, 4, 5, 6, 7, 0, 9 };
    llfree_plain m = LLFREE_CLOSED;

    CHECK(llfree_plain_open(&m, END, NULL, 0) == LLFREE_OK);
    for (int i = 0; i < TAKEN; i++) {
        out[i].order = orders[i];
        CHECK(llfree_plain_take(&m, orders[i], &out[i].frame) == LLFREE_OK);
    }
    CHECK(llfree_image_words(END) == WORDS);
    CHECK(llfree_plain_close_image(&m, words, WORDS) == LLFREE_OK);
}

static uint32_t size_of(const llfree_claim *blocks, int count)
{
    uint32_t frames = 0;
    for (int i = 0; i < count; i++)
        frames += 1u << blocks[i].order;
    return frames;
}

/* Takes all that is free, frame by frame: just the frames that nobody has. */
static uint32_t take_all(struct memory *m, unsigned char *has)
{
    uint32_t count = 0, frame = 0;
    while (take(m, 0, &frame) == LLFREE_OK) {
        CHECK(frame < END && !has[frame]);
        has[frame] = 1;
        count++;
    }
    return count;
}

/* All blocks are claimed: those are out, and nothing else is held. */
static void all_claimed(struct memory *m, const uint64_t *words, const llfree_claim *out)
{
    static unsigned char has[END];
    uint32_t frame = 0;

    memset(has, 0, sizeof has);
    CHECK(reopen(m, END, words, WORDS, out, TAKEN) == LLFREE_OK && frames_in(m) == END);
    CHECK(reopen(m, END, words, WORDS, out, TAKEN) == LLFREE_OPEN_HANDLE);
    for (int i = 0; i < TAKEN; i++) {
        memset(has + out[i].frame, 1, 1u << out[i].order);
        CHECK(give(m, out[i].frame, out[i].order + 1) == LLFREE_NOT_HELD);
        CHECK(out[i].order == 0 || give(m, out[i].frame, out[i].order - 1) == LLFREE_NOT_HELD);
    }
    CHECK(take_all(m, has) == END - size_of(out, TAKEN));
    for (uint32_t i = 0; i < END; i++)
        CHECK(has[i]);
    /* the lower half of one block is given by itself, all others as they are */
    CHECK(split(m, out[3].frame, 8) == LLFREE_OK);
    CHECK(give(m, out[3].frame, 7) == LLFREE_OK && give(m, out[3].frame + 128, 7) == LLFREE_OK);
    for (int i = 0; i < TAKEN; i++)
        CHECK(give(m, out[i].frame, out[i].order) == (i == 3 ? LLFREE_NOT_HELD : LLFREE_OK));
    for (int i = 0; i < TAKEN; i++) {
        CHECK(give(m, out[i].frame, out[i].order) == LLFREE_NOT_HELD);
        memset(has + out[i].frame, 0, 1u << out[i].order);
    }
    for (uint32_t i = 0; i < END; i++)
        CHECK(give(m, i, 0) == (has[i] ? LLFREE_OK : LLFREE_NOT_HELD));
    for (int i = 0; i < END / CHILD; i++)
        CHECK(take(m, LARGEST, &frame) == LLFREE_OK);
    CHECK(take(m, LARGEST, &frame) == LLFREE_NO_BLOCK);
    close_memory(m);
}

/* Every other block is claimed: the others are held for good. */
static void some_claimed(struct memory *m, const uint64_t *words, const llfree_claim *out)
{
    static unsigned char has[END];
    llfree_claim claims[TAKEN / 2];

    memset(has, 0, sizeof has);
    for (int i = 0; i < TAKEN; i++) {
        memset(has + out[i].frame, 1, 1u << out[i].order);
        if (i % 2 == 0)
            claims[i / 2] = out[i];
    }
    CHECK(reopen(m, END, words, WORDS, claims, TAKEN / 2) == LLFREE_OK);
    CHECK(take_all(m, has) == END - size_of(out, TAKEN));
    for (int i = 0; i < TAKEN; i++)
        CHECK(give(m, out[i].frame, out[i].order) == (i % 2 == 0 ? LLFREE_OK : LLFREE_NOT_HELD));
    for (int i = 0; i < TAKEN; i += 2)
        memset(has + out[i].frame, 0, 1u << out[i].order);
    CHECK(take_all(m, has) == size_of(claims, TAKEN / 2));
    close_memory(m);
    /* none is claimed */
    memset(has, 0, sizeof has);
    CHECK(reopen(m, END, words, WORDS, NULL, 0) == LLFREE_OK);
    CHECK(take_all(m, has) == END - size_of(out, TAKEN));
    close_memory(m);
}

/* Counters that lie, and bits under a huge frame, change nothing. */
static void lies(struct memory *m, const uint64_t *words, const llfree_claim *out)
{
    uint64_t other[WORDS];

    memcpy(other, words, sizeof other);
    for (int c = 0; c < WORDS / 9; c++) {
        other[9 * c] = (words[9 * c] & 32768) + (c % 2 ? 512 : 0);
        if (words[9 * c] & 32768)
            memset(other + 9 * c + 1, 0x5a, 64);
    }
    all_claimed(m, other, out);
    some_claimed(m, other, out);
}

static void refused(struct memory *m, const uint64_t *words, const llfree_claim *out)
{
    static const struct {
        int place;
        uint64_t number;
    } wrong[] = { { 0, 513 }, { 0, 1024 }, { 0, 65536 }, { 0, 32768 + 513 }, { 0, UINT64_MAX },
                  { 9 * 5, 32768 }, { 9 * 5 + 2, 0 }, { 9 * 5 + 8, UINT64_MAX >> 1 } };
    /* for one thread a memory is one zone */
    const uint32_t sizes[] = { 0, m->is_shared ? 2147483649u : 4096 * CHILD + 1, UINT32_MAX };
    uint64_t other[WORDS];
    llfree_claim claims[2];

    for (size_t i = 0; i < sizeof sizes / sizeof *sizes; i++)
        CHECK(reopen(m, sizes[i], words, WORDS, out, TAKEN) == LLFREE_BAD_GEOMETRY);
    CHECK(reopen(m, END, words, WORDS - 1, out, TAKEN) == LLFREE_BAD_IMAGE);
    CHECK(reopen(m, END, NULL, 0, out, TAKEN) == LLFREE_BAD_IMAGE);
    CHECK(reopen(m, END + 1, words, WORDS, NULL, 0) == LLFREE_OK && frames_in(m) == END + 1);
    close_memory(m);
    for (size_t i = 0; i < sizeof wrong / sizeof *wrong; i++) {
        memcpy(other, words, sizeof other);
        other[wrong[i].place] = wrong[i].number;
        CHECK(reopen(m, END, other, WORDS, out, TAKEN) == LLFREE_BAD_IMAGE);
    }
    claims[0] = out[2];
    claims[1] = (llfree_claim) { 0, 10 };
    CHECK(reopen(m, END, words, WORDS, claims, 2) == LLFREE_BAD_ORDER);
    claims[1] = out[2];
    CHECK(reopen(m, END, words, WORDS, claims, 2) == LLFREE_NOT_HELD);
    claims[1] = (llfree_claim) { out[2].frame, out[2].order - 1 };
    CHECK(reopen(m, END, words, WORDS, claims, 2) == LLFREE_NOT_HELD);
    claims[1] = (llfree_claim) { out[2].frame + 1, 1 };
    CHECK(reopen(m, END, words, WORDS, claims, 2) == LLFREE_NOT_HELD);
    claims[1] = (llfree_claim) { out[0].frame, 8 };
    CHECK(reopen(m, END, words, WORDS, claims, 2) == LLFREE_NOT_HELD);
    claims[1] = (llfree_claim) { END, 0 };
    CHECK(reopen(m, END, words, WORDS, claims, 2) == LLFREE_NOT_HELD);
    claims[1] = (llfree_claim) { UINT32_MAX, 0 };
    CHECK(reopen(m, END, words, WORDS, claims, 2) == LLFREE_NOT_HELD);
    claims[1] = (llfree_claim) { UINT32_MAX - 511, 9 };
    CHECK(reopen(m, END, words, WORDS, claims, 2) == LLFREE_NOT_HELD);
    CHECK(reopen(m, END, words, WORDS, out, TAKEN) == LLFREE_OK);
    close_memory(m);
}

/* A half of a block that was held may be claimed, and the other stays. */
static void halves(struct memory *m, const uint64_t *words, const llfree_claim *out)
{
    llfree_claim half = { out[3].frame + 128, 7 };

    CHECK(reopen(m, END, words, WORDS, &half, 1) == LLFREE_OK);
    CHECK(give(m, out[3].frame, 8) == LLFREE_NOT_HELD && give(m, out[3].frame, 7) == LLFREE_NOT_HELD);
    CHECK(give(m, half.frame, 7) == LLFREE_OK && give(m, half.frame, 7) == LLFREE_NOT_HELD);
    close_memory(m);
}

int main(void)
{
    static uint64_t words[WORDS];
    static llfree_claim out[TAKEN];

    leave(words, out);
    for (int is_shared = 0; is_shared < 2; is_shared++) {
        struct memory m = { .is_shared = is_shared };
        all_claimed(&m, words, out);
        some_claimed(&m, words, out);
        lies(&m, words, out);
        refused(&m, words, out);
        halves(&m, words, out);
    }
    puts("ok");
    return 0;
}
