/* Duties of the header's callers: `duties` keeps them, and no tool says anything; `duties 3` breaks the third one, and
 * valgrind finds it (tools/c.sh has the tools). A second word stands for another way to break it. */
#include "check.h"
#include <pthread.h>

enum { FRAMES = 4096, ROUNDS = 50 };

static const char *broken = "", *way = "";

/* Whether this duty is broken, in this way. */
static bool breaks(const char *duty, const char *how)
{
    return strcmp(broken, duty) == 0 && strcmp(way, how) == 0;
}

static llfree_core opened(void)
{
    llfree_core core = LLFREE_CLOSED;
    CHECK(llfree_open_unchecked(&core, 1, FRAMES, NULL, 0) == LLFREE_OK);
    return core;
}

/* 1: a buffer has as many elements as the count beside it says. */
static void pointers(void)
{
    const size_t count = llfree_image_words(FRAMES);
    uint64_t *words = malloc(sizeof *words * (breaks("1", "") ? count - 1 : count));
    llfree_core core = opened();

    CHECK(words != NULL && llfree_close_image(&core, words, count) == LLFREE_OK);
    free(words);
}

/* Two threads, one after the other where the duty is kept. */
static void two_threads(bool is_kept, void *(*run)(void *), void *first, void *second)
{
    pthread_t threads[2];

    CHECK(pthread_create(&threads[0], NULL, run, first) == 0);
    CHECK(!is_kept || pthread_join(threads[0], NULL) == 0);
    CHECK(pthread_create(&threads[1], NULL, run, second) == 0);
    CHECK(is_kept || pthread_join(threads[0], NULL) == 0);
    CHECK(pthread_join(threads[1], NULL) == 0);
}

static uint64_t *image;

/* Closes with an image; without a core it reads the image. */
static void *closes_or_reads(void *core)
{
    const size_t count = llfree_image_words(FRAMES);
    uint64_t sum = 0;

    CHECK(core == NULL || llfree_close_image(core, image, count) == LLFREE_OK);
    for (size_t i = 0; core == NULL && i < count; i++)
        sum += image[i];
    return sum > 0 ? image : NULL;
}

/* 1: nobody else reads a buffer during the call. */
static void pointers_alone(void)
{
    llfree_core core = opened();

    image = calloc(llfree_image_words(FRAMES), sizeof *image);
    CHECK(image != NULL);
    two_threads(!breaks("1", "read"), closes_or_reads, &core, NULL);
    free(image);
}

/* 2: a handle starts closed, the old bytes of one that was moved are never used again, and calls alone write bytes. */
static void handles(void)
{
    llfree_core *core = malloc(sizeof *core), moved;
    uint32_t frame;

    CHECK(core != NULL);
    if (!breaks("2", ""))
        memset(core, 0, sizeof *core);
    CHECK(llfree_take(core, 0, &frame) == LLFREE_CLOSED_HANDLE);
    *core = opened();
    moved = *core;
    if (breaks("2", "overwritten"))
        memset(&moved, 0, sizeof moved), memset(core, 0, sizeof *core);
    llfree_close(&moved);
    if (breaks("2", "moved"))
        llfree_free_frames(core);
    free(core);
}

static llfree_core shared;
static llfree_block block;

static void *calls(void *none)
{
    (void)none;
    for (int i = 0; i < ROUNDS; i++)
        (void)llfree_free_frames(&shared);
    return NULL;
}

static void *gives(void *core)
{
    return llfree_give_block(core, &block) == LLFREE_OK ? core : NULL;
}

/* 3: one call at a time for each handle. */
static void calls_at_a_time(void)
{
    shared = opened();
    two_threads(!breaks("3", ""), calls, NULL, NULL);
    llfree_close(&shared);
}

/* 6: a struct starts empty. */
static void structs(void)
{
    llfree_block *held = malloc(sizeof *held);
    llfree_core core = opened();

    CHECK(held != NULL);
    if (!breaks("6", ""))
        memset(held, 0, sizeof *held);
    CHECK(llfree_give_block(&core, held) == LLFREE_NOT_HELD);
    llfree_close(&core);
    free(held);
}

/* 8: one call at a time for each struct. */
static void structs_at_a_time(void)
{
    llfree_core cores[2] = { LLFREE_CLOSED, LLFREE_CLOSED };

    CHECK(llfree_open_unchecked(cores, 2, FRAMES, NULL, 0) == LLFREE_OK);
    CHECK(llfree_take_block(&cores[0], 3, &block) == LLFREE_OK);
    two_threads(!breaks("8", ""), gives, &cores[0], &cores[1]);
    llfree_close(&cores[0]);
    llfree_close(&cores[1]);
}

int main(int count, char **words)
{
    if (count > 1)
        broken = words[1];
    if (count > 2)
        way = words[2];
    pointers();
    pointers_alone();
    handles();
    calls_at_a_time();
    structs();
    structs_at_a_time();
    puts("all checks passed");
    return 0;
}
