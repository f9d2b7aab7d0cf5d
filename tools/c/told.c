/* Threads write the memory of the frames that they take, plainly, of a memory without holes and of two zones with a
 * hole between them: told ROUNDS [late]. Built with -DUNTOLD nobody tells ThreadSanitizer or valgrind who has which
 * frame; with `late` a frame is written behind its give. */
#include "check.h"
#include "llfree_tsan.h"
#include <pthread.h>
#include <sched.h>

/* HOLE frames of the second zone's number lie in no zone. */
enum { CORES = 2, FRAMES = 64, ORDERS = 4, SECOND = 512, HOLE = SECOND - FRAMES / 2 };

static llfree_core cores[CORES];
static _Alignas(LLFREE_FRAME_BYTES) unsigned char memory[(FRAMES + HOLE) * LLFREE_FRAME_BYTES];
static const llfree_range zones[] = { { 0, FRAMES / 2 }, { SECOND, FRAMES / 2 } };
static uint64_t rounds = 20000, written[CORES];
static bool is_late, has_hole;

static enum llfree_status take(llfree_core *core, uint8_t order, uint32_t *frame)
{
#ifdef UNTOLD
    return llfree_take(core, order, frame);
#else
    return llfree_take_told(core, memory, order, frame);
#endif
}

static enum llfree_status take_at(llfree_core *core, uint32_t frame, uint8_t order)
{
#ifdef UNTOLD
    return llfree_take_at(core, frame, order);
#else
    return llfree_take_at_told(core, memory, frame, order);
#endif
}

static enum llfree_status give(llfree_core *core, uint32_t frame, uint8_t order)
{
#ifdef UNTOLD
    return llfree_give(core, frame, order);
#else
    return has_hole ? llfree_give_told_in(core, memory, zones, 2, frame, order) :
                      llfree_give_told(core, memory, frame, order);
#endif
}

static uint64_t *number_in(uint32_t frame)
{
    return (uint64_t *)(memory + (size_t)LLFREE_FRAME_BYTES * frame);
}

/* By turns a block is taken anywhere and at a place, and is given whole and in halves. A frame counts who had it. */
static void *work(void *core)
{
    uint64_t random = 77 + (uint64_t)((llfree_core *)core - cores), *sum = &written[(llfree_core *)core - cores];

    for (uint64_t i = 0; i < rounds; i++) {
        uint8_t order = next_random(&random) % ORDERS;
        uint32_t frame = next_random(&random) % (FRAMES / 2) >> order << order;
        frame += i % 8 < 4 ? 0 : has_hole ? SECOND : FRAMES / 2;
        if ((i % 4 < 2 ? take(core, order, &frame) : take_at(core, frame, order)) != LLFREE_OK) {
            sched_yield();
            continue;
        }
        for (uint32_t f = frame; f < frame + (1u << order); f++)
            ++*number_in(f);
        *sum += 1u << order;
        if (order > 0 && i % 2) {
            CHECK(llfree_split(core, frame, order) == LLFREE_OK);
            order--;
            CHECK(give(core, frame + (1u << order), order) == LLFREE_OK);
        }
        CHECK(give(core, frame, order) == LLFREE_OK);
        if (is_late)
            ++*number_in(frame);
    }
    return NULL;
}

/* The same with blocks in structs, one after the other, and what is no block is told of no tool. */
static void others(void)
{
    llfree_block block = LLFREE_EMPTY;

    CHECK(llfree_take_block_told(&cores[0], memory, 2, &block) == LLFREE_OK);
    *number_in(block.frame) = 0;
    CHECK(llfree_give_block_told(&cores[1], memory, &block) == LLFREE_OK);
    CHECK(llfree_give_block_told(&cores[1], memory, &block) == LLFREE_NOT_HELD);
    CHECK(llfree_take_frame_told(&cores[0], memory, &block) == LLFREE_OK);
    *number_in(block.frame) = 0;
    CHECK(llfree_give_frame_told(&cores[1], memory, &block) == LLFREE_OK);
    CHECK(llfree_give_frame_told(&cores[1], memory, &block) == LLFREE_NOT_HELD);
    CHECK(llfree_take_frame_told(&cores[1], memory, &block) == LLFREE_OK);
    *number_in(block.frame) = 0;
    CHECK(llfree_give_frame_told(&cores[0], memory, &block) == LLFREE_OK);
    llfree_block blocks[3] = { LLFREE_EMPTY };
    size_t taken = 0;
    CHECK(llfree_take_frames_told(&cores[1], memory, blocks, 3, &taken) == LLFREE_OK && taken == 3);
    for (size_t i = 0; i < taken; i++)
        *number_in(blocks[i].frame) = 0;
    CHECK(llfree_give_frames_told(&cores[0], memory, blocks, taken) == LLFREE_OK);
    CHECK(llfree_give_frames_told(&cores[0], memory, blocks, taken) == LLFREE_NOT_HELD);
    uint32_t frame = 0;
    CHECK(llfree_take_number_told(&cores[1], memory, &frame) == LLFREE_OK);
    *number_in(frame) = 0;
    CHECK(llfree_give_number_told(&cores[0], memory, frame) == LLFREE_OK);
    CHECK(llfree_give_number_told(&cores[0], memory, frame) == LLFREE_NOT_HELD);
    CHECK(llfree_give_number_told(&cores[0], memory, FRAMES) == LLFREE_NOT_HELD);
    CHECK(llfree_give_told(&cores[0], memory, UINT32_MAX, 0) == LLFREE_NOT_HELD);
    CHECK(llfree_give_told(&cores[0], memory, 0, 255) == LLFREE_NOT_HELD);
    CHECK(llfree_give_told(&cores[0], memory, FRAMES - 1, 1) == LLFREE_NOT_HELD);
    for (int i = 0; i < CORES; i++)
        llfree_drain(&cores[i]);
    CHECK(llfree_take_block_at_told(&cores[1], memory, 40, 3, &block) == LLFREE_OK);
    CHECK(llfree_take_at_told(&cores[0], memory, 47, 0) == LLFREE_NO_BLOCK);
    *number_in(47) = 0;
    CHECK(llfree_give_block_told(&cores[0], memory, &block) == LLFREE_OK);
}

/* Of zones numbers of the hole, of both sides of a border and past the end are told of no tool. */
static void in_holes(void)
{
    /* memcheck would find the first byte of each where it had been told */
    unsigned char *between = memory + (size_t)LLFREE_FRAME_BYTES * (FRAMES / 2);

    CHECK(llfree_give_told_in(&cores[0], memory, zones, 2, FRAMES / 2, 0) == LLFREE_NOT_HELD);
    CHECK(llfree_give_told_in(&cores[0], memory, zones, 2, SECOND - 1, 0) == LLFREE_NOT_HELD);
    CHECK(llfree_give_told_in(&cores[0], memory, zones, 2, FRAMES / 2 - 1, 1) == LLFREE_NOT_HELD);
    CHECK(llfree_give_told_in(&cores[0], memory, zones, 2, SECOND + FRAMES / 2, 0) == LLFREE_NOT_HELD);
    CHECK(llfree_give_told_in(&cores[0], memory, zones, 2, UINT32_MAX, 9) == LLFREE_NOT_HELD);
    CHECK(llfree_give_told_in(&cores[0], memory, zones, 2, 0, 255) == LLFREE_NOT_HELD);
    CHECK(llfree_give_number_told_in(&cores[0], memory, zones, 2, SECOND - 1) == LLFREE_NOT_HELD);
    CHECK(*between == 0 && memory[(size_t)LLFREE_FRAME_BYTES * (SECOND - 1)] == 0);
}

/* Both threads work, and each frame has counted who had it. */
static void work_on_all(void)
{
    pthread_t threads[CORES];
    uint32_t taken[FRAMES];
    uint64_t sum = 0;

    for (int i = 0; i < CORES; i++)
        CHECK(pthread_create(&threads[i], NULL, work, &cores[i]) == 0);
    for (int i = 0; i < CORES; i++)
        CHECK(pthread_join(threads[i], NULL) == 0);
    for (int i = 0; i < FRAMES; i++) {
        CHECK(take(&cores[0], 0, &taken[i]) == LLFREE_OK);
        sum += *number_in(taken[i]);
    }
#ifdef LLFREE_TELLS_VALGRIND
    /* what a frame had before it was taken is undefined for memcheck */
    (void)VALGRIND_MAKE_MEM_DEFINED(&sum, sizeof sum);
#endif
    CHECK(is_late || sum == written[0] + written[1]);
    for (int i = 0; i < FRAMES; i++)
        CHECK(give(&cores[i % 2], taken[i], 0) == LLFREE_OK);
}

int main(int argc, char **argv)
{
    if (argc > 1)
        rounds = strtoull(argv[1], NULL, 10);
    is_late = argc > 2;
    CHECK(llfree_open(cores, CORES, FRAMES, NULL, 0) == LLFREE_OK);
    work_on_all();
    others();
    for (int i = 0; i < CORES; i++)
        llfree_close(&cores[i]);

    has_hole = true;
    /* from now on the frames are another memory's, and begin as they were */
#ifdef LLFREE_TELLS_VALGRIND
    (void)VALGRIND_MAKE_MEM_UNDEFINED(memory, sizeof memory);
#endif
    memset(memory, 0, sizeof memory);
    memset(written, 0, sizeof written);
    CHECK(llfree_open_zones(cores, CORES, zones, 2, NULL, 0) == LLFREE_OK);
    work_on_all();
    in_holes();
    for (int i = 0; i < CORES; i++)
        llfree_close(&cores[i]);
    return 0;
}
