/* What each call needs of the stack, and openings and closings of the heap. Many blocks of all orders are taken, some
 * are split, the memory is closed with an image, opened again with all of them as claims, and they are given; in both
 * forms. A call's stack is counted from its caller's frame on, of 24 bytes, which is part of it. */
#include "costs.h"
#include "heap.h"
#include "memory.h"

enum { BLOCKS = 4000 };

static llfree_core core;
static uint32_t frame;
static uint8_t order;
static llfree_block one, upper;
static llfree_claim held[2 * BLOCKS];
static size_t count;
static uint32_t status;

static void call_open(void)
{
    status = llfree_open(&core, 1, (uint32_t)one_run.frames, one_run.ranges, one_run.range_count);
}

static void call_open_unchecked(void)
{
    status = llfree_open_unchecked(&core, 1, (uint32_t)one_run.frames, one_run.ranges, one_run.range_count);
}

static void call_reopen(void)
{
    status = llfree_reopen(&core, 1, (uint32_t)one_run.frames, image, one_run.numbers, held, count);
}

static void call_close_image(void)
{
    status = llfree_close_image(&core, image, one_run.numbers);
}

static void call_close(void)
{
    llfree_close(&core);
    status = LLFREE_OK;
}

static void call_take(void)
{
    status = llfree_take(&core, order, &frame);
}

static void call_give(void)
{
    status = llfree_give(&core, frame, order);
}

static void call_split(void)
{
    status = llfree_split(&core, frame, order);
}

static void call_take_block(void)
{
    status = llfree_take_block(&core, order, &one);
}

static void call_give_block(void)
{
    status = llfree_give_block(&core, &one);
}

static void call_split_block(void)
{
    status = llfree_split_block(&core, &one, &upper);
}

/* Makes a call that has to be well; the most stack that calls of its name needed is kept. */
static void make(void (*call)(void), size_t *most)
{
    size_t stack = stack_of(call);

    expect(status == LLFREE_OK, "a call of the measurement is refused");
    if (stack > *most)
        *most = stack;
}

/* The same, and says what it needed of the heap. */
static void make_large(const char *name, void (*call)(void))
{
    size_t stack = 0;

    heap_watch();
    make(call, &stack);
    print("  %s: stack %u, heap %u in blocks, in a span of %u\n", name, (uint64_t)stack,
          (uint64_t)heap_peak().in_blocks, (uint64_t)heap_peak().span);
}

static void hold(uint32_t first)
{
    held[count++] = (llfree_claim){ first, order };
}

static void by_number(void)
{
    size_t take = 0, give = 0, split = 0;

    make_large("llfree_open", call_open);
    for (int i = 0; i < BLOCKS; i++) {
        order = (uint8_t)(i % 10);
        make(call_take, &take);
        if (i % 3 == 0 && order > 0) {
            make(call_split, &split);
            order--;
            hold(frame + (1u << order));
        }
        hold(frame);
    }
    make_large("llfree_close_image", call_close_image);
    print("  with %u claims:\n", (uint64_t)count);
    make_large("llfree_reopen", call_reopen);
    while (count > 0) {
        count--;
        frame = held[count].frame;
        order = held[count].order;
        make(call_give, &give);
    }
    make_large("llfree_close", call_close);
    print("  stack: llfree_take %u, llfree_give %u, llfree_split %u\n", (uint64_t)take, (uint64_t)give,
          (uint64_t)split);
}

static void in_structs(void)
{
    size_t take = 0, give = 0, split = 0;

    make_large("llfree_open_unchecked", call_open_unchecked);
    for (int i = 0; i < BLOCKS; i++) {
        one = upper = (llfree_block)LLFREE_EMPTY;
        order = (uint8_t)(i % 10);
        make(call_take_block, &take);
        if (i % 3 == 0 && order > 0) {
            make(call_split_block, &split);
            make(call_give_block, &give);
        } else if (i % 2 == 0)
            make(call_give_block, &give);
    }
    make_large("llfree_close", call_close);
    print("  stack: llfree_take_block %u, llfree_give_block %u, llfree_split_block %u\n", (uint64_t)take,
          (uint64_t)give, (uint64_t)split);
}

void measure_costs(void)
{
    print("bytes that a call needs:\n");
    by_number();
    in_structs();
}
