/* A kernel that does nothing but hand out its machine's page frames: all of them, on all CPUs, while timers interrupt,
 * whose handlers take and give, too. Every page bears the stamp of who holds it. The words of QEMU's -append:
 *   costs    first it is measured what each call needs
 *   quiet    no timer interrupts
 *   sse      instructions of SSE are allowed
 *   structs  only the form without checks
 *   twice    the last CPU gives a block, and gives it again
 *   shared   the last CPU gives a block, and goes on with its pages */
#include "costs.h"
#include "llfree.h"
#include "machine.h"
#include "memory.h"
#include "../report.h"

void main(void);

enum { HELD = 2048, HANDLED = 16, ROUNDS = 200000, TICK = 50000 /* nanoseconds */, WRONG_GIVE = 1000 };

struct held {
    llfree_block block; /* of both forms: by number just its frame and order count */
    bool is_number;
    uint64_t stamp;
};

/* What a CPU does by itself, and in its timer's handler, each through a core of its own. */
struct hand {
    _Alignas(64) llfree_core core;
    struct held held[HELD], post; /* any hand takes out what lies in the post */
    bool is_locked, was_wrong;
    volatile bool is_at_work, is_inside; /* of a call */
    uint64_t random, stamps, takes, splits, gives, none, inside, frames; /* the last: takes of frames that may rest */
};
static struct hand hands[2 * CPUS], *const handlers = hands + CPUS;

static unsigned cpus;
static const struct memory *memory;
static uint32_t phase, done;
static bool is_checked, is_quiet, has_sse, gives_twice, goes_on;
static llfree_claim claims[2 * CPUS * (HELD + 1)];

static uint32_t random(struct hand *hand, uint32_t below)
{
    hand->random = hand->random * 6364136223846793005u + 1442695040888963407u;
    return (uint32_t)((hand->random >> 32) * below >> 32);
}

/* In both forms half of the single frames are taken by the call for frames that rest; these are structs. */
static uint32_t take(struct hand *hand, uint8_t order, struct held *one)
{
    bool may_rest = order == 0 && random(hand, 2) == 0;
    uint32_t status;

    one->is_number = is_checked && !may_rest;
    hand->is_inside = true;
    status = may_rest         ? llfree_take_frame(&hand->core, &one->block)
             : one->is_number ? llfree_take(&hand->core, order, &one->block.frame)
                              : llfree_take_block(&hand->core, order, &one->block);
    hand->is_inside = false;
    hand->frames += may_rest && status == LLFREE_OK;
    if (one->is_number && status == LLFREE_OK) {
        one->block.order = order;
        one->block.live = true;
    }
    return status;
}

/* Half of the single frames in structs come to rest, whichever call took them. */
static uint32_t give(struct hand *hand, struct held *one)
{
    bool may_rest = one->block.order == 0 && random(hand, 2) == 0;
    uint32_t status;

    hand->is_inside = true;
    status = one->is_number ? llfree_give(&hand->core, one->block.frame, one->block.order)
             : may_rest     ? llfree_give_frame(&hand->core, &one->block)
                            : llfree_give_block(&hand->core, &one->block);
    hand->is_inside = false;
    if (one->is_number && status == LLFREE_OK)
        one->block = (llfree_block)LLFREE_EMPTY;
    return status;
}

static uint32_t split(struct hand *hand, struct held *one, struct held *upper)
{
    llfree_block *block = &one->block;

    hand->is_inside = true;
    uint32_t status = one->is_number ? llfree_split(&hand->core, block->frame, block->order)
                                     : llfree_split_block(&hand->core, block, &upper->block);
    hand->is_inside = false;
    upper->is_number = one->is_number;
    if (one->is_number && status == LLFREE_OK) {
        block->order--;
        upper->block = (llfree_block){ true, block->frame + (1u << block->order), block->order };
    }
    return status;
}

static void take_one(struct hand *hand, struct held *one, uint8_t order)
{
    uint32_t status = take(hand, order, one);

    if (status == LLFREE_NO_BLOCK || status == LLFREE_CONTENDED) {
        hand->none++;
        return;
    }
    expect(status == LLFREE_OK, "a take is refused");
    one->stamp = (++hand->stamps * 2 * CPUS + (uint64_t)(hand - hands)) << 32;
    stamp(&one->block, 0, one->stamp);
    hand->takes++;
}

static void give_one(struct hand *hand, struct held *one)
{
    bool is_wrong = hand == &hands[cpus - 1] && hand->gives >= WRONG_GIVE && !hand->was_wrong &&
                    one->is_number == is_checked;
    struct held before = *one;

    hand->was_wrong |= is_wrong;
    hand->gives++;
    if (is_wrong && goes_on) {
        /* its pages are written on, so that whoever takes them next finds its stamp, or it finds another one */
        expect(give(hand, one) == LLFREE_OK, "a block that was held is refused");
        stamp(&before.block, one->stamp, one->stamp);
        return;
    }
    if (is_wrong && gives_twice) {
        hand->is_at_work = false; /* nor does its handler tell anything */
        tell_alone();
    }
    stamp(&one->block, one->stamp, 0);
    expect(give(hand, one) == LLFREE_OK, "a block that was held is refused");
    if (is_wrong && gives_twice) {
        expect(give(hand, &before) == LLFREE_OK, "a block that was given is refused");
        expect(false, "a block that was given is given again");
    }
}

static void split_one(struct hand *hand, struct held *one, struct held *empty)
{
    if (one->block.order == 0 || empty->block.live)
        return;
    expect(split(hand, one, empty) == LLFREE_OK, "a split is refused");
    empty->stamp = one->stamp;
    hand->splits++;
}

/* What is held, or nothing, changes places with what lies in the post of some hand. A handler does not wait. */
static void exchange(struct held *one, struct hand *to, bool waits)
{
    struct held before = *one;

    while (__atomic_test_and_set(&to->is_locked, __ATOMIC_ACQUIRE))
        if (!waits)
            return;
    *one = to->post;
    to->post = before;
    __atomic_clear(&to->is_locked, __ATOMIC_RELEASE);
}

static void work(struct hand *hand)
{
    hand->is_at_work = true;
    for (uint32_t round = 0; round < ROUNDS; round++) {
        struct held *one = &hand->held[random(hand, HELD)];

        if (random(hand, 8) == 0)
            exchange(one, &hands[random(hand, cpus)], true);
        else if (!one->block.live)
            take_one(hand, one, (uint8_t)random(hand, ORDERS));
        else if (random(hand, 4) == 0)
            split_one(hand, one, &hand->held[random(hand, HELD)]);
        else
            give_one(hand, one);
    }
    hand->is_at_work = false;
}

/* What a timer's handler does, wherever it finds its CPU at work. */
static void handle(unsigned number)
{
    struct hand *hand = &handlers[number];
    struct held *one = &hand->held[random(hand, HANDLED)];

    if (!hands[number].is_at_work)
        return;
    if (random(hand, 8) == 0) {
        exchange(one, &hands[random(hand, cpus)], false);
        return;
    }
    hand->inside += hands[number].is_inside;
    if (one->block.live)
        give_one(hand, one);
    else
        take_one(hand, one, (uint8_t)random(hand, 4));
}

static void start(unsigned number)
{
    hands[number].random = number;
    handlers[number].random = CPUS + number;
    if (!is_quiet)
        start_timer(TICK, handle);
}

/* What every CPU but the first does: its work, once in each phase. */
static void run_other(unsigned number)
{
    if (has_sse)
        allow_sse();
    start(number);
    for (uint32_t last = 0;; last++) {
        while (__atomic_load_n(&phase, __ATOMIC_SEQ_CST) == last)
            __asm__ volatile("pause");
        work(&hands[number]);
        __atomic_fetch_add(&done, 1, __ATOMIC_SEQ_CST);
    }
}

static void run_all(void)
{
    done = 0;
    __atomic_fetch_add(&phase, 1, __ATOMIC_SEQ_CST);
    work(&hands[0]);
    while (__atomic_load_n(&done, __ATOMIC_SEQ_CST) != cpus - 1)
        __asm__ volatile("pause");
}

/* Closes with an image, and reports on it: how many frames are free. */
static uint64_t close_all(llfree_core *handles, size_t count)
{
    struct report report;

    for (size_t i = 1; i < count; i++)
        llfree_close(&handles[i]);
    expect(llfree_close_image(&handles[0], image, memory->numbers) == LLFREE_OK, "no image");
    expect(read_image(&report, image, memory->numbers), "a count of the image is wrong");
    print("free blocks of order 0 to 9:");
    for (unsigned order = 0; order < ORDERS; order++)
        print(" %6u", report.blocks[order]);
    print("\n");
    return report.frames;
}

static void opens(uint32_t status)
{
    if (status != LLFREE_OK)
        print("the opening answers %u\n", (uint64_t)status);
    expect(status == LLFREE_OK, "not opened");
}

/* What is held becomes a claim, and its pages have no stamp any more. */
static void claim(struct held *one, size_t *count, uint64_t *held)
{
    if (!one->block.live)
        return;
    stamp(&one->block, one->stamp, 0);
    claims[(*count)++] = (llfree_claim){ one->block.frame, one->block.order };
    *held += 1ull << one->block.order;
    one->block = (llfree_block)LLFREE_EMPTY;
}

/* Opens at the image that was left, and gives all claimed blocks: then all is free. */
static void give_claims(llfree_core *handle, size_t count)
{
    opens(is_checked ? llfree_reopen_zones(handle, 1, memory->zones, memory->zone_count, image, memory->numbers, claims,
                                           count)
                     : llfree_reopen(handle, 1, (uint32_t)memory->frames, image, memory->numbers, claims, count));
    for (size_t i = 0; i < count; i++)
        expect(llfree_give(handle, claims[i].frame, claims[i].order) == LLFREE_OK, "a claimed block is refused");
    if (count > 0)
        expect(llfree_give(handle, claims[0].frame, claims[0].order) == LLFREE_NOT_HELD, "given twice");
    expect(close_all(handle, 1) + memory->reserved == memory->frames, "not all is free in the end");
}

/* The cores of all CPUs, and those of their handlers. */
static void open_all(llfree_core *handles)
{
    memory = is_checked ? &apart : &one_run;
    opens(is_checked ? llfree_open_zones(handles, 2 * cpus, memory->zones, memory->zone_count, memory->ranges,
                                         memory->range_count)
                     : llfree_open_unchecked(handles, 2 * cpus, (uint32_t)memory->frames, memory->ranges,
                                             memory->range_count));
    for (unsigned i = 0; i < 2 * cpus; i++) {
        struct hand *hand = &hands[i / cpus * CPUS + i % cpus];

        hand->core = handles[i]; /* moved, each into cache lines of its own */
        handles[i] = (llfree_core)LLFREE_CLOSED;
        hand->was_wrong = false;
        hand->takes = hand->splits = hand->gives = hand->none = hand->inside = hand->frames = 0;
    }
}

/* Takes the cores back, and claims what is held, which it answers. */
static uint64_t claim_all(llfree_core *handles, size_t *count)
{
    uint64_t held = 0;

    for (unsigned i = 0; i < 2 * cpus; i++) {
        struct hand *hand = &hands[i / cpus * CPUS + i % cpus];

        handles[i] = hand->core;
        for (unsigned at = 0; at < HELD; at++)
            claim(&hand->held[at], count, &held);
        claim(&hand->post, count, &held);
    }
    return held;
}

static void print_counts(void)
{
    uint64_t takes = 0, splits = 0, none = 0, interrupts = 0, handled = 0, gives = 0, inside = 0;
    uint64_t frames = 0;

    for (unsigned i = 0; i < cpus; i++) {
        takes += hands[i].takes;
        splits += hands[i].splits;
        none += hands[i].none + handlers[i].none;
        interrupts += interrupts_of(i);
        handled += handlers[i].takes;
        gives += handlers[i].gives;
        inside += handlers[i].inside;
        frames += hands[i].frames + handlers[i].frames;
    }
    print("%u takes, %u splits, %u times no block, %u interrupts so far\n", takes, splits, none, interrupts);
    print("in handlers %u takes, %u gives; %u of these calls came inside of a call of their CPU\n", handled, gives,
          inside);
    print("%u single frames were taken by the call for those that rest\n", frames);
    expect(frames > 0, "no frame was taken by that call");
    expect(is_quiet || inside > 0, "no handler came inside of a call");
}

static void try_form(bool with_checks)
{
    static llfree_core handles[2 * CPUS];
    uint64_t held;
    size_t count = 0;

    is_checked = with_checks;
    print("%s\n", is_checked ? "blocks by number, checked, in zones:" : "blocks in structs, unchecked, in one run:");
    open_all(handles);
    run_all();
    print_counts();
    held = claim_all(handles, &count);
    print("%u blocks of %u frames are held\n", (uint64_t)count, held);
    expect(close_all(handles, 2 * cpus) + held + memory->reserved == memory->frames,
           "some frame is neither free nor held nor reserved");
    give_claims(&handles[0], count);
}

void main(void)
{
    size_t stack = 0;

    is_quiet = is_said("quiet");
    has_sse = is_said("sse");
    gives_twice = is_said("twice");
    goes_on = is_said("shared");
    cpus = count_of_cpus();
    print("%u CPUs; memory:\n", (uint64_t)cpus);
    read_memory();
    if (has_sse)
        allow_sse();
    if (is_said("costs"))
        measure_costs();
    start(0);
    start_cpus(run_other);
    if (!is_said("structs"))
        try_form(true);
    try_form(false);
    for (unsigned i = 1; i < cpus; i++)
        if (deepest_stack(i) > stack)
            stack = deepest_stack(i);
    print("a CPU that takes, gives and splits had at most %u bytes on its stack\n", (uint64_t)stack);
    print("all is well\n");
    stop(true);
}
