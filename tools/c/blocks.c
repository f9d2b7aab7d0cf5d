/* Free blocks of each order, as llfree_blocks.h reads them from the library's words, beside a byte a frame: openings of
 * every kind, with ranges, holes and cut ends; calls at random, with frames that rest; what is not found; and threads
 * that take, split and give, while two others read: what is held all the while they never see free. */
#include "check.h"
#include "llfree_blocks.h"
#include <pthread.h>
#include <stdatomic.h>

enum { CORES = 4, ORDERS = LLFREE_COUNTED_ORDERS, MOST = 40 * 512, ZONES = 4, CALLS = 30000, HELD = 300, STEADY = 120 };

struct rattle_block {
    bool found;
    void *at;
};

struct rattle_block rattle_alloc(size_t size, size_t alignment);
struct rattle_block rattle_realloc(void *old, size_t kept, size_t size, size_t alignment);
void rattle_dealloc(void *block);

static llfree_noted noted[ZONES + LLFREE_NOTED_MORE];
static llfree_block_counter counter;

struct rattle_block rattle_alloc(size_t size, size_t alignment)
{
    void *block = malloc(size + !size);

    CHECK(block && alignment <= 16);
    llfree_counter_note(&counter, block, size, alignment);
    return (struct rattle_block) { true, block };
}

void rattle_dealloc(void *block)
{
    llfree_counter_forget(&counter, block);
    free(block);
}

struct rattle_block rattle_realloc(void *old, size_t kept, size_t size, size_t alignment)
{
    struct rattle_block block = rattle_alloc(size, alignment);

    memcpy(block.at, old, kept < size ? kept : size);
    rattle_dealloc(old);
    return block;
}

/* An opening, and what it holds back. */
struct memory {
    bool is_list, is_checked; /* by its zones; by numbers */
    size_t zones, ranges;
    llfree_range zone[ZONES], range[3];
};

static const struct memory memories[] = {
    { false, true, 1, 0, { { 0, 1 } }, { { 0, 0 } } },
    { false, false, 1, 0, { { 0, 64 } }, { { 0, 0 } } },
    { false, true, 1, 1, { { 0, 515 } }, { { 514, 1 } } },
    { false, true, 1, 0, { { 0, 40 * 512 } }, { { 0, 0 } } },
    { false, false, 1, 3, { { 0, 39 * 512 + 77 } }, { { 0, 1 }, { 600, 8 }, { 1024, 1024 } } },
    { true, true, 3, 2, { { 512, 512 }, { 2048, 3000 }, { 5120, 4096 } }, { { 512, 512 }, { 5000, 48 } } },
    { true, false, 2, 0, { { 0, 8192 }, { 8192, 8192 } }, { { 0, 0 } } },
    /* each zone has as many words as a block that comes before them */
    { true, true, 4, 0, { { 0, 1000 }, { 1024, 1024 }, { 2048, 513 }, { 3072, 600 } }, { { 0, 0 } } },
};

static llfree_core cores[CORES];
static uint64_t *room;

/* Beside the library: 0 where a frame is free, 1 where it is held, 2 where no zone has it. */
static _Atomic unsigned char state[MOST];

static void turn(uint32_t first, uint32_t frames, unsigned char to)
{
    for (uint32_t f = first; f < first + frames; f++)
        CHECK(atomic_exchange(&state[f], to) == !to);
}

static enum llfree_status open_memory(const struct memory *m)
{
    const llfree_range *ranges = m->ranges ? m->range : NULL;

    memset(cores, 0, sizeof cores);
    if (m->is_list && m->is_checked)
        return llfree_open_zones(cores, CORES, m->zone, m->zones, ranges, m->ranges);
    if (m->is_list)
        return llfree_open_zones_unchecked(cores, CORES, m->zone, m->zones, ranges, m->ranges);
    return m->is_checked ? llfree_open(cores, CORES, m->zone[0].frames, ranges, m->ranges) :
                           llfree_open_unchecked(cores, CORES, m->zone[0].frames, ranges, m->ranges);
}

static void begin(const struct memory *m, size_t noted_most)
{
    counter = m->is_list ? llfree_counter_of_zones(m->zone, m->zones, CORES, noted, noted_most) :
                           llfree_counter_of(m->zone[0].frames, CORES, noted, noted_most);
    room = realloc(room, 8 * llfree_counter_room(&counter));
    CHECK(room && open_memory(m) == LLFREE_OK);
    for (uint32_t f = 0; f < MOST; f++)
        state[f] = 2;
    for (size_t z = 0; z < m->zones; z++)
        for (uint32_t f = m->zone[z].first; f < m->zone[z].first + m->zone[z].frames; f++)
            state[f] = 0;
    for (size_t r = 0; r < m->ranges; r++)
        turn(m->range[r].first, m->range[r].frames, 1);
}

static void close_all(void)
{
    for (int i = 0; i < CORES; i++)
        llfree_close(&cores[i]);
}

/* Block by block, from the largest order down: those of free frames that are in no larger one. */
static void count_states(uint32_t from, uint32_t to, unsigned long *blocks)
{
    static unsigned char is_counted[MOST];

    memset(is_counted, 0, sizeof is_counted);
    memset(blocks, 0, ORDERS * sizeof *blocks);
    for (int order = LARGEST; order >= 0; order--)
        for (uint32_t first = from; first + (1u << order) <= to; first += 1u << order) {
            uint32_t free = 0;
            while (free < 1u << order && !state[first + free] && !is_counted[first + free])
                free++;
            if (free < 1u << order)
                continue;
            memset(is_counted + first, 1, free);
            blocks[order]++;
        }
}

/* Nobody calls: each zone's counts and those of all are those of the test's own bytes. */
static void compare(const struct memory *m)
{
    unsigned long seen[ORDERS], mine[ORDERS], sums[ORDERS] = { 0 };

    for (size_t z = 0; z < m->zones; z++) {
        count_states(m->zone[z].first, m->zone[z].first + m->zone[z].frames, mine);
        memset(seen, 0xff, sizeof seen);
        CHECK(llfree_count_blocks_of(&counter, z, room, seen) && !memcmp(seen, mine, sizeof seen));
        for (int order = 0; order < ORDERS; order++)
            sums[order] += mine[order];
    }
    memset(seen, 0xff, sizeof seen);
    CHECK(llfree_count_blocks(&counter, room, seen) && !memcmp(seen, sums, sizeof seen));
    CHECK(!llfree_count_blocks_of(&counter, m->zones, room, seen) && seen[0] == 0 && seen[LARGEST] == 0);
    CHECK(!llfree_counter_image(&counter, m->zones, room));
}

/* Blocks in structs, which each form of an opening has. */
struct caller {
    llfree_core *core;
    uint64_t x;
    int count;
    llfree_block held[HELD];
};

static void give(struct caller *me, llfree_block *block)
{
    turn(block->frame, 1u << block->order, 0);
    CHECK(llfree_give_block(me->core, block) == LLFREE_OK);
}

static void call(struct caller *me, uint32_t most)
{
    const uint64_t r = next_random(&me->x);
    const int at = (int)((r >> 32) % HELD);
    llfree_block upper = LLFREE_EMPTY;

    if (at >= me->count) {
        uint8_t order = r & 3 ? (r >> 8) % 4 : (r >> 8) % ORDERS;
        if (me->count == HELD || 1u << order > most ||
            llfree_take_block(me->core, order, &me->held[me->count]) != LLFREE_OK)
            return;
        turn(me->held[me->count].frame, 1u << order, 1);
        me->count++;
    } else if (r & 4 && me->held[at].order > 0) {
        CHECK(llfree_split_block(me->core, &me->held[at], &upper) == LLFREE_OK);
        give(me, &upper);
    } else {
        give(me, &me->held[at]);
        me->held[at] = me->held[--me->count];
        me->held[me->count] = (llfree_block)LLFREE_EMPTY;
    }
}

static void one_thread(const struct memory *m)
{
    static struct caller me;
    llfree_block single = LLFREE_EMPTY;

    begin(m, ZONES + LLFREE_NOTED_MORE);
    CHECK(llfree_counter_find(&counter, &cores[1], room));
    memset(&me, 0, sizeof me);
    me.x = 2463534242ull;
    compare(m);
    for (int i = 0; i < 2000; i++) {
        me.core = &cores[i % CORES];
        call(&me, MOST);
        if (i % 40 == 0)
            compare(m);
    }
    /* a frame that rests is held */
    if (llfree_take_frame(&cores[0], &single) == LLFREE_OK) {
        llfree_drain(&cores[0]);
        turn(single.frame, 1, 1);
        compare(m);
        const uint32_t frame = single.frame;
        CHECK(llfree_give_frame(&cores[0], &single) == LLFREE_OK);
        compare(m);
        llfree_drain(&cores[0]);
        turn(frame, 1, 0);
    }
    while (me.count > 0)
        give(&me, &me.held[--me.count]);
    compare(m);
    close_all();
}

/* More zones than one by the number of frames. */
static void large(void)
{
    enum { FRAMES = 2 * 2097152 + 700 };
    unsigned long blocks[ORDERS];
    llfree_block block = LLFREE_EMPTY;

    counter = llfree_counter_of(FRAMES, CORES, noted, ZONES + LLFREE_NOTED_MORE);
    room = realloc(room, 8 * llfree_counter_room(&counter));
    CHECK(room && llfree_counter_frames(&counter, 1) == 2097152 && llfree_counter_frames(&counter, 2) == 700);
    CHECK(llfree_counter_frames(&counter, 3) == 0);
    CHECK(llfree_open_unchecked(cores, CORES, FRAMES, NULL, 0) == LLFREE_OK);
    CHECK(llfree_counter_find(&counter, &cores[0], room));
    CHECK(llfree_take_block_at(&cores[0], FRAMES - 1, 0, &block) == LLFREE_OK);
    CHECK(llfree_count_blocks(&counter, room, blocks) && blocks[9] == 8193 && blocks[0] == 1 && blocks[1] == 1);
    CHECK(blocks[2] == 0 && blocks[3] == 1 && blocks[4] == 1 && blocks[5] == 1 && blocks[6] == 0 && blocks[7] == 1);
    CHECK(llfree_count_blocks_of(&counter, 1, room, blocks) && blocks[9] == 4096);
    CHECK(llfree_give_block(&cores[1], &block) == LLFREE_OK);
    close_all();
}

/* Nothing is counted, and all numbers are 0. */
static void is_unknown(void)
{
    unsigned long blocks[ORDERS];

    memset(blocks, 0xff, sizeof blocks);
    CHECK(!llfree_counter_find(&counter, &cores[0], room) && !llfree_count_blocks(&counter, room, blocks));
    for (int order = 0; order < ORDERS; order++)
        CHECK(blocks[order] == 0);
    memset(blocks, 0xff, sizeof blocks);
    CHECK(!llfree_count_blocks_of(&counter, 0, room, blocks) && blocks[0] == 0 && blocks[LARGEST] == 0);
    CHECK(!llfree_counter_image(&counter, 0, room));
}

static void unknown(void)
{
    const struct memory *m = &memories[4];

    /* before an opening, and with too little room for what is noted */
    memset(cores, 0, sizeof cores);
    counter = llfree_counter_of(m->zone[0].frames, CORES, noted, ZONES + LLFREE_NOTED_MORE);
    room = realloc(room, 8 * llfree_counter_room(&counter));
    is_unknown();
    for (size_t most = 0; most < 6; most++) {
        begin(m, most);
        is_unknown();
        close_all();
    }
    begin(m, 1 + LLFREE_NOTED_MORE);
    CHECK(llfree_counter_find(&counter, &cores[0], room));
    /* it is found once */
    CHECK(!llfree_counter_find(&counter, &cores[0], room));
    compare(m);
    close_all();
    /* another memory than was said, smaller and much larger: no word is read past the end of a block */
    for (uint32_t frames = m->zone[0].frames - 512; frames <= 2097152; frames += 1 << 20) {
        counter = llfree_counter_of(frames, CORES, noted, ZONES + LLFREE_NOTED_MORE);
        room = realloc(room, 8 * llfree_counter_room(&counter));
        CHECK(room && open_memory(m) == LLFREE_OK);
        is_unknown();
        close_all();
    }
    counter = llfree_counter_of(m->zone[0].frames, CORES, noted, ZONES + LLFREE_NOTED_MORE);
    CHECK(open_memory(m) == LLFREE_OK);
    /* the library counts other frames than those words */
    llfree_block block = LLFREE_EMPTY;
    uint64_t *words = (uint64_t *)counter.noted[LLFREE_NOTED_BEFORE].words;
    const size_t last = llfree_words(m->zone[0].frames, CORES) - 9;
    CHECK(words[last] == 0);
    words[last] = 1;
    is_unknown();
    words[last] = 0;
    CHECK(llfree_take_block(&cores[0], 3, &block) == LLFREE_OK && llfree_counter_find(&counter, &cores[0], room));
    close_all();
    counter = llfree_counter_of(0, CORES, noted, ZONES + LLFREE_NOTED_MORE);
    CHECK(llfree_counter_room(&counter) == 0);
    is_unknown();
}

static struct caller callers[CORES];
static llfree_block steady[STEADY];
static pthread_barrier_t barrier;
static atomic_bool is_over;
static unsigned stops;

static void *work(void *argument)
{
    struct caller *me = argument;

    for (unsigned stop = 0; stop < stops; stop++) {
        for (int i = 0; i < CALLS; i++)
            call(me, 512);
        pthread_barrier_wait(&barrier);
        pthread_barrier_wait(&barrier);
    }
    return NULL;
}

/* Reads with a room of its own. */
static void *look(void *argument)
{
    const struct memory *m = argument;
    uint64_t *own = malloc(8 * llfree_counter_room(&counter));

    CHECK(own);
    while (!is_over)
        for (size_t z = 0; z < m->zones; z++) {
            const uint64_t *image = llfree_counter_image(&counter, z, own);
            CHECK(image);
            for (int i = 0; i < STEADY; i++)
                for (uint32_t f = steady[i].frame; f < steady[i].frame + (1u << steady[i].order); f++) {
                    const uint32_t in = f - m->zone[z].first;
                    const uint64_t *child = image + in / 512 * 9;
                    CHECK(in >= m->zone[z].frames || child[0] == LLFREE_COUNTED_HUGE ||
                          child[1 + in % 512 / 64] >> in % 64 & 1);
                }
        }
    free(own);
    return NULL;
}

static void threads(const struct memory *m)
{
    pthread_t all[CORES], looking[2];

    begin(m, ZONES + LLFREE_NOTED_MORE);
    CHECK(llfree_counter_find(&counter, &cores[0], room));
    memset(callers, 0, sizeof callers);
    memset(steady, 0, sizeof steady);
    for (int i = 0; i < STEADY; i++) {
        CHECK(llfree_take_block(&cores[i % CORES], i % 7 ? i % 6 : LARGEST * (i % 14 / 7), &steady[i]) == LLFREE_OK);
        turn(steady[i].frame, 1u << steady[i].order, 1);
    }
    CHECK(pthread_barrier_init(&barrier, NULL, CORES + 1) == 0);
    for (int i = 0; i < CORES; i++) {
        callers[i].core = &cores[i];
        callers[i].x = 88172645463325252ull + (uint64_t)i * 7919;
        CHECK(pthread_create(&all[i], NULL, work, &callers[i]) == 0);
    }
    for (unsigned stop = 0; stop < stops; stop++) {
        is_over = false;
        for (int i = 0; i < 2; i++)
            CHECK(pthread_create(&looking[i], NULL, look, (void *)m) == 0);
        pthread_barrier_wait(&barrier);
        is_over = true;
        for (int i = 0; i < 2; i++)
            CHECK(pthread_join(looking[i], NULL) == 0);
        compare(m);
        pthread_barrier_wait(&barrier);
    }
    for (int i = 0; i < CORES; i++)
        CHECK(pthread_join(all[i], NULL) == 0);
    CHECK(pthread_barrier_destroy(&barrier) == 0);
    close_all();
}

int main(void)
{
    for (size_t i = 0; i < sizeof memories / sizeof *memories; i++)
        one_thread(&memories[i]);
    large();
    unknown();
    stops = 3;
    threads(&memories[3]);
    threads(&memories[6]);
    free(room);
    puts("all checks passed");
    return 0;
}
