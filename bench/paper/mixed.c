/* How many huge frames stay free where takes of single and of huge frames mix.
 *
 *     mixed FRAMES THREADS LOAD HUGE ROUNDS
 *
 * Each thread runs 16 processes. A process grows by bursts of up to 64 small blocks (95 of 100 of order 0, else orders
 * 1 to 3); HUGE of 100 bursts are one huge frame. Having grown to a size of a power law (64 to 65,536 frames) it ends:
 * all is given but 2 of 100 small blocks, which stay as a cache. A thread that would hold more than LOAD % of its share
 * gives random blocks of its cache. After each round of 200,000 calls a thread, children are counted that no held block
 * touches, so what rests with a core counts as given back. Told are these, of those that could be if all held frames
 * lay together, over the second half of the rounds (left), and in the worst of them; how much was held, in percent; and
 * how many takes were refused in all rounds. */
#include "runs.h"
#include <math.h>

enum { PROCESSES = 16, CALLS = 200000, MOST_BLOCKS = 70000, SPARED = 64 };
enum { LEAST_SIZE = 64, MOST_SIZE = 65536, BIG = 2048 }; /* frames of a process */

/* Held blocks with their orders: of a process, or a cache. */
struct holding {
    char *blocks;
    uint8_t *orders;
    uint32_t count, most;
    uint64_t frames, size; /* how far it has grown, and will */
};

struct thread {
    _Alignas(128) struct holding processes[PROCESSES];
    struct holding cache;
    uint64_t held, most, calls;
};

static struct thread parts[MOST_THREADS];
static uint32_t load, huge, rounds;
static uint64_t left_sum, possible_sum, held_sum;
static double worst;

static uint64_t power_law(struct worker *me)
{
    double random = (double)below(me, 1ull << 53) / (double)(1ull << 53);
    double least = pow((double)LEAST_SIZE / MOST_SIZE, 0.7);

    return (uint64_t)(LEAST_SIZE / pow(1 - random * (1 - least), 1 / 0.7));
}

static uint8_t small_order(struct worker *me)
{
    uint64_t draw = below(me, 1000);

    return draw < 950 ? 0 : draw < 975 ? 1 : draw < 990 ? 2 : 3;
}

INLINE bool take_one(struct worker *me, const struct allocator *allocator, struct holding *own, uint8_t order)
{
    struct thread *part = &parts[me->place];
    void *block = at(allocator, own->blocks, own->count);

    part->calls++;
    if (!allocator->take(me, order, block)) {
        me->refused++;
        return false;
    }
    stamp(allocator, order, block, true);
    own->orders[own->count++] = order;
    own->frames += 1u << order;
    part->held += 1u << order;
    return true;
}

INLINE void give_one(struct worker *me, const struct allocator *allocator, uint8_t order, void *block)
{
    struct thread *part = &parts[me->place];

    part->calls++;
    part->held -= 1u << order;
    stamp(allocator, order, block, false);
    allocator->give(me, order, block);
}

/* Gives random blocks of the cache, and says whether a block of this order has room then. */
INLINE bool has_room(struct worker *me, const struct allocator *allocator, uint8_t order)
{
    struct thread *part = &parts[me->place];
    struct holding *cache = &part->cache;

    if (part->held + (1u << order) <= part->most)
        return true;
    for (int i = 0; i < SPARED && cache->count > 0; i++) {
        uint32_t place = (uint32_t)below(me, cache->count);
        give_one(me, allocator, cache->orders[place], at(allocator, cache->blocks, place));
        cache->count--;
        move(allocator, at(allocator, cache->blocks, place), at(allocator, cache->blocks, cache->count));
        cache->orders[place] = cache->orders[cache->count];
    }
    return part->held + (1u << order) <= part->most;
}

INLINE void grow(struct worker *me, const struct allocator *allocator, struct holding *process)
{
    if (process->size == 0)
        process->size = power_law(me);
    bool is_huge = below(me, 1000) < 10 * huge && process->size > BIG;
    uint64_t burst = is_huge ? 1 : 1 + below(me, 64);

    for (uint64_t i = 0; i < burst && process->count < process->most; i++) {
        uint8_t order = is_huge ? MOST_ORDER : small_order(me);
        if (!has_room(me, allocator, order)) {
            process->size = process->frames; /* it ends */
            break;
        }
        if (!take_one(me, allocator, process, order))
            break;
    }
}

INLINE void end_process(struct worker *me, const struct allocator *allocator, struct holding *process)
{
    struct holding *cache = &parts[me->place].cache;

    for (uint32_t i = 0; i < process->count; i++) {
        void *block = at(allocator, process->blocks, i);
        uint8_t order = process->orders[i];
        if (order < MOST_ORDER && below(me, 100) < 2 && cache->count < cache->most) {
            move(allocator, at(allocator, cache->blocks, cache->count), block);
            cache->orders[cache->count++] = order;
        } else
            give_one(me, allocator, order, block);
    }
    process->count = 0;
    process->frames = process->size = 0;
}

static void count_children(uint32_t round)
{
    uint64_t held = 0;

    if (round < rounds / 2)
        return;
    for (uint32_t i = 0; i < threads; i++)
        held += parts[i].held;
    uint64_t left = free_children(), possible = (frames - held) / 512;
    left_sum += left;
    possible_sum += possible;
    held_sum += held;
    worst = fmin(worst, (double)left / (double)possible);
}

INLINE void run(struct worker *me, const struct allocator *allocator)
{
    struct thread *part = &parts[me->place];

    for (uint32_t round = 0; round < rounds; round++) {
        for (part->calls = 0; part->calls < CALLS;) {
            struct holding *process = &part->processes[below(me, PROCESSES)];
            grow(me, allocator, process);
            if (process->frames >= process->size || process->count == process->most)
                end_process(me, allocator, process);
        }
        meet();
        if (me->place == 0)
            count_children(round);
        meet();
    }
    for (uint32_t i = 0; i < PROCESSES; i++)
        end_process(me, allocator, &part->processes[i]);
    while (part->cache.count > 0) {
        uint32_t last = --part->cache.count;
        give_one(me, allocator, part->cache.orders[last], at(allocator, part->cache.blocks, last));
    }
}

#define EACH(of) of(numbers) of(structs) of(resting) of(two) of(lists) of(buddy) of(bitmap)
RUNS_OVER(EACH)

static void tell_mixed(const char *allocator)
{
    char which[64];

    snprintf(which, sizeof which, "load %u %%; %u %% huge", load, huge);
    tell("mixed", which, "left", allocator, (double)left_sum / (double)possible_sum);
    tell("mixed", which, "worst", allocator, worst);
    tell("mixed", which, "held", allocator, 100.0 * (double)held_sum / (rounds - rounds / 2) / frames);
    tell("mixed", which, "refused", allocator, (double)refused_takes());
    left_sum = possible_sum = held_sum = 0;
    worst = 1;
}

static void open_holding(struct holding *one, uint32_t most)
{
    *one = (struct holding) { memory_of(most, BLOCK_BYTES), memory_of(most, 1), 0, most, 0, 0 };
}

int main(int count, char **words)
{
    read_words(count, words, 6, "mixed FRAMES THREADS LOAD HUGE ROUNDS");
    load = number_of(words[3]);
    huge = number_of(words[4]);
    rounds = number_of(words[5]);
    want(load >= 1 && load <= 100 && huge <= 100 && rounds > 0, "LOAD and HUGE are percent, ROUNDS at least 1");
    for (uint32_t i = 0; i < threads; i++) {
        parts[i].most = (uint64_t)frames / threads * load / 100;
        open_holding(&parts[i].cache, frames / threads);
        for (uint32_t j = 0; j < PROCESSES; j++)
            open_holding(&parts[i].processes[j], MOST_BLOCKS);
    }
    worst = 1;
    measure_all(measured, COUNT(measured), 1, tell_mixed);
    return 0;
}
