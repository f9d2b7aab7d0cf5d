/* How long takes and gives take in a large memory, phase by phase: bulk (take, give), repeat (pair) and random, as
 * LLFree's authors call them, and gives of what others took (foreign).
 *
 *     phases FRAMES THREADS ORDER ROUNDS
 *
 * The threads take half of the memory (take), give it back in that order (give), take it again, make PAIRS takes with
 * their gives (pair), give what is held in random order (random), take it once more, and give what the next thread has
 * in random order (foreign). Told are nanoseconds of one thread for a call, and for both calls of a pair. */
#include "runs.h"

enum { PAIRS = 100000, STAMPED_PAIRS = 1000 };
enum phase { TAKE, GIVE, PAIR, RANDOM, FOREIGN, PHASES };

static const char *const names[] = { "take", "give", "pair", "random", "foreign" };
static char *blocks[MOST_THREADS];
static double figures[PHASES];
static uint32_t many;
static uint8_t order;
static const char *order_word;

static void note(struct worker *me, enum phase phase, uint32_t calls)
{
    if (me->place == 0)
        figures[phase] = (double)spent() / calls;
    meet();
}

INLINE void take_all(struct worker *me, const struct allocator *allocator)
{
    for (uint32_t i = 0; i < many; i++)
        want(allocator->take(me, order, at(allocator, blocks[me->place], i)), "a take was refused");
}

INLINE void shuffle(struct worker *me, const struct allocator *allocator)
{
    char *own = blocks[me->place];

    for (uint32_t i = many; i > 1; i--)
        swap(allocator, at(allocator, own, i - 1), at(allocator, own, below(me, i)));
}

/* Looks at what all threads hold, which no call changes meanwhile. */
INLINE void check_all(struct worker *me, const struct allocator *allocator)
{
    meet();
    stamp_all(allocator, order, blocks[me->place], many, true);
    meet();
    stamp_all(allocator, order, blocks[me->place], many, false);
}

INLINE void give_phase(struct worker *me, const struct allocator *allocator, enum phase phase, uint32_t whose)
{
    check_all(me, allocator);
    begin(me);
    for (uint32_t i = 0; i < many; i++)
        allocator->give(me, order, at(allocator, blocks[whose], i));
    end(me);
    note(me, phase, many);
}

INLINE void pair_phase(struct worker *me, const struct allocator *allocator)
{
    char one[BLOCK_BYTES] = { 0 };

    begin(me);
    for (uint32_t i = 0; i < PAIRS; i++) {
        want(allocator->take(me, order, one), "a take was refused");
        allocator->give(me, order, one);
    }
    end(me);
    note(me, PAIR, PAIRS);
}

/* As many pairs as show a wrong block, beside all that is held. */
INLINE void check_pairs(struct worker *me, const struct allocator *allocator)
{
    char one[BLOCK_BYTES] = { 0 };

    stamp_all(allocator, order, blocks[me->place], many, true);
    meet();
    for (uint32_t i = 0; i < STAMPED_PAIRS; i++) {
        want(allocator->take(me, order, one), "a take was refused");
        stamp(allocator, order, one, true);
        stamp(allocator, order, one, false);
        allocator->give(me, order, one);
    }
    meet();
    stamp_all(allocator, order, blocks[me->place], many, false);
}

INLINE void run(struct worker *me, const struct allocator *allocator)
{
    begin(me);
    take_all(me, allocator);
    end(me);
    note(me, TAKE, many);
    give_phase(me, allocator, GIVE, me->place);
    take_all(me, allocator);
    pair_phase(me, allocator);
    check_pairs(me, allocator);
    shuffle(me, allocator);
    give_phase(me, allocator, RANDOM, me->place);
    take_all(me, allocator);
    shuffle(me, allocator);
    give_phase(me, allocator, FOREIGN, (me->place + 1) % threads);
}

#define EACH(of) of(numbers) of(structs) of(resting) of(lists) of(buddy) of(bitmap)
RUNS_OVER(EACH)

static void tell_phases(const char *allocator)
{
    for (int phase = 0; phase < PHASES; phase++)
        tell(order_word, names[phase], "ns", allocator, figures[phase]);
}

int main(int count, char **words)
{
    read_words(count, words, 5, "phases FRAMES THREADS ORDER ROUNDS");
    order_word = words[3];
    order = (uint8_t)number_of(order_word);
    many = (frames >> order) / 2 / threads;
    want(order <= MOST_ORDER && many > 0, "orders 0 to 9, and frames enough for each thread");
    for (uint32_t i = 0; i < threads; i++)
        blocks[i] = memory_of(many, BLOCK_BYTES);
    measure_all(measured, COUNT(measured), number_of(words[4]), tell_phases);
    return 0;
}
