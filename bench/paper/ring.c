/* How long a frame takes that one thread takes and another one gives, as a driver and who reads from it do.
 *
 *     ring FRAMES THREADS CALLS ROUNDS
 *
 * The first half of the threads take single frames and lay each into a ring of 256, the other half take them out there
 * and give them. Told are nanoseconds for a frame. First as many frames are stamped as show a wrong block. */
#include "runs.h"

enum { RING = 256, STAMPED = 20000 };

static struct ring {
    _Alignas(128) atomic_ullong laid;
    _Alignas(128) atomic_ullong fetched;
    _Alignas(128) char blocks[RING * BLOCK_BYTES];
} rings[MOST_THREADS / 2];
static uint64_t calls;
static double figure;

INLINE void take_into(struct worker *me, const struct allocator *allocator, struct ring *ring, uint64_t many,
                      bool are_stamped)
{
    char one[BLOCK_BYTES] = { 0 };

    for (uint64_t i = 0; i < many; i++) {
        want(allocator->take(me, 0, one), "a take was refused");
        if (are_stamped)
            stamp(allocator, 0, one, true);
        while (i - atomic_load_explicit(&ring->fetched, memory_order_acquire) >= RING)
            __builtin_ia32_pause();
        move(allocator, at(allocator, ring->blocks, i % RING), one);
        atomic_store_explicit(&ring->laid, i + 1, memory_order_release);
    }
}

INLINE void give_from(struct worker *me, const struct allocator *allocator, struct ring *ring, uint64_t many,
                      bool are_stamped)
{
    char one[BLOCK_BYTES];

    for (uint64_t i = 0; i < many; i++) {
        while (atomic_load_explicit(&ring->laid, memory_order_acquire) <= i)
            __builtin_ia32_pause();
        move(allocator, one, at(allocator, ring->blocks, i % RING));
        atomic_store_explicit(&ring->fetched, i + 1, memory_order_release);
        if (are_stamped)
            stamp(allocator, 0, one, false);
        allocator->give(me, 0, one);
    }
}

INLINE void pass(struct worker *me, const struct allocator *allocator, uint64_t many, bool are_stamped)
{
    struct ring *ring = &rings[me->place % (threads / 2)];

    ring->laid = ring->fetched = 0;
    begin(me);
    if (me->place < threads / 2)
        take_into(me, allocator, ring, many, are_stamped);
    else
        give_from(me, allocator, ring, many, are_stamped);
    end(me);
}

INLINE void run(struct worker *me, const struct allocator *allocator)
{
    pass(me, allocator, STAMPED, true);
    pass(me, allocator, calls, false);
    if (me->place == 0)
        figure = (double)spent() / (double)calls;
}

#define EACH(of) of(numbers) of(structs) of(resting) of(lists) of(buddy) of(bitmap) of(heap)
RUNS_OVER(EACH)

static void tell_ring(const char *allocator)
{
    tell("0", "given by another", "ns", allocator, figure);
}

int main(int count, char **words)
{
    read_words(count, words, 5, "ring FRAMES THREADS CALLS ROUNDS");
    want(threads % 2 == 0, "an even number of threads");
    calls = number_of(words[3]);
    measure_all(measured, COUNT(measured), number_of(words[4]), tell_ring);
    return 0;
}
