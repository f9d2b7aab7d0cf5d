/* A bitmap under a mutex. */
#include "locked.h"
#include <pthread.h>
#include <stdbool.h>
#include <string.h>

enum { WORD = 64, MOST_WORDS = MOST_FRAMES / WORD, WORD_ORDER = 6 };

static struct {
    _Alignas(128) pthread_mutex_t lock;
    uint32_t first; /* all words below are full */
    uint32_t count; /* of words */
    uint64_t words[MOST_WORDS];
} held = { .lock = PTHREAD_MUTEX_INITIALIZER, .count = FRAMES / WORD };

static uint64_t mask(uint8_t order)
{
    return order == WORD_ORDER ? ~0ull : (1ull << (1u << order)) - 1;
}

/* The first aligned run of clear bits of a word, or WORD. */
static uint32_t clear_run(uint64_t word, uint8_t order)
{
    for (uint32_t bit = 0; bit < WORD; bit += 1u << order)
        if (!(word >> bit & mask(order)))
            return bit;
    return WORD;
}

static uint32_t take_bits(uint8_t order)
{
    for (uint32_t i = held.first; i < held.count; i++) {
        uint32_t bit = order == 0 && ~held.words[i] ? (uint32_t)__builtin_ctzll(~held.words[i])
                                                    : clear_run(held.words[i], order);
        if (bit < WORD) {
            held.words[i] |= mask(order) << bit;
            return WORD * i + bit;
        }
    }
    return NONE;
}

static bool is_clear(uint32_t from, uint32_t count)
{
    for (uint32_t i = from; i < from + count; i++)
        if (held.words[i])
            return false;
    return true;
}

static void fill(uint32_t from, uint32_t count, uint64_t with)
{
    for (uint32_t i = from; i < from + count; i++)
        held.words[i] = with;
}

static uint32_t take_words(uint8_t order)
{
    uint32_t count = 1u << (order - WORD_ORDER);

    for (uint32_t i = held.first / count * count; i < held.count; i += count)
        if (is_clear(i, count)) {
            fill(i, count, ~0ull);
            return WORD * i;
        }
    return NONE;
}

void bitmap_open(uint32_t frames)
{
    held.first = 0;
    held.count = frames / WORD;
    memset(held.words, 0, sizeof held.words);
}

uint32_t bitmap_take(uint8_t order)
{
    pthread_mutex_lock(&held.lock);
    while (held.first < held.count && !~held.words[held.first])
        held.first++;
    uint32_t frame = order <= WORD_ORDER ? take_bits(order) : take_words(order);
    pthread_mutex_unlock(&held.lock);
    return frame;
}

void bitmap_give(uint32_t frame, uint8_t order)
{
    uint32_t word = frame / WORD;

    pthread_mutex_lock(&held.lock);
    if (order <= WORD_ORDER)
        held.words[word] &= ~(mask(order) << frame % WORD);
    else
        fill(word, 1u << (order - WORD_ORDER), 0);
    if (word < held.first)
        held.first = word;
    pthread_mutex_unlock(&held.lock);
}
