/* A load for malloc: threads allocate 16 bytes to 3 MiB, write a stamp into each word, hand objects to each other, look
 * at the stamps again, change sizes, and free. It knows nothing of what is behind malloc. */
#include <pthread.h>
#include <stdatomic.h>
#include <stdint.h>
#include <stdio.h>
#include <stdlib.h>

enum { THREADS = 8, ROUNDS = 20000, SLOTS = 2048 };

struct object {
    uint64_t *words, stamp;
    size_t count;
};

static struct object *_Atomic slots[SLOTS];
static _Atomic uint64_t stamps = 1;

static void looks(const struct object *it, size_t count)
{
    for (size_t i = 0; i < count; i++)
        if (it->words[i] != it->stamp + i) {
            fprintf(stderr, "memory was written by somebody else\n");
            abort();
        }
}

static void writes(struct object *it, uint64_t *words, size_t count)
{
    *it = (struct object){ words, atomic_fetch_add(&stamps, 1) << 32, count };
    for (size_t i = 0; i < count; i++)
        words[i] = it->stamp + i;
}

static void leaves(struct object *it)
{
    if (it == NULL)
        return;
    looks(it, it->count);
    free(it->words);
    free(it);
}

static void *work(void *number)
{
    uint64_t x = 88172645463325252u + (uint64_t)(size_t)number;
    for (int round = 0; round < ROUNDS; round++) {
        x ^= x << 13, x ^= x >> 7, x ^= x << 17;
        unsigned slot = (unsigned)(x >> 20) % SLOTS, kind = (unsigned)(x % 100);
        size_t most = kind < 60 ? 128 : kind < 90 ? 4096 : kind < 99 ? 51200 : 393216, count = 2 + (x >> 40) % most;
        struct object *it = atomic_exchange(&slots[slot], NULL);
        if (it != NULL && x & 1 << 15) {
            size_t kept = it->count < count ? it->count : count;
            uint64_t *words = realloc(it->words, 8 * count);
            if (words == NULL)
                abort();
            it->words = words;
            looks(it, kept);
            writes(it, words, count);
        } else if (it != NULL) {
            leaves(it);
            continue;
        } else {
            it = malloc(sizeof *it);
            uint64_t *words = malloc(8 * count);
            if (it == NULL || words == NULL)
                abort();
            writes(it, words, count);
        }
        leaves(atomic_exchange(&slots[slot], it));
    }
    return NULL;
}

int main(void)
{
    pthread_t threads[THREADS];
    for (size_t i = 0; i < THREADS; i++)
        if (pthread_create(&threads[i], NULL, work, (void *)i) != 0)
            return 1;
    for (int i = 0; i < THREADS; i++)
        pthread_join(threads[i], NULL);
    for (int i = 0; i < SLOTS; i++)
        leaves(slots[i]);
    return 0;
}
