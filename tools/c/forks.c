/* Forks in the middle of calls: to the child the calls of other threads never end. What was out is held, no more than
 * 512 frames for each call are lost, which is proved of such a stop, and one more handle goes on: it gives what others
 * had taken, and takes all that is left but for at most a tree for each call. The heap is the program's own, since the
 * child reads the allocator's words in its copy of it. */
#define _GNU_SOURCE
#include "check.h"
#include <pthread.h>
#include <stdatomic.h>
#include <sys/mman.h>
#include <sys/wait.h>
#include <unistd.h>

#ifdef __SANITIZE_THREAD__
enum { FORKS = 0 }; /* it does not follow a fork of a program with threads */
#else
enum { FORKS = 4000 };
#endif
enum { THREADS = 4, CORES = THREADS + 1, FRAMES = 8 * 4096, HELD = 48, STOPPED = 200, REFUSED = 50 };

struct rattle_block {
    bool found;
    void *at;
};

static _Alignas(16) char heap[FRAMES * 24];
static size_t used, words_bytes;
/* the blocks that are as large as the words: one is left by the opening */
static void *words[2];

struct rattle_block rattle_alloc(size_t size, size_t alignment)
{
    size_t at = used;
    if (size + 16 > sizeof heap - at)
        return (struct rattle_block){ false, heap };
    /* a block of no bytes has an address of its own, too */
    used = at + (size + 16) / 16 * 16;
    if (size == words_bytes && alignment == 8)
        words[words[0] != NULL] = heap + at;
    return (struct rattle_block){ true, heap + at };
}

struct rattle_block rattle_realloc(void *block, size_t kept, size_t size, size_t alignment)
{
    struct rattle_block new = rattle_alloc(size, alignment);
    if (new.found)
        memcpy(new.at, block, kept);
    return new;
}

void rattle_dealloc(void *block)
{
    for (int i = 0; i < 2; i++)
        if (words[i] == block)
            words[i] = NULL;
}

static struct {
    _Alignas(128) llfree_core core;
    _Atomic bool is_in_call; /* or about to tell what came of it */
} desks[CORES];
/* order + 1 of the block that is out and begins here, told after the take and before the give */
static _Atomic unsigned char out[FRAMES];
static _Atomic bool is_over;

/* What children tell, in memory that they share with their parent. */
static struct told {
    unsigned forks, stopped, lost_any, most_lost, most_passed_over;
} *told;

static void *work(void *number)
{
    size_t me = (size_t)number;
    llfree_core *core = &desks[me].core;
    uint64_t x = 88172645463325252u + me;
    uint32_t frames[HELD];
    uint8_t orders[HELD];
    int held = 0;

    while (!is_over) {
        uint64_t r = next_random(&x);
        int last = held - 1;
        uint8_t order = (uint8_t)((r >> 8) % (LARGEST + 1));
        desks[me].is_in_call = true;
        if (held < HELD - 1 && (r & 3) > 1) {
            if (llfree_take(core, order, &frames[held]) == LLFREE_OK) {
                orders[held] = order;
                CHECK(atomic_exchange(&out[frames[held++]], order + 1) == 0);
            }
        } else if (last >= 0 && last < HELD - 1 && (r & 3) == 1 && orders[last] > 0) {
            atomic_store(&out[frames[last]], 0);
            CHECK(llfree_split(core, frames[last], orders[last]) == LLFREE_OK);
            orders[held] = --orders[last];
            frames[held] = frames[last] + (1u << orders[last]);
            for (int i = last; i <= held; i++)
                CHECK(atomic_exchange(&out[frames[i]], orders[i] + 1) == 0);
            held++;
        } else if (last >= 0) {
            held--;
            CHECK(atomic_exchange(&out[frames[last]], 0) == orders[last] + 1);
            CHECK(llfree_give(core, frames[last], orders[last]) == LLFREE_OK);
        }
        desks[me].is_in_call = false;
    }
    while (held-- > 0) {
        atomic_store(&out[frames[held]], 0);
        CHECK(llfree_give(core, frames[held], orders[held]) == LLFREE_OK);
    }
    return NULL;
}

/* Whether an image holds a frame. */
static bool holds(const uint64_t *numbers, uint32_t frame)
{
    const uint64_t *child = numbers + frame / 512 * 9;
    return child[0] == 32768 || child[1 + frame % 512 / 64] >> frame % 64 & 1;
}

/* In the child, through the handle of the thread that forked. */
static int child(void)
{
    enum { KNOWN = 1, TAKEN = 2 };
    static uint64_t numbers[FRAMES / 512 * 9];
    static unsigned char mine[FRAMES];
    llfree_core *core = &desks[THREADS].core;
    unsigned stopped = 0, known = 0, held = 0, lost, taken = 0;
    uint32_t frame;

    for (int i = 0; i < THREADS; i++)
        stopped += desks[i].is_in_call;
    for (uint32_t i = 0; i < FRAMES; i++)
        for (uint32_t j = i; out[i] != 0 && j < i + (1u << (out[i] - 1)); j++, known++)
            CHECK(mine[j]++ == 0);
    CHECK(llfree_image_of_words(FRAMES, CORES, words[words[0] == NULL], words_bytes / 8, numbers, sizeof numbers / 8) ==
          LLFREE_OK);
    for (uint32_t i = 0; i < FRAMES; i++) {
        held += holds(numbers, i);
        CHECK(mine[i] == 0 || holds(numbers, i));
    }
    lost = held - known;
    CHECK(lost <= 512 * stopped);

    /* what the others had is given, and then all is taken but what is lost */
    for (uint32_t i = 0; i < FRAMES; i++)
        if (out[i] != 0) {
            CHECK(llfree_give(core, i, out[i] - 1) == LLFREE_OK);
            for (uint32_t j = i; j < i + (1u << (out[i] - 1)); j++)
                mine[j] = KNOWN;
        }
    CHECK(llfree_free_frames(core) >= FRAMES - 512 * stopped);
    for (int refused = 0; refused < REFUSED;) {
        if (llfree_take(core, 0, &frame) != LLFREE_OK) {
            refused++;
            continue;
        }
        CHECK(mine[frame] == KNOWN || (mine[frame] == 0 && !holds(numbers, frame)));
        mine[frame] = TAKEN;
        taken++;
    }
    CHECK(FRAMES - taken - lost <= 4096 * stopped);
    for (uint32_t i = 0; i < FRAMES; i++)
        CHECK(mine[i] != TAKEN || llfree_give(core, i, 0) == LLFREE_OK);

    told->forks++;
    told->stopped += stopped;
    told->lost_any += lost > 0;
    if (lost > told->most_lost)
        told->most_lost = lost;
    if (FRAMES - taken - lost > told->most_passed_over)
        told->most_passed_over = FRAMES - taken - lost;
    return 0;
}

int main(void)
{
    llfree_core cores[CORES] = { LLFREE_CLOSED };
    pthread_t threads[THREADS];

    words_bytes = 8 * llfree_words(FRAMES, CORES);
    CHECK(llfree_open(cores, CORES, FRAMES, NULL, 0) == LLFREE_OK && (words[0] == NULL) != (words[1] == NULL));
    for (int i = 0; i < CORES; i++)
        desks[i].core = cores[i];
    told = mmap(NULL, sizeof *told, PROT_READ | PROT_WRITE, MAP_SHARED | MAP_ANONYMOUS, -1, 0);
    CHECK(told != MAP_FAILED);
    for (size_t i = 0; i < THREADS; i++)
        CHECK(pthread_create(&threads[i], NULL, work, (void *)i) == 0);
    while (told->stopped < STOPPED && told->forks != FORKS) {
        int status;
        pid_t pid = fork();
        CHECK(pid >= 0);
        if (pid == 0)
            _exit(child());
        CHECK(waitpid(pid, &status, 0) == pid && WIFEXITED(status) && WEXITSTATUS(status) == 0);
    }
    CHECK(FORKS == 0 || told->stopped >= STOPPED);
    is_over = true;
    for (int i = 0; i < THREADS; i++)
        CHECK(pthread_join(threads[i], NULL) == 0);
    CHECK(llfree_free_frames(&desks[0].core) == FRAMES && llfree_free_huge(&desks[THREADS].core) == FRAMES / 512);
    for (int i = 0; i < CORES; i++)
        llfree_close(&desks[i].core);
    printf("%u forks, %u threads in calls; %u children lost frames, at most %u; takes passed over at most %u more\n",
           told->forks, told->stopped, told->lost_any, told->most_lost, told->most_passed_over);
    return 0;
}
