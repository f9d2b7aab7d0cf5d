/* A stop behind each machine instruction. One thread takes, gives and splits through several cores of a small
 * memory; its parent steps it instruction by instruction. Wherever words or journal differ from what they
 * were before, the parent opens an allocator at them as they stand, and checks it:
 *     steps CALLS [frames or zones] [seed] [resting]
 * Zones are such as 0+2000,4096+512, by first frame and frames. With the last word blocks are taken into structs,
 * most of them single frames, which rest with their core when they are given. */
#include "journal.h"
#include <signal.h>
#include <stdio.h>
#include <stdlib.h>
#include <string.h>
#include <sys/mman.h>
#include <sys/ptrace.h>
#include <sys/wait.h>
#include <unistd.h>

enum { CORES = 3, MOST_RESTING = 128, BACK = 8 /* where so many rest already */ };

enum doing { NOTHING, TAKING, TAKEN, GIVING, SPLITTING, SPLIT, DRAINING, DOINGS };

static struct shared {
    _Atomic uint64_t words_at[MOST_ZONES];
    _Atomic uint32_t doing, calls, done, order, refused;
    _Atomic uint32_t rests, resting; /* with all cores, after the last call */
    _Alignas(LINE) journal_entry journal[];
} * shared;

static memory m;
static unsigned char *region;

static _Noreturn void fail(const char *what, uint32_t a, uint32_t b)
{
    fprintf(stderr, "WRONG: %s (%u, %u) in %u of order %u, call %u\n", what, a, b, shared->doing, shared->order,
            shared->calls);
    exit(1);
}

static bool anybody(size_t place, uint8_t order, uint64_t serial)
{
    (void)place, (void)order, (void)serial;
    return true;
}

static uint64_t draw(uint64_t *state)
{
    *state ^= *state << 13;
    *state ^= *state >> 7;
    *state ^= *state << 17;
    return *state;
}

struct held {
    uint32_t frame;
    uint8_t order;
    size_t place;
    llfree_block right; /* to it, if it was not taken by number */
};

static llfree_core handles[CORES];

static void count_resting(void)
{
    uint32_t resting = 0;

    for (int k = 0; k < CORES; k++)
        resting += llfree_resting(&handles[k]);
    shared->resting = resting;
}

static uint32_t take(llfree_core *core, uint8_t order, struct held *to)
{
    *to = (struct held){ .order = order };
    if (!shared->rests)
        return llfree_take(core, order, &to->frame);
    uint32_t status = order > 0 ? llfree_take_block(core, order, &to->right) : llfree_take_frame(core, &to->right);
    to->frame = to->right.frame;
    count_resting();
    return status;
}

static uint32_t give(llfree_core *core, struct held *from)
{
    if (!from->right.live)
        return llfree_give(core, from->frame, from->order);
    uint32_t status = from->order > 0 ? llfree_give_block(core, &from->right) : llfree_give_frame(core, &from->right);
    count_resting();
    return status;
}

/* What the child holds. */
static struct held *held;
static size_t count, held_now;

static uint32_t give_one(llfree_core *core, size_t at)
{
    shared->order = held[at].order;
    shared->doing = GIVING;
    shared->journal[held[at].place] = 0;
    uint32_t status = give(core, &held[at]);
    shared->doing = NOTHING;
    held_now -= 1u << held[at].order;
    held[at] = held[--count];
    return status;
}

static uint32_t split_one(llfree_core *core, struct held *lower)
{
    uint32_t half = 1u << lower->order >> 1;
    struct held *upper = &held[count];

    *upper = (struct held){ lower->frame + half, lower->order - 1, lower->place + half, LLFREE_EMPTY };
    shared->order = lower->order;
    shared->doing = SPLITTING;
    uint32_t status = lower->right.live ? llfree_split_block(core, &lower->right, &upper->right)
                                        : llfree_split(core, lower->frame, lower->order);
    shared->doing = SPLIT;
    lower->order--;
    shared->journal[upper->place] = entry_of(1, lower->order);
    shared->journal[lower->place] = entry_of(1, lower->order);
    shared->doing = NOTHING;
    count++;
    return status;
}

static void take_one(llfree_core *core, uint8_t order)
{
    shared->order = order;
    shared->doing = TAKING;
    if (take(core, order, &held[count]) == LLFREE_OK) {
        shared->doing = TAKEN;
        held[count].place = place_of(&m, held[count].frame, order);
        shared->journal[held[count++].place] = entry_of(1, order);
        held_now += 1u << order;
    } else
        shared->refused++;
    shared->doing = NOTHING;
}

static void call(uint32_t i, uint64_t r)
{
    llfree_core *core = &handles[r / 7 % CORES];
    bool full = held_now > m.frames / 10 * (1 + i / 100 % 10);
    uint32_t gives = full ? 75 : 25, status = LLFREE_OK;
    size_t at = count ? r / 1024 % count : 0;

    if (shared->rests) {
        /* most with one core, which by turns takes and gives */
        core = &handles[r / 7 % 16 ? 0 : r / 112 % CORES];
        full = i / 256 % 2;
        gives = full ? 95 : 5;
    }
    if (m.zones > 1 && (r >> 56) % 16 == 0)
        status = llfree_set_home(core, (r >> 52) % m.zones);
    if (status != LLFREE_OK)
        exit(4);
    if (shared->rests && !full && (r >> 48) % 32 == 0) {
        shared->doing = DRAINING;
        llfree_drain(core);
        count_resting();
        shared->doing = NOTHING;
        return;
    }
    if (count > 0 && r % 100 < gives)
        status = give_one(core, at);
    else if (count > 0 && held[at].order > 0 && r % 100 < (full ? 100 : 45))
        status = split_one(core, &held[at]);
    else
        take_one(core, shared->rests && r >> 40 & 15 ? 0 : r / 1048576 % 10);
    if (status != LLFREE_OK)
        exit(4);
}

static void child(uint32_t calls, uint64_t random)
{
    static uint64_t *words[MOST_ZONES];

    held = calloc(m.frames + 1ull, sizeof *held);
    keep_words_in(&m, region);
    if (open_fresh(&m, handles) != LLFREE_OK || !kept_words(words))
        exit(2);
    for (uint32_t z = 0; z < m.zones; z++)
        shared->words_at[z] = (unsigned char *)words[z] - region;
    ptrace(PTRACE_TRACEME, 0, NULL, NULL);
    raise(SIGSTOP);
    for (uint32_t i = 0; i < calls; i++) {
        shared->calls = i;
        call(i, draw(&random));
    }
    shared->done = 1;
    _exit(0);
}

static uint32_t most_lost, most_resting, times_back, zones_used;
static struct seen seen;

/* How many frames a stop here may lose beside what rests, and how many of these a call may have given back. */
static uint32_t may_lose(void)
{
    return shared->doing == TAKING || shared->doing == TAKEN || shared->doing == GIVING ? 512 : 0;
}

static uint32_t may_be_back(void)
{
    uint32_t most = shared->doing == DRAINING ? MOST_RESTING : shared->doing == GIVING ? BACK : 0;

    return shared->resting < most ? shared->resting : most;
}

static void compare_held(uint64_t *const *before, uint64_t *const *now)
{
    for (uint32_t z = 0; z < m.zones; z++)
        for (uint32_t x = 0; x < CHILD * m.zone[z].children; x++)
            if (is_held(&m.zone[z], before[z], x) != is_held(&m.zone[z], now[z], x))
                fail("a frame is held that was not, or is not that was", m.range[z].first + x, z);
}

static void note_zones(const llfree_claim *claims, size_t claimed)
{
    static bool was_used[MOST_ZONES];

    for (size_t i = 0; i < claimed && zones_used < m.zones; i++)
        for (uint32_t z = 0; z < m.zones; z++)
            if (!was_used[z] && claims[i].frame - m.range[z].first < m.range[z].frames) {
                was_used[z] = true;
                zones_used++;
            }
}

/* What the child would have left, had it been killed here. */
static uint32_t check(uint64_t *const *words, llfree_claim *claims, uint64_t *numbers)
{
    static llfree_core cores[CORES];
    static uint64_t *now[MOST_ZONES];
    const char *wrong = wrong_at_a_stop(&m, words);
    uint32_t where = 0;

    if (wrong)
        fail(wrong, 0, 0);
    size_t claimed = claims_in(&m, words, shared->journal, false, anybody, claims, &seen, &wrong, &where);
    if (wrong)
        fail(wrong, where, 0);
    note_zones(claims, claimed);
    uint32_t lost = held_frames(&m, words) - frames_of(claims, claimed);
    if (lost > shared->resting + may_lose())
        fail("one core lost too much", lost, shared->resting);
    if (lost < shared->resting - may_be_back())
        fail("less is lost than rests", lost, shared->resting);
    image_of_words(&m, words, numbers);
    keep_words_in(&m, region + region_bytes(&m));
    uint32_t status = open_again(&m, cores, numbers, claims, claimed);
    if (status != LLFREE_OK)
        fail("the opening was refused", status, 0);
    bool found = kept_words(now);
    if (!found || (wrong = wrong_at_rest(&m, now)))
        fail(found ? wrong : "no words", 1, 0);
    compare_held(words, now);
    for (size_t i = 0; i < claimed; i++)
        if (llfree_give(&cores[i % CORES], claims[i].frame, claims[i].order) != LLFREE_OK)
            fail("a known block is not given", claims[i].frame, claims[i].order);
    if (held_frames(&m, now) != lost || (wrong = wrong_at_rest(&m, now)))
        fail("what is left is not what was lost", held_frames(&m, now), lost);
    for (int k = 0; k < CORES; k++)
        llfree_close(&cores[k]);
    if (lost > most_lost)
        most_lost = lost;
    if (shared->resting > most_resting)
        most_resting = shared->resting;
    return lost;
}

static uint64_t steps[DOINGS], states[DOINGS], losing[DOINGS];

/* Steps the child to its end. Returns how it ended. */
static int step_through(pid_t pid)
{
    static uint64_t *words[MOST_ZONES];
    llfree_claim *claims = malloc(sizeof *claims * (m.frames + 1ull));
    uint64_t *numbers = malloc(8 * m.numbers);
    size_t bytes = region_bytes(&m), entries = 8 * m.places;
    unsigned char *before = calloc(bytes, 1), *journal_before = calloc(entries, 1);
    uint32_t resting_before = 0;
    int status;

    waitpid(pid, &status, 0);
    for (uint32_t z = 0; z < m.zones; z++)
        words[z] = (uint64_t *)(region + shared->words_at[z]);
    while (ptrace(PTRACE_SINGLESTEP, pid, NULL, NULL) == 0) {
        waitpid(pid, &status, 0);
        if (!WIFSTOPPED(status))
            break;
        uint32_t doing = shared->doing;
        steps[doing]++;
        if (memcmp(before, region, bytes) == 0 && memcmp(journal_before, (void *)shared->journal, entries) == 0 &&
            shared->resting == resting_before)
            continue;
        times_back += doing == GIVING && resting_before - shared->resting == BACK - 1;
        resting_before = shared->resting;
        memcpy(before, region, bytes);
        memcpy(journal_before, (void *)shared->journal, entries);
        uint32_t lost = check(words, claims, numbers);
        states[doing]++;
        losing[doing] += lost > 0;
    }
    return status;
}

int main(int argc, char **argv)
{
    static const char *const names[] = { "between calls", "in a take",  "taken, not in the journal",
                                         "in a give",     "in a split", "split, not in the journal",
                                         "in a drain" };
    if (argc < 2 || !memory_in(&m, argc > 2 ? argv[2] : "4000", CORES)) {
        fputs("steps CALLS [frames or zones] [seed] [resting]\n", stderr);
        return 2;
    }
    uint32_t calls = atoi(argv[1]);
    uint64_t seed = argc > 3 ? strtoull(argv[3], NULL, 10) : 1;
    size_t head = (sizeof *shared + 8 * m.places + LINE - 1) / LINE * LINE, bytes = head + 2 * region_bytes(&m);
    shared = mmap(NULL, bytes, PROT_READ | PROT_WRITE, MAP_SHARED | MAP_ANONYMOUS, -1, 0);
    region = (unsigned char *)shared + head;
    shared->rests = argc > 4 && strcmp(argv[4], "resting") == 0;

    pid_t pid = fork();
    if (pid == 0)
        child(calls, seed * 0x9e3779b97f4a7c15ull | 1);
    int status = step_through(pid);
    if (!WIFEXITED(status) || WEXITSTATUS(status) != 0 || !shared->done) {
        fprintf(stderr, "the child ended with %x\n", status);
        return 1;
    }
    if (shared->rests && times_back == 0)
        fail("too little came to rest", most_resting, 0);
    printf("%u frames in %u zones, %u cores, one thread, %u calls (%u refused takes)\n", m.frames, m.zones, CORES,
           calls, shared->refused);
    for (int d = 0; d < DOINGS; d++)
        printf("  %-28s %9llu instructions, %6llu states opened, %6llu with lost frames\n", names[d],
               (unsigned long long)steps[d], (unsigned long long)states[d], (unsigned long long)losing[d]);
    printf("  at most %u frames lost at one stop (bound 512 and what rests); found: a huge split under way %u, "
           "ended %u, halves %u; known blocks in %u zones\n",
           most_lost, seen.filled, seen.split, seen.halves, zones_used);
    if (zones_used < m.zones)
        fail("a zone was never used", zones_used, 0);
    if (shared->rests)
        printf("  at most %u frames rested; %u times %u of a core went back at a give\n", most_resting, times_back,
               BACK);
    return 0;
}
