/* A worker with several threads takes, gives and splits blocks at random. Its allocator's words, its journal
 * and the pages of its frames lie in files that it maps shared. Its parent kills it at random moments, also
 * while it recovers, checks what is left, and starts it again:
 *     crash FILES KILLS [hold|reclaim|journal|claim] [frames or zones] [bytes a page] [seed] [resting]
 * Zones are such as 0+6000,8192+512, by first frame and frames. With the last word blocks are taken into structs,
 * and single frames rest with their core when they are given.
 *
 * The journal says what the worker knows that it holds: it is written after a take is answered and the pages
 * are written, and removed before a give is asked for. */
#include "journal.h"
#include <fcntl.h>
#include <pthread.h>
#include <stdatomic.h>
#include <stdio.h>
#include <stdlib.h>
#include <string.h>
#include <sys/mman.h>
#include <sys/wait.h>
#include <time.h>
#include <unistd.h>

enum { CORES = 4, TEXT = 160, MOST_RESTING = 128, MOST_IN_HAND = 64000 };

enum phase { STARTING, READING, OPENING, SWITCHED, RUNNING, PHASES };
enum doing { NOTHING, TAKING, TAKEN, GIVING, SPLITTING, SPLIT, DRAINING, DOINGS };

static const char *const phase_names[] = { "starting", "reading", "opening", "switched", "running" };
static const char *const doing_names[] = { "between calls", "in a take",  "taken, not in the journal",
                                           "in a give",     "in a split", "split, not in the journal",
                                           "in a drain" };

/* What the files begin with. The journal has a number for each place: 0, or of a block that begins there its
 * serial number and its order. The regions are two: the words of the one that `current` names count. */
struct head {
    uint32_t page, reclaims; /* 0 hold, 1 reclaim, 2 journal, 3 claim */
    bool rests;
    _Atomic uint32_t current;                 /* 0 none, else 1 or 2 */
    _Atomic uint64_t words_at[3][MOST_ZONES]; /* from the start of the file, by `current` and zone */
    _Atomic uint32_t phase, starts;
    _Alignas(LINE) _Atomic uint32_t doing[8 * LINE / 4];   /* a line for each thread */
    _Alignas(LINE) _Atomic uint32_t resting[8 * LINE / 4]; /* with its core, after its last call */
    _Atomic uint64_t takes, gives, splits, drains, refused;
    _Atomic uint32_t recovered, freed;
    _Atomic uint64_t opening_ns;
    char wrong[TEXT];
};

static struct head *head;
static journal_entry *journal;
static unsigned char *file, *pages;
static memory m;
static size_t region_at[3];

static _Noreturn void fail(const char *what, uint32_t frame, uint32_t more)
{
    snprintf(head->wrong, TEXT, "%s (frame %u, %u)", what, frame, more);
    fprintf(stderr, "WRONG: %s\n", head->wrong);
    _exit(3);
}

static size_t round_up(size_t n) { return (n + 4095) / 4096 * 4096; }

static void *map(const char *name, const char *end, size_t bytes)
{
    char path[512];
    snprintf(path, sizeof path, "%s.%s", name, end);
    int fd = open(path, O_RDWR | O_CREAT, 0600);
    if (fd < 0 || ftruncate(fd, bytes) != 0) {
        perror(path);
        exit(2);
    }
    void *at = mmap(NULL, bytes, PROT_READ | PROT_WRITE, MAP_SHARED, fd, 0);
    if (at == MAP_FAILED) {
        perror("mmap");
        exit(2);
    }
    close(fd);
    return at;
}

static void map_all(const char *name, const char *zones, uint32_t page)
{
    if (!memory_in(&m, zones, CORES)) {
        fprintf(stderr, "%s: no frames and no zones\n", zones);
        exit(2);
    }
    size_t journal_at = round_up(sizeof *head);
    region_at[1] = journal_at + round_up(8 * m.places);
    region_at[2] = region_at[1] + round_up(region_bytes(&m));
    file = map(name, "words", region_at[2] + round_up(region_bytes(&m)));
    pages = map(name, "pages", m.places * page);
    head = (struct head *)file;
    journal = (journal_entry *)(file + journal_at);
}

/* The words of each zone that count, or NULL. */
static uint64_t **current_words(void)
{
    static uint64_t *words[MOST_ZONES];
    uint32_t current = head->current;

    for (uint32_t z = 0; current && z < m.zones; z++)
        words[z] = (uint64_t *)(file + head->words_at[current][z]);
    return current ? words : NULL;
}

/* The pages: their first and last number say whose they are. */

static void write_pages(size_t place, uint8_t order, uint64_t serial)
{
    for (size_t x = place; x < place + (1u << order); x++) {
        unsigned char *at = pages + x * head->page;
        *(volatile uint64_t *)at = serial;
        *(volatile uint64_t *)(at + head->page - 8) = ~serial ^ x;
    }
}

static bool are_pages_of(size_t place, uint8_t order, uint64_t serial)
{
    for (size_t x = place; x < place + (1u << order); x++) {
        unsigned char *at = pages + x * head->page;
        if (*(volatile uint64_t *)at != serial || *(volatile uint64_t *)(at + head->page - 8) != (~serial ^ x))
            return false;
    }
    return true;
}

static size_t claims_of(uint64_t *const *words, llfree_claim *claims, bool changes, struct seen *seen)
{
    const char *wrong = NULL;
    uint32_t where = 0;
    size_t count = claims_in(&m, words, journal, changes, are_pages_of, claims, seen, &wrong, &where);

    if (wrong)
        fail(wrong, where, 0);
    return count;
}

/* The worker. */

static struct {
    _Alignas(LINE) llfree_core core; /* a line for each */
} cores[CORES];

struct held {
    uint32_t frame;
    uint8_t order;
    size_t place;
    uint64_t serial;
    llfree_block right; /* to it, if it was not taken by number */
};

static struct thread {
    _Alignas(LINE) uint32_t number, tenths; /* it takes until it has so many tenths of its part of the memory */
    uint64_t random, next_serial;
    struct held *held;
    size_t count, frames;
} threads[CORES];

static llfree_core handles[CORES];

static uint64_t ns(void)
{
    struct timespec t;
    clock_gettime(CLOCK_MONOTONIC, &t);
    return t.tv_sec * 1000000000ull + t.tv_nsec;
}

static uint64_t draw(uint64_t *state)
{
    *state ^= *state << 13;
    *state ^= *state >> 7;
    *state ^= *state << 17;
    return *state;
}

/* Claims for all frames that the words hold and no known block has, behind those. */
static size_t claim_lost(uint64_t *const *words, llfree_claim *claims, size_t count)
{
    unsigned char *known = calloc(m.places, 1);

    for (size_t i = 0; i < count; i++)
        memset(known + place_of(&m, claims[i].frame, claims[i].order), 1, 1u << claims[i].order);
    for (uint32_t z = 0; z < m.zones; z++)
        for (uint32_t x = 0; x < m.zone[z].frames; x++)
            if (!known[m.place[z] + x] && is_held(&m.zone[z], words[z], x)) {
                uint8_t order = is_huge(&m.zone[z], words[z], x / CHILD) ? HUGE_ORDER : 0;
                claims[count++] = (llfree_claim){ m.range[z].first + x, order };
                x += (1u << order) - 1;
            }
    free(known);
    return count;
}

static void check_recovered(uint64_t *const *words, uint64_t *numbers, const uint64_t *expected)
{
    const char *wrong = wrong_at_rest(&m, words);

    if (wrong)
        fail(wrong, 0, 1);
    image_of_words(&m, words, numbers);
    for (size_t i = 0; i < m.numbers; i++)
        if (numbers[i] != expected[i] && i % 9 != 0)
            fail("a frame is held that was not, or is not that was", frame_at(&m, i / 9 * CHILD), i % 9);
        else if (i % 9 == 0 && numbers[i] / FLAG != expected[i] / FLAG)
            fail("a huge frame is held that was not, or is not that was", frame_at(&m, i / 9 * CHILD), 0);
}

/* The words of the region that counts become an allocator whose words lie in the other region, and only then
 * does that one count: a stop at any moment in here leaves the old words as they were. What was lost
 *  - stays held for good (hold),
 *  - is no part of the image that is opened (reclaim; journal, where the old words are not looked at), or
 *  - is claimed with all else, and given before the new words count (claim). */
static size_t recover(llfree_claim *claims)
{
    static uint64_t *words[MOST_ZONES];
    uint64_t **old = current_words(), begin = ns();
    uint32_t next = head->current == 1 ? 2 : 1, was_held = 0;
    size_t count = 0, claimed = 0;
    uint64_t *numbers = malloc(8 * m.numbers), *expected = malloc(8 * m.numbers);

    head->phase = READING;
    hold_just(&m, claims, 0, expected);
    if (old) {
        const char *wrong = wrong_at_a_stop(&m, old);
        if (wrong)
            fail(wrong, 0, 0);
        struct seen seen = { 0 };
        claimed = count = claims_of(head->reclaims == 2 ? NULL : old, claims, true, &seen);
        was_held = held_frames(&m, old);
        image_of_words(&m, old, numbers);
        hold_just(&m, claims, count, expected);
        if (head->reclaims == 0)
            memcpy(expected, numbers, 8 * m.numbers);
        else if (head->reclaims < 3)
            memcpy(numbers, expected, 8 * m.numbers);
        else
            claimed = claim_lost(old, claims, count);
    }
    head->phase = OPENING;
    keep_words_in(&m, file + region_at[next]);
    uint32_t status = old ? open_again(&m, handles, numbers, claims, claimed) : open_fresh(&m, handles);
    if (status != LLFREE_OK)
        fail("an opening was refused", 0, status);
    if (!kept_words(words))
        fail("the words are not where the heap put them", 0, 0);
    for (size_t i = count; i < claimed; i++)
        if (llfree_give(&handles[i % CORES], claims[i].frame, claims[i].order) != LLFREE_OK)
            fail("what was lost is not given", claims[i].frame, claims[i].order);
    check_recovered(words, numbers, expected);
    for (uint32_t z = 0; z < m.zones; z++)
        head->words_at[next][z] = (unsigned char *)words[z] - file;
    head->current = next;
    head->phase = SWITCHED;
    head->recovered++;
    head->freed += old ? was_held - held_frames(&m, words) : 0;
    head->opening_ns = ns() - begin;
    free(numbers);
    free(expected);
    return count;
}

static void add(struct thread *t, struct held block)
{
    t->held[t->count++] = block;
    t->frames += 1u << block.order;
}

static struct held take_off(struct thread *t, size_t i)
{
    struct held block = t->held[i];
    t->held[i] = t->held[--t->count];
    t->frames -= 1u << block.order;
    return block;
}

static uint32_t take(struct thread *t, uint8_t order, struct held *b)
{
    llfree_core *core = &cores[t->number].core;

    if (!head->rests)
        return llfree_take(core, order, &b->frame);
    uint32_t status = order > 0 ? llfree_take_block(core, order, &b->right) : llfree_take_frame(core, &b->right);
    b->frame = b->right.frame;
    head->resting[LINE / 4 * t->number] = llfree_resting(core);
    return status;
}

static uint32_t give(struct thread *t, struct held *b)
{
    llfree_core *core = &cores[t->number].core;

    if (!b->right.live)
        return llfree_give(core, b->frame, b->order);
    uint32_t status = b->order > 0 ? llfree_give_block(core, &b->right) : llfree_give_frame(core, &b->right);
    head->resting[LINE / 4 * t->number] = llfree_resting(core);
    return status;
}

/* Now and then a core moves to another zone. */
static void move_home(struct thread *t)
{
    uint64_t r = draw(&t->random);

    if (r % 64 == 0 && llfree_set_home(&cores[t->number].core, r / 64 % m.zones) != LLFREE_OK)
        fail("a home was refused", 0, r / 64 % m.zones);
}

/* Now and then it drains its core, and takes until it has another part of the memory, so that more comes to rest. */
static void rest(struct thread *t)
{
    uint64_t r = draw(&t->random);

    if (r % 256 == 0)
        t->tenths = 1 + r / 256 % 9;
    if (r % 8192 == 1) {
        head->doing[LINE / 4 * t->number] = DRAINING;
        llfree_drain(&cores[t->number].core);
        head->resting[LINE / 4 * t->number] = 0;
        head->doing[LINE / 4 * t->number] = NOTHING;
        head->drains++;
    }
}

static void give_one(struct thread *t, size_t i)
{
    struct held b = take_off(t, i);
    _Atomic uint32_t *doing = &head->doing[LINE / 4 * t->number];

    if (!are_pages_of(b.place, b.order, b.serial))
        fail("somebody wrote my page", b.frame, b.order);
    *doing = GIVING;
    journal[b.place] = 0;
    uint32_t status = give(t, &b);
    if (status != LLFREE_OK)
        fail("a give was refused", b.frame, status);
    *doing = NOTHING;
    head->gives++;
}

static void split_one(struct thread *t, struct held *b)
{
    llfree_core *core = &cores[t->number].core;
    _Atomic uint32_t *doing = &head->doing[LINE / 4 * t->number];
    uint32_t half = 1u << b->order >> 1;
    struct held upper = { b->frame + half, b->order - 1, b->place + half, b->serial, LLFREE_EMPTY };

    *doing = SPLITTING;
    uint32_t status =
        b->right.live ? llfree_split_block(core, &b->right, &upper.right) : llfree_split(core, b->frame, b->order);
    if (status != LLFREE_OK)
        fail("a split was refused", b->frame, status);
    *doing = SPLIT;
    b->order--;
    t->frames -= half; /* the upper half is added below */
    journal[upper.place] = entry_of(b->serial, b->order);
    journal[b->place] = entry_of(b->serial, b->order);
    *doing = NOTHING;
    add(t, upper);
    head->splits++;
}

static void take_one(struct thread *t, uint8_t order)
{
    _Atomic uint32_t *doing = &head->doing[LINE / 4 * t->number];
    struct held taken = { .order = order };

    *doing = TAKING;
    uint32_t status = take(t, order, &taken);
    if (status == LLFREE_OK) {
        *doing = TAKEN;
        uint64_t serial = taken.serial = t->next_serial++;
        size_t place = taken.place = place_of(&m, taken.frame, order);
        if (place == m.places || taken.frame % (1u << order) != 0)
            fail("no such block", taken.frame, order);
        write_pages(place, order, serial);
        journal[place] = entry_of(serial, order);
        *doing = NOTHING;
        add(t, taken);
        head->takes++;
        return;
    }
    *doing = NOTHING;
    if (status != LLFREE_NO_BLOCK && status != LLFREE_CONTENDED)
        fail("a take was refused", 0, status);
    head->refused++;
}

static void *work(void *of)
{
    struct thread *t = of;
    uint32_t in_hand = (m.frames < MOST_IN_HAND ? m.frames : MOST_IN_HAND) / CORES / 10;

    for (;;) {
        if (m.zones > 1)
            move_home(t);
        if (head->rests)
            rest(t);
        uint64_t r = draw(&t->random);
        bool full = t->frames > in_hand * t->tenths;

        if (t->count > 0 && r % 100 < (full ? 85 : 30)) {
            give_one(t, r / 128 % t->count);
        } else if (t->count > 0 && r % 100 < (full ? 100 : 45)) {
            struct held *b = &t->held[r / 128 % t->count];
            if (b->order > 0)
                split_one(t, b);
        } else {
            uint32_t p = r / 128 % 100;
            uint8_t order = p < 35 ? 0 : p < 80 ? 1 + r / 16384 % 6 : p < 92 ? 7 + r / 16384 % 2 : 9;
            if (head->rests && r >> 40 & 7)
                order = 0;
            take_one(t, order);
        }
    }
    return NULL;
}

/* The worker; `last` gives all that it knows, and closes with an image. */
static int worker(const char *name, const char *zones, uint32_t page, uint64_t seed, bool last)
{
    map_all(name, zones, page);
    uint32_t start = ++head->starts;
    llfree_claim *claims = malloc(sizeof *claims * (m.frames + 1ull));

    for (uint32_t k = 0; k < CORES; k++) {
        threads[k].number = k;
        threads[k].tenths = 1 + start % 9;
        threads[k].random = seed * 4 + k + 1;
        for (int i = 0; i < 8; i++)
            draw(&threads[k].random);
        threads[k].next_serial = (uint64_t)start << 32 | (uint64_t)k << 28 | 1;
        threads[k].held = malloc(sizeof(struct held) * (m.frames + 1ull));
        head->doing[LINE / 4 * k] = NOTHING;
        head->resting[LINE / 4 * k] = 0;
    }
    size_t count = recover(claims);
    for (uint32_t k = 0; k < CORES; k++)
        cores[k].core = handles[k]; /* moved: the old bytes are not used again */
    for (size_t i = 0; i < count; i++) {
        /* by the journal, which now has the form of the words; any core gives them */
        size_t place = place_of(&m, claims[i].frame, claims[i].order);
        uint64_t entry = journal[place];
        if (order_in(entry) != claims[i].order)
            fail("the journal is not what was claimed", claims[i].frame, claims[i].order);
        add(&threads[(i + start) % CORES],
            (struct held){ claims[i].frame, claims[i].order, place, serial_in(entry), LLFREE_EMPTY });
    }
    head->phase = RUNNING;
    if (!last) {
        pthread_t running;
        for (uint32_t k = 1; k < CORES; k++)
            pthread_create(&running, NULL, work, &threads[k]);
        work(&threads[0]);
    }
    for (uint32_t k = 0; k < CORES; k++)
        while (threads[k].count > 0)
            give_one(&threads[k], 0);
    const char *wrong = wrong_at_rest(&m, current_words());
    if (wrong)
        fail(wrong, 0, 2);
    uint32_t left = held_frames(&m, current_words());
    uint64_t *numbers = malloc(8 * m.numbers), *mine = malloc(8 * m.numbers);
    image_of_words(&m, current_words(), mine);
    for (uint32_t k = 1; k < CORES; k++)
        llfree_close(&cores[k].core);
    if (llfree_close_image(&cores[0].core, numbers, m.numbers) != LLFREE_OK ||
        memcmp(mine, numbers, 8 * m.numbers) != 0)
        fail("the image that the library leaves is not that of the words", 0, 0);
    printf("closed in order: %u frames are held, and the library's image is that of the words\n", left);
    return 0;
}

/* The parent. */

static uint32_t check_stop(llfree_claim *claims, size_t *count, struct seen *seen)
{
    uint64_t **words = current_words();

    if (!words)
        return 0;
    const char *wrong = wrong_at_a_stop(&m, words);
    if (wrong)
        fail(wrong, 0, 3);
    *count = claims_of(words, claims, false, seen);
    return held_frames(&m, words) - frames_of(claims, *count);
}

/* How many frames a stop of running threads may lose: what rests with their cores, and 512 for each that is not between
 * calls. At least it loses what surely rests. */
static void bound_loss(uint32_t *least, uint32_t *most)
{
    for (uint32_t c = 0; c < CORES; c++) {
        uint32_t doing = head->doing[LINE / 4 * c], resting = head->resting[LINE / 4 * c];
        bool may_change = doing == TAKING || doing == GIVING || doing == DRAINING;

        if (resting > MOST_RESTING)
            fail("too much rests", resting, c);
        *least += may_change ? 0 : resting;
        *most += may_change && head->rests ? MOST_RESTING : resting;
        *most += doing == NOTHING ? 0 : 512;
    }
}

static pid_t start(char *self, char *name, const char *zones, uint32_t page, uint64_t seed, bool last)
{
    pid_t pid = fork();

    if (pid == 0) {
        char a[3][24];
        snprintf(a[0], 24, "%u", page);
        snprintf(a[1], 24, "%llu", (unsigned long long)seed);
        snprintf(a[2], 24, "%d", last);
        execl("/proc/self/exe", self, "worker", name, zones, a[0], a[1], a[2], (char *)NULL);
        _exit(2);
    }
    return pid;
}

/* What the parent saw. */
static struct tally {
    uint64_t by_phase[PHASES], by_doing[DOINGS], running, known_blocks, known_frames;
    uint64_t lost, lost_before, most_lost, none_lost, rested, most_rested, opening;
    uint32_t current, zones_used;
    bool was_used[MOST_ZONES];
    struct seen seen;
} tally;

static void pause_for(uint64_t nanoseconds)
{
    struct timespec t = { nanoseconds / 1000000000, nanoseconds % 1000000000 };
    nanosleep(&t, NULL);
}

/* One in three somewhere in the recovery, as long as the last whole one took; else while it runs, the first time
 * however long that takes. Returns whether it was to run. */
static bool kill_at_random(pid_t pid, uint64_t r, bool is_first)
{
    uint64_t span = tally.opening + 2000000, wait = r % 3 == 0 ? r / 8 % span : span + r / 8 % 12000000;
    int status;

    for (uint32_t i = 0; is_first && i < 60000 && head->phase != RUNNING && !head->wrong[0]; i++)
        pause_for(1000000);
    pause_for(is_first ? r / 8 % 12000000 : wait);
    kill(pid, SIGKILL);
    waitpid(pid, &status, 0);
    if (!WIFSIGNALED(status) || WTERMSIG(status) != SIGKILL) {
        fprintf(stderr, "WRONG: the worker ended by itself: %s\n", head->wrong);
        exit(1);
    }
    return is_first || r % 3 != 0;
}

static void count_claims(const llfree_claim *claims, size_t count)
{
    tally.known_blocks += count;
    tally.known_frames += frames_of(claims, count);
    for (size_t i = 0; i < count; i++)
        for (uint32_t z = 0; z < m.zones; z++)
            if (!tally.was_used[z] && claims[i].frame - m.range[z].first < m.range[z].frames) {
                tally.was_used[z] = true;
                tally.zones_used++;
            }
}

/* What a stop lost. Where the worker got as far as words of its own that count, it began with what was lost before,
 * or with nothing where it freed that. */
static void look_at_stop(llfree_claim *claims, bool was_to_run)
{
    uint32_t phase = head->phase, may_lose = 0, rests_now = 0;
    size_t count = 0;

    tally.by_phase[phase]++;
    if (phase == RUNNING) {
        tally.running++;
        bound_loss(&rests_now, &may_lose);
        tally.rested += rests_now;
        tally.most_rested = rests_now > tally.most_rested ? rests_now : tally.most_rested;
        tally.opening = head->opening_ns;
        for (uint32_t c = 0; c < CORES; c++)
            tally.by_doing[head->doing[LINE / 4 * c]]++;
    } else if (was_to_run)
        tally.opening += tally.opening / 4 + 1000000; /* no whole recovery was seen yet, or a faster one */
    head->phase = STARTING;
    uint32_t lost = check_stop(claims, &count, &tally.seen);
    if (head->current != tally.current && head->reclaims)
        tally.lost_before = 0;
    tally.current = head->current;
    if (lost < tally.lost_before)
        fail("a lost frame came back", lost, (uint32_t)tally.lost_before);
    uint64_t now = lost - tally.lost_before;
    if (now > may_lose)
        fail("a stop lost too much", (uint32_t)now, may_lose);
    if (now < rests_now)
        fail("less is lost than rested", (uint32_t)now, rests_now);
    tally.lost += now;
    tally.most_lost = now > tally.most_lost ? now : tally.most_lost;
    tally.none_lost += now == 0;
    tally.lost_before = lost;
    count_claims(claims, count);
}

static void print_tally(uint32_t kills, uint32_t bound)
{
    static const char *const ways[] = { "what is lost stays held", "what is lost is freed again",
                                        "opened from the journal alone", "what is lost is claimed and given" };

    printf("%u frames in %u zones, %u cores, %u kills, %s; %u bytes a page\n", m.frames, m.zones, CORES, kills,
           ways[head->reclaims], head->page);
    for (int p = 0; p < PHASES; p++)
        printf("  killed while %-9s %6llu\n", phase_names[p], (unsigned long long)tally.by_phase[p]);
    for (int d = 0; d < DOINGS; d++)
        printf("  threads %-28s %6llu of %llu\n", doing_names[d], (unsigned long long)tally.by_doing[d],
               (unsigned long long)tally.running * CORES);
    printf("  takes %llu, gives %llu, splits %llu, drains %llu, refused takes %llu\n", (unsigned long long)head->takes,
           (unsigned long long)head->gives, (unsigned long long)head->splits, (unsigned long long)head->drains,
           (unsigned long long)head->refused);
    printf("  recoveries ended %u; frames freed again %u\n", head->recovered, head->freed);
    printf(
        "  found at the stops: a split of a huge frame under way %u, ended and not in the journal %u; half of a split "
        "in the journal %u\n",
        tally.seen.filled, tally.seen.split, tally.seen.halves);
    printf("  known at the stops: %llu blocks, %llu frames a stop, in %u zones\n",
           (unsigned long long)tally.known_blocks / kills, (unsigned long long)tally.known_frames / kills,
           tally.zones_used);
    printf("  lost: %llu frames in all (bound %llu), at most %llu at one stop (bound %u), none at %llu stops\n",
           (unsigned long long)tally.lost, (unsigned long long)bound * kills, (unsigned long long)tally.most_lost,
           bound, (unsigned long long)tally.none_lost);
    if (head->rests)
        printf("  of these rested with cores between calls: %llu frames in all, at most %llu at one stop\n",
               (unsigned long long)tally.rested, (unsigned long long)tally.most_rested);
    printf("  the last recovery took %.2f ms\n", head->opening_ns / 1e6);
    fflush(stdout);
}

static uint32_t way_of(const char *word)
{
    return strcmp(word, "claim") == 0 ? 3 : strcmp(word, "journal") == 0 ? 2 : strcmp(word, "reclaim") == 0;
}

int main(int argc, char **argv)
{
    if (argc == 7 && strcmp(argv[1], "worker") == 0)
        return worker(argv[2], argv[3], atoi(argv[4]), strtoull(argv[5], NULL, 10), atoi(argv[6]));
    if (argc < 3) {
        fputs("crash FILES KILLS [hold|reclaim|journal|claim] [frames or zones] [bytes a page] [seed] [resting]\n",
              stderr);
        return 2;
    }
    char *name = argv[1], path[512];
    uint32_t kills = atoi(argv[2]), page = argc > 5 ? atoi(argv[5]) : 4096;
    const char *zones = argc > 4 ? argv[4] : "16000";
    uint64_t random = (argc > 6 ? strtoull(argv[6], NULL, 10) : 1) * 0x9e3779b97f4a7c15ull | 1;

    snprintf(path, sizeof path, "%s.words", name);
    unlink(path);
    snprintf(path, sizeof path, "%s.pages", name);
    unlink(path);
    map_all(name, zones, page);
    head->page = page;
    head->reclaims = argc > 3 ? way_of(argv[3]) : 0;
    head->rests = argc > 7 && strcmp(argv[7], "resting") == 0;

    uint32_t bound = (512 + (head->rests ? MOST_RESTING : 0)) * CORES; /* of what one stop loses */
    llfree_claim *claims = malloc(sizeof *claims * (m.frames + 1ull));
    for (uint32_t k = 0; k < kills; k++) {
        pid_t pid = start(argv[0], name, zones, page, draw(&random) % 1000000, false);
        look_at_stop(claims, kill_at_random(pid, draw(&random), k == 0));
    }
    if (tally.lost > (uint64_t)bound * kills)
        fail("too much is lost", 0, 0);
    if (head->rests && tally.running >= 20 && tally.rested == 0)
        fail("nothing rested at any stop", 0, 0);
    if (tally.running >= 5 && tally.zones_used < m.zones)
        fail("a zone was never used", 0, tally.zones_used);
    print_tally(kills, bound);
    pid_t pid = start(argv[0], name, zones, page, 1, true);
    int status;
    waitpid(pid, &status, 0);
    return WIFEXITED(status) && WEXITSTATUS(status) == 0 ? 0 : 1;
}
