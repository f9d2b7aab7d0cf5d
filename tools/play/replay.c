/* Replays a recording of page frames for tools/play.py, which compiles it with bench/c/peers.c and calls it by ctypes:
 * what was taken and given (recording_follow), where the blocks lie in the library and in its peers (replay_library,
 * replay_peer) and in the recorded machine (replay_recorded), and what is to be seen of that (state_at, film). */
#include "llfree.h"
#include "peers.h"
#include <stdbool.h>
#include <stdlib.h>
#include <string.h>

enum { CHILD_ORDER = 9, CHILD_FRAMES = 1 << CHILD_ORDER, MOST_ORDER = 18, MOST_CORES = 64, NOBODY = 255 };

enum kind { GIVE, TAKE, KEEP };

/* A block that is taken, a part of one that is given, or one that is out where a window begins: kept. */
struct step {
    uint64_t frame; /* in the recorded machine */
    uint32_t micros;
    uint32_t block; /* of a give, the step that took or kept it; of what is kept, the step that took it */
    uint16_t offset;
    uint8_t kind, order, processor;
};

/* What is out, by the frames of the recorded machine: a table with open places. */
struct out {
    uint64_t frame;
    uint32_t block; /* NONE: an open place */
    uint16_t offset;
};

struct recording {
    struct step *steps;
    struct out *out;
    uint64_t began, begin; /* microseconds; those of a window's begin since the first event */
    uint32_t count, room, places, held, processors;
    uint32_t window; /* the step that the window begins with */
    uint32_t last_micros, most_held, most_processor, unknown, left_out, parts;
    bool is_begun, is_full;
};

/* What is out */

static uint32_t place_of(const struct recording *of, uint64_t frame)
{
    return (uint32_t)((frame * 0x9e3779b97f4a7c15ull) >> 32) & (of->places - 1);
}

static struct out *find(const struct recording *of, uint64_t frame)
{
    uint32_t at = place_of(of, frame);

    while (of->out[at].block != NONE && of->out[at].frame != frame)
        at = (at + 1) & (of->places - 1);
    return &of->out[at];
}

static bool set_places(struct recording *of, uint32_t places)
{
    struct out *old = of->out, *out = malloc(places * sizeof *out);
    uint32_t count = of->places;

    if (out == NULL)
        return false;
    for (uint32_t i = 0; i < places; i++)
        out[i].block = NONE;
    of->out = out;
    of->places = places;
    for (uint32_t i = 0; i < count; i++)
        if (old[i].block != NONE)
            *find(of, old[i].frame) = old[i];
    free(old);
    return true;
}

/* The places behind an open one move up, or they would no longer be found. */
static void forget(struct recording *of, uint64_t frame)
{
    uint32_t open = (uint32_t)(find(of, frame) - of->out), at = open;

    for (;;) {
        at = (at + 1) & (of->places - 1);
        if (of->out[at].block == NONE)
            break;
        uint32_t home = place_of(of, of->out[at].frame);
        if (((at - home) & (of->places - 1)) >= ((at - open) & (of->places - 1))) {
            of->out[open] = of->out[at];
            open = at;
        }
    }
    of->out[open].block = NONE;
    of->held--;
}

/* Steps */

static uint32_t add(struct recording *of, struct step step)
{
    if (of->count == of->room) {
        uint32_t room = of->room ? 2 * of->room : 1 << 16;
        struct step *steps = room > of->room ? realloc(of->steps, room * sizeof *steps) : NULL;
        if (steps == NULL) {
            of->is_full = true;
            return NONE;
        }
        of->steps = steps;
        of->room = room;
    }
    of->steps[of->count] = step;
    return of->count++;
}

static void lay_down(struct recording *of, uint32_t block)
{
    const struct step *step = &of->steps[block];

    for (uint32_t i = 0; i < 1u << step->order; i++) {
        if (2 * of->held >= of->places && !set_places(of, 2 * of->places)) {
            of->is_full = true;
            return;
        }
        struct out *out = find(of, step->frame + i);
        of->held += out->block == NONE;
        *out = (struct out) { step->frame + i, block, (uint16_t)i };
    }
    if (of->held > of->most_held)
        of->most_held = of->held;
}

static void take(struct recording *of, uint32_t micros, uint8_t processor, uint64_t frame, uint8_t order)
{
    uint32_t block = add(of, (struct step) { frame, micros, of->count, 0, TAKE, order, processor });

    if (block != NONE)
        lay_down(of, block);
}

/* The order of the greatest part of one block that is out from this frame on, and ends before the last. */
static uint8_t part_of(const struct recording *of, uint64_t frame, uint64_t end)
{
    const struct out *out = find(of, frame);
    uint32_t block = out->block;
    uint8_t order = 0;

    while (order < of->steps[block].order && !(out->offset & ((2u << order) - 1)) && frame + (2u << order) <= end) {
        for (uint64_t next = frame + (1u << order); next < frame + (2u << order); next++)
            if (find(of, next)->block != block)
                return order;
        order++;
    }
    return order;
}

/* Gives all that is out of these frames. */
static void leave(struct recording *of, uint32_t micros, uint8_t processor, uint64_t frame, uint64_t end)
{
    while (frame < end) {
        const struct out out = *find(of, frame);
        if (out.block == NONE) {
            of->unknown++;
            frame++;
            continue;
        }
        uint8_t order = part_of(of, frame, end);
        of->parts += order < of->steps[out.block].order;
        if (add(of, (struct step) { frame, micros, out.block, out.offset, GIVE, order, processor }) == NONE)
            return;
        for (uint32_t i = 0; i < 1u << order; i++)
            forget(of, frame + i);
        frame += 1u << order;
    }
}

static int by_frame(const void *left, const void *right)
{
    uint64_t a = ((const struct out *)left)->frame, b = ((const struct out *)right)->frame;

    return a < b ? -1 : a > b;
}

/* A window begins with what is out: each greatest part is kept, and is given from there. */
static void begin(struct recording *of)
{
    struct out *held = malloc((of->held + 1) * sizeof *held);
    uint32_t count = 0;

    of->is_begun = true;
    if (held == NULL) {
        of->is_full = true;
        return;
    }
    for (uint32_t i = 0; i < of->places; i++)
        if (of->out[i].block != NONE)
            held[count++] = of->out[i];
    qsort(held, count, sizeof *held, by_frame);
    of->window = of->count;
    for (uint32_t i = 0; i < count && !of->is_full;) {
        uint8_t order = part_of(of, held[i].frame, UINT64_MAX);
        uint32_t block = held[i].block;
        struct step step = { held[i].frame, (uint32_t)of->begin, block, held[i].offset, KEEP, order,
            of->steps[block].processor };
        uint32_t kept = add(of, step);
        if (kept != NONE)
            lay_down(of, kept);
        i += 1u << order;
    }
    free(held);
}

/* Events */

struct recording *recording_open(uint64_t begin, uint32_t processors)
{
    struct recording *of = calloc(1, sizeof *of);

    if (of == NULL)
        return NULL;
    of->begin = begin;
    of->is_begun = begin == 0;
    of->processors = processors;
    if (!set_places(of, 1 << 16)) {
        free(of);
        return NULL;
    }
    return of;
}

void recording_close(struct recording *of)
{
    free(of->steps);
    free(of->out);
    free(of);
}

/* Events in their order. A frame that is allocated while it is out was freed in between, and that was not recorded. */
void recording_follow(struct recording *of, size_t count, const uint64_t *micros, const uint64_t *frames,
                      const uint32_t *processors, const uint8_t *orders, const uint8_t *is_alloc)
{
    for (size_t i = 0; i < count && !of->is_full; i++) {
        uint8_t processor = (uint8_t)(processors[i] % of->processors), order = orders[i];
        if (of->count == 0)
            of->began = micros[i];
        uint32_t now = micros[i] < of->began ? 0 : (uint32_t)(micros[i] - of->began);
        if (now < of->last_micros)
            now = of->last_micros; /* events of several processors may stand out of order */
        uint64_t frame = frames[i];
        if (order > MOST_ORDER || (is_alloc[i] && frame == 0)) {
            of->left_out++;
            continue;
        }
        if (!of->is_begun && now >= of->begin)
            begin(of);
        if (processor > of->most_processor)
            of->most_processor = processor;
        of->last_micros = now;
        uint64_t end = frame + (1ull << order);
        if (!is_alloc[i]) {
            leave(of, now, processor, frame, end);
            continue;
        }
        uint32_t unknown = of->unknown;
        for (uint64_t one = frame; one < end; one++)
            if (find(of, one)->block != NONE) {
                leave(of, now, processor, frame, end);
                break;
            }
        of->unknown = unknown;
        uint8_t part = order < CHILD_ORDER ? order : CHILD_ORDER;
        for (; frame < end; frame += 1u << part)
            take(of, now, processor, frame, part);
    }
}

/* What was followed. From now on there are as many processors as took or gave something. */
void recording_end(struct recording *of, uint32_t told[9])
{
    const uint32_t all[] = { of->count, of->window, of->last_micros, of->most_held, of->most_processor + 1, of->unknown,
        of->left_out, of->parts, of->is_full };

    of->processors = of->most_processor + 1;
    memcpy(told, all, sizeof all);
}

/* What a page is made of: the steps from one on. `back` is how many steps before a give its block was taken or kept. */
void recording_columns(const struct recording *of, uint32_t from, uint32_t *micros, uint8_t *marks, uint8_t *processors,
                       uint32_t *back, uint16_t *offsets)
{
    for (uint32_t i = from; i < of->count; i++) {
        const struct step *step = &of->steps[i];
        micros[i - from] = step->micros - (uint32_t)(of->window ? of->begin : 0);
        marks[i - from] = (uint8_t)(step->kind << 4 | step->order);
        processors[i - from] = step->processor;
        back[i - from] = step->kind == GIVE ? i - step->block : 0;
        offsets[i - from] = step->kind == GIVE ? step->offset : 0;
    }
}

/* Where blocks lie: for each step its first frame, or NONE where the block was refused */

typedef bool giving(void *state, uint32_t processor, uint32_t frame, uint8_t order);
typedef uint32_t taking(void *state, uint32_t processor, uint8_t order);

static bool replay(const struct recording *of, void *state, taking *take_by, giving *give_by, uint32_t *where)
{
    for (uint32_t i = 0; i < of->count; i++) {
        const struct step *step = &of->steps[i];
        if (step->kind == TAKE) {
            where[i] = take_by(state, step->processor, step->order);
            continue;
        }
        where[i] = where[step->block] == NONE ? NONE : where[step->block] + step->offset;
        if (step->kind == GIVE && where[i] != NONE && !give_by(state, step->processor, where[i], step->order))
            return false;
    }
    return true;
}

static uint32_t peer_taking(void *state, uint32_t processor, uint8_t order)
{
    return peer_take(state, processor, order);
}

static bool peer_giving(void *state, uint32_t processor, uint32_t frame, uint8_t order)
{
    peer_give(state, processor, frame, order);
    return true;
}

/* With no lists the buddy allocator alone. */
bool replay_peer(const struct recording *of, uint32_t frames, uint32_t lists, uint32_t *where)
{
    struct peer *peer = peer_open(frames, lists);
    bool is_done = peer != NULL && replay(of, peer, peer_taking, peer_giving, where);

    peer_close(peer);
    return is_done;
}

/* The library's calls, which play.py finds by ctypes, and its cores. */
struct library {
    enum llfree_status (*open)(llfree_core *, size_t, uint32_t, const llfree_range *, size_t);
    enum llfree_status (*take)(llfree_core *, uint8_t, uint32_t *);
    enum llfree_status (*give)(llfree_core *, uint32_t, uint8_t);
    enum llfree_status (*split)(llfree_core *, uint32_t, uint8_t);
    uint32_t (*free_frames)(llfree_core *);
    uint32_t (*free_huge)(llfree_core *);
    void (*close)(llfree_core *);
    llfree_core cores[MOST_CORES];
};

static uint32_t library_taking(void *state, uint32_t processor, uint8_t order)
{
    struct library *library = state;
    uint32_t frame;

    return library->take(&library->cores[processor], order, &frame) == LLFREE_OK ? frame : NONE;
}

/* The kernel may free a part of a block: the blocks around it are split down to it. */
static bool library_giving(void *state, uint32_t processor, uint32_t frame, uint8_t order)
{
    struct library *library = state;
    llfree_core *core = &library->cores[processor];
    uint8_t held = order;

    if (library->give(core, frame, order) == LLFREE_OK)
        return true;
    do
        if (++held > CHILD_ORDER)
            return false;
    while (library->split(core, frame >> held << held, held) != LLFREE_OK);
    while (--held > order)
        if (library->split(core, frame >> held << held, held) != LLFREE_OK)
            return false;
    return library->give(core, frame, order) == LLFREE_OK;
}

/* With a core for each processor. Free are the frames and huge frames that the library counts as free at the end.
 * Answers the status of the opening, or NONE where a give was refused. */
uint32_t replay_library(const struct recording *of, void *const calls[7], uint32_t frames, uint32_t *where,
                        uint32_t free_at_end[2])
{
    static struct library library;

    memset(&library, 0, sizeof library);
    memcpy(&library, calls, 7 * sizeof *calls);
    uint32_t status = library.open(library.cores, of->processors, frames, NULL, 0);
    if (status != LLFREE_OK)
        return status;
    bool is_done = replay(of, &library, library_taking, library_giving, where);
    free_at_end[0] = library.free_frames(&library.cores[0]);
    free_at_end[1] = library.free_huge(&library.cores[0]);
    for (uint32_t i = 0; i < of->processors; i++)
        library.close(&library.cores[i]);
    return is_done ? LLFREE_OK : NONE;
}

/* The frames of the recorded machine: huge frames that the steps from one on touch, side by side in their order. Writes
 * the numbers of these huge frames, and answers how many there are. */
static int by_number(const void *left, const void *right)
{
    uint64_t a = *(const uint64_t *)left, b = *(const uint64_t *)right;

    return a < b ? -1 : a > b;
}

uint32_t replay_recorded(const struct recording *of, uint32_t from, uint64_t *huge, uint32_t *where)
{
    uint32_t count = 0, kept = 0, near = 0;

    for (uint32_t i = from; i < of->count; i++)
        if (of->steps[i].kind != GIVE && (count == 0 || huge[count - 1] != of->steps[i].frame >> CHILD_ORDER))
            huge[count++] = of->steps[i].frame >> CHILD_ORDER;
    qsort(huge, count, sizeof *huge, by_number);
    for (uint32_t i = 0; i < count; i++)
        if (kept == 0 || huge[kept - 1] != huge[i])
            huge[kept++] = huge[i];
    for (uint32_t i = 0; i < of->count; i++) {
        uint64_t number = of->steps[i].frame >> CHILD_ORDER;
        if (i < from || kept == 0) {
            where[i] = NONE;
            continue;
        }
        if (huge[near] != number)
            near = (uint32_t)((uint64_t *)bsearch(&number, huge, kept, sizeof *huge, by_number) - huge);
        where[i] = near * CHILD_FRAMES + (uint32_t)(of->steps[i].frame % CHILD_FRAMES);
    }
    return kept;
}

/* What is to be seen */

struct seen {
    uint8_t *who;    /* of each frame: the processor that took it, or NOBODY */
    uint8_t *order;
    uint32_t *since; /* and when, in microseconds */
    uint16_t *of_child; /* of each child, how many frames each processor has */
    uint16_t *users, *held;
    uint32_t children, processors, frames_held, shared, used, refused;
};

static void see(struct seen *of, const struct recording *recording, uint32_t at, const uint32_t *where)
{
    const struct step *step = &recording->steps[at];
    uint32_t frame = where[at], size = 1u << step->order;

    if (frame == NONE) {
        of->refused += step->kind == TAKE;
        return;
    }
    uint32_t child = frame >> CHILD_ORDER;
    uint16_t *by = &of->of_child[(size_t)child * of->processors];
    bool was_shared = of->users[child] > 1, was_used = of->held[child] > 0;
    for (uint32_t i = frame; i < frame + size; i++) {
        if (step->kind == GIVE) {
            if (of->who[i] == NOBODY)
                continue;
            of->users[child] -= --by[of->who[i]] == 0;
            of->who[i] = NOBODY;
            of->held[child]--;
            of->frames_held--;
        } else {
            of->users[child] += by[step->processor]++ == 0;
            of->who[i] = step->processor;
            of->order[i] = step->order;
            of->since[i] = step->micros;
            of->held[child]++;
            of->frames_held++;
        }
    }
    of->shared += (of->users[child] > 1) - was_shared;
    of->used += (of->held[child] > 0) - was_used;
}

static bool open_seen(struct seen *of, uint32_t children, uint32_t processors)
{
    size_t frames = (size_t)children * CHILD_FRAMES;

    *of = (struct seen) { .children = children, .processors = processors };
    of->who = malloc(frames + 1);
    of->order = malloc(frames + 1);
    of->since = malloc(frames * sizeof *of->since + 1);
    of->of_child = calloc((size_t)children * processors + 1, sizeof *of->of_child);
    of->users = calloc(children + 1, sizeof *of->users);
    of->held = calloc(children + 1, sizeof *of->held);
    if (!of->who || !of->order || !of->since || !of->of_child || !of->users || !of->held)
        return false;
    memset(of->who, NOBODY, frames);
    return true;
}

static void close_seen(struct seen *of)
{
    free(of->who);
    free(of->order);
    free(of->since);
    free(of->of_child);
    free(of->users);
    free(of->held);
}

/* Who has each frame after the steps before `to`, its order, and since when. */
bool state_at(const struct recording *of, const uint32_t *where, uint32_t from, uint32_t to, uint32_t children,
              uint8_t *who, uint8_t *order, uint32_t *since)
{
    struct seen seen;
    bool is_open = open_seen(&seen, children, of->processors);

    for (uint32_t i = from; is_open && i < to; i++)
        see(&seen, of, i, where);
    if (is_open) {
        memcpy(who, seen.who, (size_t)children * CHILD_FRAMES);
        memcpy(order, seen.order, (size_t)children * CHILD_FRAMES);
        memcpy(since, seen.since, (size_t)children * CHILD_FRAMES * sizeof *since);
    }
    close_seen(&seen);
    return is_open;
}

enum { COLOURS = 8, ORDERS = 4, AGES = 5, LAYERS = COLOURS + ORDERS + AGES };

static uint32_t class_of_order(uint8_t order)
{
    return order == 0 ? 0 : order < 4 ? 1 : order < CHILD_ORDER ? 2 : 3;
}

static uint32_t class_of_age(uint32_t micros)
{
    return micros < 10000 ? 0 : micros < 100000 ? 1 : micros < 1000000 ? 2 : micros < 10000000 ? 3 : 4;
}

/* How many of a child's frames each layer has: colours of processors, classes of orders, classes of ages. */
static void count_layers(const struct seen *of, uint32_t child, uint32_t now, uint16_t counts[LAYERS])
{
    memset(counts, 0, LAYERS * sizeof *counts);
    if (of->held[child] == 0)
        return;
    for (uint32_t i = child * CHILD_FRAMES; i < (child + 1) * CHILD_FRAMES; i++)
        if (of->who[i] != NOBODY) {
            counts[of->who[i] % COLOURS]++;
            counts[COLOURS + class_of_order(of->order[i])]++;
            counts[COLOURS + ORDERS + class_of_age(now - of->since[i])]++;
        }
}

/* A picture at each of the times: of each layer, child and picture half the frames, less those of the picture before;
 * and of each picture how many huge frames several processors use, how many are used, frames held and takes refused. */
bool film(const struct recording *of, const uint32_t *where, uint32_t from, uint32_t children, uint32_t pictures,
          const uint32_t *micros, uint8_t *halves, uint32_t *series)
{
    struct seen seen;
    uint16_t counts[LAYERS];
    uint8_t *before = calloc((size_t)children * LAYERS + 1, 1);
    uint32_t at = from;
    bool is_open = open_seen(&seen, children, of->processors) && before != NULL;

    for (uint32_t picture = 0; is_open && picture < pictures; picture++) {
        for (; at < of->count && of->steps[at].micros <= micros[picture]; at++)
            see(&seen, of, at, where);
        const uint32_t told[] = { seen.shared, seen.used, seen.frames_held, seen.refused };
        for (uint32_t i = 0; i < sizeof told / sizeof *told; i++)
            series[i * pictures + picture] = told[i];
        for (uint32_t child = 0; halves != NULL && child < children; child++) {
            count_layers(&seen, child, micros[picture], counts);
            for (uint32_t layer = 0; layer < LAYERS; layer++) {
                uint8_t half = counts[layer] > 509 ? 255 : (uint8_t)((counts[layer] + 1) / 2);
                uint8_t *old = &before[(size_t)layer * children + child];
                halves[((size_t)layer * children + child) * pictures + picture] = (uint8_t)(half - *old);
                *old = half;
            }
        }
    }
    free(before);
    close_seen(&seen);
    return is_open;
}
