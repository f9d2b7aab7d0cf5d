#include "kept_words.h"
#include <stdio.h>
#include <stdlib.h>
#include <string.h>

static layout layout_of(uint32_t frames, uint32_t cores)
{
    layout l = { .frames = frames, .cores = cores };

    l.children = (frames + CHILD - 1) / CHILD;
    l.trees = (l.children + TREE_CHILDREN - 1) / TREE_CHILDREN;
    l.tree = 8 + 8 * (size_t)l.trees;
    l.local = l.tree + l.trees + 7;
    l.bits = l.local + 8 * (size_t)cores;
    l.count = l.bits + 8 * (size_t)l.children;
    return l;
}

void memory_of(memory *m, const llfree_range *zones, uint32_t count, uint32_t cores)
{
    m->zones = count, m->cores = cores, m->frames = 0, m->places = 0;
    for (uint32_t z = 0; z < count; z++) {
        m->range[z] = zones[z];
        m->zone[z] = layout_of(zones[z].frames, cores);
        m->place[z] = m->places;
        m->frames += zones[z].frames;
        m->places += CHILD * (size_t)m->zone[z].children;
    }
    m->numbers = 9 * m->places / CHILD;
}

bool memory_in(memory *m, const char *text, uint32_t cores)
{
    static llfree_range zones[MOST_ZONES];
    uint32_t count = 0;

    for (;;) {
        char *end;
        llfree_range zone = { 0, strtoul(text, &end, 10) };

        if (*end == '+')
            zone = (llfree_range){ zone.frames, strtoul(end + 1, &end, 10) };
        if (zone.frames == 0 || count == MOST_ZONES || (*end && *end != ','))
            return false;
        zones[count++] = zone;
        if (!*end)
            break;
        text = end + 1;
    }
    memory_of(m, zones, count, cores);
    return true;
}

uint32_t frame_at(const memory *m, size_t place)
{
    uint32_t z = m->zones - 1;

    while (place < m->place[z])
        z--;
    return m->range[z].first + (place - m->place[z]);
}

size_t place_of(const memory *m, uint32_t frame, uint8_t order)
{
    for (uint32_t z = 0; z < m->zones; z++) {
        uint64_t local = (uint64_t)frame - m->range[z].first;

        if (local < m->range[z].frames && local + (1u << order) <= m->range[z].frames)
            return m->place[z] + local;
    }
    return m->places;
}

bool is_one_run(const memory *m)
{
    for (uint32_t z = 0; z < m->zones; z++)
        if (m->range[z].first != z * ZONE_FRAMES || (z + 1 < m->zones && m->range[z].frames != ZONE_FRAMES))
            return false;
    return true;
}

uint32_t open_fresh(const memory *m, llfree_core *handles)
{
    if (is_one_run(m))
        return llfree_open(handles, m->cores, m->frames, NULL, 0);
    return llfree_open_zones(handles, m->cores, m->range, m->zones, NULL, 0);
}

uint32_t open_again(const memory *m, llfree_core *handles, const uint64_t *numbers, const llfree_claim *claims,
                    size_t count)
{
    if (is_one_run(m))
        return llfree_reopen(handles, m->cores, m->frames, numbers, m->numbers, claims, count);
    return llfree_reopen_zones(handles, m->cores, m->range, m->zones, numbers, m->numbers, claims, count);
}

uint32_t entry_at(const layout *l, const uint64_t *words, uint32_t child)
{
    (void)l;
    return words[8 + 8 * (child / TREE_CHILDREN) + child % TREE_CHILDREN / 4] >> (16 * (child % 4)) & 0xffff;
}

uint64_t tree_at(const layout *l, const uint64_t *words, uint32_t tree) { return words[l->tree + tree]; }

uint64_t local_at(const layout *l, const uint64_t *words, uint32_t core) { return words[l->local + 8 * (size_t)core]; }

uint64_t bit_word_at(const layout *l, const uint64_t *words, uint32_t child, uint32_t w)
{
    return words[l->bits + 8 * (size_t)child + w];
}

bool is_huge(const layout *l, const uint64_t *words, uint32_t child) { return entry_at(l, words, child) >= FLAG; }

bool is_set(const layout *l, const uint64_t *words, uint32_t frame)
{
    return words[l->bits + frame / 64] >> (frame % 64) & 1;
}

bool is_held(const layout *l, const uint64_t *words, uint32_t frame)
{
    return is_huge(l, words, frame / CHILD) || is_set(l, words, frame);
}

uint32_t set_in(const layout *l, const uint64_t *words, uint32_t child)
{
    uint32_t n = 0;

    for (uint32_t w = 0; w < 8; w++)
        n += __builtin_popcountll(bit_word_at(l, words, child, w));
    return n;
}

uint32_t held_in(const layout *l, const uint64_t *words, uint32_t child)
{
    return is_huge(l, words, child) ? CHILD : set_in(l, words, child);
}

uint32_t held_in_zone(const layout *l, const uint64_t *words)
{
    uint32_t n = 0;

    for (uint32_t c = 0; c < l->children; c++)
        n += held_in(l, words, c);
    return n - (CHILD * l->children - l->frames);
}

uint32_t held_frames(const memory *m, uint64_t *const *words)
{
    uint32_t n = 0;

    for (uint32_t z = 0; z < m->zones; z++)
        n += held_in_zone(&m->zone[z], words[z]);
    return n;
}

/* The library reads the words of a zone, and has to say the same. */
static void compare(const layout *l, const uint64_t *words, const uint64_t *numbers)
{
    size_t many = llfree_image_words(l->frames);
    uint64_t *theirs = malloc(8 * many);

    if (!theirs || llfree_words(l->frames, l->cores) != l->count ||
        llfree_image_of_words(l->frames, l->cores, words, l->count, theirs, many) != LLFREE_OK ||
        memcmp(theirs, numbers, 8 * many) != 0) {
        fprintf(stderr, "WRONG: the library makes another image of the words\n");
        exit(1);
    }
    free(theirs);
}

void image_of_words(const memory *m, uint64_t *const *words, uint64_t *numbers)
{
    for (uint32_t z = 0; z < m->zones; z++) {
        const layout *l = &m->zone[z];

        for (uint32_t c = 0; c < l->children; c++) {
            bool huge = is_huge(l, words[z], c);

            numbers[9 * c] = huge ? FLAG : CHILD - set_in(l, words[z], c);
            for (uint32_t w = 0; w < 8; w++)
                numbers[9 * c + 1 + w] = huge ? 0 : bit_word_at(l, words[z], c, w);
        }
        compare(l, words[z], numbers);
        numbers += 9 * (size_t)l->children;
    }
}

static uint32_t children_of(const layout *l, uint32_t tree)
{
    uint32_t left = l->children - TREE_CHILDREN * tree;

    return left < TREE_CHILDREN ? left : TREE_CHILDREN;
}

/* The sum of the theorem for a tree: its word, what rests on it and what is held. */
static const char *wrong_tree(const layout *l, const uint64_t *words, uint32_t t, bool exact)
{
    uint64_t sum = tree_at(l, words, t) % FLAG, on = 0, is_reserved = tree_at(l, words, t) >= FLAG;

    for (uint32_t k = 0; k < l->cores; k++) {
        uint64_t local = local_at(l, words, k);

        if (local >> 63 && (local << 1 >> 33) == t) {
            sum += (uint32_t)local;
            on++;
        }
    }
    for (uint32_t c = 0; c < children_of(l, t); c++)
        sum += held_in(l, words, TREE_CHILDREN * t + c);
    if (sum > CHILD * children_of(l, t) || (exact && sum != CHILD * children_of(l, t)))
        return "a tree counts wrong";
    if (on > 1 || (exact && on != is_reserved) || on > is_reserved)
        return "a tree is reserved wrong";
    return NULL;
}

/* The two sums of the theorem, that of a tree and for a child its entry and what is held. What a call had on
 * the way is missing in them, so they are at most the frames; where no call runs they are exactly these. */
static const char *wrong_zone(const layout *l, const uint64_t *words, bool exact)
{
    for (size_t i = 0; i < 8; i++)
        if (words[i] != 0)
            return "a word before the entries was written";
    for (uint32_t c = 0; c < l->children; c++) {
        uint32_t free = entry_at(l, words, c) % FLAG, sum = free + held_in(l, words, c);

        if (sum > CHILD || (exact && sum != CHILD))
            return "an entry counts wrong";
        if (exact && is_huge(l, words, c) && set_in(l, words, c) != 0)
            return "bits beside a flag";
        if (CHILD * (c + 1) > l->frames && is_huge(l, words, c))
            return "a cut child is one huge frame";
    }
    for (uint32_t x = l->frames; x < CHILD * l->children; x++)
        if (!is_set(l, words, x))
            return "a frame past the end is free";
    for (uint32_t t = 0; t < l->trees; t++) {
        const char *wrong = wrong_tree(l, words, t, exact);

        if (wrong)
            return wrong;
    }
    return NULL;
}

static const char *wrong_sums(const memory *m, uint64_t *const *words, bool exact)
{
    const char *wrong = NULL;

    for (uint32_t z = 0; z < m->zones && !wrong; z++)
        wrong = wrong_zone(&m->zone[z], words[z], exact);
    return wrong;
}

const char *wrong_at_a_stop(const memory *m, uint64_t *const *words) { return wrong_sums(m, words, false); }

const char *wrong_at_rest(const memory *m, uint64_t *const *words) { return wrong_sums(m, words, true); }

/* The heap. */

struct rattle_block {
    bool found;
    void *at;
};

/* What was asked for with this alignment since keep_words_in, in that order. */
enum { WORD_ALIGNMENT = 8 };
static struct request {
    unsigned char *at;
    size_t size;
    bool stays;
} * requests;
static size_t asked, room;

static const memory *kept; /* while the heap keeps words */
static unsigned char *region;
static size_t served, region_end;
static _Alignas(16) unsigned char nowhere[16];

static size_t slot_size(const layout *l) { return (8 * l->count + LINE - 1) / LINE * LINE; }

/* An opening asks twice for as much as a zone's words need, and before that at most so many times for other
 * blocks of such a size. Those behind the last zone's words may go elsewhere. */
enum { OTHERS = 8 };

size_t region_bytes(const memory *m)
{
    size_t all = 0, most = 0;

    for (uint32_t z = 0; z < m->zones; z++) {
        size_t slot = slot_size(&m->zone[z]);

        all += 2 * slot;
        most = slot > most ? slot : most;
    }
    return all + OTHERS * most;
}

void keep_words_in(const memory *m, void *at)
{
    kept = m;
    region = at;
    region_end = region_bytes(m);
    served = asked = 0;
}

static bool is_like_words(size_t size)
{
    for (uint32_t z = 0; z < kept->zones; z++)
        if (size == 8 * kept->zone[z].count)
            return true;
    return false;
}

static bool is_in_region(const unsigned char *at) { return region && at >= region && at < region + region_end; }

static size_t others;

/* Of the blocks of this alignment that stay, in the order of their requests, two come first. Then come the
 * words of the zones, in the order of the zones. */
enum { BEFORE = 2 };

bool kept_words(uint64_t **words)
{
    size_t staying = 0, right = 0;

    others = 0;
    for (size_t i = 0; i < asked; i++) {
        if (!requests[i].stays)
            continue;
        size_t z = staying++ - BEFORE;
        if (z >= kept->zones)
            others += is_like_words(requests[i].size);
        else if (requests[i].size == 8 * kept->zone[z].count && is_in_region(requests[i].at)) {
            words[z] = (uint64_t *)requests[i].at;
            right++;
        }
    }
    bool found = right == kept->zones;
    kept = NULL;
    return found;
}

size_t others_like_words(void) { return others; }

static void note(unsigned char *at, size_t size)
{
    if (asked == room) {
        room = 2 * room + 64;
        requests = realloc(requests, room * sizeof *requests);
        if (!requests)
            abort();
    }
    requests[asked++] = (struct request){ at, size, true };
}

struct rattle_block rattle_alloc(size_t size, size_t alignment)
{
    unsigned char *at = NULL;
    size_t slot = (size + LINE - 1) / LINE * LINE;

    if (kept && alignment == WORD_ALIGNMENT && is_like_words(size) && slot <= region_end - served) {
        at = region + served;
        served += slot;
    } else
        at = malloc(size ? size : 1);
    if (kept && alignment == WORD_ALIGNMENT && at)
        note(at, size);
    return (struct rattle_block){ at != NULL, at ? at : nowhere };
}

void rattle_dealloc(void *block)
{
    for (size_t i = asked; kept && i > 0; i--)
        if (requests[i - 1].at == block && requests[i - 1].stays) {
            requests[i - 1].stays = false;
            break;
        }
    if (!is_in_region(block))
        free(block);
}

struct rattle_block rattle_realloc(void *old, size_t kept_bytes, size_t size, size_t alignment)
{
    struct rattle_block block = rattle_alloc(size, alignment);

    if (block.found) {
        memcpy(block.at, old, kept_bytes < size ? kept_bytes : size);
        rattle_dealloc(old);
    }
    return block;
}
