/* For memories of many layouts: the blocks that kept_words finds are the words of the zones, each in its place:
 *     sweep [LAYOUTS] [seed]
 * In more than a third of them some other block that stays is as large as a zone's words. */
#include "kept_words.h"
#include <stdio.h>
#include <stdlib.h>
#include <string.h>

enum { MOST_CORES = 64, MOST_LISTED = 1 << 16, MOST_WORDS = 1 << 18 };
enum form { LISTED, BARE, AGAIN, FORMS };

static uint64_t state;
static memory m;
static llfree_range zones[MOST_ZONES];
static llfree_core handles[MOST_CORES];
static uint64_t *words[MOST_ZONES];

static uint64_t draw(uint64_t below)
{
    state ^= state << 13, state ^= state >> 7, state ^= state << 17;
    return (state >> 8) % below;
}

/* A zone of so many words, which has at least one frame; 0 if there is none. */
static uint32_t frames_with(size_t count, uint32_t cores)
{
    uint32_t low = 1, high = ZONE_FRAMES / CHILD;

    while (low < high) {
        uint32_t middle = (low + high) / 2;
        if (llfree_words(CHILD * middle, cores) < count)
            low = middle + 1;
        else
            high = middle;
    }
    return llfree_words(CHILD * low, cores) == count ? CHILD * (low - 1) + 1 + draw(CHILD) : 0;
}

/* A zone whose words are as large as another block that an opening leaves: for all zones one of 13, 1 and 7
 * words a zone, at an image one of 3; 45 for a core; 48. 0 if there is none. */
static uint32_t alike(uint32_t count, uint32_t cores)
{
    const size_t sizes[] = { 13 * (count + 1), count + 16, 7 * (count + 2), 3 * count, 45, 48 };
    uint32_t frames = 0, from = draw(6);

    for (uint32_t i = 0; i < 6 && frames == 0; i++)
        frames = frames_with(sizes[(from + i) % 6], cores);
    return frames;
}

/* One that is as large as half the words of another zone, where that is even: its list has two words a frame. */
static uint32_t listed_alike(uint32_t frames, uint32_t cores) { return llfree_words(frames, cores) / 2; }

/* Such zones as llfree_open makes beyond 8 GiB. */
static void draw_even(void)
{
    uint32_t count = 2 + draw(3), cores = 1 + draw(MOST_CORES);

    for (uint32_t z = 0; z < count; z++)
        zones[z] = (llfree_range){ z * ZONE_FRAMES, z + 1 < count ? ZONE_FRAMES : 1 + draw(5000) };
    memory_of(&m, zones, count, cores);
}

static void draw_layout(enum form form)
{
    uint32_t cores, kind = draw(32), count, all = 0, how = draw(4), big = draw(64);
    uint64_t first = draw(2) * CHILD, left = form == BARE ? 64ull * ZONE_FRAMES : MOST_LISTED, filled = 0;

    for (uint32_t i = 0; i < 8 && all == 0; i++) {
        cores = 1 + draw(draw(2) ? 4 : MOST_CORES);
        count = kind < 6 ? 1 : kind < 16 ? 2 + draw(7) : kind < 31 ? 9 + draw(56) : 65 + draw(960);
        all = alike(count, cores);
    }
    for (uint32_t z = 0; z < count; z++) {
        uint32_t frames = how < 2 && all ? all : 1 + draw(z % 3 ? 1500 : 20000);
        if (how == 2 && z > 0)
            frames = listed_alike(zones[z - 1].frames, cores);
        if (big < 2 && z < 3)
            frames = ZONE_FRAMES - draw(2) * draw(ZONE_FRAMES);
        size_t many = llfree_words(frames, cores);
        if (frames > left || filled + many > MOST_WORDS)
            frames = 1 + draw(8), many = llfree_words(frames, cores);
        left -= frames < left ? frames : left;
        filled += many;
        zones[z] = (llfree_range){ first, frames };
        first += ((uint64_t)frames + CHILD - 1) / CHILD * CHILD + draw(3) * CHILD;
    }
    memory_of(&m, zones, count, cores);
}

/* Some frames are held from the beginning: by ranges, or by an image with claims of every other one. */
static uint32_t open_it(enum form form, uint32_t *held)
{
    static llfree_range kept[MOST_ZONES];
    static llfree_claim claims[MOST_ZONES];
    uint32_t count = 0, status;

    *held = 0;
    for (uint32_t z = 0; z < m.zones; z++)
        if (zones[z].frames > 1 && draw(3) == 0)
            kept[count++] = (llfree_range){ zones[z].first + draw(zones[z].frames), 1 };
    *held = count;
    if (form != AGAIN) {
        if (form == BARE)
            return is_one_run(&m) ? llfree_open_unchecked(handles, m.cores, m.frames, kept, count)
                                  : llfree_open_zones_unchecked(handles, m.cores, zones, m.zones, kept, count);
        return is_one_run(&m) ? llfree_open(handles, m.cores, m.frames, kept, count)
                              : llfree_open_zones(handles, m.cores, zones, m.zones, kept, count);
    }
    uint64_t *numbers = calloc(m.numbers, 8);
    for (uint32_t z = 0; z < m.zones; z++)
        for (size_t x = m.range[z].frames; x < CHILD * (size_t)m.zone[z].children; x++)
            numbers[9 * ((m.place[z] + x) / CHILD) + 1 + x % CHILD / 64] |= 1ull << x % 64;
    for (uint32_t i = 0; i < count; i++) {
        size_t x = place_of(&m, kept[i].first, 0);
        numbers[9 * (x / CHILD) + 1 + x % CHILD / 64] |= 1ull << x % 64;
        claims[i / 2] = (llfree_claim){ kept[i].first, 0 };
    }
    status = open_again(&m, handles, numbers, claims, (count + 1) / 2);
    free(numbers);
    return status;
}

/* A frame is taken in each zone: the words that were found for it say so, and said otherwise before. */
static const char *wrong_words(enum form form, uint32_t held)
{
    static llfree_block blocks[MOST_ZONES];
    const char *wrong = wrong_at_rest(&m, words);

    memset(blocks, 0, sizeof blocks);
    if (wrong || held_frames(&m, words) != held)
        return wrong ? wrong : "something else is held";
    for (uint32_t z = 0; z < m.zones; z++) {
        llfree_core *core = &handles[draw(m.cores)];
        uint32_t before = held_in_zone(&m.zone[z], words[z]), frame;
        if (llfree_set_home(core, z) != LLFREE_OK)
            return "no home";
        uint32_t status = form == BARE ? llfree_take_block(core, 0, &blocks[z]) : llfree_take(core, 0, &frame);
        frame = (form == BARE ? blocks[z].frame : frame) - m.range[z].first;
        if (status != LLFREE_OK || frame >= m.range[z].frames)
            return "nothing was taken there";
        if (!is_held(&m.zone[z], words[z], frame) || held_in_zone(&m.zone[z], words[z]) != before + 1)
            return "the words do not hold what was taken";
    }
    return wrong_at_rest(&m, words);
}

int main(int argc, char **argv)
{
    uint32_t layouts = argc > 1 ? atoi(argv[1]) : 3000, several = 0, beside = 0;
    state = (argc > 2 ? strtoull(argv[2], NULL, 10) : 1) * 0x9e3779b97f4a7c15ull | 1;

    for (uint32_t i = 0; i < layouts; i++) {
        enum form form = i % FORMS;
        uint32_t held;
        if (draw(64) == 0 && (form == BARE || draw(16) == 0))
            draw_even();
        else
            draw_layout(form);
        unsigned char *region = aligned_alloc(LINE, region_bytes(&m));
        keep_words_in(&m, region);
        uint32_t status = open_it(form, &held);
        const char *wrong = !kept_words(words) ? "the words are not found" : wrong_words(form, held);
        if (status != LLFREE_OK || wrong) {
            fprintf(stderr, "WRONG: layout %u, %u zones from %u frames on, %u cores: %u, %s\n", i, m.zones,
                    zones[0].frames, m.cores, status, wrong);
            return 1;
        }
        several += m.zones > 1;
        beside += others_like_words() > 0;
        for (uint32_t k = 0; k < m.cores; k++)
            llfree_close(&handles[k]);
        free(region);
    }
    if (layouts >= 100 && beside <= layouts / 3) {
        fprintf(stderr, "WRONG: in %u layouts alone another block is as large as words\n", beside);
        return 1;
    }
    printf("%u openings of as many layouts, a third without the list, a third at an image; %u with several zones\n"
           "in %u another block of the size of a zone's words stays; the words are where the heap put them\n",
           layouts, several, beside);
    return 0;
}
