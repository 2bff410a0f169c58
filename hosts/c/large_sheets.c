#include "large_sheets.h"

#include <stdio.h>
#include <stdlib.h>

#include "tecuhualma.h"

enum { AT_LEAST = 1, AT_MOST = 2 };

/* By code: whether a line has another as left, another as right, and bounds. */
static const char HAS_LEFT[] = "...yyyyyyyyyyyyy";
static const char HAS_RIGHT[] = "....yy.yy...y..y";
static const char HAS_BOUNDS[] = ".....yyy.yyyyyyy";

struct bytes take_or_end(size_t length)
{
    struct bytes taken = {malloc(length), length};
    if (taken.at == NULL) {
        fputs("out of memory\n", stderr);
        exit(2);
    }
    return taken;
}

/* Room for so many words, of which there is none yet. */
static struct bytes room_for(size_t words)
{
    struct bytes room = take_or_end(words * TECUHUALMA_WORD_BYTES);
    room.length = 0;
    return room;
}

static void add(struct bytes *words, uint32_t word)
{
    for (int byte = 0; byte < TECUHUALMA_WORD_BYTES; byte++)
        words->at[words->length++] = (uint8_t)(word >> 8 * byte);
}

static void add_kind(struct bytes *words, uint32_t kind, uint32_t payload)
{
    add(words, kind << 28 | payload);
}

/* One signal, and samples up to the limit: the engine may take more of the stack
 * where there are more of them. */
static void add_head(struct bytes *sheet, int wide, uint32_t places)
{
    if (wide)
        add_kind(sheet, 10, places);
    add_kind(sheet, 1, (wide ? 0 : places << 20) | 1U << 12 | TECUHUALMA_MOST_SAMPLES);
}

/* Every place is joined to the next, by roads that run both ways, forth and back in
 * turn. */
static void add_roads(struct bytes *sheet, int wide, uint32_t places)
{
    static const uint32_t WAYS[] = {0, TECUHUALMA_ROAD_FORTH_ONLY, TECUHUALMA_ROAD_BACK_ONLY};
    uint32_t place_bits = wide ? 12 : 8;
    for (uint32_t second = 1; second < places; second++) {
        add_kind(sheet, 2, WAYS[second % 3] | (second - 1) << place_bits | second);
        add_kind(sheet, 3, 1);
    }
}

/* Those on others are on line 1, and all bounds are 0 and 1. */
static void add_lines(struct bytes *sheet)
{
    for (uint32_t code = 0; code < LINES; code++) {
        uint32_t left = HAS_LEFT[code] == 'y', right = HAS_RIGHT[code] == 'y';
        add_kind(sheet, 5, code << 20 | left << 10 | right);
        if (code == AT_LEAST || code == AT_MOST)
            add_kind(sheet, 8, 0);
        if (HAS_BOUNDS[code] == 'y') {
            add_kind(sheet, 6, 0);
            add_kind(sheet, 7, 1);
        }
    }
}

struct bytes large_sheet(int wide, uint32_t places)
{
    size_t samples = (size_t)places * TECUHUALMA_MOST_SAMPLES;
    struct bytes sheet = room_for(2 + 2 * (size_t)places + samples + 3 * LINES + 1);
    add_head(&sheet, wide, places);
    add_roads(&sheet, wide, places);
    for (size_t index = 0; index < samples; index++)
        add_kind(&sheet, 4, (uint32_t)(index % 7));
    add_lines(&sheet);
    add_kind(&sheet, 15, (uint32_t)(sheet.length / TECUHUALMA_WORD_BYTES));
    return sheet;
}

struct bytes corrections(uint32_t places, uint32_t count)
{
    struct bytes list = room_for((size_t)count * TECUHUALMA_CORRECTION_WORDS);
    for (uint32_t index = 0; index < count; index++) {
        uint32_t revision = 1 + index % 2, sample = index / 2;
        add(&list, TECUHUALMA_CORRECTION_FIRST_WORD(revision, 0, sample / places));
        add_kind(&list, 12, sample % places);
        add_kind(&list, 4, index);
    }
    return list;
}
