/*
 * What the header says of the buffers that are lent to judge(), tried on example A in
 * both layouts, with its road as it is and one way only: exact, long, short and
 * impossible lengths, no buffer at all.
 */
#include <string.h>

#include "lent.h"
#include "numbers.h"
#include "tecuhualma.h"

enum { MOST_DISTANCES_BYTES = 2 * TECUHUALMA_DISTANCES_BYTES };

/* A sheet with what it needs and the first word of its answer. */
struct layout {
    const struct words *sheet;
    size_t distances, answer_words;
    uint32_t answer_begins;
};

static const struct layout NARROW = {&NARROW_A, TECUHUALMA_DISTANCES, 20, 0xD0204002};

/* A word more in the answer too, and as many distances as there are. */
static const struct layout WIDE = {&WIDE_A, TECUHUALMA_WIDE_DISTANCES(2), 21, 0xA0000002};

/* How its road may run: the bits that say so, the distances from place 0 to place 1
 * and back, and how many verdicts are then yes. */
struct way {
    uint32_t bits;
    uint64_t there, back, yes;
};

static const struct way BOTH = {0, 3, 3, 11};
static const struct way FORTH = {TECUHUALMA_ROAD_FORTH_ONLY, 3, TECUHUALMA_NO_DISTANCE, 7};
static const struct way BACK = {TECUHUALMA_ROAD_BACK_ONLY, TECUHUALMA_NO_DISTANCE, 3, 9};

struct example {
    const char *title;
    const struct layout *layout;
    const struct way *way;
};

_Static_assert(TECUHUALMA_MOST_ANSWER_WORDS == 4194370, "the longest answer to a narrow sheet");
_Static_assert(TECUHUALMA_MOST_WIDE_ANSWER_WORDS == 67108931, "the longest to a wide one");

/* The lengths that are lent to an example, in bytes. */
struct lengths {
    const struct example *example;
    size_t sheet, distances, answer, result;
};

/* What a call left. */
struct left {
    uint64_t number, numbers[5];
    uint8_t *sheet, *distances, *answer, *result;
};

static struct left judged(struct lengths lent)
{
    struct left left = {.sheet = take_dirty(lent.sheet),
                        .distances = take_dirty(lent.distances),
                        .answer = take_dirty(lent.answer),
                        .result = take_dirty(lent.result)};
    const struct example *example = lent.example;
    const struct words sheet = with_road_bits(*example->layout->sheet, example->way->bits);
    lay_out(&sheet, left.sheet, lent.sheet);
    left.number = judge(left.sheet, lent.sheet, left.distances, lent.distances, left.answer,
                        lent.answer, left.result, lent.result);
    for (size_t index = 0; index < 5 && lent.result == TECUHUALMA_RESULT_BYTES; index++)
        left.numbers[index] = number_at(left.result + 8 * index, 8);
    return left;
}

static void give_back(struct left left)
{
    give_back_dirty(left.sheet);
    give_back_dirty(left.distances);
    give_back_dirty(left.answer);
    give_back_dirty(left.result);
}

/* A refusal leaves zeros, and its number and place where 40 bytes are lent. */
static void demand_refused(struct lengths lent, uint64_t number, uint64_t place, const char *what)
{
    const char *of = lent.example->title;
    struct left left = judged(lent);
    demand(left.number == number, of, what);
    demand(is_zero(left.distances, lent.distances), of, what);
    demand(is_zero(left.answer, lent.answer), of, what);
    if (lent.result == TECUHUALMA_RESULT_BYTES) {
        demand(left.numbers[0] == number && left.numbers[1] == place, of, what);
        demand(is_zero(left.result + 16, 24), of, what);
    } else {
        demand(is_zero(left.result, lent.result), of, what);
    }
    give_back(left);
}

/* A row holds the distances from a place, and behind the last there are zeros. */
static void demand_distances(struct lengths lent, struct left left, const char *what)
{
    const char *of = lent.example->title;
    const struct way *way = lent.example->way;
    const uint64_t table[2 * 2] = {0, way->there, way->back, 0};
    for (size_t index = 0; index < 2 * 2; index++)
        demand(number_at(left.distances + 8 * index, 8) == table[index], of, what);
    demand(is_zero(left.distances + sizeof table, lent.distances - sizeof table), of, what);
}

/* Line 2 looks for the other place, which must be within reach. */
static uint64_t verdict_by(uint64_t distance)
{
    return distance == TECUHUALMA_NO_DISTANCE ? TECUHUALMA_VERDICT_NO : TECUHUALMA_VERDICT_YES;
}

static void demand_lookups(struct lengths lent, const uint8_t *answer, const char *what)
{
    const char *of = lent.example->title;
    const struct way *way = lent.example->way;
    demand(lookup(answer, lent.answer, 0, 0, 0) == TECUHUALMA_VERDICT_YES, of, what);
    demand(lookup(answer, lent.answer, 0, 0, 1) == TECUHUALMA_VERDICT_NO, of, what);
    demand(lookup(answer, lent.answer, 2, 1, 0) == verdict_by(way->there), of, what);
    demand(lookup(answer, lent.answer, 2, 1, 1) == verdict_by(way->back), of, what);
    demand(lookup(answer, lent.answer, 1, 1, 0) == TECUHUALMA_NO_VERDICT, of, what);
    demand(lookup(answer, lent.answer, UINT64_MAX, 0, 0) == TECUHUALMA_NO_VERDICT, of, what);
    demand(lookup(answer, lent.answer - 1, 0, 0, 0) == TECUHUALMA_NO_VERDICT, of, what);
}

static void demand_accepted(struct lengths lent, const char *what)
{
    const char *of = lent.example->title;
    const struct layout *layout = lent.example->layout;
    const uint64_t expected[5] = {0, 0, layout->answer_words, 1, lent.example->way->yes};
    const size_t whole = 4 * layout->answer_words;
    struct left left = judged(lent);
    demand(left.number == 0, of, what);
    demand(memcmp(left.numbers, expected, sizeof expected) == 0, of, what);
    demand_distances(lent, left, what);
    demand(number_at(left.answer, 4) == layout->answer_begins, of, what);
    demand(is_zero(left.answer + whole, lent.answer - whole), of, what);
    demand_lookups(lent, left.answer, what);
    give_back(left);
}

static struct lengths with(const struct example *example, size_t sheet, size_t distances,
                           size_t answer, size_t result)
{
    struct lengths lent = {example, sheet, distances, answer, result};
    return lent;
}

/* The right lengths, and those with one of them changed. */
static void try_lengths(const struct example *a)
{
    const size_t words = a->layout->sheet->count, sheet = 4 * words;
    const size_t table = a->layout->distances * TECUHUALMA_DISTANCE_BYTES;
    const size_t answer = 4 * a->layout->answer_words, result = TECUHUALMA_RESULT_BYTES;
    demand_accepted(with(a, sheet, table, answer, result), "exact lengths");
    demand_accepted(with(a, sheet, MOST_DISTANCES_BYTES, answer + 400, result), "longer lengths");
    demand_refused(with(a, sheet, table, answer - 4, result), 15, words, "a word short");
    demand_refused(with(a, sheet, table, 0, result), 15, words, "no answer");
    demand_refused(with(a, sheet, table - 8, answer, result), 1, 0, "a distance short");
    demand_refused(with(a, sheet, 0, answer, result), 1, 0, "no distances");
    demand_refused(with(a, sheet - 4, table, answer, result), 14, words - 1, "no end");
    demand_refused(with(a, sheet + 4, table, answer, result), 14, words, "a word behind");
    demand_refused(with(a, sheet - 1, table, answer, result), 16, 0, "odd sheet");
    demand_refused(with(a, sheet, table + 4, answer, result), 16, 0, "odd distances");
    demand_refused(with(a, sheet, table, answer + 2, result), 16, 0, "odd answer");
    demand_refused(with(a, sheet, table, answer, result - 1), 16, 0, "short result");
    demand_refused(with(a, sheet, table, answer, result + 8), 16, 0, "long result");
    demand_refused(with(a, 0, 0, 0, 0), 16, 0, "nothing at all");
}

/* Too few distances beside a sheet that is cut off: 1 comes first if it is narrow,
 * as without a word it is, and after the head if it is wide. */
static void try_cut_sheets(void)
{
    const struct example narrow = {"narrow", &NARROW, &BOTH}, wide = {"wide", &WIDE, &BOTH};
    const size_t table = TECUHUALMA_DISTANCES_BYTES, result = TECUHUALMA_RESULT_BYTES;
    demand_refused(with(&narrow, 0, table, 0, result), 2, 0, "no sheet");
    demand_refused(with(&wide, 0, table - 8, 0, result), 1, 0, "no sheet, a distance short");
    demand_refused(with(&wide, 4, 0, 0, result), 17, 1, "a first word alone");
    demand_refused(with(&wide, 8, 24, 0, result), 1, 0, "a wide head, a distance short");
    demand_refused(with(&wide, 8, 32, 0, result), 8, 2, "a wide head alone");
}

/* A road that is to run only forth and only back is no road. */
static void try_both_bits(const struct layout *layout)
{
    const struct way neither = {.bits = TECUHUALMA_ROAD_FORTH_ONLY | TECUHUALMA_ROAD_BACK_ONLY};
    const struct example both = {"both bits", layout, &neither};
    const size_t sheet = 4 * layout->sheet->count, road = road_at(layout->sheet);
    const size_t table = TECUHUALMA_DISTANCES_BYTES, result = TECUHUALMA_RESULT_BYTES;
    demand_refused(with(&both, sheet, table, sheet + 4, result), 4, road, "room enough");
    demand_refused(with(&both, 4 * road + 4, table, 0, result), 4, road, "no weight, no answer");
}

int main(void)
{
    static const struct example EXAMPLES[] = {
        {"narrow, both ways", &NARROW, &BOTH},
        {"wide, both ways", &WIDE, &BOTH},
        {"narrow, forth only", &NARROW, &FORTH},
        {"wide, forth only", &WIDE, &FORTH},
        {"narrow, back only", &NARROW, &BACK},
        {"wide, back only", &WIDE, &BACK},
    };
    for (size_t index = 0; index < sizeof EXAMPLES / sizeof EXAMPLES[0]; index++)
        try_lengths(&EXAMPLES[index]);
    try_cut_sheets();
    try_both_bits(&NARROW);
    try_both_bits(&WIDE);
    demand(lookup(NULL, 0, 0, 0, 0) == TECUHUALMA_NO_VERDICT, "no bytes", "lookup");
    return all_demanded("lent_buffers");
}
