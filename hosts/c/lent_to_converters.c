/* The trials of sheet_to_wide() and sheet_to_narrow(), with roads that run either way. */
#include "tool_trials.h"

/* A road that is to run only forth and only back, which is told whatever room there
 * is, and before 18. */
static void try_both_bits(const struct words *sheet)
{
    const uint32_t bits = TECUHUALMA_ROAD_FORTH_ONLY | TECUHUALMA_ROAD_BACK_ONLY;
    const struct words read = with_road_bits(*sheet, bits);
    const struct trial trials[] = {{"both bits to wide", &TO_WIDE, {&read}, NULL},
                                   {"both bits to narrow", &TO_NARROW, {&read}, NULL}};
    const size_t length = 4 * read.count, road = road_at(&read);
    for (size_t index = 0; index < sizeof trials / sizeof trials[0]; index++) {
        const struct trial *t = &trials[index];
        demand_refused(t, with(t, length, length + MORE, RESULT), 4, road, "room enough");
        demand_refused(t, with(t, length, 0, RESULT), 4, road, "no output");
    }
}

/* More places than a narrow sheet can have are told before a short output. */
static void try_city(const struct words *city)
{
    const struct trial to_wide = {"65 places to wide", &TO_WIDE, {city}, city};
    const struct trial to_narrow = {"65 places to narrow", &TO_NARROW, {city}, NULL};
    const struct trial *t = &to_narrow;
    const size_t sheet = 4 * city->count;
    try_lengths(&to_wide);
    demand_refused(t, with(t, sheet, sheet + MORE, RESULT), 18, 0, "room enough");
    demand_refused(t, with(t, sheet, 0, RESULT), 18, 0, "no output");
    try_faults(t, city->count, sheet);
    try_byte_lengths(t, sheet, sheet);
}

/* On sheets whose road has these bits. */
static void try_roads(uint32_t bits)
{
    const struct words narrow_a = with_road_bits(NARROW_A, bits);
    const struct words wide_a = with_road_bits(WIDE_A, bits);
    const struct words narrow = with_road_bits(row_of(64, 1, 1, 0), bits);
    const struct words wide = with_road_bits(row_of(64, 1, 1, 1), bits);
    const struct words city = with_road_bits(row_of(65, 1, 1, 1), bits);
    const struct trial trials[] = {
        {"example A to wide", &TO_WIDE, {&narrow_a}, &wide_a},
        {"example A back to narrow", &TO_NARROW, {&wide_a}, &narrow_a},
        {"64 places to wide", &TO_WIDE, {&narrow}, &wide},
        {"64 places back to narrow", &TO_NARROW, {&wide}, &narrow},
        {"narrow to narrow", &TO_NARROW, {&narrow}, &narrow},
        {"wide to wide", &TO_WIDE, {&wide}, &wide},
    };
    for (size_t index = 0; index < sizeof trials / sizeof trials[0]; index++)
        try_lengths(&trials[index]);
    try_city(&city);
    try_both_bits(&narrow);
    try_both_bits(&city);
}

void try_converters(void)
{
    try_roads(0);
    try_roads(TECUHUALMA_ROAD_FORTH_ONLY);
    try_roads(TECUHUALMA_ROAD_BACK_ONLY);
}
