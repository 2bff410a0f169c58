/*
 * The trials of correct_sheet(): lists that are whole, cut off, ill-formed and at odds
 * with themselves, in outputs of many lengths, as the library may use whatever room
 * there is while it looks through a list.
 */
#include "tool_trials.h"

/* In a list of so many corrections, as long as one can be here, each sample of example
 * A is corrected several times. */
enum { MANY = MOST_WORDS / TECUHUALMA_CORRECTION_WORDS, SAMPLES_OF_A = 4 };

/* Bytes of room for a search, but for fewer than so many corrections at a time. */
enum { FOR_PARTS = 64 * TECUHUALMA_WORD_BYTES };

/* The list of example A. */
static const struct words LIST_OF_A = {{0xB0100001, 0xC0000000, 0x40000008, 0xB0200001, 0xC0000000,
                                        0x47FFFFF8, 0xB0100000, 0xC0000001, 0x40000003},
                                       9};

struct correction {
    uint32_t revision, signal, time, place, value;
};

static void add_correction(struct words *list, struct correction made)
{
    list->at[list->count++] =
        TECUHUALMA_CORRECTION_FIRST_WORD(made.revision, made.signal, made.time);
    add_word(list, 12, made.place);
    add_word(list, 4, made.value);
}

/* A sheet of one road with another value for a sample. */
static struct words with_sample(struct words sheet, size_t sample, uint32_t value)
{
    sheet.at[road_at(&sheet) + 2 + sample] = 4U << 28 | value;
    return sheet;
}

/* The lengths in which a sheet is corrected, with a list that may be cut off. */
static struct lengths with_list(const struct trial *t, size_t list)
{
    const size_t sheet = 4 * t->read[0]->count;
    struct lengths lent = with(t, sheet, sheet, RESULT);
    lent.inputs[1] = list;
    return lent;
}

/* ---- Whole and cut off ---- */

/* After each byte: between two words that is 16, between two of one correction 19. */
static void try_cut_list(const struct trial *t)
{
    const size_t correction = 4 * TECUHUALMA_CORRECTION_WORDS, whole = 4 * t->read[1]->count;
    for (size_t list = 1; list < whole; list++) {
        if (list % 4 != 0)
            demand_refused(t, with_list(t, list), 16, 0, "a list cut off within a word");
        else if (list % correction != 0)
            demand_refused(t, with_list(t, list), 19, list / 4, "a list cut off");
    }
    demand_refused(t, with_list(t, whole + 4), 19, whole / 4, "a word behind the list");
}

static void try_example(const struct words *sheet)
{
    const struct words once = with_sample(*sheet, 2, 8), twice = with_sample(*sheet, 2, 0x7FFFFF8);
    const struct words all = with_sample(twice, 1, 3);
    const struct trial none = {"no correction", &CORRECT, {sheet, &LIST_OF_A}, sheet};
    const struct trial first = {"a correction", &CORRECT, {sheet, &LIST_OF_A}, &once};
    const struct trial second = {"a higher revision", &CORRECT, {sheet, &LIST_OF_A}, &twice};
    const struct trial whole = {"example A corrected", &CORRECT, {sheet, &LIST_OF_A}, &all};
    demand_written(&none, with_list(&none, 0), "exact lengths");
    demand_written(&first, with_list(&first, 12), "exact lengths");
    demand_written(&second, with_list(&second, 24), "exact lengths");
    try_lengths(&whole);
    try_cut_list(&whole);
}

/* A list in another order than the samples, all of which it corrects. */
static void try_every_sample(int wide)
{
    enum { PLACES = 3, SIGNALS = 2, TIMES = 4 };
    const struct words sheet = row_of(PLACES, SIGNALS, TIMES, wide);
    struct words list = {{0}, 0}, written = sheet;
    for (uint32_t index = 0; index < PLACES * SIGNALS * TIMES; index++) {
        const uint32_t signal = index / PLACES % SIGNALS, place = PLACES - 1 - index % PLACES;
        const uint32_t time = index / (PLACES * SIGNALS), value = 100 + index;
        const struct correction made = {TECUHUALMA_MOST_REVISION, signal, time, place, value};
        add_correction(&list, made);
        written = with_sample(written, (time * PLACES + place) * SIGNALS + signal, value);
    }
    const struct trial t = {"every sample", &CORRECT, {&sheet, &list}, &written};
    try_lengths(&t);
}

/* The last place is corrected; there is none behind it. */
static void try_last_place(uint32_t places, int wide)
{
    const struct words sheet = row_of(places, 1, 1, wide);
    const struct words written = with_sample(sheet, places - 1, 7);
    const struct correction made = {1, 0, 0, places - 1, 7};
    struct words list = {{0}, 0};
    add_correction(&list, made);
    const struct trial last = {"the last place", &CORRECT, {&sheet, &list}, &written};
    try_lengths(&last);
    list.at[1]++;
    const struct trial behind = {"a place behind the last", &CORRECT, {&sheet, &list}, NULL};
    demand_refused(&behind, with_list(&behind, 4 * list.count), 19, 1, "exact lengths");
}

/* ---- Ill-formed, or aimed outside the sheet ---- */

/* A word of a correction, by which it is refused. */
struct fault {
    const char *title;
    size_t at;
    uint32_t word;
};

static const struct fault FAULTS[] = {
    {"a first word of kind 12", 0, 0xC0100001},
    {"revision 0", 0, 0xB0000001},
    {"a signal behind the last", 0, 0xB0101001},
    {"a time behind the last", 0, 0xB0100002},
    {"a second word of kind 11", 1, 0xB0000000},
    {"bit 16 beside a place", 1, 0xC0010000},
    {"bit 27 beside a place", 1, 0xC8000000},
    {"a place behind the last", 1, 0xC0000002},
    {"a third word of kind 12", 2, 0xC0000008},
    {"bit 27 of a value", 2, 0x48000008},
};

/* Told before a later fault and a short output, and after the sheet's own fault and
 * impossible lengths. */
static void try_fault(const struct words *sheet, const struct fault *fault, size_t correction)
{
    const size_t at = TECUHUALMA_CORRECTION_WORDS * correction + fault->at;
    struct words list = LIST_OF_A;
    list.at[list.count - 1] = 0;
    list.at[at] = fault->word;
    const struct trial t = {fault->title, &CORRECT, {sheet, &list}, NULL};
    const size_t words = sheet->count, length = 4 * words;
    demand_refused(&t, with(&t, length, length, RESULT), 19, at, "room enough");
    demand_refused(&t, with(&t, length, 0, RESULT), 19, at, "no output");
    demand_refused(&t, with(&t, length - 4, length, RESULT), 14, words - 1, "no end");
    demand_refused(&t, with(&t, length, length + 1, RESULT), 16, 0, "odd output");
}

static void try_list_faults(const struct words *sheet)
{
    for (size_t index = 0; index < sizeof FAULTS / sizeof FAULTS[0]; index++) {
        for (size_t correction = 0; correction < 3; correction++)
            try_fault(sheet, &FAULTS[index], correction);
    }
}

/* ---- Revisions ---- */

/* The highest revision of each sample comes first, with the sample's number as value. */
static struct words many_corrections(void)
{
    struct words list = {{0}, 0};
    for (uint32_t index = 0; index < MANY; index++) {
        const uint32_t revision = TECUHUALMA_MOST_REVISION - index / SAMPLES_OF_A;
        const struct correction made = {revision, 0, index / 2 % 2, index % 2, index};
        add_correction(&list, made);
    }
    return list;
}

static struct words with_many(struct words sheet)
{
    for (uint32_t sample = 0; sample < SAMPLES_OF_A; sample++)
        sheet = with_sample(sheet, sample, sample);
    return sheet;
}

/* Room beyond what is needed changes nothing but how fast it goes. */
static void try_rooms(const struct words *sheet)
{
    const struct words list = many_corrections(), written = with_many(*sheet);
    const struct trial t = {"many corrections", &CORRECT, {sheet, &list}, &written};
    const size_t words = sheet->count;
    for (size_t room = 0; room < words; room++)
        demand_refused(&t, with(&t, 4 * words, 4 * room, RESULT), 15, words, "too little room");
    for (size_t room = words; room < 2 * (words + MANY); room++)
        demand_written(&t, with(&t, 4 * words, 4 * room, RESULT), "more room");
}

/* So many words of a correction, from its first on, become those of another. */
static void repeat(struct words *list, size_t correction, size_t other, size_t words)
{
    for (size_t word = 0; word < words; word++)
        list->at[TECUHUALMA_CORRECTION_WORDS * correction + word] =
            list->at[TECUHUALMA_CORRECTION_WORDS * other + word];
}

/* Of two clashes the earlier is told, and neither if the list is cut off. */
static void try_clash(const struct words *sheet, size_t earlier, size_t later)
{
    const size_t place = TECUHUALMA_CORRECTION_WORDS * later, length = 4 * sheet->count;
    struct words list = many_corrections();
    repeat(&list, MANY - 1, 0, 2);
    repeat(&list, later, earlier, 2);
    const struct trial t = {"a clash", &CORRECT, {sheet, &list}, NULL};
    demand_refused(&t, with(&t, length, length, RESULT), 20, place, "room enough");
    demand_refused(&t, with(&t, length, FOR_PARTS, RESULT), 20, place, "room for parts");
    demand_refused(&t, with(&t, length, length + MORE, RESULT), 20, place, "more room");
    demand_refused(&t, with(&t, length, 0, RESULT), 20, place, "no output");
    demand_refused(&t, with_list(&t, 4 * list.count - 4), 19, list.count - 1, "cut off");
}

/* A correction may come again. */
static void try_repeated(const struct words *sheet, size_t earlier, size_t later)
{
    const struct words written = with_many(*sheet);
    struct words list = many_corrections();
    repeat(&list, later, earlier, TECUHUALMA_CORRECTION_WORDS);
    const struct trial t = {"a repeated correction", &CORRECT, {sheet, &list}, &written};
    demand_written(&t, with_list(&t, 4 * list.count), "exact lengths");
    demand_written(&t, with(&t, 4 * sheet->count, FOR_PARTS, RESULT), "room for parts");
}

/* Any two corrections, also of revisions that a higher one makes of no account. */
static void try_pairs(const struct words *sheet)
{
    for (size_t later = 1; later < MANY; later++) {
        for (size_t earlier = 0; earlier < later; earlier++) {
            try_clash(sheet, earlier, later);
            if (later >= SAMPLES_OF_A)
                try_repeated(sheet, earlier, later);
        }
    }
}

/* Example A in a layout, with its road in one way or another, which is to stay so. */
static void try_lists(const struct words *a)
{
    try_example(a);
    try_list_faults(a);
    try_rooms(a);
    try_pairs(a);
}

void try_correct_sheet(void)
{
    const struct words wide_a = with_road_bits(WIDE_A, TECUHUALMA_ROAD_FORTH_ONLY);
    try_lists(&NARROW_A);
    try_lists(&wide_a);
    try_every_sample(0);
    try_every_sample(1);
    try_last_place(64, 0);
    try_last_place(65, 1);
}
