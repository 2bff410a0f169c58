#include "tool_trials.h"

#include <string.h>

/* What a call left, and where. */
struct left {
    uint64_t number, numbers[3];
    struct call call;
};

/* ---- Calls ---- */

static struct bytes dirty(size_t length)
{
    struct bytes bytes = {take_dirty(length), length};
    return bytes;
}

static struct left run(const struct trial *trial, struct lengths lent)
{
    struct left left = {.call = {.output = dirty(lent.output), .result = dirty(lent.result)}};
    for (size_t index = 0; index < input_count(trial->tool); index++) {
        left.call.inputs[index] = dirty(lent.inputs[index]);
        lay_out(trial->read[index], left.call.inputs[index].at, lent.inputs[index]);
    }
    left.number = call_tool(trial->tool, &left.call);
    for (size_t index = 0; index < 3 && lent.result == RESULT; index++)
        left.numbers[index] = number_at(left.call.result.at + 8 * index, 8);
    return left;
}

/* Whether these bytes are those of the words, or the first of them, with the given one
 * behind. */
static int holds(struct bytes bytes, const struct words *words, uint8_t behind)
{
    size_t index = 0;
    while (index < bytes.length && bytes.at[index] == byte_of(words, index, behind))
        index++;
    return index == bytes.length;
}

static int has_zeros(struct bytes bytes)
{
    return is_zero(bytes.at, bytes.length);
}

/* What was read is left as it was. */
static void give_back(const struct trial *trial, struct left left)
{
    for (size_t index = 0; index < input_count(trial->tool); index++) {
        struct bytes input = left.call.inputs[index];
        demand(holds(input, trial->read[index], dirt), trial->title, "an input altered");
        give_back_dirty(input.at);
    }
    give_back_dirty(left.call.output.at);
    give_back_dirty(left.call.result.at);
}

/* ---- Demands ---- */

static void demand_told(const struct trial *trial, struct left left, const uint64_t told[3],
                        const char *what)
{
    demand(left.number == told[0], trial->title, what);
    demand(memcmp(left.numbers, told, sizeof left.numbers) == 0, trial->title, what);
}

void demand_written(const struct trial *trial, struct lengths lent, const char *what)
{
    const uint64_t told[3] = {0, 0, trial->written->count};
    struct left left = run(trial, lent);
    demand_told(trial, left, told, what);
    demand(holds(left.call.output, trial->written, 0), trial->title, what);
    give_back(trial, left);
}

void demand_refused(const struct trial *trial, struct lengths lent, uint64_t number,
                    uint64_t place, const char *what)
{
    const uint64_t told[3] = {number, place, 0};
    struct left left = run(trial, lent);
    demand_told(trial, left, told, what);
    demand(has_zeros(left.call.output), trial->title, what);
    give_back(trial, left);
}

void demand_no_result(const struct trial *trial, struct lengths lent, const char *what)
{
    struct left left = run(trial, lent);
    demand(left.number == 16, trial->title, what);
    demand(has_zeros(left.call.output), trial->title, what);
    demand(has_zeros(left.call.result), trial->title, what);
    give_back(trial, left);
}

/* ---- Lengths ---- */

struct lengths with(const struct trial *trial, size_t sheet, size_t output, size_t result)
{
    const struct words *second = trial->read[1];
    struct lengths lent = {{sheet, second != NULL ? 4 * second->count : 0}, output, result};
    return lent;
}

void try_byte_lengths(const struct trial *t, size_t sheet, size_t output)
{
    demand_refused(t, with(t, sheet - 1, output, RESULT), 16, 0, "odd sheet");
    demand_refused(t, with(t, sheet, output + 2, RESULT), 16, 0, "odd output");
    demand_refused(t, with(t, sheet, output - 1, RESULT), 16, 0, "odd output, a word short");
    demand_refused(t, with(t, sheet - 4, output + 1, RESULT), 16, 0, "odd output, no end");
    demand_no_result(t, with(t, sheet, output, RESULT - 1), "short result");
    demand_no_result(t, with(t, sheet, output, TECUHUALMA_RESULT_BYTES), "long result");
    demand_no_result(t, with(t, sheet, output, 0), "no result");
    demand_no_result(t, with(t, sheet - 1, output + 1, 8), "odd lengths");
    const struct lengths nothing = {{0, 0}, 0, 0};
    demand_no_result(t, nothing, "nothing at all");
}

void try_faults(const struct trial *t, size_t words, size_t output)
{
    demand_refused(t, with(t, 0, output, RESULT), 2, 0, "no sheet");
    demand_refused(t, with(t, 0, 0, RESULT), 2, 0, "no sheet, no output");
    demand_refused(t, with(t, 4 * words - 4, output, RESULT), 14, words - 1, "no end");
    demand_refused(t, with(t, 4 * words - 4, 0, RESULT), 14, words - 1, "no end, no output");
    demand_refused(t, with(t, 4 * words + 4, output, RESULT), 14, words, "a word behind");
}

void try_lengths(const struct trial *t)
{
    const size_t words = t->read[0]->count, sheet = 4 * words, output = 4 * t->written->count;
    demand_written(t, with(t, sheet, output, RESULT), "exact lengths");
    demand_written(t, with(t, sheet, output + MORE, RESULT), "a longer output");
    demand_refused(t, with(t, sheet, output - 4, RESULT), 15, words, "a word short");
    demand_refused(t, with(t, sheet, 0, RESULT), 15, words, "no output");
    try_faults(t, words, output);
    try_byte_lengths(t, sheet, output);
}
