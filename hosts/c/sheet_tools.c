/*
 * An example of a host for the tools: takes a sheet from a file, has a tool write
 * another, and puts that into a file.
 *
 *     sheet_tools to-wide IN OUT
 *     sheet_tools to-narrow IN OUT
 *     sheet_tools correct IN CORRECTIONS OUT
 *
 * Ends with 0 if the sheet is written, 1 if the tool refused it, 2 if a file could
 * not be read or written, or what came of it not be told. OUT is opened only when
 * there is a sheet to write. Should writing fail midway, what stands in OUT passes
 * for no sheet: the end, its last word, is missing.
 */
#include <inttypes.h>
#include <stdio.h>
#include <stdlib.h>
#include <string.h>

#include "files.h"
#include "numbers.h"
#include "refusals.h"
#include "tecuhualma.h"
#include "tools.h"

enum { WRITTEN = 0, REFUSED = 1, FAILED = 2 };

/* What can be asked for. */
struct offer {
    const char *word;  /* by which it is asked for */
    const char *reads; /* what the usage calls its inputs, the sheet first */
    const char *writes;
    const struct tool *tool;
};

static const struct offer OFFERS[] = {
    {"to-wide", "IN", "the sheet in the wide layout", &TO_WIDE},
    {"to-narrow", "IN", "the sheet in the narrow layout", &TO_NARROW},
    {"correct", "IN CORRECTIONS", "the sheet as corrected", &CORRECT},
};

enum { OFFER_COUNT = sizeof OFFERS / sizeof OFFERS[0] };

/* ---- Running a tool ---- */

static uint64_t result_of(const struct call *call, enum tecuhualma_result index)
{
    return number_at(call->result.at + 8 * (size_t)index, 8);
}

/*
 * Takes what is to be lent: a word more than the sheet has, as no tool here writes
 * more. Gives 0 if there is no memory for it.
 */
static int lend(struct call *call)
{
    size_t words = call->inputs[0].length / TECUHUALMA_WORD_BYTES + 1;
    return take(&call->output, words * TECUHUALMA_WORD_BYTES);
}

static void give_back(struct call *call)
{
    for (size_t index = 0; index < MOST_INPUTS; index++)
        free(call->inputs[index].at);
    free(call->output.at);
}

/* ---- From files to a file ---- */

static int failed(const char *path, const char *why)
{
    fprintf(stderr, "%s%s\n", path, why);
    return FAILED;
}

static void print_result(const struct call *call)
{
    printf("number %" PRIu64 ", place %" PRIu64 ", words %" PRIu64 "\n",
           result_of(call, TECUHUALMA_NUMBER), result_of(call, TECUHUALMA_PLACE),
           result_of(call, TECUHUALMA_WORDS));
}

/* Reads, runs, writes and tells; gives what the program is to end with. The paths are
 * those of the inputs and of the output. */
static int run_into(struct call *call, const struct offer *offer, char *const *paths)
{
    size_t inputs = input_count(offer->tool);
    for (size_t index = 0; index < inputs; index++) {
        if (!read_file(paths[index], &call->inputs[index]))
            return failed(paths[index], " cannot be read");
    }
    if (!lend(call))
        return failed(paths[0], ": out of memory");
    uint64_t number = call_tool(offer->tool, call);
    if (number != TECUHUALMA_ACCEPTED) {
        print_result(call);
        print_refusal(number, result_of(call, TECUHUALMA_PLACE));
        return REFUSED;
    }
    size_t words = (size_t)result_of(call, TECUHUALMA_WORDS);
    struct bytes written = {call->output.at, words * TECUHUALMA_WORD_BYTES};
    if (!write_file(paths[inputs], written))
        return failed(paths[inputs], " cannot be written");
    print_result(call);
    printf("written: %s\n", offer->writes);
    return WRITTEN;
}

/* Runs a tool on files; whatever comes of it, what was taken is given back. */
static int run_on_files(const struct offer *offer, char *const *paths)
{
    uint8_t result[TECUHUALMA_TOOL_RESULT_BYTES];
    struct call call = {.result = {result, sizeof result}};
    int ended = run_into(&call, offer, paths);
    give_back(&call);
    return ended;
}

/* ---- The command line ---- */

/* By its word, with as many files behind it as it reads, and one to write. */
static const struct offer *offer_of(int count, char *const *arguments)
{
    for (size_t index = 0; count > 1 && index < OFFER_COUNT; index++) {
        const struct offer *offer = &OFFERS[index];
        size_t asked = 3 + input_count(offer->tool);
        if (strcmp(offer->word, arguments[1]) == 0 && (size_t)count == asked)
            return offer;
    }
    return NULL;
}

static void print_usage(const char *program)
{
    for (size_t index = 0; index < OFFER_COUNT; index++)
        fprintf(stderr, "usage: %s %s %s OUT\n", program, OFFERS[index].word,
                OFFERS[index].reads);
}

int main(int count, char **arguments)
{
    const struct offer *offer = offer_of(count, arguments);
    if (offer == NULL) {
        print_usage(arguments[0]);
        return FAILED;
    }
    int status = run_on_files(offer, arguments + 2);
    if (!all_printed())
        return failed("what came of it", " cannot be told");
    return status;
}
