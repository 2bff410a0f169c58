/*
 * What the header says of the stack, tried: judge() and lookup(), and then the tools,
 * run in threads whose whole stack is no larger than what a call may take, on sheets
 * with a line of every code. What lies below a stack cannot be touched, so that a
 * call that takes more ends the program. How much was taken is told: the stack is
 * painted before, and has lost its colour where it was used.
 */
#define _DEFAULT_SOURCE /* for MAP_ANONYMOUS */

#include <pthread.h>
#include <stdio.h>
#include <stdlib.h>
#include <string.h>
#include <sys/mman.h>

#include "large_sheets.h"
#include "numbers.h"
#include "tecuhualma.h"

/* Below a stack there is room for more than the largest frame, so that none steps
 * over it. */
enum { BELOW_BYTES = 1 << 20, COLOUR = 0xD1 };

/* The corrections of a list: few, as at worst each is compared with all before it. */
enum { CORRECTIONS = 2048 };

struct trial {
    const char *title;
    int wide;
    uint32_t places;
};

/* What is lent, what came of it, and where the stack stood before. Tools write where
 * an answer would stand, which is longer than a sheet. */
struct call {
    const struct trial *trial;
    struct bytes sheet, list, answer, distances;
    uint8_t result[TECUHUALMA_RESULT_BYTES];
    uint64_t given[2]; /* back, by the two calls of a work */
    uintptr_t stood;
};

/* The calls that a thread makes, and whether they did what they are to do. */
struct work {
    const char *title;
    int of_tools;
    void *(*run)(void *call);
    int (*was_done)(const struct call *call);
};

/* ---- Stacks ---- */

static struct bytes take_stack(size_t length)
{
    uint8_t *below =
        mmap(NULL, BELOW_BYTES + length, PROT_NONE, MAP_PRIVATE | MAP_ANONYMOUS, -1, 0);
    if (below == MAP_FAILED ||
        mprotect(below + BELOW_BYTES, length, PROT_READ | PROT_WRITE) != 0) {
        perror("stack_taken: a stack");
        exit(2);
    }
    struct bytes stack = {memset(below + BELOW_BYTES, COLOUR, length), length};
    return stack;
}

static void give_back_stack(struct bytes stack)
{
    munmap(stack.at - BELOW_BYTES, BELOW_BYTES + stack.length);
}

/* ---- What is lent ---- */

static struct call call_of(const struct trial *trial)
{
    size_t words = TECUHUALMA_WIDE_ANSWER_WORDS(trial->places, TECUHUALMA_MOST_SAMPLES, LINES);
    size_t distances = trial->wide ? TECUHUALMA_WIDE_DISTANCES_BYTES(trial->places)
                                   : TECUHUALMA_DISTANCES_BYTES;
    struct call call = {.trial = trial,
                        .sheet = large_sheet(trial->wide, trial->places),
                        .list = corrections(trial->places, CORRECTIONS),
                        .answer = take_or_end(words * TECUHUALMA_WORD_BYTES),
                        .distances = take_or_end(distances)};
    return call;
}

static void give_back(struct call *call)
{
    free(call->sheet.at);
    free(call->list.at);
    free(call->answer.at);
    free(call->distances.at);
}

/* ---- Judging ---- */

static void *judge_and_look_up(void *argument)
{
    struct call *call = argument;
    struct bytes sheet = call->sheet, answer = call->answer, distances = call->distances;
    call->stood = (uintptr_t)&call;
    call->given[0] = judge(sheet.at, sheet.length, distances.at, distances.length, answer.at,
                           answer.length, call->result, TECUHUALMA_RESULT_BYTES);
    call->given[1] = lookup(answer.at, answer.length, SURROUNDED, 0, 0);
    return NULL;
}

/* Whether all lines were evaluated, the surrounds too: else little says nothing. */
static int was_judged(const struct call *call)
{
    uint64_t rounds = number_at(call->result + 8 * TECUHUALMA_ROUNDS, 8);
    return call->given[0] == TECUHUALMA_ACCEPTED && rounds > 0 &&
           call->given[1] != TECUHUALMA_NO_VERDICT;
}

/* ---- Converting ---- */

static void *convert(void *argument)
{
    struct call *call = argument;
    struct bytes sheet = call->sheet, output = call->answer;
    call->stood = (uintptr_t)&call;
    call->given[0] = sheet_to_wide(sheet.at, sheet.length, output.at, output.length, call->result,
                                   TECUHUALMA_TOOL_RESULT_BYTES);
    call->given[1] = sheet_to_narrow(sheet.at, sheet.length, output.at, output.length,
                                     call->result, TECUHUALMA_TOOL_RESULT_BYTES);
    return NULL;
}

/* One of the two converts, unless there are more places than a narrow sheet has. */
static int was_converted(const struct call *call)
{
    int fits = call->trial->places <= TECUHUALMA_MOST_PLACES;
    uint64_t to_narrow = fits ? TECUHUALMA_ACCEPTED : TECUHUALMA_MANY_PLACES;
    return call->given[0] == TECUHUALMA_ACCEPTED && call->given[1] == to_narrow;
}

/* ---- Correcting ---- */

/* With room enough, and without any, where it is the slowest. */
static void *correct(void *argument)
{
    struct call *call = argument;
    struct bytes sheet = call->sheet, list = call->list, output = call->answer;
    call->stood = (uintptr_t)&call;
    call->given[0] = correct_sheet(sheet.at, sheet.length, list.at, list.length, output.at,
                                   output.length, call->result, TECUHUALMA_TOOL_RESULT_BYTES);
    call->given[1] = correct_sheet(sheet.at, sheet.length, list.at, list.length, output.at, 0,
                                   call->result, TECUHUALMA_TOOL_RESULT_BYTES);
    return NULL;
}

/* A short output is told when all else was looked at. */
static int was_corrected(const struct call *call)
{
    return call->given[0] == TECUHUALMA_ACCEPTED && call->given[1] == TECUHUALMA_SHORT_ANSWER;
}

/* ---- What was taken ---- */

static void run_on(struct bytes stack, const struct work *work, struct call *call)
{
    pthread_attr_t attributes;
    pthread_t thread;
    if (pthread_attr_init(&attributes) != 0 ||
        pthread_attr_setstack(&attributes, stack.at, stack.length) != 0 ||
        pthread_create(&thread, &attributes, work->run, call) != 0 ||
        pthread_join(thread, NULL) != 0) {
        fputs("stack_taken: no thread with such a stack\n", stderr);
        exit(2);
    }
    pthread_attr_destroy(&attributes);
}

/* Above `stood` is what the thread itself takes, below it what the calls do. */
static void tell(struct bytes stack, uintptr_t stood)
{
    size_t unused = 0;
    while (unused < stack.length && stack.at[unused] == COLOUR)
        unused++;
    size_t of_calls = stood - (uintptr_t)(stack.at + unused);
    size_t of_thread = (uintptr_t)(stack.at + stack.length) - stood;
    printf(" the calls took %zu bytes of the stack, the thread itself %zu, of %zu\n", of_calls,
           of_thread, stack.length);
}

/* Gives 1 if the work was done; that enough was left of the stack shows by this
 * program's going on. */
static int try(const struct work *work, struct call *call)
{
    uint32_t places = work->of_tools ? 1 : call->trial->places;
    struct bytes stack = take_stack((size_t)TECUHUALMA_STACK_BYTES(places));
    printf("%s, %s:", call->trial->title, work->title);
    fflush(stdout);
    run_on(stack, work, call);
    int done = work->was_done(call);
    if (done)
        tell(stack, call->stood);
    else
        printf(" not done, but %d and %d\n", (int)call->given[0], (int)call->given[1]);
    give_back_stack(stack);
    return done;
}

int main(void)
{
    static const struct trial TRIALS[] = {
        {"a narrow sheet of 64 places", 0, TECUHUALMA_MOST_PLACES},
        {"a wide sheet of 64 places", 1, TECUHUALMA_MOST_PLACES},
        {"a wide sheet of 1,024 places", 1, TECUHUALMA_MOST_WIDE_PLACES},
    };
    static const struct work WORKS[] = {
        {"judged", 0, judge_and_look_up, was_judged},
        {"converted", 1, convert, was_converted},
        {"corrected", 1, correct, was_corrected},
    };
    int failures = 0;
    for (size_t index = 0; index < sizeof TRIALS / sizeof TRIALS[0]; index++) {
        struct call call = call_of(&TRIALS[index]);
        for (size_t work = 0; work < sizeof WORKS / sizeof WORKS[0]; work++)
            failures += !try(&WORKS[work], &call);
        give_back(&call);
    }
    return failures != 0;
}
