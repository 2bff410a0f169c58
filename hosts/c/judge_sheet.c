/*
 * An example of a host: judges the sheets in the files it is given and prints a
 * summary of each. Ends with 0 if all were accepted, 1 if one was refused, 2 if
 * one could not be read or judged, or if the summaries could not be written.
 */
#include <inttypes.h>
#include <stdio.h>
#include <stdlib.h>
#include <string.h>

#include "files.h"
#include "numbers.h"
#include "refusals.h"
#include "tecuhualma.h"

/* A sheet with the buffers that are lent for it. */
struct job {
    struct bytes sheet;
    struct bytes distances;
    struct bytes answer;
    uint8_t result[TECUHUALMA_RESULT_BYTES];
};

/* ---- Words and results ---- */

static uint32_t word_at(struct bytes words, size_t index)
{
    return (uint32_t)number_at(words.at + index * TECUHUALMA_WORD_BYTES, TECUHUALMA_WORD_BYTES);
}

static uint64_t result_of(const struct job *job, enum tecuhualma_result index)
{
    return number_at(job->result + 8 * (size_t)index, 8);
}

/* ---- Layouts ---- */

static size_t at_most(size_t number, size_t most)
{
    return number < most ? number : most;
}

/*
 * What the first words of a sheet or an answer tell, cut off at the limits: a sheet
 * that passes them is refused anyway.
 */
struct front {
    int wide;
    size_t words; /* the head and, if wide, the word before it */
    size_t places, samples;
};

/* A first word of kind 10 tells the places; else the head does. */
static struct front front_of(struct bytes words)
{
    size_t count = words.length / TECUHUALMA_WORD_BYTES;
    uint32_t first = count > 0 ? word_at(words, 0) : 0;
    struct front front = {.wide = first >> 28 == 10};
    front.words = front.wide ? 2 : 1;
    front.places = front.wide ? at_most(first & 0xFFFF, TECUHUALMA_MOST_WIDE_PLACES)
                              : at_most(first >> 20 & 0xFF, TECUHUALMA_MOST_PLACES);
    uint32_t head = count >= front.words ? word_at(words, front.words - 1) : 0;
    front.samples = at_most(head & 0xFFF, TECUHUALMA_MOST_SAMPLES);
    return front;
}

/* ---- Judging ---- */

static size_t distances_bytes(struct front front)
{
    return front.wide ? TECUHUALMA_WIDE_DISTANCES_BYTES(front.places) : TECUHUALMA_DISTANCES_BYTES;
}

/*
 * Enough words for the answer, whatever the sheet holds: its words of kind 5 tell
 * the lines.
 */
static size_t answer_words(struct bytes sheet, struct front front)
{
    size_t words = sheet.length / TECUHUALMA_WORD_BYTES;
    size_t lines = 0;
    for (size_t index = 0; index < words; index++)
        lines += word_at(sheet, index) >> 28 == 5;
    lines = at_most(lines, TECUHUALMA_MOST_LINES);
    return front.wide ? TECUHUALMA_WIDE_ANSWER_WORDS(front.places, front.samples, lines)
                      : TECUHUALMA_ANSWER_WORDS(front.places, front.samples, lines);
}

/* Takes what is to be lent; gives 0 if there is no memory for it. */
static int lend(struct job *job)
{
    struct front front = front_of(job->sheet);
    return take(&job->distances, distances_bytes(front)) &&
           take(&job->answer, answer_words(job->sheet, front) * TECUHUALMA_WORD_BYTES);
}

static uint64_t judge_job(struct job *job)
{
    return judge(job->sheet.at, job->sheet.length, job->distances.at, job->distances.length,
                 job->answer.at, job->answer.length, job->result, sizeof job->result);
}

static void give_back(struct job *job)
{
    free(job->sheet.at);
    free(job->distances.at);
    free(job->answer.at);
}

/* ---- The summary ---- */

/* By what lookup() gives: silence is neither a yes nor a no. */
static const char *const VERDICTS[] = {" none", " yes", " no"};

/* The verdicts of a line at a sample of the recording, by the lookup. */
static void print_sample(const struct job *job, uint64_t line, uint64_t sample)
{
    size_t places = front_of(job->answer).places;
    printf("line %" PRIu64 " at sample %" PRIu64 ":", line, sample);
    for (uint64_t place = 0; place < places; place++) {
        uint64_t verdict = lookup(job->answer.at, job->answer.length, line, sample, place);
        fputs(VERDICTS[verdict], stdout);
    }
    putchar('\n');
}

/*
 * Walks an answer's words from the first line to the end; kinds 9 and 11 say yes.
 * A line's own word, of kind 14, tells its first sample, which need not be 0; the
 * last line is shown there.
 */
static void print_lines(const struct job *job)
{
    size_t last = (size_t)result_of(job, TECUHUALMA_WORDS) - 1;
    uint32_t counts[2] = {0, 0};
    uint64_t line = 0;
    uint32_t first = 0;
    for (size_t index = front_of(job->answer).words; index < last; index++) {
        uint32_t word = word_at(job->answer, index);
        uint32_t kind = word >> 28;
        if (kind == 14)
            first = word >> 12 & 0xFFF;
        else
            counts[kind == 9 || kind == 11]++;
        int whole = index + 1 == last || word_at(job->answer, index + 1) >> 28 == 14;
        if (!whole)
            continue;
        printf("line %" PRIu64 ": %" PRIu32 " yes, %" PRIu32 " no\n", line, counts[1], counts[0]);
        memset(counts, 0, sizeof counts);
        line++;
    }
    print_sample(job, line - 1, first);
}

/* Where it is measured from is the row of the table. */
static void print_distance(const struct job *job, size_t from, size_t to)
{
    size_t entry = from * front_of(job->answer).places + to;
    uint64_t distance = number_at(job->distances.at + TECUHUALMA_DISTANCE_BYTES * entry,
                                  TECUHUALMA_DISTANCE_BYTES);
    if (distance == TECUHUALMA_NO_DISTANCE)
        printf("no way");
    else
        printf("%" PRIu64, distance);
}

/* There and back, which differ where a road runs one way only. */
static void print_distances(const struct job *job)
{
    size_t last = front_of(job->answer).places - 1;
    printf("from the first place to the last: ");
    print_distance(job, 0, last);
    printf(", and back: ");
    print_distance(job, last, 0);
    putchar('\n');
}

static void print_summary(const struct job *job, uint64_t number)
{
    printf("number %" PRIu64 ", place %" PRIu64 ", words %" PRIu64 ", rounds %" PRIu64
           ", yes %" PRIu64 "\n",
           number, result_of(job, TECUHUALMA_PLACE), result_of(job, TECUHUALMA_WORDS),
           result_of(job, TECUHUALMA_ROUNDS), result_of(job, TECUHUALMA_YES));
    if (number != TECUHUALMA_ACCEPTED) {
        print_refusal(number, result_of(job, TECUHUALMA_PLACE));
        return;
    }
    print_distances(job);
    print_lines(job);
}

/* Reads, judges and tells; gives what the program is to end with. */
static int judge_into(struct job *job, const char *path)
{
    if (!read_file(path, &job->sheet)) {
        fprintf(stderr, "%s cannot be read\n", path);
        return 2;
    }
    if (!lend(job)) {
        fprintf(stderr, "%s: out of memory\n", path);
        return 2;
    }
    uint64_t number = judge_job(job);
    printf("%s\n", path);
    print_summary(job, number);
    return number != TECUHUALMA_ACCEPTED;
}

/* Judges one file; whatever comes of it, what was taken is given back. */
static int judge_file(const char *path)
{
    struct job job = {0};
    int ended = judge_into(&job, path);
    give_back(&job);
    return ended;
}

int main(int count, char **arguments)
{
    int status = 0;
    if (count < 2) {
        fprintf(stderr, "usage: %s SHEET..\n", arguments[0]);
        return 2;
    }
    for (int index = 1; index < count; index++) {
        int ended = judge_file(arguments[index]);
        status = ended > status ? ended : status;
    }
    if (!all_printed()) {
        fputs("the summaries cannot be written\n", stderr);
        return 2;
    }
    return status;
}
