#include "refusals.h"

#include <inttypes.h>
#include <stddef.h>
#include <stdio.h>

#include "tecuhualma.h"

struct refusal {
    const char *wrong, *to_do;
};

/* SHEETS.md says more to each. */
static const struct refusal REFUSALS[] = {
    [TECUHUALMA_FEW_DISTANCES] =
        {"fewer distances lent than needed",
         "lend 4,096 distances, or if the sheet is wide its places squared"},
    [TECUHUALMA_HEAD_KIND] =
        {"the first word is absent, or of neither kind 1 nor kind 10",
         "look whether the file is a sheet, with the lowest byte of each word first"},
    [TECUHUALMA_HEAD_LIMITS] =
        {"places, signals or samples are outside their limits",
         "write a wide sheet for more than 64 places, split a recording of more than 16 signals "
         "or 1,024 samples"},
    [TECUHUALMA_ROAD_BITS] =
        {"spare bits of a road are set, or both bits that let it run one way only",
         "give each place of a road its eight bits, or twelve if the sheet is wide; set neither "
         "bit 27 nor bit 26 if it runs both ways"},
    [TECUHUALMA_ROAD_PLACES] =
        {"a road's places are not two rising places of the network",
         "write the lower place first, whichever way the road runs, and count places from 0"},
    [TECUHUALMA_ROAD_ORDER] =
        {"a road's pair is not above the last, whichever way the two run",
         "sort the roads by first, then second place, not by whole words, and write each pair "
         "once"},
    [TECUHUALMA_ROAD_WEIGHT] =
        {"a road's weight is absent, not of kind 3, or 0",
         "write a kind 3 word behind each kind 2 word; leave out a road of weight 0"},
    [TECUHUALMA_SAMPLE_KIND] =
        {"a sample is absent or not of kind 4",
         "write as many samples as signals times places times samples, right behind the roads"},
    [TECUHUALMA_SAMPLE_BIT] =
        {"a sample has bit 27 set", "write a negative number with 27 bits, not with 28"},
    [TECUHUALMA_LINE_COUNT] =
        {"there is no first line, or a 65th",
         "look for a sample too many; put lines beyond 64 into another sheet"},
    [TECUHUALMA_LINE_WORD] =
        {"a line has an unknown code, signal or operand, or an unused field set",
         "use codes 0 to 15 and lines above this one, and clear what the code does not use"},
    [TECUHUALMA_LINE_PARAMETER] =
        {"a line's constant or bounds are absent, of another kind, or out of order",
         "write behind the line word what its code asks for, the lower bound first"},
    [TECUHUALMA_LINE_LENGTH] =
        {"a line has no sample: it looks past the recording, or its operands share none",
         "record longer, or look less far"},
    [TECUHUALMA_END] =
        {"the end is absent, not of kind 15, miscounted, or not the last word",
         "look whether the file was cut off; the end counts the words before it, and nothing "
         "follows it"},
    [TECUHUALMA_SHORT_ANSWER] =
        {"fewer words lent than are to be written", "lend as many as the header says are enough"},
    [TECUHUALMA_BYTE_LENGTHS] =
        {"a length in bytes cannot be",
         "look whether a file was cut off; sheets and lists have four bytes for each word"},
    [TECUHUALMA_WIDE_HEAD] =
        {"a wide sheet's places are outside their limits, or no head without places follows",
         "write 1 to 1,024 places into the kind 10 word, then a kind 1 word without places"},
    [TECUHUALMA_MANY_PLACES] =
        {"the sheet has more than 64 places, which a narrow one cannot",
         "leave it wide, or write a sheet of fewer places"},
    [TECUHUALMA_CORRECTION] =
        {"a correction is ill-formed, cut off, or of a sample that the sheet does not have",
         "write three words of kinds 11, 12 and 4, with a revision of 1 to 255 and a signal, a "
         "time and a place that the sheet has, counted from 0"},
    [TECUHUALMA_CORRECTIONS_CLASH] =
        {"a correction has the sample and the revision of an earlier one, but another value",
         "find out which of the two is right, and leave the other out or give the right one a "
         "higher revision"},
};

enum { AFTER_LAST = sizeof REFUSALS / sizeof REFUSALS[0] };

/* In what the place is that of a word, at fault or missing; NULL if it is of none. */
static const char *placed_in(uint64_t number)
{
    switch (number) {
    case TECUHUALMA_FEW_DISTANCES:
    case TECUHUALMA_SHORT_ANSWER:
    case TECUHUALMA_BYTE_LENGTHS:
    case TECUHUALMA_MANY_PLACES:
        return NULL;
    case TECUHUALMA_CORRECTION:
    case TECUHUALMA_CORRECTIONS_CLASH:
        return "list of corrections";
    default:
        return "sheet";
    }
}

/* A later library may know numbers that this program does not. */
void print_refusal(uint64_t number, uint64_t place)
{
    if (number >= AFTER_LAST || REFUSALS[number].wrong == NULL) {
        printf("refused: number %" PRIu64 ", which SHEETS.md explains\n", number);
        return;
    }
    const char *in = placed_in(number);
    printf("refused");
    if (in != NULL)
        printf(" at word %" PRIu64 " of the %s, counted from 0", place, in);
    printf(": %s\n", REFUSALS[number].wrong);
    printf("to do: %s\n", REFUSALS[number].to_do);
}
