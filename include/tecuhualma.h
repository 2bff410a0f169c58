/* SPDX-License-Identifier: MIT */
/*
 * Tecuhualma: verdicts of a station network, for hosts in C.
 *
 * A host hands over a sheet (stations and roads, counts per sample, a table of
 * conditions) and lends three buffers. judge() decides on the sheet and fills
 * them; lookup() reads one verdict out of an answer. Tools write words without
 * judging: sheet_to_wide() and sheet_to_narrow() take a sheet from one layout to
 * the other, and correct_sheet() puts late corrections into it. SHEETS.md, which is
 * installed under share/doc/tecuhualma, tells how a sheet, an answer and a list of
 * corrections are laid out, word by word.
 *
 * Bytes. Every buffer is plain bytes at any address. A word is four bytes, a
 * distance and a number of the result eight, always lowest byte first.
 *
 * Layouts. A sheet has at most 64 places, or at most 1,024 if it is wide. A wide
 * sheet begins with a word of kind 10, its answer with the same word. A wide sheet
 * of few places is as good as a narrow one.
 *
 * Roads. A road joins two places, of which the lower one is its first, and has one
 * weight. It runs both ways, or, by a bit of its first word, only from first to second
 * or only from second to first. The distance from one place to another is that of the
 * shortest way that takes each road as it runs; the distance back may be another, and
 * there may be one without the other. Two places have at most one road.
 *
 * Ownership. All buffers are the host's, before, during and after a call. The
 * library keeps nothing between calls, takes no memory of its own but some of
 * the stack, and reads and writes nothing beside what is lent. What the lent
 * buffers hold before the call is of no account; judge() and the tools set each of
 * their bytes.
 *
 * Stack. A call takes at most 64 KiB of it for a sheet or an answer of up to 64
 * places, narrow or wide, and at most 512 KiB for one of more. A tool takes at most
 * 64 KiB, whatever it reads.
 *
 * The host's duties, which the library cannot check. Each pointer is valid for
 * as many bytes as its length says, and NULL only where that is 0. The buffers of
 * a call do not overlap: not one that is read with a lent one, nor two lent ones. Two
 * that are read may.
 *
 * Threads. Calls may run side by side. They may share a sheet, a list or an answer
 * that they read, as long as nobody writes to it; each call has lent buffers of its
 * own.
 *
 * Surrounds. A line of code 7, "left surrounded by right", asks for a region with
 * left that has a boundary, and right on all of it: on every place outside to which
 * a road leads out of the region. A region with nothing around it does not count: a
 * place from which no road leads is not surrounded, no at minus infinity, whatever
 * leads to it. For a line of code 15 such an island counts as well, by its left
 * alone. Code 7 takes about as many times as long as code 15 as places lie within
 * the upper bound, which should therefore be no greater than the condition needs.
 *
 * Forecasts. Of two accepted sheets that differ in samples alone, none of the
 * second lower, without a line of code 2 or 3, every yes of the first is a yes of
 * the second, and no margin of the second is lower. A sheet and what correct_sheet()
 * makes of it are two such sheets if that lowers no sample. FORECASTS.md, installed
 * beside SHEETS.md, tells what else is known of a sheet without a call.
 */
#ifndef TECUHUALMA_H
#define TECUHUALMA_H

#include <stddef.h>
#include <stdint.h>

#ifdef __cplusplus
extern "C" {
#endif

#define TECUHUALMA_VERSION "0.7.0"
#define TECUHUALMA_VERSION_MAJOR 0
#define TECUHUALMA_VERSION_MINOR 7
#define TECUHUALMA_VERSION_PATCH 0

/* The limits of a sheet; places and roads of a narrow one, then of a wide one. */
#define TECUHUALMA_MOST_PLACES 64
#define TECUHUALMA_MOST_SIGNALS 16
#define TECUHUALMA_MOST_SAMPLES 1024
#define TECUHUALMA_MOST_LINES 64
#define TECUHUALMA_MOST_ROADS 2016
#define TECUHUALMA_MOST_WIDE_PLACES 1024
#define TECUHUALMA_MOST_WIDE_ROADS 523776

/* The words of the longest sheet that can be accepted: head and end, two for
 * each road, the samples, two for the first line and three for each other. A wide
 * sheet has a word more, before its head. */
#define TECUHUALMA_MOST_SHEET_WORDS 1052801
#define TECUHUALMA_MOST_WIDE_SHEET_WORDS 17824962

/* The bits of a road's first word that let it run only from its first place to its
 * second, and only from its second to its first, the same in both layouts. A road that
 * runs both ways has neither; one with both is refused with number 4. */
#define TECUHUALMA_ROAD_FORTH_ONLY 0x08000000u
#define TECUHUALMA_ROAD_BACK_ONLY 0x04000000u

/* The words of a correction; the highest revision, of which the lowest is 1; and a
 * correction's first word. The three numbers in it must be within their limits: one
 * that is not runs over into its neighbour, and another sample might be corrected. */
#define TECUHUALMA_CORRECTION_WORDS 3
#define TECUHUALMA_MOST_REVISION 255
#define TECUHUALMA_CORRECTION_FIRST_WORD(revision, signal, time) \
    (0xB0000000u | (uint32_t)(revision) << 20 | (uint32_t)(signal) << 12 | (uint32_t)(time))

/* What to lend. The result has just 40 bytes, that of a tool just 24.
 *
 * The distance table of a narrow sheet has at least 4,096 entries, whatever the
 * number of places; that of a wide sheet at least as many as its places squared,
 * which may be fewer. A host that does not know the sheet looks at its first word:
 * if bits 31..28 of it are 10 the sheet is wide, and bits 15..0 are its places. If
 * these are 0 or more than 1,024 the sheet is refused, whatever is lent. */
#define TECUHUALMA_WORD_BYTES 4
#define TECUHUALMA_DISTANCE_BYTES 8
#define TECUHUALMA_DISTANCES 4096
#define TECUHUALMA_DISTANCES_BYTES (TECUHUALMA_DISTANCES * TECUHUALMA_DISTANCE_BYTES)
#define TECUHUALMA_WIDE_DISTANCES(places) ((size_t)(places) * (size_t)(places))
#define TECUHUALMA_WIDE_DISTANCES_BYTES(places) \
    (TECUHUALMA_WIDE_DISTANCES(places) * TECUHUALMA_DISTANCE_BYTES)
#define TECUHUALMA_RESULT_BYTES 40
#define TECUHUALMA_TOOL_RESULT_BYTES 24

/* Answer words that are enough for every sheet of so many places, samples and
 * lines; lines that look ahead or back in time need fewer. The longest answer to a
 * narrow sheet has 4,194,370 words, the longest to a wide one 67,108,931. */
#define TECUHUALMA_ANSWER_WORDS(places, samples, lines) \
    (2 + (size_t)(lines) * (1 + (size_t)(places) * (size_t)(samples)))
#define TECUHUALMA_WIDE_ANSWER_WORDS(places, samples, lines) \
    (1 + TECUHUALMA_ANSWER_WORDS(places, samples, lines))
#define TECUHUALMA_MOST_ANSWER_WORDS \
    TECUHUALMA_ANSWER_WORDS(TECUHUALMA_MOST_PLACES, TECUHUALMA_MOST_SAMPLES, TECUHUALMA_MOST_LINES)
#define TECUHUALMA_MOST_WIDE_ANSWER_WORDS \
    TECUHUALMA_WIDE_ANSWER_WORDS(TECUHUALMA_MOST_WIDE_PLACES, TECUHUALMA_MOST_SAMPLES, \
                                 TECUHUALMA_MOST_LINES)

/* The most bytes of the stack that a call takes, for a sheet or an answer of so
 * many places in either layout. For a tool it is that of 1 place, whatever it
 * reads. */
#define TECUHUALMA_STACK_BYTES(places) ((places) <= TECUHUALMA_MOST_PLACES ? 65536 : 524288)

/* The distance from one place to another to which no roads lead from it, even if roads
 * lead back. */
#define TECUHUALMA_NO_DISTANCE UINT64_MAX

/* The five numbers of the result: the index of each, eight bytes apart. A tool's
 * result has the first three. */
enum tecuhualma_result {
    TECUHUALMA_NUMBER = 0, /* 0 on acceptance, else why the sheet is refused */
    TECUHUALMA_PLACE = 1,  /* where the fault is, see below; 0 on acceptance */
    TECUHUALMA_WORDS = 2,  /* the words of the answer, or those a tool wrote, first to end */
    TECUHUALMA_ROUNDS = 3, /* the greatest rounds of a surround's run, 0 without a run */
    TECUHUALMA_YES = 4     /* the count of yes verdicts */
};

/*
 * The numbers. The first fault counts, front to back. Number 1 comes before every
 * fault of a narrow sheet; of a wide sheet it comes after numbers 17 and 3, before
 * the roads. A tool does not give number 1, and judge() none of 18, 19 and 20.
 *
 * The place is the index of the faulty word, from 0. It is the sheet's length
 * in words, where no word is to be read, if the word is missing, and with
 * number 15; it is 0 with numbers 1, 16 and 18, whatever the sheet holds. With number
 * 17 it is 0 for the word of kind 10 and 1 for the word behind it, and with number
 * 3 it is 1 if the sheet is wide.
 *
 * With numbers 19 and 20 it is an index in the list of corrections, not in the sheet.
 * With 19 it is that of the faulty word, or the list's length in words if the last
 * correction is cut off; with 20 that of the first word of the later correction.
 */
enum tecuhualma_number {
    TECUHUALMA_ACCEPTED = 0,
    TECUHUALMA_FEW_DISTANCES = 1,     /* under 4,096 entries lent; wide: under places squared */
    TECUHUALMA_HEAD_KIND = 2,         /* first word absent, or of neither kind 1 nor 10 */
    TECUHUALMA_HEAD_LIMITS = 3,       /* places, signals or samples outside the limits */
    TECUHUALMA_ROAD_BITS = 4,         /* spare bits of a road set, or both that tell its way */
    TECUHUALMA_ROAD_SPARE_BITS = 4,   /* the former name, up to version 0.5 */
    TECUHUALMA_ROAD_PLACES = 5,       /* first not below second, or second no place */
    TECUHUALMA_ROAD_ORDER = 6,        /* a road's pair not above the last, whichever way it runs */
    TECUHUALMA_ROAD_WEIGHT = 7,       /* weight absent, not kind 3, or 0 */
    TECUHUALMA_SAMPLE_KIND = 8,       /* sample absent or not kind 4 */
    TECUHUALMA_SAMPLE_BIT = 9,        /* bit 27 of a sample set */
    TECUHUALMA_LINE_COUNT = 10,       /* no first line, or a 65th */
    TECUHUALMA_LINE_WORD = 11,        /* code, signal, operand or unused field */
    TECUHUALMA_LINE_PARAMETER = 12,   /* constant or bounds of a line */
    TECUHUALMA_LINE_LENGTH = 13,      /* a line without a sample */
    TECUHUALMA_END = 14,              /* end absent, not kind 15, miscounted, or not last */
    TECUHUALMA_SHORT_ANSWER = 15,     /* fewer words lent than needed: answer, a tool's output */
    TECUHUALMA_BYTE_LENGTHS = 16,     /* a length in bytes that cannot be */
    TECUHUALMA_WIDE_HEAD = 17,        /* places outside 1 to 1,024, spare bits set, or no
                                         kind 1 word with places 0 behind */
    TECUHUALMA_MANY_PLACES = 18,      /* more than 64 places, asked into the narrow layout */
    TECUHUALMA_CORRECTION = 19,       /* ill-formed, cut off, or of a sample that is not there */
    TECUHUALMA_CORRECTIONS_CLASH = 20 /* two of one sample and revision, with unlike values */
};

/* What lookup() gives. */
enum tecuhualma_verdict {
    TECUHUALMA_NO_VERDICT = 0,
    TECUHUALMA_VERDICT_YES = 1,
    TECUHUALMA_VERDICT_NO = 2
};

/*
 * Decides on a sheet and gives the number, 0 on acceptance.
 *
 * Accepted: the answer's words stand at the front of `answer`, zeros behind
 * them; n·n distances stand row by row at the front of `distances`, zeros
 * behind them; `result` holds the five numbers. The row of a distance is where
 * it is measured from, its column the place that it is measured to: entry
 * p·n + q, counted from 0, is the distance from place p to place q.
 *
 * Refused: `answer` and `distances` are all zero; `result` holds the number,
 * the place, and three zeros.
 *
 * Number 16 comes before all else: sheet_len or answer_len is not a multiple
 * of 4, distances_len not one of 8, or result_len is not 40. A result of
 * another length than 40 is all zero; only the number given back tells.
 */
uint64_t judge(const uint8_t *sheet, size_t sheet_len, uint8_t *distances, size_t distances_len,
               uint8_t *answer, size_t answer_len, uint8_t *result, size_t result_len);

/*
 * Looks up the verdict of a line at a sample and a place: 1 yes, 2 no, 0 none.
 *
 * The sample is one of the recording, from 0 to T - 1. A line has verdicts from
 * its first sample on, for as many samples as its length says: where lines look
 * back in time they may begin after sample 0, and where they look ahead they may
 * end before T.
 *
 * It is 0 exactly if line, sample or place is not in the answer, or if the bytes
 * are not a whole answer, which is to say:
 *
 *  - a multiple of 4 bytes, of which the words are, in this order,
 *  - a head of kind 13: 1 to 64 places, 1 to 64 lines, 1 to 1,024 samples T; or, of
 *    a wide answer, a word of kind 10 with 1 to 1,024 places in bits 15..0 and bits
 *    27..16 zero, then a head of kind 13 whose places are 0;
 *  - for each line a word of kind 14 with its first sample in bits 23..12, its
 *    length in bits 11..0 and bits 27..24 zero: the length at least 1, and both
 *    together at most T; then for each of these samples and each place a word of
 *    kind 9 with a margin of 0 or above, of kind 10 with one of 0 or below but not
 *    -2^27, or of kind 11 or 12 with a payload of 0;
 *  - an end of kind 15 with the count of words before it;
 *  - nothing but zeros.
 *
 * What judge() leaves of an accepted sheet is one; that of a refused sheet is all
 * zero and has no verdict. An answer that somebody else laid out like this is
 * looked up as well: the lookup does not know the sheet. Every call reads the
 * whole answer, which may have 256 MiB if it is wide; for many verdicts of a long
 * answer, walk its words.
 */
uint64_t lookup(const uint8_t *answer, size_t answer_len, uint64_t line, uint64_t sample,
                uint64_t place);

/*
 * Tools. A tool reads a sheet, and one of them a list of corrections as well. It
 * writes words into `output` and gives the number, 0 if they are written. It judges
 * nothing and is lent no distances.
 *
 * Written: the words stand at the front of `output`, zeros behind them; `result`
 * holds 0, 0 and how many there are.
 *
 * Refused: `output` is all zero; `result` holds the number, the place, and 0.
 *
 * In which order. Number 16 comes before all else: sheet_len, corrections_len where
 * there is one, or output_len is not a multiple of 4, or result_len is not 24. A result
 * of another length than 24 is all zero; only the number given back tells. Then comes
 * the sheet's own fault, by the number and at the place that judge() tells where it is
 * lent enough: a tool takes no other sheets than judge() does. Then comes what a tool
 * names below, and number 15 last: `output` has fewer words than are to be written. Its
 * place is the sheet's length in words, whatever else is read.
 */

/*
 * Writes a sheet in the wide layout. Only the first words, the first word of each
 * road and the count in the end change; a road runs as it did. A sheet that is wide
 * already is written unaltered.
 *
 * A wide sheet has a word more than the narrow one: sheet_len + 4 bytes of output
 * are always enough.
 *
 * judge() gives both sheets the same verdicts and margins, rounds and yes count.
 */
uint64_t sheet_to_wide(const uint8_t *sheet, size_t sheet_len, uint8_t *output, size_t output_len,
                       uint8_t *result, size_t result_len);

/*
 * Writes a sheet in the narrow layout: the way back from sheet_to_wide(), and the
 * same is to be said of it. There and back, from either layout, gives the words of
 * before. A sheet that is narrow already is written unaltered.
 *
 * sheet_len bytes of output are always enough.
 *
 * Number 18 is told of a wide sheet of more than 64 places.
 */
uint64_t sheet_to_narrow(const uint8_t *sheet, size_t sheet_len, uint8_t *output,
                         size_t output_len, uint8_t *result, size_t result_len);

/*
 * Writes a sheet with late corrections: samples that a station sent anew. It has the
 * layout and the length of the sheet, and all its words but the corrected samples.
 *
 * `corrections` is a list of none or more. Each is three words:
 *
 *  - kind 11: the revision in bits 27..20, from 1 to 255, the signal in 19..12, and
 *    the time in 11..0, which is the sample's number from 0 to T - 1;
 *  - kind 12: the place in bits 15..0, bits 27..16 zero;
 *  - kind 4: the value, laid out as every sample.
 *
 * They may come in any order. Of those of one sample the one with the highest revision
 * counts. It may stand there again with the same value, but not with another. The sheet
 * that is written does not tell revisions: another list corrects it by its own alone.
 *
 * Number 19 is told of the first word of the list that is not as above, or that names
 * a signal, a time or a place which the sheet does not have; where the last correction
 * is cut off, at the list's length. Number 20 comes after that: two corrections of one
 * sample have the same revision and unlike values, even if a higher revision makes both
 * of no account. It is told of the first correction that has such another before it, at
 * its first word. With both numbers the place is one of the list.
 *
 * sheet_len bytes of output are always enough.
 *
 * Time. The library has no memory but what is lent, and looks for equal revisions in
 * `output` before it writes there: part by part of the list, each of as many corrections
 * as half of the words of `output`. A list of one part takes time in proportion to the
 * sheet and to the list. Of a longer one each part is held against all that stands behind
 * it, so that a correction for each sample, in sheet_len bytes, takes half as long again
 * as in twice as many. In a part a correction is compared with one or two others, and, by a
 * list made to take long, with up to 510 in sheet_len bytes or more. In fewer than 64 words,
 * where hardly a sheet has room, it is compared with all before it.
 *
 * judge() decides on the new sheet as on the old one: it is accepted, where as much is
 * lent. If no sample moves by more than d, no margin does, and a verdict with a margin
 * beyond d stays. If none is lowered, in a table without codes 2 and 3, no margin is,
 * and no yes is lost.
 */
uint64_t correct_sheet(const uint8_t *sheet, size_t sheet_len, const uint8_t *corrections,
                       size_t corrections_len, uint8_t *output, size_t output_len,
                       uint8_t *result, size_t result_len);

#ifdef __cplusplus
}
#endif

#endif
