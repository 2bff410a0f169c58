/*
 * What the trials of all tools have in common: calls with any lengths, and what the
 * header says of them. Every byte that a call leaves is looked at.
 */
#ifndef TOOL_TRIALS_H
#define TOOL_TRIALS_H

#include "lent.h"
#include "tecuhualma.h"
#include "tools.h"

/* A tool with what it reads, a sheet first, and what it is to write of it. Where it
 * reads no second input, or is to write nothing, there is none. */
struct trial {
    const char *title;
    const struct tool *tool;
    const struct words *read[MOST_INPUTS], *written;
};

/* The lengths that are lent, in bytes. */
struct lengths {
    size_t inputs[MOST_INPUTS], output, result;
};

enum { RESULT = TECUHUALMA_TOOL_RESULT_BYTES, MORE = 400 };

/* The second input is lent whole. */
struct lengths with(const struct trial *trial, size_t sheet, size_t output, size_t result);

void demand_written(const struct trial *trial, struct lengths lent, const char *what);

void demand_refused(const struct trial *trial, struct lengths lent, uint64_t number,
                    uint64_t place, const char *what);

/* Refused with 16, of which only the number given back tells. */
void demand_no_result(const struct trial *trial, struct lengths lent, const char *what);

/* Lengths that cannot be, which are told before all else. */
void try_byte_lengths(const struct trial *trial, size_t sheet, size_t output);

/* The sheet's own faults, which are told whatever room there is. */
void try_faults(const struct trial *trial, size_t words, size_t output);

/* All lengths, of a trial in which something is to be written. */
void try_lengths(const struct trial *trial);

/* ---- The trials of each tool, over the dirt that is set ---- */

void try_converters(void);

void try_correct_sheet(void);

#endif
