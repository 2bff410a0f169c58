/*
 * What the trials of lent buffers have in common. Every buffer is taken at just its
 * length, so that valgrind sees a byte behind it, at an odd address, and dirty, so
 * that zeros are seen to be written.
 */
#ifndef LENT_H
#define LENT_H

#include <stddef.h>
#include <stdint.h>

enum { MOST_WORDS = 120 };

/* Those of a sheet or of a list. */
struct words {
    uint32_t at[MOST_WORDS];
    size_t count;
};

void add_word(struct words *words, uint32_t kind, uint32_t payload);

/* Example A, and the same laid out wide, with a word more. */
extern const struct words NARROW_A, WIDE_A;

/* Places with a count of each signal at each time, and a line that is true. A road
 * joins the last two, so that its word differs from layout to layout. */
struct words row_of(uint32_t places, uint32_t signals, uint32_t times, int wide);

/* Where the first word of the first road stands, in either layout. */
size_t road_at(const struct words *sheet);

/* A sheet whose first road has these bits as well. */
struct words with_road_bits(struct words sheet, uint32_t bits);

/* What new buffers are filled with. */
extern uint8_t dirt;

/* Takes a buffer; none if the length is 0. */
uint8_t *take_dirty(size_t length);

/* Gives a buffer back, and demands that the byte before it was left alone. */
void give_back_dirty(uint8_t *bytes);

/* A byte of these words; `behind` past the last of them. */
uint8_t byte_of(const struct words *words, size_t index, uint8_t behind);

/* Lays out as many of these words as there is room for, with dirt behind them. */
void lay_out(const struct words *words, uint8_t *bytes, size_t length);

int is_zero(const uint8_t *bytes, size_t length);

/* Tells what is not as the header says, and of which trial. */
void demand(int condition, const char *of, const char *what);

/* Tells whether all demands were met; gives what the program is to end with. */
int all_demanded(const char *program);

#endif
