/* The library's tools, called in one way, whether they read one input or two. */
#ifndef TOOLS_H
#define TOOLS_H

#include "numbers.h"

enum { MOST_INPUTS = 2 };

typedef uint64_t call_on_one(const uint8_t *input, size_t input_len, uint8_t *output,
                             size_t output_len, uint8_t *result, size_t result_len);

typedef uint64_t call_on_two(const uint8_t *first, size_t first_len, const uint8_t *second,
                             size_t second_len, uint8_t *output, size_t output_len,
                             uint8_t *result, size_t result_len);

/* A tool has one of the two. */
struct tool {
    call_on_one *on_one;
    call_on_two *on_two;
};

extern const struct tool TO_WIDE, TO_NARROW, CORRECT;

/* What a tool reads, the second input only if it reads two, and what it is lent. */
struct call {
    struct bytes inputs[MOST_INPUTS], output, result;
};

size_t input_count(const struct tool *tool);

/* Gives the number. */
uint64_t call_tool(const struct tool *tool, const struct call *call);

#endif
