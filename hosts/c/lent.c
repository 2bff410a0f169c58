#include "lent.h"

#include <stdio.h>
#include <stdlib.h>
#include <string.h>

const struct words NARROW_A = {
    {0x10201002, 0x20000001, 0x30000003, 0x40000005, 0x47FFFFFE, 0x40000001, 0x40000004,
     0x50100000, 0x80000000, 0x50900000, 0x60000000, 0x70000001, 0x50600000, 0x60000001,
     0x70000003, 0x50700800, 0x60000000, 0x70000003, 0xF0000012},
    19};

const struct words WIDE_A = {
    {0xA0000002, 0x10001002, 0x20000001, 0x30000003, 0x40000005, 0x47FFFFFE, 0x40000001,
     0x40000004, 0x50100000, 0x80000000, 0x50900000, 0x60000000, 0x70000001, 0x50600000,
     0x60000001, 0x70000003, 0x50700800, 0x60000000, 0x70000003, 0xF0000013},
    20};

void add_word(struct words *words, uint32_t kind, uint32_t payload)
{
    words->at[words->count++] = kind << 28 | payload;
}

struct words row_of(uint32_t places, uint32_t signals, uint32_t times, int wide)
{
    struct words sheet = {{0}, 0};
    if (wide)
        add_word(&sheet, 10, places);
    add_word(&sheet, 1, (wide ? 0 : places << 20) | signals << 12 | times);
    add_word(&sheet, 2, (places - 2) << (wide ? 12 : 8) | (places - 1));
    add_word(&sheet, 3, 1);
    for (uint32_t sample = 0; sample < places * signals * times; sample++)
        add_word(&sheet, 4, sample);
    add_word(&sheet, 5, 0);
    add_word(&sheet, 15, (uint32_t)sheet.count);
    return sheet;
}

size_t road_at(const struct words *sheet)
{
    return sheet->at[0] >> 28 == 10 ? 2 : 1;
}

struct words with_road_bits(struct words sheet, uint32_t bits)
{
    sheet.at[road_at(&sheet)] |= bits;
    return sheet;
}

uint8_t dirt = 0xD1;

enum { BEFORE = 0x5E }; /* what stands before a buffer */

static int failures = 0;

/* What malloc gives is even, so a byte behind its start is odd. */
uint8_t *take_dirty(size_t length)
{
    if (length == 0)
        return NULL;
    uint8_t *start = malloc(1 + length);
    if (start == NULL) {
        fputs("out of memory\n", stderr);
        exit(2);
    }
    start[0] = BEFORE;
    return memset(start + 1, dirt, length);
}

void give_back_dirty(uint8_t *bytes)
{
    if (bytes == NULL)
        return;
    demand(bytes[-1] == BEFORE, "a lent buffer", "the byte before it");
    free(bytes - 1);
}

uint8_t byte_of(const struct words *words, size_t index, uint8_t behind)
{
    if (index >= 4 * words->count)
        return behind;
    return (uint8_t)(words->at[index / 4] >> 8 * (index % 4));
}

void lay_out(const struct words *words, uint8_t *bytes, size_t length)
{
    for (size_t index = 0; index < length; index++)
        bytes[index] = byte_of(words, index, dirt);
}

int is_zero(const uint8_t *bytes, size_t length)
{
    size_t index = 0;
    while (index < length && bytes[index] == 0)
        index++;
    return index == length;
}

void demand(int condition, const char *of, const char *what)
{
    if (condition)
        return;
    printf("not as the header says: %s, %s\n", of, what);
    failures++;
}

int all_demanded(const char *program)
{
    printf("%s: %s\n", program, failures == 0 ? "all as the header says" : "failed");
    return failures != 0;
}
