/* Sheets of as many samples as there can be, with a line of every code, and corrections
 * of them. */
#ifndef LARGE_SHEETS_H
#define LARGE_SHEETS_H

#include "numbers.h"

/* Line k has code k. */
enum { LINES = 16, SURROUNDED = 7 };

/* Takes so many bytes; ends the program if there is no memory for them. */
struct bytes take_or_end(size_t length);

/* A sheet of one signal, whose places stand in a row. */
struct bytes large_sheet(int wide, uint32_t places);

/* So many corrections of such a sheet, each sample corrected twice. */
struct bytes corrections(uint32_t places, uint32_t count);

#endif
