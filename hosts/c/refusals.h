/* Refusals in plain language. */
#ifndef REFUSALS_H
#define REFUSALS_H

#include <stdint.h>

/* Prints what is wrong and where, by the number and the place that a call told, and
 * what to do. */
void print_refusal(uint64_t number, uint64_t place);

#endif
