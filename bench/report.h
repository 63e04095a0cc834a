/* The report of a deck, in plain C. */
#ifndef BENCH_REPORT_H
#define BENCH_REPORT_H

#include <stddef.h>
#include <stdint.h>

/* No report is longer than this. */
enum { MOST_REPORT = 128 * 1024 };

/* Writes the report of the deck, or its refusal line, and answers its length.
   0, and nothing is written, where the room is too small. */
size_t report(const uint8_t *deck, size_t n, uint8_t *out, size_t room);

/* The same, plainly written (print.c). */
size_t report_plainly(const uint8_t *deck, size_t n, uint8_t *out, size_t room);

#endif
