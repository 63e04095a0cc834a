/* The whole hour of document 01 in plain C, for comparison with the proved reconstruction. */
#ifndef BENCH_HOUR_H
#define BENCH_HOUR_H

#include "deck.h"

#include <stdbool.h>

/* The most cells an hour has: four for each pair, two for each source. */
enum { MOST_CELLS = 32 * 32 * 4 + 32 * 2 };

/* Whether some deck gives this record. Entries past the counts must be blank: every field 0. */
bool some_deck_gives(const struct hour *h);

/* The deliveries' internal sequence numbers, for an hour that some deck gives. */
void number_deliveries(const struct hour *h, uint32_t number[32]);

/* How many cells the answer has. */
size_t cell_count(const struct hour *h);

/* Fills the answer cells, or refuses with 15, 14, 12 or 13 and changes none.
   By price each group's marginal price is looked for and whole blocks are moved; otherwise single MWh. */
struct refusal reconstruct(const struct hour *h, int64_t *cells, size_t room, int by_price);

/* The same for an hour just read from a deck: 14, 12 and 13. */
struct refusal rebuild(const struct hour *h, int64_t *cells, size_t room, int by_price);

/* And where the buffer is known to hold its cells: 12 and 13 only. */
struct refusal reconstruct_read(const struct hour *h, int64_t *cells, int by_price);

/* The same as reconstruct, rebuild and number_deliveries, written independently from document 01 and its settled readings (plain.c). */
struct refusal rebuild_plainly(const struct hour *h, int64_t *cells, size_t room, int by_price);
struct refusal reconstruct_plainly(const struct hour *h, int64_t *cells, size_t room, int by_price);
void number_plainly(const struct hour *h, uint32_t number[32]);

#endif
