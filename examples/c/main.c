/* main DECK: how many sources and deliveries the deck in a file has, and what its first delivery takes from each source.
   To build: tools/library, then cc -std=c99 -Iinclude examples/c/main.c target/library/libbarleyhood.a */
#include <inttypes.h>
#include <stdio.h>

#include "barleyhood.h"

static uint8_t deck[BARLEYHOOD_DECK + 1]; /* one byte more than a deck may have, so that a longer file is refused */
static int64_t cells[BARLEYHOOD_CELLS];

static int refused(uint64_t answer) {
    printf("refused %" PRIu32 " %" PRIu32 "\n", BARLEYHOOD_NUMBER(answer), BARLEYHOOD_PLACE(answer));
    return 1;
}

/* A label as it stands in the deck, quotes and all. */
static void print_label(uint64_t label) {
    printf("\"%.*s\"", (int)BARLEYHOOD_LENGTH(label), (const char *)deck + BARLEYHOOD_OFFSET(label));
}

int main(int argc, char **argv) {
    FILE *file = argc == 2 ? fopen(argv[1], "rb") : NULL;
    if (!file) {
        fprintf(stderr, "usage: %s DECK\n", argv[0]);
        return 2;
    }
    size_t length = fread(deck, 1, sizeof deck, file);
    fclose(file);

    uint64_t answer = barleyhood_check(deck, length);
    if (answer) return refused(answer);
    uint64_t sources = barleyhood_sources(deck, length);
    uint64_t deliveries = barleyhood_deliveries(deck, length);
    printf("sources %" PRIu64 ", deliveries %" PRIu64 "\n", sources, deliveries);

    answer = barleyhood_price(deck, length, cells, BARLEYHOOD_CELLS);
    if (BARLEYHOOD_NUMBER(answer)) return refused(answer);
    if (deliveries) {
        print_label(barleyhood_delivery_label(deck, length, 0));
        printf(" takes\n");
    }
    for (uint64_t i = 0; i < sources; i++) {
        print_label(barleyhood_source_label(deck, length, i));
        if (deliveries) {
            const int64_t *pair = cells + BARLEYHOOD_PAIR(sources, 0, i);
            printf(" direct %" PRId64 " MWh for %" PRId64 ", incremental %" PRId64 " MWh for %" PRId64, pair[0], pair[2], pair[1], pair[3]);
        }
        const int64_t *open = cells + BARLEYHOOD_OPEN(sources, deliveries, i);
        printf(" (left open: %" PRId64 " MWh for %" PRId64 ")\n", open[0], open[1]);
    }
    return 0;
}
