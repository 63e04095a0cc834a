/* A deck's hour record in plain C, for comparison with the proved reader. */
#ifndef BENCH_DECK_H
#define BENCH_DECK_H

#include <stddef.h>
#include <stdint.h>

enum kind { UNIT, PURCHASE, FIXED };
enum basis { LOW, GENERATION, MWH };

struct label {
    uint8_t len;
    uint8_t bytes[16];
};

struct source {
    enum kind kind;
    uint32_t g, h, n, o, e, k, a, b, c, r, rate;
    struct label label;
};

struct delivery {
    uint32_t sequence, type, block, mwh;
    struct label label;
};

struct direct {
    enum basis basis;
    uint32_t mwh, percent;
    size_t source, delivery;
};

struct hour {
    uint32_t losses;
    size_t sources, deliveries, directs;
    struct source source[32];
    struct delivery delivery[32];
    struct direct direct[32];
};

struct refusal {
    uint32_t number, place;
};

/* Number 0 where the deck is accepted; *h is then its hour, entries past the counts as they were. */
struct refusal read_deck(const uint8_t *s, size_t n, struct hour *h);

/* The same, plainly written. */
struct refusal read_plainly(const uint8_t *s, size_t n, struct hour *h);

/* What both ask after E: 10 and 11. */
struct refusal finished(const struct hour *h);

#endif
