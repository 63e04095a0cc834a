/* One group's remainder in plain C, for comparison with the proved engines. */
#ifndef BENCH_GROUP_H
#define BENCH_GROUP_H

#include <stdbool.h>
#include <stddef.h>
#include <stdint.h>

enum plant_kind { PLANT_UNIT, PLANT_PURCHASE, PLANT_FIXED };

struct plant {
    uint8_t kind;
    union {
        struct {
            uint32_t g, h, n, o, e, k, a, b, c, r;
        } unit;
        struct {
            uint32_t g, rate;
        } purchase;
        struct {
            uint32_t g;
        } fixed;
    };
};

/* A source's running state: open energy v, directly taken d, basic amount b. */
struct running {
    struct plant plant;
    uint32_t v, d, b;
    bool based;
    uint32_t percent;
    uint64_t paid;
};

/* The sources as falling lines of merit; the first n count. */
struct lines {
    double one[32], step[32], span[32], inv[32], cap[32];
    size_t n;
    bool up;
    double high, low, middle, room; /* one more than the best merit, one less than the worst, their middle, and all MWh */
};

enum rung { NORMAL, OIL, EMERGENCY, LAST, UP };

void make_lines(struct lines *l, const struct running *s, size_t n, enum rung x);

/* What is taken of each source: one MWh at a time, or by price. */
void take_plain(const struct lines *l, double total, double taken[32]);
void take_price(const struct lines *l, double total, double taken[32]);

enum verdict { DONE, NO_ROOM, NO_HEADROOM };

/* The states after a group of `total` MWh whose D lines took `took`; where refused, as they were. One MWh at a time, or by price. */
enum verdict settle_plain(const struct running before[32], size_t n, uint64_t total, uint64_t took, struct running after[32]);
enum verdict settle_price(const struct running before[32], size_t n, uint64_t total, uint64_t took, struct running after[32]);

#endif
