/* Times one group's remainder, the proved group::settle (trial_settle of crate trials) beside bench/group.c on the same states, in one
   run, turn by turn, and holds the levels of both sides to each other. Each case is settled from the opening states of several decks,
   each many times in a row. */
#define _POSIX_C_SOURCE 199309L
#include <stdio.h>
#include <stdlib.h>
#include <string.h>
#include <time.h>

#include "deck.h"
#include "group.h"

/* Reads the deck and settles once for the levels, then `times` more; 0 where the deck or the group is refused. */
uint64_t trial_settle(const uint8_t *deck, size_t n, uint64_t total, uint64_t took, bool by_price, size_t times, uint64_t *levels,
                      size_t count);

enum { DECKS = 16, TURNS = 101, MOST_TIMES = 256 };
enum kinds { MIXED, TIES, FLAT, SMOOTH, KINDS };
static const char *const kind_name[KINDS] = {"mixed", "ties", "flat prices", "smooth"};

struct group {
    char deck[8192];
    size_t size, n;
    struct running before[32];
    uint64_t total, took;
};

/* ---- the decks ---- */

static uint64_t seed;

static int between(int least, int most) {
    seed ^= seed << 13, seed ^= seed >> 7, seed ^= seed << 17;
    return least + (int)((seed >> 11) % (uint64_t)(most - least + 1));
}

/* A unit with some 900 MWh of room below its level and above it. */
static int put_unit(char *p, int b, int c, int r) {
    int low = between(100, 200);
    return sprintf(p, "U %d %d %d %d %d %d %d %d %d %d", between(950, 1150), between(1900, 2000), low, low - 20, low - 40, low - 60,
                   between(100000, 900000), b, c, r);
}

static int put_source(char *p, enum kinds kind) {
    int part = between(0, 15);
    if (kind == SMOOTH) return put_unit(p, between(1000, 9999), between(20, 99), between(8000, 19999));
    if (kind == FLAT && part < 14) return put_unit(p, between(5000, 15000), 0, between(8000, 19999));
    if (kind == MIXED && part == 0) return sprintf(p, "F %d", between(0, 2000));
    if (kind == MIXED && part < 4) return sprintf(p, "P %d %d", between(0, 2000), between(60000, 200000));
    return put_unit(p, between(7000, 9999), between(0, 9), between(8000, 19999));
}

/* Ties: the sources are of three makes. */
static void make_deck(struct group *g, enum kinds kind) {
    char make[3][128], *p = g->deck;
    for (int i = 0; i < 3; i++) put_source(make[i], kind);
    p += sprintf(p, "H 0\n");
    for (size_t i = 0; i < g->n; i++) {
        p += kind == TIES ? sprintf(p, "%s", make[between(0, 2)]) : put_source(p, kind);
        p += sprintf(p, " \"%zu\"\n", i);
    }
    p += sprintf(p, "E\n");
    g->size = (size_t)(p - g->deck);
}

static struct running opened(const struct source *s) {
    struct running x = {.v = s->g};
    if (s->kind == UNIT) {
        x.plant.kind = PLANT_UNIT;
        x.plant.unit.g = s->g, x.plant.unit.h = s->h, x.plant.unit.n = s->n, x.plant.unit.o = s->o, x.plant.unit.e = s->e;
        x.plant.unit.k = s->k, x.plant.unit.a = s->a, x.plant.unit.b = s->b, x.plant.unit.c = s->c, x.plant.unit.r = s->r;
    } else if (s->kind == PURCHASE) {
        x.plant.kind = PLANT_PURCHASE;
        x.plant.purchase.g = s->g, x.plant.purchase.rate = s->rate;
    } else {
        x.plant.kind = PLANT_FIXED;
        x.plant.fixed.g = s->g;
    }
    return x;
}

static void fail(const char *what, const struct group *g) {
    fprintf(stderr, "groups: %s: total %llu, took %llu, deck\n%s", what, (unsigned long long)g->total, (unsigned long long)g->took, g->deck);
    exit(1);
}

/* 20 MWh, or seven tenths of the room. */
static void make_group(struct group *g, size_t n, bool many, enum kinds kind, bool credit) {
    struct hour h = {0};
    struct lines l;
    g->n = n;
    make_deck(g, kind);
    if (read_plainly((const uint8_t *)g->deck, g->size, &h).number) fail("the deck is refused", g);
    memset(g->before, 0, sizeof g->before);
    for (size_t i = 0; i < n; i++) g->before[i] = opened(&h.source[i]);
    make_lines(&l, g->before, n, credit ? UP : NORMAL);
    uint64_t move = many ? (uint64_t)l.room * 7 / 10 : 20;
    g->total = credit ? 0 : move;
    g->took = credit ? move : 0;
}

/* ---- the two sides ---- */

static uint64_t proved(const struct group *g, bool by_price, size_t times, uint64_t levels[32]) {
    return trial_settle((const uint8_t *)g->deck, g->size, g->total, g->took, by_price, times, levels, 32);
}

static enum verdict c_settle(const struct group *g, bool by_price, struct running after[32]) {
    return by_price ? settle_price(g->before, g->n, g->total, g->took, after) : settle_plain(g->before, g->n, g->total, g->took, after);
}

static void hold_levels(const struct group *g, bool by_price) {
    uint64_t levels[32];
    struct running after[32];
    if (!proved(g, by_price, 0, levels)) fail("the proved side refuses", g);
    if (c_settle(g, by_price, after) != DONE) fail("C refuses", g);
    for (size_t i = 0; i < g->n; i++)
        if (levels[i] != after[i].v) fail("the levels differ", g);
}

static double now(void) {
    struct timespec t;
    clock_gettime(CLOCK_MONOTONIC, &t);
    return (double)t.tv_sec * 1e9 + (double)t.tv_nsec;
}

static volatile uint64_t sink;

static double time_proved(const struct group *g, bool by_price, size_t times) {
    uint64_t levels[32];
    double began = now();
    sink += proved(g, by_price, times, levels);
    return now() - began;
}

static double time_c(const struct group *g, bool by_price, size_t times) {
    struct running after[32];
    double began = now();
    for (size_t i = 0; i < times; i++) {
        c_settle(g, by_price, after);
        sink += after[i % 32].v;
    }
    return now() - began;
}

static void lessen(double *least, double x) {
    if (x < *least) *least = x;
}

struct pair {
    double proved, c;
};

/* ns a group. On the proved side what the call takes beside its `times` groups is taken off: the same call with none. */
static struct pair time_case(const struct group *groups, bool by_price) {
    double with[DECKS], without[DECKS], c[DECKS];
    size_t times[DECKS];
    struct pair sum = {0, 0};
    for (int k = 0; k < DECKS; k++) {
        hold_levels(&groups[k], by_price);
        double room = 2e5 / (time_c(&groups[k], by_price, 2) / 2);
        times[k] = room < 1 ? 1 : room < MOST_TIMES ? (size_t)room : MOST_TIMES;
        with[k] = without[k] = c[k] = 1e18;
    }
    for (int turn = 0; turn < TURNS; turn++)
        for (int k = 0; k < DECKS; k++) {
            lessen(&with[k], time_proved(&groups[k], by_price, times[k]));
            lessen(&c[k], time_c(&groups[k], by_price, times[k]));
            lessen(&without[k], time_proved(&groups[k], by_price, 0));
        }
    for (int k = 0; k < DECKS; k++) {
        sum.proved += (with[k] - without[k]) / (double)times[k] / DECKS;
        sum.c += c[k] / (double)times[k] / DECKS;
    }
    return sum;
}

/* ---- the tables ---- */

static int ascending(const void *a, const void *b) {
    double x = *(const double *)a, y = *(const double *)b;
    return (x > y) - (x < y);
}

static void table(bool by_price) {
    static struct group groups[DECKS];
    static const size_t sources[4] = {8, 8, 32, 32};
    struct pair t[KINDS * 2][4];
    double mwh[4] = {0}, ratio[KINDS * 2 * 4];
    int cases = 0;
    seed = 0x9e3779b97f4a7c15u;
    for (int row = 0; row < KINDS * 2; row++)
        for (int column = 0; column < 4; column++) {
            for (int k = 0; k < DECKS; k++) {
                make_group(&groups[k], sources[column], column % 2, (enum kinds)(row / 2), row % 2);
                mwh[column] += (double)(groups[k].total + groups[k].took) / (DECKS * KINDS * 2);
            }
            t[row][column] = time_case(groups, by_price);
            ratio[cases++] = t[row][column].proved / t[row][column].c;
        }
    printf("\n| %s, C / proved, ns ", by_price ? "by price" : "one MWh at a time");
    for (int column = 0; column < 4; column++) {
        if (column % 2)
            printf("| %zu sources, about %ld00 MWh ", sources[column], (long)(mwh[column] / 100 + 0.5));
        else
            printf("| %zu sources, %.0f MWh ", sources[column], mwh[column]);
    }
    printf("|\n|---|---|---|---|---|\n");
    for (int row = 0; row < KINDS * 2; row++) {
        printf("| %s, %s ", kind_name[row / 2], row % 2 ? "credit" : "unload");
        for (int column = 0; column < 4; column++) printf("| %.0f / %.0f ", t[row][column].c, t[row][column].proved);
        printf("|\n");
    }
    qsort(ratio, (size_t)cases, sizeof *ratio, ascending);
    printf("\nproved to C over these %d cases: least %.2f, median %.2f, most %.2f\n", cases, ratio[0],
           (ratio[(cases - 1) / 2] + ratio[cases / 2]) / 2, ratio[cases - 1]);
}

int main(void) {
    printf("\none group, %d decks a case, least of %d turns:\n", DECKS, TURNS);
    table(true);
    table(false);
    return 0;
}
