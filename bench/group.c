/* One group's remainder: the ladder's rungs and credit, one MWh at a time or by price.
   A source with room is a falling line of merit: its MWh k (from 0) has the merit one - 1 - step * k. Unloading takes the dearest
   MWh first, a credit the cheapest, so there the merit is TOP less the price. All numbers are below 2^53, so doubles hold them,
   and sums of them are exact in any order: compile with -O3 -march=native -ffast-math, so that the loops go by vectors. */
#include "group.h"

#include <string.h>

#define TOP 281474976710656.0

static uint32_t less(uint32_t x, uint32_t y) { return x < y ? 0 : x - y; }

static uint32_t room(const struct running *s, enum rung x) {
    const struct plant *p = &s->plant;
    uint32_t low = 0;
    if (p->kind == PLANT_FIXED) return 0;
    if (x == UP) {
        if (p->kind == PLANT_PURCHASE) return less(p->purchase.g, s->v);
        return s->v + s->d < p->unit.e ? 0 : less(p->unit.h, s->v + s->d);
    }
    if (p->kind == PLANT_UNIT) low = x == NORMAL ? p->unit.n : x == OIL ? p->unit.o : x == EMERGENCY ? p->unit.e : 0;
    return less(s->v, less(s->b > low ? s->b : low, s->d));
}

static uint64_t rooms(const struct running *s, size_t n, enum rung x) {
    uint64_t sum = 0;
    for (size_t i = 0; i < n; i++) sum += room(&s[i], x);
    return sum;
}

/* Where all MWh have one merit, step is 0 and the count is cap or nothing. */
void make_lines(struct lines *l, const struct running *s, size_t n, enum rung x) {
    l->n = n;
    l->up = x == UP;
    for (size_t i = 0; i < n; i++) {
        const struct plant *p = &s[i].plant;
        double cap = room(&s[i], x), price = 0, step = 0;
        if (p->kind == PLANT_UNIT) {
            double m = s[i].v + s[i].d + (l->up ? 1 : 0);
            price = (2.0 * p->unit.b + p->unit.c * (2 * m - 1)) * p->unit.r;
            step = 2.0 * p->unit.c * p->unit.r;
        } else if (p->kind == PLANT_PURCHASE) {
            price = 2000.0 * p->purchase.rate;
        }
        l->cap[i] = cap;
        l->one[i] = l->up ? TOP + 1 - price : price + 1;
        l->step[i] = step;
    }
    double high = 0, low = TOP, all = 0, middles = 0, some = 0;
    for (size_t i = 0; i < n; i++) {
        double one = l->one[i], step = l->step[i], cap = l->cap[i];
        double flat = cap < 1 ? cap : 1, span = step == 0 ? flat : step * cap, end = one - span;
        one = cap == 0 ? 0 : one;
        end = cap == 0 ? TOP : end;
        l->one[i] = one;
        l->span[i] = span;
        l->inv[i] = step == 0 ? cap - 1 : 1 / step;
        high = high < one ? one : high;
        low = end < low ? end : low;
        all += cap;
        middles += cap == 0 ? 0 : one - span / 2;
        some += cap == 0 ? 0 : 1;
    }
    l->high = high, l->low = low, l->room = all, l->middle = some > 0 ? middles / some : 0;
}

/* One MWh at a time: of the source with the best next MWh, a tie to the earlier, of a credit to the later. */
void take_plain(const struct lines *l, double total, double taken[32]) {
    double m[32];
    for (size_t i = 0; i < l->n; i++) {
        taken[i] = 0;
        m[i] = l->cap[i] > 0 ? l->one[i] : 0;
    }
    for (; total > 0; total--) {
        double t = 0;
        size_t at = 0;
        for (size_t i = 0; i < l->n; i++) t = t < m[i] ? m[i] : t;
        if (l->up) {
            for (at = l->n - 1; m[at] != t;) at--;
        } else {
            while (m[at] != t) at++;
        }
        taken[at] += 1;
        m[at] = taken[at] < l->cap[at] ? l->one[at] - l->step[at] * taken[at] : 0;
    }
}

struct offer {
    double sum, slope;
};

/* The MWh of merit p and better, and how many more there are for each step down. */
static inline struct offer supply(const struct lines *restrict l, double p) {
    struct offer o = {0, 0};
    for (size_t i = 0; i < l->n; i++) {
        double w = l->one[i] - p, inv = l->inv[i], step = l->step[i];
        double x = w > 0 ? w : 0;
        x = x < l->span[i] ? x : l->span[i];
        double q = (int32_t)(x * inv), more = q * step < x ? 1.0 : 0.0;
        double tilt = x == w ? inv : 0.0;
        tilt = step > 0 ? tilt : 0.0;
        o.sum += q + more;
        o.slope += tilt;
    }
    return o;
}

/* The MWh of one merit next below p, and where sources of one merit begin: the one next below p and the one next above. */
struct flats {
    double level, below, above;
};

static inline struct flats flats(const struct lines *l, double p) {
    struct flats f = {0, 0, 2 * TOP};
    for (size_t i = 0; i < l->n; i++) {
        double one = l->step[i] > 0 ? 0 : l->one[i];
        double b = one < p ? one : 0, a = one > p ? one : 2 * TOP, level = one == p ? l->cap[i] : 0.0;
        f.level += level;
        f.below = f.below < b ? b : f.below;
        f.above = a < f.above ? a : f.above;
    }
    return f;
}

static double whole(double x) { return (double)(int64_t)x; }

/* How far a mark must move for so many MWh. */
static double way(double need, double slope) { return slope > 0 ? need / slope : 2 * TOP; }

/* A mark with no more than the total at and above it. The first one is tried by the ends and the middle of all merits, or for few MWh
   by the slope at the best merit; the next by the slope, and where that leads outside, where a source of one merit begins. */
static double mark(const struct lines *l, double total) {
    double lo = l->low, hi = l->high, over = l->room, held = 0, spare = 0, next; /* more than the total at lo, no more at hi */
    double aim = l->n < 16 || total < 64 ? 1 : 3, many = l->n < 16 ? 8 : 32;
    if (total * 32 < over) {
        double slope = 0, level = 0;
        for (size_t i = 0; i < l->n; i++) {
            double flat = l->step[i] > 0 ? 0 : l->cap[i], tilt = l->step[i] > 0 ? l->inv[i] : 0;
            level += l->one[i] == hi ? flat : 0;
            slope += l->one[i] == hi ? tilt : 0;
        }
        spare = level;
        next = hi - way(total - spare - aim, slope);
    } else if (2 * total < over) {
        next = hi - (hi - l->middle) * (2 * total / over);
    } else {
        next = l->middle - (l->middle - lo) * ((2 * total - over) / over);
    }
    for (int round = 0; round < 64 && hi - lo > 1 && total - held - spare > 6; round++) {
        double p = whole(next), level = 0;
        if (!(p > lo && p < hi)) {
            if (round > 0 && total - held - spare <= many) break;
            p = round % 2 == 0 || round > 13 ? (lo + hi) / 2 : hi - (hi - lo) * ((total - held) / (over - held));
            p = whole(p);
            struct flats f = flats(l, p);
            if (f.level == 0) p = f.below > lo ? f.below : f.above < hi ? f.above : p;
            if (!(p > lo && p < hi)) p = whole((lo + hi) / 2);
            level = flats(l, p).level;
        }
        struct offer o = supply(l, p);
        if (o.sum <= total) {
            hi = p;
            held = o.sum;
            spare = level;
            next = p - way(total - held - spare - aim, o.slope);
        } else {
            lo = p;
            over = o.sum;
            next = p + way(over - total + aim, o.slope);
        }
    }
    return held > 0 ? hi : TOP + 1;
}

/* All above the mark at once; then all that have the best merit left, in their turn, as often as is needed. */
void take_price(const struct lines *l, double total, double taken[32]) {
    double p = mark(l, total), sum = 0, m[32];
    for (size_t i = 0; i < l->n; i++) {
        double w = l->one[i] - p, step = l->step[i];
        w = w > 0 ? w : 0;
        w = w < l->span[i] ? w : l->span[i];
        double q = (int32_t)(w * l->inv[i]), more = q * step < w ? 1.0 : 0.0;
        q += more;
        taken[i] = q;
        m[i] = q < l->cap[i] ? l->one[i] - step * q : 0;
        sum += q;
    }
    while (sum < total) {
        double t = 0;
        for (size_t i = 0; i < l->n; i++) t = t < m[i] ? m[i] : t;
        for (size_t i = 0; i < l->n && sum < total; i++) {
            size_t k = l->up ? l->n - 1 - i : i;
            if (m[k] != t) continue;
            double all = l->cap[k] - taken[k], rest = total - sum, g = l->step[k] > 0 ? 1 : all < rest ? all : rest;
            taken[k] += g;
            sum += g;
            m[k] = taken[k] < l->cap[k] ? l->one[k] - l->step[k] * taken[k] : 0;
        }
    }
}

/* The last step: each source to its emergency floor, then one after another by falling average. */
static uint64_t heat(const struct plant *p, uint64_t m) { return (2ull * p->unit.a + 2 * p->unit.b * m + p->unit.c * m * m) * p->unit.r; }

static uint64_t cost(const struct running *s, uint64_t m) {
    const struct plant *p = &s->plant;
    if (p->kind == PLANT_FIXED) return 0;
    if (p->kind == PLANT_PURCHASE) return 2000ull * p->purchase.rate * m;
    return m < p->unit.k ? heat(p, p->unit.k) * m / p->unit.k : heat(p, m);
}

static uint64_t changed(const struct running *s, uint64_t m) {
    if (!s->based || m > s->b) return cost(s, m);
    return s->b == 0 ? 0 : cost(s, s->b) * m / s->b;
}

static uint64_t low(const struct running *s) { return s->plant.kind == PLANT_UNIT ? s->plant.unit.n : 0; }

static void last_step(struct running *s, size_t n, uint64_t total) {
    for (size_t i = 0; i < n; i++) s[i].v -= room(&s[i], EMERGENCY);
    while (total > 0) {
        size_t at = n;
        for (size_t i = 0; i < n; i++) {
            if (room(&s[i], LAST) == 0) continue;
            if (at == n || changed(&s[i], low(&s[i])) * low(&s[at]) > changed(&s[at], low(&s[at])) * low(&s[i])) at = i;
        }
        uint64_t k = room(&s[at], LAST);
        k = k < total ? k : total;
        s[at].v -= k;
        total -= k;
    }
}

static inline enum verdict settle(const struct running *before, size_t n, uint64_t total, uint64_t took, struct running *after, bool price) {
    struct lines l;
    double taken[32];
    bool up = took > total;
    uint64_t rest = up ? took - total : total - took;
    memcpy(after, before, 32 * sizeof *after);
    for (enum rung x = up ? UP : NORMAL;; x++) {
        if (x == LAST) {
            if (rooms(before, n, LAST) < rest) return NO_ROOM;
            last_step(after, n, rest - rooms(before, n, EMERGENCY));
            return DONE;
        }
        make_lines(&l, before, n, x);
        if (rest <= l.room) break;
        if (up) return NO_HEADROOM;
    }
    if (price)
        take_price(&l, rest, taken);
    else
        take_plain(&l, rest, taken);
    for (size_t i = 0; i < n; i++) after[i].v = up ? before[i].v + (uint32_t)taken[i] : before[i].v - (uint32_t)taken[i];
    return DONE;
}

enum verdict settle_plain(const struct running before[32], size_t n, uint64_t total, uint64_t took, struct running after[32]) {
    return settle(before, n, total, took, after, false);
}

enum verdict settle_price(const struct running before[32], size_t n, uint64_t total, uint64_t took, struct running after[32]) {
    return settle(before, n, total, took, after, true);
}
