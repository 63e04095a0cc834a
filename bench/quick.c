/* The same reader written for speed: labels found by a table of their bytes.

   The deck is copied first and a zero byte put behind it. No field holds a zero byte, so every field stops
   there at the latest and the end needs no looking after. */
#include "deck.h"

#include <stdbool.h>
#include <string.h>

/* Labels already met, found by their 16 bytes. */
struct table {
    uint64_t first[32], second[32];
    uint8_t slot[128]; /* one more than the entry, 0 where free */
};

struct reader {
    const uint8_t *at;
    struct table sources, deliveries;
    uint32_t percent[32];  /* of each source */
    uint8_t line_of[32];   /* one more than the source's first D line */
    uint8_t text[8192 + 32];
};

/* Each reader of a field moves past it, or answers false. */

static inline bool take(struct reader *c, uint8_t byte) {
    if (*c->at != byte)
        return false;
    c->at++;
    return true;
}

static inline bool number(struct reader *c, uint32_t *value) {
    const uint8_t *p = c->at;
    uint32_t v = (uint32_t)*p - '0', digit;
    if (v > 9)
        return false;
    p++;
    if (v == 0) {
        if ((uint32_t)*p - '0' <= 9)
            return false;
    } else {
        for (; (digit = (uint32_t)*p - '0') <= 9; p++)
            v = v * 10 + digit;
        if (p - c->at > 7)
            v = 1000000; /* past every range */
    }
    c->at = p;
    *value = v;
    return true;
}

static inline bool spaced(struct reader *c, uint32_t *value) { return take(c, ' ') && number(c, value); }

static bool label(struct reader *c, struct label *l) {
    const uint8_t *p = c->at;
    unsigned n = 0;
    if (p[0] != ' ' || p[1] != '"')
        return false;
    p += 2;
    memset(l->bytes, 0, 16);
    for (;; p++) {
        uint8_t b = *p;
        if (b == '"')
            break;
        if (b == '\\') {
            b = *++p;
            if (b != '"' && b != '\\')
                return false;
        } else if ((uint8_t)(b - 32) > 126 - 32) {
            return false;
        }
        if (n == 16)
            return false;
        l->bytes[n++] = b;
    }
    if (n == 0)
        return false;
    l->len = (uint8_t)n;
    c->at = p + 1;
    return true;
}

/* The entry of a label, or -1; *slot is where it stands or would stand. */
static inline int find(const struct table *t, const struct label *l, unsigned *slot) {
    uint64_t a, b;
    memcpy(&a, l->bytes, 8);
    memcpy(&b, l->bytes + 8, 8);
    unsigned s = (unsigned)(((a ^ (b * 0x9E3779B97F4A7C15u)) * 0xD6E8FEB86659FD93u) >> 57);
    for (; t->slot[s]; s = (s + 1) & 127) {
        unsigned i = t->slot[s] - 1u;
        if (t->first[i] == a && t->second[i] == b)
            return (int)i;
    }
    *slot = s;
    return -1;
}

static inline void enter(struct table *t, size_t i, const struct label *l, unsigned slot) {
    memcpy(&t->first[i], l->bytes, 8);
    memcpy(&t->second[i], l->bytes + 8, 8);
    t->slot[slot] = (uint8_t)(i + 1);
}

static inline bool within(uint32_t v, uint32_t least, uint32_t most) { return v - least <= most - least; }

/* The rules of one line, in their order; 0 where it is taken. */

static unsigned source_line(struct reader *c, struct hour *h, uint8_t letter) {
    struct source x = {0};
    bool in_range;
    unsigned slot;
    if (letter == 'U') {
        x.kind = UNIT;
        if (!spaced(c, &x.g) || !spaced(c, &x.h) || !spaced(c, &x.n) || !spaced(c, &x.o) || !spaced(c, &x.e) || !spaced(c, &x.k) ||
            !spaced(c, &x.a) || !spaced(c, &x.b) || !spaced(c, &x.c) || !spaced(c, &x.r))
            return 2;
        in_range = within(x.g, 1, 2000) & within(x.h, 1, 2000) & within(x.n, 1, 2000) & within(x.o, 1, 2000) & within(x.e, 1, 2000) &
                   within(x.k, 1, 2000) & (x.a <= 999999) & (x.b <= 99999) & (x.c <= 99) & (x.r <= 39996);
    } else if (letter == 'P') {
        x.kind = PURCHASE;
        if (!spaced(c, &x.g) || !spaced(c, &x.rate))
            return 2;
        in_range = x.g <= 2000 && x.rate <= 999999;
    } else {
        x.kind = FIXED;
        if (!spaced(c, &x.g))
            return 2;
        in_range = x.g <= 2000;
    }
    if (!label(c, &x.label) || !take(c, '\n') || h->deliveries || h->directs)
        return 2;
    if (!in_range)
        return 3;
    if (h->sources == 32)
        return 4;
    if (find(&c->sources, &x.label, &slot) >= 0)
        return 5;
    if (x.kind == UNIT && !(x.k <= x.e && x.e <= x.o && x.o <= x.n && x.n <= x.g && x.g <= x.h))
        return 6;
    enter(&c->sources, h->sources, &x.label, slot);
    h->source[h->sources++] = x;
    return 0;
}

static unsigned delivery_line(struct reader *c, struct hour *h) {
    struct delivery x;
    unsigned slot;
    if (!spaced(c, &x.sequence) || !spaced(c, &x.type) || !spaced(c, &x.block) || !spaced(c, &x.mwh) || !label(c, &x.label) ||
        !take(c, '\n') || h->directs)
        return 2;
    if (x.sequence > 99 || !within(x.type, 1, 9) || !within(x.block, 1, 9) || x.mwh > 2000)
        return 3;
    if (h->deliveries == 32)
        return 4;
    if (find(&c->deliveries, &x.label, &slot) >= 0)
        return 5;
    enter(&c->deliveries, h->deliveries, &x.label, slot);
    h->delivery[h->deliveries++] = x;
    return 0;
}

static unsigned direct_line(struct reader *c, struct hour *h) {
    struct direct x = {0};
    struct label unit, delivery;
    unsigned slot;
    if (!take(c, ' '))
        return 2;
    if (take(c, 'L'))
        x.basis = LOW;
    else if (take(c, 'G'))
        x.basis = GENERATION;
    else {
        x.basis = MWH;
        if (!number(c, &x.mwh))
            return 2;
    }
    if (!spaced(c, &x.percent) || !label(c, &unit) || !label(c, &delivery) || !take(c, '\n'))
        return 2;
    if ((x.basis == MWH && !within(x.mwh, 1, 1999)) || !within(x.percent, 1, 100))
        return 3;
    if (h->directs == 32)
        return 4;
    int i = find(&c->sources, &unit, &slot), j = find(&c->deliveries, &delivery, &slot);
    if (i < 0 || j < 0 || h->source[i].kind != UNIT)
        return 7;
    const struct direct *earlier = c->line_of[i] ? &h->direct[c->line_of[i] - 1] : &x;
    if (earlier->basis != x.basis || earlier->mwh != x.mwh || (x.basis == MWH && x.mwh >= h->source[i].h))
        return 8;
    if (c->percent[i] + x.percent > 100)
        return 9;
    c->percent[i] += x.percent;
    if (!c->line_of[i])
        c->line_of[i] = (uint8_t)(h->directs + 1);
    x.source = (size_t)i;
    x.delivery = (size_t)j;
    h->direct[h->directs++] = x;
    return 0;
}

struct refusal read_deck(const uint8_t *s, size_t n, struct hour *h) {
    struct reader c;
    if (n > 8192)
        return (struct refusal){1, 0};
    memcpy(c.text, s, n);
    c.text[n] = 0;
    c.at = c.text;
    const uint8_t *end = c.text + n;
    memset(c.sources.slot, 0, sizeof c.sources.slot);
    memset(c.deliveries.slot, 0, sizeof c.deliveries.slot);
    memset(c.percent, 0, sizeof c.percent);
    memset(c.line_of, 0, sizeof c.line_of);
    h->sources = h->deliveries = h->directs = 0;
    if (!take(&c, 'H') || !spaced(&c, &h->losses) || !take(&c, '\n'))
        return (struct refusal){2, 1};
    if (h->losses > 64000)
        return (struct refusal){3, 1};
    for (uint32_t line = 2;; line++) {
        unsigned wrong = 2;
        uint8_t letter = *c.at++;
        if (letter == 'U' || letter == 'P' || letter == 'F')
            wrong = source_line(&c, h, letter);
        else if (letter == 'T')
            wrong = delivery_line(&c, h);
        else if (letter == 'D')
            wrong = direct_line(&c, h);
        else if (letter == 'E' && take(&c, '\n')) {
            if (c.at == end)
                return finished(h);
            return (struct refusal){2, line + 1};
        }
        if (wrong)
            return (struct refusal){wrong, line};
    }
}
