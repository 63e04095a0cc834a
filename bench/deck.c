/* A plain hand-written reader of a deck by document 01: one pass, every refusal 1 to 11 with its place. */
#include "deck.h"

#include <stdbool.h>
#include <string.h>

struct cursor {
    const uint8_t *at, *end;
};

/* Each reader of a field moves the cursor past it, or answers false. */

static bool take(struct cursor *c, uint8_t byte) {
    if (c->at == c->end || *c->at != byte)
        return false;
    c->at++;
    return true;
}

static bool number(struct cursor *c, uint32_t *value) {
    const uint8_t *p = c->at;
    uint32_t v = 0;
    while (p != c->end && (uint8_t)(*p - '0') < 10) {
        v = v * 10 + (*p++ - '0');
        if (v > 1000000)
            v = 1000000;
    }
    if (p == c->at || (*c->at == '0' && p != c->at + 1))
        return false;
    c->at = p;
    *value = v;
    return true;
}

static bool spaced(struct cursor *c, uint32_t *value) { return take(c, ' ') && number(c, value); }

static bool label(struct cursor *c, struct label *l) {
    const uint8_t *p = c->at, *end = c->end;
    unsigned n = 0;
    if (end - p < 2 || p[0] != ' ' || p[1] != '"')
        return false;
    p += 2;
    memset(l->bytes, 0, 16);
    for (;; p++) {
        if (p == end)
            return false;
        uint8_t b = *p;
        if (b == '"')
            break;
        if (b == '\\') {
            if (++p == end || (*p != '"' && *p != '\\'))
                return false;
            b = *p;
        } else if (b < 32 || b > 126) {
            return false;
        }
        if (n == 16)
            return false;
        l->bytes[n++] = b;
    }
    if (n == 0)
        return false;
    l->len = (uint8_t)n;
    c->at = p + 1;
    return true;
}

static bool same(const struct label *a, const struct label *b) { return a->len == b->len && memcmp(a->bytes, b->bytes, 16) == 0; }

static bool within(uint32_t v, uint32_t least, uint32_t most) { return least <= v && v <= most; }

/* The rules of one line, in their order; 0 where it is taken. */

static unsigned source_line(struct cursor *c, struct hour *h, uint8_t letter) {
    struct source x = {0};
    bool in_range;
    if (letter == 'U') {
        uint32_t *level[6] = {&x.g, &x.h, &x.n, &x.o, &x.e, &x.k};
        x.kind = UNIT;
        in_range = true;
        for (int i = 0; i < 6; i++) {
            if (!spaced(c, level[i]))
                return 2;
            in_range &= within(*level[i], 1, 2000);
        }
        if (!spaced(c, &x.a) || !spaced(c, &x.b) || !spaced(c, &x.c) || !spaced(c, &x.r))
            return 2;
        in_range &= x.a <= 999999 && x.b <= 99999 && x.c <= 99 && x.r <= 39996;
    } else if (letter == 'P') {
        x.kind = PURCHASE;
        if (!spaced(c, &x.g) || !spaced(c, &x.rate))
            return 2;
        in_range = x.g <= 2000 && x.rate <= 999999;
    } else {
        x.kind = FIXED;
        if (!spaced(c, &x.g))
            return 2;
        in_range = x.g <= 2000;
    }
    if (!label(c, &x.label) || !take(c, '\n') || h->deliveries || h->directs)
        return 2;
    if (!in_range)
        return 3;
    if (h->sources == 32)
        return 4;
    for (size_t i = 0; i < h->sources; i++)
        if (same(&h->source[i].label, &x.label))
            return 5;
    if (x.kind == UNIT && !(x.k <= x.e && x.e <= x.o && x.o <= x.n && x.n <= x.g && x.g <= x.h))
        return 6;
    h->source[h->sources++] = x;
    return 0;
}

static unsigned delivery_line(struct cursor *c, struct hour *h) {
    struct delivery x;
    if (!spaced(c, &x.sequence) || !spaced(c, &x.type) || !spaced(c, &x.block) || !spaced(c, &x.mwh) || !label(c, &x.label) ||
        !take(c, '\n') || h->directs)
        return 2;
    if (x.sequence > 99 || !within(x.type, 1, 9) || !within(x.block, 1, 9) || x.mwh > 2000)
        return 3;
    if (h->deliveries == 32)
        return 4;
    for (size_t i = 0; i < h->deliveries; i++)
        if (same(&h->delivery[i].label, &x.label))
            return 5;
    h->delivery[h->deliveries++] = x;
    return 0;
}

static unsigned direct_line(struct cursor *c, struct hour *h) {
    struct direct x = {0};
    struct label unit, delivery;
    if (!take(c, ' '))
        return 2;
    if (take(c, 'L'))
        x.basis = LOW;
    else if (take(c, 'G'))
        x.basis = GENERATION;
    else {
        x.basis = MWH;
        if (!number(c, &x.mwh))
            return 2;
    }
    if (!spaced(c, &x.percent) || !label(c, &unit) || !label(c, &delivery) || !take(c, '\n'))
        return 2;
    if ((x.basis == MWH && !within(x.mwh, 1, 1999)) || !within(x.percent, 1, 100))
        return 3;
    if (h->directs == 32)
        return 4;
    size_t i = 0, j = 0;
    while (i < h->sources && !(h->source[i].kind == UNIT && same(&h->source[i].label, &unit)))
        i++;
    while (j < h->deliveries && !same(&h->delivery[j].label, &delivery))
        j++;
    if (i == h->sources || j == h->deliveries)
        return 7;
    uint32_t percents = x.percent;
    bool kept = true;
    for (size_t k = 0; k < h->directs; k++)
        if (h->direct[k].source == i) {
            percents += h->direct[k].percent;
            kept &= h->direct[k].basis == x.basis && h->direct[k].mwh == x.mwh;
        }
    if (!kept || (x.basis == MWH && x.mwh >= h->source[i].h))
        return 8;
    if (percents > 100)
        return 9;
    x.source = i;
    x.delivery = j;
    h->direct[h->directs++] = x;
    return 0;
}

struct refusal finished(const struct hour *h) {
    uint32_t generation = 0, drawn = h->losses;
    bool placed = false;
    size_t unplaced = 32;
    for (size_t i = 0; i < h->sources; i++)
        generation += h->source[i].g;
    for (size_t j = 0; j < h->deliveries; j++) {
        drawn += h->delivery[j].mwh;
        if (h->delivery[j].sequence)
            placed = true;
        else if (unplaced == 32)
            unplaced = j;
    }
    if (drawn > generation)
        return (struct refusal){10, 0};
    if (unplaced != 32 && !placed)
        return (struct refusal){11, (uint32_t)(h->sources + 2 + unplaced)};
    return (struct refusal){0, 0};
}

struct refusal read_plainly(const uint8_t *s, size_t n, struct hour *h) {
    struct cursor c = {s, s + n};
    if (n > 8192)
        return (struct refusal){1, 0};
    h->sources = h->deliveries = h->directs = 0;
    if (!take(&c, 'H') || !spaced(&c, &h->losses) || !take(&c, '\n'))
        return (struct refusal){2, 1};
    if (h->losses > 64000)
        return (struct refusal){3, 1};
    for (uint32_t line = 2;; line++) {
        unsigned wrong = 2;
        uint8_t letter = c.at == c.end ? 0 : *c.at++;
        if (letter == 'U' || letter == 'P' || letter == 'F')
            wrong = source_line(&c, h, letter);
        else if (letter == 'T')
            wrong = delivery_line(&c, h);
        else if (letter == 'D')
            wrong = direct_line(&c, h);
        else if (letter == 'E' && take(&c, '\n')) {
            if (c.at == c.end)
                return finished(h);
            return (struct refusal){2, line + 1};
        }
        if (wrong)
            return (struct refusal){wrong, line};
    }
}
