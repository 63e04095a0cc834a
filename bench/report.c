/* The report of document 01: read, reconstruct by price, print. */
#include "report.h"

#include "digits.h"
#include "hour.h"

/* A piece of a line, made once and copied many times. Copies have a fixed size and pass the piece's end;
   what follows is written over them. */
enum { PIECE = 48 };

struct piece {
    uint8_t text[PIECE];
    uint8_t len, label; /* the whole; the label and the space after it */
};

static size_t refused(struct refusal r, uint8_t *out, size_t room) {
    uint8_t line[32], *p = put_text(line, "refused ", 8);
    p = put_number(p, r.number);
    *p++ = ' ';
    p = put_number(p, r.place);
    *p++ = '\n';
    size_t n = (size_t)(p - line);
    if (n > room)
        return 0;
    memcpy(out, line, n);
    return n;
}

/* The label of an accepted line, quotes and escapes as they stand: from the first quote to the line's end. */
static const uint8_t *take_label(const uint8_t *line, const uint8_t *end, struct piece *x) {
    const uint8_t *quote = memchr(line, '"', (size_t)(end - line)), *lf = memchr(quote, '\n', (size_t)(end - quote));
    size_t n = (size_t)(lf - quote);
    memcpy(x->text, quote, n);
    x->text[n] = ' ';
    x->label = (uint8_t)(n + 1);
    return lf + 1;
}

static uint8_t *write_report(const struct hour *h, const int64_t *cells, const struct piece *source,
                             const struct piece *delivery, uint8_t *p) {
    uint32_t generation = 0, delivered = 0;
    for (size_t i = 0; i < h->sources; i++)
        generation += h->source[i].g;
    for (size_t j = 0; j < h->deliveries; j++)
        delivered += h->delivery[j].mwh;
    p = put_text(p, "hour ", 5);
    p = put_number(p, generation);
    *p++ = ' ';
    p = put_number(p, h->losses);
    *p++ = ' ';
    p = put_number(p, delivered);
    *p++ = ' ';
    p = put_number(p, generation - h->losses - delivered);
    *p++ = '\n';
    /* The last pairs are copied to the byte, so that nothing past the report is touched. */
    size_t left = h->deliveries * h->sources;
    for (size_t j = 0; j < h->deliveries; j++)
        for (size_t i = 0; i < h->sources; i++, cells += 4, left--) {
            const struct piece *d = &delivery[j], *s = &source[i];
            bool nothing = (cells[0] | cells[1] | cells[2] | cells[3]) == 0;
            size_t n = nothing ? s->len : s->label;
            if (left > 4) {
                memcpy(p, d->text, PIECE);
                p += d->len;
                memcpy(p, s->text, PIECE);
            } else {
                memcpy(p, d->text, d->len);
                p += d->len;
                memcpy(p, s->text, n);
            }
            p += n;
            if (nothing)
                continue;
            p = put_number(p, cells[0]);
            *p++ = ' ';
            p = put_number(p, cells[1]);
            *p++ = ' ';
            p = put_number(p, cells[2] + cells[3]);
            *p++ = '\n';
        }
    for (size_t i = 0; i < h->sources; i++, cells += 2) {
        p = put_text(p, "internal ", 9);
        memcpy(p, source[i].text, source[i].label);
        p += source[i].label;
        p = put_number(p, cells[0]);
        *p++ = ' ';
        p = put_number(p, cells[1]);
        *p++ = '\n';
    }
    return put_text(p, "end\n", 4);
}

/* For a room that may be too small: written aside first. */
static size_t write_aside(const struct hour *h, const int64_t *cells, const struct piece *source, const struct piece *delivery,
                          uint8_t *out, size_t room) {
    uint8_t aside[MOST_REPORT];
    size_t n = (size_t)(write_report(h, cells, source, delivery, aside) - aside);
    if (n > room)
        return 0;
    memcpy(out, aside, n);
    return n;
}

size_t report(const uint8_t *deck, size_t n, uint8_t *out, size_t room) {
    struct hour h;
    int64_t cells[MOST_CELLS];
    struct refusal r = read_deck(deck, n, &h);
    if (!r.number)
        r = reconstruct_read(&h, cells, 1);
    if (r.number)
        return refused(r, out, room);
    struct piece source[32], delivery[32];
    uint32_t number[32];
    const uint8_t *end = deck + n, *line = (const uint8_t *)memchr(deck, '\n', n) + 1;
    size_t most = 64, names = 0;
    number_deliveries(&h, number);
    for (size_t i = 0; i < h.sources; i++) {
        struct piece *x = &source[i];
        line = take_label(line, end, x);
        x->len = (uint8_t)(put_text(x->text + x->label, "0 0 0\n", 6) - x->text);
        names += x->label;
    }
    for (size_t j = 0; j < h.deliveries; j++) {
        struct piece *x = &delivery[j];
        line = take_label(line, end, x);
        uint8_t *p = put_number(x->text + x->label, number[j]);
        *p++ = ' ';
        x->len = (uint8_t)(p - x->text);
        most += x->len * h.sources;
    }
    /* Beside the labels a pair has at most 4 + 1 + 5 + 1 + 15 + 1 bytes, an open line 9 + 4 + 1 + 14 + 1. */
    most += names * (h.deliveries + 1) + h.deliveries * h.sources * 27 + h.sources * 29;
    if (room < most)
        return write_aside(&h, cells, source, delivery, out, room);
    return (size_t)(write_report(&h, cells, source, delivery, out) - out);
}
