/* The report of document 01 in direct C, over the plain reader and the plain reconstruction by price: line after line, digit after digit. */
#include "report.h"

#include "hour.h"
#include "page.h"

#include <string.h>

static void put_header(struct page *p, const struct hour *h) {
    int64_t generation = 0, delivered = 0;
    for (size_t i = 0; i < h->sources; i++) generation += h->source[i].g;
    for (size_t j = 0; j < h->deliveries; j++) delivered += h->delivery[j].mwh;
    put_word(p, "hour");
    put_numbers(p, (int64_t[]){generation, h->losses, delivered, generation - h->losses - delivered}, 4);
}

static void put_hour(struct page *p, const struct hour *h, const int64_t *cells) {
    uint32_t number[32];
    number_plainly(h, number);
    put_header(p, h);
    for (size_t j = 0; j < h->deliveries; j++)
        for (size_t i = 0; i < h->sources; i++, cells += 4) {
            put_label(p, &h->delivery[j].label);
            put_byte(p, ' ');
            put_number(p, number[j]);
            put_byte(p, ' ');
            put_label(p, &h->source[i].label);
            put_numbers(p, (int64_t[]){cells[0], cells[1], cells[2] + cells[3]}, 3);
        }
    for (size_t i = 0; i < h->sources; i++, cells += 2) {
        put_word(p, "internal ");
        put_label(p, &h->source[i].label);
        put_numbers(p, cells, 2);
    }
    put_word(p, "end\n");
}

static void put_report(struct page *p, const uint8_t *deck, size_t n) {
    struct hour h = {0};
    int64_t cells[MOST_CELLS];
    struct refusal r = read_plainly(deck, n, &h);
    if (!r.number) r = rebuild_plainly(&h, cells, MOST_CELLS, 1);
    if (!r.number) {
        put_hour(p, &h, cells);
        return;
    }
    put_word(p, "refused");
    put_numbers(p, (int64_t[]){r.number, r.place}, 2);
}

size_t report_plainly(const uint8_t *deck, size_t n, uint8_t *out, size_t room) {
    struct page p = {out, 0};
    if (room >= MOST_REPORT) {
        put_report(&p, deck, n);
        return p.size;
    }
    uint8_t aside[MOST_REPORT];
    p.text = aside;
    put_report(&p, deck, n);
    if (p.size > room) return 0;
    memcpy(out, aside, p.size);
    return p.size;
}
