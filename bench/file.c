/* The spreadsheet file of document 02 in direct C, over the plain reader and the plain reconstruction by price; and its reader: the records are
   judged and the lines' bytes counted in one pass, the lines written in a second. */
#include "file.h"

#include "hour.h"
#include "page.h"

#include <string.h>

static uint64_t code(uint32_t number, uint64_t place) { return ((uint64_t)number << 32) + place; }

/* Writing. */

static void put_label_field(struct page *p, const struct label *l) {
    put_byte(p, '"');
    for (int i = 0; i < l->len; i++) {
        if (l->bytes[i] == '"') put_byte(p, '"');
        put_byte(p, (char)l->bytes[i]);
    }
    put_byte(p, '"');
}

/* The fields n1 to n4 with a comma before each, and the record's end. */
static void put_amount_fields(struct page *p, const int64_t *amounts, int n) {
    for (int i = 0; i < 4; i++) {
        put_byte(p, ',');
        if (i < n) put_number(p, amounts[i]);
    }
    put_word(p, "\r\n");
}

static void put_file(struct page *p, const struct hour *h, const int64_t *cells) {
    uint32_t number[32];
    int64_t generation = 0, delivered = 0;
    number_plainly(h, number);
    for (size_t i = 0; i < h->sources; i++) generation += h->source[i].g;
    for (size_t j = 0; j < h->deliveries; j++) delivered += h->delivery[j].mwh;
    put_word(p, FILE_HEADER "hour,,,");
    put_amount_fields(p, (int64_t[]){generation, h->losses, delivered, generation - h->losses - delivered}, 4);
    for (size_t j = 0; j < h->deliveries; j++)
        for (size_t i = 0; i < h->sources; i++, cells += 4) {
            put_word(p, "delivery,");
            put_label_field(p, &h->delivery[j].label);
            put_byte(p, ',');
            put_number(p, number[j]);
            put_byte(p, ',');
            put_label_field(p, &h->source[i].label);
            put_amount_fields(p, (int64_t[]){cells[0], cells[1], cells[2] + cells[3]}, 3);
        }
    for (size_t i = 0; i < h->sources; i++, cells += 2) {
        put_word(p, "internal,,,");
        put_label_field(p, &h->source[i].label);
        put_amount_fields(p, cells, 2);
    }
    put_word(p, "end,,,,,,,\r\n");
}

uint64_t file_plainly(const uint8_t *deck, size_t n, uint8_t *out, size_t room) {
    struct hour h = {0};
    int64_t cells[MOST_CELLS];
    struct refusal r = read_plainly(deck, n, &h);
    if (!r.number) r = rebuild_plainly(&h, cells, MOST_CELLS, 1);
    if (r.number) return code(r.number, r.place);
    struct page p = {out, 0};
    if (room >= MOST_FILE) {
        put_file(&p, &h, cells);
        return p.size;
    }
    uint8_t aside[MOST_FILE];
    p.text = aside;
    put_file(&p, &h, cells);
    if (p.size > room) return code(14, 0);
    memcpy(out, aside, p.size);
    return p.size;
}

/* Reading. */

enum record_kind { HOUR, DELIVERY, INTERNAL, END };

struct record {
    enum record_kind kind;
    struct label delivery, source;
    int64_t number, amounts[4];
};

/* What is still to be read. */
struct rest {
    const uint8_t *at, *end;
};

static int take_word(struct rest *t, const char *word) {
    size_t n = strlen(word);
    if ((size_t)(t->end - t->at) < n || memcmp(t->at, word, n)) return 0;
    t->at += n;
    return 1;
}

static int take_label(struct rest *t, struct label *l) {
    if (!take_word(t, "\"")) return 0;
    for (l->len = 0;; l->len++) {
        if (t->at == t->end) return 0;
        uint8_t c = *t->at++;
        if (c == '"' && !take_word(t, "\"")) return l->len > 0;
        if (c < 32 || c > 126 || l->len == 16) return 0;
        l->bytes[l->len] = c;
    }
}

static int take_number(struct rest *t, int64_t *value) {
    int negative = take_word(t, "-"), digits = 0;
    uint64_t v = 0, most = (uint64_t)INT64_MAX + (uint64_t)negative;
    const uint8_t *first = t->at;
    for (; t->at < t->end && *t->at >= '0' && *t->at <= '9'; t->at++, digits++) {
        uint64_t d = (uint64_t)(*t->at - '0');
        if (v > (most - d) / 10) return 0;
        v = v * 10 + d;
    }
    if (!digits || (*first == '0' && (digits > 1 || negative))) return 0;
    *value = negative ? (int64_t)-v : (int64_t)v;
    return 1;
}

static int take_amounts(struct rest *t, int64_t *amounts, int n) {
    for (int i = 0; i < n; i++)
        if (!take_word(t, ",") || !take_number(t, &amounts[i])) return 0;
    return 1;
}

static int take_record(struct rest *t, struct record *r) {
    if (take_word(t, "hour,,,")) {
        r->kind = HOUR;
        return take_amounts(t, r->amounts, 4) && take_word(t, "\r\n");
    }
    if (take_word(t, "delivery,")) {
        r->kind = DELIVERY;
        return take_label(t, &r->delivery) && take_amounts(t, &r->number, 1) && take_word(t, ",") && take_label(t, &r->source) &&
               take_amounts(t, r->amounts, 3) && take_word(t, ",\r\n");
    }
    if (take_word(t, "internal,,,")) {
        r->kind = INTERNAL;
        return take_label(t, &r->source) && take_amounts(t, r->amounts, 2) && take_word(t, ",,\r\n");
    }
    r->kind = END;
    return take_word(t, "end,,,,,,,\r\n");
}

static void put_line(struct page *p, const struct record *r) {
    switch (r->kind) {
    case HOUR:
        put_word(p, "hour");
        put_numbers(p, r->amounts, 4);
        return;
    case DELIVERY:
        put_label(p, &r->delivery);
        put_byte(p, ' ');
        put_number(p, r->number);
        put_byte(p, ' ');
        put_label(p, &r->source);
        put_numbers(p, r->amounts, 3);
        return;
    case INTERNAL:
        put_word(p, "internal ");
        put_label(p, &r->source);
        put_numbers(p, r->amounts, 2);
        return;
    case END: put_word(p, "end\n");
    }
}

static size_t label_length(const struct label *l) {
    size_t n = 2;
    for (int i = 0; i < l->len; i++) n += l->bytes[i] == '"' || l->bytes[i] == '\\' ? 2 : 1;
    return n;
}

/* Numbers with a space before each, and the line's end. */
static size_t numbers_length(const int64_t *numbers, int n) {
    size_t size = 1;
    for (int i = 0; i < n; i++) {
        uint64_t v = numbers[i] < 0 ? -(uint64_t)numbers[i] : (uint64_t)numbers[i];
        size += numbers[i] < 0 ? 3 : 2;
        while (v /= 10) size++;
    }
    return size;
}

static size_t line_length(const struct record *r) {
    switch (r->kind) {
    case HOUR: return 4 + numbers_length(r->amounts, 4);
    case DELIVERY: return label_length(&r->delivery) + numbers_length(&r->number, 1) + label_length(&r->source) + numbers_length(r->amounts, 3);
    case INTERNAL: return 9 + label_length(&r->source) + numbers_length(r->amounts, 2);
    default: return 4;
    }
}

/* Whether a record may follow the one before it; the header stands before the hour. */
static int may_follow(enum record_kind kind, int first, enum record_kind before) {
    if (kind == HOUR) return first;
    if (first) return 0;
    return kind != DELIVERY || before != INTERNAL;
}

uint64_t lines_plainly(const uint8_t *file, size_t n, uint8_t *out, size_t room) {
    struct rest t = {file, file + n};
    struct record r;
    struct page p = {out, 0};
    size_t size = 0;
    uint64_t place = 2;
    enum record_kind before = END;
    if (!take_word(&t, FILE_HEADER)) return code(16, 1);
    for (;; place++) {
        if (!take_record(&t, &r) || !may_follow(r.kind, place == 2, before)) return code(16, place);
        size += line_length(&r);
        before = r.kind;
        if (r.kind == END) break;
    }
    if (t.at != t.end) return code(16, place + 1);
    if (size > room) return code(14, 0);
    t.at = file + strlen(FILE_HEADER);
    while (t.at != t.end) {
        take_record(&t, &r);
        put_line(&p, &r);
    }
    return p.size;
}
