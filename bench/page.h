/* Text in plain C, byte after byte, into a buffer that holds all of it: what reports and the lines of files are made of. */
#ifndef BENCH_PAGE_H
#define BENCH_PAGE_H

#include "deck.h"

/* What is written so far. */
struct page {
    uint8_t *text;
    size_t size;
};

static void put_byte(struct page *p, char c) { p->text[p->size++] = (uint8_t)c; }

static void put_word(struct page *p, const char *word) {
    while (*word) put_byte(p, *word++);
}

static void put_number(struct page *p, int64_t value) {
    char digits[20];
    int n = 0;
    uint64_t v = value < 0 ? -(uint64_t)value : (uint64_t)value;
    if (value < 0) put_byte(p, '-');
    do digits[n++] = (char)('0' + v % 10);
    while (v /= 10);
    while (n) put_byte(p, digits[--n]);
}

/* Numbers with a space before each, and the line's end. */
static void put_numbers(struct page *p, const int64_t *numbers, int n) {
    for (int i = 0; i < n; i++) {
        put_byte(p, ' ');
        put_number(p, numbers[i]);
    }
    put_byte(p, '\n');
}

static void put_label(struct page *p, const struct label *l) {
    put_byte(p, '"');
    for (int i = 0; i < l->len; i++) {
        if (l->bytes[i] == '"' || l->bytes[i] == '\\') put_byte(p, '\\');
        put_byte(p, (char)l->bytes[i]);
    }
    put_byte(p, '"');
}

#endif
