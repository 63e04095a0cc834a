/* The spreadsheet file of document 02 for speed. Written: what records have in common is made once and copied. Read: a number of the right form is
   its own text, so none is reckoned; a file's last LF ends every field, so no field looks for the file's end; and a line's length is its record's
   with a few bytes less and one more for each backslash. */
#include "file.h"

#include "digits.h"
#include "hour.h"

static uint64_t code(uint32_t number, uint64_t place) { return ((uint64_t)number << 32) + place; }

/* Writing. */

/* A piece of a record, made once and copied many times. Copies have a fixed size and pass the piece's end;
   what follows is written over them. */
enum { PIECE = 64 };

struct piece {
    uint8_t text[PIECE];
    uint8_t len, label; /* the whole; the label and the comma after it */
};

static uint8_t *put_label_field(uint8_t *p, const struct label *l) {
    *p++ = '"';
    for (int i = 0; i < l->len; i++) {
        if (l->bytes[i] == '"') *p++ = '"';
        *p++ = l->bytes[i];
    }
    *p++ = '"';
    *p++ = ',';
    return p;
}

static uint8_t *put_first(const struct hour *h, uint8_t *p) {
    uint32_t generation = 0, delivered = 0;
    for (size_t i = 0; i < h->sources; i++)
        generation += h->source[i].g;
    for (size_t j = 0; j < h->deliveries; j++)
        delivered += h->delivery[j].mwh;
    p = put_text(p, FILE_HEADER "hour,,,,", sizeof FILE_HEADER - 1 + 8);
    p = put_number(p, generation);
    *p++ = ',';
    p = put_number(p, h->losses);
    *p++ = ',';
    p = put_number(p, delivered);
    *p++ = ',';
    p = put_number(p, generation - h->losses - delivered);
    return put_text(p, "\r\n", 2);
}

static uint8_t *put_file(const struct hour *h, const int64_t *cells, const struct piece *source, const struct piece *delivery, uint8_t *p) {
    p = put_first(h, p);
    /* The last pairs are copied to the byte, so that nothing past the file is touched. */
    size_t left = h->deliveries * h->sources;
    for (size_t j = 0; j < h->deliveries; j++)
        for (size_t i = 0; i < h->sources; i++, cells += 4, left--) {
            const struct piece *d = &delivery[j], *s = &source[i];
            bool nothing = (cells[0] | cells[1] | cells[2] | cells[3]) == 0;
            size_t n = nothing ? s->len : s->label;
            if (left > 4) {
                memcpy(p, d->text, PIECE);
                p += d->len;
                memcpy(p, s->text, PIECE);
            } else {
                memcpy(p, d->text, d->len);
                p += d->len;
                memcpy(p, s->text, n);
            }
            p += n;
            if (nothing)
                continue;
            p = put_number(p, cells[0]);
            *p++ = ',';
            p = put_number(p, cells[1]);
            *p++ = ',';
            p = put_number(p, cells[2] + cells[3]);
            p = put_text(p, ",\r\n", 3);
        }
    for (size_t i = 0; i < h->sources; i++, cells += 2) {
        p = put_text(p, "internal,,,", 11);
        memcpy(p, source[i].text, source[i].label);
        p += source[i].label;
        p = put_number(p, cells[0]);
        *p++ = ',';
        p = put_number(p, cells[1]);
        p = put_text(p, ",,\r\n", 4);
    }
    return put_text(p, "end,,,,,,,\r\n", 12);
}

/* For a room that may be too small: written aside first. */
static uint64_t write_aside(const struct hour *h, const int64_t *cells, const struct piece *source, const struct piece *delivery, uint8_t *out, size_t room) {
    uint8_t aside[MOST_FILE];
    size_t n = (size_t)(put_file(h, cells, source, delivery, aside) - aside);
    if (n > room)
        return code(14, 0);
    memcpy(out, aside, n);
    return n;
}

uint64_t file_of(const uint8_t *deck, size_t n, uint8_t *out, size_t room) {
    struct hour h;
    int64_t cells[MOST_CELLS];
    struct refusal r = read_deck(deck, n, &h);
    if (!r.number)
        r = reconstruct_read(&h, cells, 1);
    if (r.number)
        return code(r.number, r.place);
    struct piece source[32], delivery[32];
    uint32_t number[32];
    size_t most = 128, names = 0;
    number_deliveries(&h, number);
    for (size_t i = 0; i < h.sources; i++) {
        struct piece *x = &source[i];
        x->label = (uint8_t)(put_label_field(x->text, &h.source[i].label) - x->text);
        x->len = (uint8_t)(put_text(x->text + x->label, "0,0,0,\r\n", 8) - x->text);
        names += x->label;
    }
    for (size_t j = 0; j < h.deliveries; j++) {
        struct piece *x = &delivery[j];
        uint8_t *p = put_label_field(put_text(x->text, "delivery,", 9), &h.delivery[j].label);
        p = put_number(p, number[j]);
        *p++ = ',';
        x->len = (uint8_t)(p - x->text);
        most += x->len * h.sources;
    }
    /* Beside the labels a pair has at most 4 + 1 + 5 + 1 + 15 + 3 bytes, an open record 11 + 4 + 1 + 14 + 4. */
    most += names * (h.deliveries + 1) + h.deliveries * h.sources * 29 + h.sources * 34;
    if (room < most)
        return write_aside(&h, cells, source, delivery, out, room);
    return (size_t)(put_file(&h, cells, source, delivery, out) - out);
}

/* Reading: each field answers where it ends, or NULL where it is not of its form. */

static const uint8_t *skip_text(const uint8_t *p, const char *text) {
    while (*text)
        if (*p++ != (uint8_t)*text++)
            return NULL;
    return p;
}

/* From its first quote on; a backslash is counted. */
static const uint8_t *skip_label(const uint8_t *p, size_t *backslashes) {
    size_t n = 0;
    if (*p++ != '"')
        return NULL;
    for (;; n++) {
        uint8_t c = *p++;
        if (c == '"') {
            if (*p != '"')
                break;
            p++;
        } else if (c == '\\')
            ++*backslashes;
        else if ((uint8_t)(c - 32) > 94)
            return NULL;
    }
    return n - 1 < 16 ? p : NULL;
}

static const uint8_t *skip_number(const uint8_t *p) {
    bool negative = *p == '-';
    p += negative;
    if (*p == '0')
        return negative ? NULL : p + 1;
    const uint8_t *first = p;
    while ((uint8_t)(*p - '0') < 10)
        p++;
    size_t digits = (size_t)(p - first);
    if (digits - 1 < 18)
        return p;
    return digits == 19 && memcmp(first, negative ? "9223372036854775808" : "9223372036854775807", 19) <= 0 ? p : NULL;
}

/* So many numbers, a comma after each but the last. */
static const uint8_t *skip_numbers(const uint8_t *p, int n) {
    for (;;) {
        p = skip_number(p);
        if (--n == 0 || !p)
            return p;
        if (*p++ != ',')
            return NULL;
    }
}

static const uint8_t *skip_labelled(const uint8_t *p, size_t *backslashes, int numbers, const char *last) {
    p = skip_label(p, backslashes);
    if (!p || *p++ != ',')
        return NULL;
    p = skip_numbers(p, numbers);
    return p ? skip_text(p, last) : NULL;
}

static const uint8_t *skip_delivery(const uint8_t *p, size_t *backslashes) {
    p = skip_text(p, "delivery,");
    if (!p || !(p = skip_label(p, backslashes)) || *p++ != ',')
        return NULL;
    p = skip_number(p);
    if (!p || *p++ != ',')
        return NULL;
    return skip_labelled(p, backslashes, 3, ",\r\n");
}

/* The length of the lines of a file that ends in LF, or the refusal. */
static uint64_t judge(const uint8_t *file, size_t n) {
    const uint8_t *p = skip_text(file, FILE_HEADER), *end = file + n, *next;
    size_t backslashes = 0, size;
    uint64_t place;
    if (!p)
        return code(16, 1);
    if (p == end || !(next = skip_text(p, "hour,,,,")) || !(next = skip_numbers(next, 4)) || !(next = skip_text(next, "\r\n")))
        return code(16, 2);
    size = (size_t)(next - p) - 4;
    for (p = next, place = 3; p != end && *p == 'd'; p = next, place++) {
        if (!(next = skip_delivery(p, &backslashes)))
            return code(16, place);
        size += (size_t)(next - p) - 11;
    }
    for (; p != end && *p == 'i'; p = next, place++) {
        if (!(next = skip_text(p, "internal,,,")) || !(next = skip_labelled(next, &backslashes, 2, ",,\r\n")))
            return code(16, place);
        size += (size_t)(next - p) - 5;
    }
    if (p == end || !(p = skip_text(p, "end,,,,,,,\r\n")))
        return code(16, place);
    return p == end ? size + backslashes + 4 : code(16, place + 1);
}

/* A label with the report's escapes: each quote that was doubled and each backslash has a backslash before it. */
static uint8_t *copy_label(uint8_t *out, const uint8_t **from) {
    const uint8_t *p = *from + 1;
    *out++ = '"';
    for (;;) {
        uint8_t c = *p++;
        if (c == '"') {
            if (*p != '"')
                break;
            p++;
            *out++ = '\\';
        } else if (c == '\\')
            *out++ = '\\';
        *out++ = c;
    }
    *out++ = '"';
    *from = p;
    return out;
}

/* So many numbers, each after a comma, which becomes a space. */
static uint8_t *copy_numbers(uint8_t *out, const uint8_t **from, int n) {
    const uint8_t *p = *from;
    while (n--) {
        *out++ = ' ';
        for (p++; *p > ','; p++)
            *out++ = *p;
    }
    *from = p;
    return out;
}

/* The lines of a file that is accepted, from its hour on. */
static void copy_lines(const uint8_t *p, uint8_t *out) {
    p += 7;
    out = copy_numbers(put_text(out, "hour", 4), &p, 4);
    *out++ = '\n';
    p += 2;
    while (*p == 'd') {
        p += 9;
        out = copy_label(out, &p);
        out = copy_numbers(out, &p, 1);
        *out++ = ' ';
        p++;
        out = copy_label(out, &p);
        out = copy_numbers(out, &p, 3);
        *out++ = '\n';
        p += 3;
    }
    while (*p == 'i') {
        p += 11;
        out = copy_label(put_text(out, "internal ", 9), &p);
        out = copy_numbers(out, &p, 2);
        *out++ = '\n';
        p += 4;
    }
    put_text(out, "end\n", 4);
}

uint64_t lines_of(const uint8_t *file, size_t n, uint8_t *out, size_t room) {
    /* Without a last LF a file is refused in any case, and the plain reader says where. */
    if (!n || file[n - 1] != '\n')
        return lines_plainly(file, n, out, room);
    uint64_t size = judge(file, n);
    if (size >> 32)
        return size;
    if (size > room)
        return code(14, 0);
    copy_lines(file + sizeof FILE_HEADER - 1, out);
    return size;
}
