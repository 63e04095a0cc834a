/* calls COUNT DECKS CELLS DECKS-ANEW FILES: every deck of the COUNT frames in DECKS through the proved calls, held against what the second program
   gave for the same frames: the hour's cells by both reconstructions (CELLS), and the deck and the spreadsheet file written from the hour that was read
   (DECKS-ANEW, FILES). Each call is made on buffers longer than, as long as and shorter than its answer, or than the cells that an hour refused with 12
   or 13 would have, and on an empty one; every 50th hour record, of accepted hours and of those, is spoiled in one field after another. All memory lent
   to a call is looked at after it. */
#define PROGRAM "calls"
#include "frames.h"

uint64_t trial_cells(const uint8_t *deck, size_t n, bool by_price, int64_t *out, size_t cells);
uint64_t trial_written(const uint8_t *deck, size_t n, uint8_t *out, size_t bytes);
uint64_t trial_spreadsheet(const uint8_t *deck, size_t n, uint8_t *out, size_t bytes);
uint64_t trial_spoiled(const uint8_t *deck, size_t n, size_t field, size_t at, bool by_price, int64_t *out, size_t cells);
uint64_t trial_spoiled_written(const uint8_t *deck, size_t n, size_t field, size_t at, uint8_t *out, size_t bytes);
uint64_t trial_spoiled_spreadsheet(const uint8_t *deck, size_t n, size_t field, size_t at, uint8_t *out, size_t bytes);

enum { CELLS = 4160, ROOM = 8200, FILE_ROOM = 147456 + 8, FIELDS = 27, ENTRIES = 32 };

static const uint64_t SHORT = REFUSAL(14, 0), NO_DECK = REFUSAL(15, 0);

/* By the plain rule, by price, written anew, or as a spreadsheet file. */
enum call { PLAIN, PRICE, WRITTEN, FILED };

static const char *const NAMES[] = {"by the plain rule", "by price", "written anew", "as a spreadsheet file"};

/* Memory that is lent, and its marks: what stands there before each call. */
static int64_t cells[ROOM], cell_marks[ROOM];
static uint8_t bytes[FILE_ROOM], byte_marks[FILE_ROOM];

static const struct lent {
    void *memory;
    const void *marks;
    size_t width, room;
} LENT[] = {{cells, cell_marks, 8, ROOM}, {cells, cell_marks, 8, ROOM}, {bytes, byte_marks, 1, ROOM}, {bytes, byte_marks, 1, FILE_ROOM}};

static void make_marks(void) {
    for (size_t i = 0; i < ROOM; i++) cell_marks[i] = (int64_t)(i * 2654435761u) - 77;
    for (size_t i = 0; i < FILE_ROOM; i++) byte_marks[i] = (uint8_t)(i * 31 + 7);
}

static void mark(enum call what) { memcpy(LENT[what].memory, LENT[what].marks, LENT[what].room * LENT[what].width); }

static void kept(enum call what, size_t from) {
    const struct lent *l = &LENT[what];
    size_t skip = from * l->width;
    if (memcmp((char *)l->memory + skip, (const char *)l->marks + skip, l->room * l->width - skip)) wrong("lent memory changed that must stay");
}

static uint64_t answered(enum call what, struct part deck, size_t room) {
    if (what == FILED) return trial_spreadsheet(deck.bytes, deck.size, bytes, room);
    if (what == WRITTEN) return trial_written(deck.bytes, deck.size, bytes, room);
    return trial_cells(deck.bytes, deck.size, what == PRICE, cells, room);
}

/* One call on a buffer of so much room: 14 where it is too short for the count, else the refusal, or that many cells or bytes. A deck that is
   refused in reading has the count 0, and so has an hour without a file: its refusal comes before 14. */
static void call(enum call what, struct part deck, size_t room, uint64_t refused, const void *answer, size_t count) {
    mark(what);
    if (answered(what, deck, room) != (room < count ? SHORT : refused ? refused : count)) wrong(NAMES[what]);
    size_t written = refused || room < count ? 0 : count;
    if (memcmp(LENT[what].memory, answer, written * LENT[what].width)) wrong(NAMES[what]);
    kept(what, written);
}

/* The same on buffers of several lengths. */
static void calls(enum call what, struct part deck, uint64_t refused, const void *answer, size_t count) {
    call(what, deck, LENT[what].room, refused, answer, count);
    call(what, deck, count, refused, answer, count);
    call(what, deck, count + 1, refused, answer, count);
    call(what, deck, count / 2, refused, answer, count);
    call(what, deck, 0, refused, answer, count);
    if (count) call(what, deck, count - 1, refused, answer, count);
}

static uint64_t spoiled(enum call what, struct part deck, size_t field, size_t at, size_t room) {
    if (what == FILED) return trial_spoiled_spreadsheet(deck.bytes, deck.size, field, at, bytes, room);
    if (what == WRITTEN) return trial_spoiled_written(deck.bytes, deck.size, field, at, bytes, room);
    return trial_spoiled(deck.bytes, deck.size, field, at, what == PRICE, cells, room);
}

/* A record spoiled in one field answers 15, be the buffer long enough for the record as it was, one short or empty. */
static void spoil_field(struct part deck, size_t field, size_t at, const size_t *counts) {
    for (enum call what = PLAIN; what <= FILED; what++) {
        const size_t rooms[] = {LENT[what].room, counts[what] ? counts[what] - 1 : 0, 0};
        mark(what);
        for (size_t i = 0; i < sizeof rooms / sizeof *rooms; i++)
            if (spoiled(what, deck, field, at, rooms[i]) != NO_DECK) wrong("a spoiled record was not refused");
        kept(what, 0);
    }
}

static size_t spoil(struct part deck, const size_t *counts) {
    size_t records = 0;
    for (size_t field = 0; field < FIELDS; field++)
        for (size_t at = 0; at < ENTRIES; at += ENTRIES - 1, records++) spoil_field(deck, field, at, counts);
    return records;
}

/* How many cells the hour of a deck that is read has, counted from its lines. */
static size_t cells_of(struct part deck) {
    size_t sources = 0, deliveries = 0;
    for (size_t i = 0; i < deck.size; i++) {
        if (i && deck.bytes[i - 1] != '\n') continue;
        sources += deck.bytes[i] == 'U' || deck.bytes[i] == 'P' || deck.bytes[i] == 'F';
        deliveries += deck.bytes[i] == 'T';
    }
    return deliveries * sources * 4 + sources * 2;
}

/* The numbers of an answer, one a line. */
static size_t numbers(struct part p, int64_t *xs) {
    size_t count = 0;
    for (const char *s = (const char *)p.bytes, *end = s + p.size; s < end; count++) {
        if (count == CELLS) wrong("an answer of too many cells");
        char *after;
        xs[count] = strtoll(s, &after, 10);
        s = after + 1;
    }
    return count;
}

int main(int argc, char **argv) {
    if (argc != 6) return 2;
    struct text decks = whole(argv[2]), hours = whole(argv[3]), anew = whole(argv[4]), files = whole(argv[5]);
    struct part deck, hour, again, file;
    size_t unread = 0, accepted = 0, late = 0, full = 0, records = 0;
    make_marks();
    for (frame = 1; next(&decks, "deck ", &deck); frame++) {
        static int64_t right[CELLS];
        if (!next(&hours, "cells ", &hour) || !next(&anew, "rewritten ", &again)) wrong("no answer");
        if (!next(&files, stands(&files, "report ") ? "report " : "spreadsheet ", &file)) wrong("no answer");
        uint64_t refused = refusal(hour), in_reading = refusal(again), number = refused >> 32;
        if (in_reading ? in_reading != refused : refused && number != 12 && number != 13) wrong("refused in two ways");
        if (refusal(file) != refused) wrong("refused in two ways");
        size_t count = in_reading ? 0 : cells_of(deck);
        if (!refused && numbers(hour, right) != count) wrong("another number of cells than the lines have");
        const size_t counts[] = {count, count, in_reading ? 0 : again.size, refused ? 0 : file.size};
        calls(PLAIN, deck, refused, right, count);
        calls(PRICE, deck, refused, right, count);
        calls(WRITTEN, deck, in_reading, again.bytes, counts[WRITTEN]);
        calls(FILED, deck, refused, file.bytes, counts[FILED]);
        unread += in_reading != 0;
        if (in_reading) continue;
        full += !refused && count == CELLS;
        if ((refused ? late++ : accepted++) % 50 == 0) records += spoil(deck, counts);
    }
    frame--;
    if (next(&hours, "cells ", &hour) || next(&anew, "rewritten ", &again) || next(&files, "spreadsheet ", &file)) wrong("an answer too many");
    if (frame != strtoull(argv[1], NULL, 10)) wrong("the last, and more or fewer were asked for");
    if (!unread || !accepted || !late) wrong("the last, and no deck was accepted, or none refused in reading, or none with 12 or 13");
    printf("calls: %zu decks as by the second program: %zu refused in reading, %zu with 12 or 13, %zu hours cell by cell and file by file; %zu of 32 by 32; %zu spoiled records refused\n",
           frame, unread, late, accepted, full, records);
    return 0;
}
