/* The calls of include/barleyhood.h at their edges: null pointers, refusals, buffers too short and longer than the answer, labels that are there
   and that are not, one by one and all at once, spreadsheet files and what is none. */
#include <stdio.h>
#include <string.h>

#include "barleyhood.h"

static int wrong;

static void same(const char *what, uint64_t got, uint64_t must) {
    if (got == must) return;
    fprintf(stderr, "library: %s: %llx, not %llx\n", what, (unsigned long long)got, (unsigned long long)must);
    wrong = 1;
}

#define REFUSAL(number, place) (((uint64_t)(number) << 32) + (place))
#define DECK(text) (const uint8_t *)(text), strlen(text)
#define SOURCES "H 10\nU 100 120 40 30 20 20 50000 9000 10 10000 \"U1\"\nP 30 95000 \"a\\\"b\"\n"

/* Of a spreadsheet file: the first record and the last. */
#define HEADER "kind,delivery,number,source,n1,n2,n3,n4\r\n"
#define END "end,,,,,,,\r\n"

enum { ROOM = BARLEYHOOD_CELLS + 8 };
static int64_t price[ROOM], plain[ROOM];

static void fill(int64_t *cells) {
    for (int i = 0; i < ROOM; i++) cells[i] = -77 - i;
}

static void kept(const char *what, const int64_t *cells, int from) {
    for (int i = from; i < ROOM; i++) same(what, (uint64_t)cells[i], (uint64_t)(int64_t)(-77 - i));
}

/* Both reconstructions of a deck into a buffer of so many cells; past the count nothing may change. */
static void cells(const char *what, const char *deck, size_t lent, uint64_t must) {
    fill(price);
    fill(plain);
    same(what, barleyhood_price(DECK(deck), price, lent), must);
    same(what, barleyhood_plain(DECK(deck), plain, lent), must);
    int count = BARLEYHOOD_NUMBER(must) ? 0 : (int)must;
    kept(what, price, count);
    kept(what, plain, count);
    if (memcmp(price, plain, sizeof price)) same(what, 1, 0);
}

static void label(const char *what, const char *deck, uint64_t got, const char *must) {
    same(what, BARLEYHOOD_LENGTH(got), strlen(must));
    same(what, got != 0 && strncmp(deck + BARLEYHOOD_OFFSET(got), must, strlen(must)) == 0, 1);
    same(what, (uint8_t)deck[BARLEYHOOD_OFFSET(got) - 1], '"');
}

/* The places of all labels into so many numbers: each as the call for that label gives it, and past the count nothing may change. */
static void labels(const char *what, const char *deck, size_t lent, uint64_t must) {
    uint64_t places[BARLEYHOOD_LABELS + 8];
    const size_t room = sizeof places / sizeof *places;
    for (size_t i = 0; i < room; i++) places[i] = 77 + i;
    same(what, barleyhood_labels(DECK(deck), places, lent), must);
    const size_t count = BARLEYHOOD_NUMBER(must) ? 0 : (size_t)must, sources = count ? (size_t)barleyhood_sources(DECK(deck)) : 0;
    for (size_t i = 0; i < room; i++)
        same(what, places[i],
             i >= count    ? 77 + i
             : i < sources ? barleyhood_source_label(DECK(deck), i)
                           : barleyhood_delivery_label(DECK(deck), i - sources));
}

/* A deck of so many sources and deliveries. */
static const char *deck_of(int sources, int deliveries) {
    static char deck[BARLEYHOOD_DECK];
    int n = sprintf(deck, "H 0\n");
    for (int i = 0; i < sources; i++) n += sprintf(deck + n, "F %d \"S%d\"\n", i, i);
    for (int j = 0; j < deliveries; j++) n += sprintf(deck + n, "T 1 1 1 0 \"\\\"%d\"\n", j);
    sprintf(deck + n, "E\n");
    return deck;
}

/* Each makes a text of a text. */
typedef uint64_t text_call(const uint8_t *from, size_t length, uint8_t *text, size_t lent);

enum { TEXT = BARLEYHOOD_SPREADSHEET + 8 };
static uint8_t text[TEXT];

/* A text into so many bytes; past the count nothing may change. */
static void one_text(const char *what, text_call *made, const char *from, size_t lent, uint64_t must, const char *answer) {
    memset(text, 'x', TEXT);
    same(what, made(DECK(from), text, lent), must);
    const size_t count = BARLEYHOOD_NUMBER(must) ? 0 : (size_t)must;
    same(what, memcmp(text, answer, count) != 0, 0);
    for (size_t k = count; k < TEXT; k++) same(what, text[k], 'x');
}

/* A text into no byte, a buffer one byte short of it, just as long, and longer. */
static void texts(const char *what, text_call *made, const char *from, const char *must) {
    const size_t n = strlen(must);
    one_text(what, made, from, 0, REFUSAL(BARLEYHOOD_SHORT, 0), must);
    one_text(what, made, from, n - 1, REFUSAL(BARLEYHOOD_SHORT, 0), must);
    one_text(what, made, from, n, n, must);
    one_text(what, made, from, TEXT, n, must);
}

/* A text that is refused, before 14. */
static void no_text(const char *what, text_call *made, const char *from, uint64_t must) {
    one_text(what, made, from, TEXT, must, "");
    one_text(what, made, from, 1, must, "");
    one_text(what, made, from, 0, must, "");
}

static void nothing_lent(void) {
    const uint64_t empty = REFUSAL(BARLEYHOOD_FORM, 1);
    same("no deck, check", barleyhood_check(NULL, 0), empty);
    same("no deck, sources", barleyhood_sources(NULL, 0), empty);
    same("no deck, deliveries", barleyhood_deliveries(NULL, 0), empty);
    same("no deck, price", barleyhood_price(NULL, 0, NULL, 0), empty);
    same("no deck, plain", barleyhood_plain(NULL, 0, NULL, 0), empty);
    same("no deck, source label", barleyhood_source_label(NULL, 0, 0), 0);
    same("no deck, delivery label", barleyhood_delivery_label(NULL, 0, 0), 0);
    same("no deck, labels", barleyhood_labels(NULL, 0, NULL, 0), empty);
    same("no labels", barleyhood_labels(DECK("H 0\nE\n"), NULL, 0), 0);
    same("no numbers, labels", barleyhood_labels(DECK(SOURCES "E\n"), NULL, 0), REFUSAL(BARLEYHOOD_SHORT, 0));
    same("no deck, report", barleyhood_report(NULL, 0, NULL, 0), REFUSAL(BARLEYHOOD_SHORT, 0));
    same("no deck, file", barleyhood_spreadsheet(NULL, 0, NULL, 0), empty);
    same("no buffer, file", barleyhood_spreadsheet(DECK("H 0\nE\n"), NULL, 0), REFUSAL(BARLEYHOOD_SHORT, 0));
    same("no file", barleyhood_spreadsheet_lines(NULL, 0, NULL, 0), REFUSAL(BARLEYHOOD_FILE_RECORD, 1));
    same("no buffer, lines", barleyhood_spreadsheet_lines(DECK(HEADER "hour,,,,0,0,0,0\r\n" END), NULL, 0), REFUSAL(BARLEYHOOD_SHORT, 0));
    same("no cells to write, price", barleyhood_price(DECK("H 0\nE\n"), NULL, 0), 0);
    same("no cells to write, plain", barleyhood_plain(DECK("H 0\nE\n"), NULL, 0), 0);
    same("no buffer, price", barleyhood_price(DECK(SOURCES "E\n"), NULL, 0), REFUSAL(BARLEYHOOD_SHORT, 0));
    same("no buffer, plain", barleyhood_plain(DECK(SOURCES "E\n"), NULL, 0), REFUSAL(BARLEYHOOD_SHORT, 0));
}

static void refusals(void) {
    static uint8_t deck[BARLEYHOOD_DECK + 1];
    memset(deck, 'H', sizeof deck);
    same("8,192 bytes", barleyhood_check(deck, BARLEYHOOD_DECK), REFUSAL(BARLEYHOOD_FORM, 1));
    same("8,193 bytes", barleyhood_check(deck, BARLEYHOOD_DECK + 1), REFUSAL(BARLEYHOOD_TOO_LONG, 0));
    same("8,193 bytes, label", barleyhood_source_label(deck, BARLEYHOOD_DECK + 1, 0), 0);
    same("range", barleyhood_check(DECK("H 64001\nE\n")), REFUSAL(BARLEYHOOD_RANGE, 1));
    same("used", barleyhood_sources(DECK("H 0\nF 1 \"X\"\nF 1 \"X\"\nE\n")), REFUSAL(BARLEYHOOD_USED, 3));
    same("overdrawn", barleyhood_deliveries(DECK("H 1\nE\n")), REFUSAL(BARLEYHOOD_OVERDRAWN, 0));
    same("refused, label", barleyhood_source_label(DECK("H 9\nF 1 \"X\"\nE\n"), 0), 0);
    labels("refused, labels", "H 9\nF 1 \"X\"\nE\n", BARLEYHOOD_LABELS, REFUSAL(BARLEYHOOD_OVERDRAWN, 0));
    labels("refused before 14, labels", "H 9\nF 1 \"X\"\nE\n", 0, REFUSAL(BARLEYHOOD_OVERDRAWN, 0));
    cells("missing E", "H 0\n", ROOM, REFUSAL(BARLEYHOOD_FORM, 2));
    cells("headroom", SOURCES "T 30 1 1 9 \"X\"\nD 30 100 \"U1\" \"X\"\nE\n", ROOM, REFUSAL(BARLEYHOOD_NO_HEADROOM, 300));
}

static void refused_files(void) {
    static const struct {
        const char *what, *file;
        uint32_t record;
    } none[] = {
        {"no header", "hour,,,,0,0,0,0\r\n" END, 1},
        {"a header alone", HEADER, 2},
        {"a header that ends in LF", "kind,delivery,number,source,n1,n2,n3,n4\nhour,,,,0,0,0,0\r\n" END, 1},
        {"no hour", HEADER END, 2},
        {"two hours", HEADER "hour,,,,0,0,0,0\r\nhour,,,,0,0,0,0\r\n" END, 3},
        {"no end", HEADER "hour,,,,0,0,0,0\r\n", 3},
        {"an end cut off", HEADER "hour,,,,0,0,0,0\r\nend,,,,,,,\r", 3},
        {"a byte after the end", HEADER "hour,,,,0,0,0,0\r\n" END "\n", 4},
        {"a delivery after an internal", HEADER "hour,,,,0,0,0,0\r\ninternal,,,\"U\",0,0,,\r\ndelivery,\"X\",0,\"U\",0,0,0,\r\n" END, 4},
        {"a label without quotes", HEADER "hour,,,,0,0,0,0\r\ninternal,,,U,0,0,,\r\n" END, 3},
        {"a quote that is not doubled", HEADER "hour,,,,0,0,0,0\r\ninternal,,,\"a\"b\",0,0,,\r\n" END, 3},
        {"a leading zero", HEADER "hour,,,,0,0,0,00\r\n" END, 2},
        {"a number beyond 64 bits", HEADER "hour,,,,0,0,0,9223372036854775808\r\n" END, 2},
    };
    for (size_t i = 0; i < sizeof none / sizeof *none; i++)
        no_text(none[i].what, barleyhood_spreadsheet_lines, none[i].file, REFUSAL(BARLEYHOOD_FILE_RECORD, none[i].record));
    no_text("no file of an overdrawn deck", barleyhood_spreadsheet, "H 1\nE\n", REFUSAL(BARLEYHOOD_OVERDRAWN, 0));
    no_text("no file without headroom", barleyhood_spreadsheet, SOURCES "T 30 1 1 9 \"X\"\nD 30 100 \"U1\" \"X\"\nE\n", REFUSAL(BARLEYHOOD_NO_HEADROOM, 300));
}

static void files(const char *deck, const char *report) {
    const char *file = HEADER "hour,,,,130,10,80,40\r\n"
                              "delivery,\"X\",300,\"U1\",0,50,9750000000,\r\n"
                              "delivery,\"X\",300,\"a\"\"b\",0,10,1900000000,\r\n"
                              "delivery,\"X \",280,\"U1\",15,0,3245000000,\r\n"
                              "delivery,\"X \",280,\"a\"\"b\",0,5,950000000,\r\n"
                              "internal,,,\"U1\",35,7005000000,,\r\n"
                              "internal,,,\"a\"\"b\",15,2850000000,,\r\n" END;
    texts("the deck's file", barleyhood_spreadsheet, deck, file);
    texts("the file's lines", barleyhood_spreadsheet_lines, file, report);
    texts("a file of no labels", barleyhood_spreadsheet, "H 0\nE\n", HEADER "hour,,,,0,0,0,0\r\n" END);
    texts("labels with spaces, a comma, a backslash", barleyhood_spreadsheet, "H 0\nF 1 \" a,  \\\\ \"\nE\n",
          HEADER "hour,,,,1,0,0,1\r\ninternal,,,\" a,  \\ \",1,0,,\r\n" END);
    texts("lines of any numbers", barleyhood_spreadsheet_lines,
          HEADER "hour,,,,9223372036854775807,-9223372036854775808,0,-1\r\ndelivery,\"\\\",-7,\"\"\"\",0,0,0,\r\n" END,
          "hour 9223372036854775807 -9223372036854775808 0 -1\n\"\\\\\" -7 \"\\\"\" 0 0 0\nend\n");
}

static void answers(void) {
    const char *deck = SOURCES "T 30 1 1 60 \"X\"\nT 28 1 1 20 \"X \"\nD 30 50 \"U1\" \"X \"\nE\n";
    const char *report = "hour 130 10 80 40\n"
                         "\"X\" 300 \"U1\" 0 50 9750000000\n"
                         "\"X\" 300 \"a\\\"b\" 0 10 1900000000\n"
                         "\"X \" 280 \"U1\" 15 0 3245000000\n"
                         "\"X \" 280 \"a\\\"b\" 0 5 950000000\n"
                         "internal \"U1\" 35 7005000000\n"
                         "internal \"a\\\"b\" 15 2850000000\n"
                         "end\n";
    same("check", barleyhood_check(DECK(deck)), 0);
    same("sources", barleyhood_sources(DECK(deck)), 2);
    same("deliveries", barleyhood_deliveries(DECK(deck)), 2);
    cells("one cell short", deck, 19, REFUSAL(BARLEYHOOD_SHORT, 0));
    cells("just enough", deck, 20, 20);
    cells("more than enough", deck, ROOM, 20);
    same("incremental MWh", (uint64_t)price[BARLEYHOOD_PAIR(2, 0, 0) + 1], 50);
    same("direct cost", (uint64_t)price[BARLEYHOOD_PAIR(2, 1, 0) + 2], 3245000000);
    same("open cost", (uint64_t)price[BARLEYHOOD_OPEN(2, 2, 1) + 1], 2850000000);
    label("source 0", deck, barleyhood_source_label(DECK(deck), 0), "U1");
    label("source 1", deck, barleyhood_source_label(DECK(deck), 1), "a\\\"b");
    label("delivery 0", deck, barleyhood_delivery_label(DECK(deck), 0), "X");
    label("delivery 1", deck, barleyhood_delivery_label(DECK(deck), 1), "X ");
    same("no source 2", barleyhood_source_label(DECK(deck), 2), 0);
    same("no delivery 2", barleyhood_delivery_label(DECK(deck), 2), 0);
    same("no delivery 32", barleyhood_delivery_label(DECK(deck), 32), 0);
    same("no last source", barleyhood_source_label(DECK(deck), SIZE_MAX), 0);
    labels("one number short, labels", deck, 3, REFUSAL(BARLEYHOOD_SHORT, 0));
    labels("just enough, labels", deck, 4, 4);
    labels("more than enough, labels", deck, BARLEYHOOD_LABELS + 8, 4);
    labels("sources alone, labels", deck_of(3, 0), 3, 3);
    labels("one number short of all labels", deck_of(32, 32), BARLEYHOOD_LABELS - 1, REFUSAL(BARLEYHOOD_SHORT, 0));
    labels("all labels", deck_of(32, 32), BARLEYHOOD_LABELS, BARLEYHOOD_LABELS);
    texts("report", barleyhood_report, deck, report);
    texts("report of no deck", barleyhood_report, "", "refused 2 1\n");
    files(deck, report);
    cells("a credit", SOURCES "T 30 1 1 10 \"X\"\nD 30 100 \"U1\" \"X\"\nE\n", ROOM, 12);
    same("credited MWh", (uint64_t)price[1], (uint64_t)-20);
    same("credited cost", (uint64_t)price[3], (uint64_t)-4040000000);
}

int main(void) {
    nothing_lent();
    refusals();
    refused_files();
    answers();
    return wrong;
}
