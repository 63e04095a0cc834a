/* Times the proved calls beside two C versions of the same work, one plainly written (deck.c, plain.c, print.c, file.c) and one written for speed
   (quick.c, hour.c, report.c, quick_file.c), in one run, turn by turn, so that all meet the same machine.
   bench DECK..: a table for each deck. bench alone: how price and plain grow with MWh, sources and groups. */
#define _POSIX_C_SOURCE 199309L
#include <stdio.h>
#include <stdlib.h>
#include <string.h>
#include <time.h>

#include "barleyhood.h"
#include "file.h"
#include "hour.h"
#include "report.h"

/* Of crate trials: reads the deck once and reconstructs its hour `times` times; a sum of the answers, 0 where the deck is refused. */
uint64_t trial_price(const uint8_t *deck, size_t n, int64_t *out, size_t room, size_t times);
uint64_t trial_plain(const uint8_t *deck, size_t n, int64_t *out, size_t room, size_t times);

enum { DECK = 8192, TURNS = 101, MOST_WORKS = 8, CALLS = 8 };

static uint8_t deck[DECK];
static size_t size;
static int64_t cells[MOST_CELLS];
static uint8_t text[MOST_FILE];

/* The deck's spreadsheet file, for its lines; empty where the deck has none. */
static uint8_t file[MOST_FILE];
static size_t file_size;

/* Each answers a number that depends on the whole work. */
static uint64_t proved_read(void) { return barleyhood_check(deck, size); }
static uint64_t proved_price(void) { return barleyhood_price(deck, size, cells, MOST_CELLS) + (uint64_t)cells[0]; }
static uint64_t proved_plain(void) { return barleyhood_plain(deck, size, cells, MOST_CELLS) + (uint64_t)cells[0]; }
static uint64_t proved_report(void) { return barleyhood_report(deck, size, text, MOST_REPORT); }
static uint64_t proved_file(void) { return barleyhood_spreadsheet(deck, size, text, MOST_FILE); }
static uint64_t proved_lines(void) { return barleyhood_spreadsheet_lines(file, file_size, text, MOST_REPORT); }

/* The proved side reads the deck in the same call: from record to cells is the time of CALLS + 1 hours less that of one, by CALLS. */
static uint64_t proved_prices(void) { return trial_price(deck, size, cells, MOST_CELLS, CALLS + 1) + (uint64_t)cells[0]; }
static uint64_t proved_one_price(void) { return trial_price(deck, size, cells, MOST_CELLS, 1) + (uint64_t)cells[0]; }
static uint64_t proved_plains(void) { return trial_plain(deck, size, cells, MOST_CELLS, CALLS + 1) + (uint64_t)cells[0]; }
static uint64_t proved_one_plain(void) { return trial_plain(deck, size, cells, MOST_CELLS, 1) + (uint64_t)cells[0]; }

typedef struct refusal reader(const uint8_t *s, size_t n, struct hour *h);
typedef struct refusal rebuilder(const struct hour *h, int64_t *cells, size_t room, int by_price);

static uint64_t c_hour(reader *read) {
    struct hour h = {0};
    struct refusal r = read(deck, size, &h);
    return r.number + h.sources;
}

static uint64_t c_cells(reader *read, rebuilder *rebuild, int by_price) {
    struct hour h = {0};
    struct refusal r = read(deck, size, &h);
    if (!r.number) r = rebuild(&h, cells, MOST_CELLS, by_price);
    return r.number + (uint64_t)cells[0];
}

static uint64_t plain_c_read(void) { return c_hour(read_plainly); }
static uint64_t plain_c_price(void) { return c_cells(read_plainly, rebuild_plainly, 1); }
static uint64_t plain_c_plain(void) { return c_cells(read_plainly, rebuild_plainly, 0); }
static uint64_t plain_c_report(void) { return report_plainly(deck, size, text, MOST_REPORT); }
static uint64_t plain_c_file(void) { return file_plainly(deck, size, text, MOST_FILE); }
static uint64_t plain_c_lines(void) { return lines_plainly(file, file_size, text, MOST_REPORT); }
static uint64_t quick_c_read(void) { return c_hour(read_deck); }
static uint64_t quick_c_price(void) { return c_cells(read_deck, rebuild, 1); }
static uint64_t quick_c_plain(void) { return c_cells(read_deck, rebuild, 0); }
static uint64_t quick_c_report(void) { return report(deck, size, text, MOST_REPORT); }
static uint64_t quick_c_file(void) { return file_of(deck, size, text, MOST_FILE); }
static uint64_t quick_c_lines(void) { return lines_of(file, file_size, text, MOST_REPORT); }

/* Hours read before, each by its own reader. */
static struct hour plain_c_hour, quick_c_hour;

static void read_hours(void) {
    memset(&plain_c_hour, 0, sizeof plain_c_hour);
    memset(&quick_c_hour, 0, sizeof quick_c_hour);
    read_plainly(deck, size, &plain_c_hour);
    read_deck(deck, size, &quick_c_hour);
}

static uint64_t c_rebuilt(const struct hour *h, rebuilder *rebuild, int by_price) {
    struct refusal r = rebuild(h, cells, MOST_CELLS, by_price);
    return r.number + (uint64_t)cells[0];
}

static uint64_t plain_c_record_price(void) { return c_rebuilt(&plain_c_hour, reconstruct_plainly, 1); }
static uint64_t plain_c_record_plain(void) { return c_rebuilt(&plain_c_hour, reconstruct_plainly, 0); }
static uint64_t quick_c_record_price(void) { return c_rebuilt(&quick_c_hour, reconstruct, 1); }
static uint64_t quick_c_record_plain(void) { return c_rebuilt(&quick_c_hour, reconstruct, 0); }

static double now(void) {
    struct timespec t;
    clock_gettime(CLOCK_MONOTONIC, &t);
    return (double)t.tv_sec * 1e9 + (double)t.tv_nsec;
}

static volatile uint64_t sink;

typedef uint64_t work(void);

static double once(work *w, int repeats) {
    double began = now();
    for (int i = 0; i < repeats; i++) sink += w();
    return (now() - began) / repeats;
}

/* The least time of each over many turns, taken in turn. */
static void in_turn(int n, work *const *w, double *least) {
    int repeats[MOST_WORKS];
    for (int k = 0; k < n; k++) {
        repeats[k] = (int)(2e5 / (once(w[k], 3) + 1)) + 1;
        least[k] = 1e18;
    }
    for (int i = 0; i < TURNS; i++)
        for (int k = 0; k < n; k++) {
            double x = once(w[k], repeats[k]);
            if (x < least[k]) least[k] = x;
        }
}

/* Every reconstruction must leave the same cells. */
static void hold_cells(void) {
    static work *const w[] = {
        proved_price,     plain_c_price,        quick_c_price,        proved_plain,  plain_c_plain,    quick_c_plain,        proved_prices,
        proved_one_price, plain_c_record_price, quick_c_record_price, proved_plains, proved_one_plain, plain_c_record_plain, quick_c_record_plain,
    };
    static int64_t first[MOST_CELLS];
    read_hours();
    for (size_t k = 0; k < sizeof w / sizeof *w; k++) {
        memset(cells, 0, sizeof cells);
        w[k]();
        if (k == 0) memcpy(first, cells, sizeof cells);
        if (memcmp(cells, first, sizeof cells)) {
            fprintf(stderr, "bench: the cells differ (%zu)\n", k);
            exit(1);
        }
    }
}

/* Three texts must have the same bytes; gives how many. */
static uint64_t hold_texts(const char *name, work *const w[3]) {
    static uint8_t first[MOST_FILE];
    uint64_t length = 0;
    for (size_t k = 0; k < 3; k++) {
        memset(text, 0, sizeof text);
        uint64_t n = w[k]();
        if (k == 0) length = n, memcpy(first, text, sizeof text);
        if (n != length || memcmp(text, first, sizeof text)) {
            fprintf(stderr, "bench: the %s differ (%zu)\n", name, k);
            exit(1);
        }
    }
    return length;
}

/* Every report, every file, which is kept for the rows of lines, and every file's lines. */
static void hold_all_texts(void) {
    hold_texts("reports", (work *const[]){proved_report, plain_c_report, quick_c_report});
    uint64_t n = hold_texts("files", (work *const[]){proved_file, plain_c_file, quick_c_file});
    file_size = n >> 32 ? 0 : (size_t)n;
    memcpy(file, text, file_size);
    hold_texts("lines", (work *const[]){proved_lines, plain_c_lines, quick_c_lines});
}

/* One row: its works in turn, by themselves. Where the proved work is of CALLS + 1 hours, `one` is of one. */
static void row(const char *name, work *proved, work *one, work *plain_c, work *quick_c) {
    work *w[4];
    double t[4];
    int n = 0;
    w[n++] = proved;
    if (one) w[n++] = one;
    w[n++] = plain_c;
    w[n++] = quick_c;
    in_turn(n, w, t);
    double ours = one ? (t[0] - t[1]) / CALLS : t[0];
    printf("| %s | %.0f | %.0f | %.2f | %.0f | %.2f |\n", name, ours, t[n - 2], ours / t[n - 2], t[n - 1], ours / t[n - 1]);
}

static void table(const char *name) {
    FILE *f = fopen(name, "rb");
    if (!f) {
        perror(name);
        exit(1);
    }
    size = fread(deck, 1, DECK, f);
    fclose(f);
    hold_cells();
    hold_all_texts();
    printf("\n%s, %zu bytes:\n\n| work | proved, ns | plain C, ns | ratio | C for speed, ns | ratio |\n|---|---|---|---|---|---|\n", name, size);
    row("reading", proved_read, 0, plain_c_read, quick_c_read);
    row("deck to cells, by price", proved_price, 0, plain_c_price, quick_c_price);
    row("deck to cells, one MWh at a time", proved_plain, 0, plain_c_plain, quick_c_plain);
    row("record to cells, by price", proved_prices, proved_one_price, plain_c_record_price, quick_c_record_price);
    row("record to cells, one MWh at a time", proved_plains, proved_one_plain, plain_c_record_plain, quick_c_record_plain);
    row("deck to report", proved_report, 0, plain_c_report, quick_c_report);
    row("deck to spreadsheet file", proved_file, 0, plain_c_file, quick_c_file);
    row("spreadsheet file to lines", proved_lines, 0, plain_c_lines, quick_c_lines);
}

/* An hour of so many like units, one delivery of so many MWh in each of so many groups. */
static void make(int sources, int groups, int mwh) {
    char *p = (char *)deck;
    p += sprintf(p, "H 0\n");
    for (int i = 0; i < sources; i++) p += sprintf(p, "U 1900 2000 40 30 20 20 50000 %d %d 10000 \"U%d\"\n", 9000 + 37 * i, 10 + i % 7, i);
    for (int j = 0; j < groups; j++) p += sprintf(p, "T %d 1 1 %d \"T%d\"\n", 99 - j, mwh, j);
    p += sprintf(p, "E\n");
    size = (size_t)(p - (char *)deck);
}

static void growth(int sources, int groups, int mwh) {
    static work *const w[] = {proved_price, plain_c_price, quick_c_price, proved_plain, plain_c_plain, quick_c_plain};
    double t[6];
    make(sources, groups, mwh);
    hold_cells();
    in_turn(6, w, t);
    printf("| %d | %d | %d | %.0f | %.0f | %.0f | %.0f | %.0f | %.0f |\n", sources, groups, mwh, t[0], t[1], t[2], t[3], t[4], t[5]);
}

int main(int argc, char **argv) {
    for (int i = 1; i < argc; i++) table(argv[i]);
    if (argc > 1) return 0;
    printf("\ndeck to cells, ns:\n\n| sources | groups | MWh each | price | in plain C | in C for speed | one MWh at a time | in plain C | in C for speed |\n"
           "|---|---|---|---|---|---|---|---|---|\n");
    for (int mwh = 2; mwh <= 2000; mwh *= 10) growth(32, 1, mwh);
    for (int sources = 4; sources <= 32; sources *= 2) growth(sources, 1, 500);
    for (int groups = 1; groups <= 32; groups *= 2) growth(32, groups, 50);
    return 0;
}
