/* Barleyhood splits the generation cost of one hour of a power pool among its deliveries.

   Every call reads a deck, the text that states the hour, or, the last one, a spreadsheet file; either is lent as its first byte
   and its length. A null pointer is fine where the length is 0. Nothing is kept between calls and nothing is allocated, so calls
   may run side by side; a call writes only into the cells, bytes or numbers lent to it, which must not overlap what it reads. The
   report and the spreadsheet file of a deck take about 80 KiB of the stack (measured with the older kit), a reconstruction 46 KiB, barleyhood_check and
   barleyhood_spreadsheet_lines 3 KiB, any other call 26 KiB.

   An answer below 2^32 is what was asked for. Any other is a refusal: its number times 2^32, and its place.
   A refused call has written nothing. */
#ifndef BARLEYHOOD_H
#define BARLEYHOOD_H

#include <stddef.h>
#include <stdint.h>

#define BARLEYHOOD_VERSION "0.2.0-dev"

#ifdef __cplusplus
extern "C" {
#endif

/* The number of a refusal, 0 for any other answer, and the refusal's place: a line of the deck, an internal sequence number, a record
   of the file, or 0. */
#define BARLEYHOOD_NUMBER(answer) ((uint32_t)((uint64_t)(answer) >> 32))
#define BARLEYHOOD_PLACE(answer) ((uint32_t)(answer))

/* The numbers of the refusals, with the place of each: 0, a line of the deck, a group by its internal number, or a record of the
   file, the header's being 1. barleyhood_check tells 1 to 11, and so does every call that reads the deck but barleyhood_report and
   the two for one label; barleyhood_labels goes on with 14, the reconstructions with 14, then 12 or 13, barleyhood_spreadsheet with
   12 or 13, then 14. barleyhood_spreadsheet_lines tells 16, then 14. 15 is of hour records, which no call here takes. */
enum {
    BARLEYHOOD_TOO_LONG = 1,     /* the deck has more than 8,192 bytes: 0 */
    BARLEYHOOD_FORM = 2,         /* a line is not of its form or out of order, or LF or E is missing: line */
    BARLEYHOOD_RANGE = 3,        /* a number is outside its range: line */
    BARLEYHOOD_FULL = 4,         /* the thirty-third source, delivery or D line: line */
    BARLEYHOOD_USED = 5,         /* a label is already used in its class: line */
    BARLEYHOOD_LEVELS = 6,       /* a unit's levels are not start <= emergency <= oil <= normal low <= generation <= high: line */
    BARLEYHOOD_NAMES = 7,        /* a D line names no unit, or no delivery: line */
    BARLEYHOOD_OTHER_BASIS = 8,  /* a D line has another basis than the unit's earlier ones, or a number not below its high: line */
    BARLEYHOOD_PERCENTS = 9,     /* a unit's percents pass 100: line */
    BARLEYHOOD_OVERDRAWN = 10,   /* losses and deliveries are above generation: 0 */
    BARLEYHOOD_UNPLACED = 11,    /* sequence 0, and no delivery to place it by: line */
    BARLEYHOOD_NO_ROOM = 12,     /* the sources have too little room for a group: group */
    BARLEYHOOD_NO_HEADROOM = 13, /* too little headroom for a group's credit: group */
    BARLEYHOOD_SHORT = 14,       /* the lent buffer is too short (calls only): 0 */
    BARLEYHOOD_NO_DECK = 15,     /* the hour record is one that no deck gives (calls only): 0 */
    BARLEYHOOD_FILE_RECORD = 16  /* a record of a spreadsheet file is not of its form, missing or out of order: record */
};

/* 0 for a deck that is accepted. */
uint64_t barleyhood_check(const uint8_t *deck, size_t length);

/* How many sources, and how many deliveries, an accepted deck has: 0 to 32 of each. */
uint64_t barleyhood_sources(const uint8_t *deck, size_t length);
uint64_t barleyhood_deliveries(const uint8_t *deck, size_t length);

/* The cells of the deck's hour, written from the first lent one on, and how many they are; the lent cells after them
   stay as they are. For each delivery, then each source, in deck order, there are four: direct MWh, incremental MWh,
   direct cost, incremental cost. After all of them come two for each source: open MWh, open cost. A cost is in grains,
   20,000,000 to the dollar; a credit is negative. With fewer cells lent than there are to write the call is refused (14);
   BARLEYHOOD_CELLS are always enough. */
uint64_t barleyhood_price(const uint8_t *deck, size_t length, int64_t *cells, size_t lent);

/* The same cells, found by moving one MWh at a time instead of by a search for the price: slower, never different. */
uint64_t barleyhood_plain(const uint8_t *deck, size_t length, int64_t *cells, size_t lent);

/* The deck's report as text, written from the first lent byte on, and how many bytes it has, with no 0 after them; the lent
   bytes after it stay as they are. A deck that is refused has a report too, of the one line `refused NUMBER PLACE`. So the only
   refusal is 14, where fewer bytes are lent than there are to write; BARLEYHOOD_REPORT are always enough. */
uint64_t barleyhood_report(const uint8_t *deck, size_t length, uint8_t *text, size_t lent);

/* The most bytes that a deck may have, the most cells of an hour (32 deliveries by 32 sources by 4, and 32 by 2), and a number of
   bytes that no report passes. */
#define BARLEYHOOD_DECK 8192
#define BARLEYHOOD_CELLS 4160
#define BARLEYHOOD_REPORT 131072

/* Among the cells: the first of the four of a delivery and a source, and the first of a source's two open ones.
   Sources and deliveries are counted from 0; the capital letters stand for how many the deck has. */
#define BARLEYHOOD_PAIR(SOURCES, delivery, source) (((size_t)(delivery) * (SOURCES) + (source)) * 4)
#define BARLEYHOOD_OPEN(SOURCES, DELIVERIES, source) ((size_t)(DELIVERIES) * (SOURCES) * 4 + (size_t)(source) * 2)

/* Where the label of a source, or of a delivery, counted from 0, stands in the deck: its bytes between the quotes, with
   \" and \\ as the deck writes them. The answer is the offset of the first byte times 2^32, and the number of bytes, 1 to 32;
   it is 0 for an entry that the deck lacks and for a deck that is refused. No refusal comes from these two. */
uint64_t barleyhood_source_label(const uint8_t *deck, size_t length, size_t source);
uint64_t barleyhood_delivery_label(const uint8_t *deck, size_t length, size_t delivery);

/* The same of all labels by one call, written from the first lent number on, and how many they are: each source's in deck order,
   and then each delivery's. The lent numbers after them stay as they are. With fewer numbers lent than the deck has labels the
   call is refused (14); BARLEYHOOD_LABELS are always enough. */
uint64_t barleyhood_labels(const uint8_t *deck, size_t length, uint64_t *places, size_t lent);

#define BARLEYHOOD_LABELS 64

/* Of a label's place: the offset of its first byte, and its number of bytes. */
#define BARLEYHOOD_OFFSET(label) ((uint32_t)((uint64_t)(label) >> 32))
#define BARLEYHOOD_LENGTH(label) ((uint32_t)(label))

/* The allocations of the deck's hour as a spreadsheet file, written from the first lent byte on, and how many bytes it has, with no 0
   after them; the lent bytes after it stay as they are. It is RFC 4180 text: the header kind,delivery,number,source,n1,n2,n3,n4, then
   a record of eight fields for each line of the report, its kind hour, delivery, internal or end, its amounts from n1 on, unused
   fields empty. Every record ends in CRLF. Every label stands between quotes by its characters, each space kept, a quote doubled, a
   backslash single. A deck that is refused has no file, nor has an hour that meets 12 or 13. After all these comes 14, where fewer
   bytes are lent than there are to write; BARLEYHOOD_SPREADSHEET are always enough. */
uint64_t barleyhood_spreadsheet(const uint8_t *deck, size_t length, uint8_t *text, size_t lent);

/* The lines of a spreadsheet file as the report prints them, written from the first lent byte on, and how many bytes they have, with
   no 0 after them; the lent bytes after them stay as they are. Only the exact writing of one hour, any deliveries, any internals and
   one end is read; the labels and the numbers, of 64 signed bits, may be any, and need not fit each other. Any other file is refused
   (16) at the first record that is not of its form, missing or out of order. After that comes 14, where fewer bytes are lent than there
   are to write; twice the file's bytes are always enough, and BARLEYHOOD_REPORT for a file that barleyhood_spreadsheet wrote. A file
   may have any length; a count and a refusal are told apart where fewer than 2^32 bytes are lent, and the place is the record's where
   the file has fewer than 2^32 - 1 bytes. */
uint64_t barleyhood_spreadsheet_lines(const uint8_t *file, size_t length, uint8_t *text, size_t lent);

/* A number of bytes that no file of an hour passes. */
#define BARLEYHOOD_SPREADSHEET 147456

#ifdef __cplusplus
}
#endif

#endif
