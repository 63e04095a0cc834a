/* The spreadsheet file of a deck, and the lines of a file, in C. An answer is as of the proved calls: the number of bytes, or a refusal's number
   times 2^32 and its place, and then nothing is written. */
#ifndef BENCH_FILE_H
#define BENCH_FILE_H

#include <stddef.h>
#include <stdint.h>

/* No file of an hour is longer than this. */
enum { MOST_FILE = 147456 };

#define FILE_HEADER "kind,delivery,number,source,n1,n2,n3,n4\r\n"

uint64_t file_plainly(const uint8_t *deck, size_t n, uint8_t *out, size_t room);
uint64_t lines_plainly(const uint8_t *file, size_t n, uint8_t *out, size_t room);

/* The same, written for speed (quick_file.c). */
uint64_t file_of(const uint8_t *deck, size_t n, uint8_t *out, size_t room);
uint64_t lines_of(const uint8_t *file, size_t n, uint8_t *out, size_t room);

#endif
