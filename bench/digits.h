/* Numbers for speed, two digits at a time. */
#ifndef BENCH_DIGITS_H
#define BENCH_DIGITS_H

#include <stddef.h>
#include <stdint.h>
#include <string.h>

static const char pairs[] = "00010203040506070809101112131415161718192021222324252627282930313233343536373839"
                            "40414243444546474849505152535455565758596061626364656667686970717273747576777879"
                            "8081828384858687888990919293949596979899";

static uint8_t *put_four(uint8_t *p, uint32_t v) {
    memcpy(p, pairs + 2 * (v / 100), 2);
    memcpy(p + 2, pairs + 2 * (v % 100), 2);
    return p + 4;
}

/* Below 10,000. */
static uint8_t *put_short(uint8_t *p, uint32_t v) {
    if (v >= 1000)
        return put_four(p, v);
    if (v >= 100)
        *p++ = (uint8_t)('0' + v / 100);
    if (v >= 10) {
        memcpy(p, pairs + 2 * (v % 100), 2);
        return p + 2;
    }
    *p = (uint8_t)('0' + v);
    return p + 1;
}

/* Below 10^16, as every number of a report is. */
static uint8_t *put_number(uint8_t *p, int64_t value) {
    uint64_t v = (uint64_t)value;
    if (value < 0) {
        *p++ = '-';
        v = -v;
    }
    if (v < 10000)
        return put_short(p, (uint32_t)v);
    if (v < 100000000)
        return put_four(put_short(p, (uint32_t)v / 10000), (uint32_t)v % 10000);
    uint32_t high = (uint32_t)(v / 100000000), low = (uint32_t)(v % 100000000);
    p = high < 10000 ? put_short(p, high) : put_four(put_short(p, high / 10000), high % 10000);
    return put_four(put_four(p, low / 10000), low % 10000);
}

static uint8_t *put_text(uint8_t *p, const char *text, size_t n) {
    memcpy(p, text, n);
    return p + n;
}

#endif
