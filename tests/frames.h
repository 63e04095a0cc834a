/* What the tests in C share: files of frames, what a second program's answer says, and the end of a run that found something wrong.
   A test that includes this has its own name in PROGRAM. */
#include <inttypes.h>
#include <stdbool.h>
#include <stdio.h>
#include <stdlib.h>
#include <string.h>

#define REFUSAL(number, place) (((uint64_t)(number) << 32) + (place))

/* The frame that is looked at, from 1. */
static size_t frame;

static void wrong(const char *what) {
    fprintf(stderr, "%s: frame %zu: %s\n", PROGRAM, frame, what);
    exit(1);
}

struct text {
    uint8_t *bytes;
    size_t size, at;
};

static struct text whole(const char *name) {
    FILE *f = fopen(name, "rb");
    if (!f || fseek(f, 0, SEEK_END)) {
        perror(name);
        exit(1);
    }
    struct text t = {0};
    t.size = (size_t)ftell(f);
    rewind(f);
    t.bytes = malloc(t.size + 1);
    if (!t.bytes || fread(t.bytes, 1, t.size, f) != t.size) {
        perror(name);
        exit(1);
    }
    t.bytes[t.size] = 0;
    fclose(f);
    return t;
}

struct part {
    const uint8_t *bytes;
    size_t size;
};

static bool stands(const struct text *t, const char *word) { return !strncmp((char *)t->bytes + t->at, word, strlen(word)); }

/* The next frame: its word, a space, its size and LF, then its bytes. */
static bool next(struct text *t, const char *word, struct part *p) {
    if (t->at == t->size) return false;
    char *end;
    if (!stands(t, word)) wrong("no frame where one must stand");
    p->size = strtoull((char *)t->bytes + t->at + strlen(word), &end, 10);
    p->bytes = (uint8_t *)end + 1;
    t->at = (size_t)(p->bytes - t->bytes) + p->size;
    if (*end != '\n' || t->at > t->size) wrong("a frame that is cut off");
    return true;
}

/* What a line `refused N P` says, or 0. */
static uint64_t refusal(struct part p) {
    if (p.size < 9 || memcmp(p.bytes, "refused ", 8)) return 0;
    char *end;
    uint64_t number = strtoull((const char *)p.bytes + 8, &end, 10);
    return REFUSAL(number, strtoull(end, NULL, 10));
}
