/* files COUNT FILES LINES DECKS WRITTEN REPORTS: spreadsheet files through the proved calls, held against what the second program gave: the lines of
   each of the COUNT files in FILES (LINES), and the file of each of the COUNT decks in DECKS (WRITTEN), which is read again and must give the deck's
   report (REPORTS). Each call is made on buffers longer than its answer, as long, one byte short and empty, and refusals come before 14. All lent
   memory is looked at after each call, and some bytes before and behind it. */
#define PROGRAM "files"
#include "frames.h"

#include "barleyhood.h"

enum { BESIDE = 64 };

typedef uint64_t lines_or_file(const uint8_t *text, size_t size, uint8_t *out, size_t lent);

/* Lent memory with bytes before and behind it, and its marks: what stands there before each call. */
static uint8_t *memory, *marks;

/* Room for the lines of every file, which have at most twice its bytes, and for the file of a deck. */
static void make_marks(struct text files) {
    struct part file;
    size_t all = BARLEYHOOD_SPREADSHEET;
    for (frame = 1; next(&files, "file ", &file); frame++)
        if (2 * file.size > all) all = 2 * file.size;
    all += 2 * BESIDE;
    memory = malloc(all);
    marks = malloc(all);
    if (!memory || !marks) wrong("no memory");
    for (size_t i = 0; i < all; i++) marks[i] = (uint8_t)(i * 31 + 7);
}

/* One call on a buffer of so much room: the refusal, else 14 where it is too short for the answer, or the answer and its length. */
static void call(const char *name, lines_or_file *made, struct part from, size_t room, uint64_t refused, struct part answer) {
    const size_t all = room + 2 * BESIDE;
    memcpy(memory, marks, all);
    uint64_t got = made(from.bytes, from.size, memory + BESIDE, room);
    size_t written = refused || room < answer.size ? 0 : answer.size;
    if (got != (refused ? refused : room < answer.size ? REFUSAL(BARLEYHOOD_SHORT, 0) : answer.size)) wrong(name);
    if (memcmp(memory + BESIDE, answer.bytes, written)) wrong(name);
    size_t after = BESIDE + written;
    if (memcmp(memory, marks, BESIDE) || memcmp(memory + after, marks + after, all - after)) wrong("memory changed that must stay");
}

/* The same on buffers of several lengths; `enough` is always enough. */
static void calls(const char *name, lines_or_file *made, struct part from, size_t enough, uint64_t refused, struct part answer) {
    size_t count = refused ? 0 : answer.size;
    call(name, made, from, enough, refused, answer);
    call(name, made, from, count + 1, refused, answer);
    call(name, made, from, count, refused, answer);
    if (count) call(name, made, from, count - 1, refused, answer);
    if (count > 1) call(name, made, from, 0, refused, answer);
}

static void counted(size_t asked) {
    frame--;
    if (frame != asked) wrong("the last, and more or fewer were asked for");
}

struct tally {
    size_t good, refused, longest;
};

static void tell(struct tally *t, uint64_t refused, size_t size) {
    if (refused) {
        t->refused++;
        return;
    }
    t->good++;
    if (size > t->longest) t->longest = size;
}

static struct tally files_to_lines(size_t asked, struct text files, struct text lines) {
    struct tally t = {0};
    struct part file, answer;
    for (frame = 1; next(&files, "file ", &file); frame++) {
        if (!next(&lines, "report ", &answer)) wrong("no answer");
        uint64_t refused = refusal(answer);
        if (refused && BARLEYHOOD_NUMBER(refused) != BARLEYHOOD_FILE_RECORD) wrong("refused otherwise than with 16");
        calls("the lines of a file", barleyhood_spreadsheet_lines, file, 2 * file.size, refused, answer);
        tell(&t, refused, file.size);
    }
    if (next(&lines, "report ", &answer)) wrong("an answer too many");
    counted(asked);
    return t;
}

static struct tally decks_to_files(size_t asked, struct text decks, struct text files, struct text reports) {
    struct tally t = {0};
    struct part deck, file, report;
    for (frame = 1; next(&decks, "deck ", &deck); frame++) {
        if (!next(&files, stands(&files, "report ") ? "report " : "spreadsheet ", &file) || !next(&reports, "report ", &report)) wrong("no answer");
        uint64_t refused = refusal(file);
        if (refused != refusal(report)) wrong("refused in two ways");
        calls("the file of a deck", barleyhood_spreadsheet, deck, BARLEYHOOD_SPREADSHEET, refused, file);
        if (!refused) calls("the lines of a file that was written", barleyhood_spreadsheet_lines, file, BARLEYHOOD_REPORT, 0, report);
        tell(&t, refused, file.size);
    }
    if (next(&files, "spreadsheet ", &file) || next(&reports, "report ", &report)) wrong("an answer too many");
    counted(asked);
    return t;
}

int main(int argc, char **argv) {
    if (argc != 7) return 2;
    size_t asked = strtoull(argv[1], NULL, 10);
    struct text files = whole(argv[2]), lines = whole(argv[3]), decks = whole(argv[4]), written = whole(argv[5]), reports = whole(argv[6]);
    make_marks(files);
    struct tally read = files_to_lines(asked, files, lines), wrote = decks_to_files(asked, decks, written, reports);
    if (!read.good || !read.refused || !wrote.good || !wrote.refused) wrong("the last, and no file or no deck was accepted, or none refused");
    printf("files: %zu files as by the second program: %zu refused, %zu read, the longest of %zu bytes; %zu decks: %zu refused, %zu files written and read again, the longest of %zu bytes\n",
           asked, read.refused, read.good, read.longest, asked, wrote.refused, wrote.good, wrote.longest);
    return 0;
}
