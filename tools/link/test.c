/* Calls each function and checks what it answers and what the bytes hold: cases of docs/RULES.md and
 * docs/FORMATS.md, and the stored strokes of the Rust.
 *   test_c crates/replay_strokes/stdin crates/replay_strokes/stdout
 */
#include "stroke.h"

#include <inttypes.h>
#include <stdio.h>
#include <stdlib.h>
#include <string.h>

/* What a byte holds before a call. */
#define OLD 0xa5

enum function { SERIES, BY_ROWS, SERIES_LONG, BY_ROWS_LONG, FUNCTIONS };

struct bytes {
    uint8_t *at;
    size_t length;
};

/* The answer that is wanted, and the records. */
struct wanted {
    struct stroke_answer answer;
    struct bytes bytes;
};

static void fail(const char *name) {
    fprintf(stderr, "not as expected: %s\n", name);
    exit(1);
}

static void *room_for(size_t n) {
    void *at = malloc(n + 1);
    if (at == NULL)
        fail("no memory for the test");
    return at;
}

static void call(enum function f, struct bytes rows, struct bytes job, struct bytes bytes, struct stroke_answer *answer) {
    switch (f) {
    case SERIES:
        stroke_job(job.at, job.length, bytes.at, bytes.length, answer);
        break;
    case BY_ROWS:
        stroke_job_by_rows(rows.at, rows.length, job.at, job.length, bytes.at, bytes.length, answer);
        break;
    case SERIES_LONG:
        stroke_job_long(job.at, job.length, bytes.at, bytes.length, answer);
        break;
    default:
        stroke_job_long_by_rows(rows.at, rows.length, job.at, job.length, bytes.at, bytes.length, answer);
    }
}

static int same_answer(struct stroke_answer a, struct stroke_answer b) {
    return a.length == b.length && a.sent == b.sent && a.place == b.place && a.steps == b.steps && a.refusal == b.refusal;
}

/* Lends so many bytes: the answer is the wanted one, and the bytes after the records are as they were. */
static void check(const char *name, enum function f, struct bytes rows, struct bytes job, size_t room, struct wanted wanted) {
    struct bytes bytes = {room_for(room), room};
    struct stroke_answer answer;
    memset(bytes.at, OLD, room);
    memset(&answer, OLD, sizeof answer);
    call(f, rows, job, bytes, &answer);
    if (!same_answer(answer, wanted.answer) || memcmp(bytes.at, wanted.bytes.at, wanted.bytes.length) != 0)
        fail(name);
    for (size_t i = wanted.bytes.length; i < room; i++)
        if (bytes.at[i] != OLD)
            fail(name);
    free(bytes.at);
}

/* No row is needed: nothing here bends. */
static void check_all(const char *name, struct bytes job, size_t room, struct wanted wanted) {
    static uint8_t none[1];
    for (enum function f = SERIES; f < FUNCTIONS; f++)
        check(name, f, (struct bytes){none, 0}, job, room, wanted);
}

static struct wanted accepted(struct bytes bytes, uint64_t sent) {
    return (struct wanted){{bytes.length, sent, 0, 0, 0}, bytes};
}

static struct wanted refused(uint32_t number, uint64_t place, struct bytes bytes, uint64_t sent) {
    return (struct wanted){{bytes.length, sent, place, 0, number}, bytes};
}

#define BYTES(text) ((struct bytes){(uint8_t *)(text), sizeof(text) - 1})

/* A line of length 8 with width 2, and its outline. */
#define LINE "W\x40\0\0\0J\0M\0\0\0\0\0\0\0\0L\x41\0\0\0\0\0\0\0"
#define FIRST_TWO "M\0\0\0\0\xbf\x80\0\0L\x41\0\0\0\xbf\x80\0\0"
#define OUTLINE FIRST_TWO "L\x41\0\0\0\x3f\x80\0\0L\0\0\0\0\x3f\x80\0\0L\0\0\0\0\xbf\x80\0\0Z"

static void worked(void) {
    check_all("a line", BYTES(LINE), 64, accepted(BYTES(OUTLINE), 6));
    check_all("just enough bytes", BYTES(LINE), 46, accepted(BYTES(OUTLINE), 6));
    check_all("no bytes", BYTES(LINE), 0, refused(8, 0, BYTES(""), 0));
    check_all("two commands' bytes", BYTES(LINE), 18, refused(8, 0, BYTES(FIRST_TWO), 2));
    check_all("a byte too few", BYTES(LINE), 26, refused(8, 0, BYTES(FIRST_TWO), 2));
    check_all("too few bytes in the first run", BYTES(LINE "M\0\0\0\0\0\0\0\0"), 20, refused(8, 1, BYTES(FIRST_TWO), 2));
    check_all("no items", BYTES(""), 8, accepted(BYTES(""), 0));
    check_all("an unknown letter", BYTES("W\x40\0\0\0?"), 8, refused(10, 5, BYTES(""), 0));
    check_all("missing operands", BYTES("W\x40\0\0"), 8, refused(11, 0, BYTES(""), 0));
    check_all("an unknown shape", BYTES("J\x02S\x03"), 8, refused(12, 2, BYTES(""), 0));
    check_all("a coordinate too large", BYTES("ZL\x49\x80\0\x08\0\0\0\0"), 8, refused(2, 1, BYTES(""), 0));
    check_all("a width too large", BYTES("W\x45\x80\x04\0"), 8, refused(3, 0, BYTES(""), 0));
}

/* A path of so many lines, each of length 1. */
static struct bytes lines(size_t n) {
    struct bytes job = {room_for(9 * (n + 1)), 9 * (n + 1)};
    memset(job.at, 0, job.length);
    for (size_t i = 0; i <= n; i++) {
        float x = (float)i;
        uint32_t word;
        memcpy(&word, &x, sizeof word);
        job.at[9 * i] = i == 0 ? 'M' : 'L';
        for (size_t k = 0; k < 4; k++)
            job.at[9 * i + 1 + k] = (uint8_t)(word >> (24 - 8 * k));
    }
    return job;
}

/* A path of so many lines is taken by a storage, or refused with nothing written. */
static void check_storage(enum function f, size_t n, int taken) {
    static uint8_t room[1 << 20];
    struct bytes job = lines(n);
    struct stroke_answer answer;
    call(f, (struct bytes){room, 0}, job, (struct bytes){room, sizeof room}, &answer);
    if (taken ? answer.refusal != 0 || answer.length == 0 : !same_answer(answer, refused(6, 0, BYTES(""), 0).answer))
        fail("a path of many lines");
    free(job.at);
}

static void storages(void) {
    check_storage(SERIES, 128, 1);
    check_storage(SERIES, 129, 0);
    check_storage(BY_ROWS, 128, 1);
    check_storage(BY_ROWS, 129, 0);
    check_storage(SERIES_LONG, 4095, 1);
    check_storage(BY_ROWS_LONG, 4095, 1);
    struct bytes job = lines(4096);
    check_all("a command too many", job, 8, refused(13, 9 * 4096, BYTES(""), 0));
    free(job.at);
}

static struct bytes whole_file(const char *path) {
    FILE *file = fopen(path, "rb");
    struct bytes bytes = {NULL, 0};
    if (file == NULL || fseek(file, 0, SEEK_END) != 0)
        fail(path);
    long length = ftell(file);
    rewind(file);
    bytes = (struct bytes){room_for((size_t)length), (size_t)length};
    if (fread(bytes.at, 1, bytes.length, file) != bytes.length)
        fail(path);
    fclose(file);
    bytes.at[bytes.length] = 0;
    return bytes;
}

static struct bytes cut(struct bytes *bytes, size_t n) {
    struct bytes front = {bytes->at, n};
    if (n > bytes->length)
        fail("a stored stroke is cut short");
    bytes->at += n;
    bytes->length -= n;
    return front;
}

static uint32_t word(struct bytes *bytes) {
    uint8_t *at = cut(bytes, 4).at;
    return (uint32_t)at[0] << 24 | (uint32_t)at[1] << 16 | (uint32_t)at[2] << 8 | at[3];
}

/* The lines up to the one that ends a stroke; the bytes are written from an address on. */
static struct wanted stored_answer(char **text, uint8_t *at) {
    struct wanted wanted = {{0, 0, 0, 0, 0}, {at, 0}};
    for (;; ++*text) {
        char letter = *(*text)++;
        if (letter == '=' && sscanf(*text, "%" SCNu64 " %" SCNu32, &wanted.answer.sent, &wanted.answer.steps) == 2)
            break;
        if (letter == '!'
            && sscanf(*text, "%" SCNu32 " %" SCNu64 " %" SCNu64, &wanted.answer.refusal, &wanted.answer.place, &wanted.answer.sent) == 3)
            break;
        at[wanted.bytes.length++] = (uint8_t)letter;
        while (**text == ' ') {
            uint32_t bits = (uint32_t)strtoul(*text, text, 16);
            for (int shift = 24; shift >= 0; shift -= 8)
                at[wanted.bytes.length++] = (uint8_t)(bits >> shift);
        }
    }
    *text = strchr(*text, '\n') + 1;
    wanted.answer.length = wanted.bytes.length;
    return wanted;
}

/* Whether a call with this storage and the greatest budget has to come to the same end. */
static int same_end(uint32_t stored, uint32_t budget, uint32_t refusal, uint32_t segments) {
    switch (refusal) {
    case 5:
        return 0;
    case 6:
        return stored == segments;
    case 7:
        return stored <= segments && budget == 65536;
    default:
        return stored <= segments;
    }
}

/* With just as many bytes as the Rust's commands take: where it has no place for one more, a byte is missing. */
static unsigned replayed(enum function f, uint32_t segments, struct bytes records, char *text, size_t text_length) {
    uint8_t *written = room_for(text_length);
    unsigned checked = 0;
    while (records.length > 0) {
        uint32_t length = word(&records);
        struct bytes job = cut(&records, length);
        uint32_t stored = word(&job);
        word(&job);
        uint32_t budget = word(&job);
        uint32_t rows = word(&job);
        struct bytes row_bytes = cut(&job, 9 * (size_t)rows);
        struct wanted wanted = stored_answer(&text, written);
        if (same_end(stored, budget, wanted.answer.refusal, segments)) {
            check("a stored stroke", f, row_bytes, job, wanted.bytes.length, wanted);
            checked++;
        }
    }
    free(written);
    return checked;
}

int main(int count, char **arguments) {
    if (count != 3)
        fail("two files are to be named");
    worked();
    storages();
    struct bytes records = whole_file(arguments[1]);
    struct bytes text = whole_file(arguments[2]);
    unsigned many = replayed(BY_ROWS, 128, records, (char *)text.at, text.length);
    unsigned more = replayed(BY_ROWS_LONG, 4096, records, (char *)text.at, text.length);
    if (many <= 250 || more <= 250)
        fail("too few stored strokes were checked");
    printf("all as expected; %u and %u stored strokes\n", many, more);
    free(records.at);
    free(text.at);
    return 0;
}
