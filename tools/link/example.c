/* Strokes a line of length 8 with width 2, and tells what came of it. */
#include "stroke.h"

#include <stdio.h>
#include <string.h>

static float number(const uint8_t *bytes) {
    uint32_t word = (uint32_t)bytes[0] << 24 | (uint32_t)bytes[1] << 16 | (uint32_t)bytes[2] << 8 | bytes[3];
    float x;
    memcpy(&x, &word, sizeof x);
    return x;
}

static size_t points(uint8_t letter) {
    return letter == 'C' ? 3 : letter == 'Q' ? 2 : letter == 'Z' ? 0 : 1;
}

static void tell(const char *name, const uint8_t *bytes, struct stroke_answer a) {
    printf("%s\n", name);
    for (size_t i = 0; i < a.length;) {
        size_t numbers = 2 * points(bytes[i]);
        printf("%c", bytes[i++]);
        for (; numbers > 0; numbers--, i += 4)
            printf(" %g", number(bytes + i));
        printf("\n");
    }
    if (a.refusal == 0)
        printf("= %llu %u\n", (unsigned long long)a.sent, a.steps);
    else
        printf("! %u %llu %llu\n", a.refusal, (unsigned long long)a.place, (unsigned long long)a.sent);
}

int main(void) {
    static const uint8_t job[] = "W\x40\0\0\0" "M\0\0\0\0\0\0\0\0" "L\x41\0\0\0\0\0\0\0";
    static const uint8_t unknown[] = "W\x40\0\0\0?";
    uint8_t bytes[256];
    struct stroke_answer answer;
    stroke_job(job, sizeof job - 1, bytes, sizeof bytes, &answer);
    tell("a line", bytes, answer);
    stroke_job(job, sizeof job - 1, bytes, 20, &answer);
    tell("onto 20 bytes", bytes, answer);
    stroke_job(unknown, sizeof unknown - 1, bytes, sizeof bytes, &answer);
    tell("a letter that is none", bytes, answer);
    stroke_job_long(job, sizeof job - 1, bytes, sizeof bytes, &answer);
    tell("with room for 4096 segments", bytes, answer);
    stroke_job_by_rows(job, 0, job, sizeof job - 1, bytes, sizeof bytes, &answer);
    tell("by no rows: nothing is asked of them here", bytes, answer);
    return 0;
}
