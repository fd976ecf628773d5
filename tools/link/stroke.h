/* Strokes, by the static library libstroke_export.a. docs/EXPORT.md says what crosses the boundary.
 *
 * A job is bytes: letters, each with its operands, all numbers with their high byte first.
 *   W I O D         width, miter limit, offset, one dash: 4 bytes, an f32
 *   J               the join, 1 byte: 0 bevel, 1 miter, 2 round
 *   S E             the cap at the start, at the end, 1 byte: 0 butt, 1 square, 2 round
 *   M L C Q Z       commands: 8, 8, 24, 16 and no bytes, two f32 for each point
 * A job has at most 4096 commands and 32 dashes. What is drawn is written as such commands over the
 * front of the bytes that are lent, until one does not fit; the bytes after them stay as they were.
 * No pointer may be null, and what is written may not overlap with anything else that is passed.
 * No memory is asked for, and nothing is kept between two calls.
 */
#ifndef STROKE_H
#define STROKE_H

#include <stddef.h>
#include <stdint.h>

struct stroke_answer {
    uint64_t length;   /* how many bytes were written */
    uint64_t sent;     /* how many commands were written */
    uint64_t place;    /* where a refused call stopped, else 0 */
    uint32_t steps;    /* how many dash steps were taken; 0 for a refused call */
    uint32_t refusal;  /* the refusal's number, 0 for none */
};

/* With the library's own maths and a storage of 128 segments. */
void stroke_job(const uint8_t *job, size_t job_length, uint8_t *bytes, size_t bytes_length,
                struct stroke_answer *answer);

/* With the library's own maths and a storage of 4096 segments. */
void stroke_job_long(const uint8_t *job, size_t job_length, uint8_t *bytes, size_t bytes_length,
                     struct stroke_answer *answer);

/* Likewise, by rows of nine bytes as the maths: the function (1 sine, 2 cosine, 3 arc cosine, 4 tangent,
 * 5 power), the bits of the argument and of the answer. A last piece of less than nine is left out. */
void stroke_job_by_rows(const uint8_t *rows, size_t rows_length, const uint8_t *job, size_t job_length,
                        uint8_t *bytes, size_t bytes_length, struct stroke_answer *answer);

void stroke_job_long_by_rows(const uint8_t *rows, size_t rows_length, const uint8_t *job,
                             size_t job_length, uint8_t *bytes, size_t bytes_length,
                             struct stroke_answer *answer);

#endif
