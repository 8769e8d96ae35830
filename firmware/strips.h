/* Marginals of a strip's factor graph from the bytes of a job: the one call of libfirmware.a.
 *
 * The archive is written by `tools/archives firmware` to target/staticlib/libfirmware.a, for x86-64 processors with SSE4.2
 * (x86-64-v2). Of the C library it needs memcpy, memmove and memset. It allocates nothing and keeps nothing between calls,
 * so calls on buffers of their own may run at the same time. Its stack is measured, not proved: 160 KiB were enough, with
 * C's own share, for every recorded job. The measurement is of an archive by an older kit.
 */
#ifndef STRIPS_H
#define STRIPS_H

#include <stddef.h>
#include <stdint.h>

/* A buffer of as many bytes takes the text of every job. */
#define STRIPS_OUTPUT 22944

/* An observation has at most as many keys and rows. */
#define STRIPS_KEYS 4
#define STRIPS_ROWS 6

/* Past as many bytes, 19,388, nothing in a job changes its text, so that no more need be kept of it. They are those of all
 * records that there is room for, and of one record more: 11 for each of 32 variables, 8 and the keys for each of 64
 * factors, each in place of another, 8 for each of 2,048 numbers, and the longest record with 32 columns. */
#define STRIPS_INPUT \
    (11 * 32 + (8 + STRIPS_KEYS) * 64 + 8 * 2048 + \
     8 + STRIPS_KEYS + 8 * (STRIPS_ROWS * 32 + STRIPS_ROWS + STRIPS_ROWS * STRIPS_ROWS))

/* The answer where the buffer is too short. */
#define STRIPS_SHORT SIZE_MAX

/* Solves a job.
 *
 * Asks for: job points to job_length bytes that can be read, out to out_length bytes that can be written, and the two
 * don't overlap. Either length may be 0. The bytes of the job may be anything.
 *
 * Answers: the length of the text. The first bytes of out are then the text, and the rest of out is as it was. If the
 * text is longer than out, the answer is STRIPS_SHORT, and out is as it was.
 *
 * The text: a line for each key, rising, with the key in decimal, the mean and the covariance column by column, each
 * number as 16 upper-case hexadecimal digits of its 64 bits, one space apart; or else the one line
 * `refused NUMBER STAGE PLACE`. The stage is 0 (reading), 1 (forward pass), 2 (backward pass) or 3 (marginals); the place
 * is the record, from 0, at stage 0 and the key at the others. Every line ends with a line feed. No keys: no text.
 *
 * It always ends. It is proved that the answer and the whole of out are those of the definition `job_text`.
 */
size_t strips_solve(const uint8_t *job, size_t job_length, uint8_t *out, size_t out_length);

#endif
