/* Streams for the live judge, with what the second program says to each step. */
#ifndef STREAMS_H
#define STREAMS_H

#include <stddef.h>
#include <stdint.h>
#include <stdio.h>

enum { MOST_STEPS = 600 };

struct stream {
    size_t steps;
    uint16_t numbers[4 * MOST_STEPS];
    uint16_t answers[MOST_STEPS];
};

/* The codes that an answer to a step may be, and whether a number is one of them. */
enum { CODES = 11, HIGHEST_CODE = 67 };
extern const uint16_t codes[CODES];
int is_code(unsigned number);

/* The next stream of what `second streams` has written. 0 at the end. */
int next_stream(FILE *file, struct stream *s);

#endif
