/* The streams that the live judge is measured on. */
#ifndef STREAMS_H
#define STREAMS_H

#include <stddef.h>
#include <stdint.h>

enum { MOST_STEPS = 1000000 };

struct stream {
    const char *name;
    size_t steps;
    uint16_t numbers[4 * MOST_STEPS];
};

extern const unsigned stream_count;
void make_stream(unsigned index, struct stream *s);

#endif
