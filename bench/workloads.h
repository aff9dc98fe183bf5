/* The logs that are measured. */
#ifndef WORKLOADS_H
#define WORKLOADS_H

#include <stddef.h>
#include <stdint.h>

enum { MOST_LOGS = 16, LONGEST_TEXT = 33803 };

struct log {
    uint16_t numbers[4096];
    size_t length; /* in numbers, four a step */
    uint8_t text[LONGEST_TEXT];
    size_t text_length;
};

struct workload {
    const char *name;
    unsigned count;
    struct log logs[MOST_LOGS];
};

/* Logs for every verdict, logs for whole listings, and logs with commits to redo. */
extern const unsigned workload_count, listing_count, plan_count;
void make_workload(unsigned index, struct workload *w);
void make_listing(unsigned index, struct workload *w);
void make_plan(unsigned index, struct workload *w);

#endif
