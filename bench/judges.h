/* Ours and the peer behind one face, over one set of buffers. */
#ifndef JUDGES_H
#define JUDGES_H

#include "../include/krupovesh.h"
#include "streams.h"
#include "workloads.h"

enum { VERDICTS = 8 };
extern const char *const verdict_names[VERDICTS];

/* The two judges. */
struct judge;
extern const struct judge ours, peer;

/* What is lent to both. */
struct buffers {
    uint8_t work[KRUPOVESH_WORK];
    uint16_t witness[KRUPOVESH_WITNESS];
    uint16_t order[KRUPOVESH_HANDED];
    uint16_t proposal[KRUPOVESH_PROPOSAL];
    uint16_t steps[KRUPOVESH_STEPS];
    uint8_t out[KRUPOVESH_REPORT];
    uint8_t written[KRUPOVESH_TEXT];
};

/* One call of one verdict. */
uint64_t judge_log(const struct judge *j, unsigned verdict, const struct log *l, struct buffers *b);

/* Takes the members of the order in the witness over into b->order: the first number of each entry. */
void hand_over(struct buffers *b);

/* One call of "next" after b->order. */
uint64_t judge_next(const struct judge *j, const struct log *l, struct buffers *b);

/* The version verdict's order and all that follow; how many there are. */
unsigned judge_listing(const struct judge *j, const struct log *l, struct buffers *b);

/* Makes a proposal of the commits to redo, into b->proposal. */
uint64_t judge_redo(const struct judge *j, const struct log *l, struct buffers *b);

/* Judges a proposal. */
uint64_t judge_accepts(const struct judge *j, const struct log *l, const uint16_t *proposal, struct buffers *b);

/* What is lent to the live judge. */
struct live_buffers {
    uint16_t state[KRUPOVESH_LIVE_STATE], opened[KRUPOVESH_LIVE_OPENED], rows[KRUPOVESH_LIVE_ROWS];
    uint64_t marks[KRUPOVESH_LIVE_MARKS], edges[KRUPOVESH_LIVE_EDGES];
    uint16_t answers[MOST_STEPS];
};

/* A stream from the fresh state on, so many steps a call; the last call's answer. */
uint64_t judge_stream(const struct judge *j, const struct stream *s, size_t at_once, struct live_buffers *b);

/* agree.c: how many times the two differ on the workloads, in an answer or in any byte; or on the streams, in what they say to a step.
 * It says where. */
unsigned disagreements(struct workload *room, struct stream *stream);

#endif
