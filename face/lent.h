/* Lent buffers with guard bytes around them, calls over them, and what each buffer is due to hold after a call. */
#ifndef LENT_H
#define LENT_H

#include <stddef.h>
#include <stdint.h>

#include "../include/krupovesh.h"

/* No buffer that is lent is longer. */
enum { MOST_BYTES = 600000 };

/* Those up to WRITE take a log. OUT is the report's buffer, WRITTEN the writer's, and STATE to EDGES are the live judge's state. */
enum function { CLEAN, SNAPSHOT, CONFLICT, VERSION, EXACT, NEXT, ACCEPTS, REDO, WRITE, READ, REPORT, LIVE, FUNCTIONS };
enum buffer {
    LOG, TEXT, PART, ANSWERS,
    ORDER, PROPOSAL, WORK, WITNESS, STEPS, OUT, WRITTEN,
    STATE, OPEN, ROWS, MARKS, EDGES,
    BUFFERS
};

/* Whether a function takes a buffer; the length a buffer has to have, 0 where any will do, or another buffer decides. */
int takes(enum function f, enum buffer b);
size_t right_length(enum buffer b);

/* Lends a buffer: with the given contents, or dirty where they are NULL. It is due to stay as it is. */
void lend(enum buffer b, size_t entries, const void *contents);

/* Lends the buffers of a function, dirty and of right length. */
void lend_for(enum function f);

/* The buffer is due to hold these entries, and zeros behind them. */
void make_due(enum buffer b, const void *contents, size_t entries);

/* The buffer may hold anything after the calls that follow; only what is around it is due to stay. */
void let_change(enum buffer b);

/* The buffer is due to stay as it is now. */
void keep(enum buffer b);

/* What a buffer holds now, as bytes. */
const uint8_t *held(enum buffer b);

/* An answer, put together from its parts. */
uint64_t answer(unsigned kind, unsigned first, unsigned second);
uint64_t wrong_read(unsigned step, unsigned writer, unsigned commit);

/* Calls the function, and hands on what it answers. It agrees where that is the answer that is due, and where it leaves in each
 * buffer, and around it, what is due. */
uint64_t try_call(enum function f, uint64_t due_answer, const char *about);

/* One more thing that has to be so; what it means if it is not. */
void note(int is_so, const char *if_not);

/* How many calls and other things were tried, and how many agree. */
extern unsigned long calls, agreeing;

#endif
