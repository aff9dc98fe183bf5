/* The C face of Krupovesh: the verdicts over a log's numbers, the text reader, the writer, the report, the live judge, and which
 * commits to redo.
 *
 * Each buffer is a pointer, which is never null, and a length in numbers or bytes. Any length and any contents may be handed in.
 * No two buffers of a call may overlap.
 * A log has four numbers for each step: kind, transaction, object, source.
 *
 * Each function answers one number. Its low 16 bits are the kind of answer, the next 16 its first value, the next 16 its second, and
 * the last 16 its third:
 *
 *     kind                    first value              second value              third value
 *     KRUPOVESH_REFUSED       number of the refusal    its place                 0
 *     KRUPOVESH_ORDER         length of the order      0                         0
 *     KRUPOVESH_CYCLE         length of the cycle      0                         0
 *     KRUPOVESH_NONE          0                        0                         0
 *     KRUPOVESH_ABORTED       step of the read         0                         0
 *     KRUPOVESH_UNFINAL       step of the read         0                         0
 *     KRUPOVESH_OWN           step of the read         0                         0
 *     KRUPOVESH_YES           0                        0                         0
 *     KRUPOVESH_READ_AT       step of the read         the writer that it        step of that writer's commit,
 *                                                      should have found         or 0 for writer 0 and
 *                                                                                for the reader itself
 *     KRUPOVESH_WRITE_AT      step of the commit       the partner               0
 *     KRUPOVESH_ACCEPTED      steps read, bytes        0                         0
 *                             written, or members
 *                             proposed; 0 from the
 *                             live judge
 *     KRUPOVESH_NO            0                        0                         0
 *
 * Writer 0 is the store before the log began.
 *
 * After a refusal every lent number and byte is as it was. After any other answer the work area is all 0, and a witness buffer holds
 * the order or the cycle, if there is one, and then zeros. What the live judge keeps in its state is its own.
 *
 * An entry of the witness is three numbers: a transaction, a kind and an object. On a cycle these are the kind and the object of the
 * dependency that leads to the following member, and from the last one back to the first. In an order both are 0. */
#ifndef KRUPOVESH_H
#define KRUPOVESH_H

#include <stddef.h>
#include <stdint.h>

#ifdef __cplusplus
extern "C" {
#endif

/* How many numbers an entry of the witness has. */
#define KRUPOVESH_ENTRY 3

/* How many numbers or bytes each lent buffer has to have. The witness has 128 entries. */
#define KRUPOVESH_WORK 16384
#define KRUPOVESH_WITNESS 384
#define KRUPOVESH_HANDED 128
#define KRUPOVESH_PROPOSAL 128
#define KRUPOVESH_STEPS 4096
#define KRUPOVESH_REPORT 4096
#define KRUPOVESH_TEXT 33803

/* How many numbers each buffer of the live judge's state has to have. */
#define KRUPOVESH_LIVE_STATE 3
#define KRUPOVESH_LIVE_OPENED 256
#define KRUPOVESH_LIVE_ROWS 8643
#define KRUPOVESH_LIVE_MARKS 256
#define KRUPOVESH_LIVE_EDGES 256

/* The kinds of dependency: a write after a write, a read after a write, a write after a read. */
#define KRUPOVESH_WW 1
#define KRUPOVESH_WR 2
#define KRUPOVESH_RW 3

/* The kinds of answer. */
#define KRUPOVESH_REFUSED 0
#define KRUPOVESH_ORDER 1
#define KRUPOVESH_CYCLE 2
#define KRUPOVESH_NONE 3
#define KRUPOVESH_ABORTED 4
#define KRUPOVESH_UNFINAL 5
#define KRUPOVESH_OWN 6
#define KRUPOVESH_YES 7
#define KRUPOVESH_READ_AT 8
#define KRUPOVESH_WRITE_AT 9
#define KRUPOVESH_ACCEPTED 10
#define KRUPOVESH_NO 11

/* What the live judge says to a step that it does not refuse. */
#define KRUPOVESH_LIVE_TAKEN 64
#define KRUPOVESH_LIVE_YES 65
#define KRUPOVESH_LIVE_BREACH 66
#define KRUPOVESH_LIVE_CLOSED 67

/* The parts of an answer. */
#define KRUPOVESH_KIND(answer) ((uint16_t)(answer))
#define KRUPOVESH_FIRST(answer) ((uint16_t)((answer) >> 16))
#define KRUPOVESH_SECOND(answer) ((uint16_t)((answer) >> 32))
#define KRUPOVESH_THIRD(answer) ((uint16_t)((answer) >> 48))

/* Refused, yes, aborted, unfinal, own. */
uint64_t krupovesh_clean(const uint16_t *log, size_t log_length, uint8_t *work, size_t work_length);

/* Refused, yes, read at, write at. */
uint64_t krupovesh_snapshot(const uint16_t *log, size_t log_length, uint8_t *work, size_t work_length);

/* Refused, order, cycle. */
uint64_t krupovesh_conflict(const uint16_t *log, size_t log_length, uint8_t *work, size_t work_length,
                            uint16_t *witness, size_t witness_length);

/* Refused, order, cycle, aborted, unfinal, own. */
uint64_t krupovesh_version(const uint16_t *log, size_t log_length, uint8_t *work, size_t work_length,
                           uint16_t *witness, size_t witness_length);

/* Refused, order, none, aborted, unfinal, own. */
uint64_t krupovesh_exact(const uint16_t *log, size_t log_length, uint8_t *work, size_t work_length,
                         uint16_t *witness, size_t witness_length);

/* After the order handed in, which has KRUPOVESH_HANDED numbers: its members and then zeros, with no kinds and objects between them.
 * Refused, order, none. */
uint64_t krupovesh_next(const uint16_t *log, size_t log_length, const uint16_t *order, size_t order_length,
                        uint8_t *work, size_t work_length, uint16_t *witness, size_t witness_length);

/* Reads a text's steps into the step buffer, zeros behind them. Refused, or accepted with the number of steps. */
uint64_t krupovesh_read(const uint8_t *text, size_t text_length, uint16_t *steps, size_t steps_length);

/* Writes the text of a log, zeros behind it: the one text that is read as the same steps. Refused, or accepted with the number of
 * bytes. */
uint64_t krupovesh_write(const uint16_t *log, size_t log_length, uint8_t *out, size_t out_length);

/* Writes the report of a text, zeros behind it. Refused, always with number 12, or accepted with the number of bytes. */
uint64_t krupovesh_report(const uint8_t *text, size_t text_length, uint8_t *out, size_t out_length);

/* Judges the next part of a log while it is being written: any number of whole steps, none too. The five buffers of the state are
 * lent to every call, and carry it from part to part; all of them zero is the fresh state, in which nothing has begun. How the log
 * is cut into parts makes no difference.
 *
 * Transactions are 1..65535 and begin in rising order. 128 places may be in use at a time: by the open transactions, and by the
 * committed ones that are kept. An aborted one gives its place back at once; a committed one does when all that overlapped it have
 * ended and no kept committed one has a version edge to it. Sources may be any number on a read. There is no limit on steps.
 *
 * Each step gets one entry of the answers, which are as many as the steps of the part:
 *
 *     3, 4, 5, 6, 8             as for a log, with 4 for transaction 0 alone: the step was refused, and is as if it had not come
 *     7                         refused: a begin that is not above every one before it
 *     18                        refused: a begin, and all 128 places are in use; later it may be taken
 *     KRUPOVESH_LIVE_TAKEN      a good step that is no commit
 *     KRUPOVESH_LIVE_YES        a good commit
 *     KRUPOVESH_LIVE_BREACH     with this commit the log so far is no snapshot any more
 *     KRUPOVESH_LIVE_CLOSED     with this commit the versions of the log so far have a cycle
 *
 * The last two stand: whichever came first is the answer to every later step, good or bad. The log so far is read with open
 * transactions as aborted. A read from a source that had not written the object, or after the reader's own write from another, is a
 * wrong one, and makes a breach of the reader's commit.
 *
 * Refused with number 1 where the part is no whole number of steps, or else with 12 where a buffer has another length: nothing lent
 * is changed then. Otherwise accepted. Any contents of the state are safe to hand in; what is said from a state that was not
 * reached from the fresh one means nothing. */
uint64_t krupovesh_live(uint16_t *state, size_t state_length, uint16_t *opened, size_t opened_length,
                        uint16_t *rows, size_t rows_length, uint64_t *marks, size_t marks_length,
                        uint64_t *edges, size_t edges_length, const uint16_t *part, size_t part_length,
                        uint16_t *answers, size_t answers_length);

/* A proposal names commits to take back: that means the log with those commits turned into aborts. It has KRUPOVESH_PROPOSAL numbers,
 * its members first, in any order, and zeros after them. A log is fine when it is clean and has a version order; a proposal will do
 * when the log that it means is fine, and turning any single member back into a commit would spoil that.
 *
 * Judges a proposal, whoever made it. Refused, yes, no. Refused with number 19 at place 0, after all numbers of the log itself, where
 * it names the same transaction twice, or one that isn't committed, or has a member after a zero. */
uint64_t krupovesh_accepts(const uint16_t *log, size_t log_length, const uint16_t *proposal, size_t proposal_length,
                           uint8_t *work, size_t work_length);

/* Writes a proposal that will do, its members rising, zeros behind them: no members where the log is fine already. Every commit is
 * taken back at first; then, again and again, the lowest is given back that leaves the log fine, until none does. Refused, or
 * accepted with the number of members. */
uint64_t krupovesh_redo(const uint16_t *log, size_t log_length, uint8_t *work, size_t work_length,
                        uint16_t *proposal, size_t proposal_length);

#ifdef __cplusplus
}
#endif

#endif
