/* What the files of the peer share. */
#ifndef PEER_PARTS_H
#define PEER_PARTS_H

#include <stdbool.h>
#include <stddef.h>
#include <stdint.h>

#include "../include/krupovesh.h"

enum { TRANSACTIONS = 128, OBJECTS = 64, STEPS = 1024, SEARCHED = 8 };
enum { BEGIN = 1, READ, WRITE, COMMIT, ABORT };
enum { UNKNOWN, OPEN, COMMITTED, ABORTED };

static inline uint64_t answer(uint64_t kind, uint64_t first, uint64_t second)
{
    return kind | first << 16 | second << 32;
}

/* A wrong read: its step, the writer that it should have found, and the step of that one's commit, 0 for the reader itself. */
static inline uint64_t wrong_read(uint64_t step, uint64_t writer, uint64_t commit)
{
    return answer(KRUPOVESH_READ_AT, step, writer) | commit << 48;
}

static inline uint64_t refused(unsigned number, unsigned place)
{
    return answer(KRUPOVESH_REFUSED, number, place);
}

/* The lowest bit of a word that is not 0, and the word without it. */
static inline unsigned lowest_bit(uint64_t word)
{
    return (unsigned)__builtin_ctzll(word);
}

static inline uint64_t without_lowest(uint64_t word)
{
    return word & (word - 1);
}

/* A set of transactions: bit t - 1 stands for t. */
typedef struct {
    uint64_t word[2];
} set;

static inline void set_add(set *s, unsigned t)
{
    s->word[(t - 1) / 64] |= UINT64_C(1) << (t - 1) % 64;
}

static inline void set_remove(set *s, unsigned t)
{
    s->word[(t - 1) / 64] &= ~(UINT64_C(1) << (t - 1) % 64);
}

static inline bool set_has(const set *s, unsigned t)
{
    return s->word[(t - 1) / 64] >> (t - 1) % 64 & 1;
}

static inline bool set_is_empty(const set *s)
{
    return (s->word[0] | s->word[1]) == 0;
}

static inline unsigned set_count(const set *s)
{
    return (unsigned)(__builtin_popcountll(s->word[0]) + __builtin_popcountll(s->word[1]));
}

/* The lowest member of a set that is not empty. */
static inline unsigned set_lowest(const set *s)
{
    return s->word[0] ? lowest_bit(s->word[0]) + 1 : lowest_bit(s->word[1]) + 65;
}

static inline unsigned set_take_lowest(set *s)
{
    unsigned t = set_lowest(s);
    set_remove(s, t);
    return t;
}

static inline set set_and(set a, set b)
{
    return (set){{a.word[0] & b.word[0], a.word[1] & b.word[1]}};
}

static inline set set_or(set a, set b)
{
    return (set){{a.word[0] | b.word[0], a.word[1] | b.word[1]}};
}

static inline set set_minus(set a, set b)
{
    return (set){{a.word[0] & ~b.word[0], a.word[1] & ~b.word[1]}};
}

/* A checked log, and what the check has learned of it. Index 0 of the tables is writer 0. */
struct history {
    const uint16_t *log;
    unsigned steps;
    unsigned committed;
    unsigned own; /* the first read of a committed one that missed its own write; 0 if there is none */
    uint8_t by_commit[TRANSACTIONS]; /* the committed, in commit order */
    uint8_t state[TRANSACTIONS + 1];
    uint16_t begin[TRANSACTIONS + 1]; /* steps */
    uint16_t end[TRANSACTIONS + 1];
    uint16_t missed[TRANSACTIONS + 1]; /* the first read that missed the transaction's own write; 0 if there is none */
    uint64_t wrote[TRANSACTIONS + 1]; /* bit x stands for object x */
};

struct step {
    uint16_t kind, tx, object, source;
};

static inline struct step step_at(const struct history *h, unsigned k)
{
    const uint16_t *p = h->log + 4 * (size_t)k;
    return (struct step){p[0], p[1], p[2], p[3]};
}

/* following[t][x]: the writer of the version of x after that of t; 0 if there is none. */
struct versions {
    uint8_t following[TRANSACTIONS + 1][OBJECTS];
};

struct graph {
    set members;
    set before[TRANSACTIONS + 1]; /* before[t]: where edges to t come from */
    set after[TRANSACTIONS + 1];  /* after[t]: where edges from t lead; filled in where there is a cycle */
};

/* peer_check.c: 0, or the refusal with number 1 to 11. */
uint64_t peer_check(struct history *h, const uint16_t *log, size_t length);

/* peer_graph.c. Orders and cycles are plain numbers here, one for each member. */
uint64_t graph_answer(struct graph *g, uint16_t *members);
bool graph_keeps(const struct graph *g, const uint16_t *order);
unsigned graph_next(const struct graph *g, const uint16_t *order, uint16_t *next);

/* peer_edges.c: the two graphs of a log, and the versions that the second is made of. */
void conflict_graph(const struct history *h, struct graph *g);
void version_graph(const struct history *h, struct graph *g, struct versions *v);

/* peer_reasons.c: an order or a cycle as entries of a witness. Nothing behind them is written. */
void lay_order(const uint16_t *members, unsigned count, uint16_t *witness);
void lay_conflict_cycle(const struct history *h, const uint16_t *members, unsigned count, uint16_t *witness);
void lay_version_cycle(const struct history *h, const struct versions *v, const uint16_t *members, unsigned count,
                       uint16_t *witness);

/* peer_exact.c. */
uint64_t exact_answer(const struct history *h, uint16_t *witness);

/* peer_verdicts.c. The fault is 0 where the log is clean. */
uint64_t fault_of(const struct history *h);
uint64_t snapshot_answer(const struct history *h);
uint64_t conflict_answer(const struct history *h, uint16_t *witness);
uint64_t version_answer(const struct history *h, uint16_t *witness);

#endif
