/* Makes the logs that are measured. The same ones in every run. */
#include "workloads.h"

#include <stdio.h>
#include <string.h>

enum { BEGIN = 1, READ, WRITE, COMMIT, ABORT };

static void add(struct log *l, unsigned kind, unsigned tx, unsigned object, unsigned source)
{
    uint16_t *p = l->numbers + l->length;
    p[0] = (uint16_t)kind;
    p[1] = (uint16_t)tx;
    p[2] = (uint16_t)object;
    p[3] = (uint16_t)source;
    l->length += 4;
}

/* A transaction's write, and then `more` reads and writes of its own version. */
static void add_writes(struct log *l, unsigned tx, unsigned object, unsigned more)
{
    add(l, WRITE, tx, object, 0);
    for (unsigned i = 0; i < more; i++) {
        if (i % 2 == 0)
            add(l, READ, tx, object, tx);
        else
            add(l, WRITE, tx, object, 0);
    }
}

static void add_all(struct log *l, unsigned kind, unsigned count)
{
    for (unsigned t = 1; t <= count; t++)
        add(l, kind, t, 0, 0);
}

/* 128 transactions, all open at once: 63 write an object each, the others read one that nobody writes. */
static void no_edges(struct log *l)
{
    add_all(l, BEGIN, 128);
    for (unsigned i = 0; i < 6; i++)
        for (unsigned t = 1; t <= 128; t++)
            add(l, t < 64 ? WRITE : READ, t, t < 64 ? t : 0, 0);
    add_all(l, COMMIT, 128);
}

/* From `first` down to `last`, one after the other: each reads what the one before has written, at first from `source`. */
static void add_chain(struct log *l, unsigned first, unsigned last, unsigned object, unsigned source)
{
    for (unsigned t = first; t >= last; t--) {
        add(l, BEGIN, t, 0, 0);
        add(l, READ, t, object, source);
        object = (object + 1) % 62;
        add_writes(l, t, object, 4);
        add(l, COMMIT, t, 0, 0);
        source = t;
    }
}

static void chain(struct log *l, unsigned steps)
{
    add_chain(l, steps / 8, 1, 0, 0);
}

/* 127 and 128 each read what the other writes, and a chain goes on from 127. */
static void cycle_of_2(struct log *l)
{
    add(l, BEGIN, 127, 0, 0);
    add(l, BEGIN, 128, 0, 0);
    add(l, READ, 127, 63, 0);
    add(l, READ, 128, 62, 0);
    add_writes(l, 127, 62, 4);
    add_writes(l, 128, 63, 4);
    add(l, COMMIT, 127, 0, 0);
    add(l, COMMIT, 128, 0, 0);
    add_chain(l, 126, 1, 62, 127);
}

/* An even transaction writes an object; the one before it has read the store's version, the one after it reads this one.
 * 1 comes after 128. Reads and writes are repeated until the log is full. */
static void cycle_of_128(struct log *l)
{
    add_all(l, BEGIN, 128);
    for (unsigned i = 0; i < 4; i++)
        for (unsigned t = 1; t <= 127; t += 2)
            add(l, READ, t, t / 2, 0);
    for (unsigned i = 0; i < 4; i++)
        for (unsigned t = 2; t <= 128; t += 2)
            add(l, WRITE, t, t / 2 - 1, 0);
    for (unsigned i = 0; i < 4; i++)
        for (unsigned t = 2; t <= 128; t += 2)
            add(l, READ, t % 128 + 1, t / 2 - 1, t);
    add_all(l, COMMIT, 128);
}

static unsigned below(uint64_t *seed, unsigned bound)
{
    *seed ^= *seed << 13;
    *seed ^= *seed >> 7;
    *seed ^= *seed << 17;
    return (unsigned)((*seed >> 33) % bound);
}

/* What a random log is drawn by: how many objects there are, the version of each that a read finds, and whether this is the last one
 * that was written, or the last one committed and the reader's own. */
struct draw {
    uint64_t seed;
    unsigned objects;
    int dirty;
    unsigned last[64];
};

/* An open transaction of a random log. */
struct open {
    unsigned tx, done;
    uint64_t wrote;
};

/* One more step of a transaction: six reads and writes, then its end. True at the end. */
static int go_on(struct log *l, struct draw *d, struct open *o)
{
    unsigned x = below(&d->seed, d->objects);
    uint64_t own = o->wrote >> x & 1;

    if (o->done++ == 6) {
        int commits = below(&d->seed, 16) != 0;
        add(l, commits ? COMMIT : ABORT, o->tx, 0, 0);
        for (x = 0; x < 64; x++)
            if (commits && !d->dirty && o->wrote >> x & 1)
                d->last[x] = o->tx;
        return 1;
    }
    if (below(&d->seed, 2) == 0) {
        add(l, READ, o->tx, x, own && !d->dirty ? o->tx : d->last[x]);
    } else {
        add(l, WRITE, o->tx, x, 0);
        o->wrote |= UINT64_C(1) << x;
        if (d->dirty)
            d->last[x] = o->tx;
    }
    return 0;
}

/* Eight steps a transaction, up to six transactions open, numbered as they come by a shuffle. */
static void random_log(struct log *l, unsigned steps, struct draw d)
{
    unsigned number[128], count = steps / 8, begun = 0, at_once = 0;
    struct open open[6];

    for (unsigned i = 0; i < count; i++) {
        unsigned j = below(&d.seed, i + 1);
        number[i] = number[j];
        number[j] = i + 1;
    }
    while (l->length < 4 * (size_t)steps) {
        if (begun < count && at_once < 6 && (at_once == 0 || below(&d.seed, 4) == 0)) {
            open[at_once++] = (struct open){number[begun], 0, 0};
            add(l, BEGIN, number[begun++], 0, 0);
            continue;
        }
        unsigned i = below(&d.seed, at_once);
        if (go_on(l, &d, &open[i]))
            open[i] = open[--at_once];
    }
}

/* Eight transactions of 128 steps. All but 7 write objects 0 and 1 and six of their own; 7 reads 0 and 1 from the sources. */
static void eight(struct log *l, unsigned at_0, unsigned at_1)
{
    for (unsigned t = 1; t <= 8; t++) {
        add(l, BEGIN, t, 0, 0);
        for (unsigned i = 0; i < 126; i++) {
            if (t == 7)
                add(l, READ, t, i % 2, i % 2 == 0 ? at_0 : at_1);
            else
                add(l, WRITE, t, i % 8 < 2 ? i % 8 : 7 * t + i % 8 - 2, 0);
        }
        add(l, COMMIT, t, 0, 0);
    }
}

/* Blind writers of an object each: every order explains. */
static void free_writers(struct log *l, unsigned count)
{
    for (unsigned t = 1; t <= count; t++) {
        add(l, BEGIN, t, 0, 0);
        add(l, WRITE, t, t, 0);
        add(l, COMMIT, t, 0, 0);
    }
}

/* A chain, and 1, which may stand anywhere. */
static void chain_and_one(struct log *l)
{
    add_chain(l, 128, 2, 0, 0);
    add(l, BEGIN, 1, 0, 0);
    add_writes(l, 1, 63, 5);
    add(l, COMMIT, 1, 0, 0);
}

/* Each reads the store's version of three objects and writes them, all at once: one of them may stay. */
static void lost_updates(struct log *l)
{
    add_all(l, BEGIN, 128);
    for (unsigned x = 0; x < 3; x++)
        for (unsigned t = 1; t <= 128; t++)
            add(l, READ, t, x, 0);
    for (unsigned x = 0; x < 3; x++)
        for (unsigned t = 1; t <= 128; t++)
            add(l, WRITE, t, x, 0);
    add_all(l, COMMIT, 128);
}

/* Pairs, one after the other: each of a pair reads what the other writes. Two pairs have the same objects; the later one finds what the
 * odd one of the earlier pair wrote, and the store's version where the even one did, so that nobody has read from an even one. */
static void write_skews(struct log *l)
{
    for (unsigned t = 1; t <= 127; t += 2) {
        unsigned by_even = (t - 1) % 64, by_odd = by_even + 1;
        add(l, BEGIN, t, 0, 0);
        add(l, BEGIN, t + 1, 0, 0);
        add(l, READ, t, by_even, 0);
        add(l, READ, t + 1, by_odd, t < 64 ? 0 : t - 64);
        add_writes(l, t, by_odd, 4);
        add_writes(l, t + 1, by_even, 4);
        add(l, COMMIT, t, 0, 0);
        add(l, COMMIT, t + 1, 0, 0);
    }
}

/* Has read from each of a chain that goes from `first` down to `last` and begins with object 1, and writes object 62. */
static void add_hub(struct log *l, unsigned tx, unsigned first, unsigned last, unsigned reads)
{
    add(l, BEGIN, tx, 0, 0);
    for (unsigned i = 0; i < reads; i++) {
        unsigned further = i % (first - last + 1);
        add(l, READ, tx, 1 + further, first - further);
    }
    add(l, WRITE, tx, 62, 0);
    add(l, COMMIT, tx, 0, 0);
}

/* Each of these has read from the last of such a chain, and the store's version of what the first of it wrote: it is on a cycle with the
 * whole chain, and on no shorter one. */
static void add_closers(struct log *l, unsigned from, unsigned to, unsigned first, unsigned last)
{
    for (unsigned t = from; t <= to; t++) {
        add(l, BEGIN, t, 0, 0);
        for (unsigned i = 0; i < 5; i++) {
            if (i % 2 == 0)
                add(l, READ, t, 1 + first - last, last);
            else
                add(l, READ, t, 1, 0);
        }
        add(l, COMMIT, t, 0, 0);
    }
}

/* Those on a cycle have the highest numbers, so that all others come back before them. */
static void long_cycles(struct log *l)
{
    add_chain(l, 61, 1, 0, 0);
    add_hub(l, 62, 61, 1, 71);
    add_closers(l, 63, 128, 61, 1);
}

/* Those on a cycle have the lowest numbers, and a second chain goes on from the hub of the first. */
static void cycles_and_chain(struct log *l)
{
    add_chain(l, 127, 86, 0, 0);
    add_hub(l, 128, 127, 86, 47);
    add_closers(l, 1, 42, 127, 86);
    add_chain(l, 85, 43, 62, 128);
}

/* Blind writers of the same six objects, one after the other. */
static void same_writers(struct log *l)
{
    for (unsigned t = 128; t >= 1; t--) {
        add(l, BEGIN, t, 0, 0);
        for (unsigned x = 0; x < 6; x++)
            add(l, WRITE, t, x, 0);
        add(l, COMMIT, t, 0, 0);
    }
}

static void write_text(struct log *l)
{
    static const char *const words[] = {"begin", "read", "write", "commit", "abort"};
    char *text = (char *)l->text;
    size_t used = (size_t)sprintf(text, "steps=%zu\n", l->length / 4);
    for (size_t i = 0; i < l->length; i += 4) {
        const uint16_t *s = l->numbers + i;
        used += (size_t)snprintf(text + used, sizeof l->text - used, "op=%s tx=%u obj=%u from=%u\n",
                                 words[s[0] - 1], s[1], s[2], s[3]);
    }
    l->text_length = used;
}

static void make_random(struct workload *w, unsigned steps, unsigned objects, int dirty)
{
    w->count = MOST_LOGS;
    for (unsigned i = 0; i < w->count; i++)
        random_log(&w->logs[i], steps, (struct draw){0x9e3779b97f4a7c15 + 977 * i, objects, dirty, {0}});
}

static void write_texts(struct workload *w)
{
    for (unsigned i = 0; i < w->count; i++)
        write_text(&w->logs[i]);
}

static const char *const workloads[] = {
    "empty", "no edges, 1,024 steps", "cycle of 2, 1,024 steps", "cycle of 128, 1,024 steps",
    "chain, 128 steps", "chain, 256 steps", "chain, 512 steps", "chain, 1,024 steps",
    "random, 128 steps", "random, 256 steps", "random, 512 steps", "random, 1,024 steps",
    "8 committed, an order, 1,024 steps", "8 committed, none, 1,024 steps"};
const unsigned workload_count = sizeof workloads / sizeof *workloads;

void make_workload(unsigned index, struct workload *w)
{
    memset(w, 0, sizeof *w);
    w->name = workloads[index];
    w->count = 1;
    switch (index) {
    case 0: break;
    case 1: no_edges(w->logs); break;
    case 2: cycle_of_2(w->logs); break;
    case 3: cycle_of_128(w->logs); break;
    case 4: case 5: case 6: case 7: chain(w->logs, 128u << (index - 4)); break;
    case 8: case 9: case 10: case 11: make_random(w, 128u << (index - 8), 64, 0); break;
    case 12: eight(w->logs, 0, 0); break;
    default: eight(w->logs, 1, 2); break;
    }
    write_texts(w);
}

static const char *const listings[] = {"6 free writers, 18 steps", "chain of 127 and one free, 1,024 steps"};
const unsigned listing_count = sizeof listings / sizeof *listings;

void make_listing(unsigned index, struct workload *w)
{
    memset(w, 0, sizeof *w);
    w->name = listings[index];
    w->count = 1;
    if (index == 0)
        free_writers(w->logs, 6);
    else
        chain_and_one(w->logs);
    write_texts(w);
}

/* First those workloads that have 1,024 steps. */
static const unsigned longest[] = {1, 2, 3, 7, 11, 12, 13};
enum { LONGEST = sizeof longest / sizeof *longest };
static const char *const plans[] = {
    "lost updates, 1,024 steps", "write skews, 1,024 steps", "66 long cycles, 1,024 steps", "42 long cycles and a chain, 1,024 steps",
    "writers of the same, 1,024 steps", "random, 8 objects, 1,024 steps", "random, dirty reads, 1,024 steps"};
const unsigned plan_count = LONGEST + sizeof plans / sizeof *plans;

void make_plan(unsigned index, struct workload *w)
{
    if (index < LONGEST) {
        make_workload(longest[index], w);
        return;
    }
    memset(w, 0, sizeof *w);
    w->name = plans[index - LONGEST];
    w->count = 1;
    switch (index - LONGEST) {
    case 0: lost_updates(w->logs); break;
    case 1: write_skews(w->logs); break;
    case 2: long_cycles(w->logs); break;
    case 3: cycles_and_chain(w->logs); break;
    case 4: same_writers(w->logs); break;
    case 5: make_random(w, 1024, 8, 0); break;
    default: make_random(w, 1024, 64, 1); break;
    }
    write_texts(w);
}
