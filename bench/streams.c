/* Makes the streams that the live judge is measured on. The same ones in every run; each step of them is good, and no commit is but yes. */
#include "streams.h"

#include <string.h>

enum { BEGIN = 1, READ, WRITE, COMMIT };
enum { PLACES = 128, OBJECTS = 64, FEW = 4 };

static void add(struct stream *s, unsigned kind, unsigned tx, unsigned object, unsigned source)
{
    uint16_t *p = s->numbers + 4 * s->steps++;
    p[0] = (uint16_t)kind;
    p[1] = (uint16_t)tx;
    p[2] = (uint16_t)object;
    p[3] = (uint16_t)source;
}

/* Numbers in turn, or, where it has a seed, drawn. */
struct turn {
    uint64_t seed;
    unsigned place;
};

static unsigned next_of(struct turn *t, unsigned bound)
{
    if (t->seed == 0)
        return t->place++ % bound;
    t->seed ^= t->seed << 13;
    t->seed ^= t->seed >> 7;
    t->seed ^= t->seed << 17;
    return (unsigned)((t->seed >> 33) % bound);
}

/* An open transaction: what it sees, and what it wrote. */
struct open {
    unsigned tx, sees[OBJECTS];
    int writes;
    uint64_t wrote;
};

/* A write, or a read of what it has to find. */
static void touch(struct stream *s, struct open *o, unsigned object, int is_write)
{
    if (is_write) {
        add(s, WRITE, o->tx, object, 0);
        o->wrote |= UINT64_C(1) << object;
    } else {
        add(s, READ, o->tx, object, o->wrote >> object & 1 ? o->tx : o->sees[object]);
    }
}

static void begin(struct stream *s, struct open *o, unsigned tx, const unsigned *now, int writes)
{
    o->tx = tx;
    o->writes = writes;
    o->wrote = 0;
    memcpy(o->sees, now, sizeof o->sees);
    add(s, BEGIN, tx, 0, 0);
}

static void commit(struct stream *s, const struct open *o, unsigned *now)
{
    for (unsigned x = 0; x < OBJECTS; x++)
        if (o->wrote >> x & 1)
            now[x] = o->tx;
    add(s, COMMIT, o->tx, 0, 0);
}

/* Who is next, on which object, and whether it writes. */
struct turns {
    struct turn who, object, kind;
};

static struct turns start(uint64_t seed)
{
    return (struct turns){{seed, 0}, {3 * seed, 0}, {5 * seed, 0}};
}

/* A step of one of those that are open; by turns each comes to each of the objects 0 to 62. */
static void touch_one(struct stream *s, struct open *open, unsigned count, struct turns *t)
{
    struct open *o;
    do
        o = &open[next_of(&t->who, count)];
    while (o->tx == 0);
    touch(s, o, next_of(&t->object, OBJECTS - 1), o->writes && next_of(&t->kind, 2) == 0);
}

/* Four open at once, of which one writes and the others see what was there when they began. As one commits, the next one begins, until so
 * many have begun. */
static void few_open(struct stream *s, size_t steps, unsigned transactions, uint64_t seed)
{
    struct open open[FEW];
    struct turns t = start(seed);
    unsigned now[OBJECTS] = {0}, begun = 0;
    size_t touches = steps - 2 * (size_t)transactions, done = 0;

    for (; begun < FEW; begun++)
        begin(s, &open[begun], begun + 1, now, begun == 0);
    for (unsigned ended = 0; ended < transactions; ended++) {
        struct open *o = &open[ended % FEW];
        for (; done < touches * (ended + 1) / transactions; done++)
            touch_one(s, open, FEW, &t);
        commit(s, o, now);
        if (begun < transactions)
            begin(s, o, ++begun, now, o->writes);
        else
            o->tx = 0;
    }
}

/* All open at once: half of them write and read an object each, and the others read all objects; then all commit. */
static void all_open(struct stream *s, size_t steps, unsigned transactions, uint64_t seed)
{
    struct open open[PLACES];
    struct turns t = start(seed);
    unsigned now[OBJECTS] = {0};

    for (unsigned i = 0; i < transactions; i++)
        begin(s, &open[i], i + 1, now, i % 2 == 1);
    for (size_t done = 2 * transactions; done < steps; done++) {
        unsigned i = next_of(&t.who, transactions);
        if (open[i].writes)
            touch(s, &open[i], i / 2, open[i].wrote == 0 || next_of(&t.kind, 2) == 0);
        else
            touch(s, &open[i], next_of(&t.object, OBJECTS - 1), 0);
    }
    for (unsigned i = 0; i < transactions; i++)
        commit(s, &open[i], now);
}

#define DRAWN UINT64_C(0x9e3779b97f4a7c15)

static const struct {
    const char *name;
    size_t steps;
    unsigned transactions;
    void (*make)(struct stream *, size_t, unsigned, uint64_t);
    uint64_t seed;
} streams[] = {
    {"few open, in turn, 1,000 steps", 1000, PLACES, few_open, 0},
    {"few open, in turn, 10,000 steps", 10000, PLACES, few_open, 0},
    {"few open, in turn, 100,000 steps", 100000, PLACES, few_open, 0},
    {"few open, drawn, 100,000 steps", 100000, PLACES, few_open, DRAWN},
    {"few open, on and on, in turn, 10,000 steps", 10000, 10000 / 16, few_open, 0},
    {"few open, on and on, in turn, 1,000,000 steps", 1000000, 1000000 / 16, few_open, 0},
    {"few open, on and on, drawn, 10,000 steps", 10000, 10000 / 16, few_open, DRAWN},
    {"few open, on and on, drawn, 1,000,000 steps", 1000000, 1000000 / 16, few_open, DRAWN},
    {"128 open, in turn, 1,000 steps", 1000, PLACES, all_open, 0},
    {"128 open, in turn, 10,000 steps", 10000, PLACES, all_open, 0},
    {"128 open, in turn, 100,000 steps", 100000, PLACES, all_open, 0},
    {"128 open, drawn, 100,000 steps", 100000, PLACES, all_open, DRAWN},
};
const unsigned stream_count = sizeof streams / sizeof *streams;

void make_stream(unsigned index, struct stream *s)
{
    s->name = streams[index].name;
    s->steps = 0;
    streams[index].make(s, streams[index].steps, streams[index].transactions, streams[index].seed);
}
