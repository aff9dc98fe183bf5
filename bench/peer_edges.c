/* The graphs of the conflict and the version verdict. */
#include <string.h>

#include "peer_parts.h"

static void start_graph(const struct history *h, struct graph *g)
{
    g->members = (set){{0, 0}};
    memset(g->before, 0, sizeof g->before);
    for (unsigned i = 0; i < h->committed; i++)
        set_add(&g->members, h->by_commit[i]);
}

void conflict_graph(const struct history *h, struct graph *g)
{
    set readers[OBJECTS], writers[OBJECTS];
    memset(readers, 0, sizeof readers);
    memset(writers, 0, sizeof writers);

    start_graph(h, g);
    for (unsigned k = 0; k < h->steps; k++) {
        struct step s = step_at(h, k);
        if ((s.kind != READ && s.kind != WRITE) || h->state[s.tx] != COMMITTED)
            continue;
        set *before = &g->before[s.tx];
        *before = set_or(*before, writers[s.object]);
        if (s.kind == WRITE) {
            *before = set_or(*before, readers[s.object]);
            set_add(&writers[s.object], s.tx);
        } else {
            set_add(&readers[s.object], s.tx);
        }
    }
    for (unsigned i = 0; i < h->committed; i++)
        set_remove(&g->before[h->by_commit[i]], h->by_commit[i]);
}

static void add_edge(struct graph *g, unsigned from, unsigned to)
{
    if (from != 0 && to != 0 && from != to)
        set_add(&g->before[to], from);
}

/* The log has to be clean. */
void version_graph(const struct history *h, struct graph *g, struct versions *v)
{
    uint8_t last[OBJECTS] = {0};

    start_graph(h, g);
    memset(v, 0, sizeof *v);
    for (unsigned i = 0; i < h->committed; i++) {
        unsigned t = h->by_commit[i];
        for (uint64_t rest = h->wrote[t]; rest != 0; rest = without_lowest(rest)) {
            unsigned x = lowest_bit(rest);
            add_edge(g, last[x], t);
            v->following[last[x]][x] = (uint8_t)t;
            last[x] = (uint8_t)t;
        }
    }
    for (unsigned k = 0; k < h->steps; k++) {
        struct step s = step_at(h, k);
        if (s.kind != READ || h->state[s.tx] != COMMITTED)
            continue;
        add_edge(g, s.source, s.tx);
        add_edge(g, s.tx, v->following[s.source][s.object]);
    }
}
