/* Orders and cycles of a graph on the transactions. */
#include <string.h>

#include "peer_parts.h"

/* Fills `after` in from `before`. Only cycles need it. */
static void graph_close(struct graph *g)
{
    set members = g->members;
    memset(g->after, 0, sizeof g->after);
    while (!set_is_empty(&members)) {
        unsigned t = set_take_lowest(&members);
        set before = g->before[t];
        while (!set_is_empty(&before))
            set_add(&g->after[set_take_lowest(&before)], t);
    }
}

/* Places what is not placed yet, always the lowest that may come, and answers what cannot be placed. Who has to wait waits for one that has
 * to come before it, and is looked at again when that one is placed. */
static set place_rest(const struct graph *g, set placed, uint16_t *order)
{
    set waiting[TRANSACTIONS + 1]; /* by whom they wait for */
    set left = set_minus(g->members, placed), todo = left, ready = {{0, 0}};

    memset(waiting, 0, sizeof waiting);
    for (;;) {
        while (!set_is_empty(&todo)) {
            unsigned u = set_take_lowest(&todo);
            set early = set_and(g->before[u], left);
            set_add(set_is_empty(&early) ? &ready : &waiting[set_lowest(&early)], u);
        }
        if (set_is_empty(&ready))
            return left;
        unsigned t = set_take_lowest(&ready);
        set_remove(&left, t);
        *order++ = (uint16_t)t;
        todo = waiting[t];
    }
}

/* The length of the shortest cycle through start whose other members are in `within`, if it is at most `most`; else 0.
 * level[d] gets the members from which the shortest way to start has d edges. */
static unsigned shortest_through(const struct graph *g, unsigned start, set within, unsigned most, set *level)
{
    level[0] = (set){{0, 0}};
    set_add(&level[0], start);
    for (unsigned d = 1; d < most; d++) {
        set reached = {{0, 0}};
        for (set front = level[d - 1]; !set_is_empty(&front);)
            reached = set_or(reached, g->before[set_take_lowest(&front)]);
        level[d] = set_and(reached, within);
        within = set_minus(within, level[d]);
        if (set_is_empty(&level[d]))
            return 0;
        set meet = set_and(level[d], g->after[start]);
        if (!set_is_empty(&meet))
            return d + 1;
    }
    return 0;
}

/* The members of `left` from which an edge leads to a higher one: no other is the lowest of a cycle. */
static set rising(const struct graph *g, set left)
{
    set rises = {{0, 0}}, lower = {{0, 0}};
    while (!set_is_empty(&left)) {
        unsigned t = set_take_lowest(&left);
        rises = set_or(rises, set_and(g->before[t], lower));
        set_add(&lower, t);
    }
    return rises;
}

/* Writes the first of the shortest cycles, which lies in `left`, and answers its length. */
static unsigned first_cycle(const struct graph *g, set left, uint16_t *members)
{
    set level[TRANSACTIONS], within = {{0, 0}}, rises = rising(g, left);
    unsigned best = TRANSACTIONS + 1, start = 0;

    /* Looks for cycles with t as their lowest member, and only for shorter ones. */
    while (best > 2 && !set_is_empty(&left)) {
        unsigned t = set_take_lowest(&left);
        if (!set_has(&rises, t))
            continue;
        unsigned length = shortest_through(g, t, left, best - 1, level);
        if (length != 0) {
            best = length;
            start = t;
            within = left;
        }
    }
    shortest_through(g, start, within, best, level);
    unsigned at = start;
    for (unsigned i = 0; i < best; i++) {
        members[i] = (uint16_t)at;
        set onward = set_and(g->after[at], level[best - 1 - i]);
        at = set_lowest(&onward);
    }
    return best;
}

uint64_t graph_answer(struct graph *g, uint16_t *members)
{
    set left = place_rest(g, (set){{0, 0}}, members);
    if (set_is_empty(&left))
        return answer(KRUPOVESH_ORDER, set_count(&g->members), 0);
    graph_close(g);
    return answer(KRUPOVESH_CYCLE, first_cycle(g, left, members), 0);
}

/* Whether the 128 numbers are all members, each once and after those it has to follow, and then zeros. */
bool graph_keeps(const struct graph *g, const uint16_t *order)
{
    set left = g->members;
    for (unsigned i = 0; i < KRUPOVESH_HANDED; i++) {
        unsigned t = order[i];
        if (set_is_empty(&left)) {
            if (t != 0)
                return false;
            continue;
        }
        if (t < 1 || t > TRANSACTIONS || !set_has(&left, t))
            return false;
        set early = set_and(g->before[t], left);
        if (!set_is_empty(&early))
            return false;
        set_remove(&left, t);
    }
    return true;
}

/* Writes the first order that comes after one that the graph keeps, and answers its length; 0 if there is none. */
unsigned graph_next(const struct graph *g, const uint16_t *order, uint16_t *next)
{
    unsigned count = set_count(&g->members);
    set later = {{0, 0}}; /* what stands at i or behind it */

    for (unsigned i = count; i-- > 0;) {
        set_add(&later, order[i]);
        for (set rest = later; !set_is_empty(&rest);) {
            unsigned t = set_take_lowest(&rest);
            set early = set_and(g->before[t], later);
            if (t <= order[i] || !set_is_empty(&early))
                continue;
            memcpy(next, order, i * sizeof *next);
            next[i] = (uint16_t)t;
            set_remove(&later, t);
            place_rest(g, set_minus(g->members, later), next + i + 1);
            return count;
        }
    }
    return 0;
}
