/* The exact search. */
#include <string.h>

#include "peer_parts.h"

struct search {
    unsigned count;
    unsigned tx[SEARCHED];         /* the committed, lowest first */
    uint64_t writes[SEARCHED];     /* bit x stands for object x */
    uint64_t reads[SEARCHED];      /* objects read from another */
    uint8_t source[SEARCHED][OBJECTS];
};

/* Notes what each committed transaction has to find. False if one of them has to find two writers at one object. */
static bool prepare(const struct history *h, struct search *s)
{
    uint8_t index[TRANSACTIONS + 1];

    memset(s, 0, sizeof *s);
    for (unsigned t = 1; t <= TRANSACTIONS; t++) {
        if (h->state[t] != COMMITTED)
            continue;
        index[t] = (uint8_t)s->count;
        s->tx[s->count] = t;
        s->writes[s->count++] = h->wrote[t];
    }
    for (unsigned k = 0; k < h->steps; k++) {
        struct step r = step_at(h, k);
        if (r.kind != READ || h->state[r.tx] != COMMITTED || r.source == r.tx)
            continue;
        unsigned i = index[r.tx];
        uint64_t bit = UINT64_C(1) << r.object;
        if (s->reads[i] & bit && s->source[i][r.object] != r.source)
            return false;
        s->reads[i] |= bit;
        s->source[i][r.object] = (uint8_t)r.source;
    }
    return true;
}

/* Whether transaction i finds all its sources as last writers. */
static bool fits(const struct search *s, unsigned i, const uint8_t *last)
{
    for (uint64_t rest = s->reads[i]; rest != 0; rest = without_lowest(rest)) {
        unsigned x = lowest_bit(rest);
        if (last[x] != s->source[i][x])
            return false;
    }
    return true;
}

/* Places those in `left`, one bit each, at order[0] and on. */
static bool place(const struct search *s, unsigned left, const uint8_t *last, uint16_t *order)
{
    if (left == 0)
        return true;
    for (unsigned rest = left; rest != 0; rest &= rest - 1) {
        unsigned i = lowest_bit(rest);
        if (!fits(s, i, last))
            continue;
        uint8_t now[OBJECTS];
        memcpy(now, last, sizeof now);
        for (uint64_t w = s->writes[i]; w != 0; w = without_lowest(w))
            now[lowest_bit(w)] = (uint8_t)s->tx[i];
        if (place(s, left & ~(1u << i), now, order + 1)) {
            order[0] = (uint16_t)s->tx[i];
            return true;
        }
    }
    return false;
}

/* The log has to be clean, with at most 8 committed. */
uint64_t exact_answer(const struct history *h, uint16_t *witness)
{
    static const uint8_t store[OBJECTS];
    struct search s;
    uint16_t order[SEARCHED];

    if (!prepare(h, &s) || !place(&s, (1u << s.count) - 1, store, order))
        return answer(KRUPOVESH_NONE, 0, 0);
    lay_order(order, s.count, witness);
    return answer(KRUPOVESH_ORDER, s.count, 0);
}
