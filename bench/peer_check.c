/* The check of a log: one walk. */
#include <string.h>

#include "peer_parts.h"

/* The number that turns step s away, or 0. */
static unsigned step_refusal(const struct history *h, struct step s)
{
    bool touches = s.kind == READ || s.kind == WRITE;

    if (s.kind < BEGIN || s.kind > ABORT)
        return 3;
    if (s.tx < 1 || s.tx > TRANSACTIONS)
        return 4;
    if (s.object >= (touches ? OBJECTS : 1))
        return 5;
    if (s.source > (s.kind == READ ? TRANSACTIONS : 0))
        return 6;
    if (s.kind == BEGIN)
        return h->state[s.tx] == UNKNOWN ? 0 : 7;
    if (h->state[s.tx] != OPEN)
        return 8;
    if (s.kind != READ)
        return 0;
    if (s.source != 0 && !(h->wrote[s.source] >> s.object & 1))
        return 9;
    return 0;
}

/* Notes what step k, which is not turned away, has done. */
static void note(struct history *h, struct step s, unsigned k)
{
    switch (s.kind) {
    case BEGIN:
        h->state[s.tx] = OPEN;
        h->begin[s.tx] = (uint16_t)k;
        break;
    case READ:
        if (s.source != s.tx && h->wrote[s.tx] >> s.object & 1 && h->missed[s.tx] == 0)
            h->missed[s.tx] = (uint16_t)k;
        break;
    case WRITE:
        h->wrote[s.tx] |= UINT64_C(1) << s.object;
        break;
    case COMMIT:
        h->state[s.tx] = COMMITTED;
        h->end[s.tx] = (uint16_t)k;
        h->by_commit[h->committed++] = (uint8_t)s.tx;
        if (h->missed[s.tx] != 0 && (h->own == 0 || h->missed[s.tx] < h->own))
            h->own = h->missed[s.tx];
        break;
    case ABORT:
        h->state[s.tx] = ABORTED;
        h->end[s.tx] = (uint16_t)k;
        break;
    }
}

uint64_t peer_check(struct history *h, const uint16_t *log, size_t length)
{
    if (length % 4 != 0)
        return refused(1, 0);
    if (length / 4 > STEPS)
        return refused(2, 0);

    memset(h, 0, sizeof *h);
    h->log = log;
    h->steps = (unsigned)(length / 4);
    for (unsigned k = 0; k < h->steps; k++) {
        struct step s = step_at(h, k);
        unsigned number = step_refusal(h, s);
        if (number != 0)
            return refused(number, k);
        note(h, s, k);
    }
    for (unsigned t = 1; t <= TRANSACTIONS; t++)
        if (h->state[t] == OPEN)
            return refused(11, t);
    return 0;
}
