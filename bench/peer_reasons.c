/* Orders and cycles as entries of a witness, and why each member of a cycle leads to the following one. */
#include <string.h>

#include "peer_parts.h"

void lay_order(const uint16_t *members, unsigned count, uint16_t *witness)
{
    for (unsigned i = 0; i < count; i++) {
        uint16_t *entry = witness + KRUPOVESH_ENTRY * i;
        entry[0] = members[i];
        entry[1] = entry[2] = 0;
    }
}

/* A cycle, by transaction: who stands just before it, and the first of the reasons found for which that one leads to it. A reason is
 * 4 times its object plus its kind, so that the first is the least. Who is no member has 0 before it. */
struct ring {
    uint8_t before[TRANSACTIONS + 1];
    uint16_t reason[TRANSACTIONS + 1];
};

static void start_ring(struct ring *r, const uint16_t *members, unsigned count)
{
    memset(r->before, 0, sizeof r->before);
    memset(r->reason, 0xff, sizeof r->reason);
    for (unsigned i = 0; i < count; i++)
        r->before[members[i]] = (uint8_t)members[i == 0 ? count - 1 : i - 1];
}

static inline void note_reason(struct ring *r, unsigned to, unsigned kind, unsigned object)
{
    unsigned reason = 4 * object + kind;
    if (reason < r->reason[to])
        r->reason[to] = (uint16_t)reason;
}

static void lay_ring(const struct ring *r, const uint16_t *members, unsigned count, uint16_t *witness)
{
    for (unsigned i = 0; i < count; i++) {
        uint16_t *entry = witness + KRUPOVESH_ENTRY * i;
        unsigned reason = r->reason[members[i + 1 == count ? 0 : i + 1]];
        entry[0] = members[i];
        entry[1] = (uint16_t)(reason % 4);
        entry[2] = (uint16_t)(reason / 4);
    }
}

/* Any step of a member after a step of the one that stands before it. Nothing is marked at 0, so other steps give no reason. */
void lay_conflict_cycle(const struct history *h, const uint16_t *members, unsigned count, uint16_t *witness)
{
    uint64_t read[TRANSACTIONS + 1] = {0}, wrote[TRANSACTIONS + 1] = {0}; /* up to the step; bit x stands for object x */
    struct ring r;

    start_ring(&r, members, count);
    for (unsigned k = 0; k < h->steps; k++) {
        struct step s = step_at(h, k);
        unsigned from = r.before[s.tx];
        uint64_t bit = UINT64_C(1) << s.object;
        if (s.kind == READ) {
            if (wrote[from] & bit)
                note_reason(&r, s.tx, KRUPOVESH_WR, s.object);
            read[s.tx] |= bit;
        } else if (s.kind == WRITE) {
            if (wrote[from] & bit)
                note_reason(&r, s.tx, KRUPOVESH_WW, s.object);
            else if (read[from] & bit)
                note_reason(&r, s.tx, KRUPOVESH_RW, s.object);
            wrote[s.tx] |= bit;
        }
    }
    lay_ring(&r, members, count, witness);
}

/* An edge counts where it leads to a member from the one that stands before it. What is noted at others is not looked at. */
static inline void note_edge(struct ring *r, unsigned from, unsigned to, unsigned kind, unsigned object)
{
    if (r->before[to] == from)
        note_reason(r, to, kind, object);
}

/* The log has to be clean. */
void lay_version_cycle(const struct history *h, const struct versions *v, const uint16_t *members, unsigned count,
                       uint16_t *witness)
{
    struct ring r;

    start_ring(&r, members, count);
    for (unsigned k = 0; k < h->steps; k++) {
        struct step s = step_at(h, k);
        if (s.kind == WRITE) {
            note_edge(&r, s.tx, v->following[s.tx][s.object], KRUPOVESH_WW, s.object);
        } else if (s.kind == READ) {
            note_edge(&r, s.source, s.tx, KRUPOVESH_WR, s.object);
            note_edge(&r, s.tx, v->following[s.source][s.object], KRUPOVESH_RW, s.object);
        }
    }
    lay_ring(&r, members, count, witness);
}
