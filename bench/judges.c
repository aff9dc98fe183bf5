/* The calls of ours and of the peer, behind one face. */
#include "judges.h"

#include <string.h>

#include "peer.h"

typedef uint64_t over_log(const uint16_t *, size_t, uint8_t *, size_t);
typedef uint64_t with_witness(const uint16_t *, size_t, uint8_t *, size_t, uint16_t *, size_t);

struct judge {
    over_log *clean, *snapshot;
    with_witness *conflict, *version, *exact;
    uint64_t (*next)(const uint16_t *, size_t, const uint16_t *, size_t, uint8_t *, size_t, uint16_t *, size_t);
    uint64_t (*read)(const uint8_t *, size_t, uint16_t *, size_t);
    over_log *write;
    uint64_t (*report)(const uint8_t *, size_t, uint8_t *, size_t);
    uint64_t (*live)(uint16_t *, size_t, uint16_t *, size_t, uint16_t *, size_t, uint64_t *, size_t, uint64_t *, size_t,
                     const uint16_t *, size_t, uint16_t *, size_t);
    uint64_t (*accepts)(const uint16_t *, size_t, const uint16_t *, size_t, uint8_t *, size_t);
    with_witness *redo; /* the proposal stands where the others have a witness */
};

const struct judge ours = {krupovesh_clean,  krupovesh_snapshot, krupovesh_conflict, krupovesh_version,
                           krupovesh_exact,  krupovesh_next,     krupovesh_read,     krupovesh_write,
                           krupovesh_report, krupovesh_live,     krupovesh_accepts,  krupovesh_redo};
const struct judge peer = {peer_clean,  peer_snapshot, peer_conflict, peer_version,
                           peer_exact,  peer_next,     peer_read,     peer_write,
                           peer_report, peer_live,     peer_accepts,  peer_redo};

const char *const verdict_names[VERDICTS] = {"clean", "snapshot", "conflict", "version", "exact", "read", "write", "report"};

uint64_t judge_log(const struct judge *j, unsigned verdict, const struct log *l, struct buffers *b)
{
    switch (verdict) {
    case 0: return j->clean(l->numbers, l->length, b->work, KRUPOVESH_WORK);
    case 1: return j->snapshot(l->numbers, l->length, b->work, KRUPOVESH_WORK);
    case 2: return j->conflict(l->numbers, l->length, b->work, KRUPOVESH_WORK, b->witness, KRUPOVESH_WITNESS);
    case 3: return j->version(l->numbers, l->length, b->work, KRUPOVESH_WORK, b->witness, KRUPOVESH_WITNESS);
    case 4: return j->exact(l->numbers, l->length, b->work, KRUPOVESH_WORK, b->witness, KRUPOVESH_WITNESS);
    case 5: return j->read(l->text, l->text_length, b->steps, KRUPOVESH_STEPS);
    case 6: return j->write(l->numbers, l->length, b->written, KRUPOVESH_TEXT);
    default:
        return j->report(l->text, l->text_length, b->out, KRUPOVESH_REPORT);
    }
}

void hand_over(struct buffers *b)
{
    for (unsigned i = 0; i < KRUPOVESH_HANDED; i++)
        b->order[i] = b->witness[KRUPOVESH_ENTRY * i];
}

uint64_t judge_next(const struct judge *j, const struct log *l, struct buffers *b)
{
    return j->next(l->numbers, l->length, b->order, KRUPOVESH_HANDED, b->work, KRUPOVESH_WORK,
                   b->witness, KRUPOVESH_WITNESS);
}

unsigned judge_listing(const struct judge *j, const struct log *l, struct buffers *b)
{
    unsigned orders = 0;
    uint64_t result = j->version(l->numbers, l->length, b->work, KRUPOVESH_WORK, b->witness, KRUPOVESH_WITNESS);
    while (KRUPOVESH_KIND(result) == KRUPOVESH_ORDER) {
        orders++;
        hand_over(b);
        result = judge_next(j, l, b);
    }
    return orders;
}

uint64_t judge_redo(const struct judge *j, const struct log *l, struct buffers *b)
{
    return j->redo(l->numbers, l->length, b->work, KRUPOVESH_WORK, b->proposal, KRUPOVESH_PROPOSAL);
}

uint64_t judge_accepts(const struct judge *j, const struct log *l, const uint16_t *proposal, struct buffers *b)
{
    return j->accepts(l->numbers, l->length, proposal, KRUPOVESH_PROPOSAL, b->work, KRUPOVESH_WORK);
}

uint64_t judge_stream(const struct judge *j, const struct stream *s, size_t at_once, struct live_buffers *b)
{
    uint64_t result = 0;
    memset(b->state, 0, sizeof b->state);
    memset(b->opened, 0, sizeof b->opened);
    memset(b->rows, 0, sizeof b->rows);
    memset(b->marks, 0, sizeof b->marks);
    memset(b->edges, 0, sizeof b->edges);
    for (size_t k = 0; k < s->steps; k += at_once) {
        size_t count = s->steps - k < at_once ? s->steps - k : at_once;
        result = j->live(b->state, KRUPOVESH_LIVE_STATE, b->opened, KRUPOVESH_LIVE_OPENED, b->rows, KRUPOVESH_LIVE_ROWS,
                         b->marks, KRUPOVESH_LIVE_MARKS, b->edges, KRUPOVESH_LIVE_EDGES,
                         s->numbers + 4 * k, 4 * count, b->answers + k, count);
    }
    return result;
}
