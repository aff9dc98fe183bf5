/* The verdicts over a log, and "next". */
#include <string.h>

#include "peer.h"
#include "peer_parts.h"

/* From the last step to the first, so that the lowest fault is found last. */
uint64_t fault_of(const struct history *h)
{
    uint64_t later[TRANSACTIONS + 1] = {0}; /* what each writes in a later step */
    uint64_t fault = 0;

    for (unsigned k = h->steps; k-- > 0;) {
        struct step s = step_at(h, k);
        if (s.kind == WRITE)
            later[s.tx] |= UINT64_C(1) << s.object;
        if (s.kind != READ || s.source == 0 || s.source == s.tx || h->state[s.tx] != COMMITTED)
            continue;
        if (h->state[s.source] == ABORTED)
            fault = answer(KRUPOVESH_ABORTED, k, 0);
        else if (later[s.source] >> s.object & 1)
            fault = answer(KRUPOVESH_UNFINAL, k, 0);
    }
    if (h->own != 0 && (fault == 0 || h->own <= KRUPOVESH_FIRST(fault)))
        return answer(KRUPOVESH_OWN, h->own, 0);
    return fault;
}

/* Whether something that t writes was written by one who committed since t began, by the last writers. */
static bool written_since(const struct history *h, unsigned t, const uint8_t *last)
{
    for (uint64_t w = h->wrote[t]; w != 0; w = without_lowest(w)) {
        unsigned p = last[lowest_bit(w)];
        if (p != 0 && h->end[p] > h->begin[t])
            return true;
    }
    return false;
}

/* The lowest of the first `earlier` to commit that overlaps t and writes something that t writes. */
static unsigned partner_of(const struct history *h, unsigned t, unsigned earlier)
{
    unsigned partner = 0;
    while (earlier-- > 0) {
        unsigned p = h->by_commit[earlier];
        if (h->end[p] < h->begin[t])
            break;
        if (h->wrote[p] & h->wrote[t] && (partner == 0 || p < partner))
            partner = p;
    }
    return partner;
}

uint64_t snapshot_answer(const struct history *h)
{
    uint8_t last[OBJECTS] = {0};
    uint8_t seen[TRANSACTIONS + 1][OBJECTS]; /* the last writers when each began */
    unsigned commits = 0;

    for (unsigned k = 0; k < h->steps; k++) {
        struct step s = step_at(h, k);
        if (h->state[s.tx] != COMMITTED)
            continue;
        if (s.kind == BEGIN) {
            memcpy(seen[s.tx], last, sizeof last);
        } else if (s.kind == READ) {
            unsigned right = seen[s.tx][s.object];
            if (k == h->own)
                return wrong_read(k, s.tx, 0);
            if (s.source != s.tx && s.source != right)
                return wrong_read(k, right, right != 0 ? h->end[right] : 0);
        } else if (s.kind == COMMIT) {
            if (written_since(h, s.tx, last))
                return answer(KRUPOVESH_WRITE_AT, k, partner_of(h, s.tx, commits));
            commits++;
            for (uint64_t w = h->wrote[s.tx]; w != 0; w = without_lowest(w))
                last[lowest_bit(w)] = (uint8_t)s.tx;
        }
    }
    return answer(KRUPOVESH_YES, 0, 0);
}

uint64_t conflict_answer(const struct history *h, uint16_t *witness)
{
    struct graph g;
    uint16_t members[TRANSACTIONS];

    conflict_graph(h, &g);
    uint64_t result = graph_answer(&g, members);
    if (KRUPOVESH_KIND(result) == KRUPOVESH_CYCLE)
        lay_conflict_cycle(h, members, KRUPOVESH_FIRST(result), witness);
    else
        lay_order(members, KRUPOVESH_FIRST(result), witness);
    return result;
}

uint64_t version_answer(const struct history *h, uint16_t *witness)
{
    struct graph g;
    struct versions v;
    uint16_t members[TRANSACTIONS];

    version_graph(h, &g, &v);
    uint64_t result = graph_answer(&g, members);
    if (KRUPOVESH_KIND(result) == KRUPOVESH_CYCLE)
        lay_version_cycle(h, &v, members, KRUPOVESH_FIRST(result), witness);
    else
        lay_order(members, KRUPOVESH_FIRST(result), witness);
    return result;
}

uint64_t peer_clean(const uint16_t *log, size_t log_length, uint8_t *work, size_t work_length)
{
    struct history h;
    if (work_length != KRUPOVESH_WORK)
        return refused(12, 0);
    uint64_t refusal = peer_check(&h, log, log_length);
    if (refusal != 0)
        return refusal;
    memset(work, 0, work_length);
    uint64_t fault = fault_of(&h);
    return fault != 0 ? fault : answer(KRUPOVESH_YES, 0, 0);
}

uint64_t peer_snapshot(const uint16_t *log, size_t log_length, uint8_t *work, size_t work_length)
{
    struct history h;
    if (work_length != KRUPOVESH_WORK)
        return refused(12, 0);
    uint64_t refusal = peer_check(&h, log, log_length);
    if (refusal != 0)
        return refusal;
    memset(work, 0, work_length);
    return snapshot_answer(&h);
}

uint64_t peer_conflict(const uint16_t *log, size_t log_length, uint8_t *work, size_t work_length,
                       uint16_t *witness, size_t witness_length)
{
    struct history h;
    if (work_length != KRUPOVESH_WORK || witness_length != KRUPOVESH_WITNESS)
        return refused(12, 0);
    uint64_t refusal = peer_check(&h, log, log_length);
    if (refusal != 0)
        return refusal;
    memset(work, 0, work_length);
    memset(witness, 0, witness_length * sizeof *witness);
    return conflict_answer(&h, witness);
}

uint64_t peer_version(const uint16_t *log, size_t log_length, uint8_t *work, size_t work_length,
                      uint16_t *witness, size_t witness_length)
{
    struct history h;
    if (work_length != KRUPOVESH_WORK || witness_length != KRUPOVESH_WITNESS)
        return refused(12, 0);
    uint64_t refusal = peer_check(&h, log, log_length);
    if (refusal != 0)
        return refusal;
    memset(work, 0, work_length);
    memset(witness, 0, witness_length * sizeof *witness);
    uint64_t fault = fault_of(&h);
    return fault != 0 ? fault : version_answer(&h, witness);
}

uint64_t peer_exact(const uint16_t *log, size_t log_length, uint8_t *work, size_t work_length,
                    uint16_t *witness, size_t witness_length)
{
    struct history h;
    if (work_length != KRUPOVESH_WORK || witness_length != KRUPOVESH_WITNESS)
        return refused(12, 0);
    uint64_t refusal = peer_check(&h, log, log_length);
    if (refusal != 0)
        return refusal;
    if (h.committed > SEARCHED)
        return refused(13, h.committed);
    memset(work, 0, work_length);
    memset(witness, 0, witness_length * sizeof *witness);
    uint64_t fault = fault_of(&h);
    return fault != 0 ? fault : exact_answer(&h, witness);
}

uint64_t peer_next(const uint16_t *log, size_t log_length, const uint16_t *order, size_t order_length,
                   uint8_t *work, size_t work_length, uint16_t *witness, size_t witness_length)
{
    struct history h;
    struct graph g;
    struct versions v;
    uint16_t next[TRANSACTIONS];
    if (order_length != KRUPOVESH_HANDED || work_length != KRUPOVESH_WORK || witness_length != KRUPOVESH_WITNESS)
        return refused(12, 0);
    uint64_t refusal = peer_check(&h, log, log_length);
    if (refusal != 0)
        return refusal;
    if (fault_of(&h) != 0)
        return refused(14, 0);
    version_graph(&h, &g, &v);
    if (!graph_keeps(&g, order))
        return refused(14, 0);
    memset(work, 0, work_length);
    memset(witness, 0, witness_length * sizeof *witness);
    unsigned length = graph_next(&g, order, next);
    lay_order(next, length, witness);
    return length != 0 ? answer(KRUPOVESH_ORDER, length, 0) : answer(KRUPOVESH_NONE, 0, 0);
}
