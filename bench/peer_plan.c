/* Which commits to redo: the judge of a proposal, and the planner. */
#include <string.h>

#include "peer.h"
#include "peer_parts.h"

/* Which of the committed may stay while the others are taken back. The log is clean when all who stay are sound and their sources stay,
 * and it has a version order when the edges between them make no cycle. Edges lead to all later versions, not only to the next one, so
 * that they are the same whoever is taken back. */
struct plan {
    set committed;
    set sound;                     /* those whose reads are clean if their sources stay */
    set sources[TRANSACTIONS + 1]; /* whom each has read from, without writer 0 and itself */
    set readers[TRANSACTIONS + 1]; /* the other way round */
    set after[TRANSACTIONS + 1];   /* after[t]: where edges from t lead */
};

/* From the last commit to the first: each writer leads to those who wrote the object and commit later. */
static void draw_writes(const struct history *h, struct plan *p, set *writers, set *later)
{
    for (unsigned i = h->committed; i-- > 0;) {
        unsigned t = h->by_commit[i];
        later[t] = p->committed;
        set_add(&p->committed, t);
        for (uint64_t rest = h->wrote[t]; rest != 0; rest = without_lowest(rest)) {
            unsigned x = lowest_bit(rest);
            p->after[t] = set_or(p->after[t], writers[x]);
            set_add(&writers[x], t);
        }
        if (h->missed[t] == 0)
            set_add(&p->sound, t);
    }
    later[0] = p->committed;
}

/* From the last step to the first: each reader leads to those who wrote the object and commit later than its source. */
static void draw_reads(const struct history *h, struct plan *p, const set *writers, const set *later)
{
    uint64_t unfinal[TRANSACTIONS + 1] = {0}; /* what each writes in a later step */

    for (unsigned k = h->steps; k-- > 0;) {
        struct step s = step_at(h, k);
        if (s.kind == WRITE)
            unfinal[s.tx] |= UINT64_C(1) << s.object;
        if (s.kind != READ || s.source == s.tx || h->state[s.tx] != COMMITTED)
            continue;
        if (s.source != 0) {
            if (unfinal[s.source] >> s.object & 1)
                set_remove(&p->sound, s.tx);
            set_add(&p->sources[s.tx], s.source);
            set_add(&p->readers[s.source], s.tx);
        }
        p->after[s.tx] = set_or(p->after[s.tx], set_and(writers[s.object], later[s.source]));
    }
}

static void draw_plan(const struct history *h, struct plan *p)
{
    set writers[OBJECTS], later[TRANSACTIONS + 1]; /* who wrote each object; who commits later than each */
    memset(writers, 0, sizeof writers);
    memset(later, 0, sizeof later);

    memset(p, 0, sizeof *p);
    draw_writes(h, p, writers, later);
    draw_reads(h, p, writers, later);
    for (unsigned i = 0; i < h->committed; i++) {
        unsigned t = h->by_commit[i];
        p->after[t] = set_or(p->after[t], p->readers[t]);
        set_remove(&p->after[t], t);
    }
}

static inline bool is_within(set a, set b)
{
    set out = set_minus(a, b);
    return set_is_empty(&out);
}

/* Whether the reads of t are clean with these to stay. */
static bool is_clean(const struct plan *p, unsigned t, set stay)
{
    return set_has(&p->sound, t) && is_within(p->sources[t], stay);
}

/* Where edges from members of s lead. */
static set after_all(const struct plan *p, set s)
{
    set reached = {{0, 0}};
    for (unsigned i = 0; i < 2; i++)
        for (uint64_t rest = s.word[i]; rest != 0; rest = without_lowest(rest))
            reached = set_or(reached, p->after[64 * i + lowest_bit(rest) + 1]);
    return reached;
}

/* Whether a way leads from t over those who stay back to t. */
static bool closes_cycle(const struct plan *p, unsigned t, set stay)
{
    set front = set_and(p->after[t], stay), unseen = stay;
    while (!set_is_empty(&front)) {
        set reached = after_all(p, front);
        if (set_has(&reached, t))
            return true;
        unseen = set_minus(unseen, front);
        front = set_and(reached, unseen);
    }
    return false;
}

/* Whether t, or one that ways over `unseen` lead to from it, has an edge back to the path that they have come by. All that are visited
 * are taken out of `unseen`. */
static bool leads_to_cycle(const struct plan *p, unsigned t, set path, set *unseen)
{
    set back = set_and(p->after[t], path);
    if (!set_is_empty(&back))
        return true;
    set_remove(unseen, t);
    set_add(&path, t);
    for (;;) {
        set onward = set_and(p->after[t], *unseen);
        if (set_is_empty(&onward))
            return false;
        if (leads_to_cycle(p, set_lowest(&onward), path, unseen))
            return true;
    }
}

/* Whether the log is clean and has a version order when just these stay. */
static bool is_fine(const struct plan *p, set stay)
{
    for (set rest = stay; !set_is_empty(&rest);)
        if (!is_clean(p, set_take_lowest(&rest), stay))
            return false;
    for (set unseen = stay; !set_is_empty(&unseen);)
        if (leads_to_cycle(p, set_lowest(&unseen), (set){{0, 0}}, &unseen))
            return false;
    return true;
}

/* Whether the log is fine when just these stay, and with no single other one beside them. */
static bool will_do(const struct plan *p, set stay)
{
    if (!is_fine(p, stay))
        return false;
    for (set rest = set_minus(p->committed, stay); !set_is_empty(&rest);) {
        unsigned t = set_take_lowest(&rest);
        if (is_clean(p, t, stay) && !closes_cycle(p, t, stay))
            return false;
    }
    return true;
}

/* Those who stay when the lowest that leaves the log fine is given back, again and again. Who closes a cycle always will; who waits
 * for a source is asked again when one comes back. */
static set give_back(const struct plan *p)
{
    set stay = {{0, 0}}, asked = p->sound, waiting = {{0, 0}};
    while (!set_is_empty(&asked)) {
        unsigned t = set_take_lowest(&asked);
        if (!is_within(p->sources[t], stay)) {
            set_add(&waiting, t);
        } else if (!closes_cycle(p, t, stay)) {
            set_add(&stay, t);
            set again = set_and(p->readers[t], waiting);
            asked = set_or(asked, again);
            waiting = set_minus(waiting, again);
        }
    }
    return stay;
}

/* Collects the members of a proposal. False where number 19 turns it away. */
static bool members_of(const struct history *h, const uint16_t *proposal, set *members)
{
    unsigned count = 0;
    *members = (set){{0, 0}};
    while (count < KRUPOVESH_PROPOSAL && proposal[count] != 0) {
        unsigned t = proposal[count++];
        if (t > TRANSACTIONS || h->state[t] != COMMITTED || set_has(members, t))
            return false;
        set_add(members, t);
    }
    while (count < KRUPOVESH_PROPOSAL)
        if (proposal[count++] != 0)
            return false;
    return true;
}

uint64_t peer_accepts(const uint16_t *log, size_t log_length, const uint16_t *proposal, size_t proposal_length,
                      uint8_t *work, size_t work_length)
{
    struct history h;
    struct plan p;
    set members;
    if (proposal_length != KRUPOVESH_PROPOSAL || work_length != KRUPOVESH_WORK)
        return refused(12, 0);
    uint64_t refusal = peer_check(&h, log, log_length);
    if (refusal != 0)
        return refusal;
    if (!members_of(&h, proposal, &members))
        return refused(19, 0);
    memset(work, 0, work_length);
    draw_plan(&h, &p);
    return answer(will_do(&p, set_minus(p.committed, members)) ? KRUPOVESH_YES : KRUPOVESH_NO, 0, 0);
}

uint64_t peer_redo(const uint16_t *log, size_t log_length, uint8_t *work, size_t work_length,
                   uint16_t *proposal, size_t proposal_length)
{
    struct history h;
    struct plan p;
    unsigned count = 0;
    if (work_length != KRUPOVESH_WORK || proposal_length != KRUPOVESH_PROPOSAL)
        return refused(12, 0);
    uint64_t refusal = peer_check(&h, log, log_length);
    if (refusal != 0)
        return refusal;
    memset(work, 0, work_length);
    memset(proposal, 0, proposal_length * sizeof *proposal);
    draw_plan(&h, &p);
    for (set members = set_minus(p.committed, give_back(&p)); !set_is_empty(&members);)
        proposal[count++] = (uint16_t)set_take_lowest(&members);
    return answer(KRUPOVESH_ACCEPTED, count, 0);
}
