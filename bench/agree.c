/* Compares ours with the peer, answers and every byte, before anything is timed. */
#include <stdio.h>
#include <string.h>

#include "judges.h"

static struct buffers by_ours, by_peer;
static struct live_buffers live_by_ours, live_by_peer;

/* Whether the last two calls have answered and left the same. */
static unsigned differ(const char *where, const char *verdict, uint64_t our_answer, uint64_t peer_answer)
{
    if (our_answer == peer_answer && memcmp(&by_ours, &by_peer, sizeof by_ours) == 0)
        return 0;
    fprintf(stderr, "%s, %s: ours answers %llx and the peer %llx, %s\n", where, verdict, (unsigned long long)our_answer,
            (unsigned long long)peer_answer, our_answer == peer_answer ? "the buffers differ" : "which is not the same");
    return 1;
}

static unsigned differ_on_log(const char *where, const struct log *l)
{
    unsigned bad = 0;
    for (unsigned v = 0; v < VERDICTS; v++) {
        memset(&by_ours, 0xa5, sizeof by_ours);
        memset(&by_peer, 0xa5, sizeof by_peer);
        uint64_t our_answer = judge_log(&ours, v, l, &by_ours);
        uint64_t peer_answer = judge_log(&peer, v, l, &by_peer);
        bad += differ(where, verdict_names[v], our_answer, peer_answer);
    }
    return bad;
}

/* From the peer's first order on: both go on from the same one. */
static unsigned differ_on_listing(const char *where, const struct log *l)
{
    unsigned bad = 0;
    uint64_t our_answer, peer_answer = judge_log(&peer, 3, l, &by_peer);
    while (KRUPOVESH_KIND(peer_answer) == KRUPOVESH_ORDER && bad == 0) {
        hand_over(&by_peer);
        memset(by_peer.work, 0xa5, sizeof by_peer.work);
        memset(by_peer.witness, 0xa5, sizeof by_peer.witness);
        by_ours = by_peer;
        our_answer = judge_next(&ours, l, &by_ours);
        peer_answer = judge_next(&peer, l, &by_peer);
        bad = differ(where, "next", our_answer, peer_answer);
    }
    return bad;
}

static unsigned differ_on_proposal(const char *where, const struct log *l, const uint16_t *proposal)
{
    memset(&by_ours, 0xa5, sizeof by_ours);
    memcpy(by_ours.proposal, proposal, sizeof by_ours.proposal);
    by_peer = by_ours;
    uint64_t our_answer = judge_accepts(&ours, l, by_ours.proposal, &by_ours);
    uint64_t peer_answer = judge_accepts(&peer, l, by_peer.proposal, &by_peer);
    return differ(where, "accepts", our_answer, peer_answer);
}

/* The proposal that both make is judged, and the same with a member left out, and with one named twice. */
static unsigned differ_on_plan(const char *where, const struct log *l)
{
    uint16_t proposal[KRUPOVESH_PROPOSAL];

    memset(&by_ours, 0xa5, sizeof by_ours);
    memset(&by_peer, 0xa5, sizeof by_peer);
    uint64_t our_answer = judge_redo(&ours, l, &by_ours);
    uint64_t peer_answer = judge_redo(&peer, l, &by_peer);
    unsigned bad = differ(where, "redo", our_answer, peer_answer), count = KRUPOVESH_FIRST(peer_answer);
    memcpy(proposal, by_peer.proposal, sizeof proposal);
    bad += differ_on_proposal(where, l, proposal);
    if (count != 0) {
        proposal[count - 1] = 0;
        bad += differ_on_proposal(where, l, proposal);
    }
    if (count > 1) {
        proposal[count - 1] = proposal[0];
        bad += differ_on_proposal(where, l, proposal);
    }
    return bad;
}

/* What each keeps in the state is its own; the answers have to be the same, and each step is good. */
static unsigned differ_on_stream(const struct stream *s, size_t at_once)
{
    memset(live_by_ours.answers, 0xa5, sizeof live_by_ours.answers);
    memset(live_by_peer.answers, 0xa5, sizeof live_by_peer.answers);
    uint64_t our_answer = judge_stream(&ours, s, at_once, &live_by_ours);
    uint64_t peer_answer = judge_stream(&peer, s, at_once, &live_by_peer);
    unsigned bad = our_answer != peer_answer
        || memcmp(live_by_ours.answers, live_by_peer.answers, sizeof live_by_ours.answers) != 0;
    for (size_t k = 0; k < s->steps; k++)
        bad |= live_by_peer.answers[k] != (s->numbers[4 * k] == 4 ? KRUPOVESH_LIVE_YES : KRUPOVESH_LIVE_TAKEN);
    if (bad)
        fprintf(stderr, "%s, %zu at once: ours and the peer differ, or a step is not good\n", s->name, at_once);
    return bad;
}

unsigned disagreements(struct workload *room, struct stream *stream)
{
    unsigned bad = 0;
    for (unsigned i = 0; i < workload_count; i++) {
        make_workload(i, room);
        for (unsigned k = 0; k < room->count; k++)
            bad += differ_on_log(room->name, &room->logs[k]);
    }
    for (unsigned i = 0; i < listing_count; i++) {
        make_listing(i, room);
        bad += differ_on_log(room->name, room->logs);
        bad += differ_on_listing(room->name, room->logs);
    }
    for (unsigned i = 0; i < plan_count; i++) {
        make_plan(i, room);
        for (unsigned k = 0; k < room->count; k++) {
            bad += differ_on_log(room->name, &room->logs[k]);
            bad += differ_on_plan(room->name, &room->logs[k]);
        }
    }
    for (unsigned i = 0; i < stream_count; i++) {
        make_stream(i, stream);
        bad += differ_on_stream(stream, stream->steps);
        bad += differ_on_stream(stream, 1);
    }
    return bad;
}
