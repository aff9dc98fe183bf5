/* The live judge. It keeps a row for each transaction that is open, or committed and not forgotten, the last committed writer of each
 * object, and edges between those that committed; a commit draws its own edges and looks for a cycle through itself alone. Places are
 * given back at an end, as soon as it lets some go. */
#include <string.h>

#include "peer_parts.h"

/* A row: what its transaction sees of each object, its number, how many had committed when it began, and, while it is open, whether it
 * has strayed to a wrong source; once it has committed, its place among the commits, from 1. Behind the last row stands what one that
 * begins now would see, and with it how many had committed when the oldest of those open began. */
enum { NUMBER = OBJECTS, BEGUN, LIFE, ROW };
_Static_assert((TRANSACTIONS + 1) * ROW <= KRUPOVESH_LIVE_ROWS, "a row for each place, and one more");

/* The row of a transaction is looked up by the low bits of its number, where that of the last one with these bits stands. Row r has
 * marks of what it wrote at 2 * r, and of what it read and had not written behind them; and in the same places of the edges, where it
 * has committed, the set of kept ones from which edges lead to it. */
struct live {
    uint16_t *places, *rows;
    uint64_t *marks, *edges;
    set open, kept;
    unsigned highest, commits;
};

/* The two sets are in the buffer of the places, behind them. */
enum { OPEN_SET = TRANSACTIONS, KEPT_SET = OPEN_SET + sizeof(set) / 2, PLACES_END = KEPT_SET + sizeof(set) / 2 };
_Static_assert(PLACES_END <= KRUPOVESH_LIVE_OPENED, "the places and two sets");

static inline uint16_t *row_at(const struct live *v, unsigned r)
{
    return v->rows + (size_t)ROW * r;
}

static inline set edges_to(const struct live *v, unsigned r)
{
    return (set){{v->edges[2 * r], v->edges[2 * r + 1]}};
}

static inline void set_edges_to(struct live *v, unsigned r, set from)
{
    v->edges[2 * r] = from.word[0];
    v->edges[2 * r + 1] = from.word[1];
}

/* The row of an open transaction by its number, and TRANSACTIONS where there is none. */
static unsigned search_row(struct live *v, unsigned tx)
{
    for (set rest = v->open; !set_is_empty(&rest);) {
        unsigned r = set_take_lowest(&rest) - 1;
        if (row_at(v, r)[NUMBER] == tx) {
            v->places[tx % TRANSACTIONS] = (uint16_t)r;
            return r;
        }
    }
    return TRANSACTIONS;
}

static inline unsigned find_row(struct live *v, unsigned tx)
{
    unsigned r = v->places[tx % TRANSACTIONS] % TRANSACTIONS;
    return row_at(v, r)[NUMBER] == tx && set_has(&v->open, r + 1) ? r : search_row(v, tx);
}

static unsigned begin(struct live *v, unsigned tx)
{
    set used = set_or(v->open, v->kept), free = {{~used.word[0], ~used.word[1]}};
    uint16_t *now = row_at(v, TRANSACTIONS);

    if (tx <= v->highest)
        return 7;
    if (set_is_empty(&free))
        return 18;
    unsigned r = set_lowest(&free) - 1;
    uint16_t *row = row_at(v, r);
    memcpy(row, now, OBJECTS * sizeof *row);
    row[NUMBER] = (uint16_t)tx;
    row[BEGUN] = (uint16_t)v->commits;
    row[LIFE] = 0;
    v->marks[2 * r] = v->marks[2 * r + 1] = 0;
    v->places[tx % TRANSACTIONS] = (uint16_t)r;
    if (set_is_empty(&v->open))
        now[BEGUN] = (uint16_t)v->commits;
    set_add(&v->open, r + 1);
    v->highest = tx;
    return KRUPOVESH_LIVE_TAKEN;
}

/* A read is right where it finds the own write, or else what the row sees. */
static inline void read_object(struct live *v, unsigned r, struct step s)
{
    uint16_t *row = row_at(v, r);
    uint64_t bit = UINT64_C(1) << s.object;
    if (v->marks[2 * r] & bit) {
        row[LIFE] |= s.source != s.tx;
    } else {
        v->marks[2 * r + 1] |= bit;
        row[LIFE] |= s.source != row[s.object];
    }
}

/* Whether an edge leads, over others, from one of these to one of those. */
static bool leads(const struct live *v, set these, set those)
{
    set reached = those, fresh = those;
    while (!set_is_empty(&fresh)) {
        if ((reached.word[0] & these.word[0]) | (reached.word[1] & these.word[1]))
            return true;
        unsigned r = set_take_lowest(&fresh) - 1;
        set next = set_minus(edges_to(v, r), reached);
        reached = set_or(reached, next);
        fresh = set_or(fresh, next);
    }
    return false;
}

/* Those kept with an edge to row r, and those to which one leads from it; false at a clash. Edges that a chain of versions makes good
 * for may be there too: from each version or reader before the one that counts, or to each version behind it. Who is kept has what it
 * leads to kept with it, so these let nobody go later, or sooner. */
static bool find_edges(const struct live *v, unsigned r, set *before, set *behind)
{
    uint64_t wrote = v->marks[2 * r], read = v->marks[2 * r + 1];
    unsigned begun = row_at(v, r)[BEGUN];

    for (unsigned half = 0; half < 2; half++) {
        for (uint64_t rest = v->kept.word[half]; rest != 0; rest = without_lowest(rest)) {
            unsigned q = 64 * half + lowest_bit(rest);
            uint64_t w = v->marks[2 * q], touched = w | v->marks[2 * q + 1];
            if (((touched & wrote) | (w & read)) == 0)
                continue;
            bool is_seen = row_at(v, q)[LIFE] <= begun;
            if (!is_seen && w & wrote)
                return false;
            if (touched & wrote || (is_seen && w & read))
                set_add(before, q + 1);
            if (!is_seen && w & read)
                set_add(behind, q + 1);
        }
    }
    return true;
}

/* Forgets until nothing more can go, where those that committed so early overlap nobody who is open. */
static void forget(struct live *v, unsigned oldest)
{
    set early = {{0, 0}}, gone;
    for (set rest = v->kept; !set_is_empty(&rest);) {
        unsigned q = set_take_lowest(&rest) - 1;
        if (row_at(v, q)[LIFE] <= oldest)
            set_add(&early, q + 1);
    }
    do {
        gone = (set){{0, 0}};
        for (set rest = early; !set_is_empty(&rest);) {
            unsigned q = set_take_lowest(&rest) - 1;
            set from = edges_to(v, q);
            if (set_is_empty(&from))
                set_add(&gone, q + 1);
        }
        early = set_minus(early, gone);
        v->kept = set_minus(v->kept, gone);
        for (set rest = v->kept; !set_is_empty(&rest) && !set_is_empty(&gone);) {
            unsigned q = set_take_lowest(&rest) - 1;
            set_edges_to(v, q, set_minus(edges_to(v, q), gone));
        }
    } while (!set_is_empty(&gone));
}

/* Row r has ended. Some can go where it was the oldest, and no other of those open began as early. */
static void leave(struct live *v, unsigned r)
{
    uint16_t *now = row_at(v, TRANSACTIONS);
    unsigned oldest = UINT16_MAX;

    set_remove(&v->open, r + 1);
    if (set_is_empty(&v->open)) {
        v->kept = v->open;
        return;
    }
    if (row_at(v, r)[BEGUN] != now[BEGUN])
        return;
    for (set rest = v->open; !set_is_empty(&rest);) {
        unsigned begun = row_at(v, set_take_lowest(&rest) - 1)[BEGUN];
        if (begun == now[BEGUN])
            return;
        oldest = begun < oldest ? begun : oldest;
    }
    now[BEGUN] = (uint16_t)oldest;
    forget(v, oldest);
}

static unsigned commit(struct live *v, unsigned r)
{
    uint16_t *row = row_at(v, r), *now = row_at(v, TRANSACTIONS);
    set before = {{0, 0}}, behind = {{0, 0}};

    if (row[LIFE] != 0 || !find_edges(v, r, &before, &behind))
        return KRUPOVESH_LIVE_BREACH;
    if (!set_is_empty(&behind) && leads(v, behind, before))
        return KRUPOVESH_LIVE_CLOSED;
    set_edges_to(v, r, before);
    while (!set_is_empty(&behind)) {
        unsigned q = set_take_lowest(&behind) - 1;
        v->edges[2 * q + r / 64] |= UINT64_C(1) << r % 64;
    }
    for (uint64_t rest = v->marks[2 * r]; rest != 0; rest = without_lowest(rest))
        now[lowest_bit(rest)] = row[NUMBER];
    row[LIFE] = (uint16_t)++v->commits;
    set_add(&v->kept, r + 1);
    leave(v, r);
    return KRUPOVESH_LIVE_YES;
}

static inline unsigned take(struct live *v, struct step s)
{
    bool touches = s.kind == READ || s.kind == WRITE;

    if (s.kind < BEGIN || s.kind > ABORT)
        return 3;
    if (s.tx == 0)
        return 4;
    if (s.object >= (touches ? OBJECTS : 1))
        return 5;
    if (s.source != 0 && s.kind != READ)
        return 6;
    if (s.kind == BEGIN)
        return begin(v, s.tx);
    unsigned r = find_row(v, s.tx);
    if (r == TRANSACTIONS)
        return 8;
    if (s.kind == COMMIT)
        return commit(v, r);
    if (s.kind == READ)
        read_object(v, r, s);
    else if (s.kind == WRITE)
        v->marks[2 * r] |= UINT64_C(1) << s.object;
    else
        leave(v, r);
    return KRUPOVESH_LIVE_TAKEN;
}

static inline bool stands(unsigned said)
{
    return said == KRUPOVESH_LIVE_BREACH || said == KRUPOVESH_LIVE_CLOSED;
}

/* The state: what was said last, the highest number begun, and how many have committed. */
uint64_t peer_live(uint16_t *state, size_t state_length, uint16_t *opened, size_t opened_length, uint16_t *rows, size_t rows_length,
                   uint64_t *marks, size_t marks_length, uint64_t *edges, size_t edges_length,
                   const uint16_t *part, size_t part_length, uint16_t *answers, size_t answers_length)
{
    if (part_length % 4 != 0)
        return refused(1, 0);
    if (state_length != KRUPOVESH_LIVE_STATE || opened_length != KRUPOVESH_LIVE_OPENED || rows_length != KRUPOVESH_LIVE_ROWS
        || marks_length != KRUPOVESH_LIVE_MARKS || edges_length != KRUPOVESH_LIVE_EDGES || answers_length != part_length / 4)
        return refused(12, 0);

    struct live v = {.places = opened, .rows = rows, .marks = marks, .edges = edges, .highest = state[1], .commits = state[2]};
    unsigned said = state[0];
    memcpy(&v.open, opened + OPEN_SET, sizeof v.open);
    memcpy(&v.kept, opened + KEPT_SET, sizeof v.kept);
    for (size_t k = 0; k < answers_length; k++) {
        const uint16_t *p = part + 4 * k;
        if (!stands(said))
            said = take(&v, (struct step){p[0], p[1], p[2], p[3]});
        answers[k] = (uint16_t)said;
    }
    memcpy(opened + OPEN_SET, &v.open, sizeof v.open);
    memcpy(opened + KEPT_SET, &v.kept, sizeof v.kept);
    state[0] = (uint16_t)said;
    state[1] = (uint16_t)v.highest;
    state[2] = (uint16_t)v.commits;
    return answer(KRUPOVESH_ACCEPTED, 0, 0);
}
