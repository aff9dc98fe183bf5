/* The lent buffers, and each call over them compared with what is due. */
#include "lent.h"

#include <stdio.h>
#include <string.h>

enum { GUARD = 64, ROOM = GUARD + MOST_BYTES + GUARD };

static const size_t right[BUFFERS] = {
    [ORDER] = KRUPOVESH_HANDED, [PROPOSAL] = KRUPOVESH_PROPOSAL, [WORK] = KRUPOVESH_WORK, [WITNESS] = KRUPOVESH_WITNESS,
    [STEPS] = KRUPOVESH_STEPS, [OUT] = KRUPOVESH_REPORT, [WRITTEN] = KRUPOVESH_TEXT,
    [STATE] = KRUPOVESH_LIVE_STATE, [OPEN] = KRUPOVESH_LIVE_OPENED, [ROWS] = KRUPOVESH_LIVE_ROWS,
    [MARKS] = KRUPOVESH_LIVE_MARKS, [EDGES] = KRUPOVESH_LIVE_EDGES};
static const size_t entry_size[BUFFERS] = {
    [LOG] = 2, [TEXT] = 1, [PART] = 2, [ANSWERS] = 2,
    [ORDER] = 2, [PROPOSAL] = 2, [WORK] = 1, [WITNESS] = 2, [STEPS] = 2, [OUT] = 1, [WRITTEN] = 1,
    [STATE] = 2, [OPEN] = 2, [ROWS] = 2, [MARKS] = 8, [EDGES] = 8};
static const char *const function_names[FUNCTIONS] = {
    "clean", "snapshot", "conflict", "version", "exact", "next", "accepts", "redo", "write", "read", "report", "live"};
static const char *const buffer_names[BUFFERS] = {
    "log", "text", "part", "answers", "order", "proposal", "work", "witness", "steps", "out", "written",
    "state", "opened", "rows", "marks", "edges"};

/* The buffers of each function, one bit each. */
static const unsigned taken[FUNCTIONS] = {
    [CLEAN] = 1 << LOG | 1 << WORK,
    [SNAPSHOT] = 1 << LOG | 1 << WORK,
    [CONFLICT] = 1 << LOG | 1 << WORK | 1 << WITNESS,
    [VERSION] = 1 << LOG | 1 << WORK | 1 << WITNESS,
    [EXACT] = 1 << LOG | 1 << WORK | 1 << WITNESS,
    [NEXT] = 1 << LOG | 1 << ORDER | 1 << WORK | 1 << WITNESS,
    [ACCEPTS] = 1 << LOG | 1 << PROPOSAL | 1 << WORK,
    [REDO] = 1 << LOG | 1 << WORK | 1 << PROPOSAL,
    [WRITE] = 1 << LOG | 1 << WRITTEN,
    [READ] = 1 << TEXT | 1 << STEPS,
    [REPORT] = 1 << TEXT | 1 << OUT,
    [LIVE] = 1 << STATE | 1 << OPEN | 1 << ROWS | 1 << MARKS | 1 << EDGES | 1 << PART | 1 << ANSWERS};

/* A buffer stands behind its first guard, and its second guard stands behind it. */
static union {
    uint8_t bytes[ROOM];
    uint16_t numbers[ROOM / 2];
    uint64_t words[ROOM / 8];
} room[BUFFERS];
static uint8_t due[BUFFERS][ROOM];
static size_t length[BUFFERS];
static int may_change[BUFFERS];

unsigned long calls, agreeing;

int takes(enum function f, enum buffer b)
{
    return taken[f] >> b & 1;
}

size_t right_length(enum buffer b)
{
    return right[b];
}

uint64_t answer(unsigned kind, unsigned first, unsigned second)
{
    return (uint64_t)kind | (uint64_t)first << 16 | (uint64_t)second << 32;
}

uint64_t wrong_read(unsigned step, unsigned writer, unsigned commit)
{
    return answer(KRUPOVESH_READ_AT, step, writer) | (uint64_t)commit << 48;
}

/* The header's macros take apart what `answer` and `wrong_read` put together. */
#define FOUR_PARTS UINT64_C(0x4444333322221111)
_Static_assert(KRUPOVESH_KIND(FOUR_PARTS) == 0x1111 && KRUPOVESH_FIRST(FOUR_PARTS) == 0x2222, "kind and first value");
_Static_assert(KRUPOVESH_SECOND(FOUR_PARTS) == 0x3333 && KRUPOVESH_THIRD(FOUR_PARTS) == 0x4444, "second and third value");

/* No byte of it is 0. */
static void make_dirty(uint8_t *bytes, size_t count)
{
    static uint32_t state = 2463534242u;
    for (size_t i = 0; i < count; i++) {
        state ^= state << 13;
        state ^= state >> 17;
        state ^= state << 5;
        bytes[i] = (uint8_t)(1 + state % 255);
    }
}

void lend(enum buffer b, size_t entries, const void *contents)
{
    size_t bytes = entries * entry_size[b];
    length[b] = entries;
    may_change[b] = 0;
    make_dirty(room[b].bytes, GUARD + bytes + GUARD);
    if (contents != NULL)
        memcpy(room[b].bytes + GUARD, contents, bytes);
    memcpy(due[b], room[b].bytes, GUARD + bytes + GUARD);
}

void lend_for(enum function f)
{
    for (enum buffer b = ORDER; b < BUFFERS; b++)
        if (takes(f, b))
            lend(b, right[b], NULL);
}

void make_due(enum buffer b, const void *contents, size_t entries)
{
    memset(due[b] + GUARD, 0, length[b] * entry_size[b]);
    if (entries != 0)
        memcpy(due[b] + GUARD, contents, entries * entry_size[b]);
}

void let_change(enum buffer b)
{
    may_change[b] = 1;
}

void keep(enum buffer b)
{
    may_change[b] = 0;
    memcpy(due[b] + GUARD, room[b].bytes + GUARD, length[b] * entry_size[b]);
}

static uint8_t *bytes_of(enum buffer b)
{
    return room[b].bytes + GUARD;
}

const uint8_t *held(enum buffer b)
{
    return bytes_of(b);
}

static uint16_t *numbers_of(enum buffer b)
{
    return room[b].numbers + GUARD / 2;
}

static uint64_t *words_of(enum buffer b)
{
    return room[b].words + GUARD / 8;
}

static uint64_t call_live(void)
{
    return krupovesh_live(numbers_of(STATE), length[STATE], numbers_of(OPEN), length[OPEN], numbers_of(ROWS), length[ROWS],
                          words_of(MARKS), length[MARKS], words_of(EDGES), length[EDGES],
                          numbers_of(PART), length[PART], numbers_of(ANSWERS), length[ANSWERS]);
}

static uint64_t call(enum function f)
{
    const uint16_t *log = numbers_of(LOG), *order = numbers_of(ORDER);
    const uint8_t *text = bytes_of(TEXT);
    uint16_t *witness = numbers_of(WITNESS), *steps = numbers_of(STEPS), *proposal = numbers_of(PROPOSAL);
    uint8_t *work = bytes_of(WORK), *out = bytes_of(OUT), *written = bytes_of(WRITTEN);

    switch (f) {
    case CLEAN: return krupovesh_clean(log, length[LOG], work, length[WORK]);
    case SNAPSHOT: return krupovesh_snapshot(log, length[LOG], work, length[WORK]);
    case CONFLICT: return krupovesh_conflict(log, length[LOG], work, length[WORK], witness, length[WITNESS]);
    case VERSION: return krupovesh_version(log, length[LOG], work, length[WORK], witness, length[WITNESS]);
    case EXACT: return krupovesh_exact(log, length[LOG], work, length[WORK], witness, length[WITNESS]);
    case NEXT:
        return krupovesh_next(log, length[LOG], order, length[ORDER], work, length[WORK], witness, length[WITNESS]);
    case ACCEPTS: return krupovesh_accepts(log, length[LOG], proposal, length[PROPOSAL], work, length[WORK]);
    case REDO: return krupovesh_redo(log, length[LOG], work, length[WORK], proposal, length[PROPOSAL]);
    case WRITE: return krupovesh_write(log, length[LOG], written, length[WRITTEN]);
    case READ: return krupovesh_read(text, length[TEXT], steps, length[STEPS]);
    case LIVE: return call_live();
    default:
        return krupovesh_report(text, length[TEXT], out, length[OUT]);
    }
}

/* Whether a buffer, and what is around it, is as due. */
static int is_as_due(enum buffer b)
{
    const uint8_t *is = room[b].bytes, *ought = due[b];
    size_t bytes = length[b] * entry_size[b];
    return memcmp(is, ought, GUARD) == 0 && memcmp(is + GUARD + bytes, ought + GUARD + bytes, GUARD) == 0
        && (may_change[b] || memcmp(is + GUARD, ought + GUARD, bytes) == 0);
}

uint64_t try_call(enum function f, uint64_t due_answer, const char *about)
{
    uint64_t given = call(f);
    int agrees = given == due_answer;
    if (!agrees)
        printf("%s, %s: answers %llx in place of %llx\n", about, function_names[f], (unsigned long long)given,
               (unsigned long long)due_answer);
    for (enum buffer b = 0; b < BUFFERS; b++) {
        if (takes(f, b) && !is_as_due(b)) {
            printf("%s, %s: the buffer %s, or a byte around it, is not as due\n", about, function_names[f], buffer_names[b]);
            agrees = 0;
        }
    }
    calls++;
    agreeing += (unsigned long)agrees;
    return given;
}

void note(int is_so, const char *if_not)
{
    if (!is_so)
        printf("%s\n", if_not);
    calls++;
    agreeing += (unsigned long)is_so;
}
