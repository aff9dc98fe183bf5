/* The text reader and the report. */
#include <string.h>

#include "peer.h"
#include "peer_parts.h"

enum { LONGEST_TEXT = 33803 };

/* What is left of the text. */
struct cursor {
    const uint8_t *at, *end;
};

static inline bool take(struct cursor *c, const char *word, size_t length)
{
    if ((size_t)(c->end - c->at) < length || memcmp(c->at, word, length) != 0)
        return false;
    c->at += length;
    return true;
}

static bool take_number(struct cursor *c, uint16_t *number)
{
    const uint8_t *from = c->at;
    uint32_t value = 0;
    while (c->at < c->end && *c->at >= '0' && *c->at <= '9' && value <= UINT16_MAX)
        value = 10 * value + (uint32_t)(*c->at++ - '0');
    if (c->at == from || value > UINT16_MAX || (*from == '0' && c->at - from > 1))
        return false;
    *number = (uint16_t)value;
    return true;
}

static bool take_kind(struct cursor *c, uint16_t *kind)
{
    static const struct {
        char word[8];
        size_t length;
    } words[] = {{"begin", 5}, {"read", 4}, {"write", 5}, {"commit", 6}, {"abort", 5}};

    for (uint16_t i = 0; i < 5; i++) {
        if (take(c, words[i].word, words[i].length)) {
            *kind = (uint16_t)(BEGIN + i);
            return true;
        }
    }
    return false;
}

static bool take_step(struct cursor *c, uint16_t *step)
{
    return take(c, "op=", 3) && take_kind(c, &step[0]) && take(c, " tx=", 4) && take_number(c, &step[1])
        && take(c, " obj=", 5) && take_number(c, &step[2]) && take(c, " from=", 6) && take_number(c, &step[3])
        && take(c, "\n", 1);
}

/* Writes the steps and answers their number, or a refusal. */
static uint64_t parse(const uint8_t *text, size_t length, uint16_t *steps)
{
    struct cursor c = {text, text + length};
    uint16_t count;

    if (length > LONGEST_TEXT)
        return refused(15, 0);
    if (!take(&c, "steps=", 6) || !take_number(&c, &count) || !take(&c, "\n", 1))
        return refused(16, 0);
    if (count > STEPS)
        return refused(2, 0);
    for (unsigned k = 0; k < count; k++)
        if (!take_step(&c, steps + 4 * k))
            return refused(16, k + 1);
    if (c.at != c.end)
        return refused(16, count + 1u);
    return answer(KRUPOVESH_ACCEPTED, count, 0);
}

uint64_t peer_read(const uint8_t *text, size_t text_length, uint16_t *steps, size_t steps_length)
{
    uint16_t own[KRUPOVESH_STEPS]; /* a refusal may not touch the lent ones */
    if (steps_length != KRUPOVESH_STEPS)
        return refused(12, 0);
    uint64_t result = parse(text, text_length, own);
    if (KRUPOVESH_KIND(result) == KRUPOVESH_REFUSED)
        return result;
    size_t used = 4 * (size_t)KRUPOVESH_FIRST(result);
    memcpy(steps, own, used * sizeof *steps);
    memset(steps + used, 0, (KRUPOVESH_STEPS - used) * sizeof *steps);
    return result;
}

/* Where the report is written. Its longest has less than two thirds of the room. */
struct pen {
    uint8_t *out;
    size_t used;
};

static void put(struct pen *p, const char *words)
{
    size_t length = strlen(words);
    memcpy(p->out + p->used, words, length);
    p->used += length;
}

static void put_number(struct pen *p, const char *words, unsigned number)
{
    char digits[10];
    unsigned n = 0;
    put(p, words);
    do
        digits[n++] = (char)('0' + number % 10);
    while ((number /= 10) != 0);
    while (n > 0)
        p->out[p->used++] = (uint8_t)digits[--n];
}

static void put_order(struct pen *p, unsigned length, const uint16_t *witness)
{
    put(p, "order");
    for (unsigned i = 0; i < length; i++)
        put_number(p, " ", witness[KRUPOVESH_ENTRY * i]);
}

static void put_cycle(struct pen *p, unsigned length, const uint16_t *witness)
{
    static const char *const kinds[] = {[KRUPOVESH_WW] = " ww:", [KRUPOVESH_WR] = " wr:", [KRUPOVESH_RW] = " rw:"};
    put(p, "cycle");
    for (unsigned i = 0; i < length; i++) {
        const uint16_t *entry = witness + KRUPOVESH_ENTRY * i;
        put_number(p, " ", entry[0]);
        put_number(p, kinds[entry[1]], entry[2]);
    }
}

/* One line: its key, and the answer in words. Faults are named in the clean line only. */
static void put_line(struct pen *p, const char *key, uint64_t result, const uint16_t *witness)
{
    unsigned first = KRUPOVESH_FIRST(result);
    put(p, key);
    switch (KRUPOVESH_KIND(result)) {
    case KRUPOVESH_ORDER: put_order(p, first, witness); break;
    case KRUPOVESH_CYCLE: put_cycle(p, first, witness); break;
    case KRUPOVESH_NONE: put(p, "none"); break;
    case KRUPOVESH_ABORTED: put_number(p, witness == NULL ? "aborted at " : "unclean at ", first); break;
    case KRUPOVESH_UNFINAL: put_number(p, witness == NULL ? "unfinal at " : "unclean at ", first); break;
    case KRUPOVESH_OWN: put_number(p, witness == NULL ? "own at " : "unclean at ", first); break;
    case KRUPOVESH_YES: put(p, "yes"); break;
    case KRUPOVESH_READ_AT:
        put_number(p, "read at ", first);
        put_number(p, " wants ", KRUPOVESH_SECOND(result));
        if (KRUPOVESH_THIRD(result) != 0)
            put_number(p, " from ", KRUPOVESH_THIRD(result));
        break;
    case KRUPOVESH_WRITE_AT:
        put_number(p, "write at ", first);
        put_number(p, " with ", KRUPOVESH_SECOND(result));
        break;
    default: put(p, "over"); break;
    }
    put(p, "\n");
}

static void put_verdicts(struct pen *p, const struct history *h, uint16_t *witness)
{
    uint64_t fault = fault_of(h);
    put_number(p, "steps=", h->steps);
    put_number(p, "\ncommitted=", h->committed);
    put(p, "\n");
    put_line(p, "clean=", fault != 0 ? fault : answer(KRUPOVESH_YES, 0, 0), NULL);
    put_line(p, "snapshot=", snapshot_answer(h), NULL);
    put_line(p, "conflict=", conflict_answer(h, witness), witness);
    put_line(p, "version=", fault != 0 ? fault : version_answer(h, witness), witness);
    if (h->committed > SEARCHED)
        put_line(p, "exact=", refused(13, h->committed), witness);
    else
        put_line(p, "exact=", fault != 0 ? fault : exact_answer(h, witness), witness);
}

uint64_t peer_report(const uint8_t *text, size_t text_length, uint8_t *out, size_t out_length)
{
    struct history h;
    struct pen p = {out, 0};
    uint16_t steps[KRUPOVESH_STEPS], witness[KRUPOVESH_WITNESS];
    if (out_length != KRUPOVESH_REPORT)
        return refused(12, 0);

    uint64_t result = parse(text, text_length, steps);
    if (KRUPOVESH_KIND(result) == KRUPOVESH_ACCEPTED)
        result = peer_check(&h, steps, 4 * (size_t)KRUPOVESH_FIRST(result));
    if (result == 0) {
        put_verdicts(&p, &h, witness);
    } else {
        put_number(&p, "refused=", KRUPOVESH_FIRST(result));
        put_number(&p, " at=", KRUPOVESH_SECOND(result));
        put(&p, "\n");
    }
    memset(out + p.used, 0, out_length - p.used);
    return answer(KRUPOVESH_ACCEPTED, p.used, 0);
}
