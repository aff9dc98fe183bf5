/* Reads what the second program has said of each text. */
#include "expected.h"

#include <stdio.h>
#include <stdlib.h>
#include <string.h>

/* The lines of a file, one ahead. */
struct words {
    FILE *file;
    char line[4096];
    int is_over;
};

static void stop(const char *what, const char *where)
{
    fprintf(stderr, "face: %s: %s\n", what, where);
    exit(2);
}

static void step_on(struct words *w)
{
    w->is_over = fgets(w->line, sizeof w->line, w->file) == NULL;
    if (!w->is_over)
        w->line[strcspn(w->line, "\n")] = 0;
}

struct words *open_words(const char *path)
{
    struct words *w = calloc(1, sizeof *w);
    if (w == NULL || (w->file = fopen(path, "rb")) == NULL)
        stop("cannot be read", path);
    step_on(w);
    return w;
}

static const char *value_of(const char *line, const char *key)
{
    size_t length = strlen(key);
    return strncmp(line, key, length) == 0 ? line + length : NULL;
}

static void load_text(struct expected *e)
{
    FILE *f = fopen(e->name, "rb");
    if (f == NULL)
        stop("cannot be read", e->name);
    e->text_length = fread(e->text, 1, sizeof e->text - 1, f);
    if (!feof(f))
        stop("is too long for this test", e->name);
    fclose(f);
}

/* Reads a text that is in form. */
static void read_steps(struct expected *e)
{
    static const char *const words[] = {"", "begin", "read", "write", "commit", "abort"};
    const char *at = (const char *)e->text;
    char word[8];
    uint8_t is_committed[65536] = {0};

    e->step_count = (size_t)strtoul(at + 6, NULL, 10);
    for (size_t k = 0; k < e->step_count; k++) {
        uint16_t *s = e->steps + 4 * k;
        at = strchr(at, '\n') + 1;
        if (sscanf(at, "op=%7s tx=%hu obj=%hu from=%hu", word, &s[1], &s[2], &s[3]) != 4)
            stop("has a line that cannot be read", e->name);
        for (s[0] = 1; s[0] < 5 && strcmp(word, words[s[0]]) != 0; s[0]++)
            ;
        is_committed[s[1]] |= s[0] == 4;
    }
    for (unsigned t = 1; t <= 128; t++)
        if (is_committed[t])
            e->committed[e->committed_count++] = (uint16_t)t;
}

/* Takes a number from the front of a list. False at its end. */
static int take_number(const char **list, uint16_t *number)
{
    char *end;
    unsigned long t = strtoul(*list, &end, 10);
    int is_there = end != *list;
    if (is_there)
        *number = (uint16_t)t;
    *list = end;
    return is_there;
}

/* The members of an order as entries of a witness; how many. */
static unsigned order_entries(const char *list, uint16_t *witness)
{
    unsigned count = 0;
    while (take_number(&list, witness + KRUPOVESH_ENTRY * count))
        count++;
    return count;
}

/* The kind that a word at the front of a list means, which is taken; 0 where it is none. */
static uint16_t take_kind(const char **list)
{
    static const char *const words[] = {[KRUPOVESH_WW] = " ww:", [KRUPOVESH_WR] = " wr:", [KRUPOVESH_RW] = " rw:"};
    for (uint16_t kind = KRUPOVESH_WW; kind <= KRUPOVESH_RW; kind++) {
        const char *rest = value_of(*list, words[kind]);
        if (rest != NULL) {
            *list = rest;
            return kind;
        }
    }
    return 0;
}

/* The members of a cycle with their reasons as entries of a witness; how many. */
static unsigned cycle_entries(const struct expected *e, const char *list, uint16_t *witness)
{
    unsigned count = 0;
    for (uint16_t *entry = witness; take_number(&list, entry); entry += KRUPOVESH_ENTRY) {
        entry[1] = take_kind(&list);
        if (entry[1] == 0 || !take_number(&list, entry + 2))
            stop("the report has a member without a reason", e->name);
        count++;
    }
    return count;
}

/* The answer that a line's value speaks of. The fault is the clean verdict's answer. */
static uint64_t answer_of(const struct expected *e, const char *value, uint64_t fault, uint16_t *witness)
{
    unsigned k, t, s;
    if (strcmp(value, "yes") == 0)
        return answer(KRUPOVESH_YES, 0, 0);
    if (strcmp(value, "none") == 0)
        return answer(KRUPOVESH_NONE, 0, 0);
    if (strcmp(value, "over") == 0)
        return answer(KRUPOVESH_REFUSED, 13, (unsigned)e->committed_count);
    if (sscanf(value, "aborted at %u", &k) == 1)
        return answer(KRUPOVESH_ABORTED, k, 0);
    if (sscanf(value, "unfinal at %u", &k) == 1)
        return answer(KRUPOVESH_UNFINAL, k, 0);
    if (sscanf(value, "own at %u", &k) == 1)
        return answer(KRUPOVESH_OWN, k, 0);
    if (sscanf(value, "read at %u wants %u from %u", &k, &t, &s) == 3)
        return wrong_read(k, t, s);
    if (sscanf(value, "read at %u wants %u", &k, &t) == 2)
        return wrong_read(k, t, 0);
    if (sscanf(value, "write at %u with %u", &k, &t) == 2)
        return answer(KRUPOVESH_WRITE_AT, k, t);
    if (sscanf(value, "unclean at %u", &k) == 1 && KRUPOVESH_FIRST(fault) == k)
        return fault;
    if (value_of(value, "order") != NULL)
        return answer(KRUPOVESH_ORDER, order_entries(value + 5, witness), 0);
    if (value_of(value, "cycle") != NULL)
        return answer(KRUPOVESH_CYCLE, cycle_entries(e, value + 5, witness), 0);
    stop("the report has an unknown line", e->name);
    return 0;
}

/* One line of a report. */
static void note_line(struct expected *e, const char *line)
{
    static const char *const keys[] = {"clean=", "snapshot=", "conflict=", "version=", "exact="};
    unsigned number, place;

    e->report_length += (size_t)snprintf(e->report + e->report_length, sizeof e->report - e->report_length, "%s\n", line);
    if (sscanf(line, "refused=%u at=%u", &number, &place) == 2) {
        e->refusal = answer(KRUPOVESH_REFUSED, number, place);
        e->is_refused = 1;
        e->is_read = number != 2 && number != 15 && number != 16;
    }
    if (e->is_read && e->report_length == strlen(line) + 1)
        read_steps(e); /* the first line has told that it can be read */
    for (unsigned i = 0; i < 5; i++) {
        const char *value = value_of(line, keys[i]);
        if (value != NULL)
            e->answers[i] = answer_of(e, value, e->answers[0], e->witness[i]);
    }
}

static void note_order(struct expected *e, const char *line)
{
    if (strcmp(line, "none") == 0)
        e->is_whole_list = 1;
    if (value_of(line, "order") == NULL)
        return;
    if (e->order_count == MOST_ORDERS)
        stop("has more orders than this test keeps", e->name);
    order_entries(line + 5, e->orders[e->order_count++]);
}

/* One line of what is written, or the refusal. */
static void note_written(struct expected *e, const char *line)
{
    unsigned number, place;

    if (sscanf(line, "refused=%u at=%u", &number, &place) == 2) {
        e->write_answer = answer(KRUPOVESH_REFUSED, number, place);
        return;
    }
    size_t left = sizeof e->written - e->written_length;
    size_t length = (size_t)snprintf(e->written + e->written_length, left, "%s\n", line);
    if (length >= left)
        stop("is written as a text that is too long", e->name);
    e->written_length += length;
    e->write_answer = answer(KRUPOVESH_ACCEPTED, (unsigned)e->written_length, 0);
}

/* Takes the numbers at the front of a list; how many. */
static unsigned take_members(const struct expected *e, const char **list, uint16_t *numbers)
{
    uint16_t number;
    unsigned count = 0;
    for (; take_number(list, &number); numbers[count++] = number)
        if (count == KRUPOVESH_PROPOSAL)
            stop("a proposal is too long", e->name);
    return count;
}

/* What the judge says, by its word. */
static uint64_t judged(const struct expected *e, const char *word)
{
    unsigned number, place;
    if (strcmp(word, ": yes") == 0)
        return answer(KRUPOVESH_YES, 0, 0);
    if (strcmp(word, ": no") == 0)
        return answer(KRUPOVESH_NO, 0, 0);
    if (sscanf(word, ": refused=%u at=%u", &number, &place) != 2)
        stop("a proposal has no answer", e->name);
    return answer(KRUPOVESH_REFUSED, number, place);
}

/* One line of the plans: what the planner writes, or its refusal, or a proposal with what the judge says to it. */
static void note_plan(struct expected *e, const char *line)
{
    unsigned number, place;
    const char *list = value_of(line, "redo");
    if (list != NULL)
        e->redo_answer = answer(KRUPOVESH_ACCEPTED, take_members(e, &list, e->redo), 0);
    if (sscanf(line, "refused=%u at=%u", &number, &place) == 2)
        e->redo_answer = answer(KRUPOVESH_REFUSED, number, place);
    list = value_of(line, "accepts");
    if (list == NULL)
        return;
    if (e->proposal_count == MOST_PROPOSALS)
        stop("has more proposals than this test keeps", e->name);
    struct proposal *p = &e->proposals[e->proposal_count++];
    take_members(e, &list, p->numbers);
    p->answer = judged(e, list);
}

/* Notes the lines up to the next text, or the end. */
static void note_all(struct words *w, struct expected *e, void note(struct expected *, const char *))
{
    for (step_on(w); !w->is_over && value_of(w->line, "file=") == NULL; step_on(w))
        note(e, w->line);
}

/* Whether the file goes on with the text of this line. */
static int is_at(const struct words *w, const char *line)
{
    return !w->is_over && strcmp(w->line, line) == 0;
}

int next_expected(struct said *s, struct expected *e)
{
    if (s->reports->is_over)
        return 0;
    memset(e, 0, sizeof *e);
    const char *line = s->reports->line, *name = value_of(line, "file=");
    if (name == NULL || !is_at(s->orders, line) || !is_at(s->written, line) || !is_at(s->plans, line))
        stop("the files are not of the same texts", line);
    snprintf(e->name, sizeof e->name, "%s", name);
    load_text(e);
    e->is_read = 1;
    note_all(s->reports, e, note_line);
    note_all(s->orders, e, note_order);
    note_all(s->written, e, note_written);
    note_all(s->plans, e, note_plan);
    return 1;
}
