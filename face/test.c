/* Tests the C face from outside: wrong lengths, logs and texts with what the second program says of them, dirty buffers everywhere.
 * Called with five files: what `second report`, `second orders`, `second write` and `second plans` have said of the same texts, and
 * `second streams`.
 * The last line says how many calls agree; the exit status is 0 exactly when all do. */
#include <stdio.h>
#include <string.h>

#include "expected.h"
#include "lent.h"
#include "live.h"
#include "redo.h"

static struct expected e;

/* Tries a function that has to refuse: every buffer stays as it is. */
static void try_refusal(enum function f, unsigned number, unsigned place, const char *about)
{
    try_call(f, answer(KRUPOVESH_REFUSED, number, place), about);
}

/* One log and one text, which may be bad: a wrong length of another buffer comes first. */
static void lend_input(unsigned which)
{
    static const uint16_t log[12] = {1, 1, 0, 0, 3, 1, 0, 0, 4, 1, 0, 0};
    static const char text[] = "steps=0\n";
    static const char unfit[] = "steps=1\nop=begin tx=1 obj=0 from=0\n"; /* in form, and refused with 11 */
    switch (which) {
    case 0:
        lend(LOG, 12, log);
        lend(TEXT, 8, text);
        break;
    case 1:
        lend(LOG, 0, NULL);
        lend(TEXT, 0, NULL);
        break;
    case 2:
        lend(LOG, 7, NULL);
        lend(TEXT, 100, NULL);
        break;
    case 3:
        lend(LOG, 4, log);
        lend(TEXT, sizeof unfit - 1, unfit);
        break;
    default:
        lend(LOG, 4100, NULL);
        lend(TEXT, 33804, NULL);
        break;
    }
}

enum { INPUTS = 5, WRONG_LENGTHS = 7 };

/* The last two are right for other buffers: the order's for the witness, and the witness's for all others; the writer's for the
 * report and for the steps, which are as many, and the report's for all others. */
static size_t wrong_length(size_t right, unsigned which)
{
    const size_t small = right == KRUPOVESH_WITNESS ? KRUPOVESH_HANDED : KRUPOVESH_WITNESS;
    const size_t large = right == KRUPOVESH_REPORT ? KRUPOVESH_TEXT : KRUPOVESH_REPORT;
    const size_t wrong[WRONG_LENGTHS] = {0, right - 1, right + 1, right / 2, 2 * right, small, large};
    return wrong[which];
}

/* Number 12: each buffer alone, and all at once. */
static void try_lengths(enum function f)
{
    for (unsigned input = 0; input < INPUTS; input++) {
        for (unsigned which = 0; which < WRONG_LENGTHS; which++) {
            for (enum buffer b = ORDER; b < BUFFERS; b++) {
                if (!takes(f, b))
                    continue;
                lend_for(f);
                lend_input(input);
                lend(b, wrong_length(right_length(b), which), NULL);
                try_refusal(f, 12, 0, "one wrong length");
            }
            lend_input(input);
            for (enum buffer b = ORDER; b < BUFFERS; b++)
                if (takes(f, b))
                    lend(b, wrong_length(right_length(b), which), NULL);
            try_refusal(f, 12, 0, "all lengths wrong");
        }
    }
}

/* Numbers 1, 2 and 3, which no text can reach: lengths of the run, and kinds that are none. */
static void try_runs(enum function f)
{
    static const size_t odd[] = {1, 2, 3, 5, 4095, 4097, 4098, 4101};
    static const size_t long_ones[] = {4100, 4104, 8192};
    static const uint16_t bad_kinds[] = {0, 6, 256, 65535};
    uint16_t log[12] = {1, 1, 0, 0, 4, 1, 0, 0, 0, 0, 64, 1};

    lend_for(f);
    for (unsigned i = 0; i < sizeof odd / sizeof *odd; i++) {
        lend(LOG, odd[i], NULL);
        try_refusal(f, 1, 0, "no multiple of 4");
    }
    for (unsigned i = 0; i < sizeof long_ones / sizeof *long_ones; i++) {
        lend(LOG, long_ones[i], NULL);
        try_refusal(f, 2, 0, "too many steps");
    }
    for (unsigned i = 0; i < sizeof bad_kinds / sizeof *bad_kinds; i++) {
        log[8] = bad_kinds[i];
        lend(LOG, 12, log);
        try_refusal(f, 3, 2, "a kind that is none");
    }
}

/* The five verdicts on a log. */
static void try_verdicts(void)
{
    for (enum function f = CLEAN; f <= EXACT; f++) {
        uint64_t due = e.is_refused ? e.refusal : e.answers[f];
        lend_for(f);
        lend(LOG, 4 * e.step_count, e.steps);
        if (KRUPOVESH_KIND(due) != KRUPOVESH_REFUSED) {
            make_due(WORK, NULL, 0);
            if (takes(f, WITNESS))
                make_due(WITNESS, e.witness[f], KRUPOVESH_WITNESS);
        }
        try_call(f, due, e.name);
    }
}

/* The members of an order that a witness shows, as "next" takes them: the first number of each entry. */
static void read_members(const uint16_t *witness, uint16_t *order)
{
    for (unsigned i = 0; i < KRUPOVESH_HANDED; i++)
        order[i] = witness[KRUPOVESH_ENTRY * i];
}

/* From each order of the list to the one after it. */
static void try_listing(void)
{
    uint16_t order[KRUPOVESH_HANDED];
    for (size_t i = 0; i < e.order_count; i++) {
        int is_last = i + 1 == e.order_count;
        if (is_last && !e.is_whole_list)
            return;
        lend_for(NEXT);
        lend(LOG, 4 * e.step_count, e.steps);
        read_members(e.orders[i], order);
        lend(ORDER, KRUPOVESH_HANDED, order);
        make_due(WORK, NULL, 0);
        if (is_last) {
            make_due(WITNESS, NULL, 0);
            try_call(NEXT, answer(KRUPOVESH_NONE, 0, 0), e.name);
        } else {
            make_due(WITNESS, e.orders[i + 1], KRUPOVESH_WITNESS);
            try_call(NEXT, answer(KRUPOVESH_ORDER, (unsigned)e.committed_count, 0), e.name);
        }
    }
}

static int is_listed(const uint16_t *order)
{
    uint16_t listed[KRUPOVESH_HANDED];
    for (size_t i = 0; i < e.order_count; i++) {
        read_members(e.orders[i], listed);
        if (memcmp(listed, order, sizeof listed) == 0)
            return 1;
    }
    return 0;
}

/* The first order of the list; where there is none, the committed, the lowest first. */
static void read_first(uint16_t *order)
{
    if (e.order_count != 0)
        read_members(e.orders[0], order);
    else
        memcpy(order, e.committed, sizeof e.committed);
}

/* Something that is not on the list. */
static void try_stranger(const uint16_t *order)
{
    lend_for(NEXT);
    lend(LOG, 4 * e.step_count, e.steps);
    lend(ORDER, KRUPOVESH_HANDED, order);
    if (e.is_refused)
        try_call(NEXT, e.refusal, e.name);
    else
        try_refusal(NEXT, 14, 0, e.name);
}

/* What is near to an order, and never one: a member too few, too many, twice, too large, not committed; an order as a witness shows
 * it; and mere dirt. */
static void try_strangers(void)
{
    uint16_t order[KRUPOVESH_HANDED], first[KRUPOVESH_HANDED];
    size_t count = e.committed_count;

    read_first(first);
    try_stranger(NULL);
    if (e.order_count != 0 && count > 1)
        try_stranger(e.orders[0]);
    for (unsigned i = 0; i < KRUPOVESH_HANDED; i++) {
        if (i > 2 && i + 1 != count && i != count && i != 127)
            continue;
        memcpy(order, first, sizeof order);
        order[i] = (uint16_t)(order[i] + 128);
        try_stranger(order);
        order[i] = i < count ? 0 : 1;
        try_stranger(order);
        order[i] = i > 0 && i < count ? first[i - 1] : 129;
        try_stranger(order);
    }
}

/* Two neighbours changed about, where the whole list is known and this is not on it. */
static void try_swaps(void)
{
    uint16_t order[KRUPOVESH_HANDED];
    for (size_t i = 0; i + 1 < e.committed_count && i < 8; i++) {
        read_first(order);
        uint16_t t = order[i];
        order[i] = order[i + 1];
        order[i + 1] = t;
        if (e.is_whole_list && !is_listed(order))
            try_stranger(order);
    }
    if (e.is_whole_list && !is_listed(e.committed))
        try_stranger(e.committed);
}

static void try_read(void)
{
    lend_for(READ);
    lend(TEXT, e.text_length, e.text);
    if (e.is_read) {
        make_due(STEPS, e.steps, KRUPOVESH_STEPS);
        try_call(READ, answer(KRUPOVESH_ACCEPTED, (unsigned)e.step_count, 0), e.name);
    } else {
        try_call(READ, e.refusal, e.name);
    }
}

/* What was written is read as the same steps. */
static void try_reading_back(uint64_t written)
{
    lend(STEPS, KRUPOVESH_STEPS, NULL);
    lend(TEXT, KRUPOVESH_FIRST(written), held(WRITTEN));
    make_due(STEPS, e.steps, KRUPOVESH_STEPS);
    try_call(READ, answer(KRUPOVESH_ACCEPTED, (unsigned)e.step_count, 0), e.name);
}

static void try_write(void)
{
    int is_refused = KRUPOVESH_KIND(e.write_answer) == KRUPOVESH_REFUSED;
    lend_for(WRITE);
    lend(LOG, 4 * e.step_count, e.steps);
    if (!is_refused)
        make_due(WRITTEN, e.written, e.written_length);
    uint64_t given = try_call(WRITE, e.write_answer, e.name);
    if (!is_refused)
        try_reading_back(given);
}

static void try_report(void)
{
    lend_for(REPORT);
    lend(TEXT, e.text_length, e.text);
    make_due(OUT, e.report, e.report_length);
    try_call(REPORT, answer(KRUPOVESH_ACCEPTED, (unsigned)e.report_length, 0), e.name);
}

int main(int count, char **words)
{
    unsigned long texts = 0;
    if (count != 6) {
        fprintf(stderr, "test REPORTS ORDERS WRITTEN PLANS STREAMS\n");
        return 2;
    }
    struct said said = {open_words(words[1]), open_words(words[2]), open_words(words[3]), open_words(words[4])};

    for (enum function f = CLEAN; f <= REPORT; f++)
        try_lengths(f);
    for (enum function f = CLEAN; f <= WRITE; f++)
        try_runs(f);
    for (; next_expected(&said, &e); texts++) {
        try_read();
        try_report();
        if (!e.is_read)
            continue;
        try_verdicts();
        try_listing();
        try_strangers();
        try_swaps();
        try_write();
        try_redo(&e);
    }
    unsigned long streams = try_live(words[5]);
    int is_whole = is_whole_redo();
    printf("face: %lu of %lu calls agree, over %lu texts and %lu streams\n", agreeing, calls, texts, streams);
    return agreeing == calls && texts != 0 && streams != 0 && is_whole ? 0 : 1;
}
