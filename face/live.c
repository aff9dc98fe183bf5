/* Tests the live judge: streams cut in many ways, wrong lengths before, between and behind the parts, states that no stream has reached, and
 * every transaction that can be. */
#include "live.h"

#include <stdlib.h>
#include <string.h>

#include "lent.h"
#include "streams.h"

enum { STATES = EDGES - STATE + 1, WIDEST_STATE = 2 * KRUPOVESH_LIVE_ROWS };

static struct stream s;

/* The state of the live judge while its buffers are lent with something else. */
static uint64_t saved[STATES][WIDEST_STATE / 8 + 1];

static unsigned below(unsigned bound)
{
    static uint64_t seed = 88172645463325252u;
    seed ^= seed << 13;
    seed ^= seed >> 7;
    seed ^= seed << 17;
    return (unsigned)((seed >> 33) % bound);
}

static size_t state_bytes(enum buffer b)
{
    return right_length(b) * (b == MARKS || b == EDGES ? 8 : 2);
}

static void save_state(void)
{
    for (enum buffer b = STATE; b <= EDGES; b++)
        memcpy(saved[b - STATE], held(b), state_bytes(b));
}

/* Lends the state that was saved; the calls that follow may change it. */
static void lend_saved(void)
{
    for (enum buffer b = STATE; b <= EDGES; b++) {
        lend(b, right_length(b), saved[b - STATE]);
        let_change(b);
    }
}

static void lend_fresh(void)
{
    memset(saved, 0, sizeof saved);
    lend_saved();
}

/* So many steps of the stream, from one on: their answers are those of the second program. */
static void try_part(size_t first, size_t count, const char *about)
{
    lend(PART, 4 * count, s.numbers + 4 * first);
    lend(ANSWERS, count, NULL);
    make_due(ANSWERS, s.answers + first, count);
    try_call(LIVE, answer(KRUPOVESH_ACCEPTED, 0, 0), about);
}

/* Number 1, whatever the other lengths are. */
static void try_odd_parts(void)
{
    static const size_t odd[] = {1, 2, 3, 5, 4 * MOST_STEPS - 1};
    for (unsigned i = 0; i < sizeof odd / sizeof *odd; i++) {
        for (size_t entries = odd[i] / 4; entries <= odd[i] / 4 + 1; entries++) {
            lend(PART, odd[i], NULL);
            lend(ANSWERS, entries, NULL);
            try_call(LIVE, answer(KRUPOVESH_REFUSED, 1, 0), "no multiple of 4");
        }
    }
}

/* Number 12: not one answer a step. */
static void try_answer_lengths(void)
{
    for (size_t steps = 0; steps <= 5; steps++) {
        const size_t wrong[] = {0, steps + 1, steps - 1, 4 * steps, KRUPOVESH_LIVE_OPENED};
        for (unsigned i = 0; i < sizeof wrong / sizeof *wrong; i++) {
            if (wrong[i] == steps || wrong[i] > KRUPOVESH_LIVE_ROWS)
                continue;
            lend(PART, 4 * steps, s.numbers);
            lend(ANSWERS, wrong[i], NULL);
            try_call(LIVE, answer(KRUPOVESH_REFUSED, 12, 0), "not one answer a step");
        }
    }
}

/* Number 12: a wrong length of a buffer of the state; 1 goes before it. */
static void try_state_length(enum buffer b, size_t wrong, const void *contents)
{
    lend(b, wrong, contents);
    for (size_t steps = 0; steps <= 2; steps++) {
        lend(PART, 4 * steps, s.numbers);
        lend(ANSWERS, steps, NULL);
        try_call(LIVE, answer(KRUPOVESH_REFUSED, 12, 0), "a wrong length of the state");
        lend(PART, 4 * steps + 1, NULL);
        try_call(LIVE, answer(KRUPOVESH_REFUSED, 1, 0), "a wrong length, and no multiple of 4");
    }
}

static void try_state_lengths(void)
{
    for (enum buffer b = STATE; b <= EDGES; b++) {
        size_t right = right_length(b);
        const size_t wrong[] = {0, right - 1, right + 1, right / 2, 2 * right, right == KRUPOVESH_LIVE_OPENED ? 3 : 128};
        for (unsigned i = 0; i < sizeof wrong / sizeof *wrong; i++)
            try_state_length(b, wrong[i], wrong[i] < right ? saved[b - STATE] : NULL);
        lend(b, right, saved[b - STATE]);
    }
}

/* Everything that turns a call away, over the state as it stands: nothing is changed. */
static void try_refusals(int with_state)
{
    for (enum buffer b = STATE; b <= EDGES; b++)
        keep(b);
    try_odd_parts();
    try_answer_lengths();
    save_state();
    if (with_state)
        try_state_lengths();
    lend_saved();
}

/* How many steps the next part has: none, one, or some of those that are left. */
static size_t some_steps(size_t left)
{
    unsigned kind = below(8);
    if (kind == 0 || left == 0)
        return 0;
    if (kind <= 3)
        return 1;
    return 1 + below(kind == 7 ? (unsigned)left : 1 + (unsigned)left / 8);
}

static void try_cuts(int refuses)
{
    lend_fresh();
    for (size_t first = 0; first < s.steps;) {
        size_t count = some_steps(s.steps - first);
        try_part(first, count, "a stream in parts");
        if (refuses && below(16) == 0)
            try_refusals(0);
        first += count;
    }
}

static void try_stream(unsigned long index)
{
    lend_fresh();
    try_part(0, s.steps, "a stream in one part");
    try_part(0, 0, "no step behind a stream");
    if (index % 20 == 0)
        try_refusals(1);
    lend_fresh();
    for (size_t k = 0; k < s.steps; k++)
        try_part(k, 1, "a stream step by step");
    try_cuts(0);
    try_cuts(1);
}

/* A call over whatever the state is: it is accepted, and each answer is one that there is. */
static void try_anything(const uint16_t *numbers, size_t steps)
{
    lend(PART, 4 * steps, numbers);
    lend(ANSWERS, steps, NULL);
    let_change(ANSWERS);
    try_call(LIVE, answer(KRUPOVESH_ACCEPTED, 0, 0), "a state that was never reached");
    for (size_t k = 0; k < steps; k++) {
        uint16_t code;
        memcpy(&code, held(ANSWERS) + 2 * k, sizeof code);
        note(is_code(code), "a state that was never reached: an answer that there is not");
    }
}

/* Changes some entries of a buffer's saved state: to anything, or to something small. */
static void disturb(enum buffer b, unsigned times)
{
    for (unsigned i = 0; i < times; i++) {
        size_t place = below((unsigned)right_length(b));
        uint64_t value = below(2) == 0 ? below(200) : (uint64_t)below(1u << 30) << 34 | below(1u << 30);
        if (b == MARKS || b == EDGES)
            saved[b - STATE][place] = value;
        else
            memcpy((uint8_t *)saved[b - STATE] + 2 * place, &(uint16_t){(uint16_t)value}, 2);
    }
}

/* Changes the saved state: two entries of each buffer, or many, or some buffers to all zeros and others to all ones. */
static void make_strange(enum buffer b, unsigned how)
{
    if (how == 3 && below(4) != 0)
        memset(saved[b - STATE], below(2) == 0 ? 0 : 0xff, state_bytes(b));
    else if (how != 3)
        disturb(b, how == 1 ? 2 : 1000);
}

/* The state at hand with some of it changed, or dirt; then the stream goes on, and steps that are anything. */
static void try_strange_state(unsigned how)
{
    uint16_t any[4 * 40];
    for (unsigned i = 0; i < 4 * 40; i++)
        any[i] = (uint16_t)(i % 4 == 0 ? below(7) : below(6) == 0 ? below(65536) : below(64));
    for (enum buffer b = STATE; b <= EDGES; b++) {
        make_strange(b, how);
        lend(b, right_length(b), how == 0 ? NULL : saved[b - STATE]);
        let_change(b);
    }
    try_anything(s.numbers, s.steps);
    try_anything(any, 40);
    try_anything(any, 1);
}

static void try_strange_states(void)
{
    for (unsigned which = 0; which < 8; which++) {
        size_t half = s.steps / 2;
        lend_fresh();
        try_part(0, half, "half a stream");
        save_state();
        try_strange_state(which % 4);
    }
}

/* Steps with the answer that 02 says is due to each, tried in parts of many steps. */
enum { MANY = 70000, BEGIN = 1, READ_ONE, WRITE_ONE, COMMIT, ABORT };
enum { LAST_NUMBER = 65535, PLACES = 128, GOOD = KRUPOVESH_LIVE_TAKEN };
static uint16_t many_numbers[4 * MANY], many_answers[MANY];
static size_t many;

static void try_many(const char *about)
{
    lend(PART, 4 * many, many_numbers);
    lend(ANSWERS, many, NULL);
    make_due(ANSWERS, many_answers, many);
    try_call(LIVE, answer(KRUPOVESH_ACCEPTED, 0, 0), about);
    many = 0;
}

static void add(unsigned kind, unsigned tx, unsigned object, unsigned source, unsigned due)
{
    const uint16_t step[4] = {(uint16_t)kind, (uint16_t)tx, (uint16_t)object, (uint16_t)source};
    if (many == MANY)
        try_many("many steps");
    memcpy(many_numbers + 4 * many, step, sizeof step);
    many_answers[many++] = (uint16_t)due;
}

/* More steps than a 16-bit number counts, in one part: two that write and read on, of which the second also reads the store's version at
 * last: its commit is a breach. */
static void try_many_steps(void)
{
    lend_fresh();
    for (unsigned tx = 1; tx <= 2; tx++) {
        add(BEGIN, tx, 0, 0, GOOD);
        for (unsigned k = 0; k < MANY / 4 - 1; k++) {
            add(WRITE_ONE, tx, 0, 0, GOOD);
            add(READ_ONE, tx, 0, tx == 2 && k == MANY / 4 - 2 ? 0 : tx, GOOD);
        }
        add(COMMIT, tx, 0, 0, tx == 1 ? KRUPOVESH_LIVE_YES : KRUPOVESH_LIVE_BREACH);
    }
    try_many("many steps in one part");
}

/* One that reads what the one before it wrote, writes the same object, and commits. */
static void add_link(unsigned tx, unsigned before)
{
    add(BEGIN, tx, 0, 0, GOOD);
    add(READ_ONE, tx, 0, before, GOOD);
    add(WRITE_ONE, tx, 0, 0, GOOD);
    add(COMMIT, tx, 0, 0, KRUPOVESH_LIVE_YES);
}

/* Every number begins, one after another; the last two are open at once, and each reads what the other writes. */
static void try_every_number(void)
{
    const unsigned one = LAST_NUMBER - 1, other = LAST_NUMBER;
    lend_fresh();
    for (unsigned tx = 1; tx < one; tx++)
        add_link(tx, tx - 1);
    add(BEGIN, one, 0, 0, GOOD);
    add(BEGIN, other, 0, 0, GOOD);
    add(BEGIN, other, 0, 0, 7);
    add(BEGIN, 1, 0, 0, 7);
    add(COMMIT, 1, 0, 0, 8);
    add(READ_ONE, one, 1, 0, GOOD);
    add(READ_ONE, other, 2, 0, GOOD);
    add(WRITE_ONE, one, 2, 0, GOOD);
    add(WRITE_ONE, other, 1, 0, GOOD);
    add(COMMIT, one, 0, 0, KRUPOVESH_LIVE_YES);
    add(COMMIT, other, 0, 0, KRUPOVESH_LIVE_CLOSED);
    add(BEGIN, 0, 0, 0, KRUPOVESH_LIVE_CLOSED);
    try_many("every number");
}

/* All places are in use by those that are open: the next begins when the first of them has aborted. */
static void try_open_places(void)
{
    lend_fresh();
    for (unsigned tx = 1; tx <= LAST_NUMBER; tx++) {
        if (tx > PLACES) {
            add(BEGIN, tx, 0, 0, 18);
            add(WRITE_ONE, tx, 0, 0, 8);
            add(ABORT, tx - PLACES, 0, 0, GOOD);
        }
        add(BEGIN, tx, 0, 0, GOOD);
    }
    try_many("all places open");
}

/* One that is open holds the places of all others, which have committed, until it ends. */
static void try_held_places(void)
{
    unsigned last = 0;
    lend_fresh();
    for (unsigned first = 1; first + PLACES <= LAST_NUMBER; first += PLACES) {
        add(BEGIN, first, 0, 0, GOOD);
        for (unsigned tx = first + 1; tx < first + PLACES; last = tx++)
            add_link(tx, last);
        add(BEGIN, first + PLACES, 0, 0, 18);
        add(COMMIT, first, 0, 0, KRUPOVESH_LIVE_YES);
    }
    try_many("all places held");
}

/* Whether each answer was due to some step; what was not is said. */
static int is_whole(const unsigned long *met)
{
    int all = 1;
    for (unsigned i = 0; i < CODES; i++) {
        if (met[codes[i]] == 0) {
            printf("no step of the streams is due to get %u\n", codes[i]);
            all = 0;
        }
    }
    return all;
}

unsigned long try_live(const char *path)
{
    unsigned long streams = 0, met[HIGHEST_CODE + 1] = {0};
    FILE *file = fopen(path, "rb");
    if (file == NULL) {
        fprintf(stderr, "face: cannot be read: %s\n", path);
        exit(2);
    }
    for (; next_stream(file, &s); streams++) {
        for (size_t k = 0; k < s.steps; k++)
            met[s.answers[k]]++;
        try_stream(streams);
        if (streams % 4 == 0)
            try_strange_states();
    }
    fclose(file);
    try_many_steps();
    try_every_number();
    try_open_places();
    try_held_places();
    return is_whole(met) ? streams : 0;
}
