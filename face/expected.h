/* What has to come out for a text, read from what the second program has said of it. */
#ifndef EXPECTED_H
#define EXPECTED_H

#include <stddef.h>
#include <stdint.h>

#include "lent.h"

enum { MOST_ORDERS = 64, MOST_PROPOSALS = 64, MOST_TEXT = 100000 };

/* A proposal, and what the judge says to it. */
struct proposal {
    uint16_t numbers[KRUPOVESH_PROPOSAL];
    uint64_t answer;
};

struct expected {
    char name[512];
    uint8_t text[MOST_TEXT];
    size_t text_length;

    /* The steps, by a reading of the text that is this test's own; only where the text is in form. */
    uint16_t steps[4096];
    size_t step_count;
    uint16_t committed[128]; /* the lowest first */
    size_t committed_count;

    char report[KRUPOVESH_REPORT];
    size_t report_length;
    uint64_t refusal; /* what turns the text or its log away */
    int is_refused, is_read; /* whether something does; whether the text is in form */

    /* In the order of the functions: clean, snapshot, conflict, version, exact. */
    uint64_t answers[5];
    uint16_t witness[5][KRUPOVESH_WITNESS];

    uint64_t write_answer; /* what the writer answers to the steps, and what it writes */
    char written[KRUPOVESH_TEXT + 1];
    size_t written_length;

    uint16_t orders[MOST_ORDERS][KRUPOVESH_WITNESS]; /* as a witness shows them */
    size_t order_count;
    int is_whole_list; /* whether none comes after the last of them */

    uint64_t redo_answer; /* what the planner answers to the steps, and what it writes */
    uint16_t redo[KRUPOVESH_PROPOSAL];
    struct proposal proposals[MOST_PROPOSALS];
    size_t proposal_count;
};

/* What `report`, `orders`, `write` and `plans` have said of the same texts, each in its file. */
struct words;
struct said {
    struct words *reports, *orders, *written, *plans;
};
struct words *open_words(const char *path);

/* The next text of the files. 0 at the end. */
int next_expected(struct said *s, struct expected *e);

#endif
