/* Tests which commits to redo: what the planner writes, and what the judge says to it, to other proposals, and to dirt. */
#include "redo.h"

#include <stdio.h>
#include <string.h>

/* What may be due, and how often it was. */
enum due { NOTHING, ONE, SEVERAL, ALL, YES_TO_NONE, YES_TO_SOME, NO, NINETEEN, FIRST_OF_LOG, DUES };
static unsigned long met[DUES];
static const char *const due_names[DUES] = {
    "the planner is to propose nothing", "the planner is to propose one", "the planner is to propose several",
    "the planner is to propose all 128", "the judge is to say yes to none", "the judge is to say yes to some",
    "the judge is to say no", "the judge is to refuse with 19", "the judge is to refuse with a number of the log"};

static enum due due_of_planner(unsigned members)
{
    return members == 0 ? NOTHING : members == 1 ? ONE : members < KRUPOVESH_PROPOSAL ? SEVERAL : ALL;
}

static enum due due_of_judge(const struct proposal *p)
{
    switch (KRUPOVESH_KIND(p->answer)) {
    case KRUPOVESH_YES: return p->numbers[0] == 0 ? YES_TO_NONE : YES_TO_SOME;
    case KRUPOVESH_NO: return NO;
    default: return KRUPOVESH_FIRST(p->answer) == 19 ? NINETEEN : FIRST_OF_LOG;
    }
}

/* The planner: its members and then zeros, or a refusal. */
static void try_planner(const struct expected *e)
{
    lend_for(REDO);
    lend(LOG, 4 * e->step_count, e->steps);
    if (KRUPOVESH_KIND(e->redo_answer) != KRUPOVESH_REFUSED) {
        make_due(WORK, NULL, 0);
        make_due(PROPOSAL, e->redo, KRUPOVESH_PROPOSAL);
        met[due_of_planner(KRUPOVESH_FIRST(e->redo_answer))]++;
    }
    try_call(REDO, e->redo_answer, e->name);
}

/* The judge: a proposal, or dirt where it is NULL, which stays as it is. */
static void try_judge(const struct expected *e, const uint16_t *proposal, uint64_t due)
{
    lend_for(ACCEPTS);
    lend(LOG, 4 * e->step_count, e->steps);
    lend(PROPOSAL, KRUPOVESH_PROPOSAL, proposal);
    if (KRUPOVESH_KIND(due) != KRUPOVESH_REFUSED)
        make_due(WORK, NULL, 0);
    try_call(ACCEPTS, due, e->name);
}

/* What the planner has written is what the judge takes. */
static void try_what_was_planned(const struct expected *e)
{
    uint16_t written[KRUPOVESH_PROPOSAL];
    memcpy(written, held(PROPOSAL), sizeof written);
    try_judge(e, written, answer(KRUPOVESH_YES, 0, 0));
}

void try_redo(const struct expected *e)
{
    try_planner(e);
    if (!e->is_refused)
        try_what_was_planned(e);
    for (size_t i = 0; i < e->proposal_count; i++) {
        met[due_of_judge(&e->proposals[i])]++;
        try_judge(e, e->proposals[i].numbers, e->proposals[i].answer);
    }
    try_judge(e, NULL, e->is_refused ? e->refusal : answer(KRUPOVESH_REFUSED, 19, 0));
}

int is_whole_redo(void)
{
    int all = 1;
    for (enum due d = 0; d < DUES; d++) {
        if (met[d] == 0) {
            printf("in no log %s\n", due_names[d]);
            all = 0;
        }
    }
    return all;
}
