/* Prints, for each verdict and each workload, for the commits to redo, and for the live judge on each stream, what ours costs as a
 * multiple of the peer, and what each costs. */
#define _POSIX_C_SOURCE 199309L
#include <stdio.h>
#include <stdlib.h>
#include <string.h>
#include <time.h>

#include "judges.h"

enum { ROUNDS = 7, MOST_ROWS = 32 };
static const double shortest = 0.05; /* seconds that a side is run in a round */

static struct workload room;
static struct buffers lent;
static uint16_t proposals[MOST_LOGS][KRUPOVESH_PROPOSAL]; /* one for each log of the room, where commits are to redo */
static struct stream stream;
static struct live_buffers live;

/* What is run many times: a verdict on each log of a workload, a listing, a proposal for each log or the judging of it, or a stream
 * with so many steps a call. */
enum sort { VERDICT, LISTING, REDO, ACCEPTS, STREAM };
struct task {
    enum sort sort;
    unsigned verdict;
    size_t at_once;
};

/* What a task costs: ours as a multiple of the peer, and each in microseconds a log, or in nanoseconds a step. */
enum { RATIO, PEER, OURS, FIGURES };
struct cost {
    double figure[FIGURES];
};

/* Processor time, so that other programs count less. */
static double seconds(void)
{
    struct timespec now;
    clock_gettime(CLOCK_PROCESS_CPUTIME_ID, &now);
    return (double)now.tv_sec + 1e-9 * (double)now.tv_nsec;
}

static void run_once(const struct judge *j, const struct task *t)
{
    if (t->sort == STREAM) {
        judge_stream(j, &stream, t->at_once, &live);
        return;
    }
    for (unsigned k = 0; k < room.count; k++) {
        const struct log *l = &room.logs[k];
        switch (t->sort) {
        case LISTING: judge_listing(j, l, &lent); break;
        case REDO: judge_redo(j, l, &lent); break;
        case ACCEPTS: judge_accepts(j, l, proposals[k], &lent); break;
        default: judge_log(j, t->verdict, l, &lent); break;
        }
    }
}

static double run(const struct judge *j, const struct task *t, unsigned long times)
{
    double start = seconds();
    for (unsigned long i = 0; i < times; i++)
        run_once(j, t);
    return seconds() - start;
}

/* What a second for one run of a task is, in the unit of the figures. */
static double unit(const struct task *t)
{
    return t->sort == STREAM ? 1e9 / (double)stream.steps : 1e6 / room.count;
}

/* How often to run a side so that it takes long enough. This warms it up, too. */
static unsigned long enough(const struct judge *j, const struct task *t)
{
    unsigned long times = 1;
    double took = run(j, t, times);
    while (took < shortest / 5) {
        times *= 4;
        took = run(j, t, times);
    }
    return 1 + (unsigned long)(1.1 * (double)times * shortest / took);
}

static int ascending(const void *a, const void *b)
{
    double x = *(const double *)a, y = *(const double *)b;
    return (x > y) - (x < y);
}

/* The two by turns, and the median of the rounds. */
static struct cost measure(const struct task *t)
{
    double seen[FIGURES][ROUNDS];
    struct cost c;

    memset(&lent, 0, sizeof lent);
    unsigned long our_times = enough(&ours, t), peer_times = enough(&peer, t);
    for (unsigned i = 0; i < ROUNDS; i++) {
        seen[OURS][i] = unit(t) * run(&ours, t, our_times) / (double)our_times;
        seen[PEER][i] = unit(t) * run(&peer, t, peer_times) / (double)peer_times;
        seen[RATIO][i] = seen[OURS][i] / seen[PEER][i];
    }
    for (unsigned f = 0; f < FIGURES; f++) {
        qsort(seen[f], ROUNDS, sizeof *seen[f], ascending);
        c.figure[f] = seen[f][ROUNDS / 2];
    }
    return c;
}

/* About three digits. */
static void print_figure(double x)
{
    printf(" %.*f |", x < 10 ? 2 : x < 100 ? 1 : 0, x);
}

static void print_table(const char *title, unsigned figure, const char *const *names, struct cost (*costs)[VERDICTS])
{
    printf("\n%s\n\n| log |", title);
    for (unsigned v = 0; v < VERDICTS; v++)
        printf(" %s |", verdict_names[v]);
    printf("\n|---|");
    for (unsigned v = 0; v < VERDICTS; v++)
        printf("---:|");
    printf("\n");
    for (unsigned i = 0; i < workload_count; i++) {
        printf("| %s |", names[i]);
        for (unsigned v = 0; v < VERDICTS; v++)
            print_figure(costs[i][v].figure[figure]);
        printf("\n");
    }
}

static void print_verdicts(void)
{
    static struct cost costs[MOST_ROWS][VERDICTS];
    static const char *names[MOST_ROWS];

    for (unsigned i = 0; i < workload_count; i++) {
        make_workload(i, &room);
        names[i] = room.name;
        for (unsigned v = 0; v < VERDICTS; v++)
            costs[i][v] = measure(&(struct task){VERDICT, v, 0});
    }
    print_table("Ours / peer:", RATIO, names, costs);
    print_table("The peer, in microseconds a log:", PEER, names, costs);
    print_table("Ours, in microseconds a log:", OURS, names, costs);
}

static void print_listings(void)
{
    printf("\nNext over a whole listing, from the version verdict's order to none, in microseconds a listing:\n\n");
    printf("| log | orders | ours / peer | peer | ours |\n|---|---:|---:|---:|---:|\n");
    for (unsigned i = 0; i < listing_count; i++) {
        make_listing(i, &room);
        printf("| %s | %u |", room.name, judge_listing(&ours, room.logs, &lent));
        struct cost c = measure(&(struct task){LISTING, 0, 0});
        for (unsigned f = 0; f < FIGURES; f++)
            print_figure(c.figure[f]);
        printf("\n");
    }
}

/* Makes a row's logs and a proposal for each of them; how many members a proposal has, on the average. */
static double make_proposals(unsigned index)
{
    unsigned members = 0;
    make_plan(index, &room);
    for (unsigned k = 0; k < room.count; k++) {
        members += KRUPOVESH_FIRST(judge_redo(&peer, &room.logs[k], &lent));
        memcpy(proposals[k], lent.proposal, sizeof proposals[k]);
    }
    return (double)members / room.count;
}

static void print_plans(void)
{
    printf("\nWhich commits to redo, in microseconds a log; making a proposal, and judging that one:\n\n");
    printf("| log | members | redo: ours / peer | peer | ours | accepts: ours / peer | peer | ours |\n");
    printf("|---|---:|---:|---:|---:|---:|---:|---:|\n");
    for (unsigned i = 0; i < plan_count; i++) {
        double members = make_proposals(i);
        printf("| %s | %.3g |", room.name, members);
        for (enum sort s = REDO; s <= ACCEPTS; s++) {
            struct cost c = measure(&(struct task){s, 0, 0});
            for (unsigned f = 0; f < FIGURES; f++)
                print_figure(c.figure[f]);
        }
        printf("\n");
    }
}

/* Whole streams in one call, and one step a call. */
static void print_streams(void)
{
    printf("\nThe live judge from the fresh state on, in nanoseconds a step; the whole stream in one call, and one step a call:\n\n");
    printf("| stream | one call: ours / peer | peer | ours | a call a step: ours / peer | peer | ours |\n");
    printf("|---|---:|---:|---:|---:|---:|---:|\n");
    for (unsigned i = 0; i < stream_count; i++) {
        make_stream(i, &stream);
        printf("| %s |", stream.name);
        const size_t at_once[] = {stream.steps, 1};
        for (unsigned k = 0; k < 2; k++) {
            struct cost c = measure(&(struct task){STREAM, 0, at_once[k]});
            for (unsigned f = 0; f < FIGURES; f++)
                print_figure(c.figure[f]);
        }
        printf("\n");
    }
}

/* Makes the row of a table, by the word of a verdict, `next`, `redo`, `accepts`, `live` or `step`; false where there is none. */
static int make_row(const char *word, unsigned row, struct task *t)
{
    if (strcmp(word, "live") == 0 || strcmp(word, "step") == 0) {
        if (row >= stream_count)
            return 0;
        make_stream(row, &stream);
        *t = (struct task){STREAM, 0, word[0] == 'l' ? stream.steps : 1};
        return 1;
    }
    if (strcmp(word, "next") == 0) {
        *t = (struct task){LISTING, 0, 0};
        if (row < listing_count)
            make_listing(row, &room);
        return row < listing_count;
    }
    if (strcmp(word, "redo") == 0 || strcmp(word, "accepts") == 0) {
        *t = (struct task){word[0] == 'r' ? REDO : ACCEPTS, 0, 0};
        if (row < plan_count)
            make_proposals(row);
        return row < plan_count;
    }
    for (t->verdict = 0; t->verdict < VERDICTS && strcmp(word, verdict_names[t->verdict]) != 0; t->verdict++)
        ;
    if (t->verdict == VERDICTS || row >= workload_count)
        return 0;
    make_workload(row, &room);
    return 1;
}

/* For a profiler: ours alone and once, on the logs of one row of a table. */
static int profile(const char *word, unsigned row)
{
    struct task t = {VERDICT, 0, 0};
    if (!make_row(word, row, &t)) {
        fprintf(stderr, "bench [VERDICT|next|redo|accepts|live|step ROW]\n");
        return 2;
    }
    run_once(&ours, &t);
    return 0;
}

int main(int count, char **words)
{
    if (count == 3)
        return profile(words[1], (unsigned)strtoul(words[2], NULL, 10));
    unsigned bad = disagreements(&room, &stream);
    if (bad != 0) {
        fprintf(stderr, "ours and the peer differ %u times; nothing was timed\n", bad);
        return 1;
    }
    print_verdicts();
    print_listings();
    print_plans();
    print_streams();
    return 0;
}
