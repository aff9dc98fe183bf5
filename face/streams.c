/* Reads what the second program has said to streams. */
#include "streams.h"

#include <stdlib.h>
#include <string.h>

#include "../include/krupovesh.h"

const uint16_t codes[CODES] = {3, 4, 5, 6, 7, 8, 18, KRUPOVESH_LIVE_TAKEN, KRUPOVESH_LIVE_YES, KRUPOVESH_LIVE_BREACH,
                               KRUPOVESH_LIVE_CLOSED};

int is_code(unsigned number)
{
    for (unsigned i = 0; i < CODES; i++)
        if (codes[i] == number)
            return 1;
    return 0;
}

static void stop(const char *what)
{
    fprintf(stderr, "face: the streams cannot be read: %s\n", what);
    exit(2);
}

/* The code that the line of an answer means. */
static uint16_t code_of(const char *line)
{
    unsigned number;
    if (strcmp(line, "taken") == 0)
        return KRUPOVESH_LIVE_TAKEN;
    if (strcmp(line, "yes") == 0)
        return KRUPOVESH_LIVE_YES;
    if (strcmp(line, "breach") == 0)
        return KRUPOVESH_LIVE_BREACH;
    if (strcmp(line, "cycle closed") == 0)
        return KRUPOVESH_LIVE_CLOSED;
    if (sscanf(line, "refused=%u", &number) != 1 || !is_code(number))
        stop(line);
    return (uint16_t)number;
}

int next_stream(FILE *file, struct stream *s)
{
    char line[32];
    if (fscanf(file, " steps=%zu", &s->steps) != 1) {
        if (!feof(file))
            stop("a header that is none");
        return 0;
    }
    if (s->steps > MOST_STEPS)
        stop("one is too long");
    for (size_t k = 0; k < s->steps; k++) {
        uint16_t *n = s->numbers + 4 * k;
        if (fscanf(file, " %hu %hu %hu %hu %31[^\n]", &n[0], &n[1], &n[2], &n[3], line) != 5)
            stop("a step that is none");
        s->answers[k] = code_of(line);
    }
    return 1;
}
