/* Judges a stream of texts in one process: each report of the C face against the one that stands behind its text.
 * Standard input is what `second every` writes: a line with two lengths, a text, its report, and so on. */
#include <stdio.h>
#include <string.h>

#include "../../include/krupovesh.h"

enum { MOST = 33803 };

static uint8_t text[MOST], due[KRUPOVESH_REPORT], out[KRUPOVESH_REPORT];

/* Whether the report of this text is the one that is due, with zeros behind it. */
static int agrees(size_t text_length, size_t due_length)
{
    memset(out, 0xa5, sizeof out);
    uint64_t answer = krupovesh_report(text, text_length, out, sizeof out);
    for (size_t i = due_length; i < sizeof out; i++)
        if (out[i] != 0)
            return 0;
    return KRUPOVESH_KIND(answer) == KRUPOVESH_ACCEPTED && KRUPOVESH_FIRST(answer) == due_length
        && KRUPOVESH_SECOND(answer) == 0 && KRUPOVESH_THIRD(answer) == 0 && memcmp(out, due, due_length) == 0;
}

/* The first text that is judged otherwise, with both reports. */
static void show(size_t text_length, size_t due_length)
{
    printf("--- the text:\n%.*s--- the second program says:\n%.*s--- ours says:\n%.*s", (int)text_length, (char *)text,
           (int)due_length, (char *)due, (int)sizeof out, (char *)out);
}

int main(void)
{
    unsigned long texts = 0, agreeing = 0;
    size_t text_length, due_length;

    while (scanf("%zu %zu", &text_length, &due_length) == 2) {
        if (getchar() != '\n' || text_length > sizeof text || due_length > sizeof due
            || fread(text, 1, text_length, stdin) != text_length || fread(due, 1, due_length, stdin) != due_length) {
            printf("every: the stream is not in form\n");
            return 1;
        }
        int fine = agrees(text_length, due_length);
        if (!fine && agreeing == texts)
            show(text_length, due_length);
        texts++;
        agreeing += (unsigned long)fine;
    }
    printf("every: %lu of %lu texts agree\n", agreeing, texts);
    return agreeing == texts && texts != 0 ? 0 : 1;
}
