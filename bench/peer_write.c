/* The text writer. */
#include <string.h>

#include "peer.h"
#include "peer_parts.h"

/* A line up to its transaction. The whole entry is copied, and what comes next is written over its zeros; the longest text leaves
 * room for them. */
static const struct {
    char words[16];
    size_t length;
} starts[] = {[BEGIN] = {"op=begin tx=", 12},
              [READ] = {"op=read tx=", 11},
              [WRITE] = {"op=write tx=", 12},
              [COMMIT] = {"op=commit tx=", 13},
              [ABORT] = {"op=abort tx=", 12}};

/* Each of these answers where the next byte goes. */
static inline uint8_t *put_bytes(uint8_t *at, const char *words, size_t length)
{
    memcpy(at, words, length);
    return at + length;
}

/* A number below 130. All four bytes of its entry are copied, as above. */
#define TEN(tens) {tens "0"}, {tens "1"}, {tens "2"}, {tens "3"}, {tens "4"}, \
                  {tens "5"}, {tens "6"}, {tens "7"}, {tens "8"}, {tens "9"}
static const char digits[][4] = {TEN(""),  TEN("1"), TEN("2"), TEN("3"),  TEN("4"),  TEN("5"), TEN("6"),
                                 TEN("7"), TEN("8"), TEN("9"), TEN("10"), TEN("11"), TEN("12")};

static inline uint8_t *put_small(uint8_t *at, unsigned number)
{
    memcpy(at, digits[number], sizeof digits[number]);
    return at + 1 + (number >= 10) + (number >= 100);
}

static uint8_t *put_header(uint8_t *at, unsigned steps)
{
    unsigned unit = 1;
    while (steps / unit >= 10)
        unit *= 10;
    at = put_bytes(at, "steps=", 6);
    for (; unit != 0; unit /= 10)
        *at++ = (uint8_t)('0' + steps / unit % 10);
    return put_bytes(at, "\n", 1);
}

static inline uint8_t *put_step(uint8_t *at, struct step s)
{
    memcpy(at, starts[s.kind].words, sizeof starts[s.kind].words);
    at = put_small(at + starts[s.kind].length, s.tx);
    at = put_small(put_bytes(at, " obj=", 5), s.object);
    at = put_small(put_bytes(at, " from=", 6), s.source);
    return put_bytes(at, "\n", 1);
}

uint64_t peer_write(const uint16_t *log, size_t log_length, uint8_t *out, size_t out_length)
{
    struct history h;
    if (out_length != KRUPOVESH_TEXT)
        return refused(12, 0);
    uint64_t refusal = peer_check(&h, log, log_length);
    if (refusal != 0)
        return refusal;

    uint8_t *at = put_header(out, h.steps);
    for (unsigned k = 0; k < h.steps; k++)
        at = put_step(at, step_at(&h, k));
    size_t used = (size_t)(at - out);
    memset(at, 0, out_length - used);
    return answer(KRUPOVESH_ACCEPTED, used, 0);
}
