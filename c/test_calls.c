/*
 * Tests the two calls of jyrmekko.h as a host in C and a host in C++ make them. This file is compiled as both. The last
 * line is 'N passed, M failed'.
 */
#include "jyrmekko.h"

#include "testing.h"
#include "wanted.h"

#include <stdio.h>
#include <string.h>

/* These are the spellings of 2^40 and of numbers near it. */
#define LAST_TICK 0x80, 0x80, 0x80, 0x80, 0x80, 0x20
#define LAST_TICK_PLUS_1 0x81, 0x80, 0x80, 0x80, 0x80, 0x20
#define LAST_TICK_MINUS_1 0xFF, 0xFF, 0xFF, 0xFF, 0xFF, 0x1F
#define LAST_TICK_MINUS_2 0xFE, 0xFF, 0xFF, 0xFF, 0xFF, 0x1F
#define LAST_TICK_MINUS_3 0xFD, 0xFF, 0xFF, 0xFF, 0xFF, 0x1F
#define LAST_TICK_MINUS_4 0xFC, 0xFF, 0xFF, 0xFF, 0xFF, 0x1F
#define LAST_TICK_MINUS_5 0xFB, 0xFF, 0xFF, 0xFF, 0xFF, 0x1F
#define LAST_TICK_MINUS_6 0xFA, 0xFF, 0xFF, 0xFF, 0xFF, 0x1F

/* These groups ask for more. */
#define ASKING_5 0x80, 0x80, 0x80, 0x80, 0x80
#define ASKING_6 ASKING_5, 0x80

/* Any log of the scripts here fits. */
enum { FENCE = 16, MOST_LOG = JYRMEKKO_LOG_SIZE(3 * (JYRMEKKO_MOST_PENDING + 2)) };

static int same_bytes(const uint8_t *one, const uint8_t *other, size_t length)
{
    return length == 0 || memcmp(one, other, length) == 0;
}

/* A buffer to lend. It starts at bytes + FENCE, and around it stand bytes that nobody may touch. */
struct fenced {
    uint8_t bytes[FENCE + MOST_LOG + FENCE];
};

static uint8_t *untouched(struct fenced *buffer)
{
    memset(buffer->bytes, UNTOUCHED, sizeof buffer->bytes);
    return buffer->bytes + FENCE;
}

static int fence_stands(const struct fenced *buffer, size_t length)
{
    return all_bytes(buffer->bytes, FENCE, UNTOUCHED)
        && all_bytes(buffer->bytes + FENCE + length, sizeof buffer->bytes - FENCE - length, UNTOUCHED);
}

static void check_answer(const char *name, const uint8_t *answer, uint64_t first, uint64_t second)
{
    check(number(answer) == first, name, "first number");
    check(number(answer + 8) == second, name, "second number");
}

/* ---- verdicts */

struct verdict_case {
    const char *name;
    uint8_t table[16];
    size_t table_len;
    uint32_t status;
    uint64_t first, second;
};

static const struct verdict_case verdict_cases[] = {
    {"V1", {0, 1, 0, 0}, 4, JYRMEKKO_FEASIBLE, 0, 0},
    {"V2", {0, 1, 1, 1, 2, 6, 1, 0}, 8, JYRMEKKO_FEASIBLE, 0, 0},
    {"V3", {0, 1, 2, 1, 4, 4, 2, 1, 6, 6, 3, 0}, 12, JYRMEKKO_FEASIBLE, 0, 0},
    {"V4", {0, 1, 2, 1, 4, 3, 2, 1, 6, 5, 3, 0}, 12, JYRMEKKO_OVERLOADED, 11, 12},
    {"V5", {0, 1, 1, 3, 6, 6, 2, 0}, 8, JYRMEKKO_FEASIBLE, 0, 0},
    {"V6", {0, 1, 1, 3, 6, 5, 2, 0}, 8, JYRMEKKO_OVERLOADED, 5, 6},
    {"V7", {0, 1, 1, 2, 1, 1, 1, 0}, 8, JYRMEKKO_OVERLOADED, 1, 2},
    {"V8", {0, 1, 1, 1, 2, 10, 3, 0}, 8, JYRMEKKO_OVERLOADED, 26, 27},
    {"longest period, 1023 and 1025", {0, 1, 2, 1, 0xFF, 0x07, 1, 1, 1, 0x81, 0x08, 2, 1, 0}, 14, JYRMEKKO_FEASIBLE, 0, 0},
    {"y 4096", {0, 1, 1, 1, 0x80, 0x20, 1, 1, 0}, 9, JYRMEKKO_FEASIBLE, 0, 0},
    {"T1", {1, 4, 0, 0}, 4, JYRMEKKO_FEASIBLE, 0, 0},
    {"T2", {1, 4, 1, 1, 4, 4, 3, 0}, 8, JYRMEKKO_FEASIBLE, 0, 0},
    {"T2 with one unit more", {1, 4, 1, 1, 4, 4, 4, 0}, 8, JYRMEKKO_OVERLOADED, 4, 5},
    {"T3", {0, 12, 2, 1, 4, 4, 2, 1, 6, 6, 3, 0}, 12, JYRMEKKO_FEASIBLE, 0, 0},
    {"T4", {1, 12, 2, 1, 4, 4, 2, 1, 6, 6, 3, 0}, 12, JYRMEKKO_OVERLOADED, 12, 13},
    {"T5", {3, 4, 1, 1, 4, 3, 1, 0}, 8, JYRMEKKO_OVERLOADED, 3, 4},
    {"T6", {2, 5, 1, 1, 10, 7, 4, 0}, 8, JYRMEKKO_OVERLOADED, 7, 8},
    {"T7", {1, 2, 1, 1, 2, 10, 2, 0}, 8, JYRMEKKO_OVERLOADED, 18, 19},
    {"the table of R2", {1, 4, 2, 1, 8, 6, 2, 1, 8, 8, 3, 0}, 12, JYRMEKKO_FEASIBLE, 0, 0},

    {"p 0", {0, 0, 0, 0}, 4, JYRMEKKO_VALUE_OUT_OF_RANGE, 1, 0},
    {"p 0 and s above it", {1, 0, 0, 0}, 4, JYRMEKKO_VALUE_OUT_OF_RANGE, 1, 0},
    {"p 4097", {0, 0x81, 0x20, 0, 0}, 5, JYRMEKKO_VALUE_OUT_OF_RANGE, 1, 0},
    {"p 4097 and s equal to it", {0x81, 0x20, 0x81, 0x20, 0, 0}, 6, JYRMEKKO_VALUE_OUT_OF_RANGE, 2, 0},
    {"p 4097 and s 2^41", {ASKING_5, 0x40, 0x81, 0x20, 0, 0}, 10, JYRMEKKO_VALUE_OUT_OF_RANGE, 6, 0},
    {"p 2^32", {0, 0x80, 0x80, 0x80, 0x80, 0x10, 0, 0}, 8, JYRMEKKO_VALUE_OUT_OF_RANGE, 1, 0},
    {"p 2^32 + 1", {0, 0x81, 0x80, 0x80, 0x80, 0x10, 0, 0}, 8, JYRMEKKO_VALUE_OUT_OF_RANGE, 1, 0},
    {"p of six groups", {0, ASKING_5, 0x40, 0, 0}, 9, JYRMEKKO_VALUE_OUT_OF_RANGE, 1, 0},
    {"s equal to p", {1, 1, 0, 0}, 4, JYRMEKKO_VALUE_OUT_OF_RANGE, 0, 0},
    {"s above p", {5, 4, 0, 0}, 4, JYRMEKKO_VALUE_OUT_OF_RANGE, 0, 0},
    {"s 4096 and p 4096", {0x80, 0x20, 0x80, 0x20, 0, 0}, 6, JYRMEKKO_VALUE_OUT_OF_RANGE, 0, 0},
    {"s 2^32", {0x80, 0x80, 0x80, 0x80, 0x10, 1, 0, 0}, 8, JYRMEKKO_VALUE_OUT_OF_RANGE, 0, 0},
    {"s 2^41", {ASKING_5, 0x40, 7, 0, 0}, 9, JYRMEKKO_VALUE_OUT_OF_RANGE, 0, 0},
    {"s 4095 and p 4096", {0xFF, 0x1F, 0x80, 0x20, 0, 0}, 6, JYRMEKKO_FEASIBLE, 0, 0},
    {"s 4095 and p 4096, the tick that is left", {0xFF, 0x1F, 0x80, 0x20, 1, 1, 0x80, 0x20, 0x80, 0x20, 1, 0}, 12,
     JYRMEKKO_FEASIBLE, 0, 0},
    {"s 4095 and p 4096, due before it", {0xFF, 0x1F, 0x80, 0x20, 1, 1, 0x80, 0x20, 0xFF, 0x1F, 1, 0}, 12,
     JYRMEKKO_OVERLOADED, 4095, 4096},
    {"a bad p beats a misspelled count", {0, 0, 0x80, 0x00}, 4, JYRMEKKO_VALUE_OUT_OF_RANGE, 1, 0},
    {"a bad s beats a misspelled count", {1, 1, 0x80, 0x00}, 4, JYRMEKKO_VALUE_OUT_OF_RANGE, 0, 0},
    {"a bad s beats one row too many", {1, 1, JYRMEKKO_MOST_ROWS + 1}, 3, JYRMEKKO_VALUE_OUT_OF_RANGE, 0, 0},
    {"a bad s beats c above d", {5, 5, 1, 1, 4, 4, 5, 0}, 8, JYRMEKKO_VALUE_OUT_OF_RANGE, 0, 0},
    {"a misspelled p beats a bad s", {5, 0x84, 0x00, 0}, 4, JYRMEKKO_MISSPELLED, 2, 0},
    {"a p of seven groups beats a bad s", {5, ASKING_6, 1, 0}, 9, JYRMEKKO_MISSPELLED, 6, 0},
    {"a p that is cut off beats a bad s", {ASKING_5, 0x40, 0x81}, 7, JYRMEKKO_MISSPELLED, 7, 0},
    {"s misspelled", {0x80, 0x00, 1, 0}, 4, JYRMEKKO_MISSPELLED, 1, 0},
    {"s of seven groups", {ASKING_6, 1, 1, 0}, 9, JYRMEKKO_MISSPELLED, 5, 0},
    {"s cut off", {0x80}, 1, JYRMEKKO_MISSPELLED, 1, 0},
    {"cut before p", {0}, 1, JYRMEKKO_MISSPELLED, 1, 0},
    {"cut before the count", {0, 1}, 2, JYRMEKKO_MISSPELLED, 2, 0},
    {"one row too many, after s and p of two groups", {0x81, 0x01, 0x82, 0x01, JYRMEKKO_MOST_ROWS + 1}, 5,
     JYRMEKKO_TOO_MANY_ROWS, 4, 0},
    {"longest period by p, 1023 and 1025", {0, 0xFF, 0x07, 1, 1, 0x81, 0x08, 1, 1, 0}, 10, JYRMEKKO_FEASIBLE, 0, 0},
    {"longest period by p, 1025 and 1023", {0, 0x81, 0x08, 1, 1, 0xFF, 0x07, 1, 1, 0}, 10, JYRMEKKO_FEASIBLE, 0, 0},
    {"longest period by p, with ticks taken", {1, 0xFF, 0x07, 1, 1, 0x81, 0x08, 2, 1, 0}, 10, JYRMEKKO_FEASIBLE, 0, 0},
    {"period too long by p, 919 and 1141", {0, 0x97, 0x07, 1, 1, 0xF5, 0x08, 1, 1, 0}, 10, JYRMEKKO_PERIOD_TOO_LONG, 10, 0},
    {"period too long by p, 1141 and 919", {0, 0xF5, 0x08, 1, 1, 0x97, 0x07, 1, 1, 0}, 10, JYRMEKKO_PERIOD_TOO_LONG, 10, 0},
    {"period too long by p, with ticks taken", {1, 0x97, 0x07, 1, 1, 0xF5, 0x08, 2, 1, 0}, 10, JYRMEKKO_PERIOD_TOO_LONG, 10, 0},
    {"bytes after the server count beat it", {0, 0x97, 0x07, 1, 1, 0xF5, 0x08, 1, 1, 0, 0}, 11, JYRMEKKO_EXTRA_BYTES, 10, 0},
    {"V2 as it was spelled before", {1, 1, 2, 6, 1}, 5, JYRMEKKO_VALUE_OUT_OF_RANGE, 0, 0},
    {"V3 as it was spelled before", {2, 1, 4, 4, 2, 1, 6, 6, 3}, 9, JYRMEKKO_VALUE_OUT_OF_RANGE, 0, 0},

    {"no table", {0}, 0, JYRMEKKO_MISSPELLED, 0, 0},
    {"count 80 00", {0, 1, 0x80, 0x00}, 4, JYRMEKKO_MISSPELLED, 3, 0},
    {"count 80 80 00, and bytes after", {0, 1, 0x80, 0x80, 0x00, 0x80, 0x00}, 7, JYRMEKKO_MISSPELLED, 4, 0},
    {"count cut off", {0, 1, 0x80}, 3, JYRMEKKO_MISSPELLED, 3, 0},
    {"cut before x", {0, 1, 1}, 3, JYRMEKKO_MISSPELLED, 3, 0},
    {"cut in d", {0, 1, 1, 1, 2, 0x86}, 6, JYRMEKKO_MISSPELLED, 6, 0},
    {"cut in c", {0, 1, 1, 1, 2, 6, 0x81, 0x80}, 8, JYRMEKKO_MISSPELLED, 8, 0},
    {"y of seven groups", {0, 1, 1, 1, ASKING_6, 1}, 11, JYRMEKKO_MISSPELLED, 9, 0},
    {"y of six groups, cut off as the sixth asks for more", {0, 1, 1, 1, ASKING_6}, 10, JYRMEKKO_MISSPELLED, 9, 0},
    {"y of five groups, cut off as the fifth asks for more", {0, 1, 1, 1, ASKING_5}, 9, JYRMEKKO_MISSPELLED, 9, 0},
    {"y of six groups, the last of them zero", {0, 1, 1, 1, ASKING_5, 0x00, 1, 1}, 12, JYRMEKKO_MISSPELLED, 9, 0},
    {"y of six groups", {0, 1, 1, 1, ASKING_5, 0x01, 1, 1, 0}, 13, JYRMEKKO_VALUE_OUT_OF_RANGE, 4, 0},
    {"one row too many", {0, 1, JYRMEKKO_MOST_ROWS + 1}, 3, JYRMEKKO_TOO_MANY_ROWS, 2, 0},
    {"x 0", {0, 1, 1, 0, 2, 6, 1, 0}, 8, JYRMEKKO_VALUE_OUT_OF_RANGE, 3, 0},
    {"x 65", {0, 1, 1, 65, 2, 6, 1, 0}, 8, JYRMEKKO_VALUE_OUT_OF_RANGE, 3, 0},
    {"y 4097", {0, 1, 1, 1, 0x81, 0x20, 1, 1, 0}, 9, JYRMEKKO_VALUE_OUT_OF_RANGE, 4, 0},
    {"d 16385", {0, 1, 1, 1, 2, 0x81, 0x80, 0x01, 1, 0}, 10, JYRMEKKO_VALUE_OUT_OF_RANGE, 5, 0},
    {"c 0", {0, 1, 1, 1, 2, 6, 0, 0}, 8, JYRMEKKO_VALUE_OUT_OF_RANGE, 6, 0},
    {"a bad x beats a misspelled y", {0, 1, 1, 0, 0x80, 0x00}, 6, JYRMEKKO_VALUE_OUT_OF_RANGE, 3, 0},
    {"bytes after the server count", {0, 1, 1, 1, 2, 6, 1, 0, 0x80, 0x00}, 10, JYRMEKKO_EXTRA_BYTES, 8, 0},
    {"period too long, 1141 and 919", {0, 1, 2, 1, 0xF5, 0x08, 1, 1, 1, 0x97, 0x07, 2, 1, 0}, 14, JYRMEKKO_PERIOD_TOO_LONG, 14, 0},

    {"c above d", {0, 1, 1, 1, 4, 4, 5, 0}, 8, JYRMEKKO_HOPELESS_ROW, 6, 0},
    {"c equal to d", {0, 1, 1, 1, 4, 4, 4, 0}, 8, JYRMEKKO_FEASIBLE, 0, 0},
    {"c equal to d, overloaded", {0, 1, 1, 2, 4, 4, 4, 0}, 8, JYRMEKKO_OVERLOADED, 4, 8},
    {"c above d in the second row", {0, 1, 2, 1, 4, 4, 2, 1, 6, 5, 6, 0}, 12, JYRMEKKO_HOPELESS_ROW, 10, 0},
    {"c above d in both rows", {0, 1, 2, 1, 4, 4, 5, 1, 4, 4, 5, 0}, 12, JYRMEKKO_HOPELESS_ROW, 6, 0},
    {"c above the d of another row", {0, 1, 2, 1, 8, 4, 4, 1, 8, 8, 5, 0}, 12, JYRMEKKO_OVERLOADED, 8, 9},
    {"c 128 above d 127", {0, 1, 1, 1, 4, 0x7F, 0x80, 0x01, 0}, 9, JYRMEKKO_HOPELESS_ROW, 6, 0},
    {"c 4096 above d 4095", {0, 1, 1, 1, 4, 0xFF, 0x1F, 0x80, 0x20, 0}, 10, JYRMEKKO_HOPELESS_ROW, 7, 0},
    {"c 4096 and d 4096", {0, 1, 1, 1, 0x80, 0x20, 0x80, 0x20, 0x80, 0x20, 0}, 11, JYRMEKKO_FEASIBLE, 0, 0},
    {"c 4097 above d 4095", {0, 1, 1, 1, 4, 0xFF, 0x1F, 0x81, 0x20, 0}, 10, JYRMEKKO_VALUE_OUT_OF_RANGE, 7, 0},
    {"c 5000 above d 4", {0, 1, 1, 1, 4, 4, 0x88, 0x27, 0}, 9, JYRMEKKO_VALUE_OUT_OF_RANGE, 6, 0},
    {"c above d is misspelled", {0, 1, 1, 1, 4, 4, 0x85, 0x00}, 8, JYRMEKKO_MISSPELLED, 7, 0},
    {"c above d is cut off", {0, 1, 1, 1, 4, 4, 0x85}, 7, JYRMEKKO_MISSPELLED, 7, 0},
    {"a bad d beats c above it", {0, 1, 1, 1, 4, 0, 5, 0}, 8, JYRMEKKO_VALUE_OUT_OF_RANGE, 5, 0},
    {"a bad x beats c above d in a later row", {0, 1, 2, 0, 4, 4, 4, 1, 4, 4, 5, 0}, 12, JYRMEKKO_VALUE_OUT_OF_RANGE, 3, 0},
    {"a misspelled x beats c above d in a later row", {0, 1, 2, 0x80, 0, 4, 4, 4, 1, 4, 4, 5}, 12, JYRMEKKO_MISSPELLED, 4, 0},
    {"c above d beats a bad x in a later row", {0, 1, 2, 1, 4, 4, 5, 0, 4, 4, 4, 0}, 12, JYRMEKKO_HOPELESS_ROW, 6, 0},
    {"c above d beats a misspelled x in a later row", {0, 1, 2, 1, 4, 4, 5, 0x80, 0}, 9, JYRMEKKO_HOPELESS_ROW, 6, 0},
    {"c above d beats a later row cut off", {0, 1, 2, 1, 4, 4, 5}, 7, JYRMEKKO_HOPELESS_ROW, 6, 0},
    {"c above d beats bytes after the server count", {0, 1, 1, 1, 4, 4, 5, 0, 0}, 9, JYRMEKKO_HOPELESS_ROW, 6, 0},
    {"c above d beats a period too long", {0, 1, 2, 1, 0xF5, 0x08, 1, 1, 1, 0x97, 0x07, 2, 3, 0}, 14, JYRMEKKO_HOPELESS_ROW, 12, 0},
    {"c above d beats both", {0, 1, 2, 1, 0xF5, 0x08, 1, 1, 1, 0x97, 0x07, 2, 3, 0, 0}, 15, JYRMEKKO_HOPELESS_ROW, 12, 0},

    {"S2", {0, 1, 0, 1, 1, 4}, 6, JYRMEKKO_FEASIBLE, 0, 0},
    {"S3", {0, 1, 0, 1, 0x80, 0x20, 0x80, 0x20}, 8, JYRMEKKO_FEASIBLE, 0, 0},
    {"S4", {0, 1, 2, 1, 4, 4, 2, 1, 6, 6, 3, 1, 1, 12}, 14, JYRMEKKO_OVERLOADED, 12, 13},
    {"S5", {0, 1, 0, 2, 1, 1, 1, 0x80, 0x20}, 9, JYRMEKKO_OVERLOADED, 4096, 4097},
    {"S6", {1, 4, 0, 1, 3, 4}, 6, JYRMEKKO_FEASIBLE, 0, 0},
    {"S7", {1, 4, 0, 1, 4, 5}, 6, JYRMEKKO_OVERLOADED, 5, 6},
    {"S8", {0, 1, 1, 1, 4, 7, 2, 2, 1, 3, 1, 4}, 12, JYRMEKKO_OVERLOADED, 36, 37},
    {"the table of R3", {0, 1, 1, 1, 4, 4, 2, 1, 1, 4}, 10, JYRMEKKO_FEASIBLE, 0, 0},
    {"a server of every tick, and a row", {0, 1, 1, 1, 4, 4, 1, 1, 1, 1}, 10, JYRMEKKO_OVERLOADED, 4, 5},
    {"two servers of every tick", {0, 1, 0, 2, 1, 1, 1, 1}, 8, JYRMEKKO_OVERLOADED, 1, 2},
    {"a row and a server, half of the ticks each", {0, 1, 1, 1, 2, 10, 1, 1, 1, 2}, 10, JYRMEKKO_FEASIBLE, 0, 0},
    {"a witness past H and the largest d", {0, 1, 1, 1, 2, 10, 1, 1, 2, 3}, 10, JYRMEKKO_OVERLOADED, 30, 31},
    {"a witness far past H and the largest d", {0, 1, 1, 1, 2, 100, 1, 2, 1, 2, 1, 0x80, 0x20}, 13,
     JYRMEKKO_OVERLOADED, 204800, 204801},
    {"s 4095 and p 4096, and a server of the tick that is left", {0xFF, 0x1F, 0x80, 0x20, 0, 1, 1, 0x80, 0x20}, 9,
     JYRMEKKO_FEASIBLE, 0, 0},

    {"no server count", {0, 1, 0}, 3, JYRMEKKO_MISSPELLED, 3, 0},
    {"V2 as it was spelled before there were servers", {0, 1, 1, 1, 2, 6, 1}, 7, JYRMEKKO_MISSPELLED, 7, 0},
    {"server count cut off", {0, 1, 0, 0x81}, 4, JYRMEKKO_MISSPELLED, 4, 0},
    {"server count 80 00", {0, 1, 0, 0x80, 0x00}, 5, JYRMEKKO_MISSPELLED, 4, 0},
    {"server count of seven groups", {0, 1, 0, ASKING_6, 1}, 10, JYRMEKKO_MISSPELLED, 8, 0},
    {"one server too many", {0, 1, 0, JYRMEKKO_MOST_SERVERS + 1}, 4, JYRMEKKO_TOO_MANY_ROWS, 3, 0},
    {"one server too many, after a row", {0, 1, 1, 1, 2, 6, 1, JYRMEKKO_MOST_SERVERS + 1}, 8, JYRMEKKO_TOO_MANY_ROWS, 7, 0},
    {"one server too many beats a misspelled a", {0, 1, 0, JYRMEKKO_MOST_SERVERS + 1, 0x80, 0x00}, 6,
     JYRMEKKO_TOO_MANY_ROWS, 3, 0},
    {"2^32 servers", {0, 1, 0, 0x80, 0x80, 0x80, 0x80, 0x10}, 8, JYRMEKKO_TOO_MANY_ROWS, 3, 0},
    {"2^41 servers", {0, 1, 0, ASKING_5, 0x40}, 9, JYRMEKKO_TOO_MANY_ROWS, 3, 0},
    {"a 0", {0, 1, 0, 1, 0, 4}, 6, JYRMEKKO_VALUE_OUT_OF_RANGE, 4, 0},
    {"a 4097", {0, 1, 0, 1, 0x81, 0x20, 0x81, 0x20}, 8, JYRMEKKO_VALUE_OUT_OF_RANGE, 4, 0},
    {"a 2^32 + 1", {0, 1, 0, 1, 0x81, 0x80, 0x80, 0x80, 0x10, 4}, 10, JYRMEKKO_VALUE_OUT_OF_RANGE, 4, 0},
    {"a of six groups", {0, 1, 0, 1, ASKING_5, 0x40, 4}, 11, JYRMEKKO_VALUE_OUT_OF_RANGE, 4, 0},
    {"a 0 beats a misspelled b", {0, 1, 0, 1, 0, 0x80, 0x00}, 7, JYRMEKKO_VALUE_OUT_OF_RANGE, 4, 0},
    {"a 4097 beats a missing b", {0, 1, 0, 1, 0x81, 0x20}, 6, JYRMEKKO_VALUE_OUT_OF_RANGE, 4, 0},
    {"b 0", {0, 1, 0, 1, 1, 0}, 6, JYRMEKKO_VALUE_OUT_OF_RANGE, 5, 0},
    {"b below a", {0, 1, 0, 1, 4, 3}, 6, JYRMEKKO_VALUE_OUT_OF_RANGE, 5, 0},
    {"b 4095 and a 4096", {0, 1, 0, 1, 0x80, 0x20, 0xFF, 0x1F}, 8, JYRMEKKO_VALUE_OUT_OF_RANGE, 6, 0},
    {"b 4097", {0, 1, 0, 1, 1, 0x81, 0x20}, 7, JYRMEKKO_VALUE_OUT_OF_RANGE, 5, 0},
    {"b 2^32 + 4", {0, 1, 0, 1, 1, 0x84, 0x80, 0x80, 0x80, 0x10}, 10, JYRMEKKO_VALUE_OUT_OF_RANGE, 5, 0},
    {"b 4096 and a 1", {0, 1, 0, 1, 1, 0x80, 0x20}, 7, JYRMEKKO_FEASIBLE, 0, 0},
    {"b equal to a", {0, 1, 0, 1, 4, 4}, 6, JYRMEKKO_FEASIBLE, 0, 0},
    {"b below the a of another server", {0, 1, 0, 2, 4, 8, 1, 3}, 8, JYRMEKKO_FEASIBLE, 0, 0},
    {"a bad b beats a bad a in a later server", {0, 1, 0, 2, 4, 3, 0, 4}, 8, JYRMEKKO_VALUE_OUT_OF_RANGE, 5, 0},
    {"a bad a in the second server", {0, 1, 0, 2, 1, 4, 0, 4}, 8, JYRMEKKO_VALUE_OUT_OF_RANGE, 6, 0},
    {"a misspelled", {0, 1, 0, 1, 0x80, 0x00, 4}, 7, JYRMEKKO_MISSPELLED, 5, 0},
    {"a of seven groups", {0, 1, 0, 1, ASKING_6, 1, 4}, 12, JYRMEKKO_MISSPELLED, 9, 0},
    {"b misspelled", {0, 1, 0, 1, 1, 0x84, 0x00}, 7, JYRMEKKO_MISSPELLED, 6, 0},
    {"b of seven groups", {0, 1, 0, 1, 1, ASKING_6, 1}, 12, JYRMEKKO_MISSPELLED, 10, 0},
    {"b cut off", {0, 1, 0, 1, 1, 0x84}, 6, JYRMEKKO_MISSPELLED, 6, 0},
    {"cut before a", {0, 1, 0, 1}, 4, JYRMEKKO_MISSPELLED, 4, 0},
    {"cut before b", {0, 1, 0, 1, 1}, 5, JYRMEKKO_MISSPELLED, 5, 0},
    {"cut before the second server", {0, 1, 0, 2, 1, 4}, 6, JYRMEKKO_MISSPELLED, 6, 0},
    {"bytes after the last server", {0, 1, 0, 1, 1, 4, 0}, 7, JYRMEKKO_EXTRA_BYTES, 6, 0},
    {"bytes after the last server, misspelled", {0, 1, 0, 1, 1, 4, 0x80, 0x00}, 8, JYRMEKKO_EXTRA_BYTES, 6, 0},
    {"b joins H as it stands", {0, 1, 1, 1, 0x81, 0x08, 1, 1, 1, 0x80, 0x04, 0x80, 0x08}, 13, JYRMEKKO_PERIOD_TOO_LONG, 13, 0},
    {"the same size with a smaller b", {0, 1, 1, 1, 0x81, 0x08, 1, 1, 1, 1, 2}, 11, JYRMEKKO_FEASIBLE, 0, 0},
    {"longest period by b and y, 1023 and 1025", {0, 1, 1, 1, 0x81, 0x08, 1, 1, 1, 1, 0xFF, 0x07}, 12, JYRMEKKO_FEASIBLE, 0, 0},
    {"longest period by two b, 1023 and 1025", {0, 1, 0, 2, 1, 0xFF, 0x07, 1, 0x81, 0x08}, 10, JYRMEKKO_FEASIBLE, 0, 0},
    {"longest period by p and b, 1023 and 1025", {0, 0xFF, 0x07, 0, 1, 1, 0x81, 0x08}, 8, JYRMEKKO_FEASIBLE, 0, 0},
    {"period too long by b and y, 919 and 1141", {0, 1, 1, 1, 0xF5, 0x08, 1, 1, 1, 1, 0x97, 0x07}, 12,
     JYRMEKKO_PERIOD_TOO_LONG, 12, 0},
    {"period too long by two b, 919 and 1141", {0, 1, 0, 2, 1, 0x97, 0x07, 1, 0xF5, 0x08}, 10, JYRMEKKO_PERIOD_TOO_LONG, 10, 0},
    {"period too long by p and b, 919 and 1141", {0, 0x97, 0x07, 0, 1, 1, 0xF5, 0x08}, 8, JYRMEKKO_PERIOD_TOO_LONG, 8, 0},
    {"bytes after the last server beat a period too long", {0, 0x97, 0x07, 0, 1, 1, 0xF5, 0x08, 0}, 9, JYRMEKKO_EXTRA_BYTES, 8, 0},
    {"a bad b beats a period too long", {0, 1, 0, 3, 1, 0x97, 0x07, 1, 0xF5, 0x08, 4, 3}, 12, JYRMEKKO_VALUE_OUT_OF_RANGE, 11, 0},
    {"c above d beats one server too many", {0, 1, 1, 1, 4, 4, 5, JYRMEKKO_MOST_SERVERS + 1}, 8, JYRMEKKO_HOPELESS_ROW, 6, 0},
    {"c above d beats a missing server count", {0, 1, 1, 1, 4, 4, 5}, 7, JYRMEKKO_HOPELESS_ROW, 6, 0},
};

static void test_verdict(const struct verdict_case *c)
{
    struct fenced buffer;
    uint8_t *answer = untouched(&buffer);
    uint8_t table[sizeof c->table];
    memcpy(table, c->table, sizeof table);
    check(verdict(table, c->table_len, answer, JYRMEKKO_ANSWER_SIZE) == c->status, c->name, "status");
    check_answer(c->name, answer, c->first, c->second);
    check(fence_stands(&buffer, JYRMEKKO_ANSWER_SIZE), c->name, "bytes around the answer");
    check(same_bytes(table, c->table, sizeof table), c->name, "table afterwards");
}

/* ---- replays */

#define V2 {0, 1, 1, 1, 2, 6, 1, 0}, 8
#define V3 {0, 1, 2, 1, 4, 4, 2, 1, 6, 6, 3, 0}, 12
#define V7 {0, 1, 1, 2, 1, 1, 1, 0}, 8
#define TWO_AT_ONCE {0, 1, 1, 2, 1, 2, 2, 0}, 8 /* Two jobs at once may cost 4 units, and both are due in 2 ticks. */
#define HOPELESS {0, 1, 1, 1, 4, 4, 5, 0}, 8
#define T2 {1, 4, 1, 1, 4, 4, 3, 0}, 8
#define R2_TABLE {1, 4, 2, 1, 8, 6, 2, 1, 8, 8, 3, 0}, 12
#define R2 {0, 0, 2, 0, 1, 3}, 6
#define R2_LOG {0, 0, 0, 6, 3, 1, 1, 0, 8, 7}
#define EVERY_OTHER {1, 2, 1, 1, 1, 1, 1, 0}, 8 /* Every other tick is taken, and a job is due in the next tick. */
#define R1 {0, 0, 2, 0, 1, 3, 4, 0, 2}, 9
#define R1_LOG {0, 0, 0, 4, 2, 1, 1, 0, 6, 5, 2, 0, 4, 8, 7}
#define S2 {0, 1, 0, 1, 1, 4}, 6
#define S6 {1, 4, 0, 1, 3, 4}, 6
#define R3_TABLE {0, 1, 1, 1, 4, 4, 2, 1, 1, 4}, 10
#define R3 {0, 0, 2, 0, 1, 1, 1, 1, 2}, 9
#define R3_LOG {0, 0, 0, 4, 2, 1, 1, 0, 4, 3, 2, 1, 1, 12, 5}
#define EVERY_TICK {0, 1, 0, 1, 1, 1}, 6 /* One server has every tick. */

struct replay_case {
    const char *name;
    uint8_t table[16];
    size_t table_len;
    uint8_t script[20];
    size_t script_len;
    size_t log_len;
    uint32_t status;
    uint64_t first, second;
    /* With 22 and 23 this is the log, and its length is the first number. */
    uint8_t log[24];
};

static const struct replay_case replay_cases[] = {
    {"R1", V3, R1, 15, JYRMEKKO_IN_TIME, 15, 0, R1_LOG},
    {"R1 with log to spare", V3, R1, 90, JYRMEKKO_IN_TIME, 15, 0, R1_LOG},
    {"no jobs", V3, {0}, 0, 9, JYRMEKKO_IN_TIME, 0, 0, {0}},
    {"no jobs and no log", {0, 1, 0, 0}, 4, {0}, 0, 0, JYRMEKKO_IN_TIME, 0, 0, {0}},
    {"one job in time", V7, {0, 0, 1}, 3, 9, JYRMEKKO_IN_TIME, 5, 0, {0, 0, 0, 1, 1}},
    {"one of two late", V7, {0, 0, 1, 0, 0, 1}, 6, 20, JYRMEKKO_LATE, 10, 1, {0, 0, 0, 1, 1, 1, 0, 0, 1, 2}},
    {"due at 2^40", V2, {LAST_TICK_MINUS_6, 0, 1}, 8, 20, JYRMEKKO_IN_TIME, 20, 0,
     {0, 0, LAST_TICK_MINUS_6, LAST_TICK, LAST_TICK_MINUS_5}},

    {"R2", R2_TABLE, R2, 10, JYRMEKKO_IN_TIME, 10, 0, R2_LOG},
    {"R2 with log to spare", R2_TABLE, R2, 60, JYRMEKKO_IN_TIME, 10, 0, R2_LOG},
    {"R2 with a log one byte short", R2_TABLE, R2, 9, JYRMEKKO_NO_ROOM, 6, 0, {0}},
    {"every tick that is left, finished when it is due", T2, {0, 0, 3}, 3, 20, JYRMEKKO_IN_TIME, 5, 0, {0, 0, 0, 4, 4}},
    {"late in a taken tick", EVERY_OTHER, {0, 0, 1}, 3, 20, JYRMEKKO_LATE, 5, 1, {0, 0, 0, 1, 2}},
    {"the same in the free tick", EVERY_OTHER, {1, 0, 1}, 3, 20, JYRMEKKO_IN_TIME, 5, 0, {0, 0, 1, 2, 2}},
    {"late between taken ticks", {3, 5, 1, 1, 5, 2, 1, 0}, 8, {0, 0, 1}, 3, 20, JYRMEKKO_LATE, 5, 1, {0, 0, 0, 2, 4}},
    {"released between taken ticks", {3, 5, 1, 1, 5, 2, 1, 0}, 8, {6, 0, 1}, 3, 20, JYRMEKKO_LATE, 5, 1, {0, 0, 6, 8, 9}},
    {"no tick is taken, whatever p is", {0, 12, 2, 1, 4, 4, 2, 1, 6, 6, 3, 0}, 12, R1, 15, JYRMEKKO_IN_TIME, 15, 0, R1_LOG},
    {"2^32 ticks later, with 5 of every 7 taken", {5, 7, 1, 1, 7, 7, 1, 0}, 8,
     {0, 0, 1, 0x80, 0x80, 0x80, 0x80, 0x10, 0, 1}, 10, 60, JYRMEKKO_IN_TIME, 22, 0,
     {0, 0, 0, 7, 6, 1, 0, 0x80, 0x80, 0x80, 0x80, 0x10, 0x87, 0x80, 0x80, 0x80, 0x10, 0x82, 0x80, 0x80, 0x80, 0x10}},
    {"the last two ticks before 2^40 are taken", {2, 7, 1, 1, 2, 2, 1, 0}, 8, {LAST_TICK_MINUS_2, 0, 1}, 8, 20,
     JYRMEKKO_TIME_TOO_LATE, 8, 0, {0}},
    {"the same with no log", {2, 7, 1, 1, 2, 2, 1, 0}, 8, {LAST_TICK_MINUS_2, 0, 1}, 8, 0, JYRMEKKO_TIME_TOO_LATE, 8, 0, {0}},
    {"one of them is free", {1, 7, 1, 1, 2, 2, 1, 0}, 8, {LAST_TICK_MINUS_2, 0, 1}, 8, 20, JYRMEKKO_IN_TIME, 20, 0,
     {0, 0, LAST_TICK_MINUS_2, LAST_TICK, LAST_TICK}},
    {"one of them is free, for two units", {1, 7, 1, 1, 2, 2, 2, 0}, 8, {LAST_TICK_MINUS_2, 0, 2}, 8, 20,
     JYRMEKKO_TIME_TOO_LATE, 8, 0, {0}},
    {"script time of 2^40, with a timer", {2, 7, 1, 1, 2, 2, 1, 0}, 8, {LAST_TICK, 0, 1}, 8, 20, JYRMEKKO_DUE_TOO_LATE, 0, 0, {0}},
    {"no jobs, with a timer", {2, 7, 0, 0}, 4, {0}, 0, 9, JYRMEKKO_IN_TIME, 0, 0, {0}},
    {"no rows, with a timer", {2, 7, 0, 0}, 4, {0, 0, 1}, 3, 20, JYRMEKKO_NO_SUCH_ROW, 1, 0, {0}},
    {"p 0", {0, 0, 0, 0}, 4, R1, 20, JYRMEKKO_VALUE_OUT_OF_RANGE, 1, 0, {0}},
    {"p 4097", {0, 0x81, 0x20, 0, 0}, 5, R1, 20, JYRMEKKO_VALUE_OUT_OF_RANGE, 1, 0, {0}},
    {"p 0 and s above it", {1, 0, 0, 0}, 4, R1, 20, JYRMEKKO_VALUE_OUT_OF_RANGE, 1, 0, {0}},
    {"s equal to p", {4, 4, 1, 1, 4, 4, 3, 0}, 8, {0, 0, 1}, 3, 20, JYRMEKKO_VALUE_OUT_OF_RANGE, 0, 0, {0}},
    {"s 2^41", {ASKING_5, 0x40, 7, 0, 0}, 9, {0}, 0, 20, JYRMEKKO_VALUE_OUT_OF_RANGE, 0, 0, {0}},
    {"a misspelled p beats a bad s", {5, 0x84, 0x00, 0}, 4, R1, 20, JYRMEKKO_MISSPELLED, 2, 0, {0}},
    {"period too long by p", {0, 0x97, 0x07, 1, 1, 0xF5, 0x08, 1, 1, 0}, 10, R1, 20, JYRMEKKO_PERIOD_TOO_LONG, 10, 0, {0}},
    {"V3 as it was spelled before", {2, 1, 4, 4, 2, 1, 6, 6, 3}, 9, R1, 20, JYRMEKKO_VALUE_OUT_OF_RANGE, 0, 0, {0}},

    {"table misspelled", {0, 1, 1, 0x80, 0x00}, 5, R1, 20, JYRMEKKO_MISSPELLED, 4, 0, {0}},
    {"table cut off", {0, 1, 1}, 3, R1, 20, JYRMEKKO_MISSPELLED, 3, 0, {0}},
    {"y of seven groups", {0, 1, 1, 1, ASKING_6, 1}, 11, R1, 20, JYRMEKKO_MISSPELLED, 9, 0, {0}},
    {"one row too many", {0, 1, JYRMEKKO_MOST_ROWS + 1}, 3, R1, 20, JYRMEKKO_TOO_MANY_ROWS, 2, 0, {0}},
    {"value out of range", {0, 1, 1, 1, 2, 6, 0, 0}, 8, R1, 20, JYRMEKKO_VALUE_OUT_OF_RANGE, 6, 0, {0}},
    {"bytes after the server count", {0, 1, 0, 0, 0}, 5, R1, 20, JYRMEKKO_EXTRA_BYTES, 4, 0, {0}},
    {"period too long", {0, 1, 2, 1, 0xF5, 0x08, 1, 1, 1, 0x97, 0x07, 2, 1, 0}, 14, R1, 20, JYRMEKKO_PERIOD_TOO_LONG, 14, 0, {0}},

    {"c above d", HOPELESS, {0, 0, 1}, 3, 20, JYRMEKKO_HOPELESS_ROW, 6, 0, {0}},
    {"c above d and no job", HOPELESS, {0}, 0, 20, JYRMEKKO_HOPELESS_ROW, 6, 0, {0}},
    {"c above d and no log", HOPELESS, {0, 0, 1}, 3, 0, JYRMEKKO_HOPELESS_ROW, 6, 0, {0}},
    {"c above d and script misspelled", HOPELESS, {0x80, 0x00}, 2, 20, JYRMEKKO_HOPELESS_ROW, 6, 0, {0}},
    {"c above d in a row without jobs", {0, 1, 2, 1, 4, 4, 2, 1, 6, 5, 6, 0}, 12, {0, 0, 2}, 3, 20,
     JYRMEKKO_HOPELESS_ROW, 10, 0, {0}},
    {"c 128 above d 127", {0, 1, 1, 1, 4, 0x7F, 0x80, 0x01, 0}, 9, R1, 20, JYRMEKKO_HOPELESS_ROW, 6, 0, {0}},
    {"c 5000 above d 4", {0, 1, 1, 1, 4, 4, 0x88, 0x27, 0}, 9, R1, 20, JYRMEKKO_VALUE_OUT_OF_RANGE, 6, 0, {0}},
    {"a bad x beats c above d in a later row", {0, 1, 2, 0, 4, 4, 4, 1, 4, 4, 5, 0}, 12, R1, 20,
     JYRMEKKO_VALUE_OUT_OF_RANGE, 3, 0, {0}},
    {"c above d beats a bad x in a later row", {0, 1, 2, 1, 4, 4, 5, 0, 4, 4, 4, 0}, 12, R1, 20,
     JYRMEKKO_HOPELESS_ROW, 6, 0, {0}},
    {"c above d beats a later row cut off", {0, 1, 2, 1, 4, 4, 5}, 7, R1, 20, JYRMEKKO_HOPELESS_ROW, 6, 0, {0}},
    {"c above d beats bytes after the server count", {0, 1, 1, 1, 4, 4, 5, 0, 0}, 9, R1, 20, JYRMEKKO_HOPELESS_ROW, 6, 0, {0}},
    {"c above d beats a period too long", {0, 1, 2, 1, 0xF5, 0x08, 1, 1, 1, 0x97, 0x07, 2, 3, 0}, 14, R1, 20,
     JYRMEKKO_HOPELESS_ROW, 12, 0, {0}},
    {"c equal to d", {0, 1, 1, 1, 4, 4, 4, 0}, 8, {0, 0, 4}, 3, 20, JYRMEKKO_IN_TIME, 5, 0, {0, 0, 0, 4, 4}},

    {"gap misspelled", V2, {0, 0, 1, 0x80, 0x00, 0, 1}, 7, 20, JYRMEKKO_SCRIPT_MISSPELLED, 4, 0, {0}},
    {"row number misspelled", V2, {0, 0x80, 0x80, 0x00, 1}, 5, 20, JYRMEKKO_SCRIPT_MISSPELLED, 3, 0, {0}},
    {"cost misspelled", V2, {0, 0, 0x81, 0x00}, 4, 20, JYRMEKKO_SCRIPT_MISSPELLED, 3, 0, {0}},
    {"cut before the row number", V2, {0}, 1, 20, JYRMEKKO_SCRIPT_MISSPELLED, 1, 0, {0}},
    {"cut before the cost", V2, {0, 0}, 2, 20, JYRMEKKO_SCRIPT_MISSPELLED, 2, 0, {0}},
    {"cut in the gap", V2, {0x80, 0x80}, 2, 20, JYRMEKKO_SCRIPT_MISSPELLED, 2, 0, {0}},
    {"cut in the cost", V2, {0, 0, 0x81}, 3, 20, JYRMEKKO_SCRIPT_MISSPELLED, 3, 0, {0}},
    {"gap of seven groups", V2, {ASKING_6, 1, 0, 1}, 9, 20, JYRMEKKO_SCRIPT_MISSPELLED, 5, 0, {0}},
    {"row number of seven groups", V2, {0, ASKING_6, 1, 1}, 9, 20, JYRMEKKO_SCRIPT_MISSPELLED, 6, 0, {0}},
    {"cost cut off as the sixth group asks for more", V2, {0, 0, ASKING_6}, 8, 20, JYRMEKKO_SCRIPT_MISSPELLED, 7, 0, {0}},
    {"cost cut off as the fifth group asks for more", V2, {0, 0, ASKING_5}, 7, 20, JYRMEKKO_SCRIPT_MISSPELLED, 7, 0, {0}},
    {"cost of six groups, the last of them zero", V2, {0, 0, ASKING_5, 0}, 8, 20, JYRMEKKO_SCRIPT_MISSPELLED, 7, 0, {0}},
    {"cost of six groups", V2, {0, 0, ASKING_5, 1}, 8, 20, JYRMEKKO_COST_OUT_OF_RANGE, 2, 0, {0}},
    {"script time above 2^40", V2, {0, 0, 1, LAST_TICK_PLUS_1}, 9, 20, JYRMEKKO_TIME_TOO_LATE, 3, 0, {0}},
    {"script time of 2^40", V2, {LAST_TICK, 0, 1}, 8, 20, JYRMEKKO_DUE_TOO_LATE, 0, 0, {0}},
    {"row number not in use", V2, {0, 1, 1}, 3, 20, JYRMEKKO_NO_SUCH_ROW, 1, 0, {0}},
    {"no rows at all", {0, 1, 0, 0}, 4, {0, 0, 1}, 3, 20, JYRMEKKO_NO_SUCH_ROW, 1, 0, {0}},
    {"cost 0", V2, {0, 0, 0}, 3, 20, JYRMEKKO_COST_OUT_OF_RANGE, 2, 0, {0}},
    {"cost above c", V2, {0, 0, 1, 1, 0, 2}, 6, 20, JYRMEKKO_COST_OUT_OF_RANGE, 5, 0, {0}},
    {"due after 2^40", V2, {0, 0, 1, LAST_TICK_MINUS_5, 0, 1}, 11, 20, JYRMEKKO_DUE_TOO_LATE, 3, 0, {0}},
    {"clock at 2^40 in the final ticks", TWO_AT_ONCE, {LAST_TICK_MINUS_2, 0, 2, 0, 0, 1}, 11, 60, JYRMEKKO_TIME_TOO_LATE,
     11, 0, {0}},
    {"log one byte short", V3, R1, 14, JYRMEKKO_NO_ROOM, 9, 0, {0}},
    {"no log", V3, R1, 0, JYRMEKKO_NO_ROOM, 9, 0, {0}},
    {"short log and script cut off", V3, {0, 0, 2, 5, 0}, 5, 4, JYRMEKKO_SCRIPT_MISSPELLED, 5, 0, {0}},
    {"short log and clock at 2^40", TWO_AT_ONCE, {0, 0, 1, LAST_TICK_MINUS_2, 0, 2, 0, 0, 1}, 14, 4,
     JYRMEKKO_TIME_TOO_LATE, 14, 0, {0}},

    {"R3", R3_TABLE, R3, 15, JYRMEKKO_IN_TIME, 15, 0, R3_LOG},
    {"R3 with log to spare", R3_TABLE, R3, 90, JYRMEKKO_IN_TIME, 15, 0, R3_LOG},
    {"R3 with a log one byte short", R3_TABLE, R3, 14, JYRMEKKO_NO_ROOM, 9, 0, {0}},
    {"S1", S2, {30, 0, 10, 39, 0, 20, 71, 0, 20}, 9, 90, JYRMEKKO_IN_TIME, 19, 0,
     {0, 0, 30, 70, 40, 1, 0, 69, 0x96, 0x01, 89, 2, 0, 0x8C, 0x01, 0xE6, 0x01, 0xA0, 0x01}},
    {"an odd job one tick before the last due time", S2, {0, 0, 1, 3, 0, 1}, 6, 60, JYRMEKKO_IN_TIME, 10, 0,
     {0, 0, 0, 4, 1, 1, 0, 3, 8, 4}},
    {"an odd job at the last due time", S2, {0, 0, 1, 4, 0, 1}, 6, 60, JYRMEKKO_IN_TIME, 10, 0,
     {0, 0, 0, 4, 1, 1, 0, 4, 8, 5}},
    {"an odd job after the last due time", S2, {0, 0, 1, 10, 0, 1}, 6, 60, JYRMEKKO_IN_TIME, 10, 0,
     {0, 0, 0, 4, 1, 1, 0, 10, 14, 11}},
    {"due times rounded up, of (3, 4)", {0, 1, 0, 1, 3, 4}, 6, {0, 0, 1, 0, 0, 2, 0, 0, 3}, 9, 90, JYRMEKKO_IN_TIME, 15, 0,
     {0, 0, 0, 2, 1, 1, 0, 0, 5, 3, 2, 0, 0, 9, 6}},
    {"due times rounded up, of (3, 4096)", {0, 1, 0, 1, 3, 0x80, 0x20}, 7, {0, 0, 1}, 3, 30, JYRMEKKO_IN_TIME, 6, 0,
     {0, 0, 0, 0xD6, 0x0A, 1}},
    {"two servers, each with a last due time of its own", {0, 1, 0, 2, 1, 2, 1, 4}, 8,
     {0, 0, 1, 0, 1, 1, 0, 0, 1, 0, 1, 1}, 12, 90, JYRMEKKO_IN_TIME, 20, 0,
     {0, 0, 0, 2, 1, 1, 1, 0, 4, 2, 2, 0, 0, 4, 3, 3, 1, 0, 8, 4}},
    {"every tick that the timer leaves", S6, {0, 0, 3}, 3, 30, JYRMEKKO_IN_TIME, 5, 0, {0, 0, 0, 4, 4}},
    {"odd jobs of two servers of every tick, one late", {0, 1, 0, 2, 1, 1, 1, 1}, 8, {0, 0, 1, 0, 1, 1}, 6, 60,
     JYRMEKKO_LATE, 10, 1, {0, 0, 0, 1, 1, 1, 1, 0, 1, 2}},
    {"an odd job that is late in a taken tick", {1, 2, 0, 1, 1, 1}, 6, {0, 0, 1}, 3, 30, JYRMEKKO_LATE, 5, 1, {0, 0, 0, 1, 2}},
    {"cost 4096 of an odd job", EVERY_TICK, {0, 0, 0x80, 0x20}, 4, 40, JYRMEKKO_IN_TIME, 7, 0,
     {0, 0, 0, 0x80, 0x20, 0x80, 0x20}},
    {"cost 4096 of the server (1, 4096), due at 2^24", {0, 1, 0, 1, 1, 0x80, 0x20}, 7, {0, 0, 0x80, 0x20}, 4, 40,
     JYRMEKKO_IN_TIME, 9, 0, {0, 0, 0, 0x80, 0x80, 0x80, 0x08, 0x80, 0x20}},
    {"cost of an odd job above a row's c", R3_TABLE, {0, 1, 3}, 3, 30, JYRMEKKO_IN_TIME, 5, 0, {0, 1, 0, 12, 3}},
    {"cost 0 of an odd job", S2, {0, 0, 0}, 3, 30, JYRMEKKO_COST_OUT_OF_RANGE, 2, 0, {0}},
    {"cost 4097 of an odd job", EVERY_TICK, {0, 0, 0x81, 0x20}, 4, 40, JYRMEKKO_COST_OUT_OF_RANGE, 2, 0, {0}},
    {"cost 2^32 + 1 of an odd job", EVERY_TICK, {0, 0, 0x81, 0x80, 0x80, 0x80, 0x10}, 7, 40, JYRMEKKO_COST_OUT_OF_RANGE, 2, 0, {0}},
    {"cost 2^41 of an odd job", EVERY_TICK, {0, 0, ASKING_5, 0x40}, 8, 40, JYRMEKKO_COST_OUT_OF_RANGE, 2, 0, {0}},
    {"cost above c of a row before a server", R3_TABLE, {0, 0, 3}, 3, 30, JYRMEKKO_COST_OUT_OF_RANGE, 2, 0, {0}},
    {"row number after the last server", R3_TABLE, {0, 2, 1}, 3, 30, JYRMEKKO_NO_SUCH_ROW, 1, 0, {0}},
    {"row number after the last server, without rows", S2, {0, 1, 1}, 3, 30, JYRMEKKO_NO_SUCH_ROW, 1, 0, {0}},
    {"row number 2^32 + 1, with a server", R3_TABLE, {0, 0x81, 0x80, 0x80, 0x80, 0x10, 1}, 7, 30, JYRMEKKO_NO_SUCH_ROW, 1, 0, {0}},
    {"an odd job due at 2^40", S2, {LAST_TICK_MINUS_4, 0, 1}, 8, 40, JYRMEKKO_IN_TIME, 20, 0,
     {0, 0, LAST_TICK_MINUS_4, LAST_TICK, LAST_TICK_MINUS_3}},
    {"an odd job due one later", S2, {LAST_TICK_MINUS_3, 0, 1}, 8, 40, JYRMEKKO_DUE_TOO_LATE, 0, 0, {0}},
    {"an odd job after one due at 2^40", S2, {LAST_TICK_MINUS_4, 0, 1, 0, 0, 1}, 11, 60, JYRMEKKO_DUE_TOO_LATE, 8, 0, {0}},
    {"an odd job due at 2^40, rounded up", {0, 1, 0, 1, 3, 4}, 6, {LAST_TICK_MINUS_2, 0, 1}, 8, 40, JYRMEKKO_IN_TIME, 20, 0,
     {0, 0, LAST_TICK_MINUS_2, LAST_TICK, LAST_TICK_MINUS_1}},
    {"an odd job due one later, rounded up", {0, 1, 0, 1, 3, 4}, 6, {LAST_TICK_MINUS_1, 0, 1}, 8, 40,
     JYRMEKKO_DUE_TOO_LATE, 0, 0, {0}},
    {"an odd job in the last tick", EVERY_TICK, {LAST_TICK_MINUS_1, 0, 1}, 8, 40, JYRMEKKO_IN_TIME, 20, 0,
     {0, 0, LAST_TICK_MINUS_1, LAST_TICK, LAST_TICK}},
    {"script time of 2^40 of an odd job", EVERY_TICK, {LAST_TICK, 0, 1}, 8, 40, JYRMEKKO_DUE_TOO_LATE, 0, 0, {0}},
    {"an odd job pending at 2^40", {1, 2, 0, 1, 1, 1}, 6, {LAST_TICK_MINUS_2, 0, 2}, 8, 40, JYRMEKKO_TIME_TOO_LATE, 8, 0, {0}},
    {"no jobs, with servers", S2, {0}, 0, 9, JYRMEKKO_IN_TIME, 0, 0, {0}},
    {"no server count", {0, 1, 0}, 3, R1, 20, JYRMEKKO_MISSPELLED, 3, 0, {0}},
    {"V3 as it was spelled before there were servers", {0, 1, 2, 1, 4, 4, 2, 1, 6, 6, 3}, 11, R1, 20, JYRMEKKO_MISSPELLED, 11, 0, {0}},
    {"one server too many", {0, 1, 0, JYRMEKKO_MOST_SERVERS + 1}, 4, R1, 20, JYRMEKKO_TOO_MANY_ROWS, 3, 0, {0}},
    {"a 0", {0, 1, 0, 1, 0, 4}, 6, R1, 20, JYRMEKKO_VALUE_OUT_OF_RANGE, 4, 0, {0}},
    {"b below a", {0, 1, 0, 1, 4, 3}, 6, R1, 20, JYRMEKKO_VALUE_OUT_OF_RANGE, 5, 0, {0}},
    {"b cut off", {0, 1, 0, 1, 1, 0x84}, 6, R1, 20, JYRMEKKO_MISSPELLED, 6, 0, {0}},
    {"bytes after the last server", {0, 1, 0, 1, 1, 4, 0}, 7, R1, 20, JYRMEKKO_EXTRA_BYTES, 6, 0, {0}},
    {"period too long by two b", {0, 1, 0, 2, 1, 0x97, 0x07, 1, 0xF5, 0x08}, 10, R1, 20, JYRMEKKO_PERIOD_TOO_LONG, 10, 0, {0}},
};

static void test_replay(const struct replay_case *c)
{
    struct fenced answer_buffer, log_buffer;
    uint8_t *answer = untouched(&answer_buffer);
    uint8_t *log = untouched(&log_buffer);
    uint8_t table[sizeof c->table], script[sizeof c->script];
    uint32_t status;
    memcpy(table, c->table, sizeof table);
    memcpy(script, c->script, sizeof script);
    status = replay(table, c->table_len, script, c->script_len, log, c->log_len, answer, JYRMEKKO_ANSWER_SIZE);
    check(status == c->status, c->name, "status");
    check_answer(c->name, answer, c->first, c->second);
    if (c->status == JYRMEKKO_IN_TIME || c->status == JYRMEKKO_LATE) {
        size_t length = (size_t)c->first;
        check(same_bytes(log, c->log, length), c->name, "log");
        check(all_bytes(log + length, c->log_len - length, UNTOUCHED), c->name, "bytes past the log");
    } else {
        check(all_bytes(log, c->log_len, 0), c->name, "log, which should be zeros");
    }
    check(fence_stands(&answer_buffer, JYRMEKKO_ANSWER_SIZE), c->name, "bytes around the answer");
    check(fence_stands(&log_buffer, c->log_len), c->name, "bytes around the log");
    check(same_bytes(table, c->table, sizeof table), c->name, "table afterwards");
    check(same_bytes(script, c->script, sizeof script), c->name, "script afterwards");
}

/* ---- the limit of rows, the limit of servers and the limit of pending jobs */

enum {
    MOST_ROWS = JYRMEKKO_MOST_ROWS,
    MOST_SERVERS = JYRMEKKO_MOST_SERVERS,
    MOST_PENDING = JYRMEKKO_MOST_PENDING,
    HEAD_LEN = 3,   /* The timer's s and p and the row count have one group each here. */
    ROW_LEN = 4,    /* So has each number of a row. */
    SERVER_LEN = 2, /* So has each number of a server, and the server count. */
    RECORD_LEN = 3, /* So has each number of a record. */
    LONGEST_SPELLED = HEAD_LEN + ROW_LEN * (MOST_ROWS + 1) + 1 + SERVER_LEN * (MOST_SERVERS + 1) + 1
};

/* Spells a table of so many equal rows (1, MOST_ROWS, d, 1), without a timer or servers. Returns its length. */
static size_t spell_rows(uint8_t *table, size_t count, uint8_t d)
{
    size_t i;
    table[0] = 0;
    table[1] = 1;
    table[2] = (uint8_t)count;
    for (i = 0; i < count; i++) {
        uint8_t *row = table + HEAD_LEN + ROW_LEN * i;
        row[0] = 1;
        row[1] = MOST_ROWS;
        row[2] = d;
        row[3] = 1;
    }
    table[HEAD_LEN + ROW_LEN * count] = 0;
    return HEAD_LEN + ROW_LEN * count + 1;
}

/* Gives a table without servers, of this length, so many equal ones (1, b). Returns its new length. */
static size_t spell_servers(uint8_t *table, size_t length, size_t count, uint8_t b)
{
    size_t i;
    table[length - 1] = (uint8_t)count;
    for (i = 0; i < count; i++) {
        table[length++] = 1;
        table[length++] = b;
    }
    return length;
}

/* Checks what both calls say about a table. The script releases one job of the row with this number. */
static void check_table(const char *name, const uint8_t *table, size_t table_len, uint8_t row, uint32_t judged,
                        uint64_t first, uint64_t second, uint32_t replayed, uint64_t replayed_first)
{
    struct fenced answer_buffer, log_buffer;
    uint8_t *answer = untouched(&answer_buffer), *log = untouched(&log_buffer);
    uint8_t script[RECORD_LEN] = {0, 0, 1};
    script[1] = row;
    check(verdict(table, table_len, answer, JYRMEKKO_ANSWER_SIZE) == judged, name, "verdict");
    check_answer(name, answer, first, second);
    check(replay(table, table_len, script, sizeof script, log, MOST_LOG, answer, JYRMEKKO_ANSWER_SIZE) == replayed, name,
          "replay");
    check_answer(name, answer, replayed_first, 0);
    check(replayed == JYRMEKKO_IN_TIME ? log[1] == row : all_bytes(log, MOST_LOG, 0), name, "log");
    check(fence_stands(&answer_buffer, JYRMEKKO_ANSWER_SIZE), name, "bytes around the answer");
    check(fence_stands(&log_buffer, MOST_LOG), name, "bytes around the log");
}

/* As many rows as the limit are accepted, with a verdict of each kind, and one more is refused with 2 at the count's start. */
static void test_rows(void)
{
    enum { LOG_LEN = 5, LAST = MOST_ROWS - 1, COUNT_START = HEAD_LEN - 1 };
    uint8_t table[LONGEST_SPELLED];
    size_t length = spell_rows(table, MOST_ROWS - 1, 1);
    check_table("one row below the limit", table, length, LAST - 1, JYRMEKKO_OVERLOADED, 1, MOST_ROWS - 1,
                JYRMEKKO_IN_TIME, LOG_LEN);
    length = spell_rows(table, MOST_ROWS, MOST_ROWS);
    check_table("limit of rows, feasible", table, length, LAST, JYRMEKKO_FEASIBLE, 0, 0, JYRMEKKO_IN_TIME, LOG_LEN);
    check_table("limit of rows, no row after the last", table, length, MOST_ROWS, JYRMEKKO_FEASIBLE, 0, 0,
                JYRMEKKO_NO_SUCH_ROW, 1);
    check_table("limit of rows, no server count", table, length - 1, LAST, JYRMEKKO_MISSPELLED, length - 1, 0,
                JYRMEKKO_MISSPELLED, length - 1);
    check_table("limit of rows, cut off", table, length - 2, LAST, JYRMEKKO_MISSPELLED, length - 2, 0,
                JYRMEKKO_MISSPELLED, length - 2);
    table[length] = 0;
    check_table("limit of rows, a byte too many", table, length + 1, LAST, JYRMEKKO_EXTRA_BYTES, length, 0,
                JYRMEKKO_EXTRA_BYTES, length);
    table[length - 2] = 0;
    check_table("limit of rows, the last c is 0", table, length, LAST, JYRMEKKO_VALUE_OUT_OF_RANGE, length - 2, 0,
                JYRMEKKO_VALUE_OUT_OF_RANGE, length - 2);
    table[length - 2] = MOST_ROWS + 1;
    check_table("limit of rows, the last c is above its d", table, length, LAST, JYRMEKKO_HOPELESS_ROW, length - 2, 0,
                JYRMEKKO_HOPELESS_ROW, length - 2);
    check_table("limit of rows, the last c is above its d, and a byte too many", table, length + 1, LAST,
                JYRMEKKO_HOPELESS_ROW, length - 2, 0, JYRMEKKO_HOPELESS_ROW, length - 2);
    table[length - 2] = 2;
    check_table("limit of rows, overloaded by the last", table, length, LAST, JYRMEKKO_OVERLOADED, MOST_ROWS,
                MOST_ROWS + 1, JYRMEKKO_IN_TIME, LOG_LEN);
    length = spell_rows(table, MOST_ROWS, MOST_ROWS - 1);
    check_table("limit of rows, overloaded", table, length, LAST, JYRMEKKO_OVERLOADED, MOST_ROWS - 1, MOST_ROWS,
                JYRMEKKO_IN_TIME, LOG_LEN);
    table[HEAD_LEN + 1] = 125;
    table[HEAD_LEN + ROW_LEN + 1] = 121;
    table[length - 4] = 127;
    check_table("limit of rows, the last makes the period too long", table, length, LAST, JYRMEKKO_PERIOD_TOO_LONG,
                length, 0, JYRMEKKO_PERIOD_TOO_LONG, length);
    length = spell_rows(table, MOST_ROWS + 1, MOST_ROWS);
    check_table("one row above the limit", table, length, 0, JYRMEKKO_TOO_MANY_ROWS, COUNT_START, 0,
                JYRMEKKO_TOO_MANY_ROWS, COUNT_START);
    check_table("one row above the limit, and no row", table, HEAD_LEN, 0, JYRMEKKO_TOO_MANY_ROWS, COUNT_START, 0,
                JYRMEKKO_TOO_MANY_ROWS, COUNT_START);
    /* Rows that may take half of the ticks leave the other half to a timer, and no tick more. */
    length = spell_rows(table, MOST_ROWS / 2, MOST_ROWS);
    table[0] = 1;
    table[1] = 2;
    check_table("half the limit of rows, with a timer", table, length, 0, JYRMEKKO_FEASIBLE, 0, 0, JYRMEKKO_IN_TIME, LOG_LEN);
    table[length - 2] = 2;
    check_table("half the limit of rows, with a timer, overloaded", table, length, 0, JYRMEKKO_OVERLOADED, MOST_ROWS,
                MOST_ROWS + 1, JYRMEKKO_IN_TIME, LOG_LEN);
}

/* As many servers as the limit are accepted, with a verdict of each kind, and one more is refused with 2 at the count's start. */
static void test_servers(void)
{
    enum { LOG_LEN = 5, COUNT_START = HEAD_LEN, B = MOST_SERVERS };
    uint8_t table[LONGEST_SPELLED];
    size_t length = spell_servers(table, spell_rows(table, 0, 1), MOST_SERVERS, B), rows_end;
    check_table("limit of servers, feasible", table, length, MOST_SERVERS - 1, JYRMEKKO_FEASIBLE, 0, 0, JYRMEKKO_IN_TIME, LOG_LEN);
    check_table("limit of servers, no row after the last", table, length, MOST_SERVERS, JYRMEKKO_FEASIBLE, 0, 0,
                JYRMEKKO_NO_SUCH_ROW, 1);
    check_table("limit of servers, cut off", table, length - 1, 0, JYRMEKKO_MISSPELLED, length - 1, 0, JYRMEKKO_MISSPELLED,
                length - 1);
    table[length] = 0;
    check_table("limit of servers, a byte too many", table, length + 1, 0, JYRMEKKO_EXTRA_BYTES, length, 0,
                JYRMEKKO_EXTRA_BYTES, length);
    table[length - 2] = B + 1;
    check_table("limit of servers, the last b is below its a", table, length, 0, JYRMEKKO_VALUE_OUT_OF_RANGE, length - 1, 0,
                JYRMEKKO_VALUE_OUT_OF_RANGE, length - 1);
    table[length - 2] = 0;
    check_table("limit of servers, the last a is 0", table, length, 0, JYRMEKKO_VALUE_OUT_OF_RANGE, length - 2, 0,
                JYRMEKKO_VALUE_OUT_OF_RANGE, length - 2);
    table[length - 2] = 2;
    check_table("limit of servers, overloaded by the last", table, length, MOST_SERVERS - 1, JYRMEKKO_OVERLOADED, B, B + 1,
                JYRMEKKO_IN_TIME, LOG_LEN);
    length = spell_servers(table, spell_rows(table, 0, 1), MOST_SERVERS + 1, B);
    check_table("one server above the limit", table, length, 0, JYRMEKKO_TOO_MANY_ROWS, COUNT_START, 0,
                JYRMEKKO_TOO_MANY_ROWS, COUNT_START);
    check_table("one server above the limit, and no server", table, COUNT_START + 1, 0, JYRMEKKO_TOO_MANY_ROWS, COUNT_START,
                0, JYRMEKKO_TOO_MANY_ROWS, COUNT_START);
    length = spell_servers(table, spell_rows(table, 0, 1), MOST_SERVERS - 1, B);
    check_table("one server below the limit", table, length, MOST_SERVERS - 2, JYRMEKKO_FEASIBLE, 0, 0, JYRMEKKO_IN_TIME,
                LOG_LEN);
    /* Rows that take every tick leave nothing to servers. All of them may ask for a unit by the time that the rows do. */
    rows_end = spell_rows(table, MOST_ROWS, MOST_ROWS) - 1;
    length = spell_servers(table, rows_end + 1, MOST_SERVERS, MOST_ROWS);
    check_table("both limits, a job of the last server", table, length, MOST_ROWS + MOST_SERVERS - 1, JYRMEKKO_OVERLOADED,
                MOST_ROWS, MOST_ROWS + MOST_SERVERS, JYRMEKKO_IN_TIME, LOG_LEN);
    check_table("both limits, a job of the last row", table, length, MOST_ROWS - 1, JYRMEKKO_OVERLOADED, MOST_ROWS,
                MOST_ROWS + MOST_SERVERS, JYRMEKKO_IN_TIME, LOG_LEN);
    check_table("both limits, no row after the last", table, length, MOST_ROWS + MOST_SERVERS, JYRMEKKO_OVERLOADED, MOST_ROWS,
                MOST_ROWS + MOST_SERVERS, JYRMEKKO_NO_SUCH_ROW, 1);
    table[rows_end] = MOST_SERVERS + 1;
    check_table("the limit of rows and one server above the limit", table, length, 0, JYRMEKKO_TOO_MANY_ROWS, rows_end, 0,
                JYRMEKKO_TOO_MANY_ROWS, rows_end);
}

/* The length of the spelling of a number below 2^14. */
static size_t groups(size_t value)
{
    return value < 128 ? 1 : 2;
}

static void check_places(const char *name, const uint8_t *table, size_t table_len, const uint8_t *script, size_t jobs,
                         uint32_t status, uint64_t first, uint64_t second)
{
    struct fenced answer_buffer, log_buffer;
    uint8_t *answer = untouched(&answer_buffer), *log = untouched(&log_buffer);
    check(replay(table, table_len, script, RECORD_LEN * jobs, log, MOST_LOG, answer, JYRMEKKO_ANSWER_SIZE) == status,
          name, "status");
    check_answer(name, answer, first, second);
    if (status == JYRMEKKO_PLACES_FULL) {
        check(all_bytes(log, MOST_LOG, 0), name, "log, which should be zeros");
    } else {
        check(all_bytes(log + first, MOST_LOG - (size_t)first, UNTOUCHED), name, "bytes past the log");
    }
    check(fence_stands(&answer_buffer, JYRMEKKO_ANSWER_SIZE), name, "bytes around the answer");
    check(fence_stands(&log_buffer, MOST_LOG), name, "bytes around the log");
}

/* The pending job that reaches the limit is accepted, and one more is refused with 8 at its record's start. */
static void test_places(void)
{
    static const uint8_t one_row[] = {0, 1, 1, 64, 1, 1, 1, 0}, one_server[] = {0, 1, 0, 1, 1, 1};
    static const uint8_t row_and_server[] = {0, 1, 1, 64, 1, 1, 1, 1, 1, 1};
    uint8_t all_rows[LONGEST_SPELLED], script[RECORD_LEN * (MOST_PENDING + 2)];
    size_t length = spell_rows(all_rows, MOST_ROWS, 1), log_len = 0, i;
    memset(script, 0, sizeof script);
    for (i = 0; i < MOST_PENDING + 2; i++) {
        script[RECORD_LEN * i + 2] = 1;
    }
    for (i = 0; i + 1 < MOST_PENDING; i++) {
        log_len += groups(i) + groups(i + 1) + 3;
    }
    check_places("one job below the limit", one_row, sizeof one_row, script, MOST_PENDING - 1, JYRMEKKO_LATE, log_len,
                 MOST_PENDING - 2);
    log_len += groups(MOST_PENDING - 1) + groups(MOST_PENDING) + 3;
    check_places("limit of pending jobs", one_row, sizeof one_row, script, MOST_PENDING, JYRMEKKO_LATE, log_len,
                 MOST_PENDING - 1);
    check_places("one job above the limit", one_row, sizeof one_row, script, MOST_PENDING + 1, JYRMEKKO_PLACES_FULL,
                 RECORD_LEN * MOST_PENDING, 0);
    script[RECORD_LEN * MOST_PENDING] = 1;
    log_len += groups(MOST_PENDING) + groups(MOST_PENDING + 1) + 3;
    check_places("the place that a finished job frees", one_row, sizeof one_row, script, MOST_PENDING + 1, JYRMEKKO_LATE,
                 log_len, MOST_PENDING);
    check_places("one job above the limit again", one_row, sizeof one_row, script, MOST_PENDING + 2,
                 JYRMEKKO_PLACES_FULL, RECORD_LEN * (MOST_PENDING + 1), 0);
    script[RECORD_LEN * MOST_PENDING] = 0;
    for (i = 0; i <= MOST_PENDING; i++) {
        script[RECORD_LEN * i + 1] = (uint8_t)(i % MOST_ROWS);
    }
    /* Each row's first job is due at 1, its second at 1 + y, and so on. Of the first ones, one is in time. */
    log_len = 0;
    for (i = 0; i < MOST_PENDING; i++) {
        log_len += groups(i) + groups(1 + i / MOST_ROWS * MOST_ROWS) + groups(i + 1) + 2;
    }
    check_places("limit of pending jobs, over all rows", all_rows, length, script, MOST_PENDING, JYRMEKKO_LATE, log_len,
                 MOST_PENDING - MOST_PENDING / MOST_ROWS);
    check_places("one job above the limit, over all rows", all_rows, length, script, MOST_PENDING + 1,
                 JYRMEKKO_PLACES_FULL, RECORD_LEN * MOST_PENDING, 0);
    /* Odd jobs of cost 1, of a server that has every tick, are due one tick after the other, and each finishes then. */
    log_len = 0;
    for (i = 0; i <= MOST_PENDING; i++) {
        script[RECORD_LEN * i + 1] = 0;
        log_len += i < MOST_PENDING ? groups(i) + 2 * groups(i + 1) + 2 : 0;
    }
    check_places("limit of pending jobs, of a server", one_server, sizeof one_server, script, MOST_PENDING, JYRMEKKO_IN_TIME,
                 log_len, 0);
    check_places("one job above the limit, of a server", one_server, sizeof one_server, script, MOST_PENDING + 1,
                 JYRMEKKO_PLACES_FULL, RECORD_LEN * MOST_PENDING, 0);
    /* Jobs of a row and of a server share the places. */
    for (i = 0; i <= MOST_PENDING; i++) {
        script[RECORD_LEN * i + 1] = (uint8_t)(i % 2);
    }
    check_places("one job above the limit, of a row and a server", row_and_server, sizeof row_and_server, script,
                 MOST_PENDING + 1, JYRMEKKO_PLACES_FULL, RECORD_LEN * MOST_PENDING, 0);
}

/* ---- damaged bytes, compared with what the rules want for them */

enum { MOST_PUT_IN = 7, MOST_DAMAGED = 48 };

/* So many tables and scripts were compared, by how the number is spelled that is refused in them. */
static unsigned tables_compared[SPELLED], scripts_compared[SPELLED];

/* So many of the tables have a bad timer, a hopeless row, or a bad server, and so many are not refused with 1 to 4 or 16. */
static unsigned bad_timers_compared, hopeless_compared, bad_servers_compared, sound_compared;

static int is_wanted(struct wanted wanted, uint32_t status, const uint8_t *answer)
{
    return status == wanted.status && number(answer) == wanted.place && number(answer + 8) == 0;
}

/* Returns whether a status may be answered where none of 1 to 4 and 16 is wanted. */
static int goes_on(uint32_t status)
{
    return status >= JYRMEKKO_PERIOD_TOO_LONG && status != JYRMEKKO_HOPELESS_ROW;
}

static void compare_table(const char *name, const uint8_t *table, size_t length)
{
    static const uint8_t script[] = {0, 0, 1};
    uint8_t log[JYRMEKKO_LOG_SIZE(sizeof script)], answer[JYRMEKKO_ANSWER_SIZE];
    struct rows rows;
    struct wanted wanted = wanted_of_table(table, length, &rows);
    uint32_t status = verdict(table, length, answer, sizeof answer);
    check(wanted.status != 0 ? is_wanted(wanted, status, answer) : goes_on(status), name, "verdict");
    status = replay(table, length, script, sizeof script, log, sizeof log, answer, sizeof answer);
    check(wanted.status != 0 ? is_wanted(wanted, status, answer) : goes_on(status), name, "replay");
    tables_compared[wanted.spelled]++;
    bad_timers_compared += wanted.status == JYRMEKKO_VALUE_OUT_OF_RANGE &&
                           (rows.p < 1 || rows.p > 4096 || rows.s >= rows.p);
    hopeless_compared += wanted.status == JYRMEKKO_HOPELESS_ROW;
    bad_servers_compared += wanted.status == JYRMEKKO_VALUE_OUT_OF_RANGE && rows.servers > 0;
    sound_compared += wanted.status == 0;
}

/*
 * The timer takes the first 3 ticks of every 300, the rows are (64, 4096, 16384, 4096) and (1, 300, 16383, 200), and the
 * servers are (1, 4) and (300, 4096).
 */
static const uint8_t long_rows[] = {3, 0xAC, 0x02, 2, 64, 0x80, 0x20, 0x80, 0x80, 0x01, 0x80, 0x20,
                                    1, 0xAC, 0x02, 0xFF, 0x7F, 0xC8, 0x01, 2, 1, 4, 0xAC, 0x02, 0x80, 0x20};

static void compare_script(const char *name, const uint8_t *script, size_t length)
{
    uint8_t log[JYRMEKKO_LOG_SIZE(MOST_DAMAGED)], answer[JYRMEKKO_ANSWER_SIZE];
    struct rows rows;
    struct wanted of_table = wanted_of_table(long_rows, sizeof long_rows, &rows);
    struct wanted wanted = wanted_of_script(script, length, &rows);
    uint32_t status = replay(long_rows, sizeof long_rows, script, length, log, sizeof log, answer, sizeof answer);
    check(of_table.status == 0, name, "table, which should be accepted");
    if (status == JYRMEKKO_DUE_TOO_LATE) {
        check(number(answer) < wanted.record, name, "place of 9, which should be in an earlier record");
    } else if (wanted.status != 0) {
        check(is_wanted(wanted, status, answer), name, "replay");
    } else {
        check(status == JYRMEKKO_IN_TIME || status == JYRMEKKO_LATE ||
                  (status == JYRMEKKO_TIME_TOO_LATE && number(answer) == length), name, "replay");
    }
    scripts_compared[wanted.spelled]++;
}

typedef void comparison(const char *name, const uint8_t *bytes, size_t length);

struct spelled_bytes {
    const char *name;
    const uint8_t *bytes;
    size_t length;
};

/* Puts groups that ask for more before a byte. After them come the rest, a zero group and the rest, or no more bytes. */
static void put_in(const struct spelled_bytes *spelled, size_t at, comparison *compare)
{
    uint8_t damaged[MOST_DAMAGED];
    char name[120];
    size_t i;
    for (i = 0; i <= MOST_PUT_IN; i++) {
        size_t rest = spelled->length - at;
        memcpy(damaged, spelled->bytes, at);
        memset(damaged + at, i % 2 == 0 ? 0x80 : 0xFF, i);
        sprintf(name, "%s, cut at byte %u, with %u groups that ask for more", spelled->name, (unsigned)at, (unsigned)i);
        compare(name, damaged, at + i);
        memcpy(damaged + at + i, spelled->bytes + at, rest);
        sprintf(name, "%s, with %u groups that ask for more before byte %u", spelled->name, (unsigned)i, (unsigned)at);
        compare(name, damaged, at + i + rest);
        damaged[at + i] = 0;
        memcpy(damaged + at + i + 1, spelled->bytes + at, rest);
        strcat(name, " and a zero group");
        compare(name, damaged, at + i + 1 + rest);
    }
}

/* Replaces a byte by others, leaves it out, and doubles it. */
static void change(const struct spelled_bytes *spelled, size_t at, comparison *compare)
{
    static const uint8_t others[] = {0x00, 0x01, 0x7F, 0x80, 0x81, 0xFF};
    const uint8_t *bytes = spelled->bytes;
    size_t length = spelled->length, i;
    uint8_t damaged[MOST_DAMAGED];
    char name[120];
    memcpy(damaged, bytes, length);
    for (i = 0; i <= COUNT(others); i++) {
        damaged[at] = i < COUNT(others) ? others[i] : bytes[at] ^ 0x80;
        sprintf(name, "%s, byte %u replaced by %02X", spelled->name, (unsigned)at, damaged[at]);
        compare(name, damaged, length);
    }
    memcpy(damaged + at, bytes + at + 1, length - at - 1);
    sprintf(name, "%s, byte %u left out", spelled->name, (unsigned)at);
    compare(name, damaged, length - 1);
    memcpy(damaged, bytes, at + 1);
    memcpy(damaged + at + 1, bytes + at, length - at);
    sprintf(name, "%s, byte %u doubled", spelled->name, (unsigned)at);
    compare(name, damaged, length + 1);
}

static void damage(const char *name, const uint8_t *bytes, size_t length, comparison *compare)
{
    struct spelled_bytes spelled = {name, bytes, length};
    size_t at;
    if (length + MOST_PUT_IN + 1 > MOST_DAMAGED) {
        check(0, name, "length, which is too long for this test");
        return;
    }
    for (at = 0; at < length; at++) {
        put_in(&spelled, at, compare);
        change(&spelled, at, compare);
    }
    put_in(&spelled, length, compare);
}

/* Every byte of some tables and scripts is damaged. Their numbers have one to six groups. */
static void test_damage(void)
{
    static const uint8_t no_rows[] = {0, 1, 0, 0}, two_rows[] = {0, 1, 2, 1, 4, 4, 2, 1, 6, 6, 3, 0};
    static const uint8_t timed_row[] = {0xAC, 0x02, 0x80, 0x20, 1, 1, 4, 4, 2, 0}, bad_s[] = {0x85, 0x01, 0x85, 0x01, 0, 0};
    static const uint8_t hopeless_row[] = {1, 3, 2, 1, 9, 5, 5, 1, 6, 0x80, 0x01, 0x81, 0x01, 0};
    static const uint8_t a_server[] = {0, 1, 0, 1, 1, 4}, row_and_servers[] = {0, 1, 1, 1, 4, 4, 2, 2, 1, 4, 0x80, 0x01, 0x80, 0x08};
    static const uint8_t bad_b[] = {0, 1, 0, 2, 0x84, 0x01, 0x80, 0x20, 0x84, 0x01, 0x83, 0x01};
    static const uint8_t one_job[] = {0, 0, 1}, three_jobs[] = {0, 0, 2, 0, 1, 3, 4, 0, 2};
    static const uint8_t odd_jobs[] = {0, 2, 1, 0x80, 0x01, 3, 0x80, 0x20, 1, 0, 2, 0, 2, 0xAC, 0x02};
    static const uint8_t long_gaps[] = {0x80, 0x01, 0, 0xAC, 0x02, 0x80, 0x80, 0x01, 1, 0xC8, 0x01,
                                        0xFF, 0xFF, 0xFF, 0x01, 0, 1, 0x80, 0x80, 0x80, 0x80, 0x02, 0, 0x80, 0x20,
                                        0x80, 0x80, 0x80, 0x80, 0x80, 0x01, 1, 1};
    static const char *const names[SPELLED] = {"every number that is read can be read", "superfluous zero group",
                                               "sixth group that asks for more", "cut off inside a number",
                                               "cut off before a number"};
    int i;
    damage("no rows", no_rows, sizeof no_rows, compare_table);
    damage("two rows", two_rows, sizeof two_rows, compare_table);
    damage("timed row", timed_row, sizeof timed_row, compare_table);
    damage("bad s", bad_s, sizeof bad_s, compare_table);
    damage("long rows", long_rows, sizeof long_rows, compare_table);
    damage("hopeless row", hopeless_row, sizeof hopeless_row, compare_table);
    damage("a server", a_server, sizeof a_server, compare_table);
    damage("row and servers", row_and_servers, sizeof row_and_servers, compare_table);
    damage("bad b", bad_b, sizeof bad_b, compare_table);
    damage("one job", one_job, sizeof one_job, compare_script);
    damage("three jobs", three_jobs, sizeof three_jobs, compare_script);
    damage("long gaps", long_gaps, sizeof long_gaps, compare_script);
    damage("odd jobs", odd_jobs, sizeof odd_jobs, compare_script);
    for (i = 0; i < SPELLED; i++) {
        printf("damaged, %s: %u tables, %u scripts\n", names[i], tables_compared[i], scripts_compared[i]);
        check(tables_compared[i] > 0 && scripts_compared[i] > 0, names[i], "number of cases, which should not be 0");
    }
    printf("damaged, of these with a bad timer: %u tables\n", bad_timers_compared);
    check(bad_timers_compared > 0, "bad timer", "number of cases, which should not be 0");
    printf("damaged, of these with a hopeless row: %u tables\n", hopeless_compared);
    check(hopeless_compared > 0, "hopeless row", "number of cases, which should not be 0");
    printf("damaged, of these with a bad server: %u tables\n", bad_servers_compared);
    check(bad_servers_compared > 0, "bad server", "number of cases, which should not be 0");
}

/* ---- every pair of some d and some c: only a c that is in its range can make a row hopeless */

static void test_hopeless(void)
{
    static const unsigned values[] = {0, 1, 2, 3, 126, 127, 128, 129, 300, 4095, 4096, 4097, 16383, 16384, 16385};
    uint8_t table[16];
    char name[60];
    size_t d, c;
    hopeless_compared = sound_compared = 0;
    for (d = 0; d < COUNT(values); d++) {
        for (c = 0; c < COUNT(values); c++) {
            size_t length = 0;
            length += spell(table + length, 0);
            length += spell(table + length, 1);
            length += spell(table + length, 1);
            length += spell(table + length, 1);
            length += spell(table + length, 4096);
            length += spell(table + length, values[d]);
            length += spell(table + length, values[c]);
            length += spell(table + length, 0);
            sprintf(name, "a row with d %u and c %u", values[d], values[c]);
            compare_table(name, table, length);
        }
    }
    printf("rows with some d and some c: %u hopeless, %u accepted\n", hopeless_compared, sound_compared);
    check(hopeless_compared == 45, "hopeless rows", "number of cases");
    check(sound_compared == 85, "rows that are not hopeless", "number of cases");
}

/* ---- every pair of some s and some p, and every s of some p on a table without rows */

static void test_timers(void)
{
    static const uint64_t values[] = {0, 1, 2, 127, 128, 129, 4095, 4096, 4097, 16384, (uint64_t)1 << 32,
                                      (uint64_t)1 << 41, ((uint64_t)1 << 42) - 1};
    static const uint64_t periods[] = {1, 2, 3, 7, 127, 128, 129, 4096};
    uint8_t table[16], answer[JYRMEKKO_ANSWER_SIZE];
    char name[80];
    size_t s, p;
    bad_timers_compared = sound_compared = 0;
    for (s = 0; s < COUNT(values); s++) {
        for (p = 0; p < COUNT(values); p++) {
            size_t length = spell(table, values[s]);
            length += spell(table + length, values[p]);
            table[length++] = 0;
            table[length++] = 0;
            sprintf(name, "a timer with s %llu and p %llu", (unsigned long long)values[s], (unsigned long long)values[p]);
            compare_table(name, table, length);
        }
    }
    printf("timers with some s and some p: %u bad, %u accepted\n", bad_timers_compared, sound_compared);
    check(bad_timers_compared == 141, "bad timers", "number of cases");
    check(sound_compared == 28, "timers that are not bad", "number of cases");
    for (p = 0; p < COUNT(periods); p++) {
        uint64_t taken;
        for (taken = 0; taken < periods[p]; taken++) {
            size_t length = spell(table, taken);
            length += spell(table + length, periods[p]);
            table[length++] = 0;
            table[length++] = 0;
            sprintf(name, "no rows, with s %u and p %u", (unsigned)taken, (unsigned)periods[p]);
            check(verdict(table, length, answer, sizeof answer) == JYRMEKKO_FEASIBLE && number(answer) == 0 &&
                      number(answer + 8) == 0, name, "verdict");
        }
    }
}

/* ---- every pair of some a and some b */

static void test_server_values(void)
{
    static const uint64_t values[] = {0, 1, 2, 127, 128, 129, 4095, 4096, 4097, 16384, (uint64_t)1 << 32,
                                      (uint64_t)1 << 41, ((uint64_t)1 << 42) - 1};
    uint8_t table[HEAD_LEN + 1 + 2 * 6], answer[JYRMEKKO_ANSWER_SIZE];
    char name[80];
    size_t a, b;
    bad_servers_compared = sound_compared = 0;
    for (a = 0; a < COUNT(values); a++) {
        for (b = 0; b < COUNT(values); b++) {
            unsigned sound_before = sound_compared;
            size_t length = spell_servers(table, spell_rows(table, 0, 1), 1, 1) - SERVER_LEN;
            length += spell(table + length, values[a]);
            length += spell(table + length, values[b]);
            sprintf(name, "a server with a %llu and b %llu", (unsigned long long)values[a], (unsigned long long)values[b]);
            compare_table(name, table, length);
            if (sound_compared > sound_before) { /* A server alone never asks for more than every tick. */
                check(verdict(table, length, answer, sizeof answer) == JYRMEKKO_FEASIBLE, name, "verdict");
            }
        }
    }
    printf("servers with some a and some b: %u bad, %u accepted\n", bad_servers_compared, sound_compared);
    check(bad_servers_compared == 141, "bad servers", "number of cases");
    check(sound_compared == 28, "servers that are not bad", "number of cases");
}

/* ---- small tables and scripts, compared with the definitions: each length by itself, and each tick by itself */

enum {
    MOST_SMALL_JOBS = 16,
    MOST_SMALL_TABLE = HEAD_LEN + ROW_LEN * MOST_SMALL_ROWS + 1 + SERVER_LEN * MOST_SMALL_SERVERS
};

static uint64_t common_multiple(uint64_t one, uint64_t other)
{
    uint64_t multiple = one;
    while (multiple % other != 0) {
        multiple += one;
    }
    return multiple;
}

/* Returns the smallest length whose demand is above it, or 0 where none is. A witness stands no later than 5.9 says. */
static uint64_t witness_of(const struct rows *rows)
{
    uint64_t period = rows->p, longest = 0, length;
    size_t i;
    for (i = 0; i < rows->count; i++) {
        period = common_multiple(period, rows->y[i]);
        longest = rows->due[i] > longest ? rows->due[i] : longest;
    }
    for (i = 0; i < rows->servers; i++) {
        period = common_multiple(period, rows->b[i]);
    }
    for (length = 1; length <= (longest + 1) * period + longest; length++) {
        if (demand_of(rows, length) > length) {
            return length;
        }
    }
    return 0;
}

/* The jobs of so many witnesses were replayed. */
static unsigned named_compared;

/*
 * Replays the jobs that a witness names, all released at zero. Where they have places, some job must be late. Where an
 * odd job among them would cost more than one may, nothing is replayed.
 */
static void check_named_jobs(const char *name, const uint8_t *table, size_t table_len, const struct rows *rows,
                             uint64_t length)
{
    static uint8_t script[(RECORD_LEN + 1) * (MOST_PENDING + 1)], log[MOST_LOG];
    uint8_t answer[JYRMEKKO_ANSWER_SIZE];
    size_t script_len = 0, named = 0, i;
    uint64_t job;
    for (i = 0; i < rows->servers; i++) {
        uint64_t cost = rows->a[i] * length / rows->b[i];
        if (cost > JYRMEKKO_MOST_ODD_COST) {
            return;
        }
        if (cost > 0) {
            script[script_len++] = 0;
            script[script_len++] = (uint8_t)(rows->count + i);
            script_len += spell(script + script_len, cost);
            named++;
        }
    }
    for (i = 0; i < rows->count; i++) {
        uint64_t jobs = length < rows->due[i] ? 0 : ((length - rows->due[i]) / rows->y[i] + 1) * rows->x[i];
        for (job = 0; job < jobs && named <= MOST_PENDING; job++) {
            script[script_len++] = 0;
            script[script_len++] = (uint8_t)i;
            script[script_len++] = (uint8_t)rows->cost[i];
            named++;
        }
    }
    named_compared++;
    check(replay(table, table_len, script, script_len, log, sizeof log, answer, sizeof answer)
              == (named <= MOST_PENDING ? JYRMEKKO_LATE : JYRMEKKO_PLACES_FULL), name,
          "replay of the jobs that its witness names");
}

/* Returns whether the table is feasible. */
static int check_small_table(const struct rows *rows)
{
    uint8_t table[MOST_SMALL_TABLE], answer[JYRMEKKO_ANSWER_SIZE];
    size_t table_len = spell_table(table, rows);
    uint64_t length = witness_of(rows);
    char name[3 * MOST_SMALL_TABLE + 20] = "the small table";
    size_t i;
    for (i = 0; i < table_len; i++) {
        sprintf(name + strlen(name), " %02X", table[i]);
    }
    check(verdict(table, table_len, answer, sizeof answer) == (length == 0 ? JYRMEKKO_FEASIBLE : JYRMEKKO_OVERLOADED)
              && number(answer) == length && number(answer + 8) == (length == 0 ? 0 : demand_of(rows, length)),
          name, "verdict");
    if (length != 0) {
        check_named_jobs(name, table, table_len, rows, length);
    }
    return length == 0;
}

/* Every s below some p, with every row of some values. */
static void test_every_small_timer(void)
{
    unsigned feasible = 0, overloaded = 0;
    struct rows rows;
    rows.count = 1;
    rows.servers = 0;
    for (rows.p = 1; rows.p <= 7; rows.p++) {
        for (rows.s = 0; rows.s < rows.p; rows.s++) {
            for (rows.x[0] = 1; rows.x[0] <= 2; rows.x[0]++) {
                for (rows.y[0] = 1; rows.y[0] <= 8; rows.y[0]++) {
                    for (rows.due[0] = 1; rows.due[0] <= 9; rows.due[0]++) {
                        for (rows.cost[0] = 1; rows.cost[0] <= rows.due[0] && rows.cost[0] <= 5; rows.cost[0]++) {
                            if (check_small_table(&rows)) {
                                feasible++;
                            } else {
                                overloaded++;
                            }
                        }
                    }
                }
            }
        }
    }
    printf("small timers with one row: %u feasible, %u overloaded\n", feasible, overloaded);
    check(feasible > 1000 && overloaded > 1000, "small timers", "number of cases");
}

/* Counts a small table as feasible or overloaded. */
static void count_small_table(const struct rows *rows, unsigned counts[2])
{
    counts[check_small_table(rows) ? 0 : 1]++;
}

/* Every server of some sizes beside another one, without rows, and with every s below some p. */
static void test_small_servers_alone(void)
{
    unsigned counts[2] = {0, 0};
    struct rows rows;
    rows.count = 0;
    rows.servers = 2;
    for (rows.p = 1; rows.p <= 4; rows.p++) {
        for (rows.s = 0; rows.s < rows.p; rows.s++) {
            for (rows.b[0] = 1; rows.b[0] <= 6; rows.b[0]++) {
                for (rows.a[0] = 1; rows.a[0] <= rows.b[0]; rows.a[0]++) {
                    for (rows.b[1] = 1; rows.b[1] <= 7; rows.b[1]++) {
                        for (rows.a[1] = 1; rows.a[1] <= rows.b[1]; rows.a[1]++) {
                            count_small_table(&rows, counts);
                        }
                    }
                }
            }
        }
    }
    printf("small servers without rows: %u feasible, %u overloaded\n", counts[0], counts[1]);
    check(counts[0] > 500 && counts[1] > 500, "small servers without rows", "number of cases");
}

/* Every server of some sizes, with some timers, alone or beside another server, and with every row of some values. */
static void test_every_small_server(void)
{
    static const uint64_t timers[][2] = {{0, 1}, {1, 2}, {1, 3}, {2, 3}}, others[][2] = {{1, 3}, {2, 5}};
    unsigned counts[2] = {0, 0};
    struct rows rows;
    size_t timer, other;
    rows.count = 1;
    rows.x[0] = 1;
    for (timer = 0; timer < COUNT(timers); timer++) {
        for (other = 0; other <= COUNT(others); other++) {
            rows.s = timers[timer][0];
            rows.p = timers[timer][1];
            rows.servers = 1;
            if (other < COUNT(others)) {
                rows.servers = 2;
                rows.a[1] = others[other][0];
                rows.b[1] = others[other][1];
            }
            for (rows.b[0] = 1; rows.b[0] <= 6; rows.b[0]++) {
                for (rows.a[0] = 1; rows.a[0] <= rows.b[0]; rows.a[0]++) {
                    for (rows.y[0] = 2; rows.y[0] <= 10; rows.y[0] += 2) {
                        for (rows.due[0] = 1; rows.due[0] <= 8; rows.due[0]++) {
                            for (rows.cost[0] = 1; rows.cost[0] <= rows.due[0] && rows.cost[0] <= 3; rows.cost[0]++) {
                                count_small_table(&rows, counts);
                            }
                        }
                    }
                }
            }
        }
    }
    printf("small servers with one row: %u feasible, %u overloaded\n", counts[0], counts[1]);
    check(counts[0] > 1000 && counts[1] > 1000, "small servers with one row", "number of cases");
}

/* A job, whose serial is its place in a list. */
struct small_job {
    uint64_t time, row, due, left;
};

/* Releases the next job of a list, which is an odd job: it is due by 4.9. */
static void release_small_odd(const struct rows *rows, struct small_job *jobs, size_t serial)
{
    struct small_job *job = &jobs[serial];
    uint64_t last = 0;
    size_t i;
    for (i = 0; i < serial; i++) {
        last = jobs[i].row == job->row ? jobs[i].due : last;
    }
    job->due = odd_due(rows, job->row - rows->count, job->time, last, job->left);
}

/* Releases the next job of a list: it is due by 4.2 and 4.3, or is an odd job. */
static void release_small(const struct rows *rows, struct small_job *jobs, size_t serial)
{
    struct small_job *job = &jobs[serial];
    uint64_t before = 0; /* So many jobs of this row, from the last one back, have been looked at. */
    size_t i;
    if (job->row >= rows->count) {
        release_small_odd(rows, jobs, serial);
        return;
    }
    job->due = job->time + rows->due[job->row];
    for (i = serial; i > 0; i--) {
        if (jobs[i - 1].row == job->row && ++before == rows->x[job->row]) {
            uint64_t by_rate = jobs[i - 1].due + rows->y[job->row];
            job->due = by_rate > job->due ? by_rate : job->due;
        }
    }
}

/* Plays jobs by single ticks, and writes their log. Returns its length, and adds up how many jobs became late. */
static size_t play_small(const struct rows *rows, struct small_job *jobs, size_t count, uint8_t *log, uint64_t *late)
{
    size_t released = 0, finished = 0, length = 0, i;
    uint64_t clock = 0;
    *late = 0;
    while (finished < count) {
        size_t chosen = count;
        while (released < count && jobs[released].time == clock) {
            release_small(rows, jobs, released++);
        }
        for (i = 0; i < released && !is_taken(rows, clock); i++) {
            if (jobs[i].left > 0 && (chosen == count || jobs[i].due < jobs[chosen].due)) {
                chosen = i;
            }
        }
        clock++;
        if (chosen < count && --jobs[chosen].left == 0) {
            finished++;
            length += spell(log + length, chosen);
            length += spell(log + length, jobs[chosen].row);
            length += spell(log + length, jobs[chosen].time);
            length += spell(log + length, jobs[chosen].due);
            length += spell(log + length, clock);
        }
        for (i = 0; i < released; i++) {
            *late += jobs[i].left > 0 && jobs[i].due == clock;
        }
    }
    return length;
}

/* Replays some jobs of the rows, and compares everything with what single ticks give. Returns how many jobs are late. */
static uint64_t check_small_script(const struct rows *rows, unsigned number_of_case)
{
    struct small_job jobs[MOST_SMALL_JOBS];
    struct fenced log_buffer;
    uint8_t table[MOST_SMALL_TABLE], script[RECORD_LEN * MOST_SMALL_JOBS], answer[JYRMEKKO_ANSWER_SIZE];
    uint8_t wanted[JYRMEKKO_LOG_SIZE(sizeof script)], *log = untouched(&log_buffer);
    size_t table_len = spell_table(table, rows), count = (size_t)some(MOST_SMALL_JOBS), length, i;
    uint64_t time = 0, late;
    uint32_t status;
    char name[60];
    for (i = 0; i < count; i++) {
        uint64_t gap = some(3) == 1 ? some(9) : some(3) - 1;
        jobs[i].time = time += gap;
        jobs[i].row = some(rows->count + rows->servers) - 1;
        jobs[i].left = some(jobs[i].row < rows->count ? rows->cost[jobs[i].row] : 6);
        script[RECORD_LEN * i] = (uint8_t)gap;
        script[RECORD_LEN * i + 1] = (uint8_t)jobs[i].row;
        script[RECORD_LEN * i + 2] = (uint8_t)jobs[i].left;
    }
    sprintf(name, "small script %u", number_of_case);
    length = play_small(rows, jobs, count, wanted, &late);
    status = replay(table, table_len, script, RECORD_LEN * count, log, MOST_LOG, answer, sizeof answer);
    check(status == (late == 0 ? JYRMEKKO_IN_TIME : JYRMEKKO_LATE), name, "status");
    check_answer(name, answer, length, late);
    check(same_bytes(log, wanted, length), name, "log");
    check(fence_stands(&log_buffer, length), name, "bytes past the log");
    return late;
}

/*
 * Tables of up to three rows and up to two servers, with a timer of each kind, and scripts on them. On a feasible table
 * no job is late.
 */
static void test_small_scripts(void)
{
    enum { CASES = 6000 };
    unsigned with_servers[2] = {0, 0}; /* So many tables with servers are feasible, and so many overloaded. */
    unsigned feasible = 0, overloaded = 0, late_scripts = 0, i;
    for (i = 0; i < CASES; i++) {
        struct rows rows;
        uint64_t late;
        some_table(&rows);
        late = check_small_script(&rows, i);
        late_scripts += late > 0;
        if (check_small_table(&rows)) {
            feasible++;
            with_servers[0] += rows.servers > 0;
            check(late == 0, "a feasible table", "job, which is late");
        } else {
            overloaded++;
            with_servers[1] += rows.servers > 0;
        }
    }
    printf("small scripts: %u on feasible tables, %u on overloaded ones, %u with late jobs\n", feasible, overloaded,
           late_scripts);
    check(feasible > 100 && overloaded > 100 && late_scripts > 100, "small scripts", "number of cases");
    printf("of these with servers: %u on feasible tables, %u on overloaded ones\n", with_servers[0], with_servers[1]);
    check(with_servers[0] > 100 && with_servers[1] > 100, "small scripts with servers", "number of cases");
    printf("jobs that a witness names: replayed for %u small tables\n", named_compared);
}

/*
 * Odd jobs of cost 4096, on the server (1, 4096): each takes the last due time 2^24 ticks further. The 65,536th is due at
 * 2^40, and the next one would be due later.
 */
static void test_last_due_time(void)
{
    enum { JOBS = 65536, JOB_LEN = 5 };
    static const uint8_t table[] = {0, 1, 0, 1, 1, 0x80, 0x20};
    static uint8_t script[JOB_LEN * (JOBS + 1)], wanted[30 * JOBS], log[30 * (JOBS + 1)];
    uint8_t answer[JYRMEKKO_ANSWER_SIZE];
    size_t script_len = 0, log_len = 0, i;
    for (i = 0; i <= JOBS; i++) {
        script_len += spell(script + script_len, i == 0 ? 0 : 4096);
        script_len += spell(script + script_len, 0);
        script_len += spell(script + script_len, 4096);
    }
    for (i = 0; i < JOBS; i++) { /* Each job finishes when the next one is released. */
        log_len += spell(wanted + log_len, i);
        log_len += spell(wanted + log_len, 0);
        log_len += spell(wanted + log_len, (uint64_t)i * 4096);
        log_len += spell(wanted + log_len, (uint64_t)(i + 1) << 24);
        log_len += spell(wanted + log_len, (uint64_t)(i + 1) * 4096);
    }
    check(replay(table, sizeof table, script, script_len - JOB_LEN, log, sizeof log, answer, sizeof answer) == JYRMEKKO_IN_TIME,
          "last due time of 2^40", "status");
    check_answer("last due time of 2^40", answer, log_len, 0);
    check(same_bytes(log, wanted, log_len), "last due time of 2^40", "log");
    check(replay(table, sizeof table, script, script_len, log, sizeof log, answer, sizeof answer) == JYRMEKKO_DUE_TOO_LATE,
          "last due time above 2^40", "status");
    check_answer("last due time above 2^40", answer, script_len - JOB_LEN, 0);
    check(all_bytes(log, sizeof log, 0), "last due time above 2^40", "log, which should be zeros");
}

/* An answer buffer that is not 16 bytes long is refused with 13 before every other test, and nothing is written. */
static void test_answer_size(void)
{
    static const size_t sizes[] = {0, 1, 8, 15, 17, 32};
    static const uint8_t table[] = {0, 1, 1, 1, 4, 4, 2, 1, 1, 4}, script[] = {0, 0, 2, 0, 1, 1, 1, 1, 2};
    static const uint8_t bad_table[] = {1, 1, JYRMEKKO_MOST_ROWS + 1}, bad_script[] = {0x80, 0x00};
    static const uint8_t hopeless_table[] = {1, 3, 1, 1, 4, 4, 5, 0};
    size_t i;
    for (i = 0; i < COUNT(sizes); i++) {
        struct fenced answer_buffer, log_buffer;
        uint8_t *answer = untouched(&answer_buffer);
        uint8_t *log = untouched(&log_buffer);
        const char *name = "answer of another size";
        check(verdict(table, sizeof table, answer, sizes[i]) == JYRMEKKO_ANSWER_NOT_16_BYTES, name, "verdict");
        check(verdict(bad_table, sizeof bad_table, answer, sizes[i]) == JYRMEKKO_ANSWER_NOT_16_BYTES, name, "verdict");
        check(verdict(hopeless_table, sizeof hopeless_table, answer, sizes[i]) == JYRMEKKO_ANSWER_NOT_16_BYTES, name,
              "verdict");
        check(replay(table, sizeof table, script, sizeof script, log, MOST_LOG, answer, sizes[i])
                  == JYRMEKKO_ANSWER_NOT_16_BYTES, name, "replay");
        check(replay(bad_table, sizeof bad_table, bad_script, sizeof bad_script, log, MOST_LOG, answer, sizes[i])
                  == JYRMEKKO_ANSWER_NOT_16_BYTES, name, "replay");
        check(replay(hopeless_table, sizeof hopeless_table, script, sizeof script, log, MOST_LOG, answer, sizes[i])
                  == JYRMEKKO_ANSWER_NOT_16_BYTES, name, "replay");
        check(fence_stands(&answer_buffer, 0), name, "answer, which should be untouched");
        check(fence_stands(&log_buffer, 0), name, "log, which should be untouched");
    }
}

/* A null pointer is a buffer of length 0. */
static void test_null(void)
{
    static const uint8_t empty_table[] = {0, 1, 0, 0};
    uint8_t answer[JYRMEKKO_ANSWER_SIZE];
    check(verdict(NULL, 0, answer, sizeof answer) == JYRMEKKO_MISSPELLED, "null table", "status");
    check_answer("null table", answer, 0, 0);
    check(verdict(empty_table, sizeof empty_table, NULL, 0) == JYRMEKKO_ANSWER_NOT_16_BYTES, "null answer", "status");
    check(replay(empty_table, sizeof empty_table, NULL, 0, NULL, 0, answer, sizeof answer) == JYRMEKKO_IN_TIME,
          "null script and log", "status");
    check_answer("null script and log", answer, 0, 0);
    check(replay(NULL, 0, NULL, 0, NULL, 0, NULL, 0) == JYRMEKKO_ANSWER_NOT_16_BYTES, "all null", "status");
}

int main(void)
{
    size_t i;
    for (i = 0; i < COUNT(verdict_cases); i++) {
        test_verdict(&verdict_cases[i]);
    }
    for (i = 0; i < COUNT(replay_cases); i++) {
        test_replay(&replay_cases[i]);
    }
    test_rows();
    test_servers();
    test_places();
    test_damage();
    test_hopeless();
    test_timers();
    test_server_values();
    test_every_small_timer();
    test_small_servers_alone();
    test_every_small_server();
    test_small_scripts();
    test_last_due_time();
    test_answer_size();
    test_null();
    printf("%u passed, %u failed\n", passed, failed);
    return failed != 0;
}
