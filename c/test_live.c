/*
 * Tests the four calls on a live run as a host in C and a host in C++ make them. This file is compiled as both. Each call
 * is held to the rules in live.h, and where the rules give numbers, to these. 'test_live few' tries fewer cases, for slow
 * checkers. The last line is 'N passed, M failed'.
 */
#include "jyrmekko.h"

#include "live.h"
#include "testing.h"

#include <stdio.h>
#include <string.h>

enum {
    FENCE = 16,
    RUN_WORDS = JYRMEKKO_RUN_SIZE / 8,
    MOST_TABLE = 6 * (4 + 4 * JYRMEKKO_MOST_ROWS + 2 * JYRMEKKO_MOST_SERVERS)
};

static int few;

/* ---- a call, held to the rules */

enum kind { START, RELEASE, TICK, END };

static const char *const kinds[] = {"run_start", "run_release", "run_tick", "run_end"};

/* A call to make. RELEASE has a row number and a cost, and END has a serial. START takes the table that is set here. */
struct call {
    enum kind kind;
    uint64_t first, second;
};

static const uint8_t *table;
static size_t table_len;

static struct call call_of(enum kind kind, uint64_t first, uint64_t second)
{
    struct call call = {kind, first, second};
    return call;
}

/* The library's run, between words that nobody may touch, and the run that the rules want. */
struct pair {
    uint64_t before[FENCE];
    struct jyrmekko_run run;
    uint64_t after[FENCE];
    struct live wanted;
};

static uint32_t make(struct jyrmekko_run *run, struct call call, uint8_t *answer, size_t answer_len)
{
    switch (call.kind) {
    case START:
        return run_start(table, table_len, run, answer, answer_len);
    case RELEASE:
        return run_release(run, call.first, call.second, answer, answer_len);
    case TICK:
        return run_tick(run, answer, answer_len);
    default:
        return run_end(run, call.first, answer, answer_len);
    }
}

static struct said want(struct live *run, struct call call)
{
    switch (call.kind) {
    case START:
        return live_start(run, table, table_len);
    case RELEASE:
        return live_release(run, call.first, call.second);
    case TICK:
        return live_tick(run);
    default:
        return live_end(run, call.first);
    }
}

static int is_as_wanted(const struct pair *pair)
{
    return memcmp(&pair->run, &pair->wanted, sizeof pair->run) == 0;
}

static void check_fences(const char *name, const struct pair *pair, const uint8_t *buffer, size_t answer_len)
{
    check(all_bytes((const uint8_t *)pair->before, sizeof pair->before, UNTOUCHED)
              && all_bytes((const uint8_t *)pair->after, sizeof pair->after, UNTOUCHED), name, "words around the run");
    check(all_bytes(buffer, FENCE, UNTOUCHED) && all_bytes(buffer + FENCE + answer_len, FENCE, UNTOUCHED), name,
          "bytes around the answer");
}

/* Makes a call, and checks all that it says and leaves. Returns what it says. */
static struct said hold(const char *name, struct pair *pair, struct call call)
{
    uint8_t buffer[FENCE + JYRMEKKO_ANSWER_SIZE + FENCE];
    struct said said, wanted = want(&pair->wanted, call);
    char text[100];
    memset(buffer, UNTOUCHED, sizeof buffer);
    said.status = make(&pair->run, call, buffer + FENCE, JYRMEKKO_ANSWER_SIZE);
    said.first = number(buffer + FENCE);
    said.second = number(buffer + FENCE + 8);
    sprintf(text, "%.60s, %s", name, kinds[call.kind]);
    check(said.status == wanted.status, text, "status");
    check(said.first == wanted.first, text, "first number");
    check(said.second == wanted.second, text, "second number");
    check(is_as_wanted(pair), text, "run afterwards");
    check_fences(text, pair, buffer, JYRMEKKO_ANSWER_SIZE);
    memcpy(&pair->wanted, &pair->run, sizeof pair->run); /* One fault is not counted again at every call after it. */
    return said;
}

/* Makes a call that has to say this. */
static void expect(const char *name, struct pair *pair, struct call call, uint32_t status, uint64_t first, uint64_t second)
{
    struct said said = hold(name, pair, call);
    check(said.status == status && said.first == first && said.second == second, name, "answer");
}

/* Makes calls with answer buffers of other sizes: 13 is returned, and nothing changes. */
static void refuse_answers(const char *name, struct pair *pair, struct call call)
{
    static const size_t sizes[] = {0, 1, 8, 15, 17, 32};
    uint8_t buffer[FENCE + 32 + FENCE];
    char text[100];
    size_t i;
    sprintf(text, "%.60s, %s with another answer", name, kinds[call.kind]);
    memset(buffer, UNTOUCHED, sizeof buffer);
    for (i = 0; i < COUNT(sizes); i++) {
        check(make(&pair->run, call, buffer + FENCE, sizes[i]) == JYRMEKKO_ANSWER_NOT_16_BYTES, text, "status");
        check(is_as_wanted(pair), text, "run, which should be unchanged");
        check_fences(text, pair, buffer, 32);
        check(all_bytes(buffer, sizeof buffer, UNTOUCHED), text, "answer, which should be untouched");
    }
    check(make(&pair->run, call, NULL, 0) == JYRMEKKO_ANSWER_NOT_16_BYTES, text, "status with a null answer");
    check(is_as_wanted(pair), text, "run with a null answer, which should be unchanged");
}

/* Fills the run with a byte. */
static void fill(struct pair *pair, int byte)
{
    memset(pair->before, UNTOUCHED, sizeof pair->before);
    memset(pair->after, UNTOUCHED, sizeof pair->after);
    memset(&pair->run, byte, sizeof pair->run);
    memset(&pair->wanted, byte, sizeof pair->wanted);
}

/* Starts a run on a table that is in order, in memory that is full of something else. */
static void start(const char *name, struct pair *pair, const uint8_t *bytes, size_t length)
{
    table = bytes;
    table_len = length;
    fill(pair, UNTOUCHED);
    expect(name, pair, call_of(START, 0, 0), JYRMEKKO_STARTED, 0, 0);
}

/* Sets a word of the run, in the library's memory and in that of the rules. */
static void set(struct pair *pair, const uint64_t *word, uint64_t value)
{
    size_t i = (size_t)(word - (const uint64_t *)&pair->wanted);
    ((uint64_t *)&pair->wanted)[i] = value;
    pair->run.words[i] = value;
}

static void ticks(const char *name, struct pair *pair, unsigned count, uint32_t status, uint64_t serial)
{
    for (; count > 0; count--) {
        expect(name, pair, call_of(TICK, 0, 0), status, serial, 0);
    }
}

static struct pair one, other;

/* ---- the run's memory */

/* Spells a table of as many rows and servers as there can be, each with these values. */
static size_t spell_most(uint8_t *out, uint64_t x, uint64_t c)
{
    struct rows rows;
    size_t i;
    rows.s = 1;
    rows.p = 4;
    rows.count = JYRMEKKO_MOST_ROWS;
    rows.servers = JYRMEKKO_MOST_SERVERS;
    for (i = 0; i < JYRMEKKO_MOST_ROWS; i++) {
        rows.x[i] = x;
        rows.y[i] = 4096;
        rows.due[i] = 16384;
        rows.cost[i] = c;
    }
    for (i = 0; i < JYRMEKKO_MOST_SERVERS; i++) {
        rows.a[i] = 1;
        rows.b[i] = 4096;
    }
    return spell_table(out, &rows);
}

static void test_memory(void)
{
    struct aligned {
        char byte;
        struct jyrmekko_run run;
    };
    uint8_t most[MOST_TABLE];
    size_t length = spell_most(most, 64, 4096), i;
    unsigned kept = 0;
    check(sizeof(struct jyrmekko_run) == 47872 && JYRMEKKO_RUN_SIZE == 47872, "a run", "size");
    check(sizeof(struct live) == sizeof(struct jyrmekko_run), "a run", "size by its words");
    check(offsetof(struct aligned, run) == 8, "a run", "alignment");
    start("the largest table", &one, most, length);
    for (i = 0; i < RUN_WORDS; i++) {
        kept += one.run.words[i] == UINT64_C(0xA5A5A5A5A5A5A5A5);
    }
    check(kept == 0, "the largest table", "words, which are not all written");
    check(one.run.words[RUN_WORDS - 1] == 0, "the largest table", "last word");
    table_len = 0;
    fill(&one, UNTOUCHED);
    expect("no table", &one, call_of(START, 0, 0), JYRMEKKO_MISSPELLED, 0, 0);
    check(one.run.words[RUN_WORDS - 1] == 0, "no table", "last word");
}

/* ---- what each call says, by the numbers in the rules */

static void test_rows_and_timer(void)
{
    static const uint8_t v3[] = {0, 1, 2, 1, 4, 4, 2, 1, 6, 6, 3, 0}, timed[] = {1, 4, 2, 1, 8, 6, 2, 1, 8, 8, 3, 0};
    static const uint8_t d1[] = {0, 1, 1, 1, 2, 6, 1, 0};
    start("R1", &one, v3, sizeof v3);
    expect("R1", &one, call_of(RELEASE, 0, 2), JYRMEKKO_ACCEPTED, 0, 4);
    expect("R1", &one, call_of(RELEASE, 1, 3), JYRMEKKO_ACCEPTED, 1, 6);
    ticks("R1", &one, 1, JYRMEKKO_RAN, 0);
    ticks("R1", &one, 1, JYRMEKKO_FINISHED, 0);
    ticks("R1", &one, 2, JYRMEKKO_RAN, 1);
    expect("R1", &one, call_of(RELEASE, 0, 2), JYRMEKKO_ACCEPTED, 2, 8);
    ticks("R1", &one, 1, JYRMEKKO_FINISHED, 1);
    ticks("R1", &one, 1, JYRMEKKO_RAN, 2);
    ticks("R1", &one, 1, JYRMEKKO_FINISHED, 2);
    ticks("R1", &one, 3, JYRMEKKO_IDLE, 0);
    start("R2", &one, timed, sizeof timed);
    expect("R2", &one, call_of(RELEASE, 0, 2), JYRMEKKO_ACCEPTED, 0, 6);
    expect("R2", &one, call_of(RELEASE, 1, 3), JYRMEKKO_ACCEPTED, 1, 8);
    ticks("R2", &one, 1, JYRMEKKO_TAKEN, 0);
    ticks("R2", &one, 1, JYRMEKKO_RAN, 0);
    ticks("R2", &one, 1, JYRMEKKO_FINISHED, 0);
    ticks("R2", &one, 1, JYRMEKKO_RAN, 1);
    ticks("R2", &one, 1, JYRMEKKO_TAKEN, 0);
    ticks("R2", &one, 1, JYRMEKKO_RAN, 1);
    ticks("R2", &one, 1, JYRMEKKO_FINISHED, 1);
    ticks("R2", &one, 1, JYRMEKKO_IDLE, 0);
    ticks("R2, taken with nothing pending", &one, 1, JYRMEKKO_TAKEN, 0);
    start("D1", &one, d1, sizeof d1);
    expect("D1", &one, call_of(RELEASE, 0, 1), JYRMEKKO_ACCEPTED, 0, 6);
    expect("D1", &one, call_of(RELEASE, 0, 1), JYRMEKKO_ACCEPTED, 1, 8);
    expect("D1", &one, call_of(RELEASE, 0, 1), JYRMEKKO_ACCEPTED, 2, 10);
    ticks("D1", &one, 1, JYRMEKKO_FINISHED, 0);
    ticks("D1", &one, 1, JYRMEKKO_FINISHED, 1);
    ticks("D1", &one, 1, JYRMEKKO_FINISHED, 2);
    expect("D1", &one, call_of(RELEASE, 0, 1), JYRMEKKO_ACCEPTED, 3, 12);
    expect("D1", &one, call_of(RELEASE, 0, 1), JYRMEKKO_ACCEPTED, 4, 14);
    ticks("D1", &one, 1, JYRMEKKO_FINISHED, 3);
    ticks("D1", &one, 1, JYRMEKKO_FINISHED, 4);
    ticks("D1", &one, 1, JYRMEKKO_IDLE, 0);
    expect("D1", &one, call_of(RELEASE, 0, 1), JYRMEKKO_ACCEPTED, 5, 16);
}

static void test_late(void)
{
    static const uint8_t v7[] = {0, 1, 1, 2, 1, 1, 1, 0}, t5[] = {3, 4, 1, 1, 4, 3, 1, 0};
    start("V7", &one, v7, sizeof v7);
    expect("V7", &one, call_of(RELEASE, 0, 1), JYRMEKKO_ACCEPTED, 0, 1);
    expect("V7", &one, call_of(RELEASE, 0, 1), JYRMEKKO_ACCEPTED, 1, 1);
    expect("V7", &one, call_of(RELEASE, 0, 1), JYRMEKKO_ACCEPTED, 2, 2);
    expect("V7", &one, call_of(RELEASE, 0, 1), JYRMEKKO_ACCEPTED, 3, 2);
    expect("V7, one job late", &one, call_of(TICK, 0, 0), JYRMEKKO_FINISHED, 0, 1);
    expect("V7, two jobs late", &one, call_of(TICK, 0, 0), JYRMEKKO_FINISHED, 1, 2);
    ticks("V7, late before", &one, 1, JYRMEKKO_FINISHED, 2);
    expect("V7, an ended job", &one, call_of(RELEASE, 0, 1), JYRMEKKO_ACCEPTED, 4, 4);
    expect("V7, an ended job", &one, call_of(END, 4, 0), JYRMEKKO_ENDED, 0, 0);
    ticks("V7, an ended job is not late", &one, 1, JYRMEKKO_FINISHED, 3);
    start("T5", &one, t5, sizeof t5);
    expect("T5", &one, call_of(RELEASE, 0, 1), JYRMEKKO_ACCEPTED, 0, 3);
    ticks("T5", &one, 2, JYRMEKKO_TAKEN, 0);
    expect("T5, late in a taken tick", &one, call_of(TICK, 0, 0), JYRMEKKO_TAKEN, 0, 1);
    ticks("T5", &one, 1, JYRMEKKO_FINISHED, 0);
}

static void test_servers(void)
{
    static const uint8_t server[] = {0, 1, 0, 1, 1, 4}, smallest[] = {0, 1, 0, 1, 1, 0x80, 0x20};
    start("S1", &one, server, sizeof server);
    ticks("S1", &one, 30, JYRMEKKO_IDLE, 0);
    expect("S1", &one, call_of(RELEASE, 0, 10), JYRMEKKO_ACCEPTED, 0, 70);
    ticks("S1", &one, 9, JYRMEKKO_RAN, 0);
    ticks("S1", &one, 1, JYRMEKKO_FINISHED, 0);
    ticks("S1", &one, 29, JYRMEKKO_IDLE, 0);
    expect("S1", &one, call_of(RELEASE, 0, 20), JYRMEKKO_ACCEPTED, 1, 150);
    ticks("S1", &one, 19, JYRMEKKO_RAN, 1);
    ticks("S1", &one, 1, JYRMEKKO_FINISHED, 1);
    ticks("S1", &one, 51, JYRMEKKO_IDLE, 0);
    expect("S1", &one, call_of(RELEASE, 0, 20), JYRMEKKO_ACCEPTED, 2, 230);
    start("the smallest server", &one, smallest, sizeof smallest);
    expect("the smallest server", &one, call_of(RELEASE, 0, 4096), JYRMEKKO_ACCEPTED, 0, 1 << 24);
    expect("the smallest server", &one, call_of(RELEASE, 0, 4097), JYRMEKKO_COST_OUT_OF_RANGE, 0, 0);
    expect("the smallest server", &one, call_of(RELEASE, 0, 1), JYRMEKKO_ACCEPTED, 1, (1 << 24) + 4096);
    set(&one, &one.wanted.last_due[0], LAST_CLOCK - 4096);
    expect("due at 2^40", &one, call_of(RELEASE, 0, 1), JYRMEKKO_ACCEPTED, 2, LAST_CLOCK);
    expect("due after 2^40", &one, call_of(RELEASE, 0, 1), JYRMEKKO_DUE_TOO_LATE, 0, 0);
}

static void test_ends(void)
{
    static const uint8_t row[] = {0, 1, 1, 1, 4, 4, 2, 0}, server[] = {0, 1, 0, 1, 1, 4};
    unsigned i;
    start("end", &one, row, sizeof row);
    expect("end", &one, call_of(END, 0, 0), JYRMEKKO_NOT_PENDING, 0, 0);
    expect("end", &one, call_of(RELEASE, 0, 2), JYRMEKKO_ACCEPTED, 0, 4);
    ticks("end", &one, 1, JYRMEKKO_RAN, 0);
    expect("end of a job that had a unit", &one, call_of(END, 0, 0), JYRMEKKO_ENDED, 1, 0);
    expect("end of an ended job", &one, call_of(END, 0, 0), JYRMEKKO_NOT_PENDING, 0, 0);
    expect("release after an end", &one, call_of(RELEASE, 0, 2), JYRMEKKO_ACCEPTED, 1, 8);
    expect("end of a job that had no unit", &one, call_of(END, 1, 0), JYRMEKKO_ENDED, 0, 0);
    expect("end of a serial to come", &one, call_of(END, 2, 0), JYRMEKKO_NOT_PENDING, 0, 0);
    expect("end of the last serial", &one, call_of(END, UINT64_MAX, 0), JYRMEKKO_NOT_PENDING, 0, 0);
    expect("release after an end", &one, call_of(RELEASE, 0, 1), JYRMEKKO_ACCEPTED, 2, 12);
    ticks("a job finishes", &one, 1, JYRMEKKO_FINISHED, 2);
    expect("end of a finished job", &one, call_of(END, 2, 0), JYRMEKKO_NOT_PENDING, 0, 0);

    start("end, a server", &one, server, sizeof server);
    expect("end, a server", &one, call_of(RELEASE, 0, 10), JYRMEKKO_ACCEPTED, 0, 40);
    ticks("end, a server", &one, 7, JYRMEKKO_RAN, 0);
    expect("end, a server", &one, call_of(END, 0, 0), JYRMEKKO_ENDED, 7, 0);
    expect("end, a server", &one, call_of(RELEASE, 0, 1), JYRMEKKO_ACCEPTED, 1, 44);

    start("300 ends at clock 0", &one, row, sizeof row);
    for (i = 0; i < 300; i++) {
        expect("300 ends at clock 0", &one, call_of(RELEASE, 0, 1), JYRMEKKO_ACCEPTED, i, 4 * (i + 1));
        expect("300 ends at clock 0", &one, call_of(END, i, 0), JYRMEKKO_ENDED, 0, 0);
    }
    expect("after 300 ends at clock 0", &one, call_of(RELEASE, 0, 1), JYRMEKKO_ACCEPTED, 300, 1204);

    set(&one, &one.wanted.ended, LAST_CLOCK);
    expect("2^40 ended", &one, call_of(END, 299, 0), JYRMEKKO_NOT_PENDING, 0, 0);
    expect("2^40 ended", &one, call_of(END, 300, 0), JYRMEKKO_TOO_MANY_ENDED, 0, 0);
    expect("2^40 ended", &one, call_of(RELEASE, 0, 1), JYRMEKKO_ACCEPTED, 301, 1208);
    ticks("2^40 ended", &one, 1, JYRMEKKO_FINISHED, 300);
    set(&one, &one.wanted.ended, LAST_CLOCK + 1);
    expect("2^40 + 1 ended", &one, call_of(END, 301, 0), JYRMEKKO_RUN_NOT_SOUND, 0, 0);
}

static void test_releases(void)
{
    static const uint8_t both[] = {0, 1, 1, 64, 4, 4, 2, 1, 1, 4};
    unsigned i;
    start("release", &one, both, sizeof both);
    expect("row 2 of 2", &one, call_of(RELEASE, 2, 1), JYRMEKKO_NO_SUCH_ROW, 0, 0);
    expect("row 2 of 2, a bad cost", &one, call_of(RELEASE, 2, 0), JYRMEKKO_NO_SUCH_ROW, 0, 0);
    expect("row 2^32", &one, call_of(RELEASE, (uint64_t)1 << 32, 1), JYRMEKKO_NO_SUCH_ROW, 0, 0);
    expect("row 2^64 - 1", &one, call_of(RELEASE, UINT64_MAX, 1), JYRMEKKO_NO_SUCH_ROW, 0, 0);
    expect("cost 0", &one, call_of(RELEASE, 0, 0), JYRMEKKO_COST_OUT_OF_RANGE, 0, 0);
    expect("cost above c", &one, call_of(RELEASE, 0, 3), JYRMEKKO_COST_OUT_OF_RANGE, 0, 0);
    expect("cost 2^32 + 1", &one, call_of(RELEASE, 0, ((uint64_t)1 << 32) + 1), JYRMEKKO_COST_OUT_OF_RANGE, 0, 0);
    expect("cost 2^64 - 1", &one, call_of(RELEASE, 1, UINT64_MAX), JYRMEKKO_COST_OUT_OF_RANGE, 0, 0);
    expect("cost 0 of an odd job", &one, call_of(RELEASE, 1, 0), JYRMEKKO_COST_OUT_OF_RANGE, 0, 0);
    for (i = 0; i < JYRMEKKO_MOST_PENDING; i++) {
        expect("all places", &one, call_of(RELEASE, i % 2, 1), JYRMEKKO_ACCEPTED, i, i % 2 == 0 ? 4 + i / 128 * 4 : 2 * (i + 1));
    }
    expect("one job too many", &one, call_of(RELEASE, 0, 1), JYRMEKKO_PLACES_FULL, 0, 0);
    expect("one odd job too many", &one, call_of(RELEASE, 1, 1), JYRMEKKO_PLACES_FULL, 0, 0);
    expect("a bad cost before that", &one, call_of(RELEASE, 0, 3), JYRMEKKO_COST_OUT_OF_RANGE, 0, 0);
    expect("a bad row before that", &one, call_of(RELEASE, 2, 3), JYRMEKKO_NO_SUCH_ROW, 0, 0);
    expect("an end frees a place", &one, call_of(END, 100, 0), JYRMEKKO_ENDED, 0, 0);
    expect("an end frees a place", &one, call_of(RELEASE, 0, 1), JYRMEKKO_ACCEPTED, 256, 12);
    expect("all places again", &one, call_of(RELEASE, 0, 1), JYRMEKKO_PLACES_FULL, 0, 0);
    expect("a finish frees a place", &one, call_of(TICK, 0, 0), JYRMEKKO_FINISHED, 0, 0);
    expect("a finish frees a place", &one, call_of(RELEASE, 0, 1), JYRMEKKO_ACCEPTED, 257, 12);
    set(&one, &one.wanted.clock, LAST_CLOCK);
    expect("all places at 2^40", &one, call_of(RELEASE, 0, 1), JYRMEKKO_PLACES_FULL, 0, 0);
    expect("no tick at 2^40", &one, call_of(TICK, 0, 0), JYRMEKKO_TIME_TOO_LATE, 0, 0);
}

static void test_last_tick(void)
{
    static const uint8_t row[] = {2, 7, 1, 1, 2, 6, 1, 0}; /* 2^40 modulo 7 is 2. */
    start("2^40", &one, row, sizeof row);
    set(&one, &one.wanted.clock, LAST_CLOCK - 6);
    expect("due at 2^40", &one, call_of(RELEASE, 0, 1), JYRMEKKO_ACCEPTED, 0, LAST_CLOCK);
    expect("due after 2^40", &one, call_of(RELEASE, 0, 1), JYRMEKKO_DUE_TOO_LATE, 0, 0);
    set(&one, &one.wanted.clock, LAST_CLOCK - 1);
    expect("the last tick", &one, call_of(TICK, 0, 0), JYRMEKKO_TAKEN, 0, 1);
    expect("no tick after it", &one, call_of(TICK, 0, 0), JYRMEKKO_TIME_TOO_LATE, 0, 0);
    expect("no release after it", &one, call_of(RELEASE, 0, 1), JYRMEKKO_DUE_TOO_LATE, 0, 0);
    expect("an end after it", &one, call_of(END, 0, 0), JYRMEKKO_ENDED, 0, 0);
    expect("no tick after it, with nothing pending", &one, call_of(TICK, 0, 0), JYRMEKKO_TIME_TOO_LATE, 0, 0);
    set(&one, &one.wanted.clock, LAST_CLOCK + 1);
    expect("a clock above 2^40", &one, call_of(TICK, 0, 0), JYRMEKKO_RUN_NOT_SOUND, 0, 0);
}

/* ---- tables that are refused */

struct refused_table {
    uint8_t bytes[16];
    size_t length;
    uint32_t status;
    uint64_t place;
};

static const struct refused_table refused_tables[] = {
    {{0}, 0, JYRMEKKO_MISSPELLED, 0},
    {{0, 1, 0}, 3, JYRMEKKO_MISSPELLED, 3},
    {{0, 1, 0x80, 0x00}, 4, JYRMEKKO_MISSPELLED, 3},
    {{0, 1, JYRMEKKO_MOST_ROWS + 1}, 3, JYRMEKKO_TOO_MANY_ROWS, 2},
    {{0, 1, 1, 1, 2, 6, 1, JYRMEKKO_MOST_SERVERS + 1}, 8, JYRMEKKO_TOO_MANY_ROWS, 7},
    {{1, 1, 0, 0}, 4, JYRMEKKO_VALUE_OUT_OF_RANGE, 0},
    {{0, 0, 0, 0}, 4, JYRMEKKO_VALUE_OUT_OF_RANGE, 1},
    {{0, 1, 0, 1, 4, 3}, 6, JYRMEKKO_VALUE_OUT_OF_RANGE, 5},
    {{0, 1, 1, 1, 2, 6, 1, 0, 0}, 9, JYRMEKKO_EXTRA_BYTES, 8},
    {{0, 1, 2, 1, 0xF5, 0x08, 1, 1, 1, 0x97, 0x07, 2, 1, 0}, 14, JYRMEKKO_PERIOD_TOO_LONG, 14},
    {{0, 1, 1, 1, 4, 4, 5, 0}, 8, JYRMEKKO_HOPELESS_ROW, 6},
};

static void check_refused(const char *name, uint32_t status, uint64_t place)
{
    fill(&one, UNTOUCHED);
    refuse_answers(name, &one, call_of(START, 0, 0));
    expect(name, &one, call_of(START, 0, 0), status, place, 0);
    expect(name, &one, call_of(RELEASE, 0, 1), JYRMEKKO_NO_SUCH_ROW, 0, 0);
    expect(name, &one, call_of(END, 0, 0), JYRMEKKO_NOT_PENDING, 0, 0);
    expect(name, &one, call_of(TICK, 0, 0), JYRMEKKO_IDLE, 0, 0);
}

static void test_tables(void)
{
    static const uint8_t changes[] = {0x00, 0x01, 0x7F, 0x80, 0x81, 0xFF};
    static const uint8_t whole[] = {3, 0xAC, 0x02, 2, 64, 0x80, 0x20, 0x80, 0x80, 0x01, 0x80, 0x20,
                                    1, 6,    6,    3, 2,  1,    4,    2,    0x80, 0x02};
    uint8_t damaged[sizeof whole];
    unsigned started = 0, refused = 0;
    size_t i, j;
    char name[40];
    for (i = 0; i < COUNT(refused_tables); i++) {
        table = refused_tables[i].length > 0 ? refused_tables[i].bytes : NULL;
        table_len = refused_tables[i].length;
        sprintf(name, "refused table %u", (unsigned)i);
        check_refused(name, refused_tables[i].status, refused_tables[i].place);
    }
    table = damaged;
    for (i = 0; i <= sizeof whole; i++) {
        memcpy(damaged, whole, sizeof whole);
        table_len = i;
        fill(&one, 0xFF);
        hold("a table cut off", &one, call_of(START, 0, 0));
        table_len = sizeof whole;
        for (j = 0; i < sizeof whole && j < COUNT(changes); j++) {
            damaged[i] = changes[j];
            if (hold("a damaged table", &one, call_of(START, 0, 0)).status == JYRMEKKO_STARTED) {
                started++;
            } else {
                refused++;
            }
        }
    }
    printf("damaged tables: %u started, %u refused\n", started, refused);
    check(started > 10 && refused > 10, "damaged tables", "number of cases");
}

/* ---- memory that is no sound run */

/* A busy run: rows with some and with all due times kept, servers, a timer, jobs pending, finished and ended. */
static void make_busy(struct pair *pair)
{
    static const uint8_t busy[] = {1, 4, 2, 2, 8, 8, 2, 3, 12, 20, 3, 2, 1, 8, 2, 24};
    unsigned i;
    start("a busy run", pair, busy, sizeof busy);
    for (i = 0; i < 13; i++) {
        hold("a busy run", pair, call_of(RELEASE, i % 4, i % 2 + 1));
        hold("a busy run", pair, call_of(i % 5 == 4 ? END : TICK, i - 1, 0));
    }
}

/* A run in which every word counts: all rows, servers, places and kept due times are in use. */
static void make_full(struct pair *pair)
{
    static uint8_t most[MOST_TABLE];
    unsigned i, k;
    start("a full run", pair, most, spell_most(most, 64, 4));
    for (i = 0; i < JYRMEKKO_MOST_PENDING; i++) {
        hold("a full run", pair, call_of(RELEASE, i % (JYRMEKKO_MOST_ROWS + JYRMEKKO_MOST_SERVERS), 2));
        if (i % 16 == 0) {
            hold("a full run", pair, call_of(TICK, 0, 0));
        }
    }
    for (i = 0; i < JYRMEKKO_MOST_ROWS; i++) {
        for (k = 0; k < MOST_X; k++) {
            set(pair, &pair->wanted.kept[i].due[k], 16384 + i + k);
        }
        set(pair, &pair->wanted.kept[i].count, MOST_X);
    }
    hold("a full run", pair, call_of(RELEASE, 0, 2));
}

static void refuse_run(const char *name, struct pair *pair)
{
    enum kind kind;
    for (kind = RELEASE; kind <= END; kind = (enum kind)(kind + 1)) {
        refuse_answers(name, pair, call_of(kind, 0, 1));
        expect(name, pair, call_of(kind, 0, 1), JYRMEKKO_RUN_NOT_SOUND, 0, 0);
    }
}

static void test_garbage(void)
{
    static const int bytes[] = {0x00, 0x01, 0x5A, 0x7F, 0x80, 0xA5, 0xFF};
    static const uint8_t row[] = {0, 1, 1, 1, 4, 4, 2, 0};
    char name[40];
    size_t i, j;
    for (i = 0; i < COUNT(bytes); i++) {
        sprintf(name, "a run of bytes %02X", (unsigned)bytes[i]);
        fill(&one, bytes[i]);
        refuse_run(name, &one);
    }
    for (i = 0; i < 20; i++) {
        for (j = 0; j < RUN_WORDS; j++) {
            set(&one, (const uint64_t *)&one.wanted + j, some(65536) << 48 | some(65536) << 32 | some(65536) << 16 | some(65536));
        }
        refuse_run("a run of any bytes", &one);
    }
    table = row;
    table_len = sizeof row;
    expect("a start on any bytes", &one, call_of(START, 0, 0), JYRMEKKO_STARTED, 0, 0);
    for (i = 0; i < 4; i++) {
        refuse_answers("a sound run", &one, call_of((enum kind)i, 0, 1));
    }
}

/* Changes each word of a run, one at a time, and makes calls. Returns how many of them are refused with 11. */
static unsigned change_words(const char *name, const struct pair *whole)
{
    static const uint64_t values[] = {0, 1, 3, (uint64_t)1 << 40, ((uint64_t)1 << 40) + 1, UINT64_MAX};
    size_t step = few ? 97 : 1, i, v;
    unsigned refused = 0;
    for (i = 0; i < RUN_WORDS; i += step) {
        for (v = 0; v <= COUNT(values); v++) {
            enum kind kind = (enum kind)(RELEASE + (i + v) % 3);
            const uint64_t *word = (const uint64_t *)&one.wanted + i;
            memcpy(&one, whole, sizeof one);
            set(&one, word, v < COUNT(values) ? values[v] : *word + 1);
            refused += hold(name, &one, call_of(kind, kind == END ? one.wanted.job[1].serial : 1, 1)).status
                == JYRMEKKO_RUN_NOT_SOUND;
        }
    }
    return refused;
}

static void test_words(void)
{
    unsigned busy, full;
    make_busy(&other);
    busy = change_words("a word of a busy run changed", &other);
    make_full(&other);
    full = change_words("a word of a full run changed", &other);
    printf("words changed: 11 comes %u times in a busy run, and %u times in a full one\n", busy, full);
    check(busy > 1 && full > busy, "words changed", "number of cases");
}

/* ---- calls that are made up */

enum { MOST_CALLS = 100 };

/* What the answers have said about a job, whose serial is its place in a list. */
struct told {
    uint64_t due, cost, given;
    int ended;
};

struct ledger {
    struct told jobs[MOST_CALLS];
    uint64_t count, clock;
};

/* Makes up a call. One in ten is likely to be refused. */
static struct call some_call(const struct rows *rows, const struct ledger *ledger)
{
    uint64_t row = some(rows->count + rows->servers) - 1, serial = some(ledger->count + 1) - 1;
    uint64_t cost = some(row < rows->count ? rows->cost[row] : 6);
    switch (some(10)) {
    case 1:
        return some(2) == 1 ? call_of(RELEASE, row + some(5), cost) : call_of(RELEASE, row, some(8) - 1);
    case 2:
        return call_of(END, serial, 0);
    case 3:
    case 4:
    case 5:
        return call_of(RELEASE, row, cost);
    default:
        return call_of(TICK, 0, 0);
    }
}

/* Returns what was told about the job with this serial, or about none where no job has it. */
static struct told *told_of(struct ledger *ledger, uint64_t serial)
{
    static struct told none;
    check(serial < ledger->count, "calls made up", "serial, which was never given out");
    return serial < ledger->count ? &ledger->jobs[serial] : &none;
}

/* Writes down what a tick has said. On a feasible table each job has had its cost by its due time, or was ended. */
static void note_tick(struct ledger *ledger, struct said said, int feasible)
{
    struct told *job;
    uint64_t i;
    ledger->clock++;
    if (said.status == JYRMEKKO_RAN || said.status == JYRMEKKO_FINISHED) {
        job = told_of(ledger, said.first);
        job->given++;
        check(!job->ended && (said.status == JYRMEKKO_FINISHED) == (job->given == job->cost), "calls made up", "units");
    }
    for (i = 0; feasible && i < ledger->count; i++) {
        job = &ledger->jobs[i];
        check(job->due != ledger->clock || job->ended || job->given == job->cost, "a feasible table", "job, which is late");
    }
    check(!feasible || said.second == 0, "a feasible table", "late count");
}

/* Writes down what a call has said. */
static void note(struct ledger *ledger, struct call call, struct said said, int feasible)
{
    struct told *job;
    if (call.kind == TICK) {
        note_tick(ledger, said, feasible);
    } else if (said.status == JYRMEKKO_ACCEPTED) {
        check(said.first == ledger->count, "calls made up", "serial");
        job = &ledger->jobs[ledger->count++];
        job->due = said.second;
        job->cost = call.second;
        job->given = 0;
        job->ended = 0;
    } else if (said.status == JYRMEKKO_ENDED) {
        job = told_of(ledger, call.first);
        check(said.first == job->given, "calls made up", "units of an ended job");
        job->ended = 1;
    }
}

/* Makes two runs change places in memory. Each goes on in its copy. */
static void change_places(struct pair *pairs[2])
{
    static struct pair kept;
    struct pair *first = pairs[0];
    memcpy(&kept, &one, sizeof one);
    memcpy(&one, &other, sizeof one);
    memcpy(&other, &kept, sizeof one);
    pairs[0] = pairs[1];
    pairs[1] = first;
}

/* Two runs take calls by turns, so that whatever a call did to the other run would show. */
static void test_made_up(void)
{
    unsigned cases = few ? 20 : 600, calls[40], feasible_tables = 0, i, k;
    memset(calls, 0, sizeof calls);
    for (i = 0; i < cases; i++) {
        struct pair *pairs[2] = {&one, &other};
        struct rows rows[2];
        struct ledger ledgers[2];
        uint8_t bytes[MOST_TABLE], answer[JYRMEKKO_ANSWER_SIZE];
        int feasible[2];
        memset(answer, UNTOUCHED, sizeof answer);
        for (k = 0; k < 2; k++) {
            some_table(&rows[k]);
            start("calls made up", pairs[k], bytes, spell_table(bytes, &rows[k]));
            feasible[k] = verdict(table, table_len, answer, sizeof answer) == JYRMEKKO_FEASIBLE;
            feasible_tables += feasible[k] ? 1 : 0;
            ledgers[k].count = 0;
            ledgers[k].clock = 0;
        }
        for (k = 0; k < MOST_CALLS; k++) {
            unsigned turn = (unsigned)some(2) - 1;
            struct call call = some_call(&rows[turn], &ledgers[turn]);
            struct said said = hold("calls made up", pairs[turn], call);
            note(&ledgers[turn], call, said, feasible[turn]);
            calls[said.status < COUNT(calls) ? said.status : 0]++;
            if (some(50) == 1) {
                change_places(pairs);
            }
        }
    }
    printf("calls made up: on %u feasible tables and %u overloaded ones; 34 to 39 came %u, %u, %u, %u, %u and %u times\n",
           feasible_tables, 2 * cases - feasible_tables, calls[34], calls[35], calls[36], calls[37], calls[38], calls[39]);
    for (i = JYRMEKKO_ACCEPTED; i <= JYRMEKKO_ENDED; i++) {
        check(calls[i] > cases, "calls made up", "number of cases");
    }
    check(calls[0] == 0 && feasible_tables > cases / 5, "calls made up", "number of cases");
}

int main(int words, char **word)
{
    few = words > 1 && strcmp(word[1], "few") == 0;
    test_memory();
    test_rows_and_timer();
    test_late();
    test_servers();
    test_ends();
    test_releases();
    test_last_tick();
    test_tables();
    test_garbage();
    test_words();
    test_made_up();
    printf("%u passed, %u failed\n", passed, failed);
    return failed != 0;
}
