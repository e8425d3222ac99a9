/*
 * The library's calls, tampered with in the one way that the environment variable TAMPER names, to show that a test sees
 * it. A program that is to be tampered with is linked with this file and with a --wrap of each call (c/checks.sh).
 */
#include "jyrmekko.h"

#include <stdbool.h>
#include <stdlib.h>
#include <string.h>

uint32_t __real_verdict(const uint8_t *, size_t, uint8_t *, size_t);
uint32_t __wrap_verdict(const uint8_t *, size_t, uint8_t *, size_t);
uint32_t __real_replay(const uint8_t *, size_t, const uint8_t *, size_t, uint8_t *, size_t, uint8_t *, size_t);
uint32_t __wrap_replay(const uint8_t *, size_t, const uint8_t *, size_t, uint8_t *, size_t, uint8_t *, size_t);
uint32_t __real_run_start(const uint8_t *, size_t, struct jyrmekko_run *, uint8_t *, size_t);
uint32_t __wrap_run_start(const uint8_t *, size_t, struct jyrmekko_run *, uint8_t *, size_t);
uint32_t __real_run_release(struct jyrmekko_run *, uint64_t, uint64_t, uint8_t *, size_t);
uint32_t __wrap_run_release(struct jyrmekko_run *, uint64_t, uint64_t, uint8_t *, size_t);
uint32_t __real_run_tick(struct jyrmekko_run *, uint8_t *, size_t);
uint32_t __wrap_run_tick(struct jyrmekko_run *, uint8_t *, size_t);
uint32_t __real_run_end(struct jyrmekko_run *, uint64_t, uint8_t *, size_t);
uint32_t __wrap_run_end(struct jyrmekko_run *, uint64_t, uint8_t *, size_t);

enum { FIRST = 0, SECOND = 8 }; /* The answer's two numbers start here. */
enum { S, P, COUNT };           /* A table's first three numbers start here, where s and p have one group each. */

/* Any other name ends the program, since a test that tampers with nothing by mistake would show nothing. */
static bool tampering(const char *name)
{
    static const char *const names[] = {"nothing", "status", "status-and-place", "answer-past-its-end",
                                        "answer-beside-13", "second-number", "place", "answer-from-before",
                                        "table-written", "always-feasible", "log-before-its-start",
                                        "log-past-its-length", "log-kept", "log-cut", "log-too-long", "number-start",
                                        "byte-before", "byte-after", "end-for-byte", "fewer-rows", "fewer-places",
                                        "period-before-hopeless", "taken-left-out", "taken-given", "s-before-p",
                                        "old-spelling", "servers-left-out", "odd-due-early", "fewer-servers",
                                        "no-server-count", "period-let-through", "run-changed-at-13",
                                        "run-changed-at-11", "run-past-its-end", "run-not-all-written",
                                        "run-kept-by-a-refused-start", "refusal-of-0", "place-of-a-refusal",
                                        "live-answer-past-its-end", "tick-status", "numbers-swapped",
                                        "ran-for-finished", "idle-for-taken", "late-left-out", "late-added",
                                        "another-serial", "tick-left-out", "due-moved", "release-refused",
                                        "release-left-out", "units-left-for-given", "end-left-out"};
    const char *chosen = getenv("TAMPER");
    for (size_t i = 0; chosen != NULL && i < sizeof names / sizeof names[0]; i++)
        if (strcmp(chosen, names[i]) == 0)
            return strcmp(chosen, name) == 0;
    abort();
}

static bool is_refusal(uint32_t status)
{
    return status < JYRMEKKO_FEASIBLE || status > JYRMEKKO_LATE;
}

static bool has_most_rows(const uint8_t *table, size_t table_len)
{
    return table_len > COUNT && table[COUNT] == JYRMEKKO_MOST_ROWS;
}

/* Returns where the server count of a table starts, if its numbers are well spelled and its row count has one group. */
static size_t server_count_at(const uint8_t *table, size_t table_len)
{
    size_t at = 0, numbers = 0, before = COUNT + 1; /* So many numbers stand before the server count. */
    for (; at < table_len && numbers < before; at++)
        if (table[at] < 0x80 && numbers++ == COUNT)
            before += (size_t)4 * table[at];
    return at;
}

static bool has_most_servers(const uint8_t *table, size_t table_len)
{
    size_t at = server_count_at(table, table_len);
    return at < table_len && table[at] == JYRMEKKO_MOST_SERVERS;
}

/* Copies a table with bytes in front of it. The caller frees the copy. */
static uint8_t *copied(const uint8_t *front, size_t front_len, const uint8_t *table, size_t table_len)
{
    uint8_t *copy = malloc(front_len + table_len + 1);
    if (copy == NULL)
        abort();
    if (front_len > 0)
        memcpy(copy, front, front_len);
    if (table_len > 0)
        memcpy(copy + front_len, table, table_len);
    return copy;
}

/* Copies a table whose timer then takes no tick, where its s and p are good. */
static uint8_t *untimed(const uint8_t *table, size_t table_len)
{
    uint8_t *copy = copied(NULL, 0, table, table_len);
    if (table_len >= COUNT && table[S] < table[P] && table[P] < 0x80)
        copy[S] = 0;
    return copy;
}

/* Copies a table that has no server then. *length is the table's length before, and the copy's after. */
static uint8_t *without_servers(const uint8_t *table, size_t *length)
{
    uint8_t *copy = copied(NULL, 0, table, *length);
    size_t at = server_count_at(table, *length);
    if (at < *length) {
        copy[at] = 0;
        *length = at + 1;
    }
    return copy;
}

/* Copies a table whose good servers then give every tick, as far as each a and b has one group. */
static uint8_t *with_whole_servers(const uint8_t *table, size_t table_len)
{
    uint8_t *copy = copied(NULL, 0, table, table_len);
    for (size_t at = server_count_at(table, table_len) + 1; at + 1 < table_len; at += 2)
        if (copy[at] >= 1 && copy[at + 1] > copy[at] && copy[at + 1] < 0x80)
            copy[at + 1] = copy[at];
    return copy;
}

/* Reads a table in the spelling that has no server count too, and judges it. Returns whether that gives an answer. */
static bool judged_without_server_count(const uint8_t *table, size_t table_len, uint8_t *answer, uint32_t *status)
{
    uint8_t other[JYRMEKKO_ANSWER_SIZE];
    uint8_t *copy = copied(NULL, 0, table, table_len); /* The copy has room for one byte more. */
    copy[table_len] = 0;
    uint32_t judged = __real_verdict(copy, table_len + 1, other, sizeof other);
    free(copy);
    if (is_refusal(judged))
        return false;
    memcpy(answer, other, sizeof other);
    *status = judged;
    return true;
}

/* Reads a table in the spelling that has no timer too, and judges it. Returns whether that gives an answer. */
static bool judged_without_timer(const uint8_t *table, size_t table_len, uint8_t *answer, uint32_t *status)
{
    static const uint8_t no_timer[COUNT] = {0, 1};
    uint8_t other[JYRMEKKO_ANSWER_SIZE];
    uint8_t *copy = copied(no_timer, COUNT, table, table_len);
    uint32_t judged = __real_verdict(copy, COUNT + table_len, other, sizeof other);
    free(copy);
    if (is_refusal(judged))
        return false;
    memcpy(answer, other, sizeof other);
    *status = judged;
    return true;
}

/* Answers a refusal at a place, where the answer buffer has its right length. */
static uint32_t refused(uint32_t status, size_t place, uint8_t *answer)
{
    memset(answer, 0, JYRMEKKO_ANSWER_SIZE);
    for (int i = FIRST; i < SECOND; i++, place >>= 8)
        answer[i] = (uint8_t)(place & 0xFF);
    return status;
}

/* Moves the place of 1 or 16 in the table, or of 14 in the script. TAMPER_STATUS says which of them is moved. */
static void move_place(uint32_t status, const uint8_t *bytes, size_t length, uint8_t *answer)
{
    const char *moved = getenv("TAMPER_STATUS");
    size_t place = 0;
    if (moved == NULL || strtoul(moved, NULL, 10) != status)
        return;
    for (int i = SECOND - 1; i >= FIRST; i--)
        place = place << 8 | answer[i];
    if (tampering("number-start"))
        while (place > 0 && bytes[place - 1] >= 0x80)
            place--;
    if (tampering("byte-before") && place > 0)
        place--;
    if (tampering("byte-after"))
        place++;
    if (tampering("end-for-byte"))
        place = length;
    for (int i = FIRST; i < SECOND; i++, place >>= 8)
        answer[i] = (uint8_t)(place & 0xFF);
}

/* Tampers in the ways that both calls have. `before` is the first byte of the answer buffer before the call. */
static uint32_t tampered(uint32_t status, const uint8_t *table, size_t table_len, uint8_t *answer, size_t answer_len,
                         uint8_t before)
{
    if (tampering("table-written") && table_len > 0)
        ((uint8_t *)table)[0] ^= 1;
    if (tampering("answer-beside-13") && status == JYRMEKKO_ANSWER_NOT_16_BYTES && answer_len > 0)
        answer[FIRST] ^= 1;
    if (status != JYRMEKKO_ANSWER_NOT_16_BYTES) {
        if (tampering("answer-past-its-end"))
            answer[JYRMEKKO_ANSWER_SIZE] ^= 1;
        if (tampering("answer-from-before"))
            answer[FIRST] ^= before & 1;
        if (tampering("second-number") && is_refusal(status))
            answer[SECOND] = 1;
        if (tampering("place") && is_refusal(status))
            answer[SECOND - 1] = 1;
        if (status == JYRMEKKO_MISSPELLED || status == JYRMEKKO_HOPELESS_ROW)
            move_place(status, table, table_len, answer);
        if (tampering("period-before-hopeless") && status == JYRMEKKO_HOPELESS_ROW)
            return refused(JYRMEKKO_PERIOD_TOO_LONG, table_len, answer);
        if (tampering("fewer-rows") && has_most_rows(table, table_len))
            return refused(JYRMEKKO_TOO_MANY_ROWS, COUNT, answer);
        if (tampering("fewer-servers") && has_most_servers(table, table_len))
            return refused(JYRMEKKO_TOO_MANY_ROWS, server_count_at(table, table_len), answer);
        if (tampering("s-before-p") && status == JYRMEKKO_VALUE_OUT_OF_RANGE && table[S] >= table[P])
            return refused(status, S, answer);
        if (tampering("status"))
            return (uint32_t)strtoul(getenv("TAMPER_STATUS"), NULL, 10);
        if (tampering("status-and-place"))
            return refused((uint32_t)strtoul(getenv("TAMPER_STATUS"), NULL, 10),
                           strtoul(getenv("TAMPER_PLACE"), NULL, 10), answer);
    }
    return status;
}

uint32_t __wrap_verdict(const uint8_t *table, size_t table_len, uint8_t *answer, size_t answer_len)
{
    uint8_t before = answer_len > 0 ? answer[FIRST] : 0;
    size_t judged_len = table_len;
    uint8_t *judged = tampering("taken-left-out")   ? untimed(table, table_len)
                    : tampering("servers-left-out") ? without_servers(table, &judged_len) : NULL;
    uint32_t status = __real_verdict(judged != NULL ? judged : table, judged_len, answer, answer_len);
    free(judged);
    if (tampering("no-server-count") && status == JYRMEKKO_MISSPELLED &&
        judged_without_server_count(table, table_len, answer, &status))
        return status;
    if (tampering("period-let-through") && status == JYRMEKKO_PERIOD_TOO_LONG) {
        memset(answer, 0, answer_len);
        return JYRMEKKO_FEASIBLE;
    }
    if (tampering("old-spelling") && status != JYRMEKKO_ANSWER_NOT_16_BYTES && is_refusal(status) &&
        judged_without_timer(table, table_len, answer, &status))
        return status;
    if (tampering("always-feasible") && status == JYRMEKKO_OVERLOADED) {
        memset(answer, 0, answer_len);
        return JYRMEKKO_FEASIBLE;
    }
    return tampered(status, table, table_len, answer, answer_len, before);
}

uint32_t __wrap_replay(const uint8_t *table, size_t table_len, const uint8_t *script, size_t script_len,
                       uint8_t *log, size_t log_len, uint8_t *answer, size_t answer_len)
{
    uint8_t before = answer_len > 0 ? answer[FIRST] : 0;
    uint8_t *played = tampering("taken-given")   ? untimed(table, table_len)
                    : tampering("odd-due-early") ? with_whole_servers(table, table_len) : NULL;
    uint32_t status = __real_replay(played != NULL ? played : table, table_len, script, script_len, log, log_len,
                                    answer, answer_len);
    free(played);
    if (status == JYRMEKKO_SCRIPT_MISSPELLED)
        move_place(status, script, script_len, answer);
    if (log_len > 0 && status != JYRMEKKO_ANSWER_NOT_16_BYTES) {
        if (tampering("log-before-its-start"))
            log[-1] ^= 1;
        if (tampering("log-kept") && is_refusal(status))
            log[log_len - 1] = 1;
        if (tampering("log-past-its-length") && !is_refusal(status))
            log[log_len - 1] ^= 1;
        if (tampering("log-cut") && !is_refusal(status))
            answer[FIRST]--;
        if (tampering("log-too-long") && !is_refusal(status))
            answer[SECOND - 1] = 1;
        if ((tampering("fewer-rows") && has_most_rows(table, table_len)) ||
            (tampering("fewer-servers") && has_most_servers(table, table_len)))
            memset(log, 0, log_len);
        if (tampering("fewer-places") && !is_refusal(status) && script_len == 3 * JYRMEKKO_MOST_PENDING) {
            memset(log, 0, log_len);
            return refused(JYRMEKKO_PLACES_FULL, 3 * (JYRMEKKO_MOST_PENDING - 1), answer);
        }
    }
    return tampered(status, table, table_len, answer, answer_len, before);
}

/* ---- the live calls */

enum { LAST_WORD = JYRMEKKO_RUN_SIZE / 8 - 1 };

/* Tampers in the ways that all live calls have. */
static uint32_t live_tampered(uint32_t status, struct jyrmekko_run *run, uint8_t *answer)
{
    if (status == JYRMEKKO_ANSWER_NOT_16_BYTES) {
        if (tampering("run-changed-at-13"))
            run->words[LAST_WORD] ^= 1;
        return status;
    }
    if (tampering("run-changed-at-11") && status == JYRMEKKO_RUN_NOT_SOUND)
        run->words[LAST_WORD] ^= 1;
    if (tampering("run-past-its-end"))
        ((volatile uint64_t *)run)[LAST_WORD + 1] ^= 1;
    if (tampering("live-answer-past-its-end"))
        answer[JYRMEKKO_ANSWER_SIZE] ^= 1;
    if (tampering("place-of-a-refusal") && status < JYRMEKKO_STARTED)
        answer[FIRST]++;
    if (tampering("refusal-of-0") && status < JYRMEKKO_STARTED)
        return 0;
    return status;
}

uint32_t __wrap_run_start(const uint8_t *table, size_t table_len, struct jyrmekko_run *run, uint8_t *answer,
                          size_t answer_len)
{
    uint64_t last_word = run->words[LAST_WORD], p = run->words[1];
    uint32_t status = __real_run_start(table, table_len, run, answer, answer_len);
    if (tampering("run-not-all-written"))
        run->words[LAST_WORD] = last_word;
    if (tampering("run-kept-by-a-refused-start") && status != JYRMEKKO_STARTED)
        run->words[1] = p;
    return live_tampered(status, run, answer);
}

uint32_t __wrap_run_release(struct jyrmekko_run *run, uint64_t row, uint64_t cost, uint8_t *answer, size_t answer_len)
{
    struct jyrmekko_run before = *run;
    uint32_t status = __real_run_release(run, row, cost, answer, answer_len);
    if (tampering("due-moved") && status == JYRMEKKO_ACCEPTED)
        answer[SECOND]++;
    if (tampering("release-left-out") && status == JYRMEKKO_ACCEPTED)
        *run = before;
    if (tampering("release-refused") && status == JYRMEKKO_ACCEPTED) {
        *run = before;
        return refused(JYRMEKKO_PLACES_FULL, 0, answer);
    }
    return live_tampered(status, run, answer);
}

uint32_t __wrap_run_tick(struct jyrmekko_run *run, uint8_t *answer, size_t answer_len)
{
    struct jyrmekko_run before = *run;
    uint32_t status = __real_run_tick(run, answer, answer_len);
    if (status < JYRMEKKO_STARTED)
        return live_tampered(status, run, answer);
    if (tampering("numbers-swapped"))
        for (int i = FIRST; i < SECOND; i++) {
            uint8_t first = answer[i];
            answer[i] = answer[i + SECOND];
            answer[i + SECOND] = first;
        }
    if (tampering("late-left-out"))
        answer[SECOND] = 0;
    if (tampering("late-added"))
        answer[SECOND]++;
    if (tampering("another-serial") && status != JYRMEKKO_IDLE && status != JYRMEKKO_TAKEN)
        answer[FIRST]++;
    if (tampering("tick-left-out"))
        *run = before;
    if (tampering("ran-for-finished") && status == JYRMEKKO_FINISHED)
        status = JYRMEKKO_RAN;
    if (tampering("idle-for-taken") && status == JYRMEKKO_TAKEN)
        status = JYRMEKKO_IDLE;
    if (tampering("tick-status"))
        status = (uint32_t)strtoul(getenv("TAMPER_STATUS"), NULL, 10);
    return live_tampered(status, run, answer);
}

uint32_t __wrap_run_end(struct jyrmekko_run *run, uint64_t serial, uint8_t *answer, size_t answer_len)
{
    struct jyrmekko_run before = *run;
    uint32_t status = __real_run_end(run, serial, answer, answer_len);
    if (tampering("units-left-for-given") && status == JYRMEKKO_ENDED)
        answer[FIRST]++;
    if (tampering("end-left-out") && status == JYRMEKKO_ENDED)
        *run = before;
    return live_tampered(status, run, answer);
}
