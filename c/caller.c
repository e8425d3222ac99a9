#include "caller.h"

#include "jyrmekko.h"
#include "wanted.h"

#include <stdio.h>
#include <stdlib.h>
#include <string.h>

static void expect(bool kept, const char *rule)
{
    if (!kept) {
        fprintf(stderr, "rule broken: %s\n", rule);
        abort();
    }
}

/* A buffer to be written to. It stands between guards and is full of one byte, so that every byte written shows. */
struct lent {
    uint8_t *block;
    uint8_t *at; /* This is null for length 0. */
    size_t length;
    uint8_t fill;
};

enum { GUARD = 64, SCRIPT_NUMBERS = 3 };

static struct lent lend(size_t length, uint8_t fill)
{
    struct lent lent = {allocate(length + 2 * GUARD), NULL, length, fill};
    memset(lent.block, fill, length + 2 * GUARD);
    if (length > 0)
        lent.at = lent.block + GUARD;
    return lent;
}

/* Expects that at most the first `written` bytes were written to, and frees the buffer. */
static void take_back(struct lent lent, size_t written)
{
    size_t size = lent.length + 2 * GUARD;
    for (size_t i = 0; i < size; i++)
        if (i < GUARD || i >= GUARD + written)
            expect(lent.block[i] == lent.fill, "bytes that are not part of the answer or log stay as they were");
    free(lent.block);
}

/* Copies bytes to a block that ends with them, so that a memory checker sees any step past it. Length 0 is null. */
static struct bytes copy(struct bytes bytes)
{
    struct bytes copied = {NULL, bytes.length};
    if (bytes.length > 0)
        copied.at = memcpy(allocate(bytes.length), bytes.at, bytes.length);
    return copied;
}

static void expect_only_read(struct bytes lent, struct bytes original)
{
    expect(lent.length == 0 || memcmp(lent.at, original.at, lent.length) == 0, "table and script are only read");
    free(lent.at);
}

/* Takes the answer buffer back. With 13 nothing is written to it, and both numbers are given as 0. */
static struct answer read_answer(uint32_t status, struct lent buffer)
{
    struct answer answer = {status, 0, 0};
    bool refused = status == JYRMEKKO_ANSWER_NOT_16_BYTES;
    expect(refused == (buffer.length != JYRMEKKO_ANSWER_SIZE),
           "13 is answered exactly when the answer buffer is not 16 bytes long");
    if (!refused)
        answer = answer_of(status, buffer.at);
    take_back(buffer, refused ? 0 : JYRMEKKO_ANSWER_SIZE);
    return answer;
}

static bool same(struct answer one, struct answer other)
{
    return one.status == other.status && one.first == other.first && one.second == other.second;
}

static bool refuses_table(uint32_t status)
{
    return (status >= JYRMEKKO_MISSPELLED && status <= JYRMEKKO_PERIOD_TOO_LONG) || status == JYRMEKKO_HOPELESS_ROW;
}

static bool refuses_script(uint32_t status)
{
    return (status >= JYRMEKKO_NO_SUCH_ROW && status <= JYRMEKKO_TIME_TOO_LATE) ||
           status == JYRMEKKO_SCRIPT_MISSPELLED || status == JYRMEKKO_NO_ROOM;
}

static bool is_replayed(uint32_t status)
{
    return status == JYRMEKKO_IN_TIME || status == JYRMEKKO_LATE;
}

/* Expects the refusal of the table that the rules want, or none where they want none. */
static void expect_table_answer(struct answer answer, struct bytes table)
{
    struct rows rows;
    struct wanted wanted = wanted_of_table(table.at, table.length, &rows);
    if (refuses_table(answer.status))
        expect(answer.second == 0, "the second number beside a refusal is 0");
    if (answer.status == JYRMEKKO_PERIOD_TOO_LONG) {
        expect(wanted.status == 0, "1 to 4 and 16 come before 5");
        expect(answer.first == table.length, "the place of 5 is the table's length");
    } else {
        expect((refuses_table(answer.status) ? answer.status : 0) == wanted.status,
               "1 to 4 are answered exactly when their rules say, and so is 16");
    }
    if (wanted.status == 0)
        expect((answer.status == JYRMEKKO_PERIOD_TOO_LONG) == (period_of(&rows) == 0),
               "5 is answered exactly when H is above its limit");
    if (wanted.status == JYRMEKKO_MISSPELLED)
        expect(answer.first == wanted.place, "the place of 1 is the bad byte, or the table's length if it is cut off");
    else if (wanted.status != 0)
        expect(answer.first == wanted.place,
               "the place of 2, 3 and 16 is the number's start, that of 4 the first extra byte");
}

/*
 * Expects that the witness has the demand of its length, and that no length below it, or no length at all where there is
 * no witness, has more demand than length. Of these only the first are looked at, since there may be very many.
 */
static void expect_demand(struct answer answer, struct bytes table)
{
    enum { FIRST_LENGTHS = 200 };
    bool overloaded = answer.status == JYRMEKKO_OVERLOADED;
    struct rows rows;
    wanted_of_table(table.at, table.length, &rows);
    if (overloaded)
        expect(demand_of(&rows, answer.first) == answer.second, "the witness's demand is that of its length");
    for (uint64_t length = 1; length <= FIRST_LENGTHS && !(overloaded && length >= answer.first); length++)
        expect(demand_of(&rows, length) <= length,
               "no length below the witness, and none of a feasible table, has more demand than length");
}

static struct answer judge_once(struct bytes table, size_t answer_length, uint8_t fill)
{
    struct bytes lent = copy(table);
    struct lent buffer = lend(answer_length, fill);
    uint32_t status = verdict(lent.at, lent.length, buffer.at, buffer.length);
    expect(status == JYRMEKKO_FEASIBLE || status == JYRMEKKO_OVERLOADED || refuses_table(status) ||
               status == JYRMEKKO_ANSWER_NOT_16_BYTES,
           "a verdict's status is 20, 21, 1 to 5, 13 or 16");
    expect_only_read(lent, table);
    return read_answer(status, buffer);
}

static struct answer judge(struct bytes table)
{
    struct answer answer = judge_once(table, JYRMEKKO_ANSWER_SIZE, 0xA5);
    expect(same(answer, judge_once(table, JYRMEKKO_ANSWER_SIZE, 0x5A)), "a verdict depends on the table alone");
    judge_once(table, JYRMEKKO_ANSWER_SIZE - 1, 0xA5);
    judge_once(table, JYRMEKKO_ANSWER_SIZE + 1, 0xA5);
    judge_once(table, 0, 0xA5);
    if (answer.status == JYRMEKKO_FEASIBLE)
        expect(answer.first == 0 && answer.second == 0, "both numbers beside 20 are 0");
    else if (answer.status == JYRMEKKO_OVERLOADED)
        expect(answer.first >= 1 && answer.second > answer.first, "the witness's demand is above its length");
    expect_table_answer(answer, table);
    if (answer.status == JYRMEKKO_FEASIBLE || answer.status == JYRMEKKO_OVERLOADED)
        expect_demand(answer, table);
    return answer;
}

/*
 * Expects the refusal of the script that the rules want. Whether 8 or 9 is wanted is not worked out, nor whether the
 * clock comes to 2^40 after the last record. Only the places of these are looked at.
 */
static void expect_script_answer(struct answer answer, struct bytes table, struct bytes script)
{
    struct rows rows;
    wanted_of_table(table.at, table.length, &rows);
    struct wanted wanted = wanted_of_script(script.at, script.length, &rows);
    if (refuses_script(answer.status))
        expect(answer.second == 0, "the second number beside a refusal is 0");
    if (answer.status == JYRMEKKO_PLACES_FULL || answer.status == JYRMEKKO_DUE_TOO_LATE) {
        expect(answer.first < wanted.record, "the place of 8 and 9 is in a record before the first other refusal");
        struct bytes before = {script.at, (size_t)answer.first};
        if (answer.status == JYRMEKKO_PLACES_FULL)
            expect(count_numbers(before) / SCRIPT_NUMBERS >= JYRMEKKO_MOST_PENDING,
                   "8 is answered only after as many releases as jobs may be pending");
    } else if (wanted.status != 0) {
        expect(answer.status == wanted.status, "6, 7, 10 and 14 are answered exactly when their rules say");
        if (wanted.status == JYRMEKKO_SCRIPT_MISSPELLED)
            expect(answer.first == wanted.place,
                   "the place of 14 is the bad byte, or the script's length if it is cut off");
        else
            expect(answer.first == wanted.place, "the place of 6, 7 and 10 is the number's start");
    } else if (refuses_script(answer.status)) {
        expect(answer.status == JYRMEKKO_NO_ROOM || answer.status == JYRMEKKO_TIME_TOO_LATE,
               "6, 7 and 14 are answered exactly when their rules say");
        expect(answer.first == script.length, "the place of 12, and of 10 after all records, is the script's length");
    }
}

/* Expects that no more jobs were ever pending than may be. Releases are ordered by serial, and finishes by time. */
static void expect_places(const uint64_t *releases, const uint64_t *finishes, uint64_t jobs)
{
    uint64_t finished = 0;
    for (uint64_t serial = 0; serial < jobs; serial++) {
        while (finished < jobs && finishes[finished] <= releases[serial])
            finished++;
        expect(serial + 1 - finished <= JYRMEKKO_MOST_PENDING, "no more jobs are pending at a time than may be");
    }
}

static uint64_t free_between(const struct rows *rows, uint64_t start, uint64_t end)
{
    return end - start - (taken_of(rows, end) - taken_of(rows, start));
}

/* What a script says about a job. */
struct stated {
    uint64_t time;
    uint64_t row;
    uint64_t cost;
    uint64_t due; /* For an odd job this is its due time, and else it is 0. */
};

/* Reads the jobs of a script that is played. The caller frees them. */
static struct stated *stated_jobs(struct bytes script, const struct rows *rows, uint64_t jobs)
{
    struct stated *stated = allocate(jobs * sizeof *stated);
    uint64_t last[JYRMEKKO_MOST_SERVERS] = {0}, time = 0;
    size_t at = 0;
    for (uint64_t i = 0; i < jobs; i++) {
        uint64_t gap = 0;
        struct stated *job = &stated[i];
        expect(read_number(script, &at, &gap) && read_number(script, &at, &job->row) &&
                   read_number(script, &at, &job->cost), "a script that is played can be read");
        job->time = time += gap;
        job->due = 0;
        if (job->row >= rows->count) {
            uint64_t server = job->row - rows->count;
            expect(server < rows->servers, "a script that is played has row numbers in use only");
            job->due = last[server] = odd_due(rows, server, time, last[server], job->cost);
        }
    }
    return stated;
}

/* Expects one log record for each job, in the order of finishing, and as many late ones as the answer says. */
static void expect_log(struct bytes log, struct bytes table, struct bytes script, uint64_t late_answered)
{
    enum { SERIAL, ROW, RELEASE, DUE, FINISH, NUMBERS };
    uint64_t jobs = count_numbers(script) / SCRIPT_NUMBERS, records = 0, late = 0, last_finish = 0;
    uint64_t *releases = allocate(jobs * sizeof *releases), *finishes = allocate(jobs * sizeof *finishes);
    struct rows rows;
    size_t at = 0;
    wanted_of_table(table.at, table.length, &rows);
    struct stated *stated = stated_jobs(script, &rows, jobs);
    for (uint64_t i = 0; i < jobs; i++)
        releases[i] = UINT64_MAX;
    while (at < log.length) {
        uint64_t job[NUMBERS];
        for (int i = 0; i < NUMBERS; i++)
            expect(read_number(log, &at, &job[i]), "the log is whole records of well spelled numbers");
        expect(job[SERIAL] < jobs && releases[job[SERIAL]] == UINT64_MAX,
               "serials are below the number of jobs, and no two are equal");
        expect(job[ROW] == stated[job[SERIAL]].row && job[RELEASE] == stated[job[SERIAL]].time,
               "a job has the row number and the release that its script says");
        expect(job[RELEASE] < job[DUE] && job[RELEASE] < job[FINISH], "jobs are due, and finish, after their release");
        expect(stated[job[SERIAL]].due == 0 || job[DUE] == stated[job[SERIAL]].due,
               "an odd job is due by its cost, after its release and its server's last due time");
        expect(job[FINISH] > last_finish, "at most one job finishes in a tick");
        expect(!is_taken(&rows, job[FINISH] - 1), "no job finishes in a tick that is taken");
        expect(free_between(&rows, job[RELEASE], job[FINISH]) >= stated[job[SERIAL]].cost,
               "a job costs no more than the free ticks from its release to its finish");
        last_finish = job[FINISH];
        late += job[FINISH] > job[DUE];
        releases[job[SERIAL]] = job[RELEASE];
        finishes[records++] = job[FINISH];
    }
    expect(last_finish <= UINT64_C(1) << 40, "the clock is at most 2^40");
    expect(records == jobs, "each job of the script has its record in the log");
    expect_places(releases, finishes, jobs);
    free(releases);
    free(finishes);
    free(stated);
    expect(late == late_answered, "the answer counts as many late jobs as the log has");
}

/* Where `log` is not null and the replay is not refused, it gets a copy of the log. */
static struct answer replay_once(struct bytes table, struct bytes script, size_t log_length, size_t answer_length,
                                 uint8_t fill, struct bytes *log)
{
    struct bytes lent_table = copy(table), lent_script = copy(script);
    struct lent lent_log = lend(log_length, fill), buffer = lend(answer_length, fill);
    uint32_t status = replay(lent_table.at, lent_table.length, lent_script.at, lent_script.length,
                             lent_log.at, lent_log.length, buffer.at, buffer.length);
    expect(is_replayed(status) || refuses_table(status) || refuses_script(status) ||
               status == JYRMEKKO_ANSWER_NOT_16_BYTES,
           "a replay's status is 22, 23, 1 to 10, 12 to 14, or 16");
    struct answer answer = read_answer(status, buffer);
    size_t written = 0;
    if (is_replayed(status)) {
        expect(answer.first <= log_length, "the log fits its buffer");
        written = (size_t)answer.first;
        if (log != NULL)
            *log = copy((struct bytes){lent_log.at, written});
    } else if (status != JYRMEKKO_ANSWER_NOT_16_BYTES) {
        for (size_t i = 0; i < log_length; i++)
            expect(lent_log.at[i] == 0, "a refusal leaves zeros in the whole log buffer");
        written = log_length;
    }
    take_back(lent_log, written);
    expect_only_read(lent_table, table);
    expect_only_read(lent_script, script);
    return answer;
}

static struct answer replay_with(struct bytes table, struct bytes script, size_t log_length)
{
    struct bytes log = {NULL, 0}, again = {NULL, 0};
    struct answer answer = replay_once(table, script, log_length, JYRMEKKO_ANSWER_SIZE, 0xA5, &log);
    expect(same(answer, replay_once(table, script, log_length, JYRMEKKO_ANSWER_SIZE, 0x5A, &again)) &&
               (log.length == 0 || memcmp(log.at, again.at, log.length) == 0),
           "a replay depends on nothing that stood in the buffers before");
    if (is_replayed(answer.status)) {
        expect((answer.status == JYRMEKKO_IN_TIME) == (answer.second == 0),
               "22 is answered exactly when no job is late");
        expect_log(log, table, script, answer.second);
    }
    expect_table_answer(answer, table);
    if (!refuses_table(answer.status))
        expect_script_answer(answer, table, script);
    free(log.at);
    free(again.at);
    return answer;
}

/*
 * Returns how many lengths a search from 1 up has to look at, at most, before it has the verdict. For a table that is
 * refused this is 0. The rules promise that the verdict comes, and not how soon, so long searches are not tried here.
 */
static uint64_t search_of(struct bytes table)
{
    struct rows rows;
    if (wanted_of_table(table.at, table.length, &rows).status != 0)
        return 0;
    uint64_t period = period_of(&rows), longest = 0, spared = 0;
    if (period == 0)
        return 0;
    uint64_t per_period = rows.s * (period / rows.p);
    for (uint64_t i = 0; i < rows.servers; i++) {
        per_period += rows.a[i] * (period / rows.b[i]);
        spared += period; /* Less than one unit of a server's share is cut off by rounding. */
    }
    for (uint64_t i = 0; i < rows.count; i++) {
        uint64_t units = rows.x[i] * rows.cost[i] * (period / rows.y[i]);
        per_period += units;
        spared += units * rows.due[i];
        if (rows.due[i] > longest)
            longest = rows.due[i];
    }
    if (per_period <= period)
        return period + longest;
    /*
     * A row's demand in L is above units * (L - d) / period, a server's is above a * L / b - 1, and at least s * L / p
     * ticks of L are taken. So at this length L the table's demand is above L.
     */
    return spared / (per_period - period) + 1;
}

struct answers call_on(struct bytes table, struct bytes script, size_t log_length)
{
    enum { LONG_SEARCH = 1 << 21 };
    struct answer whole = replay_with(table, script, JYRMEKKO_LOG_SIZE(script.length));
    struct answer given = replay_with(table, script, log_length);
    struct answer judged = {0, 0, 0};
    expect(whole.status != JYRMEKKO_NO_ROOM, "no log is longer than ten times its script");
    if (is_replayed(whole.status) && log_length < whole.first)
        expect(given.status == JYRMEKKO_NO_ROOM, "12 is answered where only the log is longer than its buffer");
    else
        expect(same(given, whole), "the length of the log buffer decides about 12 only");
    replay_once(table, script, log_length, JYRMEKKO_ANSWER_SIZE - 1, 0xA5, NULL);
    replay_once(table, script, log_length, JYRMEKKO_ANSWER_SIZE + 1, 0xA5, NULL);
    if (search_of(table) < LONG_SEARCH) {
        judged = judge(table);
        if (refuses_table(judged.status) || refuses_table(whole.status))
            expect(same(judged, whole), "verdict and replay refuse the same tables, at the same place");
        if (judged.status == JYRMEKKO_FEASIBLE)
            expect(whole.status != JYRMEKKO_LATE, "on a feasible table no job is late");
    }
    return (struct answers){judged, whole};
}
