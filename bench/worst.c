/*
 * worst: how long each call of jyrmekko.h takes on the slowest inputs that were found for it. From the top of the
 * repository it is built and run so:
 *
 *     c/build worst worst "$(c/library)" -O2 && ./worst
 *
 * It prints one line for each input: the best time, the median, and the worst, in microseconds of processor time, of so
 * many calls as the word after its name says, or 1,000. Each call has to return the status that the input is about.
 * Otherwise the program says so and exits with 70, and else with 60.
 */
#define _XOPEN_SOURCE 700

#include "jyrmekko.h"

#include <inttypes.h>
#include <stdio.h>
#include <stdlib.h>
#include <string.h>
#include <time.h>

enum { DONE = 60, USAGE = 64, WRONG = 70, MOST_ROUNDS = 100000 };
enum { MOST_NUMBERS = 2 + 2 + 4 * JYRMEKKO_MOST_ROWS + 2 * JYRMEKKO_MOST_SERVERS, JOBS = 100000, MOST_X = 64 };

static uint8_t table[JYRMEKKO_NUMBER_SIZE * MOST_NUMBERS], script[3 * JYRMEKKO_NUMBER_SIZE * JOBS], answer[JYRMEKKO_ANSWER_SIZE];
static uint8_t log_buffer[JYRMEKKO_LOG_SIZE(sizeof script)];
static size_t table_len, script_len;
static struct jyrmekko_run prepared, run;
static double times[MOST_ROUNDS];
static size_t rounds = 1000;

/* ---- tables and scripts */

static void put(uint64_t value)
{
    table_len += jyrmekko_write_number(table + table_len, sizeof table - table_len, value);
}

static void put_row(uint64_t x, uint64_t y, uint64_t d, uint64_t c)
{
    put(x), put(y), put(d), put(c);
}

static void put_record(uint64_t gap, uint64_t row, uint64_t cost)
{
    uint64_t numbers[] = {gap, row, cost};
    for (int i = 0; i < 3; i++)
        script_len += jyrmekko_write_number(script + script_len, sizeof script - script_len, numbers[i]);
}

static void start_table(uint64_t s, uint64_t p, uint64_t rows)
{
    table_len = script_len = 0;
    put(s), put(p), put(rows);
}

/*
 * Rows that ask for one unit in every tick, so that no length has a tick to spare and each has to be looked at. Of every
 * m ticks each one belongs to a group of its own, and a group of q rows shares its ticks out among them.
 */
static void one_unit_a_tick(const unsigned *groups, unsigned m)
{
    uint64_t rows = 0;
    for (unsigned i = 0; i < m; i++)
        rows += groups[i];
    start_table(0, 1, rows);
    for (unsigned i = 0; i < m; i++)
        for (unsigned k = 0; k < groups[i]; k++)
            put_row(1, (uint64_t)m * groups[i], (uint64_t)m * k + i + 1, 1);
    put(0);
}

/* ---- times */

static double now(void)
{
    struct timespec time;
    clock_gettime(CLOCK_THREAD_CPUTIME_ID, &time);
    return (double)time.tv_sec * 1e6 + (double)time.tv_nsec / 1e3;
}

static int by_size(const void *one, const void *other)
{
    double a = *(const double *)one, b = *(const double *)other;
    return (a > b) - (a < b);
}

static uint32_t judge(void)
{
    return verdict(table, table_len, answer, sizeof answer);
}

static uint32_t play(void)
{
    return replay(table, table_len, script, script_len, log_buffer, sizeof log_buffer, answer, sizeof answer);
}

static uint32_t start(void)
{
    return run_start(table, table_len, &run, answer, sizeof answer);
}

static uint32_t release(void)
{
    return run_release(&run, 0, 1, answer, sizeof answer);
}

static uint32_t tick(void)
{
    return run_tick(&run, answer, sizeof answer);
}

static uint64_t first_serial; /* The job that was released first of those that are pending. */

static uint32_t end(void)
{
    return run_end(&run, first_serial, answer, sizeof answer);
}

/* Times a call so many times, each on a copy of the run that is prepared, and prints a line. */
static void measure(const char *call, const char *input, uint32_t (*made)(void), uint32_t wanted, size_t count)
{
    for (size_t i = 0; i < count; i++) {
        run = prepared;
        double before = now();
        uint32_t status = made();
        times[i] = now() - before;
        if (status != wanted) {
            fflush(stdout);
            fprintf(stderr, "worst: %s, %s: %" PRIu32 ", %s\n", call, input, status, jyrmekko_text(status));
            exit(WRONG);
        }
    }
    qsort(times, count, sizeof times[0], by_size);
    printf("| %s | %s | %.2f | %.2f | %.2f |\n", call, input, times[0], times[count / 2], times[count - 1]);
}

static void expect(uint32_t status, uint32_t wanted)
{
    if (status != wanted) {
        fprintf(stderr, "worst: a run can't be prepared: %" PRIu32 ", %s\n", status, jyrmekko_text(status));
        exit(WRONG);
    }
}

/* ---- the inputs */

static void measure_verdict(void)
{
    static const unsigned six[] = {5, 6, 8, 11, 14, 17}, five[] = {11, 12, 13, 7, 17};
    static const uint8_t few_divisors[] = {0, 1, 3, 1, 251, 7, 1, 1, 1, 251, 7, 163, 2, 1, 1, 253, 7, 216, 5, 2,
                                           2, 250, 3, 251, 7, 254, 3, 253, 7}; /* H is 1019 * 1021. */
    static const uint8_t late[] = {0, 1, 7, 1, 5, 27, 1, 1, 25, 48, 1, 1, 5, 27, 1, 1, 25, 45, 1, 1, 5, 24, 1, 1, 5, 21, 1,
                                   1, 25, 46, 1, 2, 34, 249, 8, 205, 1, 235, 31}; /* The sum of shares is 1 + 1/H. */
    one_unit_a_tick(six, 6);
    measure("verdict", "61 rows, one unit in every tick, H 942,480", judge, JYRMEKKO_FEASIBLE, rounds);
    one_unit_a_tick(five, 5);
    measure("verdict", "60 rows, one unit in every tick, H 1,021,020", judge, JYRMEKKO_FEASIBLE, rounds);
    memcpy(table, few_divisors, table_len = sizeof few_divisors);
    measure("verdict", "3 rows and 2 servers, H 1,040,399", judge, JYRMEKKO_FEASIBLE, rounds);
    memcpy(table, late, table_len = sizeof late);
    measure("verdict", "7 rows and 2 servers, a late witness", judge, JYRMEKKO_OVERLOADED, rounds);
}

/* Odd jobs that are due late wait in so many places, and after them each job goes before all of them. */
static void waiting(uint64_t places, uint64_t gap, uint64_t cost)
{
    for (uint64_t i = 0; i < places; i++)
        put_record(0, 1, JYRMEKKO_MOST_ODD_COST);
    for (uint64_t i = places; i < JOBS; i++)
        put_record(gap, 0, cost);
}

/* All places are taken at the start, and in each tick one job finishes and one comes, which goes behind all that wait. */
static void behind(void)
{
    for (uint64_t i = 0; i < JOBS; i++)
        put_record(i < JYRMEKKO_MOST_PENDING ? 0 : 1, 0, 1);
}

static void measure_replay(void)
{
    size_t count = rounds < 50 ? rounds : 50;
    start_table(0, 1, 1), put_row(64, 1, 1, 1), put(1), put(1), put(4096);
    waiting(0, 1, 1);
    measure("replay", "100,000 jobs, one at a time", play, JYRMEKKO_IN_TIME, count);
    start_table(0, 1, 1), put_row(1, 4096, 16384, 4096), put(1), put(1), put(4096);
    waiting(0, 4096, 4096);
    measure("replay", "100,000 jobs, one at a time, 4,096 units each", play, JYRMEKKO_IN_TIME, count);
    start_table(0, 1, 1), put_row(64, 1, 1, 1), put(1), put(1), put(4096);
    waiting(JYRMEKKO_MOST_PENDING - 1, 1, 1);
    measure("replay", "100,000 jobs, each before 255 that wait", play, JYRMEKKO_IN_TIME, count);
    start_table(0, 1, 1), put_row(64, 1, 16384, 1), put(0);
    behind();
    measure("replay", "100,000 jobs, each behind 255 that wait", play, JYRMEKKO_IN_TIME, count);
}

/* A run in which every row keeps as many due times as it can, and in which so many jobs are pending. */
static void prepare(uint64_t pending)
{
    expect(start(), JYRMEKKO_STARTED);
    for (uint64_t i = 0; i < JYRMEKKO_MOST_ROWS * MOST_X; i++) {
        expect(run_release(&run, i % JYRMEKKO_MOST_ROWS, 1, answer, sizeof answer), JYRMEKKO_ACCEPTED);
        expect(tick(), JYRMEKKO_FINISHED);
    }
    for (uint64_t i = 0; i < pending; i++) {
        expect(run_release(&run, i % (JYRMEKKO_MOST_ROWS + JYRMEKKO_MOST_SERVERS), 1, answer, sizeof answer), JYRMEKKO_ACCEPTED);
        if (i == 0)
            first_serial = jyrmekko_first(answer);
    }
    prepared = run;
}

static void measure_live(void)
{
    start_table(0, 1, JYRMEKKO_MOST_ROWS);
    for (int i = 0; i < JYRMEKKO_MOST_ROWS; i++)
        put_row(MOST_X, 4096, 16384, 4096);
    put(JYRMEKKO_MOST_SERVERS);
    for (int i = 0; i < JYRMEKKO_MOST_SERVERS; i++)
        put(1), put(4096);
    measure("run_start", "64 rows, 8 servers", start, JYRMEKKO_STARTED, rounds);
    prepare(1);
    measure("run_release", "1 job pending", release, JYRMEKKO_ACCEPTED, rounds);
    measure("run_tick", "1 job pending", tick, JYRMEKKO_FINISHED, rounds);
    measure("run_end", "1 job pending", end, JYRMEKKO_ENDED, rounds);
    prepare(JYRMEKKO_MOST_PENDING - 1);
    measure("run_release", "255 jobs pending", release, JYRMEKKO_ACCEPTED, rounds);
    prepare(JYRMEKKO_MOST_PENDING);
    measure("run_release", "256 jobs pending", release, JYRMEKKO_PLACES_FULL, rounds);
    measure("run_tick", "256 jobs pending", tick, JYRMEKKO_FINISHED, rounds);
    measure("run_end", "256 jobs pending", end, JYRMEKKO_ENDED, rounds);
}

int main(int words, char **word)
{
    if (words == 2)
        rounds = strtoul(word[1], NULL, 10);
    if (words > 2 || rounds == 0 || rounds > MOST_ROUNDS) {
        fprintf(stderr, "worst: it is used so: worst [ROUNDS], up to %d\n", MOST_ROUNDS);
        return USAGE;
    }
    puts("| call | input | best, µs | median, µs | worst, µs |");
    puts("|---|---|--:|--:|--:|");
    measure_verdict();
    measure_replay();
    measure_live();
    return fflush(stdout) == 0 ? DONE : WRONG;
}
