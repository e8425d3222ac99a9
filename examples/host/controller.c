/*
 * controller: a rig's controller, which keeps a live run. From the top of the repository it is built and run so:
 *
 *     cc -I include examples/host/controller.c c/jyrmekko.c "$(c/library)" -o controller && ./controller
 *
 * A field reading is released every 10 ticks, and two signal steps every 20. At tick 3 the host floods the rig with 300
 * messages. The readings are on time all the same, and the messages for which there is no place are refused aloud. The
 * reading of tick 50 comes early, and is ended.
 *
 * Where the library says anything that the controller does not expect, the rig stops: the controller says what it was,
 * and exits with 70. Otherwise it exits with 60. No exit status is 0, since silence is never a pass.
 */
#include "jyrmekko.h"

#include <inttypes.h>
#include <stdbool.h>
#include <stdio.h>
#include <stdlib.h>

enum { READING, STEP, MESSAGE }; /* The rows. */

static const uint8_t table[] = {
    1, 10,        /* The sampling timer takes the first tick of every 10. */
    3,            /* There are three rows: x executions in any y ticks, each due after d, at most c units. */
    1, 10, 5,  2, /* READING */
    2, 20, 20, 2, /* STEP */
    4, 40, 40, 5, /* MESSAGE */
    0             /* There is no server. */
};
static const uint64_t costs[] = {2, 2, 5};

enum { TICKS = 100, FLOOD_AT = 3, FLOOD = 300, EARLY_AT = 50, MOST_JOBS = TICKS + FLOOD, DONE = 60, STOPPED = 70 };

static struct jyrmekko_run run;
static uint8_t answer[JYRMEKKO_ANSWER_SIZE];
static uint64_t now;

/* What the answers have said about each job, by its serial. */
static struct job {
    uint64_t row, release, due, given;
    bool ended;
} jobs[MOST_JOBS];
static uint64_t job_count;
static unsigned readings_in_time, readings_ended;

static void stop(const char *what, uint64_t value)
{
    fflush(stdout);
    fprintf(stderr, "controller: THE RIG STOPS at tick %" PRIu64 ": %s %" PRIu64 "\n", now, what, value);
    exit(STOPPED);
}

static struct job *job_of(uint64_t serial)
{
    if (serial >= job_count)
        stop("no job was accepted with the serial", serial);
    return &jobs[serial];
}

/*
 * Releases a job, and returns the status. A message may be refused where no place is left. All jobs share the places, so
 * that could happen to a reading too, and then the rig stops: nobody takes its silence for a pass.
 */
static uint32_t release(uint64_t row)
{
    uint32_t status = run_release(&run, row, costs[row], answer, sizeof answer);
    if (status == JYRMEKKO_PLACES_FULL && row == MESSAGE)
        return status;
    if (status != JYRMEKKO_ACCEPTED)
        stop("run_release says", status);
    if (jyrmekko_first(answer) != job_count || job_count == MOST_JOBS)
        stop("run_release gives out the serial", jyrmekko_first(answer));
    jobs[job_count++] = (struct job){row, now, jyrmekko_second(answer), 0, false};
    return status;
}

/* The host's interrupt. */
static void on_messages(unsigned count)
{
    unsigned accepted = 0;
    for (unsigned i = 0; i < count; i++)
        if (release(MESSAGE) == JYRMEKKO_ACCEPTED)
            accepted++;
    printf("tick %2" PRIu64 ": %u messages come at once: %u are accepted, %u are REFUSED with %d, all %d places are in use\n",
           now, count, accepted, count - accepted, JYRMEKKO_PLACES_FULL, JYRMEKKO_MOST_PENDING);
}

/* The interrupt of a reading that is done before it has had its cost. */
static void on_early_reading(uint64_t serial)
{
    struct job *job = job_of(serial);
    uint32_t status = run_end(&run, serial, answer, sizeof answer);
    if (status != JYRMEKKO_ENDED)
        stop("run_end says", status);
    if (jyrmekko_first(answer) != job->given)
        stop("run_end counts so many units:", jyrmekko_first(answer));
    job->ended = true;
    readings_ended++;
    printf("tick %2" PRIu64 ": the reading of tick %" PRIu64 " came early, and is ended after %" PRIu64 " of %" PRIu64 " units\n",
           now, job->release, job->given, costs[READING]);
}

/* By now this job is due. */
static void expect_done(const struct job *job)
{
    if (!job->ended && job->given != costs[job->row])
        stop("a job is due that had only so many units:", job->given);
    readings_in_time += job->row == READING && !job->ended;
}

/* The timer's interrupt: the tick at the clock goes by. */
static void on_timer(void)
{
    uint32_t status = run_tick(&run, answer, sizeof answer);
    uint64_t serial = jyrmekko_first(answer), late = jyrmekko_second(answer);
    now++;
    if (status == JYRMEKKO_RAN || status == JYRMEKKO_FINISHED) {
        struct job *job = job_of(serial); /* A controller would now let this job go on for a tick. */
        if (job->ended)
            stop("run_tick gives a unit to an ended job, with the serial", serial);
        job->given++;
        if ((status == JYRMEKKO_FINISHED) != (job->given == costs[job->row]))
            stop("run_tick finishes a job at the wrong unit, and says", status);
        if (status == JYRMEKKO_FINISHED && job->row == READING)
            printf("tick %2" PRIu64 ": the reading of tick %" PRIu64 " is done, and was due at %" PRIu64 "\n", now,
                   job->release, job->due);
        else if (job->row == READING && job->release == EARLY_AT)
            on_early_reading(serial);
    } else if (status != JYRMEKKO_IDLE && status != JYRMEKKO_TAKEN) {
        stop("run_tick says", status);
    }
    if (late != 0)
        stop("so many jobs are late:", late);
    for (uint64_t i = 0; i < job_count; i++)
        if (jobs[i].due == now)
            expect_done(&jobs[i]);
}

int main(void)
{
    uint32_t status = verdict(table, sizeof table, answer, sizeof answer);
    if (status != JYRMEKKO_FEASIBLE)
        stop("verdict says", status);
    status = run_start(table, sizeof table, &run, answer, sizeof answer);
    if (status != JYRMEKKO_STARTED)
        stop("run_start says", status);
    while (now < TICKS) {
        if (now % 10 == 0)
            release(READING);
        if (now % 20 == 0)
            release(STEP), release(STEP);
        if (now == FLOOD_AT)
            on_messages(FLOOD);
        on_timer();
    }
    printf("%u readings had their units by their due time, and %u was ended early\n", readings_in_time, readings_ended);
    if (readings_in_time + readings_ended != TICKS / 10)
        stop("a reading is missing of", TICKS / 10);
    if (fflush(stdout) != 0)
        stop("this can't be printed, after ticks:", now);
    return DONE;
}
