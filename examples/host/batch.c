/*
 * batch: judges a table, replays a script on it, and prints the log. It is built with the installed package:
 *
 *     cc batch.c $(pkg-config --cflags --libs jyrmekko) -o batch
 *     ./batch TABLE SCRIPT
 *
 * TABLE and SCRIPT are files of bytes, such as those of examples/ whose names end in .bytes. Where the verdict on the
 * table is anything but 20, the program does not start: it says what the verdict is, and exits with that number.
 * Otherwise it prints a line for each job, and exits with the status of the replay: 22 where all jobs are in time, 23
 * where one is late, or the refusal's number. All other exit statuses are no statuses of the library, and none is 0,
 * since silence is never a pass.
 */
#include <jyrmekko.h>

#include <errno.h>
#include <inttypes.h>
#include <stdarg.h>
#include <stdbool.h>
#include <stdio.h>
#include <stdlib.h>
#include <string.h>

enum {
    NOTHING = 61,    /* The script releases no job, so nothing was tested. */
    USAGE = 64,      /* The program is not used as it should be. */
    UNREADABLE = 66, /* A file can't be read. */
    NO_ANSWER = 70,  /* The library says something that it may not say, or is another one than the header's. */
    NO_MEMORY = 71,  /* There is not enough memory. */
    NOT_WRITTEN = 74 /* Standard output can't be written. */
};

static void stop(int status, const char *format, ...)
{
    va_list values;
    fflush(stdout);
    fputs("batch: ", stderr);
    va_start(values, format);
    vfprintf(stderr, format, values);
    va_end(values);
    fputc('\n', stderr);
    exit(status);
}

struct bytes {
    uint8_t *at;
    size_t length;
};

static uint8_t *resized(uint8_t *at, size_t size)
{
    uint8_t *resized = (uint8_t *)realloc(at, size > 0 ? size : 1);
    if (resized == NULL)
        stop(NO_MEMORY, "there is no memory for %zu bytes", size);
    return resized;
}

static struct bytes read_file(const char *path)
{
    struct bytes bytes = {NULL, 0};
    size_t room = 0;
    FILE *file = fopen(path, "rb");
    if (file == NULL)
        stop(UNREADABLE, "can't read %s: %s", path, strerror(errno));
    while (!feof(file)) {
        if (bytes.length == room) {
            room = room > 0 ? 2 * room : 4096;
            bytes.at = resized(bytes.at, room);
        }
        bytes.length += fread(bytes.at + bytes.length, 1, room - bytes.length, file);
        if (ferror(file))
            stop(UNREADABLE, "can't read %s: %s", path, strerror(errno));
    }
    fclose(file);
    return bytes;
}

/*
 * Says a status after which the program does not go on, with both numbers of the answer. The exit status is the same
 * number where that may be. Any other number could read as another answer, or as 0, and then it is NO_ANSWER.
 */
static void refuse(const char *call, uint32_t status, bool may_be, const uint8_t *answer)
{
    stop(may_be ? (int)status : NO_ANSWER, "%s says %" PRIu32 ", %s (%" PRIu64 " and %" PRIu64 ")", call, status,
         jyrmekko_text(status), jyrmekko_first(answer), jyrmekko_second(answer));
}

/* The refusals that verdict may give are those of a table, and 13. */
static bool refuses_table(uint32_t status)
{
    return (status >= JYRMEKKO_MISSPELLED && status <= JYRMEKKO_PERIOD_TOO_LONG) || status == JYRMEKKO_HOPELESS_ROW ||
           status == JYRMEKKO_ANSWER_NOT_16_BYTES;
}

/* The refusals that replay may give are these, and those of a script and of a log. */
static bool refuses_replay(uint32_t status)
{
    return refuses_table(status) || (status >= JYRMEKKO_NO_SUCH_ROW && status <= JYRMEKKO_TIME_TOO_LATE) ||
           status == JYRMEKKO_NO_ROOM || status == JYRMEKKO_SCRIPT_MISSPELLED;
}

/* How many jobs there are, and how many of them are late. */
struct counts {
    uint64_t jobs, late;
};

static struct counts print_log(struct bytes log)
{
    enum { SERIAL, ROW, RELEASE, DUE, FINISH, NUMBERS };
    struct counts counts = {0, 0};
    size_t at = 0;
    puts("serial  row  release  due  finish");
    while (at < log.length) {
        uint64_t job[NUMBERS];
        for (int i = 0; i < NUMBERS; i++)
            if (!jyrmekko_read_number(log.at, log.length, &at, &job[i]))
                stop(NO_ANSWER, "the log can't be read at byte %zu", at);
        bool is_late = job[FINISH] > job[DUE];
        printf("%" PRIu64 "  %" PRIu64 "  %" PRIu64 "  %" PRIu64 "  %" PRIu64 "%s\n", job[SERIAL], job[ROW], job[RELEASE],
               job[DUE], job[FINISH], is_late ? "  LATE" : "");
        counts.jobs++;
        counts.late += is_late;
    }
    return counts;
}

/* Returns how many records an accepted script has. Each has three numbers, and each number ends in one byte below 80. */
static uint64_t count_records(struct bytes script)
{
    uint64_t numbers = 0;
    for (size_t i = 0; i < script.length; i++)
        numbers += script.at[i] < 0x80;
    return numbers / 3;
}

int main(int words, char **word)
{
    uint8_t answer[JYRMEKKO_ANSWER_SIZE];
    if (words != 3)
        stop(USAGE, "it is used so: batch TABLE SCRIPT");
    if (jyrmekko_version_number() != JYRMEKKO_VERSION_NUMBER)
        stop(NO_ANSWER, "the header is version %s, and the library has the number %" PRIu32, JYRMEKKO_VERSION,
             jyrmekko_version_number());
    struct bytes table = read_file(word[1]), script = read_file(word[2]);

    uint32_t status = jyrmekko_verdict(table.at, table.length, answer, sizeof answer);
    if (status != JYRMEKKO_FEASIBLE)
        refuse("verdict", status, status == JYRMEKKO_OVERLOADED || refuses_table(status), answer);

    if (script.length > SIZE_MAX / JYRMEKKO_LOG_SIZE(1))
        stop(NO_MEMORY, "the log of so long a script can't be held in memory");
    struct bytes log = {NULL, JYRMEKKO_LOG_SIZE(script.length)};
    log.at = resized(NULL, log.length);
    status = jyrmekko_replay(table.at, table.length, script.at, script.length, log.at, log.length, answer, sizeof answer);
    if (status != JYRMEKKO_IN_TIME && status != JYRMEKKO_LATE)
        refuse("replay", status, refuses_replay(status), answer);
    if (jyrmekko_first(answer) > log.length)
        stop(NO_ANSWER, "replay says that its log is longer than the buffer");
    log.length = (size_t)jyrmekko_first(answer);
    if (script.length == 0)
        stop(NOTHING, "the script releases no job, so nothing was tested");

    struct counts counts = print_log(log);
    if (counts.jobs != count_records(script) || counts.late != jyrmekko_second(answer)
        || (counts.late > 0) != (status == JYRMEKKO_LATE))
        stop(NO_ANSWER, "replay says %" PRIu32 " with %" PRIu64 " late, and the log has %" PRIu64 " jobs, %" PRIu64 " late",
             status, jyrmekko_second(answer), counts.jobs, counts.late);
    printf("%" PRIu32 ", %s: %" PRIu64 " jobs, %" PRIu64 " late\n", status, jyrmekko_text(status), counts.jobs, counts.late);
    if (fflush(stdout) != 0 || ferror(stdout))
        stop(NOT_WRITTEN, "can't write to standard output: %s", strerror(errno));
    free(table.at), free(script.at), free(log.at);
    return (int)status;
}
