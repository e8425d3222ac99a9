/* What a log says, row by row: how many jobs there were, how many were late, and how near the others came to it. */
#include "commands.h"
#include "json.h"

#include <inttypes.h>
#include <string.h>

bool read_log_record(struct bytes log, size_t *at, uint64_t record[LOG_NUMBERS])
{
    if (*at == log.length)
        return false;
    for (size_t i = 0; i < LOG_NUMBERS; i++)
        if (!read_number(log, at, &record[i]))
            return false;
    return true;
}

/* What the log says about one row or server. */
struct played {
    uint64_t jobs;
    uint64_t late;
    uint64_t most_late;      /* The latest job finished so many ticks after its due time. */
    uint64_t least_slack;    /* The job that came nearest to its due time finished so many ticks before it. */
    uint64_t worst_response; /* The slowest job took so many ticks from its release to its finish. */
};

enum { MOST_KINDS = JYRMEKKO_MOST_ROWS + JYRMEKKO_MOST_SERVERS };

static void count_job(struct played *played, const uint64_t job[LOG_NUMBERS])
{
    uint64_t due = job[LOG_DUE], finish = job[LOG_FINISH], response = finish - job[LOG_RELEASE];
    if (finish > due) {
        played->late++;
        if (finish - due > played->most_late)
            played->most_late = finish - due;
    } else if (played->jobs == played->late || due - finish < played->least_slack) {
        played->least_slack = due - finish;
    }
    if (response > played->worst_response)
        played->worst_response = response;
    played->jobs++;
}

static void json_played(const struct played *played, size_t row, size_t row_count)
{
    json_begin(NULL, '{');
    json_number("row", row);
    if (row >= row_count)
        json_number("server", row - row_count);
    json_number("jobs", played->jobs);
    json_number("late", played->late);
    if (played->jobs > 0) {
        json_signed("least_slack", played->late > 0, played->late > 0 ? played->most_late : played->least_slack);
        json_number("worst_response", played->worst_response);
    }
    json_end();
}

enum { COLUMNS = 5 };
static const char *const heads[COLUMNS] = {"row", "jobs", "late", "least slack", "worst response"};

/* Makes the cells of one line. A row without jobs has no slack and no response: nothing was tested of it. */
static void fill_cells(char cells[COLUMNS][40], const struct played *played, size_t row, size_t row_count)
{
    if (row < row_count)
        snprintf(cells[0], sizeof cells[0], "%zu", row);
    else
        snprintf(cells[0], sizeof cells[0], "server %zu", row - row_count);
    snprintf(cells[1], sizeof cells[1], "%s", grouped(played->jobs));
    snprintf(cells[2], sizeof cells[2], "%s", grouped(played->late));
    strcpy(cells[3], "-");
    strcpy(cells[4], "-");
    if (played->late > 0)
        snprintf(cells[3], sizeof cells[3], "late by %s", grouped(played->most_late));
    else if (played->jobs > 0)
        snprintf(cells[3], sizeof cells[3], "%s", grouped(played->least_slack));
    if (played->jobs > 0)
        snprintf(cells[4], sizeof cells[4], "%s", grouped(played->worst_response));
}

void widen(int *width, const char *text)
{
    if ((int)strlen(text) > *width)
        *width = (int)strlen(text);
}

static void print_played(FILE *out, const struct played *played, size_t kinds, size_t row_count)
{
    char cells[COLUMNS][40];
    int widths[COLUMNS] = {0};
    for (size_t column = 0; column < COLUMNS; column++)
        widen(&widths[column], heads[column]);
    for (size_t row = 0; row < kinds; row++) {
        fill_cells(cells, &played[row], row, row_count);
        for (size_t column = 0; column < COLUMNS; column++)
            widen(&widths[column], cells[column]);
    }
    for (size_t line = 0; line <= kinds; line++) {
        if (line > 0)
            fill_cells(cells, &played[line - 1], line - 1, row_count);
        for (size_t column = 0; column < COLUMNS; column++)
            fprintf(out, "%s%*s", column > 0 ? "  " : "", widths[column], line > 0 ? cells[column] : heads[column]);
        fputc('\n', out);
    }
}

void say_summary(FILE *out, struct bytes log, const struct content *content)
{
    static struct played played[MOST_KINDS];
    uint64_t job[LOG_NUMBERS];
    size_t kinds = content->row_count + content->server_count;
    for (size_t at = 0; read_log_record(log, &at, job);)
        if (job[LOG_ROW] < kinds)
            count_job(&played[job[LOG_ROW]], job);
        else
            stop(RIG_NO_ANSWER, "the library's log has a job of row %" PRIu64 ", which is not in use", job[LOG_ROW]);
    if (as_json) {
        json_begin("rows", '[');
        for (size_t row = 0; row < kinds; row++)
            json_played(&played[row], row, content->row_count);
        json_end();
    } else {
        print_played(out, played, kinds, content->row_count);
    }
}
