/*
 * The four calls on a live run as the rules want them (docs/RULES.md, 4, 6 and 9.9 to 9.16), on the words that the rules
 * say a run's memory has. The test of the live calls holds the library to it: the status, the two numbers, and the whole
 * memory afterwards. It shares no code with the library or with the technician's program.
 */
#ifndef LIVE_H
#define LIVE_H

#include "jyrmekko.h"

#include "wanted.h"

#include <string.h>

#define LAST_CLOCK ((uint64_t)1 << 40)

enum { MOST_X = 64, MOST_COST = 4096 };

/* The words of a run, in their order (9.16). */
struct live_row {
    uint64_t x, y, d, c;
};

struct live_server {
    uint64_t a, b;
};

struct live_job {
    uint64_t serial, row, release, due, cost, left;
};

struct live_kept {
    uint64_t due[MOST_X], count;
};

struct live {
    uint64_t s, p;
    struct live_row row[JYRMEKKO_MOST_ROWS];
    uint64_t rows;
    struct live_server server[JYRMEKKO_MOST_SERVERS];
    uint64_t servers;
    uint64_t clock;
    struct live_job job[JYRMEKKO_MOST_PENDING];
    uint64_t pending, next;
    struct live_kept kept[JYRMEKKO_MOST_ROWS];
    uint64_t last_due[JYRMEKKO_MOST_SERVERS];
    uint64_t ended;
};

/* What a call says: its status and the two numbers. */
struct said {
    uint32_t status;
    uint64_t first, second;
};

static inline struct said say(uint32_t status, uint64_t first, uint64_t second)
{
    struct said said = {status, first, second};
    return said;
}

/* ---- sound runs */

static inline int in_range(uint64_t value, uint64_t least, uint64_t most)
{
    return least <= value && value <= most;
}

/* Returns the most that a job of a row or server in use may cost. */
static inline uint64_t most_cost(const struct live *run, uint64_t row)
{
    return row < run->rows ? run->row[row].c : (uint64_t)MOST_COST;
}

static inline int rows_are_sound(const struct live *run)
{
    uint64_t i, k;
    if (run->rows > JYRMEKKO_MOST_ROWS) {
        return 0;
    }
    for (i = 0; i < run->rows; i++) {
        const struct live_row *row = &run->row[i];
        const struct live_kept *kept = &run->kept[i];
        if (!in_range(row->x, 1, MOST_X) || !in_range(row->y, 1, 4096) || !in_range(row->d, 1, 16384)
            || !in_range(row->c, 1, MOST_COST) || row->c > row->d || kept->count > row->x) {
            return 0;
        }
        for (k = 0; k < kept->count; k++) {
            if (kept->due[k] > LAST_CLOCK) {
                return 0;
            }
        }
    }
    return 1;
}

static inline int servers_are_sound(const struct live *run)
{
    uint64_t i;
    if (run->servers > JYRMEKKO_MOST_SERVERS) {
        return 0;
    }
    for (i = 0; i < run->servers; i++) {
        if (!in_range(run->server[i].a, 1, 4096) || !in_range(run->server[i].b, run->server[i].a, 4096)
            || run->last_due[i] > LAST_CLOCK) {
            return 0;
        }
    }
    return 1;
}

static inline int jobs_are_sound(const struct live *run)
{
    uint64_t i, j;
    if (run->pending > JYRMEKKO_MOST_PENDING) {
        return 0;
    }
    for (i = 0; i < run->pending; i++) {
        const struct live_job *job = &run->job[i];
        if (job->row >= run->rows + run->servers || job->release > run->clock
            || !in_range(job->cost, 1, most_cost(run, job->row)) || !in_range(job->left, 1, job->cost)
            || job->due > LAST_CLOCK || job->serial >= run->next) {
            return 0;
        }
        for (j = 0; j < i; j++) {
            if (run->job[j].serial == job->serial) {
                return 0;
            }
        }
    }
    return 1;
}

/* Returns whether a run is sound (6.20 to 6.24). */
static inline int is_sound(const struct live *run)
{
    return in_range(run->p, 1, 4096) && run->s < run->p && rows_are_sound(run) && servers_are_sound(run)
        && run->clock <= LAST_CLOCK && jobs_are_sound(run) && run->ended <= LAST_CLOCK
        && run->next <= run->clock + run->pending + run->ended;
}

/* ---- the four calls */

/* Starts a run on a table's bytes. */
static inline struct said live_start(struct live *run, const uint8_t *table, size_t length)
{
    struct rows rows;
    struct wanted wanted = wanted_of_table(table, length, &rows);
    size_t i;
    memset(run, 0, sizeof *run);
    run->p = 1;
    if (wanted.status != 0) {
        return say(wanted.status, wanted.place, 0);
    }
    if (period_of(&rows) == 0) {
        return say(JYRMEKKO_PERIOD_TOO_LONG, length, 0);
    }
    run->s = rows.s;
    run->p = rows.p;
    run->rows = rows.count;
    for (i = 0; i < rows.count; i++) {
        run->row[i].x = rows.x[i];
        run->row[i].y = rows.y[i];
        run->row[i].d = rows.due[i];
        run->row[i].c = rows.cost[i];
    }
    run->servers = rows.servers;
    for (i = 0; i < rows.servers; i++) {
        run->server[i].a = rows.a[i];
        run->server[i].b = rows.b[i];
    }
    return say(JYRMEKKO_STARTED, 0, 0);
}

/* Returns when the next job of a row or server in use is due (4.2, 4.3 and 4.9). */
static inline uint64_t next_due(const struct live *run, uint64_t row, uint64_t cost)
{
    uint64_t due, other;
    if (row < run->rows) {
        const struct live_kept *kept = &run->kept[row];
        due = run->clock + run->row[row].d;
        other = kept->count == run->row[row].x ? kept->due[0] + run->row[row].y : 0;
    } else {
        const struct live_server *server = &run->server[row - run->rows];
        uint64_t ticks = (cost * server->b + server->a - 1) / server->a;
        due = run->clock + ticks;
        other = run->last_due[row - run->rows] + ticks;
    }
    return due > other ? due : other;
}

/* Keeps a due time for its row, or as its server's last one. */
static inline void keep_due(struct live *run, uint64_t row, uint64_t due)
{
    struct live_kept *kept;
    if (row >= run->rows) {
        run->last_due[row - run->rows] = due;
        return;
    }
    kept = &run->kept[row];
    if (kept->count == run->row[row].x) {
        kept->count--;
        memmove(kept->due, kept->due + 1, (size_t)kept->count * sizeof kept->due[0]);
    }
    kept->due[kept->count++] = due;
}

static inline struct said live_release(struct live *run, uint64_t row, uint64_t cost)
{
    struct live_job *job;
    uint64_t due;
    if (!is_sound(run)) {
        return say(JYRMEKKO_RUN_NOT_SOUND, 0, 0);
    }
    if (row >= run->rows + run->servers) {
        return say(JYRMEKKO_NO_SUCH_ROW, 0, 0);
    }
    if (!in_range(cost, 1, most_cost(run, row))) {
        return say(JYRMEKKO_COST_OUT_OF_RANGE, 0, 0);
    }
    if (run->pending == JYRMEKKO_MOST_PENDING) {
        return say(JYRMEKKO_PLACES_FULL, 0, 0);
    }
    due = next_due(run, row, cost);
    if (due > LAST_CLOCK) {
        return say(JYRMEKKO_DUE_TOO_LATE, 0, 0);
    }
    job = &run->job[run->pending++];
    job->serial = run->next++;
    job->row = row;
    job->release = run->clock;
    job->due = due;
    job->cost = cost;
    job->left = cost;
    keep_due(run, row, due);
    return say(JYRMEKKO_ACCEPTED, job->serial, due);
}

/* Takes the job at this place out. Later jobs move down, and the place that this frees holds zeros. */
static inline void take_out(struct live *run, uint64_t place)
{
    run->pending--;
    memmove(run->job + place, run->job + place + 1, (size_t)(run->pending - place) * sizeof run->job[0]);
    memset(run->job + run->pending, 0, sizeof run->job[0]);
}

static inline struct said live_tick(struct live *run)
{
    struct said said = {JYRMEKKO_IDLE, 0, 0};
    uint64_t i, chosen = 0;
    if (!is_sound(run)) {
        return say(JYRMEKKO_RUN_NOT_SOUND, 0, 0);
    }
    if (run->clock == LAST_CLOCK) {
        return say(JYRMEKKO_TIME_TOO_LATE, 0, 0);
    }
    if (run->clock % run->p < run->s) {
        said.status = JYRMEKKO_TAKEN;
    } else if (run->pending > 0) {
        for (i = 1; i < run->pending; i++) {
            const struct live_job *job = &run->job[i], *best = &run->job[chosen];
            if (job->due < best->due || (job->due == best->due && job->serial < best->serial)) {
                chosen = i;
            }
        }
        said.status = JYRMEKKO_RAN;
        said.first = run->job[chosen].serial;
        if (--run->job[chosen].left == 0) {
            said.status = JYRMEKKO_FINISHED;
            take_out(run, chosen);
        }
    }
    run->clock++;
    for (i = 0; i < run->pending; i++) {
        said.second += run->job[i].due == run->clock;
    }
    return said;
}

static inline struct said live_end(struct live *run, uint64_t serial)
{
    uint64_t place = 0, given;
    if (!is_sound(run)) {
        return say(JYRMEKKO_RUN_NOT_SOUND, 0, 0);
    }
    while (place < run->pending && run->job[place].serial != serial) {
        place++;
    }
    if (place == run->pending) {
        return say(JYRMEKKO_NOT_PENDING, 0, 0);
    }
    if (run->ended == LAST_CLOCK) {
        return say(JYRMEKKO_TOO_MANY_ENDED, 0, 0);
    }
    given = run->job[place].cost - run->job[place].left;
    take_out(run, place);
    run->ended++;
    return say(JYRMEKKO_ENDED, given, 0);
}

#endif
