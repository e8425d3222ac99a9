/*
 * The refusals that the rules want for a table and a script, worked out from the bytes alone (docs/RULES.md, 10.3 and
 * 10.4), a table's demand, by its definition (5.1, 5.3 and 5.16), and the due times of odd jobs (4.9). The tests compare
 * the two calls with it. It shares no code with the library or with the technician's program.
 */
#ifndef WANTED_H
#define WANTED_H

#include "jyrmekko.h"

/* How a number is spelled: it can be read, or it is refused for one of the causes in docs/RULES.md, 2.7 and 2.8. */
enum spelled { READABLE, ZERO_GROUP, SIXTH_GROUP, CUT_INSIDE, MISSING, SPELLED };

struct found {
    enum spelled spelled;
    uint64_t value;
    size_t place; /* The place right after a readable number, or else the place of the bad byte. */
};

static inline struct found find_number(const uint8_t *bytes, size_t length, size_t start)
{
    struct found found = {READABLE, 0, 0};
    size_t asking = 0, group;
    while (start + asking < length && bytes[start + asking] > 127) {
        asking++;
    }
    if (asking > 5) {
        found.spelled = SIXTH_GROUP;
        found.place = start + 5;
    } else if (start + asking == length) {
        found.spelled = asking > 0 ? CUT_INSIDE : MISSING;
        found.place = length;
    } else if (asking > 0 && bytes[start + asking] == 0) {
        found.spelled = ZERO_GROUP;
        found.place = start + asking;
    } else {
        for (group = asking + 1; group > 0; group--) {
            found.value = 128 * found.value + bytes[start + group - 1] % 128;
        }
        found.place = start + asking + 1;
    }
    return found;
}

/* A refusal that is wanted, or none, with status 0. */
struct wanted {
    uint32_t status;
    size_t place;
    enum spelled spelled; /* With 1 and 14 this is how the number is spelled. */
    size_t record;        /* In a script this is the start of the refused record. With none it is the length. */
};

static inline struct wanted wanted_at(uint32_t status, size_t place, enum spelled spelled, size_t record)
{
    struct wanted wanted = {status, place, spelled, record};
    return wanted;
}

/* The timer, the rows and the servers of a table that wants no refusal. */
struct rows {
    uint64_t s, p;
    uint64_t count;
    uint64_t x[JYRMEKKO_MOST_ROWS], y[JYRMEKKO_MOST_ROWS], due[JYRMEKKO_MOST_ROWS], cost[JYRMEKKO_MOST_ROWS];
    uint64_t servers;
    uint64_t a[JYRMEKKO_MOST_SERVERS], b[JYRMEKKO_MOST_SERVERS];
};

/*
 * Returns which of 1 to 3 is wanted for the server count that starts at this place, and for the servers after it. Where
 * none is wanted, *end is the place after the last server.
 */
static inline struct wanted wanted_of_servers(const uint8_t *table, size_t length, size_t start, struct rows *rows,
                                              size_t *end)
{
    enum { MOST_VALUE = 4096 };
    struct found found = find_number(table, length, start);
    size_t i;
    if (found.spelled != READABLE) {
        return wanted_at(JYRMEKKO_MISSPELLED, found.place, found.spelled, 0);
    }
    if (found.value > JYRMEKKO_MOST_SERVERS) {
        return wanted_at(JYRMEKKO_TOO_MANY_ROWS, start, READABLE, 0);
    }
    rows->servers = found.value;
    for (i = 0; i < rows->servers; i++) {
        start = found.place;
        found = find_number(table, length, start);
        if (found.spelled != READABLE) {
            return wanted_at(JYRMEKKO_MISSPELLED, found.place, found.spelled, 0);
        }
        rows->a[i] = found.value;
        if (rows->a[i] < 1 || rows->a[i] > MOST_VALUE) {
            return wanted_at(JYRMEKKO_VALUE_OUT_OF_RANGE, start, READABLE, 0);
        }
        start = found.place;
        found = find_number(table, length, start);
        if (found.spelled != READABLE) {
            return wanted_at(JYRMEKKO_MISSPELLED, found.place, found.spelled, 0);
        }
        rows->b[i] = found.value;
        if (rows->b[i] < rows->a[i] || rows->b[i] > MOST_VALUE) {
            return wanted_at(JYRMEKKO_VALUE_OUT_OF_RANGE, start, READABLE, 0);
        }
    }
    *end = found.place;
    return wanted_at(0, 0, READABLE, 0);
}

/* Returns which of 1 to 4 and 16 is wanted. 5 is left out. */
static inline struct wanted wanted_of_table(const uint8_t *table, size_t length, struct rows *rows)
{
    enum { VALUES = 4, MOST_P = 4096 };
    static const uint64_t most[VALUES] = {64, 4096, 16384, 4096};
    struct found found = find_number(table, length, 0);
    struct wanted wanted;
    size_t i, start, end = 0;
    rows->s = found.value;
    rows->p = 1;
    rows->count = 0;
    rows->servers = 0;
    if (found.spelled != READABLE) {
        return wanted_at(JYRMEKKO_MISSPELLED, found.place, found.spelled, 0);
    }
    start = found.place;
    found = find_number(table, length, start);
    if (found.spelled != READABLE) {
        return wanted_at(JYRMEKKO_MISSPELLED, found.place, found.spelled, 0);
    }
    rows->p = found.value;
    if (rows->p < 1 || rows->p > MOST_P) {
        return wanted_at(JYRMEKKO_VALUE_OUT_OF_RANGE, start, READABLE, 0);
    }
    if (rows->s >= rows->p) {
        return wanted_at(JYRMEKKO_VALUE_OUT_OF_RANGE, 0, READABLE, 0);
    }
    start = found.place;
    found = find_number(table, length, start);
    if (found.spelled != READABLE) {
        return wanted_at(JYRMEKKO_MISSPELLED, found.place, found.spelled, 0);
    }
    if (found.value > JYRMEKKO_MOST_ROWS) {
        return wanted_at(JYRMEKKO_TOO_MANY_ROWS, start, READABLE, 0);
    }
    rows->count = found.value;
    for (i = 0; i < VALUES * rows->count; i++) {
        uint64_t *const values[VALUES] = {rows->x, rows->y, rows->due, rows->cost};
        start = found.place;
        found = find_number(table, length, start);
        if (found.spelled != READABLE) {
            return wanted_at(JYRMEKKO_MISSPELLED, found.place, found.spelled, 0);
        }
        if (found.value < 1 || found.value > most[i % VALUES]) {
            return wanted_at(JYRMEKKO_VALUE_OUT_OF_RANGE, start, READABLE, 0);
        }
        values[i % VALUES][i / VALUES] = found.value;
        if (i % VALUES == VALUES - 1 && found.value > rows->due[i / VALUES]) {
            return wanted_at(JYRMEKKO_HOPELESS_ROW, start, READABLE, 0);
        }
    }
    wanted = wanted_of_servers(table, length, found.place, rows, &end);
    if (wanted.status == 0 && end < length) {
        return wanted_at(JYRMEKKO_EXTRA_BYTES, end, READABLE, 0);
    }
    return wanted;
}

/* Returns the least common multiple of a period and of some numbers, or 0 where it is above the limit. */
static inline uint64_t joined(uint64_t period, const uint64_t *numbers, uint64_t count)
{
    enum { LONGEST_PERIOD = 1048576 };
    uint64_t i, multiple;
    for (i = 0; i < count && period != 0; i++) {
        for (multiple = period; multiple % numbers[i] != 0;) {
            multiple += period;
        }
        period = multiple > LONGEST_PERIOD ? 0 : multiple;
    }
    return period;
}

/* Returns H of a table that none of 1 to 4 and 16 is wanted for (docs/RULES.md, 3.4), or 0 where it is above the limit. */
static inline uint64_t period_of(const struct rows *rows)
{
    return joined(joined(rows->p, rows->y, rows->count), rows->b, rows->servers);
}

/* Returns whether the timer takes the tick at this clock. */
static inline int is_taken(const struct rows *rows, uint64_t clock)
{
    return clock % rows->p < rows->s;
}

/* Returns how many ticks the timer takes of the first `length` ticks. */
static inline uint64_t taken_of(const struct rows *rows, uint64_t length)
{
    uint64_t rest = length % rows->p;
    return length / rows->p * rows->s + (rest < rows->s ? rest : rows->s);
}

/* Returns the demand of a table that wants no refusal in this length. */
static inline uint64_t demand_of(const struct rows *rows, uint64_t length)
{
    uint64_t sum = taken_of(rows, length);
    size_t i;
    for (i = 0; i < rows->count; i++) {
        if (length >= rows->due[i]) {
            sum += ((length - rows->due[i]) / rows->y[i] + 1) * rows->x[i] * rows->cost[i];
        }
    }
    for (i = 0; i < rows->servers; i++) {
        sum += rows->a[i] * length / rows->b[i];
    }
    return sum;
}

/* Returns when an odd job of this cost is due, released at this time. `last` is its server's last due time. */
static inline uint64_t odd_due(const struct rows *rows, uint64_t server, uint64_t time, uint64_t last, uint64_t cost)
{
    uint64_t start = time > last ? time : last, ticks = cost * rows->b[server] / rows->a[server];
    return start + ticks + (ticks * rows->a[server] < cost * rows->b[server] ? 1 : 0);
}

/* Returns which of 14, 10, 6 and 7 is wanted where no release before it is refused with 8 or 9. */
static inline struct wanted wanted_of_script(const uint8_t *script, size_t length, const struct rows *rows)
{
    enum { GAP, ROW, COST, NUMBERS };
    const uint64_t last_tick = (uint64_t)1 << 40, most_odd_cost = 4096;
    uint64_t time = 0, row = 0;
    size_t i, start = 0, record = 0;
    for (i = 0; i % NUMBERS != GAP || start < length; i++) {
        struct found found = find_number(script, length, start);
        if (i % NUMBERS == GAP) {
            record = start;
        }
        if (found.spelled != READABLE) {
            return wanted_at(JYRMEKKO_SCRIPT_MISSPELLED, found.place, found.spelled, record);
        }
        if (i % NUMBERS == GAP) {
            time += found.value;
            if (time > last_tick) {
                return wanted_at(JYRMEKKO_TIME_TOO_LATE, start, READABLE, record);
            }
        } else if (i % NUMBERS == ROW) {
            row = found.value;
            if (row >= rows->count + rows->servers) {
                return wanted_at(JYRMEKKO_NO_SUCH_ROW, start, READABLE, record);
            }
        } else if (found.value < 1 || found.value > (row < rows->count ? rows->cost[row] : most_odd_cost)) {
            return wanted_at(JYRMEKKO_COST_OUT_OF_RANGE, start, READABLE, record);
        }
        start = found.place;
    }
    return wanted_at(0, 0, READABLE, length);
}

#endif
