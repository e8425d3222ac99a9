/*
 * The inputs on which the tests of the stack make the calls: those that ask the most of them, and one for each refusal of
 * a table and for most refusals of a script.
 */
#ifndef STACK_INPUTS_H
#define STACK_INPUTS_H

#include "jyrmekko.h"

enum {
    MOST_ROWS = JYRMEKKO_MOST_ROWS,
    MOST_SERVERS = JYRMEKKO_MOST_SERVERS,
    MOST_PENDING = JYRMEKKO_MOST_PENDING,
    MOST_X = 64,
    MOST_TABLE = 6 * (4 + 4 * (MOST_ROWS + 1) + 2 * (MOST_SERVERS + 1)),
    MOST_SCRIPT = 3 * (MOST_ROWS + MOST_SERVERS) * (MOST_X + 1),
    MOST_INPUTS = 40
};

struct input {
    const char *name;
    uint8_t table[MOST_TABLE], script[MOST_SCRIPT];
    size_t table_len, script_len, log_len;
    uint32_t judged, replayed; /* verdict() and replay() have to return these statuses. */
};

static struct input inputs[MOST_INPUTS];
static size_t input_count;

/* A timer, so many equal rows, and so many equal servers. */
struct rows {
    unsigned s, p, count, x, y, d, c, servers, a, b;
};

/* So many jobs, of all rows and servers in turn, each with the same gap before it. */
struct jobs {
    unsigned count, gap;
};

static uint8_t *put(uint8_t *out, unsigned value)
{
    for (; value >= 128; value /= 128) {
        *out++ = (uint8_t)(value % 128 + 128);
    }
    *out++ = (uint8_t)value;
    return out;
}

static struct input *add(const char *name, struct rows rows, struct jobs jobs, uint32_t judged, uint32_t replayed)
{
    struct input *in = &inputs[input_count++];
    uint8_t *out = put(put(put(in->table, rows.s), rows.p), rows.count);
    unsigned i;
    for (i = 0; i < rows.count; i++) {
        out = put(put(put(put(out, rows.x), rows.y), rows.d), rows.c);
    }
    out = put(out, rows.servers);
    for (i = 0; i < rows.servers; i++) {
        out = put(put(out, rows.a), rows.b);
    }
    in->table_len = (size_t)(out - in->table);
    out = in->script;
    for (i = 0; i < jobs.count; i++) {
        out = put(put(put(out, jobs.gap), i % (rows.count + rows.servers)), 1);
    }
    in->script_len = (size_t)(out - in->script);
    in->log_len = JYRMEKKO_LOG_SIZE(in->script_len);
    in->name = name;
    in->judged = judged;
    in->replayed = replayed;
    return in;
}

static void add_inputs(void)
{
    static const struct rows none = {0, 1, 0, 0, 0, 0, 0, 0, 0, 0},
                             one_too_many = {0, 1, MOST_ROWS + 1, 1, 1, 1, 1, 0, 0, 0},
                             full = {0, 1, MOST_ROWS, 4, 256, 256, 1, 0, 0, 0},
                             late_witness = {0, 1, MOST_ROWS, 4, 252, 512, 1, 0, 0, 0},
                             hasty = {0, 1, MOST_ROWS, MOST_X, 1, 1, 1, 0, 0, 0},
                             most = {0, 1, MOST_ROWS, MOST_X, 4096, 16384, 4096, 0, 0, 0},
                             above = {0, 1, MOST_ROWS, MOST_X, 4096, 16384, 4097, 0, 0, 0},
                             short_numbers = {0, 1, MOST_ROWS, 1, 64, 1, 1, 0, 0, 0},
                             timed = {1, 2, MOST_ROWS, 4, 512, 512, 1, 0, 0, 0},
                             hardly_free = {4095, 4096, MOST_ROWS, MOST_X, 4096, 16384, 4096, 0, 0, 0},
                             bad_timer = {2, 2, MOST_ROWS, 4, 512, 512, 1, 0, 0, 0},
                             no_period = {0, 0, MOST_ROWS, 4, 512, 512, 1, 0, 0, 0};
    /* Servers alone may take every tick. Beside rows that take half of them, and a timer, they take the rest. */
    static const struct rows all_servers = {0, 1, 0, 0, 0, 0, 0, MOST_SERVERS, 512, 4096},
                             rows_and_servers = {1, 4, MOST_ROWS, 4, 512, 512, 1, MOST_SERVERS, 1, 32},
                             too_many_units = {1, 4, MOST_ROWS, 4, 512, 512, 1, MOST_SERVERS, 1, 31},
                             most_with_servers = {0, 1, MOST_ROWS, MOST_X, 4096, 16384, 4096, MOST_SERVERS, 4096, 4096},
                             servers_above = {0, 1, MOST_ROWS, 4, 512, 512, 1, MOST_SERVERS + 1, 1, 32},
                             b_below_a = {0, 1, MOST_ROWS, 4, 512, 512, 1, MOST_SERVERS, 33, 32},
                             a_above = {0, 1, MOST_ROWS, 4, 512, 512, 1, MOST_SERVERS, 4097, 4097};
    static const struct jobs no_job = {0, 0}, one_job = {1, 0}, all_places = {MOST_PENDING, 0},
                             one_job_too_many = {MOST_PENDING + 1, 0},
                             all_due_times_kept = {MOST_ROWS * (MOST_X + 1), 1},
                             all_kept_with_servers = {(MOST_ROWS + MOST_SERVERS) * (MOST_X + 1), 1};
    struct input *in;
    size_t i;
    add("no rows", none, no_job, JYRMEKKO_FEASIBLE, JYRMEKKO_IN_TIME);
    add("all rows, feasible, all places", full, all_places, JYRMEKKO_FEASIBLE, JYRMEKKO_IN_TIME);
    add("all rows, a late witness, all places", late_witness, all_places, JYRMEKKO_OVERLOADED, JYRMEKKO_IN_TIME);
    add("all rows, the largest x, all places", hasty, all_places, JYRMEKKO_OVERLOADED, JYRMEKKO_LATE);
    add("all rows, the largest values, all places", most, all_places, JYRMEKKO_OVERLOADED, JYRMEKKO_IN_TIME);
    in = add("all rows, the largest values, two units each", most, all_places, JYRMEKKO_OVERLOADED, JYRMEKKO_IN_TIME);
    for (i = 2; i < in->script_len; i += 3) {
        in->script[i] = 2;
    }
    add("all rows, the largest x, all due times kept", most, all_due_times_kept, JYRMEKKO_OVERLOADED, JYRMEKKO_IN_TIME);

    add("all rows, a timer, all places", timed, all_places, JYRMEKKO_FEASIBLE, JYRMEKKO_IN_TIME);
    add("all rows, one tick of 4096 free, all places", hardly_free, all_places, JYRMEKKO_OVERLOADED, JYRMEKKO_LATE);

    add("all servers, feasible, all places", all_servers, all_places, JYRMEKKO_FEASIBLE, JYRMEKKO_IN_TIME);
    add("all rows and servers, feasible, all places", rows_and_servers, all_places, JYRMEKKO_FEASIBLE, JYRMEKKO_IN_TIME);
    add("all rows and servers, overloaded, all places", too_many_units, all_places, JYRMEKKO_OVERLOADED, JYRMEKKO_IN_TIME);
    add("all rows and servers, the largest values, all due times kept", most_with_servers, all_kept_with_servers,
        JYRMEKKO_OVERLOADED, JYRMEKKO_IN_TIME);
    add("all servers, one job too many", all_servers, one_job_too_many, JYRMEKKO_FEASIBLE, JYRMEKKO_PLACES_FULL);
    in = add("no such server", rows_and_servers, all_places, JYRMEKKO_FEASIBLE, JYRMEKKO_NO_SUCH_ROW);
    in->script[in->script_len - 2] = MOST_ROWS + MOST_SERVERS;

    add("one job too many", full, one_job_too_many, JYRMEKKO_FEASIBLE, JYRMEKKO_PLACES_FULL);
    in = add("no room for the log", full, all_places, JYRMEKKO_FEASIBLE, JYRMEKKO_NO_ROOM);
    in->log_len = 0;
    in = add("the script is cut off", full, all_places, JYRMEKKO_FEASIBLE, JYRMEKKO_SCRIPT_MISSPELLED);
    in->script_len--;
    in = add("no such row", full, all_places, JYRMEKKO_FEASIBLE, JYRMEKKO_NO_SUCH_ROW);
    in->script[in->script_len - 2] = MOST_ROWS;
    in = add("cost out of range", full, all_places, JYRMEKKO_FEASIBLE, JYRMEKKO_COST_OUT_OF_RANGE);
    in->script[in->script_len - 1] = 2;

    add("s is not below p", bad_timer, one_job, JYRMEKKO_VALUE_OUT_OF_RANGE, JYRMEKKO_VALUE_OUT_OF_RANGE);
    add("p is 0", no_period, one_job, JYRMEKKO_VALUE_OUT_OF_RANGE, JYRMEKKO_VALUE_OUT_OF_RANGE);
    add("one row too many", one_too_many, one_job, JYRMEKKO_TOO_MANY_ROWS, JYRMEKKO_TOO_MANY_ROWS);
    add("value out of range", above, one_job, JYRMEKKO_VALUE_OUT_OF_RANGE, JYRMEKKO_VALUE_OUT_OF_RANGE);
    in = add("the last row is hopeless", hasty, one_job, JYRMEKKO_HOPELESS_ROW, JYRMEKKO_HOPELESS_ROW);
    in->table[in->table_len - 2] = 2;
    in = add("the table is cut off", most, one_job, JYRMEKKO_MISSPELLED, JYRMEKKO_MISSPELLED);
    in->table_len--;
    in = add("bytes after the table", most, one_job, JYRMEKKO_EXTRA_BYTES, JYRMEKKO_EXTRA_BYTES);
    in->table_len++;
    in = add("period too long", short_numbers, one_job, JYRMEKKO_PERIOD_TOO_LONG, JYRMEKKO_PERIOD_TOO_LONG);
    in->table[4] = 125;
    in->table[8] = 121;
    in->table[in->table_len - 4] = 127;
    add("one server too many", servers_above, one_job, JYRMEKKO_TOO_MANY_ROWS, JYRMEKKO_TOO_MANY_ROWS);
    add("b is below a", b_below_a, one_job, JYRMEKKO_VALUE_OUT_OF_RANGE, JYRMEKKO_VALUE_OUT_OF_RANGE);
    add("a is out of range", a_above, one_job, JYRMEKKO_VALUE_OUT_OF_RANGE, JYRMEKKO_VALUE_OUT_OF_RANGE);
    in = add("the last server is cut off", rows_and_servers, one_job, JYRMEKKO_MISSPELLED, JYRMEKKO_MISSPELLED);
    in->table_len--;
    in = add("bytes after the last server", rows_and_servers, one_job, JYRMEKKO_EXTRA_BYTES, JYRMEKKO_EXTRA_BYTES);
    in->table_len++;
}

#endif
