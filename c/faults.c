/*
 * What a refusal refuses: the number that is out of its range, where it stands, and what it should be, in the order in
 * which the library tests (docs/RULES.md, 3.3 to 3.20, 7.5 and 10.3).
 */
#include "table.h"

#include <stdarg.h>

/* The number of a macro, as text. */
#define DIGITS(number) #number
#define TEXT_OF(macro) DIGITS(macro)

enum { LARGEST_P = 4096, RELEASE_NUMBERS = 3 };
static const uint64_t largest_of_row[] = {64, 4096, 16384, 4096}; /* These are the limits of x, y, d and c. */
static const char *const names_of_row[] = {"x", "y", "d", "c"};

/* Says what is wrong, after the name of what it is wrong with. */
__attribute__((format(printf, 2, 3)))
static void say(struct fault *fault, const char *format, ...)
{
    size_t length = 0;
    if (fault->of != NULL && fault->of[0] == 't')
        length = (size_t)snprintf(fault->says, sizeof fault->says, "the timer: ");
    else if (fault->of != NULL)
        length = (size_t)snprintf(fault->says, sizeof fault->says, "%s %s: ", fault->of, grouped(fault->number));
    va_list values;
    va_start(values, format);
    vsnprintf(fault->says + length, sizeof fault->says - length, format, values);
    va_end(values);
}

/* Starts a fault of a number that is out of its range. */
static struct fault out_of_range(uint32_t status, size_t place, const char *of, uint64_t number, const char *name,
                                 uint64_t value, uint64_t least, uint64_t most)
{
    return (struct fault){status, place, place, of, number, name, value, least, most, ""};
}

/* Says that a number is out of its range. The words `why` come after the range, and may be empty. */
static void say_range(struct fault *fault, const char *why)
{
    say(fault, "%s%s is %s; it must be %s to %s%s", fault->of == NULL ? "the " : "", fault->name, grouped(fault->value),
        grouped(fault->least), grouped(fault->most), why);
}

static struct fault none(void)
{
    return (struct fault){0, 0, 0, NULL, 0, NULL, 0, 0, 0, ""};
}

static struct fault fault_of_timer(const struct table *table)
{
    uint64_t s = table->values[TIMER_S], p = table->values[TIMER_P];
    struct fault fault = none();
    if (p < 1 || p > LARGEST_P) {
        fault = out_of_range(JYRMEKKO_VALUE_OUT_OF_RANGE, table->start, "timer", 0, "p", p, 1, LARGEST_P);
        say_range(&fault, "");
    } else if (s >= p) {
        fault = out_of_range(JYRMEKKO_VALUE_OUT_OF_RANGE, 0, "timer", 0, "s", s, 0, p - 1);
        say(&fault, "s is %s; it must be below p, which is %s", grouped(s), grouped(p));
    }
    return fault;
}

static struct fault fault_of_count(const struct table *table)
{
    bool of_rows = table->part == ROW_COUNT;
    uint64_t count = table->values[table->part], most = of_rows ? JYRMEKKO_MOST_ROWS : JYRMEKKO_MOST_SERVERS;
    if (count <= most)
        return none();
    struct fault fault = out_of_range(JYRMEKKO_TOO_MANY_ROWS, table->start, NULL, 0,
                                      of_rows ? "row count" : "server count", count, 0, most);
    say_range(&fault, "");
    return fault;
}

static struct fault fault_of_row(const struct table *table)
{
    uint64_t value = table->values[table->part], d = table->values[ROW_D];
    unsigned which = (unsigned)table->part - ROW_X;
    struct fault fault = none();
    if (value < 1 || value > largest_of_row[which]) {
        fault = out_of_range(JYRMEKKO_VALUE_OUT_OF_RANGE, table->start, "row", table->of, names_of_row[which], value, 1,
                             largest_of_row[which]);
        say_range(&fault, "");
    } else if (table->part == ROW_C && value > d) {
        fault = out_of_range(JYRMEKKO_HOPELESS_ROW, table->start, "row", table->of, "c", value, 1, d);
        say(&fault, "c is %s; it must be 1 to %s, which is its d: no processor can give %s units within %s tick%s",
            grouped(value), grouped(d), grouped(value), grouped(d), plural(d));
    }
    return fault;
}

static struct fault fault_of_server(const struct table *table)
{
    bool is_a = table->part == SERVER_A;
    uint64_t value = table->values[table->part], least = is_a ? 1 : table->values[SERVER_A];
    if (value >= least && value <= JYRMEKKO_MOST_SERVER_VALUE)
        return none();
    struct fault fault = out_of_range(JYRMEKKO_VALUE_OUT_OF_RANGE, table->start, "server", table->of, is_a ? "a" : "b",
                                      value, least, JYRMEKKO_MOST_SERVER_VALUE);
    say_range(&fault, is_a ? "" : ", and not be below its a");
    return fault;
}

/* Finds the first number of a table that is refused with 2, 3 or 16. */
static struct fault first_fault(struct bytes bytes)
{
    struct table table = start_table(bytes);
    struct fault fault = none();
    while (fault.status == 0 && read_part(&table))
        switch (table.part) {
        case TIMER_S: /* It is tested together with p. */
            break;
        case TIMER_P:
            fault = fault_of_timer(&table);
            break;
        case ROW_COUNT:
        case SERVER_COUNT:
            fault = fault_of_count(&table);
            break;
        case SERVER_A:
        case SERVER_B:
            fault = fault_of_server(&table);
            break;
        default:
            fault = fault_of_row(&table);
        }
    return fault;
}

/* Finds what is wrong with the number of a table that is refused with 2, 3 or 16 at this place. */
static struct fault fault_of_number(struct answer answer, struct bytes table)
{
    struct fault fault = first_fault(table);
    return fault.status == answer.status && fault.place == answer.first ? fault : none();
}

/* Finds the first number with which H is too long, in a table that is refused with 5. */
static struct fault fault_of_period(struct answer answer, struct bytes bytes)
{
    struct table table = start_table(bytes);
    uint64_t period = 1;
    while (period > 0 && period <= LARGEST_PERIOD && read_part(&table))
        if (table.part == TIMER_P || table.part == ROW_Y || table.part == SERVER_B)
            period = common_multiple(period, table.values[table.part]);
    if (period <= LARGEST_PERIOD || answer.first != bytes.length)
        return none();
    bool of_row = table.part == ROW_Y;
    struct fault fault = out_of_range(answer.status, bytes.length, of_row ? "row" : "server", table.of, "H", period, 1,
                                      LARGEST_PERIOD);
    fault.cause = table.start;
    say(&fault, "with its %c, H, the least common multiple of p, all y and all b, is at least %s; it must be 1 to %s",
        of_row ? 'y' : 'b', grouped(period), grouped(LARGEST_PERIOD));
    return fault;
}

/* A release of a script that is being looked for. */
struct release {
    uint64_t number;
    uint64_t row, cost;
    size_t place, row_place, cost_place; /* The release, its row number and its cost start here. */
};

/* Finds the release of which a number starts at this place. Returns false where there is none. */
static bool find_release(struct bytes script, uint64_t place, struct release *release)
{
    size_t at = 0;
    uint64_t gap;
    for (release->number = 0; at < script.length; release->number++) {
        release->place = at;
        if (!read_number(script, &at, &gap))
            return false;
        release->row_place = at;
        bool has_row = read_number(script, &at, &release->row);
        release->cost_place = at;
        bool has_cost = has_row && read_number(script, &at, &release->cost);
        if (place == release->place || (has_row && place == release->row_place) || (has_cost && place == release->cost_place))
            return true;
        if (!has_cost)
            return false;
    }
    return false;
}

/* Says which row numbers are in use, where the release's row number is not. */
static void say_row(struct fault *fault, const struct release *release, const struct content *content)
{
    uint64_t used = content->row_count + content->server_count;
    if (release->row < used || release->row_place != fault->place)
        return;
    if (used == 0) { /* There is no range then. */
        say(fault, "the row number is %s, and the table has no row and no server", grouped(release->row));
        return;
    }
    fault->name = "row number";
    fault->value = release->row;
    fault->most = used - 1;
    say(fault, "the row number is %s; it must be 0 to %s", grouped(release->row), grouped(fault->most));
}

/* Says what the release may cost, where it costs something else. */
static void say_cost(struct fault *fault, const struct release *release, const struct content *content)
{
    bool is_odd = release->row >= content->row_count;
    uint64_t most = is_odd ? JYRMEKKO_MOST_ODD_COST : content->rows[release->row].c;
    if (release->row >= content->row_count + content->server_count || release->cost_place != fault->place ||
        (release->cost >= 1 && release->cost <= most))
        return;
    fault->name = "cost";
    fault->value = release->cost;
    fault->least = 1;
    fault->most = most;
    if (is_odd)
        say(fault, "the cost is %s; it must be 1 to %s for an odd job", grouped(release->cost), grouped(most));
    else
        say(fault, "the cost is %s; it must be 1 to %s, the c of row %s", grouped(release->cost), grouped(most),
            grouped(release->row));
}

/* Finds what is wrong with the release of a script that is refused with 6 to 10 at this place. */
static struct fault fault_of_release(struct answer answer, struct bytes table, struct bytes script)
{
    struct fault fault = {answer.status, answer.first, answer.first, "release", 0, NULL, 0, 0, 0, ""};
    struct release release = {0, 0, 0, 0, 0, 0};
    struct content content = content_of(table);
    if (answer.status == JYRMEKKO_TIME_TOO_LATE && answer.first == script.length) {
        fault.of = NULL;
        say(&fault, "a job is pending at 2^40 after the last release");
        return fault;
    }
    if (!find_release(script, answer.first, &release))
        return none();
    fault.number = release.number;
    switch (answer.status) {
    case JYRMEKKO_NO_SUCH_ROW:
        say_row(&fault, &release, &content);
        break;
    case JYRMEKKO_COST_OUT_OF_RANGE:
        say_cost(&fault, &release, &content);
        break;
    case JYRMEKKO_PLACES_FULL:
        if (answer.first == release.place)
            say(&fault, TEXT_OF(JYRMEKKO_MOST_PENDING) " jobs are pending, and there is no place for another");
        break;
    case JYRMEKKO_DUE_TOO_LATE:
        if (answer.first == release.place)
            say(&fault, "the due time would be above 2^40");
        break;
    default:
        if (answer.first == release.place)
            say(&fault, "its time is above 2^40");
    }
    return fault.says[0] != '\0' ? fault : none();
}

bool is_of_table(uint32_t status)
{
    return (status >= JYRMEKKO_MISSPELLED && status <= JYRMEKKO_PERIOD_TOO_LONG) || status == JYRMEKKO_HOPELESS_ROW;
}

struct fault fault_of(struct answer answer, struct bytes table, struct bytes script)
{
    struct fault fault = {answer.status, answer.first, answer.first, NULL, 0, NULL, 0, 0, 0, ""};
    const char *bad = NULL;
    switch (answer.status) {
    case JYRMEKKO_MISSPELLED:
        bad = bad_table_byte(table, answer.first);
        break;
    case JYRMEKKO_SCRIPT_MISSPELLED:
        bad = bad_byte(script, answer.first);
        break;
    case JYRMEKKO_EXTRA_BYTES:
        bad = "there are bytes after the last server, or after a server count of 0";
        break;
    case JYRMEKKO_PERIOD_TOO_LONG:
        return fault_of_period(answer, table);
    case JYRMEKKO_NO_ROOM:
        bad = "the log is longer than its buffer";
        break;
    case JYRMEKKO_TOO_MANY_ROWS:
    case JYRMEKKO_VALUE_OUT_OF_RANGE:
    case JYRMEKKO_HOPELESS_ROW:
        return fault_of_number(answer, table);
    case JYRMEKKO_NO_SUCH_ROW:
    case JYRMEKKO_COST_OUT_OF_RANGE:
    case JYRMEKKO_PLACES_FULL:
    case JYRMEKKO_DUE_TOO_LATE:
    case JYRMEKKO_TIME_TOO_LATE:
        return fault_of_release(answer, table, script);
    default:
        break;
    }
    if (bad != NULL)
        say(&fault, "%s", bad);
    return fault;
}
