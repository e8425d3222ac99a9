/* The room that a feasible table leaves, worked out from its numbers and from verdicts on tables that are like it. */
#include "room.h"

#include "commands.h"

enum { LARGEST_C = 4096 };
enum { MOST_STEPS = JYRMEKKO_MOST_ROWS + JYRMEKKO_MOST_SERVERS };

static struct fraction reduced(uint64_t numerator, uint64_t denominator)
{
    uint64_t divisor = common_divisor(numerator, denominator);
    return (struct fraction){numerator / divisor, denominator / divisor};
}

static void find_shares(const struct content *content, uint64_t period, struct room *room)
{
    uint64_t sum = content->s * (period / content->p); /* In the long run so many units are asked for in H ticks. */
    room->timer = reduced(content->s, content->p);
    for (size_t i = 0; i < content->row_count; i++) {
        struct row row = content->rows[i];
        sum += row.x * row.c * (period / row.y);
        room->rows[i] = reduced(row.x * row.c, row.y);
    }
    for (size_t i = 0; i < content->server_count; i++) {
        struct server server = content->servers[i];
        sum += server.a * (period / server.b);
        room->servers[i] = reduced(server.a, server.b);
    }
    room->sum = reduced(sum, period);
}

/* How the demand of a row or a server steps up: at the lengths (n * apart + first) / divisor, with n = 0, 1, 2 and so on. */
struct steps {
    uint64_t units; /* It steps up by so many each time. */
    uint64_t apart, first, divisor;
    uint64_t n;     /* So many steps have been taken. */
    uint64_t next;  /* The next one is at this length. */
};

static void find_next(struct steps *steps)
{
    steps->next = (steps->n * steps->apart + steps->first) / steps->divisor;
}

/* A row's demand steps up at n * y + d. A server's comes to n + 1 units at (n + 1) * b / a, rounded up. */
static size_t find_steps(const struct content *content, struct steps all[MOST_STEPS])
{
    size_t count = 0;
    for (size_t i = 0; i < content->row_count; i++) {
        struct row row = content->rows[i];
        all[count++] = (struct steps){row.x * row.c, row.y, row.d, 1, 0, 0};
    }
    for (size_t i = 0; i < content->server_count; i++) {
        struct server server = content->servers[i];
        all[count++] = (struct steps){1, server.b, server.b + server.a - 1, server.a, 0, 0};
    }
    for (size_t i = 0; i < count; i++)
        find_next(&all[i]);
    return count;
}

/* Takes all steps at the first length that has any, and returns this length. The steps' units are added to *units. */
static uint64_t step_up(struct steps all[MOST_STEPS], size_t count, uint64_t *units)
{
    uint64_t length = UINT64_MAX;
    for (size_t i = 0; i < count; i++)
        if (all[i].next < length)
            length = all[i].next;
    for (size_t i = 0; i < count; i++)
        if (all[i].next == length) {
            *units += all[i].units;
            all[i].n++;
            find_next(&all[i]);
        }
    return length;
}

/*
 * Finds the smallest of the lengths with the least slack, among those at which the demand of a row or a server steps up.
 * Between two of them the slack never falls: a further tick adds one to the length, and to the demand at most one, where it
 * is taken.
 *
 * The lengths up to H + the largest d are enough. Where the demand steps up at a longer length L, it does at L - H too,
 * which is above every d. From L - H to L it grows by as much as the shares ask for in H ticks. On a feasible table that
 * is at most H, so the slack at L is no less than that at L - H.
 */
static struct slack least_slack(const struct content *content, uint64_t period)
{
    struct steps all[MOST_STEPS];
    size_t count = find_steps(content, all);
    struct slack least = {false, 0, 0};
    uint64_t largest_d = 0, units = 0, length;
    for (size_t i = 0; i < content->row_count; i++)
        if (content->rows[i].d > largest_d)
            largest_d = content->rows[i].d;
    while (count > 0 && (length = step_up(all, count, &units)) <= period + largest_d) {
        uint64_t demand = units + taken_ticks(content, length);
        if (demand > length)
            stop(RIG_NO_ANSWER, "the library's verdict says feasible, but the demand in %s tick%s is %s units",
                 grouped(length), plural(length), grouped(demand));
        if (!least.found || length - demand < least.length - least.demand)
            least = (struct slack){true, length, demand};
    }
    return least;
}

static void spell_number(struct bytes *out, uint64_t number)
{
    out->length += write_number(out->at + out->length, number);
}

/* Asks the library whether the table with these numbers is feasible. */
static bool is_feasible(const struct content *content)
{
    enum { MOST_NUMBERS = 2 + 2 + 4 * JYRMEKKO_MOST_ROWS + 2 * JYRMEKKO_MOST_SERVERS };
    uint8_t spelled[MOST_NUMBERS * MOST_GROUPS];
    struct bytes table = {spelled, 0};
    spell_number(&table, content->s);
    spell_number(&table, content->p);
    spell_number(&table, content->row_count);
    for (size_t i = 0; i < content->row_count; i++) {
        spell_number(&table, content->rows[i].x);
        spell_number(&table, content->rows[i].y);
        spell_number(&table, content->rows[i].d);
        spell_number(&table, content->rows[i].c);
    }
    spell_number(&table, content->server_count);
    for (size_t i = 0; i < content->server_count; i++) {
        spell_number(&table, content->servers[i].a);
        spell_number(&table, content->servers[i].b);
    }
    uint32_t status = ask_verdict(table).status;
    if (!is_accepted(status))
        stop(RIG_NO_ANSWER, "the library's verdict refuses a table with a c that it has to accept");
    return status == JYRMEKKO_FEASIBLE;
}

/*
 * Finds the largest c with which the table is feasible, where nothing else is changed. With a larger c the demand is
 * nowhere lower, so if the table is feasible with some c, it is with every smaller one, and halving finds the largest.
 */
static uint64_t largest_c(const struct content *content, size_t row)
{
    struct content changed = *content;
    uint64_t feasible = content->rows[row].c, d = content->rows[row].d, most = d < LARGEST_C ? d : LARGEST_C;
    while (feasible < most) {
        uint64_t middle = most - (most - feasible) / 2; /* It is above `feasible`. */
        changed.rows[row].c = middle;
        if (is_feasible(&changed))
            feasible = middle;
        else
            most = middle - 1;
    }
    return feasible;
}

struct room room_of(const struct content *content)
{
    struct room room = {0};
    uint64_t period = period_of(content);
    find_shares(content, period, &room);
    room.least = least_slack(content, period);
    for (size_t i = 0; i < content->row_count; i++)
        room.largest_c[i] = largest_c(content, i);
    return room;
}
