/* `rig show table`: shows a table as a text that `rig spell` turns into the same bytes. */
#include "commands.h"
#include "json.h"

#include <inttypes.h>
#include <string.h>

/* Prints s and p. Where s is below p, a comment says which ticks are taken. */
static void print_timer(uint64_t s, uint64_t p)
{
    printf("%" PRIu64 " %" PRIu64 "  # s and p of the timer", s, p);
    if (s == 0 && p > 0)
        printf(": no tick is taken");
    else if (s == 1 && p > 1)
        printf(": the first tick of every %s is taken", grouped(p));
    else if (s < p)
        printf(": the first %s ticks of every %s are taken", grouped(s), grouped(p));
    putchar('\n');
}

enum { ROW_NUMBERS = 4 };
static const char *const row_heads[ROW_NUMBERS] = {"x", "y", "d", "c"};

static void measure_rows(struct table table, int widths[ROW_NUMBERS])
{
    char digits[24];
    for (int i = 0; i < ROW_NUMBERS; i++)
        widths[i] = (int)strlen(row_heads[i]);
    while (read_part(&table))
        for (int i = 0; table.part == ROW_C && i < ROW_NUMBERS; i++) {
            snprintf(digits, sizeof digits, "%" PRIu64, table.values[ROW_X + i]);
            widen(&widths[i], digits);
        }
}

static void print_row(const struct table *table, const int widths[ROW_NUMBERS])
{
    if (table->of == 0) {
        putchar('#');
        for (int i = 0; i < ROW_NUMBERS; i++)
            printf("  %*s", widths[i], row_heads[i]);
        putchar('\n');
    }
    putchar(' ');
    for (int i = 0; i < ROW_NUMBERS; i++)
        printf("  %*" PRIu64, widths[i], table->values[ROW_X + i]);
    printf("  # row %s\n", grouped(table->of));
}

static void print_server(const struct table *table)
{
    uint64_t a = table->values[SERVER_A], b = table->values[SERVER_B];
    printf("server %" PRIu64 " %" PRIu64 "  # row %s, server %s", a, b, grouped(table->rows + table->of),
           grouped(table->of));
    if (a > 0 && b >= a)
        printf(": %s unit%s in %s tick%s", grouped(a), plural(a), grouped(b), plural(b));
    putchar('\n');
}

/* Prints what can be read of a table. */
static void print_table(struct table *table)
{
    int widths[ROW_NUMBERS];
    measure_rows(*table, widths);
    while (read_part(table))
        switch (table->part) {
        case TIMER_P:
            print_timer(table->values[TIMER_S], table->values[TIMER_P]);
            break;
        case ROW_COUNT:
            printf("%" PRIu64 "  # the row count\n", table->values[ROW_COUNT]);
            break;
        case ROW_C:
            print_row(table, widths);
            break;
        case SERVER_B:
            print_server(table);
            break;
        default: /* This number is printed together with one that comes later. */
            break;
        }
    printf("# %s row%s, %s server%s\n", grouped(table->rows), plural(table->rows), grouped(table->servers),
           plural(table->servers));
}

/* Makes JSON of the numbers of a table, whatever they are. */
static void json_table(struct table *table)
{
    static const char *const names[TABLE_END] = {
        [TIMER_S] = "s", [TIMER_P] = "p", [ROW_X] = "x", [ROW_Y] = "y", [ROW_D] = "d", [ROW_C] = "c", [SERVER_A] = "a",
        [SERVER_B] = "b"};
    while (read_part(table)) {
        enum part part = table->part;
        if (part == TIMER_S)
            json_begin("timer", '{');
        else if (part == ROW_COUNT)
            json_begin("rows", '[');
        else if (part == SERVER_COUNT)
            json_begin("servers", '[');
        else if (part == ROW_X || part == SERVER_A)
            json_begin(NULL, '{');
        if (names[part] != NULL)
            json_number(names[part], table->values[part]);
        if (part == TIMER_P || part == ROW_C || part == SERVER_B)
            json_end();
        if ((table->next == SERVER_COUNT && part != SERVER_COUNT) || table->next == TABLE_END)
            json_end();
    }
}

int show_table(struct named_file file)
{
    struct input input = read_whole_table(file);
    struct table table = start_table(input.bytes);
    if (as_json) {
        json_text("kind", "table");
        json_input("table", &input);
        json_number("status", RIG_DONE);
        json_table(&table);
    } else {
        print_table(&table);
    }
    if (table.damaged)
        stop(RIG_CONTENT, "%s is no table: it goes wrong at byte %s: %s", shown(file.path), grouped(table.at),
             bad_table_byte(input.bytes, table.at));
    if (table.at < input.bytes.length)
        stop(RIG_CONTENT, "%s is no table: there are bytes after its end, from byte %s on", shown(file.path),
             grouped(table.at));
    return RIG_DONE;
}
