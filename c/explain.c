/*
 * `rig explain`: says why a table gets its verdict. Of a feasible table it says how much room it leaves, and of an
 * overloaded one which jobs nobody can run in time.
 */
#include "commands.h"
#include "json.h"
#include "room.h"
#include "witness.h"

#include <inttypes.h>

/* Says the verdict. In JSON the status is the exit status, which is another one where a script is not written. */
static void say_answer(FILE *out, struct answer answer, int status, const struct input *table)
{
    if (!as_json) {
        say_verdict(out, answer, table);
        return;
    }
    json_input("table", table);
    json_number("status", (uint64_t)status);
    json_text("answer", answer.status == JYRMEKKO_FEASIBLE ? "feasible" : "overloaded");
}

/* Returns the name of a row or a server by its row number. The text stays until the next call. */
static const char *name_of(size_t row, size_t row_count)
{
    static char name[48];
    if (row < row_count)
        snprintf(name, sizeof name, "row %zu", row);
    else
        snprintf(name, sizeof name, "row %zu, server %zu", row, row - row_count);
    return name;
}

/* Returns how wide a column is that has the names of all rows and servers, of the timer, and the word 'together'. */
static int width_of_names(size_t row_count, size_t server_count)
{
    int width = 0;
    widen(&width, "together");
    for (size_t row = 0; row < row_count + server_count; row++)
        widen(&width, name_of(row, row_count));
    return width;
}

/*
 * Returns a share as a percentage, rounded to two decimals. Only a share of all ticks is said to be 100.00 %. No share that
 * is not 0 is said to be 0.00 %, since none is below 1/4096. The text stays until the next call.
 */
static const char *percentage(struct fraction share)
{
    static char text[32];
    uint64_t hundredths = (20000 * share.numerator + share.denominator) / (2 * share.denominator);
    if (hundredths == 10000 && share.numerator < share.denominator)
        hundredths--;
    snprintf(text, sizeof text, "%" PRIu64 ".%02u %%", hundredths / 100, (unsigned)(hundredths % 100));
    return text;
}

/* Says the shares in columns, and how much the c of each row could grow. */
static void say_shares(FILE *out, const struct content *content, const struct room *room)
{
    enum { SHARE = 8, C = 5, LARGEST = 9 }; /* The columns are so wide. */
    int width = width_of_names(content->row_count, content->server_count);
    fprintf(out, "\n%-*s  %*s", width, "", SHARE, "share");
    if (content->row_count > 0)
        fprintf(out, "  %*s  %*s", C, "c", LARGEST, "largest c");
    fputc('\n', out);
    if (content->s > 0)
        fprintf(out, "%-*s  %*s\n", width, "timer", SHARE, percentage(room->timer));
    for (size_t i = 0; i < content->row_count; i++) {
        uint64_t c = content->rows[i].c, largest = room->largest_c[i];
        fprintf(out, "%-*s  %*s  %*s  %*s  ", width, name_of(i, content->row_count), SHARE, percentage(room->rows[i]), C,
                grouped(c), LARGEST, grouped(largest));
        fprintf(out, largest > c ? "it could grow by %s\n" : "it can't grow\n", grouped(largest - c));
    }
    for (size_t i = 0; i < content->server_count; i++)
        fprintf(out, "%-*s  %*s\n", width, name_of(content->row_count + i, content->row_count), SHARE,
                percentage(room->servers[i]));
    fprintf(out, "%-*s  %*s  %s/%s of all ticks\n", width, "together", SHARE, percentage(room->sum),
            grouped(room->sum.numerator), grouped(room->sum.denominator));
}

static void say_room(FILE *out, const struct content *content, const struct room *room)
{
    struct slack least = room->least;
    uint64_t slack = least.length - least.demand;
    say_shares(out, content, room);
    if (least.found)
        fprintf(out, "\nthe least slack is %s tick%s: the demand in %s tick%s is %s unit%s\n", grouped(slack), plural(slack),
                grouped(least.length), plural(least.length), grouped(least.demand), plural(least.demand));
    else
        fprintf(out, "\nthere is no least slack: without rows and servers no demand steps up\n");
}

static void json_fraction(struct fraction fraction)
{
    json_number("numerator", fraction.numerator);
    json_number("denominator", fraction.denominator);
}

static void json_shares(const struct content *content, const struct room *room)
{
    json_begin("shares", '{');
    json_begin("sum", '{');
    json_fraction(room->sum);
    json_end();
    json_begin("timer", '{');
    json_fraction(room->timer);
    json_end();
    json_begin("rows", '[');
    for (size_t i = 0; i < content->row_count; i++) {
        json_begin(NULL, '{');
        json_number("row", i);
        json_fraction(room->rows[i]);
        json_number("c", content->rows[i].c);
        json_number("largest_c", room->largest_c[i]);
        json_end();
    }
    json_end();
    json_begin("servers", '[');
    for (size_t i = 0; i < content->server_count; i++) {
        json_begin(NULL, '{');
        json_number("server", i);
        json_number("row", content->row_count + i);
        json_fraction(room->servers[i]);
        json_end();
    }
    json_end();
    json_end();
}

static void json_room(const struct content *content, const struct room *room)
{
    json_shares(content, room);
    if (room->least.found) {
        json_begin("least_slack", '{');
        json_number("length", room->least.length);
        json_number("demand", room->least.demand);
        json_number("slack", room->least.length - room->least.demand);
        json_end();
    } else {
        json_text("least_slack", NULL);
    }
    json_text("script", NULL);
}

/* Says in columns what each row, each server and the timer ask for, and why nobody can give it. */
static void say_witness(FILE *out, const struct witness *witness)
{
    int width = width_of_names(witness->row_count, witness->server_count), jobs_width = 0, units_width = 0;
    uint64_t units = witness->demand - witness->taken, free_ticks = witness->length - witness->taken;
    widen(&jobs_width, "jobs");
    widen(&units_width, "units");
    widen(&jobs_width, grouped(witness->count));
    widen(&units_width, grouped(witness->demand));
    fprintf(out, "\n%-*s  %*s  %*s\n", width, "", jobs_width, "jobs", units_width, "units");
    if (witness->taken > 0)
        fprintf(out, "%-*s  %*s  %*s\n", width, "timer", jobs_width, "", units_width, grouped(witness->taken));
    for (size_t i = 0; i < witness->row_count + witness->server_count; i++)
        fprintf(out, "%-*s  %*s  %*s\n", width, name_of(i, witness->row_count), jobs_width,
                grouped(witness->jobs[i].count), units_width, grouped(witness->jobs[i].units));
    fprintf(out, "%-*s  %*s  %*s\n", width, "together", jobs_width, grouped(witness->count), units_width,
            grouped(witness->demand));
    fprintf(out, "\nreleased at 0, all these jobs are due by %s: they ask for %s unit%s, and %s tick%s %s free until then\n",
            grouped(witness->length), grouped(units), plural(units), grouped(free_ticks), plural(free_ticks),
            free_ticks == 1 ? "is" : "are");
}

static void json_witness(const struct witness *witness)
{
    json_begin("witness", '{');
    json_number("length", witness->length);
    json_number("demand", witness->demand);
    json_number("taken", witness->taken);
    json_begin("rows", '[');
    for (size_t i = 0; i < witness->row_count; i++) {
        json_begin(NULL, '{');
        json_number("row", i);
        json_number("jobs", witness->jobs[i].count);
        json_number("units", witness->jobs[i].units);
        json_end();
    }
    json_end();
    json_begin("servers", '[');
    for (size_t i = witness->row_count; i < witness->row_count + witness->server_count; i++) {
        json_begin(NULL, '{');
        json_number("server", i - witness->row_count);
        json_number("row", i);
        json_number("jobs", witness->jobs[i].count);
        json_number("units", witness->jobs[i].units);
        json_end();
    }
    json_end();
    json_end();
}

/* Says what became of the script that was asked for. */
static void say_script(FILE *out, const char *path, const struct witness *witness, const struct witness_script *script)
{
    bool is_written = script->text.length > 0, is_late = script->answer.status == JYRMEKKO_LATE;
    if (as_json) {
        json_begin("script", '{');
        json_text("file", is_written ? path : NULL);
        json_number("jobs", witness->count);
        if (is_written)
            json_number("replay", script->answer.status);
        if (script->why[0] != '\0')
            json_text("why", script->why);
        json_end();
    } else if (!is_written) {
        fprintf(out, "the script is not written: %s\n", script->why);
    } else {
        fprintf(out, "the script is written to %s: ", is_standard(path) ? "standard output" : shown(path));
        if (is_late)
            fprintf(out, "replay says %" PRIu32 ", with %s late job%s\n", script->answer.status,
                    grouped(script->answer.second), plural(script->answer.second));
        else
            fprintf(out, "%s\n", script->why);
    }
}

static int explain_feasible(FILE *out, struct answer answer, const struct input *table, const char *script_path)
{
    struct content content = content_of(table->bytes);
    struct room room = room_of(&content);
    say_answer(out, answer, (int)answer.status, table);
    if (as_json)
        json_room(&content, &room);
    else
        say_room(out, &content, &room);
    if (script_path != NULL && !as_json)
        fprintf(out, "the script is not written: a feasible table has no witness\n");
    return (int)answer.status;
}

static int explain_overloaded(FILE *out, struct answer answer, const struct input *table, const char *script_path)
{
    struct content content = content_of(table->bytes);
    period_of(&content); /* From here on no number that something is divided by is 0. */
    struct witness witness = witness_of(answer, &content);
    struct witness_script script = {{NULL, 0}, {0, 0, 0}, ""};
    int status = (int)answer.status;
    if (script_path != NULL) {
        script = script_of(&witness, table->bytes);
        if (script.text.length > 0)
            write_file(script_path, script.text);
        else
            status = RIG_NO_SCRIPT;
    }
    say_answer(out, answer, status, table);
    if (as_json)
        json_witness(&witness);
    else
        say_witness(out, &witness);
    if (script_path != NULL)
        say_script(out, script_path, &witness, &script);
    else if (as_json)
        json_text("script", NULL);
    return status;
}

int explain(struct named_file file, const char *script_path)
{
    struct input table = read_table(file);
    FILE *out = script_path != NULL && is_standard(script_path) ? stderr : stdout;
    if (script_path != NULL)
        expect_not_read(script_path);
    struct answer answer = ask_verdict(table.bytes);
    if (answer.status == JYRMEKKO_FEASIBLE)
        return explain_feasible(out, answer, &table, script_path);
    if (answer.status == JYRMEKKO_OVERLOADED)
        return explain_overloaded(out, answer, &table, script_path);
    say_verdict(out, answer, &table);
    if (script_path != NULL && !as_json)
        fprintf(out, "the script is not written\n");
    return (int)answer.status;
}
