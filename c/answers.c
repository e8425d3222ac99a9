/* What the library answers, said to people and in JSON. */
#include "commands.h"
#include "json.h"

#include <inttypes.h>

/* Says what should stand at the place of a refusal, and does not. */
static const char *missing_there(uint32_t status)
{
    switch (status) {
    case JYRMEKKO_TOO_MANY_ROWS:
        return "count is above its limit";
    case JYRMEKKO_VALUE_OUT_OF_RANGE:
        return "number is out of its range";
    case JYRMEKKO_HOPELESS_ROW:
        return "c of a hopeless row starts";
    case JYRMEKKO_PERIOD_TOO_LONG:
        return "H is above its limit";
    case JYRMEKKO_MISSPELLED:
    case JYRMEKKO_SCRIPT_MISSPELLED:
        return "number goes wrong";
    default:
        return "release is refused so";
    }
}

static bool is_refusal(uint32_t status)
{
    switch (status) {
    case JYRMEKKO_NO_SUCH_ROW:
    case JYRMEKKO_COST_OUT_OF_RANGE:
    case JYRMEKKO_PLACES_FULL:
    case JYRMEKKO_DUE_TOO_LATE:
    case JYRMEKKO_TIME_TOO_LATE:
    case JYRMEKKO_NO_ROOM:
    case JYRMEKKO_SCRIPT_MISSPELLED:
        return true;
    default:
        return is_of_table(status);
    }
}

void json_refusal(const struct fault *fault, const char *file, const struct word *word)
{
    json_begin("refusal", '{');
    json_number("number", fault->status);
    json_text("file", file);
    json_number("byte", fault->place);
    if (word != NULL) {
        json_number("line", word->line);
        json_number("column", word->column);
    }
    if (fault->of != NULL && fault->of[0] != 't')
        json_number(fault->of, fault->number);
    if (fault->name != NULL) {
        json_text("name", fault->name);
        json_number("value", fault->value);
        json_number("least", fault->least);
        json_number("most", fault->most);
    }
    json_text("message", fault->says);
    json_end();
}

/* A status that is no refusal must never be the exit status: it could read as a pass, or as another answer. */
void say_refusal(FILE *out, const char *call, struct answer answer, const struct input *table, const struct input *script)
{
    bool of_table = is_of_table(answer.status);
    const struct input *input = of_table ? table : script;
    const char *file = of_table ? "table" : "script";
    if (!is_refusal(answer.status) || input == NULL)
        stop(RIG_NO_ANSWER, "the library's %s says %" PRIu32 ", which is no answer", call, answer.status);
    struct fault fault = fault_of(answer, table->bytes, script != NULL ? script->bytes : (struct bytes){NULL, 0});
    if (fault.says[0] == '\0')
        stop(RIG_NO_ANSWER, "the library's %s says %" PRIu32 " at byte %s of the %s, where no %s", call, answer.status,
             grouped(answer.first), file, missing_there(answer.status));
    const struct word *word = input->form == AS_TEXT ? word_at(&input->text, fault.cause) : NULL;
    if (as_json) {
        json_text("answer", "refused");
        json_refusal(&fault, file, word);
    } else if (word != NULL) {
        fprintf(out, "%s:%zu:%zu: %s (refusal %" PRIu32 " at byte %s of the %s)\n", shown(input->path), word->line,
                word->column, fault.says, fault.status, grouped(fault.place), file);
    } else if (input->form == AS_TEXT) {
        fprintf(out, "%s: %s (refusal %" PRIu32 " at byte %s of the %s)\n", shown(input->path), fault.says, fault.status,
                grouped(fault.place), file);
    } else {
        fprintf(out, "refused %" PRIu32 " at byte %s of the %s: %s\n", fault.status, grouped(fault.place), file, fault.says);
        fflush(out); /* It comes first where both streams go to one place. */
        if (is_text(input->bytes)) /* It would have been read as text, had --bytes not been said. */
            fprintf(stderr, "rig: %s could be text: leave out --bytes, or say --text\n", shown(input->path));
    }
}

/* Says how much of a witness's demand is the timer's and how much is the servers', where they have any of it. */
static void say_shares(FILE *out, uint64_t taken, uint64_t odd, size_t servers)
{
    if (taken > 0 || odd > 0)
        fprintf(out, ", of which");
    if (taken > 0)
        fprintf(out, " the timer takes %s%s", grouped(taken), odd > 0 ? " and" : "");
    if (odd > 0)
        fprintf(out, " the %s for %s", servers == 1 ? "server asks" : "servers ask", grouped(odd));
}

void say_verdict(FILE *out, struct answer answer, const struct input *table)
{
    if (as_json) {
        json_input("table", table);
        json_number("status", answer.status);
    }
    if (!is_accepted(answer.status)) {
        say_refusal(out, "verdict", answer, table, NULL);
        return;
    }
    if (as_json) {
        json_text("answer", answer.status == JYRMEKKO_FEASIBLE ? "feasible" : "overloaded");
        return;
    }
    struct content content = content_of(table->bytes);
    if (answer.status == JYRMEKKO_FEASIBLE) {
        fprintf(out, "feasible %" PRIu32 ": no length of time has more demand than length\n", answer.status);
        if (content.row_count == 0 && content.server_count == 0)
            fprintf(out, "the table has no row and no server, so that it has no jobs\n");
        return;
    }
    uint64_t odd = 0;
    period_of(&content); /* This stops the program where no library may accept the table. */
    for (size_t server = 0; server < content.server_count; server++)
        odd += server_demand(content.servers[server], answer.first);
    fprintf(out, "overloaded %" PRIu32 ": the demand in %s tick%s is %s units", answer.status, grouped(answer.first),
            plural(answer.first), grouped(answer.second));
    say_shares(out, taken_ticks(&content, answer.first), odd, content.server_count);
    fputc('\n', out);
}

int judge(struct named_file file)
{
    struct input table = read_table(file);
    struct answer answer = ask_verdict(table.bytes);
    say_verdict(stdout, answer, &table);
    if (as_json && answer.status == JYRMEKKO_OVERLOADED) {
        json_begin("witness", '{');
        json_number("length", answer.first);
        json_number("demand", answer.second);
        json_end();
    }
    return (int)answer.status;
}

static void say_replayed(FILE *out, const struct replayed *replayed)
{
    uint64_t jobs = count_numbers(replayed->log) / LOG_NUMBERS;
    bool late = replayed->answer.status == JYRMEKKO_LATE;
    struct content content = content_of(replayed->table.bytes);
    if (as_json) {
        json_text("answer", late ? "late" : "in time");
        json_number("jobs", jobs);
        json_number("late", replayed->answer.second);
    } else {
        fprintf(out, "replayed %" PRIu32 ": %s job%s, ", replayed->answer.status, grouped(jobs), plural(jobs));
        if (late)
            fprintf(out, "%s late\n", grouped(replayed->answer.second));
        else
            fprintf(out, "all in time\n");
    }
    say_summary(out, replayed->log, &content);
}

/* Says that a script without jobs was played, which shows nothing. */
static void say_nothing_played(FILE *out)
{
    if (as_json)
        json_text("answer", "nothing played");
    else
        fprintf(out, "nothing was played %d: the script releases no job\n", RIG_NOTHING);
}

int play(struct named_file table, struct named_file script, const char *log_path)
{
    const struct replayed *replayed = replay_files(table, script, log_path);
    FILE *out = log_path != NULL && is_standard(log_path) ? stderr : stdout;
    bool is_played = is_replayed(replayed->answer.status);
    bool has_jobs = is_played && replayed->log.length > 0;
    int status = is_played && !has_jobs ? RIG_NOTHING : (int)replayed->answer.status;
    if (has_jobs && log_path != NULL)
        write_file(log_path, replayed->log);
    if (as_json) {
        json_input("table", &replayed->table);
        json_input("script", &replayed->script);
        json_text("log", has_jobs ? log_path : NULL);
        json_number("status", (uint64_t)status);
    }
    if (!is_played)
        say_refusal(out, "replay", replayed->answer, &replayed->table, &replayed->script);
    else if (!has_jobs)
        say_nothing_played(out);
    else
        say_replayed(out, replayed);
    if (log_path != NULL && !has_jobs && !as_json)
        fprintf(out, "the log is not written\n");
    return status;
}
