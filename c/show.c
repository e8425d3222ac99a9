/*
 * `rig show script` and `rig show log`: show releases and jobs in columns. What is shown of a script is a text that
 * `rig spell` turns into the same bytes: everything but its three numbers stands in comments.
 */
#include "commands.h"
#include "json.h"

#include <inttypes.h>
#include <stdlib.h>
#include <string.h>

enum { RELEASE_NUMBERS = 3, MOST_NUMBERS = LOG_NUMBERS };
enum { GAP, ROW, COST };

/* How many rows and servers the table of a script or log has. Where no table is given, nothing is known. */
struct counts {
    bool known;
    uint64_t rows;
    uint64_t servers;
};

/* Script or log: records of some numbers. */
struct records {
    const char *name;
    size_t columns;
    const char *heads[MOST_NUMBERS];
};

static const struct records script_records = {"script", RELEASE_NUMBERS, {"gap", "row", "cost"}};
static const struct records log_records = {"log", LOG_NUMBERS, {"serial", "row", "release", "due", "finish"}};

/* A script or a log that is being read record by record. */
struct reading {
    const struct records *records;
    struct bytes bytes;
    size_t at;
    size_t start;   /* The record that was read last starts here. */
    uint64_t count; /* So many records have been read. */
    uint64_t cells[MOST_NUMBERS];
    bool damaged;   /* A number can't be read, and `at` is its bad byte, or the end where it is cut off. */
};

static struct reading start_reading(const struct records *records, struct bytes bytes)
{
    struct reading reading = {records, bytes, 0, 0, 0, {0}, false};
    return reading;
}

/* Reads one more record. Returns false at the end, and where the record can't be read to its end. */
static bool read_record(struct reading *reading)
{
    if (reading->at == reading->bytes.length || reading->damaged)
        return false;
    reading->start = reading->at;
    for (size_t column = 0; column < reading->records->columns; column++)
        if (!read_number(reading->bytes, &reading->at, &reading->cells[column])) {
            reading->damaged = true;
            return false;
        }
    reading->count++;
    return true;
}

/* Returns a number as it stands in a column. A log is for people alone, and a script has to be spelled again. */
static const char *cell(const struct reading *reading, uint64_t number)
{
    static char digits[24];
    if (reading->records == &log_records)
        return grouped(number);
    snprintf(digits, sizeof digits, "%" PRIu64, number);
    return digits;
}

static void measure(struct reading reading, int widths[MOST_NUMBERS])
{
    for (size_t column = 0; column < reading.records->columns; column++)
        widths[column] = (int)strlen(reading.records->heads[column]);
    while (read_record(&reading))
        for (size_t column = 0; column < reading.records->columns; column++)
            widen(&widths[column], cell(&reading, reading.cells[column]));
}

static void print_heads(const struct records *records, const int widths[MOST_NUMBERS])
{
    for (size_t column = 0; column < records->columns; column++)
        printf("%s%*s", column > 0 ? "  " : "", widths[column], records->heads[column]);
    putchar('\n');
}

static void print_cells(const struct reading *reading, const int widths[MOST_NUMBERS])
{
    for (size_t column = 0; column < reading->records->columns; column++)
        printf("%s%*s", column > 0 ? "  " : "", widths[column], cell(reading, reading->cells[column]));
}

/* Prints the server that a row number stands for, after the words `before`. Prints nothing for a row. */
static void print_server(const char *before, struct counts counts, uint64_t row)
{
    if (!counts.known || row < counts.rows)
        return;
    if (row - counts.rows < counts.servers)
        printf("%sserver %s", before, grouped(row - counts.rows));
    else
        printf("%sno such row", before);
}

static void json_server(struct counts counts, uint64_t row)
{
    if (counts.known && row >= counts.rows && row - counts.rows < counts.servers)
        json_number("server", row - counts.rows);
}

/* Stops the program where a script or log was not read to its end. */
static void expect_read(const struct reading *reading, const char *path)
{
    if (!reading->damaged)
        return;
    if (!as_json)
        putchar('\n');
    stop(RIG_CONTENT, "%s is no %s: it goes wrong at byte %s: %s", shown(path), reading->records->name,
         grouped(reading->at), bad_byte(reading->bytes, reading->at));
}

/* ---- scripts */

/* The due times of the first jobs of a script, as far as the library accepts their releases. */
struct dues {
    uint64_t *due;
    uint64_t count;
    struct fault refused; /* This is what replay refuses in the table or the script, or it says nothing. */
};

/* Puts the due time of each job of a log at its serial. */
static void take_dues(struct dues *dues, struct bytes log)
{
    uint64_t job[LOG_NUMBERS];
    dues->count = count_numbers(log) / LOG_NUMBERS;
    dues->due = allocate((size_t)dues->count * sizeof dues->due[0]);
    for (size_t at = 0; read_log_record(log, &at, job);)
        if (job[LOG_SERIAL] < dues->count)
            dues->due[job[LOG_SERIAL]] = job[LOG_DUE];
}

/* Finds the due times by replay. Where a release is refused, the script is replayed again up to there. */
static struct dues find_dues(struct bytes table, struct input script)
{
    struct dues dues = {NULL, 0, {0}};
    struct answer answer;
    struct bytes log = log_of(table, &script, &answer);
    if (!is_replayed(answer.status)) {
        dues.refused = fault_of(answer, table, script.bytes);
        struct reading reading = start_reading(&script_records, script.bytes);
        size_t before = 0; /* The releases before the one that is refused end here. */
        while (read_record(&reading) && reading.at <= answer.first)
            before = reading.at;
        script.bytes.length = before;
        free(log.at);
        log = log_of(table, &script, &answer);
    }
    if (is_replayed(answer.status))
        take_dues(&dues, log);
    free(log.at);
    return dues;
}

/* Adds a gap to a time. A time that is too large to be counted stays at the largest number. */
static uint64_t later(uint64_t time, uint64_t gap)
{
    return gap > UINT64_MAX - time ? UINT64_MAX : time + gap;
}

/* Prints the records of a script that can be read, each with its time, its due time and its place in a comment. */
static void print_script(struct reading *reading, struct counts counts, const struct dues *dues)
{
    int widths[MOST_NUMBERS];
    uint64_t time = 0;
    measure(*reading, widths);
    printf("#  ");
    print_heads(reading->records, widths);
    while (read_record(reading)) {
        time = later(time, reading->cells[GAP]);
        printf("   ");
        print_cells(reading, widths);
        printf("  # time %s", grouped(time));
        if (reading->count <= dues->count)
            printf(", due %s", grouped(dues->due[reading->count - 1]));
        printf(", byte %s", grouped(reading->start));
        print_server(", ", counts, reading->cells[ROW]);
        putchar('\n');
    }
    printf("# %s release%s", grouped(reading->count), plural(reading->count));
}

static void json_script(struct reading *reading, struct counts counts, const struct dues *dues)
{
    uint64_t time = 0;
    json_begin("releases", '[');
    while (read_record(reading)) {
        time = later(time, reading->cells[GAP]);
        json_begin(NULL, '{');
        for (size_t column = 0; column < reading->records->columns; column++)
            json_number(reading->records->heads[column], reading->cells[column]);
        json_number("time", time);
        if (reading->count <= dues->count)
            json_number("due", dues->due[reading->count - 1]);
        json_number("byte", reading->start);
        json_server(counts, reading->cells[ROW]);
        json_end();
    }
    json_end();
}

/* Reads how many rows and servers a table has. Stops the program where it can't be read. */
static struct counts count_parts(const struct input *input)
{
    struct table table = start_table(input->bytes);
    while (read_part(&table))
        continue;
    if (table.damaged || table.at < input->bytes.length)
        stop(RIG_CONTENT, "%s is no table: rig show table says where it goes wrong", shown(input->path));
    return (struct counts){true, table.rows, table.servers};
}

int show_script(struct named_file script_file, struct named_file table_file)
{
    static struct input table, script;
    static struct dues dues;
    struct counts counts = {false, 0, 0};
    bool has_table = table_file.path != NULL;
    if (has_table && is_standard(script_file.path) && is_standard(table_file.path))
        stop(RIG_USAGE, "standard input can't be both the table and the script");
    if (has_table) {
        table = read_whole_table(table_file);
        counts = count_parts(&table);
    }
    if (has_table && is_accepted(ask_verdict(table.bytes).status)) {
        script = read_whole_script(script_file, table.bytes);
        dues = find_dues(table.bytes, script);
    } else {
        script = read_script_alone(script_file);
        if (has_table)
            dues.refused = fault_of(ask_verdict(table.bytes), table.bytes, script.bytes);
    }
    bool is_refused = dues.refused.says[0] != '\0', of_table = is_of_table(dues.refused.status);
    const struct input *refused = of_table ? &table : &script;
    const char *kind = of_table ? "table" : "script";
    struct reading reading = start_reading(&script_records, script.bytes);
    if (as_json) {
        json_text("kind", "script");
        json_input("script", &script);
        if (has_table)
            json_input("table", &table);
        json_number("status", RIG_DONE);
        json_script(&reading, counts, &dues);
        if (is_refused)
            json_refusal(&dues.refused, kind, refused->form == AS_TEXT ? word_at(&refused->text, dues.refused.cause) : NULL);
    } else {
        print_script(&reading, counts, &dues);
    }
    expect_read(&reading, script_file.path);
    if (!as_json) {
        puts(", as far as the file goes");
        if (is_refused)
            printf("# replay refuses this %s, %" PRIu32 " at byte %s: %s\n", kind, dues.refused.status,
                   grouped(dues.refused.place), dues.refused.says);
    }
    return RIG_DONE;
}

/* ---- logs */

/* Prints the records of a log that can be read. Odd jobs are named by their server, and late jobs are marked. */
static void print_log(struct reading *reading, struct counts counts)
{
    uint64_t late = 0;
    int widths[MOST_NUMBERS];
    measure(*reading, widths);
    print_heads(reading->records, widths);
    while (read_record(reading)) {
        uint64_t due = reading->cells[LOG_DUE], finish = reading->cells[LOG_FINISH];
        print_cells(reading, widths);
        print_server("  ", counts, reading->cells[LOG_ROW]);
        if (finish > due) {
            printf("  LATE by %s", grouped(finish - due));
            late++;
        }
        putchar('\n');
    }
    printf("%s job%s, %s late", grouped(reading->count), plural(reading->count), grouped(late));
}

static void json_log(struct reading *reading, struct counts counts)
{
    uint64_t late = 0;
    json_begin("jobs", '[');
    while (read_record(reading)) {
        json_begin(NULL, '{');
        for (size_t column = 0; column < reading->records->columns; column++)
            json_number(reading->records->heads[column], reading->cells[column]);
        json_server(counts, reading->cells[LOG_ROW]);
        json_flag("late", reading->cells[LOG_FINISH] > reading->cells[LOG_DUE]);
        late += reading->cells[LOG_FINISH] > reading->cells[LOG_DUE];
        json_end();
    }
    json_end();
    json_number("late", late);
}

/* Compares a log with the one that the replay gives. A log by itself can't tell whether it was cut between records. */
static void hold_to_replay(const char *path, struct bytes log, struct bytes whole)
{
    size_t at = 0;
    while (at < log.length && at < whole.length && log.at[at] == whole.at[at])
        at++;
    bool same = at == log.length && at == whole.length;
    uint64_t jobs = count_numbers(whole) / LOG_NUMBERS;
    if (!as_json)
        puts(same ? ", the whole log of this replay" : "");
    if (!same && at == log.length)
        stop(RIG_CONTENT, "%s is cut off at byte %s: the replay's log goes on, and has %s job%s", shown(path), grouped(at),
             grouped(jobs), plural(jobs));
    if (!same)
        stop(RIG_CONTENT, "%s is not the log of this replay: from byte %s on they differ", shown(path), grouped(at));
}

int show_log(struct named_file file, struct named_file table, struct named_file script)
{
    static struct bytes log;
    const char *path = file.path;
    const struct replayed *replayed = NULL;
    struct counts counts = {false, 0, 0};
    if (file.form == AS_TEXT)
        stop(RIG_USAGE, "a log is always bytes: --text belongs after its name, before that of the table or the script");
    if (table.path != NULL && is_standard(path) && (is_standard(table.path) || is_standard(script.path)))
        stop(RIG_USAGE, "standard input can't be both the log and the table or the script");
    log = read_file(path, SIZE_MAX);
    if (file.form == UNTOLD && is_text(log)) /* A log has a job with the serial 0, which is no text. */
        stop(RIG_CONTENT, "%s is text, and a log is bytes, as replay writes it", shown(path));
    if (table.path != NULL) {
        replayed = replay_files(table, script, NULL);
        struct content content = content_of(replayed->table.bytes);
        counts = (struct counts){is_replayed(replayed->answer.status), content.row_count, content.server_count};
    }
    struct reading reading = start_reading(&log_records, log);
    if (as_json) {
        json_text("kind", "log");
        json_text("log", path);
        if (replayed != NULL) {
            json_input("table", &replayed->table);
            json_input("script", &replayed->script);
        }
        json_number("status", RIG_DONE);
        json_log(&reading, counts);
        if (replayed != NULL)
            json_flag("whole", true); /* Where it is not the whole log of the replay, the program stops below. */
    } else {
        print_log(&reading, counts);
    }
    expect_read(&reading, path);
    if (replayed == NULL) {
        if (!as_json)
            puts(", as far as the file goes");
    } else if (counts.known) {
        hold_to_replay(path, log, replayed->log);
    } else {
        if (!as_json) {
            putchar('\n');
            say_refusal(stdout, "replay", replayed->answer, &replayed->table, &replayed->script);
        }
        stop(RIG_CONTENT, "%s can't be compared with a replay that is refused", shown(path));
    }
    return RIG_DONE;
}
