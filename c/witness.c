/*
 * The jobs that a witness names, and the script that releases them (docs/RULES.md, 5.10, 5.11 and 5.17). All of them are
 * due by the end of the witness's length, and they ask for more units than it has free ticks. So whoever runs them is
 * late with one.
 */
#define _XOPEN_SOURCE 700

#include "witness.h"

#include "commands.h"

#include <inttypes.h>
#include <stdlib.h>

/* No script is written for more jobs than this. It would be too long to be of help to anybody. */
enum { MOST_JOBS = 1000000 };

enum { RELEASE_NUMBERS = 3 };

static struct jobs jobs_of_row(struct row row, uint64_t number, uint64_t length)
{
    uint64_t count = length < row.d ? 0 : ((length - row.d) / row.y + 1) * row.x;
    return (struct jobs){number, count, row.x, row.y, row.c, row.c, count * row.c};
}

/*
 * The rules name one odd job of a * L / b units, rounded down. Where it costs more than an odd job may, it is split into
 * jobs of k * a units, with the largest k that is allowed, and a last one with the rest. Each job of k * a units is due
 * exactly k * b ticks after the one before it, and nothing is rounded there. So the last one is due when one job of all
 * the units would be: after units * b / a ticks, rounded up. The units are at most a * L / b, so that is L at the latest.
 */
static struct jobs jobs_of_server(struct server server, uint64_t number, uint64_t length)
{
    uint64_t units = server_demand(server, length);
    uint64_t k = JYRMEKKO_MOST_ODD_COST / server.a, cost = k * server.a;
    if (units <= JYRMEKKO_MOST_ODD_COST)
        return (struct jobs){number, units > 0, 1, 0, units, units, units};
    uint64_t count = (units - 1) / cost + 1;
    return (struct jobs){number, count, 1, k * server.b, cost, units - (count - 1) * cost, units};
}

struct witness witness_of(struct answer answer, const struct content *content)
{
    struct witness witness = {answer.first, answer.second, taken_ticks(content, answer.first), 0, content->row_count,
                              content->server_count, {{0, 0, 0, 0, 0, 0, 0}}};
    size_t all = 0;
    for (size_t i = 0; i < content->row_count; i++, all++)
        witness.jobs[all] = jobs_of_row(content->rows[i], all, witness.length);
    for (size_t i = 0; i < content->server_count; i++, all++)
        witness.jobs[all] = jobs_of_server(content->servers[i], all, witness.length);
    uint64_t demand = witness.taken;
    for (size_t i = 0; i < all; i++) {
        witness.count += witness.jobs[i].count;
        demand += witness.jobs[i].units;
    }
    if (demand != witness.demand || demand <= witness.length)
        stop(RIG_NO_ANSWER, "the library's verdict says that the demand in %s tick%s is %s unit%s, and it is %s",
             grouped(witness.length), plural(witness.length), grouped(witness.demand), plural(witness.demand),
             grouped(demand));
    return witness;
}

/* A script that is being written as text and as bytes. */
struct script {
    FILE *text;
    char *text_at;
    size_t text_length;
    struct bytes bytes; /* It has room for all jobs of the witness. */
    uint64_t time;      /* The last release is at this time. */
};

/* Writes the releases, all at one time, of some jobs of a row or a server. The first of them has this number among them. */
static void release(struct script *script, const struct jobs *jobs, uint64_t first, uint64_t count, uint64_t time)
{
    for (uint64_t i = first; i < first + count; i++) {
        uint64_t cost = i + 1 < jobs->count ? jobs->cost : jobs->last;
        uint64_t numbers[RELEASE_NUMBERS] = {time - script->time, jobs->row, cost};
        for (size_t j = 0; j < RELEASE_NUMBERS; j++)
            script->bytes.length += write_number(script->bytes.at + script->bytes.length, numbers[j]);
        fprintf(script->text, "%" PRIu64 " %" PRIu64 " %" PRIu64 "\n", numbers[0], numbers[1], numbers[2]);
        script->time = time;
    }
}

/* Writes a comment that says how many jobs of a row or a server there are, where there are any. */
static void name_jobs(FILE *text, const struct witness *witness, size_t of)
{
    const struct jobs *jobs = &witness->jobs[of];
    if (jobs->count == 0)
        return;
    fprintf(text, "# row %" PRIu64, jobs->row);
    if (of >= witness->row_count)
        fprintf(text, ", server %zu", of - witness->row_count);
    fprintf(text, ": %s job%s\n", grouped(jobs->count), plural(jobs->count));
}

/*
 * Writes the comment at the top of a script. Its words keep the text from being taken for bytes: of three small letters in
 * a row one would be the row number of a release, and it would be above that of every row and server.
 */
static void write_head(FILE *text, const struct witness *witness)
{
    uint64_t units = witness->demand - witness->taken;
    fprintf(text, "# the witness: %s for %s unit%s in the first ", witness->count == 1 ? "this job asks" : "these jobs ask",
            grouped(units), plural(units));
    if (witness->length > 1)
        fprintf(text, "%s ", grouped(witness->length));
    fprintf(text, "tick%s", plural(witness->length));
    if (witness->taken > 0)
        fprintf(text, ", of which the timer takes %s", grouped(witness->taken));
    fputc('\n', text);
}

/* Releases all jobs at 0, in the order of rows, as the rules name them. */
static void write_together(struct script *script, const struct witness *witness)
{
    fputs("# gap, row and cost of each job, all released at 0:\n", script->text);
    for (size_t i = 0; i < witness->row_count + witness->server_count; i++) {
        name_jobs(script->text, witness, i);
        release(script, &witness->jobs[i], 0, witness->jobs[i].count, 0);
    }
}

/*
 * Releases each job as late as its due time allows. Where all jobs are released at 0, the groups of a row are due at d,
 * d + y, d + 2 * y and so on. They are due then too where they are released at 0, y, 2 * y and so on, since each is due d
 * ticks after its release, and y ticks after the group before it. The odd jobs of a server are released at the due time
 * of the one before, from which theirs is counted anyway. So no due time moves.
 */
static void write_late(struct script *script, const struct witness *witness)
{
    uint64_t released[JYRMEKKO_MOST_ROWS + JYRMEKKO_MOST_SERVERS] = {0};
    fprintf(script->text, "# all at once they would need more than the %d places that replay has, so each job is released\n"
            "# as late as it can be without being due later\n", JYRMEKKO_MOST_PENDING);
    for (size_t i = 0; i < witness->row_count + witness->server_count; i++)
        name_jobs(script->text, witness, i);
    fputs("# gap, row and cost of each job:\n", script->text);
    for (;;) {
        const struct jobs *next = NULL;
        uint64_t time = 0;
        for (size_t i = 0; i < witness->row_count + witness->server_count; i++) {
            const struct jobs *jobs = &witness->jobs[i];
            if (released[i] == jobs->count)
                continue;
            uint64_t then = released[i] / jobs->group * jobs->apart;
            if (next == NULL || then < time) {
                next = jobs;
                time = then;
            }
        }
        if (next == NULL)
            return;
        release(script, next, released[next->row], next->group, time);
        released[next->row] += next->group;
    }
}

/* Makes a script. The words `why` are a comment at its top, and may be empty. */
static struct script make_script(const struct witness *witness, bool late, const char *why)
{
    struct script script = {NULL, NULL, 0, {allocate((size_t)witness->count * RELEASE_NUMBERS * MOST_GROUPS), 0}, 0};
    script.text = open_memstream(&script.text_at, &script.text_length);
    if (script.text == NULL)
        stop(RIG_NO_MEMORY, "there is no memory for the script");
    write_head(script.text, witness);
    if (why[0] != '\0')
        fprintf(script.text, "# %s\n", why);
    (late ? write_late : write_together)(&script, witness);
    bool whole = !ferror(script.text);
    if (fclose(script.text) != 0 || !whole)
        stop(RIG_NO_MEMORY, "there is no memory for the script");
    script.bytes.at = resize(script.bytes.at, script.bytes.length);
    return script;
}

static void free_script(struct script *script)
{
    free(script->text_at);
    free(script->bytes.at);
}

/*
 * Tries a script. A job is late, or the places of replay are full at one of its releases. Any other answer would
 * contradict the verdict.
 */
static struct answer try_script(const struct script *script, struct bytes table)
{
    size_t room = JYRMEKKO_LOG_SIZE(script->bytes.length);
    struct bytes log = {allocate(room), room};
    struct answer answer = ask_replay(table, script->bytes, log);
    free(log.at);
    if (answer.status != JYRMEKKO_LATE &&
        (answer.status != JYRMEKKO_PLACES_FULL || fault_of(answer, table, script->bytes).says[0] == '\0'))
        stop(RIG_NO_ANSWER, "the library's replay says %" PRIu32 " about jobs that nobody can run in time", answer.status);
    return answer;
}

struct witness_script script_of(const struct witness *witness, struct bytes table)
{
    static struct script script, late;
    struct witness_script made = {{NULL, 0}, {0, 0, 0}, ""};
    if (witness->count > MOST_JOBS) {
        snprintf(made.why, sizeof made.why, "the witness has %s jobs, and a script is written for at most %s",
                 grouped(witness->count), grouped(MOST_JOBS));
        return made;
    }
    script = make_script(witness, false, "");
    made.answer = try_script(&script, table);
    if (made.answer.status == JYRMEKKO_PLACES_FULL) {
        late = make_script(witness, true, "");
        struct answer of_late = try_script(&late, table);
        if (of_late.status == JYRMEKKO_PLACES_FULL) {
            snprintf(made.why, sizeof made.why, "replay refuses this script with %" PRIu32 " at %s", made.answer.status,
                     fault_of(made.answer, table, script.bytes).says);
            free_script(&late);
            late = make_script(witness, false, made.why);
        } else {
            made.answer = of_late;
        }
        free_script(&script);
        script = late;
    }
    made.text = (struct bytes){(uint8_t *)script.text_at, script.text_length};
    return made;
}
