/*
 * Spells a text as the bytes of a table or a script. A table is s and p of its timer, its row count, four numbers for each
 * row, and a word 'server' with two numbers for each server. The server count is not written: it is put in front of the
 * servers here. A text may also have it as a number, with all servers as plain numbers after it.
 */
#include "commands.h"

#include <stdarg.h>

enum { HEAD = 3, COUNT_AT = 2, PER_ROW = 4, PER_SERVER = 2, PER_RELEASE = 3 };

/* Says what is wrong with a text, at one of its words, or at its end. What it says stays until the next call. */
__attribute__((format(printf, 3, 4)))
static void wrong_at(struct text *text, size_t word, const char *format, ...)
{
    static char problem[256];
    va_list values;
    va_start(values, format);
    vsnprintf(problem, sizeof problem, format, values);
    va_end(values);
    text->problem = problem;
    text->problem_line = word < text->count ? text->words[word].line : text->line;
    text->problem_column = word < text->count ? text->words[word].column : text->column;
}

/* Returns how many numbers stand before the first word 'server'. */
static size_t numbers_in_front(const struct text *text)
{
    size_t numbers = 0;
    while (numbers < text->count && !text->words[numbers].is_server)
        numbers++;
    return numbers;
}

/* Returns whether so many numbers are s, p, the row count, and four for each row. */
static bool has_rows(const struct text *text, size_t numbers)
{
    return numbers >= HEAD && (numbers - HEAD) % PER_ROW == 0 &&
           (numbers - HEAD) / PER_ROW == text->words[COUNT_AT].value;
}

/* Returns whether so many numbers are a row count, and four for each row, as tables were written before they had timers. */
static bool lacks_timer(const struct text *text, size_t numbers)
{
    return numbers > 0 && (numbers - 1) % PER_ROW == 0 && (numbers - 1) / PER_ROW == text->words[0].value;
}

/* Returns whether the numbers of a text have the lines of a table: s and p on one, and the row count alone on the next. */
static bool has_lines_of_table(const struct text *text)
{
    const struct word *words = text->words;
    return text->count >= HEAD && words[0].line == words[1].line && words[1].line != words[COUNT_AT].line &&
           (text->count == HEAD || words[COUNT_AT].line != words[HEAD].line);
}

/* Returns how many of the first `numbers` words stand on the line of one of them, from this one on. */
static size_t count_on_line(const struct text *text, size_t word, size_t numbers)
{
    size_t end = word;
    while (end < numbers && text->words[end].line == text->words[word].line)
        end++;
    return end - word;
}

/*
 * Returns whether the numbers after the head have lines that count: they start a line, and some stand together on one. Where
 * all numbers stand on one line, or each on its own, only their number counts.
 */
static bool has_lines(const struct text *text, size_t numbers)
{
    bool together = false;
    for (size_t i = HEAD + 1; i < numbers; i++)
        together = together || text->words[i].line == text->words[i - 1].line;
    return together && text->words[HEAD].line != text->words[COUNT_AT].line;
}

/* Returns whether so many numbers are a table with its server count, and two numbers for each server. */
static bool has_plain_servers(const struct text *text, size_t numbers)
{
    if (numbers < HEAD || text->words[COUNT_AT].value > (numbers - HEAD) / PER_ROW)
        return false;
    size_t count_at = HEAD + PER_ROW * (size_t)text->words[COUNT_AT].value;
    if (count_at >= numbers || numbers - count_at - 1 != PER_SERVER * text->words[count_at].value)
        return false;
    bool is_alone = text->words[count_at - 1].line != text->words[count_at].line &&
                    count_on_line(text, count_at, numbers) == 1;
    return is_alone || !has_lines(text, numbers); /* Otherwise it could as well be a row that lacks a number. */
}

static void say_no_timer(struct text *text)
{
    wrong_at(text, 0, "a table starts with s and p of its timer: put them on a line in front of the row count, '0 1' where "
                      "the rig has no timer");
}

/* Expects that s, p and the row count stand on one line, or the row count alone on its own, so that none is left out. */
static void expect_head(struct text *text, size_t numbers)
{
    const struct word *words = text->words;
    if (numbers < HEAD)
        return;
    bool p_starts = words[1].line != words[0].line, count_starts = words[COUNT_AT].line != words[1].line;
    bool row_starts = numbers == HEAD || words[HEAD].line != words[COUNT_AT].line;
    if (p_starts && !count_starts)
        say_no_timer(text);
    else if (count_starts && !row_starts)
        wrong_at(text, COUNT_AT, "the row count is missing: it stands on a line of its own, before the rows");
}

/* Counts the rows among the first `numbers` words, line by line. A line that has no whole rows is a problem. */
static uint64_t count_rows(struct text *text, size_t numbers)
{
    uint64_t rows = 0;
    for (size_t at = HEAD, found; at < numbers && text->problem == NULL; at += found) {
        found = count_on_line(text, at, numbers);
        if (found % PER_ROW != 0)
            wrong_at(text, at, "row %s has %s number%s; a row has four, x, y, d and c, and a server is a line 'server a b'",
                     grouped(rows), grouped(found), plural(found));
        rows += found / PER_ROW;
    }
    return rows;
}

/* Says where the numbers before the first server are not those that the row count asks for. */
static void say_wrong_rows(struct text *text, size_t numbers)
{
    if (lacks_timer(text, numbers) && (numbers < HEAD || text->words[HEAD - 1].line == text->words[0].line)) {
        say_no_timer(text);
        return;
    }
    if (numbers < HEAD) {
        wrong_at(text, numbers, "a table starts with s and p of its timer and its row count, and only %zu number%s stand%s "
                 "there", numbers, plural(numbers), numbers == 1 ? "s" : "");
        return;
    }
    uint64_t wanted = text->words[COUNT_AT].value;
    if (numbers > HEAD && text->words[HEAD].line == text->words[COUNT_AT].line) {
        wrong_at(text, COUNT_AT, "the row count is %s, so %s numbers should follow it, and %s do", grouped(wanted),
                 grouped(PER_ROW * wanted), grouped(numbers - HEAD));
        return;
    }
    uint64_t rows = count_rows(text, numbers);
    if (text->problem == NULL)
        wrong_at(text, COUNT_AT, "the row count is %s, but %s row%s follow%s it", grouped(wanted), grouped(rows),
                 plural(rows), rows == 1 ? "s" : "");
}

/* Expects that each word 'server' from this one on has its two numbers. */
static void expect_servers(struct text *text, size_t first)
{
    for (size_t at = first; at < text->count && text->problem == NULL; at += 1 + PER_SERVER) {
        bool whole = text->words[at].is_server && text->count - at > PER_SERVER;
        for (size_t i = 1; whole && i <= PER_SERVER; i++)
            whole = !text->words[at + i].is_server;
        if (!whole)
            wrong_at(text, text->words[at].is_server ? at : at - 1 - PER_SERVER,
                     "a server has two numbers, a and b, and nothing but other servers may follow it");
    }
}

/* Spells a word that is a number at the end of the bytes, which have room for it. */
static void put_number(struct bytes *spelled, struct word *word)
{
    word->place = spelled->length;
    spelled->length += write_number(spelled->at + spelled->length, word->value);
}

static struct bytes spell_words(struct text *text)
{
    struct bytes spelled = {allocate((text->count + 1) * MOST_GROUPS), 0};
    for (size_t i = 0; i < text->count; i++)
        if (!text->words[i].is_server)
            put_number(&spelled, &text->words[i]);
    return spelled;
}

/* Where the rows have lines, each line has whole rows, so that no slip moves a number to the next. */
static struct bytes spell_table(struct text *text)
{
    struct bytes spelled = {NULL, 0};
    size_t numbers = numbers_in_front(text);
    bool has_servers = numbers < text->count, has_plain = !has_servers && has_plain_servers(text, numbers);
    expect_head(text, numbers);
    if (text->problem != NULL)
        return spelled;
    if (has_servers && numbers == 0)
        wrong_at(text, 0, "a server stands after the last row of a table: before it come s and p, the row count, and four "
                          "numbers for each row");
    else if (!has_plain && !has_rows(text, numbers))
        say_wrong_rows(text, numbers);
    else if (has_lines(text, numbers))
        count_rows(text, HEAD + PER_ROW * (size_t)text->words[COUNT_AT].value);
    if (text->problem == NULL)
        expect_servers(text, numbers);
    if (text->problem != NULL)
        return spelled;
    if (has_plain)
        return spell_words(text);
    struct word count = {(text->count - numbers) / (1 + PER_SERVER), false, 0, 0, 0};
    spelled.at = allocate((text->count + 1) * MOST_GROUPS);
    for (size_t i = 0; i <= text->count; i++) {
        if (i == numbers)
            put_number(&spelled, &count);
        if (i == numbers && has_servers)
            text->words[i].place = count.place;
        else if (i < text->count && !text->words[i].is_server)
            put_number(&spelled, &text->words[i]);
    }
    return spelled;
}

/*
 * Returns the first word of a line that has no whole releases, or the number of words where there is no such line. Where no
 * two numbers stand on one line, the lines say nothing, and only the number of numbers counts.
 */
static size_t broken_release(const struct text *text)
{
    bool by_lines = text->count % PER_RELEASE != 0;
    for (size_t i = 1; i < text->count; i++)
        by_lines = by_lines || text->words[i].line == text->words[i - 1].line;
    for (size_t at = 0, found; by_lines && at < text->count; at += found) {
        found = count_on_line(text, at, text->count);
        if (found % PER_RELEASE != 0)
            return at;
    }
    return text->count;
}

static struct bytes spell_script(struct text *text)
{
    size_t numbers = numbers_in_front(text), broken = broken_release(text);
    if (numbers < text->count)
        wrong_at(text, numbers, "a script has no servers: each release is three numbers, its gap, row number and cost");
    else if (broken < text->count) {
        size_t found = count_on_line(text, broken, text->count);
        wrong_at(text, broken, "this line has %s number%s; a release has three, its gap, row number and cost", grouped(found),
                 plural(found));
    }
    return text->problem == NULL ? spell_words(text) : (struct bytes){NULL, 0};
}

/*
 * Spells a text of which nobody said what it is. Where its numbers could also be those of a script, three for each
 * release, it is taken for a table only if its row count starts a line. *as says for what it was taken.
 */
static struct bytes spell_either(struct text *text, const char **as)
{
    bool could_be_script = text->count % PER_RELEASE == 0;
    bool has_servers = numbers_in_front(text) < text->count;
    *as = "a table";
    if (has_servers || has_lines_of_table(text) ||
        (has_rows(text, text->count) && (!could_be_script || text->words[1].line != text->words[COUNT_AT].line)))
        return spell_table(text);
    if (lacks_timer(text, text->count) &&
        (!could_be_script || text->count == 1 || text->words[0].line != text->words[1].line)) {
        say_no_timer(text);
        return (struct bytes){NULL, 0};
    }
    *as = broken_release(text) == text->count ? "a script" : "plain numbers, which are no table and no script";
    return spell_words(text);
}

struct bytes spell_text(struct text *text, enum kind kind)
{
    if (text->problem != NULL)
        return (struct bytes){NULL, 0};
    return kind == TABLE ? spell_table(text) : spell_script(text);
}

int spell(const char *text_path, const char *out_path)
{
    static struct source source;
    static struct text text;
    static struct bytes spelled;
    const char *as = NULL;
    source = open_source(text_path);
    expect_not_read(out_path);
    text = read_text(&source);
    close_source(&source);
    if (text.problem == NULL && text.count == 0)
        stop(RIG_CONTENT, "%s holds no number: there is nothing to spell", shown(text_path));
    if (text.problem == NULL)
        spelled = spell_either(&text, &as);
    if (text.problem != NULL)
        stop_at_problem(text_path, &text);
    write_file(out_path, spelled);
    fprintf(stderr, "rig: %s is spelled as %s\n", shown(text_path), as);
    return RIG_DONE;
}
