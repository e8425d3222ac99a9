/*
 * Reads texts that libFuzzer makes up, as a table, as a script and as either, and holds what comes of it to the rules: a text
 * is spelled whole or not at all, each number at its place, and what the library refuses in it is named.
 */
#include "commands.h"

#include "answered.h"

#include <stdlib.h>
#include <string.h>

static void expect(bool kept, const char *rule)
{
    if (kept)
        return;
    fprintf(stderr, "rule broken: %s\n", rule);
    abort();
}

/* Returns how many lines a text has. CR and LF together end one line, and either of them alone does too. */
static size_t count_lines(const uint8_t *data, size_t size)
{
    size_t lines = 1;
    for (size_t i = 0; i < size; i++)
        lines += data[i] == '\r' || (data[i] == '\n' && (i == 0 || data[i - 1] != '\r'));
    return lines;
}

static void expect_words(const struct text *text, struct bytes spelled, size_t lines)
{
    size_t next = 0; /* The spelling of the next number starts here, or one number later: a server count has no word. */
    uint64_t value;
    for (size_t i = 0; i < text->count; i++) {
        const struct word *word = &text->words[i], *before = i > 0 ? word - 1 : NULL;
        expect(word->line >= 1 && word->column >= 1 && word->line <= lines, "a word stands on a line of the text");
        expect(before == NULL || word->line > before->line || (word->line == before->line && word->column > before->column),
               "words stand one after the other");
        if (word->is_server)
            continue;
        size_t at = word->place;
        expect(at >= next && read_number(spelled, &at, &value) && value == word->value, "each number is spelled at its place");
        expect(word_at(text, word->place) == word, "a place has one word");
        next = at;
    }
    expect(count_numbers(spelled) <= text->count + 1, "nothing but the words and a server count is spelled");
}

static void expect_table(struct bytes spelled)
{
    struct table table = start_table(spelled);
    while (read_part(&table))
        continue;
    expect(!table.damaged && table.at == spelled.length, "the text of a table is spelled as a whole table");
    struct answer answer = ask_verdict(spelled);
    note(answer.status, answer.first);
    if (is_accepted(answer.status))
        return;
    struct fault fault = fault_of(answer, spelled, (struct bytes){NULL, 0});
    expect(fault.says[0] != '\0' && fault.status == answer.status && fault.place == answer.first, "a refusal is named");
    expect(answer.status != JYRMEKKO_MISSPELLED && answer.status != JYRMEKKO_EXTRA_BYTES, "a text has neither 1 nor 4");
}

static void try_text(const uint8_t *data, size_t size, enum kind kind)
{
    struct source source = {"a text", NULL, {allocate(size), size}, size, true};
    memcpy(source.content.at, data, size);
    struct text text = read_text(&source);
    struct bytes spelled = spell_text(&text, kind);
    size_t lines = count_lines(data, size);
    if (text.problem != NULL) {
        expect(spelled.length == 0 && spelled.at == NULL, "a text with a problem is not spelled");
        expect(text.problem_line >= 1 && text.problem_line <= lines && text.problem_column >= 1, "a problem has its line");
        expect(text.problem_column <= size + 1 && strlen(text.problem) > 0, "a problem has its column");
    } else {
        expect_words(&text, spelled, lines);
        if (kind == TABLE)
            expect_table(spelled);
        expect(kind != SCRIPT || count_numbers(spelled) % 3 == 0, "a release has three numbers");
    }
    free(spelled.at);
    free(text.words);
    free(source.content.at);
}

int LLVMFuzzerTestOneInput(const uint8_t *data, size_t size)
{
    try_text(data, size, TABLE);
    try_text(data, size, SCRIPT);
    return 0;
}
