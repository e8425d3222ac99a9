/* Reads a text: decimal numbers, the word 'server', and comments that start with # and go on to the end of the line. */
#include "text.h"

static const char server_word[] = "server";
static const char no_word[] = "is no number"; /* What follows is said when the whole word has been read. */

static bool is_digit(uint8_t byte)
{
    return byte >= '0' && byte <= '9';
}

static bool is_space(uint8_t byte)
{
    return byte == ' ' || (byte >= '\t' && byte <= '\r');
}

size_t length_of_text(struct bytes content)
{
    size_t at = 0;
    for (size_t size = 1; size > 0 && at < content.length; at += size)
        size = is_space(content.at[at]) ? 1 : printable(content.at + at, content.length - at);
    return at;
}

bool is_text(struct bytes content)
{
    return content.length > 0 && length_of_text(content) == content.length;
}

static void set_problem(struct text *text, size_t line, size_t column, const char *problem)
{
    text->problem = problem;
    text->problem_line = line;
    text->problem_column = column;
}

static void put_word(struct text *text)
{
    if (text->count == text->room) {
        text->room = 2 * text->room + 64;
        text->words = resize(text->words, text->room * sizeof text->words[0]);
    }
    text->words[text->count++] = text->word;
}

/* Ends the word that the text is in, if it is in one. */
static void end_word(struct text *text)
{
    if (text->letters > 0 && text->letters < sizeof server_word - 1)
        set_problem(text, text->word.line, text->word.column, no_word);
    else if (text->letters > 0 || text->in_number)
        put_word(text);
    text->letters = 0;
    text->in_number = false;
}

static void start_word(struct text *text)
{
    text->word = (struct word){0, false, text->line, text->column, SIZE_MAX};
    text->word_at = text->at;
}

static void take_digit(struct text *text, uint8_t digit)
{
    if (!text->in_number)
        start_word(text);
    text->in_number = true;
    text->word.value = 10 * text->word.value + (uint64_t)(digit - '0');
    if (text->word.value > JYRMEKKO_LARGEST_NUMBER)
        set_problem(text, text->word.line, text->word.column, "a number is above 2^42 - 1, the largest that can be spelled");
}

/* Takes a character that is no digit, outside comments. The only word is 'server', and it stands apart from numbers. */
static void take_letter(struct text *text, uint8_t letter)
{
    if (text->letters == 0 && !text->in_number)
        start_word(text);
    if (letter == ',' && text->in_number) {
        set_problem(text, text->line, text->column, "a number is written without separators, 4096 and not 4,096, and white space stands between numbers");
    } else if (text->in_number || text->letters == sizeof server_word - 1 ||
               letter != (uint8_t)server_word[text->letters]) {
        set_problem(text, text->word.line, text->word.column, no_word);
    } else {
        text->letters++;
        text->word.is_server = true;
    }
}

static void take_byte(struct text *text, uint8_t byte)
{
    bool ends_line = byte == '\r' || (byte == '\n' && !text->after_cr);
    if (text->in_comment) {
        text->in_comment = byte != '\n' && byte != '\r';
    } else if (is_digit(byte) && text->letters == 0) {
        take_digit(text, byte);
    } else if (is_space(byte) || byte == '#') {
        end_word(text);
        text->in_comment = byte == '#';
    } else {
        take_letter(text, byte);
    }
    if (ends_line) {
        text->line++;
        text->column = 1;
    } else if (byte != '\n' && (byte & 0xC0) != 0x80) { /* The later bytes of a character are not counted. */
        text->column++;
    }
    text->after_cr = byte == '\r';
}

/* Returns how many bytes the mark takes that some editors put in front of a text in UTF-8. */
static size_t length_of_mark(struct source *source)
{
    read_on(source, 3);
    const uint8_t *at = source->content.at;
    return source->content.length >= 3 && at[0] == 0xEF && at[1] == 0xBB && at[2] == 0xBF ? 3 : 0;
}

/* Returns whether a word that started before this byte goes on there. */
static bool goes_on(struct bytes content, size_t at)
{
    return at < content.length && !is_space(content.at[at]) && content.at[at] != '#';
}

/* Says which word is no number, as far as it can be shown on a line. The word starts at this byte. */
static const char *name_word(struct source *source, size_t at)
{
    enum { MOST_SHOWN = 24 };
    static char says[256];
    size_t length = (size_t)snprintf(says, sizeof says, "'"), end = at + MOST_SHOWN;
    read_on(source, end + 4); /* The last character that is shown may be as long as four bytes. */
    struct bytes content = source->content;
    while (at < end && goes_on(content, at)) {
        size_t size = printable(content.at + at, content.length - at);
        if (size == 2 && content.at[at] == 0xC2 && content.at[at + 1] == 0xA0)
            size = 0; /* This space looks like one that ends a word, and does not. */
        if (size == 0)
            length += (size_t)snprintf(says + length, sizeof says - length, "\\x%02X", content.at[at++]);
        for (; size > 0; size--)
            says[length++] = (char)content.at[at++];
    }
    snprintf(says + length, sizeof says - length, "%s' %s: a text has decimal numbers, lines 'server a b' after the rows of a "
             "table, and comments that start with #", goes_on(content, at) ? ".." : "", no_word);
    return says;
}

struct text read_text(struct source *source)
{
    struct text text = {NULL, 0, 0, 1, 1, 0, 0, {0, false, 0, 0, 0}, 0, false, false, false, NULL, 0, 0};
    for (text.at = length_of_mark(source); text.problem == NULL; text.at++) {
        if (text.at == source->content.length)
            read_on(source, text.at < 4096 ? 4096 : 2 * text.at);
        if (text.at == source->content.length)
            break;
        take_byte(&text, source->content.at[text.at]);
    }
    if (text.problem == NULL)
        end_word(&text);
    if (text.problem == no_word)
        text.problem = name_word(source, text.word_at);
    return text;
}

void stop_at_problem(const char *path, const struct text *text)
{
    stop(RIG_CONTENT, "%s:%zu:%zu: %s", shown(path), text->problem_line, text->problem_column, text->problem);
}

const struct word *word_at(const struct text *text, uint64_t place)
{
    for (size_t i = 0; i < text->count; i++)
        if (text->words[i].place == place)
            return &text->words[i];
    return NULL;
}
