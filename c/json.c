#define _XOPEN_SOURCE 700

#include "json.h"

#include <inttypes.h>
#include <stdlib.h>

bool as_json;
static FILE *said; /* The value is printed here. */

enum { MOST_DEPTH = 8 };
static FILE *made;          /* The value is made in memory, so that nothing is printed of one that is never whole. */
static char *made_text;
static size_t made_length;
static char closing[MOST_DEPTH];
static bool filled[MOST_DEPTH]; /* Something stands in the object or list already. */
static size_t depth;

/* Writes a text between quotation marks. What is no character of UTF-8 is written as \\xNN, as in names of files. */
static void quote(FILE *out, const char *text)
{
    fputc('"', out);
    for (const uint8_t *in = (const uint8_t *)text; *in != '\0';) {
        size_t size = printable(in, 4); /* The zero byte at the end is part of no character. */
        if (*in == '"' || *in == '\\')
            fputc('\\', out);
        if (size == 0 && *in < 0x80)
            fprintf(out, "\\u%04x", *in++);
        else if (size == 0)
            fprintf(out, "\\\\x%02X", *in++);
        for (; size > 0; size--)
            fputc(*in++, out);
    }
    fputc('"', out);
}

/* Writes what comes before a value: a comma after another one, and the value's name. */
static void start_value(const char *name)
{
    if (made == NULL) {
        made = open_memstream(&made_text, &made_length);
        if (made == NULL)
            stop(RIG_NO_MEMORY, "there is no memory for what is to be said");
    }
    if (depth > 0 && filled[depth - 1])
        fputc(',', made);
    if (depth > 0)
        filled[depth - 1] = true;
    if (name != NULL) {
        quote(made, name);
        fputc(':', made);
    }
}

void json_begin(const char *name, char bracket)
{
    start_value(name);
    if (depth == MOST_DEPTH)
        stop(RIG_NO_ANSWER, "there are too many objects inside each other");
    fputc(bracket, made);
    filled[depth] = false;
    closing[depth++] = bracket == '{' ? '}' : ']';
}

void json_end(void)
{
    fputc(closing[--depth], made);
}

void json_number(const char *name, uint64_t number)
{
    json_signed(name, false, number);
}

void json_signed(const char *name, bool negative, uint64_t size)
{
    start_value(name);
    fprintf(made, "%s%" PRIu64, negative ? "-" : "", size);
}

void json_text(const char *name, const char *text)
{
    start_value(name);
    if (text == NULL)
        fputs("null", made);
    else
        quote(made, text);
}

void json_flag(const char *name, bool flag)
{
    start_value(name);
    fputs(flag ? "true" : "false", made);
}

static void stop_in_json(int status, const char *why)
{
    fprintf(said, "{\"status\":%d,\"answer\":\"error\",\"message\":", status);
    quote(said, why);
    fputs("}\n", said);
}

void start_json(FILE *out)
{
    as_json = true;
    said = out;
    before_stop = stop_in_json;
}

void print_json(void)
{
    if (made == NULL || depth > 0 || fclose(made) != 0)
        stop(RIG_NO_MEMORY, "there is no memory for what is to be said");
    fprintf(said, "%s\n", made_text);
    free(made_text);
}
