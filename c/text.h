/* Tables and scripts as text: decimal numbers that are written by hand, with comments. */
#ifndef TEXT_H
#define TEXT_H

#include "rig.h"

/* A word of a text is a number, or the word 'server'. Lines and columns are counted from 1, columns in characters. */
struct word {
    uint64_t value;
    bool is_server;
    size_t line;
    size_t column;
    size_t place; /* Its spelling starts here. The first word 'server' has the place of the server count. */
};

struct text {
    struct word *words;
    size_t count;
    size_t room;
    size_t line, column;        /* The text has been read up to here. */
    size_t at;                  /* So many of its bytes have been read. */
    size_t word_at;             /* The word that the text is in starts at this byte. */
    struct word word;           /* This is the word that the text is in. */
    size_t letters;             /* It is in the word 'server', after so many of its letters. */
    bool in_number, in_comment;
    bool after_cr;              /* CR and LF together end one line, and either of them alone does too. */
    const char *problem;        /* This is wrong with the text, at the line and column below, or it is null. */
    size_t problem_line, problem_column;
};

enum kind { TABLE, SCRIPT };

/* Returns how many bytes at the start could be a text: printable characters and white space, in UTF-8. */
size_t length_of_text(struct bytes content);

/* Returns whether all bytes could be a text, and there is at least one. */
bool is_text(struct bytes content);

/* Reads the words of a source, to its end or to the first problem. */
struct text read_text(struct source *source);

/* Spells a text as a table or as a script. Where it is no such thing, it gets a problem, and the bytes are empty. */
struct bytes spell_text(struct text *text, enum kind kind);

/* Stops the program with what is wrong with the text of a file. */
__attribute__((noreturn)) void stop_at_problem(const char *path, const struct text *text);

/* Returns the word that is spelled at this place, or null where none starts there. */
const struct word *word_at(const struct text *text, uint64_t place);

#endif
