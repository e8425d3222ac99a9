/* What the commands of the technician's program do, and what they share. */
#ifndef COMMANDS_H
#define COMMANDS_H

#include "table.h"
#include "text.h"

/* How a file is read: as bytes or as text, as an option said, or as its content tells. */
enum form { UNTOLD, AS_BYTES, AS_TEXT };

/* A file that is named in the command, and the form that was told for it. */
struct named_file {
    const char *path;
    enum form form;
};

/* inputs.c: tables and scripts from files. */

/* A table or a script that was read from a file. */
struct input {
    const char *path;
    enum form form;     /* It was read in this form. */
    struct bytes bytes; /* This is it, as bytes. */
    struct text text;   /* Where it was read as text, these are its words. */
};

/*
 * Reads a table. A file of bytes is read only up to the length of the longest table. Where the form is not told, it is
 * text if all of the file could be text, and else bytes. Then it is said on standard error which it was.
 */
struct input read_table(struct named_file file);

/* Reads all of a table's file, as read_table does. */
struct input read_whole_table(struct named_file file);

/*
 * Reads a script for a table, as read_table does. A file of bytes is read only up to what replay refuses. Where all of the
 * file could be text, and replay would accept it as bytes too, the program stops and asks for the form. *answer is what
 * replay answers for the script without room for a log. The file at out_path will be written later: it must be none of the
 * files that are read, and the path may be null.
 */
struct input read_script(struct named_file file, struct bytes table, const char *out_path, struct answer *answer);

/* Reads all of a script's file, as read_script does. */
struct input read_whole_script(struct named_file file, struct bytes table);

/*
 * Reads a script of which no table is known. Where it could be text, but is no text of a script or has no release, and some
 * table could accept it as bytes, the program asks too.
 */
struct input read_script_alone(struct named_file file);

/* Makes JSON of how a file was read. */
void json_input(const char *name, const struct input *input);

/* calls.c: the library's two calls. */

struct answer ask_verdict(struct bytes table);
struct answer ask_replay(struct bytes table, struct bytes script, struct bytes log);

/*
 * Replays a script with room for any log. With 22 and 23 the bytes are exactly the log, and else they are empty. Stops the
 * program where the log is said to be longer than its buffer.
 */
struct bytes log_of(struct bytes table, const struct input *script, struct answer *answer);

struct replayed {
    struct input table, script;
    struct answer answer;
    struct bytes log; /* With 22 and 23 this is exactly the log, and else it is empty. */
};

/* Replays files. The file at out_path will be written later, as in read_script. */
const struct replayed *replay_files(struct named_file table, struct named_file script, const char *out_path);

bool is_accepted(uint32_t status);  /* The answer of verdict is 20 or 21. */
bool is_replayed(uint32_t status);  /* The answer of replay is 22 or 23. */

/* answers.c: what the library answers, for people and in JSON. */

/*
 * Says a refusal. The script may be null where the call has none. A status that is no refusal stops the program, and so
 * does one at a place where nothing is refused so.
 */
void say_refusal(FILE *out, const char *call, struct answer answer, const struct input *table, const struct input *script);

/* Makes JSON of what is refused in a table or a script, which `file` says. The word of its text may be null. */
void json_refusal(const struct fault *fault, const char *file, const struct word *word);

/* Says the verdict on a table, as judge() does. In JSON the witness is left to the caller. */
void say_verdict(FILE *out, struct answer answer, const struct input *table);

/* The commands. Each returns the exit status. Paths may be null where the command has none of that kind. */

int judge(struct named_file table);
int play(struct named_file table, struct named_file script, const char *log_path);
int explain(struct named_file table, const char *script_path);
int show_table(struct named_file table);
int show_script(struct named_file script, struct named_file table);
int show_log(struct named_file log, struct named_file table, struct named_file script);
int spell(const char *text_path, const char *out_path);

/* summary.c: what a log says, row by row. */

enum { LOG_NUMBERS = 5 }; /* Each record of a log has this many numbers. */
enum { LOG_SERIAL, LOG_ROW, LOG_RELEASE, LOG_DUE, LOG_FINISH };

/* Reads one record. Returns false at the end of the log, and where the record can't be read to its end. */
bool read_log_record(struct bytes log, size_t *at, uint64_t record[LOG_NUMBERS]);

/* Says how many jobs of each row and server were played, how many were late, and how near they came to it. */
void say_summary(FILE *out, struct bytes log, const struct content *content);

/* Makes a column at least as wide as a text. */
void widen(int *width, const char *text);

#endif
