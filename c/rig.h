/*
 * The ground that the technician's program and the tests of the calls stand on: how the program ends, files, and numbers.
 * What the program says about tables and scripts comes from the library's calls (include/jyrmekko.h).
 */
#ifndef RIG_H
#define RIG_H

#include "jyrmekko.h"

#include <stdbool.h>
#include <stddef.h>
#include <stdint.h>
#include <stdio.h>

/*
 * These exit statuses are no answers of the library. The rules use 1 to 39, and 0 would read as a pass, so these are
 * other numbers. 69 belongs to the script that builds this program.
 */
enum {
    RIG_DONE = 60,        /* Something was shown or spelled. Nothing is said about any table. */
    RIG_NOTHING = 61,     /* replay: the script releases no job, so nothing was tested. */
    RIG_NO_SCRIPT = 62,   /* explain: the table is overloaded, and the script that was asked for is not written. */
    RIG_USAGE = 64,       /* The command is not used as the help says. */
    RIG_CONTENT = 65,     /* A file is not what it was said to be, or a text is no table and no script. */
    RIG_UNREADABLE = 66,  /* A file can't be read. */
    RIG_NO_ANSWER = 70,   /* The library's status is no answer that it may give. */
    RIG_NO_MEMORY = 71,   /* There is not enough memory. */
    RIG_NOT_WRITTEN = 74  /* A file or standard output can't be written. */
};

/* Says why on standard error, and exits with the status. */
__attribute__((noreturn, format(printf, 2, 3)))
void stop(int status, const char *format, ...);

/* Where this is not null, stop() calls it before it says why, with the status and the reason. */
extern void (*before_stop)(int status, const char *why);

/* Returns a name as it can be printed: control characters, and bytes that are no text, are written as \xNN. */
const char *shown(const char *name);

struct bytes {
    uint8_t *at;
    size_t length;
};

/* files.c: files. Each function stops the program where it can't do what it says. */

/* These two never return null, not even for size 0. */
void *allocate(size_t size);
void *resize(void *block, size_t size);

/* A file that is being read, from its start on. */
struct source {
    const char *path;
    FILE *file;
    struct bytes content; /* This has been read so far. */
    size_t room;
    bool ended; /* The content is the whole file. */
};

/* Opens a file to be read. '-' is standard input. */
struct source open_source(const char *path);

/* Reads on until the content has this many bytes, or the file ends. */
void read_on(struct source *source, size_t length);

void close_source(struct source *source);

/* Reads the whole file, or its first `most` bytes where it has more. */
struct bytes read_file(const char *path, size_t most);

/* Stops the program where the file to be written is one that was read, whatever its name. */
void expect_not_read(const char *path);

/* Writes a file. '-' is standard output. Any other file gets its whole content at once, or stays as it was. */
void write_file(const char *path, struct bytes content);

bool is_standard(const char *path);

/*
 * Returns how many bytes the character at the start of these bytes takes in UTF-8, and 0 where no printable character
 * stands there.
 */
size_t printable(const uint8_t *bytes, size_t length);

/* numbers.c: numbers as bytes (docs/RULES.md, 2.1 to 2.8 and 9.4), and numbers for people. */

enum { MOST_GROUPS = JYRMEKKO_NUMBER_SIZE };

/*
 * Reads the number at *at and moves *at past it. Where none is spelled there, returns false and moves *at to the bad
 * byte, or to the end of the bytes where the number is cut off.
 */
bool read_number(struct bytes bytes, size_t *at, uint64_t *value);

/*
 * Says what is wrong at the place where a number can't be read: which bad byte stands there, or that the bytes end
 * there. Returns null where no number goes wrong at this place. The text stays until the next call.
 */
const char *bad_byte(struct bytes bytes, uint64_t place);

/* Writes a value of at most JYRMEKKO_LARGEST_NUMBER at the start of out, and returns the length of its spelling. */
size_t write_number(uint8_t *out, uint64_t value);

/* Returns how many numbers well spelled bytes hold. Each number has one byte with a clear top bit. */
uint64_t count_numbers(struct bytes bytes);

/* Returns a number for people, with a comma before each three digits: 4096 is 4,096. The text stays for some calls. */
const char *grouped(uint64_t number);

/* Returns "s" where a number asks for a plural. */
const char *plural(uint64_t number);

/* The answer of a call of the library: its status, and the two numbers of the answer buffer. */
struct answer {
    uint32_t status;
    uint64_t first;
    uint64_t second;
};

struct answer answer_of(uint32_t status, const uint8_t *buffer);

#endif
