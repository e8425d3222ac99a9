/* The numbers of a table, and what is wrong with them. The library has its own code. */
#ifndef TABLE_H
#define TABLE_H

#include "rig.h"

/* What a number of a table is, in the order of their spelling. */
enum part { TIMER_S, TIMER_P, ROW_COUNT, ROW_X, ROW_Y, ROW_D, ROW_C, SERVER_COUNT, SERVER_A, SERVER_B, TABLE_END };

/* A table that is being read number by number, whatever the values are. */
struct table {
    struct bytes bytes;
    size_t at;          /* The number that comes next starts here. In a damaged table this is the bad byte. */
    size_t start;       /* The number that was read last starts here. In a damaged table this is where it should. */
    enum part part;     /* This is what was read last. */
    enum part next;     /* This comes next. */
    uint64_t of;        /* The number that was read last belongs to the row or to the server with this number. */
    uint64_t rows;      /* So many rows have been read. */
    uint64_t servers;   /* So many servers have been read. */
    uint64_t values[TABLE_END]; /* For each part this is the value that was read last. */
    bool damaged;       /* A number can't be read, and `at` is its bad byte, or the end where it is cut off. */
};

struct table start_table(struct bytes bytes);

/* Reads one more number. Returns false after the last server, and where the number can't be read. */
bool read_part(struct table *table);

/* Says what is wrong at the place where a number of a table can't be read, as bad_byte does. */
const char *bad_table_byte(struct bytes table, uint64_t place);

/* What an accepted table says (docs/RULES.md, 3.1 to 3.20). */
struct row {
    uint64_t x, y, d, c;
};

struct server {
    uint64_t a, b;
};

struct content {
    uint64_t s, p;
    size_t row_count, server_count;
    struct row rows[JYRMEKKO_MOST_ROWS];
    struct server servers[JYRMEKKO_MOST_SERVERS];
};

/* Reads a table that the library accepts. Rows and servers above the limits are left out. */
struct content content_of(struct bytes table);

/* The demand of a row, and of a server, and the ticks that the timer takes in a length (docs/RULES.md, 5.1, 5.3, 5.16). */
uint64_t row_demand(struct row row, uint64_t length);
uint64_t server_demand(struct server server, uint64_t length);
uint64_t taken_ticks(const struct content *content, uint64_t length);

uint64_t common_divisor(uint64_t one, uint64_t other);

/* Takes one more number into a least common multiple. Returns 0 where one of the two is 0 or above LARGEST_PERIOD. */
uint64_t common_multiple(uint64_t multiple, uint64_t number);

enum { LARGEST_PERIOD = 1048576 }; /* H is at most this (docs/RULES.md, 3.4). */

/*
 * Returns H, the least common multiple of p, all y and all b (docs/RULES.md, 3.4). Stops the program where that is 0 or
 * above its limit, or where a server's a is 0, since no library may accept such a table.
 */
uint64_t period_of(const struct content *content);

/* What a refusal refuses, in the words of the rules (docs/RULES.md, 10.3). */
struct fault {
    uint32_t status;
    uint64_t place;
    uint64_t cause;        /* The number that has to be changed starts here. It is the place, but for a H that is too long. */
    const char *of;        /* This is "row", "server", "timer" or "release", or null where it is none of them. */
    uint64_t number;       /* It is the one with this number. The timer's is 0. */
    const char *name;      /* This is the name of the number that is refused, or null where none is out of its range. */
    uint64_t value;        /* This is its value, where it has a name. */
    uint64_t least, most;  /* This is its range, where it has a name. */
    char says[192];        /* This is all of it, for people. Where it is empty, nothing is refused so at this place. */
};

/*
 * Finds what an answer refuses: in the table with 1 to 5 and 16, and else in the script. Where it is no refusal of
 * verdict or replay, or where nothing is refused so at its place, the fault says nothing.
 */
struct fault fault_of(struct answer answer, struct bytes table, struct bytes script);

/* Returns whether the place of a refusal is one in the table, and not in the script. */
bool is_of_table(uint32_t status);

#endif
