/* What the witness of an overloaded table asks for, and the script that shows that nobody can run it in time. */
#ifndef WITNESS_H
#define WITNESS_H

#include "table.h"

/*
 * The jobs of one row that the witness names, or those of one server, in the order of their due times. They come in
 * groups: the jobs of a group are due together, and those of the next group `apart` ticks later.
 */
struct jobs {
    uint64_t row;    /* All of them have this row number. */
    uint64_t count;
    uint64_t group;  /* A group has so many jobs. */
    uint64_t apart;
    uint64_t cost;   /* Each of them costs so many units, but for the last one. */
    uint64_t last;   /* The last one costs so many. */
    uint64_t units;  /* All of them cost so many. */
};

struct witness {
    uint64_t length, demand;
    uint64_t taken; /* The timer takes so many ticks of the length. */
    uint64_t count; /* So many jobs are named by rows and servers together. */
    size_t row_count, server_count;
    struct jobs jobs[JYRMEKKO_MOST_ROWS + JYRMEKKO_MOST_SERVERS]; /* They are in the order of their row numbers. */
};

/* Finds the jobs of the witness that verdict answers. Stops the program where they don't ask for its demand. */
struct witness witness_of(struct answer answer, const struct content *content);

/* The script of a witness. */
struct witness_script {
    struct bytes text;    /* This is the script, as text. Where the witness has too many jobs for a script, it is empty. */
    struct answer answer; /* This is what replay says about it: 23, or 8 where its places don't allow it. */
    char why[256];        /* This says why replay refuses the script, or why there is none. Else it is empty. */
};

/*
 * Makes the script of a witness of this table, and tries it by replay. Stops the program where replay runs all its jobs
 * in time, since the library would then contradict itself.
 */
struct witness_script script_of(const struct witness *witness, struct bytes table);

#endif
