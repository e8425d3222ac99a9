/* How much room a feasible table leaves: its shares, its least slack, and how much each row's cost could grow. */
#ifndef ROOM_H
#define ROOM_H

#include "table.h"

/* A fraction in lowest terms. */
struct fraction {
    uint64_t numerator, denominator;
};

/* A length of time with its demand, in which the taken ticks are counted. Its slack is the length minus the demand. */
struct slack {
    bool found;
    uint64_t length, demand;
};

struct room {
    struct fraction sum;   /* So much of all ticks is asked for by the rows, the servers and the timer together. */
    struct fraction timer;
    struct fraction rows[JYRMEKKO_MOST_ROWS];
    struct fraction servers[JYRMEKKO_MOST_SERVERS];
    struct slack least;    /* Where the table has no row and no server, none is found. */
    uint64_t largest_c[JYRMEKKO_MOST_ROWS]; /* With this c, and all else as it is, the table is feasible just so. */
};

/* Finds the room that a feasible table leaves. Stops the program where the table is not feasible. */
struct room room_of(const struct content *content);

#endif
