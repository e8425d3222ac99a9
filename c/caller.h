/*
 * A suspicious caller of the library. It makes the two calls on any bytes, and checks everything that a caller can see
 * against the rules. The program drive uses it on chosen cases, and the fuzzer on cases of its own.
 */
#ifndef CALLER_H
#define CALLER_H

#include "rig.h"

/* The answers of the two calls. The verdict has status 0 where it was not asked for, as its search would be long. */
struct answers {
    struct answer verdict;
    struct answer replay; /* The log buffer has room for any log. */
};

/*
 * Judges the table, and replays the script on it twice: with room for any log, and with a log buffer of log_length
 * bytes. Where a rule is broken, abort() ends the program.
 */
struct answers call_on(struct bytes table, struct bytes script, size_t log_length);

#endif
