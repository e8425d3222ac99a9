/*
 * The library's calls on a machine whose processor it was not compiled for. The archive is made for x86-64. On other
 * machines the tests link client.c in its place, which has the same functions. Each hands its arguments to server.c, a
 * program for x86-64 that is linked with the archive and run by an emulator. It hands back what the archive's call
 * answered and wrote. So the archive itself is tested.
 */
#ifndef EMULATED_CALLS_H
#define EMULATED_CALLS_H

#include <stddef.h>
#include <stdint.h>

enum call { VERDICT, REPLAY, RUN_START, RUN_RELEASE, RUN_TICK, RUN_END, TRACE, WRITE_NUMBER, CHOOSE };

enum { MOST_LENT = 4, MOST_NUMBERS = 2, RUN_SIZE = 47872 };

/* A live run of include/jyrmekko.h, of RUN_SIZE bytes. */
struct jyrmekko_run;

/* A buffer that is lent to a call. */
struct lent {
    uint64_t length;
    uint32_t is_null;
    uint32_t is_written; /* The call may write to it. */
};

/* A request is handed over ahead of the buffers' bytes. */
struct request {
    uint32_t call;
    uint32_t count; /* There are so many buffers. */
    uint64_t numbers[MOST_NUMBERS];
    struct lent lent[MOST_LENT];
};

/* The answer is the call's result as a uint64_t, and then the bytes of the buffers that it may write to, in order. */

#endif
