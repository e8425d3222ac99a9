/*
 * Tests that a thread whose stack has JYRMEKKO_STACK_SIZE bytes can make verdict() and replay(), and one whose stack has
 * JYRMEKKO_RUN_STACK_SIZE bytes every call, on the inputs that ask the most of them. A guard page stands below the stack,
 * so that a call which needs more ends its process. Each case has a process of its own. The last line is 'N passed, M
 * failed'.
 */
#define _GNU_SOURCE

#include "jyrmekko.h"

#include "stack_inputs.h"

#include <limits.h>
#include <pthread.h>
#include <signal.h>
#include <stdio.h>
#include <string.h>
#include <sys/resource.h>
#include <sys/wait.h>
#include <unistd.h>

/* ---- the calls, on a thread */

enum calls {
    VERDICT = 1, REPLAY = 2, BOTH = VERDICT | REPLAY,
    START = 4, RELEASE = 8, TICK = 16, END = 32, ALL = BOTH | START | RELEASE | TICK | END
};
enum outcome { AS_WANTED = 60, OTHER_STATUS, NO_THREAD, OVERFLOWED };

/* All that the thread needs stands here, and not on its stack. */
static const struct input *lent;
static enum calls wanted_calls;
static uint8_t log_buffer[JYRMEKKO_LOG_SIZE(MOST_SCRIPT)], answer[JYRMEKKO_ANSWER_SIZE];
static enum outcome outcome;
static struct jyrmekko_run prepared, run; /* The live calls are made on a copy of the run that is prepared. */
static uint64_t last_serial;
static uint32_t wanted_live[END + 1];     /* They have to return these statuses. */

/* Makes one of the live calls. */
static uint32_t call_live(enum calls call)
{
    switch (call) {
    case START:
        return run_start(lent->table, lent->table_len, &run, answer, sizeof answer);
    case RELEASE:
        return run_release(&run, 0, 1, answer, sizeof answer);
    case TICK:
        return run_tick(&run, answer, sizeof answer);
    default:
        return run_end(&run, last_serial, answer, sizeof answer);
    }
}

/* Prepares a run on the input's table, with the jobs of its script, and finds what the live calls say on a large stack. */
static void prepare(const struct input *in)
{
    unsigned call, i;
    lent = in;
    last_serial = 0;
    call_live(START);
    for (i = 0; i + 2 < in->script_len; i += 3) {
        if (in->script[i] > 0) {
            call_live(TICK);
        }
        if (run_release(&run, in->script[i + 1], in->script[i + 2], answer, sizeof answer) == JYRMEKKO_ACCEPTED) {
            last_serial = answer[0] + 256u * answer[1];
        }
    }
    prepared = run;
    for (call = START; call <= END; call *= 2) {
        run = prepared;
        wanted_live[call] = call_live((enum calls)call);
    }
}

static void *make_calls(void *nothing)
{
    unsigned call;
    outcome = AS_WANTED;
    if ((wanted_calls & VERDICT) != 0
        && verdict(lent->table, lent->table_len, answer, sizeof answer) != lent->judged) {
        outcome = OTHER_STATUS;
    }
    if ((wanted_calls & REPLAY) != 0
        && replay(lent->table, lent->table_len, lent->script, lent->script_len, log_buffer, lent->log_len, answer,
                  sizeof answer) != lent->replayed) {
        outcome = OTHER_STATUS;
    }
    for (call = START; call <= END; call *= 2) {
        run = prepared;
        if ((wanted_calls & call) != 0 && call_live((enum calls)call) != wanted_live[call]) {
            outcome = OTHER_STATUS;
        }
    }
    return nothing;
}

static enum outcome call_on_thread(size_t stack_size)
{
    pthread_attr_t attributes;
    pthread_t thread;
    if (pthread_attr_init(&attributes) != 0 || pthread_attr_setstacksize(&attributes, stack_size) != 0
        || pthread_attr_setguardsize(&attributes, (size_t)sysconf(_SC_PAGESIZE)) != 0
        || pthread_create(&thread, &attributes, make_calls, NULL) != 0 || pthread_join(thread, NULL) != 0) {
        return NO_THREAD;
    }
    return outcome;
}

/* Makes the calls on a thread whose stack has this size, in a process of its own. */
static enum outcome try_stack(const struct input *in, enum calls calls, size_t stack_size)
{
    int status;
    pid_t child;
    lent = in;
    wanted_calls = calls;
    fflush(stdout);
    child = fork();
    if (child == 0) {
        struct rlimit no_core = {0, 0};
        setrlimit(RLIMIT_CORE, &no_core);
        _exit((int)call_on_thread(stack_size));
    }
    if (child < 0 || waitpid(child, &status, 0) != child) {
        return NO_THREAD;
    }
    if (WIFSIGNALED(status)) {
        return WTERMSIG(status) == SIGSEGV ? OVERFLOWED : NO_THREAD;
    }
    return (enum outcome)WEXITSTATUS(status);
}

/* ---- the tests */

static unsigned passed, failed;

static void check(enum outcome found, enum outcome wanted, const char *name)
{
    static const char *const words[] = {"the statuses are right", "a status is wrong", "there is no such thread",
                                        "the stack overflows"};
    if (found == wanted) {
        passed++;
    } else {
        failed++;
        printf("%s: %s\n", name,
               found >= AS_WANTED && found <= OVERFLOWED ? words[found - AS_WANTED] : "the process ends early");
    }
}

/* Rounds up to a size that a thread's stack may have: whole pages, and no less than the system allows. */
static size_t stack_of(size_t size)
{
    size_t page = (size_t)sysconf(_SC_PAGESIZE), least = (size_t)PTHREAD_STACK_MIN;
    return ((size > least ? size : least) + page - 1) / page * page;
}

/* Returns the smallest stack on which a thread can make the calls, if it can on JYRMEKKO_RUN_STACK_SIZE bytes. */
static size_t measure(const struct input *in, enum calls calls)
{
    size_t page = (size_t)sysconf(_SC_PAGESIZE);
    size_t enough = stack_of(JYRMEKKO_RUN_STACK_SIZE) / page, too_small = stack_of(0) / page - 1;
    while (enough - too_small > 1) {
        size_t between = too_small + (enough - too_small) / 2;
        if (try_stack(in, calls, between * page) == AS_WANTED) {
            enough = between;
        } else {
            too_small = between;
        }
    }
    return enough * page;
}

/* Notes the larger size. */
static void note(size_t *most, size_t size)
{
    *most = size > *most ? size : *most;
}

/* The most that a thread needs for each live call, on any input. */
static size_t most_for[END + 1];

/* Measures the live calls, and makes them all on one thread. */
static void try_live(const struct input *in)
{
    unsigned call;
    prepare(in);
    for (call = START; call <= END; call *= 2) {
        note(&most_for[call], measure(in, (enum calls)call));
    }
    check(try_stack(in, ALL, stack_of(JYRMEKKO_RUN_STACK_SIZE)), AS_WANTED, in->name);
}

int main(void)
{
    size_t most_needed = 0, most_for_live, i;
    add_inputs();
    for (i = 0; i < input_count; i++) {
        const struct input *in = &inputs[i];
        size_t for_verdict = measure(in, VERDICT), for_replay = measure(in, REPLAY);
        check(try_stack(in, VERDICT, stack_of(JYRMEKKO_STACK_SIZE)), AS_WANTED, in->name);
        check(try_stack(in, REPLAY, stack_of(JYRMEKKO_STACK_SIZE)), AS_WANTED, in->name);
        check(try_stack(in, BOTH, stack_of(JYRMEKKO_STACK_SIZE)), AS_WANTED, in->name);
        printf("%s: a thread needs a stack of %lu bytes for verdict, and of %lu bytes for replay\n", in->name,
               (unsigned long)for_verdict, (unsigned long)for_replay);
        note(&most_needed, for_verdict);
        note(&most_needed, for_replay);
        try_live(in);
    }
    printf("a thread needs a stack of %lu bytes, and JYRMEKKO_STACK_SIZE is %lu\n", (unsigned long)most_needed,
           (unsigned long)JYRMEKKO_STACK_SIZE);
    most_for_live = most_needed;
    for (i = START; i <= END; i *= 2) {
        note(&most_for_live, most_for[i]);
    }
    printf("a thread needs a stack of %lu bytes for run_start, %lu for run_release, %lu for run_tick and %lu for run_end\n",
           (unsigned long)most_for[START], (unsigned long)most_for[RELEASE], (unsigned long)most_for[TICK],
           (unsigned long)most_for[END]);
    printf("a thread needs a stack of %lu bytes for every call, and JYRMEKKO_RUN_STACK_SIZE is %lu\n",
           (unsigned long)most_for_live, (unsigned long)JYRMEKKO_RUN_STACK_SIZE);
    memset(&prepared, 0, sizeof prepared); /* This run was never started. */
    wanted_live[RELEASE] = wanted_live[TICK] = wanted_live[END] = JYRMEKKO_RUN_NOT_SOUND;
    check(try_stack(&inputs[input_count - 1], RELEASE | TICK | END, stack_of(JYRMEKKO_RUN_STACK_SIZE)), AS_WANTED, "never started");
#ifdef __x86_64__ /* The test can fail. On other processors the library has a stack of its own, in the emulator. */
    check(try_stack(inputs, REPLAY, stack_of(JYRMEKKO_STACK_SIZE / 2)), OVERFLOWED, "half of JYRMEKKO_STACK_SIZE");
    check(try_stack(inputs, RELEASE, stack_of(JYRMEKKO_RUN_STACK_SIZE / 2)), OVERFLOWED, "half of JYRMEKKO_RUN_STACK_SIZE");
#endif
    printf("%u passed, %u failed\n", passed, failed);
    return failed != 0;
}
