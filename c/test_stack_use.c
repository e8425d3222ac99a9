/*
 * Tests the column of jyrmekko.h that says how many bytes of stack each call takes below its caller, on the inputs that
 * ask the most of it. Each call is made twice in a process of its own, on a stack that was painted before. The lowest word
 * that has lost its paint says what the call took. In the first call the dynamic linker binds memcpy() and memset(), which
 * takes some thousand bytes more, by the registers that the processor has. So the second call is what the header says: it
 * takes no more than that, and the header says no more than 1.02 times of it. The first one has the room besides that the
 * macros of the header leave.
 *
 * HEADER is the path of jyrmekko.h. The program is linked with the words -Wl,-z,lazy, so that there is something to bind.
 * The last line is 'N passed, M failed'.
 */
#define _GNU_SOURCE

#include "jyrmekko.h"

#include "stack_inputs.h"

#include <pthread.h>
#include <stdio.h>
#include <string.h>
#include <sys/mman.h>
#include <sys/wait.h>
#include <unistd.h>

enum call { VERDICT, REPLAY, START, RELEASE, TICK, END, CALLS };
enum run { ALL_JOBS, WITHOUT_LAST, NEVER_STARTED, RUNS };

static const char *const names[CALLS] = {"verdict", "replay", "run_start", "run_release", "run_tick", "run_end"};

#ifdef __x86_64__
enum { IS_MEASURED = 1 };
#else /* On other processors the library has a stack of its own, in the emulator. */
enum { IS_MEASURED = 0 };
#endif

enum { ROOM = 16384 }; /* JYRMEKKO_STACK_SIZE and JYRMEKKO_RUN_STACK_SIZE leave at least so many bytes. */

static unsigned passed, failed;

static void check(int good, const char *name, const char *what)
{
    if (good) {
        passed++;
    } else {
        failed++;
        printf("%s: %s\n", name, what);
    }
}

/* ---- processes */

/* What a process hands on to the others. */
struct handed_on {
    struct jyrmekko_run run[RUNS]; /* The live calls are made on a copy of one of these. */
    uint32_t wanted[RUNS][CALLS];  /* They have to return these statuses. */
    uint64_t last_serial;
    uint32_t status;               /* This is the status of the first call of a process. */
    size_t first, again;           /* These are the bytes of stack that it took, and that the same call took after it. */
};

static struct handed_on *handed_on;

/* Does the work in a process of its own, and returns whether that came to its end. */
static int in_process(void (*work)(void))
{
    enum { DONE = 60 };
    int ended;
    pid_t child;
    fflush(stdout);
    child = fork();
    if (child == 0) {
        work();
        _exit(DONE);
    }
    return child > 0 && waitpid(child, &ended, 0) == child && WIFEXITED(ended) && WEXITSTATUS(ended) == DONE;
}

/* ---- the calls */

/* All that a call needs stands here, and not on its stack. */
static const struct input *lent;
static enum run lent_run;
static enum call lent_call;
static struct jyrmekko_run run;
static uint8_t log_buffer[JYRMEKKO_LOG_SIZE(MOST_SCRIPT)], answer[JYRMEKKO_ANSWER_SIZE];
static uint32_t status;
static uint8_t *caller; /* The frame of the function that makes the call starts here, and has a few words. */

__attribute__((noinline)) static void make_call(void)
{
    caller = (uint8_t *)__builtin_frame_address(0);
    switch (lent_call) {
    case VERDICT:
        status = verdict(lent->table, lent->table_len, answer, sizeof answer);
        break;
    case REPLAY:
        status = replay(lent->table, lent->table_len, lent->script, lent->script_len, log_buffer, lent->log_len, answer,
                        sizeof answer);
        break;
    case START:
        status = run_start(lent->table, lent->table_len, &run, answer, sizeof answer);
        break;
    case RELEASE:
        status = run_release(&run, 0, 1, answer, sizeof answer);
        break;
    case TICK:
        status = run_tick(&run, answer, sizeof answer);
        break;
    default:
        status = run_end(&run, handed_on->last_serial, answer, sizeof answer);
    }
}

/* Prepares runs on the input's table, with all jobs of its script and without the last, and finds what the calls say. */
static void prepare(void)
{
    size_t i;
    int which, call;
    lent_call = START;
    make_call();
    handed_on->last_serial = 0;
    handed_on->run[WITHOUT_LAST] = run;
    for (i = 0; i + 2 < lent->script_len; i += 3) {
        if (lent->script[i] > 0) {
            run_tick(&run, answer, sizeof answer);
        }
        if (i + 5 >= lent->script_len) {
            handed_on->run[WITHOUT_LAST] = run;
        }
        if (run_release(&run, lent->script[i + 1], lent->script[i + 2], answer, sizeof answer) == JYRMEKKO_ACCEPTED) {
            handed_on->last_serial = answer[0] + 256u * answer[1];
        }
    }
    handed_on->run[ALL_JOBS] = run;
    for (which = 0; which < RUNS; which++) {
        for (call = START; call < CALLS; call++) {
            run = handed_on->run[which];
            lent_call = (enum call)call;
            make_call();
            handed_on->wanted[which][call] = status;
        }
    }
}

/* ---- the painted stack */

#define PAINT UINT64_C(0xA55AC33C96690FF0)

/* The dynamic linker rounds its stack down to 64 bytes. So each call is made from four places, 16 bytes apart. */
enum { STACK_WORDS = 1 << 16, PLACES = 4 };

static unsigned lent_place;

static volatile uint64_t stack[STACK_WORDS] __attribute__((aligned(4096)));

static void *call_and_look(void *taken)
{
    volatile uint8_t room[16 * lent_place + 1]; /* The caller stands below this. */
    size_t i;
    room[0] = 0;
    make_call();
    for (i = room[0]; i < STACK_WORDS && stack[i] == PAINT;) {
        i++;
    }
    *(size_t *)taken = (size_t)(caller - (uint8_t *)(uintptr_t)(stack + i));
    return NULL;
}

/*
 * Makes the call on a painted stack, on a copy of the run, and returns the bytes that it took. Words are written one by
 * one, since a plain copy could be made by memcpy(), which would then be bound before the call.
 */
static size_t stack_of_call(void)
{
    volatile uint64_t *words = run.words;
    size_t i, taken = 0;
    pthread_attr_t attributes;
    pthread_t thread;
    for (i = 0; i < sizeof run / sizeof run.words[0]; i++) {
        words[i] = handed_on->run[lent_run].words[i];
    }
    for (i = 0; i < STACK_WORDS; i++) {
        stack[i] = PAINT;
    }
    if (pthread_attr_init(&attributes) != 0
        || pthread_attr_setstack(&attributes, (void *)(uintptr_t)stack, sizeof stack) != 0
        || pthread_create(&thread, &attributes, call_and_look, &taken) != 0 || pthread_join(thread, NULL) != 0) {
        return 0;
    }
    return taken;
}

static void call_twice(void)
{
    handed_on->first = stack_of_call();
    handed_on->status = status;
    handed_on->again = stack_of_call();
}

/* The most that each call took as the first one and after that, and the statuses that it returned as the first one. */
static size_t most_first[CALLS], most_again[CALLS];
static uint8_t returned[CALLS][64];

static void note(size_t *most, size_t size)
{
    *most = size > *most ? size : *most;
}

static void try_call(enum call call, enum run which, uint32_t wanted)
{
    int came_to_end = 1, as_wanted = 1;
    lent_call = call;
    lent_run = which;
    for (lent_place = 0; lent_place < PLACES; lent_place++) {
        handed_on->first = handed_on->again = 0;
        handed_on->status = 0;
        came_to_end = in_process(call_twice) && handed_on->first > 0 && handed_on->again > 0 && came_to_end;
        as_wanted = handed_on->status == wanted && as_wanted;
        note(&most_first[call], handed_on->first);
        note(&most_again[call], handed_on->again);
        returned[call][handed_on->status % sizeof returned[call]] = 1;
    }
    check(came_to_end, lent->name, "a call did not come to its end");
    check(as_wanted, lent->name, "a status is wrong");
}

static void try_calls(const struct input *in)
{
    int which, call;
    lent = in;
    check(in_process(prepare), in->name, "the runs can't be prepared");
    try_call(VERDICT, ALL_JOBS, in->judged);
    try_call(REPLAY, ALL_JOBS, in->replayed);
    for (which = 0; which < RUNS; which++) {
        for (call = START; call < CALLS; call++) {
            try_call((enum call)call, (enum run)which, handed_on->wanted[which][call]);
        }
    }
}

/* Checks that every answer was among the statuses, and the refusals for which a call goes furthest. */
static void check_returned(void)
{
    static const struct {
        enum call call;
        uint32_t status;
    } wanted[] = {
        {VERDICT, JYRMEKKO_FEASIBLE}, {VERDICT, JYRMEKKO_OVERLOADED}, {REPLAY, JYRMEKKO_IN_TIME}, {REPLAY, JYRMEKKO_LATE},
        {REPLAY, JYRMEKKO_NO_ROOM}, {START, JYRMEKKO_STARTED}, {START, JYRMEKKO_PERIOD_TOO_LONG},
        {RELEASE, JYRMEKKO_ACCEPTED}, {RELEASE, JYRMEKKO_PLACES_FULL}, {RELEASE, JYRMEKKO_RUN_NOT_SOUND},
        {TICK, JYRMEKKO_IDLE}, {TICK, JYRMEKKO_RAN}, {TICK, JYRMEKKO_FINISHED}, {TICK, JYRMEKKO_TAKEN},
        {TICK, JYRMEKKO_RUN_NOT_SOUND}, {END, JYRMEKKO_ENDED}, {END, JYRMEKKO_NOT_PENDING}, {END, JYRMEKKO_RUN_NOT_SOUND}};
    size_t i;
    for (i = 0; i < sizeof wanted / sizeof wanted[0]; i++) {
        check(returned[wanted[i].call][wanted[i].status], names[wanted[i].call], "a status was never returned");
    }
}

/* ---- the header */

static size_t said[CALLS];    /* These are the bytes of stack that the header says. */
static unsigned lines[CALLS]; /* So many of its lines say them. */

/* Reads each line that has the name of a call, its median and its slowest time, and its bytes of stack. */
static void read_header(void)
{
    char line[256], name[32], bytes[32];
    FILE *header = fopen(HEADER, "r");
    while (header != NULL && fgets(line, sizeof line, header) != NULL) {
        int call, end = 0;
        const char *digit;
        if (sscanf(line, " * %31[a-z_]() %*[0-9,.] %*[0-9,.] %31[0-9,]%n", name, bytes, &end) != 2 || line[end] != '\n') {
            continue;
        }
        for (call = 0; call < CALLS; call++) {
            if (strcmp(name, names[call]) == 0) {
                lines[call]++;
                said[call] = 0;
                for (digit = bytes; *digit != '\0'; digit++) {
                    said[call] = *digit == ',' ? said[call] : 10 * said[call] + (size_t)(*digit - '0');
                }
            }
        }
    }
    if (header != NULL) {
        fclose(header);
    }
}

static void check_header(void)
{
    int call;
    for (call = 0; call < CALLS; call++) {
        check(lines[call] == 1, names[call], "the header has no line with its stack, or more than one");
        if (IS_MEASURED) {
            printf("%s takes %lu bytes of stack as the first call and %lu after that, and the header says %lu\n",
                   names[call], (unsigned long)most_first[call], (unsigned long)most_again[call],
                   (unsigned long)said[call]);
            check(most_again[call] <= said[call], names[call], "it takes more stack than the header says");
            check(100 * said[call] <= 102 * most_again[call], names[call], "the header says too much for its stack");
            check(most_first[call] <= said[call] + ROOM, names[call], "the first call takes more stack than there is room");
        }
    }
}

int main(void)
{
    size_t i;
    handed_on = mmap(NULL, sizeof *handed_on, PROT_READ | PROT_WRITE, MAP_SHARED | MAP_ANONYMOUS, -1, 0);
    if (handed_on == MAP_FAILED) {
        puts("there is no memory to share");
        return 1;
    }
    add_inputs();
    read_header();
    for (i = 0; IS_MEASURED && i < input_count; i++) {
        try_calls(&inputs[i]);
    }
    if (IS_MEASURED) {
        check_returned();
    }
    check_header();
    printf("%u passed, %u failed\n", passed, failed);
    return failed != 0;
}
