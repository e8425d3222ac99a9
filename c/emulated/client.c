/*
 * The functions of one library. The compiler is told which one, HOST or PROBE. Each call is handed to the server.
 * SERVER and EMULATOR are the paths of the two programs.
 */
#define _POSIX_C_SOURCE 200809L

#include "calls.h"

#include <errno.h>
#include <fcntl.h>
#include <pthread.h>
#include <stdio.h>
#include <stdlib.h>
#include <string.h>
#include <unistd.h>

/* There is one server for the whole program, and it takes one call at a time. */
static pthread_mutex_t one_call = PTHREAD_MUTEX_INITIALIZER;
static int to_server = -1, from_server = -1;

static void broken(const char *what)
{
    fprintf(stderr, "emulated library: %s: %s\n", what, strerror(errno));
    abort();
}

/* Opens a pipe whose ends are never the program's standard streams, even where the program has closed those. */
static void open_pipe(int ends[2])
{
    int lower[2];
    if (pipe(lower) != 0)
        broken("no pipe could be opened");
    for (int i = 0; i < 2; i++) {
        ends[i] = fcntl(lower[i], F_DUPFD, STDERR_FILENO + 1);
        if (ends[i] < 0)
            broken("no pipe could be opened");
    }
    close(lower[0]), close(lower[1]);
}

static void start_server(void)
{
    int down[2], up[2];
    open_pipe(down);
    open_pipe(up);
    pid_t child = fork();
    if (child < 0)
        broken("no process could be started");
    if (child == 0) {
        dup2(down[0], STDIN_FILENO);
        dup2(up[1], STDOUT_FILENO);
        close(down[0]), close(down[1]), close(up[0]), close(up[1]);
        execl(EMULATOR, EMULATOR, SERVER, (char *)NULL);
        _exit(127);
    }
    close(down[0]), close(up[1]);
    to_server = down[1];
    from_server = up[0];
}

static void send_all(const void *from, size_t length)
{
    for (size_t sent = 0; sent < length;) {
        ssize_t more = write(to_server, (const char *)from + sent, length - sent);
        if (more < 0 && errno != EINTR)
            broken("the server takes no more");
        sent += more > 0 ? (size_t)more : 0;
    }
}

static void receive_all(void *into, size_t length)
{
    for (size_t received = 0; received < length;) {
        ssize_t more = read(from_server, (char *)into + received, length - received);
        if (more == 0 || (more < 0 && errno != EINTR))
            broken("the server ended in a call");
        received += more > 0 ? (size_t)more : 0;
    }
}

/* A buffer that the caller lends. */
struct buffer {
    const uint8_t *at;
    size_t length;
    uint8_t *written; /* This is null where the buffer is only read. */
};

static uint32_t call(enum call which, uint64_t first, uint64_t second, const struct buffer *buffers, uint32_t count)
{
    struct request request = {which, count, {first, second}, {{0, 0, 0}}};
    size_t length = sizeof request;
    for (uint32_t i = 0; i < count; i++) {
        request.lent[i] = (struct lent){buffers[i].length, buffers[i].at == NULL, buffers[i].written != NULL};
        length += buffers[i].length;
    }
    uint8_t *message = malloc(length);
    if (message == NULL)
        broken("there is not enough memory");
    uint8_t *end = message + sizeof request;
    memcpy(message, &request, sizeof request);
    for (uint32_t i = 0; i < count; i++)
        if (buffers[i].length > 0) {
            memcpy(end, buffers[i].at, buffers[i].length);
            end += buffers[i].length;
        }
    uint64_t result = 0;
    pthread_mutex_lock(&one_call);
    if (to_server < 0)
        start_server();
    send_all(message, length);
    receive_all(&result, sizeof result);
    for (uint32_t i = 0; i < count; i++)
        if (buffers[i].written != NULL)
            receive_all(buffers[i].written, buffers[i].length);
    pthread_mutex_unlock(&one_call);
    free(message);
    return (uint32_t)result;
}

#define READ(name) {name, name##_len, NULL}
#define WRITTEN(name) {name, name##_len, name}
#define LIVE(run) {(const uint8_t *)run, RUN_SIZE, (uint8_t *)run}

#ifdef HOST
uint32_t verdict(const uint8_t *table, size_t table_len, uint8_t *answer, size_t answer_len);
uint32_t verdict(const uint8_t *table, size_t table_len, uint8_t *answer, size_t answer_len)
{
    const struct buffer buffers[] = {READ(table), WRITTEN(answer)};
    return call(VERDICT, 0, 0, buffers, 2);
}

uint32_t replay(const uint8_t *table, size_t table_len, const uint8_t *script, size_t script_len, uint8_t *log,
                size_t log_len, uint8_t *answer, size_t answer_len);
uint32_t replay(const uint8_t *table, size_t table_len, const uint8_t *script, size_t script_len, uint8_t *log,
                size_t log_len, uint8_t *answer, size_t answer_len)
{
    const struct buffer buffers[] = {READ(table), READ(script), WRITTEN(log), WRITTEN(answer)};
    return call(REPLAY, 0, 0, buffers, 4);
}

uint32_t run_start(const uint8_t *table, size_t table_len, struct jyrmekko_run *run, uint8_t *answer, size_t answer_len);
uint32_t run_start(const uint8_t *table, size_t table_len, struct jyrmekko_run *run, uint8_t *answer, size_t answer_len)
{
    const struct buffer buffers[] = {READ(table), LIVE(run), WRITTEN(answer)};
    return call(RUN_START, 0, 0, buffers, 3);
}

uint32_t run_release(struct jyrmekko_run *run, uint64_t row, uint64_t cost, uint8_t *answer, size_t answer_len);
uint32_t run_release(struct jyrmekko_run *run, uint64_t row, uint64_t cost, uint8_t *answer, size_t answer_len)
{
    const struct buffer buffers[] = {LIVE(run), WRITTEN(answer)};
    return call(RUN_RELEASE, row, cost, buffers, 2);
}

uint32_t run_tick(struct jyrmekko_run *run, uint8_t *answer, size_t answer_len);
uint32_t run_tick(struct jyrmekko_run *run, uint8_t *answer, size_t answer_len)
{
    const struct buffer buffers[] = {LIVE(run), WRITTEN(answer)};
    return call(RUN_TICK, 0, 0, buffers, 2);
}

uint32_t run_end(struct jyrmekko_run *run, uint64_t serial, uint8_t *answer, size_t answer_len);
uint32_t run_end(struct jyrmekko_run *run, uint64_t serial, uint8_t *answer, size_t answer_len)
{
    const struct buffer buffers[] = {LIVE(run), WRITTEN(answer)};
    return call(RUN_END, serial, 0, buffers, 2);
}
#endif

#ifdef PROBE
uint32_t trace(const uint8_t *table, size_t table_len, const uint8_t *calls, size_t calls_len, uint8_t *answers,
               size_t answers_len);
uint32_t trace(const uint8_t *table, size_t table_len, const uint8_t *calls, size_t calls_len, uint8_t *answers,
               size_t answers_len)
{
    const struct buffer buffers[] = {READ(table), READ(calls), WRITTEN(answers)};
    return call(TRACE, 0, 0, buffers, 3);
}

uint32_t write_number(uint64_t number, uint8_t *buffer, size_t buffer_len);
uint32_t write_number(uint64_t number, uint8_t *buffer, size_t buffer_len)
{
    const struct buffer buffers[] = {WRITTEN(buffer)};
    return call(WRITE_NUMBER, number, 0, buffers, 1);
}

uint32_t choose(const uint8_t *first, size_t first_len, const uint8_t *second, size_t second_len, uint64_t first_time,
                uint64_t second_time, uint8_t *part, size_t part_len, uint8_t *answer, size_t answer_len);
uint32_t choose(const uint8_t *first, size_t first_len, const uint8_t *second, size_t second_len, uint64_t first_time,
                uint64_t second_time, uint8_t *part, size_t part_len, uint8_t *answer, size_t answer_len)
{
    const struct buffer buffers[] = {READ(first), READ(second), WRITTEN(part), WRITTEN(answer)};
    return call(CHOOSE, first_time, second_time, buffers, 4);
}
#endif
