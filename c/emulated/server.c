/*
 * Takes calls from standard input until that ends, makes them, and answers on standard output. Guards stand around each
 * buffer, so that a call that writes outside what it was lent is seen.
 */
#include "calls.h"

#include <stdio.h>
#include <stdlib.h>
#include <string.h>

#ifdef HOST
uint32_t verdict(const uint8_t *, size_t, uint8_t *, size_t);
uint32_t replay(const uint8_t *, size_t, const uint8_t *, size_t, uint8_t *, size_t, uint8_t *, size_t);
uint32_t run_start(const uint8_t *, size_t, struct jyrmekko_run *, uint8_t *, size_t);
uint32_t run_release(struct jyrmekko_run *, uint64_t, uint64_t, uint8_t *, size_t);
uint32_t run_tick(struct jyrmekko_run *, uint8_t *, size_t);
uint32_t run_end(struct jyrmekko_run *, uint64_t, uint8_t *, size_t);
#endif
#ifdef PROBE
uint32_t trace(const uint8_t *, size_t, const uint8_t *, size_t, uint8_t *, size_t);
uint32_t write_number(uint64_t, uint8_t *, size_t);
uint32_t choose(const uint8_t *, size_t, const uint8_t *, size_t, uint64_t, uint64_t, uint8_t *, size_t, uint8_t *,
                size_t);
#endif

enum { GUARD = 64, GUARD_BYTE = 0xA5 }; /* Behind such a guard a run lies at an address that 8 divides. */

struct held {
    uint8_t *block; /* A guard, the bytes, and a guard stand here. */
    uint8_t *at;    /* This is null where the caller's pointer is. */
    size_t length;
};

static void broken(const char *what)
{
    fprintf(stderr, "emulated library: %s\n", what);
    abort();
}

static void receive(void *into, size_t length)
{
    if (length > 0 && fread(into, 1, length, stdin) != length)
        broken("a call was cut off");
}

static void send(const void *from, size_t length)
{
    if (length > 0 && fwrite(from, 1, length, stdout) != length)
        broken("an answer could not be written");
}

static struct held hold(struct lent lent)
{
    struct held held = {malloc(lent.length + 2 * GUARD), NULL, lent.length};
    if (held.block == NULL)
        broken("there is not enough memory");
    memset(held.block, GUARD_BYTE, lent.length + 2 * GUARD);
    receive(held.block + GUARD, lent.length);
    if (!lent.is_null)
        held.at = held.block + GUARD;
    return held;
}

static void check_guards(struct held held)
{
    for (size_t i = 0; i < GUARD; i++)
        if (held.block[i] != GUARD_BYTE || held.block[GUARD + held.length + i] != GUARD_BYTE)
            broken("a call wrote outside what it was lent");
}

static uint64_t make(enum call call, const uint64_t *numbers, const struct held *b)
{
    (void)numbers;
    switch (call) {
#ifdef HOST
    case VERDICT:
        return verdict(b[0].at, b[0].length, b[1].at, b[1].length);
    case REPLAY:
        return replay(b[0].at, b[0].length, b[1].at, b[1].length, b[2].at, b[2].length, b[3].at, b[3].length);
    case RUN_START:
        return run_start(b[0].at, b[0].length, (struct jyrmekko_run *)b[1].at, b[2].at, b[2].length);
    case RUN_RELEASE:
        return run_release((struct jyrmekko_run *)b[0].at, numbers[0], numbers[1], b[1].at, b[1].length);
    case RUN_TICK:
        return run_tick((struct jyrmekko_run *)b[0].at, b[1].at, b[1].length);
    case RUN_END:
        return run_end((struct jyrmekko_run *)b[0].at, numbers[0], b[1].at, b[1].length);
#endif
#ifdef PROBE
    case TRACE:
        return trace(b[0].at, b[0].length, b[1].at, b[1].length, b[2].at, b[2].length);
    case WRITE_NUMBER:
        return write_number(numbers[0], b[0].at, b[0].length);
    case CHOOSE:
        return choose(b[0].at, b[0].length, b[1].at, b[1].length, numbers[0], numbers[1], b[2].at, b[2].length, b[3].at,
                      b[3].length);
#endif
    default:
        broken("there is no such call");
        return 0;
    }
}

int main(void)
{
    struct request request;
    while (fread(&request, 1, sizeof request, stdin) == sizeof request) {
        struct held held[MOST_LENT], original[MOST_LENT];
        for (uint32_t i = 0; i < request.count; i++) {
            held[i] = hold(request.lent[i]);
            original[i].block = malloc(held[i].length + 1);
            if (original[i].block == NULL)
                broken("there is not enough memory");
            memcpy(original[i].block, held[i].block + GUARD, held[i].length);
        }
        uint64_t result = make((enum call)request.call, request.numbers, held);
        send(&result, sizeof result);
        for (uint32_t i = 0; i < request.count; i++) {
            check_guards(held[i]);
            if (request.lent[i].is_written)
                send(held[i].block + GUARD, held[i].length);
            else if (memcmp(original[i].block, held[i].block + GUARD, held[i].length) != 0)
                broken("a call wrote to what it may only read");
            free(original[i].block);
            free(held[i].block);
        }
        fflush(stdout);
    }
    return 0;
}
