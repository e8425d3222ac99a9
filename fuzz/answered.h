/*
 * What the fuzzers share: which answers were reached, for libFuzzer, and which were seen, for the reader.
 */
#ifndef ANSWERED_H
#define ANSWERED_H

#include <stdint.h>
#include <stdio.h>
#include <stdlib.h>

int LLVMFuzzerInitialize(int *words, char ***word);
int LLVMFuzzerTestOneInput(const uint8_t *data, size_t size);

/* Every status of the host's calls is below STATUSES. */
enum { STATUSES = 40, BITS = 64 };

/*
 * The library is not compiled for the fuzzer, which can't see what an input reaches inside it. So each answer is
 * reported as if it were code that was reached: its status, and how many bits its first number has.
 */
__attribute__((section("__libfuzzer_extra_counters"))) static uint8_t reached[STATUSES * BITS];

static unsigned long answered[STATUSES];

/* Notes an answer by its status and its first number. */
static void note(uint32_t status, uint64_t first)
{
    unsigned bits = 0;
    for (uint64_t rest = first; rest > 1; rest >>= 1)
        bits++;
    reached[status * BITS + bits] = 1;
    answered[status]++;
}

/* Says which answers were seen, since a run that only ever saw one refusal has shown little. */
static void say_answered(void)
{
    fputs("answered:", stderr);
    for (int status = 1; status < STATUSES; status++)
        if (answered[status] > 0)
            fprintf(stderr, " %d (%lu times)", status, answered[status]);
    fputc('\n', stderr);
}

int LLVMFuzzerInitialize(int *words, char ***word)
{
    (void)words;
    (void)word;
    return atexit(say_answered);
}

#endif
