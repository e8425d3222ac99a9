/*
 * Stands in for verdict and replay of the installed library, to show that a host sees an answer that may not be. A
 * program that is linked with this file in front of the library gets these two calls. The environment variables VERDICT
 * and REPLAY are the statuses, FIRST and SECOND are both numbers of each answer, and LOG is the log, each byte below 10
 * as a digit.
 */
#include <jyrmekko.h>

#include <stdlib.h>
#include <string.h>

static uint64_t number_of(const char *name)
{
    const char *value = getenv(name);
    return value != NULL ? strtoull(value, NULL, 10) : 0;
}

static uint32_t answered(const char *status, uint8_t *answer)
{
    for (int i = 0; i < 8; i++) {
        answer[i] = (uint8_t)(number_of("FIRST") >> 8 * i);
        answer[8 + i] = (uint8_t)(number_of("SECOND") >> 8 * i);
    }
    return (uint32_t)number_of(status);
}

uint32_t jyrmekko_verdict(const uint8_t *table, size_t table_len, uint8_t *answer, size_t answer_len)
{
    (void)table, (void)table_len, (void)answer_len;
    return answered("VERDICT", answer);
}

uint32_t jyrmekko_replay(const uint8_t *table, size_t table_len, const uint8_t *script, size_t script_len,
    uint8_t *log, size_t log_len, uint8_t *answer, size_t answer_len)
{
    const char *bytes = getenv("LOG");
    (void)table, (void)table_len, (void)script, (void)script_len, (void)answer_len;
    memset(log, 0, log_len);
    for (size_t i = 0; bytes != NULL && bytes[i] != '\0' && i < log_len; i++)
        log[i] = (uint8_t)(bytes[i] - '0');
    return answered("REPLAY", answer);
}
