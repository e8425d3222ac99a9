#include "rig.h"

#include <inttypes.h>

bool read_number(struct bytes bytes, size_t *at, uint64_t *value)
{
    return jyrmekko_read_number(bytes.at, bytes.length, at, value) == 1;
}

const char *bad_byte(struct bytes bytes, uint64_t place)
{
    static char sixth[] = "the byte .. is a sixth group that asks for more";
    size_t before = 0; /* So many groups of the number stand before the place. Each of them asks for more. */
    if (place > bytes.length)
        return NULL;
    while (before < MOST_GROUPS && before < place && bytes.at[place - before - 1] >= 0x80)
        before++;
    if (before == MOST_GROUPS)
        return NULL; /* The number went wrong earlier. */
    if (place == bytes.length)
        return before > 0 ? "the bytes end there, inside a number" : "the bytes end there, where a number should stand";
    if (bytes.at[place] == 0 && before > 0)
        return "the byte 00 is a superfluous zero group";
    if (bytes.at[place] < 0x80 || before < MOST_GROUPS - 1)
        return NULL; /* This byte is a group as it should be. */
    snprintf(sixth, sizeof sixth, "the byte %02X is a sixth group that asks for more", bytes.at[place]);
    return sixth;
}

size_t write_number(uint8_t *out, uint64_t value)
{
    return jyrmekko_write_number(out, MOST_GROUPS, value);
}

uint64_t count_numbers(struct bytes bytes)
{
    uint64_t count = 0;
    for (size_t i = 0; i < bytes.length; i++)
        count += bytes.at[i] < 0x80;
    return count;
}

const char *grouped(uint64_t number)
{
    static char texts[8][sizeof "18,446,744,073,709,551,615"]; /* One message groups at most eight numbers. */
    static size_t next;
    char digits[sizeof "18446744073709551615"];
    char *out = texts[next++ % 8], *start = out;
    size_t count = (size_t)snprintf(digits, sizeof digits, "%" PRIu64, number);
    for (size_t i = 0; i < count; i++) {
        if (i > 0 && (count - i) % 3 == 0)
            *out++ = ',';
        *out++ = digits[i];
    }
    *out = '\0';
    return start;
}

const char *plural(uint64_t number)
{
    return number == 1 ? "" : "s";
}

struct answer answer_of(uint32_t status, const uint8_t *buffer)
{
    return (struct answer){status, jyrmekko_first(buffer), jyrmekko_second(buffer)};
}
