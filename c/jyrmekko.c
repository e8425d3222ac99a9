/*
 * The helpers of jyrmekko.h: the version, a text for each status, and numbers to read and to write. They are plain C and
 * are not proved. They are compiled into the installed library beside the proved calls, and programs of the repository
 * are compiled with this file. It is C99 and C++.
 */
#include "jyrmekko.h"

enum { GROUP_BITS = 7, MORE = 0x80 }; /* A group has so many bits, and MORE is set where another group follows. */

uint32_t jyrmekko_version_number(void)
{
    return JYRMEKKO_VERSION_NUMBER;
}

/*
 * The answers have the words of docs/RULES.md, 9.5 and 9.12. The refusals have those of 10.3, where some words are left
 * out: the sections that are cited, the calls, and what no call of this library does.
 */
const char *jyrmekko_text(uint32_t status)
{
    switch (status) {
    case JYRMEKKO_FEASIBLE:
        return "feasible";
    case JYRMEKKO_OVERLOADED:
        return "overloaded";
    case JYRMEKKO_IN_TIME:
        return "replayed, all in time";
    case JYRMEKKO_LATE:
        return "replayed, with a finish after its due time";
    case JYRMEKKO_STARTED:
        return "started";
    case JYRMEKKO_ACCEPTED:
        return "accepted";
    case JYRMEKKO_IDLE:
        return "idle";
    case JYRMEKKO_RAN:
        return "a job had the unit and did not finish";
    case JYRMEKKO_FINISHED:
        return "a job had the unit and finished";
    case JYRMEKKO_TAKEN:
        return "taken";
    case JYRMEKKO_ENDED:
        return "ended";
    case JYRMEKKO_MISSPELLED:
        return "a number of a table is misspelled, too long or cut off";
    case JYRMEKKO_TOO_MANY_ROWS:
        return "the row count is above the limit of rows, or the server count above the limit of servers";
    case JYRMEKKO_VALUE_OUT_OF_RANGE:
        return "a p, x, y, d, c, a or b is out of its range, or s is not below p";
    case JYRMEKKO_EXTRA_BYTES:
        return "there are bytes after the last server";
    case JYRMEKKO_PERIOD_TOO_LONG:
        return "H is above 1,048,576";
    case JYRMEKKO_HOPELESS_ROW:
        return "a row's c is above the row's d";
    case JYRMEKKO_NO_SUCH_ROW:
        return "the row number is not in use";
    case JYRMEKKO_COST_OUT_OF_RANGE:
        return "the cost is 0 or above the row's c, for a server above 4,096";
    case JYRMEKKO_PLACES_FULL:
        return "the limit of pending jobs is reached at a release";
    case JYRMEKKO_DUE_TOO_LATE:
        return "the due time would be above 2^40";
    case JYRMEKKO_TIME_TOO_LATE:
        return "the clock is at 2^40, or a script time is above 2^40";
    case JYRMEKKO_RUN_NOT_SOUND:
        return "the run is not sound";
    case JYRMEKKO_NO_ROOM:
        return "the log is longer than its buffer";
    case JYRMEKKO_ANSWER_NOT_16_BYTES:
        return "the answer buffer is not 16 bytes long";
    case JYRMEKKO_SCRIPT_MISSPELLED:
        return "a number of a script is misspelled, too long or cut off";
    case JYRMEKKO_NOT_PENDING:
        return "no pending job has the serial";
    case JYRMEKKO_TOO_MANY_ENDED:
        return "2^40 jobs were ended early";
    case JYRMEKKO_NUMBER_TOO_BIG:
        return "a number to write is above 2^42 - 1";
    default:
        return "this number is no status";
    }
}

static uint64_t lowest_first(const uint8_t *eight_bytes)
{
    uint64_t value = 0;
    int i;
    for (i = 7; i >= 0; i--) {
        value = value << 8 | eight_bytes[i];
    }
    return value;
}

uint64_t jyrmekko_first(const uint8_t *answer)
{
    return lowest_first(answer);
}

uint64_t jyrmekko_second(const uint8_t *answer)
{
    return lowest_first(answer + 8);
}

size_t jyrmekko_write_number(uint8_t *out, size_t room, uint64_t value)
{
    size_t length = 1, i;
    uint64_t rest;
    for (rest = value >> GROUP_BITS; rest > 0; rest >>= GROUP_BITS) {
        length++;
    }
    if (length > JYRMEKKO_NUMBER_SIZE || length > room) {
        return 0;
    }
    for (i = 0; i < length; i++, value >>= GROUP_BITS) {
        out[i] = (uint8_t)((value & (MORE - 1)) | (i + 1 < length ? MORE : 0));
    }
    return length;
}

int jyrmekko_read_number(const uint8_t *bytes, size_t length, size_t *at, uint64_t *value)
{
    uint64_t sum = 0;
    unsigned group;
    for (group = 0; *at < length; group++, ++*at) {
        uint8_t byte = bytes[*at];
        if ((byte == 0 && group > 0) || (byte >= MORE && group == JYRMEKKO_NUMBER_SIZE - 1)) {
            return 0; /* A superfluous zero group, or a sixth group that asks for more. */
        }
        sum |= (uint64_t)(byte & (MORE - 1)) << GROUP_BITS * group;
        if (byte < MORE) {
            ++*at;
            *value = sum;
            return 1;
        }
    }
    *at = length; /* The number is cut off, or *at was past the end. */
    return 0;
}
