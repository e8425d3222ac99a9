/*
 * Runs the suspicious caller on inputs that libFuzzer makes up. An input has one byte for the length of the log buffer,
 * two bytes for the length of the table, the lower one first, and then the table and the script.
 */
#include "caller.h"

#include "answered.h"

int LLVMFuzzerTestOneInput(const uint8_t *data, size_t size)
{
    enum { HEAD = 3 };
    if (size < HEAD)
        return 0;
    uint8_t *rest = (uint8_t *)data + HEAD; /* These bytes are only read. */
    size_t rest_length = size - HEAD;
    size_t stated_length = data[1] + 256u * data[2];
    size_t table_length = stated_length < rest_length ? stated_length : rest_length;
    struct bytes table = {rest, table_length};
    struct bytes script = {rest + table_length, rest_length - table_length};
    struct answers answers = call_on(table, script, data[0] * script.length / 16);
    note(answers.verdict.status, answers.verdict.first);
    note(answers.replay.status, answers.replay.first);
    return 0;
}
