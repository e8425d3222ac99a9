/* The library's two calls, on tables and scripts in memory and on files. */
#include "commands.h"

struct answer ask_verdict(struct bytes table)
{
    uint8_t buffer[JYRMEKKO_ANSWER_SIZE] = {0};
    return answer_of(verdict(table.at, table.length, buffer, sizeof buffer), buffer);
}

struct answer ask_replay(struct bytes table, struct bytes script, struct bytes log)
{
    uint8_t buffer[JYRMEKKO_ANSWER_SIZE] = {0};
    uint32_t status = replay(table.at, table.length, script.at, script.length, log.at, log.length, buffer,
                             sizeof buffer);
    return answer_of(status, buffer);
}

bool is_accepted(uint32_t status)
{
    return status == JYRMEKKO_FEASIBLE || status == JYRMEKKO_OVERLOADED;
}

bool is_replayed(uint32_t status)
{
    return status == JYRMEKKO_IN_TIME || status == JYRMEKKO_LATE;
}

struct bytes log_of(struct bytes table, const struct input *script, struct answer *answer)
{
    if (script->bytes.length > SIZE_MAX / JYRMEKKO_LOG_SIZE(1))
        stop(RIG_NO_MEMORY, "%s is so long that its log can't be held in memory", shown(script->path));
    size_t room = JYRMEKKO_LOG_SIZE(script->bytes.length);
    struct bytes log = {allocate(room), room};
    *answer = ask_replay(table, script->bytes, log);
    if (is_replayed(answer->status) && answer->first > room)
        stop(RIG_NO_ANSWER, "the library's replay says that its log is longer than the buffer");
    log.length = is_replayed(answer->status) ? (size_t)answer->first : 0;
    return log;
}

const struct replayed *replay_files(struct named_file table, struct named_file script, const char *out_path)
{
    static struct replayed result;
    if (is_standard(table.path) && is_standard(script.path))
        stop(RIG_USAGE, "standard input can't be both the table and the script");
    result.table = read_table(table);
    result.script = read_script(script, result.table.bytes, out_path, &result.answer);
    if (is_replayed(result.answer.status) || result.answer.status == JYRMEKKO_NO_ROOM)
        result.log = log_of(result.table.bytes, &result.script, &result.answer);
    return &result;
}
