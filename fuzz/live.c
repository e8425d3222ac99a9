/*
 * Holds the live calls to the rules in c/live.h, on inputs that libFuzzer makes up. An input has two bytes for the length
 * of the table, the lower one first, then the table, and then calls of four bytes each: the kind of the call, a byte, and
 * two bytes for a number, the lower one first. Some kinds are no call, and change a word of the run's memory.
 */
#include "jyrmekko.h"

#include "live.h"

#include "answered.h"

enum { RUN_WORDS = JYRMEKKO_RUN_SIZE / 8 };

static struct jyrmekko_run run;
static struct live wanted;

static void expect(int kept, const char *rule)
{
    if (!kept) {
        fprintf(stderr, "rule broken: %s\n", rule);
        abort();
    }
}

/* Expects that a call said and left what the rules want. */
static void hold(uint32_t status, const uint8_t *answer, struct said said)
{
    uint64_t first = 0, second = 0;
    for (int i = 7; i >= 0; i--) {
        first = first << 8 | answer[i];
        second = second << 8 | answer[8 + i];
    }
    expect(status == said.status, "a live call returns the status that the rules want");
    expect(first == said.first && second == said.second, "a live call answers the two numbers that the rules want");
    expect(memcmp(&run, &wanted, sizeof run) == 0, "a live call leaves the run that the rules want");
    note(status, first);
}

/* Changes a word of the run, to a number or to one near the limits. */
static void change_word(size_t place, uint8_t value)
{
    uint64_t *words = (uint64_t *)&wanted;
    words[place % RUN_WORDS] = value < 128 ? value : value < 192 ? LAST_CLOCK - 160 + value : (uint64_t)value << 56;
    run.words[place % RUN_WORDS] = words[place % RUN_WORDS];
}

static void make_call(uint8_t kind, uint8_t byte, uint16_t number, uint8_t *answer)
{
    enum { KINDS = 8 };
    switch (kind % KINDS) {
    case 0:
        change_word(number, byte);
        break;
    case 1:
        hold(run_end(&run, number, answer, JYRMEKKO_ANSWER_SIZE), answer, live_end(&wanted, number));
        break;
    case 2:
    case 3:
    case 4:
        hold(run_release(&run, byte, number, answer, JYRMEKKO_ANSWER_SIZE), answer, live_release(&wanted, byte, number));
        break;
    case 5:
        expect(run_tick(&run, answer, byte == JYRMEKKO_ANSWER_SIZE ? 0 : byte) == JYRMEKKO_ANSWER_NOT_16_BYTES
                   && memcmp(&run, &wanted, sizeof run) == 0, "13 changes nothing");
        break;
    default:
        for (unsigned i = 0; i <= byte % 16; i++)
            hold(run_tick(&run, answer, JYRMEKKO_ANSWER_SIZE), answer, live_tick(&wanted));
    }
}

int LLVMFuzzerTestOneInput(const uint8_t *data, size_t size)
{
    enum { HEAD = 2, CALL = 4 };
    uint8_t answer[256];
    if (size < HEAD)
        return 0;
    size_t stated = data[0] + 256u * data[1], length = stated < size - HEAD ? stated : size - HEAD;
    memset(&run, 0xA5, sizeof run);
    hold(run_start(data + HEAD, length, &run, answer, JYRMEKKO_ANSWER_SIZE), answer,
         live_start(&wanted, data + HEAD, length));
    for (const uint8_t *call = data + HEAD + length; call + CALL <= data + size; call += CALL)
        make_call(call[0], call[1], (uint16_t)(call[2] + 256u * call[3]), answer);
    return 0;
}
