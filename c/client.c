/*
 * A client of the installed package, compiled as C and as C++ by what pkg-config says. It makes each call and uses each
 * helper once. It has functions of its own with the names that the calls have in the repository, which must not meet
 * those of the library. It exits with 60 where everything is as it should be, and else with 70.
 */
#include <jyrmekko.h>

#include <stdio.h>
#include <string.h>

static int calls_of_ours;

#ifdef __cplusplus
extern "C" {
#endif
void verdict(void), replay(void), run_start(void), run_release(void), run_tick(void), run_end(void);
void verdict(void) { calls_of_ours++; }
void replay(void) { calls_of_ours++; }
void run_start(void) { calls_of_ours++; }
void run_release(void) { calls_of_ours++; }
void run_tick(void) { calls_of_ours++; }
void run_end(void) { calls_of_ours++; }
#ifdef __cplusplus
}
#endif

static struct jyrmekko_run run;
static uint8_t answer[JYRMEKKO_ANSWER_SIZE];
static int wrong;

static void expect(uint32_t status, uint32_t wanted, uint64_t first, uint64_t second)
{
    if (status != wanted || jyrmekko_first(answer) != first || jyrmekko_second(answer) != second) {
        printf("client: %s instead of %s\n", jyrmekko_text(status), jyrmekko_text(wanted));
        wrong = 1;
    }
}

int main(void)
{
    static const uint64_t numbers[] = {0, 1, 1, 1, 2, 6, 1, 0}; /* A table with one row. */
    static const uint8_t script[] = {0, 0, 1, 4, 0, 1};
    uint8_t table[sizeof numbers / sizeof numbers[0] * JYRMEKKO_NUMBER_SIZE], log[JYRMEKKO_LOG_SIZE(sizeof script)];
    uint64_t serial = 9;
    size_t length = 0, at = 0, i;
    for (i = 0; i < sizeof numbers / sizeof numbers[0]; i++) {
        length += jyrmekko_write_number(table + length, sizeof table - length, numbers[i]);
    }
    expect(jyrmekko_verdict(table, length, answer, sizeof answer), JYRMEKKO_FEASIBLE, 0, 0);
    expect(jyrmekko_replay(table, length, script, sizeof script, log, sizeof log, answer, sizeof answer), JYRMEKKO_IN_TIME,
           10, 0);
    if (!jyrmekko_read_number(log, sizeof log, &at, &serial) || serial != 0 || at != 1) {
        wrong = 1;
    }
    expect(jyrmekko_run_start(table, length, &run, answer, sizeof answer), JYRMEKKO_STARTED, 0, 0);
    expect(jyrmekko_run_release(&run, 0, 1, answer, sizeof answer), JYRMEKKO_ACCEPTED, 0, 6);
    expect(jyrmekko_run_tick(&run, answer, sizeof answer), JYRMEKKO_FINISHED, 0, 0);
    expect(jyrmekko_run_release(&run, 0, 1, answer, sizeof answer), JYRMEKKO_ACCEPTED, 1, 8);
    expect(jyrmekko_run_end(&run, 1, answer, sizeof answer), JYRMEKKO_ENDED, 0, 0);
    verdict(), replay(), run_start(), run_release(), run_tick(), run_end();
    if (calls_of_ours != 6 || jyrmekko_version_number() != JYRMEKKO_VERSION_NUMBER || strlen(jyrmekko_text(0)) == 0) {
        wrong = 1;
    }
    printf("client: version %s, %s\n", JYRMEKKO_VERSION, wrong ? "something is wrong" : "all is well");
    return wrong ? 70 : 60;
}
