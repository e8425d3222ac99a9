/*
 * Tests the helpers of jyrmekko.h: the writer of numbers against the proved writer, and the reader against what
 * verdict() and replay() say about the same bytes. With the word 'texts' it prints the text of each status from 0 to
 * 299 instead, for c/test-package to compare with the rules. This file is compiled as C and as C++. The last line is
 * 'N passed, M failed'.
 */
#include "jyrmekko.h"

#include "testing.h"
#include "wanted.h"

#include <stdio.h>
#include <string.h>

/* The proved writer, of the probe library. It returns the length of the spelling, or 12 or 25. */
#ifdef __cplusplus
extern "C"
#endif
uint32_t write_number(uint64_t number, uint8_t *buffer, size_t buffer_len);

enum { LONGEST = JYRMEKKO_NUMBER_SIZE, MOST_ROOM = LONGEST + 1, FENCED = MOST_ROOM + 8, RANDOM_VALUES = 20000 };

/* Returns a number of at most so many bits, always the same ones in the same order. */
static uint64_t some_bits(unsigned bits)
{
    static uint64_t state = 1;
    state = state * UINT64_C(6364136223846793005) + UINT64_C(1442695040888963407);
    return bits == 0 ? 0 : (state ^ state >> 33) >> (64 - bits);
}

/* ---- the writer */

/* Returns whether both writers do the same with this value and room, and whether what they write reads back. */
static int written_alike(uint64_t value, size_t room)
{
    uint8_t ours[FENCED], proved[FENCED];
    uint64_t back = ~value;
    size_t length, at = 0;
    uint32_t wanted;
    memset(ours, UNTOUCHED, sizeof ours);
    memset(proved, UNTOUCHED, sizeof proved);
    length = jyrmekko_write_number(ours, room, value);
    wanted = write_number(value, proved, room);
    if (memcmp(ours, proved, sizeof ours) != 0) {
        return 0;
    }
    if (wanted == JYRMEKKO_NUMBER_TOO_BIG || wanted == JYRMEKKO_NO_ROOM) {
        return length == 0 && all_bytes(ours, sizeof ours, UNTOUCHED);
    }
    return length == wanted && length >= 1 && length <= LONGEST
        && jyrmekko_read_number(ours, sizeof ours, &at, &back) == 1 && back == value && at == length;
}

static int written_alike_everywhere(uint64_t value)
{
    size_t room;
    for (room = 0; room <= MOST_ROOM; room++) {
        if (!written_alike(value, room)) {
            return 0;
        }
    }
    return 1;
}

static void test_writer(void)
{
    static const uint64_t edges[] = {0, 1, 127, 128, 300, JYRMEKKO_LARGEST_NUMBER, JYRMEKKO_LARGEST_NUMBER + 1,
                                     UINT64_MAX - 1, UINT64_MAX};
    unsigned bits, i;
    int alike = 1;
    for (i = 0; i < COUNT(edges); i++) {
        check(written_alike_everywhere(edges[i]), "the writer", "spelling of an edge");
    }
    for (bits = 1; bits < 64; bits++) { /* The length changes at 2^7, 2^14, .., and 2^42 can't be spelled. */
        uint64_t power = UINT64_C(1) << bits;
        check(written_alike_everywhere(power - 1) && written_alike_everywhere(power)
                  && written_alike_everywhere(power + 1), "the writer", "spelling near a power of two");
        check(jyrmekko_write_number(NULL, 0, power) == 0, "the writer", "length without room");
    }
    for (i = 0; i < RANDOM_VALUES; i++) {
        alike = alike && written_alike_everywhere(some_bits(i % 64 + 1));
    }
    check(alike, "the writer", "spelling of some random value");
}

/* ---- the reader */

/* The numbers at the start of some bytes, as the reader reads them: so many of two. */
struct two {
    int count;
    size_t at[2];
    uint64_t value[2];
};

static struct two read_two(const uint8_t *bytes, size_t length)
{
    struct two two = {0, {0, 0}, {UNTOUCHED, UNTOUCHED}};
    while (two.count < 2 && jyrmekko_read_number(bytes, length, &two.at[two.count], &two.value[two.count])) {
        if (++two.count < 2) {
            two.at[1] = two.at[0];
        }
    }
    return two;
}

/* Returns whether the reader does what the rules want of a number that starts at this place. */
static int read_by_the_rules(const uint8_t *bytes, size_t length, size_t start)
{
    struct found found = find_number(bytes, length, start);
    uint64_t value = UNTOUCHED;
    size_t at = start;
    int got = jyrmekko_read_number(bytes, length, &at, &value);
    return at == found.place && got == (found.spelled == READABLE)
        && value == (found.spelled == READABLE ? found.value : UNTOUCHED);
}

/*
 * Returns whether verdict() and replay() find the first bad number where the reader does. A table starts with two
 * numbers, which are both read before one of them is looked at. A script starts with a gap, and on a table with a row
 * any bad byte in it is refused with 14.
 */
static int refused_alike(const uint8_t *bytes, size_t length)
{
    static const uint8_t table[] = {0, 1, 1, 1, 2, 6, 1, 0};
    uint8_t answer[JYRMEKKO_ANSWER_SIZE];
    struct two two = read_two(bytes, length);
    uint32_t status = verdict(bytes, length, answer, sizeof answer);
    if (two.count < 2 && (status != JYRMEKKO_MISSPELLED || jyrmekko_first(answer) != two.at[two.count])) {
        return 0;
    }
    if (two.count == 2 && status == JYRMEKKO_MISSPELLED && jyrmekko_first(answer) < two.at[1]) {
        return 0;
    }
    status = replay(table, sizeof table, bytes, length, NULL, 0, answer, sizeof answer);
    if (two.count == 0 && length > 0) { /* A script of no bytes has no record, and so no number is missing. */
        return status == JYRMEKKO_SCRIPT_MISSPELLED && jyrmekko_first(answer) == two.at[0];
    }
    return status != JYRMEKKO_SCRIPT_MISSPELLED || jyrmekko_first(answer) >= two.at[0];
}

static void test_reader(void)
{
    static const uint8_t groups[] = {0x00, 0x01, 0x7F, 0x80, 0xFF};
    uint8_t bytes[MOST_ROOM] = {0};
    size_t length, at, i;
    uint64_t value = UNTOUCHED;
    unsigned long which, all = 1;
    for (length = 0; length <= MOST_ROOM; length++, all *= COUNT(groups)) { /* All spellings from these groups. */
        int by_the_rules = 1, alike = 1;
        for (which = 0; which < all; which++) {
            unsigned long rest = which;
            for (i = 0; i < length; i++, rest /= COUNT(groups)) {
                bytes[i] = groups[rest % COUNT(groups)];
            }
            for (at = 0; at <= length; at++) {
                by_the_rules = by_the_rules && read_by_the_rules(bytes, length, at);
            }
            alike = alike && refused_alike(bytes, length);
        }
        check(by_the_rules, "the reader", "place or value, by the rules");
        check(alike, "the reader", "place, by verdict and replay");
    }
    for (i = 0; i < RANDOM_VALUES; i++) {
        for (length = 0; length < MOST_ROOM; length++) {
            bytes[length] = (uint8_t)(some_bits(8) | (some_bits(2) > 0 ? 0x80 : 0));
        }
        if (!read_by_the_rules(bytes, MOST_ROOM, 0) || !refused_alike(bytes, MOST_ROOM)) {
            break;
        }
    }
    check(i == RANDOM_VALUES, "the reader", "place or value of some random bytes");
    at = 9;
    check(!jyrmekko_read_number(bytes, 3, &at, &value) && at == 3 && value == UNTOUCHED, "the reader", "place past the end");
    at = SIZE_MAX;
    check(!jyrmekko_read_number(bytes, 0, &at, &value) && at == 0 && value == UNTOUCHED, "the reader", "largest place");
    at = 0;
    check(!jyrmekko_read_number(NULL, 0, &at, &value) && at == 0 && value == UNTOUCHED, "the reader", "place without bytes");
}

/* ---- answers, texts and the version */

static void test_answers(void)
{
    static const uint8_t late_witness[] = {0, 1, 1, 1, 2, 10, 3, 0}; /* V8 of the rules. */
    uint8_t answer[JYRMEKKO_ANSWER_SIZE];
    unsigned i;
    for (i = 0; i < sizeof answer; i++) {
        memset(answer, 0, sizeof answer);
        answer[i] = (uint8_t)(0x81 + i);
        check(jyrmekko_first(answer) == (i < 8 ? (UINT64_C(0x81) + i) << 8 * i : 0), "an answer", "first number");
        check(jyrmekko_second(answer) == (i < 8 ? 0 : (UINT64_C(0x81) + i) << 8 * (i - 8)), "an answer", "second number");
    }
    check(verdict(late_witness, sizeof late_witness, answer, sizeof answer) == JYRMEKKO_OVERLOADED
              && jyrmekko_first(answer) == 26 && jyrmekko_second(answer) == 27, "V8", "answer");
}

static void test_texts(void)
{
    const char *none = jyrmekko_text(0);
    uint32_t status;
    for (status = 300; status < 70000; status++) {
        if (strcmp(jyrmekko_text(status), none) != 0) {
            break;
        }
    }
    check(status == 70000 && strcmp(jyrmekko_text(UINT32_MAX), none) == 0
              && strcmp(jyrmekko_text(UINT32_C(0x80000014)), none) == 0, "the text", "number that is no status");
}

static void test_version(void)
{
    char version[40];
    sprintf(version, "%d.%d.%d", JYRMEKKO_VERSION_MAJOR, JYRMEKKO_VERSION_MINOR, JYRMEKKO_VERSION_PATCH);
    check(strcmp(version, JYRMEKKO_VERSION) == 0, "the version", "text");
    check(jyrmekko_version_number() == JYRMEKKO_VERSION_NUMBER, "the version", "number");
}

int main(int words, char **word)
{
    uint32_t status;
    if (words == 2 && strcmp(word[1], "texts") == 0) {
        for (status = 0; status < 300; status++) {
            printf("%u\t%s\n", (unsigned)status, jyrmekko_text(status));
        }
        return 60;
    }
    test_writer();
    test_reader();
    test_answers();
    test_texts();
    test_version();
    printf("%u passed, %u failed\n", passed, failed);
    return failed != 0;
}
