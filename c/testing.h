/*
 * What the tests of the calls share: their checks, which are counted, and tables that are made up and spelled. This file
 * is compiled as C and as C++.
 */
#ifndef TESTING_H
#define TESTING_H

#include "jyrmekko.h"

#include "wanted.h"

#include <stdio.h>

#define COUNT(array) (sizeof(array) / sizeof((array)[0]))

/* Buffers are filled with this byte beforehand, so that every byte that is written shows. */
#define UNTOUCHED 0xA5

static unsigned passed, failed;

/* Where very much goes wrong, not all of it is printed. */
static inline void check(int good, const char *name, const char *what)
{
    enum { MOST_PRINTED = 1000 };
    if (good) {
        passed++;
    } else if (++failed <= MOST_PRINTED) {
        printf("%s: wrong %s\n", name, what);
    }
}

static inline int all_bytes(const uint8_t *bytes, size_t length, uint8_t value)
{
    size_t i;
    for (i = 0; i < length; i++) {
        if (bytes[i] != value) {
            return 0;
        }
    }
    return 1;
}

static inline uint64_t number(const uint8_t *eight_bytes)
{
    uint64_t value = 0;
    int i;
    for (i = 7; i >= 0; i--) {
        value = value << 8 | eight_bytes[i];
    }
    return value;
}

static inline size_t spell(uint8_t *out, uint64_t value)
{
    size_t length = 0;
    for (; value > 127; value /= 128) {
        out[length++] = (uint8_t)(value % 128 + 128);
    }
    out[length++] = (uint8_t)value;
    return length;
}

/* Spells a table, and returns its length. */
static inline size_t spell_table(uint8_t *table, const struct rows *rows)
{
    size_t i, length = spell(table, rows->s);
    length += spell(table + length, rows->p);
    length += spell(table + length, rows->count);
    for (i = 0; i < rows->count; i++) {
        length += spell(table + length, rows->x[i]);
        length += spell(table + length, rows->y[i]);
        length += spell(table + length, rows->due[i]);
        length += spell(table + length, rows->cost[i]);
    }
    length += spell(table + length, rows->servers);
    for (i = 0; i < rows->servers; i++) {
        length += spell(table + length, rows->a[i]);
        length += spell(table + length, rows->b[i]);
    }
    return length;
}

/* Returns a number from 1 to `most`, always the same ones in the same order. */
static inline uint64_t some(uint64_t most)
{
    static uint32_t state = 1;
    state = (uint32_t)(state * UINT64_C(1664525) + UINT64_C(1013904223));
    return state / 65536 % most + 1;
}

enum { MOST_SMALL_ROWS = 3, MOST_SMALL_SERVERS = 2 };

/* Makes up a small table. Each of its numbers is spelled with one group. */
static inline void some_table(struct rows *rows)
{
    static const uint64_t sizes[] = {1, 2, 3, 4, 6, 8, 12, 24}; /* With such b, H stays small. */
    size_t row;
    rows->p = some(9);
    rows->s = some(rows->p) - 1;
    rows->servers = some(MOST_SMALL_SERVERS + 1) - 1;
    rows->count = rows->servers == 0 ? some(MOST_SMALL_ROWS) : some(MOST_SMALL_ROWS + 1) - 1;
    for (row = 0; row < rows->servers; row++) {
        rows->b[row] = sizes[some(COUNT(sizes)) - 1];
        rows->a[row] = some(some(3) == 1 ? rows->b[row] : (rows->b[row] + 3) / 4);
    }
    for (row = 0; row < rows->count; row++) {
        rows->x[row] = some(3);
        rows->y[row] = some(4) == 1 ? some(6) : some(24);
        rows->due[row] = some(20);
        rows->cost[row] = some(rows->due[row] < 3 ? rows->due[row] : 3);
    }
}

#endif
