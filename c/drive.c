/*
 * drive TABLE SCRIPT: runs the suspicious caller on a table and a script, with a log buffer of every length. Then it
 * runs it on damaged copies of the two files: each is cut short at every byte, each of its bytes is replaced, and so
 * are up to six bytes in a row, so that numbers of every length are misspelled, too long or cut off.
 */
#include "caller.h"

#include <stdio.h>
#include <stdlib.h>
#include <string.h>

static struct bytes table, script;
static unsigned long tried;

static struct answers try(size_t log_length)
{
    tried++;
    return call_on(table, script, log_length);
}

static void try_logs(void)
{
    uint64_t longest = try(0).replay.first;
    for (size_t log_length = 1; log_length <= longest + 1; log_length++)
        try(log_length);
}

/* Replaces bytes in a row by groups that ask for more, of which the last may be a zero group in place of that. */
static void try_rows_of_bytes(struct bytes damaged)
{
    uint8_t kept[MOST_GROUPS];
    for (size_t i = 0; i < damaged.length; i++)
        for (size_t count = 2; count <= MOST_GROUPS && count <= damaged.length - i; count++) {
            memcpy(kept, damaged.at + i, count);
            memset(damaged.at + i, 0x80, count);
            try(script.length);
            damaged.at[i + count - 1] = 0;
            try(script.length);
            memcpy(damaged.at + i, kept, count);
        }
}

/* `damaged` is the table or the script. */
static void try_damage(struct bytes *damaged)
{
    static const uint8_t bytes[] = {0x00, 0x01, 0x7F, 0x80, 0x81, 0xFF}; /* The ends of a group, last or not. */
    size_t length = damaged->length;
    for (damaged->length = 0; damaged->length < length; damaged->length++)
        try(script.length);
    for (size_t i = 0; i < length; i++) {
        uint8_t kept = damaged->at[i];
        for (size_t j = 0; j < sizeof bytes; j++) {
            damaged->at[i] = bytes[j];
            try(script.length);
        }
        damaged->at[i] = kept;
    }
    try_rows_of_bytes(*damaged);
}

int main(int words, char **word)
{
    if (words != 3)
        stop(RIG_USAGE, "drive is used as: drive TABLE SCRIPT");
    table = read_file(word[1], SIZE_MAX);
    script = read_file(word[2], SIZE_MAX);
    try_logs();
    try_damage(&table);
    try_damage(&script);
    printf("%lu cases tried\n", tried);
    free(table.at);
    free(script.at);
    return RIG_DONE;
}
