/* planted FAULT: commits the named fault, to show that the checkers see it. Exits with 60 where nobody stops it. */
#include <limits.h>
#include <stdio.h>
#include <stdlib.h>
#include <string.h>

/* Both are volatile, so that the compiler neither sees what comes of a fault nor leaves it out. */
static volatile int number = 1;
static volatile char *volatile block;

int main(int words, char **word)
{
    const char *fault = words > 1 ? word[1] : "";
    block = malloc(1);
    if (strcmp(fault, "write past the end") == 0)
        block[number] = 1;
    if (strcmp(fault, "use of nothing written") == 0)
        puts(block[0] > 0 ? "above" : "not above");
    if (strcmp(fault, "overflow") == 0)
        number += INT_MAX;
    if (strcmp(fault, "shift") == 0)
        number <<= number + 31;
    if (strcmp(fault, "leak") != 0)
        free((char *)block);
    if (strcmp(fault, "use after free") == 0)
        block[0] = 1;
    block = NULL;
    return 60;
}
