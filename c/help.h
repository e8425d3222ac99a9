/* What the technician's program says about itself. */
#ifndef HELP_H
#define HELP_H

#include <stdbool.h>

/* Prints the help of one command, or of all where the name is empty. Returns false where there is no such command. */
bool print_help(const char *command);

/* Returns how a command is used, in lines, or null where there is no such command. */
const char *usage_of(const char *command);

void print_version(void);

#endif
