/*
 * One JSON value, which is made piece by piece and printed at the end. Names are null inside a list. Where the program
 * stops before that, what was made is left out, and an object that says why is printed in its place.
 */
#ifndef JSON_H
#define JSON_H

#include "rig.h"

extern bool as_json; /* The option --json was given. */

void json_begin(const char *name, char bracket); /* The bracket is '{' or '['. */
void json_end(void);
void json_number(const char *name, uint64_t number);
void json_signed(const char *name, bool negative, uint64_t size);
void json_text(const char *name, const char *text); /* A text that is null is null in JSON. */
void json_flag(const char *name, bool flag);

/* Lets all that is said be one JSON value, which goes to this stream. stop() says why in JSON too. */
void start_json(FILE *out);

/* Prints the value, which must be whole. */
void print_json(void);

#endif
