/* Runs a program on an input through pipes. */
#ifndef CHILD_H
#define CHILD_H

#include "../differential/random.h"
#include "inputs.h"

enum pace { AT_ONCE, CHUNKS, BYTE_BY_BYTE };

/* Everything that it writes, until it ends by itself with 0. Paced: each piece of the input is sent only when the one before has been read.
 * NULL, or what went wrong. */
const char *run_program(const char *program, struct source *s, enum pace pace, const struct bytes *input, struct bytes *output);

#endif
