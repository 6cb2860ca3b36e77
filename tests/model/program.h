/* A model of the program: the whole input in, the whole output out. Section "Examples" of the scope from "The program
 * watch" on, refusals 1 and 10, what request 1 has it print, and the counts that request 6 lets through: the watch is
 * stored in the wide form. What the calls say comes from the model of the calls, a rule's own faults from its reader. */
#ifndef PROGRAM_H
#define PROGRAM_H

#include "model.h"

enum { LINE_MOST = 4096, NUMBERS_MOST = 1 << 17, LISTS = 3 };

/* ---- one line ---- */

struct number {
    unsigned list;
    size_t place;   /* of its first digit */
    uint64_t value; /* further digits of one that is above every limit do not count */
};

struct list {
    size_t numbers;
    bool closed;
    size_t closing; /* place of its closing bracket; in start and watch the line's */
};

/* A line taken apart. */
struct parts {
    bool whole;
    size_t departs; /* if not whole: the first byte that no line of this form has there, or the length */
    unsigned lists;
    struct list list[LISTS];
    size_t n;
    struct number number[NUMBERS_MOST]; /* those that have ended, in order */
};

/* Faults 1 and 10 of a line; where there is none, its parts are whole. k is the watch line's. */
struct fault watch_line(const uint8_t *line, size_t length, struct parts *parts);
struct fault start_line(const uint8_t *line, size_t length, unsigned k, struct parts *parts);
struct fault did_line(const uint8_t *line, size_t length, unsigned k, struct parts *parts);

/* Faults of a rule line, its rule's own too; where there is none, the rule is text[6] up to the last byte. */
struct fault rule_line(const uint8_t *line, size_t length, unsigned k);

/* ---- the program ---- */

struct output {
    size_t length, room;
    char *bytes;
    size_t lines; /* of the input, that were judged */
};

void expected_output(const uint8_t *input, size_t length, struct output *out);
void free_output(struct output *out);

#endif
