/* Checks that print what failed and go on. */
#ifndef CHECK_H
#define CHECK_H

#include <stdio.h>

extern unsigned long checks, failures;

#define CHECK(holds)                                                          \
    do {                                                                      \
        checks++;                                                             \
        if (!(holds)) {                                                       \
            failures++;                                                       \
            printf("%s:%d: does not hold: %s\n", __FILE__, __LINE__, #holds); \
        }                                                                     \
    } while (0)

/* A reply, compared and printed in parts. */
#define CHECK_REPLY(expression, expected)                                                                              \
    do {                                                                                                               \
        unsigned long long got_ = (expression), want_ = (expected);                                                    \
        checks++;                                                                                                      \
        if (got_ != want_) {                                                                                           \
            failures++;                                                                                                \
            printf("%s:%d: %s\n    answers number %llu flag %llu value %llu place %llu, expected %llu %llu %llu %llu\n", \
                   __FILE__, __LINE__, #expression, got_ & 255, got_ >> 8 & 255, got_ >> 16 & 65535, got_ >> 32,        \
                   want_ & 255, want_ >> 8 & 255, want_ >> 16 & 65535, want_ >> 32);                                    \
        }                                                                                                              \
    } while (0)

#endif
