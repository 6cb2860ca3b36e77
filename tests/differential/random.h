/* A generator of pseudo-random numbers (splitmix64): the same seed gives the same case everywhere,
 * so no expression draws twice where C leaves the order open. */
#ifndef RANDOM_H
#define RANDOM_H

#include <stdbool.h>
#include <stdint.h>

struct source {
    uint64_t state;
};

static inline uint64_t draw(struct source *s) {
    uint64_t z = s->state += 0x9e3779b97f4a7c15u;
    z = (z ^ z >> 30) * 0xbf58476d1ce4e5b9u;
    z = (z ^ z >> 27) * 0x94d049bb133111ebu;
    return z ^ z >> 31;
}

/* 0 up to n - 1. */
static inline unsigned below(struct source *s, unsigned n) {
    return (unsigned)((draw(s) >> 32) * n >> 32);
}

static inline unsigned between(struct source *s, unsigned least, unsigned most) {
    return least + below(s, most - least + 1);
}

/* A number of any size up to 64 bits. */
static inline uint64_t sized(struct source *s) {
    uint64_t number = draw(s);
    return number >> below(s, 64);
}

static inline bool chance(struct source *s, unsigned percent) {
    return below(s, 100) < percent;
}

#endif
