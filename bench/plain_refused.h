/* The refusals that record and window decide, for plain.c and plain_page.c, each with functions of its own. */
#ifndef PLAIN_REFUSED_H
#define PLAIN_REFUSED_H

#include "plain_inner.h"

static inline bool wrong_window(size_t length) {
    return length < FRONTIER || length > FRONTIER * ROOM || length % FRONTIER != 0;
}

static inline bool bad_line(const uint8_t *line, unsigned i, unsigned k) {
    unsigned a = line[1], b = line[2];
    switch (line[0]) {
    case 0: return a >= k || b > 7;
    case 1: case 3: return a >= i || b != 0;
    case 2: case 4: case 5: return a >= i || b >= i;
    default: return true;
    }
}

static inline bool damaged(const uint8_t *record, size_t room) {
    unsigned k = record[0], lines = record[1];
    uint32_t kept = load_kept(record);
    if (k - 1 >= PROCESSES || lines - 1 >= LINES || record[2] > PENDING || kept - 1 >= room) return true;
    for (unsigned i = 0; i < lines; i++)
        if (bad_line(record + TABLE_AT + 3 * i, i, k)) return true;
    return false;
}

#endif
