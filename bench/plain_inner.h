/* What the files of the plain C version share: layouts, unaligned reads, the step of a window. Little-endian machines
 * only. They are compiled once for each stored form: COUNT_BYTES is 2, or 4 in the wide form (plain_wide.c and
 * plain_step_wide.c). */
#ifndef PLAIN_INNER_H
#define PLAIN_INNER_H

#include <stdbool.h>
#include <string.h>

#include "plain.h"

#ifndef COUNT_BYTES
#define COUNT_BYTES 2
#endif

#if COUNT_BYTES == 2
typedef uint16_t count;
typedef uint32_t other_count;
#define PLAIN(name) plain_##name
#else
typedef uint32_t count;
typedef uint16_t other_count;
#define PLAIN(name) plain32_##name
#endif

enum {
    PROCESSES = 8, LINES = 64, PENDING = 32, ROOM = 1024,
    CLOCK = PROCESSES * COUNT_BYTES, FRONTIER = CLOCK + 24,
    LABELS_AT = CLOCK, MASKS_AT = CLOCK + 8, VALUES_AT = CLOCK + 16,
    EVENT = 8 + CLOCK + 8, EVENT_LABELS_AT = 8 + CLOCK,
    CLOSED_AT = 3, TAKEN_AT = 8, CLOCKS_AT = 8 + CLOCK, TABLE_AT = 8 + 9 * CLOCK, PENDING_AT = TABLE_AT + 3 * LINES,
    RECORD = PENDING_AT + PENDING * EVENT
};

struct counts {
    count at[PROCESSES];
};

static inline struct counts load(const uint8_t *from) {
    struct counts c;
    memcpy(&c, from, sizeof c);
    return c;
}

static inline uint64_t load_word(const uint8_t *from) {
    uint64_t word;
    memcpy(&word, from, sizeof word);
    return word;
}

static inline void store_word(uint8_t *to, uint64_t word) {
    memcpy(to, &word, sizeof word);
}

static inline uint32_t load_kept(const uint8_t *record) {
    uint32_t kept;
    memcpy(&kept, record + 4, sizeof kept);
    return kept;
}

static inline void store_kept(uint8_t *record, uint32_t kept) {
    memcpy(record + 4, &kept, sizeof kept);
}

/* All bits at processes that the watch has and that are not closed. */
static inline struct counts open_lanes(const uint8_t *record) {
    struct counts open;
    for (unsigned p = 0; p < PROCESSES; p++)
        open.at[p] = (count)-(p < record[0] && !(record[CLOSED_AT] >> p & 1));
    return open;
}

/* Some open process has all of its events in this cut. */
static inline bool some_complete(const struct counts *c, const struct counts *taken, const struct counts *open) {
    unsigned some = 0;
    for (int p = 0; p < PROCESSES; p++) some |= (c->at[p] == taken->at[p]) & open->at[p];
    return some != 0;
}

/* Reads a rule into 192 bytes of table, which is written only if the answer is 0. */
struct plain_rule {
    uint32_t fault, place, lines;
};
struct plain_rule plain_read_rule(const uint8_t *text, size_t length, unsigned k, uint8_t *table);

/* The lines' truth at one cut. Any and all: what some, and what each, of the preceding cuts has; both 0 if nothing precedes. */
uint64_t PLAIN(judge)(const uint8_t *table, unsigned lines, uint64_t labels, uint64_t any, uint64_t all);

/* As take, but a window of over so many frontiers does not fit. */
uint64_t PLAIN(take_within)(uint8_t *record, size_t record_len, uint8_t *window, size_t window_len,
                            uint8_t *scratch, size_t scratch_len, size_t allowed);

/* The step of a window for one event. */
struct step {
    uint8_t mask;
    uint64_t labels;
    struct counts clock, lowered;
    struct counts ones;                   /* 1 at the involved processes */
    struct counts involved;               /* all bits there */
    struct counts reached, open;          /* the counts after the event; all bits at open processes */
    uint32_t kept, staying, grown;
    uint8_t marks[ROOM];                  /* of each frontier: STAYS, GROWS */
};

/* Marks what stays and what grows, so that staying + grown frontiers would be kept. */
void PLAIN(mark)(struct step *s, const uint8_t *event, const uint8_t *record, const uint8_t *window);

/* Then: makes the window of what was marked. */
void PLAIN(step)(const struct step *s, const uint8_t *record, uint8_t *window, uint8_t *scratch);

#endif
