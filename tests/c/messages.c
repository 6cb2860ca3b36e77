/* Request 2: an event may know of events elsewhere, and of each such event all that it knew. What it forgets makes its
 * clock false. */
#include <string.h>

#include "subject.h"

#define OVERLAP "(ep (and (at 0 0) (at 1 0)))"

/* Process 0; then process 1, which knows of that; then 2 and 3 together, which know of both. */
static void three_events(struct subject *s) {
    start(s, 8, 4, OVERLAP);
    CHECK_REPLY(offer(s, 1, 1, 0, 0, 0, 0), held(1));
    CHECK_REPLY(try_take(s), state(0, 2));
    CHECK_REPLY(offer(s, 2, 1, 1, 0, 0, 0), held(1));
    CHECK_REPLY(try_take(s), state(0, 3));
    CHECK_REPLY(offer(s, 12, 1, 1, 1, 1, 0), held(1));
    CHECK_REPLY(try_take(s), state(0, 3));
}

/* A fourth event and the frontiers kept with it; 0: its clock is false. */
static void check_fourth(struct subject *s) {
    static const struct { unsigned mask, clock[4], kept; } fourth[] = {
        /* knows of none, of the second, of the third with all that it knew */
        {1, {2, 0, 0, 0}, 5}, {1, {2, 1, 0, 0}, 4}, {1, {2, 1, 1, 1}, 3},
        /* the third without what it knew, by one of its processes, or both */
        {1, {2, 0, 1, 1}, 0}, {1, {2, 1, 1, 0}, 0}, {1, {2, 1, 0, 1}, 0}, {1, {2, 0, 1, 0}, 0}, {1, {2, 0, 0, 1}, 0},
        /* no more than it knew, and more; less than it knew */
        {2, {1, 2, 0, 0}, 5}, {2, {1, 2, 1, 1}, 4},
        {2, {0, 2, 0, 0}, 0}, {2, {0, 2, 1, 1}, 0}, {2, {1, 2, 1, 0}, 0}, {2, {1, 2, 0, 1}, 0},
        /* what came to it through a joint event, and the other process of that */
        {12, {1, 1, 2, 2}, 4}, {12, {1, 0, 2, 2}, 0}, {12, {0, 1, 2, 2}, 0}, {12, {0, 0, 2, 2}, 0},
        {4, {1, 1, 2, 1}, 4}, {4, {1, 1, 2, 0}, 0}, {4, {1, 0, 2, 1}, 0}, {4, {0, 1, 2, 1}, 0},
        {8, {1, 1, 1, 2}, 4}, {8, {1, 1, 0, 2}, 0}, {8, {0, 0, 0, 2}, 0},
        /* together with one that knew more */
        {3, {2, 2, 0, 0}, 3}, {3, {2, 2, 1, 1}, 2}, {3, {2, 2, 1, 0}, 0},
        {6, {1, 2, 2, 1}, 4}, {6, {1, 2, 2, 0}, 0}, {6, {0, 2, 2, 1}, 0}, {15, {2, 2, 2, 2}, 1},
    };
    for (size_t i = 0; i < sizeof fourth / sizeof fourth[0]; i++) {
        const unsigned *c = fourth[i].clock;
        three_events(s);
        CHECK_REPLY(offer(s, fourth[i].mask, c[0], c[1], c[2], c[3], 0), held(1));
        CHECK_REPLY(try_take(s), fourth[i].kept > 0 ? state(0, fourth[i].kept) : refused(35));
        CHECK(watch_pending(s->record.bytes) == 0);
    }
    three_events(s);
    CHECK_REPLY(offer(s, 2, 2, 2, 0, 0, 0), held(1));
    CHECK_REPLY(try_take(s), NOTHING_READY);
}

/* The events a1 and a2 of process 0 overlap b1 by what b1 knows of them. */
static void overlap(struct subject *s, const char *rule, unsigned known) {
    start(s, 8, 2, rule);
    offer(s, 1, 1, 0, 0, 0, 1), try_take(s);
    offer(s, 1, 2, 0, 0, 0, 0), try_take(s);
    CHECK_REPLY(offer(s, 2, known, 1, 0, 0, 0x100), held(1));
}

static void check_verdicts(struct subject *s) {
    overlap(s, OVERLAP, 0);
    CHECK_REPLY(try_take(s), state(1, 4));
    overlap(s, OVERLAP, 1);
    CHECK_REPLY(try_take(s), state(1, 3));
    overlap(s, OVERLAP, 2);
    CHECK_REPLY(try_take(s), state(0, 2));
    overlap(s, "(ey (at 0 0))", 0); /* before (2 1) lie (1 1) and (2 0) */
    CHECK_REPLY(try_take(s), state(1, 4));
    overlap(s, "(ey (at 0 0))", 2); /* only (2 0) */
    CHECK_REPLY(try_take(s), state(0, 2));
    start(s, 8, 2, "(ap (and (at 0 0) (at 1 0)))"); /* one way only: each knows of the one before */
    offer(s, 1, 1, 0, 0, 0, 1), try_take(s);
    offer(s, 2, 1, 1, 0, 0, 0x100);
    CHECK_REPLY(try_take(s), state(1, 2));
    offer(s, 1, 2, 1, 0, 0, 0);
    CHECK_REPLY(try_take(s), state(1, 2));
    CHECK(cut_of(s, 0, 0) == 1 && cut_of(s, 0, 1) == 1);
    CHECK(cut_of(s, 1, 0) == 2 && cut_of(s, 1, 1) == 1);
}

/* What knows of an event waits for it. */
static void check_early(struct subject *s) {
    start(s, 8, 3, OVERLAP);
    CHECK_REPLY(offer(s, 4, 2, 1, 1, 0, 0), held(1));
    CHECK_REPLY(offer(s, 2, 2, 1, 0, 0, 0), held(2));
    CHECK_REPLY(try_take(s), NOTHING_READY);
    CHECK_REPLY(offer(s, 1, 2, 0, 0, 0, 0), held(3));
    CHECK_REPLY(try_take(s), NOTHING_READY);
    CHECK_REPLY(offer(s, 1, 1, 0, 0, 0, 0), held(4));
    CHECK_REPLY(try_take(s), state(0, 2));
    CHECK_REPLY(try_take(s), state(0, 3));
    CHECK_REPLY(try_take(s), state(0, 4));
    CHECK_REPLY(try_take(s), state(0, 3));
    CHECK_REPLY(try_take(s), NOTHING_READY);
}

/* ---- bytes that no call leaves ---- */

static void lay_counts(struct subject *s, size_t place, unsigned a, unsigned b) {
    uint8_t *at = s->window.bytes + 40 * place;
    at[0] = (uint8_t)a, at[1] = (uint8_t)(a >> 8);
    at[2] = (uint8_t)b, at[3] = (uint8_t)(b >> 8);
}

/* Whether take gives 35. What else it does then is free. */
static int gives_35(struct subject *s) {
    uint64_t reply = watch_take(s->record.bytes, s->record.length, s->window.bytes, s->window.length, s->scratch.bytes,
                                s->scratch.length);
    CHECK(lent_intact(&s->record) && lent_intact(&s->window) && lent_intact(&s->scratch));
    return reply == 35;
}

/* Room for four frontiers, all (9 9), so many kept; process 0's first event is pending: lowered, it is (0 0). */
static void laid(struct subject *s, unsigned kept) {
    start(s, 4, 2, OVERLAP);
    CHECK_REPLY(offer(s, 1, 1, 0, 0, 0, 0), held(1));
    s->record.bytes[4] = (uint8_t)kept;
    for (size_t i = 0; i < 4; i++) lay_counts(s, i, 9, 9);
}

/* The kept frontiers decide, all of them, and nothing else: neither their order, nor what stands behind them, nor the
 * last clocks in the record. */
static void check_laid(struct subject *s) {
    for (unsigned kept = 1; kept <= 4; kept++) {
        laid(s, kept);
        CHECK(gives_35(s));
        for (unsigned place = 0; place < 4; place++) {
            laid(s, kept);
            lay_counts(s, place, 0, 0);
            CHECK(gives_35(s) == (place >= kept));
        }
    }
    for (unsigned byte = 0; byte < 16; byte++) { /* on all eight counts, both bytes of each */
        laid(s, 2);
        lay_counts(s, 1, 0, 0);
        s->window.bytes[40 + byte] = 1;
        CHECK(gives_35(s));
    }
    for (unsigned byte = 16; byte < 40; byte++) { /* and on the counts alone */
        laid(s, 2);
        lay_counts(s, 1, 0, 0);
        s->window.bytes[40 + byte] ^= 255;
        CHECK(!gives_35(s));
    }
    laid(s, 2); /* equal ones do not harm */
    lay_counts(s, 0, 0, 0), lay_counts(s, 1, 0, 0);
    CHECK(!gives_35(s));
    laid(s, 4); /* lowered at its own process and there alone */
    lay_counts(s, 0, 1, 0), lay_counts(s, 1, 0, 1), lay_counts(s, 2, 65535, 0), lay_counts(s, 3, 1, 65535);
    CHECK(gives_35(s));
}

static void check_last_clocks(struct subject *s) {
    overlap(s, OVERLAP, 0);
    memset(s->record.bytes + 24, 0x77, 128);
    CHECK(!gives_35(s));
    overlap(s, OVERLAP, 2);
    memset(s->record.bytes + 24, 0, 128);
    CHECK(!gives_35(s));
}

void test_messages(void) {
    struct subject s = subject_new(), wide = subject_wide();
    check_fourth(&s), check_fourth(&wide);
    check_verdicts(&s), check_verdicts(&wide);
    check_early(&s), check_early(&wide);
    check_laid(&s);
    check_last_clocks(&s);
    subject_free(&s);
    subject_free(&wide);
}
