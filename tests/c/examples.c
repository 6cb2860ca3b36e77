/* The examples of the scope and of the requests, the proved ones too: with k = 2, a1 and a2 of process 0 and b1 of
 * process 1. */
#include <string.h>

#include "subject.h"

#define OVERLAP "(ep (and (at 0 0) (at 1 0)))"

static uint64_t a1(struct subject *s) { return offer(s, 1, 1, 0, 0, 0, 1); }
static uint64_t a2(struct subject *s) { return offer(s, 1, 2, 0, 0, 0, 0); }
static uint64_t b1(struct subject *s) { return offer(s, 2, 0, 1, 0, 0, 0x100); }

static int counts_are(const struct subject *s, unsigned a, unsigned b) {
    return taken_of(s, 0) == a && taken_of(s, 1) == b;
}

/* The frontier at a place: counts, labels and masks of the first two processes, and whether its last line holds. */
static int frontier_is(const struct subject *s, size_t place, const uint8_t *expected) {
    const uint8_t *behind = s->window.bytes + frontiers_bytes(s, place + 1) - 24; /* labels, masks and values */
    unsigned last = watch_lines(s->record.bytes) - 1;
    return cut_of(s, place, 0) == expected[0] && cut_of(s, place, 1) == expected[1] && behind[0] == expected[2] &&
           behind[1] == expected[3] && behind[8] == expected[4] && behind[9] == expected[5] &&
           (behind[16 + last / 8] >> last % 8 & 1) == expected[6];
}

static void check_overlap_window(struct subject *s) {
    static const uint8_t expected[4][7] = {{0, 1, 0, 1, 0, 2, 0}, {1, 1, 1, 1, 1, 2, 1}, {2, 0, 0, 0, 1, 0, 0}, {2, 1, 0, 1, 1, 2, 1}};
    CHECK(counts_are(s, 2, 1) && watch_kept(s->record.bytes) == 4);
    for (size_t i = 0; i < 4; i++) CHECK(frontier_is(s, i, expected[i]));
    CHECK(all_zero(s->window.bytes + frontiers_bytes(s, 4), s->window.length - frontiers_bytes(s, 4)));
}

static void check_arrivals(struct subject *s) {
    start(s, 8, 2, OVERLAP);
    CHECK_REPLY(a1(s), held(1));
    CHECK_REPLY(try_take(s), state(0, 2));
    CHECK_REPLY(a2(s), held(1));
    CHECK_REPLY(try_take(s), state(0, 3));
    CHECK_REPLY(b1(s), held(1));
    CHECK_REPLY(try_take(s), state(1, 4));
    check_overlap_window(s);
    uint8_t window[WATCH32_WINDOW_BYTES(8)], record[WATCH32_RECORD_BYTES];
    memcpy(window, s->window.bytes, s->window.length);
    memcpy(record, s->record.bytes, s->record.length);
    start(s, 8, 2, OVERLAP);
    b1(s);
    CHECK_REPLY(try_take(s), state(0, 2));
    CHECK(counts_are(s, 0, 1));
    a1(s);
    CHECK_REPLY(try_take(s), state(1, 3));
    CHECK(counts_are(s, 1, 1));
    a2(s);
    CHECK_REPLY(try_take(s), state(1, 4));
    check_overlap_window(s);
    CHECK(memcmp(window, s->window.bytes, s->window.length) == 0);
    CHECK(memcmp(record, s->record.bytes, s->record.length) == 0);
    CHECK_REPLY(offer(s, 3, 3, 2, 0, 0, 0), held(1));
    CHECK_REPLY(try_take(s), state(1, 1));
    CHECK(counts_are(s, 3, 2));
}

static void all_three(struct subject *s, const char *rule) {
    start(s, 8, 2, rule);
    a1(s), try_take(s);
    a2(s), try_take(s);
    b1(s), try_take(s);
    CHECK(counts_are(s, 2, 1));
}

static void check_clocks(struct subject *s) {
    all_three(s, OVERLAP);
    CHECK_REPLY(offer(s, 1, 3, 0, 0, 0, 0), held(1));
    CHECK_REPLY(try_take(s), state(1, 5));
    start(s, 8, 3, OVERLAP);
    CHECK_REPLY(offer(s, 3, 1, 1, 0, 0, 0), held(1));
    CHECK_REPLY(try_take(s), state(0, 2));
    CHECK_REPLY(offer(s, 6, 1, 2, 1, 0, 0), held(1));
    CHECK_REPLY(try_take(s), state(0, 2));
}

/* Process 0's third event knows of b1; a fourth that forgets it has a false clock. */
static void check_message(struct subject *s) {
    static const uint8_t expected[4][7] = {{0, 1, 0, 1, 0, 2, 0}, {1, 1, 1, 1, 1, 2, 1}, {2, 1, 0, 1, 1, 2, 1},
                                           {3, 1, 0, 1, 1, 2, 1}};
    all_three(s, OVERLAP);
    CHECK_REPLY(offer(s, 1, 3, 1, 0, 0, 0), held(1));
    CHECK_REPLY(try_take(s), state(1, 4));
    CHECK(counts_are(s, 3, 1));
    for (size_t i = 0; i < 4; i++) CHECK(frontier_is(s, i, expected[i]));
    CHECK(all_zero(s->window.bytes + frontiers_bytes(s, 4), s->window.length - frontiers_bytes(s, 4)));
    CHECK_REPLY(offer(s, 1, 4, 0, 0, 0, 0), held(1));
    CHECK_REPLY(try_take(s), refused(35));
    CHECK(watch_pending(s->record.bytes) == 0 && counts_are(s, 3, 1));
    CHECK_REPLY(offer(s, 1, 4, 1, 0, 0, 0), held(1));
    CHECK_REPLY(try_take(s), state(1, 5));
}

static void check_verdicts(struct subject *s) {
    start(s, 8, 2, "(ap (and (at 0 0) (at 1 0)))");
    uint64_t reply;
    a1(s), try_take(s), a2(s), try_take(s), b1(s);
    reply = try_take(s);
    CHECK_REPLY(reply, state(0, 4));
    CHECK_REPLY(try_open(s, "(ap (at 0 0))", 2, 0), state(0, 1));
    CHECK_REPLY(try_open(s, "(ay (at 0 0))", 2, 0), state(1, 1));
    start(s, 8, 2, "(ey (at 0 0))");
    a1(s);
    CHECK_REPLY(try_take(s), state(0, 2));
    b1(s);
    CHECK_REPLY(try_take(s), state(1, 3));
}

static void check_room(struct subject *s) {
    start(s, 3, 2, OVERLAP);
    a1(s), try_take(s);
    a2(s), try_take(s);
    CHECK_REPLY(b1(s), held(1));
    CHECK_REPLY(try_take(s), refused(36));
    CHECK(watch_pending(s->record.bytes) == 1 && counts_are(s, 2, 0));
    CHECK_REPLY(try_take(s), refused(36));
    lend_room(s, 4);
    CHECK_REPLY(try_take(s), state(1, 4));
    check_overlap_window(s);
    lend_again(&s->window, frontiers_bytes(s, 1025), 0); /* 41,000 bytes in the old form */
    lend_junk(s, s->window.length);
    CHECK_REPLY(try_take(s), refused(6));
    CHECK_REPLY(try_open(s, OVERLAP, 2, 0), refused(6));
}

static void check_twice(struct subject *s) {
    uint8_t record[WATCH32_RECORD_BYTES];
    start(s, 4, 2, OVERLAP);
    CHECK_REPLY(a1(s), held(1));
    memcpy(record, s->record.bytes, s->record.length);
    CHECK_REPLY(a1(s), WATCH_AGAIN);
    CHECK(memcmp(record, s->record.bytes, s->record.length) == 0);
    CHECK_REPLY(offer(s, 1, 1, 0, 0, 0, 3), refused(32));
    CHECK_REPLY(try_take(s), state(0, 2));
    CHECK_REPLY(a1(s), refused(31));
    for (unsigned i = 0; i < 32; i++) CHECK_REPLY(offer(s, 2, 0, 2 + i, 0, 0, 0), held(i + 1));
    CHECK_REPLY(offer(s, 2, 0, 34, 0, 0, 0), refused(33));
    CHECK_REPLY(offer(s, 2, 0, 33, 0, 0, 0), WATCH_AGAIN);
}

/* The program's example, at the calls: an early event waits. */
static void check_program(struct subject *s) {
    start(s, 4, 2, OVERLAP);
    CHECK_REPLY(a2(s), held(1));
    CHECK_REPLY(try_take(s), NOTHING_READY);
    CHECK_REPLY(a2(s), WATCH_AGAIN);
    CHECK_REPLY(a1(s), held(2));
    CHECK_REPLY(try_take(s), state(0, 2));
    CHECK_REPLY(try_take(s), state(0, 3));
    CHECK_REPLY(try_take(s), NOTHING_READY);
    CHECK_REPLY(b1(s), held(1));
    CHECK_REPLY(try_take(s), state(1, 4));
    check_overlap_window(s);
}

static void check_all(struct subject s) {
    check_arrivals(&s);
    check_clocks(&s);
    check_message(&s);
    check_verdicts(&s);
    check_room(&s);
    check_twice(&s);
    check_program(&s);
    subject_free(&s);
}

void test_examples(void) {
    check_all(subject_new());
    check_all(subject_wide());
}
