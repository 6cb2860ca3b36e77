/* Holds that no calls leave: take goes through the ready events from the lowest process up, wherever they stand; at a
 * tie by place, and one of no process comes last. */
#include <string.h>

#include "subject.h"

#define RULE "(at 0 0)"

static uint8_t *pending_place(struct subject *s, unsigned place) {
    return s->record.bytes + (s->wide ? 488 + 48 * place : 344 + 32 * place);
}

/* An event laid into the next pending place by hand. */
static void lay(struct subject *s, unsigned mask, unsigned a, unsigned b, unsigned c, unsigned labels) {
    unsigned width = s->wide ? 4 : 2;
    uint8_t *at = pending_place(s, s->record.bytes[2]++);
    at[0] = (uint8_t)mask;
    at[8] = (uint8_t)a;
    at[8 + width] = (uint8_t)b;
    at[8 + 2 * width] = (uint8_t)c;
    at[8 + 8 * width] = (uint8_t)labels;
}

/* Process 0 has one event, and process 1 one that knows of it: so (0 1 0) is no cut, and process 1 with (0 2 0) has a
 * false clock. */
static void start_with_message(struct subject *s, size_t room) {
    start(s, 8, 3, RULE);
    CHECK_REPLY(offer(s, 1, 1, 0, 0, 0, 0), held(1));
    CHECK_REPLY(try_take(s), state(0, 2));
    CHECK_REPLY(offer(s, 2, 1, 1, 0, 0, 0), held(1));
    CHECK_REPLY(try_take(s), state(0, 3));
    lend_room(s, room);
}

static unsigned mask_at(struct subject *s, unsigned place) {
    return *pending_place(s, place);
}

static void check_false_first(struct subject *s) {
    start_with_message(s, 8);
    lay(s, 4, 0, 0, 1, 0);
    lay(s, 2, 0, 2, 0, 0);
    CHECK_REPLY(try_take(s), refused(35));
    CHECK(watch_pending(s->record.bytes) == 1 && mask_at(s, 0) == 4 && mask_at(s, 1) == 0);
    CHECK_REPLY(try_take(s), state(0, 5));
    CHECK_REPLY(try_take(s), NOTHING_READY);
}

static void check_true_first(struct subject *s) {
    start_with_message(s, 8);
    lay(s, 2, 0, 2, 0, 0);
    lay(s, 1, 2, 0, 0, 1);
    CHECK_REPLY(try_take(s), state(1, 5));
    CHECK(watch_pending(s->record.bytes) == 1 && mask_at(s, 0) == 2 && taken_of(s, 0) == 2);
    CHECK_REPLY(try_take(s), refused(35));
    CHECK_REPLY(try_take(s), NOTHING_READY);
}

/* What does not fit is passed over in this order, too: process 0's event does not; of the others, which both would, the
 * one of processes 1 and 2 comes first. */
static void check_passed_over(struct subject *s) {
    start_with_message(s, 3);
    lay(s, 4, 1, 1, 1, 0);
    lay(s, 6, 1, 2, 1, 0);
    lay(s, 1, 2, 1, 0, 0);
    CHECK_REPLY(try_take(s), state(0, 3));
    CHECK(taken_of(s, 0) == 1 && taken_of(s, 1) == 2 && taken_of(s, 2) == 1);
    CHECK(watch_pending(s->record.bytes) == 2 && mask_at(s, 0) == 4 && mask_at(s, 1) == 1);
    CHECK_REPLY(try_take(s), state(0, 3));
    CHECK(taken_of(s, 0) == 2);
    CHECK_REPLY(try_take(s), NOTHING_READY);
}

/* Two of process 0 with the same count: the one that stands first, and the other is never ready. */
static void check_tie(struct subject *s) {
    start_with_message(s, 8);
    lay(s, 4, 0, 0, 1, 0);
    lay(s, 3, 2, 2, 0, 1);
    lay(s, 1, 2, 1, 0, 0);
    CHECK_REPLY(try_take(s), state(1, 4));
    CHECK(taken_of(s, 0) == 2 && taken_of(s, 1) == 2 && mask_at(s, 0) == 4 && mask_at(s, 1) == 1);
    CHECK_REPLY(try_take(s), state(1, 5));
    CHECK_REPLY(try_take(s), NOTHING_READY);
}

static void check_none_last(struct subject *s) {
    start_with_message(s, 8);
    lay(s, 0, 0, 1, 0, 0);
    lay(s, 4, 0, 0, 1, 0);
    CHECK_REPLY(try_take(s), state(0, 5));
    CHECK(watch_pending(s->record.bytes) == 1 && mask_at(s, 0) == 0 && taken_of(s, 2) == 1);
    CHECK_REPLY(try_take(s), refused(35));
    CHECK_REPLY(try_take(s), NOTHING_READY);
}

static void check_all(struct subject s) {
    check_false_first(&s);
    check_true_first(&s);
    check_passed_over(&s);
    check_tie(&s);
    check_none_last(&s);
    subject_free(&s);
}

void test_turns(void) {
    check_all(subject_new());
    check_all(subject_wide());
}
