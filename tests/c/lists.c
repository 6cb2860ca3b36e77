/* Lists with refused calls among them: a call that is lent what it refuses changes nothing, and the caller goes on with
 * the record and window of before. */
#include <stdlib.h>
#include <string.h>

#include "subject.h"

#define OVERLAP "(ep (and (at 0 0) (at 1 0)))"

/* The watch between two calls, as the caller has it. */
struct kept_by_caller {
    size_t record_length, window_length;
    uint8_t record[WATCH32_RECORD_BYTES], window[WATCH32_WINDOW_BYTES(8)];
};

static struct kept_by_caller put_aside(const struct subject *s) {
    struct kept_by_caller c = {.record_length = s->record.length, .window_length = s->window.length};
    if (c.window_length > sizeof c.window) abort();
    memcpy(c.record, s->record.bytes, c.record_length);
    memcpy(c.window, s->window.bytes, c.window_length);
    return c;
}

static void lend_as_before(struct subject *s, const struct kept_by_caller *c) {
    lend(&s->record, c->record_length, 0);
    memcpy(s->record.bytes, c->record, c->record_length);
    lend(&s->window, c->window_length, 0);
    memcpy(s->window.bytes, c->window, c->window_length);
    lend_junk(s, c->window_length);
}

static void refuse_window(struct subject *s, size_t length, unsigned number) {
    struct kept_by_caller c = put_aside(s);
    lend_again(&s->window, length, 0);
    lend_junk(s, length);
    CHECK_REPLY(try_take(s), refused(number));
    CHECK_REPLY(try_find(s, 0), refused(number));
    CHECK_REPLY(try_close(s, 1), refused(number));
    if (number == 6) CHECK_REPLY(try_open(s, "(true)", 1, 0), refused(6));
    lend_as_before(s, &c);
}

static void refuse_record(struct subject *s, size_t length) {
    struct kept_by_caller c = put_aside(s);
    lend_again(&s->record, length, 0);
    CHECK_REPLY(offer(s, 1, 1, 0, 0, 0, 1), refused(6));
    CHECK_REPLY(try_take(s), refused(6));
    CHECK_REPLY(try_find(s, 0), refused(6));
    CHECK_REPLY(try_close(s, 1), refused(6));
    CHECK_REPLY(try_open(s, "(true)", 1, 0), refused(6));
    lend_as_before(s, &c);
}

static void refuse_scratch(struct subject *s, size_t length) {
    lend_junk(s, length);
    CHECK_REPLY(try_take(s), refused(6));
    lend_junk(s, s->window.length);
}

/* Everything that a call can be lent wrongly here. */
static void refuse(struct subject *s) {
    size_t frontier = frontiers_bytes(s, 1), window = s->window.length;
    const size_t windows[] = {0, 1, frontier - 1, frontier + 1, window - 1, window + 1, 1025 * frontier};
    const size_t scratches[] = {0, window - 1, window + 1, window - frontier, window + frontier, 1025 * frontier};
    const size_t records[] = {0, 1, record_bytes(s) - 1, record_bytes(s) + 1, s->wide ? 1368 : 2024};
    for (size_t i = 0; i < sizeof windows / sizeof windows[0]; i++) refuse_window(s, windows[i], 6);
    for (size_t i = 0; i < sizeof scratches / sizeof scratches[0]; i++) refuse_scratch(s, scratches[i]);
    for (size_t i = 0; i < sizeof records / sizeof records[0]; i++) refuse_record(s, records[i]);
    for (size_t room = 1; room < watch_kept(s->record.bytes); room++) refuse_window(s, room * frontier, 34);
}

/* The shortest window, then 41,000 bytes (in the wide form as many frontiers), then enough. */
static void check_too_long(struct subject *s) {
    start(s, 1, 2, OVERLAP);
    CHECK_REPLY(offer(s, 1, 1, 0, 0, 0, 1), held(1));
    lend_again(&s->window, frontiers_bytes(s, 1025), 0);
    lend_junk(s, s->window.length);
    CHECK_REPLY(try_take(s), refused(6));
    lend_room(s, 2);
    CHECK_REPLY(try_take(s), state(0, 2));
}

/* The paper's first list, with and without refused calls around each of its own. */
static struct kept_by_caller overlap(struct subject *s, void (*between)(struct subject *)) {
    start(s, 4, 2, OVERLAP);
    between(s);
    for (unsigned n = 1; n <= 2; n++) {
        CHECK_REPLY(offer(s, 1, n, 0, 0, 0, n == 1), held(1));
        between(s);
        CHECK_REPLY(try_take(s), state(0, n + 1));
        between(s);
    }
    CHECK_REPLY(try_take(s), NOTHING_READY);
    CHECK_REPLY(offer(s, 2, 0, 1, 0, 0, 0x100), held(1));
    between(s);
    CHECK_REPLY(try_take(s), state(1, 4));
    between(s);
    CHECK_REPLY(try_close(s, 1), closed(2));
    between(s);
    return put_aside(s);
}

static void nothing(struct subject *s) {
    (void)s;
}

static void check_overlap(struct subject *s) {
    struct kept_by_caller one = overlap(s, nothing), two = overlap(s, refuse);
    CHECK(memcmp(one.record, two.record, one.record_length) == 0);
    CHECK(one.window_length == two.window_length && memcmp(one.window, two.window, one.window_length) == 0);
}

static void check_all(struct subject s) {
    check_too_long(&s);
    check_overlap(&s);
    subject_free(&s);
}

void test_lists(void) {
    check_all(subject_new());
    check_all(subject_wide());
}
