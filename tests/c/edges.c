/* The ends of the ranges: nothing lent at all, the largest counts, the fullest windows. */
#include <string.h>

#include "subject.h"

#define RULE "(ep (and (at 0 0) (at 1 0)))"

/* Where the length is 0 the pointer may be anything. */
static void check_null(struct subject *s) {
    start(s, 2, 2, RULE);
    uint8_t *record = s->record.bytes, *window = s->window.bytes, *scratch = s->scratch.bytes;
    const uint8_t *rule = (const uint8_t *)RULE;
    size_t record_len = s->record.length, window_len = s->window.length;
    CHECK_REPLY(watch_open(NULL, 0, 2, 0, record, record_len, window, window_len), refused_at(1, 0));
    CHECK_REPLY(watch_open(rule, sizeof RULE - 1, 2, 0, NULL, 0, window, window_len), refused(6));
    CHECK_REPLY(watch_open(rule, sizeof RULE - 1, 2, 0, record, record_len, NULL, 0), refused(6));
    CHECK_REPLY(watch_open(NULL, 0, 0, 0, NULL, 0, NULL, 0), refused(6));
    CHECK_REPLY(watch_offer(1, 1, 0, 0, NULL, 0), refused(6));
    CHECK_REPLY(watch_take(NULL, 0, window, window_len, scratch, window_len), refused(6));
    CHECK_REPLY(watch_take(record, record_len, NULL, 0, scratch, window_len), refused(6));
    CHECK_REPLY(watch_take(record, record_len, window, window_len, NULL, 0), refused(6));
    CHECK_REPLY(watch_take(record, record_len, NULL, 0, NULL, 0), refused(6));
    CHECK_REPLY(watch_take(NULL, 0, NULL, 0, NULL, 0), refused(6));
    CHECK_REPLY(watch_find(0, NULL, 0, window, window_len), refused(6));
    CHECK_REPLY(watch_find(0, record, record_len, NULL, 0), refused(6));
    CHECK_REPLY(watch_find(0, NULL, 0, NULL, 0), refused(6));
    CHECK_REPLY(watch_close(0, NULL, 0, window, window_len), refused(6));
    CHECK_REPLY(watch_close(0, record, record_len, NULL, 0), refused(6));
    CHECK_REPLY(watch_close(0, NULL, 0, NULL, 0), refused(6));
}

/* No alignment is asked: each buffer at each of eight. */
static void check_alignment(struct subject *s) {
    for (size_t shift = 0; shift < 8; shift++) {
        lend(&s->record, WATCH_RECORD_BYTES, shift);
        lend(&s->window, 160, (3 * shift) % 8);
        lend(&s->scratch, 160, (5 * shift + 1) % 8);
        memset(s->scratch.bytes, 0xEE, 160);
        CHECK_REPLY(try_open(s, RULE, 2, 0), state(0, 1));
        CHECK_REPLY(offer(s, 1, 1, 0, 0, 0, 1), held(1));
        CHECK(watch_take(s->record.bytes, s->record.length, s->window.bytes, 160, s->scratch.bytes, 160) == state(0, 2));
        CHECK(all_zero(s->scratch.bytes, 160));
        CHECK_REPLY(offer(s, 2, 0, 1, 0, 0, 0x100), held(1));
        CHECK(watch_take(s->record.bytes, s->record.length, s->window.bytes, 160, s->scratch.bytes, 160) == state(1, 3));
        CHECK_REPLY(try_find(s, 6), found(2));
        CHECK(lent_intact(&s->scratch));
        CHECK_REPLY(try_close(s, 0), closed(2));
        CHECK_REPLY(try_close(s, 1), closed(1));
    }
}

/* 65,535 is the last event of a process: nothing wraps. */
static void check_last_count(struct subject *s) {
    start(s, 1, 1, "(ap (at 0 0))");
    for (unsigned n = 1; n < 65536; n++) {
        uint64_t held_one = watch_offer(1, n, 0, n == 40000, s->record.bytes, s->record.length);
        uint64_t reply = watch_take(s->record.bytes, s->record.length, s->window.bytes, 40, s->scratch.bytes, 40);
        if (held_one != held(1) || reply != state(n >= 40000, 1)) {
            CHECK(held_one == held(1) && reply == state(n >= 40000, 1));
            return;
        }
    }
    CHECK(watch_taken(s->record.bytes, 0) == 65535);
    CHECK_REPLY(offer(s, 1, 65535, 0, 0, 0, 0), refused(31));
    CHECK_REPLY(offer(s, 1, 0, 0, 0, 0, 0), refused(8));
    CHECK_REPLY(offer(s, 1, 1, 0, 0, 0, 0), refused(31));
    CHECK_REPLY(try_take(s), NOTHING_READY);
    lend_room(s, 1);
}

/* Both processes together up to here, then five events of each alone: the order of counts where their bytes carry over. */
static void check_grid(struct subject *s, unsigned from) {
    start(s, 40, 2, RULE);
    memset(s->scratch.bytes, 0, s->scratch.length);
    for (unsigned n = 1; n <= from; n++) {
        watch_offer(3, watch_counts((uint16_t)n, (uint16_t)n, 0, 0), 0, 0, s->record.bytes, s->record.length);
        watch_take(s->record.bytes, s->record.length, s->window.bytes, s->window.length, s->scratch.bytes, s->scratch.length);
    }
    for (unsigned n = 1; n <= 5; n++) {
        CHECK_REPLY(offer(s, 1, from + n, from, 0, 0, 0), held(1));
        CHECK_REPLY(try_take(s), state(0, 2 * n));
        CHECK_REPLY(offer(s, 2, from, from + n, 0, 0, 0), held(1));
        CHECK_REPLY(try_take(s), state(0, 2 * n + 1));
    }
    for (unsigned i = 0; i < 11; i++) {
        CHECK(watch_cut(s->window.bytes, i, 0) == from + (i < 5 ? i : 5));
        CHECK(watch_cut(s->window.bytes, i, 1) == from + (i < 5 ? 5 : i - 5));
    }
}

/* Both processes together up to 65,534, then process 0 alone, and process 1 knows of its last event; counts that agree
 * in one byte only are others. */
static void check_last_message(struct subject *s) {
    start(s, 4, 2, RULE);
    for (unsigned n = 1; n < 65535; n++) {
        watch_offer(3, watch_counts((uint16_t)n, (uint16_t)n, 0, 0), 0, 0, s->record.bytes, s->record.length);
        watch_take(s->record.bytes, s->record.length, s->window.bytes, s->window.length, s->scratch.bytes,
                   s->scratch.length);
    }
    lend_room(s, 4);
    CHECK_REPLY(offer(s, 1, 65535, 65534, 0, 0, 0), held(1));
    CHECK_REPLY(try_take(s), state(0, 2));
    static const unsigned forgot[] = {65533, 65279, 65278, 255, 254, 0};
    for (size_t i = 0; i < sizeof forgot / sizeof forgot[0]; i++) {
        CHECK_REPLY(offer(s, 2, forgot[i], 65535, 0, 0, 0), held(1));
        CHECK_REPLY(try_take(s), refused(35));
    }
    CHECK_REPLY(offer(s, 2, 65535, 65535, 0, 0, 0), held(1));
    CHECK_REPLY(try_take(s), state(0, 2));
    CHECK(watch_cut(s->window.bytes, 0, 0) == 65535 && watch_cut(s->window.bytes, 0, 1) == 65534);
    CHECK(watch_cut(s->window.bytes, 1, 0) == 65535 && watch_cut(s->window.bytes, 1, 1) == 65535);
}

/* Two processes without a common event: 1,023 events of one, the window full to the last byte. Then the other knows of
 * all of them, by the frontier that stands last, and nearly all are dropped. */
static void check_full_window(struct subject *s) {
    start(s, 1024, 2, RULE);
    for (unsigned n = 1; n <= 1023; n++) {
        CHECK_REPLY(offer(s, 2, 0, n, 0, 0, 0x100), held(1));
        CHECK_REPLY(try_take(s), state(0, n + 1));
    }
    CHECK_REPLY(offer(s, 2, 0, 1024, 0, 0, 0), held(1));
    CHECK_REPLY(try_take(s), refused(36));
    CHECK_REPLY(offer(s, 2, 0, 1024, 0, 0, 0), WATCH_AGAIN);
    CHECK_REPLY(offer(s, 3, 1, 1024, 0, 0, 0), refused(32));
    for (unsigned i = 0; i < 1024; i += 341) CHECK(watch_cut(s->window.bytes, i, 0) == 0 && watch_cut(s->window.bytes, i, 1) == i);
    CHECK_REPLY(try_find(s, 5), found(1));
    CHECK_REPLY(offer(s, 1, 1, 1023, 0, 0, 1), held(2));
    CHECK_REPLY(try_take(s), state(1, 2));
    CHECK(all_zero(s->window.bytes + 80, s->window.length - 80));
    CHECK_REPLY(try_take(s), state(1, 3));
}

/* After one event of each of eight processes an event of all of them leaves one frontier. */
static void check_all_meet(struct subject *s) {
    start(s, 1024, 8, "(ep (at 7 0))");
    for (unsigned p = 0; p < 8; p++) {
        uint64_t low = p < 4 ? (uint64_t)1 << 16 * p : 0, high = p < 4 ? 0 : (uint64_t)1 << 16 * (p - 4);
        CHECK_REPLY(try_offer(s, (uint64_t)1 << p, low, high, (uint64_t)(p == 7) << 56), held(p + 1));
    }
    for (unsigned p = 0; p < 8; p++) CHECK_REPLY(try_take(s), state(p == 7, p == 7 ? 255 : 2u << p));
    CHECK_REPLY(try_offer(s, 255, watch_counts(2, 2, 2, 2), watch_counts(2, 2, 2, 2), 0), held(1));
    CHECK_REPLY(try_take(s), state(1, 1));
    CHECK(all_zero(s->window.bytes + 40, s->window.length - 40));
}

void test_edges(void) {
    struct subject s = subject_new();
    check_null(&s);
    check_alignment(&s);
    check_last_count(&s);
    check_grid(&s, 253);
    check_grid(&s, 65530);
    check_last_message(&s);
    check_full_window(&s);
    check_all_meet(&s);
    subject_free(&s);
}
