/* Each refusal of each call by itself: what gives it, and the nearest thing that does not. */
#include <string.h>

#include "subject.h"

#define RULE "(ep (and (at 0 0) (at 1 0)))"

static void check_lengths(struct subject *s) {
    static const size_t wrong[] = {0, 1, 39, 41, 60, 79, 1368, 40959, 40961, 41000};
    start(s, 4, 2, RULE);
    for (size_t i = 0; i < sizeof wrong / sizeof wrong[0]; i++) {
        lend_again(&s->window, wrong[i], 0);
        lend_junk(s, wrong[i]);
        CHECK_REPLY(try_open(s, RULE, 2, 0), refused(6));
        CHECK_REPLY(try_take(s), refused(6));
        CHECK_REPLY(try_find(s, 0), refused(6));
        CHECK_REPLY(try_close(s, 0), refused(6));
    }
    lend_room(s, 4);
    for (size_t i = 0; i < sizeof wrong / sizeof wrong[0]; i++) {
        lend_junk(s, wrong[i]);
        CHECK_REPLY(try_take(s), refused(6));
    }
    lend_junk(s, WATCH_WINDOW_BYTES(3));
    CHECK_REPLY(try_take(s), refused(6));
    lend_junk(s, WATCH_WINDOW_BYTES(5));
    CHECK_REPLY(try_take(s), refused(6));
    lend_room(s, 4);
    static const size_t wrong_record[] = {0, 1, 1367, 1369, 2024};
    for (size_t i = 0; i < sizeof wrong_record / sizeof wrong_record[0]; i++) {
        lend_again(&s->record, wrong_record[i], 0);
        CHECK_REPLY(try_open(s, RULE, 2, 0), refused(6));
        CHECK_REPLY(offer(s, 1, 1, 0, 0, 0, 1), refused(6));
        CHECK_REPLY(try_take(s), refused(6));
        CHECK_REPLY(try_find(s, 0), refused(6));
        CHECK_REPLY(try_close(s, 0), refused(6));
    }
    static const size_t rooms[] = {1, 2, 1023, 1024};
    for (size_t i = 0; i < sizeof rooms / sizeof rooms[0]; i++) {
        start(s, rooms[i], 2, RULE);
        CHECK(all_zero(s->window.bytes + 40, s->window.length - 40));
        CHECK_REPLY(try_take(s), NOTHING_READY);
    }
}

static void check_open(struct subject *s) {
    static const uint64_t wrong[] = {0, 9, 255, 256, 258, 65538, 0x100000002, (uint64_t)1 << 63, UINT64_MAX};
    start(s, 1, 2, RULE);
    for (size_t i = 0; i < sizeof wrong / sizeof wrong[0]; i++) CHECK_REPLY(try_open(s, "(true)", wrong[i], 0), refused(5));
    for (unsigned k = 1; k <= 8; k++) {
        for (unsigned p = 0; p < 8; p++)
            CHECK_REPLY(try_open(s, "(true)", k, (uint64_t)128 << 8 * p), p < k ? state(1, 1) : refused(9));
        CHECK(s->record.bytes[0] == k);
    }
    CHECK_REPLY(try_open(s, "(at 3 7)", 4, (uint64_t)128 << 24), state(1, 1));
    CHECK(s->window.bytes[16 + 3] == 128 && s->window.bytes[32] == 1);
}

static void check_event_faults(struct subject *s) {
    start(s, 8, 2, RULE);
    static const uint64_t wrong[] = {0, 4, 5, 128, 256, 257, 259, (uint64_t)1 << 16, (uint64_t)1 << 32 | 1,
                                     (uint64_t)1 << 63, (uint64_t)1 << 63 | 3, UINT64_MAX};
    for (size_t i = 0; i < sizeof wrong / sizeof wrong[0]; i++)
        CHECK_REPLY(try_offer(s, wrong[i], watch_counts(1, 1, 0, 0), 0, 0), refused(7));
    CHECK_REPLY(offer(s, 1, 0, 0, 0, 0, 0), refused(8));
    CHECK_REPLY(offer(s, 3, 1, 0, 0, 0, 0), refused(8));
    CHECK_REPLY(offer(s, 3, 0, 1, 0, 0, 0), refused(8));
    CHECK_REPLY(offer(s, 1, 1, 0, 1, 0, 0), refused(8));
    CHECK_REPLY(offer(s, 1, 1, 0, 0, 256, 0), refused(8));
    for (unsigned p = 0; p < 4; p++) CHECK_REPLY(try_offer(s, 1, 1, (uint64_t)1 << 16 * p, 0), refused(8));
    for (unsigned p = 1; p < 8; p++) CHECK_REPLY(offer(s, 1, 1, 0, 0, 0, (uint64_t)1 << 8 * p), refused(9));
    CHECK_REPLY(offer(s, 2, 0, 1, 0, 0, 1), refused(9));
    CHECK_REPLY(offer(s, 2, 0, 1, 0, 0, 0xff00), held(1));
    CHECK_REPLY(offer(s, 1, 65535, 65535, 0, 0, 0xff), held(2));
    start(s, 8, 8, RULE);
    CHECK_REPLY(try_offer(s, 256, 1, 0, 0), refused(7));
    CHECK_REPLY(try_offer(s, 255, UINT64_MAX, UINT64_MAX, UINT64_MAX), held(1));
    CHECK_REPLY(try_offer(s, 255, UINT64_MAX, UINT64_MAX >> 16, UINT64_MAX), refused(8));
}

static void check_offer_state(struct subject *s) {
    start(s, 8, 3, RULE);
    CHECK_REPLY(offer(s, 1, 1, 0, 0, 0, 0), held(1));
    CHECK_REPLY(offer(s, 1, 1, 0, 0, 0, 0), WATCH_AGAIN);
    CHECK_REPLY(offer(s, 3, 1, 1, 0, 0, 0), refused(32));
    CHECK_REPLY(offer(s, 1, 1, 7, 0, 0, 0), refused(32));
    CHECK_REPLY(offer(s, 1, 1, 0, 0, 0, 9), refused(32));
    CHECK_REPLY(offer(s, 1, 1, 7, 0, 0, 9), refused(32));
    CHECK_REPLY(offer(s, 2, 1, 1, 0, 0, 0), held(2));
    CHECK_REPLY(offer(s, 6, 0, 5, 1, 0, 0), held(3));
    CHECK_REPLY(offer(s, 4, 0, 0, 1, 0, 0), refused(32));
    CHECK_REPLY(try_take(s), state(0, 2));
    CHECK_REPLY(offer(s, 1, 1, 0, 0, 0, 0), refused(31));
    CHECK_REPLY(offer(s, 3, 1, 4, 0, 0, 0), refused(31));
    CHECK_REPLY(offer(s, 5, 2, 0, 1, 0, 0), refused(32));
    CHECK_REPLY(offer(s, 6, 0, 5, 1, 0, 0), WATCH_AGAIN);
}

/* The word for an event that is pending already, and the two tests of an offer's reply. */
static void check_again_word(struct subject *s) {
    start(s, 8, 1, "(at 0 0)");
    uint64_t accepted = offer(s, 1, 2, 0, 0, 0, 1), again = offer(s, 1, 2, 0, 0, 0, 1);
    uint64_t conflict = offer(s, 1, 2, 0, 0, 0, 0);
    CHECK(WATCH_AGAIN == 256 && again == WATCH_AGAIN);
    CHECK(watch_number(again) == 0 && watch_flag(again) == 1 && watch_value(again) == 0 && watch_place(again) == 0);
    CHECK(watch_again(again) && !watch_again(accepted) && !watch_again(conflict) && !watch_again(NOTHING_READY));
    CHECK(watch_accepted(accepted) && !watch_accepted(again) && !watch_accepted(conflict));
    CHECK_REPLY(accepted, held(1));
    CHECK_REPLY(conflict, refused(32));
}

/* Only the same mask, eight counts and eight labels make it the same event: one bit more or less, also at a process
 * that takes no part, and it is another. */
static void check_again_bits(struct subject *s) {
    uint64_t low = watch_counts(5, 260, 40000, 65535), high = watch_counts(3, 1, 257, 6), labels = 0x00ff000100800003;
    start(s, 8, 8, RULE);
    CHECK_REPLY(try_offer(s, 0x55, low, high, labels), held(1));
    for (unsigned bit = 0; bit < 64; bit++) {
        uint64_t one = (uint64_t)1 << bit;
        CHECK_REPLY(try_offer(s, 0x55, low, high, labels), WATCH_AGAIN);
        CHECK_REPLY(try_offer(s, 0x55, low ^ one, high, labels), refused(32));
        CHECK_REPLY(try_offer(s, 0x55, low, high ^ one, labels), refused(32));
        CHECK_REPLY(try_offer(s, 0x55, low, high, labels ^ one), refused(bit / 8 % 2 == 0 ? 32 : 9));
        if (bit >= 8) CHECK_REPLY(try_offer(s, 0x55 | one, low, high, labels), refused(7));
    }
    start(s, 8, 8, RULE);
    CHECK_REPLY(try_offer(s, 0x55, low, high, 0), held(1));
    for (unsigned p = 0; p < 8; p++) CHECK_REPLY(try_offer(s, 0x55 ^ 1u << p, low, high, 0), refused(32));
    CHECK_REPLY(try_offer(s, 0x55, low, high, 0), WATCH_AGAIN);
    CHECK_REPLY(try_offer(s, 0xaa, low, high, 0), held(2));
    CHECK_REPLY(try_offer(s, 0xaa, low, high, 0), WATCH_AGAIN);
    CHECK_REPLY(try_offer(s, 0xff, low, high, 0), refused(32));
}

/* An event laid into a pending place by hand, with bytes behind its mask that no call leaves there. */
static void lay(struct subject *s, unsigned place, unsigned mask, unsigned a, unsigned b, unsigned c, unsigned labels) {
    uint8_t *at = s->record.bytes + 344 + 32 * place;
    memset(at, 0, 32);
    memset(at + 1, 0xEE, 7);
    at[0] = (uint8_t)mask;
    at[8] = (uint8_t)a;
    at[10] = (uint8_t)b;
    at[12] = (uint8_t)c;
    at[24] = (uint8_t)labels;
}

/* Records as no call leaves them: "again" is exact there too. */
static void check_again_laid(struct subject *s) {
    start(s, 8, 2, RULE);
    s->record.bytes[2] = 3;
    lay(s, 0, 1, 5, 0, 0, 1);
    lay(s, 1, 1, 5, 0, 0, 2);
    lay(s, 2, 1, 6, 0, 1, 0); /* a count at a process that the watch has not */
    lay(s, 3, 1, 7, 0, 0, 0); /* behind those that are pending */
    CHECK_REPLY(offer(s, 1, 5, 0, 0, 0, 1), WATCH_AGAIN);
    CHECK_REPLY(offer(s, 1, 5, 0, 0, 0, 2), WATCH_AGAIN);
    CHECK_REPLY(offer(s, 1, 5, 0, 0, 0, 3), refused(32));
    CHECK_REPLY(offer(s, 1, 6, 0, 0, 0, 0), refused(32));
    CHECK_REPLY(offer(s, 1, 6, 0, 1, 0, 0), refused(8));
    lay(s, 1, 1, 5, 0, 0, 1);
    CHECK_REPLY(offer(s, 1, 5, 0, 0, 0, 1), WATCH_AGAIN);
    CHECK(watch_accepted(offer(s, 1, 7, 0, 0, 0, 0)) && watch_pending(s->record.bytes) == 4);
    CHECK_REPLY(offer(s, 1, 7, 0, 0, 0, 0), WATCH_AGAIN);
}

static void check_full(struct subject *s) {
    start(s, 8, 2, RULE);
    for (unsigned i = 0; i < 32; i++) CHECK_REPLY(offer(s, 1, 40 - i, 0, 0, 0, 0), held(i + 1));
    CHECK_REPLY(offer(s, 1, 41, 0, 0, 0, 0), refused(33));
    for (unsigned i = 0; i < 32; i++) {
        CHECK_REPLY(offer(s, 1, 9 + i, 0, 0, 0, 0), WATCH_AGAIN);
        CHECK_REPLY(offer(s, 1, 9 + i, 0, 0, 0, 1), refused(32));
        CHECK_REPLY(offer(s, 1, 9 + i, 1, 0, 0, 0), refused(32));
    }
    CHECK_REPLY(try_take(s), NOTHING_READY);
    for (unsigned i = 0; i < 32; i++) CHECK(s->record.bytes[344 + 32 * i + 8] == 9 + i);
}

/* Sets one byte, or four, of a fresh record and tries the four calls that read one. */
static void check_damage(struct subject *s, size_t place, uint32_t value, size_t bytes, unsigned number,
                         unsigned offer_number) {
    start(s, 2, 2, "(es (not (at 1 7)) (ey (at 0 0)))");
    CHECK(memcmp(s->record.bytes + 152, "\0\1\7\1\0\0\0\0\0\3\2\0\4\1\3", 15) == 0);
    for (size_t i = 0; i < bytes; i++) s->record.bytes[place + i] = (uint8_t)(value >> 8 * i);
    CHECK(watch_number(offer(s, 1, 1, 0, 0, 0, 0)) == offer_number);
    CHECK(watch_number(try_find(s, 0)) == number);
    if (number != 0) CHECK_REPLY(try_take(s), refused(number));
    CHECK(watch_number(try_close(s, 1)) == number);
}

static void check_damaged(struct subject *s) {
    static const struct { size_t place; uint32_t value; size_t bytes; unsigned number; } one[] = {
        {0, 0, 1, 34}, {0, 9, 1, 34}, {0, 255, 1, 34}, {0, 1, 1, 34}, {0, 2, 1, 0}, {0, 8, 1, 0},
        {1, 0, 1, 34}, {1, 65, 1, 34}, {1, 255, 1, 34}, {1, 4, 1, 0}, {1, 1, 1, 0},
        {2, 33, 1, 34}, {2, 255, 1, 34}, {2, 31, 1, 0}, {3, 252, 1, 0},
        {4, 0, 4, 34}, {4, 1025, 4, 34}, {4, 65536, 4, 34}, {4, 65537, 4, 34}, {4, 1u << 31 | 1, 4, 34}, {4, 1u << 24, 4, 34}, {4, 2, 4, 0},
        {152, 6, 1, 34}, {152, 255, 1, 34}, {153, 2, 1, 34}, {153, 0, 1, 0}, {154, 8, 1, 34}, {154, 0, 1, 0},
        {156, 1, 1, 34}, {156, 200, 1, 34}, {157, 1, 1, 34}, {162, 3, 1, 34}, {162, 1, 1, 0}, {163, 1, 1, 34},
        {165, 4, 1, 34}, {165, 3, 1, 0}, {166, 4, 1, 34}, {166, 0, 1, 0}, {164, 2, 1, 0}, {164, 5, 1, 0}, {164, 1, 1, 34}, {164, 6, 1, 34},
        {167, 99, 1, 0}, {340, 77, 1, 0},
    };
    for (size_t i = 0; i < sizeof one / sizeof one[0]; i++)
        check_damage(s, one[i].place, one[i].value, one[i].bytes, one[i].number, one[i].number);
    check_damage(s, 4, 3, 4, 34, 0);
    check_damage(s, 4, 1024, 4, 34, 0);
    check_damage(s, 1, 6, 1, 0, 0);
    check_damage(s, 3, 253, 1, 0, 42);
    lend(&s->record, WATCH_RECORD_BYTES, 0);
    CHECK_REPLY(try_find(s, 0), refused(34));
    CHECK_REPLY(try_take(s), refused(34));
    CHECK_REPLY(offer(s, 1, 1, 0, 0, 0, 0), refused(34));
    CHECK_REPLY(try_close(s, 0), refused(34));
}

static void check_find(struct subject *s) {
    static const uint64_t wrong[] = {7, 8, 64, 256, 65536, (uint64_t)1 << 32, (uint64_t)1 << 63, UINT64_MAX};
    start(s, 4, 2, "(ep (at 0 1))");
    CHECK(watch_lines(s->record.bytes) == 6);
    CHECK_REPLY(try_find(s, 6), refused(11));
    for (size_t i = 0; i < sizeof wrong / sizeof wrong[0]; i++) CHECK_REPLY(try_find(s, wrong[i]), refused(11));
    CHECK_REPLY(try_find(s, 3), found(0));
    CHECK_REPLY(try_find(s, 5), found(NONE));
    CHECK_REPLY(offer(s, 1, 1, 0, 0, 0, 2), held(1));
    CHECK_REPLY(try_take(s), state(1, 2));
    CHECK_REPLY(try_find(s, 5), found(1));
    CHECK_REPLY(try_find(s, 2), found(NONE));
}

/* A ready event with a false clock leaves, whatever stands in front of it and does not fit: here process 1 forgets that
 * it knew of process 0. It is pending no more, so the same event is accepted anew. */
static void check_take(struct subject *s) {
    start(s, 1, 2, RULE);
    CHECK_REPLY(offer(s, 1, 1, 0, 0, 0, 0), held(1));
    CHECK_REPLY(try_take(s), refused(36));
    CHECK_REPLY(offer(s, 3, 2, 1, 0, 0, 0), held(2));
    CHECK_REPLY(try_take(s), refused(36));
    start(s, 2, 2, RULE);
    CHECK_REPLY(offer(s, 1, 1, 0, 0, 0, 0), held(1));
    CHECK_REPLY(try_take(s), state(0, 2));
    CHECK_REPLY(offer(s, 1, 2, 0, 0, 0, 0), held(1));
    CHECK_REPLY(try_take(s), refused(36));
    CHECK_REPLY(offer(s, 2, 1, 1, 0, 0, 0), held(2));
    CHECK_REPLY(try_take(s), state(0, 2));
    CHECK_REPLY(try_take(s), refused(36));
    CHECK_REPLY(offer(s, 2, 0, 2, 0, 0, 0x300), held(2));
    CHECK_REPLY(offer(s, 2, 0, 2, 0, 0, 0x300), WATCH_AGAIN);
    CHECK_REPLY(try_take(s), refused(35));
    CHECK(watch_pending(s->record.bytes) == 1 && s->record.bytes[344] == 1 && all_zero(s->record.bytes + 376, 992));
    CHECK_REPLY(offer(s, 2, 0, 2, 0, 0, 0x300), held(2));
    CHECK_REPLY(try_take(s), refused(35));
    CHECK_REPLY(try_take(s), refused(36));
}

/* An event that does not fit is passed over for a later one that does. */
static void check_passed_over(struct subject *s) {
    start(s, 7, 3, RULE);
    CHECK_REPLY(offer(s, 1, 1, 0, 0, 0, 0), held(1));
    CHECK_REPLY(offer(s, 2, 0, 1, 0, 0, 0), held(2));
    CHECK_REPLY(offer(s, 4, 0, 0, 1, 0, 0), held(3));
    CHECK_REPLY(try_take(s), state(0, 2));
    CHECK_REPLY(try_take(s), state(0, 4));
    CHECK_REPLY(try_take(s), state(0, 7));
    CHECK_REPLY(offer(s, 1, 2, 0, 0, 0, 0), held(1));
    CHECK_REPLY(try_take(s), refused(36));
    CHECK_REPLY(offer(s, 6, 0, 2, 2, 0, 0), held(2));
    CHECK_REPLY(try_take(s), state(0, 6));
    CHECK(watch_taken(s->record.bytes, 0) == 1 && watch_taken(s->record.bytes, 1) == 2 && watch_taken(s->record.bytes, 2) == 2);
    CHECK_REPLY(try_take(s), state(0, 7));
    CHECK_REPLY(try_take(s), NOTHING_READY);
}

/* Pending events stand by lowest process and then its count, whatever their masks; one that knows of an event not taken
 * yet waits. It turns out to be false: that event was process 2's as well, and of this it does not know. */
static void check_waiting(struct subject *s) {
    static const unsigned masks[] = {5, 1, 2, 6};
    start(s, 8, 3, RULE);
    CHECK_REPLY(offer(s, 2, 1, 1, 0, 0, 0), held(1));
    CHECK_REPLY(try_take(s), NOTHING_READY);
    CHECK_REPLY(offer(s, 6, 0, 300, 300, 0, 0), held(2));
    CHECK_REPLY(offer(s, 5, 1, 0, 1, 0, 0), held(3));
    CHECK_REPLY(offer(s, 1, 256, 0, 0, 0, 0), held(4));
    for (unsigned i = 0; i < 4; i++) CHECK(s->record.bytes[344 + 32 * i] == masks[i]);
    CHECK_REPLY(try_take(s), state(0, 2));
    CHECK_REPLY(try_take(s), refused(35));
    CHECK_REPLY(try_take(s), NOTHING_READY);
    CHECK(watch_pending(s->record.bytes) == 2 && s->record.bytes[344] == 1 && s->record.bytes[376] == 6);
}

void test_refusals(void) {
    struct subject s = subject_new();
    check_lengths(&s);
    check_open(&s);
    check_event_faults(&s);
    check_offer_state(&s);
    check_again_word(&s);
    check_again_bits(&s);
    check_again_laid(&s);
    check_full(&s);
    check_damaged(&s);
    check_find(&s);
    check_take(&s);
    check_passed_over(&s);
    check_waiting(&s);
    subject_free(&s);
}
