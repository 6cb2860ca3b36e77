/* Request 10: shares are set, and what the calls with a pool are refused for, each refusal beside its neighbours. */
#include "sharers.h"

/* ---- setting ---- */

/* Eight shares, then eight kept numbers, two bytes each, low byte first, 0 if unused; whatever stood there before. */
static void check_bytes(void) {
    static const uint8_t three[POOL] = {0x2c, 0x01, 0x02, 0x00, 0x02, 0x01};
    CHECK(WATCH32_POOL_BYTES == 32 && WATCH32_SHARES == 8 && WATCH_BAD_SHARES == 49);
    memset(pool.bytes, 0xee, POOL);
    CHECK_REPLY(SET(300, 2, 258), 0);
    CHECK(memcmp(pool.bytes, three, POOL) == 0);
    CHECK(watch32_share(pool.bytes, 0) == 300 && watch32_share(pool.bytes, 2) == 258);
    CHECK(watch32_share(pool.bytes, 3) == 0 && watch32_share_kept(pool.bytes, 0) == 0);
    for (unsigned i = 0; i < SHARERS; i++) lay_kept(i, 7 + i); /* another setting clears what was kept */
    CHECK_REPLY(SET(1, 2, 3, 4, 5, 6, 7, 8), 0);
    for (unsigned i = 0; i < SHARERS; i++) CHECK(watch32_share(pool.bytes, i) == i + 1);
    CHECK(all_zero(pool.bytes + 16, 16));
    CHECK_REPLY(SET(9), 0);
    CHECK(watch32_share(pool.bytes, 0) == 9 && all_zero(pool.bytes + 2, 30));
}

/* No share, over eight, a 0 at each place, sums on both sides of 1,024. */
static void check_bad_shares(void) {
    CHECK_REPLY(watch32_set_shares(NULL, 0, pool.bytes, POOL), refused(49));
    CHECK_REPLY(SET(1, 1, 1, 1, 1, 1, 1, 1), 0);
    CHECK_REPLY(SET(1, 1, 1, 1, 1, 1, 1, 1, 1), refused(49));
    for (unsigned n = 1; n <= SHARERS; n++) {
        uint16_t shares[SHARERS];
        for (unsigned i = 0; i < n; i++) shares[i] = 5;
        for (unsigned i = 0; i < n; i++) {
            shares[i] = 0;
            CHECK_REPLY(set(shares, n), refused(49));
            shares[i] = (uint16_t)(1024 - 5 * (n - 1));
            CHECK_REPLY(set(shares, n), 0);
            shares[i]++;
            CHECK_REPLY(set(shares, n), refused(49));
            shares[i] = 5;
        }
    }
    CHECK_REPLY(SET(0), refused(49));
    CHECK_REPLY(SET(1024), 0);
    CHECK_REPLY(SET(1025), refused(49));
    CHECK_REPLY(SET(65535), refused(49));
    CHECK_REPLY(SET(1, 0, 0, 0, 0, 0, 0, 0), refused(49));
}

/* So many shares that a part of the number's bits says one or eight. */
static void check_many(void) {
    static const size_t numbers[] = {9, 16, 255, 256, 257, 264, 1024, 65536, 65537, LIST_MOST};
    static uint16_t ones[LIST_MOST];
    for (size_t i = 0; i < LIST_MOST; i++) ones[i] = 1;
    for (size_t i = 0; i < sizeof numbers / sizeof numbers[0]; i++) CHECK_REPLY(set(ones, numbers[i]), refused(49));
}

/* Sums that are small in 16 bits. */
static void check_large_sums(void) {
    CHECK_REPLY(SET(65535, 1), refused(49));
    CHECK_REPLY(SET(65535, 1, 1024), refused(49));
    CHECK_REPLY(SET(65535, 2), refused(49));
    CHECK_REPLY(SET(32768, 32768, 1), refused(49));
    CHECK_REPLY(SET(1, 64512, 1024), refused(49));
    CHECK_REPLY(SET(8192, 8192, 8192, 8192, 8192, 8192, 8192, 8192), refused(49));
    CHECK_REPLY(SET(65535, 65535, 65535, 65535, 65535, 65535, 65535, 65535), refused(49));
    CHECK_REPLY(SET(65535, 65535, 65535, 65535, 65535, 65535, 65535, 7), refused(49));
}

/* Any length but 32 is 6, before 49. */
static void check_set_lengths(void) {
    for (size_t length = 0; length <= 64; length++) {
        lend_pool(length);
        CHECK_REPLY(SET(1, 2), length == POOL ? 0 : refused(6));
        CHECK_REPLY(SET(0), refused(length == POOL ? 49 : 6));
        CHECK_REPLY(SET(1000, 25), refused(length == POOL ? 49 : 6));
        CHECK_REPLY(set(&(const uint16_t){1}, 0), refused(length == POOL ? 49 : 6));
    }
    lend_pool(POOL);
}

/* ---- refusals ---- */

/* Not below 8, by the whole word, or without a share. */
static void check_numbers(void) {
    static const uint64_t wrong[] = {3, 4, 5, 6, 7, 8, 9, 15, 16, 255, 256, 257, 65536, 65538, (uint64_t)1 << 32,
                                     ((uint64_t)1 << 32) + 1, (uint64_t)1 << 63, ((uint64_t)1 << 63) + 2,
                                     UINT64_MAX - 7, UINT64_MAX};
    struct subject *s = &sharers[1];
    CHECK_REPLY(SET(4, 5, 6), 0);
    open_number(1, 4);
    offer(s, 2, 0, 1, 0, 0, 0);
    for (size_t i = 0; i < sizeof wrong / sizeof wrong[0]; i++) {
        CHECK_REPLY(shared_open(s, RULE, 2, 0, wrong[i]), refused(34));
        CHECK_REPLY(shared_take(s, wrong[i]), refused(34));
        CHECK_REPLY(shared_close(s, 0, wrong[i]), refused(34));
    }
    lay_share(1, 0); /* a share of 0 in a used place */
    CHECK_REPLY(shared_take(s, 1), refused(34));
    lay_share(1, 256); /* the high byte counts as well */
    CHECK_REPLY(shared_take(s, 1), state(0, 2));
}

/* 34 by the number comes after 6 of every buffer, and before 5, 9 and the text at open, 41 and 42 at close. */
static void check_order(void) {
    struct subject *s = &sharers[0];
    CHECK_REPLY(SET(4), 0);
    open_number(0, 4);
    offer(s, 1, 1, 0, 0, 0, 0);
    CHECK_REPLY(shared_open(s, RULE, 0, 0, 1), refused(34));
    CHECK_REPLY(shared_open(s, RULE, 9, 0, 8), refused(34));
    CHECK_REPLY(shared_open(s, RULE, 2, (uint64_t)1 << 63, 1), refused(34));
    CHECK_REPLY(shared_open(s, "(", 2, 0, 1), refused(34));
    CHECK_REPLY(shared_open(s, RULE, 9, 0, 0), refused(5));
    CHECK_REPLY(shared_open(s, RULE, 2, (uint64_t)1 << 63, 0), refused(9));
    CHECK_REPLY(shared_open(s, "(", 2, 0, 0), refused_at(1, 1));
    CHECK_REPLY(shared_close(s, 7, 1), refused(34));
    CHECK_REPLY(shared_close(s, UINT64_MAX, 1), refused(34));
    CHECK_REPLY(shared_close(s, 0, 1), refused(34));
    CHECK_REPLY(shared_close(s, 7, 0), refused(41));
    CHECK_REPLY(shared_close(s, UINT64_MAX, 0), refused(41));
    CHECK_REPLY(shared_close(s, 0, 0), refused(42));
    s->record.bytes[0] = 9; /* the record's own 34, before 41; a stale number stays with it */
    lay_kept(0, 7);
    CHECK_REPLY(shared_close(s, 7, 0), refused(34));
    CHECK_REPLY(shared_take(s, 0), refused(34));
    lend_pool(31);
    CHECK_REPLY(shared_close(s, 7, 0), refused(6));
    CHECK_REPLY(shared_take(s, 0), refused(6));
    lend_pool(POOL);
    CHECK_REPLY(shared_open(s, RULE, 2, 0, 0), state(0, 1)); /* which open does not look at */
}

/* One call of each kind, with a number that has a share and with one that has none. */
static void check_all_six(struct subject *s) {
    for (uint64_t number = 0; number < 9; number += 8) {
        CHECK_REPLY(shared_open(s, RULE, 9, 0, number), refused(6));
        CHECK_REPLY(shared_take(s, number), refused(6));
        CHECK_REPLY(shared_close(s, 7, number), refused(6));
    }
}

static void check_lengths(void) {
    static const size_t wrong[] = {0, 1, 15, 16, 28, 31, 33, 36, 48, 64};
    struct subject *s = &sharers[0];
    CHECK_REPLY(SET(4), 0);
    open_number(0, 4);
    for (size_t i = 0; i < sizeof wrong / sizeof wrong[0]; i++) {
        lend_pool(wrong[i]);
        check_all_six(s);
    }
    lend_pool(POOL);
    CHECK_REPLY(SET(4), 0);
    lend_again(&s->record, WATCH32_RECORD_BYTES + 1, 0);
    check_all_six(s);
    lend_again(&s->record, WATCH32_RECORD_BYTES, 0);
    lend_again(&s->window, WATCH32_WINDOW_BYTES(4) - 1, 0);
    lend_junk(s, WATCH32_WINDOW_BYTES(4) - 1);
    check_all_six(s);
    lend_again(&s->window, WATCH32_WINDOW_BYTES(4), 0);
    CHECK_REPLY(shared_take(s, 0), refused(6)); /* the scratch alone */
    CHECK_REPLY(shared_take(s, 8), refused(6));
    lend_junk(s, WATCH32_WINDOW_BYTES(4));
    CHECK_REPLY(shared_take(s, 8), refused(34));
    CHECK_REPLY(shared_take(s, 0), NOTHING_READY);
}

void test_shares(void) {
    sharers_new();
    check_bytes();
    check_bad_shares();
    check_many();
    check_large_sums();
    check_set_lengths();
    check_numbers();
    check_order();
    check_lengths();
    sharers_free();
}
