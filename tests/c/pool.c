/* Request 10: what fits beside the others, what the pool says of each watch, and what others cannot change. */
#include "sharers.h"

/* ---- the number is brought up to date ---- */

static void check_brought_up(void) {
    struct subject *s = &sharers[2];
    CHECK_REPLY(SET(1, 1, 3), 0);
    open_number(2, 9);
    CHECK(watch32_share_kept(pool.bytes, 2) == 1);
    grow(2, 3);
    CHECK(watch32_share_kept(pool.bytes, 2) == 3);
    lay_kept(2, 77); /* nothing ready is no refusal */
    CHECK_REPLY(shared_take(s, 2), NOTHING_READY);
    CHECK(watch32_share_kept(pool.bytes, 2) == 3);
    lay_kept(2, 0);
    CHECK_REPLY(shared_take(s, 2), NOTHING_READY);
    CHECK(watch32_share_kept(pool.bytes, 2) == 3);
    lay_kept(2, 2);
    CHECK_REPLY(shared_close(s, 1, 2), closed(3)); /* drops nothing */
    CHECK(watch32_share_kept(pool.bytes, 2) == 3);
    lay_kept(2, 0x0103);
    shrink(2);
    CHECK(watch32_share_kept(pool.bytes, 2) == 1);
    lay_kept(2, 500);
    CHECK_REPLY(shared_open(s, RULE, 2, 0, 2), state(0, 1));
    CHECK(watch32_share_kept(pool.bytes, 2) == 1);
}

/* No refusal writes the pool: a stale number stays with 35, 36, 41, 42 and those of open. */
static void check_left(void) {
    struct subject *s = &sharers[0];
    CHECK_REPLY(SET(2, 1022), 0);
    open_number(0, 9);
    grow(0, 2);
    lay_kept(0, 6);
    CHECK_REPLY(next_take(0), refused(36));
    CHECK_REPLY(shared_close(s, 1, 0), refused(42));
    CHECK_REPLY(shared_close(s, 2, 0), refused(41));
    CHECK_REPLY(shared_open(s, RULE, 9, 0, 0), refused(5));
    CHECK_REPLY(shared_open(s, RULE, 2, (uint64_t)1 << 63, 0), refused(9));
    CHECK_REPLY(shared_open(s, "(at 9 0)", 2, 0, 0), refused_at(4, 4));
    CHECK(watch32_share_kept(pool.bytes, 0) == 6);
    open_number(0, 9);
    grow(0, 2);
    offer(s, 1, 1, 1, 0, 0, 0);
    CHECK_REPLY(shared_take(s, 0), state(0, 2));
    lay_kept(0, 9);
    offer(s, 1, 2, 0, 0, 0, 0); /* forgets the event of process 1 that its process knew of */
    CHECK_REPLY(shared_take(s, 0), refused(35));
    CHECK(watch32_share_kept(pool.bytes, 0) == 9);
}

/* ---- what fits ---- */

/* Shares of 3, 5 and 1,010 leave 6. Each may pass its share by what the others have not passed theirs by. */
static void check_unpromised(void) {
    CHECK_REPLY(SET(3, 5, 1010), 0);
    for (unsigned i = 0; i < 3; i++) open_number(i, 1024);
    check_most(0, 3 + 6);
    check_most(1, 5);
    shrink(0);
    check_most(1, 5 + 6);
    open_number(0, 1024);
    check_most(0, 3);
    open_number(1, 1024);
    grow(1, 5 + 2);
    check_most(0, 3 + 4);
    CHECK_REPLY(next_take(1), refused(36));
    check_most(2, 1010);
}

/* What a watch does not use of its share is not lent to another, opened or not. */
static void check_idle(void) {
    CHECK_REPLY(SET(3, 1021), 0);
    open_number(0, 1024);
    check_most(0, 3);
    open_number(1, 1024);
    CHECK_REPLY(next_take(0), refused(36));
    grow(1, 1021);
    CHECK_REPLY(next_take(0), refused(36));
    CHECK_REPLY(next_take(1), refused(36));
    CHECK_REPLY(SET(3, 1020), 0);
    open_number(0, 1024);
    check_most(0, 4);
}

/* Its own number is not another's: whatever the pool says of it, it does not count against it. */
static void check_own(void) {
    CHECK_REPLY(SET(3, 5, 1010), 0);
    open_number(0, 1024);
    grow(0, 6);
    lay_kept(0, 65535);
    CHECK_REPLY(next_take(0), state(0, 7));
    lay_kept(0, 9);
    CHECK_REPLY(next_take(0), state(0, 8));
    check_most(0, 9);
}

/* The lent bytes hold it, or else it does not fit whatever the pool says. */
static void check_lent_bytes(void) {
    CHECK_REPLY(SET(10, 10), 0);
    open_number(0, 4);
    grow(0, 4);
    CHECK_REPLY(next_take(0), refused(36));
    lend_room(&sharers[0], 6);
    check_most(0, 6);
    lend_room(&sharers[0], 1024);
    check_most(0, 10 + 1004);
}

/* The event of the lowest process does not fit, so the next ready one has its turn: it knows all, and keeps less. */
static void check_next_fits(void) {
    struct subject *s = &sharers[0];
    CHECK_REPLY(SET(3, 1021), 0);
    open_number(0, 9);
    offer(s, 1, 1, 0, 0, 0, 0);
    CHECK_REPLY(shared_take(s, 0), state(0, 2));
    offer(s, 1, 2, 0, 0, 0, 0);
    CHECK_REPLY(shared_take(s, 0), state(0, 3));
    offer(s, 1, 3, 0, 0, 0, 0);
    CHECK_REPLY(shared_take(s, 0), refused(36));
    offer(s, 2, 2, 1, 0, 0, 0);
    CHECK_REPLY(shared_take(s, 0), state(0, 2));
    CHECK_REPLY(shared_take(s, 0), state(0, 3));
    CHECK(watch32_taken(s->record.bytes, 0) == 3 && watch32_taken(s->record.bytes, 1) == 1);
}

/* Eight shares of 128, and one of 1,024: each watch has all of it and not a frontier more. */
static void check_full(void) {
    CHECK_REPLY(SET(128, 128, 128, 128, 128, 128, 128, 128), 0);
    for (unsigned i = 0; i < SHARERS; i++) open_number(i, 1024);
    for (unsigned i = 0; i < SHARERS; i++) check_most(7 - i, 128);
    CHECK_REPLY(SET(1024), 0);
    open_number(0, 1024);
    check_most(0, 1024);
    CHECK_REPLY(SET(1), 0); /* and what is not promised at all is anybody's */
    open_number(0, 1024);
    check_most(0, 1024);
}

/* Of any bytes: sums that two bytes do not hold, more promised and more kept than there is. */
static void check_any_pool(void) {
    CHECK_REPLY(SET(3, 5, 6), 0);
    open_number(0, 1024);
    for (unsigned i = 0; i < SHARERS; i++) lay_kept(i, 65535);
    check_most(0, 3);
    memset(pool.bytes + 16, 0, 16);
    lay_kept(1, 5 + 32768), lay_kept(2, 6 + 32768); /* 65,536 in all */
    CHECK_REPLY(next_take(0), refused(36));
    lay_kept(1, 5 + 1010), lay_kept(2, 6);
    CHECK_REPLY(next_take(0), refused(36));
    lay_kept(1, 5 + 1009);
    check_most(0, 4);
    memset(pool.bytes + 18, 0, 14);
    lay_kept(5, 1009); /* kept without a share is above it */
    check_most(0, 4);
    lay_kept(5, 0);
    lay_share(5, 65535 - 3 - 5 - 6 + 1); /* the shares' sum is 65,536 */
    CHECK_REPLY(next_take(0), refused(36));
    lay_share(5, 1025);
    CHECK_REPLY(next_take(0), refused(36));
    lay_share(5, 1009); /* 1,023 are promised */
    CHECK_REPLY(next_take(0), refused(36));
    lay_share(5, 1008);
    check_most(0, 5);
    lay_share(0, 65535); /* within its share, and the lent bytes end it */
    grow(0, 1024);
    CHECK_REPLY(next_take(0), refused(36));
}

/* Above what the pool allows by now, as no calls with one pool alone leave it. What keeps less may still be too much;
 * an open, a close and a take of nothing ask for no frontiers. */
static void check_above(void) {
    struct subject *s = &sharers[0];
    CHECK_REPLY(SET(3, 5, 1010), 0);
    open_number(0, 1024);
    grow(0, 9);
    lay_kept(1, 5 + 6);
    CHECK_REPLY(shared_take(s, 0), NOTHING_READY);
    offer(s, 1, 1, 6, 0, 0, 0); /* it would keep (0 8), (1 6), (1 7), (1 8) */
    CHECK_REPLY(shared_take(s, 0), refused(36));
    lay_kept(1, 5 + 5);
    CHECK_REPLY(shared_take(s, 0), state(0, 4));
    open_number(0, 1024);
    lay_kept(1, 0);
    grow(0, 9);
    lay_kept(1, 65535);
    CHECK_REPLY(shared_close(s, 1, 0), closed(9));
    CHECK_REPLY(shared_open(s, RULE, 2, 0, 0), state(0, 1));
    CHECK_REPLY(SET(1, 1023), 0);
    lay_kept(1, 65535);
    open_number(0, 1);
}

/* ---- what others do ---- */

/* What a call of watch 1 answered, and all bytes of its own afterwards, those of the pool too. */
struct own {
    uint64_t reply;
    uint8_t record[WATCH32_RECORD_BYTES], window[WATCH32_WINDOW_BYTES(8)], share[2], kept[2];
};
enum { OWN_CALLS = 10 };

/* Its calls, none a take that would pass its share of 4: three events, one of them sent again, and a close. */
static uint64_t own_call(struct subject *s, unsigned i) {
    static const unsigned offered[] = {1, 2, 3, 3};
    if (i == 8) return shared_close(s, 0, 1);
    return i % 2 == 0 && i < 8 ? offer(s, 2, 0, offered[i / 2], 0, 0, 0) : shared_take(s, 1);
}

/* Beside others that do nothing (0); beside one that grows until nothing unpromised is left (1); beside one that has
 * all of it at once, gives it back, and another that is opened then (2). */
static void run_beside(int others, struct own *own) {
    struct subject *s = &sharers[1];
    CHECK_REPLY(SET(6, 4, 1000), 0);
    if (others > 0) open_number(0, 1024);
    open_number(1, 8);
    for (unsigned i = 0; i < OWN_CALLS; i++) {
        if (others == 1) grow(0, 6 + 2 * i < 20 ? 6 + 2 * i : 20);
        if (others == 2 && i == 1) check_most(0, 6 + 14);
        if (others == 2 && i == 6) CHECK_REPLY(shared_open(&sharers[0], RULE, 2, 0, 0), state(0, 1));
        if (others == 2 && i == 7) open_number(2, 1024), grow(2, 50);
        own[i].reply = own_call(s, i);
        memcpy(own[i].record, s->record.bytes, sizeof own[i].record);
        memcpy(own[i].window, s->window.bytes, sizeof own[i].window);
        memcpy(own[i].share, pool.bytes + 2, 2), memcpy(own[i].kept, pool.bytes + 18, 2);
    }
}

static void check_alike(void) {
    static struct own alone[OWN_CALLS], beside[OWN_CALLS];
    run_beside(0, alone);
    CHECK_REPLY(alone[1].reply, state(0, 2));
    CHECK_REPLY(alone[5].reply, state(0, 4));
    CHECK_REPLY(alone[6].reply, refused(31));
    CHECK_REPLY(alone[8].reply, closed(1));
    for (int others = 1; others <= 2; others++) {
        run_beside(others, beside);
        CHECK(memcmp(alone, beside, sizeof alone) == 0);
    }
}

/* Offers, finds and pages of a watch that shares are the plain ones; a plain take leaves the number stale. */
static void check_plain(void) {
    struct subject *s = &sharers[0];
    static uint8_t page[WATCH32_PAGE_BYTES(4)];
    CHECK_REPLY(SET(2, 1022), 0);
    open_number(0, 4);
    grow(0, 2);
    CHECK_REPLY(try_find(s, 4), found(NONE));
    CHECK_REPLY(watch32_page(s->record.bytes, s->record.length, s->window.bytes, s->window.length, page, sizeof page),
                (uint64_t)2 << 16);
    offer(s, 2, 0, 2, 0, 0, 0);
    CHECK_REPLY(shared_take(s, 0), refused(36));
    CHECK_REPLY(try_take(s), state(0, 3));
    CHECK(watch32_share_kept(pool.bytes, 0) == 2);
    CHECK_REPLY(shared_take(s, 0), NOTHING_READY);
    CHECK(watch32_share_kept(pool.bytes, 0) == 3);
}

void test_pool(void) {
    sharers_new();
    check_brought_up();
    check_left();
    check_unpromised();
    check_idle();
    check_own();
    check_lent_bytes();
    check_next_fits();
    check_full();
    check_any_pool();
    check_above();
    check_alike();
    check_plain();
    sharers_free();
}
