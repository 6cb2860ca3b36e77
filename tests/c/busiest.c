/* Request 8: the busiest day of n events, its list byte by byte, what it is refused for, that a watch keeps what it
 * answers, and that no other sharing keeps more. */
#include <string.h>

#include "subject.h"

#define RULE "(ep (at 0 0))"

enum { EVENT = 48, MOST = 65535, LONGEST = EVENT * (MOST + 1) };

/* The last day of each number of processes that keeps at most 1,024, worked out by hand, and what it keeps. */
static const struct { unsigned n, keeps; } last[9] = {
    {0, 0}, {65535, 1}, {1023, 1024}, {53, 990}, {23, 978}, {16, 956}, {13, 876}, {12, 940}, {11, 856},
};

static struct lent list, long_list;

static uint64_t keeps(unsigned frontiers) {
    return (uint64_t)frontiers << 16;
}

/* Bytes of which no event has eight in a row. */
static uint8_t junk(size_t i) {
    return (uint8_t)(129 + i % 113);
}

/* An event as it should stand in the list. */
static int is_event(const uint8_t *at, unsigned p, unsigned count) {
    uint8_t event[EVENT] = {(uint8_t)(1u << p)};
    event[8 + 4 * p] = (uint8_t)count, event[9 + 4 * p] = (uint8_t)(count >> 8);
    return memcmp(at, event, EVENT) == 0;
}

static unsigned share(unsigned k, unsigned n, unsigned p) {
    return n / k + (p < n % k);
}

static int is_day(const uint8_t *at, unsigned k, unsigned n) {
    int right = 1;
    for (unsigned p = 0; p < k; p++)
        for (unsigned count = 1; count <= share(k, n, p); count++, at += EVENT) right &= is_event(at, p, count);
    return right;
}

/* A refused call writes nothing, an accepted one the whole list and nothing else. */
static uint64_t try_on(struct lent *l, uint64_t k, uint64_t n, size_t length) {
    int untouched = 1;
    lend(l, length, 0);
    for (size_t i = 0; i < length; i++) l->bytes[i] = junk(i);
    uint64_t reply = watch32_busiest(k, n, length == 0 ? NULL : l->bytes, length);
    for (size_t i = 0; i < length; i++) untouched &= l->bytes[i] == junk(i);
    if (watch_number(reply) == 0) CHECK(k - 1 < 8 && length == EVENT * n && is_day(l->bytes, (unsigned)k, (unsigned)n));
    else CHECK(untouched && reply == watch_number(reply));
    CHECK(lent_intact(l));
    return reply;
}

static uint64_t try_busiest(uint64_t k, uint64_t n, size_t length) {
    return try_on(&list, k, n, length);
}

static uint64_t try_right(uint64_t k, uint64_t n) {
    return try_busiest(k, n, EVENT * (size_t)n);
}

/* ---- what it answers and lists ---- */

static void check_small(void) {
    CHECK(WATCH32_EVENT_BYTES == 48 && WATCH32_EVENTS_BYTES(3) == 144 && WATCH32_DAY_EVENTS == 65535);
    CHECK(WATCH_DAY == 45 && WATCH_BUSY == 46);
    for (unsigned k = 1; k <= 8; k++) {
        CHECK_REPLY(watch32_busiest(k, 0, NULL, 0), keeps(1));
        CHECK_REPLY(try_right(k, 1), keeps(k == 1 ? 1 : 2));
    }
    CHECK_REPLY(try_right(2, 2), keeps(2 * 2 - 1));
    CHECK_REPLY(try_right(2, 3), keeps(3 * 2 - 2));
    CHECK_REPLY(try_right(3, 2), keeps(2 * 2 * 1 - 0));
    CHECK_REPLY(try_right(3, 3), keeps(8 - 1));
    CHECK_REPLY(try_right(3, 8), keeps(4 * 4 * 3 - 3 * 3 * 2));
    CHECK_REPLY(try_right(4, 8), keeps(81 - 16));
    CHECK_REPLY(try_right(5, 7), keeps(3 * 3 * 2 * 2 * 2 - 2 * 2));
    CHECK_REPLY(try_right(8, 8), keeps(256 - 1));
    CHECK_REPLY(try_right(8, 9), keeps(3 * 128 - 2));
    CHECK_REPLY(try_right(8, 11), keeps(27 * 32 - 8));
}

/* Every byte of a day of five events among three processes. */
static void check_bytes(void) {
    static const uint8_t day[5 * EVENT] = {
        1, 0, 0, 0, 0, 0, 0, 0, /* counts */ 1, 0, 0, 0, 0, 0, 0, 0, 0, 0, 0, 0, 0, 0, 0, 0,
        0, 0, 0, 0, 0, 0, 0, 0, 0, 0, 0, 0, 0, 0, 0, 0, /* labels */ 0, 0, 0, 0, 0, 0, 0, 0,
        1, 0, 0, 0, 0, 0, 0, 0, /* counts */ 2, 0, 0, 0, 0, 0, 0, 0, 0, 0, 0, 0, 0, 0, 0, 0,
        0, 0, 0, 0, 0, 0, 0, 0, 0, 0, 0, 0, 0, 0, 0, 0, /* labels */ 0, 0, 0, 0, 0, 0, 0, 0,
        2, 0, 0, 0, 0, 0, 0, 0, /* counts */ 0, 0, 0, 0, 1, 0, 0, 0, 0, 0, 0, 0, 0, 0, 0, 0,
        0, 0, 0, 0, 0, 0, 0, 0, 0, 0, 0, 0, 0, 0, 0, 0, /* labels */ 0, 0, 0, 0, 0, 0, 0, 0,
        2, 0, 0, 0, 0, 0, 0, 0, /* counts */ 0, 0, 0, 0, 2, 0, 0, 0, 0, 0, 0, 0, 0, 0, 0, 0,
        0, 0, 0, 0, 0, 0, 0, 0, 0, 0, 0, 0, 0, 0, 0, 0, /* labels */ 0, 0, 0, 0, 0, 0, 0, 0,
        4, 0, 0, 0, 0, 0, 0, 0, /* counts */ 0, 0, 0, 0, 0, 0, 0, 0, 1, 0, 0, 0, 0, 0, 0, 0,
        0, 0, 0, 0, 0, 0, 0, 0, 0, 0, 0, 0, 0, 0, 0, 0, /* labels */ 0, 0, 0, 0, 0, 0, 0, 0,
    };
    CHECK_REPLY(try_right(3, 5), keeps(3 * 3 * 2 - 2 * 2 * 1));
    CHECK(memcmp(list.bytes, day, sizeof day) == 0);
    CHECK(watch32_event_mask(list.bytes, 3) == 2 && watch32_event_count(list.bytes, 3, 1) == 2);
    CHECK(watch32_event_mask(list.bytes, 4) == 4 && watch32_event_count(list.bytes, 4, 2) == 1);
    CHECK(watch32_event_count(list.bytes, 4, 1) == 0 && watch32_event_count(list.bytes, 0, 0) == 1);
}

/* Of eleven events of eight processes the first three have two, and of ten of four the first two have three. */
static void check_remainders(void) {
    static const uint8_t eight[] = {1, 1, 2, 2, 4, 4, 8, 16, 32, 64, 128}, four[] = {1, 1, 1, 2, 2, 2, 4, 4, 8, 8};
    static const uint8_t number[] = {1, 2, 1, 2, 1, 2, 1, 1, 1, 1, 1}, of_four[] = {1, 2, 3, 1, 2, 3, 1, 2, 1, 2};
    static const uint8_t process[] = {0, 0, 1, 1, 2, 2, 3, 4, 5, 6, 7}, of_ten[] = {0, 0, 0, 1, 1, 1, 2, 2, 3, 3};
    CHECK_REPLY(try_right(8, 11), keeps(856));
    for (unsigned i = 0; i < 11; i++) CHECK(watch32_event_mask(list.bytes, i) == eight[i]);
    for (unsigned i = 0; i < 11; i++) CHECK(watch32_event_count(list.bytes, i, process[i]) == number[i]);
    CHECK_REPLY(try_right(4, 10), keeps(4 * 4 * 3 * 3 - 3 * 3 * 2 * 2));
    for (unsigned i = 0; i < 10; i++) CHECK(watch32_event_mask(list.bytes, i) == four[i]);
    for (unsigned i = 0; i < 10; i++) CHECK(watch32_event_count(list.bytes, i, of_ten[i]) == of_four[i]);
}

/* One process keeps one frontier however many events it has: to the largest count, of two bytes. */
static void check_alone(void) {
    static const unsigned days[] = {1, 2, 254, 255, 256, 257, 1023, 1024, 1025, 4096, 65534, 65535};
    for (size_t i = 0; i < sizeof days / sizeof days[0]; i++)
        CHECK_REPLY(try_on(&long_list, 1, days[i], EVENT * days[i]), keeps(1));
    CHECK(watch32_event_count(long_list.bytes, 65534, 0) == 65535 && watch32_event_mask(long_list.bytes, 65534) == 1);
    CHECK_REPLY(try_on(&long_list, 1, 65536, EVENT * 65536), refused(45));
    CHECK_REPLY(try_on(&long_list, 1, 65535, EVENT * 65535 - 1), refused(6));
    CHECK_REPLY(try_on(&long_list, 1, 65535, EVENT * 65534), refused(6));
    CHECK_REPLY(try_on(&long_list, 1, 65535, EVENT * 65536), refused(6));
    CHECK_REPLY(try_on(&long_list, 2, 65535, EVENT * 65535), refused(46));
    CHECK_REPLY(try_on(&long_list, 8, 65535, EVENT * 65535), refused(46));
    CHECK_REPLY(try_on(&long_list, 9, 65535, EVENT * 65535), refused(45));
}

/* ---- refusals ---- */

/* The last day that is not too busy, and the one after it. */
static void check_limits(void) {
    for (unsigned k = 2; k <= 8; k++) {
        CHECK_REPLY(try_right(k, last[k].n), keeps(last[k].keeps));
        CHECK_REPLY(try_right(k, last[k].n + 1), refused(46));
    }
    CHECK_REPLY(try_right(2, 1022), keeps(1023));
}

/* Whole words: what the lower bits say does not count, of k nor of n. */
static void check_words(void) {
    static const uint64_t further[] = {16, 256, 65536, (uint64_t)1 << 32, (uint64_t)1 << 48, (uint64_t)1 << 63};
    static const uint64_t wrong[] = {0, 9, 10, 255, 256, 65535, (uint64_t)1 << 32, (uint64_t)1 << 63, UINT64_MAX};
    static const uint64_t many[] = {65536, 65537, 65538, 65539, 131072, 0xffffffff, (uint64_t)1 << 32,
                                    ((uint64_t)1 << 32) + 2, (uint64_t)1 << 63, ((uint64_t)1 << 63) + 2, UINT64_MAX};
    for (size_t i = 0; i < sizeof wrong / sizeof wrong[0]; i++)
        for (unsigned n = 0; n < 4; n++) CHECK_REPLY(try_right(wrong[i], n), refused(45));
    for (unsigned k = 1; k <= 8; k++) {
        for (size_t i = 0; i < sizeof further / sizeof further[0]; i++)
            for (unsigned n = 0; n < 4; n++) CHECK_REPLY(try_right(k + further[i], n), refused(45));
        for (size_t i = 0; i < sizeof many / sizeof many[0]; i++)
            CHECK_REPLY(try_busiest(k, many[i], EVENT * (many[i] % 8)), refused(45));
    }
}

/* 45 comes before 46 and 6, and 46 before 6: each with a list of the right length and of wrong ones. */
static void check_order(void) {
    static const size_t lengths[] = {0, 1, 47, 48, 49, 96, 144, 600, 1024};
    static const struct { unsigned k, n, number; } days[] = {
        {0, 3, 45}, {9, 3, 45}, {9, 1024, 45}, {0, 65536, 45}, {1, 65536, 45}, {8, 65536, 45},
        {2, 1024, 46}, {8, 12, 46}, {8, 65535, 46}, {1, 65535, 6}, {2, 1023, 6}, {8, 11, 6},
    };
    for (size_t d = 0; d < sizeof days / sizeof days[0]; d++)
        for (size_t i = 0; i < sizeof lengths / sizeof lengths[0]; i++)
            CHECK_REPLY(try_busiest(days[d].k, days[d].n, lengths[i]), refused(days[d].number));
    CHECK_REPLY(watch32_busiest(9, 65536, NULL, 0), refused(45));
    CHECK_REPLY(watch32_busiest(2, 1024, NULL, 0), refused(46));
    CHECK_REPLY(watch32_busiest(2, 1, NULL, 0), refused(6));
}

/* Every length around that of a small day; a day of nothing takes no list but an empty one. */
static void check_lengths(void) {
    for (unsigned k = 1; k <= 8; k++)
        for (unsigned n = 0; n <= 4; n++)
            for (size_t length = 0; length <= EVENT * n + 100; length++) {
                uint64_t reply = try_busiest(k, n, length);
                CHECK(length == EVENT * n ? watch_number(reply) == 0 : reply == refused(6));
            }
}

/* ---- every day ---- */

/* By the request's formula. Below it is asked of days up to the one after the last, where nothing wraps. */
static uint64_t formula(unsigned k, const unsigned *counts) {
    uint64_t more = 1, all = 1;
    for (unsigned p = 0; p < k; p++) more *= counts[p] + 1, all *= counts[p];
    return more - all;
}

/* One by one: the cuts in which some process has all its events, some below p having so already or not. */
static uint64_t counted(unsigned k, const unsigned *counts, unsigned p, int complete) {
    uint64_t number = 0;
    if (p == k) return complete != 0;
    for (unsigned c = 0; c <= counts[p]; c++) number += counted(k, counts, p + 1, complete || c == counts[p]);
    return number;
}

/* The most that any sharing keeps, the processes from p up having n events among them. Small days are counted too. */
static uint64_t most_kept(unsigned k, unsigned *counts, unsigned p, unsigned n) {
    uint64_t most = 0;
    if (p == k - 1) {
        counts[p] = n, n = 0;
        for (unsigned q = 0; q < k; q++) n += counts[q];
        if (n <= 6) CHECK(formula(k, counts) == counted(k, counts, 0, 0));
        return formula(k, counts);
    }
    for (unsigned c = 0; c <= n; c++) {
        counts[p] = c;
        uint64_t kept = most_kept(k, counts, p + 1, n - c);
        if (kept > most) most = kept;
    }
    return most;
}

/* Every day up to the one after the last, and all its sharings. */
static void check_every(void) {
    for (unsigned k = 2; k <= 8; k++)
        for (unsigned n = 0; n <= last[k].n + 1; n++) {
            unsigned counts[8], other[8];
            for (unsigned p = 0; p < k; p++) counts[p] = share(k, n, p);
            uint64_t kept = formula(k, counts);
            CHECK_REPLY(try_right(k, n), kept <= WATCH_ROOM ? keeps((unsigned)kept) : refused(46));
            CHECK(kept == most_kept(k, other, 0, n));
            if (n <= 60) CHECK(kept == counted(k, counts, 0, 0));
        }
}

static uint64_t without_list(unsigned k, unsigned n) {
    if (n > MOST) return refused(45);
    if (n > last[k].n) return refused(46);
    return n > 0 ? refused(6) : keeps(1);
}

/* Every n, without a list, up to the first with a wrong answer: nothing that wraps makes a busy day a small one. In
 * products of 64 bits 65,532 events of eight processes would keep none. */
static void check_no_list(void) {
    for (unsigned k = 1; k <= 8; k++) {
        unsigned n = 0;
        while (n < MOST + 100 && watch32_busiest(k, n, NULL, 0) == without_list(k, n)) n++;
        CHECK_REPLY(watch32_busiest(k, n, NULL, 0), without_list(k, n));
    }
}

/* ---- a watch that takes the day ---- */

static uint64_t take_at(struct subject *s, size_t place) {
    uint32_t counts[8];
    for (unsigned p = 0; p < 8; p++) counts[p] = watch32_event_count(list.bytes, place, p);
    CHECK_REPLY(try_offer_counts(s, watch32_event_mask(list.bytes, place), counts, 0), held(1));
    return try_take(s);
}

/* In its own order. A window of so many frontiers is long enough, and one that is shorter by one is not. */
static void check_taken(struct subject *s, unsigned k, unsigned n) {
    uint64_t reply = try_right(k, n);
    unsigned kept = watch_value(reply);
    CHECK(watch_number(reply) == 0 && kept >= 1 && kept <= WATCH_ROOM);
    for (unsigned less = 0; less < 2 && less < kept && kept <= WATCH_ROOM; less++) {
        start(s, kept - less, k, RULE);
        for (unsigned i = 0; i < n; i++) reply = take_at(s, i);
        if (n > 0) CHECK_REPLY(reply, less == 0 || kept == 1 ? state(0, kept) : refused(36));
        if (less == 0) CHECK(watch_kept(s->record.bytes) == kept);
    }
    lend_again(&s->window, frontiers_bytes(s, WATCH_ROOM), 0);
}

static void check_watches(struct subject *s) {
    for (unsigned k = 3; k <= 8; k++)
        for (unsigned n = 0; n <= last[k].n; n++) check_taken(s, k, n);
    for (unsigned n = 0; n < 40; n++) check_taken(s, 1, n), check_taken(s, 2, n);
    check_taken(s, 1, 300);
    check_taken(s, 2, 1023);
}

void test_busiest(void) {
    struct subject s = subject_wide();
    list = lent_new(EVENT * 1100), long_list = lent_new(LONGEST);
    check_small();
    check_bytes();
    check_remainders();
    check_alone();
    check_limits();
    check_words();
    check_order();
    check_lengths();
    check_every();
    check_no_list();
    check_watches(&s);
    lent_free(&list), lent_free(&long_list);
    subject_free(&s);
}
