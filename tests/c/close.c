/* Request 5: a closed process keeps no frontier any more, and no event that names it is accepted. */
#include <string.h>

#include "subject.h"

#define OVERLAP "(ep (and (at 0 0) (at 1 0)))"

static int closed_are(const struct subject *s, unsigned set) {
    for (unsigned p = 0; p < 8; p++)
        if (watch_closed(s->record.bytes, p) != (int)(set >> p & 1)) return 0;
    return s->record.bytes[3] == set;
}

static int cut_is(const struct subject *s, size_t place, unsigned a, unsigned b) {
    return watch_cut(s->window.bytes, place, 0) == a && watch_cut(s->window.bytes, place, 1) == b;
}

/* Two events of process 0 and one of process 1, which know nothing of each other. Kept, and whose events are all there:
 *     (0 1) of process 1, (1 1) of process 1, (2 0) of process 0, (2 1) of both */
static void three_events(struct subject *s, size_t room) {
    start(s, room, 2, OVERLAP);
    offer(s, 1, 1, 0, 0, 0, 1), try_take(s);
    offer(s, 1, 2, 0, 0, 0, 0), try_take(s);
    CHECK_REPLY(offer(s, 2, 0, 1, 0, 0, 0x100), held(1));
    CHECK_REPLY(try_take(s), state(1, 4));
    CHECK(closed_are(s, 0));
}

/* What stays, stays as it is, in its order. */
static void check_shrinks(struct subject *s) {
    uint8_t before[160];
    three_events(s, 6);
    memcpy(before, s->window.bytes, sizeof before);
    CHECK_REPLY(try_close(s, 1), closed(2));
    CHECK(closed_are(s, 2) && memcmp(s->window.bytes, before + 80, 80) == 0);
    CHECK_REPLY(try_close(s, 0), closed(1));
    CHECK(closed_are(s, 3) && memcmp(s->window.bytes, before + 120, 40) == 0);
    three_events(s, 4);
    CHECK_REPLY(try_close(s, 0), closed(3));
    CHECK(closed_are(s, 1) && memcmp(s->window.bytes, before, 80) == 0);
    CHECK(memcmp(s->window.bytes + 80, before + 120, 40) == 0);
    CHECK_REPLY(try_close(s, 1), closed(1));
    CHECK(closed_are(s, 3) && memcmp(s->window.bytes, before + 120, 40) == 0);
}

/* The open process goes on. Its events may count those of the closed one, and must not forget them. */
static void check_goes_on(struct subject *s) {
    three_events(s, 4);
    CHECK_REPLY(try_close(s, 1), closed(2));
    CHECK_REPLY(offer(s, 1, 3, 0, 0, 0, 0), held(1));
    CHECK_REPLY(try_take(s), state(1, 2));
    CHECK(cut_is(s, 0, 3, 0) && cut_is(s, 1, 3, 1));
    CHECK_REPLY(offer(s, 1, 4, 1, 0, 0, 0), held(1));
    CHECK_REPLY(try_take(s), state(1, 1));
    CHECK(cut_is(s, 0, 4, 1));
    CHECK_REPLY(offer(s, 1, 5, 0, 0, 0, 0), held(1));
    CHECK_REPLY(try_take(s), refused(35));
    CHECK_REPLY(try_find(s, watch_lines(s->record.bytes) - 1u), found(0));
    CHECK(closed_are(s, 2));
}

/* Nothing is dropped yet: process 1 has no event, so every frontier has all of them. But less has to be kept from now
 * on, and what did not fit does. */
static void check_makes_room(struct subject *s) {
    start(s, 3, 2, OVERLAP);
    offer(s, 1, 1, 0, 0, 0, 1), try_take(s);
    offer(s, 1, 2, 0, 0, 0, 0), try_take(s);
    CHECK_REPLY(offer(s, 2, 0, 1, 0, 0, 0x100), held(1));
    CHECK_REPLY(try_take(s), refused(36));
    CHECK_REPLY(try_close(s, 1), refused(42));
    CHECK_REPLY(try_close(s, 0), closed(3));
    CHECK_REPLY(try_take(s), state(1, 3));
    CHECK(cut_is(s, 0, 0, 1) && cut_is(s, 1, 1, 1) && cut_is(s, 2, 2, 1));
}

/* The whole word is the process. */
static void check_not_open(struct subject *s) {
    static const uint64_t wrong[] = {2, 3, 7, 8, 9, 31, 32, 63, 64, 255, 256, 257, 65536, 65537, (uint64_t)1 << 32,
                                     ((uint64_t)1 << 32) + 1, (uint64_t)1 << 63, UINT64_MAX - 1, UINT64_MAX};
    three_events(s, 4);
    for (size_t i = 0; i < sizeof wrong / sizeof wrong[0]; i++) CHECK_REPLY(try_close(s, wrong[i]), refused(41));
    CHECK(WATCH_NOT_OPEN == 41 && WATCH_NAMED == 42);
    CHECK_REPLY(try_close(s, 1), closed(2));
    CHECK_REPLY(try_close(s, 1), refused(41));
    for (unsigned k = 1; k <= 8; k++) {
        start(s, 1, k, "(true)");
        CHECK_REPLY(try_close(s, k), refused(41));
        CHECK_REPLY(try_close(s, k - 1), closed(1));
        CHECK_REPLY(try_close(s, k - 1), refused(41));
    }
}

/* A pending event keeps open the processes of its mask, each of them, and no other that its clock counts. */
static void check_named(struct subject *s) {
    start(s, 8, 8, OVERLAP);
    CHECK_REPLY(try_offer(s, 0xa4, watch_counts(9, 9, 9, 9), watch_counts(9, 9, 9, 9), 0), held(1));
    CHECK_REPLY(try_offer(s, 0x02, watch_counts(9, 9, 9, 9), watch_counts(9, 9, 9, 9), 0), held(2));
    for (unsigned p = 0; p < 8; p++) CHECK_REPLY(try_close(s, p), 0xa6 >> p & 1 ? refused(42) : closed(1));
    for (unsigned p = 0; p < 8; p++) CHECK_REPLY(try_close(s, p), refused(0xa6 >> p & 1 ? 42 : 41));
    CHECK(closed_are(s, 0x59));
    start(s, 8, 1, "(at 0 0)"); /* each one that is pending counts; one that left with its event taken does not */
    for (unsigned i = 0; i < 32; i++) CHECK_REPLY(offer(s, 1, 32 - i, 0, 0, 0, 0), held(i + 1));
    for (unsigned i = 0; i < 32; i++) {
        CHECK_REPLY(try_close(s, 0), refused(42));
        CHECK_REPLY(try_take(s), state(0, 1));
    }
    CHECK_REPLY(try_close(s, 0), closed(1));
    start(s, 8, 2, "(at 0 0)"); /* the last of 32 places: the higher process stands behind the lower */
    for (unsigned i = 0; i < 31; i++) CHECK_REPLY(offer(s, 1, 2 + i, 0, 0, 0, 0), held(i + 1));
    CHECK_REPLY(offer(s, 2, 0, 2, 0, 0, 0), held(32));
    CHECK_REPLY(try_close(s, 1), refused(42));
}

/* By its mask, whatever its counts are: a new event, one that was taken, one with others. What is none is refused for
 * that. */
static void check_offers(struct subject *s) {
    start(s, 8, 3, OVERLAP);
    offer(s, 2, 0, 1, 0, 0, 0x100), try_take(s);
    CHECK_REPLY(offer(s, 2, 0, 1, 0, 0, 0x100), refused(31));
    CHECK_REPLY(try_close(s, 1), closed(2));
    CHECK_REPLY(offer(s, 2, 0, 1, 0, 0, 0x100), refused(42));
    CHECK_REPLY(offer(s, 2, 0, 2, 0, 0, 0), refused(42));
    CHECK_REPLY(offer(s, 3, 1, 2, 0, 0, 0), refused(42));
    CHECK_REPLY(offer(s, 7, 9, 9, 9, 0, 0), refused(42));
    CHECK_REPLY(offer(s, 2, 0, 0, 0, 0, 0), refused(8));
    CHECK_REPLY(offer(s, 2, 0, 2, 0, 0, 1), refused(9));
    CHECK_REPLY(offer(s, 10, 0, 2, 0, 1, 0), refused(7));
    for (unsigned i = 0; i < 32; i++) CHECK_REPLY(offer(s, 1, 40 - i, 1, 0, 0, 0), held(i + 1));
    CHECK_REPLY(offer(s, 3, 9, 1, 0, 0, 0), refused(42));
    CHECK_REPLY(offer(s, 1, 9, 1, 0, 0, 0), WATCH_AGAIN);
    CHECK_REPLY(offer(s, 5, 8, 1, 1, 0, 0), refused(33));
}

/* An event counts another that did not come before its process was closed: it waits for ever, and is pending. */
static void check_waits(struct subject *s) {
    start(s, 8, 2, OVERLAP);
    CHECK_REPLY(offer(s, 1, 1, 1, 0, 0, 1), held(1));
    CHECK_REPLY(try_close(s, 1), closed(1));
    CHECK_REPLY(offer(s, 2, 0, 1, 0, 0, 0x100), refused(42));
    CHECK_REPLY(try_take(s), NOTHING_READY);
    CHECK_REPLY(try_close(s, 0), refused(42));
    CHECK_REPLY(offer(s, 1, 1, 1, 0, 0, 1), WATCH_AGAIN);
    CHECK_REPLY(offer(s, 1, 1, 0, 0, 0, 1), refused(32));
    CHECK(watch_pending(s->record.bytes) == 1 && closed_are(s, 2));
}

/* One event of each of eight processes: every set of them is a cut. With n processes closed 2^n sets have none of the
 * events of open ones and are dropped, at the end all but the largest. */
static void check_all_closed(struct subject *s) {
    start(s, 255, 8, "(ep (at 7 0))");
    for (unsigned p = 0; p < 8; p++) {
        uint64_t low = p < 4 ? (uint64_t)1 << 16 * p : 0, high = p < 4 ? 0 : (uint64_t)1 << 16 * (p - 4);
        CHECK_REPLY(try_offer(s, (uint64_t)1 << p, low, high, (uint64_t)(p == 7) << 56), held(1));
        CHECK(watch_value(try_take(s)) == (p < 7 ? 2u << p : 255));
    }
    for (unsigned n = 1; n <= 8; n++) CHECK_REPLY(try_close(s, 3 * n % 8), closed(n < 8 ? 256 - (1u << n) : 1));
    CHECK(closed_are(s, 255));
    for (unsigned p = 0; p < 8; p++) CHECK(watch_cut(s->window.bytes, 0, p) == 1);
    for (unsigned p = 0; p < 8; p++) CHECK_REPLY(try_close(s, p), refused(41));
    for (unsigned mask = 1; mask < 256; mask++)
        CHECK_REPLY(try_offer(s, mask, watch_counts(2, 2, 2, 2), watch_counts(2, 2, 2, 2), 0), refused(42));
    CHECK_REPLY(try_take(s), NOTHING_READY);
    CHECK_REPLY(try_find(s, 5), found(0));
    CHECK_REPLY(try_open(s, "(ep (at 7 0))", 8, 0), state(0, 1));
    CHECK(closed_are(s, 0));
}

/* The fullest window: of 1,024 frontiers all stay, or one. */
static void check_full_window(struct subject *s) {
    for (unsigned process = 0; process < 2; process++) {
        start(s, 1024, 2, OVERLAP);
        for (unsigned n = 1; n <= 1023; n++) {
            watch_offer(2, watch_counts(0, (uint16_t)n, 0, 0), 0, 0, s->record.bytes, s->record.length);
            watch_take(s->record.bytes, s->record.length, s->window.bytes, s->window.length, s->scratch.bytes,
                       s->scratch.length);
        }
        CHECK(watch_kept(s->record.bytes) == 1024);
        CHECK_REPLY(try_close(s, process), closed(process == 0 ? 1 : 1024));
        CHECK(cut_is(s, 0, 0, process == 0 ? 1023 : 0));
    }
    lend_again(&s->window, WATCH_WINDOW_BYTES(1023), 0); /* one less than is kept */
    CHECK_REPLY(try_close(s, 0), refused(34));
}

/* ---- bytes that no call leaves ---- */

static void lay_counts(struct subject *s, size_t place, unsigned a, unsigned b) {
    uint8_t *at = s->window.bytes + 40 * place;
    at[0] = (uint8_t)a, at[1] = (uint8_t)(a >> 8);
    at[2] = (uint8_t)b, at[3] = (uint8_t)(b >> 8);
}

/* Five frontiers, each with junk behind its counts, so many kept; taken is (259 3). */
static void laid(struct subject *s, unsigned kept) {
    start(s, 5, 2, OVERLAP);
    memset(s->window.bytes, 0xEE, 200);
    for (size_t place = 0; place < 5; place++) memset(s->window.bytes + 40 * place, 0, 16);
    memcpy(s->record.bytes + 8, "\3\1\3\0", 4);
    s->record.bytes[4] = (uint8_t)kept;
}

/* The kept frontiers alone are looked at, in whatever order they stand; those behind stay, also if none is kept. */
static void check_laid(struct subject *s) {
    for (unsigned kept = 1; kept <= 5; kept++)
        for (unsigned set = 0; set < 32; set++) {
            unsigned staying = 0;
            laid(s, kept);
            for (unsigned place = 0; place < 5; place++) {
                lay_counts(s, place, set >> place & 1 ? 259 : 3, 9 - place);
                staying += place < kept && set >> place & 1;
            }
            CHECK_REPLY(try_close(s, 1), closed(staying));
            for (unsigned place = 0, to = 0; place < kept; place++)
                if (set >> place & 1) CHECK(cut_is(s, to++, 259, 9 - place));
        }
}

/* All eight counts, both bytes of each, say whether it is the largest; what stands behind them says nothing. */
static void check_laid_largest(struct subject *s) {
    for (unsigned byte = 0; byte < 40; byte++) {
        laid(s, 1);
        memset(s->record.bytes + 8, 5, 16);
        memset(s->window.bytes, 5, 16);
        s->record.bytes[3] = 1;
        s->window.bytes[byte] ^= 4;
        CHECK_REPLY(try_close(s, 1), closed(byte < 16 ? 0 : 1));
    }
    CHECK_REPLY(try_close(s, 0), refused(41));
}

/* Bits of byte 3 at processes that the watch has not close nothing and stay; the counts there keep nothing. */
static void check_laid_beyond(struct subject *s) {
    laid(s, 2);
    lay_counts(s, 0, 259, 1), lay_counts(s, 1, 1, 3);
    s->record.bytes[3] = 0xfc;
    CHECK_REPLY(offer(s, 1, 300, 0, 0, 0, 0), held(1));
    CHECK_REPLY(try_close(s, 2), refused(41));
    CHECK_REPLY(try_close(s, 1), closed(1));
    CHECK(closed_are(s, 0xfe) && cut_is(s, 0, 259, 1));
}

/* A pending event behind those that the record counts names nothing, and bytes behind a mask neither. */
static void check_laid_pending(struct subject *s) {
    for (unsigned pending = 0; pending <= 3; pending++) {
        start(s, 1, 2, OVERLAP);
        memset(s->record.bytes + 344, 0xFF, 3 * 32);
        s->record.bytes[344] = s->record.bytes[376] = 0xFD, s->record.bytes[408] = 2;
        s->record.bytes[2] = (uint8_t)pending;
        CHECK_REPLY(try_close(s, 1), pending == 3 ? refused(42) : closed(1));
        CHECK_REPLY(try_close(s, 0), pending > 0 ? refused(42) : closed(1));
    }
}

void test_close(void) {
    struct subject s = subject_new();
    check_shrinks(&s);
    check_goes_on(&s);
    check_makes_room(&s);
    check_not_open(&s);
    check_named(&s);
    check_offers(&s);
    check_waits(&s);
    check_all_closed(&s);
    check_full_window(&s);
    check_laid(&s);
    check_laid_largest(&s);
    check_laid_beyond(&s);
    check_laid_pending(&s);
    subject_free(&s);
}
