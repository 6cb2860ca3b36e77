/* Request 6: the form with counts of 32 bits: its layout byte by byte, its lengths, the counts up to the last one. */
#include <string.h>

#include "subject.h"

#define OVERLAP "(ep (and (at 0 0) (at 1 0)))"

enum { TAKEN = 8, CLOCKS = 40, TABLE = 296, PENDING = 488, EVENT = 48, FRONTIER = 56 };

static const uint32_t last = 4294967295;

static void lay(uint8_t *at, uint32_t count) {
    for (unsigned i = 0; i < 4; i++) at[i] = (uint8_t)(count >> 8 * i);
}

/* A watch of k processes that stands after so many events of each, of which the last was one of all together. */
static void late(struct subject *s, size_t room, unsigned k, const uint32_t *counts) {
    start(s, room, k, OVERLAP);
    for (unsigned p = 0; p < k; p++) {
        lay(s->record.bytes + TAKEN + 4 * p, counts[p]);
        lay(s->window.bytes + 4 * p, counts[p]);
        s->window.bytes[40 + p] = (uint8_t)((1u << k) - 1);
        for (unsigned q = 0; q < k; q++) lay(s->record.bytes + CLOCKS + 32 * p + 4 * q, counts[q]);
    }
}

/* The fields keep their order. Process 2's label is 4 at the start; then an event of 0 and 2; then one is pending. */
static void check_layout(struct subject *s) {
    static const uint8_t head[] = {3, 6, 1, 0, 2, 0, 0, 0};
    static const uint8_t table[] = {0, 0, 0, 1, 0, 0, 2, 0, 1, 1, 2, 0, 0, 1, 0, 4, 3, 4};
    uint8_t record[2024] = {0}, window[3 * FRONTIER] = {0}, *second = window + FRONTIER;
    CHECK(WATCH32_RECORD_BYTES == 2024 && WATCH32_FRONTIER_BYTES == 56 && WATCH32_WINDOW_BYTES(1024) == 57344);
    start(s, 3, 3, OVERLAP);
    CHECK_REPLY(try_open(s, "(ep (at 1 0))", 3, 0x040000), state(0, 1));
    CHECK_REPLY(offer(s, 5, 1, 0, 1, 0, 0x80001), held(1));
    CHECK_REPLY(try_take(s), state(0, 2));
    CHECK_REPLY(offer(s, 6, 0x01020304, 0x05060708, 0xa0b0c0d0, 0, 0x32100), held(1));
    memcpy(record, head, sizeof head);
    record[TAKEN] = record[TAKEN + 8] = 1;
    record[CLOCKS] = record[CLOCKS + 8] = 1;
    record[CLOCKS + 64] = record[CLOCKS + 72] = 1;
    memcpy(record + TABLE, table, sizeof table);
    record[PENDING] = 6;
    memcpy(record + PENDING + 8, "\4\3\2\1\10\7\6\5\xd0\xc0\xb0\xa0", 12);
    memcpy(record + PENDING + 40, "\0\x21\3", 3);
    CHECK(memcmp(s->record.bytes, record, sizeof record) == 0);
    window[34] = 4;
    window[48] = 0x0a; /* not (at 0 0), true */
    second[0] = second[8] = 1;
    second[32] = 1, second[34] = 8;
    second[40] = second[42] = 5;
    second[48] = 0x09; /* (at 0 0), true */
    CHECK(memcmp(s->window.bytes, window, sizeof window) == 0);
    CHECK(watch32_taken(s->record.bytes, 2) == 1 && watch32_cut(s->window.bytes, 1, 2) == 1);
    CHECK(watch32_counts(1, 2) == 0x200000001);
}

/* Each length by the form: the old form's are wrong here. */
static void check_lengths(struct subject *s) {
    static const size_t wrong[] = {0, 1, 40, 55, 57, 80, 57343, 57345, 57400}, records[] = {0, 1368, 2023, 2025};
    start(s, 4, 2, OVERLAP);
    for (size_t i = 0; i < sizeof wrong / sizeof wrong[0]; i++) {
        lend_again(&s->window, wrong[i], 0);
        lend_junk(s, wrong[i]);
        CHECK_REPLY(try_open(s, OVERLAP, 2, 0), refused(6));
        CHECK_REPLY(try_take(s), refused(6));
        CHECK_REPLY(try_find(s, 0), refused(6));
        CHECK_REPLY(try_close(s, 0), refused(6));
    }
    start(s, 4, 2, OVERLAP);
    lend_junk(s, 160); /* as many frontiers of the old form */
    CHECK_REPLY(try_take(s), refused(6));
    for (size_t i = 0; i < sizeof records / sizeof records[0]; i++) {
        lend_again(&s->record, records[i], 0);
        CHECK_REPLY(try_open(s, OVERLAP, 2, 0), refused(6));
        CHECK_REPLY(offer(s, 1, 1, 0, 0, 0, 0), refused(6));
        CHECK_REPLY(try_find(s, 0), refused(6));
        CHECK_REPLY(try_close(s, 0), refused(6));
    }
    static const size_t rooms[] = {1, 2, 1023, 1024};
    for (size_t i = 0; i < sizeof rooms / sizeof rooms[0]; i++) {
        start(s, rooms[i], 2, OVERLAP);
        CHECK(all_zero(s->window.bytes + FRONTIER, s->window.length - FRONTIER));
        CHECK_REPLY(try_take(s), NOTHING_READY);
        CHECK_REPLY(try_find(s, 0), found(NONE));
    }
}

/* From 65,535 on, and past it; nothing is cut off at 16 bits. */
static void check_past(struct subject *s) {
    late(s, 4, 2, (uint32_t[]){65534, 3});
    CHECK_REPLY(offer(s, 1, 65535, 3, 0, 0, 1), held(1));
    CHECK_REPLY(offer(s, 1, 65536, 3, 0, 0, 0), held(2));
    CHECK_REPLY(offer(s, 1, 65537, 3, 0, 0, 0), held(3));
    CHECK_REPLY(offer(s, 1, 131071, 3, 0, 0, 0), held(4)); /* 65,535 in its low half */
    CHECK_REPLY(offer(s, 1, 65535, 65539, 0, 0, 1), refused(32));
    CHECK_REPLY(offer(s, 2, 65536 + 65534, 4, 0, 0, 0), held(5));
    static const uint8_t ascending[4][4] = {{255, 255, 0, 0}, {0, 0, 1, 0}, {1, 0, 1, 0}, {255, 255, 1, 0}};
    for (unsigned i = 0; i < 4; i++) CHECK(memcmp(s->record.bytes + PENDING + EVENT * i + 8, ascending[i], 4) == 0);
    for (unsigned i = 0; i < 3; i++) CHECK_REPLY(try_take(s), state(0, 2 + i));
    CHECK_REPLY(try_take(s), NOTHING_READY);
    CHECK(taken_of(s, 0) == 65537 && taken_of(s, 1) == 3 && cut_of(s, 3, 0) == 65537);
    CHECK_REPLY(offer(s, 1, 65536, 3, 0, 0, 0), refused(31));
    CHECK_REPLY(offer(s, 1, 1, 3, 0, 0, 0), refused(31));
    CHECK_REPLY(offer(s, 2, 65535, 4, 0, 0, 0x100), refused(32));
    CHECK_REPLY(offer(s, 1, 65538, 65539, 0, 0, 0), held(3)); /* 3 in its low half: it waits */
    CHECK_REPLY(try_take(s), NOTHING_READY);
    CHECK_REPLY(offer(s, 3, 65539, 5, 0, 0, 0), held(4));
}

/* 4,294,967,295 is the last event of a process: nothing wraps, neither by a call nor on bytes laid down. */
static void check_last(struct subject *s) {
    late(s, 4, 2, (uint32_t[]){last - 2, last});
    CHECK_REPLY(offer(s, 1, last, last, 0, 0, 1), held(1));
    CHECK_REPLY(try_take(s), NOTHING_READY);
    CHECK_REPLY(offer(s, 1, last - 1, last, 0, 0, 1), held(2));
    CHECK_REPLY(try_take(s), state(0, 2));
    CHECK_REPLY(try_take(s), state(0, 3));
    CHECK(taken_of(s, 0) == last && cut_of(s, 2, 0) == last && cut_of(s, 2, 1) == last);
    CHECK_REPLY(offer(s, 1, last, last, 0, 0, 0), refused(31));
    CHECK_REPLY(offer(s, 1, 0, last, 0, 0, 0), refused(8));
    CHECK_REPLY(offer(s, 3, 1, 1, 0, 0, 0), refused(31));
    s->record.bytes[2] = 1; /* as if a count of 0 came after the last */
    s->record.bytes[PENDING] = 1;
    memset(s->record.bytes + PENDING + 8, 0, 4);
    memset(s->record.bytes + PENDING + 12, 255, 4);
    CHECK_REPLY(try_take(s), NOTHING_READY);
    CHECK_REPLY(try_close(s, 1), closed(1));
}

/* Equal in 16 bits, or in 24, is not equal. */
static void check_halves(struct subject *s) {
    for (unsigned bit = 0; bit < 32; bit++) {
        uint32_t one = (uint32_t)1 << bit, count = 0x55555555;
        late(s, 4, 2, (uint32_t[]){count, 9});
        CHECK_REPLY(offer(s, 2, count, 10, 0, 0, 0), held(1));
        CHECK_REPLY(offer(s, 2, count ^ one, 11, 0, 0, 0), held(2));
        CHECK_REPLY(offer(s, 2, count ^ one, 10, 0, 0, 0), refused(32));
        CHECK_REPLY(offer(s, 2, count, 10, 0, 0, 0), WATCH_AGAIN);
        CHECK_REPLY(offer(s, 1, count ^ one, 9, 0, 0, 0), count < (count ^ one) ? held(3) : refused(31));
        CHECK_REPLY(try_take(s), state(0, 2)); /* of process 1; nothing else is ready */
        late(s, 4, 2, (uint32_t[]){count, 9});
        CHECK_REPLY(offer(s, 2, count & ~one, 10, 0, 0, 0), held(1)); /* forgets, or is true */
        CHECK_REPLY(try_take(s), count & one ? refused(35) : state(0, 2));
        late(s, 4, 2, (uint32_t[]){count, 9});
        lay(s->window.bytes, count ^ one);
        CHECK_REPLY(try_close(s, 1), closed(0));
    }
}

/* All eight counts, four bytes of each, say whether it is the largest; what stands behind them says nothing. */
static void check_largest(struct subject *s) {
    for (unsigned byte = 0; byte < FRONTIER; byte++) {
        late(s, 1, 8, (uint32_t[]){1, 257, 65537, 16777217, last, 5, 6, 7});
        s->record.bytes[3] = 0x7f;
        s->window.bytes[byte] ^= 4;
        CHECK_REPLY(try_close(s, 7), closed(byte < 32 ? 0 : 1));
    }
}

/* The order of frontiers is by number and not by bytes. */
static void check_grid(struct subject *s, uint32_t from) {
    late(s, 40, 2, (uint32_t[]){from, from});
    for (uint32_t n = 1; n <= 5; n++) {
        CHECK_REPLY(offer(s, 1, from + n, from, 0, 0, 0), held(1));
        CHECK_REPLY(try_take(s), state(0, 2 * n));
        CHECK_REPLY(offer(s, 2, from, from + n, 0, 0, 0), held(1));
        CHECK_REPLY(try_take(s), state(0, 2 * n + 1));
    }
    for (uint32_t i = 0; i < 11; i++) {
        CHECK(cut_of(s, i, 0) == from + (i < 5 ? i : 5));
        CHECK(cut_of(s, i, 1) == from + (i < 5 ? 5 : i - 5));
    }
}

/* The fullest window, with the line at the last frontier alone; then a close that leaves one. */
static void check_full_window(struct subject *s) {
    start(s, 1024, 2, OVERLAP);
    for (uint32_t n = 1; n <= 1023; n++) {
        watch32_offer(2, watch32_counts(0, n), 0, 0, 0, 0, s->record.bytes, s->record.length);
        watch32_take(s->record.bytes, s->record.length, s->window.bytes, s->window.length, s->scratch.bytes,
                     s->scratch.length);
    }
    CHECK(watch_kept(s->record.bytes) == 1024 && cut_of(s, 1023, 1) == 1023);
    CHECK_REPLY(try_find(s, 6), found(NONE));
    s->window.bytes[FRONTIER * 1023 + 48] |= 64;
    CHECK_REPLY(try_find(s, 6), found(1023));
    CHECK_REPLY(offer(s, 2, 0, 1024, 0, 0, 0), held(1));
    CHECK_REPLY(try_take(s), refused(36));
    CHECK_REPLY(try_close(s, 1), refused(42));
    CHECK_REPLY(try_close(s, 0), closed(1));
    CHECK_REPLY(try_take(s), state(0, 1));
    CHECK(cut_of(s, 0, 1) == 1024);
}

/* Count 2i stands in the low half of word i. */
static void check_words(struct subject *s) {
    for (unsigned p = 0; p < 8; p++) {
        uint32_t counts[8] = {0};
        uint64_t word[4] = {0};
        start(s, 1, 8, "(true)");
        counts[p] = 0x80000001;
        word[p / 2] = (uint64_t)0x80000001 << 32 * (p % 2);
        CHECK_REPLY(try_offer_counts(s, (uint64_t)1 << p, counts, 0), held(1));
        CHECK_REPLY(watch32_offer((uint64_t)1 << p, word[0], word[1], word[2], word[3], 0, s->record.bytes, 2024),
                    WATCH_AGAIN);
        CHECK(memcmp(s->record.bytes + PENDING + 8 + 4 * p, "\1\0\0\x80", 4) == 0);
    }
    start(s, 1, 7, "(true)");
    CHECK_REPLY(try_offer_counts(s, 1, (uint32_t[8]){1, 0, 0, 0, 0, 0, 0, 0x80000000}, 0), refused(8));
    CHECK_REPLY(try_offer_counts(s, 1, (uint32_t[8]){0x10000, 0, 0, 0, 0, 0, 0, 0}, 0), held(1));
}

void test_wide(void) {
    struct subject s = subject_wide();
    check_layout(&s);
    check_lengths(&s);
    check_past(&s);
    check_last(&s);
    check_halves(&s);
    check_largest(&s);
    check_grid(&s, 250);
    check_grid(&s, 65531);
    check_grid(&s, 16777211);
    check_grid(&s, 4294967290);
    check_full_window(&s);
    check_words(&s);
    subject_free(&s);
}
