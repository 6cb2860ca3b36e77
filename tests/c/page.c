/* Request 7: the page of kept frontiers, byte by byte, and what it is refused for. */
#include <string.h>

#include "subject.h"

#define OVERLAP "(ep (and (at 0 0) (at 1 0)))"

enum { TABLE = 296, FRONTIER = 56, VALUES = 48, ROW = 93, LONGEST = ROW * (WATCH_ROOM + 3) };

static struct lent page;
static uint8_t before[LONGEST];

/* Full of bytes that no row has, and it ends where nobody may write. */
static void lend_page(size_t length) {
    lend(&page, length, 0);
    for (size_t i = 0; i < length; i++) page.bytes[i] = (uint8_t)(128 + i % 127);
}

static uint64_t printed(unsigned rows) {
    return (uint64_t)rows << 16;
}

/* A refused call writes nothing, an accepted one the rows alone; record and window stay in either case. */
static uint64_t try_page(struct subject *s) {
    static uint8_t record[2 * WATCH32_RECORD_BYTES], window[WATCH32_WINDOW_BYTES(WATCH_ROOM + 1)];
    memcpy(before, page.bytes, page.length);
    memcpy(record, s->record.bytes, s->record.length), memcpy(window, s->window.bytes, s->window.length);
    uint64_t reply = watch32_page(s->record.bytes, s->record.length, s->window.bytes, s->window.length, page.bytes,
                                  page.length);
    size_t rows = WATCH32_PAGE_BYTES(watch_value(reply));
    CHECK(memcmp(s->record.bytes, record, s->record.length) == 0);
    CHECK(memcmp(s->window.bytes, window, s->window.length) == 0);
    CHECK(rows <= page.length && memcmp(page.bytes + rows, before + rows, page.length - rows) == 0);
    CHECK(watch_number(reply) == 0 ? reply == printed(watch_kept(s->record.bytes)) : reply == watch_number(reply));
    CHECK(lent_intact(&s->record) && lent_intact(&s->window) && lent_intact(&page));
    return reply;
}

/* On a page that is just long enough, and again on a longer one. */
static void check_rows(struct subject *s, unsigned rows, const char *text) {
    CHECK(strlen(text) == ROW * (size_t)rows);
    for (unsigned more = 0; more <= 200; more += 200) {
        lend_page(ROW * rows + more);
        CHECK_REPLY(try_page(s), printed(rows));
        CHECK(memcmp(page.bytes, text, ROW * rows) == 0);
    }
}

static void lay(uint8_t *at, uint32_t count) {
    for (unsigned i = 0; i < 4; i++) at[i] = (uint8_t)(count >> 8 * i);
}

/* ---- what stands on it ---- */

/* The rule's truth differs among the frontiers, which stand in the window's order. */
static void check_small(struct subject *s) {
    CHECK(WATCH32_ROW_BYTES == 93 && WATCH32_PAGE_BYTES(4) == 372 && WATCH_SHORT == 44);
    start(s, 6, 2, OVERLAP);
    check_rows(s, 1,
        "          0          0                                                                   no \n");
    offer(s, 1, 1, 0, 0, 0, 1), try_take(s);
    offer(s, 1, 2, 0, 0, 0, 0), try_take(s);
    offer(s, 2, 0, 1, 0, 0, 0x100);
    CHECK_REPLY(try_take(s), state(1, 4));
    check_rows(s, 4,
        "          0          1                                                                   no \n"
        "          1          1                                                                   yes\n"
        "          2          0                                                                   no \n"
        "          2          1                                                                   yes\n");
    offer(s, 1, 9, 0, 0, 0, 0); /* what is pending does not show, and a closed process keeps its column */
    CHECK_REPLY(try_close(s, 1), closed(2));
    check_rows(s, 2,
        "          2          0                                                                   no \n"
        "          2          1                                                                   yes\n");
}

/* All eight columns, and counts of one to ten digits. */
static void check_eight(struct subject *s) {
    static const uint32_t counts[3][8] = {
        {1, 22, 333, 4444, 55555, 666666, 7777777, 88888888},
        {999999999, 1000000000, 2147483647, 2147483648, 4294967295, 0, 9, 10},
        {4294967295, 4294967295, 4294967295, 4294967295, 4294967295, 4294967295, 4294967295, 4294967295},
    };
    start(s, 3, 8, "(at 7 7)");
    s->record.bytes[4] = 3;
    for (unsigned i = 0; i < 3; i++)
        for (unsigned p = 0; p < 8; p++) lay(s->window.bytes + FRONTIER * i + 4 * p, counts[i][p]);
    s->window.bytes[FRONTIER + VALUES] = 1;
    check_rows(s, 3,
        "          1         22        333       4444      55555     666666    7777777   88888888 no \n"
        "  999999999 1000000000 2147483647 2147483648 4294967295          0          9         10 yes\n"
        " 4294967295 4294967295 4294967295 4294967295 4294967295 4294967295 4294967295 4294967295 no \n");
}

/* A watch that stands before its event of ten digits: the row before it, and the row after it. */
static void check_next_digit(struct subject *s) {
    start(s, 2, 2, "(at 0 0)");
    lay(s->record.bytes + 8, 999999999), lay(s->record.bytes + 40, 999999999), lay(s->window.bytes, 999999999);
    s->window.bytes[40] = 1;
    CHECK_REPLY(offer(s, 1, 1000000000, 0, 0, 0, 1), held(1));
    CHECK_REPLY(try_take(s), state(1, 2));
    check_rows(s, 2,
        "  999999999          0                                                                   no \n"
        " 1000000000          0                                                                   yes\n");
}

/* Around each power of ten, in each column by itself. */
static void check_digits(struct subject *s) {
    start(s, 1, 8, OVERLAP);
    lend_page(ROW);
    for (unsigned p = 0; p < 8; p++)
        for (uint64_t power = 1; power <= 1000000000; power *= 10)
            for (unsigned i = 0; i < 3; i++) {
                char column[12], zeros[] = "          0";
                uint32_t count = (uint32_t)(power + i - 1);
                lay(s->window.bytes + 4 * p, count);
                CHECK_REPLY(try_page(s), printed(1));
                snprintf(column, sizeof column, "%11lu", (unsigned long)count);
                for (unsigned q = 0; q < 8; q++) CHECK(memcmp(page.bytes + 11 * q, q == p ? column : zeros, 11) == 0);
                lay(s->window.bytes + 4 * p, 0);
            }
}

/* Where the watch has no process the column is blank, whatever count stands in the frontier. */
static void check_blank(struct subject *s) {
    for (unsigned k = 1; k <= 8; k++) {
        start(s, 1, k, "(true)");
        for (unsigned p = 0; p < 8; p++) lay(s->window.bytes + 4 * p, 4000000000 + p);
        lend_page(ROW);
        CHECK_REPLY(try_page(s), printed(1));
        for (unsigned p = 0; p < 8; p++) {
            char column[] = " 4000000000";
            column[10] = (char)('0' + p);
            CHECK(memcmp(page.bytes + 11 * p, p < k ? column : "           ", 11) == 0);
        }
        CHECK(memcmp(page.bytes + 88, " yes\n", 5) == 0);
    }
}

/* The rule is the last of the lines: bit lines - 1 of the values and no other. */
static void check_rule(struct subject *s) {
    start(s, 1, 3, "(true)");
    memset(s->record.bytes + TABLE, 0, 192);
    lend_page(ROW);
    for (unsigned lines = 1; lines <= 64; lines++)
        for (unsigned bit = 0; bit < 64; bit++) {
            uint8_t *values = s->window.bytes + VALUES;
            s->record.bytes[1] = (uint8_t)lines;
            memset(values, 0, 8);
            values[bit / 8] = (uint8_t)(1u << bit % 8);
            CHECK_REPLY(try_page(s), printed(1));
            CHECK(memcmp(page.bytes + 88, bit == lines - 1 ? " yes\n" : " no \n", 5) == 0);
            for (unsigned i = 0; i < 8; i++) values[i] ^= 255;
            CHECK_REPLY(try_page(s), printed(1));
            CHECK(memcmp(page.bytes + 88, bit == lines - 1 ? " no \n" : " yes\n", 5) == 0);
        }
}

/* Rows go by their places and not by their counts, and what stands behind those that are kept has none. */
static void check_order(struct subject *s) {
    start(s, 3, 1, "(at 0 0)");
    s->record.bytes[4] = 2;
    lay(s->window.bytes, 7), lay(s->window.bytes + FRONTIER, 5), lay(s->window.bytes + 2 * FRONTIER, 6);
    check_rows(s, 2,
        "          7                                                                              no \n"
        "          5                                                                              no \n");
}

/* The longest page: 1,024 rows of eight counts each. */
static void check_longest(struct subject *s) {
    static char text[ROW * WATCH_ROOM + 1];
    start(s, WATCH_ROOM, 8, "(at 0 0)");
    s->record.bytes[4] = 0, s->record.bytes[5] = 4;
    for (unsigned i = 0; i < WATCH_ROOM; i++) {
        for (unsigned p = 0; p < 8; p++) {
            uint32_t count = (i + 1) * (p + 1) * 524287u;
            lay(s->window.bytes + FRONTIER * i + 4 * p, count);
            snprintf(text + ROW * i + 11 * p, 12, "%11lu", (unsigned long)count);
        }
        s->window.bytes[FRONTIER * i + VALUES] = i % 3 == 0;
        snprintf(text + ROW * i + 88, 6, " %s\n", i % 3 == 0 ? "yes" : "no ");
    }
    check_rows(s, WATCH_ROOM, text);
    lend_page(ROW * WATCH_ROOM - 1);
    CHECK_REPLY(try_page(s), refused(44));
}

/* A watch of the old form has a page once it is widened. */
static void check_widened(struct subject *s) {
    struct subject old = subject_new();
    start(&old, 3, 2, OVERLAP);
    offer(&old, 1, 1, 0, 0, 0, 0), try_take(&old);
    start(s, 3, 1, "(true)");
    CHECK_REPLY(watch_widen(old.record.bytes, old.record.length, old.window.bytes, old.window.length, s->record.bytes,
                            s->record.length, s->window.bytes, s->window.length), 0);
    check_rows(s, 2,
        "          0          0                                                                   no \n"
        "          1          0                                                                   no \n");
    CHECK_REPLY(watch32_page(old.record.bytes, old.record.length, old.window.bytes, old.window.length, page.bytes,
                             page.length), refused(6));
    subject_free(&old);
}

/* ---- refusals ---- */

/* Every length below what the rows need, and some above; it need be no multiple of a row. */
static void check_short(struct subject *s) {
    start(s, 9, 2, OVERLAP);
    for (unsigned kept = 1; kept <= 3; kept++) {
        s->record.bytes[4] = (uint8_t)kept;
        for (size_t length = 0; length <= ROW * kept + 100; length++) {
            lend_page(length);
            CHECK_REPLY(try_page(s), length < ROW * kept ? refused(44) : printed(kept));
        }
    }
    lend_page(LONGEST);
    CHECK_REPLY(try_page(s), printed(3));
    CHECK_REPLY(watch32_page(s->record.bytes, s->record.length, s->window.bytes, s->window.length, NULL, 0),
                refused(44));
}

/* 6 of record and window, whatever the record says and whatever page there is. */
static void check_lengths(struct subject *s) {
    static const size_t windows[] = {0, 1, 40, 55, 57, 80, 160, 57343, 57345, 57400}, records[] = {0, 1368, 2023, 2025};
    static const size_t pages[] = {0, 1, ROW - 1, ROW, LONGEST};
    for (unsigned damaged = 0; damaged < 2; damaged++)
        for (size_t n = 0; n < sizeof pages / sizeof pages[0]; n++) {
            lend_page(pages[n]);
            start(s, 4, 2, OVERLAP);
            if (damaged) s->record.bytes[0] = 9;
            for (size_t i = 0; i < sizeof windows / sizeof windows[0]; i++) {
                lend_again(&s->window, windows[i], 0);
                CHECK_REPLY(try_page(s), refused(6));
            }
            lend_room(s, 4);
            for (size_t i = 0; i < sizeof records / sizeof records[0]; i++) {
                lend_again(&s->record, records[i], 0);
                CHECK_REPLY(try_page(s), refused(6));
            }
        }
    CHECK_REPLY(watch32_page(NULL, 0, NULL, 0, NULL, 0), refused(6));
}

/* 34, on a page that is long enough and on one that is not; what 34 lets pass is printed, or 44. */
static void check_damaged(struct subject *s) {
    static const struct { size_t place; uint8_t value; unsigned number; } one[] = {
        {0, 0, 34}, {0, 9, 34}, {0, 1, 34}, {0, 8, 0}, {1, 0, 34}, {1, 65, 34}, {1, 9, 34}, {1, 1, 0}, {2, 33, 34},
        {2, 32, 0}, {3, 255, 0}, {4, 0, 34}, {4, 4, 34}, {4, 3, 0}, {5, 1, 34}, {6, 1, 34}, {7, 1, 34},
        {TABLE + 18, 6, 34}, {TABLE + 18, 5, 0}, {TABLE + 13, 2, 34}, {TABLE + 14, 8, 34}, {TABLE + 19, 6, 34},
    };
    for (size_t i = 0; i < sizeof one / sizeof one[0]; i++)
        for (unsigned row = 0; row < 5; row++) {
            start(s, 3, 2, OVERLAP);
            s->record.bytes[TABLE + 24] = 6; /* a bad line behind the eight of the rule */
            s->record.bytes[one[i].place] = one[i].value;
            unsigned kept = watch_kept(s->record.bytes);
            lend_page(ROW * row);
            CHECK_REPLY(try_page(s), one[i].number != 0 ? refused(34) : row < kept ? refused(44) : printed(kept));
        }
    start(s, 3, 2, OVERLAP); /* more frontiers than the window that is lent has */
    s->record.bytes[4] = 3;
    lend_page(ROW * 3);
    CHECK_REPLY(try_page(s), printed(3));
    lend_room(s, 2);
    CHECK_REPLY(try_page(s), refused(34));
    lend_page(0);
    CHECK_REPLY(try_page(s), refused(34));
}

void test_page(void) {
    struct subject s = subject_wide();
    page = lent_new(LONGEST);
    check_small(&s);
    check_eight(&s);
    check_next_digit(&s);
    check_digits(&s);
    check_blank(&s);
    check_rule(&s);
    check_order(&s);
    check_longest(&s);
    check_widened(&s);
    check_short(&s);
    check_lengths(&s);
    check_damaged(&s);
    lent_free(&page);
    subject_free(&s);
}
