/* Request 6: a watch is moved to the wide form and back, every place of it. */
#include <string.h>

#include "subject.h"

#define OVERLAP "(ep (and (at 0 0) (at 1 0)))"

/* A watch in one form, the place for it in the other, and copies of both from before a move. */
struct pair {
    struct subject old, wide;
    uint8_t old_record[WATCH_RECORD_BYTES], wide_record[WATCH32_RECORD_BYTES];
    uint8_t old_window[WATCH_WINDOW_BYTES(WATCH_ROOM)], wide_window[WATCH32_WINDOW_BYTES(WATCH_ROOM)];
};

static struct pair t;

static void junk(struct lent *l) {
    for (size_t i = 0; i < l->length; i++) l->bytes[i] = (uint8_t)(11 * i + 3);
}

static int same(const struct lent *l, const uint8_t *before, size_t most) {
    return memcmp(l->bytes, before, l->length < most ? l->length : most) == 0;
}

static void keep(uint8_t *to, const struct lent *l, size_t most) {
    memcpy(to, l->bytes, l->length < most ? l->length : most);
}

/* The source is never written, and a refused move writes nothing at all. An accepted one answers the word 0. */
static uint64_t move(int widen) {
    struct subject *o = &t.old, *w = &t.wide;
    keep(t.old_record, &o->record, sizeof t.old_record), keep(t.old_window, &o->window, sizeof t.old_window);
    keep(t.wide_record, &w->record, sizeof t.wide_record), keep(t.wide_window, &w->window, sizeof t.wide_window);
    uint64_t reply = widen ? watch_widen(o->record.bytes, o->record.length, o->window.bytes, o->window.length,
                                         w->record.bytes, w->record.length, w->window.bytes, w->window.length)
                           : watch_narrow(w->record.bytes, w->record.length, w->window.bytes, w->window.length,
                                          o->record.bytes, o->record.length, o->window.bytes, o->window.length);
    int old_same = same(&o->record, t.old_record, sizeof t.old_record) &&
                   same(&o->window, t.old_window, sizeof t.old_window);
    int wide_same = same(&w->record, t.wide_record, sizeof t.wide_record) &&
                    same(&w->window, t.wide_window, sizeof t.wide_window);
    CHECK((old_same || (!widen && reply == 0)) && (wide_same || (widen && reply == 0)));
    CHECK(lent_intact(&o->record) && lent_intact(&o->window) && lent_intact(&w->record) && lent_intact(&w->window));
    return reply;
}

static uint64_t widen(void) { return move(1); }
static uint64_t narrow(void) { return move(0); }

/* Room for so many frontiers in both forms; the old one holds a fresh watch, the wide one junk. */
static void fresh(size_t room, unsigned k) {
    start(&t.old, room, k, OVERLAP);
    lend(&t.wide.record, WATCH32_RECORD_BYTES, room % 8);
    lend(&t.wide.window, WATCH32_WINDOW_BYTES(room), (3 * room) % 8);
    lend_junk(&t.wide, WATCH32_WINDOW_BYTES(room));
    junk(&t.wide.record), junk(&t.wide.window);
}

/* Byte by byte: where each byte of the old form stands in the wide one, and that the other bytes there are 0. */
static size_t record_place(size_t i) {
    if (i < 8) return i;
    if (i < 152) return 8 + (i - 8) / 2 * 4 + i % 2;
    if (i < 344) return i + 144;
    size_t event = (i - 344) / 32, byte = (i - 344) % 32, at = 488 + 48 * event;
    return at + (byte < 8 ? byte : byte < 24 ? 8 + (byte - 8) / 2 * 4 + byte % 2 : byte + 16);
}

static size_t window_place(size_t i) {
    size_t at = i / 40 * 56, byte = i % 40;
    return at + (byte < 16 ? byte / 2 * 4 + byte % 2 : byte + 16);
}

/* Every byte of record and window another, with a head and a table that are not refused. */
static void lay_all(void) {
    uint8_t *record = t.old.record.bytes;
    for (size_t i = 0; i < t.old.record.length; i++)
        if (i >= 8 && (i < 152 || i >= 344)) record[i] = (uint8_t)(13 * i + i / 256 + 1);
    for (size_t i = 0; i < t.old.window.length; i++) t.old.window.bytes[i] = (uint8_t)(17 * i + i / 256 + 1);
    memset(record + 152 + 3 * record[1], 0xEE, 192 - 3u * record[1]); /* unused table lines are moved as they are */
    record[2] = 3, record[3] = 0xA5;
}

static void check_places(void) {
    static const size_t rooms[] = {1, 2, 7, 1023, 1024};
    for (size_t r = 0; r < sizeof rooms / sizeof rooms[0]; r++) {
        static uint8_t record[WATCH32_RECORD_BYTES], window[WATCH32_WINDOW_BYTES(1024)];
        fresh(rooms[r], 2);
        lay_all();
        memset(record, 0, sizeof record), memset(window, 0, sizeof window);
        for (size_t i = 0; i < t.old.record.length; i++) record[record_place(i)] = t.old.record.bytes[i];
        for (size_t i = 0; i < t.old.window.length; i++) window[window_place(i)] = t.old.window.bytes[i];
        CHECK_REPLY(widen(), 0);
        CHECK(same(&t.wide.record, record, sizeof record) && same(&t.wide.window, window, sizeof window));
        static uint8_t old_record[WATCH_RECORD_BYTES], old_window[WATCH_WINDOW_BYTES(1024)];
        keep(old_record, &t.old.record, sizeof old_record), keep(old_window, &t.old.window, sizeof old_window);
        junk(&t.old.record), junk(&t.old.window);
        CHECK_REPLY(narrow(), 0);
        CHECK(same(&t.old.record, old_record, sizeof old_record) && same(&t.old.window, old_window, sizeof old_window));
    }
}

/* A watch goes on in the form to which it was moved, as it would have in the other. */
static void check_goes_on(void) {
    struct subject *o = &t.old, *w = &t.wide;
    fresh(4, 2);
    offer(o, 1, 1, 0, 0, 0, 1), try_take(o);
    CHECK_REPLY(offer(o, 2, 0, 1, 0, 0, 0x100), held(1));
    CHECK_REPLY(widen(), 0);
    CHECK_REPLY(offer(w, 2, 0, 1, 0, 0, 0x100), WATCH_AGAIN);
    CHECK_REPLY(try_take(w), state(1, 3));
    CHECK_REPLY(offer(w, 1, 2, 0, 0, 0, 0), held(1));
    CHECK_REPLY(try_take(w), state(1, 4));
    CHECK_REPLY(try_find(w, 6), found(1));
    CHECK_REPLY(narrow(), 0);
    CHECK(watch_taken(o->record.bytes, 0) == 2 && watch_taken(o->record.bytes, 1) == 1);
    CHECK(watch_cut(o->window.bytes, 1, 0) == 1 && watch_cut(o->window.bytes, 1, 1) == 1);
    CHECK_REPLY(try_find(o, 6), found(1));
    CHECK_REPLY(try_close(o, 1), closed(2));
    CHECK_REPLY(widen(), 0);
    CHECK_REPLY(try_close(w, 1), refused(41));
    CHECK_REPLY(offer(w, 1, 70000, 0, 0, 0, 0), held(1)); /* pending, and too large to go back */
    CHECK_REPLY(narrow(), refused(43));
    CHECK(WATCH_TOO_LARGE == 43);
}

/* 43 by each count there is, one at a time: 65,535 is moved and 65,536 is not, wherever it stands. Where it would have
 * gone stands junk, so that a byte written too early shows. */
static void check_one_count(uint8_t *at) {
    memcpy(at, "\xff\xff\0\0", 4);
    CHECK_REPLY(narrow(), 0);
    junk(&t.old.record), junk(&t.old.window);
    memcpy(at, "\0\0\1\0", 4);
    CHECK_REPLY(narrow(), refused(43));
    memcpy(at, "\0\0\0\x80", 4);
    CHECK_REPLY(narrow(), refused(43));
    memset(at, 0, 4);
}

static void check_counts(void) {
    fresh(3, 2);
    CHECK_REPLY(widen(), 0);
    uint8_t *record = t.wide.record.bytes, *window = t.wide.window.bytes;
    for (unsigned i = 0; i < 72; i++) check_one_count(record + 8 + 4 * i);
    for (unsigned place = 0; place < 32; place++)
        for (unsigned p = 0; p < 8; p++) check_one_count(record + 488 + 48 * place + 8 + 4 * p);
    for (unsigned place = 0; place < 3; place++)
        for (unsigned p = 0; p < 8; p++) check_one_count(window + 56 * place + 4 * p);
    CHECK_REPLY(narrow(), 0);
    memset(record + 489, 255, 7), memset(record + 488 + 40, 255, 8); /* what is no count may be anything */
    memset(window + 56 + 32, 255, 24), memset(record + 296 + 24, 255, 192 - 24);
    CHECK_REPLY(narrow(), 0);
    fresh(1024, 2); /* the last place of the longest window */
    CHECK_REPLY(widen(), 0);
    window = t.wide.window.bytes;
    check_one_count(window + 56 * 1023), check_one_count(window + 56 * 1023 + 28), check_one_count(window + 56 * 512);
}

/* Each of four lengths, and rooms that are not the same. */
static void check_lengths(void) {
    static const size_t windows[] = {0, 39, 40, 41, 55, 56, 57, 80, 112, 120, 168, 224, 40960, 57344};
    static const size_t records[] = {0, 1367, 1368, 1369, 2023, 2024, 2025};
    for (size_t i = 0; i < sizeof windows / sizeof windows[0]; i++)
        for (unsigned which = 0; which < 2; which++) {
            fresh(3, 2);
            CHECK_REPLY(widen(), 0);
            lend_again(which ? &t.wide.window : &t.old.window, windows[i], 0);
            unsigned expected = windows[i] == (which ? 168 : 120) ? 0 : 6;
            CHECK_REPLY(widen(), refused(expected));
            CHECK_REPLY(narrow(), refused(expected));
        }
    for (size_t i = 0; i < sizeof records / sizeof records[0]; i++)
        for (unsigned which = 0; which < 2; which++) {
            fresh(3, 2);
            CHECK_REPLY(widen(), 0);
            lend_again(which ? &t.wide.record : &t.old.record, records[i], 0);
            unsigned expected = records[i] == (which ? 2024 : 1368) ? 0 : 6;
            CHECK_REPLY(widen(), refused(expected));
            CHECK_REPLY(narrow(), refused(expected));
        }
    uint8_t *o = t.old.record.bytes, *w = t.wide.record.bytes;
    CHECK_REPLY(watch_widen(NULL, 0, NULL, 0, NULL, 0, NULL, 0), refused(6));
    CHECK_REPLY(watch_narrow(NULL, 0, NULL, 0, NULL, 0, NULL, 0), refused(6));
    CHECK_REPLY(watch_widen(o, 1368, NULL, 0, w, 2024, NULL, 0), refused(6));
    CHECK_REPLY(watch_narrow(w, 2024, NULL, 0, o, 1368, NULL, 0), refused(6));
}

/* 34 of the source, its window too; what stands where it goes to says nothing. 34 comes before 43. */
static void check_damaged(void) {
    static const struct { size_t place; uint8_t value; unsigned number; } one[] = {
        {0, 0, 34}, {0, 9, 34}, {0, 1, 34}, {0, 8, 0}, {1, 0, 34}, {1, 65, 34}, {1, 9, 34}, {1, 1, 0}, {2, 33, 34},
        {2, 32, 0}, {3, 255, 0}, {4, 0, 34}, {4, 4, 34}, {4, 3, 0}, {5, 1, 34}, {6, 1, 34}, {7, 1, 34},
    };
    for (size_t i = 0; i < sizeof one / sizeof one[0]; i++) {
        fresh(3, 2);
        t.old.record.bytes[152 + 24] = 6; /* a bad line behind the eight of the rule */
        CHECK_REPLY(widen(), 0);
        t.wide.record.bytes[one[i].place] = one[i].value;
        CHECK_REPLY(widen(), 0);
        t.wide.record.bytes[one[i].place] = one[i].value;
        CHECK_REPLY(narrow(), refused(one[i].number));
        t.wide.window.bytes[140] = 1; /* a count of the third frontier */
        CHECK_REPLY(narrow(), refused(one[i].number == 34 ? 34 : 0));
        t.wide.window.bytes[114] = 1; /* one above 65,535 */
        CHECK_REPLY(narrow(), refused(one[i].number == 34 ? 34 : 43));
        fresh(3, 2);
        t.old.record.bytes[152 + 24] = 6;
        t.old.record.bytes[one[i].place] = one[i].value;
        CHECK_REPLY(widen(), refused(one[i].number));
    }
    for (unsigned kind = 5; kind <= 6; kind++) { /* the table stands elsewhere in the wide form */
        fresh(1, 2);
        CHECK_REPLY(widen(), 0);
        t.wide.record.bytes[296 + 18] = (uint8_t)kind;
        CHECK_REPLY(narrow(), refused(kind == 6 ? 34 : 0));
        t.old.record.bytes[152 + 18] = (uint8_t)kind;
        CHECK_REPLY(widen(), refused(kind == 6 ? 34 : 0));
    }
}

void test_moves(void) {
    t.old = subject_new();
    t.wide = subject_wide();
    check_places();
    check_goes_on();
    check_counts();
    check_lengths();
    check_damaged();
    subject_free(&t.old);
    subject_free(&t.wide);
}
