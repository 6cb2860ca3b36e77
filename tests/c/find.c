/* Request 4: of the kept frontiers that have a line, find names the one that stands first in the window. */
#include <string.h>

#include "subject.h"

/* Three events of process 0 and two of process 1, which know nothing of each other: proposition n - 1 holds after an
 * event numbered n, and no other. Then one of process 1 that knows of two of process 0. */
struct event { unsigned mask, a, b; uint64_t labels; };

static const struct event a1 = {1, 1, 0, 1}, a2 = {1, 2, 0, 2}, a3 = {1, 3, 0, 4};
static const struct event b1 = {2, 0, 1, 0x100}, b2 = {2, 0, 2, 0x200}, b3 = {2, 2, 3, 0x400};

static void send(struct subject *s, const struct event *e) {
    CHECK(watch_accepted(offer(s, e->mask, e->a, e->b, 0, 0, e->labels)));
    while (watch_value(try_take(s)) > 0) continue;
}

/* The last line is the rule. */
static void check_found(struct subject *s, int place) {
    CHECK_REPLY(try_find(s, watch_lines(s->record.bytes) - 1u), found(place));
}

/* A cut is kept if it has all events of some process. Before b3 these are 3 of process 0 or 2 of process 1; after it 3
 * of either, and b3's clock lets 3 of process 1 stand with 2 or 3 of process 0 only. In ascending order of counts,
 * process 0 compared first:
 *     place     0      1      2      3      4      5
 *     before  (0 2)  (1 2)  (2 2)  (3 0)  (3 1)  (3 2)
 *     after   (2 3)  (3 0)  (3 1)  (3 2)  (3 3)
 * (at 0 n) holds where the first count is n + 1, (at 1 n) where the second is. Behind each rule: where it holds before;
 * and after. */
static const struct { const char *rule; int before, after; } rules[] = {
    {"(not (or (at 0 0) (or (at 0 1) (at 0 2))))", 0, NONE}, /* (0 2), the first; dropped */
    {"(and (at 0 2) (at 1 1))", 5, 3},                       /* (3 2), the last; the same */
    {"(and (at 0 2) (at 1 2))", NONE, 4},                    /* none; (3 3), the last */
    {"(at 0 0)", 1, NONE},                                   /* (1 2); dropped */
    {"(at 0 1)", 2, 0},                                      /* (2 2); (2 3) */
    {"(at 0 2)", 3, 1},                                      /* (3 0) and all behind it; the same */
    {"(at 1 0)", 4, 2},                                      /* (3 1); the same */
    {"(at 1 1)", 0, 3},                                      /* (0 2) (1 2) (2 2) (3 2); (3 2) */
    {"(not (at 1 1))", 3, 0},                                /* (3 0) (3 1); all but (3 2) */
    {"(or (at 0 1) (at 1 0))", 2, 0},                        /* (2 2) (3 1); (2 3) (3 1) */
    {"(and (at 0 2) (or (at 1 0) (at 1 1)))", 4, 2},         /* (3 1) (3 2); the same */
    {"(true)", 0, 0},                                        /* all; all */
    {"(not (at 1 7))", 0, 0},                                /* all; all */
    {"(false)", NONE, NONE},                                 /* none; none */
    {"(at 0 7)", NONE, NONE},                                /* none; none */
    {"(and (at 0 0) (at 1 0))", NONE, NONE},                 /* only (1 1) had it, and that was dropped */
    {"(ep (and (at 0 0) (at 1 0)))", 1, 0},                  /* above (1 1): all but (0 2) (3 0); all but (3 0) */
    {"(ey (at 0 1))", 2, 0},                                 /* right behind a cut with two: (2 2) on; all */
    {"(ap (at 0 1))", 2, 0},                                 /* all with two or three: (2 2) on; all */
    {"(ah (not (at 1 0)))", 3, 1},                           /* without process 1: (3 0); the same */
};

/* The events in three orders of arrival, the last one with events that come too early; find in the shortest window and
 * in longer ones. */
static void check_places(struct subject *s) {
    static const struct event *const orders[][5] = {
        {&a1, &a2, &a3, &b1, &b2}, {&b1, &b2, &a1, &a2, &a3}, {&a3, &b2, &a2, &b1, &a1},
    };
    for (size_t i = 0; i < sizeof rules / sizeof rules[0]; i++)
        for (size_t j = 0; j < sizeof orders / sizeof orders[0]; j++) {
            start(s, 6, 2, rules[i].rule);
            for (size_t n = 0; n < 5; n++) send(s, orders[j][n]);
            CHECK(watch_kept(s->record.bytes) == 6);
            check_found(s, rules[i].before);
            lend_room(s, 7);
            check_found(s, rules[i].before);
            send(s, &b3);
            CHECK(watch_kept(s->record.bytes) == 5);
            check_found(s, rules[i].after);
            lend_room(s, WATCH_ROOM);
            check_found(s, rules[i].after);
        }
}

/* Events of process 1 alone: kept are (0 0), (0 1) .. in this order, and the proposition holds from (0 700) on. */
static void check_far(struct subject *s) {
    start(s, 1024, 2, "(at 1 0)");
    for (unsigned n = 1; n < 1024; n++) {
        CHECK_REPLY(offer(s, 2, 0, n, 0, 0, n < 700 ? 0 : 0x100), held(1));
        CHECK_REPLY(try_take(s), state(n >= 700, n + 1));
        if (n == 699 || n == 700 || n == 1023) check_found(s, n < 700 ? NONE : 700);
    }
}

/* ---- bytes that no call leaves ---- */

/* So many frontiers are kept; the line holds at a set of places, and every other line at all; counts fall and do not
 * rise. */
static void lay(struct subject *s, unsigned kept, unsigned line, unsigned set) {
    s->record.bytes[4] = (uint8_t)kept;
    for (unsigned place = 0; place < 6; place++) {
        uint8_t *at = s->window.bytes + 40 * place;
        at[0] = (uint8_t)(9 - place);
        memset(at + 32, 255, 8);
        if (!(set >> place & 1)) at[32 + line / 8] ^= (uint8_t)(1 << line % 8);
    }
}

/* Each of 64 lines at each set of places: the lowest of them, or none if that stands behind the kept ones. One wrong
 * answer is enough. */
static void check_laid(struct subject *s) {
    start(s, 6, 1, "(not (not (not (ep (ep (ep (ep (ep (ep (ep (ep (ep (ep (ep (ep (at 0 0))))))))))))))))");
    CHECK(watch_lines(s->record.bytes) == 64);
    for (unsigned line = 0; line < 64; line++)
        for (unsigned set = 0; set < 64; set++) {
            unsigned lowest = 0;
            while (lowest < 6 && !(set >> lowest & 1)) lowest++;
            for (unsigned kept = 1; kept <= 6; kept++) {
                lay(s, kept, line, set);
                uint64_t reply = try_find(s, line), expected = found(lowest < kept ? (int)lowest : NONE);
                CHECK_REPLY(reply, expected);
                if (reply != expected) return;
            }
        }
}

void test_find(void) {
    struct subject s = subject_new();
    check_places(&s);
    check_far(&s);
    check_laid(&s);
    subject_free(&s);
}
