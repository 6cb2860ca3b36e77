/* Rule texts: what open reads, and the first fault of what it does not. */
#include <stdlib.h>
#include <string.h>

#include "subject.h"

static const struct { const char *text; unsigned k, number, place; } faults[] = {
    {"", 2, 1, 0}, {"x", 2, 1, 0}, {" (true)", 2, 1, 0}, {")", 2, 1, 0}, {"(", 2, 1, 1}, {"()", 2, 1, 1}, {"((", 2, 1, 1},
    {"(x", 2, 1, 1}, {"(a", 2, 1, 2}, {"(ax", 2, 1, 2}, {"(at", 2, 1, 3}, {"(ata", 2, 1, 3}, {"(tru)", 2, 1, 4}, {"(trux", 2, 1, 4},
    {"(true", 2, 1, 5}, {"(true )", 2, 1, 5}, {"(true)x", 2, 1, 6}, {"(true) ", 2, 1, 6}, {"(true))", 2, 1, 6}, {"(true)(true)", 2, 1, 6},
    {"(fals", 2, 1, 5}, {"(false )", 2, 1, 6}, {"(not(at 0 0))", 2, 1, 4}, {"(not  (at 0 0))", 2, 1, 5}, {"(not (at 0 0)", 2, 1, 13},
    {"(not (at 0 0) ", 2, 1, 13}, {"(not)", 2, 1, 4}, {"(not x)", 2, 1, 5}, {"(and (true))", 2, 1, 11}, {"(and (true) (true) ", 2, 1, 18},
    {"(or (true)(true))", 2, 1, 10}, {"(at 0 0", 2, 1, 7}, {"(at 0 0 )", 2, 1, 7}, {"(at 00 0)", 2, 1, 5}, {"(at 0 00)", 2, 1, 7},
    {"(at  0 0)", 2, 1, 4}, {"(at a 0)", 2, 1, 4}, {"(at 0 a)", 2, 1, 6}, {"(At 0 0)", 2, 1, 1}, {"(at\t0 0)", 2, 1, 3},
    {"(nat 0 0)", 2, 1, 2}, {"(ey (true) (true))", 2, 1, 10}, {"(at 2 0)", 2, 4, 4}, {"(at 9 x", 2, 4, 4}, {"(at 8 0)", 8, 4, 4},
    {"(at 1 8)", 2, 4, 6}, {"(at 1 9", 2, 4, 6}, {"(at 9 9)", 2, 4, 4}, {"(at 22 0)", 2, 4, 4}, {"(at 1 88)", 2, 4, 6},
    {"(and (at 0 0) (at 1 0))", 1, 4, 18}, {"(es (true) (at 7 0)x", 8, 1, 19}, {"(as (at 0 7) (at 3 7))", 4, 0, 0}, {"(at 7 7)", 8, 0, 0},
    {"(true)", 1, 0, 0}, {"(false)", 1, 0, 0},
};

static void check_faults(struct subject *s) {
    for (size_t i = 0; i < sizeof faults / sizeof faults[0]; i++) {
        uint64_t reply = try_open(s, faults[i].text, faults[i].k, 0);
        CHECK(watch_number(reply) == faults[i].number && watch_place(reply) == faults[i].place);
        if (watch_number(reply) != faults[i].number || watch_place(reply) != faults[i].place)
            printf("    the text %s answers %u at %u\n", faults[i].text, watch_number(reply), (unsigned)watch_place(reply));
    }
}

/* So many words around the middle, and their closing brackets. */
static char *nested(unsigned n, const char *word, const char *middle) {
    size_t step = strlen(word) + 2, length = n * (step + 1) + strlen(middle);
    char *text = malloc(length + 1), *at = text;
    if (text == NULL) abort();
    for (unsigned i = 0; i < n; i++) at += sprintf(at, "(%s ", word);
    at += sprintf(at, "%s", middle);
    memset(at, ')', n);
    at[n] = 0;
    return text;
}

static uint64_t try_nested(struct subject *s, unsigned n, const char *word, unsigned m, const char *inner, const char *middle) {
    char *part = nested(m, inner, middle), *text = nested(n, word, part);
    uint64_t reply = try_open(s, text, 2, 0);
    free(part);
    free(text);
    return reply;
}

static void check_depth(struct subject *s) {
    CHECK_REPLY(try_nested(s, 31, "not", 0, "", "(at 0 0)"), state(1, 1));
    CHECK(watch_lines(s->record.bytes) == 32);
    CHECK_REPLY(try_nested(s, 32, "not", 0, "", "(at 0 0)"), refused_at(2, 32 * 5));
    CHECK_REPLY(try_nested(s, 32, "not", 0, "", "x"), refused_at(1, 32 * 5));
    CHECK_REPLY(try_nested(s, 40, "not", 0, "", "(at 0 0)"), refused_at(2, 32 * 5));
    CHECK_REPLY(try_nested(s, 31, "ep", 0, "", "(at 9 0)"), refused_at(4, 31 * 4 + 4));
    CHECK_REPLY(try_nested(s, 32, "ep", 0, "", "(at 0 0)"), refused_at(2, 32 * 4));
}

/* 3 over 64 lines: at the closing bracket, of closed forms only. */
static void check_lines(struct subject *s) {
    CHECK_REPLY(try_nested(s, 3, "not", 12, "ep", "(at 0 0)"), state(1, 1));
    CHECK(watch_lines(s->record.bytes) == 64);
    CHECK_REPLY(try_nested(s, 4, "not", 12, "ep", "(at 0 0)"), refused_at(3, 4 * 5 + 12 * 4 + 8 + 12 + 3));
    CHECK_REPLY(try_nested(s, 0, "", 17, "ep", "(at 0 0)"), refused_at(3, 17 * 4 + 8 + 12));
    CHECK_REPLY(try_nested(s, 0, "", 17, "ep", "(at 9 0)"), refused_at(4, 17 * 4 + 4));
    CHECK_REPLY(try_nested(s, 0, "", 17, "ep", "(at 0 0)x"), refused_at(1, 17 * 4 + 8));
    CHECK_REPLY(try_nested(s, 0, "", 9, "eh", "(true)"), refused_at(3, 9 * 4 + 6 + 8));
    CHECK_REPLY(try_nested(s, 0, "", 8, "ah", "(true)"), state(1, 1));
    CHECK_REPLY(try_nested(s, 0, "", 21, "ay", "(at 0 0)"), state(1, 1));
    CHECK_REPLY(try_nested(s, 1, "not", 21, "ay", "(at 0 0)"), refused_at(3, 5 + 21 * 4 + 8 + 21));
    CHECK_REPLY(try_nested(s, 0, "", 12, "ap", "(true)"), state(1, 1));
    CHECK_REPLY(try_nested(s, 0, "", 13, "ap", "(true)"), refused_at(3, 13 * 4 + 6 + 12));
}

/* The table that a text gives. */
static void check_table(struct subject *s, const char *text, unsigned lines, const uint8_t *table) {
    uint64_t reply = try_open(s, text, 2, 0);
    CHECK(watch_number(reply) == 0);
    CHECK(watch_lines(s->record.bytes) == lines);
    CHECK(memcmp(s->record.bytes + 152, table, 3 * lines) == 0);
    CHECK(all_zero(s->record.bytes + 152 + 3 * lines, WATCH_RECORD_BYTES - 152 - 3 * lines));
}

#define TABLE(text, ...)                                   \
    do {                                                   \
        static const uint8_t table_[] = {__VA_ARGS__};     \
        check_table(s, text, sizeof table_ / 3, table_);   \
    } while (0)

#define TRUE_LINES 0, 0, 0, 1, 0, 0, 2, 0, 1, 1, 2, 0

static void check_tables(struct subject *s) {
    TABLE("(at 1 5)", 0, 1, 5);
    TABLE("(not (at 1 5))", 0, 1, 5, 1, 0, 0);
    TABLE("(and (at 0 1) (at 1 2))", 0, 0, 1, 0, 1, 2, 2, 0, 1);
    TABLE("(ey (at 0 1))", 0, 0, 1, 3, 0, 0);
    TABLE("(es (at 0 1) (at 1 2))", 0, 0, 1, 0, 1, 2, 4, 0, 1);
    TABLE("(as (at 0 1) (at 1 2))", 0, 0, 1, 0, 1, 2, 5, 0, 1);
    TABLE("(true)", TRUE_LINES);
    TABLE("(false)", TRUE_LINES, 1, 3, 0);
    TABLE("(or (at 0 1) (at 1 2))", 0, 0, 1, 1, 0, 0, 0, 1, 2, 1, 2, 0, 2, 1, 3, 1, 4, 0);
    TABLE("(ep (at 1 1))", TRUE_LINES, 0, 1, 1, 4, 3, 4);
    TABLE("(ap (at 1 1))", TRUE_LINES, 0, 1, 1, 5, 3, 4);
    TABLE("(ay (at 1 1))", 0, 1, 1, 1, 0, 0, 3, 1, 0, 1, 2, 0);
    TABLE("(ah (at 1 1))", TRUE_LINES, 0, 1, 1, 1, 4, 0, 4, 3, 5, 1, 6, 0);
    TABLE("(eh (at 1 1))", TRUE_LINES, 0, 1, 1, 1, 4, 0, 5, 3, 5, 1, 6, 0);
    TABLE("(and (at 0 0) (and (at 0 0) (at 0 0)))", 0, 0, 0, 0, 0, 0, 0, 0, 0, 2, 1, 2, 2, 0, 3);
}

void test_texts(void) {
    struct subject s = subject_new();
    check_faults(&s);
    check_depth(&s);
    check_lines(&s);
    check_tables(&s);
    subject_free(&s);
}
