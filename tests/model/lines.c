/* Faults of a program's line. Each fault that the scope names is looked for by itself; of those found the one with the lowest place
 * answers, at the same place the lower number. */
#include <stdlib.h>
#include <string.h>

#include "program.h"

/* Above every limit, and far from where a word ends. */
static const uint64_t enough = 1000000000000;

enum { K_MOST = 65535, ROOM_MOST = 1024, LABEL_MOST = 255, PROCESS_MOST = 7 };
static const uint64_t count_most = 4294967295; /* request 6 */

/* ---- a line's form, where numbers have any size and lists any length ---- */

struct reader {
    const uint8_t *line;
    size_t length, at;
    struct parts *parts;
};

static bool digit_at(const struct reader *r, size_t place) {
    return place < r->length && r->line[place] >= '0' && r->line[place] <= '9';
}

static bool read_byte(struct reader *r, char byte) {
    if (r->at == r->length || r->line[r->at] != (uint8_t)byte) return false;
    r->at++;
    return true;
}

/* One with a needless 0 does not get to its end, so its value is nothing to judge. */
static bool read_number(struct reader *r) {
    struct parts *parts = r->parts;
    struct number number = {parts->lists - 1, r->at, 0};
    if (!digit_at(r, r->at)) return false;
    if (r->line[r->at] == '0' && digit_at(r, r->at + 1)) {
        r->at++;
        return false;
    }
    for (; digit_at(r, r->at); r->at++)
        if (number.value < enough) number.value = 10 * number.value + (r->line[r->at] - '0');
    if (parts->n == NUMBERS_MOST) abort();
    parts->number[parts->n++] = number;
    parts->list[number.list].numbers++;
    return true;
}

static void begin_list(struct reader *r) {
    r->parts->list[r->parts->lists++] = (struct list){0, false, 0};
}

static bool end_list(struct reader *r) {
    struct list *list = &r->parts->list[r->parts->lists - 1];
    list->closing = r->at;
    list->closed = read_byte(r, ')');
    return list->closed;
}

static bool read_list(struct reader *r) {
    begin_list(r);
    if (!read_byte(r, '(')) return false;
    if (digit_at(r, r->at)) {
        do {
            if (!read_number(r)) return false;
        } while (read_byte(r, ' '));
    }
    return end_list(r);
}

static bool read_start_labels(struct reader *r) {
    begin_list(r);
    while (read_byte(r, ' '))
        if (!read_number(r)) return false;
    return end_list(r);
}

static bool read_two_numbers(struct reader *r) {
    begin_list(r);
    return read_byte(r, ' ') && read_number(r) && read_byte(r, ' ') && read_number(r) && end_list(r);
}

static bool read_three_lists(struct reader *r) {
    for (unsigned i = 0; i < LISTS; i++)
        if (!read_byte(r, ' ') || !read_list(r)) return false;
    return read_byte(r, ')');
}

static void take_apart(const uint8_t *line, size_t length, const char *word, bool (*read_rest)(struct reader *), struct parts *parts) {
    struct reader r = {line, length, 0, parts};
    parts->lists = 0;
    parts->n = 0;
    bool fine = true;
    for (const char *c = word; fine && *c != '\0'; c++) fine = read_byte(&r, *c);
    parts->whole = fine && read_rest(&r) && r.at == length;
    parts->departs = r.at;
}

/* ---- the faults ---- */

static void found(struct fault *lowest, unsigned number, size_t place) {
    bool lower = place < lowest->place || (place == lowest->place && number < lowest->number);
    if (lowest->number == 0 || lower) *lowest = (struct fault){number, place};
}

static struct fault form_and_length(const struct parts *parts, size_t length) {
    struct fault lowest = {0, 0};
    if (!parts->whole) found(&lowest, 1, parts->departs);
    if (length > LINE_MOST) found(&lowest, 10, LINE_MOST);
    return lowest;
}

static void numbers_above(struct fault *lowest, const struct parts *parts, unsigned list, uint64_t limit) {
    for (size_t i = 0; i < parts->n; i++)
        if (parts->number[i].list == list && parts->number[i].value > limit) found(lowest, 10, parts->number[i].place);
}

static void not_ascending(struct fault *lowest, const struct parts *parts) {
    for (size_t i = 1; i < parts->n; i++) {
        const struct number *one = &parts->number[i - 1], *next = &parts->number[i];
        if (one->list == 0 && next->list == 0 && one->value >= next->value) found(lowest, 10, next->place);
    }
}

static void wrong_length(struct fault *lowest, const struct parts *parts, unsigned list, size_t right) {
    if (list < parts->lists && parts->list[list].closed && parts->list[list].numbers != right)
        found(lowest, 10, parts->list[list].closing);
}

struct fault watch_line(const uint8_t *line, size_t length, struct parts *parts) {
    take_apart(line, length, "(watch", read_two_numbers, parts);
    struct fault lowest = form_and_length(parts, length);
    if (parts->n > 0 && parts->number[0].value > K_MOST) found(&lowest, 10, parts->number[0].place);
    if (parts->n > 1 && parts->number[1].value > ROOM_MOST) found(&lowest, 10, parts->number[1].place);
    if (parts->n > 1 && parts->number[1].value == 0) found(&lowest, 10, parts->number[1].place);
    return lowest;
}

struct fault start_line(const uint8_t *line, size_t length, unsigned k, struct parts *parts) {
    take_apart(line, length, "(start", read_start_labels, parts);
    struct fault lowest = form_and_length(parts, length);
    numbers_above(&lowest, parts, 0, LABEL_MOST);
    wrong_length(&lowest, parts, 0, k);
    return lowest;
}

struct fault did_line(const uint8_t *line, size_t length, unsigned k, struct parts *parts) {
    take_apart(line, length, "(did", read_three_lists, parts);
    struct fault lowest = form_and_length(parts, length);
    numbers_above(&lowest, parts, 0, PROCESS_MOST);
    numbers_above(&lowest, parts, 1, count_most);
    numbers_above(&lowest, parts, 2, LABEL_MOST);
    not_ascending(&lowest, parts);
    if (parts->lists > 0 && parts->list[0].closed && parts->list[0].numbers == 0) found(&lowest, 10, parts->list[0].closing);
    wrong_length(&lowest, parts, 1, k);
    wrong_length(&lowest, parts, 2, parts->list[0].numbers);
    return lowest;
}

struct fault rule_line(const uint8_t *line, size_t length, unsigned k) {
    static const char word[] = "(rule ";
    enum { BEFORE = sizeof word - 1 };
    struct rule rule;
    for (size_t i = 0; i < BEFORE; i++)
        if (i == length || line[i] != (uint8_t)word[i]) return (struct fault){1, i};
    if (length > LINE_MOST) return (struct fault){10, LINE_MOST};
    if (length == BEFORE) return (struct fault){1, 0};
    struct fault own = read_rule(line + BEFORE, length - 1 - BEFORE, k, &rule);
    if (own.number != 0) return own;
    return line[length - 1] == ')' ? (struct fault){0, 0} : (struct fault){1, length - 1};
}
