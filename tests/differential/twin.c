/* See twin.h. */
#include "twin.h"

#include <stdarg.h>
#include <stdio.h>
#include <stdlib.h>
#include <string.h>

#include "../../include/watch.h"

static struct {
    uint64_t seed, number;
    const char *kind;
    size_t length;
    char calls[1 << 20];
} current;

void case_begins(uint64_t seed, uint64_t number, const char *kind) {
    current.seed = seed;
    current.number = number;
    current.kind = kind;
    current.length = 0;
}

void note(const char *format, ...) {
    va_list arguments;
    size_t left = sizeof current.calls - current.length;
    va_start(arguments, format);
    int written = vsnprintf(current.calls + current.length, left, format, arguments);
    va_end(arguments);
    if (written > 0 && (size_t)written < left) current.length += (size_t)written;
}

void print_case(void) {
    printf("differential: seed %llu, case %llu (%s), calls of this case:\n%.*s", (unsigned long long)current.seed,
           (unsigned long long)current.number, current.kind, (int)current.length, current.calls);
}

void differs(const char *format, ...) {
    va_list arguments;
    print_case();
    printf("differs: ");
    va_start(arguments, format);
    vprintf(format, arguments);
    va_end(arguments);
    printf("\n");
    exit(1);
}

void fill_junk(struct source *s, uint8_t *bytes, size_t length) {
    for (size_t i = 0; i < length; i += 8) {
        uint64_t word = draw(s);
        memcpy(bytes + i, &word, length - i < 8 ? length - i : 8);
    }
}

void compare_bytes(const char *name, const uint8_t *library, const uint8_t *expected, size_t length) {
    if (memcmp(library, expected, length) == 0) return;
    for (size_t i = 0; i < length; i++)
        if (library[i] != expected[i]) differs("byte %zu of the %s is %u, expected %u", i, name, library[i], expected[i]);
}

void compare_replies(uint64_t library, uint64_t expected) {
    if (library != expected)
        differs("the reply is number %u flag %u value %u place %u, expected %u %u %u %u", watch_number(library), watch_flag(library),
                watch_value(library), (unsigned)watch_place(library), watch_number(expected), watch_flag(expected), watch_value(expected),
                (unsigned)watch_place(expected));
}

void twin_new(struct twin *t) {
    memset(t, 0, sizeof *t);
    t->form = &narrow_form;
    t->text = lent_new(TEXT_MOST + 64);
    t->record = lent_new(2 * RECORD_MOST);
    t->window = lent_new(WINDOW_MOST);
    t->scratch = lent_new(WINDOW_MOST);
    t->to_record = lent_new(2 * RECORD_MOST);
    t->to_window = lent_new(WINDOW_MOST);
    t->page = lent_new(PAGE_MOST);
}

void twin_free(struct twin *t) {
    lent_free(&t->text);
    lent_free(&t->record);
    lent_free(&t->window);
    lent_free(&t->scratch);
    lent_free(&t->to_record);
    lent_free(&t->to_window);
    lent_free(&t->page);
}

size_t before_end(struct source *s) {
    return chance(s, 75) ? 0 : below(s, 8);
}

static size_t least(size_t a, size_t b) {
    return a < b ? a : b;
}

void twin_lend(struct twin *t, struct source *s, size_t record_length, size_t window_length) {
    lend(&t->record, record_length, before_end(s));
    memcpy(t->record.bytes, t->record_bytes, least(record_length, t->form->record));
    lend(&t->window, window_length, before_end(s));
    memcpy(t->window.bytes, t->window_bytes, window_length);
    t->window_length = window_length;
}

size_t twin_room(const struct twin *t) {
    return t->window_length / t->form->frontier;
}

void compare_watch(struct twin *t) {
    size_t known = least(t->record.length, t->form->record); /* what a record that is too long has more is 0 */
    compare_bytes("record", t->record.bytes, t->record_bytes, known);
    compare_bytes("window", t->window.bytes, t->window_bytes, t->window.length);
    if (!all_zero(t->record.bytes + known, t->record.length - known)) differs("a byte after the record's changed");
    if (!lent_intact(&t->record)) differs("a byte outside the record changed");
    if (!lent_intact(&t->window)) differs("a byte outside the window changed");
    t->calls++;
}

uint64_t twin_open(struct twin *t, const uint8_t *rule, size_t length, uint64_t k, uint64_t labels) {
    note("open of width %u k %llu labels %llx window %zu rule %.*s\n", t->form->width, (unsigned long long)k,
         (unsigned long long)labels, t->window.length, (int)length, (const char *)rule);
    lend(&t->text, length, 0);
    memcpy(t->text.bytes, rule, length);
    uint64_t reply = call_open(t->form, t->text.bytes, length, k, labels, t->record.bytes, t->record.length,
                               t->window.bytes, t->window.length);
    uint64_t expected = model_open(&t->model, t->form, rule, length, k, labels, t->record_bytes, t->record.length,
                                   t->window_bytes, t->window_length);
    compare_replies(tally(t->form, OPEN, reply), expected);
    compare_watch(t);
    if (!lent_intact(&t->text) || memcmp(t->text.bytes, rule, length) != 0) differs("the rule's text changed");
    return reply;
}

void note_sent(const char *what, const struct sent *e, const char *where) {
    const unsigned *c = e->count;
    note("%s mask %llx clock %u %u %u %u %u %u %u %u labels %llx%s\n", what, (unsigned long long)e->mask, c[0], c[1],
         c[2], c[3], c[4], c[5], c[6], c[7], (unsigned long long)e->labels, where);
}

void note_offer(const struct sent *e, const char *where) {
    note_sent("offer", e, where);
}

uint64_t twin_offer(struct twin *t, struct sent e) {
    struct words w = words_of(t->form, &e);
    note_offer(&e, "");
    uint64_t reply = tally(t->form, OFFER, call_offer(t->form, &e, t->record.bytes, t->record.length));
    compare_replies(reply, model_offer(&t->model, &w, t->record_bytes, t->record.length));
    compare_watch(t);
    return reply;
}

uint64_t twin_take(struct twin *t, struct source *s, size_t scratch_length) {
    note("take window %zu scratch %zu\n", t->window.length, scratch_length);
    lend(&t->scratch, scratch_length, before_end(s));
    fill_junk(s, t->scratch.bytes, scratch_length);
    memcpy(t->scratch_bytes, t->scratch.bytes, scratch_length);
    uint64_t reply = call_take(t->form, t->record.bytes, t->record.length, t->window.bytes, t->window.length,
                               t->scratch.bytes, scratch_length);
    uint64_t expected = model_take(&t->model, t->record_bytes, t->record.length, t->window_bytes, t->window_length, t->scratch_bytes,
                                   scratch_length, ROOM);
    compare_replies(tally(t->form, TAKE, reply), expected);
    compare_watch(t);
    compare_bytes("scratch", t->scratch.bytes, t->scratch_bytes, scratch_length);
    if (!lent_intact(&t->scratch)) differs("a byte outside the scratch changed");
    return reply;
}

uint64_t twin_find(struct twin *t, uint64_t line) {
    note("find line %llu\n", (unsigned long long)line);
    uint64_t reply = call_find(t->form, line, t->record.bytes, t->record.length, t->window.bytes, t->window.length);
    compare_replies(tally(t->form, FIND, reply), model_find(&t->model, line, t->record.length, t->window_length));
    compare_watch(t);
    return reply;
}

uint64_t twin_close(struct twin *t, uint64_t process) {
    note("close process %llu window %zu\n", (unsigned long long)process, t->window.length);
    uint64_t reply = call_close(t->form, process, t->record.bytes, t->record.length, t->window.bytes, t->window.length);
    uint64_t expected = model_close(&t->model, process, t->record_bytes, t->record.length, t->window_bytes,
                                    t->window_length);
    compare_replies(tally(t->form, CLOSE, reply), expected);
    compare_watch(t);
    return reply;
}

/* The model lays the watch down anew in the other form, out of what it knows; the library has only the bytes. */
uint64_t twin_move(struct twin *t, struct source *s, size_t to_record_length, size_t to_window_length) {
    static uint8_t to_record[2 * RECORD_MOST], to_window[WINDOW_MOST];
    const struct layout *form = t->form;
    note("move out of width %u, record %zu window %zu, into record %zu window %zu\n", form->width, t->record.length,
         t->window.length, to_record_length, to_window_length);
    lend(&t->to_record, to_record_length, before_end(s));
    lend(&t->to_window, to_window_length, before_end(s));
    fill_junk(s, t->to_record.bytes, to_record_length);
    fill_junk(s, t->to_window.bytes, to_window_length);
    memcpy(to_record, t->to_record.bytes, to_record_length);
    memcpy(to_window, t->to_window.bytes, to_window_length);
    uint64_t reply = call_move(form, t->record.bytes, t->record.length, t->window.bytes, t->window.length,
                               t->to_record.bytes, to_record_length, t->to_window.bytes, to_window_length);
    uint64_t expected = model_move(&t->model, t->record.length, t->window.length, to_record, to_record_length,
                                   to_window, to_window_length);
    compare_replies(tally(form, MOVE, reply), expected);
    compare_watch(t);
    compare_bytes("record of the other form", t->to_record.bytes, to_record, to_record_length);
    compare_bytes("window of the other form", t->to_window.bytes, to_window, to_window_length);
    if (!lent_intact(&t->to_record) || !lent_intact(&t->to_window)) differs("a byte outside the other buffers changed");
    if (reply != 0) return reply;
    struct lent record = t->record, window = t->window;
    t->form = t->model.form;
    t->record = t->to_record, t->to_record = record;
    t->window = t->to_window, t->to_window = window;
    t->window_length = to_window_length;
    memcpy(t->record_bytes, to_record, to_record_length);
    memcpy(t->window_bytes, to_window, to_window_length);
    memset(t->window_bytes + to_window_length, 0, WINDOW_MOST - to_window_length);
    return reply;
}

/* The model prints the cuts that it knows of; the library has only the bytes. */
uint64_t twin_page(struct twin *t, struct source *s, size_t page_length) {
    static uint8_t page[PAGE_MOST];
    note("page of %zu bytes, window %zu\n", page_length, t->window.length);
    lend(&t->page, page_length, before_end(s));
    fill_junk(s, t->page.bytes, page_length);
    memcpy(page, t->page.bytes, page_length);
    uint64_t reply = call_page(t->record.bytes, t->record.length, t->window.bytes, t->window.length, t->page.bytes,
                               page_length);
    uint64_t expected = model_page(&t->model, t->record.length, t->window_length, page, page_length);
    compare_replies(tally(t->form, PAGE, reply), expected);
    compare_watch(t);
    compare_bytes("page", t->page.bytes, page, page_length);
    if (!lent_intact(&t->page)) differs("a byte outside the page changed");
    return reply;
}

void twin_begin_late(struct twin *t, struct source *s, const unsigned *begin) {
    note("after");
    for (unsigned p = 0; p < t->model.k; p++) note(" %u", begin[p]);
    note(" events\n");
    begin_late(&t->model, begin);
    lay_down(&t->model, t->record_bytes, t->window_bytes, t->window_length);
    twin_lend(t, s, t->form->record, t->window_length);
}

void twin_forward(struct twin *t, struct sent e) {
    struct words w = words_of(t->form, &e);
    struct event event = event_of(t->form, &w);
    lend(&t->scratch, t->window.length, 0);
    call_offer(t->form, &e, t->record.bytes, t->record.length);
    call_take(t->form, t->record.bytes, t->record.length, t->window.bytes, t->window.length, t->scratch.bytes,
              t->window.length);
    append(&t->model.history, &event);
}

void twin_catch_up(struct twin *t) {
    note("%u events were taken\n", t->model.history.n);
    lay_down(&t->model, t->record_bytes, t->window_bytes, t->window_length);
    compare_watch(t);
}
