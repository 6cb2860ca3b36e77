/* Moves of any bytes, there and back. Everything is exact there: refusals, and every byte that is written, in places
 * that are not used too. */
#include <stdlib.h>
#include <string.h>

#include "twin.h"

/* The watch that is moved, where it goes, and where it comes back to; with the model's bytes of the last two. */
struct moved {
    const struct layout *form;
    struct lent record, window, to_record, to_window;
    uint8_t record_before[2 * RECORD_MOST], window_before[WINDOW_MOST];
    uint8_t to_record_expected[2 * RECORD_MOST], to_window_expected[WINDOW_MOST];
};

/* ---- bytes to be moved ---- */

/* The places of counts in a record and in a window: one after the other, with what lies between them left out. */
static uint8_t *count_in_record(const struct laid *d, unsigned place) {
    const struct layout *form = d->form;
    unsigned pending = place - 9 * PROCESSES;
    if (place < 9 * PROCESSES) return d->record + TAKEN_AT + form->width * place;
    uint8_t *event = d->record + form->pending_at + form->event * (pending / PROCESSES);
    return event + CLOCK_AT + form->width * (pending % PROCESSES);
}

static uint8_t *count_in_window(const struct laid *d, unsigned place) {
    return d->window + d->form->frontier * (place / PROCESSES) + d->form->width * (place % PROCESSES);
}

enum { RECORD_COUNTS = PROCESSES * (9 + PENDING) };

/* One of so many, often the first or the last. */
static unsigned some_place(struct source *s, unsigned number) {
    return chance(s, 15) ? 0 : chance(s, 20) ? number - 1 : below(s, number);
}

/* Any count: taken, of a last clock, of a pending place, of a frontier's place, whether these are used or not. */
static uint8_t *some_count(struct source *s, const struct laid *d) {
    unsigned pending = 9 * PROCESSES + PROCESSES * some_place(s, PENDING);
    switch (below(s, 5)) {
    case 0: return count_in_record(d, some_place(s, PROCESSES));
    case 1: return count_in_record(d, PROCESSES + some_place(s, 8 * PROCESSES));
    case 2: return count_in_record(d, pending + below(s, PROCESSES));
    case 3: return count_in_record(d, some_place(s, RECORD_COUNTS));
    default: return count_in_window(d, PROCESSES * some_place(s, d->room) + below(s, PROCESSES));
    }
}

/* Every count of the wide form's bytes that is above 65,535 is made one that is not. */
static void keep_small(const struct laid *d) {
    if (d->form != &wide_form) return;
    for (unsigned i = 0; i < RECORD_COUNTS; i++) memset(count_in_record(d, i) + 2, 0, 2);
    for (unsigned i = 0; i < PROCESSES * d->room; i++) memset(count_in_window(d, i) + 2, 0, 2);
}

/* Junk, but for the head and the table, which stay as they are or are near that. */
static void lay_junk(struct source *s, const struct laid *d) {
    const struct layout *form = d->form;
    fill_junk(s, d->record + TAKEN_AT, form->table_at - TAKEN_AT);
    fill_junk(s, d->record + form->pending_at, form->event * PENDING);
    fill_junk(s, d->window, form->frontier * d->room);
    d->record[2] = (uint8_t)below(s, PENDING + 1);
    d->record[CLOSED_AT] = (uint8_t)draw(s);
    unsigned kept_frontiers = between(s, 1, d->room);
    for (unsigned i = 0; i < 4; i++) d->record[KEPT_AT + i] = (uint8_t)(kept_frontiers >> 8 * i);
    if (chance(s, 50)) fill_junk(s, d->record + form->table_at + 3 * d->record[1], 3 * (LINES - d->record[1]));
}

/* As it stands, damaged, or junk; then mostly small enough to be moved, but for a count or two where that ends. */
static void prepare(struct source *s, const struct laid *d) {
    unsigned choice = below(s, 10);
    if (choice < 5) lay_junk(s, d);
    else if (choice < 9) damage(s, d);
    if (chance(s, 85)) keep_small(d);
    for (unsigned n = chance(s, 40) ? 0 : between(s, 1, 2); n > 0; n--) {
        uint8_t *at = some_count(s, d);
        put_count(d->form, at, chance(s, 60) ? 65534 + below(s, 4) : brink(s, d->form->most));
    }
    if (chance(s, 10)) d->record[below(s, 8)] = (uint8_t)draw(s);
}

/* ---- lengths ---- */

static size_t spoiled_length(struct source *s, size_t right, size_t others, size_t most) {
    size_t lengths[] = {0, right - 1, right + 1, others, below(s, (unsigned)most)}, length = lengths[below(s, 5)];
    return length <= most ? length : 0;
}

/* One of them wrong, or room for another number of frontiers. */
static void spoil_lengths(struct source *s, const struct layout *form, unsigned room, size_t *lengths) {
    unsigned wrong = below(s, 6), others = between(s, 1, chance(s, 50) || room == ROOM ? ROOM : room + 1);
    switch (wrong) {
    case 0: case 2: lengths[wrong] = spoiled_length(s, lengths[wrong], lengths[2 - wrong], 2 * RECORD_MOST); break;
    case 1: case 3: lengths[wrong] = spoiled_length(s, lengths[wrong], lengths[4 - wrong], WINDOW_MOST); break;
    case 4: lengths[1] = form->frontier * others; break;
    default: lengths[3] = other_form(form)->frontier * others;
    }
}

/* ---- moves ---- */

static void lend_copy(struct source *s, struct lent *l, const uint8_t *bytes, size_t length, size_t there) {
    lend(l, length, chance(s, 75) ? 0 : below(s, 8));
    memcpy(l->bytes, bytes, length < there ? length : there);
}

static void lend_junk(struct source *s, struct lent *l, size_t length, uint8_t *expected) {
    lend(l, length, chance(s, 75) ? 0 : below(s, 8));
    fill_junk(s, l->bytes, length);
    memcpy(expected, l->bytes, length);
}

/* Out of record and window into to_record and to_window, all of which are lent; all four are compared. */
static uint64_t move_and_compare(struct moved *m) {
    memcpy(m->record_before, m->record.bytes, m->record.length);
    memcpy(m->window_before, m->window.bytes, m->window.length);
    note("move bytes out of width %u, record %zu window %zu, into record %zu window %zu\n", m->form->width,
         m->record.length, m->window.length, m->to_record.length, m->to_window.length);
    uint64_t expected = bytes_move(m->form, m->record_before, m->record.length, m->window_before, m->window.length,
                                   m->to_record_expected, m->to_record.length, m->to_window_expected,
                                   m->to_window.length);
    uint64_t reply = call_move(m->form, m->record.bytes, m->record.length, m->window.bytes, m->window.length,
                               m->to_record.bytes, m->to_record.length, m->to_window.bytes, m->to_window.length);
    compare_replies(tally(m->form, MOVE, reply), expected);
    compare_bytes("record that was moved", m->record.bytes, m->record_before, m->record.length);
    compare_bytes("window that was moved", m->window.bytes, m->window_before, m->window.length);
    compare_bytes("record of the other form", m->to_record.bytes, m->to_record_expected, m->to_record.length);
    compare_bytes("window of the other form", m->to_window.bytes, m->to_window_expected, m->to_window.length);
    if (!lent_intact(&m->record) || !lent_intact(&m->window) || !lent_intact(&m->to_record) ||
        !lent_intact(&m->to_window))
        differs("a byte outside the buffers changed");
    return reply;
}

/* What was moved goes back into buffers of junk; then the bytes are the old ones, every one of them. */
static void move_back(struct source *s, struct moved *m) {
    static uint8_t record[RECORD_MOST], window[WINDOW_MOST];
    size_t record_length = m->record.length, window_length = m->window.length;
    memcpy(record, m->record.bytes, record_length);
    memcpy(window, m->window.bytes, window_length);
    struct lent from_record = m->to_record, from_window = m->to_window;
    m->to_record = m->record, m->to_window = m->window;
    m->record = from_record, m->window = from_window;
    m->form = other_form(m->form);
    lend_junk(s, &m->to_record, record_length, m->to_record_expected);
    lend_junk(s, &m->to_window, window_length, m->to_window_expected);
    if (move_and_compare(m) != 0) differs("what was moved cannot be moved back");
    compare_bytes("record, there and back", m->to_record.bytes, record, record_length);
    compare_bytes("window, there and back", m->to_window.bytes, window, window_length);
}

void move_excursion(struct source *s, const struct twin *t, bool damaged) {
    static struct moved *m;
    if (!both_forms()) return;
    if (m == NULL) {
        m = calloc(1, sizeof *m);
        if (m == NULL) abort();
        m->record = lent_new(2 * RECORD_MOST);
        m->window = lent_new(WINDOW_MOST);
        m->to_record = lent_new(2 * RECORD_MOST);
        m->to_window = lent_new(WINDOW_MOST);
    }
    const struct layout *form = m->form = t->form, *to = other_form(form);
    size_t room = damaged && chance(s, 40) ? between(s, 1, 12) : t->window.length / form->frontier;
    size_t lengths[4] = {form->record, form->frontier * room, to->record, to->frontier * room};
    static uint8_t record[RECORD_MOST], window[WINDOW_MOST];
    memset(window, 0, sizeof window);
    memcpy(record, t->record.bytes, form->record);
    memcpy(window, t->window.bytes, lengths[1] < t->window.length ? lengths[1] : t->window.length);
    struct laid bytes = {form, record, window, (unsigned)room};
    if (damaged) prepare(s, &bytes);
    if (damaged && chance(s, 15)) spoil_lengths(s, form, (unsigned)room, lengths);
    lend_copy(s, &m->record, record, lengths[0], form->record);
    lend_copy(s, &m->window, window, lengths[1], WINDOW_MOST);
    lend_junk(s, &m->to_record, lengths[2], m->to_record_expected);
    lend_junk(s, &m->to_window, lengths[3], m->to_window_expected);
    if (move_and_compare(m) == 0) move_back(s, m);
}
