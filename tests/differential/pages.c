/* Pages of any bytes: refusals, the answer and every byte are exact there. */
#include <stdlib.h>
#include <string.h>

#include "twin.h"

/* The bytes that are printed, and the page with the model's beside it. */
struct printed {
    struct lent record, window, page;
    uint8_t record_before[2 * RECORD_MOST], window_before[WINDOW_MOST], page_expected[PAGE_MOST];
};

size_t random_page(struct source *s, size_t rows) {
    size_t enough = ROW * rows, more = between(s, 1, 2 * ROW), less = between(s, 1, ROW);
    switch (below(s, 10)) {
    case 0: case 1: case 2: return enough;
    case 3: return enough + more;
    case 4: return enough > 0 ? enough - 1 : 0;
    case 5: return enough > less ? enough - less : 0;
    case 6: return 0;
    case 7: return chance(s, 80) && 2 * enough <= PAGE_MOST ? 2 * enough : PAGE_MOST;
    case 8: return below(s, (unsigned)enough + 2);
    default: return enough + 1;
    }
}

/* ---- bytes to be printed ---- */

/* One to ten digits, each as often as the others, and often the least or the largest count that has so many; or 0, or
 * one where its bytes end. */
static unsigned count_of_digits(struct source *s) {
    uint64_t least = 1;
    for (unsigned more = below(s, 10); more > 0; more--) least *= 10;
    uint64_t last = 10 * least - 1 < wide_form.most ? 10 * least - 1 : wide_form.most;
    switch (below(s, 6)) {
    case 0: return (unsigned)least;
    case 1: return (unsigned)last;
    case 2: return brink(s, wide_form.most);
    case 3: return 0;
    default: return (unsigned)(least + draw(s) % (last - least + 1));
    }
}

/* Of all lines, of the last alone, of all but that, of its neighbours alone. */
static uint64_t random_values(struct source *s, unsigned lines) {
    uint64_t rule = (uint64_t)1 << (lines - 1) % LINES;
    switch (below(s, 5)) {
    case 0: return rule;
    case 1: return ~rule;
    case 2: return rule << 1 | rule >> 1;
    default: return draw(s);
    }
}

/* A table that any k has, of any number of lines. */
static void lay_table(struct source *s, uint8_t *record) {
    static const uint8_t often[] = {1, 2, 8, 9, 32, 33, 63, 64};
    record[1] = chance(s, 50) ? often[below(s, 8)] : (uint8_t)between(s, 1, LINES);
    memset(record + wide_form.table_at, 0, 3 * LINES);
}

/* Counts and values in every place, also behind those that are kept and at processes that the watch has not. */
static void lay_rows(struct source *s, const struct laid *d) {
    unsigned kept_frontiers = chance(s, 30) ? d->room : between(s, 1, d->room);
    for (unsigned i = 0; i < 4; i++) d->record[KEPT_AT + i] = (uint8_t)(kept_frontiers >> 8 * i);
    if (chance(s, 60)) lay_table(s, d->record);
    d->record[0] = (uint8_t)between(s, chance(s, 90) && d->record[0] <= PROCESSES ? d->record[0] : 1, PROCESSES);
    for (unsigned place = 0; place < d->room; place++) {
        uint8_t *at = d->window + wide_form.frontier * place;
        uint64_t values = random_values(s, d->record[1]);
        for (unsigned p = 0; p < PROCESSES; p++) put_count(&wide_form, at + wide_form.width * p, count_of_digits(s));
        for (unsigned i = 0; i < 8; i++) at[wide_form.values_at + i] = (uint8_t)(values >> 8 * i);
    }
}

/* ---- pages ---- */

static void lend_copy(struct source *s, struct lent *l, const uint8_t *bytes, size_t length, size_t there) {
    lend(l, length, chance(s, 75) ? 0 : below(s, 8));
    memcpy(l->bytes, bytes, length < there ? length : there);
}

static void lend_page(struct source *s, struct printed *d, size_t length) {
    lend(&d->page, length, chance(s, 75) ? 0 : below(s, 8));
    fill_junk(s, d->page.bytes, length);
    memcpy(d->page_expected, d->page.bytes, length);
}

static void print_and_compare(struct printed *d) {
    memcpy(d->record_before, d->record.bytes, d->record.length);
    memcpy(d->window_before, d->window.bytes, d->window.length);
    note("page of %zu bytes, of any bytes, record %zu window %zu\n", d->page.length, d->record.length,
         d->window.length);
    uint64_t expected = bytes_page(d->record_before, d->record.length, d->window_before, d->window.length,
                                   d->page_expected, d->page.length);
    uint64_t reply = call_page(d->record.bytes, d->record.length, d->window.bytes, d->window.length, d->page.bytes,
                               d->page.length);
    compare_replies(tally(&wide_form, PAGE, reply), expected);
    compare_bytes("record that was printed", d->record.bytes, d->record_before, d->record.length);
    compare_bytes("window that was printed", d->window.bytes, d->window_before, d->window.length);
    compare_bytes("page", d->page.bytes, d->page_expected, d->page.length);
    if (!lent_intact(&d->record) || !lent_intact(&d->window) || !lent_intact(&d->page))
        differs("a byte outside the buffers changed");
}

/* Wrong lengths of record and window come with every kind of bytes, and so do pages that are too short. */
void page_excursion(struct source *s, const struct twin *t) {
    static struct printed *d;
    if (!can_print(t->form)) return;
    if (d == NULL) {
        d = calloc(1, sizeof *d);
        if (d == NULL) abort();
        d->record = lent_new(2 * RECORD_MOST);
        d->window = lent_new(WINDOW_MOST);
        d->page = lent_new(PAGE_MOST);
    }
    size_t room = chance(s, 50) ? twin_room(t) : chance(s, 97) ? between(s, 1, 12) : ROOM;
    size_t record_length = wide_form.record, window_length = wide_form.frontier * room;
    static uint8_t record[RECORD_MOST], window[WINDOW_MOST];
    memset(window, 0, sizeof window);
    memcpy(record, t->record_bytes, sizeof record);
    memcpy(window, t->window_bytes, window_length < t->window_length ? window_length : t->window_length);
    struct laid bytes = {&wide_form, record, window, (unsigned)room};
    if (chance(s, 40)) damage(s, &bytes);
    if (chance(s, 60)) lay_rows(s, &bytes);
    if (chance(s, 8)) record[below(s, 8)] = (uint8_t)draw(s);
    if (chance(s, 4)) record_length = chance(s, 50) ? narrow_form.record : below(s, 2 * RECORD_MOST);
    if (chance(s, 4)) window_length = chance(s, 50) ? narrow_form.frontier * room : below(s, WINDOW_MOST);
    lend_copy(s, &d->record, record, record_length, sizeof record);
    lend_copy(s, &d->window, window, window_length, sizeof window);
    size_t rows = get_kept(record) <= ROOM ? get_kept(record) : room;
    lend_page(s, d, random_page(s, rows));
    print_and_compare(d);
}
