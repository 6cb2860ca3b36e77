/* See forms.h. */
#include "forms.h"

#include <stdlib.h>

#include "../../include/watch.h"

const struct layout *random_form(struct source *s) {
    return chance(s, 50) && both_forms() ? &wide_form : &narrow_form;
}

const struct layout *other_form(const struct layout *form) {
    return form == &wide_form ? &narrow_form : &wide_form;
}

struct words words_of(const struct layout *form, const struct sent *e) {
    struct words w = {.mask = e->mask, .labels = e->labels};
    const unsigned *c = e->count;
    for (unsigned i = 0; form == &wide_form && i < 4; i++) w.clock[i] = watch32_counts(c[2 * i], c[2 * i + 1]);
    for (unsigned i = 0; form == &narrow_form && i < 2; i++, c += 4)
        w.clock[i] = watch_counts((uint16_t)c[0], (uint16_t)c[1], (uint16_t)c[2], (uint16_t)c[3]);
    return w;
}

struct sent pending_sent(const struct layout *form, const uint8_t *record, unsigned place) {
    const uint8_t *at = record + form->pending_at + form->event * place;
    struct sent e = {.mask = at[0]};
    for (unsigned p = 0; p < PROCESSES; p++) {
        e.count[p] = get_count(form, at + CLOCK_AT + form->width * p);
        e.labels |= (uint64_t)at[form->event_labels_at + p] << 8 * p;
    }
    return e;
}

struct sent listed_sent(const uint8_t *list, size_t place) {
    struct sent e = {.mask = watch32_event_mask(list, place)};
    for (unsigned p = 0; p < PROCESSES; p++) {
        e.count[p] = watch32_event_count(list, place, p);
        e.labels |= (uint64_t)list[wide_form.event * place + wide_form.event_labels_at + p] << 8 * p;
    }
    return e;
}

#ifdef OLD_FORM_ALONE

bool both_forms(void) {
    return false;
}

#define CALL(form, name, arguments) ((form) == &wide_form ? (abort(), 0) : watch_##name arguments)

static uint64_t call_offer_wide(const struct words *w, uint8_t *record, size_t record_len) {
    (void)w, (void)record, (void)record_len;
    abort();
}

uint64_t call_move(const struct layout *form, const uint8_t *record, size_t record_len, const uint8_t *window,
                   size_t window_len, uint8_t *to_record, size_t to_record_len, uint8_t *to_window,
                   size_t to_window_len) {
    (void)form, (void)record, (void)record_len, (void)window, (void)window_len;
    (void)to_record, (void)to_record_len, (void)to_window, (void)to_window_len;
    abort();
}

#else

bool both_forms(void) {
    return true;
}

#define CALL(form, name, arguments) ((form) == &wide_form ? watch32_##name arguments : watch_##name arguments)

static uint64_t call_offer_wide(const struct words *w, uint8_t *record, size_t record_len) {
    return watch32_offer(w->mask, w->clock[0], w->clock[1], w->clock[2], w->clock[3], w->labels, record, record_len);
}

uint64_t call_move(const struct layout *form, const uint8_t *record, size_t record_len, const uint8_t *window,
                   size_t window_len, uint8_t *to_record, size_t to_record_len, uint8_t *to_window,
                   size_t to_window_len) {
    return (form == &wide_form ? watch_narrow : watch_widen)(record, record_len, window, window_len, to_record,
                                                             to_record_len, to_window, to_window_len);
}

#endif

#if defined(OLD_FORM_ALONE) || defined(WITHOUT_PAGE)

bool can_print(const struct layout *form) {
    (void)form;
    return false;
}

uint64_t call_page(const uint8_t *record, size_t record_len, const uint8_t *window, size_t window_len, uint8_t *page,
                   size_t page_len) {
    (void)record, (void)record_len, (void)window, (void)window_len, (void)page, (void)page_len;
    abort();
}

#else

bool can_print(const struct layout *form) {
    return form == &wide_form;
}

uint64_t call_page(const uint8_t *record, size_t record_len, const uint8_t *window, size_t window_len, uint8_t *page,
                   size_t page_len) {
    return watch32_page(record, record_len, window, window_len, page, page_len);
}

#endif

#if defined(OLD_FORM_ALONE) || defined(WITHOUT_BUSIEST)

bool can_generate(void) {
    return false;
}

uint64_t call_busiest(uint64_t k, uint64_t n, uint8_t *events, size_t events_len) {
    (void)k, (void)n, (void)events, (void)events_len;
    abort();
}

#else

bool can_generate(void) {
    return true;
}

uint64_t call_busiest(uint64_t k, uint64_t n, uint8_t *events, size_t events_len) {
    return watch32_busiest(k, n, events, events_len);
}

#endif

#if defined(OLD_FORM_ALONE) || defined(WITHOUT_SHARES)

bool can_share(void) {
    return false;
}

#define SHARED(name, arguments) (abort(), 0)

#else

bool can_share(void) {
    return true;
}

#define SHARED(name, arguments) watch32_##name arguments

#endif

uint64_t call_set_shares(const uint16_t *shares, size_t n, uint8_t *pool, size_t pool_len) {
    (void)shares, (void)n, (void)pool, (void)pool_len;
    return SHARED(set_shares, (shares, n, pool, pool_len));
}

uint64_t call_shared_open(const uint8_t *rule, size_t rule_len, uint64_t k, uint64_t labels, uint8_t *record,
                          size_t record_len, uint8_t *window, size_t window_len, uint8_t *pool, size_t pool_len,
                          uint64_t number) {
    (void)rule, (void)rule_len, (void)k, (void)labels, (void)record, (void)record_len, (void)window, (void)window_len;
    (void)pool, (void)pool_len, (void)number;
    return SHARED(shared_open, (rule, rule_len, k, labels, record, record_len, window, window_len, pool, pool_len,
                                number));
}

uint64_t call_shared_take(uint8_t *record, size_t record_len, uint8_t *window, size_t window_len, uint8_t *scratch,
                          size_t scratch_len, uint8_t *pool, size_t pool_len, uint64_t number) {
    (void)record, (void)record_len, (void)window, (void)window_len, (void)scratch, (void)scratch_len;
    (void)pool, (void)pool_len, (void)number;
    return SHARED(shared_take, (record, record_len, window, window_len, scratch, scratch_len, pool, pool_len, number));
}

uint64_t call_shared_close(uint64_t process, uint8_t *record, size_t record_len, uint8_t *window, size_t window_len,
                           uint8_t *pool, size_t pool_len, uint64_t number) {
    (void)process, (void)record, (void)record_len, (void)window, (void)window_len;
    (void)pool, (void)pool_len, (void)number;
    return SHARED(shared_close, (process, record, record_len, window, window_len, pool, pool_len, number));
}

uint64_t call_open(const struct layout *form, const uint8_t *rule, size_t rule_len, uint64_t k, uint64_t labels,
                   uint8_t *record, size_t record_len, uint8_t *window, size_t window_len) {
    return CALL(form, open, (rule, rule_len, k, labels, record, record_len, window, window_len));
}

uint64_t call_offer(const struct layout *form, const struct sent *e, uint8_t *record, size_t record_len) {
    struct words w = words_of(form, e);
    if (form == &wide_form) return call_offer_wide(&w, record, record_len);
    return watch_offer(w.mask, w.clock[0], w.clock[1], w.labels, record, record_len);
}

uint64_t call_take(const struct layout *form, uint8_t *record, size_t record_len, uint8_t *window, size_t window_len,
                   uint8_t *scratch, size_t scratch_len) {
    return CALL(form, take, (record, record_len, window, window_len, scratch, scratch_len));
}

uint64_t call_find(const struct layout *form, uint64_t line, const uint8_t *record, size_t record_len,
                   const uint8_t *window, size_t window_len) {
    return CALL(form, find, (line, record, record_len, window, window_len));
}

uint64_t call_close(const struct layout *form, uint64_t process, uint8_t *record, size_t record_len, uint8_t *window,
                    size_t window_len) {
    return CALL(form, close, (process, record, record_len, window, window_len));
}
