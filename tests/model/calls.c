/* The calls on a watch that is written by these calls only: sections "The calls" and "Turned back", request 1 on an
 * event that is sent again, request 2 on 35, request 4 on what find answers, request 5 on close and 42, and request 6
 * on the two forms and the moves between them. */
#include <stdlib.h>
#include <string.h>

#include "model.h"

uint64_t reply_word(unsigned number, unsigned flag, uint64_t value, uint64_t place) {
    return number + ((uint64_t)flag << 8) + (value << 16) + (place << 32);
}

static uint64_t refused(unsigned number) {
    return reply_word(number, 0, 0, 0);
}

unsigned open_processes(const struct model *m) {
    unsigned all = (1u << m->k) - 1;
    return all & ~(unsigned)m->closed;
}

static uint8_t byte_of(uint64_t word, unsigned p) {
    return (uint8_t)(word >> 8 * p);
}

static unsigned count_of(const struct layout *form, const uint64_t *clock, unsigned p) {
    unsigned in_word = 8 / form->width;
    return (unsigned)(clock[p / in_word] >> 8 * form->width * (p % in_word) & form->most);
}

struct event event_of(const struct layout *form, const struct words *w) {
    struct event e = {.mask = (uint8_t)w->mask};
    for (unsigned p = 0; p < PROCESSES; p++) {
        e.clock[p] = count_of(form, w->clock, p);
        e.labels[p] = byte_of(w->labels, p);
    }
    return e;
}

/* 7, 8, 9. The mask is judged as a whole word. */
unsigned refused_event(const struct layout *form, uint64_t k, const struct words *w) {
    struct event e = event_of(form, w);
    if (w->mask == 0 || w->mask >> k != 0) return 7;
    for (unsigned p = 0; p < PROCESSES; p++)
        if ((involved(&e, p) && e.clock[p] == 0) || (p >= k && e.clock[p] != 0)) return 8;
    for (unsigned p = 0; p < PROCESSES; p++)
        if (!involved(&e, p) && e.labels[p] != 0) return 9;
    return 0;
}

/* Record and window from the model, and the answer to an opened watch or a taken event. Its flag is the rule's truth as a form. */
uint64_t lay_down(const struct model *m, uint8_t *record, uint8_t *window, size_t window_len) {
    struct cuts all = all_cuts(&m->history);
    judge_cuts(&all, &m->history, &m->rule, m->start, &m->first);
    size_t number = kept_number(&all, open_processes(m));
    const struct cut *largest = &all.cut[cut_place(&all, all.top)];
    unsigned truth = largest->forms >> (m->rule.forms - 1) & 1;
    write_record(m, number, record);
    write_window(m, &all, window, window_len);
    free_cuts(&all);
    return reply_word(0, truth, number, 0);
}

uint64_t model_open(struct model *m, const struct layout *form, const uint8_t *rule, size_t rule_len, uint64_t k,
                    uint64_t start_labels, uint8_t *record, size_t record_len, uint8_t *window, size_t window_len) {
    struct rule read;
    if (record_len != form->record || !window_length(form, window_len)) return refused(6);
    if (k < 1 || k > PROCESSES) return refused(5);
    for (unsigned p = (unsigned)k; p < PROCESSES; p++)
        if (byte_of(start_labels, p) != 0) return refused(9);
    struct fault fault = read_rule(rule, rule_len, k, &read);
    if (fault.number != 0) return reply_word(fault.number, 0, 0, fault.place);
    memset(m, 0, sizeof *m);
    m->form = form;
    m->k = (unsigned)k;
    m->rule = read;
    for (unsigned p = 0; p < PROCESSES; p++) m->start[p] = byte_of(start_labels, p);
    return lay_down(m, record, window, window_len);
}

static bool meets(const struct event *e, const struct event *f) {
    for (unsigned p = 0; p < PROCESSES; p++)
        if (involved(e, p) && involved(f, p) && e->clock[p] == f->clock[p]) return true;
    return false;
}

/* 42, 31, again, 32, 33, or 0. */
static uint64_t answered_by_state(const struct model *m, const struct event *e) {
    if ((e->mask & m->closed) != 0) return refused(42);
    for (unsigned p = 0; p < PROCESSES; p++)
        if (involved(e, p) && e->clock[p] <= m->history.taken[p]) return refused(31);
    for (unsigned i = 0; i < m->pending_number; i++)
        if (same_event(e, &m->pending[i])) return AGAIN;
    for (unsigned i = 0; i < m->pending_number; i++)
        if (meets(e, &m->pending[i])) return refused(32);
    return m->pending_number == PENDING ? refused(33) : 0;
}

static int by_key(const void *x, const void *y) {
    const struct event *e = x, *f = y;
    unsigned p = lowest_process(e), q = lowest_process(f);
    if (p != q) return p < q ? -1 : 1;
    return e->clock[p] < f->clock[p] ? -1 : e->clock[p] > f->clock[p];
}

static size_t frontiers(const struct history *h, unsigned open) {
    struct cuts all = all_cuts(h);
    size_t number = kept_number(&all, open);
    free_cuts(&all);
    return number;
}

uint64_t model_offer(struct model *m, const struct words *w, uint8_t *record, size_t record_len) {
    if (record_len != m->form->record) return refused(6);
    unsigned number = refused_event(m->form, m->k, w);
    if (number != 0) return refused(number);
    struct event e = event_of(m->form, w);
    uint64_t answer = answered_by_state(m, &e);
    if (answer != 0) return answer;
    m->pending[m->pending_number++] = e;
    qsort(m->pending, m->pending_number, sizeof e, by_key);
    write_record(m, frontiers(&m->history, open_processes(m)), record);
    return reply_word(0, 0, m->pending_number, 0);
}

static void leave(struct model *m, unsigned place) {
    m->pending_number--;
    for (unsigned i = place; i < m->pending_number; i++) m->pending[i] = m->pending[i + 1];
}

bool true_by_taken(const struct model *m, const struct event *e) {
    struct cuts all = all_cuts(&m->history);
    bool found = true_clock(&all, e, open_processes(m));
    free_cuts(&all);
    return found;
}

size_t kept_after(const struct model *m, const struct event *e) {
    struct history longer = m->history;
    append(&longer, e);
    return frontiers(&longer, open_processes(m));
}

static bool wrong_lengths(const struct model *m, size_t record_len, size_t window_len) {
    return record_len != m->form->record || !window_length(m->form, window_len);
}

/* 34, the only way in which a watch that the calls wrote can meet it. */
static bool too_short(const struct model *m, size_t window_len) {
    return frontiers(&m->history, open_processes(m)) > window_len / m->form->frontier;
}

unsigned take_stops(const struct model *m, const unsigned *places, size_t most, bool *any_ready) {
    *any_ready = false;
    for (unsigned i = 0; i < m->pending_number; i++) {
        const struct event *e = &m->pending[places[i]];
        if (!ready(e, m->history.taken)) continue;
        *any_ready = true;
        if (!true_by_taken(m, e) || kept_after(m, e) <= most) return places[i];
    }
    return PENDING;
}

uint64_t model_take(struct model *m, uint8_t *record, size_t record_len, uint8_t *window, size_t window_len,
                    uint8_t *scratch, size_t scratch_len, size_t most) {
    if (wrong_lengths(m, record_len, window_len) || scratch_len != window_len) return refused(6);
    if (too_short(m, window_len)) return refused(34);
    unsigned places[PENDING];
    bool any_ready;
    size_t room = window_len / m->form->frontier;
    memset(scratch, 0, scratch_len);
    in_turn(m->pending, m->pending_number, places);
    unsigned place = take_stops(m, places, most < room ? most : room, &any_ready);
    if (place == PENDING) return any_ready ? refused(36) : 0;
    struct event e = m->pending[place];
    bool taken = true_by_taken(m, &e);
    leave(m, place);
    if (taken) {
        append(&m->history, &e);
        return lay_down(m, record, window, window_len);
    }
    write_record(m, frontiers(&m->history, open_processes(m)), record);
    return refused(35);
}

/* By its number among the kept cuts, from 0. The cuts stand in the window's order. */
static uint64_t first_kept_with(const struct cuts *judged, unsigned open, uint64_t line) {
    uint64_t place = 0;
    for (size_t i = 0; i < judged->n; i++) {
        const struct cut *s = &judged->cut[i];
        if (!kept(judged, s, open)) continue;
        if (s->lines >> line & 1) return reply_word(0, 1, place, 0);
        place++;
    }
    return 0;
}

uint64_t model_find(const struct model *m, uint64_t line, size_t record_len, size_t window_len) {
    if (wrong_lengths(m, record_len, window_len)) return refused(6);
    struct cuts all = all_cuts(&m->history);
    judge_cuts(&all, &m->history, &m->rule, m->start, &m->first);
    uint64_t answer = line < m->rule.lines ? first_kept_with(&all, open_processes(m), line) : refused(11);
    if (kept_number(&all, open_processes(m)) > window_len / m->form->frontier) answer = refused(34);
    free_cuts(&all);
    return answer;
}

/* The window is laid down anew from all cuts: what a close drops is not worked out from what was kept before. */
uint64_t model_close(struct model *m, uint64_t process, uint8_t *record, size_t record_len, uint8_t *window,
                     size_t window_len) {
    if (wrong_lengths(m, record_len, window_len)) return refused(6);
    if (too_short(m, window_len)) return refused(34);
    if (process >= m->k || m->closed >> process & 1) return refused(41);
    for (unsigned i = 0; i < m->pending_number; i++)
        if (involved(&m->pending[i], (unsigned)process)) return refused(42);
    m->closed |= (uint8_t)(1u << process);
    lay_down(m, record, window, window_len);
    return reply_word(0, 0, frontiers(&m->history, open_processes(m)), 0);
}

/* No count in a record or window that the calls wrote is above the taken one of its process, but for those of pending
 * events; places that are not used are 0. */
static bool above(const struct model *m, unsigned most) {
    for (unsigned p = 0; p < PROCESSES; p++) {
        if (m->history.taken[p] > most) return true;
        for (unsigned i = 0; i < m->pending_number; i++)
            if (m->pending[i].clock[p] > most) return true;
    }
    return false;
}

uint64_t model_move(struct model *m, size_t record_len, size_t window_len, uint8_t *to_record, size_t to_record_len,
                    uint8_t *to_window, size_t to_window_len) {
    const struct layout *to = m->form == &wide_form ? &narrow_form : &wide_form;
    if (wrong_lengths(m, record_len, window_len)) return refused(6);
    if (to_record_len != to->record || !window_length(to, to_window_len)) return refused(6);
    if (window_len / m->form->frontier != to_window_len / to->frontier) return refused(6);
    if (too_short(m, window_len)) return refused(34);
    if (above(m, to->most)) return refused(43);
    m->form = to;
    lay_down(m, to_record, to_window, to_window_len);
    return 0;
}

void begin_late(struct model *m, const unsigned *begin) {
    unsigned row = 0;
    if (m->history.n > 0) abort();
    for (unsigned p = 0; p < m->k; p++) {
        m->history.begin[p] = m->history.taken[p] = begin[p];
        if (begin[p] > row) row = begin[p];
    }
    m->first = judge_row(&m->rule, m->start, row);
}
