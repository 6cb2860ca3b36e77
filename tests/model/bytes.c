/* Records and windows of any bytes, as no list of calls may have left them: refusals, "again" and "nothing ready" are
 * exact there too, and so is what an accepted offer writes; whether a window fits, and what take writes when an event
 * leaves, are free, but not the order in which events come to their turn. What an accepted find or close answers would
 * be free as well, and which bytes 35 leaves, but the library promises more: see model.h. */
#include <string.h>

#include "model.h"

uint32_t get_kept(const uint8_t *record) {
    uint32_t kept_frontiers = 0;
    for (unsigned i = 0; i < 4; i++) kept_frontiers += (uint32_t)record[KEPT_AT + i] << 8 * i;
    return kept_frontiers;
}

static unsigned taken_count(const struct layout *form, const uint8_t *record, unsigned p) {
    return get_count(form, record + TAKEN_AT + form->width * p);
}

static bool bad_line(const uint8_t *line, unsigned i, unsigned k) {
    unsigned kind = line[0], a = line[1], b = line[2];
    if (kind > 5) return true;
    if (kind == 0) return a >= k || b > 7;
    if (a >= i) return true;
    return kind == 1 || kind == 3 ? b != 0 : b >= i;
}

/* 34. Offer is lent no window: there the room is 1,024. */
bool bytes_damaged(const struct layout *form, const uint8_t *record, size_t room) {
    unsigned k = record[0], lines = record[1];
    uint32_t kept_frontiers = get_kept(record);
    if (k < 1 || k > PROCESSES || record[2] > PENDING || lines < 1 || lines > LINES) return true;
    if (kept_frontiers < 1 || kept_frontiers > ROOM || kept_frontiers > room) return true;
    for (unsigned i = 0; i < lines; i++)
        if (bad_line(record + form->table_at + 3 * i, i, k)) return true;
    return false;
}

static struct event pending_event(const struct layout *form, const uint8_t *record, unsigned i) {
    const uint8_t *at = record + form->pending_at + form->event * i;
    struct event e = {.mask = at[0]};
    for (unsigned p = 0; p < PROCESSES; p++) {
        e.clock[p] = get_count(form, at + CLOCK_AT + form->width * p);
        e.labels[p] = at[form->event_labels_at + p];
    }
    return e;
}

/* By lowest process and then its count; a mask of 0 has process 8 and count 0. */
static bool key_above(const struct event *e, const struct event *f) {
    unsigned p = lowest_process(e), q = lowest_process(f);
    if (p != q) return p > q;
    return p < PROCESSES && e->clock[p] > f->clock[q];
}

/* 31, again, 32, 33, or 0. What lies between a pending event's mask and its clock belongs to no event. */
static unsigned answered_by_record(const struct layout *form, const struct event *e, const uint8_t *record) {
    for (unsigned p = 0; p < PROCESSES; p++)
        if (involved(e, p) && e->clock[p] <= taken_count(form, record, p)) return 31;
    for (unsigned i = 0; i < record[2]; i++) {
        struct event f = pending_event(form, record, i);
        if (same_event(e, &f)) return AGAIN;
    }
    for (unsigned i = 0; i < record[2]; i++) {
        struct event f = pending_event(form, record, i);
        for (unsigned p = 0; p < PROCESSES; p++)
            if (involved(e, p) && involved(&f, p) && e->clock[p] == f.clock[p]) return 32;
    }
    return record[2] == PENDING ? 33 : 0;
}

/* In front of the first pending event with a larger key; those behind move up as they are. */
static void insert(const struct layout *form, const struct event *e, uint8_t *record) {
    unsigned place = 0;
    struct event f;
    while (place < record[2] && (f = pending_event(form, record, place), !key_above(&f, e))) place++;
    uint8_t *at = record + form->pending_at + form->event * place;
    memmove(at + form->event, at, form->event * (record[2] - place));
    memset(at, 0, form->event);
    at[0] = e->mask;
    for (unsigned p = 0; p < PROCESSES; p++) {
        put_count(form, at + CLOCK_AT + form->width * p, e->clock[p]);
        at[form->event_labels_at + p] = e->labels[p];
    }
    record[2]++;
}

unsigned bytes_offer(const struct layout *form, const struct words *w, uint8_t *record, size_t record_len) {
    if (record_len != form->record) return 6;
    if (bytes_damaged(form, record, ROOM)) return 34;
    struct event e = event_of(form, w);
    unsigned number = refused_event(form, record[0], w);
    if (number == 0 && (e.mask & record[CLOSED_AT]) != 0) number = 42;
    if (number == 0) number = answered_by_record(form, &e, record);
    if (number == 0) insert(form, &e, record);
    return number;
}

static bool wrong_lengths(const struct layout *form, size_t record_len, size_t window_len) {
    return record_len != form->record || !window_length(form, window_len);
}

/* The kept frontiers are the first so many of the window and go by their places, whatever their counts are; a line
 * holds where its bit of the values is set. */
uint64_t bytes_find(const struct layout *form, uint64_t line, const uint8_t *record, size_t record_len,
                    const uint8_t *window, size_t window_len) {
    if (wrong_lengths(form, record_len, window_len)) return reply_word(6, 0, 0, 0);
    if (bytes_damaged(form, record, window_len / form->frontier)) return reply_word(34, 0, 0, 0);
    if (line >= record[1]) return reply_word(11, 0, 0, 0);
    for (uint32_t place = 0; place < get_kept(record); place++) {
        const uint8_t *values = window + form->frontier * place + form->values_at;
        if (values[line / 8] >> line % 8 & 1) return reply_word(0, 1, place, 0);
    }
    return 0;
}

/* The eight counts of a frontier are the clock, lowered by 1 at the involved processes. */
static bool lowered_is(const struct layout *form, const struct event *e, const uint8_t *frontier) {
    for (unsigned p = 0; p < PROCESSES; p++)
        if ((uint64_t)get_count(form, frontier + form->width * p) + involved(e, p) != e->clock[p]) return false;
    return true;
}

/* One of the first so many frontiers, in whatever order they stand; what stands behind them is not kept. */
static bool true_by_window(const struct layout *form, const struct event *e, const uint8_t *window,
                           uint32_t kept_frontiers) {
    for (uint32_t i = 0; i < kept_frontiers; i++)
        if (lowered_is(form, e, window + form->frontier * i)) return true;
    return false;
}

struct possible bytes_take(const struct layout *form, const uint8_t *record, size_t record_len, const uint8_t *window,
                           size_t window_len, size_t scratch_len) {
    struct possible can = {.nothing_ready = true};
    if (wrong_lengths(form, record_len, window_len) || scratch_len != window_len)
        return (struct possible){.refused = 6};
    if (bytes_damaged(form, record, window_len / form->frontier)) return (struct possible){.refused = 34};
    struct event pending[PENDING];
    unsigned counts[PROCESSES], places[PENDING];
    for (unsigned p = 0; p < PROCESSES; p++) counts[p] = taken_count(form, record, p);
    for (unsigned i = 0; i < record[2]; i++) pending[i] = pending_event(form, record, i);
    in_turn(pending, record[2], places);
    for (unsigned i = 0; i < record[2]; i++) {
        const struct event *e = &pending[places[i]];
        if (!ready(e, counts)) continue;
        can.nothing_ready = false;
        if (!true_by_window(form, e, window, get_kept(record))) {
            can.false_clock = true;
            can.false_place = places[i];
            can.no_room = false;
            return can;
        }
        can.taken = can.no_room = true;
        can.may_be_taken |= (uint32_t)1 << places[i];
    }
    return can;
}

void bytes_leave(const struct layout *form, uint8_t *record, unsigned place) {
    uint8_t *at = record + form->pending_at + form->event * place;
    size_t after = form->event * (record[2] - 1u - place);
    memmove(at, at + form->event, after);
    memset(at + after, 0, form->event);
    record[2]--;
}

/* Byte 3 says which processes are closed. Some process of the watch that is not has all its taken events in the
 * frontier; or all eight counts are the taken ones, those of processes that the watch has not too. */
static bool stays(const struct layout *form, const uint8_t *frontier, const uint8_t *record) {
    bool all_taken = true;
    for (unsigned p = 0; p < PROCESSES; p++) {
        bool complete = get_count(form, frontier + form->width * p) == taken_count(form, record, p);
        bool open = p < record[0] && !(record[CLOSED_AT] >> p & 1);
        if (open && complete) return true;
        all_taken = all_taken && complete;
    }
    return all_taken;
}

/* Those that stay move up in their order, and the places that they leave free become 0. How many were kept before
 * decides what is looked at and what is cleared: nothing behind that is touched. */
static uint32_t drop(const struct layout *form, const uint8_t *record, uint8_t *window) {
    uint32_t before = get_kept(record), staying = 0;
    size_t size = form->frontier;
    for (uint32_t i = 0; i < before; i++) {
        const uint8_t *frontier = window + size * i;
        if (stays(form, frontier, record)) memmove(window + size * staying++, frontier, size);
    }
    memset(window + size * staying, 0, size * (before - staying));
    return staying;
}

static bool pending_names(const struct layout *form, const uint8_t *record, unsigned process) {
    for (unsigned i = 0; i < record[2]; i++) {
        struct event e = pending_event(form, record, i);
        if (involved(&e, process)) return true;
    }
    return false;
}

/* On such bytes no frontier need stay. */
uint64_t bytes_close(const struct layout *form, uint64_t process, uint8_t *record, size_t record_len, uint8_t *window,
                     size_t window_len) {
    if (wrong_lengths(form, record_len, window_len)) return reply_word(6, 0, 0, 0);
    if (bytes_damaged(form, record, window_len / form->frontier)) return reply_word(34, 0, 0, 0);
    if (process >= record[0] || record[CLOSED_AT] >> process & 1) return reply_word(41, 0, 0, 0);
    if (pending_names(form, record, (unsigned)process)) return reply_word(42, 0, 0, 0);
    record[CLOSED_AT] |= (uint8_t)(1u << process);
    uint32_t staying = drop(form, record, window);
    for (unsigned i = 0; i < 4; i++) record[KEPT_AT + i] = (uint8_t)(staying >> 8 * i);
    return reply_word(0, 0, staying, 0);
}
