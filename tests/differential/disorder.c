/* Watches whose pending events stand out of order and which are otherwise as calls leave them. Take goes through the
 * ready ones from the lowest process up all the same, at a tie by place, and one of no process comes last. But for the
 * hold such a watch is a written one, so that what fits is known, which event leaves and every byte of the three
 * buffers. The scope leaves some of that free where no list of calls left the bytes; the library promises it of all. */
#include <stdlib.h>
#include <string.h>

#include "twin.h"

/* Counts of a kept frontier. */
static void read_frontier(const struct twin *t, size_t place, unsigned *counts) {
    const uint8_t *at = t->window_bytes + t->form->frontier * place;
    for (unsigned p = 0; p < PROCESSES; p++) counts[p] = get_count(t->form, at + t->form->width * p);
}

/* The open processes that have all their taken events there, and can have a further one. */
static uint8_t complete_at(const struct twin *t, const unsigned *counts) {
    const unsigned *taken = t->model.history.taken;
    uint8_t complete = 0;
    for (unsigned p = 0; p < PROCESSES; p++)
        if (open_processes(&t->model) >> p & 1 && counts[p] == taken[p] && taken[p] < t->form->most)
            complete |= (uint8_t)(1u << p);
    return complete;
}

/* Some of a set of processes, mostly one or two; none if there is none. */
static uint8_t some_of(struct source *s, uint8_t set) {
    uint8_t some = set & (uint8_t)(draw(s) & draw(s));
    unsigned first = below(s, PROCESSES);
    for (unsigned i = 0; some == 0 && i < PROCESSES; i++) some = set & (uint8_t)(1u << (first + i) % PROCESSES);
    return some;
}

/* Ready, of processes that have all their taken events in some kept frontier, and it knows what that has: a true clock.
 * Or it knows another number of one process's events, and that may be false; or it comes too early. False if there are
 * no such processes. */
static bool random_ready(struct source *s, const struct twin *t, struct event *e) {
    const unsigned *taken = t->model.history.taken, *begin = t->model.history.begin;
    unsigned q = below(s, t->model.k), any = begin[q] + below(s, taken[q] - begin[q] + 1);
    *e = (struct event){.mask = 0};
    read_frontier(t, below(s, get_kept(t->record_bytes)), e->clock);
    e->mask = some_of(s, complete_at(t, e->clock));
    if (chance(s, 40) && !involved(e, q)) e->clock[q] = chance(s, 50) && e->clock[q] > 0 ? e->clock[q] - 1 : any;
    for (unsigned p = 0; p < PROCESSES; p++) {
        if (!involved(e, p)) continue;
        e->clock[p]++;
        e->labels[p] = (uint8_t)draw(s);
    }
    if (chance(s, 10) && involved(e, q) && e->clock[q] < t->form->most) e->clock[q]++;
    return e->mask != 0;
}

/* Of no process: only with a false clock, since no paper says what it would be to take such an event. Once false it
 * stays false: no cut that is not kept now is kept later. */
static bool random_of_none(struct source *s, const struct twin *t, struct event *e) {
    struct cuts all = all_cuts(&t->model.history);
    bool found = false;
    for (unsigned tries = 8; tries > 0 && !found; tries--) {
        *e = (struct event){.mask = 0};
        for (unsigned p = 0; p < PROCESSES; p++) e->clock[p] = all.top[p] - below(s, all.top[p] - all.begin[p] + 1);
        found = !true_clock(&all, e, open_processes(&t->model));
    }
    free_cuts(&all);
    return found;
}

static void put_in(struct source *s, struct model *m, struct event e) {
    unsigned place = below(s, m->pending_number + 1);
    for (unsigned i = m->pending_number++; i > place; i--) m->pending[i] = m->pending[i - 1];
    m->pending[place] = e;
}

/* Into any order; or only two of them change places. */
static void mix(struct source *s, struct model *m) {
    bool all = chance(s, 70);
    for (unsigned i = m->pending_number; i > 1; i--) {
        unsigned j = below(s, i);
        struct event e = m->pending[i - 1];
        m->pending[i - 1] = m->pending[j];
        m->pending[j] = e;
        if (!all) return;
    }
}

/* Events that are ready at once, some of them with the same lowest process: at most one of those can be taken. */
static void add_ready(struct source *s, struct twin *t) {
    struct event e;
    for (unsigned n = between(s, 0, 6); n > 0 && t->model.pending_number < PENDING; n--)
        if (random_ready(s, t, &e)) put_in(s, &t->model, e);
    if (t->model.pending_number < PENDING && chance(s, 30) && random_of_none(s, t, &e)) put_in(s, &t->model, e);
}

/* Whether a take that goes by place would stop elsewhere. */
static bool order_decides(const struct twin *t) {
    unsigned turns[PENDING], places[PENDING];
    bool any_ready;
    in_turn(t->model.pending, t->model.pending_number, turns);
    for (unsigned i = 0; i < PENDING; i++) places[i] = i;
    return take_stops(&t->model, turns, twin_room(t), &any_ready) !=
           take_stops(&t->model, places, twin_room(t), &any_ready);
}

/* Takes until nothing is ready; at 36 it ends, or the window gets longer. */
static void take_all(struct source *s, struct twin *t) {
    for (;;) {
        tally_order(t->form, order_decides(t));
        uint64_t reply = twin_take(t, s, t->window_length);
        if (reply == 0 || (reply == 36 && (chance(s, 50) || twin_room(t) == ROOM))) return;
        if (reply == 36) twin_lend(t, s, t->form->record, t->window_length + t->form->frontier);
    }
}

static void note_hold(const struct twin *t) {
    note("the same watch, but in its hold stand\n");
    for (unsigned i = 0; i < t->model.pending_number; i++) {
        struct sent e = pending_sent(t->form, t->record_bytes, i);
        note_sent("  ", &e, "");
    }
}

void disorder_excursion(struct source *s, struct twin *t) {
    if (WATCHES) return;
    static struct twin *other;
    if (other == NULL) {
        other = malloc(sizeof *other);
        if (other == NULL) abort();
        twin_new(other);
    }
    size_t kept_frontiers = get_kept(t->record_bytes), room = kept_frontiers + (chance(s, 30) ? 0 : between(s, 0, 8));
    other->form = t->form;
    other->model = t->model;
    memcpy(other->record_bytes, t->record_bytes, sizeof other->record_bytes);
    memcpy(other->window_bytes, t->window_bytes, sizeof other->window_bytes);
    add_ready(s, other);
    mix(s, &other->model);
    write_record(&other->model, kept_frontiers, other->record_bytes);
    note_hold(other);
    twin_lend(other, s, other->form->record, other->form->frontier * (room < ROOM ? room : ROOM));
    uint64_t calls = other->calls;
    take_all(s, other);
    t->calls += other->calls - calls;
    note("the watch as it was before\n");
}
