/* Events and histories: section "Clocks and cuts" of the scope; when two events are the same: request 1. */
#include <stdlib.h>

#include "model.h"

bool involved(const struct event *e, unsigned p) {
    return e->mask >> p & 1;
}

bool same_event(const struct event *e, const struct event *f) {
    if (e->mask != f->mask) return false;
    for (unsigned p = 0; p < PROCESSES; p++)
        if (e->clock[p] != f->clock[p] || e->labels[p] != f->labels[p]) return false;
    return true;
}

unsigned lowest_process(const struct event *e) {
    unsigned p = 0;
    while (p < PROCESSES && !involved(e, p)) p++;
    return p;
}

void in_turn(const struct event *pending, unsigned n, unsigned *places) {
    unsigned found = 0;
    for (unsigned p = 0; p <= PROCESSES; p++)
        for (unsigned i = 0; i < n; i++)
            if (lowest_process(&pending[i]) == p) places[found++] = i;
}

void append(struct history *h, const struct event *e) {
    if (h->n == HISTORY) abort();
    for (unsigned p = 0; p < PROCESSES; p++)
        if (involved(e, p)) h->places[p][h->taken[p]++ - h->begin[p]] = h->n;
    h->event[h->n++] = *e;
}

const struct event *numbered(const struct history *h, unsigned p, unsigned n) {
    return n > h->begin[p] && n <= h->taken[p] ? &h->event[h->places[p][n - h->begin[p] - 1]] : NULL;
}

bool ready(const struct event *e, const unsigned *counts) {
    for (unsigned p = 0; p < PROCESSES; p++) {
        if (involved(e, p) && e->clock[p] != (uint64_t)counts[p] + 1) return false; /* none comes after the largest */
        if (!involved(e, p) && e->clock[p] > counts[p]) return false;
    }
    return true;
}

bool begins_late(const struct history *h) {
    for (unsigned p = 0; p < PROCESSES; p++)
        if (h->begin[p] > 0) return true;
    return false;
}
