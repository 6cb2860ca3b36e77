/* Consistent cuts, what precedes what, and what is dropped: sections "Clocks and cuts" and "The window", and request 5
 * where processes are closed; when a clock is true: request 2. Of a history that begins late the cuts from its first
 * one on: what comes before that is not kept, and nothing after it leads there. */
#include <stdlib.h>
#include <string.h>

#include "model.h"

static bool consistent(const struct history *h, const unsigned *counts) {
    for (unsigned p = 0; p < PROCESSES; p++) {
        const struct event *last = numbered(h, p, counts[p]);
        for (unsigned q = 0; last != NULL && q < PROCESSES; q++)
            if (last->clock[q] > counts[q]) return false;
    }
    return true;
}

/* The next vector up to the top: the last process counts fastest. */
static void count_on(unsigned *counts, const unsigned *begin, const unsigned *top) {
    unsigned p = PROCESSES;
    while (p > 0 && counts[p - 1] == top[p - 1]) p--, counts[p] = begin[p];
    if (p > 0) counts[p - 1]++;
}

struct cuts all_cuts(const struct history *h) {
    struct cuts all = {.n = 1};
    unsigned counts[PROCESSES];
    for (unsigned p = 0; p < PROCESSES; p++) {
        all.begin[p] = counts[p] = h->begin[p];
        all.top[p] = h->taken[p];
        all.n *= all.top[p] - all.begin[p] + 1;
    }
    all.cut = calloc(all.n, sizeof *all.cut);
    if (all.cut == NULL) abort();
    for (size_t i = 0; i < all.n; i++) {
        memcpy(all.cut[i].counts, counts, sizeof counts);
        all.cut[i].consistent = consistent(h, counts);
        count_on(counts, all.begin, all.top);
    }
    return all;
}

size_t cut_place(const struct cuts *all, const unsigned *counts) {
    size_t place = 0;
    for (unsigned p = 0; p < PROCESSES; p++)
        place = place * (all->top[p] - all->begin[p] + 1) + (counts[p] - all->begin[p]);
    return place;
}

bool precedes(const struct cuts *all, const struct event *e, const struct cut *s, size_t *place) {
    unsigned before[PROCESSES];
    for (unsigned p = 0; p < PROCESSES; p++) {
        if (involved(e, p) && s->counts[p] == all->begin[p]) return false;
        before[p] = s->counts[p] - involved(e, p);
    }
    if (!ready(e, before)) return false;
    *place = cut_place(all, before);
    return all->cut[*place].consistent;
}

static bool largest(const struct cuts *all, const struct cut *s) {
    return memcmp(s->counts, all->top, sizeof all->top) == 0;
}

bool kept(const struct cuts *all, const struct cut *s, unsigned open) {
    for (unsigned p = 0; p < PROCESSES; p++)
        if (open >> p & 1 && s->counts[p] == all->top[p]) return s->consistent;
    return largest(all, s);
}

size_t kept_number(const struct cuts *all, unsigned open) {
    size_t number = 0;
    for (size_t i = 0; i < all->n; i++) number += kept(all, &all->cut[i], open);
    return number;
}

/* That the event forgets nothing which its processes knew, and knows nothing by half, is the cut's consistency. */
bool true_clock(const struct cuts *all, const struct event *e, unsigned open) {
    unsigned lowered[PROCESSES];
    for (unsigned p = 0; p < PROCESSES; p++) lowered[p] = e->clock[p] - involved(e, p);
    for (size_t i = 0; i < all->n; i++) {
        const struct cut *s = &all->cut[i];
        if (kept(all, s, open) && memcmp(s->counts, lowered, sizeof lowered) == 0) return true;
    }
    return false;
}

void free_cuts(struct cuts *all) {
    free(all->cut);
    all->cut = NULL;
}
