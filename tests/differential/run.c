/* A run of up to eight watches on one pool: its shares, how its watches are opened, and what holds after each call. */
#include <stdlib.h>
#include <string.h>

#include "pool.h"

/* ---- shares ---- */

/* Small ones, and mostly one that promises the rest but for a few frontiers. */
unsigned random_shares(struct source *s, uint16_t *shares) {
    unsigned n = chance(s, 60) ? between(s, 2, 4) : between(s, 1, SHARES), most = chance(s, 70) ? 6 : 40;
    unsigned sum = 0, rest = 0;
    for (unsigned i = 0; i < n; i++) shares[i] = (uint16_t)between(s, 1, most), sum += shares[i];
    switch (below(s, 6)) {
    case 0: rest = 0; break;
    case 1: rest = 1; break;
    case 2: case 3: rest = between(s, 2, 12); break;
    case 4: rest = between(s, 10, 60); break;
    default: return n;
    }
    shares[below(s, n)] += (uint16_t)(ROOM - rest - sum);
    return n;
}

struct run *run_new(void) {
    struct run *r = calloc(1, sizeof *r);
    if (r == NULL) abort();
    for (unsigned i = 0; i < SHARES; i++) twin_new(&r->sharer[i].twin);
    return r;
}

void run_begins(struct run *r, struct source *s, struct twin *t, const uint16_t *shares, unsigned n) {
    for (unsigned i = 0; i < SHARES; i++) {
        struct sharer *w = &r->sharer[i];
        w->twin.form = &wide_form;
        w->open = w->pool_full = false;
        fill_junk(s, w->twin.record_bytes, wide_form.record); /* not opened yet */
    }
    r->n = n;
    memcpy(r->shares, shares, n * sizeof *shares);
    fill_junk(s, r->pool.bytes, POOL_MOST);
    pool_lend(&r->pool, s, POOL);
    if (pool_set(&r->pool, s, t, shares, n) != 0) differs("the shares are refused");
}

/* ---- what holds after each call of a run ---- */

void run_check(const struct run *r) {
    const uint8_t *pool = r->pool.lent.bytes;
    unsigned sum = 0;
    for (unsigned i = 0; i < r->n; i++) {
        const struct sharer *w = &r->sharer[i];
        unsigned kept_frontiers = w->open ? get_kept(w->twin.record.bytes) : 0;
        if (kept_of(pool, i) != kept_frontiers) differs("the pool says %u of watch %u, and its record %u",
                                                       kept_of(pool, i), i, kept_frontiers);
        sum += kept_frontiers > r->shares[i] ? kept_frontiers : r->shares[i];
    }
    if (sum > ROOM) differs("kept and promised are %u frontiers", sum);
}

/* ---- opens ---- */

/* With a window that is mostly longer than what the pool gives. */
void random_opening(struct source *s, struct opening *o, bool refused) {
    struct shape shape = {.k = chance(s, 85) ? between(s, 2, 5) : between(s, 1, 8), .most = 250};
    shape.n = between(s, 4, 16);
    shape.joint = chance(s, 70) ? 5 : 40;
    shape.messages = random_messages(s);
    if (chance(s, 30)) shape.ending = between(s, 10, 40);
    o->k = shape.k;
    o->labels = random_labels(s, (1u << shape.k) - 1);
    o->length = random_rule(s, shape.k, between(s, 1, 20), o->text);
    o->room = chance(s, 20) ? between(s, 1, 12) : chance(s, 95) ? between(s, 12, 80) : ROOM;
    o->execution = random_execution(s, shape);
    if (chance(s, 40)) shuffle(s, o->execution.event, o->execution.n, chance(s, 30));
    if (!refused) return;
    unsigned way = below(s, 4);
    if (way == 1 && shape.k == PROCESSES) way = 0;
    if (way == 0) o->k = chance(s, 50) ? 0 : random_process(s, PROCESSES) + 9;
    else if (way == 1) o->labels |= (uint64_t)1 << (8 * o->k + below(s, 64 - 8 * (unsigned)o->k));
    else o->length = spoiled_rule(s, shape.k, o->text);
}

void sharer_begins(struct sharer *w, const struct opening *o) {
    struct twin *t = &w->twin;
    memset(t->window_bytes + t->window_length, 0, WINDOW_MOST - t->window_length);
    w->open = true;
    w->next = 0;
    w->pool_full = false;
    w->execution = o->execution;
}

/* An accepted one begins anew: in a window of junk, or in the one that it has. */
uint64_t open_sharer(struct run *r, struct source *s, unsigned i, const struct opening *o, uint64_t number) {
    struct sharer *w = &r->sharer[i];
    struct twin *t = &w->twin;
    if (!w->open) {
        fill_junk(s, t->window_bytes, wide_form.frontier * o->room);
        twin_lend(t, s, wide_form.record, wide_form.frontier * o->room);
    }
    uint64_t reply = twin_shared_open(t, &r->pool, o->text, o->length, o->k, o->labels, number);
    if (reply % 256 == 0) sharer_begins(w, o);
    return reply;
}
