/* What the watches of a run do: any calls of any of them in any order. Shares are mostly small and what is unpromised
 * little, so that the watches are in each other's way. */
#include "pool.h"

static void try_open(struct source *s, struct run *r, unsigned i, bool refused) {
    struct opening o;
    random_opening(s, &o, refused);
    open_sharer(r, s, i, &o, i);
}

/* ---- calls that are refused for what they are lent ---- */

/* A word that is no number with a share: not below 8, of which only some bits are, or of an unused place. */
static uint64_t wrong_number(struct source *s, const struct run *r, unsigned i) {
    static const unsigned widths[] = {3, 8, 16, 32, 63};
    switch (below(s, 4)) {
    case 0: return SHARES + below(s, 3);
    case 1: return chance(s, 50) ? UINT64_MAX - below(s, 3) : ((uint64_t)1 << 32) * between(s, 1, 5);
    case 2: if (r->n < SHARES) return between(s, r->n, SHARES - 1); /* else as below */
    /* fall through */
    default: return i + ((uint64_t)1 << widths[below(s, 5)]);
    }
}

/* One of the lengths is wrong or more. Beside another wrong one, the window may be too short for what is kept. */
static struct lengths choose_wrong(struct source *s, const struct twin *t, bool take, size_t *pool) {
    unsigned wrong = between(s, 1, take ? 15 : 7), kept_frontiers = get_kept(t->record_bytes);
    struct lengths l = {wide_form.record, t->window_length, 0};
    size_t off = below(s, 2), others = wide_form.frontier * between(s, 1, 9);
    *pool = wrong & 1 ? wrong_pool(s) : POOL;
    if (wrong & 2) l.record = wrong_record(s, &wide_form);
    if (wrong & 4) l.window = wrong_window(s, &wide_form, l.window);
    else if (kept_frontiers > 1 && chance(s, 20)) l.window = wide_form.frontier * between(s, 1, kept_frontiers - 1);
    l.scratch = wrong & 8 ? others + off : l.window;
    if (wrong == 8 && l.scratch == l.window) l.scratch++;
    return l;
}

/* Any of open, take and close, with lengths that are wrong, or a number that is, or both. */
static void refused_shared(struct source *s, struct run *r, unsigned i) {
    struct twin *t = &r->sharer[i].twin;
    size_t window = t->window_length, pool = POOL;
    bool lengths = chance(s, 60);
    uint64_t number = lengths && chance(s, 70) ? i : wrong_number(s, r, i);
    unsigned call = below(s, 4);
    struct lengths l = {wide_form.record, window, window};
    if (lengths) l = choose_wrong(s, t, call < 2, &pool);
    twin_lend(t, s, l.record, l.window);
    pool_lend(&r->pool, s, pool);
    if (call < 2) twin_shared_take(t, &r->pool, s, l.scratch, number);
    if (call == 2) twin_shared_close(t, &r->pool, random_process(s, t->model.k), number);
    if (call == 3) {
        struct opening o;
        random_opening(s, &o, chance(s, 50));
        twin_shared_open(t, &r->pool, o.text, o.length, o.k, o.labels, number);
    }
    twin_lend(t, s, wide_form.record, window);
    pool_lend(&r->pool, s, POOL);
}

/* A take or close that is lent a window of a right length, but too short for what is kept. */
static void short_window(struct source *s, struct run *r, unsigned i) {
    struct twin *t = &r->sharer[i].twin;
    size_t window = t->window_length;
    unsigned kept_frontiers = get_kept(t->record_bytes);
    if (kept_frontiers < 2) return;
    twin_lend(t, s, wide_form.record, wide_form.frontier * between(s, 1, kept_frontiers - 1));
    if (chance(s, 70)) twin_shared_take(t, &r->pool, s, t->window_length, i);
    else twin_shared_close(t, &r->pool, random_process(s, t->model.k), i);
    twin_lend(t, s, wide_form.record, window);
}

/* ---- what makes a pool stale ---- */

/* A plain call on a watch that shares, or a shared one with another's number. */
static void make_stale(struct source *s, struct run *r, unsigned i) {
    struct sharer *w = &r->sharer[i];
    struct twin *t = &w->twin;
    uint64_t other = below(s, r->n), process = random_process(s, t->model.k);
    unsigned way = below(s, 8);
    struct opening o;
    if (way >= 6) random_opening(s, &o, chance(s, 20));
    if (other != i && way % 2 == 1) tally_sharing(ANOTHERS_NUMBER);
    switch (way) {
    case 0: case 2: twin_take(t, s, t->window_length); break;
    case 1: case 3: twin_shared_take(t, &r->pool, s, t->window_length, other); break;
    case 4: twin_close(t, process); break;
    case 5: twin_shared_close(t, &r->pool, process, other); break;
    case 6: if (twin_open(t, o.text, o.length, o.k, o.labels) % 256 == 0) sharer_begins(w, &o); break;
    default: open_sharer(r, s, i, &o, other);
    }
}

/* Numbers of any size, shares too: more than 1,024 in all, more kept than there is, as much as two bytes hold. */
static void junk_pool(struct source *s, struct run *r) {
    static const unsigned often[] = {0, 1, 2, 5, 255, 256, 1023, 1024, 1025, 32768, 65534, 65535};
    bool shares = chance(s, 25);
    for (unsigned i = 0; i < 2 * SHARES; i++) {
        unsigned value = chance(s, 50) ? often[below(s, 12)] : below(s, chance(s, 50) ? 30 : 65536);
        if ((i < SHARES && !shares) || chance(s, 60)) continue;
        r->pool.bytes[2 * i] = (uint8_t)value, r->pool.bytes[2 * i + 1] = (uint8_t)(value >> 8);
    }
    pool_lend(&r->pool, s, POOL);
}

/* Back to the shares, with numbers as they are or small ones. */
static void mend_pool(struct source *s, struct run *r) {
    for (unsigned i = 0; i < SHARES; i++) {
        unsigned share = i < r->n ? r->shares[i] : 0, kept_frontiers = i < r->n ? below(s, 12) : 0;
        if (r->sharer[i].open && chance(s, 50)) kept_frontiers = get_kept(r->sharer[i].twin.record_bytes);
        r->pool.bytes[2 * i] = (uint8_t)share, r->pool.bytes[2 * i + 1] = (uint8_t)(share >> 8);
        r->pool.bytes[16 + 2 * i] = (uint8_t)kept_frontiers, r->pool.bytes[17 + 2 * i] = (uint8_t)(kept_frontiers >> 8);
    }
    pool_lend(&r->pool, s, POOL);
}

/* ---- steps ---- */

static void take_step(struct source *s, struct run *r, unsigned i, bool strict) {
    struct sharer *w = &r->sharer[i];
    struct twin *t = &w->twin;
    uint64_t reply = twin_shared_take(t, &r->pool, s, t->window_length, i);
    if (strict && w->pool_full && reply != 0 && reply % 256 == 0) tally_sharing(FITS_LATER);
    w->pool_full = reply == 36 && lent_would_do(t);
    if (reply == 36 && twin_room(t) < ROOM && chance(s, 40)) {
        size_t longer = twin_room(t) + between(s, 1, 30);
        twin_lend(t, s, wide_form.record, wide_form.frontier * (longer < ROOM ? longer : ROOM));
    }
}

static void offer_step(struct source *s, struct run *r, unsigned i, bool strict) {
    struct sharer *w = &r->sharer[i];
    const struct execution *x = &w->execution;
    unsigned k = w->twin.model.k;
    if (x->n > 0 && chance(s, 15)) {
        offer_forgetful(s, &w->twin, x);
        if (chance(s, 60)) take_step(s, r, i, strict);
    } else if (chance(s, 8)) twin_offer(&w->twin, random_sent(s, k, wide_form.most));
    else if (w->next < x->n) twin_offer(&w->twin, x->event[w->next++]);
    else if (x->n > 0) twin_offer(&w->twin, x->event[below(s, x->n)]);
    w->pool_full = false;
}

static void close_step(struct source *s, struct run *r, unsigned i) {
    struct sharer *w = &r->sharer[i];
    uint64_t finished = finished_process(s, &w->twin, &w->execution), any = random_process(s, w->twin.model.k);
    twin_shared_close(&w->twin, &r->pool, chance(s, 50) ? finished : any, i);
    w->pool_full = false;
}

/* Some other watch waits for frontiers, and this one is above its share. */
static bool in_the_way(const struct run *r, unsigned i) {
    const struct sharer *w = &r->sharer[i];
    if (!w->open || get_kept(w->twin.record_bytes) <= r->shares[i]) return false;
    for (unsigned j = 0; j < r->n; j++)
        if (j != i && r->sharer[j].pool_full) return true;
    return false;
}

void run_step(struct run *r, struct source *s, unsigned i, bool strict) {
    struct sharer *w = &r->sharer[i];
    struct twin *t = &w->twin;
    unsigned action = below(s, 100);
    if (!strict && chance(s, 25)) {
        if (chance(s, 40)) junk_pool(s, r);
        else mend_pool(s, r);
    }
    if (!w->open) try_open(s, r, i, chance(s, 15));
    else if (!strict && chance(s, 10)) make_stale(s, r, i);
    else if (in_the_way(r, i) && chance(s, 30)) {
        if (chance(s, 50)) close_step(s, r, i);
        else try_open(s, r, i, false);
    } else if (w->pool_full && chance(s, 60)) take_step(s, r, i, strict);
    else if (action < 38) offer_step(s, r, i, strict);
    else if (action < 76) take_step(s, r, i, strict);
    else if (action < 82) close_step(s, r, i);
    else if (action < 85) twin_find(t, below(s, t->model.rule.lines + 1));
    else if (action < 87 && can_print(t->form)) twin_page(t, s, random_page(s, get_kept(t->record_bytes)));
    else if (action < 90) try_open(s, r, i, chance(s, 60));
    else if (action < 92) short_window(s, r, i);
    else refused_shared(s, r, i);
    if (strict) run_check(r);
}

void try_shares(struct source *s, struct twin *t) {
    static struct run *r;
    uint16_t shares[SHARES];
    if (!can_share()) return;
    if (r == NULL) r = run_new();
    unsigned n = random_shares(s, shares);
    bool strict = WATCHES || chance(s, 50);
    run_begins(r, s, t, shares, n);
    for (unsigned steps = between(s, 10, 40) + 16 * n; steps > 0; steps--) run_step(r, s, below(s, n), strict);
    for (unsigned i = 0; i < SHARES; i++) {
        t->calls += r->sharer[i].twin.calls;
        r->sharer[i].twin.calls = 0;
    }
}
