/* Two runs with the same shares, in which one watch makes the same calls and the others make others. It is answered the
 * same and has the same bytes after each of its calls, up to the first take in which some ready event with a true clock
 * would bring its window above its share. */
#include <string.h>

#include "pool.h"

enum { CALLS_MOST = 60 };

/* A call of the one watch, made in both runs. What it draws on the way comes from a source of its own. */
struct own_call {
    enum { OWN_OPEN, OWN_OFFER, OWN_TAKE, OWN_CLOSE, OWN_FIND, OWN_LENGTH, OWN_NUMBER } kind;
    struct sent event;
    uint64_t word; /* a process, a line, a number */
    size_t length; /* of a pool */
    const struct opening *opening;
    struct source source;
};

/* Its events and takes, now and then a call that is refused, seldom an open anew. */
static void random_own(struct source *s, struct own_call *c, const struct opening *o, unsigned *next) {
    const struct execution *x = &o->execution;
    unsigned action = below(s, 100), k = (unsigned)o->k;
    memset(c, 0, sizeof *c);
    c->source = (struct source){draw(s)};
    c->opening = o;
    c->kind = OWN_TAKE;
    if (action < 40) {
        c->kind = OWN_OFFER;
        c->event = *next < x->n ? x->event[(*next)++] : random_sent(s, k, wide_form.most);
        if (chance(s, 10)) c->event = forgetful(s, x, c->event);
    } else if (action >= 82 && action < 88) {
        c->kind = OWN_CLOSE;
        c->word = random_process(s, k);
    } else if (action >= 88 && action < 92) {
        c->kind = OWN_FIND;
        c->word = below(s, 4);
    } else if (action >= 92 && action < 95) {
        c->kind = OWN_LENGTH;
        c->length = wrong_pool(s);
    } else if (action >= 95 && action < 98) {
        c->kind = OWN_NUMBER;
        c->word = SHARES + sized(s) / 2;
    } else if (action >= 98) {
        c->kind = OWN_OPEN;
    }
}

static uint64_t make_own(struct run *r, unsigned i, const struct own_call *c) {
    struct source own = c->source;
    struct twin *t = &r->sharer[i].twin;
    size_t length = t->window_length;
    uint64_t reply;
    switch (c->kind) {
    case OWN_OPEN: return open_sharer(r, &own, i, c->opening, i);
    case OWN_OFFER: return twin_offer(t, c->event);
    case OWN_TAKE: return twin_shared_take(t, &r->pool, &own, length, i);
    case OWN_CLOSE: return twin_shared_close(t, &r->pool, c->word, i);
    case OWN_FIND: return twin_find(t, c->word);
    case OWN_NUMBER: return twin_shared_take(t, &r->pool, &own, length, c->word);
    default:
        pool_lend(&r->pool, &own, c->length);
        reply = twin_shared_take(t, &r->pool, &own, length, i);
        pool_lend(&r->pool, &own, POOL);
        return reply;
    }
}

/* Of the library's bytes: those of the watch, and its own of the pool. */
static void compare_own(const struct run *a, const struct run *b, unsigned i, const struct own_call *c) {
    const struct twin *t = &a->sharer[i].twin, *u = &b->sharer[i].twin;
    const uint8_t *pool = a->pool.lent.bytes, *other = b->pool.lent.bytes;
    if (t->window.length != u->window.length) differs("the two windows have other lengths");
    compare_bytes("record beside other calls", t->record.bytes, u->record.bytes, wide_form.record);
    compare_bytes("window beside other calls", t->window.bytes, u->window.bytes, t->window.length);
    if (c->kind == OWN_TAKE)
        compare_bytes("scratch beside other calls", t->scratch.bytes, u->scratch.bytes, t->scratch.length);
    if (share_of(pool, i) != share_of(other, i) || kept_of(pool, i) != kept_of(other, i))
        differs("its own bytes of the pool are others beside other calls");
}

/* So many calls of any but the one. */
static void others_go_on(struct run *r, struct source *s, unsigned own, unsigned calls) {
    for (unsigned n = calls; n > 0 && r->n > 1; n--) {
        unsigned i = below(s, r->n);
        if (i != own) run_step(r, s, i, true);
    }
}

static bool passes_share(const struct run *r, unsigned i) {
    return would_pass_share(&r->sharer[i].twin.model, r->shares[i]);
}

/* The two runs side by side. Of others that are busy and others that are not one can tell the most. */
static void go(struct source *s, struct run *a, struct run *b, unsigned i, const struct opening *o) {
    struct source first = {draw(s)}, second = {draw(s)};
    unsigned busy_a = below(s, 6), busy_b = chance(s, 60) ? 0 : below(s, 6), next = 0;
    note("the others, first run\n");
    if (chance(s, 80)) others_go_on(a, &first, i, 20 * a->n);
    for (unsigned n = between(s, 10, CALLS_MOST); n > 0; n--) {
        struct own_call c;
        random_own(s, &c, o, &next);
        if (!a->sharer[i].open) c.kind = OWN_OPEN;
        note("the others, first run\n");
        others_go_on(a, &first, i, below(&first, busy_a + 1));
        note("the others, second run\n");
        others_go_on(b, &second, i, below(&second, busy_b + 1));
        note("both runs, watch %u\n", i);
        bool last = c.kind == OWN_TAKE && passes_share(a, i);
        if (c.kind == OWN_TAKE && passes_share(b, i) != last) differs("the models of the one watch differ");
        uint64_t reply = make_own(a, i, &c), other = make_own(b, i, &c);
        if (last && reply != other) tally_sharing(NOT_ALIKE);
        if (last) return;
        compare_replies(reply, other);
        compare_own(a, b, i, &c);
        if (memcmp(a->pool.bytes, b->pool.bytes, POOL) != 0) tally_sharing(ALIKE);
        if (c.kind == OWN_OPEN) next = 0;
    }
}

/* A larger share for the one, so that it comes far within it; what is unpromised stays as it is, if it was little. */
static void raise_share(struct source *s, uint16_t *shares, unsigned n, unsigned own) {
    uint16_t more = (uint16_t)between(s, 4, 40);
    unsigned largest = own;
    for (unsigned i = 0; i < n; i++)
        if (shares[i] > shares[largest]) largest = i;
    if (largest == own) return;
    if (shares[largest] > 2 * more) shares[largest] -= more;
    shares[own] += more;
}

void try_alike(struct source *s, struct twin *t) {
    static struct run *a, *b;
    static struct opening o;
    uint16_t shares[SHARES];
    if (!can_share()) return;
    if (a == NULL) a = run_new(), b = run_new();
    unsigned n = random_shares(s, shares), own = below(s, n);
    random_opening(s, &o, false);
    if (chance(s, 50)) raise_share(s, shares, n, own);
    run_begins(a, s, t, shares, n);
    run_begins(b, s, t, shares, n);
    go(s, a, b, own, &o);
    for (unsigned i = 0; i < SHARES; i++) {
        t->calls += a->sharer[i].twin.calls + b->sharer[i].twin.calls;
        a->sharer[i].twin.calls = b->sharer[i].twin.calls = 0;
    }
}
