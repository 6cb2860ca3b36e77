/* The shared calls on a twin: see pool.h. */
#include "pool.h"

#include <stdlib.h>
#include <string.h>

void pool_lend(struct pool *p, struct source *s, size_t length) {
    if (p->lent.slab == NULL) p->lent = lent_new(POOL_MOST);
    lend(&p->lent, length, before_end(s));
    memcpy(p->lent.bytes, p->bytes, length);
}

/* Nothing, a byte off either way, half, twice, or what another number of watches would need. */
size_t wrong_pool(struct source *s) {
    static const size_t lengths[] = {0, 31, 33, 16, 64, 1, 28, 36};
    return lengths[below(s, 8)];
}

static void note_pool(const struct pool *p, uint64_t number) {
    note("  number %llu, pool %zu", (unsigned long long)number, p->lent.length);
    for (unsigned i = 0; p->lent.length == POOL && i < SHARES; i++)
        note("%s %u of %u", i == 0 ? ":" : ",", kept_of(p->bytes, i), share_of(p->bytes, i));
    note("\n");
}

static void compare_pool(const struct pool *p) {
    compare_bytes("pool", p->lent.bytes, p->bytes, p->lent.length);
    if (!lent_intact(&p->lent)) differs("a byte outside the pool changed");
}

/* ---- setting ---- */

uint64_t pool_set(struct pool *p, struct source *s, struct twin *t, const uint16_t *shares, size_t n) {
    static struct lent list;
    size_t length = n * sizeof *shares;
    if (list.slab == NULL) list = lent_new(1 << 16);
    lend(&list, length, chance(s, 75) ? 0 : 2 * below(s, 4));
    memcpy(list.bytes, shares, length);
    note("set %zu shares", n);
    for (size_t i = 0; i < n && i < 20; i++) note(" %u", shares[i]);
    note(", pool %zu\n", p->lent.length);
    bool none = n == 0 && chance(s, 50);
    uint64_t reply = call_set_shares(none ? NULL : (const uint16_t *)(const void *)list.bytes, n, p->lent.bytes,
                                     p->lent.length);
    compare_replies(tally(&wide_form, SET, reply), model_set_shares(shares, n, p->bytes, p->lent.length));
    compare_pool(p);
    if (!lent_intact(&list) || memcmp(list.bytes, shares, length) != 0) differs("the list of shares changed");
    t->calls++;
    return reply;
}

/* ---- what a call was ---- */

/* A number with a share, in a pool of the right length, and not what the record says. */
static bool stale(const struct twin *t, const struct pool *p, uint64_t number) {
    if (p->lent.length != POOL || no_share(p->bytes, number)) return false;
    return kept_of(p->bytes, (unsigned)number) != get_kept(t->record_bytes);
}

static void tally_number(const struct pool *p, uint64_t number, uint64_t reply) {
    if (reply != 34 || p->lent.length != POOL) return;
    if (number >= SHARES) tally_sharing(NUMBER_BEYOND);
    else if (no_share(p->bytes, number)) tally_sharing(NUMBER_UNUSED);
}

/* By what others keep, and not by their shares where those are more. */
static bool allowed_by_use(const struct pool *p, unsigned number, size_t frontiers) {
    for (unsigned i = 0; i < SHARES; i++)
        if (i != number) frontiers += kept_of(p->bytes, i);
    return frontiers <= ROOM;
}

/* Some ready event would leave so few frontiers that this holds. */
static bool some_ready(const struct twin *t, const struct pool *p, unsigned number,
                       bool (*holds)(const struct pool *, unsigned, size_t)) {
    const struct model *m = &t->model;
    for (unsigned i = 0; i < m->pending_number; i++)
        if (ready(&m->pending[i], m->history.taken)) {
            size_t after = kept_after(m, &m->pending[i]);
            if (after <= twin_room(t) && holds(p, number, after)) return true;
        }
    return false;
}

static bool anything(const struct pool *p, unsigned number, size_t frontiers) {
    (void)p, (void)number, (void)frontiers;
    return true;
}

bool lent_would_do(const struct twin *t) {
    return some_ready(t, NULL, 0, anything);
}

/* Of a take with a right pool and number, after it: record and pool are the model's. */
static void tally_take(const struct twin *t, const struct pool *p, unsigned number, uint64_t reply, bool was_stale) {
    size_t kept_frontiers = get_kept(t->record_bytes), share = share_of(p->bytes, number);
    if (reply == 36) {
        if (lent_would_do(t)) tally_sharing(POOL_FULL);
        if (some_ready(t, p, number, allowed_by_use)) tally_sharing(IDLE_SHARE);
        if (!lent_would_do(t) && pool_allows(p->bytes, number, twin_room(t) + 1)) tally_sharing(LENT_SHORT);
    }
    if (reply == 36 && was_stale) tally_sharing(STALE_36);
    if (reply == 35 && was_stale) tally_sharing(STALE_35);
    if (reply == 0 && was_stale) tally_sharing(STALE_NOTHING);
    if (reply == 0 || reply % 256 != 0) return;
    if (kept_frontiers > share) tally_sharing(ABOVE_SHARE);
    if (kept_frontiers > share && !pool_allows(p->bytes, number, kept_frontiers + 1)) tally_sharing(LAST_UNPROMISED);
    if (kept_frontiers <= share && !pool_allows(p->bytes, number, share + 1)) tally_sharing(WITHIN_SHARE);
}

/* ---- the calls ---- */

uint64_t twin_shared_open(struct twin *t, struct pool *p, const uint8_t *rule, size_t length, uint64_t k,
                          uint64_t labels, uint64_t number) {
    note("shared open k %llu labels %llx record %zu window %zu rule %.*s\n", (unsigned long long)k,
         (unsigned long long)labels, t->record.length, t->window.length, (int)length, (const char *)rule);
    note_pool(p, number);
    bool was_stale = stale(t, p, number);
    lend(&t->text, length, 0);
    memcpy(t->text.bytes, rule, length);
    uint64_t reply = call_shared_open(t->text.bytes, length, k, labels, t->record.bytes, t->record.length,
                                      t->window.bytes, t->window.length, p->lent.bytes, p->lent.length, number);
    uint64_t expected = model_shared_open(&t->model, rule, length, k, labels, t->record_bytes, t->record.length,
                                          t->window_bytes, t->window_length, p->bytes, p->lent.length, number);
    compare_replies(tally(&wide_form, SHARED_OPEN, reply), expected);
    compare_watch(t);
    compare_pool(p);
    if (!lent_intact(&t->text) || memcmp(t->text.bytes, rule, length) != 0) differs("the rule's text changed");
    tally_number(p, number, reply);
    if (was_stale && reply % 256 != 0) tally_sharing(STALE_OPEN);
    return reply;
}

uint64_t twin_shared_take(struct twin *t, struct pool *p, struct source *s, size_t scratch_length, uint64_t number) {
    note("shared take record %zu window %zu scratch %zu\n", t->record.length, t->window.length, scratch_length);
    note_pool(p, number);
    bool was_stale = stale(t, p, number);
    lend(&t->scratch, scratch_length, before_end(s));
    fill_junk(s, t->scratch.bytes, scratch_length);
    memcpy(t->scratch_bytes, t->scratch.bytes, scratch_length);
    uint64_t reply = call_shared_take(t->record.bytes, t->record.length, t->window.bytes, t->window.length,
                                      t->scratch.bytes, scratch_length, p->lent.bytes, p->lent.length, number);
    uint64_t expected = model_shared_take(&t->model, t->record_bytes, t->record.length, t->window_bytes,
                                          t->window_length, t->scratch_bytes, scratch_length, p->bytes, p->lent.length,
                                          number);
    compare_replies(tally(&wide_form, SHARED_TAKE, reply), expected);
    compare_watch(t);
    compare_bytes("scratch", t->scratch.bytes, t->scratch_bytes, scratch_length);
    if (!lent_intact(&t->scratch)) differs("a byte outside the scratch changed");
    compare_pool(p);
    tally_number(p, number, reply);
    if (reply != 6 && reply != 34) tally_take(t, p, (unsigned)number, reply, was_stale);
    return reply;
}

uint64_t twin_shared_close(struct twin *t, struct pool *p, uint64_t process, uint64_t number) {
    note("shared close process %llu record %zu window %zu\n", (unsigned long long)process, t->record.length,
         t->window.length);
    note_pool(p, number);
    bool was_stale = stale(t, p, number);
    uint64_t reply = call_shared_close(process, t->record.bytes, t->record.length, t->window.bytes, t->window.length,
                                       p->lent.bytes, p->lent.length, number);
    uint64_t expected = model_shared_close(&t->model, process, t->record_bytes, t->record.length, t->window_bytes,
                                           t->window_length, p->bytes, p->lent.length, number);
    compare_replies(tally(&wide_form, SHARED_CLOSE, reply), expected);
    compare_watch(t);
    compare_pool(p);
    tally_number(p, number, reply);
    if (was_stale && (reply == 41 || reply == 42)) tally_sharing(STALE_CLOSE);
    return reply;
}
