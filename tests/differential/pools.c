/* Shared calls on records, windows and pools of any bytes, and settings of any shares. What the paper fixes there is
 * compared: refusals, "nothing ready", what a close answers and writes, and what happens to the pool. */
#include <stdlib.h>
#include <string.h>

#include "../../include/watch.h"
#include "pool.h"

/* ---- settings ---- */

/* Any sharing of a sum, each share 1 at least where that can be. */
static void share_sum(struct source *s, uint16_t *shares, size_t n, unsigned sum) {
    for (size_t i = 0; i + 1 < n; i++) {
        unsigned rest = (unsigned)(n - 1 - i), most = sum > rest ? sum - rest : 1;
        shares[i] = (uint16_t)between(s, 1, chance(s, 50) && most > 200 ? 200 : most);
        sum -= shares[i] < sum ? shares[i] : sum;
    }
    if (n > 0) shares[n - 1] = (uint16_t)sum;
}

/* Sums of 1,024 or near that, also where two bytes would wrap to it; single shares at the ends of their range. */
static size_t any_shares(struct source *s, uint16_t *shares) {
    static const uint16_t ends[] = {0, 1, 2, 255, 256, 1023, 1024, 1025, 32768, 64512, 65535};
    static const unsigned sums[] = {1023, 1024, 1024, 1025, 1025, 1026, 2048, 65536, 65537, 66560, 66561, 132096};
    size_t n = chance(s, 85) ? between(s, 1, 8) : chance(s, 70) ? below(s, 12) : between(s, 9, 5000);
    for (size_t i = 0; i < n; i++) shares[i] = (uint16_t)between(s, 1, 40);
    switch (below(s, 4)) {
    case 0: share_sum(s, shares, n, sums[below(s, 5)]); break;
    case 1: share_sum(s, shares, n, sums[below(s, 12)]); break;
    case 2: for (size_t i = 0; i < n; i++) if (chance(s, 30)) shares[i] = ends[below(s, 11)]; break;
    default: break;
    }
    if (n > 0 && chance(s, 8)) shares[chance(s, 30) ? n - 1 : below(s, (unsigned)n)] = 0;
    return n;
}

static void try_settings(struct source *s, struct twin *t) {
    static struct pool p;
    static uint16_t shares[5000];
    for (unsigned i = 0; i < 20; i++) {
        size_t n = any_shares(s, shares);
        fill_junk(s, p.bytes, POOL_MOST);
        pool_lend(&p, s, chance(s, 80) ? POOL : wrong_pool(s));
        pool_set(&p, s, t, shares, n);
    }
}

/* ---- any bytes ---- */

/* What a call is lent, and how it was before. */
struct bytes {
    struct lent record, window, scratch, pool;
    uint8_t record_before[2 * RECORD_MOST], window_before[WINDOW_MOST], scratch_before[WINDOW_MOST];
    uint8_t pool_before[POOL_MOST];
};

/* Shares and numbers: junk, or a few small ones and now and then a large one; many places are unused. */
static void lay_pool(struct source *s, uint8_t *pool) {
    static const unsigned often[] = {1, 2, 255, 256, 1000, 1023, 1024, 1025, 32767, 65535};
    unsigned used = chance(s, 30) ? 0 : 70;
    fill_junk(s, pool, POOL_MOST);
    if (chance(s, 20)) return;
    for (unsigned i = 0; i < 2 * SHARES; i++) {
        unsigned value = chance(s, 20) ? often[below(s, 10)] : between(s, 1, 12);
        if (!chance(s, used)) value = 0;
        pool[2 * i] = (uint8_t)value, pool[2 * i + 1] = (uint8_t)(value >> 8);
    }
}

static uint64_t any_number(struct source *s) {
    return chance(s, 85) ? below(s, SHARES) : random_process(s, SHARES);
}

static void remember(struct bytes *b) {
    memcpy(b->record_before, b->record.bytes, b->record.length);
    memcpy(b->window_before, b->window.bytes, b->window.length);
    memcpy(b->scratch_before, b->scratch.bytes, b->scratch.length);
    memcpy(b->pool_before, b->pool.bytes, b->pool.length);
}

static void unchanged(const char *name, const struct lent *l, const uint8_t *before) {
    compare_bytes(name, l->bytes, before, l->length);
    if (!lent_intact(l)) differs("a byte outside the %s changed", name);
}

static void damaged_close(struct source *s, struct bytes *b, uint64_t number) {
    uint64_t process = random_process(s, PROCESSES);
    note("shared close process %llu of any bytes, number %llu, pool %zu\n", (unsigned long long)process,
         (unsigned long long)number, b->pool.length);
    uint64_t reply = call_shared_close(process, b->record.bytes, b->record.length, b->window.bytes, b->window.length,
                                       b->pool.bytes, b->pool.length, number);
    uint64_t expected = bytes_shared_close(process, b->record_before, b->record.length, b->window_before,
                                           b->window.length, b->pool_before, b->pool.length, number);
    compare_replies(tally(&wide_form, SHARED_CLOSE, reply), expected);
    unchanged("record", &b->record, b->record_before);
    unchanged("window", &b->window, b->window_before);
    unchanged("pool", &b->pool, b->pool_before);
}

/* Into a record and window of any bytes, and with a pool of any. */
static void damaged_open(struct source *s, struct bytes *b, uint64_t number) {
    static struct model model;
    struct opening o;
    random_opening(s, &o, chance(s, 30));
    note("shared open of any bytes, number %llu, pool %zu\n", (unsigned long long)number, b->pool.length);
    uint64_t reply = call_shared_open(o.text, o.length, o.k, o.labels, b->record.bytes, b->record.length,
                                      b->window.bytes, b->window.length, b->pool.bytes, b->pool.length, number);
    uint64_t expected = model_shared_open(&model, o.text, o.length, o.k, o.labels, b->record_before, b->record.length,
                                          b->window_before, b->window.length, b->pool_before, b->pool.length, number);
    compare_replies(tally(&wide_form, SHARED_OPEN, reply), expected);
    unchanged("record", &b->record, b->record_before);
    unchanged("window", &b->window, b->window_before);
    unchanged("pool", &b->pool, b->pool_before);
}

static bool may_answer(const struct possible *can, uint64_t reply) {
    if (reply == 0) return can->nothing_ready;
    if (reply % 256 == 0) return can->taken;
    return reply == 35 ? can->false_clock : reply == 36 && can->no_room;
}

/* Which event is taken and what is written then is free; what the pool says afterwards is not. */
static void damaged_take(struct source *s, struct bytes *b, uint64_t number) {
    fill_junk(s, b->scratch.bytes, b->scratch.length);
    memcpy(b->scratch_before, b->scratch.bytes, b->scratch.length);
    note("shared take of any bytes, number %llu, pool %zu\n", (unsigned long long)number, b->pool.length);
    struct possible can = bytes_shared_take(b->record.bytes, b->record.length, b->window.bytes, b->window.length,
                                            b->scratch.length, b->pool.bytes, b->pool.length, number);
    uint64_t reply = call_shared_take(b->record.bytes, b->record.length, b->window.bytes, b->window.length,
                                      b->scratch.bytes, b->scratch.length, b->pool.bytes, b->pool.length, number);
    tally(&wide_form, SHARED_TAKE, reply);
    if (can.refused != 0) compare_replies(reply, can.refused);
    else if (!may_answer(&can, reply)) differs("take of any bytes answers %llx", (unsigned long long)reply);
    bool taken = can.refused == 0 && reply != 0 && reply % 256 == 0;
    if (reply == 35) bytes_leave(&wide_form, b->record_before, can.false_place);
    if (!taken) unchanged("record", &b->record, b->record_before);
    if (!taken) unchanged("window", &b->window, b->window_before);
    if (taken && !pool_allows(b->pool_before, (unsigned)number, get_kept(b->record.bytes)))
        differs("a take of any bytes leaves more than the pool allows");
    if (can.refused == 0) memset(b->scratch_before, 0, b->scratch.length);
    unchanged("scratch", &b->scratch, b->scratch_before);
    if (can.refused == 0) bytes_bring_up(b->pool_before, number, reply, b->record.bytes);
    unchanged("pool", &b->pool, b->pool_before);
}

/* A watch as it stands, damaged or not, and a pool of any bytes. */
static void lend_any(struct source *s, const struct twin *t, struct bytes *b) {
    static uint8_t record[2 * RECORD_MOST], window[WINDOW_MOST], pool[POOL_MOST];
    size_t room = chance(s, 70) ? twin_room(t) : between(s, 1, 40), length = wide_form.frontier * room;
    memset(window, 0, sizeof window);
    memcpy(record, t->record_bytes, wide_form.record);
    memcpy(window, t->window_bytes, length < t->window_length ? length : t->window_length);
    struct laid laid = {&wide_form, record, window, (unsigned)room};
    if (chance(s, 70)) damage(s, &laid);
    lay_pool(s, pool);
    size_t record_length = chance(s, 96) ? wide_form.record : wrong_record(s, &wide_form);
    size_t window_length = chance(s, 96) ? length : wrong_window(s, &wide_form, length);
    size_t scratch_length = chance(s, 96) ? window_length : length + 1;
    size_t pool_length = chance(s, 92) ? POOL : wrong_pool(s);
    lend(&b->record, record_length, before_end(s));
    lend(&b->window, window_length, before_end(s));
    lend(&b->scratch, scratch_length, before_end(s));
    lend(&b->pool, pool_length, before_end(s));
    memcpy(b->record.bytes, record, b->record.length < sizeof record ? b->record.length : sizeof record);
    memcpy(b->window.bytes, window, b->window.length);
    memcpy(b->pool.bytes, pool, b->pool.length);
}

static struct bytes *bytes_new(void) {
    struct bytes *b = calloc(1, sizeof *b);
    if (b == NULL) abort();
    b->record = lent_new(2 * RECORD_MOST);
    b->window = lent_new(WINDOW_MOST);
    b->scratch = lent_new(WINDOW_MOST);
    b->pool = lent_new(POOL_MOST);
    return b;
}

static void try_any_bytes(struct source *s, struct twin *t) {
    static struct bytes *b;
    if (b == NULL) b = bytes_new();
    lend_any(s, t, b);
    for (unsigned calls = between(s, 1, 4); calls > 0; calls--) {
        uint64_t number = any_number(s);
        unsigned action = below(s, 10);
        remember(b);
        if (action < 6) damaged_take(s, b, number);
        else if (action < 9) damaged_close(s, b, number);
        else damaged_open(s, b, number);
        t->calls++;
    }
}

void try_pools(struct source *s, struct twin *t) {
    struct shape shape = {.k = between(s, 1, 8), .most = 300, .joint = 30};
    if (!can_share()) return;
    try_settings(s, t);
    if (WATCHES) return;
    shape.n = between(s, 1, 10);
    shape.messages = random_messages(s);
    start_of_form(s, t, &wide_form, shape.k, between(s, 1, 60));
    struct execution x = random_execution(s, shape);
    for (unsigned i = 0; i < x.n; i++) {
        twin_offer(t, x.event[i]);
        if (chance(s, 60)) twin_take(t, s, t->window_length);
        try_any_bytes(s, t);
    }
    for (unsigned i = 0; i < 8; i++) try_any_bytes(s, t);
}
