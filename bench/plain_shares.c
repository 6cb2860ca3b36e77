/* Watches that share frontiers, in plain C. A pool is of the wide form alone. */
#define COUNT_BYTES 4
#include "plain_inner.h"
#include "plain_refused.h"

enum { SHARES = 8, POOL = 4 * SHARES };

/* As it lies in the lent bytes. */
struct pool {
    uint16_t share[SHARES], kept[SHARES];
};

static inline struct pool load_pool(const uint8_t *from) {
    struct pool p;
    memcpy(&p, from, sizeof p);
    return p;
}

/* What the others keep above their shares is summed for all eight, and the watch's own part taken back: eight lanes
 * without a test. Nothing wraps, for no sum is above 16 times 65,535. */
static size_t allowance(const struct pool *p, unsigned number) {
    uint32_t promised = 0, used = 0;
    for (unsigned i = 0; i < SHARES; i++) {
        uint32_t share = p->share[i], kept = p->kept[i];
        promised += share;
        used += kept > share ? kept - share : 0;
    }
    uint32_t own = p->share[number], kept = p->kept[number], gone = promised + used - (kept > own ? kept - own : 0);
    return own + (gone < ROOM ? ROOM - gone : 0);
}

/* 6, 34 by the number, or 0. */
static unsigned refused(size_t record_len, size_t window_len, const uint8_t *pool, size_t pool_len, uint64_t number) {
    uint16_t share;
    if (record_len != RECORD || wrong_window(window_len) || pool_len != POOL) return 6;
    if (number >= SHARES) return 34;
    memcpy(&share, pool + 2 * number, sizeof share);
    return share == 0 ? 34 : 0;
}

/* Unless it was refused, the watch's kept number is the record's. */
static uint64_t bring_up(uint64_t reply, const uint8_t *record, uint8_t *pool, uint64_t number) {
    if ((reply & 255) == 0) memcpy(pool + 2 * (SHARES + number), record + 4, 2);
    return reply;
}

uint64_t plain32_set_shares(const uint16_t *shares, size_t n, uint8_t *pool, size_t pool_len) {
    struct pool p = {{0}, {0}};
    uint32_t sum = 0;
    if (pool_len != POOL) return 6;
    if (n - 1 >= SHARES) return 49;
    for (size_t i = 0; i < n; i++) {
        if (shares[i] == 0) return 49;
        sum += p.share[i] = shares[i];
    }
    if (sum > ROOM) return 49;
    memcpy(pool, &p, sizeof p);
    return 0;
}

uint64_t plain32_shared_open(const uint8_t *rule, size_t rule_len, uint64_t k, uint64_t start_labels,
                             uint8_t *record, size_t record_len, uint8_t *window, size_t window_len,
                             uint8_t *pool, size_t pool_len, uint64_t number) {
    unsigned fault = refused(record_len, window_len, pool, pool_len, number);
    if (fault != 0) return fault;
    return bring_up(plain32_open(rule, rule_len, k, start_labels, record, record_len, window, window_len), record, pool,
                    number);
}

uint64_t plain32_shared_take(uint8_t *record, size_t record_len, uint8_t *window, size_t window_len,
                             uint8_t *scratch, size_t scratch_len, uint8_t *pool, size_t pool_len, uint64_t number) {
    unsigned fault = scratch_len == window_len ? refused(record_len, window_len, pool, pool_len, number) : 6;
    if (fault != 0) return fault;
    struct pool p = load_pool(pool);
    return bring_up(plain32_take_within(record, record_len, window, window_len, scratch, scratch_len,
                                        allowance(&p, (unsigned)number)), record, pool, number);
}

uint64_t plain32_shared_close(uint64_t process, uint8_t *record, size_t record_len, uint8_t *window, size_t window_len,
                              uint8_t *pool, size_t pool_len, uint64_t number) {
    unsigned fault = refused(record_len, window_len, pool, pool_len, number);
    if (fault != 0) return fault;
    return bring_up(plain32_close(process, record, record_len, window, window_len), record, pool, number);
}
