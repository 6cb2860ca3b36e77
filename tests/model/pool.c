/* Watches that share frontiers: request 10. It is of the wide form alone. */
#include <string.h>

#include "model.h"

enum { ALLOWANCE = 1024, KEPT_NUMBERS_AT = 16 };

static uint64_t refused(unsigned number) {
    return reply_word(number, 0, 0, 0);
}

/* ---- the pool's bytes ---- */

static unsigned two_bytes(const uint8_t *at) {
    return at[0] + 256u * at[1];
}

unsigned share_of(const uint8_t *pool, unsigned number) {
    return two_bytes(pool + 2 * number);
}

unsigned kept_of(const uint8_t *pool, unsigned number) {
    return two_bytes(pool + KEPT_NUMBERS_AT + 2 * number);
}

bool no_share(const uint8_t *pool, uint64_t number) {
    return number >= SHARES || share_of(pool, (unsigned)number) == 0;
}

/* Whole numbers with a sign: what is left may be below 0 in a pool of any bytes, and then nothing is. */
bool pool_allows(const uint8_t *pool, unsigned number, size_t frontiers) {
    long left = ALLOWANCE, passes = (long)frontiers - (long)share_of(pool, number);
    for (unsigned i = 0; i < SHARES; i++) {
        long above = (long)kept_of(pool, i) - (long)share_of(pool, i);
        left -= share_of(pool, i);
        if (i != number && above > 0) left -= above;
    }
    return passes <= 0 || passes <= left;
}

/* The most frontiers that the pool allows this number, found by trying. */
static size_t most_allowed(const uint8_t *pool, unsigned number) {
    size_t most = ROOM;
    while (most > 0 && !pool_allows(pool, number, most)) most--;
    return most;
}

bool would_pass_share(const struct model *m, size_t share) {
    for (unsigned i = 0; i < m->pending_number; i++) {
        const struct event *e = &m->pending[i];
        if (ready(e, m->history.taken) && true_by_taken(m, e) && kept_after(m, e) > share) return true;
    }
    return false;
}

/* ---- the calls ---- */

uint64_t model_set_shares(const uint16_t *shares, size_t n, uint8_t *pool, size_t pool_len) {
    unsigned long sum = 0;
    if (pool_len != POOL) return refused(6);
    if (n < 1 || n > SHARES) return refused(49);
    for (size_t i = 0; i < n; i++) {
        if (shares[i] == 0) return refused(49);
        sum += shares[i];
    }
    if (sum > ALLOWANCE) return refused(49);
    memset(pool, 0, POOL);
    for (size_t i = 0; i < n; i++) {
        pool[2 * i] = (uint8_t)(shares[i] % 256);
        pool[2 * i + 1] = (uint8_t)(shares[i] / 256);
    }
    return 0;
}

void bytes_bring_up(uint8_t *pool, uint64_t number, uint64_t reply, const uint8_t *record) {
    if (reply % 256 != 0) return;
    uint8_t *at = pool + KEPT_NUMBERS_AT + 2 * number;
    at[0] = (uint8_t)(get_kept(record) % 256);
    at[1] = (uint8_t)(get_kept(record) / 256 % 256);
}

static bool wrong_lengths(size_t record_len, size_t window_len, size_t pool_len) {
    return record_len != wide_form.record || !window_length(&wide_form, window_len) || pool_len != POOL;
}

uint64_t model_shared_open(struct model *m, const uint8_t *rule, size_t rule_len, uint64_t k, uint64_t start_labels,
                           uint8_t *record, size_t record_len, uint8_t *window, size_t window_len, uint8_t *pool,
                           size_t pool_len, uint64_t number) {
    if (wrong_lengths(record_len, window_len, pool_len)) return refused(6);
    if (no_share(pool, number)) return refused(34);
    uint64_t reply = model_open(m, &wide_form, rule, rule_len, k, start_labels, record, record_len, window, window_len);
    bytes_bring_up(pool, number, reply, record);
    return reply;
}

uint64_t model_shared_take(struct model *m, uint8_t *record, size_t record_len, uint8_t *window, size_t window_len,
                           uint8_t *scratch, size_t scratch_len, uint8_t *pool, size_t pool_len, uint64_t number) {
    if (wrong_lengths(record_len, window_len, pool_len) || scratch_len != window_len) return refused(6);
    if (no_share(pool, number)) return refused(34);
    size_t most = most_allowed(pool, (unsigned)number);
    uint64_t reply = model_take(m, record, record_len, window, window_len, scratch, scratch_len, most);
    bytes_bring_up(pool, number, reply, record);
    return reply;
}

uint64_t model_shared_close(struct model *m, uint64_t process, uint8_t *record, size_t record_len, uint8_t *window,
                            size_t window_len, uint8_t *pool, size_t pool_len, uint64_t number) {
    if (wrong_lengths(record_len, window_len, pool_len)) return refused(6);
    if (no_share(pool, number)) return refused(34);
    uint64_t reply = model_close(m, process, record, record_len, window, window_len);
    bytes_bring_up(pool, number, reply, record);
    return reply;
}

/* ---- any bytes ---- */

uint64_t bytes_shared_close(uint64_t process, uint8_t *record, size_t record_len, uint8_t *window, size_t window_len,
                            uint8_t *pool, size_t pool_len, uint64_t number) {
    if (wrong_lengths(record_len, window_len, pool_len)) return refused(6);
    if (no_share(pool, number)) return refused(34);
    uint64_t reply = bytes_close(&wide_form, process, record, record_len, window, window_len);
    bytes_bring_up(pool, number, reply, record);
    return reply;
}

struct possible bytes_shared_take(const uint8_t *record, size_t record_len, const uint8_t *window, size_t window_len,
                                  size_t scratch_len, const uint8_t *pool, size_t pool_len, uint64_t number) {
    if (wrong_lengths(record_len, window_len, pool_len)) return (struct possible){.refused = 6};
    struct possible can = bytes_take(&wide_form, record, record_len, window, window_len, scratch_len);
    if (can.refused == 0 && no_share(pool, number)) can = (struct possible){.refused = 34};
    return can;
}
