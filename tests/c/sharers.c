/* See sharers.h. */
#include "sharers.h"

struct lent pool;
struct subject sharers[SHARERS];
static struct lent list;

void sharers_new(void) {
    pool = lent_new(2 * POOL), list = lent_new(2 * LIST_MOST);
    lend_pool(POOL);
    for (unsigned i = 0; i < SHARERS; i++) sharers[i] = subject_wide();
}

void sharers_free(void) {
    for (unsigned i = 0; i < SHARERS; i++) subject_free(&sharers[i]);
    lent_free(&pool), lent_free(&list);
}

/* ---- calls, and what holds of each ---- */

void lend_pool(size_t length) {
    lend_again(&pool, length, length % 8);
}

static void lay(unsigned place, unsigned value) {
    pool.bytes[2 * place] = (uint8_t)value, pool.bytes[2 * place + 1] = (uint8_t)(value >> 8);
}

void lay_share(unsigned number, unsigned share) {
    lay(number, share);
}

void lay_kept(unsigned number, unsigned kept) {
    lay(SHARERS + number, kept);
}

/* A refusal writes nothing; else the watch's number becomes the record's, and no other byte changes. */
static uint64_t check_pool(const struct subject *s, const uint8_t *before, uint64_t number, uint64_t reply) {
    uint8_t expected[2 * POOL];
    memcpy(expected, before, sizeof expected);
    if (watch_number(reply) == 0) {
        CHECK(number < SHARERS && pool.length == POOL);
        if (number < SHARERS) memcpy(expected + 16 + 2 * number, s->record.bytes + 4, 2);
    }
    CHECK(memcmp(pool.bytes, expected, pool.length) == 0 && lent_intact(&pool));
    return reply;
}

static const uint8_t *copy_pool(void) {
    static uint8_t before[2 * POOL];
    memcpy(before, pool.bytes, pool.length);
    return before;
}

static int same_bytes(const struct lent *l, const uint8_t *before) {
    return memcmp(l->bytes, before, l->length) == 0 && lent_intact(l);
}

/* What a refused call leaves. */
static uint8_t record[2 * WATCH32_RECORD_BYTES], window[WATCH32_WINDOW_BYTES(WATCH_ROOM + 1)];
static uint8_t scratch[WATCH32_WINDOW_BYTES(WATCH_ROOM + 1)];

static void copy_watch(const struct subject *s) {
    memcpy(record, s->record.bytes, s->record.length);
    memcpy(window, s->window.bytes, s->window.length);
    memcpy(scratch, s->scratch.bytes, s->scratch.length);
}

uint64_t shared_open(struct subject *s, const char *rule, uint64_t k, uint64_t labels, uint64_t number) {
    const uint8_t *before = copy_pool();
    copy_watch(s);
    uint64_t reply = watch32_shared_open((const uint8_t *)rule, strlen(rule), k, labels, s->record.bytes,
                                         s->record.length, s->window.bytes, s->window.length, pool.bytes, pool.length,
                                         number);
    CHECK(watch_number(reply) == 0 || (same_bytes(&s->record, record) && same_bytes(&s->window, window)));
    return check_pool(s, before, number, reply);
}

uint64_t shared_take(struct subject *s, uint64_t number) {
    const uint8_t *before = copy_pool();
    copy_watch(s);
    uint64_t reply = watch32_shared_take(s->record.bytes, s->record.length, s->window.bytes, s->window.length,
                                         s->scratch.bytes, s->scratch.length, pool.bytes, pool.length, number);
    unsigned refusal = watch_number(reply);
    int wrong = refusal == 6 || refusal == 34;
    CHECK(wrong ? same_bytes(&s->scratch, scratch) : all_zero(s->scratch.bytes, s->scratch.length));
    CHECK((refusal == 0 && reply != 0) || same_bytes(&s->window, window));
    CHECK((refusal == 0 && reply != 0) || refusal == 35 || same_bytes(&s->record, record));
    if (!wrong) lend_junk(s, s->scratch.length);
    return check_pool(s, before, number, reply);
}

uint64_t shared_close(struct subject *s, uint64_t process, uint64_t number) {
    const uint8_t *before = copy_pool();
    copy_watch(s);
    uint64_t reply = watch32_shared_close(process, s->record.bytes, s->record.length, s->window.bytes,
                                          s->window.length, pool.bytes, pool.length, number);
    CHECK(watch_number(reply) == 0 || (same_bytes(&s->record, record) && same_bytes(&s->window, window)));
    return check_pool(s, before, number, reply);
}

/* The list ends at a page that nobody may touch. */
uint64_t set(const uint16_t *shares, size_t n) {
    lend(&list, n * sizeof *shares, 0);
    memcpy(list.bytes, shares, n * sizeof *shares);
    const uint8_t *before = copy_pool();
    uint64_t reply = watch32_set_shares((const uint16_t *)(const void *)list.bytes, n, pool.bytes, pool.length);
    CHECK(reply == 0 || (reply == watch_number(reply) && memcmp(pool.bytes, before, pool.length) == 0));
    CHECK(lent_intact(&pool) && lent_intact(&list) && memcmp(list.bytes, shares, n * sizeof *shares) == 0);
    return reply;
}

/* ---- watches ---- */

void open_number(unsigned number, size_t room) {
    struct subject *s = &sharers[number];
    lend(&s->record, WATCH32_RECORD_BYTES, number % 8);
    lend_room(s, room);
    CHECK_REPLY(shared_open(s, RULE, 2, 0, number), state(0, 1));
}

uint64_t next_take(unsigned number) {
    struct subject *s = &sharers[number];
    if (watch_pending(s->record.bytes) == 0) offer(s, 2, 0, watch32_taken(s->record.bytes, 1) + 1, 0, 0, 0);
    return shared_take(s, number);
}

void grow(unsigned number, unsigned to) {
    for (unsigned kept = watch_kept(sharers[number].record.bytes) + 1; kept <= to; kept++)
        CHECK_REPLY(next_take(number), state(0, kept));
}

void shrink(unsigned number) {
    CHECK_REPLY(shared_close(&sharers[number], 0, number), closed(1));
}

void check_most(unsigned number, unsigned most) {
    grow(number, most);
    CHECK_REPLY(next_take(number), refused(36));
    CHECK(watch32_share_kept(pool.bytes, number) == most && watch_kept(sharers[number].record.bytes) == most);
}
