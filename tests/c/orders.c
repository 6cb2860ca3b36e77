/* The order of refusals: a call is given every set of faults at once, and the earliest in the paper's order answers. */
#include "subject.h"

#define RULE "(ep (and (at 0 0) (at 1 0)))"

static unsigned first_of(unsigned faults, const unsigned *numbers) {
    unsigned i = 0;
    while (numbers[i] != 0 && !(faults >> i & 1)) i++;
    return numbers[i];
}

static void order_open(struct subject *s) {
    static const unsigned numbers[] = {6, 6, 5, 9, 4, 0};
    for (unsigned faults = 1; faults < 32; faults++) {
        start(s, 2, 2, RULE);
        if (faults & 1) lend_again(&s->record, 1367, 0);
        if (faults & 2) lend_again(&s->window, 81, 0);
        uint64_t k = faults & 4 ? 9 : 2, labels = faults & 8 ? (uint64_t)1 << 16 : 0, reply;
        reply = try_open(s, faults & 16 ? "(at 9 0)" : RULE, k, labels);
        CHECK(watch_number(reply) == first_of(faults, numbers));
    }
}

/* Lays an event behind the pending ones as it will be offered, also one that no call would have accepted. */
static void lay_pending(struct subject *s, uint64_t mask, uint64_t low, uint64_t high, uint64_t labels) {
    uint8_t *at = s->record.bytes + 344 + 32 * s->record.bytes[2]++;
    at[0] = (uint8_t)mask;
    for (unsigned i = 0; i < 8; i++) {
        at[8 + i] = (uint8_t)(low >> 8 * i);
        at[16 + i] = (uint8_t)(high >> 8 * i);
        at[24 + i] = (uint8_t)(labels >> 8 * i);
    }
}

/* Process 0 has an event taken; process 1's fifth event is pending. "Again" has its place among the refusals. */
static void order_offer(struct subject *s) {
    static const unsigned numbers[] = {6, 34, 7, 8, 9, 31, WATCH_AGAIN, 32, 33, 0};
    static const unsigned when_closed[] = {6, 34, 7, 8, 9, 42, 42, 42, 42, 42};
    for (unsigned faults = 0; faults < 1024; faults++) {
        start(s, 8, 4, RULE);
        offer(s, 1, 1, 0, 0, 0, 0);
        CHECK_REPLY(try_take(s), state(0, 2));
        offer(s, 2, 0, 5, 0, 0, 0);
        for (unsigned i = faults & 64 ? 1 : 0; faults & 256 && i < 31; i++) offer(s, 4, 0, 0, 10 + i, 0, 0);
        uint64_t mask = 3, low = watch_counts(2, 9, 0, 0), high = 0, labels = 0;
        if (faults & 4) mask |= 64;
        if (faults & 8) high = (uint64_t)1 << 48;
        if (faults & 16) labels = (uint64_t)1 << 24;
        if (faults & 32) low = (low & ~(uint64_t)0xffff) | 1;
        if (faults & 128) low = (low & ~(uint64_t)0xffff0000) | 5 << 16;
        if (faults & 64) lay_pending(s, mask, low, high, labels);
        CHECK(!(faults & 256) || watch_pending(s->record.bytes) == 32);
        if (faults & 1) lend_again(&s->record, 1369, 0);
        if (faults & 2) s->record.bytes[1] = 0;
        if (faults & 512) s->record.bytes[3] = 2;
        uint64_t expected = faults == 0 ? held(2) : first_of(faults, faults & 512 ? when_closed : numbers);
        CHECK_REPLY(try_offer(s, mask, low, high, labels), expected);
    }
}

static void order_find(struct subject *s) {
    static const unsigned numbers[] = {6, 6, 34, 11, 0};
    for (unsigned faults = 1; faults < 16; faults++) {
        start(s, 2, 2, RULE);
        if (faults & 1) lend_again(&s->record, 1369, 0);
        if (faults & 2) lend_again(&s->window, 41, 0);
        if (faults & 4) s->record.bytes[2] = 33;
        CHECK_REPLY(try_find(s, faults & 8 ? 99 : 0), refused(first_of(faults, numbers)));
    }
}

static void order_take(struct subject *s) {
    static const unsigned numbers[] = {6, 6, 6, 34, 36, 0};
    for (unsigned faults = 1; faults < 32; faults++) {
        start(s, 1, 2, RULE);
        if (faults & 16) offer(s, 1, 1, 0, 0, 0, 0);
        if (faults & 1) lend_again(&s->record, 1367, 0);
        if (faults & 2) lend_again(&s->window, 20, 0);
        if (faults & 4) lend_junk(s, 80);
        if (faults & 8) s->record.bytes[0] = 0;
        CHECK_REPLY(try_take(s), refused(first_of(faults, numbers)));
    }
}

/* Process 1 has an event pending; it may be closed already, as no call would have done it. */
static void order_close(struct subject *s) {
    static const unsigned numbers[] = {6, 6, 34, 41, 41, 42, 0};
    for (unsigned faults = 0; faults < 64; faults++) {
        start(s, 2, 2, RULE);
        if (faults & 32) CHECK_REPLY(offer(s, 2, 0, 1, 0, 0, 0), held(1));
        if (faults & 1) lend_again(&s->record, 1367, 0);
        if (faults & 2) lend_again(&s->window, 81, 0);
        if (faults & 4) s->record.bytes[1] = 65;
        if (faults & 8) s->record.bytes[3] = 2;
        uint64_t process = faults & 16 ? ((uint64_t)1 << 32) + 1 : 1;
        CHECK_REPLY(try_close(s, process), faults == 0 ? closed(1) : refused(first_of(faults, numbers)));
    }
}

void test_orders(void) {
    struct subject s = subject_new();
    order_open(&s);
    order_offer(&s);
    order_find(&s);
    order_take(&s);
    order_close(&s);
    subject_free(&s);
}
