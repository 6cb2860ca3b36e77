/* The busiest day of n events: request 8. A list of events is of the wide form alone. */
#include <stdlib.h>
#include <string.h>

#include "model.h"

enum { MOST_EVENTS = 65535, DIGITS = 9 };

/* ---- what a day keeps ---- */

/* A number without end, in digits of 16 bits, the lowest first: eight factors of 65,536 have nine. */
struct natural {
    uint32_t digit[DIGITS];
};

static void multiply(struct natural *x, unsigned factor) {
    uint64_t carry = 0;
    for (unsigned i = 0; i < DIGITS; i++) {
        carry += (uint64_t)x->digit[i] * factor;
        x->digit[i] = (uint32_t)(carry % 65536);
        carry /= 65536;
    }
    if (carry != 0) abort();
}

static void subtract(struct natural *x, const struct natural *y) {
    uint32_t borrowed = 0;
    for (unsigned i = 0; i < DIGITS; i++) {
        uint32_t less = y->digit[i] + borrowed;
        borrowed = x->digit[i] < less;
        x->digit[i] += 65536 * borrowed - less;
    }
    if (borrowed != 0) abort();
}

static struct natural product(unsigned k, const unsigned *counts, unsigned more) {
    struct natural x = {{1}};
    for (unsigned p = 0; p < k; p++) multiply(&x, counts[p] + more);
    return x;
}

uint64_t day_keeps(unsigned k, const unsigned *counts) {
    struct natural keeps = product(k, counts, 1), lost = product(k, counts, 0);
    subtract(&keeps, &lost);
    for (unsigned i = 2; i < DIGITS; i++)
        if (keeps.digit[i] != 0) return UINT64_MAX;
    return keeps.digit[0] + 65536 * (uint64_t)keeps.digit[1];
}

/* Of the cuts that are alike below p. Complete: some process below p has all its events. */
static uint64_t count_cuts(unsigned k, const unsigned *counts, unsigned p, bool complete) {
    uint64_t number = 0;
    if (p == k) return complete;
    for (unsigned c = 0; c <= counts[p]; c++) number += count_cuts(k, counts, p + 1, complete || c == counts[p]);
    return number;
}

uint64_t count_day(unsigned k, const unsigned *counts) {
    return count_cuts(k, counts, 0, false);
}

/* ---- the call ---- */

void share_evenly(unsigned k, unsigned n, unsigned *counts) {
    for (unsigned p = 0; p < k; p++) counts[p] = n / k + (p < n % k ? 1 : 0);
}

static void write_list(unsigned k, const unsigned *counts, uint8_t *events) {
    for (unsigned p = 0; p < k; p++)
        for (unsigned c = 1; c <= counts[p]; c++) {
            memset(events, 0, wide_form.event);
            events[0] = (uint8_t)(1u << p);
            put_count(&wide_form, events + CLOCK_AT + wide_form.width * p, c);
            events += wide_form.event;
        }
}

uint64_t model_busiest(uint64_t k, uint64_t n, uint8_t *events, size_t events_len) {
    unsigned counts[PROCESSES];
    if (k < 1 || k > PROCESSES || n > MOST_EVENTS) return reply_word(45, 0, 0, 0);
    share_evenly((unsigned)k, (unsigned)n, counts);
    uint64_t keeps = day_keeps((unsigned)k, counts);
    if (keeps > ROOM) return reply_word(46, 0, 0, 0);
    if (events_len != wide_form.event * n) return reply_word(6, 0, 0, 0);
    write_list((unsigned)k, counts, events);
    return reply_word(0, 0, keeps, 0);
}
