/* Stands around the calls of the library and writes down each reply and, as the call left them, all bytes that were
 * lent for writing, to the file that RECORDING names. Linked with --wrap for each call: whoever makes the calls knows
 * nothing of it. With OLD_FORM_ALONE the old form's calls only, with WITHOUT_PAGE all but the page, with
 * WITHOUT_BUSIEST all but the busiest day, with WITHOUT_SHARES all but those with a pool: then the others may be
 * missing. */
#include <stdio.h>
#include <stdlib.h>

#include "../include/watch.h"

extern __typeof__(watch_open) __real_watch_open, __wrap_watch_open;
extern __typeof__(watch_offer) __real_watch_offer, __wrap_watch_offer;
extern __typeof__(watch_take) __real_watch_take, __wrap_watch_take;
extern __typeof__(watch_find) __real_watch_find, __wrap_watch_find;
extern __typeof__(watch_close) __real_watch_close, __wrap_watch_close;

static void put(const void *bytes, size_t length) {
    static FILE *recording;
    if (recording == NULL) {
        const char *name = getenv("RECORDING");
        recording = name == NULL ? NULL : fopen(name, "wb");
    }
    if (recording == NULL || fwrite(bytes, 1, length, recording) != length) {
        fprintf(stderr, "recorder: cannot write to what RECORDING names\n");
        exit(2);
    }
}

static uint64_t put_reply(uint64_t reply) {
    put(&reply, sizeof reply);
    return reply;
}

uint64_t __wrap_watch_open(const uint8_t *rule, size_t rule_len, uint64_t k, uint64_t start_labels, uint8_t *record,
                           size_t record_len, uint8_t *window, size_t window_len) {
    uint64_t reply = __real_watch_open(rule, rule_len, k, start_labels, record, record_len, window, window_len);
    put(record, record_len);
    put(window, window_len);
    return put_reply(reply);
}

uint64_t __wrap_watch_offer(uint64_t mask, uint64_t low, uint64_t high, uint64_t labels, uint8_t *record,
                            size_t record_len) {
    uint64_t reply = __real_watch_offer(mask, low, high, labels, record, record_len);
    put(record, record_len);
    return put_reply(reply);
}

uint64_t __wrap_watch_take(uint8_t *record, size_t record_len, uint8_t *window, size_t window_len, uint8_t *scratch,
                           size_t scratch_len) {
    uint64_t reply = __real_watch_take(record, record_len, window, window_len, scratch, scratch_len);
    put(record, record_len);
    put(window, window_len);
    put(scratch, scratch_len);
    return put_reply(reply);
}

uint64_t __wrap_watch_find(uint64_t line, const uint8_t *record, size_t record_len, const uint8_t *window,
                           size_t window_len) {
    return put_reply(__real_watch_find(line, record, record_len, window, window_len));
}

uint64_t __wrap_watch_close(uint64_t process, uint8_t *record, size_t record_len, uint8_t *window, size_t window_len) {
    uint64_t reply = __real_watch_close(process, record, record_len, window, window_len);
    put(record, record_len);
    put(window, window_len);
    return put_reply(reply);
}

#ifndef OLD_FORM_ALONE

extern __typeof__(watch32_open) __real_watch32_open, __wrap_watch32_open;
extern __typeof__(watch32_offer) __real_watch32_offer, __wrap_watch32_offer;
extern __typeof__(watch32_take) __real_watch32_take, __wrap_watch32_take;
extern __typeof__(watch32_find) __real_watch32_find, __wrap_watch32_find;
extern __typeof__(watch32_close) __real_watch32_close, __wrap_watch32_close;
extern __typeof__(watch_widen) __real_watch_widen, __wrap_watch_widen;
extern __typeof__(watch_narrow) __real_watch_narrow, __wrap_watch_narrow;

uint64_t __wrap_watch32_open(const uint8_t *rule, size_t rule_len, uint64_t k, uint64_t start_labels, uint8_t *record,
                             size_t record_len, uint8_t *window, size_t window_len) {
    uint64_t reply = __real_watch32_open(rule, rule_len, k, start_labels, record, record_len, window, window_len);
    put(record, record_len);
    put(window, window_len);
    return put_reply(reply);
}

uint64_t __wrap_watch32_offer(uint64_t mask, uint64_t c01, uint64_t c23, uint64_t c45, uint64_t c67, uint64_t labels,
                              uint8_t *record, size_t record_len) {
    uint64_t reply = __real_watch32_offer(mask, c01, c23, c45, c67, labels, record, record_len);
    put(record, record_len);
    return put_reply(reply);
}

uint64_t __wrap_watch32_take(uint8_t *record, size_t record_len, uint8_t *window, size_t window_len, uint8_t *scratch,
                             size_t scratch_len) {
    uint64_t reply = __real_watch32_take(record, record_len, window, window_len, scratch, scratch_len);
    put(record, record_len);
    put(window, window_len);
    put(scratch, scratch_len);
    return put_reply(reply);
}

uint64_t __wrap_watch32_find(uint64_t line, const uint8_t *record, size_t record_len, const uint8_t *window,
                             size_t window_len) {
    return put_reply(__real_watch32_find(line, record, record_len, window, window_len));
}

uint64_t __wrap_watch32_close(uint64_t process, uint8_t *record, size_t record_len, uint8_t *window,
                              size_t window_len) {
    uint64_t reply = __real_watch32_close(process, record, record_len, window, window_len);
    put(record, record_len);
    put(window, window_len);
    return put_reply(reply);
}

uint64_t __wrap_watch_widen(const uint8_t *record, size_t record_len, const uint8_t *window, size_t window_len,
                            uint8_t *record32, size_t record32_len, uint8_t *window32, size_t window32_len) {
    uint64_t reply = __real_watch_widen(record, record_len, window, window_len, record32, record32_len, window32,
                                        window32_len);
    put(record32, record32_len);
    put(window32, window32_len);
    return put_reply(reply);
}

uint64_t __wrap_watch_narrow(const uint8_t *record32, size_t record32_len, const uint8_t *window32, size_t window32_len,
                             uint8_t *record, size_t record_len, uint8_t *window, size_t window_len) {
    uint64_t reply = __real_watch_narrow(record32, record32_len, window32, window32_len, record, record_len, window,
                                         window_len);
    put(record, record_len);
    put(window, window_len);
    return put_reply(reply);
}

#endif

#if !defined(OLD_FORM_ALONE) && !defined(WITHOUT_PAGE)

extern __typeof__(watch32_page) __real_watch32_page, __wrap_watch32_page;

uint64_t __wrap_watch32_page(const uint8_t *record, size_t record_len, const uint8_t *window, size_t window_len,
                             uint8_t *page, size_t page_len) {
    uint64_t reply = __real_watch32_page(record, record_len, window, window_len, page, page_len);
    put(page, page_len);
    return put_reply(reply);
}

#endif

#if !defined(OLD_FORM_ALONE) && !defined(WITHOUT_BUSIEST)

extern __typeof__(watch32_busiest) __real_watch32_busiest, __wrap_watch32_busiest;

uint64_t __wrap_watch32_busiest(uint64_t k, uint64_t n, uint8_t *events, size_t events_len) {
    uint64_t reply = __real_watch32_busiest(k, n, events, events_len);
    put(events, events_len);
    return put_reply(reply);
}

#endif

#if !defined(OLD_FORM_ALONE) && !defined(WITHOUT_SHARES)

extern __typeof__(watch32_set_shares) __real_watch32_set_shares, __wrap_watch32_set_shares;
extern __typeof__(watch32_shared_open) __real_watch32_shared_open, __wrap_watch32_shared_open;
extern __typeof__(watch32_shared_take) __real_watch32_shared_take, __wrap_watch32_shared_take;
extern __typeof__(watch32_shared_close) __real_watch32_shared_close, __wrap_watch32_shared_close;

uint64_t __wrap_watch32_set_shares(const uint16_t *shares, size_t n, uint8_t *pool, size_t pool_len) {
    uint64_t reply = __real_watch32_set_shares(shares, n, pool, pool_len);
    put(pool, pool_len);
    return put_reply(reply);
}

uint64_t __wrap_watch32_shared_open(const uint8_t *rule, size_t rule_len, uint64_t k, uint64_t start_labels,
                                    uint8_t *record, size_t record_len, uint8_t *window, size_t window_len,
                                    uint8_t *pool, size_t pool_len, uint64_t number) {
    uint64_t reply = __real_watch32_shared_open(rule, rule_len, k, start_labels, record, record_len, window, window_len,
                                                pool, pool_len, number);
    put(record, record_len);
    put(window, window_len);
    put(pool, pool_len);
    return put_reply(reply);
}

uint64_t __wrap_watch32_shared_take(uint8_t *record, size_t record_len, uint8_t *window, size_t window_len,
                                    uint8_t *scratch, size_t scratch_len, uint8_t *pool, size_t pool_len,
                                    uint64_t number) {
    uint64_t reply = __real_watch32_shared_take(record, record_len, window, window_len, scratch, scratch_len, pool,
                                                pool_len, number);
    put(record, record_len);
    put(window, window_len);
    put(scratch, scratch_len);
    put(pool, pool_len);
    return put_reply(reply);
}

uint64_t __wrap_watch32_shared_close(uint64_t process, uint8_t *record, size_t record_len, uint8_t *window,
                                     size_t window_len, uint8_t *pool, size_t pool_len, uint64_t number) {
    uint64_t reply = __real_watch32_shared_close(process, record, record_len, window, window_len, pool, pool_len,
                                                 number);
    put(record, record_len);
    put(window, window_len);
    put(pool, pool_len);
    return put_reply(reply);
}

#endif
