/* A fast C version of the calls, for comparison: the arguments, replies and bytes of include/watch.h. Nothing in it is
 * proved. */
#ifndef PLAIN_H
#define PLAIN_H

#include <stddef.h>
#include <stdint.h>

uint64_t plain_open(const uint8_t *rule, size_t rule_len, uint64_t k, uint64_t start_labels,
                    uint8_t *record, size_t record_len, uint8_t *window, size_t window_len);
uint64_t plain_offer(uint64_t mask, uint64_t clock_low, uint64_t clock_high, uint64_t labels,
                     uint8_t *record, size_t record_len);
uint64_t plain_take(uint8_t *record, size_t record_len, uint8_t *window, size_t window_len,
                    uint8_t *scratch, size_t scratch_len);
uint64_t plain_find(uint64_t line, const uint8_t *record, size_t record_len, const uint8_t *window, size_t window_len);
uint64_t plain_close(uint64_t process, uint8_t *record, size_t record_len, uint8_t *window, size_t window_len);

uint64_t plain32_open(const uint8_t *rule, size_t rule_len, uint64_t k, uint64_t start_labels,
                      uint8_t *record, size_t record_len, uint8_t *window, size_t window_len);
uint64_t plain32_offer(uint64_t mask, uint64_t c01, uint64_t c23, uint64_t c45, uint64_t c67, uint64_t labels,
                       uint8_t *record, size_t record_len);
uint64_t plain32_take(uint8_t *record, size_t record_len, uint8_t *window, size_t window_len,
                      uint8_t *scratch, size_t scratch_len);
uint64_t plain32_find(uint64_t line, const uint8_t *record, size_t record_len, const uint8_t *window,
                      size_t window_len);
uint64_t plain32_close(uint64_t process, uint8_t *record, size_t record_len, uint8_t *window, size_t window_len);

/* Out of the old form, as watch_widen, and out of the wide one, as watch_narrow. */
uint64_t plain_move(const uint8_t *record, size_t record_len, const uint8_t *window, size_t window_len,
                    uint8_t *to_record, size_t to_record_len, uint8_t *to_window, size_t to_window_len);
uint64_t plain32_move(const uint8_t *record, size_t record_len, const uint8_t *window, size_t window_len,
                      uint8_t *to_record, size_t to_record_len, uint8_t *to_window, size_t to_window_len);

uint64_t plain32_page(const uint8_t *record, size_t record_len, const uint8_t *window, size_t window_len,
                      uint8_t *page, size_t page_len);

uint64_t plain32_busiest(uint64_t k, uint64_t n, uint8_t *events, size_t events_len);

uint64_t plain32_set_shares(const uint16_t *shares, size_t n, uint8_t *pool, size_t pool_len);
uint64_t plain32_shared_open(const uint8_t *rule, size_t rule_len, uint64_t k, uint64_t start_labels,
                             uint8_t *record, size_t record_len, uint8_t *window, size_t window_len,
                             uint8_t *pool, size_t pool_len, uint64_t number);
uint64_t plain32_shared_take(uint8_t *record, size_t record_len, uint8_t *window, size_t window_len,
                             uint8_t *scratch, size_t scratch_len, uint8_t *pool, size_t pool_len, uint64_t number);
uint64_t plain32_shared_close(uint64_t process, uint8_t *record, size_t record_len, uint8_t *window, size_t window_len,
                              uint8_t *pool, size_t pool_len, uint64_t number);

#endif
