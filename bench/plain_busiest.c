/* The busiest day in plain C. A list of events is of the wide form alone. */
#define COUNT_BYTES 4
#include "plain_inner.h"

enum { DAY = 65535 };

/* Several processes keep more than n frontiers, so that days of over 1,023 events need no products, and those of the
 * others fit 64 bits. */
uint64_t plain32_busiest(uint64_t k, uint64_t n, uint8_t *events, size_t events_len) {
    if (k - 1 >= PROCESSES || n > DAY) return 45;
    if (k > 1 && n >= ROOM) return 46;
    uint32_t least = (uint32_t)n / (uint32_t)k, one_more = (uint32_t)n % (uint32_t)k;
    uint64_t cuts = 1, inner = 1;
    for (unsigned p = 0; p < k; p++) {
        uint64_t number = least + (p < one_more);
        cuts *= number + 1, inner *= number;
    }
    if (cuts - inner > ROOM) return 46;
    if (events_len != EVENT * n) return 6;
    if (n > 0) memset(events, 0, events_len);
    for (unsigned p = 0; p < k; p++) {
        count number = least + (p < one_more);
        for (count i = 1; i <= number; i++, events += EVENT) {
            events[0] = (uint8_t)(1u << p);
            memcpy(events + 8 + sizeof i * p, &i, sizeof i);
        }
    }
    return (cuts - inner) << 16;
}
