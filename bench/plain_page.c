/* The page in plain C. It is of the wide form alone. */
#define COUNT_BYTES 4
#include "plain_inner.h"
#include "plain_refused.h"

enum { COLUMN = 11, ROW = PROCESSES * COLUMN + 5 };

static const char pairs[] = "00010203040506070809101112131415161718192021222324"
                            "25262728293031323334353637383940414243444546474849"
                            "50515253545556575859606162636465666768697071727374"
                            "75767778798081828384858687888990919293949596979899";

/* Two digits at a time from the right; what is left of the column stays blank. */
static inline void put_count(uint8_t *end, uint32_t number) {
    for (; number >= 100; number /= 100) end -= 2, memcpy(end, pairs + 2 * (number % 100), 2);
    if (number >= 10) memcpy(end - 2, pairs + 2 * number, 2);
    else end[-1] = (uint8_t)('0' + number);
}

uint64_t plain32_page(const uint8_t *record, size_t record_len, const uint8_t *window, size_t window_len,
                      uint8_t *page, size_t page_len) {
    if (record_len != RECORD || wrong_window(window_len)) return 6;
    if (damaged(record, window_len / FRONTIER)) return 34;
    unsigned k = record[0], rule = record[1] - 1u;
    uint32_t kept = load_kept(record);
    if (page_len < (size_t)ROW * kept) return 44;
    for (uint32_t i = 0; i < kept; i++) {
        const uint8_t *frontier = window + FRONTIER * i;
        uint8_t *row = page + ROW * i;
        struct counts c = load(frontier);
        memset(row, ' ', PROCESSES * COLUMN);
        for (unsigned p = 0; p < k; p++) put_count(row + COLUMN * (p + 1), c.at[p]);
        memcpy(row + PROCESSES * COLUMN, load_word(frontier + VALUES_AT) >> rule & 1 ? " yes\n" : " no \n", 5);
    }
    return (uint64_t)kept << 16;
}
