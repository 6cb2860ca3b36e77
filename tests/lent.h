/* Buffers to lend: behind each lies a page that nobody may touch, around it bytes that must not change. */
#ifndef LENT_H
#define LENT_H

#include <stdbool.h>
#include <stddef.h>
#include <stdint.h>

struct lent {
    uint8_t *bytes;
    size_t length;
    uint8_t *slab; /* whole pages, the buffer near their end */
    size_t slab_length;
};

/* Makes room for buffers up to this length. */
struct lent lent_new(size_t most);
void lent_free(struct lent *l);

/* A buffer of this length, all 0, ending so many bytes before the forbidden page: 0 finds every read behind it, 1 to 7 an alignment
 * that was taken for granted. What the last one held is gone. */
void lend(struct lent *l, size_t length, size_t before_end);

/* The same, and the first bytes as they were. */
void lend_again(struct lent *l, size_t length, size_t before_end);

/* No byte of the slab outside the buffer has changed. */
bool lent_intact(const struct lent *l);

/* What to do when a forbidden page is touched: print where we are. The program then ends with 1. */
void lent_on_fault(void (*report)(void));

bool all_zero(const uint8_t *bytes, size_t length);

#endif
