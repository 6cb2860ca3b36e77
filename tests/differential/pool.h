/* A pool and the model's bytes of it side by side, the shared calls on a twin, and runs of several twins on a pool. */
#ifndef POOL_H
#define POOL_H

#include "twin.h"

enum { POOL_MOST = 64 };

struct pool {
    struct lent lent;         /* the library's */
    uint8_t bytes[POOL_MOST]; /* the model's */
};

/* Lends the library a pool of this length from now on, with the model's bytes in it. */
void pool_lend(struct pool *p, struct source *s, size_t length);
size_t wrong_pool(struct source *s);

/* Each call compares reply and all bytes, of the pool too. The twin counts the calls. */
uint64_t pool_set(struct pool *p, struct source *s, struct twin *t, const uint16_t *shares, size_t n);
uint64_t twin_shared_open(struct twin *t, struct pool *p, const uint8_t *rule, size_t length, uint64_t k,
                          uint64_t labels, uint64_t number);
uint64_t twin_shared_take(struct twin *t, struct pool *p, struct source *s, size_t scratch_length, uint64_t number);
uint64_t twin_shared_close(struct twin *t, struct pool *p, uint64_t process, uint64_t number);

/* Of a watch whose take was answered 36: some ready event fits the lent window, so the pool alone is in its way. */
bool lent_would_do(const struct twin *t);

/* One of the watches of a run. */
struct sharer {
    struct twin twin;
    struct execution execution;
    unsigned next;  /* of its events */
    bool open;      /* it was opened, once at least */
    bool pool_full; /* its last take was turned back by the pool alone */
};

struct run {
    struct pool pool;
    unsigned n; /* of shares */
    uint16_t shares[SHARES];
    struct sharer sharer[SHARES];
};

/* A run whose shares are set; its watches are not opened yet. */
struct run *run_new(void);
void run_begins(struct run *r, struct source *s, struct twin *t, const uint16_t *shares, unsigned n);
unsigned random_shares(struct source *s, uint16_t *shares); /* that are not refused; returns how many */

/* By the library's own bytes: the kept numbers are the records', and what is kept or promised is no more than 1,024. */
void run_check(const struct run *r);

/* What a watch of a run does: mostly its next step, now and then a call that is refused. Strict: none that would make
 * the pool stale, and after each call the run is checked. */
void run_step(struct run *r, struct source *s, unsigned i, bool strict);

/* A rule and an execution for a watch that is opened with them. */
struct opening {
    uint8_t text[TEXT_MOST];
    size_t length, room;
    uint64_t k, labels;
    struct execution execution;
};
void random_opening(struct source *s, struct opening *o, bool refused);
void sharer_begins(struct sharer *w, const struct opening *o); /* it was opened so */
uint64_t open_sharer(struct run *r, struct source *s, unsigned i, const struct opening *o, uint64_t number);

#endif
