/* A watch under test. Each call is made on guarded buffers, and what holds of every call is checked with it: bytes around the buffers, and
 * the bytes that a refusal must leave. */
#ifndef SUBJECT_H
#define SUBJECT_H

#include "../lent.h"
#include "../../include/watch.h"
#include "check.h"

struct subject {
    int wide; /* stored in the wide form, and called by its calls */
    struct lent text, record, window, scratch;
};

struct subject subject_new(void);  /* of the old form */
struct subject subject_wide(void);
void subject_free(struct subject *s);

/* Lends a window of so many frontiers and a scratch full of junk; the window keeps its bytes. */
void lend_room(struct subject *s, size_t room);
void lend_junk(struct subject *s, size_t length);

/* By the form. */
size_t record_bytes(const struct subject *s);
size_t frontiers_bytes(const struct subject *s, size_t number);
uint32_t taken_of(const struct subject *s, unsigned p);
uint32_t cut_of(const struct subject *s, size_t place, unsigned p);

uint64_t try_open(struct subject *s, const char *rule, uint64_t k, uint64_t labels);
uint64_t try_open_bytes(struct subject *s, const uint8_t *rule, size_t length, uint64_t k, uint64_t labels);
uint64_t try_offer(struct subject *s, uint64_t mask, uint64_t low, uint64_t high, uint64_t labels); /* old form only */
uint64_t try_offer_counts(struct subject *s, uint64_t mask, const uint32_t *counts, uint64_t labels);
uint64_t try_take(struct subject *s);
uint64_t try_find(struct subject *s, uint64_t line);
uint64_t try_close(struct subject *s, uint64_t process);

/* A watch of k processes with this rule, labels 0, room for so many frontiers. */
void start(struct subject *s, size_t room, uint64_t k, const char *rule);

/* An event of the mask's processes, with counts of processes 0 to 3. */
uint64_t offer(struct subject *s, unsigned mask, unsigned a, unsigned b, unsigned c, unsigned d, uint64_t labels);

static inline uint64_t refused(unsigned number) { return number; }
static inline uint64_t refused_at(unsigned number, uint64_t place) { return number | place << 32; }
static inline uint64_t state(unsigned truth, unsigned kept) { return (uint64_t)truth << 8 | (uint64_t)kept << 16; }
static inline uint64_t held(unsigned number) { return (uint64_t)number << 16; }
static inline uint64_t closed(unsigned kept) { return (uint64_t)kept << 16; }
#define NOTHING_READY ((uint64_t)0)

/* Find's reply: the place of a frontier, or that there is none. */
enum { NONE = -1 };
static inline uint64_t found(int place) { return place == NONE ? 0 : (uint64_t)1 << 8 | (uint64_t)place << 16; }

void test_texts(void);
void test_refusals(void);
void test_orders(void);
void test_lists(void);
void test_turns(void);
void test_examples(void);
void test_messages(void);
void test_find(void);
void test_close(void);
void test_edges(void);
void test_wide(void);
void test_moves(void);
void test_page(void);
void test_busiest(void);
void test_shares(void);
void test_pool(void);
void test_stack(void);

#endif
