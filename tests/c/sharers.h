/* Watches under test that share a pool: each call is made on guarded buffers, and what holds of every call is checked
 * with it: bytes around the buffers, what a refusal leaves, and the two bytes of the pool that may change. */
#ifndef SHARERS_H
#define SHARERS_H

#include <string.h>

#include "subject.h"

#define RULE "(ep (at 0 0))"

enum { POOL = 32, SHARERS = 8, LIST_MOST = 65544 };

extern struct lent pool;
extern struct subject sharers[SHARERS];

void sharers_new(void);
void sharers_free(void);

/* A pool of this length from now on, with the bytes that it had. */
void lend_pool(size_t length);

/* The caller's own hand: the share of a number, and how many frontiers the pool says it keeps. */
void lay_share(unsigned number, unsigned share);
void lay_kept(unsigned number, unsigned kept);

/* At most LIST_MOST shares. */
uint64_t set(const uint16_t *shares, size_t n);
#define SET(...) set((const uint16_t[]){__VA_ARGS__}, sizeof((const uint16_t[]){__VA_ARGS__}) / sizeof(uint16_t))

uint64_t shared_open(struct subject *s, const char *rule, uint64_t k, uint64_t labels, uint64_t number);
uint64_t shared_take(struct subject *s, uint64_t number);
uint64_t shared_close(struct subject *s, uint64_t process, uint64_t number);

/* A watch that keeps what it is told to: it has two processes, of which 1 alone has events, so that process 0 keeps
 * every frontier, and n events keep n + 1. */
void open_number(unsigned number, size_t room);
uint64_t next_take(unsigned number);
void grow(unsigned number, unsigned to);

/* Process 0 is closed: its window becomes one frontier, and one it stays. */
void shrink(unsigned number);

/* It grows to so many frontiers, and then meets 36. */
void check_most(unsigned number, unsigned most);

#endif
