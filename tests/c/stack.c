/* The stack that a call needs, measured: it runs on a stack of its own, painted before. */
#define _XOPEN_SOURCE 600
#include <stdlib.h>
#include <string.h>
#include <ucontext.h>

#include "subject.h"

enum { STACK = 1 << 18, PAINT = 0x5C };

static struct subject *at_work;
static uint64_t answer;
static ucontext_t here, there;

static const char deepest[] = "(not (not (not (not (not (not (not (not (not (not (not (not (not (not (not (not (not (not (not (ep (ep (ep "
                              "(ah (not (not (not (not (not (not (not (or (at 0 0) (at 1 7))))))))))))))))))))))))))))))))";

static void do_nothing(void) {}

static void do_open(void) {
    answer = watch_open((const uint8_t *)deepest, sizeof deepest - 1, 2, 0, at_work->record.bytes, at_work->record.length,
                        at_work->window.bytes, at_work->window.length);
}

static void do_offer(void) {
    answer = watch_offer(2, watch_counts(0, 300, 0, 0), 0, 0, at_work->record.bytes, at_work->record.length);
}

static void do_take(void) {
    answer = watch_take(at_work->record.bytes, at_work->record.length, at_work->window.bytes, at_work->window.length,
                        at_work->scratch.bytes, at_work->scratch.length);
}

static void do_find(void) {
    answer = watch_find(0, at_work->record.bytes, at_work->record.length, at_work->window.bytes, at_work->window.length);
}

static void do_close(void) {
    answer = watch_close(0, at_work->record.bytes, at_work->record.length, at_work->window.bytes,
                         at_work->window.length);
}

static struct subject *wide;

static void do_wide_open(void) {
    answer = watch32_open((const uint8_t *)deepest, sizeof deepest - 1, 2, 0, wide->record.bytes, wide->record.length,
                          wide->window.bytes, wide->window.length);
}

static void do_wide_offer(void) {
    answer = watch32_offer(2, watch32_counts(0, 300), 0, 0, 0, 0, wide->record.bytes, wide->record.length);
}

static void do_wide_take(void) {
    answer = watch32_take(wide->record.bytes, wide->record.length, wide->window.bytes, wide->window.length,
                          wide->scratch.bytes, wide->scratch.length);
}

static void do_wide_find(void) {
    answer = watch32_find(0, wide->record.bytes, wide->record.length, wide->window.bytes, wide->window.length);
}

static void do_wide_close(void) {
    answer = watch32_close(0, wide->record.bytes, wide->record.length, wide->window.bytes, wide->window.length);
}

static void do_widen(void) {
    answer = watch_widen(at_work->record.bytes, at_work->record.length, at_work->window.bytes, at_work->window.length,
                         wide->record.bytes, wide->record.length, wide->window.bytes, wide->window.length);
}

static void do_narrow(void) {
    answer = watch_narrow(wide->record.bytes, wide->record.length, wide->window.bytes, wide->window.length,
                          at_work->record.bytes, at_work->record.length, at_work->window.bytes, at_work->window.length);
}

static uint8_t page[WATCH32_PAGE_BYTES(WATCH_ROOM)];

static void do_page(void) {
    answer = watch32_page(wide->record.bytes, wide->record.length, wide->window.bytes, wide->window.length, page,
                          sizeof page);
}

static uint8_t day[WATCH32_EVENTS_BYTES(1023)];

static void do_busiest(void) {
    answer = watch32_busiest(2, 1023, day, sizeof day);
}

static uint8_t pool[WATCH32_POOL_BYTES];

static void do_set_shares(void) {
    static const uint16_t shares[WATCH32_SHARES] = {1, 1, 1, 1, 1, 1, 1, 1};
    answer = watch32_set_shares(shares, WATCH32_SHARES, pool, sizeof pool);
}

static void do_shared_open(void) {
    answer = watch32_shared_open((const uint8_t *)deepest, sizeof deepest - 1, 2, 0, wide->record.bytes,
                                 wide->record.length, wide->window.bytes, wide->window.length, pool, sizeof pool, 7);
}

static void do_shared_take(void) {
    answer = watch32_shared_take(wide->record.bytes, wide->record.length, wide->window.bytes, wide->window.length,
                                 wide->scratch.bytes, wide->scratch.length, pool, sizeof pool, 7);
}

static void do_shared_close(void) {
    answer = watch32_shared_close(0, wide->record.bytes, wide->record.length, wide->window.bytes, wide->window.length,
                                  pool, sizeof pool, 7);
}

/* How deep the call went into the painted stack. */
static size_t depth(void (*call)(void)) {
    uint8_t *stack = malloc(STACK);
    size_t untouched = 0;
    if (stack == NULL || getcontext(&there) != 0) abort();
    memset(stack, PAINT, STACK);
    there.uc_stack.ss_sp = stack;
    there.uc_stack.ss_size = STACK;
    there.uc_link = &here;
    makecontext(&there, call, 0);
    swapcontext(&here, &there);
    while (untouched < STACK && stack[untouched] == PAINT) untouched++;
    free(stack);
    return STACK - untouched;
}

static size_t nothing, deepest_of_all;

static size_t used(void (*call)(void)) {
    size_t bytes = depth(call) - nothing;
    CHECK(bytes <= WATCH_STACK_BYTES);
    if (bytes > deepest_of_all) deepest_of_all = bytes;
    return bytes;
}

/* To 300 frontiers. */
static void grow(struct subject *s) {
    for (unsigned n = 1; n < 300; n++) {
        offer(s, 2, 0, n, 0, 0, 0);
        try_take(s);
    }
}

/* The five calls of one form, on a window that grows to 301 frontiers. */
static void measure(struct subject *s, const char *name, void (*const call[5])(void)) {
    size_t bytes[5];
    lend_room(s, WATCH_ROOM);
    bytes[0] = used(call[0]);
    CHECK(watch_number(answer) == 0 && watch_lines(s->record.bytes) == 54);
    grow(s);
    bytes[1] = used(call[1]);
    CHECK_REPLY(answer, held(1));
    bytes[2] = used(call[2]);
    CHECK(watch_number(answer) == 0 && watch_value(answer) == 301);
    bytes[3] = used(call[3]);
    CHECK(watch_number(answer) == 0);
    bytes[4] = used(call[4]);
    CHECK_REPLY(answer, closed(1));
    printf("stack%s: open %zu, offer %zu, take %zu, find %zu, close %zu bytes\n", name, bytes[0], bytes[1], bytes[2],
           bytes[3], bytes[4]);
}

/* The same with a pool. The first of its takes puts right what plain ones left stale. */
static void measure_shared(struct subject *s) {
    size_t set = used(do_set_shares);
    CHECK_REPLY(answer, 0);
    lend_room(s, WATCH_ROOM);
    size_t open = used(do_shared_open);
    CHECK(watch_number(answer) == 0 && watch32_share_kept(pool, 7) == 1);
    grow(s);
    do_wide_offer();
    size_t take = used(do_shared_take);
    CHECK(watch_number(answer) == 0 && watch_value(answer) == 301 && watch32_share_kept(pool, 7) == 301);
    size_t close = used(do_shared_close);
    CHECK_REPLY(answer, closed(1));
    printf("stack with a pool: set shares %zu, open %zu, take %zu, close %zu bytes\n", set, open, take, close);
}

void test_stack(void) {
    struct subject old = subject_new(), new = subject_wide();
    at_work = &old, wide = &new;
    nothing = depth(do_nothing);
    measure(&old, "", (void (*const[])(void)){do_open, do_offer, do_take, do_find, do_close});
    measure(&new, " of the wide form", (void (*const[])(void)){do_wide_open, do_wide_offer, do_wide_take, do_wide_find,
                                                                do_wide_close});
    measure_shared(&new);
    size_t there = used(do_widen);
    CHECK_REPLY(answer, 0);
    size_t back = used(do_narrow);
    CHECK_REPLY(answer, 0);
    memcpy(wide->record.bytes + 4, "\0\4\0\0", 4); /* as if all 1,024 places were kept */
    memset(wide->window.bytes, 255, wide->window.length);
    size_t rows = used(do_page);
    CHECK_REPLY(answer, (uint64_t)WATCH_ROOM << 16);
    size_t events = used(do_busiest);
    CHECK_REPLY(answer, (uint64_t)1024 << 16);
    printf("stack: widen %zu, narrow %zu, page %zu, busiest day %zu bytes; the deepest call %zu\n", there, back, rows,
           events, deepest_of_all);
    subject_free(&old);
    subject_free(&new);
}
