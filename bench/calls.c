/* The library's calls beside plain C ones (plain.c), the same work in the same run: medians, and their ratio. Prints a
 * table in markdown. Both sides' replies and bytes are compared after each piece of work; a difference ends the run
 * with 1. Build and run: make bench */
#define _POSIX_C_SOURCE 199309L
#include <stdbool.h>
#include <stdio.h>
#include <stdlib.h>
#include <string.h>
#include <time.h>

#include "../include/watch.h"
#include "plain.h"

#define RULE_8 "(ey (and (es (at 0 0) (at 1 0)) (as (at 0 1) (at 1 1))))"
#define RULE_64                                                                                                                       \
    "(not (and (ep (at 1 7)) (and (or (at 0 6) (at 1 6)) (and (ep (and (at 0 0) (at 1 0))) (and (ah (at 0 1)) (and (eh (at 1 1)) (and " \
    "(ap (at 0 2)) (and (ay (at 1 2)) (and (ey (at 0 3)) (and (es (at 0 4) (at 1 4)) (as (at 0 5) (at 1 5))))))))))))"

enum { ROUNDS = 301, WINDOW = WATCH32_FRONTIER_BYTES * WATCH_ROOM };

/* One side: its calls, its watch, where a move of it goes, its page, its list of events, the pool in which it is number
 * 0, a digest of its replies. */
struct side {
    uint64_t (*open)(const uint8_t *, size_t, uint64_t, uint64_t, uint8_t *, size_t, uint8_t *, size_t);
    uint64_t (*offer)(uint64_t, uint64_t, uint64_t, uint64_t, uint8_t *, size_t);
    uint64_t (*offer32)(uint64_t, uint64_t, uint64_t, uint64_t, uint64_t, uint64_t, uint8_t *, size_t);
    uint64_t (*take)(uint8_t *, size_t, uint8_t *, size_t, uint8_t *, size_t);
    uint64_t (*find)(uint64_t, const uint8_t *, size_t, const uint8_t *, size_t);
    uint64_t (*close)(uint64_t, uint8_t *, size_t, uint8_t *, size_t);
    uint64_t (*move)(const uint8_t *, size_t, const uint8_t *, size_t, uint8_t *, size_t, uint8_t *, size_t);
    uint64_t (*page)(const uint8_t *, size_t, const uint8_t *, size_t, uint8_t *, size_t);
    uint64_t (*busiest)(uint64_t, uint64_t, uint8_t *, size_t);
    uint64_t (*set_shares)(const uint16_t *, size_t, uint8_t *, size_t);
    uint64_t (*shared_open)(const uint8_t *, size_t, uint64_t, uint64_t, uint8_t *, size_t, uint8_t *, size_t,
                            uint8_t *, size_t, uint64_t);
    uint64_t (*shared_take)(uint8_t *, size_t, uint8_t *, size_t, uint8_t *, size_t, uint8_t *, size_t, uint64_t);
    uint64_t (*shared_close)(uint64_t, uint8_t *, size_t, uint8_t *, size_t, uint8_t *, size_t, uint64_t);
    uint8_t record[WATCH32_RECORD_BYTES], window[WINDOW], scratch[WINDOW];
    uint8_t to_record[WATCH32_RECORD_BYTES], to_window[WINDOW];
    uint8_t rows[WATCH32_PAGE_BYTES(WATCH_ROOM)];
    uint8_t events[WATCH32_EVENTS_BYTES(WATCH32_DAY_EVENTS)];
    uint8_t pool[WATCH32_POOL_BYTES];
    uint64_t digest;
    double times[ROUNDS];
};

static struct side proved, plain;

/* A piece of work starts each time from these bytes. */
static struct {
    bool wide; /* the form: of the record's bytes and of a frontier's */
    size_t record_length, frontier;
    uint8_t record[WATCH32_RECORD_BYTES], window[WINDOW], pool[WATCH32_POOL_BYTES];
    size_t length; /* of the window that is lent */
    unsigned k;
    const char *rule;
} saved;

/* From here on the calls of this form. */
static void choose_form(bool wide) {
    saved.wide = wide;
    saved.record_length = wide ? WATCH32_RECORD_BYTES : WATCH_RECORD_BYTES;
    saved.frontier = wide ? WATCH32_FRONTIER_BYTES : WATCH_FRONTIER_BYTES;
    proved.open = wide ? watch32_open : watch_open, plain.open = wide ? plain32_open : plain_open;
    proved.offer = watch_offer, plain.offer = plain_offer;
    proved.offer32 = watch32_offer, plain.offer32 = plain32_offer;
    proved.take = wide ? watch32_take : watch_take, plain.take = wide ? plain32_take : plain_take;
    proved.find = wide ? watch32_find : watch_find, plain.find = wide ? plain32_find : plain_find;
    proved.close = wide ? watch32_close : watch_close, plain.close = wide ? plain32_close : plain_close;
    proved.move = wide ? watch_narrow : watch_widen, plain.move = wide ? plain32_move : plain_move;
    proved.page = watch32_page, plain.page = plain32_page;
    proved.busiest = watch32_busiest, plain.busiest = plain32_busiest;
    proved.set_shares = watch32_set_shares, plain.set_shares = plain32_set_shares;
    proved.shared_open = watch32_shared_open, plain.shared_open = plain32_shared_open;
    proved.shared_take = watch32_shared_take, plain.shared_take = plain32_shared_take;
    proved.shared_close = watch32_shared_close, plain.shared_close = plain32_shared_close;
}

/* The bytes of so many frontiers. */
static size_t room_for(size_t frontiers) {
    return saved.frontier * frontiers;
}

static double now(void) {
    struct timespec t;
    clock_gettime(CLOCK_MONOTONIC, &t);
    return (double)t.tv_sec * 1e6 + (double)t.tv_nsec / 1e3;
}

static void seen(struct side *s, uint64_t reply) {
    s->digest = (s->digest ^ reply) * 0x100000001b3u;
}

static uint64_t open_watch(struct side *s) {
    const uint8_t *rule = (const uint8_t *)saved.rule;
    uint64_t reply = s->open(rule, strlen(saved.rule), saved.k, 0, s->record, saved.record_length, s->window,
                             saved.length);
    seen(s, reply);
    return reply;
}

/* An event of the mask's processes with this clock and labels made from it. */
static uint64_t offer_event(struct side *s, unsigned mask, const uint32_t *c) {
    uint64_t labels = 0, reply;
    for (unsigned p = 0; p < 8; p++)
        if (mask >> p & 1) labels |= (uint64_t)(c[p] * 37u % 251 & 255) << 8 * p;
    if (saved.wide)
        reply = s->offer32(mask, watch32_counts(c[0], c[1]), watch32_counts(c[2], c[3]), watch32_counts(c[4], c[5]),
                           watch32_counts(c[6], c[7]), labels, s->record, saved.record_length);
    else
        reply = s->offer(mask, watch_counts((uint16_t)c[0], (uint16_t)c[1], (uint16_t)c[2], (uint16_t)c[3]),
                         watch_counts((uint16_t)c[4], (uint16_t)c[5], (uint16_t)c[6], (uint16_t)c[7]), labels,
                         s->record, saved.record_length);
    seen(s, reply);
    return reply;
}

static uint64_t take_event(struct side *s) {
    uint64_t reply = s->take(s->record, saved.record_length, s->window, saved.length, s->scratch, saved.length);
    seen(s, reply);
    return reply;
}

/* ---- measuring ---- */

typedef void work(struct side *s);

static void start_over(struct side *s) {
    memcpy(s->record, saved.record, sizeof saved.record);
    memcpy(s->window, saved.window, saved.length);
    memcpy(s->pool, saved.pool, sizeof saved.pool);
    s->digest = 0;
}

static double run_once(struct side *s, work *w) {
    start_over(s);
    double start = now();
    w(s);
    return now() - start;
}

static int ascending(const void *x, const void *y) {
    double a = *(const double *)x, b = *(const double *)y;
    return a < b ? -1 : a > b;
}

static double median(double *times, unsigned n) {
    qsort(times, n, sizeof *times, ascending);
    return times[n / 2];
}

static void compare_sides(const char *name) {
    if (proved.digest == plain.digest && memcmp(proved.record, plain.record, sizeof plain.record) == 0 &&
        memcmp(proved.window, plain.window, saved.length) == 0 &&
        memcmp(proved.scratch, plain.scratch, saved.length) == 0 &&
        memcmp(proved.to_record, plain.to_record, sizeof plain.to_record) == 0 &&
        memcmp(proved.to_window, plain.to_window, sizeof plain.to_window) == 0 &&
        memcmp(proved.rows, plain.rows, sizeof plain.rows) == 0 &&
        memcmp(proved.events, plain.events, sizeof plain.events) == 0 &&
        memcmp(proved.pool, plain.pool, sizeof plain.pool) == 0)
        return;
    printf("the two sides differ after: %s\n", name);
    exit(1);
}

static const char *heading = "";

/* Both sides in turn; units: how many calls the work has, for the time of one. */
static void measure(const char *name, work *w, unsigned units, unsigned rounds) {
    for (unsigned i = 0; i < rounds; i++) {
        struct side *first = i % 2 == 0 ? &proved : &plain, *second = i % 2 == 0 ? &plain : &proved;
        first->times[i] = run_once(first, w);
        second->times[i] = run_once(second, w);
    }
    compare_sides(name);
    double a = median(proved.times, rounds) / units, b = median(plain.times, rounds) / units;
    printf("| %s%s | %u | %.2f | %.2f | %.2f |\n", heading, name, watch_kept(plain.record), a, b, a / b);
    fflush(stdout);
}

/* ---- wide windows ---- */

static void one_take(struct side *s) { take_event(s); }

static void save(const struct side *s) {
    memcpy(saved.record, s->record, sizeof saved.record);
    memcpy(saved.window, s->window, saved.length);
}

/* Free events of k processes in turn. Measured: each take that first reaches so many frontiers, and the last one before the room ends. */
static void wide(unsigned k, const char *rule, const char *lines, bool curve) {
    uint32_t reached[8] = {0};
    unsigned shown = 8;
    char name[80];
    saved.k = k, saved.rule = rule, saved.length = room_for(WATCH_ROOM);
    start_over(&plain);
    open_watch(&plain);
    for (unsigned turn = 0;; turn++) {
        unsigned p = turn % k;
        uint32_t clock[8] = {0};
        clock[p] = ++reached[p];
        offer_event(&plain, 1u << p, clock);
        uint8_t before[WATCH32_RECORD_BYTES];
        static uint8_t window_before[WINDOW];
        memcpy(before, saved.record, sizeof before);
        memcpy(window_before, saved.window, sizeof window_before);
        save(&plain);
        uint64_t reply = take_event(&plain);
        if (watch_number(reply) == WATCH_NO_ROOM) {
            memcpy(saved.record, before, sizeof before);
            memcpy(saved.window, window_before, sizeof window_before);
            break;
        }
        if (curve && watch_value(reply) >= shown) {
            snprintf(name, sizeof name, "take, %u processes, %s lines", k, lines);
            measure(name, one_take, 1, ROUNDS);
            while (shown <= watch_value(reply)) shown *= 2;
            start_over(&plain);
            take_event(&plain);
        }
    }
    snprintf(name, sizeof name, "take, %u processes, %s lines, nearly full", k, lines);
    if (!curve || shown <= WATCH_ROOM) measure(name, one_take, 1, ROUNDS);
}

/* ---- narrow streams ---- */

enum { STREAM = 2000 };

/* Twice process 0, twice process 1, then both: two to five frontiers, then one. */
static void stream(struct side *s) {
    uint32_t met[8] = {0}, reached[8] = {0};
    open_watch(s);
    for (unsigned i = 0; i < STREAM; i++) {
        unsigned turn = i % 5, mask = turn < 2 ? 1 : turn < 4 ? 2 : 3;
        uint32_t clock[8];
        memcpy(clock, met, sizeof clock);
        for (unsigned p = 0; p < 2; p++)
            if (mask >> p & 1) clock[p] = ++reached[p];
        if (mask == 3) memcpy(met, clock, sizeof met);
        offer_event(s, mask, clock);
        take_event(s);
    }
}

/* ---- pending events, find, open ---- */

enum { BATCHES = 20, FINDS = 20, OPENS = 20, REPEATS = 20 };

static void reversed(struct side *s) {
    open_watch(s);
    for (uint32_t batch = 0; batch < BATCHES; batch++) {
        for (uint32_t i = 32; i > 0; i--) offer_event(s, 1, (uint32_t[8]){32 * batch + i});
        for (unsigned i = 0; i < 32; i++) take_event(s);
    }
}

/* Each of 32 pending events once more. */
static void sent_again(struct side *s) {
    for (unsigned i = 0; i < 32 * REPEATS; i++) offer_event(s, 1, (uint32_t[8]){2 + i % 32});
}

static void repeats(void) {
    saved.k = 1, saved.rule = "(ep (at 0 0))", saved.length = room_for(16);
    open_watch(&plain);
    for (uint32_t i = 2; i < 34; i++) offer_event(&plain, 1, (uint32_t[8]){i});
    save(&plain);
    measure("offer, one of 32 pending sent again", sent_again, 32 * REPEATS, 151);
}

/* A line that holds nowhere, or at the last frontier alone, so that every one is looked at. */
enum { RARE_LINE = 2 };

static void find_rare(struct side *s) {
    for (unsigned i = 0; i < FINDS; i++) seen(s, s->find(RARE_LINE, s->record, saved.record_length, s->window, saved.length));
}

static void finds(void) {
    measure("find, full window, line true nowhere", find_rare, FINDS, ROUNDS);
    saved.window[room_for(watch_kept(saved.record)) - 8] |= 1 << RARE_LINE;
    measure("find, full window, line true at the last alone", find_rare, FINDS, ROUNDS);
}

static void open_often(struct side *s) {
    for (unsigned i = 0; i < OPENS; i++) open_watch(s);
}

static void nothing_ready(struct side *s) {
    for (unsigned i = 0; i < FINDS; i++) take_event(s);
}

static void small_pieces(unsigned number) {
    static const size_t rooms[] = {16, 1024};
    char name[80];
    for (unsigned i = 0; i < number; i++) {
        saved.k = 2, saved.rule = RULE_8, saved.length = room_for(rooms[i]);
        snprintf(name, sizeof name, "offer and take, stream of 1 to 5 frontiers, room %zu", rooms[i]);
        measure(name, stream, STREAM, 51);
        saved.k = 1, saved.rule = "(ep (at 0 0))";
        snprintf(name, sizeof name, "offer and take, 32 pending in reversed order, room %zu", rooms[i]);
        measure(name, reversed, 32 * BATCHES, 51);
        saved.k = 2, saved.rule = RULE_64;
        snprintf(name, sizeof name, "open, 64 lines, room %zu", rooms[i]);
        measure(name, open_often, OPENS, 151);
        save(&plain);
        snprintf(name, sizeof name, "take, nothing ready, 64 lines, room %zu", rooms[i]);
        measure(name, nothing_ready, FINDS, 151);
    }
}

/* ---- clocks: the kept frontiers are looked through for what an event knows of ---- */

static uint64_t offer_next(struct side *s, unsigned p, const uint32_t *known) {
    uint32_t clock[8];
    memcpy(clock, known, sizeof clock);
    clock[p]++;
    return offer_event(s, 1u << p, clock);
}

/* Free events of k processes in turn, until the window is full or one stays pending for want of room. The counts taken
 * go into reached. */
static void fill(unsigned k, uint32_t *reached) {
    saved.k = k, saved.rule = RULE_8, saved.length = room_for(WATCH_ROOM);
    start_over(&plain);
    open_watch(&plain);
    memset(reached, 0, 8 * sizeof *reached);
    for (unsigned p = 0; watch_kept(plain.record) < WATCH_ROOM; p = (p + 1) % k) {
        uint32_t known[8] = {0};
        known[p] = reached[p];
        offer_next(&plain, p, known);
        if (watch_number(take_event(&plain)) == WATCH_NO_ROOM) return;
        reached[p]++;
    }
}

/* The last frontier is the one; then one that is not kept is looked for; then each of eight ready events is tried. */
static void clocks(void) {
    uint32_t known[8], reached[8];
    fill(2, known);
    offer_next(&plain, 0, known);
    save(&plain);
    measure("take, it knows the last of 1,024 kept", one_take, 1, ROUNDS);
    start_over(&plain);
    take_event(&plain);
    known[0]++, known[1] = 0;
    offer_next(&plain, 0, known);
    save(&plain);
    measure("take, a false clock", one_take, 1, ROUNDS);
    fill(8, reached);
    for (unsigned p = 0; p < 8; p++) {
        memset(known, 0, sizeof known);
        known[p] = reached[p];
        offer_next(&plain, p, known);
    }
    save(&plain);
    measure("take, eight ready, none fits", one_take, 1, ROUNDS);
}

/* ---- closes ---- */

static unsigned to_close;

static void one_close(struct side *s) {
    seen(s, s->close(to_close, s->record, saved.record_length, s->window, saved.length));
}

static void measure_close(const char *name, unsigned process) {
    to_close = process;
    save(&plain);
    measure(name, one_close, 1, ROUNDS);
}

/* Only process 1 has events: process 0 keeps every frontier, and process 1 only the last. */
static void fill_alone(uint32_t frontiers) {
    saved.k = 2, saved.rule = RULE_8, saved.length = room_for(WATCH_ROOM);
    start_over(&plain);
    open_watch(&plain);
    for (uint32_t n = 0; watch_kept(plain.record) < frontiers; n++) {
        offer_next(&plain, 1, (uint32_t[8]){0, n});
        take_event(&plain);
    }
}

/* The highest process that the event which found no room does not name: while that is pending, its processes cannot be
 * closed. */
static unsigned last_not_named(unsigned k) {
    const uint8_t *pending = plain.record + (saved.wide ? 488 : 344);
    unsigned p = k - 1;
    while (watch_pending(plain.record) > 0 && pending[0] >> p & 1) p--;
    return p;
}

/* Wide windows, of which some part goes; then all frontiers but one; then none. */
static void closes(void) {
    uint32_t reached[8];
    char name[80];
    for (unsigned k = 2; k <= 8; k *= 2) {
        fill(k, reached);
        snprintf(name, sizeof name, "close, %u processes, of %u frontiers", k, watch_kept(plain.record));
        measure_close(name, last_not_named(k));
    }
    fill_alone(WATCH_ROOM);
    measure_close("close, of 1,024 frontiers all but one dropped", 0);
    fill_alone(WATCH_ROOM);
    measure_close("close, of 1,024 frontiers none dropped", 1);
}

/* ---- the wide form, and moves ---- */

static void one_move(struct side *s) {
    size_t record = saved.wide ? WATCH_RECORD_BYTES : WATCH32_RECORD_BYTES, room = saved.length / saved.frontier;
    size_t window = saved.wide ? WATCH_WINDOW_BYTES(room) : WATCH32_WINDOW_BYTES(room);
    uint64_t reply = s->move(s->record, saved.record_length, s->window, saved.length, s->to_record, record,
                             s->to_window, window);
    seen(s, reply);
}

static void moves(void) {
    for (unsigned wide = 0; wide < 2; wide++) {
        choose_form(wide);
        fill_alone(WATCH_ROOM);
        save(&plain);
        measure(wide ? "narrow, room 1024" : "widen, room 1024", one_move, 1, ROUNDS);
        saved.length = room_for(16);
        start_over(&plain);
        open_watch(&plain);
        save(&plain);
        measure(wide ? "narrow, room 16" : "widen, room 16", one_move, 1, ROUNDS);
    }
}

/* ---- pages ---- */

static void one_page(struct side *s) {
    seen(s, s->page(s->record, saved.record_length, s->window, saved.length, s->rows, sizeof s->rows));
}

static void lay_count(uint8_t *at, uint32_t number) {
    for (unsigned i = 0; i < 4; i++) at[i] = (uint8_t)(number >> 8 * i);
}

/* A full window of eight processes, in ascending order, with counts from these on. They are laid down, since no stream
 * of events is long enough; a page goes by the bytes alone. */
static void fill_counts(const uint32_t *least) {
    saved.k = 8, saved.rule = RULE_8, saved.length = room_for(WATCH_ROOM);
    start_over(&plain);
    open_watch(&plain);
    lay_count(plain.record + 4, WATCH_ROOM);
    for (unsigned i = 0; i < WATCH_ROOM; i++) {
        uint8_t *frontier = plain.window + room_for(i);
        for (unsigned p = 0; p < 8; p++) lay_count(frontier + 4 * p, least[p] + (i >> (7 - p) & 7));
        frontier[48] = i % 3 == 0 ? 255 : 0;
    }
    save(&plain);
}

static void pages(void) {
    choose_form(true);
    fill_counts((const uint32_t[8]){4000000000, 1000000000, 2147483644, 3999999996, 1234567890, 4294967288, 1999999998,
                                    3141592653});
    measure("page, 8 processes, counts of ten digits", one_page, 1, ROUNDS);
    fill_counts((const uint32_t[8]){1, 20, 300, 0, 42, 512, 2, 95});
    measure("page, 8 processes, counts of one to three digits", one_page, 1, ROUNDS);
}

/* ---- busiest days ---- */

static unsigned day_processes, day_events, day_calls;

static void some_days(struct side *s) {
    for (unsigned i = 0; i < day_calls; i++)
        seen(s, s->busiest(day_processes, day_events, s->events, WATCH32_EVENTS_BYTES(day_events)));
}

/* No watch is at work here: what the day keeps is laid into the record for the table alone. */
static void measure_day(const char *name, unsigned k, unsigned n, unsigned calls) {
    day_processes = k, day_events = n, day_calls = calls;
    lay_count(saved.record + 4, watch_value(plain.busiest(k, n, plain.events, WATCH32_EVENTS_BYTES(n))));
    measure(name, some_days, 1, ROUNDS);
}

/* Short ones by the hundred, since one is over in a few hundredths of a microsecond. */
static void days(void) {
    choose_form(true);
    measure_day("busiest day, 1 process, 65,535 events", 1, 65535, 1);
    measure_day("busiest day, 2 processes, 1,023 events", 2, 1023, 1);
    measure_day("a hundred busiest days, 4 processes, 23 events", 4, 23, 100);
    measure_day("a hundred busiest days, 8 processes, 11 events", 8, 11, 100);
    measure_day("a hundred busiest days refused: 46, 8 processes, 65,535 events", 8, 65535, 100);
}

/* ---- watches that share ---- */

/* Shares of eight watches, of which the first is the one at work; the others keep one frontier each. */
static const uint16_t *shares;

static void lay_pool(const uint16_t *of_eight) {
    shares = of_eight;
    plain.set_shares(shares, WATCH32_SHARES, saved.pool, sizeof saved.pool);
    for (unsigned i = 0; i < WATCH32_SHARES; i++) saved.pool[16 + 2 * i] = 1;
}

static void one_shared_take(struct side *s) {
    seen(s, s->shared_take(s->record, saved.record_length, s->window, saved.length, s->scratch, saved.length, s->pool,
                           sizeof s->pool, 0));
}

static void shared_nothing(struct side *s) {
    for (unsigned i = 0; i < FINDS; i++) one_shared_take(s);
}

static void one_shared_close(struct side *s) {
    seen(s, s->shared_close(to_close, s->record, saved.record_length, s->window, saved.length, s->pool, sizeof s->pool,
                            0));
}

static void shared_opens(struct side *s) {
    for (unsigned i = 0; i < OPENS; i++)
        seen(s, s->shared_open((const uint8_t *)saved.rule, strlen(saved.rule), saved.k, 0, s->record,
                               saved.record_length, s->window, saved.length, s->pool, sizeof s->pool, 0));
}

static void hundred_settings(struct side *s) {
    for (unsigned i = 0; i < 100; i++) seen(s, s->set_shares(shares, WATCH32_SHARES, s->pool, sizeof s->pool));
}

/* The same bytes by both calls, one row below the other. */
static void measure_both(const char *name, work *single, work *shared, unsigned units, unsigned rounds) {
    heading = "by itself: ";
    measure(name, single, units, rounds);
    heading = "sharing: ";
    measure(name, shared, units, rounds);
}

/* The last take before the share ends, within which the nearly full windows are. */
static void shared_wide(unsigned k, const char *rule, const char *lines) {
    char name[80];
    heading = "by itself: ";
    wide(k, rule, lines, false);
    heading = "sharing: ";
    snprintf(name, sizeof name, "take, %u processes, %s lines, nearly full", k, lines);
    measure(name, one_shared_take, 1, ROUNDS);
}

static void sharing(void) {
    static const uint16_t large[WATCH32_SHARES] = {1017, 1, 1, 1, 1, 1, 1, 1};
    static const uint16_t small[WATCH32_SHARES] = {16, 144, 144, 144, 144, 144, 144, 144};
    choose_form(true);
    lay_pool(large);
    shared_wide(4, RULE_8, "8");
    shared_wide(8, RULE_8, "8");
    saved.k = 2, saved.rule = RULE_8, saved.length = room_for(16);
    start_over(&plain);
    open_watch(&plain);
    save(&plain);
    measure_both("take, nothing ready, 8 lines, room 16", nothing_ready, shared_nothing, FINDS, 151);
    saved.rule = RULE_64;
    measure_both("open, 64 lines, room 16", open_often, shared_opens, OPENS, 151);
    fill_alone(large[0]);
    offer_next(&plain, 1, (uint32_t[8]){0, large[0] - 1u});
    save(&plain);
    measure("take, it would pass the share, and nothing is unpromised", one_shared_take, 1, ROUNDS);
    fill_alone(WATCH_ROOM);
    to_close = 0;
    save(&plain);
    measure_both("close, of 1,024 frontiers all but one dropped", one_close, one_shared_close, 1, ROUNDS);
    heading = "";
    lay_pool(small);
    lay_count(saved.record + 4, 0); /* no watch is at work here */
    measure("a hundred settings of eight shares", hundred_settings, 1, ROUNDS);
}

/* The dearest lines of each kind. */
static void wide_form(void) {
    choose_form(true);
    heading = "wide form: ";
    wide(2, RULE_8, "8", false);
    wide(4, RULE_8, "8", false);
    wide(8, RULE_8, "8", false);
    wide(8, RULE_64, "64", false);
    saved.rule = "(ep (at 1 7))";
    wide(2, saved.rule, "6", false);
    save(&plain);
    finds();
    small_pieces(1);
    repeats();
    clocks();
    closes();
    heading = "";
}

int main(void) {
    choose_form(false);
    printf("| work | frontiers after | proved (us a call) | plain C (us) | ratio |\n|---|---|---|---|---|\n");
    wide(2, RULE_8, "8", true);
    wide(4, RULE_8, "8", true);
    wide(8, RULE_8, "8", true);
    wide(2, RULE_64, "64", false);
    wide(4, RULE_64, "64", false);
    wide(8, RULE_64, "64", false);
    saved.k = 2, saved.rule = "(ep (at 1 7))";
    wide(2, saved.rule, "6", false);
    save(&plain);
    finds();
    small_pieces(2);
    repeats();
    clocks();
    closes();
    wide_form();
    moves();
    pages();
    days();
    sharing();
    return 0;
}
