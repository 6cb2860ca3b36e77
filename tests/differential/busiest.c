/* Busiest days: the call beside the model on any words and on lists of any bytes and lengths; watches that take what it
 * lists, in any order and in a window that is no longer than it answers; and that no other sharing keeps more. */
#include <stdlib.h>
#include <string.h>

#include "twin.h"

enum { EVENT = 48, DAY_MOST = 65535, SHORT = 1100, SWEEP = 400, TAKEN_MOST = 64 };

/* A list, and the model's beside it. */
struct list {
    size_t most; /* bytes */
    struct lent lent;
    uint8_t *expected;
};

/* Clearing and comparing the long one takes a thousand times as long as a call, so it is lent seldom. */
static struct list *list_of(struct list *l, size_t events) {
    if (l->expected == NULL) {
        l->most = EVENT * (events + 2);
        l->lent = lent_new(l->most);
        l->expected = malloc(l->most);
        if (l->expected == NULL) abort();
    }
    return l;
}

static struct list *short_list(void) {
    static struct list l;
    return list_of(&l, SHORT);
}

static struct list *long_list(void) {
    static struct list l;
    return list_of(&l, DAY_MOST);
}

static uint64_t generate_and_compare(struct source *s, struct twin *t, struct list *l, uint64_t k, uint64_t n,
                                     size_t length) {
    lend(&l->lent, length, chance(s, 75) ? 0 : below(s, 8));
    fill_junk(s, l->lent.bytes, length);
    memcpy(l->expected, l->lent.bytes, length);
    note("busiest day k %llu n %llu list %zu\n", (unsigned long long)k, (unsigned long long)n, length);
    uint64_t reply = call_busiest(k, n, length == 0 && chance(s, 50) ? NULL : l->lent.bytes, length);
    compare_replies(tally(&wide_form, DAY, reply), model_busiest(k, n, l->expected, length));
    compare_bytes("list", l->lent.bytes, l->expected, length);
    if (!lent_intact(&l->lent)) differs("a byte outside the list changed");
    t->calls++;
    return reply;
}

/* ---- any words ---- */

/* The largest n that is not refused with 46, by the model. */
static unsigned last_day(unsigned k) {
    static unsigned last[PROCESSES + 1];
    if (k == 1) return DAY_MOST;
    while (last[k] == 0 || model_busiest(k, last[k] + 1, NULL, SIZE_MAX) == 6) last[k]++;
    return last[k];
}

/* Around the last day of k, around the largest n, around counts that are a power of two, where products would wrap;
 * and words of which only the lower bits are a number of events. */
static uint64_t random_events(struct source *s, unsigned k) {
    static const unsigned widths[] = {16, 17, 24, 31, 32, 48, 63};
    uint64_t last = k == 1 ? between(s, 1, SHORT - 4) : last_day(k), off = below(s, 8);
    uint64_t further = (uint64_t)1 << widths[below(s, 7)];
    switch (below(s, 14)) {
    case 0: case 1: case 2: case 3: return last + off > 4 ? last + off - 4 : 0;
    case 4: case 5: case 6: return below(s, (unsigned)last + 1);
    case 7: return below(s, 12);
    case 8: return DAY_MOST - off;
    case 9: return DAY_MOST + 1 + off;
    case 10: return ((uint64_t)k << between(s, 5, 13)) + off - 4;
    case 11: return below(s, (unsigned)last + 1) + further;
    case 12: return chance(s, 50) ? UINT64_MAX - off : sized(s);
    default: return below(s, DAY_MOST + 1);
    }
}

/* Mostly right; or off by a byte, by an event or by more, nothing, or what another layout would need. */
static size_t random_length(struct source *s, uint64_t n, size_t most) {
    size_t right = EVENT * (size_t)(n % (DAY_MOST + 1)), length = right;
    switch (below(s, 20)) {
    case 0: length = right + 1; break;
    case 1: length = right > 0 ? right - 1 : 0; break;
    case 2: length = right + EVENT; break;
    case 3: length = right > 0 ? right - EVENT : 0; break;
    case 4: length = 0; break;
    case 5: length = right + between(s, 1, 2 * EVENT); break;
    case 6: length = right / EVENT * (chance(s, 50) ? narrow_form.event : wide_form.frontier); break;
    case 7: length = (size_t)(n % (DAY_MOST + 1)); break;
    case 8: length = below(s, (unsigned)right + 1); break;
    default: break;
    }
    return length <= most ? length : below(s, EVENT * 8);
}

static uint64_t random_processes(struct source *s) {
    return chance(s, 5) ? 0 : random_process(s, PROCESSES) + 1;
}

static void try_any(struct source *s, struct twin *t, struct list *l) {
    uint64_t k = random_processes(s);
    uint64_t n = random_events(s, k >= 1 && k <= PROCESSES ? (unsigned)k : between(s, 1, PROCESSES));
    generate_and_compare(s, t, l, k, n, random_length(s, n, l->most));
}

/* One process alone keeps one frontier on every day. */
static void try_long(struct source *s, struct twin *t) {
    struct list *l = long_list();
    uint64_t n = chance(s, 60) ? DAY_MOST - below(s, 2) : between(s, SHORT, DAY_MOST);
    uint64_t k = chance(s, 75) ? 1 : random_processes(s);
    generate_and_compare(s, t, l, k, n, chance(s, 70) ? EVENT * (size_t)n : random_length(s, n, l->most));
}

/* Each n of a stretch, without a list: 46, 6 or a day of nothing. Products of 32 bits wrap to a small number here and
 * there, and those of 64 bits once, for eight processes shortly before the largest n. */
static void try_stretch(struct source *s, struct twin *t) {
    unsigned k = between(s, 1, PROCESSES), first = chance(s, 20) ? DAY_MOST - SWEEP / 2 : below(s, DAY_MOST + 1);
    note("busiest days k %u n %u and on, no list\n", k, first);
    for (unsigned n = first; n < first + SWEEP; n++) {
        uint64_t reply = tally(&wide_form, DAY, call_busiest(k, n, NULL, 0));
        if (reply != model_busiest(k, n, NULL, 0)) differs("of n %u the reply is %llx", n, (unsigned long long)reply);
        t->calls++;
    }
}

/* ---- watches that take a day ---- */

/* The model looks at each event at each vector of counts. It does so after each event that a watch takes, or of a large
 * day only at the end; then every k comes to its last day but for 1 and 2. */
static bool takable(unsigned k, unsigned n, bool large) {
    unsigned counts[PROCESSES];
    size_t vectors = 1;
    share_evenly(k, n, counts);
    for (unsigned p = 0; p < k; p++) vectors *= counts[p] + 1;
    return n <= TAKEN_MOST && n <= last_day(k) && vectors * n <= (large ? 350000 : 3000);
}

/* Each process's events in their order, the processes mixed. The day has them process by process. */
static void mix(struct source *s, unsigned k, const unsigned *counts, const struct sent *day, struct sent *mixed) {
    unsigned next[PROCESSES], left[PROCESSES], n = 0;
    for (unsigned p = 0; p < k; p++) next[p] = n, left[p] = counts[p], n += counts[p];
    for (unsigned i = 0; i < n; i++) {
        unsigned choice = below(s, n - i), p = 0;
        while (choice >= left[p]) choice -= left[p++];
        mixed[i] = day[next[p]++];
        left[p]--;
    }
}

/* Pieces that can all be pending, each in any order. */
static void take_pieces(struct source *s, struct twin *t, struct sent *events, unsigned n) {
    uint64_t reply;
    for (unsigned i = 0, end; i < n;) {
        unsigned piece = between(s, 1, n - i < PENDING ? n - i : PENDING);
        shuffle(s, events + i, piece, true);
        for (end = i + piece; i < end; i++) {
            twin_offer(t, events[i]);
            if (chance(s, 20)) twin_take(t, s, t->window_length);
        }
        do reply = twin_take(t, s, t->window_length);
        while (reply % 256 == 0 && reply != 0);
        if (reply != 0) differs("an event of a day is refused");
    }
}

/* In a window of so many frontiers, which must be enough. Answers what is kept at the end. */
static size_t take_day(struct source *s, struct twin *t, unsigned k, size_t room, const unsigned *counts,
                       const struct sent *day, bool large) {
    struct sent mixed[TAKEN_MOST];
    unsigned n = 0;
    for (unsigned p = 0; p < k; p++) n += counts[p];
    mix(s, k, counts, day, mixed);
    start_of_form(s, t, &wide_form, k, room);
    if (!large) take_pieces(s, t, mixed, n);
    for (unsigned i = 0; large && i < n; i++) twin_forward(t, mixed[i]);
    if (large) twin_catch_up(t);
    return get_kept(t->record.bytes);
}

static void random_sharing(struct source *s, unsigned k, unsigned n, unsigned *counts) {
    unsigned favoured = below(s, k);
    bool uneven = chance(s, 40);
    memset(counts, 0, PROCESSES * sizeof *counts);
    for (unsigned i = 0; i < n; i++) counts[uneven && chance(s, 50) ? favoured : below(s, k)]++;
}

static void list_day(unsigned k, const unsigned *counts, struct sent *day) {
    unsigned n = 0;
    for (unsigned p = 0; p < k; p++)
        for (unsigned c = 1; c <= counts[p]; c++) {
            struct sent e = {.mask = (uint64_t)1 << p};
            e.count[p] = c;
            day[n++] = e;
        }
}

static void try_taken(struct source *s, struct twin *t, bool large) {
    struct list *l = short_list();
    struct sent day[TAKEN_MOST];
    unsigned counts[PROCESSES], k = between(s, 1, PROCESSES), most = 0;
    while (takable(k, most + 1, large)) most++;
    unsigned n = chance(s, 50) ? most : below(s, most + 1);
    size_t value = (size_t)(generate_and_compare(s, t, l, k, n, EVENT * n) >> 16);
    for (unsigned i = 0; i < n; i++) day[i] = listed_sent(l->lent.bytes, i);
    share_evenly(k, n, counts);
    if (count_day(k, counts) != value) differs("the day has another number of cuts that are kept");
    if (take_day(s, t, k, value, counts, day, large) != value) differs("a watch keeps another number");
    tally_taken_day(true);
    random_sharing(s, k, n, counts);
    list_day(k, counts, day);
    size_t kept_frontiers = take_day(s, t, k, value, counts, day, large);
    if (kept_frontiers != day_keeps(k, counts) || kept_frontiers != count_day(k, counts))
        differs("a watch keeps another number of a day that is shared otherwise");
    if (kept_frontiers > value) differs("another sharing keeps more");
    tally_taken_day(false);
}

void try_days(struct source *s, struct twin *t) {
    if (!can_generate()) return;
    for (unsigned i = 0; i < 12; i++) try_any(s, t, short_list());
    try_stretch(s, t);
    if (chance(s, 4)) try_long(s, t);
    try_taken(s, t, chance(s, 4));
}
