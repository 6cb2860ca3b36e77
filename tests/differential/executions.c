/* Random executions, and events that belong to none. */
#include <string.h>

#include "generate.h"

enum { PROCESSES = 8 };

uint64_t random_labels(struct source *s, uint64_t mask) {
    uint64_t labels = 0;
    bool dense = chance(s, 20);
    for (unsigned p = 0; p < PROCESSES; p++)
        if (mask >> p & 1) labels |= (dense ? draw(s) & 255 : below(s, 8)) << 8 * p;
    return labels;
}

static uint64_t random_mask(struct source *s, unsigned k, unsigned joint) {
    uint64_t mask = (uint64_t)1 << below(s, k);
    if (!chance(s, joint)) return mask;
    for (unsigned more = chance(s, 85) ? 1 : between(s, 1, k); more > 0; more--) mask |= (uint64_t)1 << below(s, k);
    return mask;
}

/* One at least takes part for ever. */
static uint64_t one_ends(struct source *s, unsigned k, uint64_t ended) {
    uint64_t more = ended | (uint64_t)1 << below(s, k);
    return more == (1u << k) - 1 ? ended : more;
}

static bool takes_part(const struct sent *e, unsigned p) {
    return e->mask >> p & 1;
}

/* p's event number n, wherever it stands; NULL if it is none of the execution. */
static const struct sent *event_numbered(const struct execution *x, unsigned p, unsigned n) {
    for (unsigned i = 0; i < x->n; i++)
        if (takes_part(&x->event[i], p) && x->event[i].count[p] == n) return &x->event[i];
    return NULL;
}

void learn(const struct execution *x, unsigned q, unsigned n, unsigned *clock) {
    const struct sent *e = event_numbered(x, q, n);
    if (n > clock[q]) clock[q] = n;
    for (unsigned r = 0; e != NULL && r < PROCESSES; r++)
        if (e->count[r] > clock[r]) clock[r] = e->count[r];
}

unsigned random_messages(struct source *s) {
    static const unsigned shares[] = {0, 0, 0, 15, 40, 60, 90};
    return shares[below(s, 7)];
}

/* Mostly one note, and mostly of the last that its process did, so that knowledge goes on from one to the next. */
static void read_notes(struct source *s, const struct execution *x, const unsigned *done, unsigned *clock) {
    for (unsigned notes = chance(s, 70) ? 1 : between(s, 1, x->k); notes > 0; notes--) {
        unsigned q = below(s, x->k);
        for (unsigned tries = 4; tries > 0 && clock[q] >= done[q]; tries--) q = below(s, x->k);
        learn(x, q, done[q] > 0 && chance(s, 35) ? between(s, 1, done[q]) : done[q], clock);
    }
}

struct execution random_execution(struct source *s, struct shape shape) {
    struct execution x = {.k = shape.k, .limit = shape.limit};
    unsigned done[PROCESSES];
    uint64_t ended = 0, all = (1u << shape.k) - 1;
    memcpy(x.begin, shape.begin, sizeof x.begin);
    memcpy(done, shape.begin, sizeof done);
    done[shape.alone] += shape.before;
    while (x.n < shape.n && x.n < EVENTS_MOST) {
        struct sent e = {.mask = 0};
        for (unsigned p = 0; p < shape.k; p++)
            if (shape.limit > 0 && done[p] == shape.limit) ended |= (uint64_t)1 << p;
        if (ended == all) break;
        while (e.mask == 0) e.mask = random_mask(s, shape.k, shape.joint) & ~ended;
        unsigned clock[PROCESSES];
        size_t vectors = 1;
        memcpy(clock, shape.begin, sizeof clock);
        for (unsigned p = 0; p < PROCESSES; p++) vectors *= (size_t)(done[p] - x.begin[p]) + 1 + takes_part(&e, p);
        if (vectors > shape.most) break;
        for (unsigned p = 0; p < PROCESSES; p++)
            if (takes_part(&e, p)) learn(&x, p, done[p], clock);
        if (chance(s, shape.messages)) read_notes(s, &x, done, clock);
        for (unsigned p = 0; p < PROCESSES; p++) {
            done[p] += takes_part(&e, p);
            e.count[p] = takes_part(&e, p) ? done[p] : clock[p];
        }
        e.labels = random_labels(s, e.mask);
        x.event[x.n++] = e;
        if (chance(s, shape.ending)) ended = one_ends(s, shape.k, ended);
    }
    return x;
}

struct sent twisted(struct source *s, struct sent e, unsigned k) {
    unsigned p = below(s, k), count = e.count[p];
    switch (below(s, 6)) {
    case 0: e.labels = random_labels(s, e.mask); break;
    case 1: e.mask ^= (uint64_t)1 << p; break;
    case 2: e.count[p] = count + 1; break;
    case 3: e.count[p] = count > 0 ? count - 1 : 1; break;
    case 4: e.count[p] = below(s, 6); break;
    default:
        for (unsigned q = 0; q < k; q++)
            if (!(e.mask >> q & 1)) e.count[q] = below(s, 3);
    }
    if (chance(s, 50)) e.labels = random_labels(s, chance(s, 90) ? e.mask : 255);
    return e;
}

/* One of the processes of a set, or any if the set is empty. */
static unsigned process_of(struct source *s, uint64_t set) {
    unsigned p = below(s, PROCESSES);
    while (set % 256 != 0 && !(set >> p & 1)) p = (p + 1) % PROCESSES;
    return p;
}

/* One more, one less, or a bit of it changed. */
static void change_count(struct source *s, struct sent *e, unsigned p, unsigned most) {
    unsigned count = e->count[p], bit = 1u << below(s, most > 65535 ? 32 : 16);
    switch (below(s, 3)) {
    case 0: e->count[p] = (count + 1) & most; break;
    case 1: e->count[p] = count > 0 ? count - 1 : 1; break;
    default: e->count[p] = count ^ bit;
    }
}

/* Of another process less than its own processes knew before. False if they knew of none. */
static bool forget_own(struct source *s, const struct execution *x, struct sent *e) {
    unsigned known[PROCESSES];
    uint64_t others = 0;
    memcpy(known, x->begin, sizeof known);
    for (unsigned p = 0; p < PROCESSES; p++)
        if (takes_part(e, p) && e->count[p] > 0) learn(x, p, e->count[p] - 1, known);
    for (unsigned q = 0; q < PROCESSES; q++)
        if (!takes_part(e, q) && known[q] > 0) others |= (uint64_t)1 << q;
    if (others == 0) return false;
    unsigned q = process_of(s, others);
    e->count[q] = chance(s, 50) ? known[q] - 1 : below(s, known[q]);
    return true;
}

/* The processes of which f counts more than e does. None if f knows of e, or if they have a process in common. */
static uint64_t news(const struct sent *e, const struct sent *f) {
    uint64_t set = 0;
    if (e->mask & f->mask) return 0;
    for (unsigned p = 0; p < PROCESSES; p++) {
        if (takes_part(e, p) && f->count[p] >= e->count[p]) return 0;
        if (f->count[p] > e->count[p]) set |= (uint64_t)1 << p;
    }
    return set;
}

/* Knows of f: by all of its processes, by one of them, or all of it but for one process. Something that f knew, or
 * another process of f, stays behind in each case; of that it may know all but the last. */
static void know_in_part(struct source *s, struct sent *e, const struct sent *f, uint64_t set) {
    unsigned own = process_of(s, f->mask), missing = process_of(s, set), way = below(s, 3);
    uint64_t heard = (uint64_t)1 << own, rest = set & ~((uint64_t)1 << missing);
    if (way == 0 && f->mask != set) heard = f->mask;
    if (way == 1 && (f->mask & rest) != 0) heard = rest;
    for (unsigned p = 0; p < PROCESSES; p++) {
        if (heard >> p & 1) e->count[p] = f->count[p];
        else if (set >> p & 1 && chance(s, 30)) e->count[p] = f->count[p] - 1;
    }
}

static bool several(uint64_t set) {
    return (set & (set - 1)) != 0;
}

/* False if no event was found of which something could be left out. Joint ones that knew of others are rare, so these
 * are sought first. */
static bool overlook(struct source *s, const struct execution *x, struct sent *e) {
    bool rare = chance(s, 50);
    for (unsigned tries = 4 * x->n; tries > 0; tries--) {
        const struct sent *f = &x->event[below(s, x->n)];
        uint64_t set = news(e, f);
        if (!several(set)) continue; /* f itself is all the news, or there is none */
        if (rare && tries > 2 * x->n && (!several(f->mask) || f->mask == set)) continue;
        know_in_part(s, e, f, set);
        return true;
    }
    return false;
}

/* One more only where there is such an event: else it would wait for ever, and the true one behind it. */
static void miscount(struct source *s, const struct execution *x, struct sent *e) {
    uint64_t others = ((1u << x->k) - 1) & ~e->mask;
    unsigned q = process_of(s, others), count = e->count[q];
    bool more = event_numbered(x, q, count + 1) != NULL;
    if (others == 0) return;
    if (count > 0 && (!more || chance(s, 50))) e->count[q] = count - 1;
    else if (more || chance(s, 5)) e->count[q] = count + 1;
}

struct sent forgetful(struct source *s, const struct execution *x, struct sent e) {
    unsigned choice = below(s, 100);
    if (choice >= 85) miscount(s, x, &e);
    else if (choice >= 40 || !forget_own(s, x, &e))
        if (!overlook(s, x, &e)) forget_own(s, x, &e);
    return e;
}

struct sent nearly(struct source *s, struct sent e, unsigned k, unsigned most) {
    unsigned own = process_of(s, e.mask), other = process_of(s, ((1u << k) - 1) & ~e.mask), any = below(s, k);
    switch (below(s, 8)) {
    case 0: case 1: e.labels ^= (uint64_t)1 << (8 * own + below(s, 8)); break;
    case 2: case 3: change_count(s, &e, other, most); break;
    case 4: change_count(s, &e, own, most); break;
    case 5: e.mask ^= (uint64_t)1 << any; break;
    case 6: /* the same, but never refused for the labels of a process that left it */
        e.mask ^= (uint64_t)1 << any;
        if (!(e.mask >> any & 1)) e.labels &= ~((uint64_t)255 << 8 * any);
        break;
    default: e.mask ^= (uint64_t)1 << between(s, 8, 63);
    }
    return e;
}

unsigned brink(struct source *s, unsigned most) {
    static const unsigned ends[] = {255, 65535, 65535, 65535, 16777215, 2147483647, 4294967295, 4294967295};
    unsigned end = ends[below(s, most > 65535 ? 8 : 4)], off = below(s, 3);
    return chance(s, 50) ? end - off : (end + off) & most;
}

static unsigned begin_count(struct source *s, unsigned most) {
    unsigned choice = below(s, 10), end = brink(s, most);
    if (choice < 2) return between(s, 1, 5);
    if (choice < 3) return between(s, 250, 256);
    if (choice < 7 || most == 65535) return between(s, 65526, 65535);
    return end == 0 || chance(s, 60) ? most - below(s, 8) : end;
}

void random_begin(struct source *s, struct shape *shape, unsigned most) {
    unsigned highest = chance(s, 50) ? 65535 : most;
    for (unsigned p = 0; p < shape->k; p++) shape->begin[p] = begin_count(s, highest);
    shape->limit = most;
}

struct sent random_sent(struct source *s, unsigned k, unsigned most) {
    struct sent e = {.mask = chance(s, 70) ? random_mask(s, k, 50) : sized(s)};
    if (chance(s, 5)) e.mask |= (uint64_t)1 << between(s, 8, 63);
    if (chance(s, 5)) e.mask = 0;
    for (unsigned p = 0; p < PROCESSES; p++) {
        unsigned count = chance(s, 5) ? brink(s, most) : below(s, 5);
        e.count[p] = p < k || chance(s, 3) ? count : 0;
    }
    e.labels = chance(s, 70) ? random_labels(s, e.mask) : draw(s) & draw(s) & draw(s);
    return e;
}

uint64_t random_process(struct source *s, unsigned k) {
    static const unsigned widths[] = {3, 6, 8, 16, 32, 63};
    uint64_t process = below(s, k), further = (uint64_t)1 << widths[below(s, 6)];
    switch (below(s, 10)) {
    case 0: return between(s, k, 2 * PROCESSES);
    case 1: return process + further;
    case 2: return chance(s, 50) ? UINT64_MAX - below(s, 3) : sized(s);
    default: return process;
    }
}

void shuffle(struct source *s, struct sent *events, unsigned n, bool anywhere) {
    for (unsigned i = 0; i + 1 < n; i++) {
        unsigned left = n - i, reach = anywhere || left < 4 ? left : 4;
        unsigned other = i + below(s, reach);
        struct sent e = events[i];
        events[i] = events[other];
        events[other] = e;
    }
}
