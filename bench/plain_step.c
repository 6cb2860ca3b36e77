/* The step of a window, in plain C: one pass marks what stays and what the event is enabled at, one over the marked lays the new frontiers
 * into the scratch, and a merge in place goes from the window's end. */
#include "plain_inner.h"

uint64_t PLAIN(judge)(const uint8_t *table, unsigned lines, uint64_t labels, uint64_t any, uint64_t all) {
    uint64_t v = 0, bit;
    for (unsigned i = 0; i < lines; i++, table += 3) {
        unsigned a = table[1] & 63, b = table[2] & 63;
        switch (table[0]) {
        case 0: bit = labels >> ((8 * a + b) & 63); break;
        case 1: bit = ~(v >> a); break;
        case 2: bit = v >> a & v >> b; break;
        case 3: bit = any >> a; break;
        case 4: bit = v >> b | (v >> a & any >> i); break;
        default: bit = v >> b | (v >> a & all >> i); break;
        }
        v |= (bit & 1) << i;
    }
    return v;
}

enum { STAYS = 1, GROWS = 2 };

static inline bool enabled(const struct step *s, const struct counts *c) {
    unsigned wrong = 0;
    for (int p = 0; p < PROCESSES; p++)
        wrong |= (c->at[p] < s->lowered.at[p]) | ((c->at[p] ^ s->lowered.at[p]) & s->involved.at[p]);
    return wrong == 0;
}

static void prepare(struct step *s, const uint8_t *event, const uint8_t *record) {
    s->mask = event[0];
    s->labels = load_word(event + EVENT_LABELS_AT);
    s->clock = load(event + 8);
    s->reached = load(record + TAKEN_AT);
    s->open = open_lanes(record);
    s->kept = load_kept(record);
    for (unsigned p = 0; p < PROCESSES; p++) {
        unsigned in = s->mask >> p & 1;
        s->ones.at[p] = (count)in;
        s->involved.at[p] = (count)-in;
        s->lowered.at[p] = (count)(s->clock.at[p] - in);
        s->reached.at[p] = (count)(s->reached.at[p] + in);
    }
}

/* The largest cut is a new one, so of the old ones none stays as that. */
void PLAIN(mark)(struct step *s, const uint8_t *event, const uint8_t *record, const uint8_t *window) {
    prepare(s, event, record);
    s->staying = s->grown = 0;
    for (uint32_t i = 0; i < s->kept; i++) {
        struct counts c = load(window + FRONTIER * i);
        unsigned st = some_complete(&c, &s->reached, &s->open), gr = enabled(s, &c);
        s->marks[i] = (uint8_t)(st * STAYS | gr * GROWS);
        s->staying += st;
        s->grown += gr;
    }
}

/* Ascending by counts, process 0 first: the lowest lane that differs decides. */
static inline int compare_lanes(uint64_t a, uint64_t b) {
    unsigned lane = (unsigned)__builtin_ctzll(a ^ b) & (64 - 8 * COUNT_BYTES);
    return (count)(a >> lane) < (count)(b >> lane) ? -1 : 1;
}

static inline int compare(const uint8_t *x, const uint8_t *y) {
    for (unsigned at = 0; at < CLOCK; at += 8) {
        uint64_t a = load_word(x + at), b = load_word(y + at);
        if (a != b) return compare_lanes(a, b);
    }
    return 0;
}

/* Looks for a cut among the n new ones, outward from a hint; the hint becomes the place behind it. */
static const uint8_t *look_up(const uint8_t *laid, uint32_t n, const uint8_t *key, uint32_t *hint) {
    uint32_t low = 0, high = n, at = *hint < n ? *hint : n - 1;
    for (uint32_t stride = 1;; stride *= 2) {
        int order = compare(laid + FRONTIER * at, key);
        if (order == 0) {
            *hint = at + 1;
            return laid + FRONTIER * at;
        }
        if (order < 0) low = at + 1; else high = at;
        if (low >= high) return NULL;
        if (order < 0 && high == n && stride < n - low) at = low + stride - 1;
        else if (order > 0 && low == 0 && stride < high) at = high - stride;
        else at = (low + high) / 2;
    }
}

/* Lays down the frontier that the event leads to from this one. What precedes it, beside this one, lacks another process's last event,
 * which must be the last one of each of its own processes, and so was laid down earlier. */
static void lay_new(const struct step *s, const uint8_t *record, const uint8_t *from, uint8_t *laid, uint32_t n, uint32_t *hints) {
    uint8_t *to = laid + FRONTIER * n;
    struct counts c = load(from);
    uint64_t any = load_word(from + VALUES_AT), all = any, labels = s->labels;
    memcpy(to + LABELS_AT, from + LABELS_AT, 16);
    for (int p = 0; p < PROCESSES; p++) c.at[p] += s->ones.at[p];
    memcpy(to, &c, sizeof c);
    for (unsigned set = s->mask; set != 0; set &= set - 1) {
        unsigned p = (unsigned)__builtin_ctz(set);
        to[LABELS_AT + p] = (uint8_t)(labels >> 8 * p);
        to[MASKS_AT + p] = s->mask;
    }
    for (unsigned rest = (uint8_t)~s->mask & ((1u << record[0]) - 1); rest != 0; rest &= rest - 1) {
        unsigned p = (unsigned)__builtin_ctz(rest), m = to[MASKS_AT + p], last = 1;
        struct counts key = c;
        if (n == 0 || m == 0 || (unsigned)__builtin_ctz(m) != p) continue;
        for (unsigned set = m; set != 0; set &= set - 1) {
            unsigned q = (unsigned)__builtin_ctz(set);
            last &= to[MASKS_AT + q] == m;
            key.at[q]--;
        }
        const uint8_t *found = last ? look_up(laid, n, (const uint8_t *)&key, &hints[p]) : NULL;
        if (found != NULL) any |= load_word(found + VALUES_AT), all &= load_word(found + VALUES_AT);
    }
    store_word(to + VALUES_AT, PLAIN(judge)(record + TABLE_AT, record[1], load_word(to + LABELS_AT), any, all));
}

/* Moves the frontiers that stay to the front, in order. */
static void gather(const struct step *s, uint8_t *window) {
    uint32_t to = 0;
    for (uint32_t i = 0; i < s->kept; i++) {
        if (!(s->marks[i] & STAYS)) continue;
        if (to != i) memcpy(window + FRONTIER * to, window + FRONTIER * i, FRONTIER);
        to++;
    }
}

/* Merges the new frontiers into those that stay, from the end. */
static void merge(const struct step *s, uint8_t *window, const uint8_t *laid) {
    uint32_t old = s->staying, new = s->grown;
    while (new > 0) {
        uint8_t *to = window + FRONTIER * (old + new - 1);
        const uint8_t *y = laid + FRONTIER * (new - 1);
        if (old > 0 && compare(window + FRONTIER * (old - 1), y) > 0) memcpy(to, window + FRONTIER * --old, FRONTIER);
        else memcpy(to, y, FRONTIER), new--;
    }
}

void PLAIN(step)(const struct step *s, const uint8_t *record, uint8_t *window, uint8_t *scratch) {
    uint32_t hints[PROCESSES] = {0}, n = 0, after = s->staying + s->grown;
    for (uint32_t i = 0; i < s->kept; i++)
        if (s->marks[i] & GROWS) lay_new(s, record, window + FRONTIER * i, scratch, n++, hints);
    if (s->staying < s->kept) gather(s, window);
    merge(s, window, scratch);
    if (after < s->kept) memset(window + FRONTIER * after, 0, FRONTIER * (s->kept - after));
}
