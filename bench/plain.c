/* The calls of one stored form in plain C, and the move out of it, written for speed: see plain.h. */
#include "plain_inner.h"
#include "plain_refused.h"

enum { AGAIN = 256 };

static uint64_t accepted(uint64_t flag, uint64_t value) {
    return flag << 8 | value << 16;
}

/* ---- pending events ---- */

static bool ready(const uint8_t *event, const struct counts *taken) {
    struct counts c = load(event + 8);
    for (int p = 0; p < PROCESSES; p++) {
        unsigned in = event[0] >> p & 1;
        if (in ? c.at[p] != (uint64_t)taken->at[p] + 1 : c.at[p] > taken->at[p]) return false;
    }
    return true;
}

/* What the event knows of, its clock less itself, is one of the kept frontiers. */
static bool true_clock(const uint8_t *event, const uint8_t *record, const uint8_t *window) {
    struct counts known = load(event + 8);
    uint32_t kept = load_kept(record);
    for (unsigned p = 0; p < PROCESSES; p++) known.at[p] = (count)(known.at[p] - (event[0] >> p & 1));
    for (uint32_t i = 0; i < kept; i++)
        if (memcmp(window + FRONTIER * i, &known, sizeof known) == 0) return true;
    return false;
}

static void leave(uint8_t *record, unsigned i) {
    uint8_t *at = record + PENDING_AT + EVENT * i;
    unsigned behind = --record[2] - i;
    memmove(at, at + EVENT, EVENT * behind);
    memset(at + EVENT * behind, 0, EVENT);
}

static uint64_t take_event(struct step *s, unsigned i, uint8_t *record, uint8_t *window, uint8_t *scratch) {
    uint32_t after = s->staying + s->grown;
    PLAIN(step)(s, record, window, scratch);
    memcpy(record + TAKEN_AT, &s->reached, sizeof s->reached);
    for (unsigned p = 0; p < PROCESSES; p++)
        if (s->mask >> p & 1) memcpy(record + CLOCKS_AT + CLOCK * p, &s->clock, sizeof s->clock);
    leave(record, i);
    store_kept(record, after);
    return accepted(load_word(window + FRONTIER * (after - 1) + VALUES_AT) >> (record[1] - 1) & 1, after);
}

/* ---- the calls ---- */

uint64_t PLAIN(open)(const uint8_t *rule, size_t rule_len, uint64_t k, uint64_t start_labels,
                    uint8_t *record, size_t record_len, uint8_t *window, size_t window_len) {
    uint8_t table[3 * LINES];
    if (record_len != RECORD || wrong_window(window_len)) return 6;
    if (k - 1 >= PROCESSES) return 5;
    if (k < PROCESSES && start_labels >> 8 * k != 0) return 9;
    struct plain_rule read = plain_read_rule(rule, rule_len, (unsigned)k, table);
    if (read.fault != 0) return read.fault | (uint64_t)read.place << 32;
    memset(record, 0, RECORD);
    record[0] = (uint8_t)k;
    record[1] = (uint8_t)read.lines;
    store_kept(record, 1);
    memcpy(record + TABLE_AT, table, sizeof table);
    memset(window, 0, window_len);
    uint64_t values = PLAIN(judge)(table, read.lines, start_labels, 0, 0);
    store_word(window + LABELS_AT, start_labels);
    store_word(window + VALUES_AT, values);
    return accepted(values >> (read.lines - 1) & 1, 1);
}

static unsigned refused_event(uint64_t k, uint64_t mask, const struct counts *clock, uint64_t labels) {
    if (mask == 0 || mask >> k != 0) return 7;
    for (unsigned p = 0; p < PROCESSES; p++)
        if (mask >> p & 1 ? clock->at[p] == 0 : p >= k && clock->at[p] != 0) return 8;
    for (unsigned p = 0; p < PROCESSES; p++)
        if (!(mask >> p & 1) && (labels >> 8 * p & 255) != 0) return 9;
    return 0;
}

/* Mask, clock and labels; the bytes between are no part of an event. */
static bool same_event(const uint8_t *event, const uint8_t *other) {
    return event[0] == other[0] && memcmp(event + 8, other + 8, EVENT - 8) == 0;
}

#if COUNT_BYTES == 2
uint64_t plain_offer(uint64_t mask, uint64_t clock_low, uint64_t clock_high, uint64_t labels,
                     uint8_t *record, size_t record_len) {
    uint64_t words[] = {clock_low, clock_high};
#else
uint64_t plain32_offer(uint64_t mask, uint64_t c01, uint64_t c23, uint64_t c45, uint64_t c67, uint64_t labels,
                       uint8_t *record, size_t record_len) {
    uint64_t words[] = {c01, c23, c45, c67};
#endif
    uint8_t event[EVENT] = {(uint8_t)mask};
    if (record_len != RECORD) return 6;
    if (damaged(record, ROOM)) return 34;
    memcpy(event + 8, words, sizeof words);
    store_word(event + EVENT_LABELS_AT, labels);
    struct counts clock = load(event + 8), reached = load(record + TAKEN_AT);
    unsigned number = refused_event(record[0], mask, &clock, labels), held = record[2];
    if (number != 0) return number;
    if ((mask & record[CLOSED_AT]) != 0) return 42;
    for (unsigned p = 0; p < PROCESSES; p++)
        if (mask >> p & 1 && clock.at[p] <= reached.at[p]) return 31;
    uint8_t *pending = record + PENDING_AT;
    unsigned lowest = (unsigned)__builtin_ctzll(mask), place = held;
    bool conflict = false; /* what comes behind may still be the same event */
    for (unsigned i = 0; i < held; i++) {
        const uint8_t *other = pending + EVENT * i;
        if (same_event(event, other)) return AGAIN;
        struct counts c = load(other + 8);
        for (unsigned common = other[0] & (unsigned)mask; common != 0; common &= common - 1)
            conflict |= c.at[__builtin_ctz(common)] == clock.at[__builtin_ctz(common)];
        unsigned p = other[0] != 0 ? (unsigned)__builtin_ctz(other[0]) : PROCESSES;
        if (place == held && (p > lowest || (p == lowest && c.at[p] > clock.at[p]))) place = i;
    }
    if (conflict) return 32;
    if (held == PENDING) return 33;
    memmove(pending + EVENT * (place + 1), pending + EVENT * place, EVENT * (held - place));
    memcpy(pending + EVENT * place, event, EVENT);
    record[2]++;
    return accepted(0, held + 1);
}

uint64_t PLAIN(take_within)(uint8_t *record, size_t record_len, uint8_t *window, size_t window_len,
                            uint8_t *scratch, size_t scratch_len, size_t allowed) {
    struct step s;
    uint64_t answer = 0;
    size_t room = window_len / FRONTIER;
    if (record_len != RECORD || wrong_window(window_len) || scratch_len != window_len) return 6;
    if (damaged(record, room)) return 34;
    if (allowed > room) allowed = room;
    struct counts taken = load(record + TAKEN_AT);
    for (unsigned i = 0; i < record[2]; i++) {
        const uint8_t *event = record + PENDING_AT + EVENT * i;
        if (!ready(event, &taken)) continue;
        if (!true_clock(event, record, window)) {
            leave(record, i);
            answer = 35;
            break;
        }
        PLAIN(mark)(&s, event, record, window);
        if (s.staying + s.grown > 0 && s.staying + s.grown <= allowed) {
            answer = take_event(&s, i, record, window, scratch);
            break;
        }
        answer = 36;
    }
    memset(scratch, 0, scratch_len);
    return answer;
}

uint64_t PLAIN(take)(uint8_t *record, size_t record_len, uint8_t *window, size_t window_len,
                    uint8_t *scratch, size_t scratch_len) {
    return PLAIN(take_within)(record, record_len, window, window_len, scratch, scratch_len, ROOM);
}

uint64_t PLAIN(find)(uint64_t line, const uint8_t *record, size_t record_len, const uint8_t *window, size_t window_len) {
    if (record_len != RECORD || wrong_window(window_len)) return 6;
    if (damaged(record, window_len / FRONTIER)) return 34;
    if (line >= record[1]) return 11;
    uint32_t kept = load_kept(record);
    for (uint32_t i = 0; i < kept; i++)
        if (load_word(window + FRONTIER * i + VALUES_AT) >> line & 1) return accepted(1, i);
    return accepted(0, 0);
}

/* Moves the frontiers that stay to the front and answers how many. */
static uint32_t drop(const uint8_t *record, uint8_t *window, uint32_t kept) {
    struct counts taken = load(record + TAKEN_AT), open = open_lanes(record);
    uint32_t to = 0;
    for (uint32_t i = 0; i < kept; i++) {
        const uint8_t *frontier = window + FRONTIER * i;
        struct counts c = load(frontier);
        if (!some_complete(&c, &taken, &open) && memcmp(&c, &taken, sizeof c) != 0) continue;
        if (to != i) memcpy(window + FRONTIER * to, frontier, FRONTIER);
        to++;
    }
    return to;
}

uint64_t PLAIN(close)(uint64_t process, uint8_t *record, size_t record_len, uint8_t *window, size_t window_len) {
    if (record_len != RECORD || wrong_window(window_len)) return 6;
    if (damaged(record, window_len / FRONTIER)) return 34;
    if (process >= record[0] || record[CLOSED_AT] >> process & 1) return 41;
    for (unsigned i = 0; i < record[2]; i++)
        if (record[PENDING_AT + EVENT * i] >> process & 1) return 42;
    record[CLOSED_AT] |= (uint8_t)(1u << process);
    uint32_t kept = load_kept(record), staying = drop(record, window, kept);
    memset(window + FRONTIER * staying, 0, FRONTIER * (kept - staying));
    store_kept(record, staying);
    return accepted(0, staying);
}

/* ---- the move into the other form ---- */

enum {
    OTHER_CLOCK = PROCESSES * sizeof(other_count), OTHER_FRONTIER = OTHER_CLOCK + 24, OTHER_EVENT = OTHER_CLOCK + 16,
    OTHER_TABLE_AT = 8 + 9 * OTHER_CLOCK, OTHER_PENDING_AT = OTHER_TABLE_AT + 3 * LINES,
    OTHER_RECORD = OTHER_PENDING_AT + PENDING * OTHER_EVENT
};

static inline void move_counts(uint8_t *to, const uint8_t *from) {
    struct counts c = load(from);
    other_count other[PROCESSES];
    for (int p = 0; p < PROCESSES; p++) other[p] = (other_count)c.at[p];
    memcpy(to, other, sizeof other);
}

static inline count all_bits(const uint8_t *from) {
    struct counts c = load(from);
    count bits = 0;
    for (int p = 0; p < PROCESSES; p++) bits |= c.at[p];
    return bits;
}

/* Some count is too large for the other form. */
static bool too_large(const uint8_t *record, const uint8_t *window, size_t room) {
    count bits = 0;
    for (unsigned i = 0; i < 9; i++) bits |= all_bits(record + TAKEN_AT + CLOCK * i);
    for (unsigned i = 0; i < PENDING; i++) bits |= all_bits(record + PENDING_AT + EVENT * i + 8);
    for (size_t i = 0; i < room; i++) bits |= all_bits(window + FRONTIER * i);
    return bits != (other_count)bits;
}

uint64_t PLAIN(move)(const uint8_t *record, size_t record_len, const uint8_t *window, size_t window_len,
                     uint8_t *to_record, size_t to_record_len, uint8_t *to_window, size_t to_window_len) {
    size_t room = window_len / FRONTIER;
    if (record_len != RECORD || wrong_window(window_len) || to_record_len != OTHER_RECORD) return 6;
    if (to_window_len != OTHER_FRONTIER * room) return 6;
    if (damaged(record, room)) return 34;
    if (COUNT_BYTES == 4 && too_large(record, window, room)) return 43;
    memcpy(to_record, record, 8);
    for (unsigned i = 0; i < 9; i++) move_counts(to_record + TAKEN_AT + OTHER_CLOCK * i, record + TAKEN_AT + CLOCK * i);
    memcpy(to_record + OTHER_TABLE_AT, record + TABLE_AT, 3 * LINES);
    for (unsigned i = 0; i < PENDING; i++) {
        uint8_t *to = to_record + OTHER_PENDING_AT + OTHER_EVENT * i;
        const uint8_t *from = record + PENDING_AT + EVENT * i;
        memcpy(to, from, 8);
        move_counts(to + 8, from + 8);
        memcpy(to + 8 + OTHER_CLOCK, from + EVENT_LABELS_AT, 8);
    }
    for (size_t i = 0; i < room; i++) {
        move_counts(to_window + OTHER_FRONTIER * i, window + FRONTIER * i);
        memcpy(to_window + OTHER_FRONTIER * i + OTHER_CLOCK, window + FRONTIER * i + LABELS_AT, 24);
    }
    return 0;
}
