/* The bytes of record and window in either stored form: section "The window", request 6; the record's byte 3: request
 * 5. */
#include <string.h>

#include "model.h"

#define CLOCK(width) (PROCESSES * (width))
#define LAYOUT(width)                                                                                   \
    {                                                                                                   \
        width, width == 2 ? 65535 : 4294967295,                                                         \
        8 + 9 * CLOCK(width) + 3 * LINES + PENDING * (8 + CLOCK(width) + 8),     /* a whole record */    \
        8 + CLOCK(width), 8 + 9 * CLOCK(width), 8 + 9 * CLOCK(width) + 3 * LINES,                        \
        8 + CLOCK(width) + 8, 8 + CLOCK(width),                                  /* a pending event */   \
        CLOCK(width) + 24, CLOCK(width), CLOCK(width) + 8, CLOCK(width) + 16     /* a frontier */        \
    }

const struct layout narrow_form = LAYOUT(2), wide_form = LAYOUT(4);

bool window_length(const struct layout *form, size_t length) {
    return length >= form->frontier && length <= form->frontier * ROOM && length % form->frontier == 0;
}

unsigned get_count(const struct layout *form, const uint8_t *at) {
    unsigned count = 0;
    for (unsigned i = 0; i < form->width; i++) count += (unsigned)at[i] << 8 * i;
    return count;
}

void put_count(const struct layout *form, uint8_t *at, unsigned count) {
    for (unsigned i = 0; i < form->width; i++) at[i] = (uint8_t)(count >> 8 * i);
}

static uint8_t *put(uint8_t *at, uint64_t value, unsigned bytes) {
    for (unsigned i = 0; i < bytes; i++) *at++ = (uint8_t)(value >> 8 * i);
    return at;
}

static uint8_t *put_counts(const struct layout *form, uint8_t *at, const unsigned *counts) {
    for (unsigned p = 0; p < PROCESSES; p++) at = put(at, counts[p], form->width);
    return at;
}

static uint8_t *put_bytes(uint8_t *at, const uint8_t *bytes, size_t length) {
    memcpy(at, bytes, length);
    return at + length;
}

static const unsigned zeros[PROCESSES];

/* Of process p's last event; if that came before a late beginning, it was the one of all processes. */
static const unsigned *last_clock(const struct model *m, unsigned p) {
    const struct event *last = numbered(&m->history, p, m->history.taken[p]);
    if (last != NULL) return last->clock;
    return p < m->k ? m->history.begin : zeros;
}

static uint8_t last_mask(const struct model *m, const struct cut *s, unsigned p) {
    const struct event *last = numbered(&m->history, p, s->counts[p]);
    if (last != NULL) return last->mask;
    return p < m->k && begins_late(&m->history) ? (uint8_t)((1u << m->k) - 1) : 0;
}

void write_record(const struct model *m, size_t kept_frontiers, uint8_t *record) {
    uint8_t *at = record;
    memset(record, 0, m->form->record);
    at = put(at, m->k, 1);
    at = put(at, m->rule.lines, 1);
    at = put(at, m->pending_number, 1);
    at = put(at, m->closed, 1);
    at = put(at, kept_frontiers, 4);
    at = put_counts(m->form, at, m->history.taken);
    for (unsigned p = 0; p < PROCESSES; p++) at = put_counts(m->form, at, last_clock(m, p));
    at = put_bytes(at, m->rule.line[0], sizeof m->rule.line);
    for (unsigned i = 0; i < m->pending_number; i++) {
        at = put(at, m->pending[i].mask, 8);
        at = put_counts(m->form, at, m->pending[i].clock);
        at = put_bytes(at, m->pending[i].labels, PROCESSES);
    }
}

void write_window(const struct model *m, const struct cuts *judged, uint8_t *window, size_t window_len) {
    uint8_t *at = window;
    memset(window, 0, window_len);
    for (size_t i = 0; i < judged->n; i++) {
        const struct cut *s = &judged->cut[i];
        if (!kept(judged, s, open_processes(m))) continue;
        uint8_t labels[PROCESSES];
        label_cut(&m->history, m->start, s, labels);
        at = put_counts(m->form, at, s->counts);
        at = put_bytes(at, labels, PROCESSES);
        for (unsigned p = 0; p < PROCESSES; p++) at = put(at, last_mask(m, s, p), 1);
        at = put(at, s->lines, 8);
    }
}
