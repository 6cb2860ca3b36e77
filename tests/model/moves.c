/* Moves of any bytes from one stored form to the other: request 6. What a move does is exact on all bytes. */
#include "model.h"

/* The fields in their order, each a run of counts or of bytes that are the same in both forms: one list for the record,
 * one for a frontier. */
struct field {
    bool counts;
    size_t number; /* of counts, or of bytes */
};

static const struct field head_and_table[] = {{false, 8}, {true, 9 * PROCESSES}, {false, 3 * LINES}};
static const struct field event_fields[] = {{false, 8}, {true, PROCESSES}, {false, 8}};
static const struct field frontier_fields[] = {{true, PROCESSES}, {false, 24}};

/* Both ends of a move; where nothing is to be written yet, to is NULL. */
struct moving {
    const struct layout *from_form, *to_form;
    const uint8_t *from;
    uint8_t *to;
    bool above; /* some count so far is too large for the other form */
};

static void move_count(struct moving *m) {
    unsigned count = get_count(m->from_form, m->from);
    if (count > m->to_form->most) m->above = true;
    m->from += m->from_form->width;
    if (m->to == NULL) return;
    put_count(m->to_form, m->to, count);
    m->to += m->to_form->width;
}

static void move_fields(struct moving *m, const struct field *fields, size_t number) {
    for (size_t f = 0; f < number; f++)
        for (size_t i = 0; i < fields[f].number; i++) {
            if (fields[f].counts) move_count(m);
            else if (m->to == NULL) m->from++;
            else *m->to++ = *m->from++;
        }
}

/* All of it, once to look and once to write. Answers whether some count is too large. */
static bool move_all(const struct layout *form, const struct layout *to, const uint8_t *record, uint8_t *to_record,
                     const uint8_t *window, uint8_t *to_window, size_t room) {
    struct moving r = {form, to, record, to_record, false}, w = {form, to, window, to_window, false};
    move_fields(&r, head_and_table, 3);
    for (unsigned i = 0; i < PENDING; i++) move_fields(&r, event_fields, 3);
    for (size_t i = 0; i < room; i++) move_fields(&w, frontier_fields, 2);
    return r.above || w.above;
}

uint64_t bytes_move(const struct layout *form, const uint8_t *record, size_t record_len, const uint8_t *window,
                    size_t window_len, uint8_t *to_record, size_t to_record_len, uint8_t *to_window,
                    size_t to_window_len) {
    const struct layout *to = form == &wide_form ? &narrow_form : &wide_form;
    size_t room = window_len / form->frontier;
    if (record_len != form->record || to_record_len != to->record) return reply_word(6, 0, 0, 0);
    if (!window_length(form, window_len) || !window_length(to, to_window_len)) return reply_word(6, 0, 0, 0);
    if (to_window_len / to->frontier != room) return reply_word(6, 0, 0, 0);
    if (bytes_damaged(form, record, room)) return reply_word(34, 0, 0, 0);
    if (move_all(form, to, record, NULL, window, NULL, room)) return reply_word(43, 0, 0, 0);
    move_all(form, to, record, to_record, window, to_window, room);
    return 0;
}
