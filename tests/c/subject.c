/* See subject.h. */
#include "subject.h"

#include <stdlib.h>
#include <string.h>

enum { TEXT = 8192 };

static struct subject subject_of(int wide) {
    struct subject s = {wide, lent_new(TEXT), lent_new(2 * WATCH32_RECORD_BYTES),
                        lent_new(WATCH32_WINDOW_BYTES(WATCH_ROOM + 1)), lent_new(WATCH32_WINDOW_BYTES(WATCH_ROOM + 1))};
    lend(&s.record, record_bytes(&s), 0);
    lend_room(&s, WATCH_ROOM);
    return s;
}

struct subject subject_new(void) { return subject_of(0); }
struct subject subject_wide(void) { return subject_of(1); }

size_t record_bytes(const struct subject *s) {
    return s->wide ? WATCH32_RECORD_BYTES : WATCH_RECORD_BYTES;
}

size_t frontiers_bytes(const struct subject *s, size_t number) {
    return s->wide ? WATCH32_WINDOW_BYTES(number) : WATCH_WINDOW_BYTES(number);
}

uint32_t taken_of(const struct subject *s, unsigned p) {
    return s->wide ? watch32_taken(s->record.bytes, p) : watch_taken(s->record.bytes, p);
}

uint32_t cut_of(const struct subject *s, size_t place, unsigned p) {
    return s->wide ? watch32_cut(s->window.bytes, place, p) : watch_cut(s->window.bytes, place, p);
}

void subject_free(struct subject *s) {
    lent_free(&s->text);
    lent_free(&s->record);
    lent_free(&s->window);
    lent_free(&s->scratch);
}

void lend_junk(struct subject *s, size_t length) {
    lend(&s->scratch, length, 0);
    for (size_t i = 0; i < length; i++) s->scratch.bytes[i] = (uint8_t)(7 * i + 1);
}

void lend_room(struct subject *s, size_t room) {
    lend_again(&s->window, frontiers_bytes(s, room), room % 8);
    lend_junk(s, frontiers_bytes(s, room));
}

static uint8_t *copy(const struct lent *l) {
    uint8_t *bytes = malloc(l->length + 1);
    if (bytes == NULL) abort();
    memcpy(bytes, l->bytes, l->length);
    return bytes;
}

static int same(const struct lent *l, uint8_t *before) {
    int equal = memcmp(l->bytes, before, l->length) == 0;
    free(before);
    return equal;
}

static void check_guards(const struct subject *s) {
    CHECK(lent_intact(&s->text) && lent_intact(&s->record) && lent_intact(&s->window) && lent_intact(&s->scratch));
}

static void check_refusal(uint64_t reply) {
    CHECK(watch_number(reply) == 0 || (reply & 0xffffff00) == 0);
    CHECK(watch_number(reply) <= 4 || watch_place(reply) == 0);
}

uint64_t try_open_bytes(struct subject *s, const uint8_t *rule, size_t length, uint64_t k, uint64_t labels) {
    lend(&s->text, length, 0);
    memcpy(s->text.bytes, rule, length);
    uint8_t *record = copy(&s->record), *window = copy(&s->window);
    uint64_t reply = (s->wide ? watch32_open : watch_open)(s->text.bytes, length, k, labels, s->record.bytes,
                                                           s->record.length, s->window.bytes, s->window.length);
    int same_record = same(&s->record, record), same_window = same(&s->window, window);
    CHECK(watch_number(reply) == 0 || (same_record && same_window));
    CHECK(memcmp(s->text.bytes, rule, length) == 0);
    check_refusal(reply);
    check_guards(s);
    return reply;
}

uint64_t try_open(struct subject *s, const char *rule, uint64_t k, uint64_t labels) {
    return try_open_bytes(s, (const uint8_t *)rule, strlen(rule), k, labels);
}

static uint64_t check_offered(struct subject *s, uint64_t reply, uint8_t *record) {
    int same_record = same(&s->record, record);
    CHECK(watch_accepted(reply) != same_record);
    CHECK(watch_accepted(reply) ? watch_number(reply) == 0 : watch_again(reply) || watch_number(reply) != 0);
    check_refusal(reply);
    check_guards(s);
    return reply;
}

uint64_t try_offer(struct subject *s, uint64_t mask, uint64_t low, uint64_t high, uint64_t labels) {
    uint8_t *record = copy(&s->record);
    CHECK(!s->wide);
    uint64_t reply = watch_offer(mask, low, high, labels, s->record.bytes, s->record.length);
    return check_offered(s, reply, record);
}

uint64_t try_offer_counts(struct subject *s, uint64_t mask, const uint32_t *c, uint64_t labels) {
    uint64_t low = watch_counts((uint16_t)c[0], (uint16_t)c[1], (uint16_t)c[2], (uint16_t)c[3]);
    uint64_t high = watch_counts((uint16_t)c[4], (uint16_t)c[5], (uint16_t)c[6], (uint16_t)c[7]);
    if (!s->wide) return try_offer(s, mask, low, high, labels);
    uint8_t *record = copy(&s->record);
    uint64_t reply = watch32_offer(mask, watch32_counts(c[0], c[1]), watch32_counts(c[2], c[3]),
                                   watch32_counts(c[4], c[5]), watch32_counts(c[6], c[7]), labels, s->record.bytes,
                                   s->record.length);
    return check_offered(s, reply, record);
}

uint64_t try_take(struct subject *s) {
    uint8_t *record = copy(&s->record), *window = copy(&s->window), *scratch = copy(&s->scratch);
    uint64_t reply = (s->wide ? watch32_take : watch_take)(s->record.bytes, s->record.length, s->window.bytes,
                                                           s->window.length, s->scratch.bytes, s->scratch.length);
    unsigned number = watch_number(reply);
    int same_record = same(&s->record, record), same_window = same(&s->window, window), same_scratch = same(&s->scratch, scratch);
    CHECK(same_window || (number == 0 && reply != NOTHING_READY));
    CHECK(same_record || number == 35 || (number == 0 && reply != NOTHING_READY));
    CHECK(number == 6 || number == 34 ? same_scratch : all_zero(s->scratch.bytes, s->scratch.length));
    check_refusal(reply);
    check_guards(s);
    if (number != 6 && number != 34) lend_junk(s, s->scratch.length);
    return reply;
}

uint64_t try_find(struct subject *s, uint64_t line) {
    uint8_t *record = copy(&s->record), *window = copy(&s->window);
    uint64_t reply = (s->wide ? watch32_find : watch_find)(line, s->record.bytes, s->record.length, s->window.bytes,
                                                           s->window.length);
    int same_record = same(&s->record, record), same_window = same(&s->window, window);
    CHECK(same_record && same_window);
    check_refusal(reply);
    check_guards(s);
    return reply;
}

/* Of an accepted close: the process's bit, the number of frontiers kept, and what stands in their places may change. */
static void check_closed(const struct subject *s, uint64_t process, const uint8_t *record, const uint8_t *window,
                         uint64_t reply) {
    const uint8_t *after = s->record.bytes;
    size_t before = frontiers_bytes(s, watch_kept(record)), kept = frontiers_bytes(s, watch_kept(after));
    CHECK(watch_flag(reply) == 0 && watch_place(reply) == 0 && watch_value(reply) == watch_kept(after));
    CHECK(process < 8 && after[3] == (record[3] | 1u << process) && !(record[3] >> process & 1));
    CHECK(memcmp(after, record, 3) == 0 && after[6] == 0 && after[7] == 0);
    CHECK(memcmp(after + 8, record + 8, record_bytes(s) - 8) == 0);
    CHECK(kept <= before && all_zero(s->window.bytes + kept, before - kept));
    CHECK(memcmp(s->window.bytes + before, window + before, s->window.length - before) == 0);
}

uint64_t try_close(struct subject *s, uint64_t process) {
    uint8_t *record = copy(&s->record), *window = copy(&s->window);
    uint64_t reply = (s->wide ? watch32_close : watch_close)(process, s->record.bytes, s->record.length,
                                                             s->window.bytes, s->window.length);
    if (watch_number(reply) == 0) check_closed(s, process, record, window, reply);
    int same_record = same(&s->record, record), same_window = same(&s->window, window);
    CHECK(watch_number(reply) == 0 ? !same_record : same_record && same_window);
    check_refusal(reply);
    check_guards(s);
    return reply;
}

void start(struct subject *s, size_t room, uint64_t k, const char *rule) {
    lend(&s->record, record_bytes(s), 0);
    lend_room(s, room);
    uint64_t reply = try_open(s, rule, k, 0);
    CHECK(watch_number(reply) == 0 && watch_value(reply) == 1);
}

uint64_t offer(struct subject *s, unsigned mask, unsigned a, unsigned b, unsigned c, unsigned d, uint64_t labels) {
    return try_offer_counts(s, mask, (uint32_t[8]){a, b, c, d}, labels);
}
