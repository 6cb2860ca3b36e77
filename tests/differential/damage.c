/* Calls on records and windows that no list of calls leaves. What the paper fixes there is compared, what find and
 * close answer, and which event leaves the hold; the rest of what it leaves free is not. */
#include <stdlib.h>
#include <string.h>

#include "../../include/watch.h"
#include "twin.h"

enum { HEADER = 8 };

struct damaged {
    const struct layout *form;
    struct lent record, window, scratch;
    uint8_t record_before[2 * RECORD_MOST], window_before[WINDOW_MOST], scratch_before[WINDOW_MOST];
};

static void damage_byte(struct source *s, uint8_t *byte) {
    switch (below(s, 4)) {
    case 0: *byte = (uint8_t)draw(s); break;
    case 1: *byte ^= (uint8_t)(1u << below(s, 8)); break;
    case 2: *byte = (uint8_t)below(s, 10); break;
    default: *byte = (uint8_t)(*byte + (chance(s, 50) ? 1 : 255));
    }
}

/* One of the parts of a record, so that each is hit often. */
static void damage_record(struct source *s, const struct layout *form, uint8_t *record) {
    uint8_t *pending = record + form->pending_at;
    unsigned clock = PROCESSES * form->width, event = (unsigned)form->event;
    unsigned held = record[2] <= PENDING ? record[2] : PENDING;
    switch (below(s, 8)) {
    case 0: damage_byte(s, record + below(s, HEADER)); break;
    case 1: damage_byte(s, record + TAKEN_AT + below(s, clock)); break;
    case 2: damage_byte(s, record + form->clocks_at + below(s, 8 * clock)); break;
    case 3: damage_byte(s, record + form->table_at + below(s, 3u * (record[1] % 65) + 3)); break;
    case 4: damage_byte(s, pending + event * below(s, held + 1 < PENDING ? held + 1 : PENDING)); break;
    case 5: damage_byte(s, pending + below(s, event * PENDING)); break;
    case 6: record[2] = (uint8_t)below(s, PENDING + 2); break;
    default: damage_byte(s, record + below(s, (unsigned)form->record));
    }
}

/* Any processes closed: one, all but one, only such as the watch has not. */
static void damage_closed(struct source *s, uint8_t *record) {
    uint8_t one = (uint8_t)(1u << below(s, 8)), beyond = (uint8_t)(255u << (record[0] <= 8 ? record[0] : 8));
    switch (below(s, 5)) {
    case 0: record[CLOSED_AT] = one; break;
    case 1: record[CLOSED_AT] = (uint8_t)~one; break;
    case 2: record[CLOSED_AT] = beyond; break;
    case 3: record[CLOSED_AT] = (uint8_t)(draw(s) & draw(s)); break;
    default: record[CLOSED_AT] = (uint8_t)draw(s);
    }
}

/* Pending places filled with events of small counts, in no order. */
static void scatter_pending(struct source *s, const struct layout *form, uint8_t *record) {
    record[2] = (uint8_t)below(s, PENDING + 1);
    for (unsigned i = 0; i < record[2]; i++) {
        uint8_t *at = record + form->pending_at + form->event * i;
        at[0] = (uint8_t)(1u << below(s, 8));
        if (chance(s, 30)) at[0] |= (uint8_t)(draw(s) & draw(s));
        for (unsigned p = 0; p < PROCESSES; p++) at[CLOCK_AT + form->width * p] = (uint8_t)below(s, 5);
    }
}

static unsigned taken_count(const struct layout *form, const uint8_t *record, unsigned p) {
    return get_count(form, record + TAKEN_AT + form->width * p);
}

/* An event that offer would accept, by the record's number of processes and taken counts. */
static struct sent acceptable(struct source *s, const struct layout *form, const uint8_t *record) {
    unsigned k = record[0] > 0 && record[0] <= PROCESSES ? record[0] : PROCESSES;
    struct sent e;
    struct words w;
    do e = random_sent(s, k, form->most), w = words_of(form, &e);
    while (refused_event(form, k, &w) != 0);
    for (unsigned p = 0; p < k; p++) {
        uint64_t count = (uint64_t)e.count[p] + (e.mask >> p & 1 ? taken_count(form, record, p) : 0);
        e.count[p] = count <= form->most ? (unsigned)count : form->most;
    }
    return e;
}

static void lay_word(uint8_t *at, uint64_t word) {
    for (unsigned i = 0; i < 8; i++) at[i] = (uint8_t)(word >> 8 * i);
}

static void lay_counts(const struct layout *form, uint8_t *at, const struct sent *e) {
    for (unsigned p = 0; p < PROCESSES; p++) put_count(form, at + form->width * p, e->count[p]);
}

static void lay_event(const struct layout *form, uint8_t *at, struct sent e) {
    at[0] = (uint8_t)e.mask;
    lay_counts(form, at + CLOCK_AT, &e);
    lay_word(at + form->event_labels_at, e.labels);
}

/* All pending places filled with a few events and what is nearly one of them, so that there are equal ones, some with
 * the same counts and other labels, some that differ only at a process that the watch has not. Bytes behind a mask may
 * be anything, and some of the events stand behind those that the record says are pending. */
static void crowd_pending(struct source *s, const struct layout *form, uint8_t *record) {
    struct sent few[3];
    for (unsigned i = 0; i < 3; i++) few[i] = acceptable(s, form, record);
    for (unsigned i = 0; i < PENDING; i++) {
        uint8_t *at = record + form->pending_at + form->event * i;
        struct sent e = few[below(s, 3)];
        if (chance(s, 40)) e = nearly(s, e, PROCESSES, form->most);
        memset(at + 1, 0, 7);
        if (chance(s, 40)) at[between(s, 1, 7)] = (uint8_t)draw(s);
        lay_event(form, at, e);
    }
    record[2] = chance(s, 30) ? PENDING : (uint8_t)below(s, PENDING + 1);
}

static uint8_t *frontier_at(const struct laid *d, unsigned place) {
    return d->window + d->form->frontier * place;
}

/* One of so many places from `from` on, often the first or the last. */
static unsigned place_of(struct source *s, unsigned from, unsigned number) {
    return from + (chance(s, 30) ? 0 : chance(s, 40) ? number - 1 : below(s, number));
}

/* How many frontiers the record says are kept. Often, and if the window has not so many, it is made to say another
 * number. */
static unsigned choose_kept(struct source *s, const struct laid *d) {
    unsigned kept_frontiers = watch_kept(d->record);
    if (kept_frontiers >= 1 && kept_frontiers <= d->room && !chance(s, 40)) return kept_frontiers;
    kept_frontiers = between(s, 1, d->room);
    memcpy(d->record + 4, (uint8_t[]){(uint8_t)kept_frontiers, (uint8_t)(kept_frontiers >> 8), 0, 0}, 4);
    return kept_frontiers;
}

/* Each line holds first at a place of its own, and behind that wherever it falls. The place is often the first or the
 * last that is kept, or stands behind those, and then the line holds at none that is kept. */
static void lay_values(struct source *s, const struct laid *d, unsigned kept_frontiers) {
    unsigned first[LINES], behind = d->room - kept_frontiers;
    for (unsigned line = 0; line < LINES; line++) {
        bool kept_one = behind == 0 || chance(s, 75);
        first[line] = kept_one ? place_of(s, 0, kept_frontiers) : place_of(s, kept_frontiers, behind);
    }
    for (unsigned place = 0; place < d->room; place++) {
        uint64_t values = draw(s);
        for (unsigned line = 0; line < LINES; line++) {
            uint64_t bit = (uint64_t)1 << line;
            if (place <= first[line]) values = place < first[line] ? values & ~bit : values | bit;
        }
        lay_word(frontier_at(d, place) + d->form->values_at, values);
    }
}

/* Frontiers out of order, twice, or changed over from those that are kept to those behind them. */
static void disorder(struct source *s, const struct laid *d) {
    size_t size = d->form->frontier;
    for (unsigned times = between(s, 1, 4); times > 0; times--) {
        unsigned first = below(s, d->room), second = below(s, d->room);
        uint8_t saved[WINDOW_MOST / (ROOM + 1)], *one = frontier_at(d, first), *two = frontier_at(d, second);
        memcpy(saved, one, size);
        memmove(one, two, size);
        if (!chance(s, 30)) memcpy(two, saved, size);
    }
}

/* Ready by the record's taken counts, and its other counts anything up to these. */
static struct sent ready_sent(struct source *s, const struct layout *form, const uint8_t *record) {
    unsigned k = record[0] > 0 && record[0] <= PROCESSES ? record[0] : PROCESSES;
    struct sent e = {.mask = (uint64_t)1 << below(s, chance(s, 90) ? k : PROCESSES)};
    if (chance(s, 35)) e.mask |= draw(s) & draw(s) & 255 >> (PROCESSES - k);
    if (chance(s, 4)) e.mask = 0;
    for (unsigned p = 0; p < PROCESSES; p++) {
        unsigned taken = taken_count(form, record, p), less = taken > 0 ? below(s, taken) : 0;
        unsigned known = chance(s, 50) ? taken : less;
        e.count[p] = e.mask >> p & 1 ? (taken + 1) & form->most : known;
    }
    e.labels = random_labels(s, e.mask);
    return e;
}

/* Puts the event's lowered clock into the window, or nearly: among the kept frontiers, only behind them, with another
 * count at a process that the watch has not, with any other count, not lowered at one of its processes. */
static void plant(struct source *s, const struct laid *d, struct sent e, unsigned kept_frontiers) {
    unsigned k = d->record[0], behind = d->room - kept_frontiers, most = d->form->most;
    unsigned way = below(s, 6), p = below(s, PROCESSES), bit = 1u << below(s, 8 * d->form->width), count;
    while (way == 4 && e.mask % 256 != 0 && !(e.mask >> p & 1)) p = (p + 1) % PROCESSES;
    for (unsigned q = 0; q < PROCESSES; q++)
        if (e.mask >> q & 1 && !(way == 4 && q == p)) e.count[q] = (e.count[q] - 1) & most;
    if (way == 2 && k > 0 && k < PROCESSES) p = between(s, k, PROCESSES - 1);
    count = e.count[p];
    if (way == 2 || way == 3) e.count[p] = chance(s, 50) ? count ^ bit : (count + 1) & most;
    if (way != 1) lay_counts(d->form, frontier_at(d, place_of(s, 0, kept_frontiers)), &e);
    else if (behind > 0) lay_counts(d->form, frontier_at(d, place_of(s, kept_frontiers, behind)), &e);
}

/* Several events that are ready at once, for most of them something planted in the window. They stand in no order, and
 * what was there before stands between them. Some taken counts are large, or are those of a process that the watch has
 * not. */
static void plant_ready(struct source *s, const struct laid *d, unsigned kept_frontiers) {
    const struct layout *form = d->form;
    uint8_t *record = d->record, *taken = record + TAKEN_AT;
    unsigned n = between(s, 1, 5), place = 0;
    if (record[0] < PROCESSES && chance(s, 20)) taken[form->width * between(s, record[0], 7)] = (uint8_t)below(s, 4);
    if (chance(s, 15)) taken[below(s, PROCESSES * form->width)] = (uint8_t)draw(s);
    if (chance(s, 20)) { /* often the largest, so that one more would be 0 */
        unsigned p = below(s, chance(s, 80) && record[0] <= PROCESSES && record[0] > 0 ? record[0] : PROCESSES);
        put_count(form, taken + form->width * p, chance(s, 50) ? form->most : brink(s, form->most));
    }
    for (unsigned i = 0; i < n; i++) {
        struct sent e = ready_sent(s, form, record);
        if (chance(s, 20)) place++;
        lay_event(form, record + form->pending_at + form->event * place++, e);
        if (chance(s, 80)) plant(s, d, e, kept_frontiers);
    }
    if (record[2] < place || chance(s, 50)) record[2] = (uint8_t)place;
}

/* Frontiers, also behind the kept ones, that have all taken events of all eight processes, of all but one, of one
 * alone, of some. Mostly little is pending, so that a process can be closed. */
static void plant_complete(struct source *s, const struct laid *d) {
    unsigned width = d->form->width;
    uint8_t *record = d->record;
    if (chance(s, 50)) damage_byte(s, record + TAKEN_AT + below(s, PROCESSES * width));
    for (unsigned place = 0; place < d->room; place++) {
        uint8_t one = (uint8_t)(1u << below(s, 8)), set = (uint8_t)(draw(s) & draw(s)), *at = frontier_at(d, place);
        unsigned way = below(s, 5);
        if (way == 0) continue;
        if (way < 4) set = way == 1 ? 255 : way == 2 ? (uint8_t)~one : one;
        memcpy(at, record + TAKEN_AT, PROCESSES * width);
        for (unsigned p = 0; p < PROCESSES; p++) {
            unsigned bit = below(s, 8 * width);
            if (!(set >> p & 1)) at[width * p + bit / 8] ^= (uint8_t)(1u << bit % 8);
        }
    }
    if (chance(s, 70)) record[2] = (uint8_t)below(s, 3);
}

void damage(struct source *s, const struct laid *d) {
    const struct layout *form = d->form;
    unsigned window_length = (unsigned)form->frontier * d->room;
    unsigned times = between(s, 1, 4);
    if (chance(s, 40)) damage_closed(s, d->record);
    if (chance(s, 20)) {
        choose_kept(s, d);
        plant_complete(s, d);
        if (chance(s, 80)) return;
    }
    bool crowded = chance(s, 25), planted = !crowded && chance(s, 35), valued = chance(s, 30);
    unsigned kept_frontiers = planted || valued ? choose_kept(s, d) : 0;
    if (chance(s, 20)) disorder(s, d);
    if (valued) lay_values(s, d, kept_frontiers);
    if (planted) plant_ready(s, d, kept_frontiers);
    if (planted && chance(s, 80)) return;
    if (crowded) crowd_pending(s, form, d->record);
    if (!crowded || chance(s, 30))
        for (unsigned i = 0; i < times; i++) damage_record(s, form, d->record);
    if (chance(s, 15)) scatter_pending(s, form, d->record);
    if (chance(s, 5)) fill_junk(s, d->record + HEADER, PROCESSES * form->width);
    if (chance(s, 5)) fill_junk(s, d->record + form->pending_at, form->event * PENDING);
    if (chance(s, 3)) fill_junk(s, d->record, form->record);
    if (chance(s, 50))
        for (unsigned i = 0; i < times; i++) damage_byte(s, d->window + below(s, window_length));
    if (chance(s, 5)) fill_junk(s, d->window, window_length);
    if (chance(s, 20)) d->record[4] = (uint8_t)below(s, d->room + 2);
}

static void remember(struct damaged *d) {
    memcpy(d->record_before, d->record.bytes, d->record.length);
    memcpy(d->window_before, d->window.bytes, d->window.length);
    memcpy(d->scratch_before, d->scratch.bytes, d->scratch.length);
}

static void unchanged(const char *name, const struct lent *l, const uint8_t *before) {
    compare_bytes(name, l->bytes, before, l->length);
}

/* Numbers that need not be an event, or one out of the pending places, or nearly that. Counts at processes that the
 * watch has not are mostly left out: with them it is refused for that. */
static struct sent damaged_sent(struct source *s, const struct damaged *d, unsigned k) {
    const uint8_t *record = d->record.bytes;
    if (d->record.length != d->form->record || chance(s, 40)) return random_sent(s, k, d->form->most);
    unsigned pending = record[2] > 0 && record[2] <= PENDING && chance(s, 85) ? record[2] : PENDING;
    struct sent e = pending_sent(d->form, record, below(s, pending));
    for (unsigned p = record[0]; p < PROCESSES; p++)
        if (chance(s, 80)) e.count[p] = 0;
    return chance(s, 50) ? e : nearly(s, e, k, d->form->most);
}

/* Refusals and "again" are whole words. What an accepted offer answers is free, but it has to say that it was one. */
static void compare_offered(uint64_t reply, unsigned expected) {
    if (expected == 0 ? watch_number(reply) != 0 || !watch_accepted(reply) : reply != expected)
        differs("on damaged bytes offer answers number %u flag %u value %u, expected the word %u", watch_number(reply),
                watch_flag(reply), watch_value(reply), expected);
}

static void damaged_offer(struct source *s, struct damaged *d, unsigned k) {
    struct sent e = damaged_sent(s, d, k);
    struct words w = words_of(d->form, &e);
    remember(d);
    note_offer(&e, " to damaged bytes");
    unsigned expected = bytes_offer(d->form, &w, d->record_before, d->record.length);
    uint64_t reply = call_offer(d->form, &e, d->record.bytes, d->record.length);
    compare_offered(tally(d->form, OFFER, reply), expected);
    unchanged("record", &d->record, d->record_before);
}

/* Mostly a line of the table, by the record's own number of lines. */
static void damaged_find(struct source *s, struct damaged *d) {
    const uint8_t *record = d->record.bytes, *window = d->window.bytes;
    unsigned lines = d->record.length == d->form->record && chance(s, 85) ? watch_lines(record) : LINES + 1;
    uint64_t line = chance(s, 95) ? below(s, lines + 1) : draw(s);
    remember(d);
    note("find line %llu on damaged bytes\n", (unsigned long long)line);
    uint64_t expected = bytes_find(d->form, line, record, d->record.length, window, d->window.length);
    uint64_t reply = call_find(d->form, line, record, d->record.length, window, d->window.length);
    compare_replies(tally(d->form, FIND, reply), expected);
    unchanged("record", &d->record, d->record_before);
    unchanged("window", &d->window, d->window_before);
}

static void damaged_close(struct source *s, struct damaged *d) {
    unsigned k = d->record.length == d->form->record ? d->record.bytes[0] : 0;
    uint64_t process = random_process(s, k > 0 && k <= PROCESSES ? k : PROCESSES);
    remember(d);
    note("close process %llu on damaged bytes, window %zu\n", (unsigned long long)process, d->window.length);
    uint64_t reply = call_close(d->form, process, d->record.bytes, d->record.length, d->window.bytes, d->window.length);
    uint64_t expected = bytes_close(d->form, process, d->record_before, d->record.length, d->window_before,
                                    d->window.length);
    compare_replies(tally(d->form, CLOSE, reply), expected);
    unchanged("record", &d->record, d->record_before);
    unchanged("window", &d->window, d->window_before);
}

/* The pending events are those of before but for one of those that may have been taken, in their order. */
static bool one_left(const struct damaged *d, uint32_t may_be_taken) {
    static uint8_t record[RECORD_MOST];
    const struct layout *form = d->form;
    for (unsigned place = 0; place < PENDING; place++) {
        if (!(may_be_taken >> place & 1)) continue;
        memcpy(record, d->record_before, form->record);
        bytes_leave(form, record, place);
        size_t pending_bytes = form->event * record[2];
        if (d->record.bytes[2] == record[2] &&
            memcmp(d->record.bytes + form->pending_at, record + form->pending_at, pending_bytes) == 0)
            return true;
    }
    return false;
}

/* Which event left: with 35 that one and nothing else. */
static void compare_left(struct damaged *d, const struct possible *can, uint64_t reply) {
    if (reply == 35) {
        bytes_leave(d->form, d->record_before, can->false_place);
        unchanged("record", &d->record, d->record_before);
        unchanged("window", &d->window, d->window_before);
    } else if (!one_left(d, can->may_be_taken)) {
        differs("take on damaged bytes took another event than one of the places %x", (unsigned)can->may_be_taken);
    }
}

static void damaged_take(struct source *s, struct damaged *d) {
    fill_junk(s, d->scratch.bytes, d->scratch.length);
    remember(d);
    note("take on damaged bytes, window %zu\n", d->window.length);
    struct possible can = bytes_take(d->form, d->record.bytes, d->record.length, d->window.bytes, d->window.length,
                                     d->scratch.length);
    uint64_t reply = call_take(d->form, d->record.bytes, d->record.length, d->window.bytes, d->window.length,
                               d->scratch.bytes, d->scratch.length);
    unsigned number = watch_number(tally(d->form, TAKE, reply));
    if (can.refused != 0) {
        compare_replies(reply, can.refused);
        unchanged("scratch", &d->scratch, d->scratch_before);
    } else if (!(reply == 0 ? can.nothing_ready : number == 0 ? can.taken : reply == 35 ? can.false_clock : reply == 36 && can.no_room)) {
        differs("take on damaged bytes answers number %u value %u; possible: nothing ready %d, taken %d, 35 %d, 36 %d", number,
                watch_value(reply), can.nothing_ready, can.taken, can.false_clock, can.no_room);
    }
    if (can.refused == 0 && !all_zero(d->scratch.bytes, d->scratch.length)) differs("the scratch is not all 0");
    if (can.refused != 0 || reply == 0 || reply == 36) {
        unchanged("record", &d->record, d->record_before);
        unchanged("window", &d->window, d->window_before);
    } else {
        compare_left(d, &can, reply);
    }
}

void damage_excursion(struct source *s, const struct twin *t, unsigned calls) {
    if (WATCHES) return;
    static struct damaged *d;
    if (d == NULL) {
        d = calloc(1, sizeof *d);
        if (d == NULL) abort();
        d->record = lent_new(2 * RECORD_MOST);
        d->window = lent_new(WINDOW_MOST);
        d->scratch = lent_new(WINDOW_MOST);
    }
    const struct layout *form = d->form = t->form;
    size_t room = chance(s, 70) ? twin_room(t) : between(s, 1, 40);
    size_t record_length = chance(s, 95) ? form->record : below(s, 2 * RECORD_MOST);
    size_t scratch_length = chance(s, 95) ? form->frontier * room : below(s, WINDOW_MOST);
    lend(&d->record, record_length, below(s, 8));
    lend(&d->window, form->frontier * room, below(s, 8));
    lend(&d->scratch, scratch_length, below(s, 8));
    memcpy(d->record.bytes, t->record_bytes, record_length < form->record ? record_length : form->record);
    memcpy(d->window.bytes, t->window_bytes, form->frontier * room);
    struct laid bytes = {form, d->record.bytes, d->window.bytes, (unsigned)room};
    if (record_length == form->record) damage(s, &bytes);
    for (unsigned i = 0; i < calls; i++) {
        unsigned action = below(s, 14);
        if (action < 4) damaged_offer(s, d, t->model.k);
        else if (action < 6) damaged_find(s, d);
        else if (action < 9) damaged_close(s, d);
        else damaged_take(s, d);
        if (!lent_intact(&d->record) || !lent_intact(&d->window) || !lent_intact(&d->scratch))
            differs("a byte outside the buffers changed");
    }
}
