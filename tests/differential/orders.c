/* Demand 3, tried: two lists of calls that accept the same events in different orders and close the same processes,
 * wherever in the lists, each ended by "nothing ready", leave the same record and the same frontiers; a verdict that
 * both reported for the same counts is the same, and it is the one of that cut among all cuts of what is taken at the
 * end. And find names the same place for each line. Calls that are refused for what they are lent stand anywhere in
 * both lists, in each at places of its own. Both lists are of one stored form, and nothing is moved meanwhile: request
 * 6. */
#include <stdio.h>
#include <string.h>

#include "../../include/watch.h"
#include "twin.h"

struct verdicts {
    unsigned n;
    struct { unsigned counts[PROCESSES], truth; } reported[4 * EVENTS_MOST];
};

/* What a list sends and closes. */
struct events {
    unsigned n, wrong_number;
    struct sent event[EVENTS_MOST + 9], wrong[9]; /* the wrong ones, those that forget, are among the events too */
    bool found;
    struct sent lost; /* if found: comes when nothing is ready any more, and one that forgot in its place has left */
    unsigned closing; /* bit p: process p is to be closed */
};

/* One list of calls. Large ones are too large for the model, so the library runs alone. */
struct list {
    struct source *source;
    struct twin *twin;
    bool large, early;         /* early: a process may be closed before its last event was sent */
    unsigned refused;         /* percentage of places at which a call is refused for what it is lent */
    unsigned left[PROCESSES]; /* how many of the events that are still to come name each process */
    struct events not_named;  /* what was sent and closed, without those events that named a closed process */
    unsigned named_number;    /* and these */
    struct sent named[EVENTS_MOST + 19];
    struct verdicts verdicts;
};

static void report(struct list *l, uint64_t reply) {
    struct verdicts *v = &l->verdicts;
    const struct layout *form = l->twin->form;
    for (unsigned p = 0; p < PROCESSES; p++)
        v->reported[v->n].counts[p] = get_count(form, l->twin->record.bytes + TAKEN_AT + form->width * p);
    v->reported[v->n++].truth = watch_flag(reply);
}

static uint64_t list_take(struct list *l) {
    struct twin *t = l->twin;
    uint64_t reply;
    if (l->large) {
        lend(&t->scratch, t->window.length, 0);
        note("take window %zu\n", t->window.length);
        reply = tally(t->form, TAKE, call_take(t->form, t->record.bytes, t->record.length, t->window.bytes,
                                               t->window.length, t->scratch.bytes, t->window.length));
    } else {
        reply = twin_take(t, l->source, t->window_length);
    }
    if (watch_number(reply) == 0 && reply != 0) report(l, reply);
    return reply;
}

static uint64_t list_offer(struct list *l, struct sent e) {
    struct twin *t = l->twin;
    if (!l->large) return twin_offer(t, e);
    note_offer(&e, "");
    return tally(t->form, OFFER, call_offer(t->form, &e, t->record.bytes, t->record.length));
}

/* Byte by byte also where the model is too small: what close does can be told from the bytes alone. */
static uint64_t list_close(struct list *l, uint64_t process) {
    static uint8_t record[RECORD_MOST], window[WINDOW_MOST];
    struct twin *t = l->twin;
    size_t record_length = t->record.length;
    if (!l->large) return twin_close(t, process);
    note("close process %llu window %zu\n", (unsigned long long)process, t->window.length);
    memcpy(record, t->record.bytes, record_length);
    memcpy(window, t->window.bytes, t->window.length);
    uint64_t expected = bytes_close(t->form, process, record, record_length, window, t->window.length);
    uint64_t reply = call_close(t->form, process, t->record.bytes, record_length, t->window.bytes, t->window.length);
    compare_replies(tally(t->form, CLOSE, reply), expected);
    compare_bytes("record", t->record.bytes, record, record_length);
    compare_bytes("window", t->window.bytes, window, t->window.length);
    if (!lent_intact(&t->record) || !lent_intact(&t->window)) differs("a byte outside the buffers changed");
    return reply;
}

/* How both lists begin. */
struct opening {
    uint8_t text[TEXT_MOST];
    size_t length;
    unsigned k;
    uint64_t labels;
    bool late; /* as if so many events of each process had come before, in both lists the same */
    unsigned begin[PROCESSES];
};

static void list_open(struct list *l, const struct opening *o, unsigned room) {
    const struct layout *form = l->twin->form;
    memset(l->twin->window_bytes, 0, WINDOW_MOST);
    twin_lend(l->twin, l->source, form->record, form->frontier * room);
    l->verdicts.n = 0;
    uint64_t reply = twin_open(l->twin, o->text, o->length, o->k, o->labels);
    if (o->late) twin_begin_late(l->twin, l->source, o->begin);
    else report(l, reply);
}

static bool lend_more(struct list *l) {
    struct twin *t = l->twin;
    size_t most = t->form->frontier * ROOM, longer = t->window.length + t->form->frontier * between(l->source, 1, 30);
    if (t->window.length == most) return false;
    if (longer > most) longer = most;
    if (l->large) {
        lend_again(&t->window, longer, 0);
        t->window_length = longer;
    } else {
        twin_lend(t, l->source, t->form->record, longer);
    }
    return true;
}

/* Calls that change nothing, as often as the list has them; of this event, or of any. */
static void list_refused(struct list *l, const struct sent *e) {
    while (chance(l->source, l->refused)) refused_call(l->source, l->twin, e, false);
}

/* Takes until nothing is ready; false if not even the longest window fits. */
static bool list_drain(struct list *l) {
    for (;;) {
        list_refused(l, NULL);
        uint64_t reply = list_take(l);
        if (reply == 0) return true;
        if (reply == 36 && l->refused > 0) refused_take(l->source, l->twin);
        if (reply == 36 && !lend_more(l)) return false;
    }
}

static void count_left(struct list *l, const struct sent *e, unsigned n, int step) {
    for (unsigned i = 0; i < n; i++)
        for (unsigned p = 0; p < PROCESSES; p++)
            if (e[i].mask >> p & 1) l->left[p] += (unsigned)step;
}

/* Sends an event that was to come; those with 42 are kept apart, the others go behind the n of a row. */
static uint64_t list_send(struct list *l, struct sent e, struct sent *row, unsigned *n) {
    uint64_t reply = list_offer(l, e);
    if (reply == 33) return reply;
    count_left(l, &e, 1, -1);
    if (reply == 42) l->named[l->named_number++] = e;
    else row[(*n)++] = e;
    return reply;
}

/* The same until it is accepted; false if 32 are pending and none of them can be taken. */
static bool list_accept(struct list *l, struct sent e, struct sent *row, unsigned *n) {
    while (list_send(l, e, row, n) == 33) {
        uint64_t reply = list_take(l);
        if (reply == 0 || (reply == 36 && !lend_more(l))) return false;
    }
    return true;
}

/* Sends a pending event once more: that is no acceptance, and the orders are still of the same events. */
static void list_repeat(struct list *l) {
    static uint8_t before[RECORD_MOST];
    const struct layout *form = l->twin->form;
    uint8_t *record = l->twin->record.bytes;
    if (watch_pending(record) == 0) return;
    memcpy(before, record, form->record);
    uint64_t reply = list_offer(l, pending_sent(form, record, below(l->source, watch_pending(record))));
    if (!watch_again(reply)) differs("a pending event sent once more is answered by number %u", watch_number(reply));
    compare_bytes("record (sent once more)", record, before, form->record);
}

/* Now and then tries a word that names no process, or one of those that are to be closed. Unless it is early, only one
 * that no further event names, so that none is refused for it; 42 while one is pending. */
static void list_try_close(struct list *l, const struct events *all) {
    unsigned open = all->closing & ~(unsigned)l->twin->record.bytes[CLOSED_AT], found = 0, process = 0;
    if (chance(l->source, 5)) list_close(l, random_process(l->source, PROCESSES) | PROCESSES);
    if (!chance(l->source, l->early ? 15 : 60)) return;
    for (unsigned p = 0; p < PROCESSES; p++)
        if (open >> p & 1 && (l->early || l->left[p] == 0) && below(l->source, ++found) == 0) process = p;
    if (found > 0) list_close(l, process);
}

/* Those that are to be closed and still open, when nothing more is to come. */
static void list_close_rest(struct list *l, const struct events *all) {
    for (unsigned p = 0; p < PROCESSES; p++)
        if (all->closing & ~(unsigned)l->twin->record.bytes[CLOSED_AT] & 1u << p) list_close(l, p);
}

/* Those that forget are sent a second time at the end. False if the list does not get as far as "nothing ready". */
static bool list_run(struct list *l, const struct events *all) {
    unsigned habit = below(l->source, 3) * 40, found = 0;
    struct events *sent = &l->not_named;
    count_left(l, all->event, all->n, 1);
    count_left(l, &all->lost, all->found, 1);
    count_left(l, all->wrong, all->wrong_number, 1);
    for (unsigned i = 0; i < all->n; i++) {
        list_refused(l, &all->event[i]);
        if (!list_accept(l, all->event[i], sent->event, &sent->n)) return false;
        if (chance(l->source, 15)) list_repeat(l);
        while (chance(l->source, habit))
            if (list_take(l) == 0) break;
        list_refused(l, &all->event[i]);
        list_try_close(l, all);
    }
    if (!list_drain(l)) return false;
    list_try_close(l, all);
    if (all->found && !(list_accept(l, all->lost, &sent->lost, &found) && list_drain(l))) return false;
    sent->found = found > 0;
    for (unsigned i = 0; i < all->wrong_number; i++) {
        list_send(l, all->wrong[i], sent->wrong, &sent->wrong_number);
        list_try_close(l, all);
    }
    if (!list_drain(l)) return false;
    list_close_rest(l, all);
    list_refused(l, NULL);
    sent->closing = l->twin->record.bytes[CLOSED_AT];
    return list_drain(l);
}

/* The other order is of what the first one accepted and closed. What named a closed process there has no other answer
 * here, and neither has an event of a closed process that was taken. */
static bool other_run(struct list *l, const struct list *first) {
    if (!list_run(l, &first->not_named)) return false;
    if (l->named_number != 0) differs("an event that the other order accepted names a closed process");
    if (l->not_named.closing != first->not_named.closing) differs("a process that the other order closed stays open");
    for (unsigned i = 0; i < first->named_number; i++)
        if (list_offer(l, first->named[i]) != 42) differs("an event of a closed process is not answered by 42");
    for (unsigned i = 0; i < l->not_named.n; i++)
        if (l->not_named.event[i].mask & l->not_named.closing && list_offer(l, l->not_named.event[i]) != 42)
            differs("an event of a closed process, sent again, is not answered by 42");
    return list_drain(l);
}

/* An event behind the last of these processes, with a clock that forgets: it shares no process and count with any
 * other, and what it forgets is forgotten in every order. False if one of them has no further count. */
static bool forgetful_end(struct source *s, const struct execution *x, uint64_t mask, struct sent *end) {
    struct sent e = {.mask = mask};
    unsigned clock[PROCESSES];
    memcpy(clock, x->begin, sizeof clock);
    e.labels = random_labels(s, mask);
    for (unsigned i = 0; i < x->n; i++)
        for (unsigned p = 0; p < PROCESSES; p++)
            if (mask & x->event[i].mask & (uint64_t)1 << p) learn(x, p, x->event[i].count[p], clock);
    for (unsigned p = 0; p < PROCESSES; p++) {
        if (mask >> p & 1 && x->limit > 0 && clock[p] == x->limit) return false;
        e.count[p] = clock[p] + (mask >> p & 1);
    }
    *end = forgetful(s, x, e);
    return true;
}

/* The execution's events, perhaps without a lost one, and some that forget: ends, no two with a common process, and one
 * in the lost one's place, so that it leaves in the midst of the others. */
static void choose_events(struct source *s, const struct execution *x, bool lost, struct events *all) {
    unsigned missing = lost ? below(s, x->n) : x->n;
    *all = (struct events){.n = 0};
    for (unsigned p = 0; p < x->k; p++) {
        uint64_t mask = (uint64_t)1 << p;
        if (!chance(s, 25)) continue;
        if (p + 1 < x->k && chance(s, 30)) mask |= (uint64_t)1 << ++p;
        if (forgetful_end(s, x, mask, &all->wrong[all->wrong_number])) all->wrong_number++;
    }
    if (lost) all->lost = x->event[missing];
    if (lost && chance(s, 60)) all->wrong[all->wrong_number++] = forgetful(s, x, all->lost);
    all->found = lost && chance(s, 50);
    for (unsigned i = 0; i < x->n; i++)
        if (i != missing) all->event[all->n++] = x->event[i];
    for (unsigned i = 0; i < all->wrong_number; i++) all->event[all->n++] = all->wrong[i];
    uint64_t some = draw(s), every = chance(s, 30) ? 255 : 0;
    if (chance(s, 60)) all->closing = (unsigned)(some | every) & ((1u << x->k) - 1);
}

static void compare_verdicts(const struct verdicts *one, const struct verdicts *two) {
    for (unsigned i = 0; i < one->n; i++)
        for (unsigned j = 0; j < two->n; j++)
            if (memcmp(one->reported[i].counts, two->reported[j].counts, sizeof one->reported[i].counts) == 0 &&
                one->reported[i].truth != two->reported[j].truth)
                differs("the two orders report different verdicts for the same counts");
}

static void compare_with_end(const struct list *l) {
    const struct model *m = &l->twin->model;
    struct cuts all = all_cuts(&m->history);
    judge_cuts(&all, &m->history, &m->rule, m->start, &m->first);
    for (unsigned i = 0; i < l->verdicts.n; i++) {
        const struct cut *s = &all.cut[cut_place(&all, l->verdicts.reported[i].counts)];
        if (!s->consistent || (s->forms >> (m->rule.forms - 1) & 1) != l->verdicts.reported[i].truth)
            differs("a reported verdict is not the one of its cut at the end");
    }
    free_cuts(&all);
}

static void compare_found(const struct twin *t, unsigned line, uint64_t expected) {
    note("find line %u window %zu\n", line, t->window.length);
    uint64_t reply = call_find(t->form, line, t->record.bytes, t->record.length, t->window.bytes, t->window.length);
    compare_replies(tally(t->form, FIND, reply), expected);
}

/* The place is read from the bytes: large lists have too many cuts for the model. */
static void compare_finds(const struct twin *one, const struct twin *two) {
    for (unsigned line = 0; line < watch_lines(one->record.bytes); line++) {
        uint64_t expected = bytes_find(one->form, line, one->record.bytes, one->record.length, one->window.bytes,
                                       one->window.length);
        compare_found(one, line, expected);
        compare_found(two, line, expected);
    }
}

static void compare_ends(const struct twin *one, const struct twin *two) {
    size_t frontiers = one->form->frontier * watch_kept(one->record.bytes);
    note("the records and kept frontiers of two orders are compared\n");
    compare_bytes("record (two orders)", one->record.bytes, two->record.bytes, one->form->record);
    compare_bytes("window (two orders)", one->window.bytes, two->window.bytes, frontiers);
    if (!all_zero(one->window.bytes + frontiers, one->window.length - frontiers)) differs("the window's rest is not 0");
    if (!all_zero(two->window.bytes + frontiers, two->window.length - frontiers)) differs("the other window's rest is not 0");
}

static unsigned random_refused(struct source *s) {
    return chance(s, 40) ? 0 : between(s, 5, 30);
}

void try_orders(struct source *s, struct twin *t, struct twin *other, bool large) {
    static struct opening o;
    static struct list one, two;
    static struct events all;
    struct shape shape = {.k = between(s, 1, 8), .most = large ? 1000000 : 1500};
    bool lost = chance(s, 40); /* then the events behind the lost one stay pending, and there is place for 32 */
    t->form = other->form = random_form(s);
    o.late = chance(s, 20);
    if (o.late) random_begin(s, &shape, t->form->most);
    shape.n = between(s, 2, !large ? 12 : lost ? 24 : 60);
    shape.joint = between(s, 10, 70);
    shape.messages = random_messages(s);
    shape.ending = chance(s, 40) ? between(s, 5, 40) : 0;
    struct execution x = random_execution(s, shape);
    choose_events(s, &x, lost && x.n > 0, &all);
    memcpy(o.begin, shape.begin, sizeof o.begin);
    o.k = shape.k;
    o.length = random_rule(s, o.k, between(s, 1, 64), o.text);
    o.labels = random_labels(s, (1u << o.k) - 1);
    one = (struct list){.source = s, .twin = t, .large = large, .refused = random_refused(s)};
    two = (struct list){.source = s, .twin = other, .large = large, .refused = random_refused(s)};
    one.early = chance(s, 40);
    list_open(&one, &o, between(s, 1, 30));
    shuffle(s, all.event, all.n, false);
    bool ended = list_run(&one, &all);
    note("the other order\n");
    list_open(&two, &o, between(s, 1, ROOM));
    struct events *same = &one.not_named;
    shuffle(s, same->event, same->n, chance(s, 50) && same->n <= 32);
    if (ended && other_run(&two, &one)) compare_ends(t, other), compare_finds(t, other);
    compare_verdicts(&one.verdicts, &two.verdicts);
    if (!large) compare_with_end(&one), compare_with_end(&two);
    move_excursion(s, t, false); /* when both lists have ended */
}
