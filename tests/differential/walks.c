/* Random calls on one watch: an execution's events in some order, sent again, nearly the same, twisted, with clocks
 * that forget, with numbers that are none; closes anywhere among them, moves to the other form, and pages; windows that
 * are too short and then longer; calls that are lent what they refuse. */
#include <string.h>

#include "twin.h"

static size_t random_room(struct source *s) {
    return chance(s, 60) ? between(s, 1, 12) : chance(s, 80) ? between(s, 10, 200) : between(s, 1, ROOM);
}

void try_texts(struct source *s, struct twin *t) {
    uint8_t text[TEXT_MOST];
    for (unsigned i = 0; i < 25; i++) {
        unsigned k = between(s, 1, 8);
        t->form = random_form(s);
        size_t right = t->form->record, record_length = right, window_length = t->form->frontier * random_room(s);
        if (chance(s, 3)) record_length = chance(s, 50) ? right - 1 - below(s, 5) : right + below(s, 9);
        if (chance(s, 1)) record_length = other_form(t->form)->record;
        if (chance(s, 3)) window_length = below(s, WINDOW_MOST + 1);
        uint64_t labels = random_labels(s, (1u << k) - 1), processes = k;
        if (chance(s, 3)) labels |= (uint64_t)1 << below(s, 64);
        if (chance(s, 3)) processes = chance(s, 50) ? below(s, 12) : sized(s);
        size_t length = chance(s, 25) ? random_rule(s, k, between(s, 1, 64), text) : spoiled_rule(s, k, text);
        fill_junk(s, t->record_bytes, right);
        fill_junk(s, t->window_bytes, window_length);
        twin_lend(t, s, record_length, window_length);
        twin_open(t, text, length, processes, labels);
    }
}

/* Nothing where there is no page of it. */
static void print_watch(struct source *s, struct twin *t) {
    if (can_print(t->form)) twin_page(t, s, random_page(s, get_kept(t->record_bytes)));
}

/* Into buffers of the right lengths, or with one of them wrong, or with room for more or fewer frontiers: 6. */
static uint64_t move_watch(struct source *s, struct twin *t, bool right) {
    const struct layout *to = other_form(t->form);
    size_t record_length = to->record, window_length = to->frontier * twin_room(t);
    unsigned choice = right ? 3 : below(s, 3);
    if (choice == 0) record_length = wrong_record(s, to);
    if (choice == 1) window_length = wrong_window(s, to, window_length);
    if (choice == 2) window_length = to->frontier * random_room(s);
    return both_forms() ? twin_move(t, s, record_length, window_length) : 6;
}

/* There and back: the bytes are the old ones then, and the calls go on in the form in which they were. */
static void move_there_and_back(struct source *s, struct twin *t) {
    if (move_watch(s, t, chance(s, 85)) == 0 && chance(s, 40)) move_watch(s, t, true);
}

static void lend_longer(struct source *s, struct twin *t) {
    size_t longer = twin_room(t) + (chance(s, 70) ? between(s, 1, 4) : random_room(s));
    twin_lend(t, s, t->form->record, t->form->frontier * (longer < ROOM ? longer : ROOM));
}

/* One line; now and then all of them, since few hold at some kept frontiers but not at the first. */
static void random_find(struct source *s, struct twin *t) {
    unsigned lines = t->model.rule.lines;
    bool each = chance(s, 10);
    for (unsigned line = 0; each && line < lines; line++) twin_find(t, line);
    if (!each) twin_find(t, chance(s, 90) ? below(s, lines + 1) : chance(s, 50) ? lines - 1 : sized(s));
}

static void random_offer(struct source *s, struct twin *t, const struct execution *x) {
    struct sent e = random_sent(s, x->k, t->form->most);
    for (unsigned p = 0; p < x->k; p++)
        if (chance(s, 80)) e.count[p] += x->begin[p];
    if (x->n > 0 && chance(s, 70)) e = x->event[below(s, x->n)];
    if (x->n > 0 && chance(s, 50)) e = twisted(s, x->event[below(s, x->n)], x->k);
    twin_offer(t, e);
}

uint64_t finished_process(struct source *s, const struct twin *t, const struct execution *x) {
    unsigned last[PROCESSES] = {0}, found = 0;
    uint64_t process = below(s, x->k);
    for (unsigned i = 0; i < x->n; i++)
        for (unsigned p = 0; p < x->k; p++) {
            unsigned count = x->event[i].mask >> p & 1 ? x->event[i].count[p] : 0;
            if (count > last[p]) last[p] = count;
        }
    for (unsigned p = 0; p < x->k; p++)
        if (!(t->model.closed >> p & 1) && t->model.history.taken[p] >= last[p] && below(s, ++found) == 0) process = p;
    return process;
}

static void random_close(struct source *s, struct twin *t, const struct execution *x) {
    twin_close(t, chance(s, 50) ? finished_process(s, t, x) : random_process(s, x->k));
}

/* Its processes' next events are this one, and it is not pending. */
static bool next_up(const struct twin *t, const struct sent *e) {
    for (unsigned p = 0; p < PROCESSES; p++) {
        if (!(e->mask >> p & 1)) continue;
        if (e->count[p] != t->model.history.taken[p] + 1) return false;
        for (unsigned i = 0; i < t->model.pending_number; i++)
            if (involved(&t->model.pending[i], p) && t->model.pending[i].clock[p] == e->count[p]) return false;
    }
    return true;
}

/* Then 35 is near, and the true one may be accepted after it. */
void offer_forgetful(struct source *s, struct twin *t, const struct execution *x) {
    const struct sent *e = &x->event[below(s, x->n)];
    unsigned found = 0;
    bool any = chance(s, 15);
    for (unsigned i = 0; i < x->n && !any; i++)
        if (next_up(t, &x->event[i]) && below(s, ++found) == 0) e = &x->event[i];
    twin_offer(t, forgetful(s, x, *e));
}

static void forgetful_offer(struct source *s, struct twin *t, const struct execution *x) {
    offer_forgetful(s, t, x);
    if (chance(s, 60)) twin_take(t, s, t->window_length);
}

/* A pending event once more, or nearly; or else one that came before, which may have been taken. */
static void repeated_offer(struct source *s, struct twin *t, const struct sent *sent, unsigned n) {
    unsigned pending = t->model.pending_number;
    struct sent e;
    if (pending > 0 && chance(s, 80)) e = pending_sent(t->form, t->record_bytes, below(s, pending));
    else if (n > 0) e = sent[below(s, n)];
    else return;
    twin_offer(t, chance(s, 50) ? e : nearly(s, e, t->model.k, t->form->most));
}

/* Takes, with a longer window at 36, until nothing is ready. */
static void drain(struct source *s, struct twin *t) {
    for (;;) {
        if (chance(s, 8)) refused_call(s, t, NULL, true);
        uint64_t reply = twin_take(t, s, t->window_length);
        if (reply == 0) return;
        if (reply == 36 && twin_room(t) == ROOM) return;
        if (reply == 36 && chance(s, 20)) refused_take(s, t);
        if (reply == 36) lend_longer(s, t);
    }
}

void start_of_form(struct source *s, struct twin *t, const struct layout *form, unsigned k, size_t room) {
    uint8_t text[TEXT_MOST];
    size_t length = random_rule(s, k, chance(s, 80) ? between(s, 1, 24) : between(s, 24, 64), text);
    t->form = form;
    size_t window_length = t->form->frontier * room;
    fill_junk(s, t->record_bytes, t->form->record);
    fill_junk(s, t->window_bytes, window_length);
    twin_lend(t, s, t->form->record, window_length);
    twin_open(t, text, length, k, random_labels(s, (1u << k) - 1));
    memset(t->window_bytes + window_length, 0, WINDOW_MOST - window_length);
}

static void start_watch(struct source *s, struct twin *t, unsigned k, size_t room) {
    start_of_form(s, t, random_form(s), k, room);
}

/* One process after the other until none is open, or as far as the pending events let it; then each once more. What
 * was sent before is sent in between. */
static void close_all(struct source *s, struct twin *t, const struct execution *x) {
    unsigned first = below(s, x->k);
    for (unsigned i = 0; i < 2 * x->k; i++) {
        twin_close(t, (first + i) % x->k);
        if (x->n > 0 && chance(s, 50)) twin_offer(t, x->event[below(s, x->n)]);
        if (chance(s, 30)) twin_take(t, s, t->window_length);
        if (chance(s, 30)) random_find(s, t);
        if (chance(s, 10)) refused_call(s, t, NULL, true);
    }
}

/* The execution's events and whatever comes between. Forgetting: percentage of clocks that forget; closing: of calls
 * that are closes. */
static void walk(struct source *s, struct twin *t, struct execution *x, unsigned forgetting, unsigned closing) {
    unsigned next = 0;
    bool hostile = chance(s, 60);
    if (chance(s, 70)) shuffle(s, x->event, x->n, chance(s, 60));
    while (next < x->n) {
        unsigned action = below(s, 100);
        if (chance(s, 8)) refused_call(s, t, &x->event[next], true);
        if (chance(s, forgetting)) forgetful_offer(s, t, x);
        else if (chance(s, closing)) random_close(s, t, x);
        else if (action < 40) twin_offer(t, x->event[next++]);
        else if (action < 65) twin_take(t, s, t->window_length);
        else if (action < 75 && hostile) random_offer(s, t, x);
        else if (action < 80) random_find(s, t);
        else if (action < 85) lend_longer(s, t);
        else if (action < 88) disorder_excursion(s, t);
        else if (action < 91) damage_excursion(s, t, 3);
        else if (action < 94) move_there_and_back(s, t);
        else if (action < 96) print_watch(s, t);
        else repeated_offer(s, t, x->event, next);
    }
    drain(s, t);
    for (unsigned i = 0; i < x->n; i++) twin_offer(t, x->event[i]);
    drain(s, t);
    if (chance(s, 35)) close_all(s, t, x);
    random_find(s, t);
    damage_excursion(s, t, 4);
    print_watch(s, t);
    move_there_and_back(s, t);
    move_excursion(s, t, true);
    page_excursion(s, t);
}

/* Where processes are closed, some have nothing more to do after a while: then others go on beside closed ones. */
static unsigned random_closing(struct source *s, struct shape *shape) {
    unsigned closing = chance(s, 40) ? 0 : between(s, 1, 15);
    if (closing > 0 && chance(s, 60)) shape->ending = between(s, 10, 40);
    return closing;
}

void try_walk(struct source *s, struct twin *t, unsigned events, size_t vectors) {
    struct shape shape = {.k = between(s, 1, 8), .n = events, .most = vectors};
    start_watch(s, t, shape.k, random_room(s));
    shape.joint = chance(s, 50) ? 15 : 50;
    shape.messages = random_messages(s);
    unsigned closing = random_closing(s, &shape);
    struct execution x = random_execution(s, shape);
    walk(s, t, &x, chance(s, 50) ? 25 : 0, closing);
}

void try_late(struct source *s, struct twin *t) {
    struct shape shape = {.k = between(s, 2, 4), .most = 3500, .joint = 15};
    shape.n = between(s, 6, 16);
    shape.alone = below(s, shape.k);
    shape.before = between(s, 253, 259);
    shape.messages = chance(s, 80) ? 60 : 0;
    unsigned closing = random_closing(s, &shape);
    start_watch(s, t, shape.k, ROOM);
    for (unsigned i = 1; i <= shape.before; i++) {
        struct sent e = {.mask = (uint64_t)1 << shape.alone};
        e.labels = random_labels(s, e.mask);
        e.count[shape.alone] = i;
        twin_forward(t, e);
    }
    twin_catch_up(t);
    struct execution x = random_execution(s, shape);
    walk(s, t, &x, 30, closing);
}

/* Wide watches near 65,535 can be moved back until some process is past it. */
void try_late_begin(struct source *s, struct twin *t) {
    struct shape shape = {.k = between(s, 1, 8), .most = 800};
    start_watch(s, t, shape.k, random_room(s));
    random_begin(s, &shape, t->form->most);
    shape.n = between(s, 1, 14);
    shape.joint = chance(s, 50) ? 15 : 50;
    shape.messages = random_messages(s);
    unsigned closing = random_closing(s, &shape);
    twin_begin_late(t, s, shape.begin);
    struct execution x = random_execution(s, shape);
    walk(s, t, &x, chance(s, 50) ? 25 : 0, closing);
}

/* Every event comes after one of all processes together that does not come, so nothing is ready until others are sent
 * that are no part of it. */
void try_crowd(struct source *s, struct twin *t) {
    struct shape shape = {.k = between(s, 1, 8), .n = EVENTS_MOST, .most = SIZE_MAX};
    unsigned next = 0;
    start_watch(s, t, shape.k, random_room(s));
    shape.joint = chance(s, 50) ? 15 : 50;
    shape.messages = random_messages(s);
    struct execution x = random_execution(s, shape);
    for (unsigned i = 0; i < x.n; i++)
        for (unsigned p = 0; p < x.k; p++) x.event[i].count[p]++;
    shuffle(s, x.event, x.n, chance(s, 50));
    while (next < x.n) {
        unsigned action = below(s, 100);
        if (action < 40) twin_offer(t, x.event[next++]);
        else if (action < 85) repeated_offer(s, t, x.event, next);
        else if (action < 90) twin_take(t, s, t->window_length);
        else if (action < 93) random_offer(s, t, &x);
        else if (action < 95) random_close(s, t, &x);
        else if (action < 96) refused_call(s, t, NULL, true);
        else if (action < 97) disorder_excursion(s, t);
        else damage_excursion(s, t, 3);
    }
}

/* From the shortest window on, which a take wants longer for nearly every event, and finds 41,000 bytes instead. */
void try_refused(struct source *s, struct twin *t) {
    struct shape shape = {.k = between(s, 1, 8), .most = 400, .joint = 30};
    shape.n = between(s, 1, 10);
    shape.messages = random_messages(s);
    unsigned closing = random_closing(s, &shape);
    start_watch(s, t, shape.k, 1);
    struct execution x = random_execution(s, shape);
    if (chance(s, 50)) shuffle(s, x.event, x.n, chance(s, 50));
    for (unsigned i = 0; i < x.n; i++) {
        while (chance(s, 30)) refused_call(s, t, &x.event[i], true);
        twin_offer(t, x.event[i]);
        if (chance(s, 50)) refused_take(s, t);
        while (twin_take(t, s, t->window_length) == 36 && chance(s, 80)) {
            refused_take(s, t);
            twin_lend(t, s, t->form->record, t->window_length + t->form->frontier);
        }
        while (chance(s, 50)) refused_call(s, t, &x.event[i], true);
        if (chance(s, closing)) random_close(s, t, &x);
    }
    drain(s, t);
    while (chance(s, 70)) refused_call(s, t, NULL, true);
    print_watch(s, t);
    random_find(s, t);
}

/* Few are taken, so that several are ready at once. */
void try_disorder(struct source *s, struct twin *t) {
    struct shape shape = {.k = between(s, 1, 8), .most = 400, .joint = 30};
    shape.n = between(s, 2, 12);
    shape.messages = random_messages(s);
    unsigned closing = random_closing(s, &shape);
    start_watch(s, t, shape.k, random_room(s));
    if (chance(s, 20)) {
        random_begin(s, &shape, t->form->most);
        twin_begin_late(t, s, shape.begin);
    }
    struct execution x = random_execution(s, shape);
    shuffle(s, x.event, x.n, chance(s, 50));
    for (unsigned i = 0; i < x.n; i++) {
        twin_offer(t, x.event[i]);
        if (chance(s, 20)) forgetful_offer(s, t, &x);
        if (chance(s, 30)) twin_take(t, s, t->window_length);
        if (chance(s, closing)) random_close(s, t, &x);
        if (chance(s, 40)) disorder_excursion(s, t);
    }
    for (unsigned i = 0; i < 4; i++) disorder_excursion(s, t);
    drain(s, t);
}

void try_damage(struct source *s, struct twin *t) {
    struct shape shape = {.k = between(s, 1, 8), .most = 600, .joint = 30};
    shape.n = between(s, 1, 10);
    shape.messages = random_messages(s);
    start_watch(s, t, shape.k, random_room(s));
    struct execution x = random_execution(s, shape);
    shuffle(s, x.event, x.n, chance(s, 50));
    for (unsigned i = 0; i < x.n; i++) {
        twin_offer(t, x.event[i]);
        if (chance(s, 50)) twin_take(t, s, t->window_length);
        if (chance(s, 5)) random_close(s, t, &x);
    }
    for (unsigned i = 0; i < 12; i++) damage_excursion(s, t, 5);
}

/* Junk in every place, used or not. */
void try_moves(struct source *s, struct twin *t) {
    struct shape shape = {.k = between(s, 1, 8), .most = 600, .joint = 30};
    shape.n = between(s, 1, 10);
    start_watch(s, t, shape.k, random_room(s));
    struct execution x = random_execution(s, shape);
    shuffle(s, x.event, x.n, chance(s, 50));
    for (unsigned i = 0; i < x.n; i++) {
        twin_offer(t, x.event[i]);
        if (chance(s, 50)) twin_take(t, s, t->window_length);
        if (chance(s, 10)) move_there_and_back(s, t);
    }
    for (unsigned i = 0; i < 12; i++) move_excursion(s, t, true);
}

/* Shortly before a count has a digit more. */
static unsigned before_next_digit(struct source *s) {
    unsigned next = 10;
    for (unsigned more = below(s, 9); more > 0; more--) next *= 10;
    return next - between(s, 1, 4);
}

/* A page after each step, and of junk at the end. */
void try_pages(struct source *s, struct twin *t) {
    struct shape shape = {.k = between(s, 1, 8), .most = 400, .joint = 20};
    if (!can_print(&wide_form)) return;
    start_of_form(s, t, &wide_form, shape.k, random_room(s));
    for (unsigned p = 0; p < shape.k; p++) shape.begin[p] = before_next_digit(s);
    shape.n = between(s, 1, 12);
    shape.messages = random_messages(s);
    if (chance(s, 60)) twin_begin_late(t, s, shape.begin);
    else memset(shape.begin, 0, sizeof shape.begin);
    struct execution x = random_execution(s, shape);
    for (unsigned i = 0; i < x.n; i++) {
        twin_offer(t, x.event[i]);
        twin_take(t, s, t->window_length);
        if (chance(s, 5)) random_close(s, t, &x);
        if (chance(s, 5)) refused_call(s, t, NULL, true);
        print_watch(s, t);
    }
    for (unsigned i = 0; i < 12; i++) page_excursion(s, t);
}
