/* Whole inputs: a head of three lines and events of an execution, in any order, with lines between that are spoiled,
 * out of place, sent before, or with clocks that forget. */
#include <string.h>

#include "inputs.h"

#define COUNT_MOST 4294967295

struct session {
    struct source *s;
    unsigned k, room, spoiled, forgetting; /* percentages of did lines */
    uint64_t labels;
    struct execution x;
    struct bytes *input;
};

static struct bytes line;

/* ---- right lines ---- */

static void watch_line(const struct session *t) {
    line.length = 0;
    put_text(&line, "(watch ");
    put_number(&line, t->k);
    put_text(&line, " ");
    put_number(&line, t->room);
    put_text(&line, ")");
}

static void rule_line(const struct session *t, bool spoiled) {
    uint8_t text[TEXT_MOST];
    unsigned lines = chance(t->s, 80) ? between(t->s, 1, 24) : between(t->s, 24, 64);
    line.length = 0;
    put_text(&line, "(rule ");
    put_bytes(&line, text, spoiled ? spoiled_rule(t->s, t->k, text) : random_rule(t->s, t->k, lines, text));
    put_text(&line, ")");
}

static void start_line(const struct session *t) {
    line.length = 0;
    put_text(&line, "(start");
    for (unsigned p = 0; p < t->k; p++) {
        put_text(&line, " ");
        put_number(&line, t->labels >> 8 * p & 255);
    }
    put_text(&line, ")");
}

/* A mask may have any bits, so a process from k or from 8 up. */
static void did_line(const struct session *t, struct sent e) {
    const char *before = "(did (";
    line.length = 0;
    for (unsigned p = 0; p < 64; p++) {
        if (!(e.mask >> p & 1)) continue;
        put_text(&line, before);
        put_number(&line, p);
        before = " ";
    }
    if (e.mask == 0) put_text(&line, before);
    for (unsigned p = 0; p < t->k; p++) {
        put_text(&line, p == 0 ? ") (" : " ");
        put_number(&line, e.count[p]);
    }
    before = ") (";
    for (unsigned p = 0; p < 64; p++) {
        if (!(e.mask >> p & 1)) continue;
        put_text(&line, before);
        put_number(&line, p < 8 ? e.labels >> 8 * p & 255 : p);
        before = " ";
    }
    put_text(&line, e.mask == 0 ? ") ()" : ")");
    put_text(&line, ")");
}

static void end_line(const struct session *t) {
    put_bytes(t->input, line.at, line.length);
    put_text(t->input, "\n");
}

/* ---- sessions ---- */

static struct session new_session(struct source *s, struct bytes *input) {
    struct session t = {.s = s, .k = between(s, 1, 8), .input = input};
    t.room = chance(s, 50) ? between(s, 1, 12) : chance(s, 80) ? between(s, 10, 200) : between(s, 1, 1024);
    t.labels = random_labels(s, (1u << t.k) - 1);
    input->length = 0;
    return t;
}

static void head(const struct session *t) {
    watch_line(t);
    end_line(t);
    rule_line(t, false);
    end_line(t);
    start_line(t);
    end_line(t);
}

/* A line that is no event of the execution: another, one twisted, one of the head, none. */
static void stray_line(const struct session *t) {
    struct source *s = t->s;
    struct sent e = random_sent(s, t->k, COUNT_MOST);
    unsigned choice = below(s, 100);
    if (choice < 35 && t->x.n > 0) e = twisted(s, t->x.event[below(s, t->x.n)], t->k);
    else if (choice < 65 && t->x.n > 0) e = t->x.event[below(s, t->x.n)];
    if (choice < 92) did_line(t, e);
    else if (choice < 94) watch_line(t);
    else if (choice < 96) rule_line(t, false);
    else if (choice < 98) start_line(t);
    else line.length = 0;
    if (choice < 92 && chance(s, t->spoiled)) spoil_line(s, &line);
    end_line(t);
}

/* An event's line with a clock that forgets: if all that it needs was taken it is gone before the true one comes. */
static void forgetful_line(const struct session *t, struct sent e) {
    did_line(t, forgetful(t->s, &t->x, e));
    end_line(t);
}

/* An event's line once more, or nearly: it may be held still. */
static void repeated_line(const struct session *t, struct sent e) {
    did_line(t, chance(t->s, 60) ? e : nearly(t->s, e, t->k, COUNT_MOST));
    end_line(t);
}

static void did_lines(const struct session *t) {
    struct source *s = t->s;
    unsigned strays = chance(s, 50) ? 10 : 50, repeats = chance(s, 70) ? 10 : 50;
    for (unsigned i = 0; i < t->x.n; i++) {
        while (chance(s, strays)) stray_line(t);
        if (chance(s, t->forgetting)) forgetful_line(t, t->x.event[i]);
        did_line(t, t->x.event[i]);
        if (chance(s, t->spoiled)) {
            spoil_line(s, &line);
            end_line(t);
            did_line(t, t->x.event[i]);
        }
        if (!chance(s, 3)) end_line(t);
        while (chance(s, repeats)) repeated_line(t, t->x.event[chance(s, 50) ? i : below(s, i + 1)]);
    }
}

/* An early end, or no last line feed. */
static void cut_input(struct source *s, struct bytes *input) {
    if (chance(s, 10)) input->length = below(s, (unsigned)input->length + 1);
    else if (input->length > 0 && chance(s, 15)) input->length--;
}

static void events_session(struct source *s, struct bytes *input) {
    static const unsigned spoiled[] = {0, 20, 60, 90};
    struct session t = new_session(s, input);
    struct shape shape = {.k = t.k, .n = between(s, 1, 24), .most = 500};
    shape.joint = chance(s, 50) ? 15 : 50;
    shape.messages = random_messages(s);
    t.spoiled = spoiled[below(s, 4)];
    t.forgetting = chance(s, 50) ? 40 : 0;
    t.x = random_execution(s, shape);
    if (chance(s, 70)) shuffle(s, t.x.event, t.x.n, chance(s, 60));
    head(&t);
    did_lines(&t);
    for (unsigned i = 0; t.forgetting > 0 && i < t.x.n; i++) { /* what met 32 because of one that forgot */
        did_line(&t, t.x.event[i]);
        end_line(&t);
    }
    cut_input(s, input);
}

/* Only lines that say where they are wrong; the event behind them shows that the watch is as it was. */
static void spoiled_session(struct source *s, struct bytes *input, bool stretched) {
    struct session t = new_session(s, input);
    struct shape shape = {.k = t.k, .n = between(s, 2, 6), .most = 100, .joint = 40};
    shape.messages = random_messages(s);
    t.x = random_execution(s, shape);
    head(&t);
    for (unsigned i = between(s, 10, stretched ? 20 : 60); i > 0 && input->length < BYTES_MOST / 2; i--) {
        did_line(&t, t.x.event[below(s, t.x.n)]);
        if (stretched) stretch_line(s, &line);
        if (!stretched || chance(s, 20)) spoil_line(s, &line);
        end_line(&t);
    }
    did_lines(&t);
    cut_input(s, input);
}

/* A line of the head: its numbers and its end more often than in an event's line, since here one fault is all there is in an input. */
static void spoil_head(const struct session *t, unsigned which) {
    struct source *s = t->s;
    unsigned choice = below(s, 100);
    if (which == 1 && choice < 40) rule_line(t, true);
    else if (which == 1 && choice < 50) line.length = between(s, 0, 10);
    else if (which == 1 && choice < 65) spoil_end(s, &line);
    else if (which != 1 && choice < 60) spoil_number(s, &line);
    else if (choice < 90) spoil_line(s, &line);
    else stretch_line(s, &line);
}

/* One line of the head is spoiled, left out, doubled or another. */
static void head_session(struct source *s, struct bytes *input) {
    struct session t = new_session(s, input);
    unsigned wrong = below(s, 3), how = below(s, 100);
    t.x = random_execution(s, (struct shape){.k = t.k, .n = 3, .most = 100, .joint = 40, .messages = 30});
    for (unsigned i = 0; i < 3; i++) {
        if (i == 0) watch_line(&t);
        else if (i == 1) rule_line(&t, false);
        else start_line(&t);
        if (wrong == i && how < 88) spoil_head(&t, i);
        if (wrong == i && how >= 95) stray_line(&t);
        else if (wrong != i || how < 92) end_line(&t);
        if (wrong == i && how >= 88 && how < 90) end_line(&t);
    }
    did_lines(&t);
    cut_input(s, input);
}

/* The first event comes last: up to 32 are held, then all go through. */
static void held_session(struct source *s, struct bytes *input) {
    struct session t = new_session(s, input);
    t.k = between(s, 1, 3);
    t.room = chance(s, 80) ? 1024 : t.room;
    struct shape shape = {.k = t.k, .n = between(s, 25, 42), .most = 3000, .joint = 30};
    shape.messages = random_messages(s);
    t.x = random_execution(s, shape);
    for (unsigned i = 0; i + 1 < t.x.n; i++) {
        struct sent e = t.x.event[i];
        t.x.event[i] = t.x.event[i + 1];
        t.x.event[i + 1] = e;
    }
    head(&t);
    did_lines(&t);
    for (unsigned i = 0; i < t.x.n; i++) {
        did_line(&t, t.x.event[i]);
        end_line(&t);
        if (chance(s, 30)) repeated_line(&t, t.x.event[below(s, t.x.n)]);
    }
}

/* Counts of three digits: one process alone for long, then others. */
static void late_session(struct source *s, struct bytes *input) {
    struct session t = new_session(s, input);
    t.k = between(s, 1, 3);
    t.room = 1024;
    struct shape shape = {.k = t.k, .n = between(s, 3, 6), .most = 3000, .joint = 30};
    shape.alone = below(s, t.k);
    shape.before = chance(s, 50) ? between(s, 97, 103) : between(s, 250, 260);
    shape.messages = random_messages(s);
    t.forgetting = 20;
    head(&t);
    for (unsigned i = 1; i <= shape.before; i++) {
        struct sent e = {.mask = (uint64_t)1 << shape.alone};
        e.labels = random_labels(s, e.mask);
        e.count[shape.alone] = i;
        did_line(&t, e);
        end_line(&t);
    }
    t.x = random_execution(s, shape);
    did_lines(&t);
}

/* Processes that hardly meet and do not write to each other, so that more frontiers than the room come to be kept. */
static void wide_session(struct source *s, struct bytes *input) {
    struct session t = new_session(s, input);
    t.k = between(s, 3, 5);
    t.room = chance(s, 60) ? between(s, 1020, 1024) : between(s, 90, 110);
    t.x = random_execution(s, (struct shape){.k = t.k, .n = 60, .most = 8000, .joint = 1});
    head(&t);
    did_lines(&t);
}

/* Three processes that never meet: with all their events but the last one everything fits, with it just so, or by one too few. */
static void brim_session(struct source *s, struct bytes *input) {
    struct session t = new_session(s, input);
    unsigned last[3], kept, done[3] = {0, 0, 0};
    t.k = 3;
    t.room = chance(s, 70) ? 1024 : between(s, 60, 600);
    do {
        for (unsigned p = 0; p < 3; p++) last[p] = between(s, 1, 26);
        kept = (last[0] + 1) * (last[1] + 1) * (last[2] + 1) - last[0] * last[1] * last[2];
    } while ((kept != t.room && kept != t.room + 1) || last[0] + last[1] + last[2] > EVENTS_MOST);
    while (t.x.n < last[0] + last[1] + last[2]) {
        unsigned p = below(s, 3);
        if (done[p] == last[p]) continue;
        struct sent e = {.mask = (uint64_t)1 << p, .labels = (uint64_t)below(s, 8) << 8 * p};
        e.count[p] = ++done[p];
        t.x.event[t.x.n++] = e;
    }
    head(&t);
    for (unsigned i = 0; i < t.x.n; i++) {
        did_line(&t, t.x.event[i]);
        end_line(&t);
    }
}

/* More input and more answers than a pipe holds. */
static void many_session(struct source *s, struct bytes *input) {
    struct session t = new_session(s, input);
    t.x = random_execution(s, (struct shape){.k = t.k, .n = 8, .most = 200, .joint = 30, .messages = 30});
    head(&t);
    for (unsigned i = between(s, 5000, 9000); i > 0; i--) {
        did_line(&t, t.x.event[0]);
        if (chance(s, 60)) line.length = below(s, (unsigned)line.length);
        end_line(&t);
    }
    did_lines(&t);
}

static void small_input(struct source *s, struct bytes *input) {
    input->length = 0;
    for (unsigned i = below(s, 4); i > 0; i--) {
        uint8_t byte = chance(s, 60) ? '\n' : (uint8_t)draw(s);
        put_bytes(input, &byte, 1);
    }
}

void random_input(struct source *s, uint64_t number, struct bytes *input) {
    if (number % 100 == 7) wide_session(s, input);
    else if (number % 500 == 157) late_session(s, input);
    else if (number % 500 == 357) many_session(s, input);
    else if (number % 100 == 57) brim_session(s, input);
    else if (number % 100 == 33) small_input(s, input);
    else if (number % 50 == 3) held_session(s, input);
    else if (number % 10 == 0) spoiled_session(s, input, true);
    else if (number % 10 < 3) spoiled_session(s, input, false);
    else if (number % 10 < 5) events_session(s, input);
    else head_session(s, input);
}
