/* Calls in the midst of a list that are refused for the lengths of what they are lent: 6, or 34 where the window is too
 * short for what is kept. No byte of any lent buffer changes, and the caller goes on with the record and window of
 * before: what comes after is compared as if the call had not been. */
#include <stdlib.h>
#include <string.h>

#include "../../include/watch.h"
#include "twin.h"

/* ---- lengths ---- */

size_t wrong_record(struct source *s, const struct layout *form) {
    switch (below(s, 6)) {
    case 0: return 0;
    case 1: return form->record - 1;
    case 2: return form->record + 1;
    case 3: return other_form(form)->record;
    case 4: return below(s, (unsigned)form->record);
    default: return form->record + 1 + below(s, 100);
    }
}

/* Nothing, a frontier more than allowed (41,000 bytes), the other form's, or no whole number of frontiers. */
size_t wrong_window(struct source *s, const struct layout *form, size_t length) {
    size_t others = length / form->frontier * other_form(form)->frontier;
    size_t off = between(s, 1, (unsigned)form->frontier - 1);
    switch (below(s, 6)) {
    case 0: return 0;
    case 1: return form->frontier * (ROOM + 1);
    case 2: return window_length(form, others) ? 1 : others;
    case 3: return below(s, (unsigned)form->frontier);
    case 4: return length - off;
    default: return length + off <= WINDOW_MOST ? length + off : 0;
    }
}

/* Not as long as the window. */
static size_t wrong_scratch(struct source *s, const struct layout *form, size_t window) {
    size_t lengths[] = {0, window - 1, window + 1, window - form->frontier, window + form->frontier,
                        form->frontier * (ROOM + 1), form->frontier * between(s, 1, ROOM)};
    size_t length = lengths[below(s, 7)]; /* if a difference is none it is too long */
    return length != window && length <= WINDOW_MOST ? length : window == 0 ? 1 : 0;
}

/* 6 and 34 by the lengths alone, for a watch that calls wrote; 0 if they are right for this call. */
static unsigned refused_by(const struct layout *form, enum call call, size_t kept_frontiers, struct lengths l) {
    if (l.record != form->record) return 6;
    if (call == OFFER) return 0;
    if (!window_length(form, l.window) || (call == TAKE && l.scratch != l.window)) return 6;
    return call != OPEN && l.window / form->frontier < kept_frontiers ? 34 : 0;
}

/* One of them is wrong or more, or the window is right and too short. */
static struct lengths choose_lengths(struct source *s, const struct twin *t, enum call call) {
    const struct layout *form = t->form;
    unsigned kept_frontiers = get_kept(t->record.bytes);
    struct lengths l;
    do {
        l = (struct lengths){form->record, t->window.length, t->window.length};
        if (chance(s, 30)) l.record = wrong_record(s, form);
        if (chance(s, 35)) l.window = wrong_window(s, form, l.window);
        else if (chance(s, 50) && kept_frontiers > 1) l.window = form->frontier * between(s, 1, kept_frontiers - 1);
        if (chance(s, 75)) l.scratch = l.window;
        if (chance(s, 25)) l.scratch = wrong_scratch(s, form, l.window);
    } while (refused_by(form, call, kept_frontiers, l) == 0);
    return l;
}

/* ---- what is lent ---- */

/* The buffers of one call as they were before it. */
struct loan {
    unsigned n;
    struct {
        const char *name;
        struct lent *lent;
        uint8_t *before;
    } part[4];
};

/* The caller's bytes, as many as fit, and after them zeros or anything. */
static void lend_part(struct source *s, struct loan *loan, const char *name, struct lent *l, size_t length,
                      const uint8_t *bytes, size_t there) {
    lend(l, length, chance(s, 75) ? 0 : below(s, 8));
    if (there == 0 || chance(s, 30)) fill_junk(s, l->bytes, length);
    if (there > 0) memcpy(l->bytes, bytes, length < there ? length : there);
    uint8_t *before = malloc(length + 1);
    if (before == NULL) abort();
    memcpy(before, l->bytes, length);
    loan->part[loan->n].name = name;
    loan->part[loan->n].lent = l;
    loan->part[loan->n++].before = before;
}

static void take_back(struct loan *loan) {
    for (unsigned i = 0; i < loan->n; i++) {
        const struct lent *l = loan->part[i].lent;
        compare_bytes(loan->part[i].name, l->bytes, loan->part[i].before, l->length);
        if (!lent_intact(l)) differs("a byte outside the buffers of a refused call changed");
        free(loan->part[i].before);
    }
}

/* What a call is lent beside record and window. A move and a page get buffers that would do. */
static void lend_more_parts(struct source *s, struct twin *t, enum call call, struct lengths l, struct loan *loan) {
    const struct layout *to = other_form(t->form);
    size_t room = l.window / t->form->frontier;
    if (room < 1 || room > ROOM) room = 1;
    if (call == OPEN) lend_part(s, loan, "text", &t->text, 6, (const uint8_t *)"(true)", 6);
    if (call == TAKE) lend_part(s, loan, "scratch", &t->scratch, l.scratch, NULL, 0);
    if (call == MOVE) lend_part(s, loan, "other record", &t->to_record, to->record, NULL, 0);
    if (call == MOVE) lend_part(s, loan, "other window", &t->to_window, to->frontier * room, NULL, 0);
    if (call == PAGE) lend_part(s, loan, "page", &t->page, ROW * ROOM, NULL, 0);
}

/* ---- the calls ---- */

/* With an event for an offer, a line for a find, a process for a close, any of which might be accepted. */
static uint64_t make(struct twin *t, struct lent *r, struct lent *w, enum call call, const struct sent *e,
                     uint64_t line, uint64_t process) {
    const struct layout *form = t->form;
    switch (call) {
    case OPEN:
        return call_open(form, t->text.bytes, t->text.length, t->model.k, 0, r->bytes, r->length, w->bytes, w->length);
    case OFFER: return call_offer(form, e, r->bytes, r->length);
    case TAKE:
        return call_take(form, r->bytes, r->length, w->bytes, w->length, t->scratch.bytes, t->scratch.length);
    case FIND: return call_find(form, line, r->bytes, r->length, w->bytes, w->length);
    case CLOSE: return call_close(form, process, r->bytes, r->length, w->bytes, w->length);
    case MOVE:
        return call_move(form, r->bytes, r->length, w->bytes, w->length, t->to_record.bytes, t->to_record.length,
                         t->to_window.bytes, t->to_window.length);
    default: return call_page(r->bytes, r->length, w->bytes, w->length, t->page.bytes, t->page.length);
    }
}

static void note_refused(const struct twin *t, enum call call, struct lengths l, const struct sent *e) {
    static const char *const names[CALLS] = {"open", "offer", "take", "find", "close", "move", "page", "busiest"};
    if (call == OFFER) note_sent("offer", e, ", the wrong record");
    note("%s lent record %zu window %zu scratch %zu, where %zu and %zu are right\n", names[call], l.record, l.window,
         l.scratch, t->record.length, t->window.length);
}

/* On a copy of the watch, so that the caller has its own as it was. */
static void lend_and_call(struct source *s, struct twin *t, enum call call, struct lengths l, const struct sent *e) {
    static struct lent record, window;
    struct loan loan = {.n = 0};
    unsigned expected = refused_by(t->form, call, get_kept(t->record.bytes), l);
    uint64_t line = below(s, t->model.rule.lines), process = below(s, t->model.k);
    if (expected == 0) abort();
    if (record.slab == NULL) record = lent_new(2 * RECORD_MOST), window = lent_new(WINDOW_MOST);
    note_refused(t, call, l, e);
    lend_part(s, &loan, "record", &record, l.record, t->record.bytes, t->record.length);
    if (call != OFFER) lend_part(s, &loan, "window", &window, l.window, t->window.bytes, t->window.length);
    lend_more_parts(s, t, call, l, &loan);
    uint64_t reply = make(t, &record, &window, call, e, line, process);
    compare_replies(tally_refused(t->form, call, reply), expected);
    take_back(&loan);
    t->calls++;
}

static enum call choose_call(struct source *s, const struct twin *t, bool moves) {
    static const enum call some[] = {TAKE, TAKE, TAKE, TAKE, OFFER, OFFER, FIND, CLOSE, OPEN, PAGE, MOVE};
    for (;;) {
        enum call call = some[below(s, sizeof some / sizeof some[0])];
        if ((call != PAGE || can_print(t->form)) && (call != MOVE || (moves && both_forms()))) return call;
    }
}

void refused_call(struct source *s, struct twin *t, const struct sent *e, bool moves) {
    enum call call = choose_call(s, t, moves);
    struct sent any = random_sent(s, t->model.k, t->form->most);
    lend_and_call(s, t, call, choose_lengths(s, t, call), e != NULL ? e : &any);
}

void refused_take(struct source *s, struct twin *t) {
    size_t too_long = t->form->frontier * (ROOM + 1);
    lend_and_call(s, t, TAKE, (struct lengths){t->form->record, too_long, too_long}, NULL);
}
