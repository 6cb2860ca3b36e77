/* PaCTL over all consistent cuts: the truth of each line by the six clauses, and of each form by its own meaning. */
#include <string.h>

#include "model.h"

/* The cuts that precede the one at hand. */
struct before {
    size_t n;
    const struct cut *cut[HISTORY];
};

static struct before cuts_before(const struct cuts *all, const struct history *h, const struct cut *s) {
    struct before before = {.n = 0};
    size_t place;
    for (unsigned i = 0; i < h->n; i++)
        if (precedes(all, &h->event[i], s, &place)) before.cut[before.n++] = &all->cut[place];
    return before;
}

static bool some_line(const struct before *before, unsigned line) {
    for (size_t i = 0; i < before->n; i++)
        if (before->cut[i]->lines >> line & 1) return true;
    return false;
}

static bool every_line(const struct before *before, unsigned line) {
    for (size_t i = 0; i < before->n; i++)
        if (!(before->cut[i]->lines >> line & 1)) return false;
    return true;
}

static bool some_form(const struct before *before, unsigned form) {
    for (size_t i = 0; i < before->n; i++)
        if (before->cut[i]->forms >> form & 1) return true;
    return false;
}

static bool every_form(const struct before *before, unsigned form) {
    for (size_t i = 0; i < before->n; i++)
        if (!(before->cut[i]->forms >> form & 1)) return false;
    return true;
}

static bool line_holds(const struct cut *s, const struct before *before, const uint8_t *labels, const uint8_t *line, unsigned i) {
    bool a = s->lines >> line[1] & 1, b = s->lines >> line[2] & 1;
    switch (line[0]) {
    case 0: return labels[line[1]] >> line[2] & 1;
    case 1: return !a;
    case 2: return a && b;
    case 3: return some_line(before, line[1]);
    case 4: return b || (a && some_line(before, i));
    default: return b || (a && before->n > 0 && every_line(before, i));
    }
}

/* The derived forms by what they say: ap, every way back meets F; eh, some whole way back has F; ah, every cut on every way back has F. */
static bool form_holds(const struct cut *s, const struct before *before, const uint8_t *labels, const struct form *form, unsigned i) {
    bool a = s->forms >> form->a & 1, b = s->forms >> form->b & 1;
    switch (form->word) {
    case AT: return labels[form->a] >> form->b & 1;
    case TRUE: return true;
    case FALSE: return false;
    case NOT: return !a;
    case AND: return a && b;
    case OR: return a || b;
    case EY: return some_form(before, form->a);
    case AY: return every_form(before, form->a);
    case ES: return b || (a && some_form(before, i));
    case AS: return b || (a && before->n > 0 && every_form(before, i));
    case EP: return a || some_form(before, i);
    case AP: return a || (before->n > 0 && every_form(before, i));
    case EH: return a && (before->n == 0 || some_form(before, i));
    default: return a && every_form(before, i);
    }
}

void label_cut(const struct history *h, const uint8_t *start, const struct cut *s, uint8_t *labels) {
    for (unsigned p = 0; p < PROCESSES; p++) {
        const struct event *last = numbered(h, p, s->counts[p]);
        labels[p] = last != NULL ? last->labels[p] : start[p];
    }
}

static void judge_cut(struct cut *s, const struct before *before, const uint8_t *labels, const struct rule *rule) {
    for (unsigned i = 0; i < rule->lines; i++)
        s->lines |= (uint64_t)line_holds(s, before, labels, rule->line[i], i) << i;
    for (unsigned i = 0; i < rule->forms; i++)
        s->forms |= (uint64_t)form_holds(s, before, labels, &rule->form[i], i) << i;
}

/* In ascending order, so that what precedes a cut is judged before it. */
void judge_cuts(struct cuts *all, const struct history *h, const struct rule *rule, const uint8_t *start,
                const struct cut *first) {
    for (size_t c = 0; c < all->n; c++) {
        struct cut *s = &all->cut[c];
        if (!s->consistent) continue;
        uint8_t labels[PROCESSES];
        label_cut(h, start, s, labels);
        struct before before = cuts_before(all, h, s);
        if (c > 0 || !begins_late(h)) judge_cut(s, &before, labels, rule);
        else s->lines = first->lines, s->forms = first->forms;
    }
}

/* Nothing changes any more once two cuts in the row have the same truth. */
struct cut judge_row(const struct rule *rule, const uint8_t *start, unsigned events) {
    struct cut last = {.lines = 0}, next;
    struct before before = {.n = 0};
    judge_cut(&last, &before, start, rule);
    before = (struct before){.n = 1, .cut = {&last}};
    for (unsigned i = 0; i < events; i++, last = next) {
        next = (struct cut){.lines = 0};
        judge_cut(&next, &before, start, rule);
        if (next.lines == last.lines && next.forms == last.forms) break;
    }
    return last;
}
