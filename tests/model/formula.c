/* The reader of rules: a text becomes a list of forms and its lines, or its first fault. Section "The rule", faults 1 to 4. */
#include <string.h>

#include "model.h"

enum { DEPTH = 32, NO_FORM = LINES };

/* Of each word: its text, how many forms stand inside, how many lines it adds to theirs. */
static const struct { const char *text; unsigned inner, adds; } words[WORDS] = {
    [AT] = {"at", 0, 1},     [NOT] = {"not", 1, 1},     [AND] = {"and", 2, 1}, [EY] = {"ey", 1, 1}, [ES] = {"es", 2, 1},
    [AS] = {"as", 2, 1},     [TRUE] = {"true", 0, 4},   [FALSE] = {"false", 0, 5}, [OR] = {"or", 2, 4}, [EP] = {"ep", 1, 5},
    [AP] = {"ap", 1, 5},     [AY] = {"ay", 1, 3},       [EH] = {"eh", 1, 7},   [AH] = {"ah", 1, 7},
};

struct reader {
    const uint8_t *text;
    size_t length, at; /* at: the byte to be read next */
    uint64_t k;
    unsigned depth, closed_lines;
    struct rule *rule;
    struct fault fault;
};

static bool refuse(struct reader *r, unsigned number) {
    r->fault = (struct fault){number, r->at};
    return false;
}

static bool read_byte(struct reader *r, uint8_t byte) {
    if (r->at == r->length || r->text[r->at] != byte) return refuse(r, 1);
    r->at++;
    return true;
}

static bool read_digit(struct reader *r, uint64_t limit, unsigned *digit) {
    if (r->at == r->length || r->text[r->at] < '0' || r->text[r->at] > '9') return refuse(r, 1);
    *digit = r->text[r->at] - '0';
    if (*digit >= limit) return refuse(r, 4);
    r->at++;
    return true;
}

/* Some word has the bytes from start up to here and then this byte; no word begins with another. */
static bool read_word(struct reader *r, enum word *word) {
    size_t start = r->at;
    for (;;) {
        size_t length = r->at - start;
        bool possible = false;
        for (unsigned w = 0; w < WORDS; w++) {
            if (strlen(words[w].text) < length || memcmp(words[w].text, r->text + start, length) != 0) continue;
            if (strlen(words[w].text) == length) {
                *word = (enum word)w;
                return true;
            }
            if (r->at < r->length && (uint8_t)words[w].text[length] == r->text[r->at]) possible = true;
        }
        if (!possible) return refuse(r, 1);
        r->at++;
    }
}

static bool close_form(struct reader *r, struct form form, unsigned *name) {
    if (r->at == r->length || r->text[r->at] != ')') return refuse(r, 1);
    r->closed_lines += words[form.word].adds;
    if (r->closed_lines > LINES) return refuse(r, 3);
    r->at++;
    r->depth--;
    *name = r->rule->forms++;
    r->rule->form[*name] = form;
    return true;
}

static bool read_form(struct reader *r, unsigned *name) {
    struct form form = {.a = 0, .b = 0};
    if (r->at < r->length && r->text[r->at] == '(' && r->depth == DEPTH) return refuse(r, 2);
    if (!read_byte(r, '(')) return false;
    r->depth++;
    if (!read_word(r, &form.word)) return false;
    if (form.word == AT) {
        if (!read_byte(r, ' ') || !read_digit(r, r->k, &form.a)) return false;
        if (!read_byte(r, ' ') || !read_digit(r, 8, &form.b)) return false;
    }
    if (words[form.word].inner >= 1 && (!read_byte(r, ' ') || !read_form(r, &form.a))) return false;
    if (words[form.word].inner == 2 && (!read_byte(r, ' ') || !read_form(r, &form.b))) return false;
    return close_form(r, form, name);
}

static unsigned lay_line(struct rule *rule, unsigned kind, unsigned a, unsigned b) {
    uint8_t *line = rule->line[rule->lines];
    line[0] = (uint8_t)kind;
    line[1] = (uint8_t)a;
    line[2] = (uint8_t)b;
    return rule->lines++;
}

static unsigned lay_not(struct rule *rule, unsigned a) {
    return lay_line(rule, 1, a, 0);
}

static unsigned lay_true(struct rule *rule) {
    unsigned proposition = lay_line(rule, 0, 0, 0);
    unsigned negated = lay_not(rule, proposition);
    return lay_not(rule, lay_line(rule, 2, proposition, negated));
}

/* Lays down a form's lines behind those already there and answers its last line. */
static unsigned lay_form(struct rule *rule, unsigned name) {
    const struct form *form = &rule->form[name];
    unsigned a, b;
    switch (form->word) {
    case AT: return lay_line(rule, 0, form->a, form->b);
    case TRUE: return lay_true(rule);
    case FALSE: return lay_not(rule, lay_true(rule));
    case NOT: return lay_not(rule, lay_form(rule, form->a));
    case EY: return lay_line(rule, 3, lay_form(rule, form->a), 0);
    case AY: return lay_not(rule, lay_line(rule, 3, lay_not(rule, lay_form(rule, form->a)), 0));
    default: break;
    }
    switch (form->word) {
    case AND: case ES: case AS:
        a = lay_form(rule, form->a);
        b = lay_form(rule, form->b);
        return lay_line(rule, form->word == AND ? 2 : form->word == ES ? 4 : 5, a, b);
    case OR:
        a = lay_not(rule, lay_form(rule, form->a));
        b = lay_not(rule, lay_form(rule, form->b));
        return lay_not(rule, lay_line(rule, 2, a, b));
    case EP: case AP:
        a = lay_true(rule);
        b = lay_form(rule, form->a);
        return lay_line(rule, form->word == EP ? 4 : 5, a, b);
    default: /* AH is not EP not, EH is not AP not */
        a = lay_true(rule);
        b = lay_not(rule, lay_form(rule, form->a));
        return lay_not(rule, lay_line(rule, form->word == AH ? 4 : 5, a, b));
    }
}

struct fault read_rule(const uint8_t *text, size_t length, uint64_t k, struct rule *rule) {
    struct reader r = {.text = text, .length = length, .k = k, .rule = rule};
    unsigned name = NO_FORM;
    memset(rule, 0, sizeof *rule);
    if (!read_form(&r, &name)) return r.fault;
    if (r.at < length) return (struct fault){1, r.at};
    lay_form(rule, name);
    return (struct fault){0, 0};
}
