/* The reader of rules of the plain C version: one pass, lines laid down as the brackets close. */
#include "plain_inner.h"

enum { DEPTH = 32, LAID = 200, FAULT = LAID };

enum word { AT, NOT, AND, EY, ES, AS, TRUE, FALSE, OR, EP, AP, AY, EH, AH, WORDS };
static const char text_of[WORDS][6] = {"at", "not", "and", "ey", "es", "as", "true", "false", "or", "ep", "ap", "ay", "eh", "ah"};
static const uint8_t adds[WORDS] = {1, 1, 1, 1, 1, 1, 4, 5, 4, 5, 5, 3, 7, 7};

/* An open ep and its like have laid down a `true` already: up to 64 lines of closed forms and 32 times 4. */
struct reader {
    const uint8_t *text;
    size_t length, at;
    unsigned k, closed, laid, fault;
    uint8_t table[LAID][3];
};

static unsigned refuse(struct reader *r, unsigned number) {
    r->fault = number;
    return FAULT;
}

static int next(const struct reader *r) {
    return r->at < r->length ? r->text[r->at] : -1;
}

static unsigned lay(struct reader *r, unsigned kind, unsigned a, unsigned b) {
    uint8_t *line = r->table[r->laid];
    line[0] = (uint8_t)kind, line[1] = (uint8_t)a, line[2] = (uint8_t)b;
    return r->laid++;
}

static unsigned lay_true(struct reader *r) {
    unsigned first = lay(r, 0, 0, 0);
    lay(r, 1, first, 0);
    return lay(r, 1, lay(r, 2, first, first + 1), 0);
}

/* Words differ within their first two bytes. */
static enum word read_word(struct reader *r) {
    int first = next(r), begun = 0;
    for (unsigned w = 0; w < WORDS; w++) {
        if (text_of[w][0] != first) continue;
        begun = 1;
        if (r->at + 1 >= r->length || (char)r->text[r->at + 1] != text_of[w][1]) continue;
        const char *rest = text_of[w] + 2;
        for (r->at += 2; *rest != 0; rest++, r->at++)
            if (next(r) != *rest) return WORDS;
        return (enum word)w;
    }
    r->at += begun;
    return WORDS;
}

static unsigned read_form(struct reader *r, unsigned depth);

static unsigned read_inner(struct reader *r, unsigned depth) {
    if (next(r) != ' ') return refuse(r, 1);
    r->at++;
    return read_form(r, depth);
}

static unsigned read_digit(struct reader *r, unsigned limit) {
    if (next(r) != ' ') return refuse(r, 1);
    r->at++;
    unsigned digit = (unsigned)next(r) - '0';
    if (digit > 9) return refuse(r, 1);
    if (digit >= limit) return refuse(r, 4);
    r->at++;
    return digit;
}

static unsigned close_form(struct reader *r, enum word w, unsigned a, unsigned b) {
    if (next(r) != ')') return refuse(r, 1);
    r->closed += adds[w];
    if (r->closed > LINES) return refuse(r, 3);
    r->at++;
    switch (w) {
    case AT: return lay(r, 0, a, b);
    case NOT: return lay(r, 1, a, 0);
    case AND: return lay(r, 2, a, b);
    case EY: return lay(r, 3, a, 0);
    case ES: case EP: return lay(r, 4, a, b);
    case AS: case AP: return lay(r, 5, a, b);
    case TRUE: return a;
    case FALSE: return lay(r, 1, a, 0);
    case OR: return lay(r, 1, lay(r, 2, a, lay(r, 1, b, 0)), 0);
    case AY: return lay(r, 1, lay(r, 3, lay(r, 1, a, 0), 0), 0);
    default: return lay(r, 1, lay(r, w == AH ? 4 : 5, a, lay(r, 1, b, 0)), 0);
    }
}

static unsigned read_form(struct reader *r, unsigned depth) {
    unsigned a = 0, b = 0;
    if (next(r) != '(') return refuse(r, 1);
    if (depth == 0) return refuse(r, 2);
    r->at++;
    enum word w = read_word(r);
    switch (w) {
    case AT:
        if ((a = read_digit(r, r->k)) == FAULT || (b = read_digit(r, 8)) == FAULT) return FAULT;
        break;
    case NOT: case EY: case AY:
        if ((a = read_inner(r, depth - 1)) == FAULT) return FAULT;
        break;
    case AND: case ES: case AS: case OR:
        if ((a = read_inner(r, depth - 1)) == FAULT) return FAULT;
        if (w == OR) a = lay(r, 1, a, 0);
        if ((b = read_inner(r, depth - 1)) == FAULT) return FAULT;
        break;
    case TRUE: case FALSE:
        a = lay_true(r);
        break;
    case EP: case AP: case EH: case AH:
        a = lay_true(r);
        if ((b = read_inner(r, depth - 1)) == FAULT) return FAULT;
        break;
    default: return refuse(r, 1);
    }
    return close_form(r, w, a, b);
}

struct plain_rule plain_read_rule(const uint8_t *text, size_t length, unsigned k, uint8_t *table) {
    struct reader r;
    r.text = text, r.length = length, r.k = k;
    r.at = 0, r.closed = r.laid = r.fault = 0;
    if (read_form(&r, DEPTH) != FAULT && r.at < length) r.fault = 1;
    if (r.fault != 0) return (struct plain_rule){r.fault, (uint32_t)r.at, 0};
    memcpy(table, r.table, 3 * r.laid);
    memset(table + 3 * r.laid, 0, 3 * (LINES - r.laid));
    return (struct plain_rule){0, 0, r.laid};
}
