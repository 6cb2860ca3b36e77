/* Random texts of rules. */
#include <string.h>

#include "generate.h"

static const struct { const char *word; unsigned inner, adds; } words[] = {
    {"at", 0, 1}, {"true", 0, 4}, {"false", 0, 5}, {"not", 1, 1}, {"ey", 1, 1}, {"ep", 1, 5}, {"ap", 1, 5}, {"ay", 1, 3}, {"eh", 1, 7},
    {"ah", 1, 7}, {"and", 2, 1}, {"es", 2, 1}, {"as", 2, 1}, {"or", 2, 4},
};
enum { WORDS = sizeof words / sizeof words[0], DEPTH = 32 };

struct writer {
    struct source *source;
    unsigned k, depth;
    uint8_t *at;
};

static void put(struct writer *w, const char *text) {
    size_t length = strlen(text);
    memcpy(w->at, text, length);
    w->at += length;
}

static void write_at(struct writer *w) {
    uint8_t process = (uint8_t)below(w->source, w->k);
    uint8_t proposition = (uint8_t)(chance(w->source, 80) ? below(w->source, 3) : below(w->source, 8));
    uint8_t text[] = {'(', 'a', 't', ' ', (uint8_t)('0' + process), ' ', (uint8_t)('0' + proposition), ')'};
    memcpy(w->at, text, sizeof text);
    w->at += sizeof text;
}

/* A word for a form of at most so many lines, seldom one without inner forms where there is room for them. */
static unsigned choose(struct writer *w, unsigned lines) {
    for (;;) {
        unsigned choice = below(w->source, WORDS), inner = words[choice].inner;
        if (words[choice].adds + inner > lines || (w->depth + 1 == DEPTH && inner > 0)) continue;
        if (inner > 0 || lines <= 3 || w->depth + 1 == DEPTH || chance(w->source, 20)) return choice;
    }
}

/* One form of at most so many lines, one at least. */
static void write_form(struct writer *w, unsigned lines) {
    unsigned choice = choose(w, lines), left = lines - words[choice].adds;
    if (choice == 0) {
        write_at(w);
        return;
    }
    w->depth++;
    put(w, "(");
    put(w, words[choice].word);
    for (unsigned i = words[choice].inner; i > 0; i--) {
        unsigned share = i == 1 ? left : between(w->source, 1, left - 1);
        put(w, " ");
        write_form(w, share);
        left -= share;
    }
    put(w, ")");
    w->depth--;
}

size_t random_rule(struct source *s, unsigned k, unsigned lines, uint8_t *text) {
    struct writer w = {s, k, 0, text};
    write_form(&w, lines);
    return (size_t)(w.at - text);
}

/* Words around words, with no regard to lines or depth. */
static size_t tower(struct source *s, unsigned k, uint8_t *text) {
    struct writer w = {s, k, 0, text};
    unsigned height = between(s, 5, 40), same = between(s, 3, 9);
    for (unsigned i = 0; i < height; i++) {
        put(&w, "(");
        put(&w, words[chance(s, 30) ? between(s, 3, 9) : same].word);
        put(&w, " ");
    }
    if (chance(s, 80)) write_form(&w, between(s, 1, 8));
    for (unsigned i = 0; i < height; i++) put(&w, ")");
    return (size_t)(w.at - text);
}

static size_t change(struct source *s, uint8_t *text, size_t length) {
    static const uint8_t bytes[] = "() atnoesypruflhd0123456789\t\n\0\x80\xff(()) ";
    size_t place = below(s, (unsigned)length + 1);
    uint8_t byte = bytes[below(s, sizeof bytes - 1)];
    switch (below(s, 5)) {
    case 0: return place; /* the text ends here */
    case 1:
        memmove(text + place + 1, text + place, length - place);
        text[place] = byte;
        return length + 1;
    case 2:
        if (place == length) return length;
        memmove(text + place, text + place + 1, length - place - 1);
        return length - 1;
    default:
        if (place < length) text[place] = chance(s, 90) ? byte : (uint8_t)draw(s);
        return length;
    }
}

size_t spoiled_rule(struct source *s, unsigned k, uint8_t *text) {
    size_t length;
    if (chance(s, 30)) {
        length = tower(s, chance(s, 80) ? k : 10, text);
    } else {
        length = random_rule(s, chance(s, 80) ? k : 10, between(s, 1, 90), text);
    }
    unsigned changes = chance(s, 30) ? 0 : between(s, 1, 3);
    for (unsigned i = 0; i < changes; i++) length = change(s, text, length);
    return length;
}
