/* Lines that are spoiled: most stay near a right line, since a line without any sense says only where its first byte is. */
#include <stdio.h>
#include <string.h>

#include "inputs.h"

enum { LIMIT = 4096 };

void put_bytes(struct bytes *b, const uint8_t *from, size_t length) {
    replace(b, b->length, 0, from, length);
}

void put_text(struct bytes *b, const char *text) {
    put_bytes(b, (const uint8_t *)text, strlen(text));
}

void put_number(struct bytes *b, uint64_t number) {
    char digits[24];
    snprintf(digits, sizeof digits, "%llu", (unsigned long long)number);
    put_text(b, digits);
}

void replace(struct bytes *b, size_t place, size_t out, const uint8_t *in, size_t length) {
    if (b->length - out + length > BYTES_MOST) return;
    memmove(b->at + place + length, b->at + place + out, b->length - place - out);
    if (length > 0) memcpy(b->at + place, in, length);
    b->length = b->length - out + length;
}

static void replace_text(struct bytes *b, size_t place, size_t out, const char *text) {
    replace(b, place, out, (const uint8_t *)text, strlen(text));
}

static bool is_digit(uint8_t byte) {
    return byte >= '0' && byte <= '9';
}

/* ---- bytes ---- */

static uint8_t random_byte(struct source *s) {
    static const uint8_t near[] = "(((())))      0123456789adehilrstuw-+.,\t\r\n\0\x7f\x80\xff[]{}/:'*";
    return chance(s, 95) ? near[below(s, sizeof near - 1)] : (uint8_t)draw(s);
}

static void spoil_byte(struct source *s, struct bytes *line) {
    size_t place = below(s, (unsigned)line->length + 1);
    uint8_t byte = random_byte(s);
    switch (below(s, 5)) {
    case 0: line->length = place; break;
    case 1: replace(line, place, 0, &byte, 1); break;
    case 2:
        if (place < line->length) replace(line, place, 1, NULL, 0);
        break;
    default:
        if (place < line->length) line->at[place] = byte;
    }
}

void spoil_end(struct source *s, struct bytes *line) {
    static const char *const ends[] = {"\r", " ", ")", "\t", "()", " 0", "(", "0"};
    if (line->length > 0 && chance(s, 40)) line->length--;
    if (chance(s, 60)) put_text(line, ends[below(s, 8)]);
}

/* ---- numbers ---- */

/* The digits from some place on, first to one past the last; none if the line has none. */
static bool find_number(struct source *s, const struct bytes *line, size_t *first, size_t *end) {
    if (line->length == 0) return false;
    size_t place = below(s, (unsigned)line->length);
    for (size_t i = 0; i < line->length && !is_digit(line->at[place]); i++) place = (place + 1) % line->length;
    if (!is_digit(line->at[place])) return false;
    *first = *end = place;
    while (*first > 0 && is_digit(line->at[*first - 1])) --*first;
    while (*end < line->length && is_digit(line->at[*end])) ++*end;
    return true;
}

/* Limits, what lies beside them, and what a number of 8, 16, 32 or 64 bits would take for a small one. */
static void odd_number(struct source *s, char *digits, size_t room) {
    static const char *const odd[] = {
        "0", "1", "2", "3", "7", "8", "9", "10", "255", "256", "257", "1023", "1024", "1025", "9999", "10000", "65534",
        "65535", "65536", "65537", "65538", "65791", "65792", "99999", "100000", "131072", "999999999", "1000000000",
        "4294967294", "4294967295", "4294967296", "4294967297", "4294967298", "4294967305", "4300000000", "5294967295",
        "9999999999", "10000000000", "42949672950", "42949672960", "99999999999", "281474976710656",
        "18446744073709551615", "18446744073709551616", "18446744073709551617", "18446744073709551618",
        "184467440737095516160", "340282366920938463463374607431768211457",
    };
    if (chance(s, 92)) {
        snprintf(digits, room, "%s", odd[below(s, sizeof odd / sizeof odd[0])]);
        return;
    }
    size_t length = between(s, 1, 90);
    for (size_t i = 0; i < length; i++) digits[i] = (char)('0' + below(s, 10));
    digits[length] = '\0';
}

void spoil_number(struct source *s, struct bytes *line) {
    size_t first, end;
    char digits[100];
    if (!find_number(s, line, &first, &end)) return;
    switch (below(s, 6)) {
    case 0: replace_text(line, first, 0, "0"); break;
    case 1: replace_text(line, first, chance(s, 50) ? end - first : 0, chance(s, 50) ? "00" : "01"); break;
    default:
        odd_number(s, digits, sizeof digits);
        replace_text(line, first, end - first, digits);
    }
}

/* ---- lists ---- */

static void empty_list(struct source *s, struct bytes *line) {
    size_t first, end;
    if (!find_number(s, line, &first, &end)) return;
    while (first > 0 && line->at[first - 1] != '(') first--;
    while (end < line->length && line->at[end] != ')') end++;
    replace(line, first, end - first, NULL, 0);
}

static void longer_list(struct source *s, struct bytes *line) {
    size_t first, end;
    char number[12];
    for (unsigned more = chance(s, 70) ? 1 : between(s, 1, 9); more > 0 && find_number(s, line, &first, &end); more--) {
        snprintf(number, sizeof number, chance(s, 50) ? " %u" : "%u ", below(s, 10));
        replace_text(line, number[0] == ' ' ? end : first, 0, number);
    }
}

static void shorter_list(struct source *s, struct bytes *line) {
    size_t first, end;
    if (!find_number(s, line, &first, &end)) return;
    if (end < line->length && line->at[end] == ' ') end++;
    else if (first > 0 && line->at[first - 1] == ' ') first--;
    replace(line, first, end - first, NULL, 0);
}

/* A piece of the line again, elsewhere or in its place, or left out. */
static void spoil_piece(struct source *s, struct bytes *line) {
    uint8_t piece[16];
    if (line->length < 2) return;
    size_t from = below(s, (unsigned)line->length), length = between(s, 1, sizeof piece), place = below(s, (unsigned)line->length);
    if (length > line->length - from) length = line->length - from;
    memcpy(piece, line->at + from, length);
    if (chance(s, 50)) replace(line, from, length, NULL, 0);
    else replace(line, place, 0, piece, length);
}

/* ---- length ---- */

static size_t random_length(struct source *s) {
    unsigned choice = below(s, 100);
    if (choice < 25) return LIMIT;
    if (choice < 45) return LIMIT + 1;
    if (choice < 80) return between(s, LIMIT - 8, LIMIT + 12);
    if (choice < 94) return between(s, LIMIT, 3 * LIMIT);
    if (choice < 97) return between(s, 65536 - 4, 65536 + LIMIT);
    return between(s, 2 * 65536 - 4, 2 * 65536 + 100);
}

/* Numbers with one blank before each, so many bytes in all. */
static void put_many(struct source *s, struct bytes *b, size_t length) {
    unsigned kind = below(s, 3);
    size_t end = b->length + length;
    while (b->length < end) {
        put_text(b, " ");
        unsigned large = chance(s, 5) ? 4294967295 : (unsigned)sized(s);
        put_number(b, kind == 0 ? below(s, 10) : kind == 1 ? below(s, 256) : large);
        if (b->length > end) b->length = end;
    }
    if (length > 0 && b->at[end - 1] == ' ') b->at[end - 1] = '7';
}

/* Around place 4,096, where the numbers of a long list are. */
static void spoil_around(struct source *s, struct bytes *line) {
    static const char *const pieces[] = {
        ")", "(", " ", "  ", "0", "00", " 0", "05", " 05", " 65535", " 65536", "65535 ", "655360", "65536)", " 1000000",
        "99999999", "x", "\r", ") (", "))", ") (1))", ") (1)", "256", " 256", "255 ", " 255)", "6553", "6553x", "65536x",
        " )", "( ", " 4294967295", " 4294967296", "4294967295 ", "42949672960", "4294967296)", " 4294967295)",
        "4294967296x", "429496729", " 10000000000", "9999999999 ",
    };
    size_t place = between(s, LIMIT - 14, LIMIT + 6);
    const char *piece = pieces[below(s, sizeof pieces / sizeof pieces[0])];
    size_t length = strlen(piece);
    if (place >= line->length) return;
    if (length > line->length - place) length = line->length - place;
    memcpy(line->at + place, piece, length);
    if (chance(s, 30)) line->length = place + length;
}

void stretch_line(struct source *s, struct bytes *line) {
    static struct bytes more;
    size_t goal = random_length(s), first = line->length, end = first;
    if (goal <= line->length) return;
    size_t missing = goal - line->length;
    unsigned choice = below(s, 10);
    more.length = 0;
    if (choice < 7 && find_number(s, line, &first, &end)) {
        put_many(s, &more, missing);
        replace(line, end, 0, more.at, more.length);
    } else if (choice < 8 && find_number(s, line, &first, &end)) {
        for (size_t i = 0; i < missing; i++) more.at[i] = (uint8_t)('0' + below(s, 10));
        replace(line, end, 0, more.at, missing);
    } else {
        uint8_t byte = random_byte(s);
        memset(more.at, byte == '\n' ? 'x' : byte, missing);
        replace(line, chance(s, 50) ? line->length : below(s, (unsigned)line->length + 1), 0, more.at, missing);
    }
    for (unsigned changes = below(s, 3); changes > 0; changes--) spoil_around(s, line);
}

void spoil_line(struct source *s, struct bytes *line) {
    for (unsigned changes = chance(s, 75) ? 1 : between(s, 2, 3); changes > 0; changes--) {
        unsigned choice = below(s, 100);
        if (choice < 30) spoil_byte(s, line);
        else if (choice < 38) spoil_end(s, line);
        else if (choice < 68) spoil_number(s, line);
        else if (choice < 74) empty_list(s, line);
        else if (choice < 82) longer_list(s, line);
        else if (choice < 89) shorter_list(s, line);
        else if (choice < 94) spoil_piece(s, line);
        else stretch_line(s, line);
    }
}
