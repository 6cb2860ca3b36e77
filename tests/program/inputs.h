/* Random inputs of the program: sessions, and lines that are spoiled. */
#ifndef INPUTS_H
#define INPUTS_H

#include "../differential/generate.h"

enum { BYTES_MOST = 1 << 20 };

struct bytes {
    size_t length;
    uint8_t at[BYTES_MOST];
};

void put_text(struct bytes *b, const char *text);
void put_number(struct bytes *b, uint64_t number);
void put_bytes(struct bytes *b, const uint8_t *from, size_t length);

/* Bytes from `place` on, `out` of them, give way to others. Nothing happens if there would be too many. */
void replace(struct bytes *b, size_t place, size_t out, const uint8_t *in, size_t length);

/* Changes a line: bytes, numbers, lists, its length. A line feed may come into it. */
void spoil_line(struct source *s, struct bytes *line);
void spoil_number(struct source *s, struct bytes *line);
void spoil_end(struct source *s, struct bytes *line);

/* Makes it about 4,096 bytes long, or much longer, by a long list, a long number or what comes last. */
void stretch_line(struct source *s, struct bytes *line);

/* A whole input; the number chooses its kind. */
void random_input(struct source *s, uint64_t number, struct bytes *input);

#endif
