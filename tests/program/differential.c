/* The program against its model on random inputs.
 *   differential PROGRAM SEED COUNT [FIRST]      inputs FIRST (0) up to FIRST + COUNT - 1
 *   differential PROGRAM --seconds N [SEED]      as many as there is time for
 * An input depends on the seed and its number only. The first difference is printed and ends the run with 1; the whole input then stands
 * in a file beside this program, with .in behind its name. */
#include <stdio.h>
#include <stdlib.h>
#include <string.h>
#include <time.h>

#include "../model/program.h"
#include "child.h"

enum { NUMBERS = 40 };

static const char *own_name;

static struct {
    unsigned long long inputs, lines, opened, paced, states, held, again, refused[NUMBERS], at_limit[NUMBERS];
} tally;

/* ---- what was met ---- */

static void count_answer(const char *answer) {
    unsigned number, place;
    if (strncmp(answer, "(state", 6) == 0) tally.states++;
    if (strncmp(answer, "(held", 5) == 0) tally.held++;
    if (strcmp(answer, "(again)") == 0) tally.again++;
    if (sscanf(answer, "(refused %u %u)", &number, &place) != 2 || number >= NUMBERS) return;
    tally.refused[number]++;
    if (place >= LINE_MOST - 6) tally.at_limit[number]++;
}

static void count_answers(const struct output *expected) {
    char answer[32];
    tally.inputs++;
    tally.lines += expected->lines;
    if (expected->length > 0 && expected->bytes[1] == 's') tally.opened++;
    for (size_t from = 0; from < expected->length;) {
        const char *feed = memchr(expected->bytes + from, '\n', expected->length - from);
        size_t length = (size_t)(feed - expected->bytes) - from;
        size_t some = length < sizeof answer - 1 ? length : sizeof answer - 1;
        memcpy(answer, expected->bytes + from, some);
        answer[some] = '\0';
        count_answer(answer);
        from += length + 1;
    }
}

static void print_tally(void) {
    printf("opened %llu, sent in pieces %llu, states %llu, held %llu, again %llu\n", tally.opened, tally.paced,
           tally.states, tally.held, tally.again);
    printf("refused:");
    for (unsigned number = 0; number < NUMBERS; number++)
        if (tally.refused[number] > 0) printf("  %u: %llu", number, tally.refused[number]);
    printf("\nof these from place %d on:", LINE_MOST - 6);
    for (unsigned number = 0; number < NUMBERS; number++)
        if (tally.at_limit[number] > 0) printf("  %u: %llu", number, tally.at_limit[number]);
    printf("\n");
}

/* ---- a difference ---- */

static void print_byte(uint8_t byte) {
    if (byte == '\n') printf("\\n\n");
    else if (byte == '\\') printf("\\\\");
    else if (byte >= ' ' && byte < 127) putchar(byte);
    else printf("\\%03o", byte);
}

/* Of a long line the beginning and what lies around its limit. */
static bool shown(size_t place) {
    return place < 200 || (place >= LINE_MOST - 20 && place < LINE_MOST + 20);
}

static void print_escaped(const char *name, const void *bytes, size_t length) {
    const uint8_t *at = bytes;
    size_t line = 0;
    printf("%s, %zu bytes:\n", name, length);
    for (size_t i = 0; i < length; i++) {
        size_t place = i - line;
        if (shown(place) || at[i] == '\n') print_byte(at[i]);
        else if (shown(place - 1)) printf("[from place %zu not shown]", place);
        if (at[i] == '\n') line = i + 1;
    }
    printf("\n");
}

static void keep_input(const struct bytes *input) {
    char name[4096];
    snprintf(name, sizeof name, "%s.in", own_name);
    FILE *file = fopen(name, "wb");
    if (file == NULL) return;
    fwrite(input->at, 1, input->length, file);
    if (fclose(file) == 0) printf("the whole input is in %s\n", name);
}

static void differs(uint64_t seed, uint64_t number, const char *wrong, const struct bytes *input, const struct output *expected,
                    const struct bytes *got) {
    unsigned long long again = number;
    print_escaped("input", input->at, input->length);
    print_escaped("expected", expected->bytes, expected->length);
    print_escaped("got", got->at, got->length);
    keep_input(input);
    printf("seed %llu, input %llu: %s (arguments to try it again: PROGRAM %llu 1 %llu)\n", (unsigned long long)seed, again, wrong,
           (unsigned long long)seed, again);
    exit(1);
}

/* ---- inputs ---- */

static void try_input(const char *program, uint64_t seed, uint64_t number) {
    static struct bytes input, got;
    static struct output expected;
    struct source s = {seed};
    s.state = draw(&s) ^ number;
    s.state = draw(&s);
    random_input(&s, number, &input);
    expected_output(input.at, input.length, &expected);
    enum pace pace = chance(&s, 70) ? AT_ONCE : input.length < 3000 && chance(&s, 30) ? BYTE_BY_BYTE : CHUNKS;
    const char *wrong = run_program(program, &s, pace, &input, &got);
    if (wrong != NULL) differs(seed, number, wrong, &input, &expected, &got);
    if (got.length != expected.length || (got.length > 0 && memcmp(got.at, expected.bytes, got.length) != 0))
        differs(seed, number, "the output differs", &input, &expected, &got);
    tally.paced += pace != AT_ONCE;
    count_answers(&expected);
}

static int usage(void) {
    fprintf(stderr, "differential PROGRAM SEED COUNT [FIRST]\ndifferential PROGRAM --seconds N [SEED]\n");
    return 2;
}

int main(int argc, char **argv) {
    if (argc < 4 || argc > 5) return usage();
    own_name = argv[0];
    bool timed = strcmp(argv[2], "--seconds") == 0;
    time_t start = time(NULL);
    uint64_t seed = timed ? (argc == 5 ? strtoull(argv[4], NULL, 10) : (uint64_t)start) : strtoull(argv[2], NULL, 10);
    uint64_t limit = strtoull(argv[3], NULL, 10), first = !timed && argc == 5 ? strtoull(argv[4], NULL, 10) : 0;
    printf("program: seed %llu\n", (unsigned long long)seed);
    fflush(stdout);
    for (uint64_t number = first; timed ? (uint64_t)(time(NULL) - start) < limit : number < first + limit; number++)
        try_input(argv[1], seed, number);
    print_tally();
    printf("program: %llu inputs, %llu lines, no difference\n", tally.inputs, tally.lines);
    return 0;
}
