/* The library against the model on random cases.
 *   differential SEED COUNT [FIRST]      cases FIRST (0) up to FIRST + COUNT - 1
 *   differential --seconds N [SEED]      as many as there is time for
 * A case depends on the seed and its number only. The first difference is printed with the calls before it, and ends
 * the run with 1. */
#include <stdio.h>
#include <stdlib.h>
#include <string.h>
#include <time.h>

#include "differential/twin.h"

/* From so many cases on each answer that each call can give has to come up, else the run fails too: a few cases cannot
 * have them all, and whoever tries one case again wants that case alone. */
enum { DEMANDING = 20000 };

static struct twin one, two;
static unsigned long cases;

static void try_case(uint64_t seed, uint64_t number) {
    struct source s = {seed};
    s.state = draw(&s) ^ number;
    s.state = draw(&s);
    if (number % 200 == 7) {
        case_begins(seed, number, "a long walk");
        try_walk(&s, &one, between(&s, 20, 60), 6000);
    } else if (number % 200 == 15) {
        case_begins(seed, number, "late counts");
        try_late(&s, &one);
    } else if (number % 40 == 11 || number % 40 == 26 || number % 40 == 34) {
        case_begins(seed, number, "a late beginning");
        try_late_begin(&s, &one);
    } else if (number % 40 == 21) {
        case_begins(seed, number, "moves");
        try_moves(&s, &one);
    } else if (number % 40 == 36) {
        case_begins(seed, number, "pages");
        try_pages(&s, &one);
    } else if (number % 40 == 16) {
        case_begins(seed, number, "busiest days");
        try_days(&s, &one);
    } else if (number % 40 == 9) {
        case_begins(seed, number, "watches that share");
        try_shares(&s, &one);
    } else if (number % 40 == 19) {
        case_begins(seed, number, "alike beside others");
        try_alike(&s, &one);
    } else if (number % 40 == 33) {
        case_begins(seed, number, "pools of any bytes");
        try_pools(&s, &one);
    } else if (number % 40 == 2) {
        case_begins(seed, number, "refused calls");
        try_refused(&s, &one);
    } else if (number % 40 == 29) {
        case_begins(seed, number, "a hold out of order");
        try_disorder(&s, &one);
    } else if (number % 40 == 31) {
        case_begins(seed, number, "a crowd");
        try_crowd(&s, &one);
    } else if (number % 8 < 4) {
        case_begins(seed, number, "a walk");
        try_walk(&s, &one, between(&s, 1, 14), 800);
    } else if (number % 8 == 4) {
        case_begins(seed, number, "texts");
        try_texts(&s, &one);
    } else if (number % 8 == 5) {
        case_begins(seed, number, "damaged bytes");
        try_damage(&s, &one);
    } else {
        case_begins(seed, number, "two orders");
        try_orders(&s, &one, &two, number % 16 == 15);
    }
    cases++;
}

static int usage(void) {
    fprintf(stderr, "differential SEED COUNT [FIRST]\ndifferential --seconds N [SEED]\n");
    return 2;
}

int main(int argc, char **argv) {
    if (argc < 3 || argc > 4) return usage();
    bool timed = strcmp(argv[1], "--seconds") == 0;
    time_t start = time(NULL);
    uint64_t seed = timed ? (argc == 4 ? strtoull(argv[3], NULL, 10) : (uint64_t)start) : strtoull(argv[1], NULL, 10);
    uint64_t limit = strtoull(argv[2], NULL, 10), first = !timed && argc == 4 ? strtoull(argv[3], NULL, 10) : 0;
    printf("differential: seed %llu\n", (unsigned long long)seed);
    fflush(stdout);
    lent_on_fault(print_case);
    twin_new(&one);
    twin_new(&two);
    for (uint64_t number = first; timed ? (uint64_t)(time(NULL) - start) < limit : number < first + limit; number++)
        try_case(seed, number);
    print_tally();
    if (!WATCHES && cases >= DEMANDING && !everything_came_up()) return 1;
    unsigned long long calls = one.calls + two.calls;
    printf("differential: %lu cases, %llu calls compared with the model, no difference\n", cases, calls);
    twin_free(&one);
    twin_free(&two);
    return 0;
}
