/* What was answered how often, and whether everything was that can be. */
#include <stdio.h>

#include "../../include/watch.h"
#include "forms.h"

/* Refusals by their number, and what else there is. */
enum { ACCEPTED = 256, YES, NO, REPEATED, NOTHING_READY, FOUND, NOT_FOUND, OUTCOMES };

static const char *const names[2][CALLS] = {
    {"open", "offer", "take", "find", "close", "widen", "page", "busiest"},
    {"wide open", "wide offer", "wide take", "wide find", "wide close", "narrow", "page", "busiest", "set shares",
     "shared open", "shared take", "shared close"}};
static const char *const words[] = {"accepted", "yes", "no", "again", "nothing ready", "found", "none"};

/* Each answer that each call can give, up to the first 0. Of the moves narrow alone gives 43. */
static const unsigned answers_of[CALLS][12] = {
    [OPEN] = {YES, NO, 1, 2, 3, 4, 5, 6, 9},
    [OFFER] = {ACCEPTED, REPEATED, 6, 7, 8, 9, 31, 32, 33, 34, 42},
    [TAKE] = {YES, NO, NOTHING_READY, 6, 34, 35, 36},
    [FIND] = {FOUND, NOT_FOUND, 6, 11, 34},
    [CLOSE] = {ACCEPTED, 6, 34, 41, 42},
    [MOVE] = {ACCEPTED, 6, 34, 43},
    [PAGE] = {ACCEPTED, 6, 34, 44},
    [DAY] = {ACCEPTED, 6, 45, 46},
    [SET] = {ACCEPTED, 6, 49},
    [SHARED_OPEN] = {YES, NO, 1, 2, 3, 4, 5, 6, 9, 34},
    [SHARED_TAKE] = {YES, NO, NOTHING_READY, 6, 34, 35, 36},
    [SHARED_CLOSE] = {ACCEPTED, 6, 34, 41, 42},
};

/* Of the calls that stand in a list and are refused for the lengths that they are lent. */
static const unsigned refusals_in_list[CALLS][3] = {
    [OPEN] = {6},      [OFFER] = {6},    [TAKE] = {6, 34}, [FIND] = {6, 34},
    [CLOSE] = {6, 34}, [MOVE] = {6, 34}, [PAGE] = {6, 34},
};

static struct {
    unsigned long answered[CALLS][OUTCOMES], in_list[CALLS][256], rows, kept, disordered, decided;
} tallies[2];
static unsigned most_kept;
static unsigned long days_taken, others_taken;

static unsigned outcome(enum call call, uint64_t reply) {
    if (watch_number(reply) != 0) return watch_number(reply);
    switch (call) {
    case TAKE: case SHARED_TAKE: return reply == 0 ? NOTHING_READY : watch_flag(reply) ? YES : NO;
    case OPEN: case SHARED_OPEN: return watch_flag(reply) ? YES : NO;
    case OFFER: return watch_again(reply) ? REPEATED : ACCEPTED;
    case FIND: return reply == 0 ? NOT_FOUND : FOUND;
    default: return ACCEPTED;
    }
}

uint64_t tally(const struct layout *form, enum call call, uint64_t reply) {
    unsigned wide = form == &wide_form;
    tallies[wide].answered[call][outcome(call, reply)]++;
    if (call == TAKE && watch_value(reply) > most_kept) most_kept = watch_value(reply);
    if (call == PAGE) tallies[wide].rows += watch_value(reply);
    if (call == DAY) tallies[wide].kept += watch_value(reply);
    return reply;
}

uint64_t tally_refused(const struct layout *form, enum call call, uint64_t reply) {
    tallies[form == &wide_form].in_list[call][watch_number(reply)]++;
    return tally(form, call, reply);
}

void tally_order(const struct layout *form, bool decides) {
    tallies[form == &wide_form].disordered++;
    if (decides) tallies[form == &wide_form].decided++;
}

void tally_taken_day(bool busiest) {
    if (busiest) days_taken++;
    else others_taken++;
}

static const char *const sharing_names[SHARINGS] = {
    "within its share with nothing else left", "above its share", "the last that is unpromised", "36 by the pool alone",
    "36 beside an idle share", "36 by the lent bytes alone", "fits after another keeps less",
    "nothing ready on a stale number", "35 on a stale number", "36 on a stale number",
    "refused close on a stale number", "refused open on a stale number", "a number not below 8",
    "a number without a share", "another watch's number", "alike beside other calls",
    "answered otherwise beside other calls"};
static unsigned long shared[SHARINGS];

void tally_sharing(enum sharing what) {
    shared[what]++;
}

/* ---- at the end ---- */

/* With the library that there is. */
static bool has(unsigned wide, enum call call) {
    if (call == PAGE) return can_print(wide ? &wide_form : &narrow_form);
    if (call == DAY) return wide && can_generate();
    if (call >= SET) return wide && can_share();
    return call == MOVE ? both_forms() : !wide || both_forms();
}

static void print_answers(unsigned wide, enum call call) {
    const unsigned long *answered = tallies[wide].answered[call];
    unsigned long all = 0;
    for (unsigned i = 0; i < OUTCOMES; i++) all += answered[i];
    printf("  %-10s %lu calls", names[wide][call], all);
    for (unsigned i = ACCEPTED; i < OUTCOMES; i++)
        if (answered[i] != 0) printf(", %s %lu", words[i - ACCEPTED], answered[i]);
    if (call == PAGE) printf(", rows %lu", tallies[wide].rows);
    if (call == DAY) printf(", kept %lu", tallies[wide].kept);
    for (unsigned i = 1; i < ACCEPTED; i++)
        if (answered[i] != 0) printf(", %u: %lu", i, answered[i]);
    printf("\n");
}

static void print_in_list(unsigned wide) {
    printf("  refused for lengths in a list");
    for (unsigned call = 0; call < CALLS; call++)
        for (unsigned i = 0; i < 256; i++)
            if (tallies[wide].in_list[call][i] != 0)
                printf(", %s %u: %lu", names[wide][call], i, tallies[wide].in_list[call][i]);
    printf("\n  takes from a hold out of order: %lu, of which the order decided %lu\n", tallies[wide].disordered,
           tallies[wide].decided);
}

void print_tally(void) {
    for (unsigned wide = 0; wide < 2; wide++) {
        for (unsigned call = 0; call < CALLS; call++)
            if (has(wide, call)) print_answers(wide, call);
        if (has(wide, OPEN)) print_in_list(wide);
    }
    if (can_share()) {
        printf("  watches that share");
        for (unsigned i = 0; i < SHARINGS; i++) printf(", %s: %lu", sharing_names[i], shared[i]);
        printf("\n");
    }
    printf("  a watch took %lu days, shared otherwise %lu; at most %u frontiers kept\n", days_taken, others_taken,
           most_kept);
}

/* Prints what is missing. */
static bool met(unsigned long times, const char *name, const char *where, unsigned answer) {
    if (times != 0) return true;
    printf("differential: never came up: %s%s, ", name, where);
    if (answer < ACCEPTED) printf("%u\n", answer);
    else printf("%s\n", words[answer - ACCEPTED]);
    return false;
}

static bool all_answered(unsigned wide, enum call call) {
    const char *name = names[wide][call];
    bool all = true;
    for (const unsigned *i = answers_of[call]; *i != 0; i++)
        if (call != MOVE || *i != 43 || wide) all &= met(tallies[wide].answered[call][*i], name, "", *i);
    for (const unsigned *i = refusals_in_list[call]; *i != 0; i++)
        all &= met(tallies[wide].in_list[call][*i], name, " in a list, of wrong lengths", *i);
    return all;
}

bool everything_came_up(void) {
    bool all = true;
    for (unsigned wide = 0; wide < 2; wide++) {
        for (unsigned call = 0; call < CALLS; call++)
            if (has(wide, call)) all &= all_answered(wide, call);
        if (!has(wide, TAKE) || tallies[wide].decided != 0) continue;
        printf("differential: never came up: %s, decided by the order of the hold\n", names[wide][TAKE]);
        all = false;
    }
    for (unsigned i = 0; can_share() && i < SHARINGS; i++) {
        if (shared[i] != 0) continue;
        printf("differential: never came up, of watches that share: %s\n", sharing_names[i]);
        all = false;
    }
    return all;
}
