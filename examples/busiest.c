/* How long a window must be: what the busiest day of n events keeps, for each number of processes.
 *
 * Whoever expects at most n events a day, and the worst of days, asks watch32_busiest for the one that keeps the most
 * frontiers: each desk works by itself, none hears of another, and all do equally much. The answer is a number K, and a
 * window of WATCH32_WINDOW_BYTES(K) bytes is long enough for that day, in whatever order its events come; no other
 * sharing of n such events needs more. Where even 1,024 frontiers are too few the call says 46, and the table has a
 * dash: then some desks had better meet, or send each other word, before they have done so much.
 *
 * Build: cc -Iinclude examples/busiest.c -lwatch -o busiest */
#include <stdio.h>
#include <stdlib.h>

#include <watch.h>

/* Room for the longest list. The events are not looked at here; a rehearsal would offer them to a watch. */
static uint8_t events[WATCH32_EVENTS_BYTES(WATCH32_DAY_EVENTS)];

/* The frontiers that the busiest day keeps; 0 if these are over 1,024. */
static unsigned kept(unsigned k, unsigned n) {
    uint64_t reply = watch32_busiest(k, n, events, WATCH32_EVENTS_BYTES(n));
    if (watch_number(reply) == WATCH_BUSY) return 0;
    if (watch_number(reply) != 0) {
        fprintf(stderr, "busiest day: refused %u\n", watch_number(reply));
        exit(1);
    }
    return watch_value(reply);
}

static void print_row(unsigned n) {
    printf("%6u |", n);
    for (unsigned k = 1; k <= WATCH_PROCESSES; k++) {
        if (kept(k, n) == 0) printf("%7s", "-");
        else printf("%7u", kept(k, n));
    }
    printf("\n");
}

/* The largest n that is not refused. A day of more events keeps no less, so halving finds it. */
static unsigned last_day(unsigned k) {
    unsigned fits = 0, above = WATCH32_DAY_EVENTS + 1;
    while (above - fits > 1) {
        unsigned n = fits + (above - fits) / 2;
        if (kept(k, n) != 0) fits = n;
        else above = n;
    }
    return fits;
}

int main(void) {
    static const unsigned more[] = {20, 23, 32, 53, 100, 1000, 1023, WATCH32_DAY_EVENTS};
    printf("Frontiers kept on the busiest day of n events\n\nevents |");
    for (unsigned k = 1; k <= WATCH_PROCESSES; k++) printf("  k = %u", k);
    printf("\n-------+--------------------------------------------------------\n");
    for (unsigned n = 0; n <= 16; n++) print_row(n);
    for (unsigned i = 0; i < sizeof more / sizeof more[0]; i++) print_row(more[i]);
    printf("\nThe largest n, up to 65,535, that a window of 1,024 frontiers is long enough for\n\n     n |");
    for (unsigned k = 1; k <= WATCH_PROCESSES; k++) printf("%7u", last_day(k));
    printf("\n\nEight events of four processes: %u frontiers, a window of %zu bytes\n", kept(4, 8),
           WATCH32_WINDOW_BYTES(kept(4, 8)));
    return 0;
}
