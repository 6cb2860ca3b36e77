/* A page for the trustees' meeting: can a copy have been drawn while the original lay on the repair bench?
 *
 * Four desks report what they do: vault (process 0), repair (1), transfer (2) and dispatch (3). Proposition 0 at repair
 * says that the original lies on the bench, at transfer that a copy is being drawn. The rule is
 *     (ep (and (at 1 0) (at 2 0)))      here, or on some way to here, both held at once
 * Every evening all four sign together; nine evenings are past. Today's reports came by note, and nobody knows which of
 * repair and transfer was first. So the watch keeps each state in which the day can have stood, and the page has a row
 * for each: how many steps of each desk are done there, and what the rule says.
 *
 * Build: cc -Iinclude examples/page.c -lwatch -o page */
#include <stdio.h>
#include <stdlib.h>
#include <string.h>

#include <watch.h>

enum { VAULT = 1, REPAIR = 2, TRANSFER = 4, DISPATCH = 8, DESKS = 4, ROOM = 16 };

static const char *const desks[DESKS] = {"vault", "repair", "transfer", "dispatch"};
static const char rule[] = "(ep (and (at 1 0) (at 2 0)))";

struct watch {
    uint8_t record[WATCH32_RECORD_BYTES], window[WATCH32_WINDOW_BYTES(ROOM)], scratch[WATCH32_WINDOW_BYTES(ROOM)];
};

static void fail(const char *what, uint64_t reply) {
    fprintf(stderr, "%s: refused %u\n", what, watch_number(reply));
    exit(1);
}

static void open_watch(struct watch *w) {
    uint64_t reply = watch32_open((const uint8_t *)rule, strlen(rule), DESKS, 0, w->record, sizeof w->record, w->window,
                                  sizeof w->window);
    if (watch_number(reply) != 0) fail("open", reply);
}

/* A step of some desks with its clock. Busy: proposition 0 holds afterwards. Each is ready when it comes. */
static void step(struct watch *w, unsigned who, uint32_t a, uint32_t b, uint32_t c, uint32_t d, int busy) {
    uint64_t labels = (uint64_t)(busy && who & REPAIR) << 8 | (uint64_t)(busy && who & TRANSFER) << 16;
    uint64_t reply = watch32_offer(who, watch32_counts(a, b), watch32_counts(c, d), 0, 0, labels, w->record,
                                   sizeof w->record);
    if (!watch_accepted(reply)) fail("offer", reply);
    reply = watch32_take(w->record, sizeof w->record, w->window, sizeof w->window, w->scratch, sizeof w->scratch);
    if (watch_value(reply) == 0) fail("take", reply);
}

/* The names stand over their columns, and "rule" over its answers. */
static void print_heading(void) {
    printf("Can a copy have been drawn while the original lay on the bench?\n\n");
    for (unsigned p = 0; p < WATCH_PROCESSES; p++) printf("%11s", p < DESKS ? desks[p] : "");
    printf("rule\n");
    for (unsigned i = 1; i < WATCH32_ROW_BYTES; i++) putchar('-');
    putchar('\n');
}

/* The rows come with their line feeds, and no 0 ends them. "yes" and "no " begin at byte 89 of a row. */
static void print_page(const struct watch *w) {
    uint8_t page[WATCH32_PAGE_BYTES(ROOM)];
    uint64_t reply = watch32_page(w->record, sizeof w->record, w->window, sizeof w->window, page, sizeof page);
    if (watch_number(reply) != 0) fail("page", reply);
    unsigned rows = watch_value(reply), yes = 0;
    print_heading();
    fwrite(page, 1, WATCH32_PAGE_BYTES(rows), stdout);
    for (unsigned i = 0; i < rows; i++) yes += page[WATCH32_PAGE_BYTES(i) + 89] == 'y';
    printf("\nyes in %u of the %u states in which the day can have stood\n", yes, rows);
}

int main(void) {
    struct watch w;
    open_watch(&w);
    for (uint32_t evening = 1; evening <= 9; evening++)
        step(&w, VAULT | REPAIR | TRANSFER | DISPATCH, evening, evening, evening, evening, 0);

    step(&w, TRANSFER, 9, 9, 10, 9, 1);  /* begins to draw a copy */
    step(&w, TRANSFER, 9, 9, 11, 9, 0);  /* the copy is finished, and a note with it goes to dispatch */
    step(&w, DISPATCH, 9, 9, 11, 10, 0); /* has read the note, and packs the copy */
    step(&w, REPAIR, 9, 10, 9, 9, 1);    /* the original is on the bench; nobody had told the others */
    print_page(&w);
    return 0;
}
