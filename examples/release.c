/* A small release program: which copies may go out of the vault today?
 *
 * Three desks report what they do: vault (process 0), repair (1) and transfer (2). Proposition 0 at repair says that the original lies on
 * the repair bench, at transfer that a copy is being drawn. A copy drawn while the original may have been under repair is worthless, and
 * clocks on the wall are no help: what counts is whether the two could have been at once, in any order that the events allow. That is
 *     (ep (and (at 1 0) (at 2 0)))      some consistent cut so far has both
 * In the evening all three desks sign together, and then nothing that is still under way can change the verdict: no, the day's copies go
 * out; yes, they stay.
 *
 * Build: cc -Iinclude examples/release.c -lwatch -o release */
#include <stdbool.h>
#include <stdio.h>
#include <stdlib.h>
#include <string.h>

#include <watch.h>

enum { VAULT = 1, REPAIR = 2, TRANSFER = 4, DESKS = 3 };

static const char rule[] = "(ep (and (at 1 0) (at 2 0)))";

/* A report as the network brings it, not always in the order in which things happened. */
struct report {
    unsigned desks;              /* who took part */
    uint16_t clock[DESKS];       /* events of each desk that this one knows of, itself included */
    bool on_bench, drawing;      /* what holds afterwards at repair and at transfer, if they took part */
    int copy;                    /* the copy that is finished with this, or 0 */
};

/* A day without trouble: repair hands the original to transfer (both take part), and only then is it copied. */
static const struct report monday[] = {
    {REPAIR, {0, 1, 0}, true, false, 0},
    {TRANSFER, {0, 2, 2}, false, true, 0},            /* overtook the handing over, and waits */
    {TRANSFER, {0, 2, 2}, false, true, 0},            /* the same once more: transfer did not hear that it had come */
    {REPAIR | TRANSFER, {0, 2, 1}, false, false, 0},
    {TRANSFER, {0, 2, 3}, false, false, 101},
    {VAULT | REPAIR | TRANSFER, {1, 3, 4}, false, false, 0},
};

/* Copy 102 was finished, by arrival, before repair began. But nothing says so: neither desk knew of the other. */
static const struct report tuesday[] = {
    {TRANSFER, {0, 0, 1}, false, true, 0},
    {TRANSFER, {0, 0, 2}, false, false, 102},
    {REPAIR, {0, 1, 0}, true, false, 0},
    {REPAIR, {0, 2, 0}, false, false, 0},
    {VAULT | REPAIR | TRANSFER, {1, 3, 3}, false, false, 0},
};

/* Repair left a note on the desk when the original was off its bench, and transfer read it before it drew copy 103. No
 * step was taken together; but transfer's clock counts what the note told, so the two cannot have been at once. */
static const struct report wednesday[] = {
    {TRANSFER, {0, 2, 1}, false, true, 0},            /* overtook what it knows of, and waits for it */
    {REPAIR, {0, 1, 0}, true, false, 0},
    {REPAIR, {0, 2, 0}, false, false, 0},             /* and left the note */
    {TRANSFER, {0, 0, 2}, false, false, 0},           /* a clock that has forgotten the note */
    {TRANSFER, {0, 2, 2}, false, false, 103},         /* as it should have been sent */
    {VAULT | REPAIR | TRANSFER, {1, 3, 3}, false, false, 0},
};

/* The bytes of one watch, ours. The window starts with room for one frontier and grows when the library asks for it. */
struct watch {
    uint8_t record[WATCH_RECORD_BYTES];
    uint8_t *window, *scratch;
    size_t room;
    bool doubtful; /* the last verdict */
};

static void fail(const char *what, uint64_t reply) {
    fprintf(stderr, "%s: refused %u\n", what, watch_number(reply));
    exit(1);
}

/* The same bytes and then zeros; the scratch may hold anything. */
static void lend_longer(struct watch *w, size_t room) {
    w->window = realloc(w->window, WATCH_WINDOW_BYTES(room));
    w->scratch = realloc(w->scratch, WATCH_WINDOW_BYTES(room));
    if (w->window == NULL || w->scratch == NULL) exit(1);
    memset(w->window + WATCH_WINDOW_BYTES(w->room), 0, WATCH_WINDOW_BYTES(room - w->room));
    w->room = room;
}

/* Where it could have been: at the first kept frontier that has line 6, which is the (and ..) in the rule. */
static void say_where(const struct watch *w) {
    uint64_t found = watch_find(6, w->record, sizeof w->record, w->window, WATCH_WINDOW_BYTES(w->room));
    if (watch_number(found) != 0) fail("find", found);
    if (watch_flag(found))
        printf("  both at once: after event %u of repair and %u of transfer\n", watch_cut(w->window, watch_value(found), 1),
               watch_cut(w->window, watch_value(found), 2));
}

/* Takes what is ready. Each verdict is for the counts that the record now has. */
static void take_all(struct watch *w) {
    for (;;) {
        size_t length = WATCH_WINDOW_BYTES(w->room);
        uint64_t reply = watch_take(w->record, sizeof w->record, w->window, length, w->scratch, length);
        switch (watch_number(reply)) {
        case 0:
            if (reply == 0) return; /* nothing is ready */
            if (watch_flag(reply) && !w->doubtful) say_where(w);
            w->doubtful = watch_flag(reply);
            break;
        case WATCH_CLOCK_FALSE: /* that report is gone; its desk has to send a right one */
            printf("  a report with an impossible clock was thrown away\n");
            break;
        case WATCH_NO_ROOM: /* nothing is lost: the event waits for a longer window */
            if (w->room == WATCH_ROOM) fail("the longest window is too short", reply);
            lend_longer(w, 2 * w->room < WATCH_ROOM ? 2 * w->room : WATCH_ROOM);
            break;
        default: fail("take", reply);
        }
    }
}

/* False if the report has to be sent again later. Number 0 alone does not tell an accepted report from a known one. */
static bool offer(struct watch *w, const struct report *r) {
    uint64_t labels = (uint64_t)(r->on_bench && r->desks & REPAIR) << 8 | (uint64_t)(r->drawing && r->desks & TRANSFER) << 16;
    uint64_t reply = watch_offer(r->desks, watch_counts(r->clock[0], r->clock[1], r->clock[2], 0), 0, labels, w->record, sizeof w->record);
    if (watch_accepted(reply)) return true;
    if (watch_again(reply)) { /* it waits already; nothing is wrong, and nothing has changed */
        printf("  a report came twice\n");
        return true;
    }
    switch (watch_number(reply)) {
    case WATCH_TAKEN: return true; /* that step is taken, most likely from this very report */
    case WATCH_CONFLICT: /* a desk says two things of one step; the report that waits stays */
        printf("  two reports of one step differ: ask the desk\n");
        return true;
    case WATCH_FULL: return false; /* 32 wait for one that is missing: it has to come first */
    default: fail("offer", reply); return false;
    }
}

static void watch_day(const char *name, const struct report *reports, size_t n) {
    struct watch w = {.room = 0};
    lend_longer(&w, 1);
    uint64_t reply = watch_open((const uint8_t *)rule, sizeof rule - 1, DESKS, 0, w.record, sizeof w.record, w.window,
                                WATCH_WINDOW_BYTES(w.room));
    if (watch_number(reply) != 0) fail("open", reply);
    printf("%s\n", name);
    for (size_t i = 0; i < n; i++) {
        if (!offer(&w, &reports[i])) printf("  report %zu has to be sent again\n", i);
        take_all(&w);
    }
    bool signed_off = watch_taken(w.record, 0) == 1 && watch_pending(w.record) == 0;
    for (size_t i = 0; i < n; i++)
        if (reports[i].copy != 0) printf("  copy %d %s\n", reports[i].copy, !signed_off ? "waits" : w.doubtful ? "stays" : "may go out");
    free(w.window);
    free(w.scratch);
}

int main(void) {
    watch_day("Monday", monday, sizeof monday / sizeof monday[0]);
    watch_day("Tuesday", tuesday, sizeof tuesday / sizeof tuesday[0]);
    watch_day("Wednesday", wednesday, sizeof wednesday / sizeof wednesday[0]);
    return 0;
}
