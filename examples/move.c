/* A stored watch is moved to the form with counts of 32 bits, and back for a reader of old watches.
 *
 * The store desk writes its event number 65,535 into a watch of the old form, and that is the last one that has a place
 * there. The watch lies in a file: the record and behind it the window. It is read, widened, and goes on in the wide
 * form. As long as no count is above 65,535 it can be moved back, and the bytes are the old ones; after the next event
 * it cannot, and 43 says so.
 *
 * Build: cc -Iinclude examples/move.c -lwatch -o move */
#include <stdio.h>
#include <stdlib.h>
#include <string.h>

#include <watch.h>

enum { FRONTIERS = 4, LAST = 65535 };

struct narrow_watch {
    uint8_t record[WATCH_RECORD_BYTES], window[WATCH_WINDOW_BYTES(FRONTIERS)];
};

struct wide_watch {
    uint8_t record[WATCH32_RECORD_BYTES], window[WATCH32_WINDOW_BYTES(FRONTIERS)];
};

static void fail(const char *what, uint64_t reply) {
    fprintf(stderr, "%s: refused %u\n", what, watch_number(reply));
    exit(1);
}

/* One process, which says in turn that a tape is out and that it is in again. */
static void fill(struct narrow_watch *w) {
    static const char rule[] = "(ep (at 0 0))";
    uint8_t scratch[sizeof w->window];
    uint64_t reply = watch_open((const uint8_t *)rule, strlen(rule), 1, 0, w->record, sizeof w->record, w->window,
                                sizeof w->window);
    if (watch_number(reply) != 0) fail("open", reply);
    for (unsigned n = 1; n <= LAST; n++) {
        reply = watch_offer(1, watch_counts((uint16_t)n, 0, 0, 0), 0, n % 2, w->record, sizeof w->record);
        if (!watch_accepted(reply)) fail("offer", reply);
        reply = watch_take(w->record, sizeof w->record, w->window, sizeof w->window, scratch, sizeof scratch);
        if (watch_value(reply) == 0) fail("take", reply);
    }
}

/* Record and window, one behind the other. */
static void store(FILE *file, const struct narrow_watch *w) {
    if (fwrite(w->record, 1, sizeof w->record, file) != sizeof w->record) exit(1);
    if (fwrite(w->window, 1, sizeof w->window, file) != sizeof w->window) exit(1);
    printf("stored: %lu bytes\n", (unsigned long)(sizeof w->record + sizeof w->window));
}

static void load(FILE *file, struct narrow_watch *w) {
    rewind(file);
    if (fread(w->record, 1, sizeof w->record, file) != sizeof w->record) exit(1);
    if (fread(w->window, 1, sizeof w->window, file) != sizeof w->window) exit(1);
}

static uint64_t widen(const struct narrow_watch *from, struct wide_watch *to) {
    return watch_widen(from->record, sizeof from->record, from->window, sizeof from->window,
                       to->record, sizeof to->record, to->window, sizeof to->window);
}

static uint64_t narrow(const struct wide_watch *from, struct narrow_watch *to) {
    return watch_narrow(from->record, sizeof from->record, from->window, sizeof from->window,
                        to->record, sizeof to->record, to->window, sizeof to->window);
}

int main(void) {
    struct narrow_watch old, back;
    struct wide_watch new;
    uint8_t scratch[sizeof new.window];
    FILE *file = tmpfile();
    if (file == NULL) return 1;

    fill(&old);
    printf("16 bits: %u events taken\n", watch_taken(old.record, 0));
    store(file, &old);

    load(file, &old);
    uint64_t reply = widen(&old, &new);
    if (reply != 0) fail("widen", reply);
    printf("32 bits: %lu events taken\n", (unsigned long)watch32_taken(new.record, 0));
    reply = narrow(&new, &back);
    if (reply != 0) fail("narrow", reply);
    printf("there and back: %s\n", memcmp(&old, &back, sizeof old) == 0 ? "the same bytes" : "other bytes");

    reply = watch32_offer(1, watch32_counts(LAST + 1, 0), 0, 0, 0, 0, new.record, sizeof new.record);
    if (!watch_accepted(reply)) fail("offer", reply);
    reply = watch32_take(new.record, sizeof new.record, new.window, sizeof new.window, scratch, sizeof scratch);
    if (watch_value(reply) == 0) fail("take", reply);
    printf("32 bits: %lu events taken, %s\n", (unsigned long)watch32_taken(new.record, 0),
           watch_flag(reply) ? "yes" : "no");
    printf("back: refused %u\n", watch_number(narrow(&new, &back)));
    fclose(file);
    return 0;
}
