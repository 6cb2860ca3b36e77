/* Two reading rooms, one allowance: how two watches share 1,024 frontiers, and what happens when one wants more.
 *
 * The map room and the music room have a watch each. In either room there are two desks: the vault desk (process 0) and
 * the reading desk (process 1). The vault desk is silent all day, so each loan at the reading desk may have been before
 * or after anything that the vault desk will report, and the watch keeps one state more with every loan. Memory is for
 * 1,024 states in both rooms together. Each room is promised 500 of them, and 24 are for whoever needs them first. What
 * one room does not use of its promise is not lent to the other: it would be missing on the day when it is needed.
 *
 * Build: cc -Iinclude examples/rooms.c -lwatch -o rooms */
#include <stdio.h>
#include <stdlib.h>
#include <string.h>

#include <watch.h>

enum { MAPS, MUSIC, ROOMS, VAULT_DESK = 0, READING_DESK = 1 };

static const char *const names[ROOMS] = {"maps", "music"};
static const uint16_t shares[ROOMS] = {500, 500};
static const char rule[] = "(ep (at 1 0))";

/* Either window is lent with all the bytes that there can be: the pool says how much of them may be used. */
struct watch {
    uint8_t record[WATCH32_RECORD_BYTES];
    uint8_t window[WATCH32_WINDOW_BYTES(WATCH_ROOM)], scratch[WATCH32_WINDOW_BYTES(WATCH_ROOM)];
};

static struct watch watches[ROOMS];
static uint8_t pool[WATCH32_POOL_BYTES];

static void fail(const char *what, uint64_t reply) {
    fprintf(stderr, "%s: refused %u\n", what, watch_number(reply));
    exit(1);
}

/* The shares first, the watches after; each is opened with its number. */
static void open_rooms(void) {
    uint64_t reply = watch32_set_shares(shares, ROOMS, pool, sizeof pool);
    if (reply != 0) fail("set shares", reply);
    for (unsigned room = 0; room < ROOMS; room++) {
        struct watch *w = &watches[room];
        reply = watch32_shared_open((const uint8_t *)rule, strlen(rule), 2, 0, w->record, sizeof w->record, w->window,
                                    sizeof w->window, pool, sizeof pool, room);
        if (watch_number(reply) != 0) fail("open", reply);
    }
}

/* What is promised to nobody, less what the rooms keep above their promises. */
static unsigned unused(void) {
    unsigned left = WATCH_ROOM;
    for (unsigned room = 0; room < ROOMS; room++) {
        unsigned share = watch32_share(pool, room), kept = watch32_share_kept(pool, room);
        left -= kept > share ? kept : share;
    }
    return left;
}

static void print_pool(const char *what) {
    printf("%s\n", what);
    for (unsigned room = 0; room < ROOMS; room++)
        printf("  %-5s keeps %3u, promised %u\n", names[room], watch32_share_kept(pool, room),
               watch32_share(pool, room));
    printf("  for whoever needs them: %u\n\n", unused());
}

static uint64_t take(unsigned room) {
    struct watch *w = &watches[room];
    return watch32_shared_take(w->record, sizeof w->record, w->window, sizeof w->window, w->scratch, sizeof w->scratch,
                               pool, sizeof pool, room);
}

/* The next loan at a room's reading desk. Offers are the plain call: they need no frontiers. */
static uint64_t lend_sheet(unsigned room) {
    struct watch *w = &watches[room];
    uint32_t loan = watch32_taken(w->record, READING_DESK) + 1;
    uint64_t reply = watch32_offer(1 << READING_DESK, watch32_counts(0, loan), 0, 0, 0, 0, w->record, sizeof w->record);
    if (!watch_accepted(reply)) fail("offer", reply);
    return take(room);
}

static void lend_sheets(unsigned room, unsigned loans) {
    for (unsigned i = 0; i < loans; i++) {
        uint64_t reply = lend_sheet(room);
        if (watch_number(reply) != 0) fail("take", reply);
    }
}

/* Nothing is lost with 36: the loan is pending, and a later take tries it again. */
static void say(unsigned room, uint64_t reply) {
    if (watch_number(reply) == WATCH_NO_ROOM) printf("%s: no room for the next loan; it waits\n\n", names[room]);
    else if (watch_number(reply) == 0) printf("%s: the loan is taken, %u kept\n\n", names[room], watch_value(reply));
    else fail("take", reply);
}

int main(void) {
    open_rooms();
    print_pool("Both rooms are open");
    lend_sheets(MAPS, 509);
    print_pool("The map room has lent 509 sheets, and is 10 above its promise");
    lend_sheets(MUSIC, 513);
    print_pool("The music room has lent 513, and uses the other 14");

    say(MAPS, lend_sheet(MAPS)); /* above its promise, and the others have the rest */

    struct watch *w = &watches[MUSIC];
    uint64_t reply = watch32_shared_close(VAULT_DESK, w->record, sizeof w->record, w->window, sizeof w->window, pool,
                                          sizeof pool, MUSIC);
    if (watch_number(reply) != 0) fail("close", reply);
    print_pool("The music room's vault desk has shut for the day");

    say(MAPS, take(MAPS));
    print_pool("At the end");
    return 0;
}
