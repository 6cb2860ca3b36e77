/* The vault watcher's calls: open a watch, offer it events, take them, find a frontier, close a process; write a watch
 * of one form as one of the other; print what it keeps, a row for each frontier; generate the busiest day of n events,
 * to choose a window's length by; and let up to eight watches share 1,024 frontiers.
 *
 * A watch is two buffers of the caller's, a record and a window. Take borrows a third, the scratch, as long as the
 * window. The library has no heap, no global state and no files: what it knows of a watch stands in these bytes, so a
 * watch may be copied and stored, and different watches may be used from different threads.
 *
 * There are two forms of a watch, which differ in the width of a count and so in lengths (since 0.7.0). Each has its
 * own calls, and a call of one form cannot tell a watch of the other but by a length. All that is said of a call below
 * is true of both forms, each with its own lengths. Page, busiest day and shares are of the wide form alone.
 *
 *                      watch_open, _offer, ..          watch32_open, _offer, ..
 *   a count            16 bits, to 65,535              32 bits, to 4,294,967,295
 *   a clock            2 words of 4 counts             4 words of 2 counts
 *   a frontier         40 bytes                        56 bytes
 *   the record         1,368 bytes                     2,024 bytes
 *   the window         40 to 40,960, a multiple of 40  56 to 57,344, a multiple of 56
 *
 * A new program opens the wide form, watch32. In the other a process can take no more than 65,535 events; before it
 * comes to that, watch_widen writes its watch as one of the wide form, and watch_narrow the other way for a reader of
 * old watches.
 *
 * What a caller has to keep, of every call:
 *   - each pointer is valid for the length given with it; where the length is 0 it may be anything, also NULL;
 *   - no two lent buffers of one call overlap;
 *   - nobody else reads or writes them until the call returns. The library keeps no pointer after that.
 * No alignment is asked, but of the list of shares. Nothing else is required: any number and any bytes are fine, and
 * what cannot be used is refused by a number. Every call ends, writes nothing outside the buffers it was lent, and
 * needs little stack (WATCH_STACK_BYTES). x86-64 only.
 *
 * Processes are numbered from 0, at most eight. A word of labels has process p's byte at bits 8p to 8p + 7, of which
 * bit b says whether proposition b holds there. In a clock's words the counts stand in the order of the processes, the
 * lower process in the lower bits: watch_counts and watch32_counts make such a word.
 *
 * A clock counts, for each process, the events that this one knows of, itself included. A process knows of its own
 * events, of a step that it took part in, and of what a message told it that another process left; and with an event it
 * knows all that this event knew. So each process keeps a clock. When it reads a message it raises its counts to those
 * that the sender's clock had, where they are larger; in a step of several processes all raise theirs to the largest of
 * them; then each process that takes part adds 1 to its own count, and that is the event's clock. Nothing is forgotten:
 * no count of a process ever falls. */
#ifndef WATCH_H
#define WATCH_H

#include <stddef.h>
#include <stdint.h>

#ifdef __cplusplus
extern "C" {
#endif

#define WATCH_VERSION "0.11.0"   /* of this header and of the library that it was installed with */
#define WATCH_VERSION_NUMBER 1100 /* the same as a number: 10000 major + 100 minor + patch */

#define WATCH_PROCESSES 8        /* at most so many processes */
#define WATCH_LINES 64           /* a rule has at most so many lines */
#define WATCH_PENDING 32         /* a watch holds at most so many events that are not taken yet */
#define WATCH_ROOM 1024          /* a window has room for at most so many frontiers */
#define WATCH_FRONTIER_BYTES 40
#define WATCH_WINDOW_BYTES(room) ((size_t)(room) * WATCH_FRONTIER_BYTES)
#define WATCH_RECORD_BYTES 1368
#define WATCH32_FRONTIER_BYTES 56
#define WATCH32_WINDOW_BYTES(room) ((size_t)(room) * WATCH32_FRONTIER_BYTES)
#define WATCH32_RECORD_BYTES 2024
#define WATCH32_ROW_BYTES 93     /* a row of a page: 92 columns and a line feed */
#define WATCH32_PAGE_BYTES(kept) ((size_t)(kept) * WATCH32_ROW_BYTES)
#define WATCH32_EVENT_BYTES 48   /* an event of a list: mask, seven zeros, eight counts, eight label bytes */
#define WATCH32_EVENTS_BYTES(n) ((size_t)(n) * WATCH32_EVENT_BYTES)
#define WATCH32_DAY_EVENTS 65535 /* a busiest day has at most so many events */
#define WATCH32_SHARES 8         /* at most so many watches share a pool */
#define WATCH32_POOL_BYTES 32    /* eight shares, then eight kept numbers, two bytes each, low byte first */
#define WATCH_STACK_BYTES 16384  /* no call uses more stack */

/* Why a call was refused. But for WATCH_CLOCK_FALSE nothing in record or window has changed then, not a byte. */
enum {
    WATCH_TEXT = 1,         /* rule: a byte that no rule has there, or the text ends too early (place: its length) */
    WATCH_DEPTH = 2,        /* rule: a 33rd nested bracket */
    WATCH_LONG = 3,         /* rule: over 64 lines at this closing bracket */
    WATCH_RANGE = 4,        /* rule: in (at p b), p not below the number of processes, or b above 7 */
    WATCH_COUNT = 5,        /* the number of processes is not 1 to 8 */
    WATCH_LENGTH = 6,       /* a buffer of a wrong length */
    WATCH_MASK = 7,         /* the event's mask is 0 or names a process that the watch has not */
    WATCH_CLOCK = 8,        /* count 0 at an involved process, or not 0 at one that the watch has not */
    WATCH_LABELS = 9,       /* labels not 0 at an uninvolved process; at open, at one that the watch has not */
    WATCH_NO_LINE = 11,     /* find: the rule has no such line */
    WATCH_TAKEN = 31,       /* offer: at an involved process an event of that count was taken already */
    WATCH_CONFLICT = 32,    /* offer: another event is pending that has the same count at a common process */
    WATCH_FULL = 33,        /* offer: 32 events are pending: take, or wait for what is missing */
    WATCH_DAMAGED = 34,     /* the record is none, or it says more frontiers than the lent window has; of a shared
                             * call also: the number has no share in the pool */
    WATCH_CLOCK_FALSE = 35, /* take: what an event says it knew cannot be; that event, and nothing else, is gone */
    WATCH_NO_ROOM = 36,     /* take: events are ready but none fits; lend a longer window */
    WATCH_NOT_OPEN = 41,    /* close: the watch has no such process, or it is closed already */
    WATCH_NAMED = 42,       /* close: a pending event names the process; offer: the event names a closed one */
    WATCH_TOO_LARGE = 43,   /* narrow: some count, in an unused place too, is above 65,535 */
    WATCH_SHORT = 44,       /* page: it is too short for all rows */
    WATCH_DAY = 45,         /* busiest: the number of processes is not 1 to 8, or there are over 65,535 events */
    WATCH_BUSY = 46,        /* busiest: such a day keeps over 1,024 frontiers */
    WATCH_BAD_SHARES = 49   /* set shares: none, over eight, one of 0, or their sum is above 1,024 */
};

/* A reply is one word: number, flag, value and place. A number above 0 is the refusal; a refusal has flag 0, value 0
 * and the place of the fault in the rule's text (0 where there is none). With number 0 the call did what it is for, but
 * for two words: take's 0 (nothing is ready) and offer's WATCH_AGAIN. */
static inline unsigned watch_number(uint64_t reply) { return (unsigned)(reply & 255); }
static inline unsigned watch_flag(uint64_t reply) { return (unsigned)(reply >> 8 & 255); }
static inline unsigned watch_value(uint64_t reply) { return (unsigned)(reply >> 16 & 65535); }
static inline uint32_t watch_place(uint64_t reply) { return (uint32_t)(reply >> 32); }

/* Of offer's replies alone; find may answer the same word and means a place by it. WATCH_AGAIN is the word for an event
 * that is pending already: number 0, flag 1, value 0. An offer was accepted exactly if its value is above 0; number 0
 * does not say so, since WATCH_AGAIN has it too. */
#define WATCH_AGAIN 256
static inline int watch_again(uint64_t reply) { return reply == WATCH_AGAIN; }
static inline int watch_accepted(uint64_t reply) { return watch_value(reply) > 0; }

/* Opens a watch of k processes with a rule and each process's labels at the start.
 * Writes every byte of record and window.
 * Accepted: flag is the rule's truth at the start, value 1 (one frontier).
 * Refused, in this order: 6 record or window, 5, 9, then the first fault of the text, 1 to 4, with its place.
 * Writes nothing then.
 * A rule: (at p b) (not F) (and F F) (or F F) (true) (false)
 *         (ey F) (ay F) (ep F) (ap F) (eh F) (ah F) (es F F) (as F F). */
uint64_t watch_open(const uint8_t *rule, size_t rule_len, uint64_t k, uint64_t start_labels,
                    uint8_t *record, size_t record_len, uint8_t *window, size_t window_len);
uint64_t watch32_open(const uint8_t *rule, size_t rule_len, uint64_t k, uint64_t start_labels,
                      uint8_t *record, size_t record_len, uint8_t *window, size_t window_len);

/* Offers an event: bit p of the mask says that process p took part, its clock counts each process's events that it
 * knows of, itself included, its labels hold afterwards. In any order: an event that comes before an earlier one of its
 * processes, or before one that it knows of from a message, is pending until take can take it.
 * Accepted, exactly if the value is above 0 (watch_accepted): value is the number of pending events, this one among
 * them. Writes the record only.
 * Again, the word WATCH_AGAIN (watch_again): a pending event has the same mask, the same eight counts and the same
 * labels, so this one is known. Neither accepted nor refused, and nothing is written. One that was taken meets 31; one
 * that left with 35 is not pending and may be offered anew.
 * An event that names a closed process meets 42, and so does one of a closed process that was taken and is sent again.
 * An event of open processes may count events of closed ones in its clock. If it counts one that was not taken before
 * the close, it is never ready: it stays pending, and its own processes cannot be closed (42).
 * Refused, in this order with again among them: 6 record, 34, 7, 8, 9, 42, 31, again, 32, 33. Writes nothing then. */
uint64_t watch_offer(uint64_t mask, uint64_t clock_low, uint64_t clock_high, uint64_t labels,
                     uint8_t *record, size_t record_len);
uint64_t watch32_offer(uint64_t mask, uint64_t clock_01, uint64_t clock_23, uint64_t clock_45, uint64_t clock_67,
                       uint64_t labels, uint8_t *record, size_t record_len);

/* Takes one pending event that is ready, the one of the lowest process first, of those whose frontiers fit the window.
 * Accepted: flag is the rule's truth at the largest cut, value the number of frontiers kept (never 0); the counts
 * that the verdict is for are the record's (watch_taken). The whole reply is 0 if nothing is ready: record and window
 * are as they were.
 * Refused: 6 any buffer, or 34: nothing is written. 35: the event that came to its turn has a false clock: 1 less at
 * its processes, it is none of the kept frontiers, on all eight counts. So it has forgotten what its process knew, or
 * knows of an event without all that this one knew. The event left, window and counts are as they were. 36: nothing
 * changed.
 * The window may be longer than at the call before, if the new bytes are 0. The scratch may hold anything and is all
 * 0 afterwards, unless the refusal was 6 or 34.
 * Takes come to an end: in a watch that these calls wrote, as long as no offer is accepted, at most watch_pending of
 * them are answered by a verdict or by 35, one for each event that leaves, and then every one by 0. An event that never
 * gets ready stays pending (watch_waits says for whom it waits). */
uint64_t watch_take(uint8_t *record, size_t record_len, uint8_t *window, size_t window_len,
                    uint8_t *scratch, size_t scratch_len);
uint64_t watch32_take(uint8_t *record, size_t record_len, uint8_t *window, size_t window_len,
                      uint8_t *scratch, size_t scratch_len);

/* Finds where a line of the rule holds: of the kept frontiers that have it, the one that stands first in the window.
 * Lines count from 0, the last is the rule (watch_lines - 1). A window that these calls wrote has its frontiers in
 * ascending order of their counts, process 0 compared first. Writes nothing.
 * Accepted: flag 1, and as value the place in the window, from 0: the line holds there and at no frontier before. The
 * whole reply is 0 exactly if it holds at no kept frontier. The line and the lent bytes alone decide (since 0.5.0).
 * Refused, in this order: 6 record or window, 34, 11. */
uint64_t watch_find(uint64_t line, const uint8_t *record, size_t record_len,
                    const uint8_t *window, size_t window_len);
uint64_t watch32_find(uint64_t line, const uint8_t *record, size_t record_len,
                      const uint8_t *window, size_t window_len);

/* Closes a process that will send no more (since 0.6.0). Then the window keeps, in their order, the frontiers in which
 * some open process has all its taken events, and the largest; the others are gone, here and not only at the next
 * take, and their places are 0. What find answers may change with them; verdicts do not, and taken and pending events
 * stay. It cannot be undone: the process's events are refused from now on (42). All processes may be closed; the
 * largest frontier alone is kept then. Linear in the frontiers kept.
 * Accepted: number 0, value the number of frontiers kept (never 0 in a watch that these calls wrote). Writes record and
 * window, which is lent at the length that it has.
 * Refused, in this order: 6 record or window, 34, 41 (the whole word is judged), 42. Writes nothing then. */
uint64_t watch_close(uint64_t process, uint8_t *record, size_t record_len, uint8_t *window, size_t window_len);
uint64_t watch32_close(uint64_t process, uint8_t *record, size_t record_len, uint8_t *window, size_t window_len);

/* Moves: watch_widen writes a watch of 16 bits as one of 32, watch_narrow one of 32 bits as one of 16 (since 0.7.0).
 * The one that is read comes first and stays as it is. The two windows are of as many frontiers. Every place is
 * written, used or not: the same processes, rule, taken and pending events, closed processes and kept frontiers, at the
 * same places. There and back gives the old bytes. The moved watch goes on as the one that was read would have, with
 * the calls of its form.
 * Accepted: the whole reply is 0. Writes the two buffers that come last.
 * Refused, in this order: 6 any of the four buffers, or windows not of as many frontiers, 34 of the watch that is read;
 * narrow alone, 43: some count of its record or window, in an unused place too, is above 65,535. In a watch that these
 * calls wrote that is so exactly if a taken count is, or a count of a pending event. Writes nothing then. */
uint64_t watch_widen(const uint8_t *record, size_t record_len, const uint8_t *window, size_t window_len,
                     uint8_t *record32, size_t record32_len, uint8_t *window32, size_t window32_len);
uint64_t watch_narrow(const uint8_t *record32, size_t record32_len, const uint8_t *window32, size_t window32_len,
                      uint8_t *record, size_t record_len, uint8_t *window, size_t window_len);

/* Prints the kept frontiers, a row for each, in the window's order (since 0.8.0). A row is 92 characters of ASCII and a
 * line feed: for each of eight processes a column of 11 characters, its count in decimal digits at the right and blanks
 * before it, all blanks where the watch has no such process; then a blank, and "yes" or "no " for the rule there. 0 is
 * "0", and no other count begins with a 0; none has more than ten digits, so each column begins with a blank. A closed
 * process keeps its column. A watch of 16 bits is widened first.
 * Accepted: value is the number of rows, which is watch_kept. Writes the rows at the page's start, 93 bytes for each,
 * and no other byte: what stands after them stays, and no 0 ends the text.
 * Refused, in this order: 6 record or window, 34, 44 a page shorter than WATCH32_PAGE_BYTES(watch_kept(record)). Writes
 * nothing then. A longer page is fine. */
uint64_t watch32_page(const uint8_t *record, size_t record_len, const uint8_t *window, size_t window_len,
                      uint8_t *page, size_t page_len);

/* Generates the busiest day of n events among k processes (since 0.9.0): events of single processes that know of no
 * other process, shared evenly, the first n mod k processes having one more. No watch is read or written.
 * Accepted: value is the number of frontiers that a watch of k processes keeps when it has taken these events, in
 * whatever order they came, and no process is closed: with n(p) events of process p, the product of all n(p) + 1 less
 * the product of all n(p). No other sharing of n such events among the k processes, or of fewer, keeps more. So a
 * window of so many frontiers is long enough for any n of them, counted from open: no take in it answers 36.
 * Writes every byte of the list: process 0's events, their counts rising from 1, then process 1's, and so on. An event
 * is 48 bytes, as a pending one in a record: its mask (the one process), seven zeros, eight counts of four bytes, low
 * byte first (its number at its process, 0 elsewhere), eight label bytes, all 0. They may be taken in this order.
 * Refused, in this order: 45 k or n, 46, 6 a list of other than WATCH32_EVENTS_BYTES(n) bytes. The whole words k and n
 * are judged. Writes nothing then. With n = 0 the list is empty and the value 1.
 * Linear in n. Nothing is said of events of several processes, of messages or of closed processes. */
uint64_t watch32_busiest(uint64_t k, uint64_t n, uint8_t *events, size_t events_len);

/* Up to eight watches share 1,024 frontiers (since 0.10.0). Each has a number, from 0, and a promised share; what no
 * share promises, 1,024 less their sum, is lent to whoever needs it. The pool, 32 bytes of the caller's, says so: the
 * eight shares, then how many frontiers each watch keeps, 0 where a place is unused.
 * A shared call is the plain call of the same name and is lent the pool and the watch's number besides. A take's window
 * fits exactly if the lent bytes hold it, as ever, and it passes the watch's share by no more than the unpromised
 * frontiers that by the pool no other watch is using: 1,024 less all shares, less what each other watch keeps above its
 * own share, or none where that is below 0. So a window within its share always fits, whatever the others keep, if the
 * lent bytes hold it; and a share that its watch does not use is not lent to another.
 * Offer, find and page of a watch that shares are the plain calls. Open, take and close are the shared ones, each with
 * this watch's own number: a plain one would leave the pool's number stale, and then the sum of what is kept may pass
 * 1,024. (A shared call that is not refused puts it right again.) One pool is lent to one call at a time.
 *
 * watch32_set_shares writes the pool: n shares for the watches 0 to n - 1, and none kept. The watches are opened after.
 * `shares` is aligned for uint16_t, as C asks of such a pointer.
 * Accepted: the whole reply is 0. Writes every byte of the pool.
 * Refused, in this order: 6 the pool, 49. Writes nothing then. */
uint64_t watch32_set_shares(const uint16_t *shares, size_t n, uint8_t *pool, size_t pool_len);

/* Open, take and close of a watch that shares, with its number. Replies as those of the plain calls.
 * Refused, in this order: 6 any buffer, the pool too; 34, also of a number that is not below 8 or has share 0 in the
 * pool (the whole word is judged); then as the plain call: open 5, 9, 1 to 4; take 35, 36; close 41, 42. (A plain open
 * has no 34. Here it stands before 5.)
 * No refusal writes the pool, 35 and 36 neither. Else, "nothing ready" too, the watch's kept number in the pool becomes
 * the record's, and no other byte of it is written. Record, window and scratch as after the plain call. */
uint64_t watch32_shared_open(const uint8_t *rule, size_t rule_len, uint64_t k, uint64_t start_labels,
                             uint8_t *record, size_t record_len, uint8_t *window, size_t window_len,
                             uint8_t *pool, size_t pool_len, uint64_t number);
uint64_t watch32_shared_take(uint8_t *record, size_t record_len, uint8_t *window, size_t window_len,
                             uint8_t *scratch, size_t scratch_len, uint8_t *pool, size_t pool_len, uint64_t number);
uint64_t watch32_shared_close(uint64_t process, uint8_t *record, size_t record_len, uint8_t *window, size_t window_len,
                              uint8_t *pool, size_t pool_len, uint64_t number);

static inline unsigned watch_bytes2(const uint8_t *at) { return at[0] | (unsigned)at[1] << 8; }
static inline uint32_t watch_bytes4(const uint8_t *at) {
    return watch_bytes2(at) | (uint32_t)watch_bytes2(at + 2) << 16;
}

/* Of a record that open or a move wrote, in either form: lines of the rule, pending events, frontiers kept, whether
 * process p (0 to 7) is closed. */
static inline unsigned watch_lines(const uint8_t *record) { return record[1]; }
static inline unsigned watch_pending(const uint8_t *record) { return record[2]; }
static inline unsigned watch_kept(const uint8_t *record) { return watch_bytes2(record + 4); }
static inline int watch_closed(const uint8_t *record, unsigned p) { return record[3] >> p & 1; }

/* How many events of process p were taken, by the form of the record. */
static inline unsigned watch_taken(const uint8_t *record, unsigned p) { return watch_bytes2(record + 8 + 2 * p); }
static inline uint32_t watch32_taken(const uint8_t *record, unsigned p) { return watch_bytes4(record + 8 + 4 * p); }

/* Of the pending event at a place below watch_pending, in the order in which take tries them: its mask, its count of
 * process p's events, and whether it waits for p: it counts p's next event, the one with the number watch_taken + 1,
 * and is another one. In a watch that these calls wrote an event is ready exactly if it waits for no process. By the
 * form of the record (since 0.11.0). */
static inline unsigned watch_pending_mask(const uint8_t *record, unsigned place) { return record[344 + 32 * place]; }
static inline unsigned watch_pending_count(const uint8_t *record, unsigned place, unsigned p) {
    return watch_bytes2(record + 352 + 32 * place + 2 * p);
}
static inline int watch_waits(const uint8_t *record, unsigned place, unsigned p) {
    return watch_pending_count(record, place, p)
         > watch_taken(record, p) + (watch_pending_mask(record, place) >> p & 1);
}
static inline unsigned watch32_pending_mask(const uint8_t *record, unsigned place) { return record[488 + 48 * place]; }
static inline uint32_t watch32_pending_count(const uint8_t *record, unsigned place, unsigned p) {
    return watch_bytes4(record + 496 + 48 * place + 4 * p);
}
static inline int watch32_waits(const uint8_t *record, unsigned place, unsigned p) {
    return watch32_pending_count(record, place, p)
         > (uint64_t)watch32_taken(record, p) + (watch32_pending_mask(record, place) >> p & 1);
}

/* Of the frontier at a place below watch_kept: process p's count in that cut, by the form of the window. */
static inline unsigned watch_cut(const uint8_t *window, size_t place, unsigned p) {
    return watch_bytes2(window + WATCH_FRONTIER_BYTES * place + 2 * p);
}
static inline uint32_t watch32_cut(const uint8_t *window, size_t place, unsigned p) {
    return watch_bytes4(window + WATCH32_FRONTIER_BYTES * place + 4 * p);
}

/* Of the event at a place in a list: its mask, and its count of process p's events. */
static inline unsigned watch32_event_mask(const uint8_t *events, size_t place) {
    return events[WATCH32_EVENT_BYTES * place];
}
static inline uint32_t watch32_event_count(const uint8_t *events, size_t place, unsigned p) {
    return watch_bytes4(events + WATCH32_EVENT_BYTES * place + 8 + 4 * p);
}

/* Of a pool that set shares wrote: the share of watch i (0 to 7), and how many frontiers it keeps. */
static inline unsigned watch32_share(const uint8_t *pool, unsigned i) { return watch_bytes2(pool + 2 * i); }
static inline unsigned watch32_share_kept(const uint8_t *pool, unsigned i) { return watch_bytes2(pool + 16 + 2 * i); }

/* Four counts as one word of a clock, or two of 32 bits. */
static inline uint64_t watch_counts(uint16_t a, uint16_t b, uint16_t c, uint16_t d) {
    return (uint64_t)a | (uint64_t)b << 16 | (uint64_t)c << 32 | (uint64_t)d << 48;
}
static inline uint64_t watch32_counts(uint32_t a, uint32_t b) { return (uint64_t)a | (uint64_t)b << 32; }

#ifdef __cplusplus
}
#endif
#endif
