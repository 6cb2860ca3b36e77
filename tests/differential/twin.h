/* A watch and its model side by side: each call is made on both, and reply and every byte are compared. */
#ifndef TWIN_H
#define TWIN_H

#include "../lent.h"
#include "forms.h"

enum { RECORD_MOST = 2024, WINDOW_MOST = 56 * (ROOM + 1) }; /* of the wide form, and one frontier more than allowed */
enum { ROW = 93, PAGE_MOST = ROW * (ROOM + 100) };          /* of a page */

struct twin {
    const struct layout *form;
    struct lent text, record, window, scratch;      /* the library's */
    struct lent to_record, to_window, page;         /* and where a move goes, and a page */
    struct model model;
    uint8_t record_bytes[RECORD_MOST], window_bytes[WINDOW_MOST], scratch_bytes[WINDOW_MOST]; /* the model's */
    size_t window_length;
    uint64_t calls;
};

void twin_new(struct twin *t);
void twin_free(struct twin *t);

/* Lends the library record and window of these lengths from now on, with the model's bytes in them: a longer window has zeros. */
void twin_lend(struct twin *t, struct source *s, size_t record_length, size_t window_length);

/* So many frontiers. */
size_t twin_room(const struct twin *t);

uint64_t twin_open(struct twin *t, const uint8_t *rule, size_t length, uint64_t k, uint64_t labels);
uint64_t twin_offer(struct twin *t, struct sent e);
uint64_t twin_take(struct twin *t, struct source *s, size_t scratch_length);
uint64_t twin_find(struct twin *t, uint64_t line);
uint64_t twin_close(struct twin *t, uint64_t process);

/* Into buffers of these lengths. If it is accepted, the twin goes on in the other form. */
uint64_t twin_move(struct twin *t, struct source *s, size_t to_record_length, size_t to_window_length);

/* Of a watch in the wide form, on a page of this length. */
uint64_t twin_page(struct twin *t, struct source *s, size_t page_length);

/* The watch just opened stands after so many events of each process. */
void twin_begin_late(struct twin *t, struct source *s, const unsigned *begin);

/* Takes an event that is ready and fits, without comparing anything: the model only notes it. Compared again after twin_catch_up. */
void twin_forward(struct twin *t, struct sent e);
void twin_catch_up(struct twin *t);

/* After each call: record and window are the model's, and nothing around them changed. */
void compare_watch(struct twin *t);

/* Most buffers end at the forbidden page, some stand at an odd place. */
size_t before_end(struct source *s);

/* What is being tried, for the message when something differs. */
void case_begins(uint64_t seed, uint64_t number, const char *kind);
void note(const char *format, ...);
void note_sent(const char *what, const struct sent *e, const char *where);
void note_offer(const struct sent *e, const char *where);
void print_case(void);
void differs(const char *format, ...); /* prints the case, its calls and what differs, and ends the program with 1 */

void fill_junk(struct source *s, uint8_t *bytes, size_t length);
void compare_bytes(const char *name, const uint8_t *library, const uint8_t *expected, size_t length);
void compare_replies(uint64_t library, uint64_t expected);

/* With WATCHES_ALONE only watches that calls and moves wrote: for two libraries that differ on other bytes. */
#ifdef WATCHES_ALONE
enum { WATCHES = 1 };
#else
enum { WATCHES = 0 };
#endif

/* The kinds of cases. */
void try_texts(struct source *s, struct twin *t);
void try_walk(struct source *s, struct twin *t, unsigned events, size_t vectors);
void try_late(struct source *s, struct twin *t);      /* counts beyond one byte */
void try_late_begin(struct source *s, struct twin *t); /* counts around the largest of a form */
void try_crowd(struct source *s, struct twin *t); /* up to 32 pending */
void try_refused(struct source *s, struct twin *t); /* for what the calls are lent, anywhere among them */
void try_disorder(struct source *s, struct twin *t); /* of the pending events */
void try_damage(struct source *s, struct twin *t);
void try_orders(struct source *s, struct twin *t, struct twin *other, bool large);
void try_moves(struct source *s, struct twin *t);
void try_pages(struct source *s, struct twin *t); /* of the wide form, with counts of every number of digits */
void try_days(struct source *s, struct twin *t);  /* busiest ones, and watches that take them */
void try_shares(struct source *s, struct twin *t); /* up to eight watches on one pool */
void try_alike(struct source *s, struct twin *t);  /* a watch beside others that do one thing or another */
void try_pools(struct source *s, struct twin *t);  /* of any bytes, and settings of any shares */

/* Opens a watch of k processes in this form, with room for so many frontiers: any rule, any labels. */
void start_of_form(struct source *s, struct twin *t, const struct layout *form, unsigned k, size_t room);

/* One of the execution's events with a clock that forgets, mostly one that could come next. */
void offer_forgetful(struct source *s, struct twin *t, const struct execution *x);

/* One that is open and of which nothing more is to come in the execution; any if there is none. */
uint64_t finished_process(struct source *s, const struct twin *t, const struct execution *x);

/* Lengths that a call is not to be lent. */
struct lengths {
    size_t record, window, scratch;
};
size_t wrong_record(struct source *s, const struct layout *form);
size_t wrong_window(struct source *s, const struct layout *form, size_t length);

/* A call that is refused for what it is lent, any but a busiest day, and a move only if there may be moves; an offer is
 * of this event, or where it is NULL of any. Nothing changes, and the watch is lent as before. */
void refused_call(struct source *s, struct twin *t, const struct sent *e, bool moves);
void refused_take(struct source *s, struct twin *t); /* lent 41,000 bytes, or in the wide form as many frontiers */

/* Damages a copy of the watch as it stands and tries calls on that. */
void damage_excursion(struct source *s, const struct twin *t, unsigned calls);

/* Puts the pending events of a copy of the watch, and some more, into another order, and takes them there. */
void disorder_excursion(struct source *s, struct twin *t);

/* Bytes of a watch to be damaged. */
struct laid {
    const struct layout *form;
    uint8_t *record, *window;
    unsigned room;
};
void damage(struct source *s, const struct laid *d);

/* Moves a copy of the library's bytes as they stand, damaged or not, there and back. */
void move_excursion(struct source *s, const struct twin *t, bool damaged);

/* A length for a page of so many rows: it is enough, too little by a byte or more, nothing, or far too much. */
size_t random_page(struct source *s, size_t rows);

/* A page of a copy of the watch, damaged or with junk in it. */
void page_excursion(struct source *s, const struct twin *t);

#endif
