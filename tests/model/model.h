/* A model of the watch, written from the scope paper and the requests alone and as plainly as can be: it keeps every
 * event taken, and at each call works out ALL consistent cuts of them and PaCTL's truth at each from the definitions.
 * It shares nothing with the library but the layouts.
 * Two parts: model_* for watches written by calls only, where reply and bytes are exact, and bytes_* for records and
 * windows of any bytes, where the paper leaves some answers free. */
#ifndef MODEL_H
#define MODEL_H

#include <stdbool.h>
#include <stddef.h>
#include <stdint.h>

enum { PROCESSES = 8, LINES = 64, PENDING = 32, ROOM = 1024, HISTORY = 512, CLOCK_WORDS = 4 };

/* ---- the two stored forms ---- */

/* Request 6: the fields keep their order, and a count has 2 bytes or 4. Everything else follows from that. */
struct layout {
    unsigned width;                                 /* bytes of a count */
    unsigned most;                                  /* the largest count */
    size_t record, clocks_at, table_at, pending_at; /* of a record; the taken counts stand at TAKEN_AT */
    size_t event, event_labels_at;                  /* of a pending event; its clock stands at CLOCK_AT */
    size_t frontier, labels_at, masks_at, values_at; /* of a frontier; its counts stand first */
};
enum { CLOSED_AT = 3, KEPT_AT = 4, TAKEN_AT = 8, CLOCK_AT = 8 };

extern const struct layout narrow_form, wide_form;

unsigned get_count(const struct layout *form, const uint8_t *at);
void put_count(const struct layout *form, uint8_t *at, unsigned count);
bool window_length(const struct layout *form, size_t length);

/* ---- events ---- */

struct event {
    uint8_t mask;              /* bit p: process p took part */
    unsigned clock[PROCESSES];
    uint8_t labels[PROCESSES];
};

/* No list is long enough to reach the largest counts event by event, so a history may begin late: after so many events
 * of each process, of which each shared a process with the one before, the last one was of all processes, and none
 * changed a label. Then all cuts so far stood in one row, and one of them is kept. */
struct history {
    unsigned n;
    struct event event[HISTORY];          /* in the order in which they were taken */
    unsigned begin[PROCESSES];            /* 0 unless it begins late */
    unsigned taken[PROCESSES];
    unsigned places[PROCESSES][HISTORY];  /* of each process's events, in that order */
};

bool involved(const struct event *e, unsigned p);
bool same_event(const struct event *e, const struct event *f); /* mask, clock and labels all agree */
unsigned lowest_process(const struct event *e); /* PROCESSES where the mask is 0 */

/* The places of so many pending events in the order in which take goes through them: from the lowest process up, at a
 * tie by place; one of no process comes last. In a watch that calls wrote that is how they stand. */
void in_turn(const struct event *pending, unsigned n, unsigned *places);
void append(struct history *h, const struct event *e);
const struct event *numbered(const struct history *h, unsigned p, unsigned n); /* p's event number n; NULL if none */
bool ready(const struct event *e, const unsigned *counts);
bool begins_late(const struct history *h);

/* ---- rules ---- */

enum word { AT, NOT, AND, EY, ES, AS, TRUE, FALSE, OR, EP, AP, AY, EH, AH, WORDS };

struct form {
    enum word word;
    unsigned a, b; /* inner forms, earlier in the list; of AT the process and the proposition */
};

struct rule {
    unsigned forms, lines;
    struct form form[LINES]; /* in the order in which their brackets close: the last is the rule */
    uint8_t line[LINES][3];
};

struct fault {
    unsigned number; /* 0: the text is a rule */
    size_t place;
};

struct fault read_rule(const uint8_t *text, size_t length, uint64_t k, struct rule *rule);

/* ---- cuts ---- */

struct cut {
    unsigned counts[PROCESSES];
    bool consistent;
    uint64_t lines; /* bit i: line i of the table holds here */
    uint64_t forms; /* bit i: form i holds here, by its own meaning */
};

struct cuts {
    unsigned begin[PROCESSES], top[PROCESSES]; /* the history's first counts, and the taken ones */
    size_t n;
    struct cut *cut; /* every vector of counts between them, ascending, process 0 compared first */
};

struct cuts all_cuts(const struct history *h);
size_t cut_place(const struct cuts *all, const unsigned *counts); /* the counts must be between begin and top */
bool precedes(const struct cuts *all, const struct event *e, const struct cut *s, size_t *place); /* e leads from the cut there to s */

/* Of the cuts some are kept, by the set of open processes: those that have all taken events of one of these, and the
 * largest, which is always consistent. */
bool kept(const struct cuts *all, const struct cut *s, unsigned open);
size_t kept_number(const struct cuts *all, unsigned open);
bool true_clock(const struct cuts *all, const struct event *e, unsigned open); /* lowered at its own: a kept cut */

void free_cuts(struct cuts *all);

void label_cut(const struct history *h, const uint8_t *start, const struct cut *s, uint8_t *labels);
void judge_cuts(struct cuts *all, const struct history *h, const struct rule *rule, const uint8_t *start,
                const struct cut *first); /* of a history that begins late: its first cut */

/* The truth at the last of so many cuts in one row behind the start, all with the start's labels. */
struct cut judge_row(const struct rule *rule, const uint8_t *start, unsigned events);

/* ---- the watch ---- */

struct model {
    const struct layout *form; /* in which it is stored */
    unsigned k;
    uint8_t start[PROCESSES];
    struct rule rule;
    struct history history;
    unsigned pending_number;
    struct event pending[PENDING]; /* by lowest process and its count; a test may put them in another order */
    uint8_t closed;                /* bit p: process p is closed */
    struct cut first;              /* the first cut of a history that begins late, judged */
};

unsigned open_processes(const struct model *m); /* bit p: the watch has process p, and it is not closed */

void write_record(const struct model *m, size_t kept_frontiers, uint8_t *record);
void write_window(const struct model *m, const struct cuts *judged, uint8_t *window, size_t window_len);

/* Writes both and answers as for a taken event. */
uint64_t lay_down(const struct model *m, uint8_t *record, uint8_t *window, size_t window_len);

uint64_t reply_word(unsigned number, unsigned flag, uint64_t value, uint64_t place);

/* Offer's word for an event that is the same as a pending one: number 0, flag 1, value 0. Neither a refusal nor
 * accepted. */
enum { AGAIN = 256 };

/* The watch as it stands, but late: before its first event so many of each process had been taken (see history). */
void begin_late(struct model *m, const unsigned *begin);

/* The words of an event, as offer gets them. A clock is two words of four counts, or in the wide form four words of
 * two; the lower process is lower. */
struct words {
    uint64_t mask, clock[CLOCK_WORDS], labels;
};

struct event event_of(const struct layout *form, const struct words *w);
unsigned refused_event(const struct layout *form, uint64_t k, const struct words *w); /* 7, 8, 9 or 0 */

/* As the five calls, with the model of the watch that the lent bytes belong to. A window that model_take leaves has at
 * most so many frontiers; ROOM is what a watch by itself may keep. Of the kept frontiers that have the line model_find
 * answers the one that stands first in the window: flag 1, its number from 0 as value. The word is 0 exactly if none
 * has it. model_close answers the frontiers kept, and no truth. */
uint64_t model_open(struct model *m, const struct layout *form, const uint8_t *rule, size_t rule_len, uint64_t k,
                    uint64_t start_labels, uint8_t *record, size_t record_len, uint8_t *window, size_t window_len);
uint64_t model_offer(struct model *m, const struct words *w, uint8_t *record, size_t record_len);
uint64_t model_take(struct model *m, uint8_t *record, size_t record_len, uint8_t *window, size_t window_len,
                    uint8_t *scratch, size_t scratch_len, size_t most);
uint64_t model_find(const struct model *m, uint64_t line, size_t record_len, size_t window_len);
uint64_t model_close(struct model *m, uint64_t process, uint8_t *record, size_t record_len, uint8_t *window,
                     size_t window_len);

/* Where a take stops that may leave so many frontiers and tries the pending events in this order: at the place of the
 * first ready one that has a false clock or fits. PENDING: at none. Ready: whether any was. */
unsigned take_stops(const struct model *m, const unsigned *places, size_t most, bool *any_ready);

/* Of an event that is ready: whether its clock is true, and then how many frontiers are kept once it is taken. */
bool true_by_taken(const struct model *m, const struct event *e);
size_t kept_after(const struct model *m, const struct event *e);

/* A move to the other form: there the watch is laid down anew. The first two lengths are of the form that it has. */
uint64_t model_move(struct model *m, size_t record_len, size_t window_len, uint8_t *to_record, size_t to_record_len,
                    uint8_t *to_window, size_t to_window_len);

/* Prints the kept frontiers of a watch in the wide form. Writes the rows alone, and those only if it answers their
 * number. */
uint64_t model_page(const struct model *m, size_t record_len, size_t window_len, uint8_t *page, size_t page_len);

/* ---- a pool ---- */

enum { POOL = 32, SHARES = 8 };

/* Of any bytes: the share of a number below SHARES, and how many frontiers its watch keeps. */
unsigned share_of(const uint8_t *pool, unsigned number);
unsigned kept_of(const uint8_t *pool, unsigned number);

/* 34: not below SHARES, or without a share. */
bool no_share(const uint8_t *pool, uint64_t number);

/* A window of so many frontiers passes the share by no more than the pool has left for this number. */
bool pool_allows(const uint8_t *pool, unsigned number, size_t frontiers);

/* Some pending event is ready, has a true clock, and would leave more frontiers than the share, fitting or not. */
bool would_pass_share(const struct model *m, size_t share);

/* Writes the pool, and only if it is not refused. */
uint64_t model_set_shares(const uint16_t *shares, size_t n, uint8_t *pool, size_t pool_len);

/* As open, take and close of a watch in the wide form, with the pool of any bytes. */
uint64_t model_shared_open(struct model *m, const uint8_t *rule, size_t rule_len, uint64_t k, uint64_t start_labels,
                           uint8_t *record, size_t record_len, uint8_t *window, size_t window_len, uint8_t *pool,
                           size_t pool_len, uint64_t number);
uint64_t model_shared_take(struct model *m, uint8_t *record, size_t record_len, uint8_t *window, size_t window_len,
                           uint8_t *scratch, size_t scratch_len, uint8_t *pool, size_t pool_len, uint64_t number);
uint64_t model_shared_close(struct model *m, uint64_t process, uint8_t *record, size_t record_len, uint8_t *window,
                            size_t window_len, uint8_t *pool, size_t pool_len, uint64_t number);

/* ---- the busiest day ---- */

/* The frontiers kept after so many events of each of k processes, none of which names or knows another process: by the
 * request's formula, in which nothing wraps (from 2^32 up it answers UINT64_MAX), and counted cut by cut. */
uint64_t day_keeps(unsigned k, const unsigned *counts);
uint64_t count_day(unsigned k, const unsigned *counts);

/* Into the counts: the first n mod k processes have one more. */
void share_evenly(unsigned k, unsigned n, unsigned *counts);

/* Writes the list, and only if it is not refused. */
uint64_t model_busiest(uint64_t k, uint64_t n, uint8_t *events, size_t events_len);

/* ---- any bytes ---- */

/* The refusal of offer, or AGAIN, or 0: then the event was accepted and is laid down in the record. */
unsigned bytes_offer(const struct layout *form, const struct words *w, uint8_t *record, size_t record_len);

/* The reply of find. What an accepted find answers on such bytes the scope leaves free; the library promises what
 * request 4 says on all bytes that it does not refuse, and is held to that here too. */
uint64_t bytes_find(const struct layout *form, uint64_t line, const uint8_t *record, size_t record_len,
                    const uint8_t *window, size_t window_len);

/* What take may do on these bytes. Whether a window fits is free, so more than one may be possible. What is written
 * when an event leaves is free as well, but not which events come to their turn. */
struct possible {
    unsigned refused; /* 6 or 34: then nothing else is possible */
    bool nothing_ready, taken, false_clock, no_room;
    uint32_t may_be_taken;  /* bit i: the event in pending place i, by no false clock before it */
    unsigned false_place;   /* of the event that gives 35 */
};
struct possible bytes_take(const struct layout *form, const uint8_t *record, size_t record_len, const uint8_t *window,
                           size_t window_len, size_t scratch_len);

/* The event in that pending place is gone and nothing else: those after it move up as they are. The scope leaves free
 * what 35 writes on such bytes; the library's header has these words for all of them, and is held to that here. */
void bytes_leave(const struct layout *form, uint8_t *record, unsigned place);

/* The reply of close, and what it writes. Which frontiers stay is told by the bytes of record and window alone; what is
 * answered then the scope leaves free, and the library promises how many these are. */
uint64_t bytes_close(const struct layout *form, uint64_t process, uint8_t *record, size_t record_len, uint8_t *window,
                     size_t window_len);

/* The reply of a move out of this form, and what it writes: every place, used or not. */
uint64_t bytes_move(const struct layout *form, const uint8_t *record, size_t record_len, const uint8_t *window,
                    size_t window_len, uint8_t *to_record, size_t to_record_len, uint8_t *to_window,
                    size_t to_window_len);

/* The same page of any bytes in the wide form, which is exact: reply and rows. */
uint64_t bytes_page(const uint8_t *record, size_t record_len, const uint8_t *window, size_t window_len, uint8_t *page,
                    size_t page_len);

/* A shared call on any bytes in the wide form. The reply of close and what it writes are exact, the pool too. Of take
 * what is possible; what it does to the pool is told by its reply and the record that it leaves. */
uint64_t bytes_shared_close(uint64_t process, uint8_t *record, size_t record_len, uint8_t *window, size_t window_len,
                            uint8_t *pool, size_t pool_len, uint64_t number);
struct possible bytes_shared_take(const uint8_t *record, size_t record_len, const uint8_t *window, size_t window_len,
                                  size_t scratch_len, const uint8_t *pool, size_t pool_len, uint64_t number);
void bytes_bring_up(uint8_t *pool, uint64_t number, uint64_t reply, const uint8_t *record);

bool bytes_damaged(const struct layout *form, const uint8_t *record, size_t room); /* 34 */
uint32_t get_kept(const uint8_t *record); /* all four bytes, whatever they say */

#endif
