/* The calls of both stored forms under one name each. With OLD_FORM_ALONE, for a library that has the old form's calls
 * only, every case is of that form and nothing is moved. With WITHOUT_PAGE no page is printed, with WITHOUT_BUSIEST no
 * busiest day is asked for, with WITHOUT_SHARES nothing is shared. */
#ifndef FORMS_H
#define FORMS_H

#include "../model/model.h"
#include "generate.h"

const struct layout *random_form(struct source *s);
const struct layout *other_form(const struct layout *form);
bool both_forms(void); /* a watch can be moved */
bool can_print(const struct layout *form); /* a page of it */
bool can_generate(void); /* a busiest day */
bool can_share(void); /* a pool */

/* The words of an event, made by the header's own functions. */
struct words words_of(const struct layout *form, const struct sent *e);

/* The event in a pending place of a record, as it is offered. */
struct sent pending_sent(const struct layout *form, const uint8_t *record, unsigned place);

/* The event at a place of a list, read by the header's own functions but for its labels. */
struct sent listed_sent(const uint8_t *list, size_t place);

uint64_t call_open(const struct layout *form, const uint8_t *rule, size_t rule_len, uint64_t k, uint64_t labels,
                   uint8_t *record, size_t record_len, uint8_t *window, size_t window_len);
uint64_t call_offer(const struct layout *form, const struct sent *e, uint8_t *record, size_t record_len);
uint64_t call_take(const struct layout *form, uint8_t *record, size_t record_len, uint8_t *window, size_t window_len,
                   uint8_t *scratch, size_t scratch_len);
uint64_t call_find(const struct layout *form, uint64_t line, const uint8_t *record, size_t record_len,
                   const uint8_t *window, size_t window_len);
uint64_t call_close(const struct layout *form, uint64_t process, uint8_t *record, size_t record_len, uint8_t *window,
                    size_t window_len);

/* Out of this form into the other. */
uint64_t call_move(const struct layout *form, const uint8_t *record, size_t record_len, const uint8_t *window,
                   size_t window_len, uint8_t *to_record, size_t to_record_len, uint8_t *to_window,
                   size_t to_window_len);

/* Of the wide form. */
uint64_t call_page(const uint8_t *record, size_t record_len, const uint8_t *window, size_t window_len, uint8_t *page,
                   size_t page_len);

uint64_t call_busiest(uint64_t k, uint64_t n, uint8_t *events, size_t events_len);

/* With a pool; of the wide form. */
uint64_t call_set_shares(const uint16_t *shares, size_t n, uint8_t *pool, size_t pool_len);
uint64_t call_shared_open(const uint8_t *rule, size_t rule_len, uint64_t k, uint64_t labels, uint8_t *record,
                          size_t record_len, uint8_t *window, size_t window_len, uint8_t *pool, size_t pool_len,
                          uint64_t number);
uint64_t call_shared_take(uint8_t *record, size_t record_len, uint8_t *window, size_t window_len, uint8_t *scratch,
                          size_t scratch_len, uint8_t *pool, size_t pool_len, uint64_t number);
uint64_t call_shared_close(uint64_t process, uint8_t *record, size_t record_len, uint8_t *window, size_t window_len,
                           uint8_t *pool, size_t pool_len, uint64_t number);

/* How often each call of each form gave each answer, and gave it in a list where the lengths were wrong; how many takes
 * met a hold out of order, and of these how many did by the order what they did; how many rows the pages had, what the
 * days kept, and how many days a watch took: busiest ones, and such as are shared otherwise. */
enum call { OPEN, OFFER, TAKE, FIND, CLOSE, MOVE, PAGE, DAY, SET, SHARED_OPEN, SHARED_TAKE, SHARED_CLOSE, CALLS };
uint64_t tally(const struct layout *form, enum call call, uint64_t reply); /* returns the reply */
uint64_t tally_refused(const struct layout *form, enum call call, uint64_t reply);
void tally_order(const struct layout *form, bool decides);
void tally_taken_day(bool busiest);
void print_tally(void);

/* What happens to watches that share. Each has to come up. */
enum sharing {
    WITHIN_SHARE,    /* a take that stays within its share while nothing unpromised is left for it */
    ABOVE_SHARE,     /* a take that leaves its window above its share */
    LAST_UNPROMISED, /* and takes the last of what is unpromised */
    POOL_FULL,       /* 36 that the pool alone gives: the lent bytes would do */
    IDLE_SHARE,      /* and so would the pool, if it lent what others do not use of their shares */
    LENT_SHORT,      /* 36 that the lent bytes alone give */
    FITS_LATER,      /* an event that the pool turned back is taken when another watch keeps less */
    STALE_NOTHING,   /* "nothing ready" puts a stale number right */
    STALE_35, STALE_36, STALE_CLOSE, STALE_OPEN, /* a refusal leaves a stale number */
    NUMBER_BEYOND, NUMBER_UNUSED,                /* 34: not below 8; without a share */
    ANOTHERS_NUMBER, /* a call that is lent the number of another watch */
    ALIKE,           /* a call of a watch, the same beside other calls of the others */
    NOT_ALIKE,       /* a take that would pass the share, and is answered otherwise beside other calls of the others */
    SHARINGS
};
void tally_sharing(enum sharing what);

/* Whether each call that the library has gave each answer that it can give. Prints what is missing. */
bool everything_came_up(void);

#endif
