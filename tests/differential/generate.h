/* Random rules and executions. */
#ifndef GENERATE_H
#define GENERATE_H

#include <stddef.h>

#include "random.h"

enum { TEXT_MOST = 1500, EVENTS_MOST = 64 };

/* The text of a rule with every operator, of at most so many lines. */
size_t random_rule(struct source *s, unsigned k, unsigned lines, uint8_t *text);

/* A text near a rule: bytes changed, put in, left out, an end too early, brackets too deep, too many lines. */
size_t spoiled_rule(struct source *s, unsigned k, uint8_t *text);

/* An event as it is offered, in either form: a clock's words are made of the counts when it is sent. */
struct sent {
    uint64_t mask, labels;
    unsigned count[8];
};

struct execution {
    unsigned k, n;
    unsigned begin[8], limit;       /* as in its shape */
    struct sent event[EVENTS_MOST]; /* in an order in which they could have happened */
};

/* What kind of execution. */
struct shape {
    unsigned k, n;            /* at most so many events */
    size_t most;              /* and at most so many vectors of counts */
    unsigned joint, messages; /* percentage of events with more than one process, and of those that know of others */
    unsigned alone, before;   /* so many events of one process by itself went before, which knew of nothing else */
    unsigned begin[8], limit; /* or so many of each, of which all know; no count goes above the limit, if there is one */
    unsigned ending;          /* percentage of events after which some process takes no part any more */
};

struct execution random_execution(struct source *s, struct shape shape); /* with true clocks */

/* A percentage for a shape; often 0. */
unsigned random_messages(struct source *s);

/* Into the clock goes what one knows who knows of q's event number n: that event and all that it knew. */
void learn(const struct execution *x, unsigned q, unsigned n, unsigned *clock);

/* The same event with a clock that is false where the execution is what happened: it forgets what its own processes
 * knew, or knows of an event but not of all that this one knew, as of one process of a joint event and not of another.
 * Where nobody knows enough for that it stays as it is. Now and then one count of another process is one more or less,
 * and that may be true. */
struct sent forgetful(struct source *s, const struct execution *x, struct sent e);

/* The same event with something changed: labels, mask, a count, several counts of other processes. */
struct sent twisted(struct source *s, struct sent e, unsigned k);

/* The same event but for one thing, and that changed as little as can be: a bit of a label, a count of a process that
 * takes part or of one that does not, the mask. Most: the largest count of the form. */
struct sent nearly(struct source *s, struct sent e, unsigned k, unsigned most);

/* Numbers that need not be an event. */
struct sent random_sent(struct source *s, unsigned k, unsigned most);

/* Into the shape: a beginning shortly before the counts of one byte, of two, or of the form end, with this as the
 * largest. A process that has reached it does nothing more. In half of the cases no count is above 65,535 then. */
void random_begin(struct source *s, struct shape *shape, unsigned most);

/* A count at which something ends: what one byte, two or three hold, the largest, the one after it. */
unsigned brink(struct source *s, unsigned most);

uint64_t random_labels(struct source *s, uint64_t mask);

/* A word that should name a process: mostly one below k, now and then one from k up, or a word of which only some of
 * the bits are the number of a process. */
uint64_t random_process(struct source *s, unsigned k);

/* Into another order: anywhere, or at most a few places away. */
void shuffle(struct source *s, struct sent *events, unsigned n, bool anywhere);

#endif
