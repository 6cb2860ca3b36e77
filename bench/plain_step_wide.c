/* The same step for the wide form. */
#define COUNT_BYTES 4
#include "plain_step.c"
