/* The same calls for the wide form, and the move back. */
#define COUNT_BYTES 4
#include "plain.c"
