/* See lent.h. */
#define _DEFAULT_SOURCE
#include "lent.h"

#include <signal.h>
#include <stdio.h>
#include <stdlib.h>
#include <string.h>
#include <sys/mman.h>
#include <unistd.h>

enum { AROUND = 0xA5, SLACK = 64 };

static size_t page(void) {
    return (size_t)sysconf(_SC_PAGESIZE);
}

struct lent lent_new(size_t most) {
    struct lent l;
    l.slab_length = (most + SLACK + page() - 1) / page() * page();
    l.slab = mmap(NULL, l.slab_length + page(), PROT_READ | PROT_WRITE, MAP_PRIVATE | MAP_ANONYMOUS, -1, 0);
    if (l.slab == MAP_FAILED || mprotect(l.slab + l.slab_length, page(), PROT_NONE) != 0) abort();
    lend(&l, 0, 0);
    return l;
}

void lent_free(struct lent *l) {
    munmap(l->slab, l->slab_length + page());
    l->slab = l->bytes = NULL;
}

void lend(struct lent *l, size_t length, size_t before_end) {
    if (length + before_end > l->slab_length) abort();
    memset(l->slab, AROUND, l->slab_length);
    l->bytes = l->slab + l->slab_length - length - before_end;
    l->length = length;
    memset(l->bytes, 0, length);
}

void lend_again(struct lent *l, size_t length, size_t before_end) {
    size_t same = length < l->length ? length : l->length;
    uint8_t *saved = malloc(same + 1);
    if (saved == NULL) abort();
    memcpy(saved, l->bytes, same);
    lend(l, length, before_end);
    memcpy(l->bytes, saved, same);
    free(saved);
}

static bool all_are(const uint8_t *bytes, size_t length, uint8_t value) {
    return length == 0 || (bytes[0] == value && memcmp(bytes, bytes + 1, length - 1) == 0);
}

bool lent_intact(const struct lent *l) {
    const uint8_t *behind = l->bytes + l->length;
    return all_are(l->slab, (size_t)(l->bytes - l->slab), AROUND) &&
           all_are(behind, (size_t)(l->slab + l->slab_length - behind), AROUND);
}

bool all_zero(const uint8_t *bytes, size_t length) {
    return all_are(bytes, length, 0);
}

static void (*on_fault)(void);

static void fault(int signal_number) {
    (void)signal_number;
    printf("memory was touched outside the lent buffers\n");
    on_fault();
    fflush(stdout);
    _exit(1);
}

void lent_on_fault(void (*report)(void)) {
    struct sigaction action = {.sa_handler = fault};
    on_fault = report;
    sigaction(SIGSEGV, &action, NULL);
    sigaction(SIGBUS, &action, NULL);
}
