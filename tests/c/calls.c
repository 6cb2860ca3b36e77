/* The C test of the calls, through include/watch.h. */
#include "subject.h"

unsigned long checks, failures;

static const char *testing;

static void print_place(void) {
    printf("calls: in %s\n", testing);
}

static void run(const char *name, void (*test)(void)) {
    testing = name;
    test();
}

int main(void) {
    lent_on_fault(print_place);
    run("tests/c/texts.c", test_texts);
    run("tests/c/refusals.c", test_refusals);
    run("tests/c/orders.c", test_orders);
    run("tests/c/lists.c", test_lists);
    run("tests/c/turns.c", test_turns);
    run("tests/c/examples.c", test_examples);
    run("tests/c/messages.c", test_messages);
    run("tests/c/find.c", test_find);
    run("tests/c/close.c", test_close);
    run("tests/c/edges.c", test_edges);
    run("tests/c/wide.c", test_wide);
    run("tests/c/moves.c", test_moves);
    run("tests/c/page.c", test_page);
    run("tests/c/busiest.c", test_busiest);
    run("tests/c/shares.c", test_shares);
    run("tests/c/pool.c", test_pool);
    run("tests/c/stack.c", test_stack);
    if (failures != 0) {
        printf("calls: %lu of %lu checks do not hold\n", failures, checks);
        return 1;
    }
    printf("calls: %lu checks, all hold\n", checks);
    return 0;
}
