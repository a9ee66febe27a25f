/* What is counted of each set at each node, by lockrun_view.h and by lockrun_count.
 *
 * usage: counts: the status is 0 if each count is as it should be. */
#define _POSIX_C_SOURCE 200809L
#include "lockrun_view.h"
#include <pthread.h>
#include <stdio.h>

enum { PAIRS = 20000, SETS = 3 };

static int bad;
static lockrun_nodes nodes;

#define IS(call, wanted) is(#call, __LINE__, call, wanted)

static void is(const char *call, int line, uint64_t got, uint64_t wanted) {
    if (got == wanted) return;
    printf("counts.c:%d: %s is %llu and not %llu\n", line, call, (unsigned long long)got, (unsigned long long)wanted);
    bad = 1;
}

/* Sees that this was counted of the set at the node. */
static void counts(int line, size_t node, uint32_t set, lockrun_counts wanted) {
    lockrun_counts got = {0, 0, 0, 0, 0, 0, 0, 0};
    uint64_t letters = 0;
    is("lockrun_counted", line, lockrun_counted(&nodes, node, set, &got, &letters), LOCKRUN_OK);
    is("grants", line, got.grants, wanted.grants);
    is("changes", line, got.changes, wanted.changes);
    is("refusals", line, got.refusals, wanted.refusals);
    is("waits", line, got.waits, wanted.waits);
    is("withdrawals", line, got.withdrawals, wanted.withdrawals);
    is("copies", line, got.copies, wanted.copies);
    is("freezes", line, got.freezes, wanted.freezes);
    is("tokens", line, got.tokens, wanted.tokens);
}

#define COUNTS(node, set, ...) counts(__LINE__, node, set, (lockrun_counts){__VA_ARGS__})

/* On one node each count is that of the calls that were made. */
static void on_one_node(void) {
    lockrun_caller *c = &nodes.caller[0], *d = &nodes.caller[1];
    COUNTS(0, 0, 0, 0, 0, 0, 0, 0, 0, 0);
    IS(lockrun_lock(c, 0, LOCKRUN_UPGRADE, 0), LOCKRUN_GRANTED);
    IS(lockrun_try(d, 0, LOCKRUN_WRITE, 0), LOCKRUN_FALSE);
    IS(lockrun_change(c, 0, LOCKRUN_UPGRADE, LOCKRUN_WRITE, 0), LOCKRUN_CHANGED);
    IS(lockrun_lock(d, 0, LOCKRUN_READ, 0), LOCKRUN_WITHDRAWN);
    IS(lockrun_unlock(c, 0, LOCKRUN_WRITE, 0), LOCKRUN_UNLOCKED);
    IS(lockrun_try(d, 0, LOCKRUN_WRITE, 0), LOCKRUN_TRUE);
    IS(lockrun_ask(c, 0, LOCKRUN_READ, 0), LOCKRUN_WAITS);
    IS(lockrun_abort(d), LOCKRUN_DROPPED);
    IS(lockrun_wait(c, 0), LOCKRUN_GRANTED);
    IS(lockrun_lock(d, 1, LOCKRUN_WRITE, 0), LOCKRUN_GRANTED);
    IS(lockrun_abort(c), LOCKRUN_DROPPED);
    IS(lockrun_abort(d), LOCKRUN_DROPPED);
    COUNTS(0, 0, 3, 1, 1, 2, 1, 0, 0, 0);
    COUNTS(0, 1, 1, 0, 0, 0, 0, 0, 0, 0);
    COUNTS(1, 0, 0, 0, 0, 0, 0, 0, 0, 0);
}

/* The token goes to the node of a client that writes: this one's counts are its own. */
static void on_two_nodes(void) {
    lockrun_caller *e = &nodes.caller[2];
    uint64_t letters = 0;
    lockrun_counts here;
    IS(lockrun_lock(e, 2, LOCKRUN_WRITE, LOCKRUN_FOREVER), LOCKRUN_GRANTED);
    IS(lockrun_abort(e), LOCKRUN_DROPPED);
    COUNTS(0, 2, 0, 0, 0, 0, 0, 0, 0, 1);
    COUNTS(1, 2, 1, 0, 0, 1, 0, 0, 0, 0);
    IS(lockrun_counted(&nodes, 1, 2, &here, &letters), LOCKRUN_OK);
    IS(letters, 1);
    IS(lockrun_counted(&nodes, 1, SETS, &here, &letters), LOCKRUN_NOTHING);
}

static void *make_pairs(void *argument) {
    lockrun_caller *caller = (lockrun_caller *)argument;
    for (int k = 0; k < PAIRS; k++) {
        IS(lockrun_lock(caller, 1, LOCKRUN_WRITE, LOCKRUN_FOREVER), LOCKRUN_GRANTED);
        IS(lockrun_unlock(caller, 1, LOCKRUN_WRITE, LOCKRUN_FOREVER), LOCKRUN_UNLOCKED);
    }
    return 0;
}

/* While nodes forget what they did, no grant is lost: those of all nodes are as many as locks were had. */
static void while_nodes_forget(void) {
    pthread_t threads[3];
    uint64_t before = 0, grants = 0, letters;
    lockrun_counts here;
    for (size_t k = 0; k < 2; k++, before += here.grants) IS(lockrun_counted(&nodes, k, 1, &here, &letters), LOCKRUN_OK);
    for (int k = 0; k < 3; k++) pthread_create(&threads[k], 0, make_pairs, &nodes.caller[k]);
    for (int k = 0; k < 3; k++) pthread_join(threads[k], 0);
    for (size_t k = 0; k < 2; k++, grants += here.grants) IS(lockrun_counted(&nodes, k, 1, &here, &letters), LOCKRUN_OK);
    IS(grants - before, 3 * PAIRS);
}

/* The answers of the call itself. */
static void by_codes(void) {
    lockrun_handle none = {0};
    lockrun_station *station = &nodes.node[0].station;
    uint64_t read = 0, taken = 5, numbers[SETS * LOCKRUN_COUNTS] = {0};
    IS(lockrun_count(&none, &read, &taken, numbers, SETS * LOCKRUN_COUNTS), LOCKRUN_WRONG_HANDLE);
    IS(lockrun_count(&nodes.caller[0].session, &read, &taken, numbers, SETS * LOCKRUN_COUNTS), LOCKRUN_WRONG_HANDLE);
    IS(lockrun_count(station, &read, &taken, numbers, SETS * LOCKRUN_COUNTS), LOCKRUN_FORGOTTEN);
    read = nodes.node[0].tally.read + 1;
    IS(lockrun_count(station, &read, &taken, numbers, SETS * LOCKRUN_COUNTS), LOCKRUN_BAD_ARGUMENT);
    IS(read, nodes.node[0].tally.read + 1);
    read--;
    numbers[LOCKRUN_COUNT_GRANTS] = UINT64_MAX;
    IS(lockrun_lock(&nodes.caller[0], 0, LOCKRUN_WRITE, LOCKRUN_FOREVER), LOCKRUN_GRANTED);
    IS(lockrun_lock(&nodes.caller[0], 2, LOCKRUN_WRITE, LOCKRUN_FOREVER), LOCKRUN_GRANTED);
    IS(lockrun_count(station, &read, &taken, numbers, 2 * LOCKRUN_COUNTS), LOCKRUN_OK);
    IS(numbers[LOCKRUN_COUNT_GRANTS], UINT64_MAX);
    IS(numbers[2 * LOCKRUN_COUNTS + LOCKRUN_COUNT_GRANTS], 0);
    IS(lockrun_abort(&nodes.caller[0]), LOCKRUN_DROPPED);
}

int main(void) {
    static const char script[] = "nodes 2\nset a\nset b with a\nset c\nclient c0 at 0\nclient d at 0\nclient e at 1\n";
    IS(lockrun_nodes_open(&nodes, script, sizeof script - 1, (uint64_t)1 << 40), LOCKRUN_OK);
    IS(lockrun_counts_begin(&nodes, SETS), LOCKRUN_OK);
    on_one_node();
    on_two_nodes();
    while_nodes_forget();
    IS(lockrun_nodes_forget(&nodes), LOCKRUN_OK);
    by_codes();
    lockrun_nodes_free(&nodes);
    puts(bad ? "counts: some counts are others" : "counts: each count is as it should be");
    return bad;
}
