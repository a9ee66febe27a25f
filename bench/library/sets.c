/* Rounds of one thread, through one service of many sets that forgets, by lockrun_easy.h. A round is four commands of one
 * client on one set: lock, unlock, lock, drop.
 *
 * usage: sets NODES SETS TOUCHED ROUNDS: a client on each node, so many sets, of which each round locks one of the touched
 * ones. It prints the milliseconds of processor time and the KiB that opening took, and the KiB that became resident since. */
#define _POSIX_C_SOURCE 200809L
#include "lockrun_easy.h"
#include "measure.h"
#include <stdio.h>
#include <string.h>

enum { MOST_NODES = 64, MOST_SETS = 65536, MOST_NAME = 16 };

static lockrun_nodes nodes;
static char names[MOST_SETS][MOST_NAME];
static lockrun_new_set sets[MOST_SETS];

static void want(uint32_t code, uint32_t wanted) {
    if (code == wanted) return;
    fprintf(stderr, "sets: %u and not %u\n", code, wanted);
    exit(1);
}

static void name_sets(uint32_t count) {
    for (uint32_t k = 0; k < count; k++) {
        sets[k].length = (size_t)sprintf(names[k], "s%u", k);
        sets[k].name = (const uint8_t *)names[k];
        sets[k].parent = sets[k].name; /* of no bytes, so none */
    }
}

static void open_nodes(int on, uint32_t count) {
    char text[4096];
    int length = sprintf(text, "version 2\nnodes %d\n", on);
    for (int k = 0; k < on; k++) length += sprintf(text + length, "client c%d at %d\n", k, k);
    want(lockrun_nodes_open_sets(&nodes, text, (size_t)length, sets, count, (uint64_t)1 << 55), LOCKRUN_OK);
}

static void make_round(long number, uint32_t count, uint32_t touched) {
    uint32_t client = (uint32_t)((size_t)number % nodes.callers);
    lockrun_caller *caller = &nodes.caller[client];
    uint32_t set = (uint32_t)(number / (long)nodes.callers % touched) * (count / touched);
    want(lockrun_lock(caller, set, LOCKRUN_WRITE, LOCKRUN_FOREVER), LOCKRUN_GRANTED);
    want(lockrun_unlock(caller, set, LOCKRUN_WRITE, LOCKRUN_FOREVER), LOCKRUN_UNLOCKED);
    want(lockrun_lock(caller, set, LOCKRUN_WRITE, LOCKRUN_FOREVER), LOCKRUN_GRANTED);
    want(lockrun_drop(caller, set, client, LOCKRUN_FOREVER), LOCKRUN_DROPPED);
}

int main(int count, char **words) {
    if (count != 5) { fputs("usage: sets NODES SETS TOUCHED ROUNDS\n", stderr); return 1; }
    int on = atoi(words[1]);
    uint32_t all = (uint32_t)atol(words[2]), touched = (uint32_t)atol(words[3]);
    long rounds = atol(words[4]);
    if (on < 1 || on > MOST_NODES || all < 1 || all > MOST_SETS || touched < 1 || touched > all) {
        fputs("sets: 1 to 64 nodes, 1 to 65,536 sets, and no more touched ones\n", stderr);
        return 1;
    }
    name_sets(all);
    read_program();
    long before = resident();
    double begun = nanoseconds();
    open_nodes(on, all);
    double opened = nanoseconds();
    long first = resident();
    for (long number = 1; number <= rounds; number++) {
        make_round(number, all, touched);
    }
    printf("%.2f %ld %ld\n", (opened - begun) / 1e6, first - before, resident() - first);
    lockrun_nodes_free(&nodes);
    return 0;
}
