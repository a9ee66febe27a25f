/* Pairs of a lock and an unlock of one thread, by lockrun_easy.h: the same instructions in each run. The callers make a pair
 * in turn, of the set `s0` or each of its own; with one caller that works, the others' sessions are idle.
 *
 * usage: steady NODES CALLERS WORKING own|one PAIRS: so many nodes and callers, of which the first ones work. */
#define _POSIX_C_SOURCE 200809L
#include "lockrun_easy.h"
#include <stdio.h>

enum { MOST_NODES = 64, MOST_CALLERS = 256, MOST_SETS = 8 };

static lockrun_nodes nodes;

static void want(uint32_t code, uint32_t wanted) {
    if (code == wanted) return;
    fprintf(stderr, "steady: %u and not %u\n", code, wanted);
    exit(1);
}

static void open_nodes(int on, int callers) {
    static char text[16384];
    int length = sprintf(text, "version 2\nnodes %d\n", on);
    for (int k = 0; k < MOST_SETS; k++) length += sprintf(text + length, "set s%d\n", k);
    for (int k = 0; k < callers; k++) length += sprintf(text + length, "client c%d at %d\n", k, k % on);
    want(lockrun_nodes_open(&nodes, text, (size_t)length, (uint64_t)1 << 55), LOCKRUN_OK);
}

int main(int count, char **words) {
    if (count != 6) { fputs("usage: steady NODES CALLERS WORKING own|one PAIRS\n", stderr); return 1; }
    int on = atoi(words[1]), callers = atoi(words[2]), working = atoi(words[3]), own = !strcmp(words[4], "own");
    if (on < 1 || on > MOST_NODES || callers < on || callers > MOST_CALLERS || working < 1 || working > callers ||
        (own && working > MOST_SETS)) {
        fputs("steady: 1 to 64 nodes, 1 to 256 callers, of which some work, at most 8 on sets of their own\n", stderr);
        return 1;
    }
    open_nodes(on, callers);
    for (long k = 0; k < atol(words[5]); k++) {
        lockrun_caller *caller = &nodes.caller[k % working];
        uint32_t set = own ? (uint32_t)(k % working) : 0;
        want(lockrun_lock(caller, set, LOCKRUN_WRITE, LOCKRUN_FOREVER), LOCKRUN_GRANTED);
        want(lockrun_unlock(caller, set, LOCKRUN_WRITE, LOCKRUN_FOREVER), LOCKRUN_UNLOCKED);
    }
    lockrun_nodes_free(&nodes);
    return 0;
}
