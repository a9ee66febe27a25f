/* Lock and unlock pairs of one thread, through one service that forgets, by lockrun_easy.h.
 *
 * usage: live NODES PAIRS [PAIRS_OF_A_SERVICE]: a client on each node, and eight sets, which they lock in turn. After each
 * tenth of the pairs it prints how many there were, the nanoseconds of processor time of one pair of this tenth, and the
 * memory that is resident, in KiB. A hundred times it asks what was served, and compares it with what it was told. If the
 * third number is named, a new service is opened after so many pairs, and none forgets. */
#define _POSIX_C_SOURCE 200809L
#include "lockrun_easy.h"
#include "measure.h"
#include <stdio.h>
#include <string.h>

enum { SETS = 8, PARTS = 10, ASKED = 100, MOST_NODES = 64 };

static lockrun_nodes nodes;
static size_t told;

static void want(uint32_t code, uint32_t wanted) {
    if (code == wanted) return;
    fprintf(stderr, "live: %u and not %u\n", code, wanted);
    exit(1);
}

static void open_nodes(int on, uint64_t keep) {
    char text[4096];
    int length = sprintf(text, "version 2\nnodes %d\n", on);
    for (int k = 0; k < SETS; k++) length += sprintf(text + length, "set s%d\n", k);
    for (int k = 0; k < on; k++) length += sprintf(text + length, "client c%d at %d\n", k, k);
    want(lockrun_nodes_open(&nodes, text, (size_t)length, (uint64_t)1 << 55 | keep), LOCKRUN_OK);
    told = 0;
}

static void close_nodes(void) {
    lockrun_journal journal = {0};
    want(lockrun_nodes_finish(&nodes, &journal), LOCKRUN_OK);
    lockrun_free(&journal);
}

static void make_pair(long number) {
    lockrun_caller *caller = &nodes.caller[(size_t)number % nodes.callers];
    uint32_t set = (uint32_t)(number / (long)nodes.callers % SETS);
    want(lockrun_lock(caller, set, LOCKRUN_WRITE, LOCKRUN_FOREVER), LOCKRUN_GRANTED);
    want(lockrun_unlock(caller, set, LOCKRUN_WRITE, LOCKRUN_FOREVER), LOCKRUN_UNLOCKED);
    told += 2;
}

static void compare(void) {
    size_t submitted = 0, polled = 0;
    want(lockrun_nodes_served(&nodes, &submitted, &polled), LOCKRUN_OK);
    if (submitted == told && polled == told) return;
    fprintf(stderr, "live: %zu commands, %zu replies, and it was told %zu\n", submitted, polled, told);
    exit(1);
}

int main(int count, char **words) {
    if (count < 3 || count > 4) { fputs("usage: live NODES PAIRS [PAIRS_OF_A_SERVICE]\n", stderr); return 1; }
    int on = atoi(words[1]);
    long pairs = atol(words[2]), once = count > 3 ? atol(words[3]) : 0, part = pairs / PARTS, between = pairs / ASKED;
    if (on < 1 || on > MOST_NODES || between < 1) { fputs("live: 1 to 64 nodes, 100 pairs or more\n", stderr); return 1; }
    read_program();
    open_nodes(on, once ? LOCKRUN_KEEP : 0);
    double begun = nanoseconds();
    for (long number = 1; number <= pairs; number++) {
        make_pair(number);
        if (once && number % once == 0) { close_nodes(); open_nodes(on, LOCKRUN_KEEP); }
        if (number % between == 0) compare();
        if (number % part) continue;
        double ended = nanoseconds();
        printf("%ld %.0f %ld\n", number, (ended - begun) / (double)part, resident());
        fflush(stdout);
        begun = nanoseconds();
    }
    lockrun_nodes_free(&nodes);
    return 0;
}
