/* Two threads write the same plain word under locks, for a race detector: compiled with -fsanitize=thread -DLOCKRUN_TSAN. With the
 * word `planted` the second thread locks another set, and then the detector has to report it; else it has to report nothing.
 *
 * usage: racing [planted] */
#define _POSIX_C_SOURCE 200809L
#include "lockrun_easy.h"
#include <pthread.h>
#include <stdio.h>

enum { ROUNDS = 2000 };

static lockrun_nodes nodes;
static uint32_t set_of[2];
static long word, read_by[2];

static void *write_it(void *argument) {
    lockrun_caller *caller = (lockrun_caller *)argument;
    for (int k = 0; k < ROUNDS; k++) {
        if (lockrun_lock(caller, set_of[caller->number], LOCKRUN_WRITE, 10000) != LOCKRUN_GRANTED) exit(3);
        word++;
        if (lockrun_change(caller, set_of[caller->number], LOCKRUN_WRITE, LOCKRUN_READ, 10000) != LOCKRUN_CHANGED) exit(3);
        read_by[caller->number] += word;
        if (lockrun_unlock(caller, set_of[caller->number], LOCKRUN_READ, LOCKRUN_FOREVER) != LOCKRUN_UNLOCKED) exit(3);
    }
    return 0;
}

int main(int count, char **words) {
    static const char script[] = "nodes 2\nset a\nset b\nclient c at 0\nclient d at 1\n";
    pthread_t threads[2];
    (void)words;
    set_of[1] = count > 1;
    if (lockrun_nodes_open(&nodes, script, sizeof script - 1, (uint64_t)1 << 40) != LOCKRUN_OK) return 3;
    for (int k = 0; k < 2; k++) pthread_create(&threads[k], 0, write_it, &nodes.caller[k]);
    for (int k = 0; k < 2; k++) pthread_join(threads[k], 0);
    lockrun_nodes_free(&nodes);
    return count == 1 && word != 2 * ROUNDS;
}
