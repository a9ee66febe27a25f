/* Lock and unlock pairs of callers on threads, by lockrun_easy.h. Each round opens a service, makes as many pairs as a script
 * has commands for, and finishes.
 *
 * usage: pairs CALLERS NODES one|own write|read ROUNDS: all callers lock one set, or each its own, on the nodes in turn. */
#define _POSIX_C_SOURCE 200809L
#include "lockrun_easy.h"
#include <pthread.h>
#include <stdio.h>
#include <string.h>

enum { MOST_CALLERS = 8, MOST_COMMANDS = 4096 };

static lockrun_nodes nodes;
static enum lockrun_mode mode;
static int one_set;
static uint32_t pairs_of_caller;
static pthread_barrier_t start;
static struct { double begun, ended; } times[MOST_CALLERS];

static double seconds(void) {
    struct timespec time;
    clock_gettime(CLOCK_MONOTONIC, &time);
    return (double)time.tv_sec + (double)time.tv_nsec * 1e-9;
}

static void want(uint32_t code, uint32_t wanted) {
    if (code == wanted) return;
    fprintf(stderr, "pairs: %u and not %u\n", code, wanted);
    exit(1);
}

static void *work(void *argument) {
    lockrun_caller *caller = argument;
    uint32_t number = lockrun_client(&caller->session);
    uint8_t set = one_set ? 0 : (uint8_t)number;
    pthread_barrier_wait(&start);
    times[number].begun = seconds();
    for (uint32_t k = 0; k < pairs_of_caller; k++) {
        want(lockrun_lock(caller, set, mode, LOCKRUN_FOREVER), LOCKRUN_GRANTED);
        want(lockrun_unlock(caller, set, mode, LOCKRUN_FOREVER), LOCKRUN_UNLOCKED);
    }
    times[number].ended = seconds();
    return 0;
}

/* The time of all pairs, from the first caller's begin to the last one's end. */
static double time_of_pairs(int callers) {
    pthread_t threads[MOST_CALLERS];
    pthread_barrier_init(&start, 0, (unsigned)callers);
    for (int k = 0; k < callers; k++) pthread_create(&threads[k], 0, work, &nodes.caller[k]);
    for (int k = 0; k < callers; k++) pthread_join(threads[k], 0);
    pthread_barrier_destroy(&start);
    double begun = times[0].begun, ended = times[0].ended;
    for (int k = 1; k < callers; k++) {
        if (times[k].begun < begun) begun = times[k].begun;
        if (times[k].ended > ended) ended = times[k].ended;
    }
    return ended - begun;
}

int main(int count, char **words) {
    if (count != 6) { fputs("usage: pairs CALLERS NODES one|own write|read ROUNDS\n", stderr); return 1; }
    int callers = atoi(words[1]), on = atoi(words[2]), rounds = atoi(words[5]);
    if (callers < 1 || callers > MOST_CALLERS) { fputs("pairs: 1 to 8 callers\n", stderr); return 1; }
    pairs_of_caller = MOST_COMMANDS / (uint32_t)callers / 2;
    one_set = !strcmp(words[3], "one");
    mode = strcmp(words[4], "read") ? LOCKRUN_WRITE : LOCKRUN_READ;
    char text[1024];
    int length = sprintf(text, "nodes %d\n", on);
    for (int k = 0; k < MOST_CALLERS; k++) length += sprintf(text + length, "set s%d\n", k);
    for (int k = 0; k < callers; k++) length += sprintf(text + length, "client c%d at %d\n", k, k % on);
    double best = 0, working = 0, begun = seconds();
    long pairs = 0;
    for (int round = 0; round < rounds; round++) {
        lockrun_journal journal = {0};
        want(lockrun_nodes_open(&nodes, text, (size_t)length, 1 << 20 | LOCKRUN_KEEP), LOCKRUN_OK);
        long in_round = (long)callers * pairs_of_caller;
        double taken = time_of_pairs(callers);
        want(lockrun_nodes_finish(&nodes, &journal), LOCKRUN_OK);
        lockrun_free(&journal);
        pairs += in_round;
        working += taken;
        if ((double)in_round / taken > best) best = (double)in_round / taken;
    }
    printf("%ld %.0f %.0f %.0f\n", pairs, best, (double)pairs / working, (double)pairs / (seconds() - begun));
    return 0;
}
