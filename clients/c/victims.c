/* Clients that wait in rings, and the policy by which the youngest of a ring gives up.
 *
 * usage: victims: the status is 0 if each answer is as it should be, and no wait lasts for ever. */
#define _POSIX_C_SOURCE 200809L
#include "lockrun_easy.h"
#include <poll.h>
#include <pthread.h>
#include <stdio.h>
#include <unistd.h>

enum { CALLERS = 8, SETS = 6, AFTER = 20, ROUNDS = 200 };

static atomic_int bad;
static lockrun_nodes nodes;

#define IS(call, wanted) is(#call, __LINE__, call, wanted)

static void is(const char *call, int line, uint64_t got, uint64_t wanted) {
    if (got == wanted) return;
    printf("victims.c:%d: %s is %llu and not %llu\n", line, call, (unsigned long long)got, (unsigned long long)wanted);
    bad = 1;
}

static void open_nodes(int count, int64_t after) {
    char text[512];
    int length = sprintf(text, "nodes %d\n", count);
    for (int k = 0; k < SETS; k++) length += sprintf(text + length, "set s%d\n", k);
    for (int k = 0; k < CALLERS; k++) length += sprintf(text + length, "client c%d at %d\n", k, k % count);
    IS(lockrun_nodes_open(&nodes, text, (size_t)length, (uint64_t)1 << 40), LOCKRUN_OK);
    IS(lockrun_victims(&nodes, after), LOCKRUN_OK);
}

/* Each of the first callers has a set, and asks for that of the next one. */
static void make_ring(uint32_t count) {
    for (uint32_t k = 0; k < count; k++) IS(lockrun_lock(&nodes.caller[k], k, LOCKRUN_WRITE, 0), LOCKRUN_GRANTED);
    for (uint32_t k = 0; k < count; k++) IS(lockrun_ask(&nodes.caller[k], (k + 1) % count, LOCKRUN_READ, 0), LOCKRUN_WAITS);
}

/* One of a ring waits; the youngest is another one, which is in no call. */
static void youngest(int count) {
    open_nodes(count, AFTER);
    make_ring(3);
    IS(lockrun_wait(&nodes.caller[0], 5 * AFTER), LOCKRUN_WAITS);
    IS(lockrun_was_victim(&nodes.caller[0]), 0);
    IS(lockrun_wait(&nodes.caller[2], LOCKRUN_FOREVER), LOCKRUN_WITHDRAWN);
    IS(lockrun_was_victim(&nodes.caller[2]), 1);
    IS(lockrun_abort(&nodes.caller[2]), LOCKRUN_DROPPED);
    IS(lockrun_wait(&nodes.caller[1], LOCKRUN_FOREVER), LOCKRUN_GRANTED);
    IS(lockrun_lock(&nodes.caller[2], 3, LOCKRUN_WRITE, 0), LOCKRUN_GRANTED);
    IS(lockrun_was_victim(&nodes.caller[2]), 0);
    IS(lockrun_abort(&nodes.caller[1]), LOCKRUN_DROPPED);
    IS(lockrun_wait(&nodes.caller[0], LOCKRUN_FOREVER), LOCKRUN_GRANTED);
    lockrun_nodes_free(&nodes);
}

/* Two that want to change what both read: the youngest is the caller itself. */
static void changes(int count) {
    open_nodes(count, AFTER);
    for (int k = 0; k < 2; k++) IS(lockrun_lock(&nodes.caller[k], 0, LOCKRUN_READ, 0), LOCKRUN_GRANTED);
    IS(lockrun_ask_change(&nodes.caller[0], 0, LOCKRUN_READ, LOCKRUN_WRITE, 0), LOCKRUN_WAITS);
    IS(lockrun_change(&nodes.caller[1], 0, LOCKRUN_READ, LOCKRUN_WRITE, LOCKRUN_FOREVER), LOCKRUN_WITHDRAWN);
    IS(lockrun_was_victim(&nodes.caller[1]), 1);
    IS(lockrun_unlock(&nodes.caller[1], 0, LOCKRUN_READ, 0), LOCKRUN_UNLOCKED);
    IS(lockrun_wait(&nodes.caller[0], LOCKRUN_FOREVER), LOCKRUN_CHANGED);
    lockrun_nodes_free(&nodes);
}

/* Without a ring nobody gives up; nor without a policy. */
static void nobody(void) {
    open_nodes(2, AFTER);
    for (uint32_t k = 0; k < 2; k++) IS(lockrun_lock(&nodes.caller[k], k, LOCKRUN_WRITE, 0), LOCKRUN_GRANTED);
    IS(lockrun_ask(&nodes.caller[0], 1, LOCKRUN_READ, 0), LOCKRUN_WAITS);
    IS(lockrun_ask(&nodes.caller[2], 0, LOCKRUN_READ, 10 * AFTER), LOCKRUN_WAITS);
    IS(lockrun_was_victim(&nodes.caller[0]) + lockrun_was_victim(&nodes.caller[2]), 0);
    lockrun_nodes_free(&nodes);
    open_nodes(2, -1);
    make_ring(2);
    IS(lockrun_wait(&nodes.caller[0], 10 * AFTER), LOCKRUN_WAITS);
    lockrun_nodes_free(&nodes);
    static const char old[] = "version 2\nnodes 1\nset s\nclient c at 0\n";
    IS(lockrun_nodes_open(&nodes, old, sizeof old - 1, 1000), LOCKRUN_OK);
    IS(lockrun_victims(&nodes, AFTER), LOCKRUN_BAD_ARGUMENT);
    IS(lockrun_victims(&nodes, -1), LOCKRUN_OK);
    lockrun_nodes_free(&nodes);
}

#ifdef __linux__
/* The descriptor of a victim that is in no call is readable. */
static void watched(void) {
    open_nodes(2, AFTER);
    const int fd = lockrun_fd(&nodes.caller[1]);
    make_ring(2);
    struct pollfd asked = {fd, POLLIN, 0};
    IS(lockrun_wait(&nodes.caller[0], 5 * AFTER), LOCKRUN_WAITS);
    IS((uint64_t)poll(&asked, 1, 1000), 1);
    IS(lockrun_wait(&nodes.caller[1], 0), LOCKRUN_WITHDRAWN);
    lockrun_nodes_free(&nodes);
}
#endif

static atomic_long victims, rounds;

/* Locks three sets in any order, with no time; whoever gives up drops all and begins again. */
static void *stray(void *argument) {
    lockrun_caller *caller = (lockrun_caller *)argument;
    unsigned seed = 17 + 31 * caller->number;
    for (int round = 0; round < ROUNDS && !bad; round++) {
        for (int k = 0; k < 3; k++) {
            seed = seed * 1103515245 + 12345;
            const uint32_t set = (seed >> 8) % SETS;
            const uint32_t code = lockrun_lock(caller, set, seed >> 16 & 1 ? LOCKRUN_WRITE : LOCKRUN_READ, LOCKRUN_FOREVER);
            if (code == LOCKRUN_GRANTED) {
                sched_yield();
                continue;
            }
            IS(code, LOCKRUN_WITHDRAWN);
            IS(lockrun_was_victim(caller), 1);
            atomic_fetch_add(&victims, 1);
            break;
        }
        atomic_fetch_add(&rounds, 1);
        IS(lockrun_abort(caller), LOCKRUN_DROPPED);
    }
    return 0;
}

static void strays(int count) {
    pthread_t threads[CALLERS];
    open_nodes(count, 1);
    for (int k = 0; k < CALLERS; k++) pthread_create(&threads[k], 0, stray, &nodes.caller[k]);
    for (int k = 0; k < CALLERS; k++) pthread_join(threads[k], 0);
    lockrun_nodes_free(&nodes);
}

int main(void) {
    for (int count = 1; count < 4; count++) {
        youngest(count);
        changes(count);
        strays(count);
    }
    nobody();
#ifdef __linux__
    watched();
#endif
    IS(rounds, 3 * CALLERS * ROUNDS);
    IS(victims > 0, 1);
    printf(bad ? "victims: some answers are others\n" : "victims: each answer is as it should be, of %ld rounds %ld ended early\n",
           (long)rounds, (long)victims);
    return bad;
}
