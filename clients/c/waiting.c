/* What callers wait for, by lockrun_easy.h, lockrun_keys.h, lockrun_pool.h and lockrun_error.h: each of their calls, and that who
 * waits sleeps.
 *
 * usage: waiting: the status is 0 if each answer is as it should be. */
#define _POSIX_C_SOURCE 200809L
#include "lockrun_error.h"
#include "lockrun_keys.h"
#include "lockrun_pool.h"
#include <poll.h>
#include <pthread.h>
#include <stdio.h>

enum { NODES = 4, SLEEPERS = 8, LONG = 60000, MOST = 65536 };

static atomic_int bad;
static lockrun_nodes nodes;

#define IS(call, wanted) is(#call, __LINE__, call, wanted)

static void is(const char *call, int line, uint64_t got, uint64_t wanted) {
    if (got == wanted) return;
    printf("waiting.c:%d: %s is %llu and not %llu\n", line, call, (unsigned long long)got, (unsigned long long)wanted);
    bad = 1;
}

static void same(const char *got, const char *wanted) {
    if (!strcmp(got, wanted)) return;
    printf("waiting.c: \"%s\" and not \"%s\"\n", got, wanted);
    bad = 1;
}

/* So many nodes, and so many clients, one after the other on each node. */
static void open_many(int count, int clients) {
    char text[1024];
    int length = sprintf(text, "nodes %d\nset a\nset b\n", count);
    for (int k = 0; k < clients; k++) length += sprintf(text + length, "client c%d at %d\n", k, k % count);
    IS(lockrun_nodes_open(&nodes, text, (size_t)length, (uint64_t)1 << 40), LOCKRUN_OK);
}

/* Milliseconds of processor time of the process. */
static long spent(void) {
    struct timespec time;
    clock_gettime(CLOCK_PROCESS_CPUTIME_ID, &time);
    return time.tv_sec * 1000 + time.tv_nsec / 1000000;
}

static void nap(long milliseconds) {
    struct timespec time = {milliseconds / 1000, milliseconds % 1000 * 1000000};
    nanosleep(&time, 0);
}

/* On a free set a lock with no patience is granted from any node, also after another node had it. */
static void no_patience(void) {
    open_many(NODES, NODES);
    for (int k = 0; k < 3 * NODES; k++) {
        lockrun_caller *caller = &nodes.caller[(k * 7) % NODES];
        IS(lockrun_lock(caller, 0, LOCKRUN_WRITE, 0), LOCKRUN_GRANTED);
        IS(lockrun_lock(&nodes.caller[(caller->number + 1) % NODES], 0, LOCKRUN_READ, 0), LOCKRUN_WITHDRAWN);
        IS(lockrun_unlock(caller, 0, LOCKRUN_WRITE, 0), LOCKRUN_UNLOCKED);
    }
    for (int k = 0; k < NODES; k++) IS(lockrun_lock(&nodes.caller[k], 0, LOCKRUN_READ, 0), LOCKRUN_GRANTED);
    for (int k = 0; k < NODES; k++) IS(lockrun_abort(&nodes.caller[k]), LOCKRUN_DROPPED);
    lockrun_nodes_free(&nodes);
}

static atomic_int granted;

/* Waits for the set, has it for a moment, and gives it up. */
static void *sleep_for_it(void *argument) {
    lockrun_caller *caller = (lockrun_caller *)argument;
    IS(lockrun_lock(caller, 0, LOCKRUN_WRITE, LONG), LOCKRUN_GRANTED);
    atomic_fetch_add(&granted, 1);
    IS(lockrun_unlock(caller, 0, LOCKRUN_WRITE, LOCKRUN_FOREVER), LOCKRUN_UNLOCKED);
    return 0;
}

/* While others wait for a lock they take next to no processor time; once it is given up each of them has it soon. */
static void sleeping(int count) {
    pthread_t threads[SLEEPERS];
    open_many(count, SLEEPERS + 1);
    lockrun_caller *holder = &nodes.caller[SLEEPERS];
    granted = 0;
    IS(lockrun_lock(holder, 0, LOCKRUN_WRITE, LOCKRUN_FOREVER), LOCKRUN_GRANTED);
    for (int k = 0; k < SLEEPERS; k++) pthread_create(&threads[k], 0, sleep_for_it, &nodes.caller[k]);
    nap(100);
    const long before = spent();
    nap(1000);
    const long took = spent() - before;
    if (took > 20) IS(took, 20);
    IS(granted, 0);
    const int64_t given = lockrun_now();
    IS(lockrun_unlock(holder, 0, LOCKRUN_WRITE, LOCKRUN_FOREVER), LOCKRUN_UNLOCKED);
    for (int k = 0; k < SLEEPERS; k++) pthread_join(threads[k], 0);
    IS(granted, SLEEPERS);
    IS(lockrun_now() - given < 20000000000, 1);
    printf("waiting: %d asleep on %d nodes took %ld ms of a second, and had the lock within %lld microseconds\n", SLEEPERS, count,
           took, (long long)(lockrun_now() - given) / 1000);
    lockrun_nodes_free(&nodes);
}

/* An event loop: the descriptor is readable once the lock is there, and not before. */
static void by_descriptor(void) {
    open_many(2, 3);
    lockrun_caller *holder = &nodes.caller[0], *caller = &nodes.caller[1];
    struct pollfd one = {lockrun_fd(caller), POLLIN, 0};
    IS(one.fd > 0, 1);
    IS(lockrun_fd(caller), (uint64_t)one.fd);
    IS(lockrun_lock(holder, 0, LOCKRUN_WRITE, LOCKRUN_FOREVER), LOCKRUN_GRANTED);
    for (int k = 0; k < 3; k++) {
        IS(lockrun_ask(caller, 0, LOCKRUN_WRITE, 0), LOCKRUN_WAITS);
        IS((uint64_t)poll(&one, 1, 10), 0);
        IS(lockrun_wait(caller, 0), LOCKRUN_WAITS);
        IS(lockrun_unlock(holder, 0, LOCKRUN_WRITE, LOCKRUN_FOREVER), LOCKRUN_UNLOCKED);
        uint32_t code = LOCKRUN_WAITS;
        for (int looks = 0; code == LOCKRUN_WAITS && looks < 10; looks++) {
            IS((uint64_t)poll(&one, 1, LONG), 1);
            code = lockrun_wait(caller, 0);
        }
        IS(code, LOCKRUN_GRANTED);
        IS((uint64_t)poll(&one, 1, 0), 0);
        lockrun_caller *other = holder;
        holder = caller;
        caller = other;
        one.fd = lockrun_fd(caller);
    }
    IS(lockrun_ask(caller, 0, LOCKRUN_READ, 0), LOCKRUN_WAITS);
    IS(lockrun_give_up(caller), LOCKRUN_WITHDRAWN);
    lockrun_nodes_free(&nodes);
}

/* A key has one set, in each process the same; with a parent it is in the parent's family. */
static void keys(void) {
    const char *text = "# set of no keys\nnodes 1\nset a\n set b\nclient c at 0\nclient d at 0\n";
    uint32_t set = 77, again = 0, parent = 0, seen = 0;
    IS(lockrun_nodes_open_keys(&nodes, text, strlen(text), MOST, 1, 1 << 20), LOCKRUN_TOO_MANY);
    IS(lockrun_nodes_open_keys(&nodes, text, strlen(text), 100, 50, 1 << 20), LOCKRUN_OK);
    IS(nodes.first, 2);
    for (int k = 0; k < 1000; k++) {
        char key[16];
        const size_t length = (size_t)sprintf(key, "key %d", k);
        IS(lockrun_key_of(&nodes, key, length, "", 0, &parent), LOCKRUN_OK);
        IS(parent >= 2 && parent < 2 + 100 * 50 && (parent - 2) % 50 == 0, 1);
        IS(lockrun_key_of(&nodes, "page", 4, key, length, &set), LOCKRUN_OK);
        IS(lockrun_key_of(&nodes, "page", 4, key, length, &again), LOCKRUN_OK);
        IS(set, again);
        IS(set > parent && set < parent + 50, 1);
        seen |= (uint32_t)1 << (parent - 2) / 50 % 32;
    }
    IS(seen, UINT32_MAX);
    IS(lockrun_lock(&nodes.caller[0], parent, LOCKRUN_INTENTION_WRITE, 0), LOCKRUN_GRANTED);
    IS(lockrun_lock(&nodes.caller[0], set, LOCKRUN_WRITE, 0), LOCKRUN_GRANTED);
    IS(lockrun_lock(&nodes.caller[1], parent, LOCKRUN_READ, 0), LOCKRUN_WITHDRAWN);
    IS(lockrun_drop(&nodes.caller[0], parent, 0, LOCKRUN_FOREVER), LOCKRUN_DROPPED);
    IS(nodes.caller[0].dropped, 2);
    lockrun_nodes_free(&nodes);
    IS(lockrun_nodes_open_keys(&nodes, text, strlen(text), 10, 1, 1 << 20), LOCKRUN_OK);
    IS(lockrun_key_of(&nodes, "k", 1, "", 0, &set), LOCKRUN_OK);
    IS(lockrun_key_of(&nodes, "k", 1, "p", 1, &set), LOCKRUN_BAD_ARGUMENT);
    lockrun_nodes_free(&nodes);
}

static lockrun_pool pool;

/* Takes a caller, leaves a lock and a wait behind, and gives it back. */
static void *come_and_go(void *argument) {
    lockrun_caller *caller = lockrun_take_caller(&pool, LONG);
    IS(caller != 0 && !caller->holds && !caller->waits, 1);
    (void)argument;
    if (!caller) return 0;
    IS(lockrun_lock(caller, 1, LOCKRUN_READ, LONG), LOCKRUN_GRANTED);
    uint32_t code = lockrun_ask(caller, 0, LOCKRUN_WRITE, 1);
    if (code != LOCKRUN_WAITS && code != LOCKRUN_WITHHELD) IS(code, LOCKRUN_GRANTED);
    IS(lockrun_give_caller(&pool, caller), LOCKRUN_OK);
    return 0;
}

/* More threads than callers wait for one; at the end nothing is held. */
static void pooled(void) {
    pthread_t threads[SLEEPERS];
    open_many(2, 2);
    IS(lockrun_pool_open(&pool, &nodes), LOCKRUN_OK);
    lockrun_caller *first = lockrun_take_caller(&pool, LOCKRUN_FOREVER), *second = lockrun_take_caller(&pool, 0);
    IS(first != 0 && second != 0 && first != second, 1);
    IS(lockrun_take_caller(&pool, 0) != 0, 0);
    IS(lockrun_take_caller(&pool, 5) != 0, 0);
    IS(lockrun_lock(first, 0, LOCKRUN_WRITE, 0), LOCKRUN_GRANTED);
    IS(lockrun_ask(second, 0, LOCKRUN_READ, 0), LOCKRUN_WAITS);
    for (int k = 0; k < SLEEPERS; k++) pthread_create(&threads[k], 0, come_and_go, 0);
    nap(20);
    IS(lockrun_give_caller(&pool, second), LOCKRUN_OK);
    IS(lockrun_give_caller(&pool, first), LOCKRUN_OK);
    for (int k = 0; k < SLEEPERS; k++) pthread_join(threads[k], 0);
    first = lockrun_take_caller(&pool, 0);
    IS(lockrun_lock(first, 0, LOCKRUN_WRITE, 100), LOCKRUN_GRANTED);
    IS(lockrun_lock(first, 1, LOCKRUN_WRITE, 100), LOCKRUN_GRANTED);
    IS(lockrun_give_caller(&pool, first), LOCKRUN_OK);
    lockrun_pool_free(&pool);
    lockrun_nodes_free(&nodes);
}

/* KiB of the process that are resident. */
static long resident(void) {
    long size = 0, pages = 0;
    FILE *file = fopen("/proc/self/statm", "r");
    if (!file) return 0;
    if (fscanf(file, "%ld %ld", &size, &pages) != 2) pages = 0;
    fclose(file);
    return pages * 4;
}

static void pairs(int count) {
    for (int k = 0; k < count; k++) {
        lockrun_caller *caller = &nodes.caller[k % 2];
        IS(lockrun_lock(caller, 0, LOCKRUN_WRITE, LOCKRUN_FOREVER), LOCKRUN_GRANTED);
        IS(lockrun_unlock(caller, 0, LOCKRUN_WRITE, LOCKRUN_FOREVER), LOCKRUN_UNLOCKED);
    }
}

/* The memory of nodes doesn't grow, and they have no journal. */
static void forgetting(void) {
    lockrun_journal journal = {0};
    open_many(2, 2);
    pairs(20000);
    const long before = resident();
    pairs(200000);
    const long more = resident() - before;
    if (more > 1024) IS(more, 0);
    IS(lockrun_nodes_finish(&nodes, &journal), LOCKRUN_FORGOTTEN);
    IS(journal.at != 0, 0);
}

/* What is wrong, in words. */
static void reasons(void) {
    const lockrun_new_set sets[] = {{(const uint8_t *)"d", 1, (const uint8_t *)"a", 1},
                                    {(const uint8_t *)"e", 1, (const uint8_t *)"d", 1},
                                    {(const uint8_t *)"9", 1, (const uint8_t *)"", 0},
                                    {(const uint8_t *)"c", 1, (const uint8_t *)"", 0},
                                    {(const uint8_t *)"f", 1, (const uint8_t *)"c", 1}};
    const char *text = "nodes 1\nset a\nclient c at 0\n";
    char said[200];
    IS(lockrun_why(text, strlen(text), said, sizeof said), LOCKRUN_OK);
    same(said, "done");
    IS(lockrun_why("nodes 0\n", 8, said, sizeof said), LOCKRUN_BAD_SCRIPT);
#ifndef LOCKRUN_STUB
    same(said, "line 1: S4: has a number that isn't 1 to 9 digits, or nodes that aren't there");
    IS(lockrun_why("version 2\nnodes 1\nset 9s\n", 25, said, sizeof said), LOCKRUN_BAD_SCRIPT);
    same(said, "line 3: S6: declares a word that is no name");
#endif
    IS(lockrun_why_sets(text, strlen(text), sets, 2, said, sizeof said), LOCKRUN_OK);
    IS(lockrun_why_sets(text, strlen(text), sets + 2, 1, said, sizeof said), LOCKRUN_BAD_SET);
    same(said, "set 0, 9: is no name");
    IS(lockrun_why_sets(text, strlen(text), sets + 3, 1, said, sizeof said), LOCKRUN_BAD_SET);
    same(said, "set 0, c: has the name of another one");
    IS(lockrun_why_sets(text, strlen(text), sets + 4, 1, said, sizeof said), LOCKRUN_BAD_SET);
    same(said, "set 0, f: has a parent that is no set before it");
    IS(lockrun_why_sets("nodes 0\n", 8, sets, 2, said, sizeof said), LOCKRUN_BAD_SCRIPT);
    same(lockrun_error(LOCKRUN_OK), "done");
    same(lockrun_error(LOCKRUN_BAD_SET), "a further set has no new name, or no such parent");
    same(lockrun_error(LOCKRUN_WITHDRAWN), "withdrawn");
    same(lockrun_error(LOCKRUN_WAITS), "the reply is still to come");
    same(lockrun_error(LOCKRUN_MISFIT), "a letter that fits no node of this text");
    same(lockrun_error(1000), "no code");
    same(lockrun_fault_words(11), "names a client of another node");
}

int main(void) {
    no_patience();
    sleeping(1);
    sleeping(NODES);
    by_descriptor();
    keys();
    pooled();
    forgetting();
    reasons();
    puts(bad ? "waiting: some answers are others" : "waiting: each answer is as it should be");
    return bad;
}
