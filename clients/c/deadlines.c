/* Calls that give up, by lockrun_easy.h: each of their answers; a ring of three callers that is broken by the time of one;
 * and callers on threads with random times on few sets, of whom no two hold locks that conflict, and none is left waiting.
 *
 * usage: deadlines NODES [SCRIPT JOURNAL]: the ring and the threads on so many nodes. It writes the script of what the threads
 * asked, and the journal, into these files. The status is 0 if each answer is as it should be. */
#define _POSIX_C_SOURCE 200809L
#include "lockrun_easy.h"
#include <pthread.h>
#include <stdio.h>

enum { SETS = 3, CALLERS = 6, ROUNDS = 40, LONGEST = 4, RING = 3, SHORT = 30, LONG = 60000 };

static atomic_int bad;
static lockrun_nodes nodes;

#define IS(call, wanted) is(#call, __LINE__, call, wanted)

static void is(const char *call, int line, uint64_t got, uint64_t wanted) {
    if (got == wanted) return;
    printf("deadlines.c:%d: %s is %llu and not %llu\n", line, call, (unsigned long long)got, (unsigned long long)wanted);
    bad = 1;
}

static void open_nodes(const char *text) {
    IS(lockrun_nodes_open(&nodes, text, strlen(text), 1 << 20 | LOCKRUN_KEEP), LOCKRUN_OK);
}

/* All that was submitted has its reply, and nothing is held or waits at the end. */
static void finish(lockrun_journal *journal) {
    size_t submitted = 1, polled = 0, held = 1, waiting = 1;
    IS(lockrun_nodes_served(&nodes, &submitted, &polled), LOCKRUN_OK);
    IS(polled, submitted);
    IS(lockrun_nodes_finish(&nodes, journal), LOCKRUN_OK);
    IS(lockrun_end(journal, &held, &waiting), LOCKRUN_OK);
    IS(held + waiting, 0);
}

static void end(void) {
    lockrun_journal journal = {0};
    finish(&journal);
    lockrun_free(&journal);
}

/* On one node: a lock, and a change, that aren't granted in time; who gives up asks for nothing, and holds what it held. */
static void in_time(void) {
    open_nodes("nodes 1\nset a\nset b\nclient c at 0\nclient d at 0\n");
    lockrun_caller *first = &nodes.caller[0], *second = &nodes.caller[1];
    IS(lockrun_lock(first, 0, LOCKRUN_WRITE, 0), LOCKRUN_GRANTED);
    IS(lockrun_lock(second, 1, LOCKRUN_READ, 5), LOCKRUN_GRANTED);
    for (int k = 0; k < 3; k++) IS(lockrun_lock(second, 0, k ? LOCKRUN_READ : LOCKRUN_WRITE, k), LOCKRUN_WITHDRAWN);
    IS(lockrun_wait(second, 0), LOCKRUN_NOTHING);
    IS(lockrun_give_up(second), LOCKRUN_NOTHING);
    IS(lockrun_unlock(second, 0, LOCKRUN_READ, LOCKRUN_FOREVER), LOCKRUN_NOT_HELD);
    IS(lockrun_change(first, 0, LOCKRUN_WRITE, LOCKRUN_READ, 5), LOCKRUN_CHANGED);
    IS(lockrun_lock(second, 0, LOCKRUN_READ, 5), LOCKRUN_GRANTED);
    IS(lockrun_change(second, 0, LOCKRUN_READ, LOCKRUN_WRITE, 5), LOCKRUN_WITHDRAWN);
    IS(lockrun_change(second, 0, LOCKRUN_UPGRADE, LOCKRUN_WRITE, 5), LOCKRUN_NOT_HELD);
    IS(lockrun_unlock(first, 0, LOCKRUN_READ, LOCKRUN_FOREVER), LOCKRUN_UNLOCKED);
    IS(lockrun_change(second, 0, LOCKRUN_READ, LOCKRUN_WRITE, 5), LOCKRUN_CHANGED);
    IS(lockrun_abort(second), LOCKRUN_DROPPED);
    IS(second->dropped, 2);
    IS(lockrun_abort(second), LOCKRUN_DROPPED);
    IS(second->dropped, 0);
    end();
}

/* Who asked, and goes on waiting, gives up when it likes; or a neighbour gives it up. */
static void by_others(void) {
    open_nodes("nodes 1\nset a\nset b with a\nset e\nclient c at 0\nclient d at 0\n");
    lockrun_caller *first = &nodes.caller[0], *second = &nodes.caller[1];
    IS(lockrun_try(first, 1, LOCKRUN_WRITE, LOCKRUN_FOREVER), LOCKRUN_TRUE);
    IS(lockrun_lock(first, 2, LOCKRUN_WRITE, LOCKRUN_FOREVER), LOCKRUN_GRANTED);
    IS(lockrun_lock(second, 0, LOCKRUN_READ, LOCKRUN_FOREVER), LOCKRUN_GRANTED);
    IS(lockrun_ask(second, 1, LOCKRUN_READ, 0), LOCKRUN_WAITS);
    IS(lockrun_lock(second, 1, LOCKRUN_READ, 0), LOCKRUN_WAITS);
    IS(lockrun_drop(first, 0, 1, LOCKRUN_FOREVER), LOCKRUN_BUSY);
    IS(lockrun_give_up(second), LOCKRUN_WITHDRAWN);
    IS(lockrun_ask_change(second, 0, LOCKRUN_READ, LOCKRUN_WRITE, 0), LOCKRUN_CHANGED);
    IS(lockrun_ask(second, 1, LOCKRUN_READ, 0), LOCKRUN_WAITS);
    IS(lockrun_withdraw(first, 0, 1, LOCKRUN_FOREVER), LOCKRUN_FALSE);
    IS(lockrun_withdraw(first, 1, 1, LOCKRUN_FOREVER), LOCKRUN_TRUE);
    IS(lockrun_withdraw(first, 1, 2, LOCKRUN_FOREVER), LOCKRUN_BAD_ARGUMENT);
    IS(lockrun_wait(second, LOCKRUN_FOREVER), LOCKRUN_WITHDRAWN);
    IS(lockrun_drop(first, 0, 1, LOCKRUN_FOREVER), LOCKRUN_DROPPED);
    IS(lockrun_ask(second, 1, LOCKRUN_READ, 0), LOCKRUN_WAITS);
    IS(lockrun_unlock(first, 1, LOCKRUN_WRITE, LOCKRUN_FOREVER), LOCKRUN_UNLOCKED);
    IS(lockrun_give_up(second), LOCKRUN_GRANTED);
    IS(lockrun_ask(second, 2, LOCKRUN_READ, 0), LOCKRUN_WAITS);
    IS(lockrun_abort(second), LOCKRUN_DROPPED);
    IS(second->dropped, 1);
    IS(lockrun_abort(first), LOCKRUN_DROPPED);
    IS(first->dropped, 1);
    end();
}

/* On two nodes: what was given up stands at the other node until it is answered there, and may be taken up again. No time is
 * over too early. */
static void apart(void) {
    open_nodes("nodes 2\nset a\nclient c at 0\nclient d at 1\n");
    lockrun_caller *first = &nodes.caller[0], *second = &nodes.caller[1];
    IS(lockrun_lock(first, 0, LOCKRUN_WRITE, LOCKRUN_FOREVER), LOCKRUN_GRANTED);
    IS(lockrun_lock(second, 0, LOCKRUN_WRITE, 5), LOCKRUN_WITHDRAWN);
    IS(lockrun_ask(second, 0, LOCKRUN_READ, 5), LOCKRUN_WITHHELD);
    int64_t begin = lockrun_now();
    IS(lockrun_lock(second, 0, LOCKRUN_READ, 5), LOCKRUN_WITHDRAWN);
    IS(lockrun_lock(second, 0, LOCKRUN_WRITE, 5), LOCKRUN_WITHDRAWN);
    IS(lockrun_now() - begin >= 10 * 1000000, 1);
    IS(lockrun_ask(second, 0, LOCKRUN_WRITE, 5), LOCKRUN_WAITS);
    IS(lockrun_unlock(first, 0, LOCKRUN_WRITE, LOCKRUN_FOREVER), LOCKRUN_UNLOCKED);
    IS(lockrun_wait(second, LOCKRUN_FOREVER), LOCKRUN_GRANTED);
    IS(lockrun_lock(first, 0, LOCKRUN_READ, 5), LOCKRUN_WITHDRAWN);
    IS(lockrun_unlock(second, 0, LOCKRUN_WRITE, LOCKRUN_FOREVER), LOCKRUN_UNLOCKED);
    IS(lockrun_lock(first, 0, LOCKRUN_WRITE, LONG), LOCKRUN_GRANTED);
    IS(lockrun_unlock(first, 0, LOCKRUN_WRITE, LOCKRUN_FOREVER), LOCKRUN_UNLOCKED);
    end();
}

/* In a script of version 2 nothing is given up, so that nothing is asked for in so much time. */
static void in_another_version(void) {
    open_nodes("# old\n\n version  2\nnodes 1\nset a\nclient c at 0\nclient d at 0\n");
    lockrun_caller *first = &nodes.caller[0], *second = &nodes.caller[1];
    IS(lockrun_lock(first, 0, LOCKRUN_READ_INTENTION_WRITE, LOCKRUN_FOREVER), LOCKRUN_GRANTED);
    IS(lockrun_lock(second, 0, LOCKRUN_READ, 5), LOCKRUN_BAD_ARGUMENT);
    IS(lockrun_wait(second, 0), LOCKRUN_NOTHING);
    IS(lockrun_ask(second, 0, LOCKRUN_WRITE, 5), LOCKRUN_WAITS);
    IS(lockrun_give_up(second), LOCKRUN_BAD_ARGUMENT);
    IS(lockrun_abort(second), LOCKRUN_BAD_ARGUMENT);
    IS(lockrun_abort(first), LOCKRUN_DROPPED);
    IS(lockrun_wait(second, LOCKRUN_FOREVER), LOCKRUN_GRANTED);
    IS(lockrun_abort(second), LOCKRUN_DROPPED);
    end();
}

/* Nodes, sets, and so many clients, one after the other on each node. */
static void open_many(int count, int clients) {
    char text[1024];
    int length = sprintf(text, "version 3\nnodes %d\n", count);
    for (int k = 0; k < SETS; k++) length += sprintf(text + length, "set s%d\n", k);
    for (int k = 0; k < clients; k++) length += sprintf(text + length, "client c%d at %d\n", k, k % count);
    open_nodes(text);
}

static void run_all(void *(*call)(void *), int count) {
    pthread_t threads[CALLERS];
    for (int k = 0; k < count; k++) pthread_create(&threads[k], 0, call, &nodes.caller[k]);
    for (int k = 0; k < count; k++) pthread_join(threads[k], 0);
}

/* How many callers of the ring have their first lock. */
static atomic_int first_locks;

/* Each locks a set, and then that of the next one. The first one loses its patience, and drops what it has. The others have
 * as much of it as can be written. */
static void *call_in_ring(void *argument) {
    lockrun_caller *caller = argument;
    uint32_t own = lockrun_client(&caller->session), next = (own + 1) % RING;
    IS(lockrun_lock(caller, own, LOCKRUN_WRITE, LONG), LOCKRUN_GRANTED);
    first_locks++;
    while (first_locks < RING) lockrun_help(&nodes);
    uint32_t code = lockrun_lock(caller, next, LOCKRUN_WRITE, own ? INT64_MAX : SHORT);
    IS(code, own ? LOCKRUN_GRANTED : LOCKRUN_WITHDRAWN);
    IS(lockrun_abort(caller), LOCKRUN_DROPPED);
    IS(caller->dropped, own ? 2 : 1);
    return 0;
}

static void ring(int count) {
    open_many(count, RING);
    first_locks = 0;
    run_all(call_in_ring, RING);
    end();
}

/* Who holds each set by now, as the callers see it: 1 for a reader, and many for a writer. */
enum { WRITER = 1000 };
static atomic_int holders[SETS];
static atomic_int granted, given_up, begun;

static unsigned draw(unsigned *seed, unsigned below) {
    *seed = *seed * 1103515245 + 12345;
    return (*seed >> 16) % below;
}

static int weight(enum lockrun_mode mode) { return mode == LOCKRUN_WRITE ? WRITER : 1; }

/* The caller has the lock: no other has one that conflicts. */
static void enter(uint32_t set, enum lockrun_mode mode) {
    int before = atomic_fetch_add(&holders[set], weight(mode));
    if (mode == LOCKRUN_WRITE ? before != 0 : before >= WRITER) IS(before, 0);
    granted++;
}

static void leave(uint32_t set, enum lockrun_mode mode) { atomic_fetch_sub(&holders[set], weight(mode)); }

/* Whether the lock was granted in this time. */
static int has_in_time(lockrun_caller *caller, uint32_t set, enum lockrun_mode mode, int64_t patience) {
    uint32_t code = lockrun_lock(caller, set, mode, patience);
    if (code == LOCKRUN_GRANTED) { enter(set, mode); return 1; }
    IS(code, LOCKRUN_WITHDRAWN);
    IS(lockrun_wait(caller, 0), LOCKRUN_NOTHING);
    given_up++;
    return 0;
}

/* A reader becomes a writer, if it can in this time. */
static enum lockrun_mode raise(lockrun_caller *caller, uint32_t set, enum lockrun_mode mode, int64_t patience) {
    if (mode == LOCKRUN_WRITE) return mode;
    uint32_t code = lockrun_change(caller, set, mode, LOCKRUN_WRITE, patience);
    if (code == LOCKRUN_CHANGED) { leave(set, mode); enter(set, LOCKRUN_WRITE); return LOCKRUN_WRITE; }
    IS(code, LOCKRUN_WITHDRAWN);
    given_up++;
    return mode;
}

/* A lock, a change of it, and a second lock in another set, in any order of sets: each in some time. */
static void *call(void *argument) {
    lockrun_caller *caller = argument;
    unsigned seed = 77 + lockrun_client(&caller->session);
    begun++;
    while (begun < CALLERS) sched_yield();
    for (int k = 0; k < ROUNDS; k++) {
        uint32_t set = draw(&seed, SETS), other = (set + 1 + draw(&seed, SETS - 1)) % SETS;
        enum lockrun_mode mode = draw(&seed, 2) ? LOCKRUN_WRITE : LOCKRUN_READ;
        if (!has_in_time(caller, set, mode, draw(&seed, LONGEST))) continue;
        if (draw(&seed, 2)) mode = raise(caller, set, mode, draw(&seed, LONGEST));
        int both = has_in_time(caller, other, LOCKRUN_WRITE, draw(&seed, LONGEST));
        sched_yield();
        leave(set, mode);
        if (both) leave(other, LOCKRUN_WRITE);
        if (draw(&seed, 2)) {
            IS(lockrun_abort(caller), LOCKRUN_DROPPED);
            IS(caller->dropped, 1 + both);
        } else {
            if (both) IS(lockrun_unlock(caller, other, LOCKRUN_WRITE, LOCKRUN_FOREVER), LOCKRUN_UNLOCKED);
            IS(lockrun_unlock(caller, set, mode, LOCKRUN_FOREVER), LOCKRUN_UNLOCKED);
        }
    }
    return 0;
}

static void write_text(const char *name, lockrun_journal *journal,
                       size_t (*copy)(lockrun_journal *, size_t, uint8_t *, size_t)) {
    uint8_t part[4096];
    size_t from = 0, count;
    FILE *file = name ? fopen(name, "wb") : 0;
    if (!file) return;
    while ((count = copy(journal, from, part, sizeof part)) > 0) {
        fwrite(part, 1, count, file);
        from += count;
    }
    if (fclose(file)) bad = 1;
}

/* At the end each set is free for each caller. */
static void threads(int count, const char *script, const char *of_moves) {
    lockrun_journal journal = {0};
    open_many(count, CALLERS);
    run_all(call, CALLERS);
    for (int k = 0; k < CALLERS * SETS; k++) {
        lockrun_caller *caller = &nodes.caller[k % CALLERS];
        IS(lockrun_lock(caller, k / CALLERS, LOCKRUN_WRITE, LONG), LOCKRUN_GRANTED);
        IS(lockrun_unlock(caller, k / CALLERS, LOCKRUN_WRITE, LOCKRUN_FOREVER), LOCKRUN_UNLOCKED);
    }
    finish(&journal);
    write_text(script, &journal, lockrun_script);
    write_text(of_moves, &journal, lockrun_copy);
    lockrun_free(&journal);
    IS(granted > 0, 1);
}

int main(int count, char **words) {
    if (count != 2 && count != 4) { fputs("usage: deadlines NODES [SCRIPT JOURNAL]\n", stderr); return 1; }
    in_time();
    by_others();
    apart();
    in_another_version();
    ring(atoi(words[1]));
    threads(atoi(words[1]), count == 4 ? words[2] : 0, count == 4 ? words[3] : 0);
    printf("deadlines: %d granted, %d given up; %s\n", granted, given_up, bad ? "some answers are others" : "as it should be");
    return bad;
}
