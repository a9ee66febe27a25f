/* lockrun_victims.h: a policy for those who wait in a ring. By default there is none: who waits in a ring waits until its time is
 * over. With lockrun_victims somebody who has waited for so long looks for a ring, and the youngest client of it, which is the one
 * that asked last, gives up what it asks: its call answers LOCKRUN_WITHDRAWN, and lockrun_was_victim says why.
 *
 * Who looks takes all nodes for a moment, and lets them make turns until all rest; only then it looks for a ring. The client that is
 * chosen has the number of its ask written to `victim` meanwhile, so that no later ask is given up for it, and gives up by itself: in
 * its call, or, if it is in none, in the next lockrun_wait, for which its descriptor is readable.
 */
#ifndef LOCKRUN_VICTIMS_H
#define LOCKRUN_VICTIMS_H
#include "lockrun_rings.h"

/* Who waits for longer than so many milliseconds looks for a ring, again and again, and the youngest of it gives up; negative: nobody
 * does. It is said while no caller asks for anything: LOCKRUN_OK, or LOCKRUN_BAD_ARGUMENT in a script of version 2, which can give
 * nothing up. */
static inline uint32_t lockrun_victims(lockrun_nodes *nodes, int64_t after) {
    if (after >= 0 && !nodes->gives_up) return LOCKRUN_BAD_ARGUMENT;
    nodes->victims_after = after < 0 ? 0 : after == 0 ? 1 : after < INT64_MAX / 1000000 ? after * 1000000 : INT64_MAX / 2;
    return LOCKRUN_OK;
}

/* Gives what the caller is about to ask a number, if asks are numbered: a later one has a greater number. */
static inline void lockrun_number_ask(lockrun_caller *caller) {
    if (caller->nodes->victims_after) atomic_store(&caller->sleeper.ask, atomic_fetch_add(&caller->nodes->asks, (uint64_t)1) + 1);
}

/* Whether what the caller asked last was chosen to be given up. After LOCKRUN_WITHDRAWN it was given up for that. */
static inline int lockrun_was_victim(const lockrun_caller *caller) {
    const uint64_t victim = atomic_load(&caller->sleeper.victim);
    return victim && victim == atomic_load(&caller->sleeper.ask);
}

/* Whether the caller is to give up what it asks and hasn't begun to. */
static inline int lockrun_is_to_give_up(const lockrun_caller *caller) {
    return caller->nodes->victims_after && caller->waits && !caller->withdraws && lockrun_was_victim(caller);
}

/* A command was submitted: without one no ring comes to be among nodes that rest. */
static inline void lockrun_note_command(lockrun_nodes *nodes) {
    if (nodes->victims_after) atomic_fetch_add(&nodes->done, (uint64_t)1);
}

/* Submits that it gives up: the node that has work by it. Where its commands are used up it goes on waiting. */
static inline uint64_t lockrun_be_victim(lockrun_caller *caller) {
    const uint32_t code = lockrun_submit(&caller->session, LOCKRUN_WITHDRAW, caller->set, caller->number, 0);
    if (code != LOCKRUN_OK) {
        atomic_store(&caller->sleeper.victim, (uint64_t)0);
        return 0;
    }
    caller->withdraws = 1;
    lockrun_note_command(caller->nodes);
    lockrun_mark(caller->nodes, caller->home);
    return lockrun_bit(caller->home);
}

/* Of a ring the one that asked last is chosen, and told, unless one of them was before: the nodes are this thread's. */
static inline void lockrun_choose(lockrun_nodes *nodes, const uint32_t *ring, size_t length) {
    lockrun_caller *youngest = &nodes->caller[ring[0]];
    for (size_t k = 0; k < length; k++) {
        lockrun_caller *caller = &nodes->caller[ring[k]];
        if (lockrun_was_victim(caller)) return;
        if (atomic_load(&caller->sleeper.ask) > atomic_load(&youngest->sleeper.ask)) youngest = caller;
    }
    atomic_store(&youngest->sleeper.victim, atomic_load(&youngest->sleeper.ask));
    lockrun_notify(nodes, youngest->number);
}

/* When a waiter looks for a ring next. */
static inline int64_t lockrun_next_look(const lockrun_nodes *nodes) {
    return nodes->victims_after ? lockrun_now() + nodes->victims_after : (int64_t)LOCKRUN_FOREVER;
}

/* Looks for a ring, unless somebody did it just now, or found none and no command was submitted since. */
static inline void lockrun_look_for_ring(lockrun_nodes *nodes) {
    uint32_t ring[LOCKRUN_MOST_CLIENTS];
    size_t length = 0;
    const int64_t now = lockrun_now();
    const uint64_t done = atomic_load(&nodes->done);
    if (done == atomic_load(&nodes->seen)) return;
    if (now - (int64_t)atomic_load(&nodes->looked) < nodes->victims_after / 2) return;
    atomic_store(&nodes->looked, (uint64_t)now);
    lockrun_keep_all(nodes);
    int rests = 0;
    for (unsigned round = 0; !rests && round < LOCKRUN_ROUNDS; round++) rests = lockrun_all_find_nothing(nodes);
    if (rests && lockrun_find_ring(nodes, ring, &length) == LOCKRUN_OK) lockrun_choose(nodes, ring, length);
    else if (rests) atomic_store(&nodes->seen, done);
    lockrun_return_all(nodes);
}
#endif
