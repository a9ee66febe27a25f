/* lockrun_notice.h: who has to look, and is woken: nodes that have work, and callers that sleep.
 *
 * Each node has a word, `work`, that says whether letters or commands came since it was turned last. It is a hint: a node may be
 * turned at any time, and a turn finds what there is. What matters is that none is forgotten, and that nobody sleeps for ever:
 *
 * 1. Who puts a letter or a command into a ring marks the node after that, and then tries to turn it. Who turns a node takes
 *    its mark away before it looks into the rings. So either the turn sees what was put, or the mark stays.
 * 2. Who finds that another thread has the station leaves it to that one, which looks at the mark again after it let go of the
 *    station: either the first one's try comes after that, and it gets the station, or the mark is seen.
 * 3. A thread that stops while it knows of a node with work hands it on (lockrun_hand_on): it wakes one who sleeps. If nobody
 *    sleeps, nobody waits who doesn't look at the marks himself before he sleeps.
 * 4. A caller that goes to sleep sets its word `told` to 0, then its bit in `asleep`, then looks for its reply and at all marks
 *    once more, and then sleeps while the word is 0. Who told it a reply, or hands work on, has put that there before; then it
 *    sets the word, and then looks at the bit. All orders are sequentially consistent, so either it sees the bit, or the
 *    sleeper, which set it before it looked, sees what was put there. In the first case it takes the bit away, which one
 *    thread alone can, and wakes the sleeper; where that one isn't asleep yet, its word isn't 0 any more, and it doesn't
 *    fall asleep.
 * 5. Who comes out of sleep, also because its time is over, takes its bit away and looks at all marks: so work that was handed to
 *    it isn't lost.
 *    On one node nobody is told by who makes turns while nobody sleeps; it looks at the bits after them, and wakes all whose bit
 *    is set then.
 * 6. A letter may find its ring full (64 letters of one node to another that weren't taken). Then it waits at its node, and
 *    goes in a turn after some were taken, for which nobody marks the node. So all nodes are marked after a long batch of
 *    turns, and by who has slept for a quarter of a second.
 */
#ifndef LOCKRUN_NOTICE_H
#define LOCKRUN_NOTICE_H
#include "lockrun_state.h"
#ifdef __linux__
#include <sys/eventfd.h>
#include <unistd.h>
#endif

static inline uint64_t lockrun_bit(size_t place) { return (uint64_t)1 << place % 64; }

static inline unsigned lockrun_lowest(uint64_t bits) { return (unsigned)__builtin_ctzll(bits); }

/* Says that letters or commands came for a node. */
static inline void lockrun_mark(lockrun_nodes *nodes, size_t place) {
    lockrun_word *work = &nodes->node[place].work;
    if (!lockrun_get(work)) lockrun_put(work, 1);
}

static inline void lockrun_mark_all(lockrun_nodes *nodes, uint64_t bits) {
    for (; bits; bits &= bits - 1) lockrun_mark(nodes, lockrun_lowest(bits));
}

/* The nodes that have work and that no thread is turning. */
static inline uint64_t lockrun_unturned(lockrun_nodes *nodes) {
    uint64_t bits = 0;
    for (size_t k = 0; k < nodes->count; k++)
        if (lockrun_get(&nodes->node[k].work) && !lockrun_get(&nodes->node[k].busy)) bits |= lockrun_bit(k);
    return bits;
}

/* Whether no node has work and no thread turns one. */
static inline int lockrun_is_settled(lockrun_nodes *nodes) {
    for (size_t k = 0; k < nodes->count; k++)
        if (lockrun_get(&nodes->node[k].work) || lockrun_get(&nodes->node[k].busy)) return 0;
    return 1;
}

/* Wakes a caller whose bit this thread took away. */
static inline void lockrun_wake(lockrun_caller *caller) {
    lockrun_put(&caller->sleeper.told.word, 1);
#ifdef __linux__
    if (lockrun_get(&caller->sleeper.watched)) {
        const uint64_t one = 1;
        ssize_t written = write(caller->sleeper.descriptor, &one, sizeof one);
        (void)written; /* where it has no place it is readable already */
        return;
    }
#endif
    lockrun_wake_on(&caller->sleeper.told, 0);
}

/* Tells a caller that a reply to it came, and wakes it if it sleeps. */
static inline void lockrun_notify(lockrun_nodes *nodes, size_t client) {
    lockrun_caller *caller = &nodes->caller[client];
    lockrun_row *row = &nodes->asleep[client / 64];
    lockrun_put(&caller->sleeper.told.word, 1);
    if (!(atomic_load(row) & lockrun_bit(client))) return;
    if (atomic_fetch_and(row, ~lockrun_bit(client)) & lockrun_bit(client)) lockrun_wake(caller);
}

/* Tells all these clients but one. */
static inline void lockrun_notify_all(lockrun_nodes *nodes, const lockrun_clients *told, const lockrun_caller *own) {
    for (size_t k = 0; k < nodes->rows; k++) {
        uint64_t bits = told->bits[k];
        if (own && own->number / 64 == k) bits &= ~lockrun_bit(own->number);
        for (; bits; bits &= bits - 1) {
            const size_t client = 64 * k + lockrun_lowest(bits);
            if (client < nodes->callers) lockrun_notify(nodes, client);
        }
    }
}

static inline int lockrun_is_anyone_asleep(lockrun_nodes *nodes) {
    for (size_t k = 0; k < nodes->rows; k++)
        if (atomic_load(&nodes->asleep[k])) return 1;
    return 0;
}

/* Tells all who sleep by now, after turns that told of nobody, which were made while nobody slept. Both this and who lies down
 * change the row, this one to what it is: who came before is woken, and who comes later sees what was put there before this. Who
 * is awake finds its reply before it sleeps. */
static inline void lockrun_notify_sleepers(lockrun_nodes *nodes) {
    for (size_t k = 0; k < nodes->rows; k++)
        for (uint64_t bits = atomic_fetch_or(&nodes->asleep[k], (uint64_t)0); bits; bits &= bits - 1)
            lockrun_notify(nodes, 64 * k + lockrun_lowest(bits));
}

/* Wakes one caller of this row that sleeps, in a call or, if there is none of these, at its descriptor: whether there was one. */
static inline int lockrun_wake_of(lockrun_nodes *nodes, size_t row, uint32_t watched) {
    for (uint64_t bits = atomic_load(&nodes->asleep[row]); bits; bits &= bits - 1) {
        const uint64_t bit = bits & (~bits + 1);
        lockrun_caller *caller = &nodes->caller[64 * row + lockrun_lowest(bits)];
        if (lockrun_get(&caller->sleeper.watched) != watched) continue;
        if (!(atomic_fetch_and(&nodes->asleep[row], ~bit) & bit)) continue;
        lockrun_wake(caller);
        return 1;
    }
    return 0;
}

/* Wakes one who sleeps, so that it turns the nodes that have work. */
static inline void lockrun_hand_on(lockrun_nodes *nodes) {
    for (uint32_t watched = 0; watched < 2; watched++)
        for (size_t k = 0; k < nodes->rows; k++)
            if (lockrun_wake_of(nodes, k, watched)) return;
}

/* The caller's bit is set: from now on it is woken. */
static inline void lockrun_lie_down(lockrun_caller *caller) {
    lockrun_put(&caller->sleeper.told.word, 0);
    atomic_fetch_or(&caller->nodes->asleep[caller->number / 64], lockrun_bit(caller->number));
}

static inline void lockrun_get_up(lockrun_caller *caller) {
    atomic_fetch_and(&caller->nodes->asleep[caller->number / 64], ~lockrun_bit(caller->number));
}
#endif
