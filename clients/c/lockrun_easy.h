/* lockrun_easy.h: calls that wait, over lockrun.h and lockrun_nodes.h. C11 with POSIX, and C++11; nothing of it is proved.
 *
 * No thread runs the nodes: whoever has something done turns those that have work by it, one thread at a time for each node, and
 * who waits sleeps after a moment until it is told. A caller is used by one thread at a time. A call waits at most `patience`
 * milliseconds, or for ever if that is LOCKRUN_FOREVER. With 0 it gives the nodes the turns that they take to answer, and doesn't
 * wait for other callers.
 *
 * Once the time of a lockrun_lock or a lockrun_change is over it gives up, and answers LOCKRUN_WITHDRAWN: then the caller
 * asks for nothing, and holds what it held. If the time of another call is over it answers LOCKRUN_WAITS: the command stays
 * asked for, and lockrun_wait goes on waiting for its reply, or lockrun_give_up gives it up. Until then each other call of
 * the caller answers LOCKRUN_WAITS and does nothing. So it is too after LOCKRUN_NO_MEMORY and LOCKRUN_LOG_FULL of a node.
 *
 * In a script of version 2, if its text says so, calls that would have to give up answer LOCKRUN_BAD_ARGUMENT and ask for
 * nothing.
 */
#ifndef LOCKRUN_EASY_H
#define LOCKRUN_EASY_H
#include "lockrun_waits.h"

/* How long a caller pauses at most before it asks again for what was withheld, in milliseconds. */
enum { LOCKRUN_LONGEST_PAUSE = 64 };

/* Waits for the reply to what the caller asked: a lockrun_reply, LOCKRUN_WAITS, or what keeps a node from going on. */
static inline uint32_t lockrun_wait(lockrun_caller *caller, int64_t patience) {
    LOCKRUN_UNSEEN_BEGIN;
    const uint32_t code = lockrun_wait_until(caller, lockrun_end_of(patience));
    LOCKRUN_UNSEEN_END;
    return lockrun_after(caller, code);
}

/* Submits a command and waits for its reply: a lockrun_reply, or the code of what kept it from being submitted. */
static inline uint32_t lockrun_call(lockrun_caller *caller, uint32_t kind, uint32_t set, uint32_t first, uint32_t second,
                                    int64_t patience) {
    if (caller->waits || caller->withdraws) return LOCKRUN_WAITS;
    lockrun_before(caller, kind, set);
    LOCKRUN_UNSEEN_BEGIN;
    lockrun_number_ask(caller);
    uint32_t code = lockrun_start(caller, kind, set, first, second);
    if (code == LOCKRUN_WAITS) code = lockrun_wait_until(caller, lockrun_end_of(patience));
    LOCKRUN_UNSEEN_END;
    return lockrun_after(caller, code);
}

/* Submits that it gives up what the caller asked for, and waits for the reply to that. */
static inline uint32_t lockrun_give_up_now(lockrun_caller *caller) {
    if (!caller->waits && !caller->withdraws) return LOCKRUN_NOTHING;
    if (!caller->withdraws) {
        uint32_t code = lockrun_submit(&caller->session, LOCKRUN_WITHDRAW, caller->set, caller->number, 0);
        if (code != LOCKRUN_OK) return code;
        lockrun_note_command(caller->nodes);
        lockrun_mark(caller->nodes, caller->home);
        caller->withdraws = 1;
    }
    return lockrun_wait_until(caller, LOCKRUN_FOREVER);
}

/* Gives up what the caller asked for and has no reply to: LOCKRUN_WITHDRAWN, or the reply that came first. LOCKRUN_NOTHING if
 * it asked for nothing. It waits for no other client. */
static inline uint32_t lockrun_give_up(lockrun_caller *caller) {
    LOCKRUN_UNSEEN_BEGIN;
    const uint32_t code = lockrun_give_up_now(caller);
    LOCKRUN_UNSEEN_END;
    return lockrun_after(caller, code);
}

/* Lets so many milliseconds go by, or the rest of its time, while it turns nodes that want it: LOCKRUN_OK, or what keeps a node
 * from going on. */
static inline uint32_t lockrun_pause(lockrun_caller *caller, int64_t pause, int64_t end) {
    const int64_t until = lockrun_earlier(end, lockrun_end_of(pause));
    uint64_t owed = lockrun_unturned(caller->nodes);
    for (int came = 0; !lockrun_is_over(until); owed = lockrun_doze(caller, until, &came)) {
        const uint32_t turned = lockrun_turn_owed(caller->nodes, caller, &owed);
        if (lockrun_is_fault(turned)) return lockrun_leave(caller, owed, turned);
    }
    return lockrun_leave(caller, owed, LOCKRUN_OK);
}

/* Whether a caller that is withheld in this set is chosen to give up; once it is time it looks for a ring by itself. */
static inline int lockrun_is_given_up(lockrun_caller *caller, uint32_t set, int64_t *look) {
    if (!caller->nodes->victims_after) return 0;
    if (!atomic_exchange(&caller->sleeper.withheld, (uint64_t)set + 1)) lockrun_note_command(caller->nodes);
    if (lockrun_is_over(*look)) {
        lockrun_look_for_ring(caller->nodes);
        *look = lockrun_next_look(caller->nodes);
    }
    return lockrun_was_victim(caller);
}

/* Asks again for what was withheld, since what the caller gave up before in the same set may still stand at another node, after
 * pauses that grow. */
static inline uint32_t lockrun_ask_again(lockrun_caller *caller, uint32_t kind, uint32_t set, uint32_t first, uint32_t second,
                                         int64_t end) {
    uint32_t code = LOCKRUN_WITHHELD;
    int64_t look = lockrun_next_look(caller->nodes);
    for (int64_t pause = 1; code == LOCKRUN_WITHHELD; pause = pause < LOCKRUN_LONGEST_PAUSE ? 2 * pause : pause) {
        if (lockrun_is_over(end) || lockrun_is_given_up(caller, set, &look)) return LOCKRUN_WITHDRAWN;
        code = lockrun_pause(caller, pause, end);
        if (code == LOCKRUN_OK) code = lockrun_start(caller, kind, set, first, second);
        if (code == LOCKRUN_WAITS) code = lockrun_wait_until(caller, end);
    }
    return code;
}

/* Asks for a lock or a change and gives up once the time is over. */
static inline uint32_t lockrun_call_within(lockrun_caller *caller, uint32_t kind, uint32_t set, uint32_t first,
                                           uint32_t second, int64_t patience) {
    if (caller->waits || caller->withdraws) return LOCKRUN_WAITS;
    if (patience >= 0 && !caller->nodes->gives_up) return LOCKRUN_BAD_ARGUMENT;
    lockrun_before(caller, kind, set);
    LOCKRUN_UNSEEN_BEGIN;
    lockrun_number_ask(caller);
    uint32_t code = lockrun_start(caller, kind, set, first, second);
    if (code == LOCKRUN_WAITS || code == LOCKRUN_WITHHELD) {
        const int64_t end = lockrun_end_of(patience);
        if (code == LOCKRUN_WAITS) code = lockrun_wait_until(caller, end);
        if (code == LOCKRUN_WITHHELD) code = lockrun_ask_again(caller, kind, set, first, second, end);
        if (caller->nodes->victims_after) atomic_store(&caller->sleeper.withheld, (uint64_t)0);
    }
    if (code == LOCKRUN_WAITS) code = lockrun_give_up_now(caller);
    LOCKRUN_UNSEEN_END;
    return lockrun_after(caller, code == LOCKRUN_WITHHELD ? (uint32_t)LOCKRUN_WITHDRAWN : code);
}

/* The number of the set with this name: LOCKRUN_OK or LOCKRUN_NOTHING. */
static inline uint32_t lockrun_find(lockrun_caller *caller, const char *name, uint32_t *set) {
    return lockrun_set(&caller->session, (const uint8_t *)name, strlen(name), set);
}

/* LOCKRUN_GRANTED; or LOCKRUN_WITHDRAWN, once the time is over or another client gave the wait up. With no patience it is granted
 * from any node where no other client has, or waits for, a lock that conflicts, and no thread is in another call. */
static inline uint32_t lockrun_lock(lockrun_caller *caller, uint32_t set, enum lockrun_mode mode, int64_t patience) {
    return lockrun_call_within(caller, LOCKRUN_LOCK, set, mode, 0, patience);
}

/* LOCKRUN_CHANGED or LOCKRUN_NOT_HELD; or LOCKRUN_WITHDRAWN, and then it holds the old mode. */
static inline uint32_t lockrun_change(lockrun_caller *caller, uint32_t set, enum lockrun_mode held, enum lockrun_mode mode,
                                      int64_t patience) {
    return lockrun_call_within(caller, LOCKRUN_CHANGE, set, held, mode, patience);
}

/* The same for a caller that goes on waiting: LOCKRUN_WAITS once the time is over. Only these may answer LOCKRUN_WITHHELD, on
 * several nodes: what the caller gave up before in this set still stands. */
static inline uint32_t lockrun_ask(lockrun_caller *caller, uint32_t set, enum lockrun_mode mode, int64_t patience) {
    return lockrun_call(caller, LOCKRUN_LOCK, set, mode, 0, patience);
}

static inline uint32_t lockrun_ask_change(lockrun_caller *caller, uint32_t set, enum lockrun_mode held,
                                          enum lockrun_mode mode, int64_t patience) {
    return lockrun_call(caller, LOCKRUN_CHANGE, set, held, mode, patience);
}

/* LOCKRUN_TRUE; or LOCKRUN_FALSE. It isn't exact: the node answers by what it has, and so it may be LOCKRUN_FALSE though nobody
 * holds the set, however often it is asked, on another node than the one that has the set's token. lockrun_lock with no patience
 * asks that one. */
static inline uint32_t lockrun_try(lockrun_caller *caller, uint32_t set, enum lockrun_mode mode, int64_t patience) {
    return lockrun_call(caller, LOCKRUN_TRY, set, mode, 0, patience);
}

/* LOCKRUN_UNLOCKED or LOCKRUN_NOT_HELD. */
static inline uint32_t lockrun_unlock(lockrun_caller *caller, uint32_t set, enum lockrun_mode mode, int64_t patience) {
    return lockrun_call(caller, LOCKRUN_UNLOCK, set, mode, 0, patience);
}

/* Drops the locks of a client of the same node in the set's family: LOCKRUN_DROPPED or LOCKRUN_BUSY. */
static inline uint32_t lockrun_drop(lockrun_caller *caller, uint32_t set, uint32_t whose, int64_t patience) {
    return lockrun_call(caller, LOCKRUN_DROP, set, whose, 0, patience);
}

/* Gives up what another client of the same node waits for in the set: LOCKRUN_TRUE, or LOCKRUN_FALSE if it waits for nothing
 * there. */
static inline uint32_t lockrun_withdraw(lockrun_caller *caller, uint32_t set, uint32_t whose, int64_t patience) {
    return lockrun_call(caller, LOCKRUN_WITHDRAW, set, whose, 0, patience);
}

/* Gives up what the caller waits for, and then drops all locks that it was granted, family by family: LOCKRUN_DROPPED, and
 * `dropped` says how many they were; or what kept it from that, and then it can be called again. */
static inline uint32_t lockrun_abort(lockrun_caller *caller) {
    uint32_t code = lockrun_give_up(caller);
    uint64_t all = 0;
    if (caller->waits || caller->withdraws) return code;
    while (caller->holds > 0) {
        code = lockrun_drop(caller, caller->held[caller->holds - 1].set, caller->number, LOCKRUN_FOREVER);
        if (code != LOCKRUN_DROPPED) return code;
        all += caller->dropped;
    }
    caller->dropped = all;
    return LOCKRUN_DROPPED;
}

/* A descriptor for event loops, of Linux (eventfd): from now on, when a call of this caller answers LOCKRUN_WAITS, it becomes
 * readable once the caller is to call lockrun_wait again, with no patience, since its reply is there or a node wants to be
 * turned. It is only waited for, and closed with the nodes. -1 if there is none. */
static inline int lockrun_fd(lockrun_caller *caller) {
#ifdef __linux__
    if (caller->sleeper.descriptor <= 0) caller->sleeper.descriptor = eventfd(0, EFD_NONBLOCK | EFD_CLOEXEC);
    return caller->sleeper.descriptor > 0 ? caller->sleeper.descriptor : -1;
#else
    (void)caller;
    return -1;
#endif
}
#endif
