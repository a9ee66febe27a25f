/* lockrun_waits.h: how a caller waits for its reply (lockrun_notice.h says why none waits for ever by mistake). */
#ifndef LOCKRUN_WAITS_H
#define LOCKRUN_WAITS_H
#include "lockrun_held.h"
#include "lockrun_nodes.h"
#include "lockrun_victims.h"

enum { LOCKRUN_WAITS = 32 };

/* How often a caller looks at its word before it sleeps; how often it looks at nodes that others turn, once its time is over,
 * and after how many of these it yields; and how long it sleeps at most before it marks all nodes, in milliseconds. */
enum { LOCKRUN_SPINS = 100, LOCKRUN_LOOKS = 200, LOCKRUN_HASTE = 10, LOCKRUN_WATCH = 250 };

/* Takes the replies that are there, at most those that are to come: whether these were all. */
static inline int lockrun_take_reply(lockrun_caller *caller) {
    for (uint32_t code; (code = lockrun_poll(&caller->session, &caller->dropped)) != LOCKRUN_NOTHING;) {
        if (code == LOCKRUN_WRONG_HANDLE) return 0;
        if (caller->waits) {
            caller->waits = 0;
            caller->answer = code;
            lockrun_keep(caller, code);
        } else {
            caller->withdraws = 0;
        }
        if (!caller->withdraws) return 1;
    }
    return 0;
}

/* Looks for a moment whether something was told. */
static inline int lockrun_is_told(lockrun_caller *caller) {
    for (unsigned k = 0; k < LOCKRUN_SPINS; k++) {
        if (lockrun_get(&caller->sleeper.told.word)) {
            lockrun_put(&caller->sleeper.told.word, 0);
            return 1;
        }
        lockrun_rest_moment();
    }
    return 0;
}

/* Sleeps until it is woken or the time is over, unless a reply is there, it is to give up or a node has work by now: `came` says
 * whether the reply is there. The nodes that have work then. */
static inline uint64_t lockrun_doze(lockrun_caller *caller, int64_t end, int *came) {
    lockrun_nodes *nodes = caller->nodes;
    lockrun_lie_down(caller);
    *came = lockrun_take_reply(caller);
    uint64_t owed = *came ? 0 : lockrun_unturned(nodes);
    if (!*came && !owed && !lockrun_is_to_give_up(caller)) {
        const int64_t watch = lockrun_now() + (int64_t)LOCKRUN_WATCH * 1000000;
        lockrun_sleep_on(&caller->sleeper.told, 0, lockrun_earlier(end, watch));
        if (lockrun_is_over(watch)) lockrun_mark_all(nodes, nodes->all);
    }
    lockrun_get_up(caller);
    return lockrun_unturned(nodes);
}

/* A caller whose time is over leaves, once no node has work or is turned: what is under way may be its reply. But it doesn't look
 * for ever. */
static inline int lockrun_may_leave(lockrun_caller *caller, int64_t end, unsigned looks) {
    if (!lockrun_is_over(end)) return 0;
    if (lockrun_is_settled(caller->nodes) || looks >= LOCKRUN_LOOKS) return 1;
    if (looks >= LOCKRUN_HASTE) sched_yield();
    return 0;
}

/* Its descriptor isn't readable any more, and nobody makes it so. */
static inline void lockrun_watch_no_more(lockrun_caller *caller) {
    if (!lockrun_get(&caller->sleeper.watched)) return;
#ifdef __linux__
    uint64_t count;
    lockrun_get_up(caller);
    lockrun_put(&caller->sleeper.watched, 0);
    ssize_t size = read(caller->sleeper.descriptor, &count, sizeof count);
    (void)size; /* where nothing is there it doesn't wait */
#endif
}

/* From now on its descriptor, if it has one, is readable when it is to look again. LOCKRUN_WAITS, or the reply. */
static inline uint32_t lockrun_watch(lockrun_caller *caller) {
    if (caller->sleeper.descriptor <= 0) return LOCKRUN_WAITS;
    lockrun_put(&caller->sleeper.watched, 1);
    lockrun_lie_down(caller);
    if (lockrun_take_reply(caller)) {
        lockrun_watch_no_more(caller);
        return caller->answer;
    }
    if (lockrun_is_to_give_up(caller)) lockrun_notify(caller->nodes, caller->number);
    if (lockrun_unturned(caller->nodes)) lockrun_hand_on(caller->nodes);
    return LOCKRUN_WAITS;
}

/* Hands on what it didn't come to, and leaves with this answer. */
static inline uint32_t lockrun_leave(lockrun_caller *caller, uint64_t owed, uint32_t code) {
    if (owed) lockrun_hand_on(caller->nodes);
    return code;
}

/* Waits for the reply to what the caller asked, until the time is over. */
static inline uint32_t lockrun_wait_until(lockrun_caller *caller, int64_t end) {
    if (!caller->waits && !caller->withdraws) return LOCKRUN_NOTHING;
    lockrun_nodes *nodes = caller->nodes;
    lockrun_watch_no_more(caller);
    if (lockrun_take_reply(caller)) return caller->answer;
    uint64_t owed = lockrun_unturned(nodes);
    int64_t look = lockrun_next_look(nodes);
    int came = 0;
    for (unsigned looks = 0;; looks++) {
        if (lockrun_is_to_give_up(caller)) owed |= lockrun_be_victim(caller);
        const uint32_t turned = lockrun_turn_owed(nodes, caller, &owed);
        if (came || lockrun_take_reply(caller)) return lockrun_leave(caller, owed, caller->answer);
        if (lockrun_is_fault(turned)) return lockrun_leave(caller, owed, turned);
        if (lockrun_may_leave(caller, end, looks)) return lockrun_leave(caller, owed, lockrun_watch(caller));
        if (owed) continue;
        if (lockrun_is_over(look)) {
            lockrun_look_for_ring(nodes);
            look = lockrun_next_look(nodes);
        }
        if (lockrun_is_over(end)) owed = lockrun_unturned(nodes);
        else if (!lockrun_is_told(caller)) owed = lockrun_doze(caller, lockrun_earlier(end, look), &came);
    }
}

/* The node is this thread's: submits a command and makes the node's moves, and passes on what comes of it. */
static inline uint32_t lockrun_do_telling(lockrun_caller *caller, uint32_t kind, uint32_t set, uint32_t first, uint32_t second) {
    lockrun_nodes *nodes = caller->nodes;
    lockrun_node *node = &nodes->node[caller->home];
    lockrun_clients told;
    uint64_t sent = 0;
    lockrun_tell_none(&told, nodes->rows);
    const uint32_t code = lockrun_do_once(&node->station, &caller->session, kind, set, first, second, &caller->dropped, &sent, &told);
    if (code == LOCKRUN_NOTHING || lockrun_is_fault(code)) lockrun_put(&node->work, 1);
    lockrun_count_moves(nodes, node, 2);
    lockrun_let_go(node);
    uint64_t owed = lockrun_pass_on(nodes, sent, &told, caller);
    if (lockrun_get(&node->work)) owed |= lockrun_bit(caller->home);
    if (owed) {
        (void)lockrun_turn_owed(nodes, caller, &owed);
        if (owed) lockrun_hand_on(nodes);
    }
    return code;
}

/* The same where there is one node and nobody sleeps: there is nobody to tell, and no other node. */
static inline uint32_t lockrun_do_alone(lockrun_caller *caller, uint32_t kind, uint32_t set, uint32_t first, uint32_t second) {
    lockrun_nodes *nodes = caller->nodes;
    lockrun_node *node = &nodes->node[0];
    const uint32_t code = lockrun_do_untold(&node->station, &caller->session, kind, set, first, second, &caller->dropped);
    if (code == LOCKRUN_NOTHING || lockrun_is_fault(code)) lockrun_put(&node->work, 1);
    lockrun_count_moves(nodes, node, 2);
    lockrun_let_go(node);
    lockrun_notify_sleepers(nodes);
    if (lockrun_get(&node->work)) {
        uint64_t owed = 1;
        (void)lockrun_turn_owed(nodes, caller, &owed);
        if (owed) lockrun_hand_on(nodes);
    }
    return code;
}

static inline uint32_t lockrun_do_here(lockrun_caller *caller, uint32_t kind, uint32_t set, uint32_t first, uint32_t second) {
    return caller->nodes->count == 1 && !lockrun_is_anyone_asleep(caller->nodes)
               ? lockrun_do_alone(caller, kind, set, first, second)
               : lockrun_do_telling(caller, kind, set, first, second);
}

/* Submits a command: the reply, if it is there; LOCKRUN_WAITS if it is still to come; or why nothing was submitted. */
static inline uint32_t lockrun_start(lockrun_caller *caller, uint32_t kind, uint32_t set, uint32_t first, uint32_t second) {
    if (caller->waits || caller->withdraws) return LOCKRUN_WAITS;
    uint32_t code = kind == LOCKRUN_LOCK || kind == LOCKRUN_TRY ? lockrun_reserve(caller) : (uint32_t)LOCKRUN_OK;
    if (code != LOCKRUN_OK) return code;
    lockrun_node *node = &caller->nodes->node[caller->home];
    caller->kind = kind;
    caller->set = set;
    caller->first = first;
    if (lockrun_take_node(node)) {
        code = lockrun_do_here(caller, kind, set, first, second);
        lockrun_note_command(caller->nodes);
        if (code >= LOCKRUN_GRANTED) {
            caller->answer = code;
            lockrun_keep(caller, code);
            return code;
        }
        if (code != LOCKRUN_NOTHING && !lockrun_is_fault(code)) return code;
        caller->waits = 1;
        return LOCKRUN_WAITS;
    }
    code = lockrun_submit(&caller->session, kind, set, first, second);
    if (code != LOCKRUN_OK) return code; /* LOCKRUN_FULL never: all that was submitted before has its reply */
    lockrun_note_command(caller->nodes);
    lockrun_mark(caller->nodes, caller->home);
    caller->waits = 1;
    return LOCKRUN_WAITS;
}
#endif
