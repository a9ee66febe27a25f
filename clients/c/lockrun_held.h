/* lockrun_held.h: in which sets a caller has locks, as the replies to it say, and how many. */
#ifndef LOCKRUN_HELD_H
#define LOCKRUN_HELD_H
#include "lockrun_races.h"

/* Has room for a further set in the list of those in which the caller has locks. */
static inline uint32_t lockrun_reserve(lockrun_caller *caller) {
    if (caller->holds < caller->room) return LOCKRUN_OK;
    size_t room = caller->room ? 2 * caller->room : 4;
    lockrun_holding *grown = (lockrun_holding *)realloc(caller->held, room * sizeof *grown);
    if (!grown) return LOCKRUN_NO_MEMORY;
    caller->held = grown;
    caller->room = room;
    return LOCKRUN_OK;
}

/* Where the set stands in that list, the last one first; behind all if it doesn't. */
static inline size_t lockrun_place(lockrun_caller *caller, uint32_t set) {
    for (size_t k = caller->holds; k > 0; k--)
        if (caller->held[k - 1].set == set) return k - 1;
    return caller->holds;
}

/* All locks of the family that a drop names are gone: if there are none but these, the list is empty. */
static inline void lockrun_forget_family(lockrun_caller *caller, size_t place) {
    uint64_t all = 0;
    for (size_t k = 0; k < caller->holds; k++) all += caller->held[k].count;
    if (caller->dropped >= all) caller->holds = 0;
    else if (place < caller->holds) caller->held[place] = caller->held[--caller->holds];
}

/* Keeps what the reply to the caller's command says of its locks. */
static inline void lockrun_keep(lockrun_caller *caller, uint32_t code) {
    size_t place = lockrun_place(caller, caller->set);
    if (code == LOCKRUN_GRANTED || (code == LOCKRUN_TRUE && caller->kind == LOCKRUN_TRY)) {
        lockrun_holding none = {caller->set, 0};
        if (place == caller->holds) caller->held[caller->holds++] = none;
        caller->held[place].count++;
    } else if (code == LOCKRUN_UNLOCKED && place < caller->holds) {
        if (--caller->held[place].count == 0) caller->held[place] = caller->held[--caller->holds];
    } else if (code == LOCKRUN_DROPPED && caller->first == caller->number) {
        lockrun_forget_family(caller, place);
    }
}

/* A race detector is told that the caller is about to give up what it has in the set, or, by a drop, in all sets. */
static inline void lockrun_before(lockrun_caller *caller, uint32_t kind, uint32_t set) {
    if (kind == LOCKRUN_UNLOCK || kind == LOCKRUN_CHANGE) lockrun_releases(caller->nodes, set);
    if (kind == LOCKRUN_DROP)
        for (size_t k = 0; k < caller->holds; k++) lockrun_releases(caller->nodes, caller->held[k].set);
}

/* And that it now has a lock in the set of what it asked last, if the reply says so: the reply. */
static inline uint32_t lockrun_after(lockrun_caller *caller, uint32_t code) {
    if (code == LOCKRUN_GRANTED || code == LOCKRUN_CHANGED || (code == LOCKRUN_TRUE && caller->kind == LOCKRUN_TRY))
        lockrun_acquires(caller->nodes, caller->set);
    return code;
}
#endif
