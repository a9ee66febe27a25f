/* lockrun_rings.h: clients that wait for one another in a ring, by what their nodes have.
 *
 * On several nodes an ask that was given up may stand for a while, and others behind it, and it isn't told for which mode. An ask may
 * also lie at a node on its way to the queue, behind an older one. Whose ask has no other reason to wait counts as one who waits for
 * each client that has a lock in the set, also for itself, or asks for one there; and so does who asks again and again for what is
 * withheld from it, since what it gave up before in the set still stands, though no node knows of that wait. So a ring of these may be
 * none: then somebody gives up who needn't. In a service with many nodes and clients such asks are not looked for (LOCKRUN_MOST_PAIRS).
 */
#ifndef LOCKRUN_RINGS_H
#define LOCKRUN_RINGS_H
#include "lockrun_rests.h"

enum { LOCKRUN_MOST_CLIENTS = 64 * LOCKRUN_ROWS, LOCKRUN_MOST_PAIRS = 1 << 20 };

/* What a client asks for, if it does; whether it waits for another reason than those that are seen; and whether it waits. */
typedef struct { uint32_t set, mode; char asks, hidden, waits; } lockrun_asking;

static inline lockrun_asking lockrun_asking_of(lockrun_nodes *nodes, uint32_t client) {
    lockrun_caller *caller = &nodes->caller[client];
    const uint64_t withheld = atomic_load(&caller->sleeper.withheld);
    lockrun_asking ask = {0, 0, 1, 0, 1};
    if (lockrun_asked(&nodes->node[caller->home].station, client, &ask.set, &ask.mode) == LOCKRUN_OK) return ask;
    ask.asks = 0;
    ask.waits = withheld != 0;
    ask.set = (uint32_t)(withheld - ask.waits);
    ask.mode = LOCKRUN_WRITE; /* which conflicts with all */
    return ask;
}

/* Whether in the queue of a set an ask of the client stands behind one of the other one. */
static inline int lockrun_stands_behind(lockrun_nodes *nodes, uint32_t set, uint32_t client, uint32_t other) {
    for (size_t k = 0; k < nodes->count; k++)
        if (lockrun_behind(&nodes->node[k].station, set, client, other) == LOCKRUN_OK) return 1;
    return 0;
}

/* Whether a client has a lock that is in the way of this ask. */
static inline int lockrun_holds_against(lockrun_nodes *nodes, uint32_t client, const lockrun_asking *ask) {
    static const uint8_t conflicts[] = {0x20, 0x38, 0x3C, 0x36, 0x3E, 0x3F}; /* a bit for each mode */
    lockrun_station *station = &nodes->node[nodes->caller[client].home].station;
    for (uint32_t mode = 0; mode < 6; mode++)
        if (conflicts[ask->mode] >> mode & 1 && lockrun_locks(station, client, ask->set, mode)) return 1;
    return 0;
}

/* Whether a client waits for a reason that isn't seen: behind an ask that was given up, or on its way. */
static inline int lockrun_is_hidden(lockrun_nodes *nodes, uint32_t client, const lockrun_asking *asks) {
    const lockrun_asking *ask = &asks[client];
    int seen = 0;
    if (nodes->count == 1 || nodes->callers * nodes->callers * nodes->count > LOCKRUN_MOST_PAIRS) return 0;
    for (uint32_t k = 0; k < nodes->callers; k++) {
        if (k == client) continue;
        const int asks_too = asks[k].asks && asks[k].set == ask->set;
        const int behind = lockrun_stands_behind(nodes, ask->set, client, k);
        if (behind && !asks_too) return 1;
        seen |= behind || lockrun_holds_against(nodes, k, ask);
    }
    return !seen;
}

static inline void lockrun_list_asks(lockrun_nodes *nodes, lockrun_asking *asks) {
    for (uint32_t k = 0; k < nodes->callers; k++) asks[k] = lockrun_asking_of(nodes, k);
    for (uint32_t k = 0; k < nodes->callers; k++) asks[k].hidden = asks[k].asks && lockrun_is_hidden(nodes, k, asks);
    for (uint32_t k = 0; k < nodes->callers; k++) if (asks[k].hidden) asks[k].mode = LOCKRUN_WRITE;
}

/* Whether a client waits for another one that waits too: for a lock of that one, or behind its ask. */
static inline int lockrun_waits_for(lockrun_nodes *nodes, uint32_t client, uint32_t other, const lockrun_asking *asks) {
    const lockrun_asking *ask = &asks[client];
    if (!asks[other].waits || (client == other && ask->asks && !ask->hidden)) return 0;
    if (lockrun_holds_against(nodes, other, ask)) return 1;
    return client != other && asks[other].asks && asks[other].set == ask->set &&
           (ask->hidden || lockrun_stands_behind(nodes, ask->set, client, other));
}

/* A walk from client to client for which it waits: who is on it, in order; and of each client how many others were looked at. Who was
 * left again doesn't wait any more: none of those for which it waits leads to a ring. */
typedef struct {
    uint32_t client[LOCKRUN_MOST_CLIENTS], looked[LOCKRUN_MOST_CLIENTS];
    size_t length;
    lockrun_asking asks[LOCKRUN_MOST_CLIENTS];
} lockrun_walk;

/* Goes on from the last client of the walk, or leaves it: whether it came to one that is on it. */
static inline int lockrun_step(lockrun_nodes *nodes, lockrun_walk *walk, uint32_t *found) {
    const uint32_t last = walk->client[walk->length - 1];
    while (walk->looked[last] < nodes->callers) {
        const uint32_t other = walk->looked[last]++;
        if (!lockrun_waits_for(nodes, last, other, walk->asks)) continue;
        *found = other;
        for (size_t k = 0; k < walk->length; k++) if (walk->client[k] == other) return 1;
        walk->client[walk->length++] = other;
        return 0;
    }
    walk->asks[last].waits = 0;
    walk->length--;
    return 0;
}

/* A ring of clients, of nodes that this thread has and that rest: LOCKRUN_OK, and each of the ring waits for the next, and the last
 * for the first; or LOCKRUN_NOTHING. */
static inline uint32_t lockrun_find_ring(lockrun_nodes *nodes, uint32_t *ring, size_t *length) {
    lockrun_walk walk;
    uint32_t found = 0;
    lockrun_list_asks(nodes, walk.asks);
    memset(walk.looked, 0, sizeof walk.looked);
    for (uint32_t start = 0; start < nodes->callers; start++) {
        walk.client[0] = start;
        walk.length = walk.asks[start].waits ? 1 : 0;
        while (walk.length && !lockrun_step(nodes, &walk, &found)) {}
        if (!walk.length) continue;
        size_t first = 0;
        while (walk.client[first] != found) first++;
        *length = walk.length - first;
        memcpy(ring, walk.client + first, *length * sizeof *ring);
        return LOCKRUN_OK;
    }
    return LOCKRUN_NOTHING;
}
#endif
