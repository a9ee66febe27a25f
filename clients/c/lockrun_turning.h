/* lockrun_turning.h: turns of nodes, one thread at a time for each, by whoever knows that one has work (lockrun_notice.h). */
#ifndef LOCKRUN_TURNING_H
#define LOCKRUN_TURNING_H
#include "lockrun_notice.h"
#include <sched.h>

/* How many turns of a node a thread makes before it lets others have it; after how many moves a node forgets; and how many
 * batches a thread makes for others before it hands on what is left. */
enum { LOCKRUN_BATCH = 32, LOCKRUN_FORGETS = 4096, LOCKRUN_BATCHES = 16 };

static inline int lockrun_is_fault(uint32_t code) { return code == LOCKRUN_LOG_FULL || code == LOCKRUN_NO_MEMORY; }

/* Takes the station of a node, if no other thread has it. */
static inline int lockrun_take_node(lockrun_node *node) {
    return !lockrun_get(&node->busy) && !atomic_exchange(&node->busy, (uint32_t)1);
}

static inline void lockrun_let_go(lockrun_node *node) { lockrun_put(&node->busy, 0); }

/* Counts the moves that a node made since, if it counts. */
static inline uint32_t lockrun_count_node(lockrun_node *node) {
    lockrun_tally *tally = &node->tally;
    if (!tally->numbers) return LOCKRUN_OK;
    return lockrun_count(&node->station, &tally->read, &tally->taken, tally->numbers, tally->count);
}

/* Lets a node forget, once its moves are counted. */
static inline uint32_t lockrun_forget_node(lockrun_node *node) {
    const uint32_t code = lockrun_count_node(node);
    node->moves = 0;
    return code == LOCKRUN_OK ? lockrun_forget(&node->station) : code;
}

/* So many moves more were made: after enough of them the node forgets them, if it keeps no journal. If there is no memory for it
 * now, it forgets after further ones. */
static inline void lockrun_count_moves(lockrun_nodes *nodes, lockrun_node *node, uint32_t moves) {
    node->moves += moves;
    if (node->moves < LOCKRUN_FORGETS || nodes->keeps) return;
    (void)lockrun_forget_node(node);
}

/* Turns a node that this thread has, until it makes no move, a batch at most: how the last turn ended. */
static inline uint32_t lockrun_turn_batch(lockrun_nodes *nodes, size_t place, uint64_t *sent, lockrun_clients *told) {
    lockrun_node *node = &nodes->node[place];
    uint32_t code = LOCKRUN_OK, moves = 0;
    lockrun_put(&node->work, 0);
    while (code == LOCKRUN_OK && moves < LOCKRUN_BATCH) {
        code = lockrun_turn_once(&node->station, sent, told, nodes->rows);
        moves += code == LOCKRUN_OK;
    }
    if (code != LOCKRUN_NOTHING) lockrun_put(&node->work, 1);
    if (moves == LOCKRUN_BATCH) *sent = nodes->all;
    lockrun_count_moves(nodes, node, moves);
    return code;
}

/* Marks the nodes to which letters went, and tells the clients that were told: the nodes that now have work by it. */
static inline uint64_t lockrun_pass_on(lockrun_nodes *nodes, uint64_t sent, const lockrun_clients *told,
                                       const lockrun_caller *own) {
    lockrun_mark_all(nodes, sent & nodes->all);
    lockrun_notify_all(nodes, told, own);
    return sent & nodes->all;
}

/* Turns a node as long as it has work and no other thread has it; `owed` gains the nodes that have work by it. */
static inline uint32_t lockrun_turn_node(lockrun_nodes *nodes, size_t place, const lockrun_caller *own, uint64_t *owed) {
    lockrun_node *node = &nodes->node[place];
    uint32_t code = LOCKRUN_NOTHING;
    while (lockrun_get(&node->work) && lockrun_take_node(node)) {
        lockrun_clients told;
        uint64_t sent = 0;
        lockrun_tell_none(&told, nodes->rows);
        code = lockrun_turn_batch(nodes, place, &sent, &told);
        lockrun_let_go(node);
        *owed |= lockrun_pass_on(nodes, sent, &told, own);
        if (code == LOCKRUN_OK) *owed |= lockrun_bit(place);
        if (code != LOCKRUN_NOTHING) return code;
    }
    return code;
}

/* Turns the nodes of `owed`, and those that get letters by it, a number of batches at most: what keeps one of them from going on,
 * or else LOCKRUN_NOTHING. What it didn't come to stays in `owed`. */
static inline uint32_t lockrun_turn_owed(lockrun_nodes *nodes, const lockrun_caller *own, uint64_t *owed) {
    uint32_t found = LOCKRUN_NOTHING;
    for (unsigned batch = 0; *owed && batch < LOCKRUN_BATCHES; batch++) {
        const unsigned place = lockrun_lowest(*owed);
        *owed &= ~lockrun_bit(place);
        const uint32_t code = lockrun_turn_node(nodes, place, own, owed);
        if (lockrun_is_fault(code)) found = code;
    }
    return found;
}

/* Turns all nodes that have work, for a thread that waits for something else. */
static inline uint32_t lockrun_help(lockrun_nodes *nodes) {
    uint64_t owed = lockrun_unturned(nodes);
    const uint32_t code = lockrun_turn_owed(nodes, 0, &owed);
    if (owed) lockrun_hand_on(nodes);
    return code;
}

/* Waits for the station of a node; and lets go of it, and makes the turns that others left to this thread meanwhile. */
static inline void lockrun_keep_node(lockrun_nodes *nodes, size_t place) {
    while (!lockrun_take_node(&nodes->node[place])) sched_yield();
}

static inline void lockrun_return_node(lockrun_nodes *nodes, size_t place) {
    lockrun_let_go(&nodes->node[place]);
    uint64_t owed = lockrun_get(&nodes->node[place].work) ? lockrun_bit(place) : 0;
    (void)lockrun_turn_owed(nodes, 0, &owed);
    if (owed) lockrun_hand_on(nodes);
}
#endif
