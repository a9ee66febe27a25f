/* lockrun_rests.h: whether nodes have nothing to do. */
#ifndef LOCKRUN_RESTS_H
#define LOCKRUN_RESTS_H
#include "lockrun_races.h"
#include "lockrun_turning.h"

/* How many rounds of turns a thread makes at most that has all nodes. */
enum { LOCKRUN_ROUNDS = 64 };

/* Takes all stations, in order; and lets go of them, and makes the turns that others left to this thread meanwhile. */
static inline void lockrun_keep_all(lockrun_nodes *nodes) {
    for (size_t k = 0; k < nodes->count; k++) lockrun_keep_node(nodes, k);
}

static inline void lockrun_return_all(lockrun_nodes *nodes) {
    for (size_t k = 0; k < nodes->count; k++) lockrun_let_go(&nodes->node[k]);
    (void)lockrun_help(nodes);
}

/* Whether a turn of a node that this thread has finds nothing to do: it makes no move, and has no letter and no reply to give out.
 * Who has something to do by it is told. */
static inline int lockrun_finds_nothing(lockrun_nodes *nodes, size_t place) {
    lockrun_node *node = &nodes->node[place];
    lockrun_clients told;
    uint64_t sent = 0, replies = 0;
    lockrun_tell_none(&told, nodes->rows);
    lockrun_put(&node->work, 0);
    const uint32_t code = lockrun_turn_once(&node->station, &sent, &told, nodes->rows);
    if (code != LOCKRUN_NOTHING) lockrun_put(&node->work, 1);
    lockrun_count_moves(nodes, node, code == LOCKRUN_OK);
    (void)lockrun_pass_on(nodes, sent, &told, 0);
    for (size_t k = 0; k < nodes->rows; k++) replies |= told.bits[k];
    return code == LOCKRUN_NOTHING && !sent && !replies;
}

/* The same of all nodes, which this thread has: if it is so, nothing was under way when it came to have them. */
static inline int lockrun_all_find_nothing(lockrun_nodes *nodes) {
    int nothing = 1;
    for (size_t k = 0; k < nodes->count; k++) nothing &= lockrun_finds_nothing(nodes, k);
    return nothing;
}

/* Whether all nodes rest: at a moment in this call there was no letter on its way, no command that was submitted and not made, and
 * no reply that was not given out; what was submitted since is not looked at. A node that has something to do does a part of it by
 * this call. A node that can't go on doesn't rest. */
static inline int lockrun_rests(lockrun_nodes *nodes) {
    LOCKRUN_UNSEEN_BEGIN;
    lockrun_keep_all(nodes);
    const int rests = lockrun_all_find_nothing(nodes);
    lockrun_return_all(nodes);
    LOCKRUN_UNSEEN_END;
    return rests;
}

/* The same of one node; but where another node has no place for its letters now they may wait. No other number rests. */
static inline int lockrun_node_rests(lockrun_nodes *nodes, uint32_t node) {
    if (node >= nodes->count) return 0;
    LOCKRUN_UNSEEN_BEGIN;
    lockrun_keep_node(nodes, node);
    const int rests = lockrun_finds_nothing(nodes, node);
    lockrun_return_node(nodes, node);
    LOCKRUN_UNSEEN_END;
    return rests;
}
#endif
