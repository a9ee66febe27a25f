/* lockrun_nodes.h: all nodes of a script, with a caller for each client, over lockrun.h; lockrun_easy.h has what callers ask.
 * C11 with POSIX, as -std=gnu11 or -D_POSIX_C_SOURCE=200809L give it, and C++11; nothing of it is proved.
 *
 * Nodes are opened with version 3 of scripts, which alone knows how to give up a wait: its line is put before a text that has
 * no line of a version.
 *
 * Nodes forget their moves as they go, so that a service takes the same memory however long it runs, and has no journal. With
 * LOCKRUN_KEEP added to the limit they keep them, and lockrun_nodes_finish gives the journal.
 */
#ifndef LOCKRUN_NODES_H
#define LOCKRUN_NODES_H
#include "lockrun.h"
#include "lockrun_names.h"
#include "lockrun_races.h"
#include "lockrun_text.h"
#include "lockrun_turning.h"

/* Added to the limit on moves: the nodes keep the journal of all that they do. */
#define LOCKRUN_KEEP ((uint64_t)1 << 63)

/* Frees all that isn't in use by another thread. */
static inline void lockrun_nodes_free(lockrun_nodes *nodes) {
    for (size_t k = 0; k < nodes->count; k++) {
        if (nodes->node[k].station.at) lockrun_free(&nodes->node[k].station);
        free(nodes->node[k].tally.numbers);
    }
    for (size_t k = 0; k < nodes->callers; k++) {
        lockrun_caller *caller = &nodes->caller[k];
        if (caller->session.at) lockrun_free(&caller->session);
        lockrun_signal_end(&caller->sleeper.told);
#ifdef __linux__
        if (caller->sleeper.descriptor > 0) close(caller->sleeper.descriptor);
#endif
        free(caller->held);
    }
    if (nodes->service.at) lockrun_free(&nodes->service);
    lockrun_races_end(nodes);
    lockrun_names_free(nodes->names);
    free(nodes->node);
    free(nodes->caller);
    memset((void *)nodes, 0, sizeof *nodes);
}

/* Takes the next station, or the next session, into a list that grows by it. */
static inline uint32_t lockrun_add_node(lockrun_nodes *nodes) {
    lockrun_station station = {0};
    uint32_t code = lockrun_take_station(&nodes->service, &station);
    if (code != LOCKRUN_OK) return code;
    lockrun_node *grown = (lockrun_node *)lockrun_more(nodes->node, nodes->count, sizeof *grown);
    if (!grown) { lockrun_free(&station); return LOCKRUN_NO_MEMORY; }
    nodes->node = grown;
    nodes->all |= lockrun_bit(nodes->count);
    grown += nodes->count++;
    grown->station = station;
    lockrun_put(&grown->work, 1);
    return LOCKRUN_OK;
}

static inline uint32_t lockrun_add_caller(lockrun_nodes *nodes) {
    lockrun_session session = {0};
    uint32_t code = lockrun_take_session(&nodes->service, &session);
    if (code != LOCKRUN_OK) return code;
    lockrun_caller *grown = (lockrun_caller *)lockrun_more(nodes->caller, nodes->callers, sizeof *grown);
    if (!grown) { lockrun_free(&session); return LOCKRUN_NO_MEMORY; }
    nodes->caller = grown;
    lockrun_caller *caller = &grown[nodes->callers++];
    nodes->rows = (nodes->callers + 63) / 64;
    caller->session = session;
    caller->nodes = nodes;
    caller->number = lockrun_client(&session);
    caller->home = lockrun_home(&session);
    return LOCKRUN_OK;
}

/* Takes all stations and sessions of the service, if it was opened. */
static inline uint32_t lockrun_nodes_begin(lockrun_nodes *nodes, uint32_t code) {
    while (code == LOCKRUN_OK) code = lockrun_add_node(nodes);
    if (code == LOCKRUN_NOTHING) code = LOCKRUN_OK;
    while (code == LOCKRUN_OK) code = lockrun_add_caller(nodes);
    if (code == LOCKRUN_NOTHING) code = lockrun_races_begin(nodes);
    for (size_t k = 0; k < nodes->callers; k++) lockrun_signal_begin(&nodes->caller[k].sleeper.told);
    if (code != LOCKRUN_OK) lockrun_nodes_free(nodes);
    return code;
}

/* Opens all nodes of a script with further sets, and a caller for each client. `nodes` stays where it is until it is finished
 * or freed. Each node makes at most `limit` moves. */
static inline uint32_t lockrun_nodes_open_sets(lockrun_nodes *nodes, const char *text, size_t length,
                                               const lockrun_new_set *sets, size_t count, uint64_t limit) {
    size_t size = 0;
    uint8_t *whole = lockrun_with_version(text, length, &size);
    memset((void *)nodes, 0, sizeof *nodes);
    if (!whole) return LOCKRUN_NO_MEMORY;
    nodes->gives_up = lockrun_version(text, length) != 2;
    nodes->keeps = (limit & LOCKRUN_KEEP) != 0;
    uint32_t code = lockrun_open_sets(whole, size, sets, count, limit & ~LOCKRUN_KEEP, 4, &nodes->service);
    free(whole);
    return lockrun_nodes_begin(nodes, code);
}

/* The same without further sets. */
static inline uint32_t lockrun_nodes_open(lockrun_nodes *nodes, const char *text, size_t length, uint64_t limit) {
    const lockrun_new_set none = {0, 0, 0, 0};
    return lockrun_nodes_open_sets(nodes, text, length, &none, 0, limit);
}

/* Lets all nodes make turns until none of them makes a move in two turns. */
static inline void lockrun_nodes_rest(lockrun_nodes *nodes) {
    for (int quiet = 0; quiet < 2; quiet++)
        for (size_t k = 0; k < nodes->count; k++)
            if (lockrun_turn(&nodes->node[k].station) == LOCKRUN_OK) quiet = -1;
}

/* Gives all stations and sessions back, in order. */
static inline uint32_t lockrun_nodes_give(lockrun_nodes *nodes) {
    uint32_t code = LOCKRUN_OK;
    for (size_t k = 0; k < nodes->count && code == LOCKRUN_OK; k++)
        code = lockrun_give(&nodes->service, &nodes->node[k].station);
    for (size_t k = 0; k < nodes->callers && code == LOCKRUN_OK; k++)
        code = lockrun_give(&nodes->service, &nodes->caller[k].session);
    return code;
}

/* Takes those again that were given back. */
static inline uint32_t lockrun_nodes_take(lockrun_nodes *nodes) {
    uint32_t code = LOCKRUN_OK;
    for (size_t k = 0; k < nodes->count && code == LOCKRUN_OK; k++)
        if (!nodes->node[k].station.at) code = lockrun_take_station(&nodes->service, &nodes->node[k].station);
    for (size_t k = 0; k < nodes->callers && code == LOCKRUN_OK; k++)
        if (!nodes->caller[k].session.at) code = lockrun_take_session(&nodes->service, &nodes->caller[k].session);
    return code;
}

/* How many commands all callers submitted so far, and how many replies they polled, while no other thread is in a call.
 * After LOCKRUN_NO_MEMORY no other call is made until this one, made again, answers LOCKRUN_OK; or the nodes are freed. */
static inline uint32_t lockrun_nodes_served(lockrun_nodes *nodes, size_t *submitted, size_t *polled) {
    uint32_t code = lockrun_nodes_take(nodes);
    if (code == LOCKRUN_OK) code = lockrun_nodes_give(nodes);
    if (code == LOCKRUN_OK) code = lockrun_served(&nodes->service, submitted, polled);
    uint32_t taken = lockrun_nodes_take(nodes);
    return code == LOCKRUN_OK ? taken : code;
}

/* Lets each node forget its moves and commands now, also one that keeps them; then they have no journal. Other threads may be
 * in calls. */
static inline uint32_t lockrun_nodes_forget(lockrun_nodes *nodes) {
    uint32_t code = LOCKRUN_OK;
    LOCKRUN_UNSEEN_BEGIN;
    nodes->keeps = 0;
    for (size_t k = 0; k < nodes->count; k++) {
        lockrun_node *node = &nodes->node[k];
        lockrun_keep_node(nodes, k);
        uint32_t forgot = lockrun_forget_node(node);
        lockrun_return_node(nodes, k);
        if (forgot != LOCKRUN_OK) code = forgot;
    }
    LOCKRUN_UNSEEN_END;
    return code;
}

/* Ends the nodes, while no other thread is in a call: the journal of their run. Nodes that were opened without LOCKRUN_KEEP have
 * none: LOCKRUN_FORGOTTEN. */
static inline uint32_t lockrun_nodes_finish(lockrun_nodes *nodes, lockrun_journal *journal) {
    uint32_t code = LOCKRUN_FORGOTTEN;
    if (nodes->keeps) {
        lockrun_nodes_rest(nodes);
        code = lockrun_nodes_give(nodes);
        if (code == LOCKRUN_OK) code = lockrun_finish(&nodes->service, journal);
    }
    lockrun_nodes_free(nodes);
    return code;
}
#endif
