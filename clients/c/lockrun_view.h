/* lockrun_view.h: who holds what and who waits for what, node by node, over lockrun_easy.h. Of each node it is what the node has
 * at one moment; of several nodes nothing is said, since another node may move meanwhile.
 */
#ifndef LOCKRUN_VIEW_H
#define LOCKRUN_VIEW_H
#include "lockrun_easy.h"

/* The first set numbered `from` or more in which the client holds locks at its station, and how many of each mode: LOCKRUN_OK, or
 * LOCKRUN_NOTHING. */
static inline uint32_t lockrun_held_by(lockrun_station *station, uint32_t client, uint32_t from, uint32_t *set,
                                       uint64_t counts[6]) {
    const uint32_t code = lockrun_held(station, client, from, set);
    for (uint32_t mode = 0; code == LOCKRUN_OK && mode < 6; mode++) counts[mode] = lockrun_locks(station, client, *set, mode);
    return code;
}

/* What the client waits for at its station: LOCKRUN_OK, or LOCKRUN_NOTHING. */
static inline uint32_t lockrun_asked_by(lockrun_station *station, uint32_t client, uint32_t *set, uint32_t *mode) {
    return lockrun_asked(station, client, set, mode);
}

/* What a client holds in a set, by the modes in their order; or, where it waits, the mode that it waits for there. */
typedef struct {
    uint32_t node, client, set;
    int waits;
    uint32_t mode;
    uint64_t counts[6];
} lockrun_line;

typedef struct { lockrun_line *line; size_t count, room; } lockrun_lines;

static inline uint32_t lockrun_add_line(lockrun_lines *lines, const lockrun_line *line) {
    if (lines->count == lines->room) {
        const size_t room = lines->room ? 2 * lines->room : 16;
        lockrun_line *grown = (lockrun_line *)realloc(lines->line, room * sizeof *grown);
        if (!grown) return LOCKRUN_NO_MEMORY;
        lines->line = grown;
        lines->room = room;
    }
    lines->line[lines->count++] = *line;
    return LOCKRUN_OK;
}

/* Adds the lines of a client, whose station this thread has. */
static inline uint32_t lockrun_add_lines(lockrun_nodes *nodes, size_t client, lockrun_lines *lines) {
    const uint32_t node = nodes->caller[client].home;
    lockrun_station *station = &nodes->node[node].station;
    lockrun_line line = {node, (uint32_t)client, 0, 0, 0, {0, 0, 0, 0, 0, 0}};
    uint32_t code = LOCKRUN_OK;
    for (uint32_t from = 0; code == LOCKRUN_OK && lockrun_held_by(station, line.client, from, &line.set, line.counts) == LOCKRUN_OK;) {
        code = lockrun_add_line(lines, &line);
        from = line.set + 1;
    }
    memset(line.counts, 0, sizeof line.counts);
    line.waits = 1;
    if (code == LOCKRUN_OK && lockrun_asked_by(station, line.client, &line.set, &line.mode) == LOCKRUN_OK)
        code = lockrun_add_line(lines, &line);
    return code;
}

/* Tells each lock and each wait to `see`, with what else it is given, once all were looked up: LOCKRUN_OK, or LOCKRUN_NO_MEMORY and
 * then none. Other threads may be in calls. */
static inline uint32_t lockrun_each(lockrun_nodes *nodes, void (*see)(void *with, const lockrun_line *line), void *with) {
    lockrun_lines lines = {0, 0, 0};
    uint32_t code = LOCKRUN_OK;
    LOCKRUN_UNSEEN_BEGIN;
    for (size_t k = 0; k < nodes->count && code == LOCKRUN_OK; k++) {
        lockrun_keep_node(nodes, k);
        for (size_t client = 0; client < nodes->callers && code == LOCKRUN_OK; client++)
            if (nodes->caller[client].home == k) code = lockrun_add_lines(nodes, client, &lines);
        lockrun_return_node(nodes, k);
    }
    LOCKRUN_UNSEEN_END;
    for (size_t k = 0; k < lines.count && code == LOCKRUN_OK; k++) see(with, &lines.line[k]);
    free(lines.line);
    return code;
}

/* What was counted of a set at a node, as LOCKRUN_COUNT_GRANTS and the others say. */
typedef struct { uint64_t grants, changes, refusals, waits, withdrawals, copies, freezes, tokens; } lockrun_counts;

/* From now on all nodes count what they do in the sets numbered below `sets`, of all their moves: LOCKRUN_OK; LOCKRUN_FORGOTTEN if
 * one has forgotten some, so call it once they are opened; or LOCKRUN_NO_MEMORY. Each node takes 64 bytes for a set, of which the
 * system gives only what is touched. */
static inline uint32_t lockrun_counts_begin(lockrun_nodes *nodes, uint32_t sets) {
    uint32_t code = LOCKRUN_OK;
    LOCKRUN_UNSEEN_BEGIN;
    for (size_t k = 0; k < nodes->count && code == LOCKRUN_OK; k++) {
        lockrun_tally *tally = &nodes->node[k].tally;
        lockrun_keep_node(nodes, k);
        if (!tally->numbers) {
            tally->numbers = (uint64_t *)calloc((size_t)sets + 1, sizeof(lockrun_counts));
            tally->count = (size_t)sets * LOCKRUN_COUNTS;
            code = tally->numbers ? lockrun_count_node(&nodes->node[k]) : (uint32_t)LOCKRUN_NO_MEMORY;
        }
        if (code != LOCKRUN_OK) {
            free(tally->numbers);
            memset(tally, 0, sizeof *tally);
        }
        lockrun_return_node(nodes, k);
    }
    LOCKRUN_UNSEEN_END;
    return code;
}

/* What was counted of the set at the node so far, and how many letters the node took: LOCKRUN_OK; LOCKRUN_NOTHING if it doesn't
 * count them; or the answer of lockrun_count. Of several nodes at once nothing is said. Other threads may be in calls. */
static inline uint32_t lockrun_counted(lockrun_nodes *nodes, size_t place, uint32_t set, lockrun_counts *counts, uint64_t *letters) {
    const lockrun_tally *tally = &nodes->node[place].tally;
    uint32_t code = LOCKRUN_NOTHING;
    LOCKRUN_UNSEEN_BEGIN;
    lockrun_keep_node(nodes, place);
    if (set < tally->count / LOCKRUN_COUNTS) code = lockrun_count_node(&nodes->node[place]);
    if (code == LOCKRUN_OK) {
        memcpy(counts, tally->numbers + (size_t)set * LOCKRUN_COUNTS, sizeof *counts);
        *letters = tally->taken;
    }
    lockrun_return_node(nodes, place);
    LOCKRUN_UNSEEN_END;
    return code;
}
#endif
