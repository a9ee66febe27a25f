/* lockrun_calls.h: the calls of lockrun.h that tell whom a turn concerns, each in one place, for lockrun_nodes.h and
 * lockrun_easy.h.
 */
#ifndef LOCKRUN_CALLS_H
#define LOCKRUN_CALLS_H
#include "lockrun.h"
#include <string.h>

/* No client, in so many rows of 64. */
static inline void lockrun_tell_none(lockrun_clients *told, size_t rows) {
    for (size_t k = 0; k < rows; k++) told->bits[k] = 0;
}

/* A turn of a station. To which nodes it sent letters, and whom it told a reply, is added to `sent` and `told`, of which so
 * many rows are in use. */
static inline uint32_t lockrun_turn_once(lockrun_station *station, uint64_t *sent, lockrun_clients *told, size_t rows) {
    uint64_t to = 0;
    lockrun_clients some;
    lockrun_tell_none(&some, rows);
    uint32_t code = lockrun_turn_telling(station, &to, &some);
    *sent |= to;
    for (size_t k = 0; k < rows; k++) told->bits[k] |= some.bits[k];
    return code;
}

/* Submits a command and makes its node's moves: the reply; LOCKRUN_NOTHING, if it is still to come; what keeps the node from
 * going on, and then it is still to come too; or why nothing was submitted. */
static inline uint32_t lockrun_do_once(lockrun_station *station, lockrun_session *session, uint32_t kind, uint32_t set,
                                       uint32_t first, uint32_t second, uint64_t *count, uint64_t *sent,
                                       lockrun_clients *told) {
    *sent = 0;
    return lockrun_do(station, session, kind, set, first, second, count, sent, told);
}

/* The same by calls that tell of nobody. */
static inline uint32_t lockrun_do_untold(lockrun_station *station, lockrun_session *session, uint32_t kind, uint32_t set,
                                         uint32_t first, uint32_t second, uint64_t *count) {
    uint32_t code = lockrun_submit(session, kind, set, first, second);
    if (code != LOCKRUN_OK) return code;
    for (unsigned turns = 0; turns < 64; turns++) {
        const uint32_t turned = lockrun_turn(station);
        code = lockrun_poll(session, count);
        if (code != LOCKRUN_NOTHING) return code;
        if (turned != LOCKRUN_OK) return turned;
    }
    return LOCKRUN_NOTHING;
}

/* Opens a service with sets for keys behind those of the text. */
static inline uint32_t lockrun_open_with_keys(const uint8_t *text, size_t length, uint32_t families, uint32_t members,
                                              uint64_t limit, uint32_t places, lockrun_service *service) {
    return lockrun_open_keys(text, length, families, members, limit, places, service);
}

/* The set of a key, by its bytes and those of its parent, if these are any. */
static inline uint32_t lockrun_set_of_key(uint32_t first, uint32_t families, uint32_t members, const uint8_t *parent,
                                          size_t parent_length, const uint8_t *key, size_t length, uint32_t *set) {
    return lockrun_key(first, families, members, parent, parent_length, key, length, set);
}

/* LOCKRUN_OK, if the text is a script; LOCKRUN_BAD_SCRIPT, with the line and the number of its first fault; or another code. */
static inline uint32_t lockrun_fault_of(const uint8_t *text, size_t length, uint64_t *line, uint32_t *fault) {
    return lockrun_fault(text, length, line, fault);
}
#endif
