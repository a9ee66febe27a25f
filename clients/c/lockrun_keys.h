/* lockrun_keys.h: locks for things that come as they come, over lockrun_easy.h: a set for each key, which is any bytes.
 *
 * A key has the same set on each thread and in each process, by its SHA-256 alone. Two keys may have the same set: then clients
 * wait for each other a time too many, and none a time too few. A caller that asks for several keys asks for their sets in rising
 * order, each set once, and callers never wait in a ring. A key may have a parent, as a page its book: their sets are of one
 * family, so that who has intentions at the parent's set first goes together with who locks all of it there.
 */
#ifndef LOCKRUN_KEYS_H
#define LOCKRUN_KEYS_H
#include "lockrun_easy.h"

/* Opens all nodes of a script, and a caller for each client, with sets for keys and for exact names (lockrun_names.h) behind those of
 * the text: so many families of so many sets for keys, of which one is for keys without a parent and the others for keys with one,
 * and behind these a family for each name without a parent. With those of the text they are at most 65,536: else LOCKRUN_TOO_MANY.
 * Keys and names without a parent are best served by many families of one set each. */
static inline uint32_t lockrun_nodes_open_names(lockrun_nodes *nodes, const char *text, size_t length, uint32_t families,
                                                uint32_t members, uint32_t names, uint64_t limit) {
    enum { MOST = 65536 };
    size_t size = 0;
    memset((void *)nodes, 0, sizeof *nodes);
    nodes->first = lockrun_sets_of(text, length);
    if (families > MOST || names > MOST || members > MOST) return LOCKRUN_TOO_MANY;
    if (((uint64_t)families + names) * members + nodes->first > MOST) return LOCKRUN_TOO_MANY;
    nodes->families = families;
    nodes->members = members;
    if (names && members && !(nodes->names = lockrun_names_new(nodes->first + families * members, names, members)))
        return LOCKRUN_NO_MEMORY;
    nodes->gives_up = lockrun_version(text, length) != 2;
    nodes->keeps = (limit & LOCKRUN_KEEP) != 0;
    uint8_t *whole = lockrun_with_version(text, length, &size);
    uint32_t code = LOCKRUN_NO_MEMORY;
    if (whole) code = lockrun_open_with_keys(whole, size, families + names, members, limit & ~LOCKRUN_KEEP, 4, &nodes->service);
    free(whole);
    return lockrun_nodes_begin(nodes, code);
}

/* The same without sets for names. */
static inline uint32_t lockrun_nodes_open_keys(lockrun_nodes *nodes, const char *text, size_t length, uint32_t families,
                                               uint32_t members, uint64_t limit) {
    return lockrun_nodes_open_names(nodes, text, length, families, members, 0, limit);
}

/* The set of a key: LOCKRUN_OK; or LOCKRUN_BAD_ARGUMENT where the nodes have no sets for such keys. A parent of no bytes is none;
 * the parent itself has its set as a key without a parent. Any thread may ask. */
static inline uint32_t lockrun_key_of(const lockrun_nodes *nodes, const void *key, size_t length, const void *parent,
                                      size_t parent_length, uint32_t *set) {
    return lockrun_set_of_key(nodes->first, nodes->families, nodes->members, (const uint8_t *)parent, parent_length,
                              (const uint8_t *)key, length, set);
}
#endif
