/* lockrun_names.h: sets for exact names that are added while the nodes run, over lockrun_easy.h. A name is any bytes. The same name
 * has the same set on each thread of this process, and another name never has it; nor has a key. A name may have a parent, as a
 * page its book: then its set is of the family of the parent's set.
 *
 * Names are of one process: which set a name has depends on the order in which they were added. They never go, and their number is
 * that of lockrun_nodes_open_names.
 */
#ifndef LOCKRUN_NAMES_H
#define LOCKRUN_NAMES_H
#include "lockrun_races.h"
#include <sched.h>

enum { LOCKRUN_NAMES_FULL = 33 }; /* all sets for names, or all of the parent's family, are in use */

/* Where a name stands under no other one. */
#define LOCKRUN_NO_PARENT UINT32_MAX

/* A name: that of the set with the number of its place, counted from the first set for names. */
typedef struct {
    uint8_t *bytes; /* with a 0 behind them */
    size_t length;
    uint32_t parent, next; /* the place of its parent; one more than that of the next name of its row, or 0 */
    uint32_t under;        /* how many names it is the parent of */
} lockrun_named;

/* Places are given family by family. Who adds a name has the table to itself; who looks one up doesn't: what a row leads to is
 * written before the row does, and stays. */
struct lockrun_names {
    uint32_t begin, families, members, used; /* the first set; how many families, of how many sets; how many are in use */
    uint32_t mask;
    lockrun_named *named;
    lockrun_word *row; /* by the hash of a name: one more than the place of one that was added, or 0 */
    lockrun_word busy;
};
typedef struct lockrun_names lockrun_names;

static inline void lockrun_names_free(lockrun_names *names) {
    if (!names) return;
    for (size_t k = 0; names->named && k < (size_t)names->families * names->members; k++) free(names->named[k].bytes);
    free(names->named);
    free(names->row);
    free(names);
}

/* A table for so many families of so many sets from this one on. Null without memory. */
static inline lockrun_names *lockrun_names_new(uint32_t begin, uint32_t families, uint32_t members) {
    lockrun_names *names = (lockrun_names *)lockrun_room(1, sizeof *names);
    const size_t count = (size_t)families * members;
    size_t rows = 16;
    if (!names) return 0;
    while (rows < count) rows *= 2;
    names->begin = begin;
    names->families = families;
    names->members = members;
    names->mask = (uint32_t)(rows - 1);
    names->named = (lockrun_named *)lockrun_room(count, sizeof *names->named);
    names->row = (lockrun_word *)lockrun_room(rows, sizeof *names->row);
    if (names->named && names->row) return names;
    lockrun_names_free(names);
    return 0;
}

/* The row of a name (FNV-1a). */
static inline lockrun_word *lockrun_row_of(const lockrun_names *names, uint32_t parent, const uint8_t *name, size_t length) {
    uint64_t hash = 14695981039346656037u;
    for (size_t k = 0; k < 4; k++) hash = (hash ^ (parent >> 8 * k & 255)) * 1099511628211u;
    for (size_t k = 0; k < length; k++) hash = (hash ^ name[k]) * 1099511628211u;
    return &names->row[(hash ^ hash >> 32) & names->mask];
}

/* One more than the place of a name, or 0. */
static inline uint32_t lockrun_place_of(const lockrun_names *names, uint32_t parent, const uint8_t *name, size_t length) {
    uint32_t found = lockrun_get(lockrun_row_of(names, parent, name, length));
    for (; found; found = names->named[found - 1].next) {
        const lockrun_named *other = &names->named[found - 1];
        if (other->parent == parent && other->length == length && (!length || !memcmp(other->bytes, name, length))) break;
    }
    return found;
}

/* The place of a name that isn't there yet, in the table that this thread has. */
static inline uint32_t lockrun_add_name(lockrun_names *names, uint32_t parent, const uint8_t *name, size_t length, uint32_t *place) {
    lockrun_word *row = lockrun_row_of(names, parent, name, length);
    const int is_root = parent == LOCKRUN_NO_PARENT;
    if (is_root ? names->used == names->families : names->named[parent].under + 1 >= names->members) return LOCKRUN_NAMES_FULL;
    uint8_t *bytes = (uint8_t *)malloc(length + 1);
    if (!bytes) return LOCKRUN_NO_MEMORY;
    if (length) memcpy(bytes, name, length);
    bytes[length] = 0;
    *place = is_root ? names->used++ * names->members : parent + ++names->named[parent].under;
    lockrun_named *named = &names->named[*place];
    named->bytes = bytes;
    named->length = length;
    named->parent = parent;
    named->next = lockrun_get(row);
    lockrun_put(row, *place + 1);
    return LOCKRUN_OK;
}

/* The place of a name, which is added if it isn't there. */
static inline uint32_t lockrun_find_name(lockrun_names *names, uint32_t parent, const uint8_t *name, size_t length, uint32_t *place) {
    uint32_t found = lockrun_place_of(names, parent, name, length), code = LOCKRUN_OK;
    if (!found) {
        while (atomic_exchange(&names->busy, (uint32_t)1)) sched_yield();
        found = lockrun_place_of(names, parent, name, length);
        if (!found) code = lockrun_add_name(names, parent, name, length, place);
        lockrun_put(&names->busy, 0);
    }
    if (found) *place = found - 1;
    return code;
}

/* The set of an exact name, of nodes that lockrun_nodes_open_names opened: LOCKRUN_OK, and from now on it is this one's. A parent of no
 * bytes is none; the parent itself has its set as a name without a parent, and is added too. LOCKRUN_NAMES_FULL, if all sets are in
 * use; LOCKRUN_BAD_ARGUMENT, where there are none for such names; or LOCKRUN_NO_MEMORY. Any thread may ask. */
static inline uint32_t lockrun_name(const lockrun_nodes *nodes, const void *name, size_t length, const void *parent,
                                    size_t parent_length, uint32_t *set) {
    lockrun_names *names = nodes->names;
    uint32_t place = LOCKRUN_NO_PARENT, code = LOCKRUN_OK;
    if (!names || (parent_length && names->members == 1)) return LOCKRUN_BAD_ARGUMENT;
    LOCKRUN_UNSEEN_BEGIN;
    if (parent_length) code = lockrun_find_name(names, place, (const uint8_t *)parent, parent_length, &place);
    if (code == LOCKRUN_OK) code = lockrun_find_name(names, place, (const uint8_t *)name, length, &place);
    LOCKRUN_UNSEEN_END;
    if (code == LOCKRUN_OK) *set = names->begin + place;
    return code;
}

/* The name that has this set, with a 0 behind it, until the nodes end: null, if none has. Any thread that knows the set may ask. */
static inline const char *lockrun_name_of(const lockrun_nodes *nodes, uint32_t set, size_t *length) {
    const lockrun_names *names = nodes->names;
    if (!names || set < names->begin || set - names->begin >= (uint64_t)names->families * names->members) return 0;
    const lockrun_named *named = &names->named[set - names->begin];
    *length = named->length;
    return (const char *)named->bytes;
}
#endif
