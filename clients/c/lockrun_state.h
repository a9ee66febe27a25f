/* lockrun_state.h: what lockrun_nodes.h and lockrun_easy.h keep of nodes and callers. */
#ifndef LOCKRUN_STATE_H
#define LOCKRUN_STATE_H
#include "lockrun_calls.h"
#include "lockrun_waiting.h"
#include <stdlib.h>

/* What different threads write is so many bytes apart, and begins in a line of the caches of its own. */
enum { LOCKRUN_APART = 128 };

/* The most rows of 64 clients. */
enum { LOCKRUN_ROWS = 16 };

/* What was counted of a node's moves (lockrun_count), if `numbers` isn't null. */
typedef struct {
    uint64_t *numbers;
    size_t count;
    uint64_t read, taken;
} lockrun_tally;

typedef struct {
    lockrun_station station;
    lockrun_tally tally;
    uint32_t moves;    /* at most so many since it forgot */
    lockrun_word busy; /* whether a thread has the station */
    char apart[LOCKRUN_APART - sizeof(lockrun_station) - sizeof(lockrun_tally) - sizeof(uint32_t) - sizeof(lockrun_word)];
    lockrun_word work; /* whether letters or commands came since it was turned last */
    char apart_too[LOCKRUN_APART - sizeof(lockrun_word)];
} lockrun_node;

typedef struct {
    size_t count;
    lockrun_node *node;
    lockrun_service service;
    size_t callers;
    struct lockrun_caller *caller;
    uint64_t all;                      /* a bit for each node */
    size_t rows;                       /* how many rows of 64 clients there are */
    int gives_up, keeps;               /* whether the script is of version 3; whether the nodes keep their journal */
    uint32_t first, families, members; /* where the sets of keys begin, and how many there are */
    struct lockrun_names *names;       /* the exact names that were added, if there may be any */
    void *races;                       /* of a race detector */
    int64_t victims_after;             /* after so many nanoseconds a waiter looks for a ring; 0 is never */
    char apart[LOCKRUN_APART];
    lockrun_row asleep[LOCKRUN_ROWS];  /* a bit for each caller that sleeps, and that nobody has begun to wake */
    char apart_too[LOCKRUN_APART];
    lockrun_row asks, done;            /* how many asks were numbered; how many commands were submitted */
    lockrun_row looked, seen;          /* when somebody looked for a ring last; and how many commands there were when there was none */
    char apart_again[LOCKRUN_APART];
} lockrun_nodes;

/* A set in which a caller has locks, and how many. */
typedef struct { uint32_t set, count; } lockrun_holding;

/* What a caller has to itself, in lines of the caches of its own. */
typedef struct {
    lockrun_signal told; /* not 0: since it looked last a reply came, or a node wants to be turned */
    lockrun_word watched; /* whether its wakes go to the descriptor */
    int descriptor;       /* of lockrun_fd; 0 is none */
    lockrun_row ask, victim; /* the number of what it asks, where asks are numbered; and of what was chosen to be given up */
    lockrun_row withheld;    /* one more than the set in which it asks again and again for what is withheld, or 0 */
} lockrun_sleeper;

typedef struct lockrun_caller {
    lockrun_session session;
    lockrun_nodes *nodes;
    uint64_t dropped; /* how many locks the last LOCKRUN_DROPPED was of */
    lockrun_holding *held;
    size_t holds, room;
    uint32_t number, home, kind, set, first, answer; /* its client and node; the command that was asked last, and its reply */
    char waits, withdraws; /* whether the reply to it is still to come, and that to a withdraw of it */
    char apart[LOCKRUN_APART - 3 * sizeof(void *) - 2 * sizeof(size_t) - sizeof(uint64_t) - 6 * sizeof(uint32_t) - 2];
    lockrun_sleeper sleeper;
    char apart_too[2 * LOCKRUN_APART - sizeof(lockrun_sleeper)];
} lockrun_caller;

/* Memory that begins in a line of the caches of its own, of zeros; to be freed. Null if there is none. */
static inline void *lockrun_room(size_t count, size_t size) {
    void *room = 0;
    if (count > SIZE_MAX / size || posix_memalign(&room, LOCKRUN_APART, count * size)) return 0;
    return memset(room, 0, count * size);
}

/* Room for one thing more behind so many: the same if it has it, or twice as much with what was there. Null without memory, and
 * then the old one stays. */
static inline void *lockrun_more(void *old, size_t count, size_t size) {
    if (count & (count - 1)) return old;
    void *grown = lockrun_room(count ? 2 * count : 1, size);
    if (!grown) return 0;
    if (count) memcpy(grown, old, count * size);
    free(old);
    return grown;
}
#endif
