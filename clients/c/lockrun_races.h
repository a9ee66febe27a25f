/* lockrun_races.h: tells a race detector (-fsanitize=thread of GCC and Clang), with LOCKRUN_TSAN, what it can't see in the library:
 * that what a thread did before it gave up a lock happened before what another one does that has a lock in the same set later.
 *
 * Nothing else of these calls orders threads for it, so a race that only the use of the same node hides is reported: what the
 * calls do themselves it doesn't look at.
 */
#ifndef LOCKRUN_RACES_H
#define LOCKRUN_RACES_H
#include "lockrun_state.h"

#ifdef LOCKRUN_TSAN
#ifdef __cplusplus
extern "C" {
#endif
void __tsan_acquire(void *at);
void __tsan_release(void *at);
void AnnotateIgnoreSyncBegin(const char *file, int line);
void AnnotateIgnoreSyncEnd(const char *file, int line);
void AnnotateIgnoreReadsBegin(const char *file, int line);
void AnnotateIgnoreReadsEnd(const char *file, int line);
void AnnotateIgnoreWritesBegin(const char *file, int line);
void AnnotateIgnoreWritesEnd(const char *file, int line);
#ifdef __cplusplus
}
#endif

/* Between these two the detector sees nothing of this thread. */
#define LOCKRUN_UNSEEN_BEGIN \
    (AnnotateIgnoreSyncBegin(__FILE__, __LINE__), AnnotateIgnoreReadsBegin(__FILE__, __LINE__), \
     AnnotateIgnoreWritesBegin(__FILE__, __LINE__))
#define LOCKRUN_UNSEEN_END \
    (AnnotateIgnoreWritesEnd(__FILE__, __LINE__), AnnotateIgnoreReadsEnd(__FILE__, __LINE__), \
     AnnotateIgnoreSyncEnd(__FILE__, __LINE__))

/* The most sets of a service. */
enum { LOCKRUN_RACE_SETS = 65536 };

static inline uint32_t lockrun_races_begin(lockrun_nodes *nodes) {
    nodes->races = calloc(LOCKRUN_RACE_SETS, sizeof(uint64_t));
    return nodes->races ? LOCKRUN_OK : LOCKRUN_NO_MEMORY;
}

static inline void lockrun_races_end(lockrun_nodes *nodes) { free(nodes->races); }

static inline uint64_t *lockrun_race_of(lockrun_nodes *nodes, uint32_t set) {
    return (uint64_t *)nodes->races + set % LOCKRUN_RACE_SETS;
}

/* The caller is about to give up locks that it holds in the set. */
static inline void lockrun_releases(lockrun_nodes *nodes, uint32_t set) { __tsan_release(lockrun_race_of(nodes, set)); }

/* The caller was granted a lock in the set. */
static inline void lockrun_acquires(lockrun_nodes *nodes, uint32_t set) { __tsan_acquire(lockrun_race_of(nodes, set)); }

/* A caller goes from one thread to another. */
static inline void lockrun_goes(lockrun_caller *caller) { __tsan_release(caller); }
static inline void lockrun_comes(lockrun_caller *caller) { __tsan_acquire(caller); }
#else
#define LOCKRUN_UNSEEN_BEGIN ((void)0)
#define LOCKRUN_UNSEEN_END ((void)0)
static inline uint32_t lockrun_races_begin(lockrun_nodes *nodes) { (void)nodes; return LOCKRUN_OK; }
static inline void lockrun_races_end(lockrun_nodes *nodes) { (void)nodes; }
static inline void lockrun_releases(lockrun_nodes *nodes, uint32_t set) { (void)nodes; (void)set; }
static inline void lockrun_acquires(lockrun_nodes *nodes, uint32_t set) { (void)nodes; (void)set; }
static inline void lockrun_goes(lockrun_caller *caller) { (void)caller; }
static inline void lockrun_comes(lockrun_caller *caller) { (void)caller; }
#endif
#endif
