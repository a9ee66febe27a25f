/* lockrun_pool.h: callers for threads that come and go, over lockrun_easy.h: as many at a time as the script has clients. A thread
 * takes one when it comes, and gives it back when it goes; where none is left it waits for one.
 */
#ifndef LOCKRUN_POOL_H
#define LOCKRUN_POOL_H
#include "lockrun_easy.h"

typedef struct {
    uint32_t *left; /* the numbers of the callers that are left, the last one is taken next */
    size_t count;
    lockrun_nodes *nodes;
    lockrun_word busy, waiting; /* whether a thread is at the list; how many wait for a caller */
    lockrun_signal given;       /* changes whenever one is given back */
} lockrun_pool;

/* All callers of the nodes, of which none is in use: LOCKRUN_OK or LOCKRUN_NO_MEMORY. The pool stays where it is. */
static inline uint32_t lockrun_pool_open(lockrun_pool *pool, lockrun_nodes *nodes) {
    pool->left = (uint32_t *)malloc((nodes->callers + 1) * sizeof *pool->left);
    if (!pool->left) return LOCKRUN_NO_MEMORY;
    pool->nodes = nodes;
    for (pool->count = 0; pool->count < nodes->callers; pool->count++)
        pool->left[pool->count] = (uint32_t)(nodes->callers - 1 - pool->count);
    lockrun_put(&pool->busy, 0);
    lockrun_put(&pool->waiting, 0);
    lockrun_signal_begin(&pool->given);
    return LOCKRUN_OK;
}

/* Frees the list, while no thread waits; the callers stay with the nodes. */
static inline void lockrun_pool_free(lockrun_pool *pool) {
    free(pool->left);
    pool->left = 0;
    lockrun_signal_end(&pool->given);
}

static inline void lockrun_pool_enter(lockrun_pool *pool) {
    for (unsigned tries = 0; atomic_exchange(&pool->busy, (uint32_t)1); tries++) {
        if (tries < LOCKRUN_SPINS) lockrun_rest_moment();
        else sched_yield();
    }
}

static inline lockrun_caller *lockrun_pool_pop(lockrun_pool *pool) {
    lockrun_pool_enter(pool);
    lockrun_caller *caller = pool->count ? &pool->nodes->caller[pool->left[--pool->count]] : 0;
    lockrun_put(&pool->busy, 0);
    return caller;
}

static inline void lockrun_pool_push(lockrun_pool *pool, lockrun_caller *caller) {
    lockrun_pool_enter(pool);
    pool->left[pool->count++] = caller->number;
    lockrun_put(&pool->busy, 0);
}

/* Who waits counts itself, then looks once more, and then sleeps while `given` is as it was before; who gives one back puts it into
 * the list, then changes `given`, and then looks whether somebody waits. */
static inline lockrun_caller *lockrun_pool_wait(lockrun_pool *pool, int64_t end) {
    for (;;) {
        const uint32_t before = lockrun_get(&pool->given.word);
        atomic_fetch_add(&pool->waiting, (uint32_t)1);
        lockrun_caller *caller = lockrun_pool_pop(pool);
        if (!caller) lockrun_sleep_on(&pool->given, before, end);
        atomic_fetch_sub(&pool->waiting, (uint32_t)1);
        if (caller || (caller = lockrun_pool_pop(pool)) || lockrun_is_over(end)) return caller;
    }
}

/* A caller that holds and asks nothing, for this thread until it gives it back; null, if there is none within so many
 * milliseconds. */
static inline lockrun_caller *lockrun_take_caller(lockrun_pool *pool, int64_t patience) {
    LOCKRUN_UNSEEN_BEGIN;
    lockrun_caller *caller = lockrun_pool_pop(pool);
    if (!caller && patience != 0) caller = lockrun_pool_wait(pool, lockrun_end_of(patience));
    LOCKRUN_UNSEEN_END;
    if (caller) lockrun_comes(caller);
    return caller;
}

/* Gives a caller back; what it still asks for is given up, and what it holds is dropped: LOCKRUN_OK, or what kept it from that, and
 * then it isn't given back. */
static inline uint32_t lockrun_give_caller(lockrun_pool *pool, lockrun_caller *caller) {
    if (caller->waits || caller->withdraws || caller->holds) {
        const uint32_t code = lockrun_abort(caller);
        if (code != LOCKRUN_DROPPED) return code;
    }
    lockrun_goes(caller);
    LOCKRUN_UNSEEN_BEGIN;
    lockrun_watch_no_more(caller);
    lockrun_pool_push(pool, caller);
    atomic_fetch_add(&pool->given.word, (uint32_t)1);
    if (lockrun_get(&pool->waiting)) lockrun_wake_on(&pool->given, 0);
    LOCKRUN_UNSEEN_END;
    return LOCKRUN_OK;
}
#endif
