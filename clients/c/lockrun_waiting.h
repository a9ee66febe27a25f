/* lockrun_waiting.h: words that several threads write, and on which a thread sleeps until another one wakes it: by futex on
 * Linux, and elsewhere, or with LOCKRUN_BY_CONDITION, by a condition variable. All orders are sequentially consistent.
 */
#ifndef LOCKRUN_WAITING_H
#define LOCKRUN_WAITING_H
#include <stdint.h>
#include <time.h>
#ifndef CLOCK_MONOTONIC
#error "clocks and threads of POSIX are used: compile with -std=gnu11, or with -D_POSIX_C_SOURCE=200809L"
#endif
#if !defined(__linux__) && !defined(LOCKRUN_BY_CONDITION)
#define LOCKRUN_BY_CONDITION
#endif
#ifdef LOCKRUN_BY_CONDITION
#include <pthread.h>
#else
#include <linux/futex.h>
#include <sys/syscall.h>
#ifdef __cplusplus
#include <unistd.h>
#else
extern long syscall(long number, ...);
#endif
#endif
#ifdef __cplusplus
#include <atomic>
typedef std::atomic<uint32_t> lockrun_word;
typedef std::atomic<uint64_t> lockrun_row; /* 64 bits of a mask */
#else
#include <stdatomic.h>
typedef _Atomic uint32_t lockrun_word;
typedef _Atomic uint64_t lockrun_row;
#endif

enum { LOCKRUN_FOREVER = -1 };

static inline uint32_t lockrun_get(const lockrun_word *word) { return atomic_load(word); }

static inline void lockrun_put(lockrun_word *word, uint32_t value) { atomic_store(word, value); }

/* Nanoseconds by the clock. */
static inline int64_t lockrun_now(void) {
    struct timespec time;
    clock_gettime(CLOCK_MONOTONIC, &time);
    return (int64_t)time.tv_sec * 1000000000 + time.tv_nsec;
}

/* When so many milliseconds are over, by that clock: LOCKRUN_FOREVER, if it doesn't count so far. */
static inline int64_t lockrun_end_of(int64_t patience) {
    if (patience < 0) return LOCKRUN_FOREVER;
    const int64_t now = lockrun_now();
    return patience > (INT64_MAX - now) / 1000000 ? (int64_t)LOCKRUN_FOREVER : now + patience * 1000000;
}

static inline int lockrun_is_over(int64_t end) { return end >= 0 && lockrun_now() >= end; }

/* The earlier one of two ends, of which each may be LOCKRUN_FOREVER. */
static inline int64_t lockrun_earlier(int64_t one, int64_t other) {
    return one < 0 || (other >= 0 && other < one) ? other : one;
}

/* A word on which threads sleep. Zeros are one, where it sleeps by futex. */
typedef struct {
    lockrun_word word;
#ifdef LOCKRUN_BY_CONDITION
    pthread_mutex_t mutex;
    pthread_cond_t changed;
#endif
} lockrun_signal;

static inline void lockrun_signal_begin(lockrun_signal *signal) {
#ifdef LOCKRUN_BY_CONDITION
    pthread_mutex_init(&signal->mutex, 0);
    pthread_cond_init(&signal->changed, 0);
#endif
    lockrun_put(&signal->word, 0);
}

static inline void lockrun_signal_end(lockrun_signal *signal) {
#ifdef LOCKRUN_BY_CONDITION
    pthread_cond_destroy(&signal->changed);
    pthread_mutex_destroy(&signal->mutex);
#endif
    (void)signal;
}

#ifdef LOCKRUN_BY_CONDITION
/* The word is looked at, and woken at, under the mutex: a change before the wake is seen, or the wake comes in the sleep. */
static inline void lockrun_sleep_on(lockrun_signal *signal, uint32_t value, int64_t end) {
    struct timespec until;
    int over = 0;
    if (end >= 0) {
        const int64_t left = end - lockrun_now();
        clock_gettime(CLOCK_REALTIME, &until);
        const int64_t at = (int64_t)until.tv_nsec + (left > 0 ? left : 0);
        until.tv_sec += (time_t)(at / 1000000000);
        until.tv_nsec = (long)(at % 1000000000);
    }
    pthread_mutex_lock(&signal->mutex);
    while (lockrun_get(&signal->word) == value && !over)
        over = end < 0 ? pthread_cond_wait(&signal->changed, &signal->mutex)
                       : pthread_cond_timedwait(&signal->changed, &signal->mutex, &until);
    pthread_mutex_unlock(&signal->mutex);
}

static inline void lockrun_wake_on(lockrun_signal *signal, int all) {
    (void)all;
    pthread_mutex_lock(&signal->mutex);
    pthread_cond_broadcast(&signal->changed);
    pthread_mutex_unlock(&signal->mutex);
}
#else
/* Sleeps while the word has this value, until it is woken, or the time is over: the kernel looks at the word when it puts the
 * thread to sleep, so that a change before the wake is seen, or the wake comes in the sleep. */
static inline void lockrun_sleep_on(lockrun_signal *signal, uint32_t value, int64_t end) {
    struct timespec until;
    until.tv_sec = (time_t)(end / 1000000000);
    until.tv_nsec = (long)(end % 1000000000);
    syscall(SYS_futex, (void *)&signal->word, FUTEX_WAIT_BITSET | FUTEX_PRIVATE_FLAG, value, end < 0 ? (struct timespec *)0 : &until,
            (void *)0, FUTEX_BITSET_MATCH_ANY);
}

/* Wakes those who sleep on the word, which was changed before: all, or one. */
static inline void lockrun_wake_on(lockrun_signal *signal, int all) {
    syscall(SYS_futex, (void *)&signal->word, FUTEX_WAKE | FUTEX_PRIVATE_FLAG, all ? INT32_MAX : 1, (void *)0, (void *)0, 0);
}
#endif

/* Lets the processor rest for a moment, in a loop that looks at a word. */
static inline void lockrun_rest_moment(void) {
#if defined(__x86_64__) || defined(__i386__)
    __builtin_ia32_pause();
#endif
}
#endif
