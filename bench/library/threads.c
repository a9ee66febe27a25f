/* Locks of callers on threads, as long rounds by the clock: by lockrun_easy.h, by a table of pthread_mutex_t, and where WITH_DB is
 * defined by lock_get and lock_put of Berkeley DB. With `own` each thread locks and unlocks a set of its own, with `one` all the same
 * one, to write, and with `bank` it makes transfers as clients/c/bank.c does: three locks and three unlocks (of mutexes two).
 *
 * usage: threads ours|db|mutex own|one|bank THREADS NODES MILLISECONDS ROUNDS: it prints how many pairs, or transfers, a second are the
 * median of the rounds that count, how many of the rounds these are, and the median of all. A round counts in which its threads
 * waited for a processor less than a twentieth of its time; where there are more threads than processors each counts. */
#define _GNU_SOURCE
#include "lockrun_easy.h"
#ifdef WITH_DB
#include <db.h>
#endif
#include <pthread.h>
#include <stdio.h>
#include <unistd.h>

enum { MOST_THREADS = 64, MOST_ROUNDS = 1000, ACCOUNTS = 4, MOST_SETS = MOST_THREADS + 1, BEFORE_LOOK = 16 };

enum kind { BY_LIBRARY, BY_DB, BY_MUTEX };

typedef struct { _Alignas(128) long made, delayed; lockrun_caller *caller; uint32_t locker; } worker;

static enum kind kind;
static int is_bank, is_one, count, on;
static lockrun_nodes nodes;
static worker workers[MOST_THREADS];
static struct { _Alignas(128) pthread_mutex_t lock; } table[MOST_SETS];
static _Alignas(128) long money[ACCOUNTS];
static _Alignas(128) atomic_int is_over;
static pthread_barrier_t barrier;

static void want(long code, long wanted) {
    if (code == wanted) return;
    fprintf(stderr, "threads: %ld and not %ld\n", code, wanted);
    exit(1);
}

#ifdef WITH_DB
static DB_ENV *all;

static void open_db(void) {
    want(db_env_create(&all, 0), 0);
    want(all->open(all, NULL, DB_CREATE | DB_INIT_LOCK | DB_PRIVATE | DB_THREAD, 0), 0);
}

static uint32_t new_locker(void) {
    u_int32_t locker;
    want(all->lock_id(all, &locker), 0);
    return locker;
}

static void get_db(worker *own, int set, int intention, DB_LOCK *lock) {
    DBT object;
    memset(&object, 0, sizeof object);
    object.data = &set;
    object.size = sizeof set;
    want(all->lock_get(all, own->locker, 0, &object, intention ? DB_LOCK_IWRITE : DB_LOCK_WRITE, lock), 0);
}

static void put_db(DB_LOCK *lock) { want(all->lock_put(all, lock), 0); }
#else
typedef int DB_LOCK;
static void open_db(void) { fputs("threads: made without WITH_DB\n", stderr); exit(1); }
static uint32_t new_locker(void) { return 0; }
static void get_db(worker *own, int set, int intention, DB_LOCK *lock) { (void)own; (void)set; (void)intention; (void)lock; }
static void put_db(DB_LOCK *lock) { (void)lock; }
#endif

static void lock(worker *own, int set, int intention, DB_LOCK *taken) {
    const enum lockrun_mode mode = intention ? LOCKRUN_INTENTION_WRITE : LOCKRUN_WRITE;
    if (kind == BY_LIBRARY) want(lockrun_lock(own->caller, (uint32_t)set, mode, LOCKRUN_FOREVER), LOCKRUN_GRANTED);
    else if (kind == BY_DB) get_db(own, set, intention, taken);
    else if (!intention) pthread_mutex_lock(&table[set].lock);
}

static void unlock(worker *own, int set, int intention, DB_LOCK *taken) {
    const enum lockrun_mode mode = intention ? LOCKRUN_INTENTION_WRITE : LOCKRUN_WRITE;
    if (kind == BY_LIBRARY) want(lockrun_unlock(own->caller, (uint32_t)set, mode, LOCKRUN_FOREVER), LOCKRUN_UNLOCKED);
    else if (kind == BY_DB) put_db(taken);
    else if (!intention) pthread_mutex_unlock(&table[set].lock);
}

static void transfer(worker *own, int number, long k) {
    const int from = (int)((number + k) % ACCOUNTS), to = (int)((from + 1 + k % (ACCOUNTS - 1)) % ACCOUNTS);
    const int lesser = 1 + (from < to ? from : to), greater = 1 + (from < to ? to : from);
    DB_LOCK bank, first, second;
    lock(own, 0, 1, &bank);
    lock(own, lesser, 0, &first);
    lock(own, greater, 0, &second);
    money[from] -= 5;
    money[to] += 5;
    unlock(own, greater, 0, &second);
    unlock(own, lesser, 0, &first);
    unlock(own, 0, 1, &bank);
}

static void pair(worker *own, int number) {
    DB_LOCK held;
    lock(own, number, 0, &held);
    unlock(own, number, 0, &held);
}

/* How long the thread was ready and had no processor so far, in nanoseconds. */
static long delay(void) {
    long run = 0, late = 0;
    FILE *file = fopen("/proc/thread-self/schedstat", "r");
    if (!file) return 0;
    if (fscanf(file, "%ld %ld", &run, &late) != 2) late = 0;
    fclose(file);
    return late;
}

static void *work(void *argument) {
    worker *own = (worker *)argument;
    const int number = (int)(own - workers);
    long made = 0;
    pthread_barrier_wait(&barrier);
    const long late = delay();
    while (!atomic_load_explicit(&is_over, memory_order_relaxed))
        for (int k = 0; k < BEFORE_LOOK; k++, made++) {
            if (is_bank) transfer(own, number, made);
            else pair(own, is_one ? 0 : number);
        }
    own->delayed = delay() - late;
    own->made = made;
    return 0;
}

/* One round: how many a second, and whether it counts. */
static double run_round(long milliseconds, int *counts) {
    pthread_t threads[MOST_THREADS];
    const struct timespec time = {milliseconds / 1000, milliseconds % 1000 * 1000000};
    long made = 0, delayed = 0;
    is_over = 0;
    pthread_barrier_init(&barrier, 0, (unsigned)count + 1);
    for (int k = 0; k < count; k++) pthread_create(&threads[k], 0, work, &workers[k]);
    pthread_barrier_wait(&barrier);
    const int64_t begun = lockrun_now();
    nanosleep(&time, 0);
    is_over = 1;
    const int64_t took = lockrun_now() - begun;
    for (int k = 0; k < count; k++) pthread_join(threads[k], 0);
    pthread_barrier_destroy(&barrier);
    for (int k = 0; k < count; k++) { made += workers[k].made; delayed += workers[k].delayed; }
    *counts = count > sysconf(_SC_NPROCESSORS_ONLN) || (double)delayed < 0.05 * (double)count * (double)took;
    return (double)made * 1e9 / (double)took;
}

static void open_ours(void) {
    static char names[MOST_SETS][8];
    lockrun_new_set sets[MOST_SETS];
    char text[4096];
    int length = sprintf(text, "nodes %d\n", on);
    for (int k = 0; k < count; k++) length += sprintf(text + length, "client c%d at %d\n", k, k % on);
    for (int k = 0; k < MOST_SETS; k++) {
        sets[k].length = (size_t)sprintf(names[k], "s%d", k);
        sets[k].name = (const uint8_t *)names[k];
        sets[k].parent = (const uint8_t *)names[0];
        sets[k].parent_length = is_bank && k ? 2 : 0;
    }
    want(lockrun_nodes_open_sets(&nodes, text, (size_t)length, sets, MOST_SETS, (uint64_t)1 << 55), LOCKRUN_OK);
}

static int compare(const void *one, const void *other) {
    const double a = *(const double *)one, b = *(const double *)other;
    return (a > b) - (a < b);
}

static double median(double *rates, int found) {
    qsort(rates, (size_t)found, sizeof *rates, compare);
    return found ? rates[found / 2] : 0;
}

int main(int words, char **word) {
    static double good[MOST_ROUNDS], every[MOST_ROUNDS];
    if (words != 7) { fputs("usage: threads ours|db|mutex own|one|bank THREADS NODES MILLISECONDS ROUNDS\n", stderr); return 1; }
    kind = !strcmp(word[1], "ours") ? BY_LIBRARY : !strcmp(word[1], "db") ? BY_DB : BY_MUTEX;
    is_bank = !strcmp(word[2], "bank");
    is_one = !strcmp(word[2], "one");
    count = atoi(word[3]);
    on = atoi(word[4]);
    const int rounds = atoi(word[6]);
    if (count < 1 || count > MOST_THREADS || on < 1 || on > 64 || rounds < 1 || rounds > MOST_ROUNDS) {
        fputs("threads: 1 to 64 threads and nodes, 1 to 1000 rounds\n", stderr);
        return 1;
    }
    if (kind == BY_LIBRARY) open_ours();
    if (kind == BY_DB) open_db();
    for (int k = 0; k < MOST_SETS; k++) pthread_mutex_init(&table[k].lock, 0);
    for (int k = 0; k < count; k++) {
        if (kind == BY_LIBRARY) workers[k].caller = &nodes.caller[k];
        if (kind == BY_DB) workers[k].locker = new_locker();
    }
    int found = 0;
    for (int k = 0; k < rounds; k++) {
        int counts;
        every[k] = run_round(atol(word[5]), &counts);
        if (counts) good[found++] = every[k];
    }
    printf("%.0f %d %.0f\n", median(good, found), found, median(every, rounds));
    long sum = 0;
    for (int k = 0; k < ACCOUNTS; k++) sum += money[k];
    want(sum, 0);
    if (kind == BY_LIBRARY) lockrun_nodes_free(&nodes);
    return 0;
}
