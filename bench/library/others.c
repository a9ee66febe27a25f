/* The same pairs by a table of pthread_rwlock_t, and where WITH_DB is defined by lock_get and lock_put of Berkeley DB.
 *
 * usage: others rwlock|db CALLERS one|own write|read PAIRS */
#define _DEFAULT_SOURCE
#ifdef WITH_DB
#include <db.h>
#endif
#include <pthread.h>
#include <stdio.h>
#include <stdlib.h>
#include <string.h>
#include <time.h>

enum { MOST_CALLERS = 8 };

static struct { pthread_rwlock_t lock; char apart[72]; } table[MOST_CALLERS];
static int by_db, one_set, by_write, pairs;
static pthread_barrier_t start;
static struct { double begun, ended; } times[MOST_CALLERS];

static double seconds(void) {
    struct timespec time;
    clock_gettime(CLOCK_MONOTONIC, &time);
    return (double)time.tv_sec + (double)time.tv_nsec * 1e-9;
}

static void pair_of_table(long set) {
    if (by_write) pthread_rwlock_wrlock(&table[set].lock); else pthread_rwlock_rdlock(&table[set].lock);
    pthread_rwlock_unlock(&table[set].lock);
}

#ifdef WITH_DB
static DB_ENV *all;

static void want(int code) { if (code) { fprintf(stderr, "others: %s\n", db_strerror(code)); exit(1); } }

static void open_db(void) {
    want(db_env_create(&all, 0));
    want(all->open(all, NULL, DB_CREATE | DB_INIT_LOCK | DB_PRIVATE | DB_THREAD, 0));
}

static void pairs_of_db(long set) {
    u_int32_t locker;
    DB_LOCK lock;
    char name[3] = {'s', (char)('0' + set), 0};
    DBT object = {.data = name, .size = 2};
    want(all->lock_id(all, &locker));
    for (int k = 0; k < pairs; k++) {
        want(all->lock_get(all, locker, 0, &object, by_write ? DB_LOCK_WRITE : DB_LOCK_READ, &lock));
        want(all->lock_put(all, &lock));
    }
}
#else
static void open_db(void) { fputs("others: made without WITH_DB\n", stderr); exit(1); }
static void pairs_of_db(long set) { (void)set; }
#endif

static void *work(void *argument) {
    long number = (long)argument, set = one_set ? 0 : number;
    pthread_barrier_wait(&start);
    times[number].begun = seconds();
    if (by_db) pairs_of_db(set); else for (int k = 0; k < pairs; k++) pair_of_table(set);
    times[number].ended = seconds();
    return 0;
}

int main(int count, char **words) {
    if (count != 6) { fputs("usage: others rwlock|db CALLERS one|own write|read PAIRS\n", stderr); return 1; }
    int callers = atoi(words[2]);
    if (callers < 1 || callers > MOST_CALLERS) { fputs("others: 1 to 8 callers\n", stderr); return 1; }
    by_db = !strcmp(words[1], "db");
    one_set = !strcmp(words[3], "one");
    by_write = strcmp(words[4], "read") != 0;
    pairs = atoi(words[5]) / callers;
    for (int k = 0; k < MOST_CALLERS; k++) pthread_rwlock_init(&table[k].lock, 0);
    if (by_db) open_db();
    pthread_t threads[MOST_CALLERS];
    pthread_barrier_init(&start, 0, (unsigned)callers);
    for (long k = 0; k < callers; k++) pthread_create(&threads[k], 0, work, (void *)k);
    for (int k = 0; k < callers; k++) pthread_join(threads[k], 0);
    double begun = times[0].begun, ended = times[0].ended;
    for (int k = 1; k < callers; k++) {
        if (times[k].begun < begun) begun = times[k].begun;
        if (times[k].ended > ended) ended = times[k].ended;
    }
    printf("%d %.0f\n", pairs * callers, pairs * (double)callers / (ended - begun));
    return 0;
}
