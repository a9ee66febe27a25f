/* A server whose threads come and go: 64 threads over 20 callers and 100,000 accounts, whose names are keys. Each takes a caller
 * for a few transfers under locks with deadlines, of which some are cancelled, and gives it back, sometimes with locks and a wait
 * left behind. Half of the accounts that are asked for are 16 of them, whose names are exact.
 *
 * usage: server [SECONDS [NODES [rings]]]: else 5 seconds, or so many as LOCKRUN_SECONDS says, and 2 nodes. With `rings` some lock in
 * any order and without a time, and of those who wait in a ring the youngest gives up. The status is 0 if no two threads were at one
 * account, the sum of all is right, the memory of the process stays, those who waited for two milliseconds or more took less than a
 * hundredth of that time of a processor, and some gave up where there are rings, and else nobody. */
#define _POSIX_C_SOURCE 200809L
#include "lockrun_error.h"
#include "lockrun_keys.h"
#include "lockrun_pool.h"
#include <pthread.h>
#include <stdio.h>

enum { THREADS = 64, CALLERS = 20, ACCOUNTS = 100000, HOT = 16, FAMILIES = 4096, AFTER = 20, FIRST = 100, VISIT = 8, LATE = 2000000 };

static lockrun_nodes nodes;
static lockrun_pool pool;
static long money[ACCOUNTS];
static int at_it[ACCOUNTS]; /* plain words: nothing but the locks keeps threads apart */
static atomic_int over, bad;
static int with_rings;
static atomic_long transfers, given_up, victims, cancelled, no_caller, long_waits, long_wall, long_spent;

typedef struct { unsigned seed; } worker;

static unsigned draw(worker *own, unsigned below) {
    own->seed = own->seed * 1103515245 + 12345;
    return (own->seed >> 8) % below;
}

static void want(const char *what, uint32_t code, int holds) {
    if (holds) return;
    fprintf(stderr, "server: %s: %u, %s\n", what, code, lockrun_error(code));
    bad = 1;
}

static int64_t thread_time(void) {
    struct timespec time;
    clock_gettime(CLOCK_THREAD_CPUTIME_ID, &time);
    return (int64_t)time.tv_sec * 1000000000 + time.tv_nsec;
}

/* What a call took that began then, if it waited long: by the clock, and of the processor. */
static void count_wait(int64_t begun, int64_t spent) {
    const int64_t took = lockrun_now() - begun;
    if (took < LATE) return;
    atomic_fetch_add(&long_waits, 1);
    atomic_fetch_add(&long_wall, took / 1000);
    atomic_fetch_add(&long_spent, (thread_time() - spent) / 1000);
}

static uint32_t lock(lockrun_caller *caller, uint32_t set, enum lockrun_mode mode, int64_t patience) {
    const int64_t begun = lockrun_now(), spent = thread_time();
    const uint32_t code = lockrun_lock(caller, set, mode, patience);
    count_wait(begun, spent);
    return code;
}

static unsigned account(worker *own) { return draw(own, 2) ? draw(own, HOT) : draw(own, ACCOUNTS); }

static uint32_t set_of(unsigned number) {
    char key[32];
    uint32_t set = 0;
    const size_t length = (size_t)sprintf(key, "account %u", number);
    const uint32_t code = number < HOT ? lockrun_name(&nodes, key, length, "", 0, &set) : lockrun_key_of(&nodes, key, length, "", 0, &set);
    want("key", code, code == LOCKRUN_OK);
    return set;
}

/* Moves money from one to the other, which this thread has to itself. */
static void move_money(unsigned from, unsigned to) {
    if (at_it[from]++ || (from != to && at_it[to]++)) want("two are at one account", from, 0);
    const long before = money[from];
    sched_yield();
    money[from] = before - 1;
    money[to] += 1;
    if (--at_it[from] || (from != to && --at_it[to])) want("two are at one account", to, 0);
    atomic_fetch_add(&transfers, 1);
}

/* Locks both as they come, and waits for as long as it takes. */
static int lock_any(lockrun_caller *caller, uint32_t one, uint32_t other) {
    uint32_t code = lock(caller, one, LOCKRUN_WRITE, LOCKRUN_FOREVER);
    if (code == LOCKRUN_GRANTED && one != other) code = lock(caller, other, LOCKRUN_WRITE, LOCKRUN_FOREVER);
    want("lock", code, code == LOCKRUN_GRANTED || (code == LOCKRUN_WITHDRAWN && lockrun_was_victim(caller)));
    if (code != LOCKRUN_GRANTED) atomic_fetch_add(&victims, 1);
    return code == LOCKRUN_GRANTED;
}

/* Locks in the order of sets, so that none waits in a ring; each within its time. */
static int lock_both(worker *own, lockrun_caller *caller, uint32_t one, uint32_t other) {
    const uint32_t lesser = one < other ? one : other, greater = one < other ? other : one;
    if (with_rings && draw(own, 2)) return lock_any(caller, one, other);
    uint32_t code = lock(caller, lesser, LOCKRUN_WRITE, draw(own, 8) ? draw(own, 6) : 2000);
    if (code == LOCKRUN_GRANTED && lesser != greater)
        code = lock(caller, greater, LOCKRUN_WRITE, draw(own, 8) ? draw(own, 6) : 2000);
    want("lock", code, code == LOCKRUN_GRANTED || code == LOCKRUN_WITHDRAWN);
    if (code != LOCKRUN_GRANTED) atomic_fetch_add(&given_up, 1);
    return code == LOCKRUN_GRANTED;
}

static void transfer(worker *own, lockrun_caller *caller) {
    const unsigned from = account(own), to = account(own);
    if (lock_both(own, caller, set_of(from), set_of(to))) {
        move_money(from, to);
        if (!draw(own, 64)) {
            struct timespec time = {0, 3000000};
            nanosleep(&time, 0);
        }
    }
    const uint32_t code = lockrun_abort(caller);
    want("abort", code, code == LOCKRUN_DROPPED);
}

/* Asks for a lock, and cancels that where it isn't there at once. */
static void cancel(worker *own, lockrun_caller *caller) {
    uint32_t code = lockrun_ask(caller, set_of(account(own)), LOCKRUN_WRITE, draw(own, 2));
    if (code == LOCKRUN_WAITS) {
        atomic_fetch_add(&cancelled, 1);
        code = lockrun_give_up(caller);
    }
    want("cancel", code, code == LOCKRUN_GRANTED || code == LOCKRUN_WITHDRAWN || code == LOCKRUN_WITHHELD);
    code = lockrun_abort(caller);
    want("abort", code, code == LOCKRUN_DROPPED);
}

static void visit(worker *own, lockrun_caller *caller) {
    for (unsigned k = 1 + draw(own, VISIT); k > 0 && !over; k--) {
        if (draw(own, 8)) transfer(own, caller);
        else cancel(own, caller);
    }
    if (draw(own, 8)) return;
    (void)lockrun_lock(caller, set_of(account(own)), LOCKRUN_READ, 1);
    (void)lockrun_ask(caller, set_of(account(own)), LOCKRUN_READ, 0);
}

static void *serve(void *argument) {
    worker *own = (worker *)argument;
    while (!over) {
        const int64_t begun = lockrun_now(), spent = thread_time();
        lockrun_caller *caller = lockrun_take_caller(&pool, draw(own, 4) ? LOCKRUN_FOREVER : (int64_t)draw(own, 5));
        count_wait(begun, spent);
        if (!caller) { atomic_fetch_add(&no_caller, 1); continue; }
        visit(own, caller);
        const uint32_t code = lockrun_give_caller(&pool, caller);
        want("give", code, code == LOCKRUN_OK);
    }
    return 0;
}

/* KiB of the process that are resident. */
static long resident(void) {
    long size = 0, pages = 0;
    FILE *file = fopen("/proc/self/statm", "r");
    if (!file) return 0;
    if (fscanf(file, "%ld %ld", &size, &pages) != 2) pages = 0;
    fclose(file);
    return pages * 4;
}

static void open_nodes(int count) {
    char text[4096];
    int length = sprintf(text, "nodes %d\n", count);
    for (int k = 0; k < CALLERS; k++) length += sprintf(text + length, "client c%d at %d\n", k, k % count);
    const uint32_t code = lockrun_nodes_open_names(&nodes, text, (size_t)length, FAMILIES, 1, HOT, (uint64_t)1 << 55);
    want("open", code, code == LOCKRUN_OK && lockrun_victims(&nodes, with_rings ? AFTER : -1) == LOCKRUN_OK);
    if (code != LOCKRUN_OK || lockrun_pool_open(&pool, &nodes) != LOCKRUN_OK) exit(1);
}

/* Each set is touched once at each node, so that what memory they take is taken. */
static void touch_all(void) {
    for (uint32_t set = 0; set < FAMILIES + HOT; set++)
        for (int k = 0; k < CALLERS; k++) {
            if (k && nodes.caller[k].home == nodes.caller[0].home) continue;
            if ((size_t)k >= nodes.count) break;
            const uint32_t code = lockrun_lock(&nodes.caller[k], set, LOCKRUN_WRITE, 0);
            want("touch", code, code == LOCKRUN_GRANTED);
            want("touch", lockrun_abort(&nodes.caller[k]), 1);
        }
}

int main(int count, char **words) {
    static worker workers[THREADS];
    pthread_t threads[THREADS];
    const char *asked = getenv("LOCKRUN_SECONDS");
    const int seconds = count > 1 ? atoi(words[1]) : asked ? atoi(asked) : 5;
    with_rings = count > 3 && !strcmp(words[3], "rings");
    open_nodes(count > 2 ? atoi(words[2]) : 2);
    for (int k = 0; k < ACCOUNTS; k++) money[k] = FIRST;
    touch_all();
    for (int k = 0; k < THREADS; k++) {
        workers[k].seed = 12345 + 999 * (unsigned)k;
        pthread_create(&threads[k], 0, serve, &workers[k]);
    }
    struct timespec half = {seconds / 2, seconds % 2 * 500000000};
    nanosleep(&half, 0);
    const long before = resident();
    nanosleep(&half, 0);
    const long more = resident() - before;
    over = 1;
    for (int k = 0; k < THREADS; k++) pthread_join(threads[k], 0);
    long sum = 0;
    for (int k = 0; k < ACCOUNTS; k++) sum += money[k];
    const double share = (double)long_spent / (double)(long_wall + 1);
    printf("server: %ld transfers in %d seconds, %ld given up, %ld victims, %ld cancelled, %ld times no caller; %ld long waits of %.1f ms "
           "took %.2f%% of it from a processor; %ld KiB more; all together %ld\n",
           (long)transfers, seconds, (long)given_up, (long)victims, (long)cancelled, (long)no_caller, (long)long_waits,
           long_waits ? (double)long_wall / 1000 / (double)long_waits : 0.0, 100 * share, more, sum);
    want("the sum", (uint32_t)sum, sum == (long)ACCOUNTS * FIRST);
    want("the memory", (uint32_t)more, more < 4096);
    want("the time of waiters", (uint32_t)(1000 * share), share < 0.01);
    want("victims", (uint32_t)victims, with_rings ? victims > 0 : victims == 0);
    lockrun_pool_free(&pool);
    lockrun_nodes_free(&nodes);
    return bad;
}
