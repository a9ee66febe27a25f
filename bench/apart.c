/* Counts what nodes in processes of their own make: locks a second, and letters and bytes a lock. It is compiled for one transport
 * (clients/c/carrier.h).
 *
 * usage: apart FOLDER START MILLISECONDS one|read|own [NODE NODES]: for so long a caller at each node locks and unlocks one set in
 * `write`, or in `read`, or its own set in `write`; by MPI the last two are those of MPI. Node 0 prints how many locks all had a
 * second, and letters, bytes and sleeps a lock.
 *
 * usage: apart seal: what a seal costs, in nanoseconds a frame: a frame with a wrong seal is refused, less one of another service,
 * whose seal isn't looked at. */
#define _POSIX_C_SOURCE 200809L
#include "carrier.h"
#include <fcntl.h>
#include <stdatomic.h>
#include <stdio.h>
#include <sys/mman.h>
#include <unistd.h>

enum { MOST_NODES = 16, MOMENT = 1, BETWEEN = 256, FRAMES_OF_SEAL = 200000 };

typedef struct {
    atomic_uint opened, done;
    atomic_ulong locks[MOST_NODES], nanoseconds[MOST_NODES], sent[MOST_NODES], bytes[MOST_NODES], sleeps[MOST_NODES];
} seen;

static seen *all;
static lockrun_apart apart;
static lockrun_session caller;
static const uint8_t key[] = "a key that the nodes of this bank share";
static unsigned long sleeps;
static int (*sleep_of)(void *, lockrun_apart *, int64_t);

static int count_sleeps(void *transport, lockrun_apart *at, int64_t patience) {
    sleeps += patience != 0;
    return sleep_of(transport, at, patience);
}

static void want(const char *what, uint32_t code, uint32_t wanted) {
    if (code == wanted) return;
    fprintf(stderr, "apart: node %u: %s: %u and not %u\n", apart.me, what, code, wanted);
    _exit(1);
}

static int64_t now(void) {
    struct timespec time;
    clock_gettime(CLOCK_MONOTONIC, &time);
    return (int64_t)time.tv_sec * 1000000000 + time.tv_nsec;
}

static void map_all(const char *folder) {
    char name[4096];
    snprintf(name, sizeof name, "%s/seen", folder);
    int file = open(name, O_RDWR | O_CREAT, 0600);
    if (file < 0 || ftruncate(file, sizeof *all)) { perror(name); exit(1); }
    all = (seen *)mmap(0, sizeof *all, PROT_READ | PROT_WRITE, MAP_SHARED, file, 0);
    if (all == MAP_FAILED) { perror(name); exit(1); }
    close(file);
}

/* A script of so many nodes, with a set and a client for each. */
static uint32_t open_node(lockrun_apart *at, uint32_t me, uint32_t nodes, uint64_t start) {
    char text[4096];
    int length = sprintf(text, "version 3\nnodes %u\n", nodes);
    for (uint32_t k = 0; k < (nodes < 8 ? nodes : 8); k++) length += sprintf(text + length, "set s%u\n", k);
    for (uint32_t k = 0; k < nodes; k++) length += sprintf(text + length, "client c%u at %u\n", k, k);
    return lockrun_apart_open(at, text, (size_t)length, me, nodes, key, sizeof key, start);
}

static void serve_until(atomic_uint *count, uint32_t wanted) {
    while (atomic_load(count) < wanted) want("serve", lockrun_sleep(&apart, MOMENT), LOCKRUN_OK);
}

static void lock_for(int64_t milliseconds, uint32_t set, uint32_t mode) {
    int64_t begin = now(), end = begin + milliseconds * 1000000;
    unsigned long locks = 0;
    for (; now() < end; locks++) {
        want("lock", lockrun_call_apart(&apart, &caller, LOCKRUN_LOCK, set, mode, 0, -1), LOCKRUN_GRANTED);
        want("unlock", lockrun_call_apart(&apart, &caller, LOCKRUN_UNLOCK, set, mode, 0, -1), LOCKRUN_UNLOCKED);
        if (locks % BETWEEN == 0) want("forget", lockrun_forget(&apart.node), LOCKRUN_OK);
    }
    atomic_store(&all->locks[apart.me], locks);
    atomic_store(&all->nanoseconds[apart.me], (unsigned long)(now() - begin));
    atomic_store(&all->sent[apart.me], apart.sent);
    atomic_store(&all->bytes[apart.me], apart.bytes);
    atomic_store(&all->sleeps[apart.me], sleeps);
}

static void print_all(const char *work) {
    double locks = 0, sent = 0, bytes = 0, slept = 0, longest = 0;
    for (uint32_t k = 0; k < apart.nodes; k++) {
        double seconds = (double)all->nanoseconds[k] / 1e9;
        locks += (double)all->locks[k];
        sent += (double)all->sent[k];
        bytes += (double)all->bytes[k];
        slept += (double)all->sleeps[k];
        if (seconds > longest) longest = seconds;
    }
    printf("%-5s %u processes: %8.0f locks a second; a lock: %.2f letters, %.2f sleeps; a letter: %.0f bytes\n", work, apart.nodes,
           locks / longest, sent / locks, slept / locks, sent > 0 ? bytes / sent : 0);
}

static int run(char **words, uint32_t me, uint32_t nodes) {
    carrier carrier;
    const char *work = words[4];
    int is_own = strcmp(work, "own") == 0;
    map_all(words[1]);
    want("open", open_node(&apart, me, nodes, strtoull(words[2], 0, 10)), LOCKRUN_OK);
    want("take", lockrun_take_session(&apart.node, &caller), LOCKRUN_OK);
    if (!carrier_begin(&carrier, &apart, words[1])) { fprintf(stderr, "apart: no transport\n"); return 1; }
    sleep_of = apart.sleep;
    apart.sleep = count_sleeps;
    atomic_fetch_add(&all->opened, 1);
    serve_until(&all->opened, nodes);
    lock_for(atoi(words[3]), is_own ? me % 8 : 0, strcmp(work, "read") == 0 ? LOCKRUN_READ : LOCKRUN_WRITE);
    atomic_fetch_add(&all->done, 1);
    serve_until(&all->done, nodes);
    for (int k = 0; k < 20; k++) want("serve", lockrun_sleep(&apart, MOMENT), LOCKRUN_OK);
    if (me == 0) print_all(work);
    atomic_fetch_add(&all->done, 1);
    serve_until(&all->done, 2 * nodes);
    lockrun_free(&caller);
    carrier_end(&carrier);
    lockrun_apart_free(&apart);
    return 0;
}

#ifndef LOCKRUN_BY_MPI
/* How long a frame takes that is refused so, in nanoseconds. */
static double refused(lockrun_apart *at, uint32_t from, const uint8_t *frame, size_t length, uint32_t code) {
    size_t used = 0;
    int64_t begin = now();
    for (int k = 0; k < FRAMES_OF_SEAL; k++) want("receive", lockrun_receive(&at->node, from, frame, length, &used), code);
    return (double)(now() - begin) / FRAMES_OF_SEAL;
}

static void print_cost(const char *what, lockrun_apart *at, uint32_t from, uint8_t *frame, size_t length) {
    frame[length - 1] ^= 1;
    double sealed = refused(at, from, frame, length, LOCKRUN_BAD_SEAL);
    frame[length - 1] ^= 1;
    frame[5] ^= 1;
    double plain = refused(at, from, frame, length, LOCKRUN_OTHER_SERVICE);
    frame[5] ^= 1;
    printf("a seal of %s, %zu bytes: %.0f ns\n", what, length, sealed - plain);
}

/* Measures a seal of an ask and one of a token. */
static int run_seal(void) {
    lockrun_apart one, two;
    lockrun_session session = {0};
    uint8_t frame[4096];
    size_t length = 0, used = 0;
    want("open", open_node(&one, 0, 4, 1), LOCKRUN_OK);
    want("open", open_node(&two, 1, 4, 1), LOCKRUN_OK);
    want("take", lockrun_take_session(&two.node, &session), LOCKRUN_OK);
    want("submit", lockrun_submit(&session, LOCKRUN_LOCK, 0, LOCKRUN_WRITE, 0), LOCKRUN_OK);
    while (lockrun_turn(&two.node) == LOCKRUN_OK) {}
    want("send", lockrun_send(&two.node, 0, frame, sizeof frame, &length), LOCKRUN_OK);
    print_cost("an ask", &one, 1, frame, length);
    want("receive", lockrun_receive(&one.node, 1, frame, length, &used), LOCKRUN_OK);
    while (lockrun_turn(&one.node) == LOCKRUN_OK) {}
    want("send", lockrun_send(&one.node, 1, frame, sizeof frame, &length), LOCKRUN_OK);
    print_cost("a token among 4 nodes", &two, 0, frame, length);
    lockrun_free(&session);
    lockrun_apart_free(&one);
    lockrun_apart_free(&two);
    return 0;
}
#endif

int main(int count, char **words) {
#ifdef LOCKRUN_BY_MPI
    int me, nodes;
    MPI_Init(&count, &words);
    MPI_Comm_rank(MPI_COMM_WORLD, &me);
    MPI_Comm_size(MPI_COMM_WORLD, &nodes);
    int wanted = 5;
#else
    if (count == 2 && strcmp(words[1], "seal") == 0) return run_seal();
    int wanted = 7, me = count == 7 ? atoi(words[5]) : 0, nodes = count == 7 ? atoi(words[6]) : 0;
#endif
    if (count != wanted || nodes < 1 || nodes > MOST_NODES) { fputs("usage: bench/apart.sh\n", stderr); return 1; }
    int status = run(words, (uint32_t)me, (uint32_t)nodes);
#ifdef LOCKRUN_BY_MPI
    MPI_Finalize();
#endif
    return status;
}
