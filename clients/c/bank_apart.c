/* A bank of which each node lies in a process of its own: a caller at each node moves money from account to account under
 * locks, and that of node 0 adds up all accounts. The money lies in a file that all processes map: nothing but the locks keeps
 * callers apart. It is compiled for one transport (carrier.h).
 *
 * usage: bank_apart FOLDER START TRANSFERS [NODE NODES]: by MPI the last two are those of MPI. START is a number that differs
 * from that of each earlier time in this folder. It writes the script of what was asked at its node and the lines of the node's
 * moves into FOLDER/part.NODE. The status is 0 if the sum is right and nothing is held here at the end. */
#define _POSIX_C_SOURCE 200809L
#include "carrier.h"
#include <fcntl.h>
#include <sched.h>
#include <stdatomic.h>
#include <stdio.h>
#include <sys/mman.h>
#include <unistd.h>

enum { ACCOUNTS = 4, FIRST = 1000, AMOUNT = 5, MOST_NODES = 16, BANK = 0, PATIENCE = 60000, MOMENT = 1 };

/* What all processes see. The money is in plain words; what tells when all is over is not. */
typedef struct {
    volatile long money[ACCOUNTS];
    atomic_uint opened, done;
    atomic_ulong sent[MOST_NODES], received[MOST_NODES];
} seen;

static seen *bank;
static lockrun_apart apart;
static lockrun_session caller;

static void want(const char *what, uint32_t code, uint32_t wanted) {
    if (code == wanted) return;
    fprintf(stderr, "bank_apart: node %u: %s: %u and not %u\n", apart.me, what, code, wanted);
    _exit(1);
}

static void lock(uint32_t set, enum lockrun_mode mode) {
    want("lock", lockrun_call_apart(&apart, &caller, LOCKRUN_LOCK, set, mode, 0, PATIENCE), LOCKRUN_GRANTED);
}

static void unlock(uint32_t set, enum lockrun_mode mode) {
    want("unlock", lockrun_call_apart(&apart, &caller, LOCKRUN_UNLOCK, set, mode, 0, PATIENCE), LOCKRUN_UNLOCKED);
}

/* Locks the accounts in order, so that no callers wait for each other in a ring. */
static void transfer(int from, int to) {
    uint32_t lesser = 1 + (from < to ? from : to), greater = 1 + (from < to ? to : from);
    lock(BANK, LOCKRUN_INTENTION_WRITE);
    lock(lesser, LOCKRUN_WRITE);
    lock(greater, LOCKRUN_WRITE);
    long in_from = bank->money[from], in_to = bank->money[to];
    sched_yield();
    bank->money[from] = in_from - AMOUNT;
    bank->money[to] = in_to + AMOUNT;
    unlock(greater, LOCKRUN_WRITE);
    unlock(lesser, LOCKRUN_WRITE);
    unlock(BANK, LOCKRUN_INTENTION_WRITE);
}

/* No intention to write goes with a read of the whole bank. */
static long audit(void) {
    long sum = 0;
    lock(BANK, LOCKRUN_READ);
    for (int k = 0; k < ACCOUNTS; k++) sum += bank->money[k];
    unlock(BANK, LOCKRUN_READ);
    return sum;
}

/* Whether all that was sent was received: the former is looked at later, and only grows. */
static int all_came(void) {
    unsigned long sent = 0, received = 0;
    for (uint32_t k = 0; k < apart.nodes; k++) received += atomic_load(&bank->received[k]);
    for (uint32_t k = 0; k < apart.nodes; k++) sent += atomic_load(&bank->sent[k]);
    return sent == received;
}

/* Serves the others until so many callers are done, and all came that was sent. */
static void serve(uint32_t done) {
    do {
        want("serve", lockrun_sleep(&apart, MOMENT), LOCKRUN_OK);
        atomic_store(&bank->sent[apart.me], apart.sent);
        atomic_store(&bank->received[apart.me], apart.received);
    } while (atomic_load(&bank->done) < done || !all_came());
}

static void write_text(FILE *file, lockrun_journal *journal, size_t (*copy)(lockrun_journal *, size_t, uint8_t *, size_t)) {
    uint8_t part[4096];
    size_t from = 0, count;
    while ((count = copy(journal, from, part, sizeof part)) > 0) {
        if (fwrite(part, 1, count, file) != count) { perror("part"); exit(1); }
        from += count;
    }
}

/* Ends the node: how many locks are held, and how many callers wait. */
static size_t end_node(const char *folder) {
    char name[4096];
    lockrun_journal journal = {0};
    size_t held = 1, waiting = 1;
    lockrun_free(&caller);
    want("finish", lockrun_node_finish(&apart.node, &journal), LOCKRUN_OK);
    want("end", lockrun_end(&journal, &held, &waiting), LOCKRUN_OK);
    snprintf(name, sizeof name, "%s/part.%u", folder, apart.me);
    FILE *file = fopen(name, "wb");
    if (!file) { perror(name); exit(1); }
    write_text(file, &journal, lockrun_script);
    fputs("journal\n", file);
    write_text(file, &journal, lockrun_copy);
    if (fclose(file)) { perror(name); exit(1); }
    lockrun_free(&journal);
    return held + waiting;
}

/* The money and what else all see: zeros in a file at first. */
static void map_bank(const char *folder) {
    char name[4096];
    snprintf(name, sizeof name, "%s/money", folder);
    int file = open(name, O_RDWR | O_CREAT, 0600);
    if (file < 0 || ftruncate(file, sizeof *bank)) { perror(name); exit(1); }
    bank = (seen *)mmap(0, sizeof *bank, PROT_READ | PROT_WRITE, MAP_SHARED, file, 0);
    if (bank == MAP_FAILED) { perror(name); exit(1); }
    close(file);
}

static uint32_t open_node(uint32_t me, uint32_t nodes, uint64_t start) {
    static const uint8_t key[] = "a key that the nodes of this bank share";
    char text[4096];
    int length = sprintf(text, "nodes %u\nset bank\n", nodes);
    for (int k = 0; k < ACCOUNTS; k++) length += sprintf(text + length, "set account%d with bank\n", k);
    for (uint32_t k = 0; k < nodes; k++) length += sprintf(text + length, "client caller%u at %u\n", k, k);
    return lockrun_apart_open(&apart, text, (size_t)length, me, nodes, key, sizeof key, start);
}

static int run(const char *folder, uint64_t start, int transfers, uint32_t me, uint32_t nodes) {
    carrier carrier;
    map_bank(folder);
    want("open", open_node(me, nodes, start), LOCKRUN_OK);
    want("take", lockrun_take_session(&apart.node, &caller), LOCKRUN_OK);
    if (me == 0) for (int k = 0; k < ACCOUNTS; k++) bank->money[k] = FIRST;
    if (!carrier_begin(&carrier, &apart, folder)) { fprintf(stderr, "bank_apart: no transport\n"); return 1; }
    atomic_fetch_add(&bank->opened, 1);
    while (atomic_load(&bank->opened) < nodes) want("serve", lockrun_sleep(&apart, MOMENT), LOCKRUN_OK);
    for (int k = 0; k < transfers; k++) {
        int from = (int)(me + (uint32_t)k) % ACCOUNTS;
        transfer(from, (from + 1 + k % (ACCOUNTS - 1)) % ACCOUNTS);
    }
    atomic_fetch_add(&bank->done, 1);
    serve(nodes);
    long sum = me == 0 ? audit() : (long)ACCOUNTS * FIRST;
    atomic_fetch_add(&bank->done, 1);
    serve(2 * nodes);
    if (me == 0) printf("all together: %ld\n", sum);
    size_t left = end_node(folder);
    carrier_end(&carrier);
    lockrun_apart_free(&apart);
    return sum != (long)ACCOUNTS * FIRST || left > 0;
}

int main(int count, char **words) {
#ifdef LOCKRUN_BY_MPI
    int me, nodes;
    MPI_Init(&count, &words);
    MPI_Comm_rank(MPI_COMM_WORLD, &me);
    MPI_Comm_size(MPI_COMM_WORLD, &nodes);
    if (count != 4) { fputs("usage: bank_apart FOLDER START TRANSFERS\n", stderr); return 1; }
#else
    if (count != 6) { fputs("usage: bank_apart FOLDER START TRANSFERS NODE NODES\n", stderr); return 1; }
    int me = atoi(words[4]), nodes = atoi(words[5]);
#endif
    if (nodes < 1 || nodes > MOST_NODES) { fputs("bank_apart: 1 to 16 nodes\n", stderr); return 1; }
    int status = run(words[1], strtoull(words[2], 0, 10), atoi(words[3]), (uint32_t)me, (uint32_t)nodes);
#ifdef LOCKRUN_BY_MPI
    MPI_Finalize();
#endif
    return status;
}
