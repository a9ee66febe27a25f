/* A bank: callers on threads move money from account to account under locks, and one adds up all accounts.
 *
 * usage: bank CALLERS NODES TRANSFERS [SCRIPT JOURNAL]: so many transfers of each caller. It writes the script of what was
 * asked, and the journal, into these files. If they aren't named its nodes keep none, and it may go on for as many
 * transfers as it likes. The status is 0 if the sum is right and nothing is held at the end. */
#define _POSIX_C_SOURCE 200809L
#include "lockrun_easy.h"
#include <pthread.h>
#include <stdio.h>
#include <string.h>

enum { ACCOUNTS = 4, FIRST = 1000, AMOUNT = 5, MOST_CALLERS = 16, SECONDS = 60 };

/* How many transfers all callers make together, at least, before it is asked what they were served; it is asked some hundred
 * times if they make more. */
enum { BETWEEN = 100, ROUNDS = 100 };

/* The set that stands for the whole bank. An account's set has the number after the account's. */
enum { BANK = 0 };

/* Plain words: nothing but the locks keeps callers apart. */
static long money[ACCOUNTS];
static lockrun_nodes nodes;

/* Which transfers each caller makes in this round, and how many replies it was told so far. */
static struct { int first, last; size_t told; } work[MOST_CALLERS];

static void want(const char *what, uint32_t code, uint32_t wanted) {
    if (code == wanted) return;
    fprintf(stderr, "bank: %s: %u and not %u\n", what, code, wanted);
    exit(1);
}

/* Waits for a lock; after a second it says that it still waits. */
static void lock(lockrun_caller *caller, uint32_t set, enum lockrun_mode mode) {
    uint32_t code = lockrun_ask(caller, set, mode, 1000);
    for (int second = 0; code == LOCKRUN_WAITS && second < SECONDS; second++) {
        fprintf(stderr, "bank: caller %u still waits for set %u\n", lockrun_client(&caller->session), set);
        code = lockrun_wait(caller, 1000);
    }
    want("lock", code, LOCKRUN_GRANTED);
    work[lockrun_client(&caller->session)].told++;
}

static void unlock(lockrun_caller *caller, uint32_t set, enum lockrun_mode mode) {
    want("unlock", lockrun_unlock(caller, set, mode, LOCKRUN_FOREVER), LOCKRUN_UNLOCKED);
    work[lockrun_client(&caller->session)].told++;
}

/* Locks the accounts in order, so that no callers wait for each other in a ring. */
static void transfer(lockrun_caller *caller, int from, int to) {
    uint32_t lesser = 1 + (from < to ? from : to), greater = 1 + (from < to ? to : from);
    lock(caller, BANK, LOCKRUN_INTENTION_WRITE);
    lock(caller, lesser, LOCKRUN_WRITE);
    lock(caller, greater, LOCKRUN_WRITE);
    long in_from = money[from], in_to = money[to];
    sched_yield();
    money[from] = in_from - AMOUNT;
    money[to] = in_to + AMOUNT;
    unlock(caller, greater, LOCKRUN_WRITE);
    unlock(caller, lesser, LOCKRUN_WRITE);
    unlock(caller, BANK, LOCKRUN_INTENTION_WRITE);
}

static void *call(void *argument) {
    lockrun_caller *caller = (lockrun_caller *)argument;
    uint32_t number = lockrun_client(&caller->session);
    for (int k = work[number].first; k < work[number].last; k++) {
        int from = (number + k) % ACCOUNTS;
        transfer(caller, from, (from + 1 + k % (ACCOUNTS - 1)) % ACCOUNTS);
    }
    return 0;
}

/* Each caller was told a reply to each of its commands, and the service says as many. */
static void compare(int callers) {
    size_t told = 0, submitted = 0, polled = 0;
    for (int k = 0; k < callers; k++) told += work[k].told;
    want("served", lockrun_nodes_served(&nodes, &submitted, &polled), LOCKRUN_OK);
    if (submitted == told && polled == told) return;
    fprintf(stderr, "bank: %zu commands, %zu replies, and callers were told %zu\n", submitted, polled, told);
    exit(1);
}

/* All callers make their transfers up to this one. */
static void make_round(int callers, int first, int last) {
    pthread_t threads[MOST_CALLERS];
    for (int k = 0; k < callers; k++) {
        work[k].first = first;
        work[k].last = last;
        pthread_create(&threads[k], 0, call, &nodes.caller[k]);
    }
    for (int k = 0; k < callers; k++) pthread_join(threads[k], 0);
    compare(callers);
}

/* No intention to write goes with a read of the whole bank. */
static long audit(lockrun_caller *caller) {
    long sum = 0;
    lock(caller, BANK, LOCKRUN_READ);
    for (int k = 0; k < ACCOUNTS; k++) {
        printf("account%d: %ld\n", k, money[k]);
        sum += money[k];
    }
    unlock(caller, BANK, LOCKRUN_READ);
    return sum;
}

static void write_text(const char *name, lockrun_journal *journal,
                       size_t (*copy)(lockrun_journal *, size_t, uint8_t *, size_t)) {
    uint8_t part[4096];
    size_t from = 0, count;
    FILE *file = fopen(name, "wb");
    if (!file) { perror(name); exit(1); }
    while ((count = copy(journal, from, part, sizeof part)) > 0) {
        if (fwrite(part, 1, count, file) != count) { perror(name); exit(1); }
        from += count;
    }
    if (fclose(file)) { perror(name); exit(1); }
}

/* Ends the service, with a journal: whether something is held or waits. */
static int end_with(const char *script, const char *of_moves) {
    lockrun_journal journal = {0};
    size_t held = 1, waiting = 1;
    want("finish", lockrun_nodes_finish(&nodes, &journal), LOCKRUN_OK);
    want("end", lockrun_end(&journal, &held, &waiting), LOCKRUN_OK);
    write_text(script, &journal, lockrun_script);
    write_text(of_moves, &journal, lockrun_copy);
    lockrun_free(&journal);
    return held || waiting;
}

/* Ends it without one: whether something is held, which bars a write of the whole bank. */
static int end_without(void) {
    uint32_t code = lockrun_try(&nodes.caller[0], BANK, LOCKRUN_WRITE, LOCKRUN_FOREVER);
    lockrun_nodes_free(&nodes);
    return code != LOCKRUN_TRUE;
}

int main(int count, char **words) {
    if (count != 4 && count != 6) { fputs("usage: bank CALLERS NODES TRANSFERS [SCRIPT JOURNAL]\n", stderr); return 1; }
    int callers = atoi(words[1]), nodes_wanted = atoi(words[2]), transfers = atoi(words[3]);
    if (callers < 1 || callers > MOST_CALLERS) { fputs("bank: 1 to 16 callers\n", stderr); return 1; }
    int forgets = count == 4;
    char text[4096];
    int length = sprintf(text, "nodes %d\nset bank\n", nodes_wanted);
    for (int k = 0; k < ACCOUNTS; k++) length += sprintf(text + length, "set account%d with bank\n", k);
    for (int k = 0; k < callers; k++) length += sprintf(text + length, "client caller%d at %d\n", k, k % nodes_wanted);
    for (int k = 0; k < ACCOUNTS; k++) money[k] = FIRST;
    want("open", lockrun_nodes_open(&nodes, text, length, (uint64_t)1 << 55 | (forgets ? 0 : LOCKRUN_KEEP)), LOCKRUN_OK);
    compare(callers);
    int each = (BETWEEN + callers - 1) / callers;
    if (each < transfers / ROUNDS) each = transfers / ROUNDS;
    for (int first = 0; first < transfers; first += each)
        make_round(callers, first, first + each < transfers ? first + each : transfers);
    long sum = audit(&nodes.caller[0]);
    compare(callers);
    int is_held = forgets ? end_without() : end_with(words[4], words[5]);
    printf("all together: %ld\n", sum);
    return sum != (long)ACCOUNTS * FIRST || is_held;
}
