/* Exact names that are added while threads ask, and whether nodes rest, by lockrun_names.h and lockrun_rests.h.
 *
 * usage: names: the status is 0 if each answer is as it should be. */
#define _POSIX_C_SOURCE 200809L
#include "lockrun_error.h"
#include "lockrun_keys.h"
#include <pthread.h>
#include <stdio.h>

enum { FAMILIES = 10, MEMBERS = 5, NAMES = 400, THREADS = 8, FIRST = 1, BEGIN = FIRST + FAMILIES * MEMBERS };

static atomic_int bad;
static lockrun_nodes nodes;

#define IS(call, wanted) is(#call, __LINE__, call, wanted)

static void is(const char *call, int line, uint64_t got, uint64_t wanted) {
    if (got == wanted) return;
    printf("names.c:%d: %s is %llu and not %llu\n", line, call, (unsigned long long)got, (unsigned long long)wanted);
    bad = 1;
}

static uint32_t find(const char *name, const char *parent, uint32_t *set) {
    return lockrun_name(&nodes, name, strlen(name), parent, strlen(parent), set);
}

static void open_nodes(uint32_t names) {
    static const char script[] = "nodes 2\nset a\nclient c at 0\nclient d at 1\n";
    IS(lockrun_nodes_open_names(&nodes, script, sizeof script - 1, FAMILIES, MEMBERS, names, (uint64_t)1 << 40), LOCKRUN_OK);
}

/* Places are given in order, family by family; another name, or the same under another one, has another set. */
static void places(void) {
    uint32_t set = 0, one = 0;
    size_t size = 0;
    open_nodes(3);
    IS((find("book", "", &set), set), BEGIN);
    IS((find("page", "book", &set), set), BEGIN + 1);
    IS((find("page", "shelf", &set), set), BEGIN + MEMBERS + 1);
    IS((find("shelf", "", &set), set), BEGIN + MEMBERS);
    IS((find("page", "", &set), set), BEGIN + 2 * MEMBERS);
    IS((find("page", "book", &set), set), BEGIN + 1);
    IS(find("fourth", "", &set), LOCKRUN_NAMES_FULL);
    IS(find("page", "fourth", &set), LOCKRUN_NAMES_FULL);
    for (char name[] = "p1"; name[1] < '4'; name[1]++) IS((find(name, "book", &set), set), BEGIN + 1 + (uint32_t)(name[1] - '0'));
    IS(find("p4", "book", &set), LOCKRUN_NAMES_FULL);
    IS(lockrun_name(&nodes, "a\0b", 3, "shelf", 5, &one), LOCKRUN_OK);
    IS(lockrun_name(&nodes, "a\0c", 3, "shelf", 5, &set), LOCKRUN_OK);
    IS(set, one + 1);
    IS(strcmp(lockrun_name_of(&nodes, BEGIN + 1, &size), "page") || size != 4, 0);
    IS(lockrun_name_of(&nodes, BEGIN + 4 + MEMBERS, &size) == 0, 1);
    IS(lockrun_name_of(&nodes, BEGIN - 1, &size) == 0, 1);
    IS(lockrun_name_of(&nodes, BEGIN + 3 * MEMBERS, &size) == 0, 1);
    IS(strcmp(lockrun_error(LOCKRUN_NAMES_FULL), "no code") != 0, 1);
    for (unsigned k = 0; k < 1000; k++) {
        IS(lockrun_key_of(&nodes, &k, sizeof k, "above", k % 2 * 5, &set), LOCKRUN_OK);
        IS(set >= FIRST && set < BEGIN, 1);
    }
    lockrun_nodes_free(&nodes);
}

/* Nodes without names, or with as many as there may be. */
static void extremes(void) {
    static const char script[] = "nodes 1\nclient c at 0\n";
    const size_t length = sizeof script - 1;
    const uint64_t limit = (uint64_t)1 << 40;
    uint32_t set = 0;
    open_nodes(0);
    IS(find("book", "", &set), LOCKRUN_BAD_ARGUMENT);
    lockrun_nodes_free(&nodes);
    IS(lockrun_nodes_open_names(&nodes, script, length, 1, 1, 65535, limit), LOCKRUN_OK);
    IS((find("book", "", &set), set), 1);
    IS(find("page", "book", &set), LOCKRUN_BAD_ARGUMENT);
    IS(lockrun_lock(&nodes.caller[0], 1, LOCKRUN_WRITE, 0), LOCKRUN_GRANTED);
    lockrun_nodes_free(&nodes);
    IS(lockrun_nodes_open_names(&nodes, script, length, 1, 1, 65536, limit), LOCKRUN_TOO_MANY);
    IS(lockrun_nodes_open_names(&nodes, script, length, UINT32_MAX, UINT32_MAX, 1, limit), LOCKRUN_TOO_MANY);
    IS(lockrun_nodes_open_names(&nodes, script, length, 0, 60, 2, limit), LOCKRUN_OK);
    IS(lockrun_key_of(&nodes, "book", 4, "", 0, &set), LOCKRUN_BAD_ARGUMENT);
    IS((find("book", "", &set), set), 0);
    lockrun_nodes_free(&nodes);
}

typedef struct { uint32_t sets[NAMES]; unsigned begin; } asker;

/* Asks for all names, each thread from another one on. */
static void *ask_all(void *argument) {
    asker *own = (asker *)argument;
    for (unsigned k = 0; k < NAMES; k++) {
        char name[16], parent[16];
        const unsigned number = (own->begin + k) % NAMES;
        sprintf(name, "name %u", number);
        sprintf(parent, "parent %u", number / (MEMBERS - 1));
        IS(find(name, parent, &own->sets[number]), LOCKRUN_OK);
    }
    return 0;
}

/* All threads have the same sets, and two names never the same one. */
static void together(void) {
    static asker askers[THREADS];
    pthread_t threads[THREADS];
    char seen[(NAMES / (MEMBERS - 1)) * MEMBERS] = {0};
    open_nodes(NAMES / (MEMBERS - 1));
    for (unsigned k = 0; k < THREADS; k++) {
        askers[k].begin = k * NAMES / THREADS;
        pthread_create(&threads[k], 0, ask_all, &askers[k]);
    }
    for (unsigned k = 0; k < THREADS; k++) pthread_join(threads[k], 0);
    for (unsigned name = 0; name < NAMES; name++) {
        for (unsigned k = 1; k < THREADS; k++) IS(askers[k].sets[name], askers[0].sets[name]);
        const uint32_t place = askers[0].sets[name] - BEGIN;
        IS(place < sizeof seen && place % MEMBERS > 0 && !seen[place]++, 1);
    }
    lockrun_nodes_free(&nodes);
}

/* A node that has a command or a letter doesn't rest. */
static void rests(void) {
    lockrun_caller *c = &nodes.caller[0], *d = &nodes.caller[1];
    open_nodes(0);
    IS(lockrun_rests(&nodes), 1);
    IS(lockrun_node_rests(&nodes, 0) + lockrun_node_rests(&nodes, 1), 2);
    IS(lockrun_node_rests(&nodes, 2), 0);
    c = &nodes.caller[0];
    d = &nodes.caller[1];
    IS(lockrun_submit(&d->session, LOCKRUN_LOCK, 0, LOCKRUN_WRITE, 0), LOCKRUN_OK);
    IS(lockrun_node_rests(&nodes, 0), 1);
    IS(lockrun_rests(&nodes), 0);
    while (!lockrun_rests(&nodes)) {}
    IS(lockrun_poll(&d->session, &d->dropped), LOCKRUN_GRANTED);
    IS(lockrun_submit(&d->session, LOCKRUN_UNLOCK, 0, LOCKRUN_WRITE, 0), LOCKRUN_OK);
    IS(lockrun_node_rests(&nodes, 1), 0);
    while (!lockrun_node_rests(&nodes, 1)) {}
    IS(lockrun_poll(&d->session, &d->dropped), LOCKRUN_UNLOCKED);
    IS(lockrun_lock(c, 0, LOCKRUN_WRITE, 0), LOCKRUN_GRANTED);
    IS(lockrun_ask(d, 0, LOCKRUN_WRITE, 0), LOCKRUN_WAITS);
    while (!lockrun_rests(&nodes)) {}
    IS(lockrun_wait(d, 0), LOCKRUN_WAITS);
    IS(lockrun_unlock(c, 0, LOCKRUN_WRITE, 0), LOCKRUN_UNLOCKED);
    IS(lockrun_wait(d, LOCKRUN_FOREVER), LOCKRUN_GRANTED);
    lockrun_nodes_free(&nodes);
}

int main(void) {
    places();
    extremes();
    together();
    rests();
    puts(bad ? "names: some answers are others" : "names: each answer is as it should be");
    return bad;
}
