/* Want of memory at each allocation in the life of a service. In each life one allocation more goes through, and then each
 * is refused until a call has answered LOCKRUN_NO_MEMORY. That call is made again, and what follows is as in a life in which
 * nothing is refused, since nothing was lost; only lockrun_finish drops all. So it is again where the stations forget before
 * each command. Each call that may give this answer gives it in some life. Linked with --wrap=malloc and --wrap=realloc. */
#include "lockrun.h"
#include <stdio.h>
#include <string.h>

enum call { OPEN, OPEN_SETS, TAKE_STATION, TAKE_SESSION, TURN, FORGET, GIVE, FINISH, CALLS };

enum { NODES = 2, CLIENTS = 6, MOST_BYTES = 8192 };

static const char *const names[CALLS] = {"open", "open_sets", "take_station", "take_session", "turn", "forget", "give", "finish"};

static const char text[] = "nodes 2\nset a\nset b with a\n"
                           "client c0 at 0\nclient c1 at 1\nclient c2 at 0\nclient c3 at 1\nclient c4 at 0\nclient c5 at 1\n";

/* What is submitted, by which client. */
static const struct { int client; uint32_t kind; uint32_t set; uint32_t first, second; } commands[] = {
    {0, LOCKRUN_LOCK, 0, LOCKRUN_UPGRADE, 0},
    {1, LOCKRUN_LOCK, 0, LOCKRUN_READ, 0},
    {2, LOCKRUN_LOCK, 0, LOCKRUN_UPGRADE, 0},
    {3, LOCKRUN_LOCK, 1, LOCKRUN_WRITE, 0},
    {0, LOCKRUN_CHANGE, 0, LOCKRUN_UPGRADE, LOCKRUN_WRITE},
    {1, LOCKRUN_UNLOCK, 0, LOCKRUN_READ, 0},
    {0, LOCKRUN_UNLOCK, 0, LOCKRUN_WRITE, 0},
    {4, LOCKRUN_DROP, 0, 2, 0},
    {5, LOCKRUN_TRY, 0, LOCKRUN_WRITE, 0},
    {5, LOCKRUN_DROP, 1, 3, 0},
};

/* What the clients are told then, in the order of commands and of clients. */
static const uint32_t replies[] = {
    LOCKRUN_GRANTED, LOCKRUN_GRANTED, LOCKRUN_GRANTED, LOCKRUN_CHANGED, LOCKRUN_UNLOCKED,
    LOCKRUN_UNLOCKED, LOCKRUN_GRANTED, LOCKRUN_DROPPED, LOCKRUN_FALSE, LOCKRUN_DROPPED,
};

static lockrun_service service;
static lockrun_station station[NODES];
static lockrun_session session[CLIENTS];
static uint8_t wanted[2][MOST_BYTES], found[MOST_BYTES];
static unsigned long number, asked, told, told_by[CALLS];
static int refusing, forgets, bad;

void *__real_malloc(size_t size);
void *__real_realloc(void *old, size_t size);

static int is_refused(void) {
    asked++;
    return refusing && asked >= number;
}

void *__wrap_malloc(size_t size) { return is_refused() ? NULL : __real_malloc(size); }

void *__wrap_realloc(void *old, size_t size) { return is_refused() ? NULL : __real_realloc(old, size); }

static void want(int holds, const char *what) {
    if (holds) return;
    printf("memory: where allocation %lu is refused: %s\n", number, what);
    bad = 1;
}

/* Whether the call wanted memory. It has it when it is made again. */
static int wants_memory(enum call call, uint32_t code) {
    if (code != LOCKRUN_NO_MEMORY) return 0;
    told++;
    told_by[call]++;
    refusing = 0;
    return 1;
}

static void open_to(lockrun_service *opened) {
    uint32_t code;
    while (wants_memory(OPEN, code = lockrun_open((const uint8_t *)text, sizeof text - 1, 100, 2, opened)))
        want(!opened->at, "a service of no memory");
    want(code == LOCKRUN_OK, "open");
}

static void open_more(lockrun_service *opened) {
    const lockrun_new_set sets[] = {{(const uint8_t *)"c", 1, (const uint8_t *)"b", 1},
                                    {(const uint8_t *)"d", 1, (const uint8_t *)"", 0}};
    const uint8_t *bytes = (const uint8_t *)text;
    uint32_t code;
    while (wants_memory(OPEN_SETS, code = lockrun_open_sets(bytes, sizeof text - 1, sets, 2, 100, 2, opened)))
        want(!opened->at, "a service of no memory");
    want(code == LOCKRUN_OK, "open_sets");
}

static void take_all(lockrun_service *from) {
    uint32_t code = LOCKRUN_OK;
    for (int k = 0; k < NODES && code == LOCKRUN_OK; k++)
        while (wants_memory(TAKE_STATION, code = lockrun_take_station(from, &station[k])))
            want(!station[k].at, "a station of no memory");
    for (int k = 0; k < CLIENTS && code == LOCKRUN_OK; k++)
        while (wants_memory(TAKE_SESSION, code = lockrun_take_session(from, &session[k])))
            want(!session[k].at, "a session of no memory");
    want(code == LOCKRUN_OK, "a station or a session is lost");
}

static void give_all(lockrun_service *to) {
    uint32_t code = LOCKRUN_OK;
    for (int k = 0; k < NODES && code == LOCKRUN_OK; k++)
        while (wants_memory(GIVE, code = lockrun_give(to, &station[k]))) want(station[k].at != 0, "a station is lost");
    for (int k = 0; k < CLIENTS && code == LOCKRUN_OK; k++)
        while (wants_memory(GIVE, code = lockrun_give(to, &session[k]))) want(session[k].at != 0, "a session is lost");
    want(code == LOCKRUN_OK, "give");
}

static void free_all(void) {
    for (int k = 0; k < NODES; k++) lockrun_free(&station[k]);
    for (int k = 0; k < CLIENTS; k++) lockrun_free(&session[k]);
}

/* Gives the stations and sessions to another service, which has further sets and no place for all in its lists, and takes them
 * again. */
static void lend(void) {
    lockrun_service other = {0};
    open_more(&other);
    give_all(&other);
    take_all(&other);
    free_all();
    take_all(&other);
    lockrun_free(&other);
}

/* Lets the stations make turns until none makes a move in two turns. */
static void rest(void) {
    for (int quiet = 0; quiet < 2; quiet++)
        for (int k = 0; k < NODES; k++) {
            uint32_t code;
            while (wants_memory(TURN, code = lockrun_turn(&station[k]))) {}
            if (code == LOCKRUN_OK) quiet = -1;
            else want(code == LOCKRUN_NOTHING, "turn");
        }
}

static void forget_all(void) {
    for (int k = 0; k < NODES; k++) {
        uint32_t code;
        while (wants_memory(FORGET, code = lockrun_forget(&station[k]))) {}
        want(code == LOCKRUN_OK, "forget");
    }
}

static void ask_all(void) {
    size_t next = 0, count = sizeof replies / sizeof *replies;
    for (size_t k = 0; k < sizeof commands / sizeof *commands; k++) {
        lockrun_session *client = &session[commands[k].client];
        if (forgets) forget_all();
        uint64_t dropped;
        uint32_t code = lockrun_submit(client, commands[k].kind, commands[k].set, commands[k].first, commands[k].second);
        want(code == LOCKRUN_OK, "submit");
        rest();
        for (int each = 0; each < CLIENTS; each++)
            while ((code = lockrun_poll(&session[each], &dropped)) != LOCKRUN_NOTHING)
                want(next < count && code == replies[next++], "another reply");
    }
    want(next == count, "a reply is missing");
}

/* The texts are those of the life in which nothing was refused, which is the first. */
static void compare(lockrun_journal *journal) {
    size_t (*const copies[2])(lockrun_journal *, size_t, uint8_t *, size_t) = {lockrun_script, lockrun_copy};
    for (int k = 0; k < 2; k++) {
        memset(found, 0, sizeof found);
        want(copies[k](journal, 0, found, sizeof found) < sizeof found, "a long text");
        if (number == 0) memcpy(wanted[k], found, sizeof found);
        want(!memcmp(found, wanted[k], sizeof found), "another text");
    }
}

/* It wants no memory, and makes no move. */
static void serve(void) {
    size_t submitted = 0, polled = 0, count = sizeof replies / sizeof *replies;
    unsigned long before = asked;
    want(lockrun_served(&service, &submitted, &polled) == LOCKRUN_OK, "served");
    want(submitted == count && polled == count, "other commands or replies");
    want(asked == before, "memory is wanted to be served");
}

static void live(void) {
    lockrun_journal journal = {0};
    asked = told = 0;
    refusing = number > 0;
    open_to(&service);
    take_all(&service);
    lend();
    ask_all();
    give_all(&service);
    serve();
    uint32_t code = lockrun_finish(&service, &journal);
    want(!service.at, "a service that is finished");
    if (wants_memory(FINISH, code)) {
        want(!journal.at, "a journal of no memory");
    } else if (forgets) {
        want(code == LOCKRUN_FORGOTTEN && !journal.at, "a journal of what is forgotten");
    } else {
        want(code == LOCKRUN_OK && journal.at != 0, "finish");
        compare(&journal);
        lockrun_free(&journal);
    }
    want(told == (number > 0), "it isn't told once");
}

/* One life in which nothing is refused, and one for each of its allocations. */
static unsigned long live_all(void) {
    number = 0;
    live();
    unsigned long all = asked;
    for (number = 1; number <= all; number++) live();
    return all;
}

int main(void) {
    unsigned long all = live_all();
    forgets = 1;
    all += live_all();
    for (int call = 0; call < CALLS; call++)
        if (told_by[call] == 0) {
            printf("memory: lockrun_%s never wants memory\n", names[call]);
            bad = 1;
        }
    printf("memory: %lu allocations, each refused in turn\n", all);
    return bad;
}
