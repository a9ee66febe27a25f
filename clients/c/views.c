/* Who holds what and who waits for what, by lockrun_view.h, while other threads are in calls too.
 *
 * usage: views: the status is 0 if each line is as it should be. */
#define _POSIX_C_SOURCE 200809L
#include "lockrun_view.h"
#include <pthread.h>
#include <stdio.h>

enum { ROUNDS = 2000 };

static int bad;
static lockrun_nodes nodes;
static atomic_int over;

#define IS(call, wanted) is(#call, __LINE__, call, wanted)

static void is(const char *call, int line, uint64_t got, uint64_t wanted) {
    if (got == wanted) return;
    printf("views.c:%d: %s is %llu and not %llu\n", line, call, (unsigned long long)got, (unsigned long long)wanted);
    bad = 1;
}

static char said[4096];

/* Adds a line in words. */
static void say(void *with, const lockrun_line *line) {
    size_t *size = (size_t *)with;
    char *at = said + *size;
    size_t room = sizeof said - *size;
    int length = snprintf(at, room, "%u: client %u, set %u%s", line->node, line->client, line->set, line->waits ? ", waits for" : "");
    if (line->waits) length += snprintf(at + length, room - (size_t)length, " %u", line->mode);
    for (int mode = 0; mode < 6; mode++)
        if (line->counts[mode])
            length += snprintf(at + length, room - (size_t)length, ", %llu of %d", (unsigned long long)line->counts[mode], mode);
    length += snprintf(at + length, room - (size_t)length, "\n");
    *size += (size_t)length;
}

static void shows(const char *wanted) {
    size_t size = 0;
    said[0] = 0;
    IS(lockrun_each(&nodes, say, &size), LOCKRUN_OK);
    if (!strcmp(said, wanted)) return;
    printf("views.c: this is shown:\n%sand not:\n%s", said, wanted);
    bad = 1;
}

static void lines(void) {
    lockrun_caller *c = &nodes.caller[0], *d = &nodes.caller[1], *e = &nodes.caller[2];
    shows("");
    for (int k = 0; k < 2; k++) IS(lockrun_lock(c, 0, LOCKRUN_INTENTION_WRITE, 0), LOCKRUN_GRANTED);
    IS(lockrun_lock(c, 1, LOCKRUN_WRITE, 0), LOCKRUN_GRANTED);
    IS(lockrun_ask(d, 0, LOCKRUN_READ, 0), LOCKRUN_WAITS);
    IS(lockrun_lock(e, 2, LOCKRUN_UPGRADE, 0), LOCKRUN_GRANTED);
    IS(lockrun_ask(e, 1, LOCKRUN_READ, 0), LOCKRUN_WAITS);
    shows("0: client 0, set 0, 2 of 3\n0: client 0, set 1, 1 of 5\n0: client 1, set 0, waits for 1\n"
          "1: client 2, set 2, 1 of 2\n1: client 2, set 1, waits for 1\n");
    IS(lockrun_give_up(e), LOCKRUN_WITHDRAWN);
    IS(lockrun_abort(c), LOCKRUN_DROPPED);
    IS(lockrun_wait(d, 0), LOCKRUN_GRANTED);
    shows("0: client 1, set 0, 1 of 1\n1: client 2, set 2, 1 of 2\n");
    IS(lockrun_abort(d), LOCKRUN_DROPPED);
    IS(lockrun_abort(e), LOCKRUN_DROPPED);
    shows("");
}

/* Locks and unlocks until it is over. */
static void *move_on(void *argument) {
    lockrun_caller *caller = (lockrun_caller *)argument;
    while (!over) {
        IS(lockrun_lock(caller, 0, LOCKRUN_WRITE, LOCKRUN_FOREVER), LOCKRUN_GRANTED);
        IS(lockrun_unlock(caller, 0, LOCKRUN_WRITE, LOCKRUN_FOREVER), LOCKRUN_UNLOCKED);
    }
    return 0;
}

static atomic_int holders;

static void count_holders(void *with, const lockrun_line *line) {
    (void)with;
    if (line->node == 0 && line->set == 0 && line->counts[LOCKRUN_WRITE]) holders++;
}

/* At each moment no two clients of a node hold it to write. */
static void while_others_move(void) {
    pthread_t threads[2];
    for (int k = 0; k < 2; k++) pthread_create(&threads[k], 0, move_on, &nodes.caller[k]);
    for (int k = 0; k < ROUNDS && !bad; k++) {
        holders = 0;
        IS(lockrun_each(&nodes, count_holders, 0), LOCKRUN_OK);
        IS(holders < 2, 1);
    }
    over = 1;
    for (int k = 0; k < 2; k++) pthread_join(threads[k], 0);
}

int main(void) {
    static const char script[] = "nodes 2\nset a\nset b with a\nset c\nclient c0 at 0\nclient d at 0\nclient e at 1\n";
    IS(lockrun_nodes_open(&nodes, script, sizeof script - 1, (uint64_t)1 << 40), LOCKRUN_OK);
    lines();
    while_others_move();
    lockrun_nodes_free(&nodes);
    puts(bad ? "views: some lines are others" : "views: each line is as it should be");
    return bad;
}
