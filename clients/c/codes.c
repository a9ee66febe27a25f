/* Each answer of the calls of lockrun.h, and a wait that runs out of time by lockrun_easy.h: prints those that are another,
 * with status 1 if there is one. */
#define _POSIX_C_SOURCE 200809L
#include "lockrun_easy.h"
#include <stdio.h>
#include <string.h>

static int bad;
static lockrun_service service;
static lockrun_station station[2];
static lockrun_session ann, ben;
static lockrun_handle none;
static lockrun_journal journal;
static uint64_t count = 7;
static size_t submitted, polled;

/* The most commands of a script, and the most sets of a service. */
enum { MOST = 4096, MOST_SETS = 65536 };

#define IS(call, wanted) is(#call, __LINE__, call, wanted)

static void is(const char *call, int line, size_t got, size_t wanted) {
    if (got == wanted) return;
    printf("codes.c:%d: %s is %zu and not %zu\n", line, call, got, wanted);
    bad = 1;
}

static uint32_t open_text(const char *text, uint64_t limit, uint32_t places) {
    return lockrun_open((const uint8_t *)text, strlen(text), limit, places, &service);
}

static uint32_t open_sets(const char *text, const lockrun_new_set *sets, size_t count) {
    return lockrun_open_sets((const uint8_t *)text, strlen(text), sets, count, 100, 2, &service);
}

static lockrun_new_set new_set(const char *name, const char *parent) {
    lockrun_new_set set = {(const uint8_t *)name, strlen(name), (const uint8_t *)parent, strlen(parent)};
    return set;
}

/* Opens the text with a further set. */
static uint32_t open_set(const char *text, const char *name, const char *parent) {
    lockrun_new_set set = new_set(name, parent);
    return open_sets(text, &set, 1);
}

static uint32_t number = 77;

/* What is told of a name, and the number. */
static uint32_t find(lockrun_session *session, const char *name) {
    return lockrun_set(session, (const uint8_t *)name, strlen(name), &number);
}

static void rest(void) {
    for (int quiet = 0; quiet < 2; quiet++)
        for (int k = 0; k < 2; k++)
            if (lockrun_turn(&station[k]) == LOCKRUN_OK) quiet = -1;
}

static uint32_t reply(lockrun_session *session) {
    rest();
    return lockrun_poll(session, &count);
}

static const char *text = "nodes 2\nset a\nset b with a\nclient ann at 0\nclient ben at 1\nann lock a read\n";

static void opening(void) {
    const lockrun_new_set more = new_set("c", "a");
    IS(open_text("nodes 0\n", 100, 2), LOCKRUN_BAD_SCRIPT);
    IS(open_text("", 100, 2), LOCKRUN_BAD_SCRIPT);
    IS(open_text(text, 0, 2), LOCKRUN_BAD_ARGUMENT);
    IS(open_text(text, ((uint64_t)1 << 55) + 1, 2), LOCKRUN_BAD_ARGUMENT);
    IS(open_text(text, 100, 0), LOCKRUN_BAD_ARGUMENT);
    IS(open_text(text, 100, UINT32_MAX), LOCKRUN_BAD_ARGUMENT);
    IS(lockrun_open((const uint8_t *)text, ((size_t)1 << 20) + 1, 100, 2, &service), LOCKRUN_BAD_ARGUMENT);
    IS(open_set("nodes 0\n", "c", ""), LOCKRUN_BAD_SCRIPT);
    IS(open_set(text, "", ""), LOCKRUN_BAD_SET);
    IS(open_set(text, "7", ""), LOCKRUN_BAD_SET);
    IS(open_set(text, "b", ""), LOCKRUN_BAD_SET);
    IS(open_set(text, "ann", ""), LOCKRUN_BAD_SET);
    IS(open_set(text, "c", "ann"), LOCKRUN_BAD_SET);
    IS(open_set(text, "c", "c"), LOCKRUN_BAD_SET);
    IS(lockrun_open_sets((const uint8_t *)text, ((size_t)1 << 20) + 1, &more, 1, 100, 2, &service), LOCKRUN_BAD_ARGUMENT);
    IS(service.at != 0, 0);
    IS(open_text(text, 14, 2), LOCKRUN_OK);
}

/* A service is told so many commands and replies. */
static void served(size_t commands, size_t replies) {
    submitted = polled = 99;
    IS(lockrun_served(&service, &submitted, &polled), LOCKRUN_OK);
    IS(submitted, commands);
    IS(polled, replies);
}

/* While one is out nothing is told, and both numbers stay. */
static void not_served(void) {
    submitted = 11, polled = 13;
    IS(lockrun_served(&service, &submitted, &polled), LOCKRUN_NOTHING);
    IS(submitted, 11);
    IS(polled, 13);
}

/* The stations of so many nodes and both sessions go back in order, are served, and are taken again. */
static void served_meanwhile(int nodes, size_t commands, size_t replies) {
    for (int k = 0; k < nodes; k++) {
        not_served();
        IS(lockrun_give(&service, &station[k]), LOCKRUN_OK);
    }
    IS(lockrun_give(&service, &ann), LOCKRUN_OK);
    not_served();
    IS(lockrun_give(&service, &ben), LOCKRUN_OK);
    served(commands, replies);
    for (int k = 0; k < nodes; k++) {
        IS(lockrun_take_station(&service, &station[k]), LOCKRUN_OK);
        not_served();
    }
    IS(lockrun_take_session(&service, &ann), LOCKRUN_OK);
    IS(lockrun_take_session(&service, &ben), LOCKRUN_OK);
}

static void taking(void) {
    served(0, 0);
    IS(lockrun_take_station(&service, &station[0]), LOCKRUN_OK);
    not_served();
    IS(lockrun_take_station(&service, &station[1]), LOCKRUN_OK);
    IS(lockrun_take_station(&service, &none), LOCKRUN_NOTHING);
    IS(lockrun_take_session(&service, &ann), LOCKRUN_OK);
    IS(lockrun_take_session(&service, &ben), LOCKRUN_OK);
    IS(lockrun_take_session(&service, &none), LOCKRUN_NOTHING);
    IS(none.at != 0, 0);
    served_meanwhile(2, 0, 0);
}

static void wrong_handles(void) {
    size_t held = 3, waiting = 5;
    uint8_t byte = 9;
    submitted = 11, polled = 13;
    IS(lockrun_take_station(&ann, &none), LOCKRUN_WRONG_HANDLE);
    IS(lockrun_take_session(&ann, &none), LOCKRUN_WRONG_HANDLE);
    IS(lockrun_turn(&ann), LOCKRUN_WRONG_HANDLE);
    IS(lockrun_forget(&ann), LOCKRUN_WRONG_HANDLE);
    IS(lockrun_submit(&station[0], LOCKRUN_LOCK, 0, LOCKRUN_READ, 0), LOCKRUN_WRONG_HANDLE);
    IS(lockrun_poll(&station[0], &count), LOCKRUN_WRONG_HANDLE);
    IS(find(&station[0], "a"), LOCKRUN_WRONG_HANDLE);
    IS(number, 77);
    IS(lockrun_left(&station[0]), 0);
    IS(lockrun_client(&station[1]), 0);
    IS(lockrun_home(&station[1]), 0);
    IS(lockrun_give(&ann, &station[0]), LOCKRUN_WRONG_HANDLE);
    IS(lockrun_served(&ann, &submitted, &polled), LOCKRUN_WRONG_HANDLE);
    IS(lockrun_served(&station[0], &submitted, &polled), LOCKRUN_WRONG_HANDLE);
    IS(submitted + polled, 11 + 13);
    IS(lockrun_finish(&ann, &journal), LOCKRUN_WRONG_HANDLE);
    IS(lockrun_end(&ann, &held, &waiting), LOCKRUN_WRONG_HANDLE);
    IS(lockrun_copy(&ann, 0, &byte, 1), 0);
    IS(lockrun_script(&ann, 0, &byte, 1), 0);
    IS(held + waiting + byte + count, 3 + 5 + 9 + 7);
    IS(none.at != 0 || journal.at != 0, 0);
}

static void submitting(void) {
    IS(lockrun_client(&ben), 1);
    IS(lockrun_home(&ben), 1);
    IS(lockrun_left(&ann), lockrun_left(&ben));
    IS(find(&ann, "c"), LOCKRUN_NOTHING);
    IS(find(&ann, ""), LOCKRUN_NOTHING);
    IS(number, 77);
    IS(find(&ann, "b"), LOCKRUN_OK);
    IS(number, 1);
    IS(find(&ben, "a"), LOCKRUN_OK);
    IS(number, 0);
    IS(lockrun_submit(&ann, LOCKRUN_LOCK, 2, LOCKRUN_READ, 0), LOCKRUN_BAD_ARGUMENT);
    IS(lockrun_submit(&ann, LOCKRUN_LOCK, 0, LOCKRUN_WRITE + 1, 0), LOCKRUN_BAD_ARGUMENT);
    IS(lockrun_submit(&ann, LOCKRUN_LOCK, 0, LOCKRUN_READ_INTENTION_WRITE, 0), LOCKRUN_BAD_ARGUMENT);
    IS(lockrun_submit(&ann, LOCKRUN_WITHDRAW + 1, 0, LOCKRUN_READ, 0), LOCKRUN_BAD_ARGUMENT);
    IS(lockrun_submit(&ann, LOCKRUN_WITHDRAW, 0, 0, 0), LOCKRUN_BAD_ARGUMENT);
    IS(lockrun_submit(&ann, LOCKRUN_DROP, 0, 1, 0), LOCKRUN_BAD_ARGUMENT);
    IS(lockrun_submit(&ann, LOCKRUN_DROP, 0, 1 << 16, 0), LOCKRUN_BAD_ARGUMENT);
    IS(lockrun_submit(&ann, LOCKRUN_LOCK, 0, LOCKRUN_UPGRADE, 0), LOCKRUN_OK);
    IS(lockrun_submit(&ann, LOCKRUN_TRY, 1, LOCKRUN_WRITE, 0), LOCKRUN_OK);
    IS(lockrun_submit(&ann, LOCKRUN_UNLOCK, 0, LOCKRUN_READ, 0), LOCKRUN_FULL);
    IS(lockrun_poll(&ann, &count), LOCKRUN_NOTHING);
    served_meanwhile(2, 2, 0);
}

static void replies(void) {
    IS(reply(&ann), LOCKRUN_GRANTED);
    IS(lockrun_poll(&ann, &count), LOCKRUN_TRUE);
    IS(lockrun_submit(&ann, LOCKRUN_UNLOCK, 0, LOCKRUN_READ, 0), LOCKRUN_OK);
    IS(reply(&ann), LOCKRUN_NOT_HELD);
    IS(lockrun_submit(&ann, LOCKRUN_CHANGE, 0, LOCKRUN_UPGRADE, LOCKRUN_READ), LOCKRUN_OK);
    IS(reply(&ann), LOCKRUN_CHANGED);
    IS(lockrun_submit(&ben, LOCKRUN_TRY, 1, LOCKRUN_WRITE, 0), LOCKRUN_OK);
    IS(reply(&ben), LOCKRUN_FALSE);
    IS(lockrun_submit(&ben, LOCKRUN_LOCK, 1, LOCKRUN_WRITE, 0), LOCKRUN_OK);
    IS(reply(&ben), LOCKRUN_NOTHING);
    served_meanwhile(2, 6, 5);
    IS(lockrun_submit(&ben, LOCKRUN_DROP, 1, 1, 0), LOCKRUN_OK);
    IS(lockrun_submit(&ann, LOCKRUN_DROP, 0, 0, 0), LOCKRUN_OK);
    IS(count, 7);
    IS(reply(&ann), LOCKRUN_DROPPED);
    IS(count, 2);
    IS(reply(&ben), LOCKRUN_GRANTED);
    IS(lockrun_poll(&ben, &count), LOCKRUN_DROPPED);
    IS(count, 1);
    IS(lockrun_submit(&ann, LOCKRUN_UNLOCK, 0, LOCKRUN_READ, 0), LOCKRUN_OK);
    IS(reply(&ann), LOCKRUN_NOT_HELD);
    served_meanwhile(2, 9, 9);
}

static void ends(void) {
    size_t commands = 9, replies = 9;
    for (int k = 0; k < 20; k++) {
        uint32_t code = lockrun_submit(&ann, LOCKRUN_TRY, 0, LOCKRUN_READ, 0);
        if (code == LOCKRUN_FULL) break;
        IS(code, LOCKRUN_OK);
        commands++;
        rest();
        replies += lockrun_poll(&ann, &count) != LOCKRUN_NOTHING;
    }
    IS(lockrun_turn(&station[0]), LOCKRUN_LOG_FULL);
    IS(lockrun_give(&service, &ann), LOCKRUN_OK);
    IS(ann.at != 0, 0);
    IS(lockrun_give(&service, &station[0]), LOCKRUN_OK);
    IS(lockrun_give(&service, &station[1]), LOCKRUN_OK);
    IS(lockrun_give(&service, &ben), LOCKRUN_OK);
    served(commands, replies);
}

/* As many commands as a script may have; and what is held and waits at the end. */
static void whole_life(void) {
    uint8_t bytes[64];
    size_t held, waiting, commands = 2, replies = 1;
    IS(open_text("nodes 1\nset a\nclient c at 0\nclient d at 0\n", 1 << 20, 4), LOCKRUN_OK);
    IS(lockrun_take_station(&service, &station[0]), LOCKRUN_OK);
    IS(lockrun_take_session(&service, &ann), LOCKRUN_OK);
    IS(lockrun_take_session(&service, &ben), LOCKRUN_OK);
    IS(lockrun_submit(&ann, LOCKRUN_LOCK, 0, LOCKRUN_WRITE, 0), LOCKRUN_OK);
    while (lockrun_poll(&ann, &count) == LOCKRUN_NOTHING) lockrun_turn(&station[0]);
    IS(lockrun_submit(&ben, LOCKRUN_LOCK, 0, LOCKRUN_WRITE, 0), LOCKRUN_OK);
    while (commands < MOST) {
        IS(lockrun_submit(&ann, LOCKRUN_TRY, 0, LOCKRUN_WRITE, 0), LOCKRUN_OK);
        do lockrun_turn(&station[0]);
        while (lockrun_poll(&ann, &count) == LOCKRUN_NOTHING);
        commands++, replies++;
        if (commands % 200 == 0) served_meanwhile(1, commands, replies);
    }
    IS(lockrun_left(&ann), ((uint64_t)1 << 58) - MOST + 1);
    while (lockrun_turn(&station[0]) == LOCKRUN_OK) {}
    IS(lockrun_give(&service, &station[0]), LOCKRUN_OK);
    IS(lockrun_give(&service, &ann), LOCKRUN_OK);
    IS(lockrun_give(&service, &ben), LOCKRUN_OK);
    served(commands, replies);
    IS(lockrun_finish(&service, &journal), LOCKRUN_OK);
    IS(service.at != 0, 0);
    IS(lockrun_end(&journal, &held, &waiting), LOCKRUN_OK);
    IS(held, 1);
    IS(waiting, 1);
    IS(lockrun_script(&journal, 0, bytes, sizeof bytes), sizeof bytes);
    IS(memcmp(bytes, "nodes 1\nset a\nclient c at 0\nclient d at 0\nc lock a write\n", 57) != 0, 0);
    IS(lockrun_copy(&journal, 0, bytes, 5), 5);
    IS(memcmp(bytes, "move ", 5) != 0, 0);
    IS(lockrun_copy(&journal, SIZE_MAX, bytes, 5), 0);
    lockrun_free(&journal);
    IS(journal.at != 0, 0);
}

/* What nobody polls is in the journal too, also where a command is still in its ring. */
static void unpolled(void) {
    const char *script = "nodes 1\nset a\nclient c at 0\nclient d at 0\nc lock a write\nd lock a write\n";
    uint8_t bytes[128];
    size_t held, waiting;
    IS(open_text("nodes 1\nset a\nclient c at 0\nclient d at 0\n", 100, 4), LOCKRUN_OK);
    IS(lockrun_take_station(&service, &station[0]), LOCKRUN_OK);
    IS(lockrun_take_session(&service, &ann), LOCKRUN_OK);
    IS(lockrun_take_session(&service, &ben), LOCKRUN_OK);
    IS(lockrun_submit(&ann, LOCKRUN_LOCK, 0, LOCKRUN_WRITE, 0), LOCKRUN_OK);
    while (lockrun_turn(&station[0]) == LOCKRUN_OK) {}
    IS(lockrun_submit(&ben, LOCKRUN_LOCK, 0, LOCKRUN_WRITE, 0), LOCKRUN_OK);
    while (lockrun_turn(&station[0]) == LOCKRUN_OK) {}
    IS(lockrun_submit(&ann, LOCKRUN_UNLOCK, 0, LOCKRUN_WRITE, 0), LOCKRUN_OK);
    IS(lockrun_give(&service, &station[0]), LOCKRUN_OK);
    IS(lockrun_give(&service, &ann), LOCKRUN_OK);
    IS(lockrun_give(&service, &ben), LOCKRUN_OK);
    served(3, 0);
    IS(lockrun_finish(&service, &journal), LOCKRUN_OK);
    IS(lockrun_end(&journal, &held, &waiting), LOCKRUN_OK);
    IS(held, 1);
    IS(waiting, 1);
    IS(lockrun_script(&journal, 0, bytes, sizeof bytes), strlen(script));
    IS(memcmp(bytes, script, strlen(script)) != 0, 0);
    lockrun_free(&journal);
}

/* One command more than a script may have: the service goes on, and has no journal. */
static void too_many(void) {
    IS(open_text("nodes 1\nset a\nclient c at 0\nclient d at 0\n", (uint64_t)1 << 55, 4), LOCKRUN_OK);
    IS(lockrun_take_station(&service, &station[0]), LOCKRUN_OK);
    IS(lockrun_take_session(&service, &ann), LOCKRUN_OK);
    for (int k = 0; k <= MOST; k++) {
        IS(lockrun_submit(&ann, LOCKRUN_TRY, 0, LOCKRUN_WRITE, 0), LOCKRUN_OK);
        do lockrun_turn(&station[0]);
        while (lockrun_poll(&ann, &count) == LOCKRUN_NOTHING);
    }
    IS(lockrun_take_session(&service, &ben), LOCKRUN_OK);
    served_meanwhile(1, MOST + 1, MOST + 1);
    IS(lockrun_give(&service, &station[0]), LOCKRUN_OK);
    IS(lockrun_give(&service, &ann), LOCKRUN_OK);
    IS(lockrun_give(&service, &ben), LOCKRUN_OK);
    IS(lockrun_finish(&service, &journal), LOCKRUN_TOO_MANY);
    IS(service.at != 0 || journal.at != 0, 0);
}

/* As many sets as a service may have, some of them in the family of the first: each is known by its name. The service goes on,
 * and has no journal. */
static void many_sets(void) {
    static const char script[] = "nodes 1\nset a\nclient c at 0\nclient d at 0\n";
    static char names[MOST_SETS][8];
    static lockrun_new_set sets[MOST_SETS];
    for (int k = 0; k < MOST_SETS; k++) {
        sprintf(names[k], "s%d", k);
        sets[k] = new_set(names[k], k % 4096 == 4093 ? "a" : "");
    }
    IS(open_sets(script, sets, MOST_SETS), LOCKRUN_TOO_MANY);
    IS(service.at != 0, 0);
    IS(open_sets(script, sets, MOST_SETS - 1), LOCKRUN_OK);
    IS(lockrun_take_station(&service, &station[0]), LOCKRUN_OK);
    IS(lockrun_take_session(&service, &ann), LOCKRUN_OK);
    IS(lockrun_take_session(&service, &ben), LOCKRUN_OK);
    for (int k = 0; k < MOST_SETS - 1; k++)
        if (find(&ann, names[k]) != LOCKRUN_OK || number != 1 + (uint32_t)k) { IS(number, 1 + (size_t)k); break; }
    IS(find(&ann, names[MOST_SETS - 1]), LOCKRUN_NOTHING);
    IS(lockrun_submit(&ann, LOCKRUN_LOCK, MOST_SETS, LOCKRUN_WRITE, 0), LOCKRUN_BAD_ARGUMENT);
    IS(lockrun_submit(&ann, LOCKRUN_LOCK, UINT32_MAX, LOCKRUN_WRITE, 0), LOCKRUN_BAD_ARGUMENT);
    IS(lockrun_submit(&ann, LOCKRUN_LOCK, MOST_SETS - 1, LOCKRUN_WRITE, 0), LOCKRUN_OK);
    while (lockrun_poll(&ann, &count) == LOCKRUN_NOTHING) lockrun_turn(&station[0]);
    IS(lockrun_submit(&ann, LOCKRUN_LOCK, MOST_SETS - 2, LOCKRUN_WRITE, 0), LOCKRUN_OK);
    while (lockrun_poll(&ann, &count) == LOCKRUN_NOTHING) lockrun_turn(&station[0]);
    IS(lockrun_submit(&ben, LOCKRUN_TRY, MOST_SETS - 1, LOCKRUN_READ, 0), LOCKRUN_OK);
    while ((number = lockrun_poll(&ben, &count)) == LOCKRUN_NOTHING) lockrun_turn(&station[0]);
    IS(number, LOCKRUN_FALSE);
    IS(lockrun_submit(&ben, LOCKRUN_DROP, 0, 0, 0), LOCKRUN_OK);
    while ((number = lockrun_poll(&ben, &count)) == LOCKRUN_NOTHING) lockrun_turn(&station[0]);
    IS(number, LOCKRUN_DROPPED);
    IS(count, 1);
    IS(lockrun_give(&service, &station[0]), LOCKRUN_OK);
    IS(lockrun_give(&service, &ann), LOCKRUN_OK);
    IS(lockrun_give(&service, &ben), LOCKRUN_OK);
    served(4, 4);
    IS(lockrun_finish(&service, &journal), LOCKRUN_TOO_MANY);
    IS(service.at != 0 || journal.at != 0, 0);
}

/* With no more than 8 sets, of which some are further ones, it has one. */
static void eight_sets(void) {
    static const char script[] = "nodes 1\nset a\nclient c at 0\n";
    const lockrun_new_set sets[] = {new_set("b", "a"), new_set("c1", "b"), new_set("d", ""), new_set("e", "d"),
                                    new_set("f", ""), new_set("g", ""), new_set("h", "g")};
    const char *text = "version 3\nnodes 1\nset a\nset b with a\nset c1 with a\nset d\nset e with d\nset f\nset g\nset h with g\n"
                       "client c at 0\n";
    uint8_t bytes[128];
    lockrun_nodes nodes;
    IS(lockrun_nodes_open_sets(&nodes, script, sizeof script - 1, sets, 7, 1 << 20 | LOCKRUN_KEEP), LOCKRUN_OK);
    IS(lockrun_find(&nodes.caller[0], "h", &number), LOCKRUN_OK);
    IS(number, 7);
    IS(lockrun_nodes_finish(&nodes, &journal), LOCKRUN_OK);
    IS(lockrun_script(&journal, 0, bytes, sizeof bytes), strlen(text));
    IS(memcmp(bytes, text, strlen(text)) != 0, 0);
    lockrun_free(&journal);
}

/* Stations forget while replies are still to be polled and a client waits. The service goes on, and has no journal. */
static void forgetting(void) {
    IS(open_text(text, 1 << 20, 2), LOCKRUN_OK);
    for (int k = 0; k < 2; k++) IS(lockrun_take_station(&service, &station[k]), LOCKRUN_OK);
    IS(lockrun_take_session(&service, &ann), LOCKRUN_OK);
    IS(lockrun_take_session(&service, &ben), LOCKRUN_OK);
    for (int k = 0; k < 3; k++) {
        IS(lockrun_submit(&ann, LOCKRUN_LOCK, 0, LOCKRUN_READ, 0), LOCKRUN_OK);
        rest();
    }
    IS(lockrun_submit(&ben, LOCKRUN_LOCK, 0, LOCKRUN_WRITE, 0), LOCKRUN_OK);
    IS(reply(&ben), LOCKRUN_NOTHING);
    served_meanwhile(2, 4, 0);
    for (int k = 0; k < 2; k++) IS(lockrun_forget(&station[k]), LOCKRUN_OK);
    served_meanwhile(2, 4, 0);
    for (int k = 0; k < 3; k++) IS(reply(&ann), LOCKRUN_GRANTED);
    for (int k = 0; k < 3; k++) {
        IS(reply(&ben), LOCKRUN_NOTHING);
        IS(lockrun_submit(&ann, LOCKRUN_UNLOCK, 0, LOCKRUN_READ, 0), LOCKRUN_OK);
        IS(reply(&ann), LOCKRUN_UNLOCKED);
    }
    IS(reply(&ben), LOCKRUN_GRANTED);
    served_meanwhile(2, 7, 7);
    IS(lockrun_forget(&station[1]), LOCKRUN_OK);
    for (int k = 0; k < 2; k++) IS(lockrun_give(&service, &station[k]), LOCKRUN_OK);
    IS(lockrun_give(&service, &ann), LOCKRUN_OK);
    IS(lockrun_give(&service, &ben), LOCKRUN_OK);
    IS(lockrun_forget(&service), LOCKRUN_WRONG_HANDLE);
    served(7, 7);
    IS(lockrun_finish(&service, &journal), LOCKRUN_FORGOTTEN);
    IS(service.at != 0 || journal.at != 0, 0);
}

/* What a client waits for is given up, by itself and by its neighbour. Of another node, and in another version, it isn't. */
static void withdrawing(void) {
    IS(open_text("version 3\nnodes 2\nset a\nset b\nclient c at 0\nclient d at 0\nclient e at 1\n", 100, 4), LOCKRUN_OK);
    for (int k = 0; k < 2; k++) IS(lockrun_take_station(&service, &station[k]), LOCKRUN_OK);
    IS(lockrun_take_session(&service, &ann), LOCKRUN_OK);
    IS(lockrun_take_session(&service, &ben), LOCKRUN_OK);
    IS(lockrun_submit(&ann, LOCKRUN_WITHDRAW, 0, 2, 0), LOCKRUN_BAD_ARGUMENT);
    IS(lockrun_submit(&ann, LOCKRUN_WITHDRAW, 0, 3, 0), LOCKRUN_BAD_ARGUMENT);
    IS(lockrun_submit(&ann, LOCKRUN_WITHDRAW, 0, 1 << 16, 0), LOCKRUN_BAD_ARGUMENT);
    IS(lockrun_submit(&ann, LOCKRUN_WITHDRAW, 2, 0, 0), LOCKRUN_BAD_ARGUMENT);
    IS(lockrun_submit(&ann, LOCKRUN_WITHDRAW, 0, 0, 0), LOCKRUN_OK);
    IS(reply(&ann), LOCKRUN_FALSE);
    IS(lockrun_submit(&ann, LOCKRUN_LOCK, 0, LOCKRUN_WRITE, 0), LOCKRUN_OK);
    IS(reply(&ann), LOCKRUN_GRANTED);
    IS(lockrun_submit(&ben, LOCKRUN_LOCK, 0, LOCKRUN_READ, 0), LOCKRUN_OK);
    IS(reply(&ben), LOCKRUN_NOTHING);
    IS(lockrun_submit(&ben, LOCKRUN_WITHDRAW, 0, 1, 0), LOCKRUN_OK);
    IS(reply(&ben), LOCKRUN_WITHDRAWN);
    IS(lockrun_poll(&ben, &count), LOCKRUN_TRUE);
    IS(lockrun_submit(&ben, LOCKRUN_LOCK, 0, LOCKRUN_READ, 0), LOCKRUN_OK);
    IS(reply(&ben), LOCKRUN_NOTHING);
    IS(lockrun_submit(&ben, LOCKRUN_WITHDRAW, 1, 1, 0), LOCKRUN_OK);
    IS(reply(&ben), LOCKRUN_NOTHING);
    IS(lockrun_submit(&ann, LOCKRUN_WITHDRAW, 0, 1, 0), LOCKRUN_OK);
    IS(reply(&ann), LOCKRUN_TRUE);
    IS(reply(&ben), LOCKRUN_WITHDRAWN);
    IS(lockrun_poll(&ben, &count), LOCKRUN_FALSE);
    lockrun_free(&service);
    for (int k = 0; k < 2; k++) lockrun_free(&station[k]);
    lockrun_free(&ann);
    lockrun_free(&ben);
}

/* A caller whose time is over is told that it still waits, until the lock is granted. */
static void patience(void) {
    static const char script[] = "nodes 2\nset a\nclient c at 0\nclient d at 1\n";
    lockrun_nodes nodes;
    IS(lockrun_nodes_open(&nodes, script, sizeof script - 1, 1 << 20 | LOCKRUN_KEEP), LOCKRUN_OK);
    lockrun_caller *first = &nodes.caller[0], *second = &nodes.caller[1];
    IS(lockrun_nodes_served(&nodes, &submitted, &polled), LOCKRUN_OK);
    IS(submitted + polled, 0);
    IS(lockrun_lock(first, 0, LOCKRUN_READ, LOCKRUN_FOREVER), LOCKRUN_GRANTED);
    IS(lockrun_try(second, 0, LOCKRUN_WRITE, LOCKRUN_FOREVER), LOCKRUN_FALSE);
    IS(lockrun_ask(second, 0, LOCKRUN_WRITE, 5), LOCKRUN_WAITS);
    IS(lockrun_unlock(second, 0, LOCKRUN_WRITE, 5), LOCKRUN_WAITS);
    IS(lockrun_wait(second, 0), LOCKRUN_WAITS);
    IS(lockrun_nodes_served(&nodes, &submitted, &polled), LOCKRUN_OK);
    IS(submitted, 3);
    IS(polled, 2);
    IS(lockrun_unlock(first, 0, LOCKRUN_READ, LOCKRUN_FOREVER), LOCKRUN_UNLOCKED);
    IS(lockrun_wait(second, LOCKRUN_FOREVER), LOCKRUN_GRANTED);
    IS(lockrun_wait(second, LOCKRUN_FOREVER), LOCKRUN_NOTHING);
    IS(lockrun_change(second, 0, LOCKRUN_WRITE, LOCKRUN_READ, LOCKRUN_FOREVER), LOCKRUN_CHANGED);
    IS(lockrun_drop(second, 0, 1, LOCKRUN_FOREVER), LOCKRUN_DROPPED);
    IS(second->dropped, 1);
    IS(lockrun_nodes_served(&nodes, &submitted, &polled), LOCKRUN_OK);
    IS(submitted, 6);
    IS(polled, 6);
    IS(lockrun_nodes_finish(&nodes, &journal), LOCKRUN_OK);
    lockrun_free(&journal);
}

/* Callers go on after their nodes have forgotten, also one that waits. */
static void forgetful(void) {
    static const char script[] = "nodes 2\nset a\nclient c at 0\nclient d at 1\n";
    lockrun_nodes nodes;
    IS(lockrun_nodes_open(&nodes, script, sizeof script - 1, 1 << 20 | LOCKRUN_KEEP), LOCKRUN_OK);
    lockrun_caller *first = &nodes.caller[0], *second = &nodes.caller[1];
    IS(lockrun_lock(first, 0, LOCKRUN_READ, LOCKRUN_FOREVER), LOCKRUN_GRANTED);
    IS(lockrun_ask(second, 0, LOCKRUN_WRITE, 0), LOCKRUN_WAITS);
    IS(lockrun_nodes_forget(&nodes), LOCKRUN_OK);
    IS(lockrun_unlock(first, 0, LOCKRUN_READ, LOCKRUN_FOREVER), LOCKRUN_UNLOCKED);
    IS(lockrun_wait(second, LOCKRUN_FOREVER), LOCKRUN_GRANTED);
    IS(lockrun_nodes_served(&nodes, &submitted, &polled), LOCKRUN_OK);
    IS(submitted, 3);
    IS(polled, 3);
    IS(lockrun_nodes_finish(&nodes, &journal), LOCKRUN_FORGOTTEN);
    IS(journal.at != 0, 0);
}

int main(void) {
    opening();
    taking();
    wrong_handles();
    submitting();
    replies();
    ends();
    lockrun_free(&service);
    whole_life();
    unpolled();
    too_many();
    many_sets();
    eight_sets();
    forgetting();
    withdrawing();
    patience();
    forgetful();
    puts(bad ? "codes: some answers are others" : "codes: each answer is as it should be");
    return bad;
}
