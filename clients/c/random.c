/* Random calls of lockrun.h in any order that the header allows, with handles that stand for something else or for nothing, and
 * wrong numbers, and some of the calls over it that wait: for AddressSanitizer or valgrind, which have to find nothing. No answer is one that no call gives, a handle that
 * stands for nothing is refused by each, and one that stands for something else by those that want another.
 *
 * usage: random [CALLS [SEED]] */
#define _POSIX_C_SOURCE 200809L
#include "lockrun_keys.h"
#include <stdio.h>
#include <stdlib.h>
#include <string.h>

enum { NODES = 2, CLIENTS = 4, HANDLES = 1 + NODES + CLIENTS + 1, REMOTES = 2, BYTES = 512 };

/* What the handles stand for, where they stand for something: a service, its stations, its sessions, a journal. */
static lockrun_handle all[HANDLES], remote[REMOTES], guest[REMOTES];
static lockrun_handle *const service = all, *const station = all + 1, *const session = all + 1 + NODES,
                             *const journal = all + HANDLES - 1;
static uint64_t seed = 1, start = 1;
static unsigned long refused, made, replies, services;

static const char script[] = "version 3\nnodes 2\nset a\nset b with a\nset c\nclient c0 at 0\nclient c1 at 1\nclient c2 at 0\n"
                             "client c3 at 1\n";

static uint64_t draw(uint64_t below) {
    seed = seed * 6364136223846793005u + 1442695040888963407u;
    return (seed >> 33) % below;
}

static void want(int holds, const char *what, uint64_t code) {
    if (holds) return;
    printf("random: call %lu: %s: %llu\n", made, what, (unsigned long long)code);
    exit(1);
}

/* A number that is right most often. */
static uint32_t number(uint32_t below) { return draw(16) ? (uint32_t)draw(below) : draw(2) ? UINT32_MAX : (uint32_t)draw(1 << 20); }

static lockrun_handle *any(void) {
    lockrun_handle *handle = draw(8) ? &all[draw(HANDLES)] : draw(2) ? &remote[draw(REMOTES)] : &guest[draw(REMOTES)];
#ifdef LOCKRUN_STUB
    if (!handle->at) return 0;
#endif
    return handle;
}

/* One of these, or any. */
static lockrun_handle *one_of(lockrun_handle *these, uint64_t count) {
    lockrun_handle *handle = draw(16) ? &these[draw(count)] : any();
#ifdef LOCKRUN_STUB
    if (handle && !handle->at) return 0;
#endif
    return handle;
}

/* The code of a call with this handle, which was one of those that it wants, or none of them. */
static void saw(const lockrun_handle *before, int fits, uint32_t code) {
    want(code <= 48, "a code", code);
    if (code == LOCKRUN_WRONG_HANDLE) refused++;
    if (code >= LOCKRUN_GRANTED && code <= LOCKRUN_WITHHELD) replies++;
    if (!before->at) want(code == LOCKRUN_WRONG_HANDLE, "nothing isn't refused", code);
    else if (!fits) want(code == LOCKRUN_WRONG_HANDLE, "another handle isn't refused", code);
}

static int is_in(const lockrun_handle *handle, const lockrun_handle *first, int count) { return handle >= first && handle < first + count; }

static int turns(const lockrun_handle *handle) { return is_in(handle, station, NODES) || is_in(handle, remote, REMOTES); }

static int talks(const lockrun_handle *handle) { return is_in(handle, session, CLIENTS) || is_in(handle, guest, REMOTES); }

/* The first of these handles that stands for nothing; behind them if all stand for something. */
static int first_empty(const lockrun_handle *these, int count) {
    int place = 0;
    while (place < count && these[place].at) place++;
    return place;
}

/* Opens a service, if there is none, from the script or from bytes that are none. */
static void open_one(void) {
    uint8_t text[BYTES];
    size_t length = sizeof script - 1;
    memcpy(text, script, length);
    const int is_other = !draw(4);
    for (uint64_t k = is_other ? 1 + draw(4) : 0; k > 0; k--) text[draw(length)] = (uint8_t)draw(256);
    if (is_other && draw(2)) length = draw(length);
    const lockrun_new_set more[] = {{(const uint8_t *)"d", 1, (const uint8_t *)"a", 1},
                                    {(const uint8_t *)(draw(2) ? "e" : "d"), 1, (const uint8_t *)"zz", (size_t)draw(3)}};
    lockrun_service opened = {0};
    uint32_t code, line = 0;
    uint64_t at = 0, limit = draw(8) ? 100000 : draw(2) ? draw(20) : UINT64_MAX;
    uint32_t places = draw(16) ? 1 + (uint32_t)draw(4) : number(5000);
    switch (draw(4)) {
    case 0: code = lockrun_open(text, length, limit, places, &opened); break;
    case 1: code = lockrun_open_sets(text, length, more, draw(3), limit, places, &opened); break;
    case 2: code = lockrun_open_keys(text, length, number(300), number(300), limit, places, &opened); break;
    default: code = lockrun_fault(text, length, &at, &line); break;
    }
    want(code <= LOCKRUN_BAD_SET && code != LOCKRUN_WRONG_HANDLE, "opening", code);
    want((opened.at != 0) <= (code == LOCKRUN_OK), "a service of a refusal", code);
    if (!opened.at) return;
    int is_free = !is_other && first_empty(all, HANDLES - 1) == 0;
    for (int k = 1; k < HANDLES - 1; k++) is_free &= !all[k].at;
    services += is_free != 0;
    if (is_free) *service = opened;
    else lockrun_free(&opened);
}

/* Takes the next station or session, which come in order, or asks another handle for one. */
static void take_one(void) {
    const int stations = draw(3) == 0, count = stations ? NODES : CLIENTS;
    lockrun_handle *from = one_of(service, 1), *these = stations ? station : session, taken = {0};
    const int place = first_empty(these, count);
    if (!from || (from == service && place == count)) return;
    const lockrun_handle before = *from;
    const uint32_t code = stations ? lockrun_take_station(from, &taken) : lockrun_take_session(from, &taken);
    saw(&before, from == service || (!stations && is_in(from, remote, REMOTES)), code);
    if (taken.at && from == service) these[place] = taken;
    else lockrun_free(&taken);
}

/* Takes what is left, gives all back in order, and asks what was served, or ends the service. */
static void give_all(void) {
    size_t submitted = 0, polled = 0;
    if (!service->at) return;
    for (int k = 0; k < NODES; k++) if (!station[k].at && lockrun_take_station(service, &station[k]) != LOCKRUN_OK) return;
    for (int k = 0; k < CLIENTS; k++) if (!session[k].at && lockrun_take_session(service, &session[k]) != LOCKRUN_OK) return;
    for (int k = 0; k < NODES + CLIENTS; k++) {
        want(lockrun_served(service, &submitted, &polled) == LOCKRUN_NOTHING, "served with some out", 0);
        want(lockrun_give(service, &all[1 + k]) == LOCKRUN_OK && !all[1 + k].at, "give", (uint64_t)k);
    }
    want(lockrun_served(service, &submitted, &polled) == LOCKRUN_OK && polled <= submitted, "served", polled);
    if (draw(4) || journal->at) return;
    const uint32_t code = lockrun_finish(service, journal);
    want(code == LOCKRUN_OK || code == LOCKRUN_FORGOTTEN || code == LOCKRUN_TOO_MANY, "finish", code);
    want(!service->at && (journal->at != 0) == (code == LOCKRUN_OK), "after finish", code);
}

/* Frees all of the service at once. */
static void drop_all(void) {
    for (int k = 0; k < 1 + NODES + CLIENTS; k++) if (all[k].at) lockrun_free(&all[k]);
}

static void work(void) {
    uint64_t count = 0, sent = 0;
    uint32_t set = 0, kind = number(7);
    uint8_t out[BYTES];
    size_t one = 0, two = 0;
    lockrun_clients told;
    lockrun_handle *at = one_of(station, NODES), *by = one_of(session, CLIENTS), *of = one_of(journal, 1), before;
    if (!at || !by || !of || at == by) return;
    switch (draw(14)) {
    case 0: case 1: before = *at; saw(&before, turns(at), lockrun_turn(at)); break;
    case 2: case 3: before = *at; saw(&before, turns(at), lockrun_turn_telling(at, &sent, &told)); break;
    case 4: before = *at; if (!draw(50)) saw(&before, turns(at), lockrun_forget(at)); break;
    case 5: case 6: before = *by; saw(&before, talks(by), lockrun_submit(by, kind, number(4), number(6), number(6))); break;
    case 7: before = *by; saw(&before, talks(by), lockrun_poll(by, &count)); break;
    case 8:
        if (lockrun_home(by) != (uint32_t)(at - station) || !is_in(at, station, NODES)) break;
        before = *by;
        saw(&before, talks(by), lockrun_do(at, by, kind, number(4), number(6), number(6), &count, &sent, &told));
        break;
    case 9: before = *by; saw(&before, talks(by), lockrun_set(by, (const uint8_t *)"abc", draw(4), &set)); break;
    case 10: want(talks(by) || !(lockrun_left(by) + lockrun_client(by) + lockrun_home(by)), "numbers of another handle", 0); break;
    case 11:
        before = *of;
        saw(&before, of == journal, lockrun_end(of, &one, &two));
        one = lockrun_copy(of, draw(4) ? draw(300) : SIZE_MAX, out, sizeof out) + lockrun_script(of, draw(300), out, draw(sizeof out));
        want(of == journal || !one, "bytes of another handle", one);
        break;
    case 12: want(lockrun_key(number(9), number(300), number(300), out, draw(9), out, draw(9), &set) <= LOCKRUN_BAD_ARGUMENT, "key", 0); break;
    default: if (!draw(40)) lockrun_free(journal); break;
    }
}

/* Opens two nodes that lie apart, with a new start. */
static void open_remotes(void) {
    static const uint8_t key[] = "random";
    const uint8_t *text = (const uint8_t *)script;
    start++;
    for (uint32_t me = 0; me < REMOTES; me++) {
        uint32_t code = lockrun_node_open(text, sizeof script - 1, me, key, sizeof key, start, 100000, 2, &remote[me]);
        want(code == LOCKRUN_OK, "node_open", code);
        code = lockrun_take_session(&remote[me], &guest[me]);
        want(code == LOCKRUN_OK, "a session of a node", code);
    }
}

static void end_remotes(void) {
    for (uint32_t me = 0; me < REMOTES; me++) {
        lockrun_handle lines = {0};
        lockrun_free(&guest[me]);
        const uint32_t code = lockrun_node_finish(&remote[me], &lines);
        want(!remote[me].at && (lines.at != 0) == (code == LOCKRUN_OK), "node_finish", code);
        if (lines.at) lockrun_free(&lines);
    }
}

/* Frames go from one node to the other, as they are or damaged. */
static void carry(void) {
    static uint8_t frame[1 << 12];
    const uint32_t me = (uint32_t)draw(REMOTES), to = number(REMOTES + 1);
    size_t length = 0, used = 0;
    if (!remote[me].at) open_remotes();
    uint32_t code = lockrun_send(&remote[me], to, frame, draw(8) ? sizeof frame : draw(60), &length);
    want(code <= LOCKRUN_FULL, "send", code);
    if (code == LOCKRUN_OK && draw(8)) {
        for (uint64_t k = draw(16) ? 0 : draw(4); k > 0; k--) frame[draw(length)] ^= (uint8_t)draw(256);
        code = lockrun_receive(&remote[1 - me], me, frame, draw(8) ? length : draw(length), &used);
        want(code <= LOCKRUN_MISFIT && used <= length, "receive", code);
    }
    code = lockrun_pending(&remote[me], to);
    want(code <= LOCKRUN_BAD_ARGUMENT, "pending", code);
    if (!draw(200)) end_remotes();
}

static lockrun_nodes nodes;
static unsigned long named, asked, settled;

static void open_nodes(void) {
    static const char few[] = "nodes 2\nset a\nclient c0 at 0\nclient c1 at 1\nclient c2 at 0\nclient c3 at 1\n";
    const uint32_t names = number(9);
    const uint32_t code = lockrun_nodes_open_names(&nodes, few, sizeof few - 1, number(9), number(9), names, draw(9) ? 100000 : draw(99));
    want(code == LOCKRUN_OK || code == LOCKRUN_TOO_MANY, "open_names", code);
    if (code != LOCKRUN_OK) want(!nodes.node && !nodes.names, "nodes of a refusal", code);
    else want(lockrun_victims(&nodes, draw(2) ? 0 : -1) == LOCKRUN_OK, "victims", 0);
}

/* A call of the nodes that lie in one process, by one thread: no patience, so none waits for another. */
static void call_nodes(void) {
    const char *word = "shelf book page", *name = word + draw(15), *parent = word + draw(15);
    const size_t length = draw(4) ? draw(16 - (uint64_t)(name - word)) : 0, parent_length = draw(3) ? 0 : draw(16 - (uint64_t)(parent - word));
    uint32_t set = 0, code = 0;
    size_t size = 0;
    if (!nodes.node) open_nodes();
    if (!nodes.node) return;
    lockrun_caller *caller = &nodes.caller[draw(nodes.callers)];
    switch (draw(12)) {
    case 0: case 1: case 2:
        code = lockrun_name(&nodes, name, length, parent, parent_length, &set);
        want(code == LOCKRUN_OK || code == LOCKRUN_BAD_ARGUMENT || code == LOCKRUN_NAMES_FULL, "name", code);
        if (code != LOCKRUN_OK) break;
        named++;
        name = memcmp(lockrun_name_of(&nodes, set, &size), name, length) ? 0 : name;
        want(name && size == length, "another name", set);
        break;
    case 3: want(!lockrun_name_of(&nodes, number(99), &size) || size < 16, "a name of a set", size); break;
    case 4: settled += (unsigned)lockrun_rests(&nodes); break;
    case 5: settled += (unsigned)lockrun_node_rests(&nodes, number(3)); break;
    case 6: (void)lockrun_was_victim(caller); break;
    case 7: code = lockrun_lock(caller, number(20), (enum lockrun_mode)draw(6), 0); break;
    case 8: code = lockrun_ask(caller, number(20), (enum lockrun_mode)number(7), (int64_t)draw(2)); break;
    case 9: code = lockrun_wait(caller, (int64_t)draw(2)); break;
    case 10: code = draw(2) ? lockrun_give_up(caller) : lockrun_abort(caller); break;
    default: if (!draw(40)) lockrun_nodes_free(&nodes); break;
    }
    asked += code >= LOCKRUN_GRANTED && code <= LOCKRUN_WITHHELD;
    want(code <= LOCKRUN_NAMES_FULL, "a code", code);
}

int main(int count, char **words) {
    const unsigned long calls = count > 1 ? strtoul(words[1], 0, 10) : 100000;
    seed = count > 2 ? strtoull(words[2], 0, 10) : 1;
    for (made = 0; made < calls; made++) {
        const uint64_t kind = draw(1000);
        if (kind < 20) open_one();
        else if (kind < 120) take_one();
        else if (kind < 125) give_all();
        else if (kind < 126) drop_all();
        else if (kind < 200) carry();
        else if (kind < 300) call_nodes();
        else work();
    }
    drop_all();
    lockrun_nodes_free(&nodes);
    lockrun_free(journal);
    for (int k = 0; k < REMOTES; k++) {
        lockrun_free(&guest[k]);
        lockrun_free(&remote[k]);
    }
    printf("random: %lu calls, %lu wrong handles refused, %lu replies, %lu services; %lu names, %lu replies to callers, %lu times at rest\n",
           made, refused, replies, services, named, asked, settled);
    return calls >= 10000 && (!refused || !replies || !services || !named || !asked || !settled);
}
