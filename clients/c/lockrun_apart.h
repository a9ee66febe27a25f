/* lockrun_apart.h: one node of a script in this process, over lockrun.h, with calls that wait. Plain C11, and C++11; nothing
 * of it is proved. lockrun_mpi.h, lockrun_zmq.h and lockrun_sockets.h carry its frames.
 *
 * One thread makes all calls. While it waits it takes in what came, turns the node, gives out what the node sends, and sleeps
 * until something comes. While it makes no call the node answers nobody: a thread that has other work calls lockrun_serve
 * between its parts.
 */
#ifndef LOCKRUN_APART_H
#define LOCKRUN_APART_H
#include "lockrun.h"
#include "lockrun_text.h"
#include <stdlib.h>
#include <string.h>
#include <time.h>
#ifndef CLOCK_MONOTONIC
#error "clocks of POSIX are used: compile with -std=gnu11, or with -D_POSIX_C_SOURCE=200809L"
#endif

/* Beside the codes of lockrun.h: the time is over; the transport is broken. And a time that is never over. */
enum { LOCKRUN_STILL_WAITS = 32, LOCKRUN_NO_CARRIER, LOCKRUN_ALWAYS = -1 };

/* For how many bytes of frames there is room at first; how many of a frame aren't of its letter; and after how many calls it is
 * looked whether something came, where none of them had to wait: else a caller that has all it wants would keep others out. */
enum { LOCKRUN_FRAMES = 1 << 16, LOCKRUN_AROUND = 39, LOCKRUN_CALLS = 8 };

/* Bytes that came from a node and weren't received yet. */
typedef struct { uint8_t *bytes; size_t length, room; } lockrun_came;

typedef struct lockrun_apart {
    lockrun_remote node;
    uint32_t me, nodes;
    lockrun_came *came;
    uint8_t *frames;  /* a buffer for frames that go out */
    size_t room;
    uint64_t dropped; /* how many locks the last LOCKRUN_DROPPED was of */
    unsigned calls;
    uint64_t sent, received, bytes; /* frames that went out and came in, and the bytes of the former */
    void *transport;
    /* Carries frames to a node: 0 if it can't. */
    int (*carry)(void *transport, uint32_t to, const uint8_t *bytes, size_t length);
    /* Sleeps until bytes come, at most so many milliseconds, or for ever if they are negative, and gives them to lockrun_came_in:
     * 0 if it can't. */
    int (*sleep)(void *transport, struct lockrun_apart *apart, int64_t patience);
} lockrun_apart;

static inline int64_t lockrun_clock(void) {
    struct timespec time;
    clock_gettime(CLOCK_MONOTONIC, &time);
    return (int64_t)time.tv_sec * 1000 + time.tv_nsec / 1000000;
}

/* Keeps bytes that came from a node: LOCKRUN_OK, or LOCKRUN_NO_MEMORY and then none is kept. */
static inline uint32_t lockrun_came_in(lockrun_apart *apart, uint32_t from, const uint8_t *bytes, size_t length) {
    lockrun_came *came = &apart->came[from];
    if (came->length + length > came->room) {
        size_t room = 2 * came->room + length;
        uint8_t *grown = (uint8_t *)realloc(came->bytes, room);
        if (!grown) return LOCKRUN_NO_MEMORY;
        came->bytes = grown;
        came->room = room;
    }
    memcpy(came->bytes + came->length, bytes, length);
    came->length += length;
    return LOCKRUN_OK;
}

/* How many frames the bytes have, which are whole ones: each begins with the length of its letter. */
static inline uint64_t lockrun_count_frames(const uint8_t *bytes, size_t length) {
    uint64_t count = 0;
    for (size_t at = 0; at < length; count++)
        at += LOCKRUN_AROUND + ((size_t)bytes[at] | (size_t)bytes[at + 1] << 8 | (size_t)bytes[at + 2] << 16 | (size_t)bytes[at + 3] << 24);
    return count;
}

/* Receives what came from all nodes. */
static inline uint32_t lockrun_take_in(lockrun_apart *apart) {
    for (uint32_t from = 0; from < apart->nodes; from++) {
        lockrun_came *came = &apart->came[from];
        if (came->length == 0) continue;
        size_t used = 0;
        uint32_t code = lockrun_receive(&apart->node, from, came->bytes, came->length, &used);
        apart->received += lockrun_count_frames(came->bytes, used);
        memmove(came->bytes, came->bytes + used, came->length - used);
        came->length -= used;
        if (code != LOCKRUN_OK) return code;
    }
    return LOCKRUN_OK;
}

/* Gives all that waits for a node to the transport. */
static inline uint32_t lockrun_give_out(lockrun_apart *apart, uint32_t to) {
    for (;;) {
        size_t length = 0;
        uint32_t code = lockrun_send(&apart->node, to, apart->frames, apart->room, &length);
        if (code == LOCKRUN_FULL) {
            uint8_t *grown = (uint8_t *)realloc(apart->frames, length);
            if (!grown) return LOCKRUN_NO_MEMORY;
            apart->frames = grown;
            apart->room = length;
            continue;
        }
        if (code == LOCKRUN_NOTHING) return LOCKRUN_OK;
        if (code != LOCKRUN_OK) return code;
        apart->sent += lockrun_count_frames(apart->frames, length);
        apart->bytes += length;
        if (!apart->carry(apart->transport, to, apart->frames, length)) return LOCKRUN_NO_CARRIER;
    }
}

/* Receives, turns the node until it makes no move, and gives out: LOCKRUN_OK; or why a frame was refused, or what keeps the node
 * from going on. */
static inline uint32_t lockrun_serve(lockrun_apart *apart) {
    uint32_t turned, received;
    int moved;
    do {
        moved = 0;
        received = lockrun_take_in(apart);
        while ((turned = lockrun_turn(&apart->node)) == LOCKRUN_OK) moved = 1;
    } while (moved);
    for (uint32_t to = 0; to < apart->nodes; to++) {
        uint32_t code = to == apart->me ? (uint32_t)LOCKRUN_OK : lockrun_give_out(apart, to);
        if (code != LOCKRUN_OK) return code;
    }
    return received != LOCKRUN_OK ? received : turned == LOCKRUN_NOTHING ? (uint32_t)LOCKRUN_OK : turned;
}

/* Sleeps until bytes come, at most so long, and serves: as lockrun_serve. */
static inline uint32_t lockrun_sleep(lockrun_apart *apart, int64_t patience) {
    if (!apart->sleep(apart->transport, apart, patience)) return LOCKRUN_NO_CARRIER;
    return lockrun_serve(apart);
}

/* Waits for the next reply of a session: a lockrun_reply; LOCKRUN_STILL_WAITS once the time is over, and then it is still to
 * come; or as lockrun_serve. */
static inline uint32_t lockrun_reply_apart(lockrun_apart *apart, lockrun_session *session, int64_t patience) {
    int64_t end = patience < 0 ? 0 : lockrun_clock() + patience, left = patience;
    for (uint32_t code = lockrun_serve(apart);; code = lockrun_sleep(apart, left)) {
        uint32_t reply = lockrun_poll(session, &apart->dropped);
        if (reply != LOCKRUN_NOTHING) return reply;
        if (code != LOCKRUN_OK) return code;
        if (patience >= 0 && (left = end - lockrun_clock()) <= 0) return LOCKRUN_STILL_WAITS;
    }
}

/* Submits a command and waits for its reply. */
static inline uint32_t lockrun_call_apart(lockrun_apart *apart, lockrun_session *session, uint32_t kind, uint32_t set,
                                          uint32_t first, uint32_t second, int64_t patience) {
    uint32_t code = lockrun_submit(session, kind, set, first, second);
    if (++apart->calls % LOCKRUN_CALLS == 0 && !apart->sleep(apart->transport, apart, 0)) return LOCKRUN_NO_CARRIER;
    return code == LOCKRUN_OK ? lockrun_reply_apart(apart, session, patience) : code;
}

static inline void lockrun_apart_free(lockrun_apart *apart) {
    if (apart->node.at) lockrun_free(&apart->node);
    for (uint32_t k = 0; apart->came && k < apart->nodes; k++) free(apart->came[k].bytes);
    free(apart->came);
    free(apart->frames);
    memset(apart, 0, sizeof *apart);
}

/* Opens a node of a script with so many nodes. The transport is set by the caller. */
static inline uint32_t lockrun_apart_open(lockrun_apart *apart, const char *text, size_t length, uint32_t me, uint32_t nodes,
                                          const uint8_t *key, size_t key_length, uint64_t start) {
    memset(apart, 0, sizeof *apart);
    apart->me = me;
    apart->nodes = nodes;
    apart->room = LOCKRUN_FRAMES;
    apart->came = (lockrun_came *)calloc(nodes, sizeof *apart->came);
    apart->frames = (uint8_t *)malloc(apart->room);
    size_t size = 0;
    uint8_t *whole = lockrun_with_version(text, length, &size);
    uint32_t code = whole && apart->came && apart->frames ? LOCKRUN_OK : LOCKRUN_NO_MEMORY;
    if (code == LOCKRUN_OK)
        code = lockrun_node_open(whole, size, me, key, key_length, start, (uint64_t)1 << 55, 4, &apart->node);
    free(whole);
    if (code != LOCKRUN_OK) lockrun_apart_free(apart);
    return code;
}
#endif
