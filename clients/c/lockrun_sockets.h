/* lockrun_sockets.h: the frames of lockrun_apart.h by Unix sockets, a stream for each two nodes. Nothing of it is proved. */
#ifndef LOCKRUN_SOCKETS_H
#define LOCKRUN_SOCKETS_H
#include "lockrun_apart.h"
#include <errno.h>
#include <fcntl.h>
#include <poll.h>
#include <stdio.h>
#include <sys/socket.h>
#include <sys/un.h>
#include <unistd.h>

/* What still has no place in a stream. */
typedef struct { uint8_t *bytes; size_t from, length, room; } lockrun_unsent;

typedef struct { uint32_t nodes; int *stream; struct pollfd *polls; lockrun_unsent *unsent; } lockrun_sockets;

/* Writes what has a place: 0 if the stream is broken. */
static inline int lockrun_sockets_write(lockrun_sockets *sockets, uint32_t to) {
    lockrun_unsent *unsent = &sockets->unsent[to];
    while (unsent->from < unsent->length) {
        ssize_t count = send(sockets->stream[to], unsent->bytes + unsent->from, unsent->length - unsent->from, MSG_NOSIGNAL);
        if (count < 0) return errno == EAGAIN || errno == EWOULDBLOCK || errno == EINTR;
        unsent->from += (size_t)count;
    }
    unsent->from = unsent->length = 0;
    return 1;
}

static inline int lockrun_sockets_carry(void *transport, uint32_t to, const uint8_t *bytes, size_t length) {
    lockrun_sockets *sockets = (lockrun_sockets *)transport;
    lockrun_unsent *unsent = &sockets->unsent[to];
    if (unsent->length + length > unsent->room) {
        size_t room = 2 * unsent->room + length;
        uint8_t *grown = (uint8_t *)realloc(unsent->bytes, room);
        if (!grown) return 0;
        unsent->bytes = grown;
        unsent->room = room;
    }
    memcpy(unsent->bytes + unsent->length, bytes, length);
    unsent->length += length;
    return lockrun_sockets_write(sockets, to);
}

static inline int lockrun_sockets_take(lockrun_sockets *sockets, lockrun_apart *apart, uint32_t from) {
    uint8_t part[1 << 14];
    for (;;) {
        ssize_t count = recv(sockets->stream[from], part, sizeof part, 0);
        if (count < 0) return errno == EAGAIN || errno == EWOULDBLOCK || errno == EINTR;
        if (count == 0) { sockets->stream[from] = -1 - sockets->stream[from]; return 1; }
        if (lockrun_came_in(apart, from, part, (size_t)count) != LOCKRUN_OK) return 0;
        if ((size_t)count < sizeof part) return 1;
    }
}

/* A node that has ended closes its streams; nothing comes from it any more. */
static inline int lockrun_sockets_sleep(void *transport, lockrun_apart *apart, int64_t patience) {
    lockrun_sockets *sockets = (lockrun_sockets *)transport;
    for (uint32_t q = 0; q < sockets->nodes; q++) {
        short out = sockets->unsent[q].length ? POLLOUT : 0;
        sockets->polls[q].fd = sockets->stream[q] < 0 ? -1 : sockets->stream[q];
        sockets->polls[q].events = (short)(POLLIN | out);
    }
    if (poll(sockets->polls, sockets->nodes, patience < 0 ? -1 : (int)patience) < 0 && errno != EINTR) return 0;
    for (uint32_t q = 0; q < sockets->nodes; q++) {
        if (sockets->polls[q].fd < 0) continue;
        if ((sockets->polls[q].revents & POLLOUT) && !lockrun_sockets_write(sockets, q)) return 0;
        if ((sockets->polls[q].revents & (POLLIN | POLLHUP)) && !lockrun_sockets_take(sockets, apart, q)) return 0;
    }
    return 1;
}

static inline void lockrun_sockets_end(lockrun_sockets *sockets) {
    for (uint32_t q = 0; sockets->stream && q < sockets->nodes; q++) {
        if (sockets->stream[q] != -1) close(sockets->stream[q] < 0 ? -1 - sockets->stream[q] : sockets->stream[q]);
        free(sockets->unsent[q].bytes);
    }
    free(sockets->stream);
    free(sockets->polls);
    free(sockets->unsent);
    memset(sockets, 0, sizeof *sockets);
}

/* Waits at most ten seconds for a node to listen. */
static inline int lockrun_sockets_connect(const struct sockaddr_un *name) {
    for (int tries = 0; tries < 10000; tries++) {
        int stream = socket(AF_UNIX, SOCK_STREAM, 0);
        struct timespec nap = {0, 1000000};
        if (stream < 0) return -1;
        if (connect(stream, (const struct sockaddr *)name, sizeof *name) == 0) return stream;
        close(stream);
        nanosleep(&nap, 0);
    }
    return -1;
}

/* A stream to each other node, by names in this folder: each node listens, the greater of two nodes connects and says which it
 * is. 0 if it can't. */
static inline int lockrun_sockets_begin(lockrun_sockets *sockets, lockrun_apart *apart, const char *folder) {
    uint32_t nodes = apart->nodes;
    struct sockaddr_un name;
    memset(&name, 0, sizeof name);
    name.sun_family = AF_UNIX;
    sockets->nodes = nodes;
    sockets->stream = (int *)malloc(nodes * sizeof(int));
    sockets->polls = (struct pollfd *)calloc(nodes, sizeof *sockets->polls);
    sockets->unsent = (lockrun_unsent *)calloc(nodes, sizeof *sockets->unsent);
    apart->transport = sockets;
    apart->carry = lockrun_sockets_carry;
    apart->sleep = lockrun_sockets_sleep;
    if (!sockets->stream || !sockets->polls || !sockets->unsent) return 0;
    for (uint32_t q = 0; q < nodes; q++) sockets->stream[q] = -1;
    int listener = socket(AF_UNIX, SOCK_STREAM, 0);
    snprintf(name.sun_path, sizeof name.sun_path, "%s/%u", folder, apart->me);
    unlink(name.sun_path);
    if (listener < 0 || bind(listener, (struct sockaddr *)&name, sizeof name) || listen(listener, 64)) return 0;
    for (uint32_t q = 0; q < apart->me; q++) {
        uint8_t me = (uint8_t)apart->me;
        snprintf(name.sun_path, sizeof name.sun_path, "%s/%u", folder, q);
        if ((sockets->stream[q] = lockrun_sockets_connect(&name)) < 0 || send(sockets->stream[q], &me, 1, 0) != 1) return 0;
    }
    for (uint32_t k = apart->me + 1; k < nodes; k++) {
        uint8_t from = 0;
        int stream = accept(listener, 0, 0);
        if (stream < 0 || recv(stream, &from, 1, MSG_WAITALL) != 1 || from <= apart->me || from >= nodes) return 0;
        sockets->stream[from] = stream;
    }
    close(listener);
    for (uint32_t q = 0; q < nodes; q++)
        if (q != apart->me && fcntl(sockets->stream[q], F_SETFL, O_NONBLOCK)) return 0;
    return 1;
}
#endif
