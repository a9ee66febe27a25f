/* lockrun_zmq.h: the frames of lockrun_apart.h by ZeroMQ: a PAIR socket for each two nodes, without a high-water mark, so that
 * nothing is dropped. Nothing of it is proved.
 */
#ifndef LOCKRUN_ZMQ_H
#define LOCKRUN_ZMQ_H
#include "lockrun_apart.h"
#include <stdio.h>
#include <zmq.h>

typedef struct { void *context; void **socket; zmq_pollitem_t *items; uint32_t nodes; } lockrun_zmq;

static inline int lockrun_zmq_carry(void *transport, uint32_t to, const uint8_t *bytes, size_t length) {
    lockrun_zmq *zmq = (lockrun_zmq *)transport;
    return zmq_send(zmq->socket[to], bytes, length, 0) >= 0;
}

/* Takes all messages of a node that are there. */
static inline int lockrun_zmq_take(lockrun_zmq *zmq, lockrun_apart *apart, uint32_t from) {
    for (;;) {
        zmq_msg_t message;
        zmq_msg_init(&message);
        if (zmq_msg_recv(&message, zmq->socket[from], ZMQ_DONTWAIT) < 0) { zmq_msg_close(&message); return 1; }
        uint32_t code = lockrun_came_in(apart, from, (const uint8_t *)zmq_msg_data(&message), zmq_msg_size(&message));
        zmq_msg_close(&message);
        if (code != LOCKRUN_OK) return 0;
    }
}

static inline int lockrun_zmq_sleep(void *transport, lockrun_apart *apart, int64_t patience) {
    lockrun_zmq *zmq = (lockrun_zmq *)transport;
    uint32_t count = 0;
    for (uint32_t q = 0; q < zmq->nodes; q++)
        if (q != apart->me) { zmq->items[count].socket = zmq->socket[q]; zmq->items[count++].events = ZMQ_POLLIN; }
    if (zmq_poll(zmq->items, (int)count, patience < 0 ? -1 : (long)patience) < 0) return 0;
    for (uint32_t q = 0, k = 0; q < zmq->nodes; q++)
        if (q != apart->me && (zmq->items[k++].revents & ZMQ_POLLIN) && !lockrun_zmq_take(zmq, apart, q)) return 0;
    return 1;
}

static inline void lockrun_zmq_end(lockrun_zmq *zmq) {
    for (uint32_t q = 0; zmq->socket && q < zmq->nodes; q++) if (zmq->socket[q]) zmq_close(zmq->socket[q]);
    if (zmq->context) zmq_ctx_term(zmq->context);
    free(zmq->socket);
    free(zmq->items);
    memset(zmq, 0, sizeof *zmq);
}

/* A socket to each other node, by names in this folder; the lesser one of two nodes binds. 0 if it can't. */
static inline int lockrun_zmq_begin(lockrun_zmq *zmq, lockrun_apart *apart, const char *folder) {
    memset(zmq, 0, sizeof *zmq);
    zmq->nodes = apart->nodes;
    zmq->context = zmq_ctx_new();
    zmq->socket = (void **)calloc(apart->nodes, sizeof *zmq->socket);
    zmq->items = (zmq_pollitem_t *)calloc(apart->nodes, sizeof *zmq->items);
    apart->transport = zmq;
    apart->carry = lockrun_zmq_carry;
    apart->sleep = lockrun_zmq_sleep;
    if (!zmq->context || !zmq->socket || !zmq->items) return 0;
    for (uint32_t q = 0, none = 0; q < apart->nodes; q++) {
        if (q == apart->me) continue;
        uint32_t lesser = q < apart->me ? q : apart->me, greater = q < apart->me ? apart->me : q;
        char name[256];
        snprintf(name, sizeof name, "ipc://%s/%u-%u", folder, lesser, greater);
        if (!(zmq->socket[q] = zmq_socket(zmq->context, ZMQ_PAIR))) return 0;
        zmq_setsockopt(zmq->socket[q], ZMQ_SNDHWM, &none, sizeof none);
        zmq_setsockopt(zmq->socket[q], ZMQ_RCVHWM, &none, sizeof none);
        if (q > apart->me ? zmq_bind(zmq->socket[q], name) : zmq_connect(zmq->socket[q], name)) return 0;
    }
    return 1;
}
#endif
