/* lockrun_mpi.h: the frames of lockrun_apart.h by MPI, a process for each node. Nothing of it is proved.
 *
 * MPI delivers each pair's messages whole, once and in order. It has no call that sleeps until a message comes and takes no
 * processor meanwhile: this one looks, and naps longer and longer, up to half a millisecond.
 */
#ifndef LOCKRUN_MPI_H
#define LOCKRUN_MPI_H
#include "lockrun_apart.h"
#include <mpi.h>
#include <sched.h>

enum { LOCKRUN_TAG = 7, LOCKRUN_MPI_SPINS = 50, LOCKRUN_MPI_YIELDS = 200, LOCKRUN_MPI_NAP = 500000 };

/* A message that MPI still sends. */
typedef struct lockrun_mpi_out { struct lockrun_mpi_out *next; MPI_Request request; } lockrun_mpi_out;

typedef struct { MPI_Comm comm; lockrun_mpi_out *outs; uint8_t *buffer; int room; } lockrun_mpi;

/* Lets go of the messages that were sent. */
static inline void lockrun_mpi_sent(lockrun_mpi *mpi) {
    for (lockrun_mpi_out **at = &mpi->outs; *at;) {
        lockrun_mpi_out *out = *at;
        int done = 0;
        MPI_Test(&out->request, &done, MPI_STATUS_IGNORE);
        if (!done) { at = &out->next; continue; }
        *at = out->next;
        free(out);
    }
}

static inline int lockrun_mpi_carry(void *transport, uint32_t to, const uint8_t *bytes, size_t length) {
    lockrun_mpi *mpi = (lockrun_mpi *)transport;
    lockrun_mpi_out *out = (lockrun_mpi_out *)malloc(sizeof *out + length);
    if (!out) return 0;
    memcpy(out + 1, bytes, length);
    lockrun_mpi_sent(mpi);
    out->next = mpi->outs;
    mpi->outs = out;
    return MPI_Isend(out + 1, (int)length, MPI_BYTE, (int)to, LOCKRUN_TAG, mpi->comm, &out->request) == MPI_SUCCESS;
}

/* Takes all messages that are there: how many, or -1 without memory. */
static inline int lockrun_mpi_take(lockrun_mpi *mpi, lockrun_apart *apart) {
    for (int taken = 0;; taken++) {
        int is_there = 0, length = 0;
        MPI_Status status;
        MPI_Iprobe(MPI_ANY_SOURCE, LOCKRUN_TAG, mpi->comm, &is_there, &status);
        if (!is_there) return taken;
        MPI_Get_count(&status, MPI_BYTE, &length);
        if (length > mpi->room) {
            uint8_t *grown = (uint8_t *)realloc(mpi->buffer, (size_t)length);
            if (!grown) return -1;
            mpi->buffer = grown;
            mpi->room = length;
        }
        MPI_Recv(mpi->buffer, length, MPI_BYTE, status.MPI_SOURCE, LOCKRUN_TAG, mpi->comm, MPI_STATUS_IGNORE);
        if (lockrun_came_in(apart, (uint32_t)status.MPI_SOURCE, mpi->buffer, (size_t)length) != LOCKRUN_OK) return -1;
    }
}

static inline int lockrun_mpi_sleep(void *transport, lockrun_apart *apart, int64_t patience) {
    lockrun_mpi *mpi = (lockrun_mpi *)transport;
    int64_t end = patience < 0 ? 0 : lockrun_clock() + patience;
    for (unsigned tries = 0;; tries++) {
        int taken = lockrun_mpi_take(mpi, apart);
        if (taken) return taken > 0;
        if (patience >= 0 && lockrun_clock() >= end) return 1;
        if (tries < LOCKRUN_MPI_SPINS) continue;
        if (tries < LOCKRUN_MPI_YIELDS) { sched_yield(); continue; }
        const long nap = 2000L * (tries - LOCKRUN_MPI_YIELDS + 1), longest = LOCKRUN_MPI_NAP;
        struct timespec time = {0, nap < longest ? nap : longest};
        nanosleep(&time, 0);
    }
}

static inline void lockrun_mpi_begin(lockrun_mpi *mpi, lockrun_apart *apart, MPI_Comm comm) {
    memset(mpi, 0, sizeof *mpi);
    mpi->comm = comm;
    apart->transport = mpi;
    apart->carry = lockrun_mpi_carry;
    apart->sleep = lockrun_mpi_sleep;
}

/* Lets go of all, once all messages were received. */
static inline void lockrun_mpi_end(lockrun_mpi *mpi) {
    while (mpi->outs) lockrun_mpi_sent(mpi);
    free(mpi->buffer);
    memset(mpi, 0, sizeof *mpi);
}
#endif
