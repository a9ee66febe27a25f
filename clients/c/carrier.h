/* carrier.h: the transport that a program is compiled for: LOCKRUN_BY_MPI, LOCKRUN_BY_ZMQ, or else Unix sockets. */
#ifndef CARRIER_H
#define CARRIER_H
#if defined LOCKRUN_BY_MPI
#include "lockrun_mpi.h"
typedef lockrun_mpi carrier;
static inline int carrier_begin(carrier *carrier, lockrun_apart *apart, const char *folder) {
    (void)folder;
    lockrun_mpi_begin(carrier, apart, MPI_COMM_WORLD);
    return 1;
}
static inline void carrier_end(carrier *carrier) { lockrun_mpi_end(carrier); }
#elif defined LOCKRUN_BY_ZMQ
#include "lockrun_zmq.h"
typedef lockrun_zmq carrier;
static inline int carrier_begin(carrier *carrier, lockrun_apart *apart, const char *folder) {
    return lockrun_zmq_begin(carrier, apart, folder);
}
static inline void carrier_end(carrier *carrier) { lockrun_zmq_end(carrier); }
#else
#include "lockrun_sockets.h"
typedef lockrun_sockets carrier;
static inline int carrier_begin(carrier *carrier, lockrun_apart *apart, const char *folder) {
    return lockrun_sockets_begin(carrier, apart, folder);
}
static inline void carrier_end(carrier *carrier) { lockrun_sockets_end(carrier); }
#endif
#endif
