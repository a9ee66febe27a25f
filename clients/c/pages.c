/* Pages of several processes, none of which comes between those of another one: a node and a client for each process of MPI.
 *
 * usage: mpirun -n 4 pages */
#define _POSIX_C_SOURCE 200809L
#include "lockrun_mpi.h"
#include <stdio.h>

static lockrun_apart apart;
static lockrun_session caller;

static void call(enum lockrun_kind kind, uint32_t wanted) {
    uint32_t code = lockrun_call_apart(&apart, &caller, kind, 0, LOCKRUN_WRITE, 0, LOCKRUN_ALWAYS);
    if (code == wanted) return;
    fprintf(stderr, "node %u: code %u\n", apart.me, code);
    MPI_Abort(MPI_COMM_WORLD, 1);
}

int main(int count, char **words) {
    static const uint8_t key[] = "what only the nodes have";
    uint64_t start = (uint64_t)time(0); /* differs from that of each earlier time */
    int me, nodes, done = 0;
    lockrun_mpi mpi;
    MPI_Request end;
    MPI_Init(&count, &words);
    MPI_Comm_rank(MPI_COMM_WORLD, &me);
    MPI_Comm_size(MPI_COMM_WORLD, &nodes);
    MPI_Bcast(&start, 1, MPI_UINT64_T, 0, MPI_COMM_WORLD);
    char script[4096];
    int length = sprintf(script, "nodes %d\nset printer\n", nodes);
    for (int k = 0; k < nodes; k++) length += sprintf(script + length, "client c%d at %d\n", k, k);
    uint32_t code = lockrun_apart_open(&apart, script, (size_t)length, (uint32_t)me, (uint32_t)nodes, key, sizeof key, start);
    if (code != LOCKRUN_OK || lockrun_take_session(&apart.node, &caller) != LOCKRUN_OK) return 1;
    lockrun_mpi_begin(&mpi, &apart, MPI_COMM_WORLD);
    call(LOCKRUN_LOCK, LOCKRUN_GRANTED);
    for (int page = 1; page <= 3; page++) printf("page %d of node %d\n", page, me);
    fflush(stdout);
    call(LOCKRUN_UNLOCK, LOCKRUN_UNLOCKED);
    MPI_Ibarrier(MPI_COMM_WORLD, &end); /* until all are done the others may want what this node has */
    while (MPI_Test(&end, &done, MPI_STATUS_IGNORE), !done)
        if (lockrun_sleep(&apart, 1) != LOCKRUN_OK) return 1;
    lockrun_free(&caller);
    lockrun_apart_free(&apart);
    lockrun_mpi_end(&mpi);
    return MPI_Finalize();
}
