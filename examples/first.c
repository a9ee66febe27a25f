#include <lockrun_easy.h>
#include <stdio.h>

int main(void) {
    static const char script[] = "nodes 1\nset counter\nclient ann at 0\nclient ben at 0\n";
    lockrun_nodes nodes;
    if (lockrun_nodes_open(&nodes, script, sizeof script - 1, 1ULL << 40) != LOCKRUN_OK) return 1;
    lockrun_caller *ann = &nodes.caller[0], *ben = &nodes.caller[1];
    if (lockrun_lock(ann, 0, LOCKRUN_WRITE, LOCKRUN_FOREVER) != LOCKRUN_GRANTED) return 1;
    if (lockrun_lock(ben, 0, LOCKRUN_WRITE, 100) == LOCKRUN_WITHDRAWN) puts("ben gave up after 100 ms");
    if (lockrun_unlock(ann, 0, LOCKRUN_WRITE, LOCKRUN_FOREVER) != LOCKRUN_UNLOCKED) return 1;
    if (lockrun_lock(ben, 0, LOCKRUN_WRITE, 100) == LOCKRUN_GRANTED) puts("ben has the lock");
    lockrun_nodes_free(&nodes);
}
