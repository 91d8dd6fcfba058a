/* Two mounts by two threads at once; a mount is opened by one thread, used by another, and closed by the first. */
#include "refskold.h"
#include <pthread.h>
#include <stdio.h>

enum { TURNS = 20000 };

static void *work(void *arg) {
    refskold *m = arg;
    refskold_reply reply;
    refskold_plan plan;
    static const uint8_t zeros[4096];
    uint8_t room[4096];
    uint64_t trans, serial, waits;
    for (uint32_t turn = 0; turn < TURNS; turn++) {
        if (refskold_alloc(m, 5000, 1, 0, &trans)) return "alloc";
        if (refskold_read(m, trans, 3) == REFSKOLD_ASKS && refskold_read_content(m, trans, 3, zeros)) return "read";
        if (refskold_log(m, trans, 3, 0, &turn, sizeof turn) || refskold_commit(m, trans, &reply) || refskold_force(m, &waits)) return "commit";
        if (refskold_take(m, REFSKOLD_CHECKPOINT, &serial) != REFSKOLD_TAKEN || refskold_begin(m, serial, &reply)) return "begin";
        uint32_t pieces = reply.pieces;
        for (uint32_t k = 0; k < pieces; k++)
            if (refskold_piece(m, k, room, sizeof room) < 1) return "piece";
        if (refskold_end(m, serial, pieces, 1, &reply) || reply.word != REFSKOLD_LANDED || refskold_push(m)) return "end";
        if (refskold_take(m, REFSKOLD_FLUSH, &serial) != REFSKOLD_TAKEN || refskold_flush_plan(m, &plan) != 1 || refskold_home(m, 0, room)) return "plan";
        if (refskold_flush(m, serial, 1, 1, 1, &reply) || reply.number != 1) return "flush";
    }
    return NULL;
}

int main(void) {
    refskold mounts[2] = {REFSKOLD_NONE, REFSKOLD_NONE};
    pthread_t threads[2];
    int failed = 0;
    for (int i = 0; i < 2; i++)
        if (refskold_open(&mounts[i], 0, 65536, 64)) return 1;
    for (int i = 0; i < 2; i++)
        if (pthread_create(&threads[i], NULL, work, &mounts[i])) return 1;
    for (int i = 0; i < 2; i++) {
        void *what;
        pthread_join(threads[i], &what);
        if (what) failed = 1, printf("FAILED %s\n", (char *)what);
    }
    for (int i = 0; i < 2; i++) refskold_close(&mounts[i]);
    return failed;
}
