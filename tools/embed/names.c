/* Names and sizes of the header, and all pieces of a checkpoint at once. */
#include "refskold.h"
#include <stdio.h>
#include <string.h>

static int failures;
static void wants(const char *what, int is_so) {
    if (is_so) return;
    printf("FAILED %s\n", what);
    failures++;
}
static int is_named(const char *got, const char *wanted) {
    return wanted == NULL ? got == NULL : got != NULL && strcmp(got, wanted) == 0;
}

static void names(void) {
    wants("an error", is_named(refskold_error_name(-EAGAIN), "EAGAIN") && is_named(refskold_error_name(ENOBUFS), "ENOBUFS"));
    wants("no error", is_named(refskold_error_name(0), "0") && is_named(refskold_error_name(-EPERM), NULL));
    wants("a reason", is_named(refskold_reason_name(REFSKOLD_LOG_IO_ERROR), "LOG_IO_ERROR") && is_named(refskold_reason_name(REFSKOLD_CORRUPT_INCORE), "CORRUPT_INCORE"));
    wants("no reason", is_named(refskold_reason_name(5), NULL) && is_named(refskold_reason_name(-1), NULL));
    wants("a word", is_named(refskold_word_name(REFSKOLD_FORCE_TO), "forceto") && is_named(refskold_word_name(REFSKOLD_UNMOUNT), "unmount"));
    wants("no word", is_named(refskold_word_name(REFSKOLD_UNMOUNT + 1), NULL));
}

/* One transaction of all blocks that a mount may have busy, each of them whole: it fits its unit, and not one byte less. */
static void longest(void) {
    static unsigned char block[REFSKOLD_BLOCK], room[REFSKOLD_TEXT], piece[REFSKOLD_BLOCK];
    refskold mount = REFSKOLD_NONE;
    refskold_reply reply;
    uint64_t trans, waits, serial;
    uint32_t unit = refskold_unit(REFSKOLD_HELD, REFSKOLD_BLOCK);
    int status = refskold_open(&mount, 0, REFSKOLD_MOST_LOG, 1024), bytes;
    if (status == 0) status = refskold_alloc(&mount, unit, 1, 0, &trans);
    for (uint64_t at = 0; status == 0 && at < REFSKOLD_MOST_BUSY; at++) {
        memset(block, (int)at + 1, sizeof block);
        status = refskold_get(&mount, trans, at);
        if (status == 0) status = refskold_log(&mount, trans, at, 0, block, sizeof block);
    }
    if (status == 0) status = refskold_commit(&mount, trans, NULL);
    wants("a transaction of 64 whole blocks", status == 0);
    wants("it is forced", refskold_force(&mount, &waits) == 0 && waits != 0);
    wants("its checkpoint begins", refskold_take(&mount, REFSKOLD_CHECKPOINT, &serial) == REFSKOLD_TAKEN && refskold_begin(&mount, serial, &reply) == 0);
    bytes = refskold_pieces(&mount, reply.pieces, room, sizeof room);
    wants("its pieces", reply.pieces == REFSKOLD_PIECES && bytes > 64 * 4112 && bytes <= (int)REFSKOLD_TEXT);
    wants("a room that is too short", refskold_pieces(&mount, reply.pieces, room, (size_t)bytes - 1) == -EINVAL);
    wants("a piece too many", refskold_pieces(&mount, reply.pieces + 1, room, sizeof room) == -EINVAL);
    for (uint32_t at = 0, filled = 0; at < reply.pieces; at++) {
        int length = refskold_piece(&mount, at, piece, sizeof piece);
        wants("a piece in its place", length > 0 && memcmp(room + filled, piece, (size_t)length) == 0);
        filled += (uint32_t)(length > 0 ? length : 0);
    }
    wants("it lands", refskold_end(&mount, serial, reply.pieces, 1, &reply) == 0);
    wants("it is all of the log", refskold_force(&mount, &waits) == 0 && waits == 0);
    refskold_close(&mount);
    wants("no mount", refskold_pieces(&mount, 1, room, sizeof room) < 0);
}

int main(void) {
    names();
    longest();
    return failures != 0;
}
