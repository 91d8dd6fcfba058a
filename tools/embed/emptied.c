/* A log that is emptied while its mount lives, wherever refskold_log_needed says that it may be. Each step is followed by a crash: what recovery makes of the log and
 * the home device must be what landed. Where the log is wanted is also told by a list of this program's own, of the blocks that are not home. */
#include "refskold.h"
#include <stdbool.h>
#include <stdio.h>
#include <stdlib.h>
#include <string.h>

enum { BLOCKS = 24, STEPS = 4000, LOG_ROOM = 1 << 20 };

typedef uint8_t image[BLOCKS][REFSKOLD_BLOCK];

static refskold mount;

/* The home device; what is committed, what was at the begin of the checkpoint that is begun, and of the last one that landed. */
static image home, committed, begun, landed;

/* Which blocks are committed and not begun, in the checkpoint that is begun, and landed and not home. */
static bool changed[BLOCKS], flying[BLOCKS], away[BLOCKS];
static bool is_flying;

static uint8_t text[LOG_ROOM];
static size_t length;

/* How often the log was emptied, and how often something would have been lost where that was not allowed. */
static unsigned emptied, kept;

static void want(bool is_so, const char *what)
{
    if (is_so) return;
    printf("FAILED %s\n", what);
    exit(1);
}

static unsigned random_below(unsigned bound)
{
    static uint64_t state = 7;
    state = state * UINT64_C(6364136223846793005) + UINT64_C(1442695040888963407);
    return (unsigned)(state >> 33) % bound;
}

/* Whether recovery gives what landed, where the log has so many bytes. */
static bool is_recovered(size_t bytes)
{
    static image crashed;
    refskold_recovery recovery = REFSKOLD_NONE;
    refskold_log_told told;
    uint64_t block;
    memcpy(crashed, home, sizeof crashed);
    want(refskold_recovery_open(&recovery, text, bytes, &told) == 0, "the log is read");
    for (uint64_t k = 0; k < told.blocks; k++) {
        want(refskold_recovery_block(&recovery, k, &block) == 0 && block < BLOCKS, "a block of the log");
        want(refskold_recovery_lay(&recovery, block, crashed[block]) == 0, "what the log says of it");
    }
    refskold_recovery_close(&recovery);
    return memcmp(crashed, landed, sizeof crashed) == 0;
}

static void crash(void)
{
    bool is_away = false;
    int needed = refskold_log_needed(&mount);
    for (unsigned k = 0; k < BLOCKS; k++) is_away = is_away || away[k];
    want(needed == (is_flying || is_away), "the log is needed where a checkpoint is begun or a block is not home, and nowhere else");
    want(is_recovered(length), "what landed is recovered");
    if (needed) kept += !is_recovered(0);
    else want(is_recovered(0), "what landed is recovered without a log that is not needed");
}

static void change(void)
{
    uint64_t block = random_below(BLOCKS), trans;
    unsigned first = random_below(REFSKOLD_BLOCK - 8);
    uint8_t bytes[8];
    int status = refskold_alloc(&mount, 5000, 1, 0, &trans);
    if (status == -EAGAIN) return; // the steps to come make space
    want(status == 0, "alloc");
    for (unsigned k = 0; k < sizeof bytes; k++) bytes[k] = (uint8_t)random_below(256);
    status = refskold_read(&mount, trans, block);
    if (status == REFSKOLD_ASKS) status = refskold_read_content(&mount, trans, block, home[block]);
    if (status == 0) status = refskold_log(&mount, trans, block, first, bytes, sizeof bytes);
    want(status == 0 && refskold_commit(&mount, trans, NULL) == 0, "a change");
    memcpy(committed[block] + first, bytes, sizeof bytes);
    changed[block] = true;
}

static void checkpoint(void)
{
    refskold_reply reply;
    uint64_t serial, waits;
    want(refskold_force(&mount, &waits) == 0, "force");
    if (waits == 0) return;
    want(refskold_take(&mount, REFSKOLD_CHECKPOINT, &serial) == REFSKOLD_TAKEN && refskold_begin(&mount, serial, &reply) == 0, "a checkpoint that is owed");
    is_flying = true;
    memcpy(begun, committed, sizeof begun);
    memcpy(flying, changed, sizeof flying);
    memset(changed, 0, sizeof changed);
    crash();
    int bytes = refskold_pieces(&mount, reply.pieces, text + length, sizeof text - length);
    want(bytes > 0 && refskold_end(&mount, serial, reply.pieces, 1, &reply) == 0, "it lands");
    length += (size_t)bytes;
    is_flying = false;
    memcpy(landed, begun, sizeof landed);
    for (unsigned k = 0; k < BLOCKS; k++) away[k] = away[k] || flying[k];
}

/* A flush, of which some writes fail, or the sync. */
static void flush(bool is_well)
{
    static uint8_t contents[REFSKOLD_PLAN][REFSKOLD_BLOCK];
    refskold_plan plan;
    uint64_t serial;
    uint32_t written = is_well ? 255 : random_below(256), synced = is_well || random_below(4) != 0;
    want(refskold_push(&mount) == 0 && refskold_take(&mount, REFSKOLD_FLUSH, &serial) == REFSKOLD_TAKEN, "a flush that is owed");
    want(refskold_homes(&mount, &plan, contents, sizeof contents) >= 0, "its plan");
    for (uint32_t k = 0; k < plan.count; k++)
        if ((written >> k & 1) != 0) memcpy(home[plan.blocks[k]], contents[k], REFSKOLD_BLOCK);
    bool is_all = synced && (written & ((1u << plan.count) - 1)) == (1u << plan.count) - 1;
    int wanted = plan.count == 0 || is_all ? 0 : -EIO;
    want(refskold_flush(&mount, serial, plan.count, written, (int)synced, NULL) == wanted, "a flush");
    for (uint32_t k = 0; k < plan.count; k++)
        if (synced && (written >> k & 1) != 0) away[plan.blocks[k]] = false;
}

static void empty(void)
{
    if (length == 0 || refskold_log_needed(&mount) != 0) return;
    length = 0;
    emptied++;
}

int main(void)
{
    want(refskold_log_needed(&mount) == -ENODEV && refskold_log_needed(NULL) == -EINVAL, "no mount");
    want(refskold_open(&mount, 0, REFSKOLD_LEAST_LOG, BLOCKS) == 0 && refskold_log_needed(&mount) == 0, "a new mount");
    for (unsigned k = 0; k < STEPS; k++) {
        unsigned step = random_below(8);
        if (step < 3) change();
        else if (step < 5) checkpoint();
        else if (step < 7) flush(false);
        else empty();
        crash();
        for (unsigned more = 0; k % 64 == 63 && more < BLOCKS; more++) flush(true);
    }
    want(emptied > 50 && kept > 50, "the log is emptied at times, and at others not");
    want(refskold_shutdown(&mount) == 0 && refskold_log_needed(&mount) == 1, "the log of a shut mount");
    refskold_close(&mount);
    return 0;
}
