/* Times the C library: transactions with their checkpoints and flushes, over devices that are mapped files; and single calls. */
#define _GNU_SOURCE
#include <fcntl.h>
#include <malloc.h>
#include <refskold.h>
#include <stdio.h>
#include <stdlib.h>
#include <string.h>
#include <sys/mman.h>
#include <unistd.h>
#include "timing.h"

enum { BLOCKS = 64, LOG_BYTES = 16777216, CHANGE = 128, WHOLE = 8, UNIT = 40000, CALLS = 1000000 };

/* Transactions for which there is one checkpoint, with its flushes; 64 change each block. */
static long together = 64;

static refskold mount;
static uint8_t *home, *journal;
static size_t journal_length;

static uint8_t *mapped(const char *name, size_t length)
{
    int file = open(name, O_RDWR | O_CREAT, 0600);
    want(file >= 0 && ftruncate(file, (off_t)length) == 0, name);
    void *at = mmap(NULL, length, PROT_READ | PROT_WRITE, MAP_SHARED, file, 0);
    want(at != MAP_FAILED, name);
    memset(at, 0, length);
    close(file);
    return at;
}

/* Writes what is committed to the log. */
static void checkpoint(void)
{
    refskold_reply reply;
    uint64_t serial, waits;
    want(refskold_force(&mount, &waits) == 0 && refskold_take(&mount, REFSKOLD_CHECKPOINT, &serial) == REFSKOLD_TAKEN, "no checkpoint is owed");
    want(refskold_begin(&mount, serial, &reply) == 0, "begin");
    if (journal_length + REFSKOLD_PIECES * REFSKOLD_BLOCK > LOG_BYTES) journal_length = 0;
    for (uint32_t k = 0; k < reply.pieces; k++) {
        int length = refskold_piece(&mount, k, journal + journal_length, REFSKOLD_BLOCK);
        want(length > 0, "piece");
        journal_length += (size_t)length;
    }
    want(refskold_end(&mount, serial, reply.pieces, 1, NULL) == 0, "end");
}

/* Writes home what is on the log: how many blocks. */
static unsigned flush(void)
{
    refskold_reply reply;
    uint64_t serial;
    unsigned blocks = 0;
    want(refskold_push(&mount) == 0, "push");
    while (refskold_take(&mount, REFSKOLD_FLUSH, &serial) == REFSKOLD_TAKEN) {
        want(refskold_flush_mapped(&mount, serial, home, BLOCKS * REFSKOLD_BLOCK, &reply) == 0, "flush");
        blocks += (unsigned)reply.number;
    }
    return blocks;
}

/* Changes the first bytes, a part or all, of some blocks by one transaction. */
static void change(long number, unsigned blocks, uint32_t bytes)
{
    const uint8_t *data = written(number);
    uint64_t trans;
    want(refskold_alloc(&mount, UNIT, 1, 0, &trans) == 0, "alloc");
    for (unsigned k = 0; k < blocks; k++) {
        uint64_t block = (uint64_t)(number * blocks + k) * 7 % BLOCKS;
        int status = refskold_read(&mount, trans, block);
        if (status == REFSKOLD_ASKS) status = refskold_read_content(&mount, trans, block, home + block * REFSKOLD_BLOCK);
        want(status == 0, "read");
        want(refskold_log(&mount, trans, block, (uint32_t)(number % 32) * CHANGE % (REFSKOLD_BLOCK - bytes + 1), data, bytes) == 0, "log");
    }
    want(refskold_commit(&mount, trans, NULL) == 0, "commit");
}

static void time_changes(long count, unsigned blocks, uint32_t bytes)
{
    long changed = together * blocks < BLOCKS ? together * blocks : BLOCKS;
    double start = now();
    for (long k = 0; k < count; k++) {
        change(k, blocks, bytes);
        if ((k + 1) % together == 0) checkpoint(), want(flush() == changed, "blocks that are not home");
    }
    double each = (now() - start) / (double)count;
    printf("refskold, %u of %u bytes, a checkpoint and its flushes for %ld transactions: %.0f transactions/s\n", blocks, bytes, together, 1 / each);
}

static void time_single_calls(void)
{
    static uint8_t room[REFSKOLD_BLOCK];
    uint64_t trans, serial;
    refskold_plan plan;
    double start = now();
    for (long k = 0; k < CALLS; k++) refskold_shut(&mount);
    printf("refskold, the border alone: %.1f ns\n", (now() - start) / CALLS * 1e9);
    change(0, 1, CHANGE);
    want(refskold_alloc(&mount, UNIT, 1, 0, &trans) == 0 && refskold_read(&mount, trans, 0) == 0, "read");
    start = now();
    for (long k = 0; k < CALLS; k++) refskold_view(&mount, trans, 0, room);
    printf("refskold, a view: %.1f ns\n", (now() - start) / CALLS * 1e9);
    want(refskold_cancel(&mount, trans, NULL) == 0, "cancel");
    checkpoint();
    want(refskold_push(&mount) == 0 && refskold_take(&mount, REFSKOLD_FLUSH, &serial) == REFSKOLD_TAKEN && refskold_flush_plan(&mount, &plan) == 1, "plan");
    start = now();
    for (long k = 0; k < CALLS; k++) refskold_home(&mount, 0, room);
    printf("refskold, a home content: %.1f ns\n", (now() - start) / CALLS * 1e9);
    start = now();
    for (long k = 0; k < CALLS; k++) {
        memcpy(room, home + k % BLOCKS * REFSKOLD_BLOCK, sizeof room);
        __asm__ volatile("" : : "r"(room) : "memory");
    }
    printf("a copy of a block: %.1f ns\n", (now() - start) / CALLS * 1e9);
}

int main(int argc, char **argv)
{
    if (argc > 2) together = atol(argv[2]);
    want(together >= 1 && together <= 64, "1 to 64 transactions together");
    long count = (argc > 1 ? atol(argv[1]) : 300000) / (together * WHOLE) * together * WHOLE;
    /* else glibc gives what is free after each flush back to the system, and takes it page by page again */
    mallopt(M_TRIM_THRESHOLD, LOG_BYTES);
    home = mapped("home", BLOCKS * REFSKOLD_BLOCK);
    journal = mapped("log", LOG_BYTES);
    want(refskold_open(&mount, 0, LOG_BYTES, BLOCKS) == 0, "open");
    time_changes(count, 1, CHANGE);
    time_changes(count / WHOLE, WHOLE, REFSKOLD_BLOCK);
    time_single_calls();
    refskold_close(&mount);
    return 0;
}
