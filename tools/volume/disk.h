/* Disks in memory for the tests of refskold_volume.h: they lose power, fail, and hold a call back until they are told to go on. */
#ifndef DISK_H
#define DISK_H

#include <refskold_volume.h> /* before all others: it asks for POSIX */

#include <assert.h>
#include <pthread.h>
#include <sched.h>
#include <stdbool.h>
#include <stdio.h>
#include <stdlib.h>
#include <string.h>

enum { SECTOR = 512, MOST_BYTES = 1 << 20, MOST_WRITES = 65536 };

/* A write, or an emptying, that no sync has made safe yet. */
struct unsafe {
    uint64_t at;
    size_t length;
    unsigned char *data; /* NULL: all bytes are taken away */
};

struct machine {
    pthread_mutex_t lock;
    pthread_cond_t changed;
    long calls, ends_at;       /* writes, syncs and emptyings so far, and with which power fails; 0 for never */
    unsigned seed;
};

struct disk {
    struct machine *machine;
    unsigned char *now, *safe; /* what a read sees, and what is there whatever happens */
    unsigned char *old;        /* what it had before it was emptied last */
    size_t length, safe_length;
    struct unsafe writes[MOST_WRITES];
    int count, syncs;
    bool is_log;
    bool is_slow;              /* a call does a sector at a time, and others come between */
    int fails;                 /* an errno with a minus: how writes and syncs are answered */
    int fails_reads;
    bool is_held;              /* writes and syncs wait */
    bool are_reads_held;       /* reads wait half way */
    int held;                  /* how many do of both */
};

static unsigned chance(struct machine *machine, unsigned of)
{
    machine->seed = machine->seed * 1103515245u + 12345u;
    return machine->seed / 65536u % of;
}

/* Waits where the disk is held back; then what the call is answered. With the lock of the machine. */
static int disk_enter(struct disk *disk)
{
    struct machine *machine = disk->machine;
    disk->held++;
    pthread_cond_broadcast(&machine->changed);
    while (disk->is_held) pthread_cond_wait(&machine->changed, &machine->lock);
    disk->held--;
    if (machine->ends_at != 0 && machine->calls >= machine->ends_at) return -EIO;
    machine->calls++;
    return disk->fails;
}

static void disk_note(struct disk *disk, uint64_t at, const void *data, size_t length)
{
    struct unsafe *note = &disk->writes[disk->count++];
    unsigned char *copy = data == NULL ? NULL : malloc(length);
    assert(disk->count < MOST_WRITES);
    if (copy != NULL) memcpy(copy, data, length);
    *note = (struct unsafe){ at, length, copy };
}

static int64_t disk_length(void *context)
{
    struct disk *disk = context;
    pthread_mutex_lock(&disk->machine->lock);
    int64_t length = (int64_t)disk->length;
    pthread_mutex_unlock(&disk->machine->lock);
    return length;
}

/* Copies bytes, with the lock of the machine. */
static void disk_copy(struct disk *disk, unsigned char *to, const unsigned char *from, size_t length)
{
    size_t step = disk->is_slow ? SECTOR : length;
    for (size_t at = 0; at < length; at += step) {
        if (step > length - at) step = length - at;
        memcpy(to + at, from + at, step);
        if (!disk->is_slow) continue;
        pthread_mutex_unlock(&disk->machine->lock);
        sched_yield();
        pthread_mutex_lock(&disk->machine->lock);
    }
}

static int disk_read(void *context, uint64_t at, void *room, size_t length)
{
    struct disk *disk = context;
    pthread_mutex_lock(&disk->machine->lock);
    int status = disk->fails_reads != 0 ? disk->fails_reads : at + length <= disk->length ? 0 : -EIO;
    if (status == 0) disk_copy(disk, room, disk->now + at, length / 2);
    disk->held++;
    pthread_cond_broadcast(&disk->machine->changed);
    while (disk->are_reads_held) pthread_cond_wait(&disk->machine->changed, &disk->machine->lock);
    disk->held--;
    if (status == 0) disk_copy(disk, (unsigned char *)room + length / 2, disk->now + at + length / 2, length - length / 2);
    pthread_mutex_unlock(&disk->machine->lock);
    return status;
}

static int disk_write(void *context, uint64_t at, const void *data, size_t length)
{
    struct disk *disk = context;
    assert(at + length <= MOST_BYTES);
    pthread_mutex_lock(&disk->machine->lock);
    int status = disk_enter(disk);
    if (status == 0) {
        disk_copy(disk, disk->now + at, data, length);
        if (at + length > disk->length) disk->length = at + length;
        disk_note(disk, at, data, length);
    }
    pthread_mutex_unlock(&disk->machine->lock);
    return status;
}

static int disk_empty(void *context)
{
    struct disk *disk = context;
    pthread_mutex_lock(&disk->machine->lock);
    int status = disk_enter(disk);
    if (status == 0) {
        memcpy(disk->old, disk->now, MOST_BYTES);
        memset(disk->now, 0, disk->length);
        disk->length = 0;
        disk_note(disk, 0, NULL, 0);
    }
    pthread_mutex_unlock(&disk->machine->lock);
    return status;
}

static void disk_forget(struct disk *disk)
{
    while (disk->count > 0) free(disk->writes[--disk->count].data);
}

/* Makes safe what was written. */
static void disk_keep(struct disk *disk)
{
    for (int k = 0; k < disk->count; k++) {
        const struct unsafe *write = &disk->writes[k];
        if (write->data == NULL) memset(disk->safe, 0, MOST_BYTES);
        else memcpy(disk->safe + write->at, write->data, write->length);
    }
    disk->safe_length = disk->length;
    disk->syncs++;
    disk_forget(disk);
}

static int disk_sync(void *context)
{
    struct disk *disk = context;
    pthread_mutex_lock(&disk->machine->lock);
    int status = disk_enter(disk);
    if (status == 0) {
        disk_keep(disk);
    }
    pthread_mutex_unlock(&disk->machine->lock);
    return status;
}

/* What a loss of power leaves of a disk: what was synced, and of each write since any sectors, or none, or all; of a log also sectors that it had there before it
 * was emptied. */
static inline void disk_crash(struct disk *disk)
{
    struct machine *machine = disk->machine;
    unsigned how = chance(machine, 4);
    size_t length = disk->safe_length;
    for (int k = 0; k < disk->count; k++) {
        const struct unsafe *write = &disk->writes[k];
        bool is_kept = how == 1 || (how > 1 && chance(machine, 2) == 0);
        if (write->data == NULL && is_kept) {
            memset(disk->safe, 0, MOST_BYTES);
            length = 0;
        }
        for (size_t at = 0, next; write->data != NULL && at < write->length; at = next) {
            next = at + SECTOR - (write->at + at) % SECTOR;
            if (next > write->length) next = write->length;
            bool is_old = how == 3 && disk->is_log && chance(machine, 4) == 0;
            if (!is_old && (how == 3 ? chance(machine, 2) == 0 : !is_kept)) continue;
            memcpy(disk->safe + write->at + at, is_old ? disk->old + write->at + at : write->data + at, next - at);
            if (write->at + next > length) length = write->at + next;
        }
    }
    disk_forget(disk);
    memcpy(disk->now, disk->safe, MOST_BYTES);
    disk->length = disk->safe_length = length;
}

static refskold_device device_of(struct disk *disk)
{
    return (refskold_device){ disk, disk_length, disk_read, disk_write, disk_sync, disk_empty, NULL };
}

/* A machine has three disks: home, and both files of the log. */
static struct disk *machine_disks(struct machine *machine, size_t home_bytes)
{
    struct disk *disks = calloc(3, sizeof *disks);
    pthread_mutex_init(&machine->lock, NULL);
    pthread_cond_init(&machine->changed, NULL);
    for (int k = 0; k < 3; k++) {
        disks[k].machine = machine;
        disks[k].is_log = k > 0;
        disks[k].now = calloc(3, MOST_BYTES);
        disks[k].safe = disks[k].now + MOST_BYTES;
        disks[k].old = disks[k].safe + MOST_BYTES;
    }
    disks[0].length = disks[0].safe_length = home_bytes;
    return disks;
}

static void disks_end(struct disk *disks)
{
    for (int k = 0; k < 3; k++) {
        disk_forget(&disks[k]);
        free(disks[k].now);
    }
    free(disks);
}

static int disks_open(refskold_volume **volume, struct disk *disks, const refskold_volume_options *options, refskold_log_told *told)
{
    refskold_device home = device_of(&disks[0]), log[2] = { device_of(&disks[1]), device_of(&disks[2]) };
    return refskold_volume_open_on(volume, &home, log, "tested", options, told);
}

/* ---- Checks ---- */

static long checks, faults; /* read where no other thread is left */

#define check(got, wanted) checked(#got, (long long)(got), (long long)(wanted), __LINE__)

static void checked(const char *what, long long got, long long wanted, int line)
{
    static pthread_mutex_t lock = PTHREAD_MUTEX_INITIALIZER;
    pthread_mutex_lock(&lock);
    checks++;
    faults += got != wanted;
    if (got != wanted && faults < 20) printf("line %d: %s: %lld, wanted %lld\n", line, what, got, wanted);
    pthread_mutex_unlock(&lock);
}

#endif
