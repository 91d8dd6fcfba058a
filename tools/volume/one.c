/* Tests refskold_volume.h by one thread, over disks in memory: what a caller may ask, any length against a model, devices that fail, and loss of power.
 *
 *     one [CUTS [SEED]]
 *
 * SIZE, where it is defined, are the bytes of a block. */
#define REFSKOLD_VOLUME_IMPLEMENTATION
#include "disk.h"

#ifndef SIZE
#define SIZE 512 /* bytes of a block; the least log with that takes each change */
#endif

enum { BLOCKS = 96, BYTES = SIZE * BLOCKS, COMMITS = 60, LOG_BYTES = SIZE == REFSKOLD_BLOCK ? 327680 : REFSKOLD_LEAST_LOG };

static const refskold_volume_options small = { BLOCKS, SIZE, LOG_BYTES, REFSKOLD_VOLUME_NO_THREAD };

/* Each error that the header names, and that after it all is as it was. */
static void refusals(void)
{
    struct machine machine = { .seed = 1 };
    struct disk *disks = machine_disks(&machine, BYTES);
    static unsigned char room[BYTES];
    refskold_volume_options other = small;
    refskold_volume *volume;
    refskold_change *change, *second;
    uint64_t number;
    for (int k = 0; k < 5; k++) {
        other = small;
        if (k == 0) other.block_size = 513;
        if (k == 1) other.block_size = 8192;
        if (k == 2) other.log_bytes = REFSKOLD_LEAST_LOG - 1;
        if (k == 3) other.log_bytes = REFSKOLD_MOST_LOG + 1;
        if (k == 4) other.blocks = BLOCKS + 1;
        check(disks_open(&volume, disks, &other, NULL), -EINVAL);
        check(volume == NULL, 1);
    }
    check(disks_open(&volume, disks, &small, NULL), 0);
    check(refskold_volume_length(volume), BYTES);
    check(refskold_volume_begin(NULL, &change), -EINVAL);
    check(refskold_volume_begin(volume, NULL), -EINVAL);
    check(refskold_volume_begin(volume, &change), 0);
    check(refskold_volume_begin(volume, &second), -EDEADLK);
    check(refskold_volume_close(volume), -EBUSY);
    check(refskold_change_write(change, BYTES, "x", 1), -EINVAL);
    check(refskold_change_write(change, UINT64_MAX, "xy", 2), -EINVAL);
    check(refskold_change_write(change, BYTES - 1, "xy", 2), -EINVAL);
    check(refskold_change_write(change, 0, NULL, 1), -EINVAL);
    check(refskold_change_write(change, BYTES, NULL, 0), 0);
    check(refskold_change_write(change, 0, room, 64 * SIZE + 1), -E2BIG);
    check(refskold_change_write(change, 1, room, 64 * SIZE - 1), 0);
    check(refskold_change_write(change, 64 * SIZE, room, 1), -E2BIG);
    check(refskold_change_read(change, BYTES - 1, room, 2), -EINVAL);
    check(refskold_volume_read(volume, 0, room, BYTES + 1), -EINVAL);
    check(refskold_volume_commit(change, &number), 0);
    check(refskold_volume_force(volume, number + 100), -EINVAL);
    check(refskold_volume_force(volume, number), 0);
    check(refskold_volume_begin(volume, &change), 0);
    check(refskold_volume_commit(change, &number), 0);
    check(number, 0);
    check(refskold_volume_close(volume), 0);
    check(refskold_volume_close(NULL), -EINVAL);
    check(disks[1].length + disks[2].length, 0);
    disks_end(disks);
}

/* A log that names another volume, has blocks of another size, or is broken, is not laid. */
static void other_logs(void)
{
    struct machine machine = { .seed = 1 };
    struct disk *disks = machine_disks(&machine, BYTES);
    refskold_device home = device_of(&disks[0]), log[2] = { device_of(&disks[1]), device_of(&disks[2]) };
    refskold_volume_options other = small;
    refskold_volume *volume;
    refskold_change *change;
    refskold_log_told told;
    check(disks_open(&volume, disks, &small, NULL), 0);
    check(refskold_volume_begin(volume, &change), 0);
    check(refskold_change_write(change, 5, "kept", 4), 0);
    check(refskold_volume_commit(change, NULL), 0);
    check(refskold_volume_force(volume, 0), 0);
    for (int k = 0; k < 3; k++) disks[k].fails = -ENOSPC;
    check(refskold_volume_close(volume), -EIO);
    for (int k = 0; k < 3; k++) disks[k].fails = 0;
    size_t length = disks[1].length;
    check(refskold_volume_open_on(&volume, &home, log, "a name of more than sixteen bytes", &small, &told), -EXDEV);
    other.block_size = SIZE == 1024 ? 2048 : 1024;
    other.blocks = BYTES / other.block_size;
    check(disks_open(&volume, disks, &other, &told), -EILSEQ);
    disks[1].now[0] ^= 1;
    check(disks_open(&volume, disks, &small, &told), -EILSEQ);
    disks[1].now[0] ^= 1;
    check(disks[1].length, length);
    check(memcmp(disks[0].now + 5, "kept", 4) != 0, 1);
    other = small;
    other.flags |= REFSKOLD_VOLUME_ANY_LOG;
    check(refskold_volume_open_on(&volume, &home, log, NULL, &other, &told), 0);
    check(told.texts, 1);
    check(told.blocks, 1);
    check(memcmp(disks[0].now + 5, "kept", 4), 0);
    check(refskold_volume_close(volume), 0);
    disks_end(disks);
}

/* Puts into a file what another has, as it is now. */
static void copy(const char *from, const char *to)
{
    static char bytes[1 << 20];
    FILE *in = fopen(from, "rb"), *out = fopen(to, "wb");
    size_t length = fread(bytes, 1, sizeof bytes, in);
    check(fwrite(bytes, 1, length, out), (long long)length);
    fclose(in);
    fclose(out);
}

/* Files: who has them has them alone, and a log of which one is gone is refused, until it is asked for all the same. */
static void files(void)
{
    char folder[] = P_tmpdir "/volume.XXXXXX", names[4][64], seen[4];
    refskold_volume_options options = small;
    refskold_volume *volume, *second;
    refskold_device log[2];
    refskold_change *change;
    refskold_log_told told;
    check(mkdtemp(folder) != NULL, 1);
    for (int k = 0; k < 4; k++) snprintf(names[k], sizeof names[k], "%s/%s", folder, (const char *[]){ "home", "log", "log.1", "kept" }[k]);
    check(refskold_volume_open(&volume, names[0], names[1], &options, NULL), 0);
    check(refskold_volume_open(&second, names[0], names[1], &options, NULL), -EWOULDBLOCK);
    check(refskold_device_log(log, names[1], 0), -EWOULDBLOCK);
    check(refskold_volume_begin(volume, &change), 0);
    check(refskold_change_write(change, 5, "kept", 4), 0);
    check(refskold_volume_commit(change, NULL), 0);
    check(refskold_volume_force(volume, 0), 0);
    copy(names[1], names[3]);
    check(refskold_volume_close(volume), 0);
    copy(names[3], names[1]);
    unlink(names[2]);
    check(refskold_volume_open(&volume, names[0], names[1], &options, NULL), -ENOENT);
    check(refskold_device_log(log, names[1], 0), -ENOENT);
    check(access(names[2], F_OK), -1);
    options.flags |= REFSKOLD_VOLUME_ANY_LOG;
    check(refskold_volume_open(&volume, names[0], names[1], &options, &told), 0);
    check(told.texts, 1);
    check(refskold_volume_read(volume, 5, seen, 4), 0);
    check(memcmp(seen, "kept", 4), 0);
    check(refskold_volume_close(volume), 0);
    for (int k = 0; k < 4; k++) unlink(names[k]);
    check(rmdir(folder), 0);
}

/* A random change, which the model takes too; some are given up. Whether it was committed. */
static int change_something(struct machine *machine, refskold_volume *volume, unsigned char *model, uint64_t *number)
{
    static unsigned char data[BYTES], seen[BYTES], wanted[BYTES];
    refskold_change *change;
    int writes = 1 + (int)chance(machine, 4), status = refskold_volume_begin(volume, &change);
    if (status != 0) return status;
    memcpy(wanted, model, BYTES);
    for (int k = 0; k < writes && status == 0; k++) {
        size_t length = 1 + chance(machine, chance(machine, 3) == 0 ? 12 * SIZE : 200), at = chance(machine, (unsigned)(BYTES - length));
        if (chance(machine, 2) == 0) at = at / SIZE * SIZE;
        memset(data, (int)(1 + chance(machine, 255)), length);
        status = refskold_change_write(change, at, data, length);
        if (status == 0) memcpy(wanted + at, data, length);
        if (status == 0 && (status = refskold_change_read(change, at, seen, length)) == 0) check(memcmp(seen, wanted + at, length), 0);
    }
    if (status != 0 || chance(machine, 6) == 0) {
        refskold_volume_cancel(change);
        return status;
    }
    status = refskold_volume_commit(change, number);
    if (status == 0) memcpy(model, wanted, BYTES);
    return status;
}

/* A life of changes, forces and reads, until the first error: `history` has the volume after each commit, and of those the first `forced` were forced. */
static int life(struct machine *machine, refskold_volume *volume, unsigned char (*history)[BYTES], int *commits, int *forced)
{
    static unsigned char seen[BYTES];
    int status = 0;
    while (status == 0 && *commits < COMMITS - 1) {
        uint64_t number = 0;
        memcpy(history[*commits + 1], history[*commits], BYTES);
        status = change_something(machine, volume, history[*commits + 1], &number);
        if (status == 0) ++*commits;
        if (status == 0 && chance(machine, 4) == 0) {
            status = refskold_volume_force(volume, chance(machine, 2) == 0 ? number : 0);
            if (status == 0) *forced = *commits;
        }
        if (status == 0 && chance(machine, 3) == 0) status = refskold_volume_work(volume) < 0 ? -EIO : 0;
        if (status == 0 && chance(machine, 4) == 0 && (status = refskold_volume_read(volume, 0, seen, BYTES)) == 0)
            check(memcmp(seen, history[*commits], BYTES), 0);
    }
    return status;
}

/* After a life that ended anyhow: the volume is as after one of its commits, and not before the last that was forced. The next life begins with that. */
static void found_again(refskold_volume *volume, unsigned char (*history)[BYTES], int *commits, int *forced)
{
    static unsigned char seen[BYTES];
    int at = *commits + 1;
    check(refskold_volume_read(volume, 0, seen, BYTES), 0);
    if (at >= COMMITS) at = COMMITS - 1;
    while (at >= *forced && memcmp(seen, history[at], BYTES) != 0) at--;
    check(at >= *forced, 1);
    memcpy(history[0], seen, BYTES);
    *commits = *forced = 0;
}

static unsigned char history[COMMITS][BYTES];

/* Lives that end by a loss of power with any of their calls of a disk, or, of recoveries too, within them. */
static void cuts(long count, unsigned seed)
{
    struct machine machine = { .seed = seed };
    struct disk *disks = machine_disks(&machine, BYTES);
    refskold_volume *volume = NULL;
    int commits = 0, forced = 0;
    long lives = 0, turned = 0, ended = 0;
    memset(history, 0, sizeof history);
    while (lives < count) {
        machine.calls = 0;
        machine.ends_at = chance(&machine, 5) == 0 ? 1 + (long)chance(&machine, 20) : 1 + (long)chance(&machine, 200);
        int status = disks_open(&volume, disks, &small, NULL);
        if (status == 0) {
            found_again(volume, history, &commits, &forced);
            life(&machine, volume, history, &commits, &forced);
            turned += volume->generation > 1;
            status = refskold_volume_close(volume);
            ended += status == 0;
            if (status == 0) forced = commits;
        }
        check(status == 0 || status == -EIO, 1);
        lives++;
        for (int k = 0; k < 3; k++) disk_crash(&disks[k]);
    }
    printf("%ld lives, of which %ld ended in order and %ld took a turn of the log\n", lives, ended, turned);
    check(turned > count / 20, 1);
    disks_end(disks);
}

/* Lives in which one disk answers an error from some call on: each call after it answers -EIO, and what was forced is there when it is well again. */
static void failures(long count, unsigned seed)
{
    struct machine machine = { .seed = seed };
    struct disk *disks = machine_disks(&machine, BYTES);
    refskold_volume *volume = NULL;
    refskold_change *change;
    unsigned char byte;
    int commits = 0, forced = 0;
    memset(history, 0, sizeof history);
    for (long k = 0; k < count; k++) {
        struct disk *bad = &disks[k % 3];
        check(disks_open(&volume, disks, &small, NULL), 0);
        found_again(volume, history, &commits, &forced);
        for (int n = (int)chance(&machine, 20); n > 0 && commits < COMMITS - 1; n--) {
            memcpy(history[commits + 1], history[commits], BYTES);
            check(change_something(&machine, volume, history[commits + 1], NULL), 0);
            commits++;
        }
        bad->fails = -ENOSPC;
        int status = life(&machine, volume, history, &commits, &forced);
        if (status != 0) {
            check(status, -EIO);
            check(refskold_volume_fault(volume), -ENOSPC);
            check(refskold_volume_begin(volume, &change), -EIO);
            check(refskold_volume_read(volume, 0, &byte, 1), -EIO);
            check(refskold_volume_force(volume, 0), -EIO);
            check(refskold_volume_work(volume), -EIO);
        }
        status = refskold_volume_close(volume);
        check(status, -EIO);
        bad->fails = 0;
    }
    disks_end(disks);
}

/* A read of home that fails fails its call, and shuts nothing. */
static void failing_reads(void)
{
    struct machine machine = { .seed = 1 };
    struct disk *disks = machine_disks(&machine, BYTES);
    refskold_volume *volume;
    refskold_change *change;
    unsigned char byte;
    check(disks_open(&volume, disks, &small, NULL), 0);
    check(refskold_volume_begin(volume, &change), 0);
    disks[0].fails_reads = -ENXIO;
    check(refskold_volume_read(volume, 0, &byte, 1), -ENXIO);
    check(refskold_change_write(change, 1, "part", 4), -ENXIO);
    check(refskold_change_write(change, 0, history, SIZE), 0);
    check(refskold_change_read(change, SIZE, &byte, 1), -ENXIO);
    disks[0].fails_reads = 0;
    check(refskold_change_write(change, 1, "part", 4), 0);
    check(refskold_volume_commit(change, NULL), 0);
    check(refskold_volume_read(volume, 1, &byte, 1), 0);
    check(byte, 'p');
    check(refskold_volume_fault(volume), 0);
    check(refskold_volume_close(volume), 0);
    disks_end(disks);
}

/* The names of volumes in headers: as they are up to 16 bytes, else 8 of them and a sum that another program has made. */
static void names(void)
{
    static const unsigned char sum[8] = { 0xc0, 0x3b, 0xc3, 0xa0, 0x04, 0x26, 0x30, 0xf2 };
    unsigned char name[16];
    refskold_v_name(name, "sixteen.letters!");
    check(memcmp(name, "sixteen.letters!", 16), 0);
    refskold_v_name(name, "short");
    check(memcmp(name, "short\0\0\0\0\0\0\0\0\0\0\0", 16), 0);
    refskold_v_sum(name, (const unsigned char *)"abc", 3);
    check(memcmp(name, sum, 8), 0);
}

int main(int argc, char **argv)
{
    long count = argc > 1 ? atol(argv[1]) : 1000;
    unsigned seed = argc > 2 ? (unsigned)atol(argv[2]) : 1;
    names();
    refusals();
    other_logs();
    files();
    failing_reads();
    failures(count / 5, seed);
    cuts(count, seed);
    printf("one thread, seed %u: %ld checks, %ld failed\n", seed, checks, faults);
    return faults != 0;
}
