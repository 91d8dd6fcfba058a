/* Tests refskold_volume.h by several threads, over disks in memory. Where it matters who comes first a disk holds a call back until the others wait: nothing here
 * rests on time.
 *
 *     threads [CHANGES] */
#define REFSKOLD_VOLUME_IMPLEMENTATION
#include "disk.h"

enum { SIZE = 4096, BLOCKS = 16, BYTES = SIZE * BLOCKS, THREADS = 4 };

static const refskold_volume_options quiet = { BLOCKS, SIZE, 1 << 18, REFSKOLD_VOLUME_NO_THREAD };
static struct machine machine;
static struct disk *disks;
static refskold_volume *volume;

static void begins(const refskold_volume_options *options)
{
    machine = (struct machine){ .seed = 1 };
    disks = machine_disks(&machine, (size_t)options->blocks * options->block_size);
    check(disks_open(&volume, disks, options, NULL), 0);
}

static void holds(struct disk *disk, bool is_held, int fails)
{
    pthread_mutex_lock(&machine.lock);
    disk->is_held = is_held;
    disk->fails = fails;
    pthread_cond_broadcast(&machine.changed);
    pthread_mutex_unlock(&machine.lock);
}

/* Waits until a call of a disk that holds is there. */
static void awaits_held(struct disk *disk)
{
    pthread_mutex_lock(&machine.lock);
    while (disk->held == 0) pthread_cond_wait(&machine.changed, &machine.lock);
    pthread_mutex_unlock(&machine.lock);
}

/* Waits until so many turns were asked for. */
static void awaits_turn(uint64_t turns)
{
    for (uint64_t asked = 0; asked < turns; sched_yield()) {
        pthread_mutex_lock(&volume->lock);
        asked = volume->next_turn;
        pthread_mutex_unlock(&volume->lock);
    }
}

/* Commits a byte; what that answered. */
static int put(uint64_t offset, char byte, uint64_t *number)
{
    refskold_change *change;
    int status = refskold_volume_begin(volume, &change);
    if (status != 0) return status;
    status = refskold_change_write(change, offset, &byte, 1);
    if (status == 0) return refskold_volume_commit(change, number);
    refskold_volume_cancel(change);
    return status;
}

static char byte_at(uint64_t offset)
{
    char byte = 0;
    check(refskold_volume_read(volume, offset, &byte, 1), 0);
    return byte;
}

/* What a thread did: it puts a byte, tells that, and forces it. */
struct asked {
    pthread_t thread;
    uint64_t offset;
    bool is_put;
    int status;
};

static void *put_and_force(void *argument)
{
    struct asked *asked = argument;
    uint64_t number = 0;
    int status = put(asked->offset, 'f', &number);
    pthread_mutex_lock(&machine.lock);
    asked->is_put = true;
    pthread_cond_broadcast(&machine.changed);
    pthread_mutex_unlock(&machine.lock);
    asked->status = status == 0 ? refskold_volume_force(volume, number) : status;
    return NULL;
}

static void starts(struct asked *asked, uint64_t offset)
{
    *asked = (struct asked){ .offset = offset };
    pthread_create(&asked->thread, NULL, put_and_force, asked);
}

static void awaits_put(struct asked *asked)
{
    pthread_mutex_lock(&machine.lock);
    while (!asked->is_put) pthread_cond_wait(&machine.changed, &machine.lock);
    pthread_mutex_unlock(&machine.lock);
}

static void ends(struct asked *asked, int wanted)
{
    pthread_join(asked->thread, NULL);
    check(asked->status, wanted);
}

/* While the log works for one thread the others commit and read; what they force goes there together, by one sync. */
static void one_sync(void)
{
    struct asked asked[1 + THREADS];
    begins(&quiet);
    int syncs = disks[1].syncs;
    holds(&disks[1], true, 0);
    starts(&asked[0], 0);
    awaits_held(&disks[1]);
    for (int k = 1; k <= THREADS; k++) {
        starts(&asked[k], (uint64_t)k * SIZE);
        awaits_put(&asked[k]);
        check(byte_at((uint64_t)k * SIZE), 'f');
    }
    holds(&disks[1], false, 0);
    for (int k = 0; k <= THREADS; k++) ends(&asked[k], 0);
    check(disks[1].syncs - syncs, 2);
    check(refskold_volume_close(volume), 0);
    for (int k = 0; k <= THREADS; k++) check(disks[0].safe[k * SIZE], 'f');
    disks_end(disks);
}

/* A log that fails ends each wait: of those who force, and of those who wait for their turn. */
static void all_are_told(void)
{
    struct asked first, forcing, waiting[3];
    refskold_change *change;
    begins(&quiet);
    holds(&disks[1], true, 0);
    starts(&first, 0);
    awaits_held(&disks[1]);
    starts(&forcing, SIZE);
    awaits_put(&forcing);
    check(refskold_volume_begin(volume, &change), 0);
    for (int k = 0; k < 3; k++) starts(&waiting[k], 2 * SIZE);
    awaits_turn(6);
    holds(&disks[1], false, -ENOSPC);
    ends(&first, -EIO);
    ends(&forcing, -EIO);
    for (int k = 0; k < 3; k++) ends(&waiting[k], -EIO);
    check(refskold_change_write(change, 0, "part", 4), -EIO);
    check(refskold_volume_cancel(change), 0);
    check(refskold_volume_fault(volume), -ENOSPC);
    check(refskold_volume_close(volume), -EIO);
    disks_end(disks);
}

static void *put_in_turn(void *argument)
{
    struct asked *asked = argument;
    char last = 0;
    refskold_change *change;
    asked->status = refskold_volume_begin(volume, &change);
    if (asked->status == 0) asked->status = refskold_change_read(change, 0, &last, 1);
    last++;
    if (asked->status == 0) asked->status = refskold_change_write(change, asked->offset, &last, 1);
    if (asked->status == 0) asked->status = refskold_change_write(change, 0, &last, 1);
    if (asked->status == 0) asked->status = refskold_volume_commit(change, NULL);
    return NULL;
}

/* Changes come in the order in which they were asked for. */
static void in_turn(void)
{
    struct asked asked[24];
    refskold_change *change;
    begins(&quiet);
    check(refskold_volume_begin(volume, &change), 0);
    for (unsigned k = 0; k < 24; k++) {
        asked[k] = (struct asked){ .offset = 1 + k };
        pthread_create(&asked[k].thread, NULL, put_in_turn, &asked[k]);
        awaits_turn(2 + k);
    }
    check(refskold_volume_cancel(change), 0);
    for (unsigned k = 0; k < 24; k++) ends(&asked[k], 0);
    for (unsigned k = 0; k < 24; k++) check(byte_at(1 + k), 1 + (int)k);
    check(refskold_volume_close(volume), 0);
    disks_end(disks);
}

/* While a home device holds its calls, what is in memory is read, and the log is forced; and what is held back goes home behind that. */
static void slow_home(void)
{
    struct asked asked;
    refskold_volume_options options = { 128, 512, 1 << 18, 0 };
    begins(&options);
    holds(&disks[0], true, 0);
    for (unsigned k = 0; k < REFSKOLD_V_MANY; k++) check(put(k * 512, (char)('a' + k % 8), NULL), 0);
    check(refskold_volume_force(volume, 0), 0);
    awaits_held(&disks[0]); /* the thread brings blocks home */
    for (unsigned k = 0; k < REFSKOLD_V_MANY; k++) check(byte_at(k * 512), 'a' + (int)k % 8);
    check(put(0, 'z', NULL), 0);
    check(byte_at(0), 'z');
    starts(&asked, 512);
    ends(&asked, 0);
    holds(&disks[0], false, 0);
    check(refskold_volume_close(volume), 0);
    check(disks[0].safe[0], 'z');
    check(disks[0].safe[512], 'f');
    disks_end(disks);
}

/* A home device that fails under the thread shuts the volume, which begin, that waits for nothing, is told in the end. */
static void failing_home(void)
{
    refskold_volume_options options = { 128, 512, 1 << 18, 0 };
    int status = 0;
    begins(&options);
    holds(&disks[0], true, 0);
    for (unsigned k = 0; k < REFSKOLD_V_MANY; k++) check(put(k * 512, 'a', NULL), 0);
    check(refskold_volume_force(volume, 0), 0); /* what is not forced may be lost with the volume */
    awaits_held(&disks[0]);
    holds(&disks[0], false, -ENXIO);
    while (status == 0) status = put(0, 'b', NULL);
    check(status, -EIO);
    check(refskold_volume_fault(volume), -ENXIO);
    check(refskold_volume_close(volume), -EIO);
    disks[0].fails = 0;
    check(disks_open(&volume, disks, &options, NULL), 0);
    check(byte_at((REFSKOLD_V_MANY - 1) * 512), 'a');
    check(refskold_volume_close(volume), 0);
    disks_end(disks);
}

static void *read_first(void *argument)
{
    check(refskold_volume_read(volume, 0, argument, 512), 0);
    return NULL;
}

/* A block that goes home while the home device reads it is read again, and not as half of each. */
static void read_beside_flush(void)
{
    static unsigned char seen[512], new[512];
    refskold_volume_options options = { 128, 512, 1 << 18, REFSKOLD_VOLUME_NO_THREAD };
    refskold_change *change;
    pthread_t reading;
    begins(&options);
    disks[0].are_reads_held = true;
    pthread_create(&reading, NULL, read_first, seen);
    awaits_held(&disks[0]);
    memset(new, 'n', sizeof new);
    for (unsigned k = 0; k < REFSKOLD_V_MANY; k++) {
        check(refskold_volume_begin(volume, &change), 0);
        check(refskold_change_write(change, k * 512, new, sizeof new), 0);
        check(refskold_volume_commit(change, NULL), 0);
    }
    while (refskold_volume_work(volume) > 0) { }
    check(disks[0].now[0], 'n');
    pthread_mutex_lock(&machine.lock);
    disks[0].are_reads_held = false;
    pthread_cond_broadcast(&machine.changed);
    pthread_mutex_unlock(&machine.lock);
    pthread_join(reading, NULL);
    for (unsigned k = 0; k < sizeof seen; k++) check(seen[k], 'n');
    check(refskold_volume_close(volume), 0);
    disks_end(disks);
}

/* ---- Many changes at once ---- */

static long changes_each = 400;
static bool is_over; /* with the lock of the machine */

static bool goes_on(void)
{
    pthread_mutex_lock(&machine.lock);
    bool goes = !is_over;
    pthread_mutex_unlock(&machine.lock);
    return goes;
}

/* Adds one to the number with which two blocks are filled, at random places; some changes are given up. */
static void *count(void *argument)
{
    unsigned seed = *(unsigned *)argument * 7919u;
    uint64_t block[2][SIZE / 8], number;
    long added = 0;
    while (added < changes_each) {
        refskold_change *change;
        seed = seed * 1103515245u + 12345u;
        unsigned first = seed / 65536u % (BLOCKS / 2), dice = seed / 1048576u % 16;
        check(refskold_volume_begin(volume, &change), 0);
        for (unsigned k = 0; k < 2; k++) {
            uint64_t at = (first + k * (BLOCKS / 2)) * SIZE;
            check(refskold_change_read(change, at, block[k], SIZE), 0);
            for (unsigned n = SIZE / 8; n-- > 0;) block[k][n] = block[k][0] + 1;
            check(refskold_change_write(change, at, block[k], SIZE), 0);
        }
        if (dice == 0) {
            check(refskold_volume_cancel(change), 0);
            continue;
        }
        check(refskold_volume_commit(change, &number), 0);
        added++;
        if (dice < 4) check(refskold_volume_force(volume, dice == 1 ? 0 : number), 0);
    }
    return NULL;
}

/* Reads blocks: each is always filled with one number, which never falls. */
static void *watch(void *argument)
{
    uint64_t last[BLOCKS] = { 0 }, block[SIZE / 8];
    (void)argument;
    for (unsigned k = 0; goes_on(); k++) {
        unsigned at = k % BLOCKS;
        bool is_even = true;
        check(refskold_volume_read(volume, (uint64_t)at * SIZE, block, SIZE), 0);
        for (unsigned n = 1; n < SIZE / 8; n++) is_even = is_even && block[n] == block[0];
        check(is_even, 1);
        check(block[0] >= last[at], 1);
        last[at] = block[0];
    }
    return NULL;
}

/* The sum of the numbers with which the blocks of one half are filled. */
static uint64_t sum_of(const unsigned char *bytes, unsigned half)
{
    uint64_t sum = 0, one;
    for (unsigned k = 0; k < BLOCKS / 2; k++) {
        memcpy(&one, bytes + (half * (BLOCKS / 2) + k) * SIZE, sizeof one);
        sum += one;
    }
    return sum;
}

/* Several threads count, two watch, and the volume's own brings blocks home: nothing is lost or torn, also where the home device does a sector at a time. */
static void many(bool is_slow, uint32_t flags)
{
    refskold_volume_options options = { BLOCKS, SIZE, 1 << 18, flags };
    unsigned numbers[THREADS];
    pthread_t counting[THREADS], watching[2];
    begins(&options);
    disks[0].is_slow = is_slow;
    is_over = false;
    for (unsigned k = 0; k < 2; k++) pthread_create(&watching[k], NULL, watch, NULL);
    for (unsigned k = 0; k < THREADS; k++) {
        numbers[k] = k + 1;
        pthread_create(&counting[k], NULL, count, &numbers[k]);
    }
    for (unsigned k = 0; k < THREADS; k++) pthread_join(counting[k], NULL);
    pthread_mutex_lock(&machine.lock);
    is_over = true;
    pthread_mutex_unlock(&machine.lock);
    for (unsigned k = 0; k < 2; k++) pthread_join(watching[k], NULL);
    check(refskold_volume_close(volume), 0);
    check(sum_of(disks[0].safe, 0), THREADS * changes_each);
    check(sum_of(disks[0].safe, 1), THREADS * changes_each);
    disks_end(disks);
}

int main(int argc, char **argv)
{
    if (argc > 1) changes_each = atol(argv[1]);
    one_sync();
    all_are_told();
    in_turn();
    slow_home();
    failing_home();
    read_beside_flush();
    many(false, 0);
    many(true, 0);
    many(true, REFSKOLD_VOLUME_NO_THREAD);
    printf("threads: %ld checks, %ld failed\n", checks, faults);
    return faults != 0;
}
