/* A program over a volume, to be killed: four threads change, and each says what it has forced.
 *
 *     life run HOME LOG      prints `REGION NUMBER` once that number, which fills the region's blocks, was forced; until it is killed
 *     life read HOME LOG     recovers, prints `recovered N`, and what each region is filled with, or `torn`; then ends in order */
#define REFSKOLD_VOLUME_IMPLEMENTATION
#include <refskold_volume.h>

#include <stdio.h>
#include <stdlib.h>
#include <string.h>

enum { REGIONS = 4, PARTS = 5, PART = 3000, STEP = 65536, SIZE = REGIONS * STEP * 2 };

static refskold_volume *volume;

static void stop(const char *what, int status)
{
    fprintf(stderr, "life: %s: %s\n", what, strerror(-status));
    exit(1);
}

/* Where a part of a region is: parts lie apart, and begin and end within blocks. */
static uint64_t place(unsigned region, unsigned part)
{
    return (uint64_t)region * 2 * STEP + part * 20000 + 77;
}

static void fill(unsigned char *room, uint64_t number)
{
    for (size_t k = 0; k < PART; k += 8) memcpy(room + k, &number, 8);
}

static int put(unsigned region, uint64_t number, uint64_t *to)
{
    unsigned char data[PART];
    refskold_change *change;
    int status = refskold_volume_begin(volume, &change);
    if (status != 0) return status;
    fill(data, number);
    for (unsigned part = 0; status == 0 && part < PARTS; part++) status = refskold_change_write(change, place(region, part), data, PART);
    if (status == 0 && number % 7 != 0) return refskold_volume_commit(change, to);
    refskold_volume_cancel(change);
    return status;
}

static void *live(void *argument)
{
    unsigned region = *(unsigned *)argument;
    for (uint64_t number = 1;; number++) {
        char line[64];
        uint64_t to = 0;
        int status = put(region, number, &to);
        if (status == 0 && to != 0 && number % 3 == 0) status = refskold_volume_force(volume, to);
        if (status != 0) stop("a change", status);
        if (to == 0 || number % 3 != 0) continue;
        int length = snprintf(line, sizeof line, "%u %llu\n", region, (unsigned long long)number);
        if (write(1, line, (size_t)length) != length) exit(0);
    }
    return NULL;
}

static void run(void)
{
    static unsigned regions[REGIONS];
    pthread_t threads[REGIONS];
    for (unsigned k = 0; k < REGIONS; k++) {
        regions[k] = k;
        if (pthread_create(&threads[k], NULL, live, &regions[k]) != 0) stop("a thread", -EAGAIN);
    }
    pthread_join(threads[0], NULL);
}

static void tell(unsigned region)
{
    unsigned char seen[PART], wanted[PART];
    uint64_t number = 0;
    int is_torn = 0;
    for (unsigned part = 0; part < PARTS; part++) {
        int status = refskold_volume_read(volume, place(region, part), seen, PART);
        if (status != 0) stop("a read", status);
        if (part == 0) memcpy(&number, seen, 8);
        fill(wanted, number);
        is_torn |= memcmp(seen, wanted, PART) != 0;
    }
    if (is_torn) printf("%u torn\n", region);
    else printf("%u %llu\n", region, (unsigned long long)number);
}

int main(int argc, char **argv)
{
    refskold_volume_options options = { SIZE / REFSKOLD_BLOCK, 0, 1 << 18, 0 };
    refskold_log_told told;
    if (argc != 4) stop("run|read HOME LOG", -EINVAL);
    int status = refskold_volume_open(&volume, argv[2], argv[3], &options, &told);
    if (status != 0) stop("the volume", status);
    if (strcmp(argv[1], "run") == 0) run();
    printf("recovered %llu\n", (unsigned long long)told.texts);
    for (unsigned k = 0; k < REGIONS; k++) tell(k);
    status = refskold_volume_close(volume);
    if (status != 0) stop("the end", status);
    return 0;
}
