/* What both benchmarks in C stand on: the clock, what is written, and the end of a run that went wrong. */
#include <stdint.h>
#include <stdio.h>
#include <stdlib.h>
#include <time.h>

/* The seconds of the processor so far. */
static double now(void)
{
    struct timespec time;
    clock_gettime(CLOCK_PROCESS_CPUTIME_ID, &time);
    return (double)time.tv_sec + (double)time.tv_nsec * 1e-9;
}

/* The seconds of the clock. */
static inline double clock_now(void)
{
    struct timespec time;
    clock_gettime(CLOCK_MONOTONIC, &time);
    return (double)time.tv_sec + (double)time.tv_nsec * 1e-9;
}

enum { MOST = 4096, SHIFTS = 251 };

/* Up to 4,096 bytes to be written by a transaction: others for each, and no stretch of one byte, of which a kind of storage may make less. */
static const uint8_t *written(long number)
{
    static uint8_t bytes[MOST + SHIFTS];
    if (bytes[1] == 0)
        for (unsigned k = 0; k < sizeof bytes; k++) bytes[k] = (uint8_t)(k % SHIFTS);
    return bytes + number % SHIFTS;
}

/* Ends the run where a call did not end as it must. */
static void want(int is_well, const char *what)
{
    if (is_well) return;
    fprintf(stderr, "bench: %s\n", what);
    exit(1);
}
