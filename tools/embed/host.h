/* Sixteen mounts of the library, driven by the lines of a script: what `xth script` does, by calls of C. */
#ifndef HOST_H
#define HOST_H

#include <refskold.h>
#include <stdbool.h>

enum { SLOTS = 16, WORKERS = 8, QUEUE_PLACES = 32, MOST_WORDS = 16, OUTPUT_BYTES = 1 << 20 };

/* How a step ended. */
enum ended { TOLD, DISORDER, NO_MEMORY };

/* The name of a job. */
struct job {
    unsigned slot;
    uint32_t life;
    uint32_t kind; /* enum refskold_job */
    uint64_t serial;
};

/* What the board last showed of a slot. */
struct shown {
    uint32_t life;
    int reason; /* enum refskold_reason */
};

struct host {
    refskold mounts[SLOTS];
    uint32_t lives[SLOTS]; /* the last life of each */
    size_t sizes[SLOTS];   /* of a block, by the last mount of each */
    struct shown board[SLOTS];
    struct job queue[QUEUE_PLACES];
    unsigned queued;
    struct job hands[WORKERS];
    bool busy[WORKERS];
    unsigned steps; /* so many were run, the one that is run among them */
    size_t length;  /* of what was told */
    char output[OUTPUT_BYTES];
};

/* Makes a host of empty slots. */
void host_start(struct host *host);

/* Runs the step of a line, which must be one that a script may have, and adds what it tells to the output. */
enum ended host_step(struct host *host, const char *line, size_t length);

/* The slot that a line is of. */
unsigned slot_of_line(const char *line);

/* Ends every mount. */
void host_end(struct host *host);

#endif
