/* log.h: the log of a volume: two files of sealed texts, which are written by turns (docs/use/checkpoint-format.md). */
#ifndef E2TX_LOG_H
#define E2TX_LOG_H

#include "name.h"
#include <refskold.h>
#include <stdbool.h>
#include <stdint.h>

struct log {
    int home;                          /* the volume's other device: it is synced before anything of the log goes */
    int files[2];                      /* LOG and LOG.1, or -1 */
    uint64_t lengths[2];
    int newer;                         /* which of them is written */
    uint8_t head[REFSKOLD_LOG_HEADER]; /* its head, and its last seal */
    uint64_t generation, salt;         /* of its header; generation 0 before the first text of a life, when both files are empty */
    bool is_safely_empty;              /* both are, and will be after a loss of power */
    uint64_t end;                      /* where its texts end */
    uint64_t text_bytes;               /* what they have without their seals */
    uint8_t name[NAME];
    uint32_t block_size, size;         /* bytes of a block, and of the mount's log */
    bool is_whole;                     /* its texts count together: none goes before all of them may */
    uint8_t *text;                     /* room for the longest text and its seal */
    unsigned long syncs, turns;
};

/* A log with no files yet, beside this home device. */
struct log log_beside(int home);

/* Opens both files, makes those that are not there, and locks both. 0, or an errno with a minus in front, as below too. */
int log_open(struct log *log, const char *path);
void log_close(struct log *log);

/* Gathers what the texts of both files say. `fields` are of the newer file's header, all zeros where no file has one. */
int log_read(struct log *log, refskold_recovery *recovery, refskold_log_told *told, refskold_log_fields *fields);
bool log_is_empty(const struct log *log);

/* Writes the checkpoint that a mount has begun behind the others, with its seal, and syncs it: then what it says is safe. */
int log_write(struct log *log, refskold *mount, uint32_t pieces);

/* Empties both files, once what they say is written home. */
int log_empty(struct log *log);

#endif
