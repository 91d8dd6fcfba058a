/* volume.h: one mount of Refskold over an image of ext2 and its log. What is written is kept in memory until it is committed. */
#ifndef E2TX_VOLUME_H
#define E2TX_VOLUME_H

#include "device.h"
#include "kept.h"
#include "log.h"
#include "refskold_io.h"

struct volume {
    refskold mount;
    int home;
    struct log log;
    uint32_t size;                    /* bytes of a block */
    uint32_t log_bytes;
    uint64_t blocks;
    uint8_t name[NAME];               /* that the log is to have */
    struct kept kept;
    struct block *waiting[REFSKOLD_HELD]; /* blocks that were committed, and that the mount has not yet: they become one transaction */
    uint32_t waiting_count;
    struct block *away[REFSKOLD_HELD];    /* those that it has, and that are not written home */
    uint32_t away_count;
    bool is_opened;                   /* and its log, once for each channel */
    bool is_writing_home;             /* false where a flush is told that blocks are home, and they are written later */
    struct refskold_io_counts counts;
};

/* Locks an image, which is open, and its log, lays over the image what the log says, and mounts it. `takes_any` also where the log is of
 * another volume. */
errcode_t volume_start(struct volume *v, const char *image, const char *log, bool takes_any);
bool volume_is_started(const struct volume *v);

/* Ends the mount, with all that was committed home and the log empty, and closes the log. */
errcode_t volume_stop(struct volume *v);

/* What was written, be it committed or not. */
errcode_t volume_read(struct volume *v, uint64_t at, uint64_t length, uint8_t *room);

/* `data` is NULL for zeros. */
errcode_t volume_write(struct volume *v, uint64_t at, uint64_t length, const uint8_t *data);
errcode_t volume_commit(struct volume *v, bool is_forced);

/* For recovery: of the volume, before it is mounted. */
errcode_t volume_recover(struct volume *v, bool takes_any);

#endif
