/* kept.h: blocks of an image that are kept in memory: each as the mount has it, as the last commit left it, and as it is now. */
#ifndef E2TX_KEPT_H
#define E2TX_KEPT_H

#include <ext2fs/ext2fs.h>
#include <stdbool.h>
#include <stdint.h>

enum { BUCKETS = 4096 };

struct block {
    struct block *next;
    uint64_t number;
    uint8_t *mounted, *committed, *now;
    uint32_t changed;      /* chunks that the change which is being committed has changed, as bits */
    uint32_t waiting;      /* those that were committed, and that the mount has not yet */
    bool is_written;       /* since the last commit */
    bool is_away;          /* the mount has it, and it is not written home */
};

struct kept {
    int home;
    uint32_t size;         /* bytes of a block */
    uint64_t end;          /* blocks of the image */
    struct block *buckets[BUCKETS];
    uint32_t count, most;  /* how many there are; with how many those are forgotten that the image has as well */
    struct block **written;
    uint32_t written_count, written_room;
};

void kept_begin(struct kept *kept, int home, uint32_t size, uint64_t end);

/* Takes a block up: reads it, where it is not kept. It may be forgotten when the next one is taken up, unless it is written. */
errcode_t kept_take_up(struct kept *kept, uint64_t number, struct block **taken);

/* Notes that a block will be changed. */
errcode_t kept_note_written(struct kept *kept, struct block *block);

/* Nothing is written since the last commit. */
void kept_note_committed(struct kept *kept);
void kept_free(struct kept *kept);

#endif
