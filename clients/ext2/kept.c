#define _GNU_SOURCE
#include "kept.h"
#include "device.h"
#include <errno.h>
#include <stdlib.h>
#include <string.h>

enum { KEPT_BYTES = 8 << 20, COPIES = 3 };

void kept_begin(struct kept *kept, int home, uint32_t size, uint64_t end)
{
    *kept = (struct kept){ .home = home, .size = size, .end = end, .most = KEPT_BYTES / (COPIES * size) };
}

static struct block *find(const struct kept *kept, uint64_t number)
{
    struct block *block = kept->buckets[number % BUCKETS];
    while (block != NULL && block->number != number) block = block->next;
    return block;
}

/* Forgets the blocks that the image has as well, or all of them. Where many are left it is long until the next time. */
static void forget(struct kept *kept, bool is_all)
{
    for (uint32_t k = 0; k < BUCKETS; k++)
        for (struct block **at = &kept->buckets[k], *block; (block = *at) != NULL;) {
            if (!is_all && (block->is_written || block->is_away || block->waiting != 0)) {
                at = &block->next;
                continue;
            }
            *at = block->next;
            free(block);
            kept->count--;
        }
    kept->most = KEPT_BYTES / (COPIES * kept->size) + 2 * kept->count;
}

errcode_t kept_take_up(struct kept *kept, uint64_t number, struct block **taken)
{
    struct block *block = find(kept, number), **bucket = &kept->buckets[number % BUCKETS];
    if ((*taken = block) != NULL) return 0;
    if (number >= kept->end) return EINVAL;
    if (kept->count >= kept->most) forget(kept, false);
    if ((block = malloc(sizeof *block + COPIES * kept->size)) == NULL) return ENOMEM;
    uint8_t *copies = (uint8_t *)(block + 1);
    if (!is_read(kept->home, copies, kept->size, number * kept->size)) {
        free(block);
        return EIO;
    }
    *block = (struct block){ .next = *bucket, .number = number, .mounted = copies, .committed = copies + kept->size, .now = copies + 2 * kept->size };
    memcpy(block->committed, copies, kept->size);
    memcpy(block->now, copies, kept->size);
    *bucket = *taken = block;
    kept->count++;
    return 0;
}

errcode_t kept_note_written(struct kept *kept, struct block *block)
{
    if (block->is_written) return 0;
    if (kept->written_count == kept->written_room) {
        uint32_t room = 2 * kept->written_room + 64;
        struct block **more = realloc(kept->written, room * sizeof *more);
        if (more == NULL) return ENOMEM;
        kept->written = more;
        kept->written_room = room;
    }
    kept->written[kept->written_count++] = block;
    block->is_written = true;
    return 0;
}

void kept_note_committed(struct kept *kept)
{
    while (kept->written_count > 0) kept->written[--kept->written_count]->is_written = false;
}

void kept_free(struct kept *kept)
{
    if (kept->size > 0) forget(kept, true);
    free(kept->written);
    kept->written = NULL;
    kept->written_count = kept->written_room = 0;
}
