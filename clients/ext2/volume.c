#define _GNU_SOURCE
#include "volume.h"
#include <errno.h>
#include <stdlib.h>
#include <string.h>
#include <sys/file.h>
#include <unistd.h>

enum {
    CHUNK = 128, /* bytes of a block that the log tells together */
    LEG = 36,    /* what the header says a leg and a block of it cost beside their chunks */
    LEG_BLOCK = 16
};

static errcode_t error_of(int status)
{
    return status < 0 ? -status : status;
}

/* ---- Jobs ---- */

/* Does the checkpoint that is owed, if one is. */
static int checkpoint(struct volume *v)
{
    refskold_reply reply;
    uint64_t serial;
    int status = refskold_take(&v->mount, REFSKOLD_CHECKPOINT, &serial);
    if (status != REFSKOLD_TAKEN) return status;
    status = refskold_begin(&v->mount, serial, &reply);
    if (status != 0 || reply.word != REFSKOLD_BEGUN) return status;
    v->counts.checkpoints++;
    bool is_good = log_write(&v->log, &v->mount, reply.pieces) == 0;
    return refskold_end(&v->mount, serial, is_good ? reply.pieces : 0, is_good, NULL);
}

/* Writes a plan home, blocks that touch by one call: bit k is set where the one at place k was good. */
static uint32_t write_home(const struct volume *v, const refskold_plan *plan, const uint8_t *contents)
{
    uint32_t written = 0;
    for (uint32_t from = 0, to; from < plan->count; from = to) {
        for (to = from + 1; to < plan->count && plan->blocks[to] == plan->blocks[to - 1] + 1;) to++;
        if (is_written(v->home, contents + from * v->size, (to - from) * v->size, plan->blocks[from] * v->size)) written |= (1u << to) - (1u << from);
    }
    return written;
}

/* Does the flush that is owed, if one is: how many blocks it had. It is told as synced: the log syncs the home device before any of its texts
 * goes, and until then these say all. */
static int flush_home(struct volume *v)
{
    uint8_t contents[REFSKOLD_PLAN * REFSKOLD_BLOCK];
    refskold_plan plan;
    uint64_t serial;
    int status = refskold_take(&v->mount, REFSKOLD_FLUSH, &serial);
    if (status != REFSKOLD_TAKEN) return status;
    status = refskold_homes(&v->mount, &plan, contents, sizeof contents);
    if (status < 0) return status;
    uint32_t all = (1u << plan.count) - 1, written = v->is_writing_home ? write_home(v, &plan, contents) : all;
    v->counts.home_blocks += plan.count;
    status = refskold_flush(&v->mount, serial, plan.count, written, true, NULL);
    if (status == 0 && written != all) status = -EIO;
    return status < 0 ? status : (int)plan.count;
}

static int force(struct volume *v)
{
    uint64_t waits = 0;
    int status;
    while ((status = refskold_force(&v->mount, &waits)) == 0 && waits != 0)
        if ((status = checkpoint(v)) != 0) return status;
    return status;
}

/* Brings all that is committed home: no block is busy then. */
static int settle(struct volume *v)
{
    int status = force(v);
    if (status == 0) status = refskold_push(&v->mount);
    while (status == 0 && (status = flush_home(v)) > 0) status = 0;
    if (status != 0) return status;
    v->counts.settles++;
    while (v->away_count > 0) v->away[--v->away_count]->is_away = false;
    return 0;
}

/* Begins a mount over an empty log, whose texts count together where they are so many, or each for itself where `together` is 0. */
static int mount_it(struct volume *v, uint32_t together)
{
    v->log.is_whole = together > 0;
    if (together > 0) name_together(v->name, together, v->log.name);
    else memcpy(v->log.name, v->name, sizeof v->name);
    return refskold_open_sized(&v->mount, 0, v->log_bytes, v->blocks, v->size);
}

/* Ends the mount, with all of it home, and empties the log. */
static int unmount_it(struct volume *v)
{
    int status = refskold_unmount(&v->mount);
    return status != 0 || log_is_empty(&v->log) ? status : log_empty(&v->log);
}

/* ---- Blocks ---- */

/* A part of a block, as it was written last. */
static errcode_t read_part(struct volume *v, uint64_t number, uint64_t first, uint64_t length, uint8_t *room)
{
    struct block *block;
    if (number < v->blocks) {
        errcode_t error = kept_take_up(&v->kept, number, &block);
        if (error == 0) memcpy(room, block->now + first, length);
        return error;
    }
    ssize_t got = pread(v->home, room, length, (off_t)(number * v->size + first)); // behind the last block there may be a part of one
    return got < 0 ? EIO : (uint64_t)got < length ? EXT2_ET_SHORT_READ : 0;
}

errcode_t volume_read(struct volume *v, uint64_t at, uint64_t length, uint8_t *room)
{
    errcode_t error = 0;
    for (uint64_t part; error == 0 && length > 0; at += part, room += part, length -= part) {
        uint64_t first = at % v->size;
        part = v->size - first < length ? v->size - first : length;
        error = read_part(v, at / v->size, first, part, room);
    }
    return error;
}

errcode_t volume_write(struct volume *v, uint64_t at, uint64_t length, const uint8_t *data)
{
    errcode_t error = 0;
    for (uint64_t part; error == 0 && length > 0; at += part, length -= part) {
        uint64_t first = at % v->size;
        struct block *block;
        part = v->size - first < length ? v->size - first : length;
        error = kept_take_up(&v->kept, at / v->size, &block);
        if (error == 0) error = kept_note_written(&v->kept, block);
        if (error != 0) break;
        if (data == NULL) memset(block->now + first, 0, part);
        else memcpy(block->now + first, data, part), data += part;
    }
    return error;
}

/* ---- Transactions ---- */

static int alloc(struct volume *v, uint32_t unit, uint64_t *trans)
{
    int status = refskold_alloc(&v->mount, unit, 1, 0, trans);
    if (status != -EAGAIN || (status = settle(v)) != 0) return status;
    return refskold_alloc(&v->mount, unit, 1, 0, trans);
}

/* Takes the block into the transaction and logs the chunks that wait, those that touch by one call. */
static int log_block(struct volume *v, uint64_t trans, const struct block *block)
{
    uint32_t to, chunks = v->size / CHUNK;
    int status = refskold_read(&v->mount, trans, block->number);
    if (status == REFSKOLD_ASKS) status = refskold_read_content_sized(&v->mount, trans, block->number, block->mounted, v->size);
    for (uint32_t from = 0; status == 0 && from < chunks; from = to + 1) {
        for (to = from; to < chunks && (block->waiting >> to & 1) != 0;) to++;
        if (to > from) status = refskold_log(&v->mount, trans, block->number, from * CHUNK, block->committed + from * CHUNK, (to - from) * CHUNK);
    }
    return status;
}

/* The mount has these blocks now. */
static void note_mounted(struct volume *v, struct block **blocks, uint32_t count)
{
    for (uint32_t k = 0; k < count; k++) {
        struct block *block = blocks[k];
        memcpy(block->mounted, block->committed, v->size);
        block->waiting = 0;
        if (!block->is_away) v->away[v->away_count++] = block;
        block->is_away = true;
    }
}

/* Makes one transaction of blocks that wait, which fit it and cost so much. */
static int commit(struct volume *v, struct block **blocks, uint32_t count, uint32_t unit)
{
    uint64_t trans;
    uint32_t more = 0;
    int status = 0;
    for (uint32_t k = 0; k < count; k++) more += !blocks[k]->is_away;
    if (v->away_count + more > REFSKOLD_HELD && (status = settle(v)) != 0) return status;
    if ((status = alloc(v, unit, &trans)) != 0) return status;
    for (uint32_t k = 0; status == 0 && k < count; k++) status = log_block(v, trans, blocks[k]);
    if (status != 0) { // shuts the mount, where something was logged
        refskold_cancel(&v->mount, trans, NULL);
        return status;
    }
    if ((status = refskold_commit(&v->mount, trans, NULL)) != 0) return status;
    note_mounted(v, blocks, count);
    return checkpoint(v);
}

/* What a block costs a transaction with these of its chunks. */
static uint32_t cost_of(uint32_t chunks)
{
    return chunks == 0 ? 0 : LEG_BLOCK + CHUNK * (uint32_t)__builtin_popcount(chunks);
}

/* How many of these blocks one transaction takes, and what that costs. */
static uint32_t fit(const struct volume *v, struct block *const *blocks, uint32_t count, uint32_t *unit)
{
    uint32_t taken = 0, cost;
    for (*unit = LEG; taken < count && taken < REFSKOLD_HELD; taken++, *unit += cost)
        if (*unit + (cost = cost_of(blocks[taken]->waiting)) > v->log_bytes) break;
    return taken;
}

/* Gives the mount what waits for it. */
static int hand_over(struct volume *v)
{
    uint32_t unit, count = fit(v, v->waiting, v->waiting_count, &unit);
    int status = count == 0 ? 0 : commit(v, v->waiting, count, unit);
    if (status == 0) v->waiting_count = 0;
    return status;
}

/* ---- Changes ---- */

/* The blocks that have changed since the last commit, and which of their chunks. */
static uint32_t find_changed(struct volume *v, struct block **changed)
{
    uint32_t count = 0;
    for (uint32_t k = 0; k < v->kept.written_count; k++) {
        struct block *block = v->kept.written[k];
        block->changed = 0;
        for (uint32_t at = 0; at < v->size; at += CHUNK)
            if (memcmp(block->committed + at, block->now + at, CHUNK) != 0) block->changed |= 1u << at / CHUNK;
        if (block->changed != 0) changed[count++] = block;
    }
    return count;
}

/* Whether one transaction takes a change with what waits. */
static bool is_room(const struct volume *v, struct block *const *changed, uint32_t count)
{
    uint32_t unit, blocks = fit(v, v->waiting, v->waiting_count, &unit);
    for (uint32_t k = 0; k < count && blocks <= REFSKOLD_HELD; k++) {
        blocks += changed[k]->waiting == 0;
        unit += cost_of(changed[k]->waiting | changed[k]->changed) - cost_of(changed[k]->waiting);
    }
    return blocks <= REFSKOLD_HELD && unit <= v->log_bytes;
}

/* A change is committed: it waits. */
static void take_in(struct volume *v, struct block *const *changed, uint32_t count)
{
    for (uint32_t k = 0; k < count; k++) {
        changed[k]->waiting |= changed[k]->changed;
        memcpy(changed[k]->committed, changed[k]->now, v->size);
    }
}

/* Commits a change by several transactions, each a text of a log of its own, in which no text counts unless all do. So none of the blocks may
 * come home before the last text is safe: they are written then, and the mount is told before that they are. */
static int commit_parts(struct volume *v, struct block **changed, uint32_t count)
{
    uint32_t unit, parts = 0;
    int status = settle(v);
    take_in(v, changed, count);
    for (uint32_t from = 0; from < count; parts++) from += fit(v, changed + from, count - from, &unit);
    if (status == 0) status = unmount_it(v);
    if (status == 0) status = mount_it(v, parts);
    v->is_writing_home = false;
    for (uint32_t from = 0, part; status == 0 && from < count; from += part) {
        part = fit(v, changed + from, count - from, &unit);
        status = commit(v, changed + from, part, unit);
        if (status == 0) status = settle(v);
    }
    v->is_writing_home = true;
    for (uint32_t k = 0; status == 0 && k < count; k++)
        if (!is_written(v->home, changed[k]->now, v->size, changed[k]->number * v->size)) status = -EIO;
    if (status == 0) status = unmount_it(v);
    return status == 0 ? mount_it(v, 0) : status;
}

/* Commits a change with what waits, or behind it. */
static int commit_change(struct volume *v, struct block **changed, uint32_t count)
{
    int status = 0;
    if (!is_room(v, changed, count) && (status = hand_over(v)) != 0) return status;
    if (is_room(v, changed, count)) {
        for (uint32_t k = 0; k < count; k++)
            if (changed[k]->waiting == 0) v->waiting[v->waiting_count++] = changed[k];
        take_in(v, changed, count);
    } else if ((status = commit_parts(v, changed, count)) != 0) refskold_shutdown(&v->mount);
    return status;
}

errcode_t volume_commit(struct volume *v, bool is_forced)
{
    struct block **changed = calloc(v->kept.written_count + 1, sizeof *changed);
    if (changed == NULL) return ENOMEM;
    uint32_t count = find_changed(v, changed);
    int status = commit_change(v, changed, count);
    free(changed);
    if (status == 0) {
        kept_note_committed(&v->kept);
        v->counts.commits += count > 0;
        v->counts.blocks += count;
    }
    if (status == 0 && is_forced) status = hand_over(v);
    if (status == 0 && is_forced) status = force(v);
    return error_of(status);
}

/* ---- Started and stopped ---- */

bool volume_is_started(const struct volume *v)
{
    return v->mount.holds != 0;
}

/* The block size of the file system, which its superblock says. */
static errcode_t find_size(struct volume *v)
{
    struct ext2_super_block super;
    off_t length = lseek(v->home, 0, SEEK_END);
    if (length < 0 || !is_read(v->home, &super, sizeof super, SUPERBLOCK_OFFSET)) return EIO;
    if (ext2fs_le16_to_cpu(super.s_magic) != EXT2_SUPER_MAGIC) return EXT2_ET_BAD_MAGIC;
    uint32_t shift = ext2fs_le32_to_cpu(super.s_log_block_size);
    if (shift > 2) return EXT2_ET_UNEXPECTED_BLOCK_SIZE;
    v->size = 1024u << shift;
    v->blocks = (uint64_t)length / v->size;
    return 0;
}

errcode_t volume_start(struct volume *v, const char *image, const char *log, bool takes_any)
{
    errcode_t error = v->is_opened ? EBUSY : find_size(v);
    if (error != 0) return error;
    v->log = log_beside(v->home);
    v->log.block_size = v->size;
    v->log.size = v->log_bytes;
    v->is_writing_home = true;
    v->is_opened = true;
    kept_begin(&v->kept, v->home, v->size, v->blocks);
    name_of(image, v->name);
    if ((error = error_of(log_open(&v->log, log))) != 0) return error;
    if ((error = volume_recover(v, takes_any)) != 0) return error;
    return error_of(mount_it(v, 0));
}

errcode_t volume_stop(struct volume *v)
{
    int status = 0;
    if (volume_is_started(v)) status = refskold_shut(&v->mount) == REFSKOLD_LIVE ? hand_over(v) : -EIO;
    if (status == 0 && volume_is_started(v)) status = settle(v);
    if (status == 0 && volume_is_started(v)) status = unmount_it(v);
    refskold_close(&v->mount); // where that failed the log stays, and the next opening recovers
    if (v->is_opened) log_close(&v->log);
    v->is_opened = false;
    kept_free(&v->kept);
    return error_of(status);
}
