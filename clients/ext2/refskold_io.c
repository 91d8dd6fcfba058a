#define _GNU_SOURCE
#include "refskold_io.h"
#include "volume.h"
#include <errno.h>
#include <fcntl.h>
#include <stdlib.h>
#include <string.h>
#include <sys/file.h>
#include <unistd.h>

enum { LOG_BYTES = 4 << 20 };

/* An opened channel. */
struct channel {
    struct volume volume;
    bool takes_any;
    bool is_flushing;       /* a flush behind a write of the superblock commits, and a close */
    bool is_super_written;
    struct struct_io_stats stats;
};

static struct channel *of(io_channel channel)
{
    return channel->private_data;
}

errcode_t refskold_io_commit(io_channel channel, int is_forced)
{
    return volume_is_started(&of(channel)->volume) ? volume_commit(&of(channel)->volume, is_forced != 0) : ENODEV;
}

unsigned refskold_io_changed(io_channel channel)
{
    return of(channel)->volume.kept.written_count;
}

struct refskold_io_counts refskold_io_counts(io_channel channel)
{
    const struct volume *v = &of(channel)->volume;
    struct refskold_io_counts counts = v->counts;
    counts.syncs = v->log.syncs;
    counts.turns = v->log.turns;
    return counts;
}

/* ---- Opened and closed ---- */

/* Opens an image and locks it. Also who opens it to read alone may have to recover it. */
static errcode_t open_home(const char *name, int flags, int *home)
{
    *home = open(name, O_RDWR | O_CLOEXEC | ((flags & IO_FLAG_EXCLUSIVE) != 0 ? O_EXCL : 0));
    if (*home >= 0 && flock(*home, LOCK_EX | LOCK_NB) == 0) return 0;
    errcode_t error = errno == EWOULDBLOCK ? EBUSY : errno;
    if (*home >= 0) close(*home);
    return error;
}

static errcode_t io_open(const char *name, int flags, io_channel *channel)
{
    struct channel *opened = calloc(1, sizeof *opened);
    io_channel made = calloc(1, sizeof *made);
    char *copy = strdup(name);
    errcode_t error = opened == NULL || made == NULL || copy == NULL ? ENOMEM : open_home(name, flags, &opened->volume.home);
    if (error != 0) {
        free(copy);
        free(made);
        free(opened);
        return error;
    }
    opened->volume.log_bytes = LOG_BYTES;
    opened->stats.num_fields = 2;
    *made = (struct struct_io_channel){
        .magic = EXT2_ET_MAGIC_IO_CHANNEL, .manager = refskold_io_manager, .name = copy, .block_size = 1024, .refcount = 1, .private_data = opened
    };
    *channel = made;
    return 0;
}

static errcode_t io_close(io_channel channel)
{
    struct channel *closed = of(channel);
    errcode_t error = 0, stopped;
    if (--channel->refcount > 0) return 0;
    if (closed->is_flushing && volume_is_started(&closed->volume)) error = volume_commit(&closed->volume, true);
    stopped = volume_stop(&closed->volume);
    close(closed->volume.home);
    free(closed);
    free(channel->name);
    free(channel);
    return error != 0 ? error : stopped;
}

static errcode_t set_log_bytes(struct channel *channel, const char *number)
{
    char *end;
    unsigned long bytes = strtoul(number, &end, 10);
    if (*number == '\0' || *end != '\0' || bytes < REFSKOLD_LEAST_LOG || bytes > REFSKOLD_MOST_LOG) return EXT2_ET_INVALID_ARGUMENT;
    channel->volume.log_bytes = (uint32_t)bytes;
    return 0;
}

static errcode_t io_set_option(io_channel channel, const char *option, const char *arg)
{
    struct channel *set = of(channel);
    if (strcmp(option, "log") == 0 && arg != NULL) return volume_start(&set->volume, channel->name, arg, set->takes_any);
    if (strcmp(option, "log_bytes") == 0 && arg != NULL) return set_log_bytes(set, arg);
    if (strcmp(option, "any") == 0) set->takes_any = true;
    else if (strcmp(option, "flush") == 0) set->is_flushing = true;
    else if (strcmp(option, "offset") != 0 || arg == NULL || strcmp(arg, "0") != 0) return EXT2_ET_INVALID_ARGUMENT;
    return 0;
}

/* ---- Read and written ---- */

static errcode_t io_set_blksize(io_channel channel, int size)
{
    channel->block_size = size;
    return 0;
}

/* A count below 0 is one of bytes. */
static uint64_t length_of(io_channel channel, int count)
{
    return count < 0 ? (uint64_t)-(int64_t)count : (uint64_t)count * (uint64_t)channel->block_size;
}

static errcode_t write_at(struct channel *channel, uint64_t at, uint64_t length, const void *data)
{
    if (!volume_is_started(&channel->volume)) return ENODEV;
    channel->stats.bytes_written += length;
    channel->is_super_written |= at < SUPERBLOCK_OFFSET + SUPERBLOCK_SIZE && at + length > SUPERBLOCK_OFFSET;
    return volume_write(&channel->volume, at, length, data);
}

static errcode_t io_read(io_channel channel, unsigned long long block, int count, void *data)
{
    uint64_t length = length_of(channel, count);
    if (!volume_is_started(&of(channel)->volume)) return ENODEV;
    of(channel)->stats.bytes_read += length;
    return volume_read(&of(channel)->volume, block * (uint64_t)channel->block_size, length, data);
}

static errcode_t io_write(io_channel channel, unsigned long long block, int count, const void *data)
{
    return write_at(of(channel), block * (uint64_t)channel->block_size, length_of(channel, count), data);
}

static errcode_t io_read32(io_channel channel, unsigned long block, int count, void *data)
{
    return io_read(channel, block, count, data);
}

static errcode_t io_write32(io_channel channel, unsigned long block, int count, const void *data)
{
    return io_write(channel, block, count, data);
}

static errcode_t io_zeroout(io_channel channel, unsigned long long block, unsigned long long count)
{
    uint64_t size = (uint64_t)channel->block_size;
    return write_at(of(channel), block * size, count * size, NULL);
}

static errcode_t io_flush(io_channel channel)
{
    struct channel *flushed = of(channel);
    if (!flushed->is_flushing || !flushed->is_super_written) return 0; // ext2fs_flush asks two, and between them the superblock is not yet right
    flushed->is_super_written = false;
    return refskold_io_commit(channel, true);
}

static errcode_t io_get_stats(io_channel channel, io_stats *stats)
{
    *stats = &of(channel)->stats;
    return 0;
}

/* No discard and no read-ahead, and no write_byte: so libext2fs writes the superblock whole each time, by which a flush is known. */
static struct struct_io_manager manager = {
    .magic = EXT2_ET_MAGIC_IO_MANAGER, .name = "Refskold I/O Manager", .open = io_open, .close = io_close, .set_blksize = io_set_blksize,
    .read_blk = io_read32, .write_blk = io_write32, .flush = io_flush, .set_option = io_set_option,
    .get_stats = io_get_stats, .read_blk64 = io_read, .write_blk64 = io_write, .zeroout = io_zeroout
};

io_manager refskold_io_manager = &manager;
