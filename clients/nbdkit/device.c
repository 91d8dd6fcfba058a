#include "device.h"

#include <errno.h>
#include <libnbd.h>
#include <stdlib.h>
#include <string.h>

enum {
    BLOCK = REFSKOLD_BLOCK,
    AT_ONCE = 64 * BLOCK,          /* bytes of a request: servers take more, but not all of them */
    LONGEST = AT_ONCE + 2 * BLOCK, /* of a write to a log: a text with its seal, or zeros ahead */
    AHEAD = 2 * AT_ONCE,
    END = 1                        /* the byte behind what a log has */
};

struct remote {
    struct nbd_handle *writes, *reads;
    uint64_t least; /* what a server wants requests to be multiples of */
};

static int remote_failure(void)
{
    return nbd_get_errno() != 0 ? -nbd_get_errno() : -EIO;
}

bool is_uri(const char *word)
{
    return strncmp(word, "nbd", 3) == 0 && strstr(word, "://") != NULL;
}

static int64_t remote_length(void *context)
{
    struct remote *remote = context;
    int64_t length = nbd_get_size(remote->writes);
    return length < 0 ? remote_failure() : length;
}

static int read_all(struct nbd_handle *handle, uint64_t at, unsigned char *room, size_t length)
{
    for (size_t part; length > 0; at += part, room += part, length -= part) {
        part = length < AT_ONCE ? length : AT_ONCE;
        if (nbd_pread(handle, room, part, at, 0) != 0) return remote_failure();
    }
    return 0;
}

static int remote_read(void *context, uint64_t at, void *room, size_t length)
{
    struct remote *remote = context;
    size_t front = at % remote->least, whole = (front + length + remote->least - 1) / remote->least * remote->least;
    if (front == 0 && whole == length) return read_all(remote->reads, at, room, length);
    unsigned char *all = malloc(whole);
    int status = all == NULL ? -ENOMEM : read_all(remote->reads, at - front, all, whole);
    if (status == 0) memcpy(room, all + front, length);
    free(all);
    return status;
}

static int remote_write(void *context, uint64_t at, const void *data, size_t length)
{
    struct remote *remote = context;
    const unsigned char *from = data;
    for (size_t part; length > 0; at += part, from += part, length -= part) {
        part = length < AT_ONCE ? length : AT_ONCE;
        if (nbd_pwrite(remote->writes, from, part, at, 0) != 0) return remote_failure();
    }
    return 0;
}

static int remote_sync(void *context)
{
    struct remote *remote = context;
    return nbd_flush(remote->writes, 0) == 0 ? 0 : remote_failure();
}

static void remote_end(struct remote *remote)
{
    if (remote->reads != remote->writes) nbd_close(remote->reads);
    nbd_close(remote->writes);
}

static void remote_close(void *context)
{
    remote_end(context);
    free(context);
}

/* ---- Connections ---- */

static int connect_to(struct nbd_handle **handle, const char *uri)
{
    *handle = nbd_create();
    return *handle != NULL && nbd_connect_uri(*handle, uri) == 0 ? 0 : remote_failure();
}

/* Connects to a server that will do: else there is no connection. */
static int remote_begin(struct remote *remote, const char *uri, bool is_read_beside)
{
    int status = connect_to(&remote->writes, uri);
    int64_t least = status == 0 ? nbd_get_block_size(remote->writes, LIBNBD_SIZE_MINIMUM) : 0;
    remote->least = least > 1 ? (uint64_t)least : 1;
    remote->reads = remote->writes;
    if (status == 0 && nbd_is_read_only(remote->writes) != 0) status = -EROFS;
    if (status == 0 && nbd_can_flush(remote->writes) != 1) status = -EOPNOTSUPP;
    if (status == 0 && BLOCK % remote->least != 0) status = -EINVAL;
    if (status == 0 && is_read_beside && nbd_can_multi_conn(remote->writes) == 1) status = connect_to(&remote->reads, uri);
    if (status != 0) remote_end(remote);
    return status;
}

int remote_home(refskold_device *device, const char *uri)
{
    struct remote *remote = calloc(1, sizeof *remote);
    int status = remote == NULL ? -ENOMEM : remote_begin(remote, uri, true);
    if (status != 0) {
        free(remote);
        return status;
    }
    *device = (refskold_device){ remote, remote_length, remote_read, remote_write, remote_sync, NULL, remote_close };
    return 0;
}

/* ---- Logs ---- */

/* A device of a log has a label, by which nothing else is taken for one, and behind that block what a file would have, a byte that ends it, and zeros. So
 * its length is seen, also of what ends with zeros. It has none where its first byte is zero, whatever was left where it was emptied half way. */
struct log {
    struct remote remote;         /* at the front: a log is one */
    uint64_t size, used;          /* behind the label: its bytes, and how far they may be anything but zeros */
    uint64_t at;                  /* where `room` stands: what was written last */
    unsigned char room[LONGEST];
};

static const unsigned char label[BLOCK] = "refskold log 1\n", zeros[AT_ONCE];

uint64_t remote_room(uint32_t log_bytes)
{
    return log_bytes + log_bytes / 16 + AHEAD;
}

/* How far a log is anything but zeros: at most as far as the longest log is ever written. */
static int64_t log_used(struct log *log)
{
    uint64_t most = remote_room(REFSKOLD_MOST_LOG), end = log->size < most ? log->size : most;
    while (end > 0) {
        size_t part = end < AT_ONCE ? (size_t)end : AT_ONCE;
        int status = read_all(log->remote.reads, BLOCK + end - part, log->room, part);
        if (status != 0) return status;
        for (; part > 0; part--, end--)
            if (log->room[part - 1] != 0) return (int64_t)end;
    }
    return 0;
}

static int64_t log_length(void *context)
{
    struct log *log = context;
    int64_t used = log_used(log);
    int status = read_all(log->remote.reads, BLOCK, log->room, BLOCK);
    if (used < 0 || status != 0) return used < 0 ? used : status;
    log->used = (uint64_t)used;
    if (used == 0 || log->room[0] == 0) return 0;
    status = read_all(log->remote.reads, BLOCK + (log->used - 1) / BLOCK * BLOCK, log->room, BLOCK);
    return status != 0 ? status : log->room[(log->used - 1) % BLOCK] == END ? used - 1 : used; /* END is lost with what it was written with */
}

static int log_read(void *context, uint64_t at, void *room, size_t length)
{
    return remote_read(context, BLOCK + at, room, length);
}

/* Writes what it is given and END behind it, or where its server wants that more: what stands in front of it was written before, and behind it is nothing yet. */
static int log_write(void *context, uint64_t at, const void *data, size_t length)
{
    struct log *log = context;
    uint64_t least = log->remote.least, front = at % least, begin = at - front, end = at + length, whole;
    bool is_longer = end >= log->used;
    if (is_longer) log->used = end + 1;
    whole = (front + length + is_longer + least - 1) / least * least;
    if (begin + whole > log->size) return -ENOSPC;
    if (front != 0) memmove(log->room, log->room + (begin - log->at), front);
    memcpy(log->room + front, data, length);
    memset(log->room + front + length, 0, whole - front - length);
    if (log->used > end && log->used <= begin + whole) log->room[log->used - 1 - begin] = END;
    log->at = begin;
    return remote_write(&log->remote, BLOCK + begin, log->room, whole);
}

static int log_zero(struct log *log, uint64_t at, uint64_t end)
{
    int status = 0;
    if (at < end && nbd_can_zero(log->remote.writes) == 1) return nbd_zero(log->remote.writes, end - at, BLOCK + at, 0) == 0 ? 0 : remote_failure();
    for (size_t part; status == 0 && at < end; at += part) {
        part = end - at < AT_ONCE ? (size_t)(end - at) : AT_ONCE;
        status = remote_write(&log->remote, BLOCK + at, zeros, part);
    }
    return status;
}

/* Takes all bytes away: the header is safely gone before another byte is, since behind a header that is there no text may be missing. */
static int log_empty(void *context)
{
    struct log *log = context;
    uint64_t least = log->remote.least, header = (REFSKOLD_LOG_HEADER + least - 1) / least * least;
    int status = remote_write(&log->remote, BLOCK, zeros, header);
    if (status == 0 && log->used > header) status = remote_sync(&log->remote);
    if (status == 0) status = log_zero(log, header, (log->used + BLOCK - 1) / BLOCK * BLOCK);
    if (status == 0) log->used = 0;
    return status;
}

/* Sees that a device is one of a log. One that has nothing else, but perhaps a part of the label, is made one. */
static int log_claim(struct log *log)
{
    unsigned char first[BLOCK];
    int status = read_all(log->remote.reads, 0, first, BLOCK);
    int64_t used;
    if (status != 0 || memcmp(first, label, BLOCK) == 0) return status;
    for (int k = 0; k < BLOCK; k++)
        if (first[k] != 0 && first[k] != label[k]) return -EEXIST;
    used = log_used(log);
    if (used != 0) return used < 0 ? (int)used : -EEXIST;
    status = remote_write(&log->remote, 0, label, BLOCK);
    return status == 0 ? remote_sync(&log->remote) : status;
}

int remote_log(refskold_device *device, const char *uri, uint32_t log_bytes)
{
    struct log *log = calloc(1, sizeof *log);
    int status = log == NULL ? -ENOMEM : remote_begin(&log->remote, uri, false);
    if (status == 0) {
        int64_t size = remote_length(&log->remote);
        if (size >= 0 && (uint64_t)size < remote_room(log_bytes)) status = -ENOSPC;
        else if (size < 0) status = (int)size;
        else log->size = log->used = (uint64_t)size / BLOCK * BLOCK - BLOCK;
        if (status == 0) status = log_claim(log);
        if (status != 0) remote_end(&log->remote);
    }
    if (status != 0) {
        free(log);
        return status;
    }
    *device = (refskold_device){ log, log_length, log_read, log_write, remote_sync, log_empty, remote_close };
    return 0;
}
