/* refskold_volume.h: a volume in your program, over refskold.h: a mount, its two devices, and all that goes on between them.
 *
 * A volume is a row of bytes in a file, its home, and a log of two files, LOG and LOG.1. It is read and written at any offset and
 * in any length. What one change writes is there whole after a crash or not at all; what was forced is there.
 *
 *     #define REFSKOLD_VOLUME_IMPLEMENTATION
 *     #include <refskold_volume.h>
 *     #include <stdio.h>
 *
 *     int main(void) {
 *         refskold_volume_options options = { .blocks = 1024 };
 *         refskold_volume *volume;
 *         refskold_change *change;
 *         int status = refskold_volume_open(&volume, "example.home", "example.log", &options, NULL); // makes, locks, recovers
 *         if (status == 0) status = refskold_volume_begin(volume, &change);
 *         if (status == 0) status = refskold_change_write(change, 28772, "hello", 5); // held back until the commit
 *         if (status == 0) status = refskold_volume_commit(change, NULL);
 *         if (status == 0) status = refskold_volume_force(volume, 0);                 // on the log now: no crash takes it away
 *         if (status == 0) status = refskold_volume_close(volume);                    // all of it home, and the log empty
 *         printf("status %d\n", status);
 *         return status != 0;
 *     }
 *
 * One source file of a program defines REFSKOLD_VOLUME_IMPLEMENTATION before it includes this header, and so has the functions;
 * others include it alone. It is C99 over POSIX threads, and is built with -pthread and the library refskold:
 *
 *     cc example.c $(pkg-config --cflags --libs refskold) -pthread               where it is installed (tools/install)
 *     cc -I include example.c "$(tools/lib)/lib/librefskold.a" -pthread          at the top of a clone
 *
 * Where the compiler was asked for bare C, as by -std=c99, include it before all others, or define _POSIX_C_SOURCE as 200809L.
 *
 * A change writes at most 64 blocks: 262,144 bytes of blocks of 4,096, and fewer where it begins or ends within one. What is to be
 * larger is made of several changes, the last of which makes it count. A new home reads as zeros: so write your format in one
 * change, and tell a new volume by what is not there.
 *
 * What holds, and why
 *
 *   What a call of refskold.h does is proved, as that header says. Of the lines here nothing is proved: they are tested, by
 *   tools/test-volume and by the programs of clients/. At each function stands what the library says of it ('said') and what is
 *   tested alone ('tested').
 *
 *   What is committed goes to the log by checkpoints, each of which is one text there, and then home. The log is sealed
 *   (docs/use/checkpoint-format.md): a loss of power may leave anything behind what was synced. The files are written by turns,
 *   and each has at most `log_bytes` bytes of texts, 8 bytes more for each, 64, and 262,144 of zeros ahead. The programs `xth
 *   recover HOME LOG` and `xth logdump LOG` of this project read them. Blocks are written home without a sync for each flush: the log keeps what it has until a sync of
 *   the home device was good, and only then is a file emptied. That a mount may be told so of its home device is tested, not said.
 *
 * Errors
 *
 *   0 or more is well. Below 0 is an errno with a minus: -EINVAL for a NULL pointer or a range outside the volume; -EIO once
 *   the volume is shut; -ENOMEM; others as each function says. A write or a sync of a device that fails shuts the volume: each
 *   later call answers -EIO, what was forced is on the log, and the next refskold_volume_open recovers it. refskold_volume_fault
 *   tells the device's errno. A read that fails fails its call alone, with the device's errno.
 *
 * Threads
 *
 *   Any thread may call any function, but a change belongs to one thread at a time, and no call may come during
 *   refskold_volume_close or after it. Threads wait by condition variables. One change is open at a time: refskold_volume_begin waits for
 *   its turn, in the order of the calls. So changes see each other whole, in one order, and no two can block one another. Reads,
 *   forces and what is written home go on beside it. For one view of several blocks begin a change, read by
 *   refskold_change_read, and cancel it.
 *
 * Processes
 *
 *   One process has a volume, by locks of its files (flock) that end with it. A child of a fork that does not exec shares
 *   them, so it keeps them for as long as it lives; it may call nothing of this. There is no way to open a volume for reading
 *   alone. On -EWOULDBLOCK try again later.
 */
#ifndef REFSKOLD_VOLUME_H
#define REFSKOLD_VOLUME_H

#if defined(REFSKOLD_VOLUME_IMPLEMENTATION) && !defined(_POSIX_C_SOURCE) && !defined(_GNU_SOURCE) && !defined(_XOPEN_SOURCE)
#define _POSIX_C_SOURCE 200809L
#define _DEFAULT_SOURCE 1
#endif

#include <refskold.h>

#ifdef __cplusplus
extern "C" {
#endif

typedef struct refskold_volume refskold_volume;
typedef struct refskold_change refskold_change; /* of a volume, from begin to commit or cancel */

enum refskold_volume_flags {
    REFSKOLD_VOLUME_NO_THREAD = 1, /* no thread is started: you call refskold_volume_work now and then */
    REFSKOLD_VOLUME_ANY_LOG = 2    /* a log that names another volume, or of which one file is missing, is laid all the same */
};

/* How a volume is made. 0 in a field is for what stands there of it. A later opening may say others: more blocks, which read as
 * zeros, fewer, which takes nothing away, another `log_bytes`. `block_size` has to stay while the log has texts. */
typedef struct refskold_volume_options {
    uint64_t blocks;               /* of home; 0: as many as the device has, whole ones */
    uint32_t block_size;           /* 512, 1,024, 2,048 or 4,096 bytes; 0: 4,096 */
    uint32_t log_bytes;            /* REFSKOLD_LEAST_LOG to REFSKOLD_MOST_LOG, 65,536 to 16,777,216; 0: 4,194,304 */
    uint32_t flags;                /* enum refskold_volume_flags, added up */
} refskold_volume_options;

/* A device of your own. Each function but `close` returns 0 or more, or an errno with a minus. Those of home may be called by
 * several threads at once, those of a log by one at a time. `length` tells how many bytes it has; `read` and `write` do all of
 * them or fail; `sync` makes all writes before it safe; `empty`, of a log, takes all its bytes away; `close`, which may be NULL,
 * ends it. */
typedef struct refskold_device {
    void *context;
    int64_t (*length)(void *context);
    int (*read)(void *context, uint64_t at, void *room, size_t length);
    int (*write)(void *context, uint64_t at, const void *data, size_t length);
    int (*sync)(void *context);
    int (*empty)(void *context);
    void (*close)(void *context);
} refskold_device;

/* Opens a volume: makes the files that are not there, locks all three (take no lock of your own on them), lays over home what the
 * log says, empties the log and begins a new life in it. A home file that is shorter than `blocks` is made longer: by zeros that take
 * no room until they are written, so a full disk may show later, by refskold_volume_fault. A file of the log of at most 64 bytes has
 * no text, whatever they are: it is taken for what a crash left, and emptied. `options` may be NULL for zeros, `told` too: it is
 * told what the log had (refskold.h).
 *
 * Said: what a recovery makes of the bytes of the log (refskold_recovery_open_files). Tested: the rest; kills and cuts within it.
 *
 * -EWOULDBLOCK: somebody has one of the files. -EINVAL: a size out of its range, or home has no block. -EILSEQ: the log is broken,
 * as no crash leaves it, or has blocks of another size: nothing was laid, and `told` says where. -EXDEV: it names another volume, by
 * the last name of home's path; its folder may have been renamed. -ENOENT: one of its files is not there, and the other has a
 * header; or home is not there, and the log has something. REFSKOLD_VOLUME_ANY_LOG lays what is there all the same. (That a file of
 * the log is gone can't be told where the other one is empty.) Else the errno of a device, or of a thread that can't be started.
 * After an error there is no volume, files stay as they were or partly recovered, those that were made are empty, and this may be
 * called again. */
int refskold_volume_open(refskold_volume **volume, const char *home, const char *log, const refskold_volume_options *options,
                         refskold_log_told *told);

/* The same of devices of your own: home and the two files of the log, and the volume's name, or NULL for none. You have locked them.
 * All three are closed by refskold_volume_close, and where this fails. */
int refskold_volume_open_on(refskold_volume **volume, const refskold_device *home, const refskold_device log[2], const char *name,
                            const refskold_volume_options *options, refskold_log_told *told);

/* A file as a device: opens it, made where it is not there, and locks it, as `xth` does. Its folder is synced, so that its name is safe. 0. -EWOULDBLOCK: somebody has it. Else the errno of the system; after an error nothing is open. */
int refskold_device_file(refskold_device *device, const char *path);

/* Both files of a log as devices, PATH and PATH.1, by flags of enum refskold_volume_flags. 0. -ENOENT: one is not there, and the other
 * is of a sealed log; REFSKOLD_VOLUME_ANY_LOG makes it. Else as refskold_device_file: after an error none is open. */
int refskold_device_log(refskold_device log[2], const char *path, uint32_t flags);

/* Ends a volume in order: brings all that is committed home, empties the log, and gives everything back. 0.
 *
 * Said: a mount that unmounts has all home, so that the log may go. Tested: that both files are emptied, the older one first.
 *
 * -EBUSY: a change is open, and nothing has happened. -EIO: the volume was shut, or was by this: it is given back all the same,
 * and its log has what was forced. */
int refskold_volume_close(refskold_volume *volume);

/* How many bytes it has. */
uint64_t refskold_volume_length(refskold_volume *volume);

/* Why it is shut: the errno, with a minus, of the device that failed; 0 where it is not. */
int refskold_volume_fault(refskold_volume *volume);

/* Begins a change, which sees what was committed before it. It waits for its turn.
 *
 * Tested: turns come in the order of the calls. -EDEADLK: this thread began the change that is open. -EIO. -ENOMEM. */
int refskold_volume_begin(refskold_volume *volume, refskold_change **change);

/* Puts `length` bytes into the change, which alone sees them until it commits. What it writes touches at most REFSKOLD_HELD blocks.
 *
 * Said: what a leg costs, so that a commit fits the log (refskold_alloc). Tested: the rest.
 *
 * -E2BIG: more blocks, or more than the log takes at once: `log_bytes` of 327,680 or more take each change, 65,536 one of 15 whole
 * blocks of 4,096. -EIO. -ENOMEM. Else the
 * errno of home, where a block is written in part. After an error the change is as it was before this call. */
int refskold_change_write(refskold_change *change, uint64_t offset, const void *data, size_t length);

/* Reads what the change sees: what it has written, else what is committed. No other change comes between. -EIO. -ENOMEM. Else the
 * errno of home. */
int refskold_change_read(refskold_change *change, uint64_t offset, void *room, size_t length);

/* Commits a change, whole; `number`, which may be NULL, is what to force to, 0 where nothing was written. Blocks are brought home, and
 * the log is forced, where there is no room else. The change has ended, also where this fails, and then nothing of it is committed.
 *
 * Said: it is in one checkpoint, whole, and blocks do not go home before that is on the log. Tested: the rest.
 *
 * -EIO: the volume is shut. -ENOMEM: nothing else has happened, or, where memory ended within the change, the volume is shut. */
int refskold_volume_commit(refskold_change *change, uint64_t *number);

/* Gives a change up; the volume is as if it had never begun. 0. Tested. */
int refskold_volume_cancel(refskold_change *change);

/* Reads what is committed. Each block is read whole as one commit left it; of several blocks a change may come between.
 *
 * Said: what the mount has of a block is what was committed. Tested: reads of home beside flushes. -EIO. Else the errno of home. */
int refskold_volume_read(refskold_volume *volume, uint64_t offset, void *room, size_t length);

/* Returns once all that is committed is on the log, or with `number` what was committed up to there; several commits may tell one
 * number. Threads that come together share a checkpoint and a sync.
 *
 * Said: a force that waits for nothing has it on the log. Tested: the sync, and that a kill or a cut keeps it. -EINVAL: a number
 * above the one that the next commit will tell. -EIO: what was to be forced may be there or not once the volume is opened again,
 * each change whole. -ENOMEM. */
int refskold_volume_force(refskold_volume *volume, uint64_t number);

/* Brings home some blocks where many wait for it, so that commits find room: the work of the thread, for who has a loop of his own. 1
 * where more is to be done, else 0. Without it commits do it themselves, when they must. Tested. -EIO. -ENOMEM. */
int refskold_volume_work(refskold_volume *volume);

#ifdef __cplusplus
}
#endif

/* ---- The implementation --------------------------------------------------------------------------------------------- */

#ifdef REFSKOLD_VOLUME_IMPLEMENTATION

#include <fcntl.h>
#include <pthread.h>
#include <signal.h>
#include <stdlib.h>
#include <string.h>
#include <sys/file.h>
#include <sys/stat.h>
#include <unistd.h>

enum {
    REFSKOLD_V_CHUNK = 128,                                /* bytes that a change costs in the log, where it touches one */
    REFSKOLD_V_PART = 64,                                  /* blocks that are read at once */
    REFSKOLD_V_RECENT = 256,                               /* blocks of which it is kept that they were sent home */
    REFSKOLD_V_MANY = 32,                                  /* blocks not home, from which on the thread brings some there */
    REFSKOLD_V_TURNS = 16,
    REFSKOLD_V_AHEAD = 262144,                             /* bytes that are written ahead, as zeros: less than a torn end may have */
    REFSKOLD_V_SMALL = 65536                               /* of the longest text with which that is done */
};

struct refskold_volume {
    pthread_mutex_t lock;                                  /* of all below; no call of the mount is made without it */
    pthread_cond_t landed, homed, wanted;                  /* a checkpoint ended; a flush did; there is work for the thread */
    pthread_cond_t turns[REFSKOLD_V_TURNS];                /* whose turn it is, by its number */
    uint64_t next_turn, turn;
    pthread_t owner, worker;                               /* who began the change that is open; the thread */
    int is_open, has_worker, is_stopping;
    int is_writing, is_homing;                             /* the log, or the home device, works, and the lock is free */
    int fault;
    refskold mount;
    uint64_t reader;                                       /* a transaction that is always open and changes nothing */
    uint64_t checkpoint;                                   /* the job that was taken and not begun, 0 for none */
    uint64_t steps;                                        /* checkpoints and flushes that ended */
    uint32_t away;                                         /* blocks committed and not home, at the most */
    uint64_t sent, recent[REFSKOLD_V_RECENT];              /* blocks that were ever sent home: how many, and the last ones */
    uint64_t blocks, ahead;                                /* ahead: how long the file is that is written */
    uint32_t block_size, log_bytes, newer;                 /* newer: which file of the log is written */
    uint64_t generation, salt, at, texts;                  /* of its header; its end; the bytes of its texts */
    unsigned char head[REFSKOLD_LOG_HEADER], name[16];     /* its head and last seal */
    refskold_device home, log[2];
    unsigned char *text, *plans;                           /* a checkpoint's text; a plan's blocks, twice */
};

struct refskold_v_block {
    uint64_t block;
    uint32_t chunks;                                       /* bit k: chunk k was written */
    unsigned char *is;                                     /* the block as the change sees it, and behind it as it was */
};

struct refskold_change {
    refskold_volume *volume;
    uint32_t count;
    struct refskold_v_block blocks[REFSKOLD_HELD];
};

/* ---- Files as devices ---- */

static int refskold_v_errno(void)
{
    return errno != 0 ? -errno : -EIO;
}

static int refskold_v_fd(void *context)
{
    return (int)(intptr_t)context;
}

static int64_t refskold_v_file_length(void *context)
{
    off_t end = lseek(refskold_v_fd(context), 0, SEEK_END);
    return end < 0 ? refskold_v_errno() : end;
}

static int refskold_v_file_read(void *context, uint64_t at, void *room, size_t length)
{
    while (length > 0) {
        ssize_t got = pread(refskold_v_fd(context), room, length, (off_t)at);
        if (got < 0 && errno == EINTR) continue;
        if (got <= 0) return got == 0 ? -EIO : refskold_v_errno();
        room = (unsigned char *)room + got;
        length -= (size_t)got;
        at += (uint64_t)got;
    }
    return 0;
}

static int refskold_v_file_write(void *context, uint64_t at, const void *data, size_t length)
{
    while (length > 0) {
        ssize_t put = pwrite(refskold_v_fd(context), data, length, (off_t)at);
        if (put < 0 && errno == EINTR) continue;
        if (put < 0) return refskold_v_errno();
        data = (const unsigned char *)data + put;
        length -= (size_t)put;
        at += (uint64_t)put;
    }
    return 0;
}

static int refskold_v_file_sync(void *context)
{
    return fdatasync(refskold_v_fd(context)) == 0 ? 0 : refskold_v_errno();
}

static int refskold_v_file_empty(void *context)
{
    return ftruncate(refskold_v_fd(context), 0) == 0 ? 0 : refskold_v_errno();
}

static void refskold_v_file_close(void *context)
{
    close(refskold_v_fd(context));
}

/* Makes the name of a file safe: one that was made just now could be gone after a power cut. A file system that syncs no folders is trusted. */
static int refskold_v_sync_folder(const char *path)
{
    const char *slash = strrchr(path, '/');
    size_t length = slash == NULL ? 0 : (size_t)(slash - path) + 1;
    char *folder = malloc(length + 2);
    int fd, status;
    if (folder == NULL) return -ENOMEM;
    memcpy(folder, path, length);
    memcpy(folder + length, ".", 2);
    fd = open(folder, O_RDONLY | O_DIRECTORY | O_CLOEXEC);
    status = fd >= 0 && (fsync(fd) == 0 || errno == EINVAL) ? 0 : refskold_v_errno();
    if (fd >= 0) close(fd);
    free(folder);
    return status;
}

int refskold_device_file(refskold_device *device, const char *path)
{
    int fd, status;
    if (device == NULL || path == NULL) return -EINVAL;
    fd = open(path, O_RDWR | O_CREAT | O_CLOEXEC, 0600);
    if (fd < 0) return refskold_v_errno();
    status = flock(fd, LOCK_EX | LOCK_NB) == 0 ? refskold_v_sync_folder(path) : refskold_v_errno();
    if (status != 0) {
        close(fd);
        return status;
    }
    device->context = (void *)(intptr_t)fd;
    device->length = refskold_v_file_length;
    device->read = refskold_v_file_read;
    device->write = refskold_v_file_write;
    device->sync = refskold_v_file_sync;
    device->empty = refskold_v_file_empty;
    device->close = refskold_v_file_close;
    return 0;
}

/* ---- Jobs: each is called with the lock, and may let it go meanwhile ---- */

/* No further change: what was forced is on the log. */
static int refskold_v_shut(refskold_volume *volume, int status)
{
    int k;
    if (volume->fault == 0) {
        volume->fault = status;
        refskold_shutdown(&volume->mount);
    }
    pthread_cond_broadcast(&volume->landed);
    pthread_cond_broadcast(&volume->homed);
    pthread_cond_broadcast(&volume->wanted);
    for (k = 0; k < REFSKOLD_V_TURNS; k++) pthread_cond_broadcast(&volume->turns[k]);
    return -EIO;
}

/* Begins a file of the log, which must be of no use any more, with the header that is written. */
static int refskold_v_begin_file(const refskold_device *file, const unsigned char *header)
{
    int status = file->empty(file->context);
    if (status >= 0) status = file->sync(file->context);
    if (status >= 0) status = file->write(file->context, 0, header, REFSKOLD_LOG_HEADER);
    if (status >= 0) status = file->sync(file->context);
    return status < 0 ? status : 0;
}

/* Puts the text of the checkpoint begun into volume->text, and its seal behind it: how long both are. `header` is written where the
 * other file is to be begun first: where this one would have more texts than a mount needs, and so those of the other are spent. */
static int64_t refskold_v_gather(refskold_volume *volume, uint32_t pieces, unsigned char *header, int *turns)
{
    size_t length = 0;
    uint32_t k;
    int status = 0;
    for (k = 0; k < pieces; k++) {
        status = refskold_piece(&volume->mount, k, volume->text + length, REFSKOLD_BLOCK);
        if (status < 0) return status;
        length += (size_t)status;
    }
    *turns = volume->texts + length > volume->log_bytes;
    if (*turns) {
        status = refskold_log_header(header, volume->block_size, volume->log_bytes, volume->generation + 1, volume->salt,
                                     volume->head + REFSKOLD_LOG_HEAD, volume->name);
        if (status < 0) return status;
        memcpy(volume->head, header, REFSKOLD_LOG_HEADER);
        volume->generation++;
        volume->newer ^= 1;
        volume->at = REFSKOLD_LOG_HEADER;
        volume->texts = 0;
    }
    status = refskold_seal(&volume->mount, volume->head);
    if (status < 0) return status;
    memcpy(volume->text + length, volume->head + REFSKOLD_LOG_HEAD, REFSKOLD_SEAL);
    volume->texts += length;
    return (int64_t)(length + REFSKOLD_SEAL);
}

/* Writes a checkpoint's text and seal, and syncs them; behind a header where its file is begun: then what the file had must be home for good. Behind a small
 * text zeros are written ahead, so that the syncs of the next ones change no length. The lock is free meanwhile. */
static int refskold_v_write_text(refskold_volume *volume, size_t length, const unsigned char *header)
{
    const refskold_device *file = &volume->log[volume->newer];
    uint64_t at = volume->at, end = at + length;
    int status = 0;
    volume->at = end;
    if (header != NULL) volume->ahead = 0;
    if (end > volume->ahead && length <= REFSKOLD_V_SMALL) end = (at + REFSKOLD_V_AHEAD) / REFSKOLD_BLOCK * REFSKOLD_BLOCK;
    memset(volume->text + length, 0, (size_t)(end - at) - length);
    if (end > volume->ahead) volume->ahead = end;
    volume->is_writing = 1;
    pthread_mutex_unlock(&volume->lock);
    if (header != NULL) {
        status = volume->home.sync(volume->home.context);
        if (status >= 0) status = refskold_v_begin_file(file, header);
    }
    if (status >= 0) status = file->write(file->context, at, volume->text, (size_t)(end - at));
    if (status >= 0) status = file->sync(file->context);
    pthread_mutex_lock(&volume->lock);
    volume->is_writing = 0;
    volume->steps++;
    return status < 0 ? status : 0;
}

/* Does the checkpoint that is owed, or waits for the one that is written. */
static int refskold_v_checkpoint(refskold_volume *volume)
{
    refskold_reply reply;
    unsigned char header[REFSKOLD_LOG_HEADER];
    uint64_t serial;
    int64_t length;
    int turns, status;
    if (volume->is_writing) {
        pthread_cond_wait(&volume->landed, &volume->lock);
        return volume->fault != 0 ? -EIO : 0;
    }
    if (volume->checkpoint == 0) {
        status = refskold_take(&volume->mount, REFSKOLD_CHECKPOINT, &volume->checkpoint);
        if (status != REFSKOLD_TAKEN) return status;
    }
    status = refskold_begin(&volume->mount, volume->checkpoint, &reply);
    if (status == -ENOMEM) return status; /* it still waits to begin */
    serial = volume->checkpoint;
    volume->checkpoint = 0;
    if (status != 0) return refskold_v_shut(volume, status);
    if (reply.word != REFSKOLD_BEGUN) return 0;
    length = refskold_v_gather(volume, reply.pieces, header, &turns);
    if (length < 0) return refskold_v_shut(volume, (int)length);
    status = refskold_v_write_text(volume, (size_t)length, turns ? header : NULL);
    if (status != 0) {
        refskold_end(&volume->mount, serial, 0, 0, NULL);
        return refskold_v_shut(volume, status);
    }
    status = refskold_end(&volume->mount, serial, reply.pieces, 1, NULL);
    if (status != 0) return refskold_v_shut(volume, status);
    pthread_cond_broadcast(&volume->landed);
    return 0;
}

/* Brings to the log what was committed, up to a checkpoint, or with 0 all of it. */
static int refskold_v_force(refskold_volume *volume, uint64_t number)
{
    uint64_t waits;
    int status = number != 0 ? refskold_force_to(&volume->mount, number, &waits) : refskold_force(&volume->mount, &waits);
    number = waits;
    while (status == 0 && waits != 0) {
        status = refskold_v_checkpoint(volume);
        if (status == 0) status = refskold_force_to(&volume->mount, number, &waits);
    }
    return status;
}

/* Writes the blocks of a plan, neighbours by one write: bit k is set where that at place k was good. */
static uint32_t refskold_v_write_plan(refskold_volume *volume, const refskold_plan *plan, int *failed)
{
    uint32_t written = 0, k, end, size = volume->block_size;
    for (k = 0; k < plan->count; k = end) {
        int status;
        for (end = k + 1; end < plan->count && plan->blocks[end] == plan->blocks[end - 1] + 1;) end++;
        status = volume->home.write(volume->home.context, plan->blocks[k] * size, volume->plans + (size_t)k * size, (size_t)(end - k) * size);
        if (status < 0) *failed = status;
        else written |= (1u << end) - (1u << k);
    }
    return written;
}

/* Of a plan made again behind the writes: which blocks stand home as it says. So other calls may come while the device works. */
static uint32_t refskold_v_well(const refskold_volume *volume, const refskold_plan *was, uint32_t good, const refskold_plan *now)
{
    size_t size = volume->block_size;
    const unsigned char *again = volume->plans + REFSKOLD_PLAN * size;
    uint32_t written = 0, k, old;
    for (k = 0; k < now->count; k++)
        for (old = 0; old < was->count; old++)
            if (now->blocks[k] == was->blocks[old] && (good >> old & 1) != 0 && memcmp(again + k * size, volume->plans + old * size, size) == 0)
                written |= 1u << k;
    return written;
}

/* Brings home some of what is on the log: how many blocks were planned. */
static int refskold_v_bring_home(refskold_volume *volume)
{
    size_t room = (size_t)REFSKOLD_PLAN * volume->block_size;
    refskold_plan plan, now;
    refskold_reply reply;
    uint64_t serial = 0;
    uint32_t good, k;
    int failed = 0, status;
    while (volume->is_homing) pthread_cond_wait(&volume->homed, &volume->lock);
    status = refskold_push(&volume->mount);
    if (status == 0) status = refskold_take(&volume->mount, REFSKOLD_FLUSH, &serial); /* one is owed: it was asked just now */
    if (status != REFSKOLD_TAKEN) return status;
    status = refskold_homes(&volume->mount, &plan, volume->plans, room);
    if (status < 0) return refskold_v_shut(volume, status);
    for (k = 0; k < plan.count; k++) volume->recent[volume->sent++ % REFSKOLD_V_RECENT] = plan.blocks[k];
    volume->is_homing = 1;
    pthread_mutex_unlock(&volume->lock);
    good = refskold_v_write_plan(volume, &plan, &failed);
    pthread_mutex_lock(&volume->lock);
    volume->is_homing = 0;
    volume->steps += plan.count > 0;
    pthread_cond_broadcast(&volume->homed);
    status = refskold_homes(&volume->mount, &now, volume->plans + room, room);
    if (status >= 0) status = refskold_flush(&volume->mount, serial, now.count, refskold_v_well(volume, &plan, good, &now), failed == 0, &reply);
    if (status == -EIO) status = 0; /* not all of the plan made again stands home yet: what does not is planned once more */
    if (failed != 0 || status < 0) return refskold_v_shut(volume, failed != 0 ? failed : status);
    volume->away -= reply.number < volume->away ? (uint32_t)reply.number : volume->away;
    return (int)plan.count;
}

/* Makes some blocks and log space free: 1, or 0 where nothing was left to be done. */
static int refskold_v_make_room(refskold_volume *volume)
{
    uint64_t steps = volume->steps;
    int status = refskold_v_bring_home(volume);
    if (status == 0) {
        status = refskold_v_force(volume, 0);
        if (status == 0 && volume->steps == steps) volume->away = 0;
    }
    return status < 0 ? status : volume->steps != steps;
}

int refskold_volume_work(refskold_volume *volume)
{
    int status = 0;
    if (volume == NULL) return -EINVAL;
    pthread_mutex_lock(&volume->lock);
    if (volume->fault != 0) status = -EIO;
    else if (volume->away >= REFSKOLD_V_MANY / 2) status = refskold_v_make_room(volume);
    if (status > 0) status = volume->away >= REFSKOLD_V_MANY / 2;
    pthread_mutex_unlock(&volume->lock);
    return status;
}

static void *refskold_v_keep(void *argument)
{
    refskold_volume *volume = argument;
    pthread_mutex_lock(&volume->lock);
    while (!volume->is_stopping) {
        int status = volume->fault != 0 || volume->away < REFSKOLD_V_MANY / 2 ? 0 : refskold_v_make_room(volume);
        if (status <= 0 && !volume->is_stopping) pthread_cond_wait(&volume->wanted, &volume->lock);
    }
    pthread_mutex_unlock(&volume->lock);
    return NULL;
}

/* ---- Reading ---- */

static int refskold_v_in_range(const refskold_volume *volume, uint64_t offset, size_t length)
{
    uint64_t end = volume->blocks * volume->block_size;
    return offset <= end && length <= end - offset;
}

/* Copies what the mount has in memory of the blocks of a range. Bit k of `homes` is set where the k-th is at home alone. With the lock. */
static int refskold_v_from_memory(refskold_volume *volume, uint64_t offset, unsigned char *room, size_t length, uint64_t *homes)
{
    unsigned char content[REFSKOLD_BLOCK];
    uint64_t size = volume->block_size, first = offset / size, block, from, till;
    *homes = 0;
    if (volume->fault != 0) return -EIO;
    for (block = first; block * size < offset + length; block++) {
        int status = refskold_read(&volume->mount, volume->reader, block);
        if (status == REFSKOLD_ASKS || status == -ENOBUFS) { /* neither has changed anything; what home has not yet is in memory */
            *homes |= UINT64_C(1) << (block - first);
            continue;
        }
        if (status == 0) status = refskold_view_sized(&volume->mount, volume->reader, block, content, size);
        if (status == 0) status = refskold_relse(&volume->mount, volume->reader, block, NULL);
        if (status != 0) return status;
        from = block * size > offset ? block * size : offset;
        till = (block + 1) * size < offset + length ? (block + 1) * size : offset + length;
        memcpy(room + (from - offset), content + (from - block * size), till - from);
    }
    return 0;
}

/* Reads the blocks of a range that are at home alone, neighbours by one read. Without the lock. */
static int refskold_v_from_home(refskold_volume *volume, uint64_t offset, unsigned char *room, size_t length, uint64_t homes)
{
    uint64_t size = volume->block_size, first = offset / size, block, next;
    for (block = first; block * size < offset + length; block = next) {
        uint64_t from = block * size > offset ? block * size : offset, till;
        int status;
        next = block + 1;
        if ((homes >> (block - first) & 1) == 0) continue;
        while (next * size < offset + length && (homes >> (next - first) & 1) != 0) next++;
        till = next * size < offset + length ? next * size : offset + length;
        status = volume->home.read(volume->home.context, from, room + (from - offset), till - from);
        if (status < 0) return status;
    }
    return 0;
}

/* Whether a block of a range was sent home since so many were. With the lock. */
static int refskold_v_was_sent(const refskold_volume *volume, uint64_t seen, uint64_t offset, size_t length)
{
    if (volume->sent - seen > REFSKOLD_V_RECENT) return 1;
    for (; seen < volume->sent; seen++) {
        uint64_t at = volume->recent[seen % REFSKOLD_V_RECENT] * volume->block_size;
        if (at < offset + length && at + volume->block_size > offset) return 1;
    }
    return 0;
}

/* Reads a range of at most REFSKOLD_V_PART blocks. Where one of them was sent home meanwhile, the read of home may have met the write half way:
 * then it is done again, and none is sent home as long as that takes. */
static int refskold_v_read(refskold_volume *volume, uint64_t offset, unsigned char *room, size_t length)
{
    int is_alone, is_well = 0, status = 0;
    for (is_alone = 0; !is_well; is_alone = 1) {
        uint64_t homes, seen;
        pthread_mutex_lock(&volume->lock);
        while (is_alone && volume->is_homing) pthread_cond_wait(&volume->homed, &volume->lock);
        volume->is_homing |= is_alone;
        seen = volume->sent;
        status = refskold_v_from_memory(volume, offset, room, length, &homes);
        if (status == 0 && homes != 0) {
            pthread_mutex_unlock(&volume->lock);
            status = refskold_v_from_home(volume, offset, room, length, homes);
            pthread_mutex_lock(&volume->lock);
        }
        is_well = is_alone || status != 0 || homes == 0 || !refskold_v_was_sent(volume, seen, offset, length);
        if (is_alone) {
            volume->is_homing = 0;
            pthread_cond_broadcast(&volume->homed);
        }
        pthread_mutex_unlock(&volume->lock);
    }
    return status;
}

int refskold_volume_read(refskold_volume *volume, uint64_t offset, void *room, size_t length)
{
    unsigned char *to = room;
    int status = 0;
    if (volume == NULL || (room == NULL && length != 0) || !refskold_v_in_range(volume, offset, length)) return -EINVAL;
    while (status == 0 && length > 0) {
        size_t part = REFSKOLD_V_PART * volume->block_size - (size_t)(offset % volume->block_size);
        if (part > length) part = length;
        status = refskold_v_read(volume, offset, to, part);
        offset += part;
        to += part;
        length -= part;
    }
    return status;
}

/* ---- Changes ---- */

int refskold_volume_begin(refskold_volume *volume, refskold_change **change)
{
    uint64_t turn;
    int status = 0;
    if (volume == NULL || change == NULL) return -EINVAL;
    *change = calloc(1, sizeof **change);
    if (*change == NULL) return -ENOMEM;
    (*change)->volume = volume;
    pthread_mutex_lock(&volume->lock);
    if (volume->fault == 0 && volume->is_open && pthread_equal(volume->owner, pthread_self())) status = -EDEADLK;
    if (status == 0) {
        turn = volume->next_turn++;
        while (volume->fault == 0 && turn != volume->turn) pthread_cond_wait(&volume->turns[turn % REFSKOLD_V_TURNS], &volume->lock);
        if (volume->fault != 0) status = -EIO;
    }
    if (status == 0) {
        volume->is_open = 1;
        volume->owner = pthread_self();
    }
    pthread_mutex_unlock(&volume->lock);
    if (status != 0) free(*change);
    return status;
}

/* Gives back the blocks of a change but for the first `kept`. */
static void refskold_v_drop(refskold_change *change, uint32_t kept)
{
    while (change->count > kept) free(change->blocks[--change->count].is);
}

/* Ends a change. With the lock, which it gives back. */
static void refskold_v_end(refskold_change *change)
{
    refskold_volume *volume = change->volume;
    volume->is_open = 0;
    volume->turn++;
    pthread_cond_broadcast(&volume->turns[volume->turn % REFSKOLD_V_TURNS]);
    pthread_mutex_unlock(&volume->lock);
    refskold_v_drop(change, 0);
    free(change);
}

static struct refskold_v_block *refskold_v_find(refskold_change *change, uint64_t block)
{
    uint32_t k;
    for (k = 0; k < change->count; k++)
        if (change->blocks[k].block == block) return &change->blocks[k];
    return NULL;
}

/* The chunks of a block that a range touches. */
static uint32_t refskold_v_chunks(uint64_t at, uint64_t size, uint64_t offset, size_t length)
{
    uint64_t from = offset > at ? offset - at : 0, till = offset + length - at < size ? offset + length - at : size;
    return (uint32_t)((UINT64_C(2) << (till - 1) / REFSKOLD_V_CHUNK) - (UINT64_C(1) << from / REFSKOLD_V_CHUNK));
}

static uint32_t refskold_v_cost(uint32_t chunks)
{
    uint32_t cost = 16;
    for (; chunks != 0; chunks &= chunks - 1) cost += REFSKOLD_V_CHUNK;
    return cost;
}

/* What a change costs in the log. */
static uint32_t refskold_v_unit(const refskold_change *change)
{
    uint32_t unit = 36, k;
    for (k = 0; k < change->count; k++) unit += refskold_v_cost(change->blocks[k].chunks);
    return unit;
}

/* Whether the log takes the change with one range more. */
static int refskold_v_fits(refskold_change *change, uint64_t offset, size_t length)
{
    uint64_t size = change->volume->block_size, block = offset / size;
    uint32_t unit = refskold_v_unit(change), count = change->count;
    if ((offset + length - 1) / size - block >= REFSKOLD_HELD) return 0;
    for (; block * size < offset + length; block++) {
        const struct refskold_v_block *found = refskold_v_find(change, block);
        uint32_t chunks = refskold_v_chunks(block * size, size, offset, length);
        if (found == NULL) count++;
        unit += found == NULL ? refskold_v_cost(chunks) : refskold_v_cost(found->chunks | chunks) - refskold_v_cost(found->chunks);
    }
    return count <= REFSKOLD_HELD && unit <= change->volume->log_bytes;
}

/* Adds a block to a change, with its content where that is asked for. */
static int refskold_v_add(refskold_change *change, uint64_t block, int is_read)
{
    size_t size = change->volume->block_size;
    struct refskold_v_block *added = &change->blocks[change->count];
    int status;
    added->block = block;
    added->chunks = 0;
    added->is = malloc(2 * size);
    if (added->is == NULL) return -ENOMEM;
    change->count++;
    status = is_read ? refskold_volume_read(change->volume, block * size, added->is + size, size) : 0;
    if (is_read && status == 0) memcpy(added->is, added->is + size, size);
    return status;
}

int refskold_change_write(refskold_change *change, uint64_t offset, const void *data, size_t length)
{
    uint64_t size, block, at, from, till;
    uint32_t had;
    int status = 0;
    if (change == NULL || (data == NULL && length != 0) || !refskold_v_in_range(change->volume, offset, length)) return -EINVAL;
    if (length == 0) return 0;
    if (!refskold_v_fits(change, offset, length)) return -E2BIG;
    size = change->volume->block_size;
    had = change->count;
    for (block = offset / size; status == 0 && block * size < offset + length; block++)
        if (refskold_v_find(change, block) == NULL)
            status = refskold_v_add(change, block, block * size < offset || (block + 1) * size > offset + length);
    if (status != 0) {
        refskold_v_drop(change, had);
        return status;
    }
    for (block = offset / size; block * size < offset + length; block++) {
        struct refskold_v_block *found = refskold_v_find(change, block);
        at = block * size;
        from = at > offset ? at : offset;
        till = at + size < offset + length ? at + size : offset + length;
        memcpy(found->is + (from - at), (const unsigned char *)data + (from - offset), till - from);
        found->chunks |= refskold_v_chunks(at, size, offset, length);
    }
    return 0;
}

int refskold_change_read(refskold_change *change, uint64_t offset, void *room, size_t length)
{
    uint64_t size, at, from, till;
    uint32_t k;
    int status = change == NULL ? -EINVAL : refskold_volume_read(change->volume, offset, room, length);
    if (status != 0) return status;
    size = change->volume->block_size;
    for (k = 0; k < change->count; k++) {
        at = change->blocks[k].block * size;
        if (at >= offset + length || at + size <= offset) continue;
        from = at > offset ? at : offset;
        till = at + size < offset + length ? at + size : offset + length;
        memcpy((unsigned char *)room + (from - offset), change->blocks[k].is + (from - at), till - from);
    }
    return 0;
}

/* Locks a block for a transaction, with its content where it is not written whole. */
static int refskold_v_lock(refskold_volume *volume, uint64_t trans, const struct refskold_v_block *block)
{
    size_t size = volume->block_size;
    int status;
    if (block->chunks == refskold_v_chunks(0, size, 0, size)) return refskold_get(&volume->mount, trans, block->block);
    status = refskold_read(&volume->mount, trans, block->block);
    if (status != REFSKOLD_ASKS) return status;
    return refskold_read_content_sized(&volume->mount, trans, block->block, block->is + size, size);
}

/* Logs the chunks of a block that were written, neighbours by one call. */
static int refskold_v_log(refskold_volume *volume, uint64_t trans, const struct refskold_v_block *block)
{
    uint32_t count = volume->block_size / REFSKOLD_V_CHUNK, k, end;
    int status = 0;
    for (k = 0; status == 0 && k < count; k = end) {
        end = k + 1;
        if ((block->chunks >> k & 1) == 0) continue;
        while (end < count && (block->chunks >> end & 1) != 0) end++;
        status = refskold_log(&volume->mount, trans, block->block, k * REFSKOLD_V_CHUNK, block->is + (size_t)k * REFSKOLD_V_CHUNK,
                              (size_t)(end - k) * REFSKOLD_V_CHUNK);
    }
    return status;
}

/* Makes one transaction of a change. -EAGAIN, -ENOBUFS: nothing has happened, and there is no room. With the lock. */
static int refskold_v_apply(refskold_change *change, uint64_t *number)
{
    refskold_volume *volume = change->volume;
    refskold_reply reply;
    uint64_t trans;
    uint32_t k;
    int status = refskold_alloc(&volume->mount, refskold_v_unit(change), 1, 0, &trans);
    if (status != 0) return status;
    for (k = 0; status == 0 && k < change->count; k++) status = refskold_v_lock(volume, trans, &change->blocks[k]);
    if (status != 0) {
        refskold_cancel(&volume->mount, trans, NULL);
        return status;
    }
    for (k = 0; status == 0 && k < change->count; k++) status = refskold_v_log(volume, trans, &change->blocks[k]);
    if (status == 0) {
        status = refskold_commit(&volume->mount, trans, &reply);
        *number = reply.number;
    } else {
        refskold_cancel(&volume->mount, trans, NULL); /* which shuts the mount: it was changed */
    }
    return status == 0 ? 0 : refskold_v_shut(volume, status);
}

int refskold_volume_commit(refskold_change *change, uint64_t *number)
{
    refskold_volume *volume;
    uint64_t told = 0;
    int status = 0, room;
    if (change == NULL) return -EINVAL;
    volume = change->volume;
    pthread_mutex_lock(&volume->lock);
    while (change->count > 0) {
        status = volume->fault != 0 ? -EIO : refskold_v_apply(change, &told);
        if (status != -EAGAIN && status != -ENOBUFS) break;
        room = refskold_v_make_room(volume);
        if (room > 0) continue;
        status = room == 0 ? -ENOSPC : room;
        break;
    }
    if (status == 0) volume->away += change->count;
    if (volume->away >= REFSKOLD_V_MANY) pthread_cond_signal(&volume->wanted);
    if (status == 0 && number != NULL) *number = told;
    refskold_v_end(change);
    return status;
}

int refskold_volume_cancel(refskold_change *change)
{
    if (change == NULL) return -EINVAL;
    pthread_mutex_lock(&change->volume->lock);
    refskold_v_end(change);
    return 0;
}

int refskold_volume_force(refskold_volume *volume, uint64_t number)
{
    int status;
    if (volume == NULL) return -EINVAL;
    pthread_mutex_lock(&volume->lock);
    status = volume->fault != 0 ? -EIO : refskold_v_force(volume, number);
    pthread_mutex_unlock(&volume->lock);
    return status;
}

uint64_t refskold_volume_length(refskold_volume *volume)
{
    return volume == NULL ? 0 : volume->blocks * volume->block_size;
}

int refskold_volume_fault(refskold_volume *volume)
{
    int fault;
    if (volume == NULL) return -EINVAL;
    pthread_mutex_lock(&volume->lock);
    fault = volume->fault;
    pthread_mutex_unlock(&volume->lock);
    return fault;
}

/* ---- The life of a volume ---- */

/* What a device has, in memory from malloc. */
static int refskold_v_load(const refskold_device *device, unsigned char **bytes, size_t *length)
{
    int64_t has = device->length(device->context);
    int status;
    *length = has > 0 ? (size_t)has : 0;
    if (has <= 0) return (int)has;
    *bytes = malloc(*length);
    if (*bytes == NULL) return -ENOMEM;
    status = device->read(device->context, 0, *bytes, *length);
    return status < 0 ? status : 0;
}

/* Lays what was gathered of the log over home, which is safe then. */
static int refskold_v_lay(refskold_volume *volume, refskold_recovery *recovery, uint64_t blocks)
{
    unsigned char content[REFSKOLD_BLOCK];
    const refskold_device *home = &volume->home;
    uint64_t k, block, size = volume->block_size;
    int status = 0;
    for (k = 0; status >= 0 && k < blocks; k++) {
        status = refskold_recovery_block(recovery, k, &block);
        if (status >= 0) status = home->read(home->context, block * size, content, size);
        if (status >= 0) status = refskold_recovery_lay_sized(recovery, block, content, size);
        if (status >= 0) status = home->write(home->context, block * size, content, size);
    }
    if (status >= 0) status = home->sync(home->context);
    return status < 0 ? status : 0;
}

/* Empties the log, the older file first: behind a crash between the two the newer texts are there, and may be laid again. */
static int refskold_v_empty(refskold_volume *volume, uint32_t older)
{
    uint32_t k;
    int status = 0;
    for (k = 0; status >= 0 && k < 2; k++) {
        const refskold_device *file = &volume->log[older ^ k];
        status = file->empty(file->context);
        if (status >= 0) status = file->sync(file->context);
    }
    return status < 0 ? status : 0;
}

/* Reads both files of the log, and gathers what they say where it is this volume's. A file that has a header alone has no text, and counts as one that has nothing: a
 * loss of power in a turn may have left there, of the file that was emptied, its header of before. */
static int refskold_v_gather_log(refskold_volume *volume, uint32_t flags, refskold_recovery *recovery, refskold_log_told *told)
{
    unsigned char *bytes[2] = { NULL, NULL };
    size_t length[2] = { 0, 0 };
    refskold_log_fields fields;
    int k, status = 0;
    for (k = 0; status == 0 && k < 2; k++) {
        status = refskold_v_load(&volume->log[k], &bytes[k], &length[k]);
        if (status != 0 || length[k] < REFSKOLD_LOG_HEADER || refskold_log_read(bytes[k], &fields) != 0) continue;
        if (length[k] == REFSKOLD_LOG_HEADER) length[k] = 0;
        else if ((flags & REFSKOLD_VOLUME_ANY_LOG) == 0 && memcmp(fields.name, volume->name, sizeof fields.name) != 0) status = -EXDEV;
    }
    if (status == 0) status = refskold_recovery_open_files(recovery, bytes[0], length[0], bytes[1], length[1], told);
    free(bytes[0]);
    free(bytes[1]);
    if (status == 0 && told->texts != 0 && (told->size != 0 ? told->size : REFSKOLD_BLOCK) != volume->block_size) status = -EILSEQ;
    return status;
}

static int refskold_v_recover(refskold_volume *volume, uint32_t flags, refskold_log_told *told)
{
    refskold_recovery recovery = REFSKOLD_NONE;
    int status = refskold_v_gather_log(volume, flags, &recovery, told);
    if (status == 0) status = refskold_v_lay(volume, &recovery, told->blocks);
    refskold_recovery_close(&recovery);
    return status == 0 ? refskold_v_empty(volume, (uint32_t)told->older) : status;
}

/* Begins a life: a new salt, a header, a mount. Both files of the log have nothing. */
static int refskold_v_begin_life(refskold_volume *volume)
{
    int random = open("/dev/urandom", O_RDONLY | O_CLOEXEC), status;
    if (random < 0) return refskold_v_errno();
    status = read(random, &volume->salt, sizeof volume->salt) == (ssize_t)sizeof volume->salt ? 0 : -EIO;
    close(random);
    volume->generation = 1;
    volume->at = REFSKOLD_LOG_HEADER;
    if (status == 0) status = refskold_log_header(volume->head, volume->block_size, volume->log_bytes, 1, volume->salt, NULL, volume->name);
    if (status == 0) status = refskold_v_begin_file(&volume->log[0], volume->head);
    if (status == 0) status = refskold_open_sized(&volume->mount, 0, volume->log_bytes, volume->blocks, volume->block_size);
    if (status == 0) status = refskold_alloc(&volume->mount, 1, 1, 0, &volume->reader);
    return status;
}

/* Starts the thread, which takes no signals: they are the program's. */
static int refskold_v_start(refskold_volume *volume)
{
    sigset_t all, before;
    int status;
    sigfillset(&all);
    pthread_sigmask(SIG_SETMASK, &all, &before);
    status = pthread_create(&volume->worker, NULL, refskold_v_keep, volume);
    pthread_sigmask(SIG_SETMASK, &before, NULL);
    volume->has_worker = status == 0;
    return -status;
}

static uint64_t refskold_v_turned(uint64_t word, int by)
{
    return word << by | word >> (64 - by);
}

/* A round of SipHash. */
static void refskold_v_round(uint64_t v[4])
{
    v[0] += v[1];
    v[2] += v[3];
    v[1] = refskold_v_turned(v[1], 13) ^ v[0];
    v[3] = refskold_v_turned(v[3], 16) ^ v[2];
    v[0] = refskold_v_turned(v[0], 32);
    v[2] += v[1];
    v[0] += v[3];
    v[1] = refskold_v_turned(v[1], 17) ^ v[2];
    v[3] = refskold_v_turned(v[3], 21) ^ v[0];
    v[2] = refskold_v_turned(v[2], 32);
}

/* SipHash-1-3 with keys of zeros, the high byte first. */
static void refskold_v_sum(unsigned char sum[8], const unsigned char *bytes, size_t length)
{
    uint64_t v[4] = { UINT64_C(0x736f6d6570736575), UINT64_C(0x646f72616e646f6d), UINT64_C(0x6c7967656e657261), UINT64_C(0x7465646279746573) };
    size_t words = length / 8, k;
    for (k = 0; k < words + 4; k++) {
        uint64_t word = 0;
        size_t at;
        for (at = 0; k <= words && at < 8 && 8 * k + at < length; at++) word |= (uint64_t)bytes[8 * k + at] << 8 * at;
        if (k == words) word |= (uint64_t)length << 56;
        if (k == words + 1) v[2] ^= 0xff;
        v[3] ^= word;
        refskold_v_round(v);
        v[0] ^= word;
    }
    for (k = 0; k < 8; k++) sum[k] = (unsigned char)((v[0] ^ v[1] ^ v[2] ^ v[3]) >> (56 - 8 * k));
}

/* The name of a volume in the headers of its log: as it is, or where it is longer, its first 8 bytes and a sum of all. */
static void refskold_v_name(unsigned char name[16], const char *text)
{
    size_t length = strlen(text);
    memset(name, 0, 16);
    memcpy(name, text, length <= 16 ? length : 8);
    if (length > 16) refskold_v_sum(name + 8, (const unsigned char *)text, length);
}

static void refskold_v_free(refskold_volume *volume)
{
    refskold_device *devices[3];
    int k;
    devices[0] = &volume->home;
    devices[1] = &volume->log[0];
    devices[2] = &volume->log[1];
    for (k = 0; k < 3; k++)
        if (devices[k]->close != NULL) devices[k]->close(devices[k]->context);
    refskold_close(&volume->mount);
    pthread_mutex_destroy(&volume->lock);
    pthread_cond_destroy(&volume->landed);
    pthread_cond_destroy(&volume->homed);
    pthread_cond_destroy(&volume->wanted);
    for (k = 0; k < REFSKOLD_V_TURNS; k++) pthread_cond_destroy(&volume->turns[k]);
    free(volume->text);
    free(volume->plans);
    free(volume);
}

/* A volume of these sizes, with no device and no mount yet; NULL where there is no memory. */
static refskold_volume *refskold_v_new(const refskold_volume_options *options, const char *name)
{
    refskold_volume *volume = calloc(1, sizeof *volume);
    int k;
    if (volume == NULL) return NULL;
    volume->block_size = options != NULL && options->block_size != 0 ? options->block_size : REFSKOLD_BLOCK;
    volume->log_bytes = options != NULL && options->log_bytes != 0 ? options->log_bytes : 4194304;
    pthread_mutex_init(&volume->lock, NULL);
    pthread_cond_init(&volume->landed, NULL);
    pthread_cond_init(&volume->homed, NULL);
    pthread_cond_init(&volume->wanted, NULL);
    for (k = 0; k < REFSKOLD_V_TURNS; k++) pthread_cond_init(&volume->turns[k], NULL);
    if (name != NULL) refskold_v_name(volume->name, name);
    volume->text = malloc(REFSKOLD_PIECES * REFSKOLD_BLOCK + REFSKOLD_SEAL);
    volume->plans = malloc((size_t)2 * REFSKOLD_PLAN * REFSKOLD_BLOCK);
    if (volume->text != NULL && volume->plans != NULL) return volume;
    refskold_v_free(volume);
    return NULL;
}

/* Opens a volume whose devices are there. */
static int refskold_v_open(refskold_volume *volume, const refskold_volume_options *options, refskold_log_told *told)
{
    uint32_t size = volume->block_size, flags = options == NULL ? 0 : options->flags;
    int64_t length = volume->home.length(volume->home.context);
    refskold_log_told unused;
    int status;
    if (length < 0) return (int)length;
    if (size < 512 || size > REFSKOLD_BLOCK || (size & (size - 1)) != 0) return -EINVAL;
    if (volume->log_bytes < REFSKOLD_LEAST_LOG || volume->log_bytes > REFSKOLD_MOST_LOG) return -EINVAL;
    volume->blocks = options != NULL && options->blocks != 0 ? options->blocks : (uint64_t)length / size;
    if (volume->blocks == 0 || volume->blocks > REFSKOLD_MOST_BLOCKS || volume->blocks > (uint64_t)length / size) return -EINVAL;
    status = refskold_v_recover(volume, flags, told == NULL ? &unused : told);
    if (status == 0) status = refskold_v_begin_life(volume);
    if (status == 0 && (flags & REFSKOLD_VOLUME_NO_THREAD) == 0) status = refskold_v_start(volume);
    return status;
}

int refskold_volume_open_on(refskold_volume **volume, const refskold_device *home, const refskold_device log[2], const char *name,
                            const refskold_volume_options *options, refskold_log_told *told)
{
    int status = -EINVAL;
    if (volume == NULL || home == NULL || log == NULL) return -EINVAL;
    *volume = refskold_v_new(options, name);
    if (*volume != NULL) {
        (*volume)->home = *home;
        (*volume)->log[0] = log[0];
        (*volume)->log[1] = log[1];
        status = refskold_v_open(*volume, options, told);
        if (status != 0) refskold_v_free(*volume);
    } else {
        status = -ENOMEM;
        if (home->close != NULL) home->close(home->context);
        if (log[0].close != NULL) log[0].close(log[0].context);
        if (log[1].close != NULL) log[1].close(log[1].context);
    }
    if (status != 0) *volume = NULL;
    return status;
}

/* Makes a home file as long as it is to be. */
static int refskold_v_grow(const refskold_device *home, const refskold_volume_options *options)
{
    uint64_t size = options != NULL && options->block_size != 0 ? options->block_size : REFSKOLD_BLOCK;
    int64_t length = refskold_v_file_length(home->context);
    if (length < 0) return (int)length;
    if (options == NULL || options->blocks > REFSKOLD_MOST_BLOCKS || (uint64_t)length >= options->blocks * size) return 0;
    return ftruncate(refskold_v_fd(home->context), (off_t)(options->blocks * size)) == 0 ? 0 : refskold_v_errno();
}

/* Whether one file of a log is not there, though the other begins with a header: somebody has taken it away, since both names are safe before
 * the first header. */
static int refskold_v_lacks_one(const char *one, const char *other)
{
    unsigned char header[REFSKOLD_LOG_HEADER];
    refskold_log_fields fields;
    int fd, lacks;
    if (access(one, F_OK) == 0 || errno != ENOENT || (fd = open(other, O_RDONLY | O_CLOEXEC)) < 0) return 0;
    lacks = refskold_v_file_read((void *)(intptr_t)fd, 0, header, sizeof header) == 0 && refskold_log_read(header, &fields) == 0;
    close(fd);
    return lacks;
}

int refskold_device_log(refskold_device log[2], const char *path, uint32_t flags)
{
    refskold_device first, second;
    char *other;
    int status = 0;
    if (log == NULL || path == NULL) return -EINVAL;
    other = malloc(strlen(path) + 3);
    if (other == NULL) return -ENOMEM;
    strcat(strcpy(other, path), ".1");
    if ((flags & REFSKOLD_VOLUME_ANY_LOG) == 0 && (refskold_v_lacks_one(path, other) || refskold_v_lacks_one(other, path))) status = -ENOENT;
    if (status == 0) status = refskold_device_file(&first, path);
    if (status == 0 && (status = refskold_device_file(&second, other)) != 0) first.close(first.context);
    free(other);
    if (status != 0) return status;
    log[0] = first;
    log[1] = second;
    return 0;
}

/* Whether the home file is not there, and the log has something: what it says is less than the volume had. */
static int refskold_v_lacks_home(const char *home, const refskold_device log[2])
{
    return access(home, F_OK) != 0 && errno == ENOENT && log[0].length(log[0].context) + log[1].length(log[1].context) > 0;
}

int refskold_volume_open(refskold_volume **volume, const char *home, const char *log, const refskold_volume_options *options,
                         refskold_log_told *told)
{
    refskold_device device, files[2];
    uint32_t flags = options == NULL ? 0 : options->flags;
    const char *slash;
    int status;
    if (volume == NULL || home == NULL || log == NULL) return -EINVAL;
    *volume = NULL;
    status = refskold_device_log(files, log, flags);
    if (status != 0) return status;
    status = (flags & REFSKOLD_VOLUME_ANY_LOG) == 0 && refskold_v_lacks_home(home, files) ? -ENOENT : refskold_device_file(&device, home);
    if (status != 0) {
        files[0].close(files[0].context);
        files[1].close(files[1].context);
        return status;
    }
    status = refskold_v_grow(&device, options);
    slash = strrchr(home, '/');
    if (status == 0) return refskold_volume_open_on(volume, &device, files, slash == NULL ? home : slash + 1, options, told);
    device.close(device.context);
    files[0].close(files[0].context);
    files[1].close(files[1].context);
    return status;
}

/* Brings all of it home for good, ends the mount, and empties the log. With the lock. */
static int refskold_v_finish(refskold_volume *volume)
{
    int status = volume->fault != 0 ? -EIO : refskold_v_force(volume, 0);
    while (status == 0 && (status = refskold_v_bring_home(volume)) > 0) status = 0;
    if (status == 0) status = refskold_v_checkpoint(volume); /* one that was asked, and has nothing to write any more */
    if (status == 0) status = refskold_cancel(&volume->mount, volume->reader, NULL);
    if (status == 0) status = refskold_unmount(&volume->mount);
    if (status == 0) status = volume->home.sync(volume->home.context);
    if (status >= 0) status = refskold_v_empty(volume, volume->newer ^ 1u);
    return status < 0 ? -EIO : 0;
}

int refskold_volume_close(refskold_volume *volume)
{
    int status;
    if (volume == NULL) return -EINVAL;
    pthread_mutex_lock(&volume->lock);
    status = volume->is_open ? -EBUSY : 0;
    volume->is_stopping = status == 0;
    pthread_cond_signal(&volume->wanted);
    pthread_mutex_unlock(&volume->lock);
    if (status != 0) return status;
    if (volume->has_worker) pthread_join(volume->worker, NULL);
    pthread_mutex_lock(&volume->lock);
    status = refskold_v_finish(volume);
    pthread_mutex_unlock(&volume->lock);
    refskold_v_free(volume);
    return status;
}

#endif

#endif
