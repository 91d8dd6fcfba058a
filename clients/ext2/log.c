#define _GNU_SOURCE
#include "log.h"
#include "device.h"
#include <errno.h>
#include <fcntl.h>
#include <libgen.h>
#include <stdio.h>
#include <stdlib.h>
#include <string.h>
#include <sys/file.h>
#include <sys/random.h>
#include <sys/stat.h>
#include <unistd.h>

enum {
    LONGEST = REFSKOLD_PIECES * REFSKOLD_BLOCK + REFSKOLD_SEAL,
    AHEAD = 128 << 10, /* bytes behind what is synced that may stand there ahead of a text: fewer than recovery takes for a torn end */
    ZEROS = 64 << 10
};

struct log log_beside(int home)
{
    return (struct log){ .home = home, .files = { -1, -1 } };
}

static bool is_synced(struct log *log, int device)
{
    log->syncs++;
    return fdatasync(device) == 0;
}

/* ---- Opened and closed ---- */

/* Makes the names of files in a folder safe: a file that was made just now could be gone after a loss of power, with all that it has. */
static int sync_folder(const char *file)
{
    char *name = strdup(file);
    int folder = name == NULL ? -1 : open(dirname(name), O_RDONLY | O_DIRECTORY | O_CLOEXEC);
    int status = folder < 0 || (fsync(folder) != 0 && errno != EINVAL) ? -errno : 0; // a file system that syncs no folders is trusted
    if (folder >= 0) close(folder);
    free(name);
    return status;
}

static int open_file(struct log *log, int which, const char *name, int *made)
{
    struct stat file;
    *made += access(name, F_OK) != 0;
    log->files[which] = open(name, O_RDWR | O_CREAT | O_CLOEXEC, 0600);
    if (log->files[which] < 0) return -errno;
    if (flock(log->files[which], LOCK_EX | LOCK_NB) != 0) return errno == EWOULDBLOCK ? -EBUSY : -errno;
    if (fstat(log->files[which], &file) != 0) return -errno;
    log->lengths[which] = (uint64_t)file.st_size;
    return S_ISREG(file.st_mode) ? 0 : -EINVAL;
}

int log_open(struct log *log, const char *path)
{
    char *other = NULL;
    int made = 0;
    log->text = malloc(LONGEST);
    if (log->text == NULL || asprintf(&other, "%s.1", path) < 0) return -ENOMEM;
    int status = open_file(log, 0, path, &made);
    if (status == 0) status = open_file(log, 1, other, &made);
    // who made files that have nothing may have been killed before their names were safe
    if (status == 0 && (made > 0 || log_is_empty(log))) status = sync_folder(path);
    log->is_safely_empty = made == 2 && log_is_empty(log);
    free(other);
    return status;
}

void log_close(struct log *log)
{
    for (int k = 0; k < 2; k++)
        if (log->files[k] >= 0) close(log->files[k]);
    free(log->text);
    *log = log_beside(log->home);
}

/* ---- Read ---- */

/* How many bytes of a file are to be read. One that has no more than a header has no text, so nothing of it is: what stands there may be the
 * header before this one, where power was lost in a turn. */
static size_t told_length(const struct log *log, int which)
{
    return log->lengths[which] > REFSKOLD_LOG_HEADER ? log->lengths[which] : 0;
}

/* These bytes in memory, to be freed. */
static int load(const struct log *log, int which, uint8_t **content)
{
    size_t length = told_length(log, which);
    if ((*content = malloc(length + 1)) == NULL) return -ENOMEM;
    for (size_t got = 0; got < length;) {
        ssize_t more = pread(log->files[which], *content + got, length - got, (off_t)got);
        if (more <= 0) return more < 0 ? -errno : -EIO;
        got += (size_t)more;
    }
    return 0;
}

int log_read(struct log *log, refskold_recovery *recovery, refskold_log_told *told, refskold_log_fields *fields)
{
    uint8_t *contents[2] = { NULL, NULL };
    int status = load(log, 0, &contents[0]);
    if (status == 0) status = load(log, 1, &contents[1]);
    if (status == 0) status = refskold_recovery_open_files(recovery, contents[0], told_length(log, 0), contents[1], told_length(log, 1), told);
    if (status == 0) {
        log->newer = told->older == 0;
        bool has_header = told_length(log, log->newer) > 0 && refskold_log_read(contents[log->newer], fields) == 0;
        if (!has_header) memset(fields, 0, sizeof *fields);
    }
    free(contents[0]);
    free(contents[1]);
    return status;
}

bool log_is_empty(const struct log *log)
{
    return log->lengths[0] == 0 && log->lengths[1] == 0;
}

/* ---- Written ---- */

/* Begins a file, which is empty: behind this seal of the other file, or with none a life. A text comes only behind a header that is
 * safe: a file with more in it than a header, and none that is whole, is none that a crash leaves. */
static int write_header(struct log *log, int which, const uint8_t *link)
{
    uint8_t behind[REFSKOLD_SEAL] = { 0 };
    if (link != NULL) memcpy(behind, link, sizeof behind);
    int status = refskold_log_header(log->head, log->block_size, log->size, log->generation + 1, log->salt, behind, log->name);
    if (status != 0) return status;
    if (!is_written(log->files[which], log->head, sizeof log->head, 0) || !is_synced(log, log->files[which])) return -EIO;
    log->generation++;
    log->newer = which;
    log->lengths[which] = log->end = sizeof log->head;
    log->text_bytes = 0;
    return 0;
}

/* Begins a life. That the files are empty may not be safe yet, where they were emptied by a process that was killed then. */
static int begin_life(struct log *log)
{
    if (getrandom(&log->salt, sizeof log->salt, 0) != sizeof log->salt) return -EIO;
    if (!log->is_safely_empty) {
        log->syncs += 2;
        if (fsync(log->files[1]) != 0 || fsync(log->files[0]) != 0) return -EIO;
    }
    log->is_safely_empty = false;
    return write_header(log, 0, NULL);
}

static int empty_file(struct log *log, int which)
{
    if (log->lengths[which] == 0 && log->generation > 0) return 0; // that is safe since its life began
    log->syncs++;
    if (ftruncate(log->files[which], 0) != 0 || fsync(log->files[which]) != 0) return -EIO;
    log->lengths[which] = 0;
    return 0;
}

/* Goes on in the other file, whose texts are spent: the mount has written home what they say, and that is made safe. */
static int turn(struct log *log)
{
    int older = !log->newer;
    if (!is_synced(log, log->home)) return -EIO;
    int status = empty_file(log, older);
    if (status != 0) return status;
    log->turns++;
    return write_header(log, older, log->head + REFSKOLD_LOG_HEAD);
}

static bool are_zeros_written(int to, uint64_t from, uint64_t end)
{
    static const uint8_t zeros[ZEROS];
    for (uint64_t part; from < end; from += part) {
        part = end - from < ZEROS ? end - from : ZEROS;
        if (!is_written(to, zeros, part, from)) return false;
    }
    return true;
}

/* Writes a text that stands in the room, and its seal. Where the file has no room for it zeros are written behind it as well: so the next
 * syncs change no length, and cost less. */
static int put(struct log *log, size_t length)
{
    int file = log->files[log->newer];
    uint64_t *has = &log->lengths[log->newer], end = log->end + length;
    if (end > *has) {
        uint64_t most = log->is_whole ? UINT64_MAX : REFSKOLD_LOG_HEADER + (uint64_t)log->size;
        uint64_t ahead = log->end + AHEAD < most ? log->end + AHEAD : most;
        *has = end > ahead ? end : ahead;
        if (!are_zeros_written(file, end, *has)) return -EIO;
    }
    if (!is_written(file, log->text, length, log->end) || !is_synced(log, file)) return -EIO;
    log->end = end;
    log->text_bytes += length - REFSKOLD_SEAL;
    return 0;
}

int log_write(struct log *log, refskold *mount, uint32_t pieces)
{
    size_t length = 0;
    int status = 0;
    for (uint32_t k = 0; k < pieces; k++) {
        int piece = refskold_piece(mount, k, log->text + length, REFSKOLD_BLOCK);
        if (piece < 0) return piece;
        length += (size_t)piece;
    }
    // texts of more than the mount's log has stand behind the older file then, so none of its texts is wanted any more
    bool is_due = !log->is_whole && log->text_bytes + length > log->size;
    if (log->generation == 0) status = begin_life(log);
    else if (is_due) status = turn(log);
    if (status == 0) status = refskold_seal(mount, log->head);
    if (status != 0) return status;
    memcpy(log->text + length, log->head + REFSKOLD_LOG_HEAD, REFSKOLD_SEAL);
    return put(log, length + REFSKOLD_SEAL);
}

int log_empty(struct log *log)
{
    if (!is_synced(log, log->home)) return -EIO;
    int status = empty_file(log, !log->newer);
    if (status == 0) status = empty_file(log, log->newer);
    if (status != 0) return status;
    log->generation = 0;
    log->is_safely_empty = true;
    return 0;
}
