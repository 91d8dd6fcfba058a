/* Records what the program that it is loaded into does to the files of one folder, and what it says to and hears from streams: each write with its bytes,
   each cut, each sync from its begin to its end, each name that is made, changed or taken away. It is compiled and loaded by tools/power-cuts.

   RECORD_TO names the file of the record, which is appended to, RECORD_OF the folder by its real path. RECORD_PAUSE is a number of microseconds: each sync
   waits for a part of it that is at random, so that others come between its begin and its end, as over a disk that is slow.

   An entry is a head (struct head, in the order of the machine's bytes), a name and data. A call stands in the record once it has returned, before the program
   knows of it; but what is said to a stream stands there before it is said, since from then on somebody may count on it, and a sync stands there twice. A call that
   changes a file in a way that is not recorded has an entry too: who reads the record has to refuse it. */
#define _GNU_SOURCE
#include <arpa/inet.h>
#include <dlfcn.h>
#include <errno.h>
#include <fcntl.h>
#include <pthread.h>
#include <stdarg.h>
#include <stdint.h>
#include <stdio.h>
#include <stdlib.h>
#include <string.h>
#include <sys/mman.h>
#include <sys/socket.h>
#include <sys/stat.h>
#include <sys/syscall.h>
#include <sys/uio.h>
#include <time.h>
#include <unistd.h>

enum kind {
    MADE = 'm',       /* a file was made: its name */
    WRITTEN = 'w',    /* bytes at an offset */
    CUT = 't',        /* a file has so many bytes now: the offset */
    SYNC_BEGINS = 'b',
    SYNC_ENDS = 'e',  /* with offset 0 where it went well, else 1 */
    RENAMED = 'r',    /* a name, and as data the one it has now */
    REMOVED = 'u',    /* a name is taken away */
    SAID = 's',       /* bytes for a stream: the offset is the port at its other end */
    HEARD = 'h',      /* bytes from a stream, the same */
    UNKNOWN = 'x'     /* a call that is not recorded: its name */
};

struct head {
    uint32_t kind, thread, name, data;
    uint64_t device, inode, offset;
};

static pthread_mutex_t order = PTHREAD_MUTEX_INITIALIZER;
static int record = -1;
static const char *folder;
static size_t folder_length;
static long most_pause;

static void begin(void);
static pthread_once_t once = PTHREAD_ONCE_INIT;

static int (*real_open)(const char *, int, ...);
static ssize_t (*real_write)(int, const void *, size_t);
static ssize_t (*real_pwrite)(int, const void *, size_t, off_t);
static ssize_t (*real_read)(int, void *, size_t);
static ssize_t (*real_recv)(int, void *, size_t, int);
static ssize_t (*real_send)(int, const void *, size_t, int);
static int (*real_ftruncate)(int, off_t);
static int (*real_fsync)(int);
static int (*real_fdatasync)(int);
static int (*real_unlink)(const char *);
static int (*real_rename)(const char *, const char *);
static void *(*real_mmap)(void *, size_t, int, int, int, off_t);
static long (*real_syscall)(long, ...);

/* the next definition of a function of the C library */
static void find(const char *name, void *into)
{
    void *found = dlsym(RTLD_NEXT, name);
    if (found == NULL) abort();
    memcpy(into, &found, sizeof found);
}

static void begin(void)
{
    find("open", &real_open);
    find("write", &real_write);
    find("pwrite", &real_pwrite);
    find("read", &real_read);
    find("recv", &real_recv);
    find("send", &real_send);
    find("ftruncate", &real_ftruncate);
    find("fsync", &real_fsync);
    find("fdatasync", &real_fdatasync);
    find("unlink", &real_unlink);
    find("rename", &real_rename);
    find("mmap", &real_mmap);
    find("syscall", &real_syscall);
    const char *to = getenv("RECORD_TO"), *pause = getenv("RECORD_PAUSE");
    folder = getenv("RECORD_OF");
    most_pause = pause == NULL ? 0 : atol(pause);
    if (to == NULL || folder == NULL) return;
    folder_length = strlen(folder);
    int opened = real_open(to, O_WRONLY | O_CREAT | O_APPEND | O_CLOEXEC, 0600);
    if (opened < 0) abort();
    record = fcntl(opened, F_DUPFD_CLOEXEC, 700); /* out of the way of a program that counts its descriptors, or closes those that it does not know */
    if (record < 0) abort();
    close(opened);
}

static void start(void)
{
    pthread_once(&once, begin);
}

__attribute__((constructor)) static void constructed(void)
{
    start();
}

/* Appends an entry. Where that fails the record is of no use: the program ends. */
static void note(enum kind kind, const struct stat *file, uint64_t offset, const char *name, const void *data, size_t length)
{
    struct head head = { kind, (uint32_t)real_syscall(SYS_gettid), (uint32_t)strlen(name), (uint32_t)length, 0, 0, offset };
    if (file != NULL) head.device = file->st_dev, head.inode = file->st_ino;
    struct iovec parts[3] = { { &head, sizeof head }, { (void *)name, head.name }, { (void *)data, length } };
    pthread_mutex_lock(&order);
    if (real_syscall(SYS_writev, record, parts, 3) != (long)(sizeof head + head.name + length)) abort();
    pthread_mutex_unlock(&order);
}

/* whether a path lies in the folder, or is it */
static int is_inside(const char *path)
{
    return strncmp(path, folder, folder_length) == 0 && (path[folder_length] == '/' || path[folder_length] == '\0');
}

/* Whether a descriptor has a file of the folder, or a folder in it: then its path and what it is. */
static int has_file(int fd, char path[4096], struct stat *file)
{
    char link[64];
    if (record < 0 || fstat(fd, file) != 0 || !(S_ISREG(file->st_mode) || S_ISDIR(file->st_mode))) return 0;
    snprintf(link, sizeof link, "/proc/self/fd/%d", fd);
    ssize_t length = readlink(link, path, 4095);
    if (length < 0) return 0;
    path[length] = '\0';
    return is_inside(path);
}

/* the port at the other end of a stream; 0 where a descriptor has none */
static uint64_t port_of(int fd)
{
    struct sockaddr_in other;
    socklen_t length = sizeof other;
    if (record < 0 || getpeername(fd, (struct sockaddr *)&other, &length) != 0 || other.sin_family != AF_INET) return 0;
    return ntohs(other.sin_port);
}

/* Notes a call that is not recorded, of a file of the folder. */
static void note_unknown(const char *call, int fd)
{
    char path[4096];
    struct stat file;
    int before = errno;
    if (has_file(fd, path, &file)) note(UNKNOWN, &file, 0, call, NULL, 0);
    errno = before;
}

/* a path in a folder that is open, or by itself */
static void name_at(int at, const char *path, char full[8192])
{
    char link[64], here[4096] = ".";
    full[0] = '\0';
    if (path[0] != '/') {
        snprintf(link, sizeof link, at == AT_FDCWD ? "/proc/self/cwd" : "/proc/self/fd/%d", at);
        ssize_t length = readlink(link, here, sizeof here - 1);
        if (length > 0) here[length] = '\0';
        snprintf(full, 8192, "%s/", here);
    }
    strncat(full, path, 4095);
}

/* ---- Files ---- */

static int open_any(int at, const char *path, int flags, mode_t mode)
{
    struct stat file;
    char found[4096];
    start();
    int was_there = record >= 0 && (flags & O_CREAT) != 0 && fstatat(at, path, &file, (flags & O_EXCL) != 0 ? AT_SYMLINK_NOFOLLOW : 0) == 0;
    long opened = real_syscall(SYS_openat, at, path, flags, mode);
    if (opened < 0 || record < 0 || (flags & (O_CREAT | O_TRUNC | O_SYNC | O_DSYNC)) == 0) return (int)opened;
    int before = errno;
    if (has_file((int)opened, found, &file)) {
        if ((flags & O_CREAT) != 0 && !was_there) note(MADE, &file, 0, found, NULL, 0);
        if ((flags & O_TRUNC) != 0) note(CUT, &file, 0, found, NULL, 0);
        if ((flags & (O_SYNC | O_DSYNC)) != 0) note(UNKNOWN, &file, 0, "O_SYNC", NULL, 0);
    }
    errno = before;
    return (int)opened;
}

#define MODE(flags, mode) \
    do { \
        if (((flags) & O_CREAT) != 0 || ((flags) & O_TMPFILE) == O_TMPFILE) { \
            va_list rest; \
            va_start(rest, flags); \
            mode = (mode_t)va_arg(rest, int); \
            va_end(rest); \
        } \
    } while (0)

int open(const char *path, int flags, ...)
{
    mode_t mode = 0;
    MODE(flags, mode);
    return open_any(AT_FDCWD, path, flags, mode);
}

int open64(const char *path, int flags, ...)
{
    mode_t mode = 0;
    MODE(flags, mode);
    return open_any(AT_FDCWD, path, flags | O_LARGEFILE, mode);
}

int openat(int at, const char *path, int flags, ...)
{
    mode_t mode = 0;
    MODE(flags, mode);
    return open_any(at, path, flags, mode);
}

int openat64(int at, const char *path, int flags, ...)
{
    mode_t mode = 0;
    MODE(flags, mode);
    return open_any(at, path, flags | O_LARGEFILE, mode);
}

int creat(const char *path, mode_t mode)
{
    return open_any(AT_FDCWD, path, O_CREAT | O_WRONLY | O_TRUNC, mode);
}

/* Notes what was written at the place where a descriptor stands now. */
static void note_written(int fd, const void *bytes, ssize_t written)
{
    char path[4096];
    struct stat file;
    int before = errno;
    if (written > 0 && has_file(fd, path, &file)) note(WRITTEN, &file, (uint64_t)(lseek(fd, 0, SEEK_CUR) - written), path, bytes, (size_t)written);
    errno = before;
}

/* Notes what is going to be said, where it is for a stream: whether it was. */
static int note_said(int fd, const void *bytes, size_t length)
{
    int before = errno;
    uint64_t port = port_of(fd);
    if (port != 0) note(SAID, NULL, port, "", bytes, length);
    errno = before;
    return port != 0;
}

static void note_heard(int fd, const void *bytes, ssize_t length)
{
    int before = errno;
    uint64_t port = length > 0 ? port_of(fd) : 0;
    if (port != 0) note(HEARD, NULL, port, "", bytes, (size_t)length);
    errno = before;
}

/* Of a stream all is written that was noted, or the stream fails. */
static ssize_t say_all(int fd, const char *bytes, size_t length)
{
    for (size_t said = 0; said < length;) {
        ssize_t more = real_write(fd, bytes + said, length - said);
        if (more < 0 && errno == EINTR) continue;
        if (more < 0) return said > 0 ? (ssize_t)said : more;
        said += (size_t)more;
    }
    return (ssize_t)length;
}

ssize_t write(int fd, const void *bytes, size_t length)
{
    start();
    if (note_said(fd, bytes, length)) return say_all(fd, bytes, length);
    ssize_t written = real_write(fd, bytes, length);
    note_written(fd, bytes, written);
    return written;
}

ssize_t send(int fd, const void *bytes, size_t length, int flags)
{
    start();
    if (record < 0) return real_send(fd, bytes, length, flags);
    note_said(fd, bytes, length);
    for (size_t said = 0; said < length;) {
        ssize_t more = real_send(fd, (const char *)bytes + said, length - said, flags);
        if (more < 0 && errno == EINTR) continue;
        if (more < 0) return said > 0 ? (ssize_t)said : more;
        said += (size_t)more;
    }
    return (ssize_t)length;
}

ssize_t read(int fd, void *bytes, size_t length)
{
    start();
    ssize_t got = real_read(fd, bytes, length);
    note_heard(fd, bytes, got);
    return got;
}

ssize_t recv(int fd, void *bytes, size_t length, int flags)
{
    start();
    ssize_t got = real_recv(fd, bytes, length, flags);
    if ((flags & MSG_PEEK) == 0) note_heard(fd, bytes, got);
    return got;
}

int dprintf(int fd, const char *format, ...)
{
    char *made = NULL;
    va_list rest;
    va_start(rest, format);
    int length = vasprintf(&made, format, rest);
    va_end(rest);
    if (length < 0) return length;
    ssize_t written = write(fd, made, (size_t)length);
    free(made);
    return (int)written;
}

ssize_t pwrite(int fd, const void *bytes, size_t length, off_t offset)
{
    char path[4096];
    struct stat file;
    start();
    ssize_t written = real_pwrite(fd, bytes, length, offset);
    int before = errno;
    if (written > 0 && has_file(fd, path, &file)) note(WRITTEN, &file, (uint64_t)offset, path, bytes, (size_t)written);
    errno = before;
    return written;
}

ssize_t pwrite64(int fd, const void *bytes, size_t length, off_t offset)
{
    return pwrite(fd, bytes, length, offset);
}

int ftruncate(int fd, off_t length)
{
    char path[4096];
    struct stat file;
    start();
    int status = real_ftruncate(fd, length);
    int before = errno;
    if (status == 0 && has_file(fd, path, &file)) note(CUT, &file, (uint64_t)length, path, NULL, 0);
    errno = before;
    return status;
}

int ftruncate64(int fd, off_t length)
{
    return ftruncate(fd, length);
}

/* ---- Syncs ---- */

static void rest_a_little(void)
{
    static _Thread_local uint64_t state;
    if (most_pause <= 0) return;
    if (state == 0) state = (uint64_t)real_syscall(SYS_gettid) * 0x9e3779b97f4a7c15u;
    state ^= state << 13, state ^= state >> 7, state ^= state << 17;
    struct timespec pause = { 0, (long)(state % (uint64_t)most_pause) * 1000 };
    nanosleep(&pause, NULL);
}

static int sync_by(int (*real)(int), int fd)
{
    char path[4096];
    struct stat file;
    int is_noted = has_file(fd, path, &file);
    if (is_noted) {
        note(SYNC_BEGINS, &file, 0, path, NULL, 0);
        rest_a_little();
    }
    int status = real(fd), before = errno;
    if (is_noted) note(SYNC_ENDS, &file, status != 0, path, NULL, 0);
    errno = before;
    return status;
}

int fsync(int fd)
{
    start();
    return sync_by(real_fsync, fd);
}

int fdatasync(int fd)
{
    start();
    return sync_by(real_fdatasync, fd);
}

/* ---- Names ---- */

int unlink(const char *path)
{
    char full[8192];
    struct stat file;
    start();
    name_at(AT_FDCWD, path, full);
    int was_there = record >= 0 && lstat(path, &file) == 0, status = real_unlink(path), before = errno;
    if (status == 0 && was_there && is_inside(full)) note(REMOVED, &file, 0, full, NULL, 0);
    errno = before;
    return status;
}

int rename(const char *path, const char *to)
{
    char full[8192], now[8192];
    struct stat file;
    start();
    name_at(AT_FDCWD, path, full);
    name_at(AT_FDCWD, to, now);
    int was_there = record >= 0 && lstat(path, &file) == 0, status = real_rename(path, to), before = errno;
    if (status == 0 && was_there && (is_inside(full) || is_inside(now))) note(RENAMED, &file, 0, full, now, strlen(now));
    errno = before;
    return status;
}

/* ---- What is not recorded, and must not be passed over ---- */

void *mmap(void *at, size_t length, int protection, int flags, int fd, off_t offset)
{
    start();
    if (fd >= 0 && (flags & MAP_TYPE) != MAP_PRIVATE && (protection & PROT_WRITE) != 0) note_unknown("mmap", fd);
    return real_mmap(at, length, protection, flags, fd, offset);
}

/* Calls by number. The names of those that could change a file are told; each is handed on as it is. */
long syscall(long number, ...)
{
    static const struct { long number; const char *name; } changing[] = {
        { SYS_write, "write" }, { SYS_pwrite64, "pwrite64" }, { SYS_writev, "writev" }, { SYS_pwritev, "pwritev" }, { SYS_pwritev2, "pwritev2" },
        { SYS_ftruncate, "ftruncate" }, { SYS_fallocate, "fallocate" }, { SYS_fsync, "fsync" }, { SYS_fdatasync, "fdatasync" },
        { SYS_copy_file_range, "copy_file_range" }, { SYS_sendfile, "sendfile" }, { SYS_sync_file_range, "sync_file_range" }, { SYS_syncfs, "syncfs" },
    };
    long words[6];
    va_list rest;
    start();
    va_start(rest, number);
    for (int k = 0; k < 6; k++) words[k] = va_arg(rest, long);
    va_end(rest);
    for (size_t k = 0; k < sizeof changing / sizeof *changing; k++)
        if (changing[k].number == number) note_unknown(changing[k].name, (int)words[number == SYS_copy_file_range ? 2 : 0]);
    return real_syscall(number, words[0], words[1], words[2], words[3], words[4], words[5]);
}

#define NOT_RECORDED(result, name, parameters, fd, arguments) \
    result name parameters \
    { \
        static result (*real) parameters; \
        start(); \
        if (real == NULL) find(#name, &real); \
        note_unknown(#name, fd); \
        return real arguments; \
    }

NOT_RECORDED(int, fallocate, (int fd, int mode, off_t offset, off_t length), fd, (fd, mode, offset, length))
NOT_RECORDED(int, posix_fallocate, (int fd, off_t offset, off_t length), fd, (fd, offset, length))
NOT_RECORDED(ssize_t, writev, (int fd, const struct iovec *parts, int count), fd, (fd, parts, count))
NOT_RECORDED(ssize_t, pwritev, (int fd, const struct iovec *parts, int count, off_t offset), fd, (fd, parts, count, offset))
NOT_RECORDED(ssize_t, sendfile, (int fd, int from, off_t *offset, size_t length), fd, (fd, from, offset, length))
NOT_RECORDED(ssize_t, copy_file_range, (int from, off_t *at, int fd, off_t *offset, size_t length, unsigned flags), fd, (from, at, fd, offset, length, flags))
NOT_RECORDED(int, syncfs, (int fd), fd, (fd))
NOT_RECORDED(int, sync_file_range, (int fd, off_t offset, off_t length, unsigned flags), fd, (fd, offset, length, flags))
