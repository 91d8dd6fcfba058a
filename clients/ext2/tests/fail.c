/* Lets writes and syncs of the files of a folder fail, from one of them on: a library to load in front of the C library's.
 *
 *     LD_PRELOAD=./fail.so FAIL_OF=FOLDER FAIL_FROM=N PROGRAM ..
 *
 * N of them happen, and then all fail. The first that fails, where it is a write, has written its first half. */
#define _GNU_SOURCE
#include <dlfcn.h>
#include <errno.h>
#include <stdbool.h>
#include <stdio.h>
#include <stdlib.h>
#include <string.h>
#include <unistd.h>

#define REAL(name) __typeof__(&name) real = (__typeof__(&name))dlsym(RTLD_NEXT, #name)

static long done;

static bool is_inside(int fd)
{
    const char *folder = getenv("FAIL_OF");
    char link[64], path[4096];
    snprintf(link, sizeof link, "/proc/self/fd/%d", fd);
    ssize_t length = readlink(link, path, sizeof path - 1);
    if (length < 0 || folder == NULL) return false;
    path[length] = '\0';
    return strncmp(path, folder, strlen(folder)) == 0;
}

/* Which of those that fail a call is, from 1; 0 where it happens. */
static long failing(int fd)
{
    const char *from = getenv("FAIL_FROM");
    if (from == NULL || !is_inside(fd)) return 0;
    long number = ++done - atol(from);
    if (number > 0) errno = EIO;
    return number > 0 ? number : 0;
}

ssize_t pwrite(int fd, const void *data, size_t length, off_t at)
{
    REAL(pwrite);
    long number = failing(fd);
    return number == 0 ? real(fd, data, length, at) : number == 1 ? real(fd, data, length / 2, at) : -1;
}

ssize_t pwrite64(int fd, const void *data, size_t length, off64_t at)
{
    return pwrite(fd, data, length, (off_t)at);
}

int fsync(int fd)
{
    REAL(fsync);
    return failing(fd) > 0 ? -1 : real(fd);
}

int fdatasync(int fd)
{
    REAL(fdatasync);
    return failing(fd) > 0 ? -1 : real(fd);
}

int ftruncate(int fd, off_t length)
{
    REAL(ftruncate);
    return failing(fd) > 0 ? -1 : real(fd, length);
}

int ftruncate64(int fd, off64_t length)
{
    return ftruncate(fd, (off_t)length);
}
