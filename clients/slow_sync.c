// Makes each sync of a file so many microseconds longer, as environment variable SLOW_SYNC says: a disk that takes them for it.
#define _GNU_SOURCE
#include <dlfcn.h>
#include <stdlib.h>
#include <time.h>

static int longer(const char *name, int file)
{
    int (*sync)(int) = (int (*)(int))dlsym(RTLD_NEXT, name);
    const char *said = getenv("SLOW_SYNC");
    long micros = said == NULL ? 0 : atol(said);
    struct timespec rest = {micros / 1000000, micros % 1000000 * 1000};

    nanosleep(&rest, NULL);
    return sync(file);
}

int fsync(int file)
{
    return longer("fsync", file);
}

int fdatasync(int file)
{
    return longer("fdatasync", file);
}
