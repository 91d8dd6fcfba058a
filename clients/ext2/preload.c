/* e2tx-preload.so: puts the io_manager over Refskold in the place of libext2fs's own in a tool that is not changed. Each ext2fs_flush of the
 * tool is one transaction, and on the log.
 *
 *     REFSKOLD_LOG=LOG LD_PRELOAD=./e2tx-preload.so debugfs -w IMAGE */
#define _GNU_SOURCE
#include "refskold_io.h"
#include <errno.h>
#include <stdlib.h>

__attribute__((visibility("default"))) io_manager unix_io_manager;
static struct struct_io_manager manager;

static errcode_t open_with_log(const char *name, int flags, io_channel *channel)
{
    const char *log = getenv("REFSKOLD_LOG");
    errcode_t error = log == NULL ? EINVAL : refskold_io_manager->open(name, flags, channel);
    if (error != 0) return error;
    error = refskold_io_manager->set_option(*channel, "flush", NULL);
    if (error == 0) error = refskold_io_manager->set_option(*channel, "log", log);
    if (error != 0) io_channel_close(*channel);
    return error;
}

__attribute__((constructor)) static void take_its_place(void)
{
    manager = *refskold_io_manager;
    manager.open = open_with_log;
    unix_io_manager = &manager;
}
