/* device.h: reads and writes of a device that are whole or have failed. */
#ifndef E2TX_DEVICE_H
#define E2TX_DEVICE_H

#include <stdbool.h>
#include <stddef.h>
#include <stdint.h>
#include <unistd.h>

static inline bool is_read(int from, void *room, size_t length, uint64_t at)
{
    return pread(from, room, length, (off_t)at) == (ssize_t)length;
}

static inline bool is_written(int to, const void *data, size_t length, uint64_t at)
{
    return pwrite(to, data, length, (off_t)at) == (ssize_t)length;
}

#endif
