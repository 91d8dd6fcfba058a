/* Devices that another program serves by NBD. */
#ifndef DEVICE_H
#define DEVICE_H

#include <refskold_volume.h>
#include <stdbool.h>

/* Whether a word names an NBD server, and no file. */
bool is_uri(const char *word);

/* A home device. Connects to its server: 0, or an errno with a minus. A server that lets several connections see one device is read by one of its own, so
 * that no read waits for a write.
 *
 * -EROFS: it takes no writes. -EOPNOTSUPP: it has no FLUSH, so nothing makes a write safe. -EINVAL: its requests are multiples of more than a block. */
int remote_home(refskold_device *device, const char *uri);

/* One of the two devices of a log, which has a length of its own. It has to be all zeros before its first use, and then is labelled.
 *
 * The same errors. -ENOSPC: it has no room for a log of so many bytes. -EEXIST: something else is on it. */
int remote_log(refskold_device *device, const char *uri, uint32_t log_bytes);

/* How many bytes a device of a log must have: those of its texts, of seals, of zeros that are written ahead, and of its header. */
uint64_t remote_room(uint32_t log_bytes);

#endif
