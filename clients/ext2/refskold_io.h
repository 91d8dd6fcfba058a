/* refskold_io.h: an io_manager of libext2fs over one mount of Refskold.
 *
 *     ext2fs_open2("IMAGE", "log=LOG", EXT2_FLAG_RW, 0, 0, refskold_io_manager, &fs)
 *
 * opens a file system once what LOG and LOG.1 say is laid over IMAGE. What is written from then on is kept in memory until
 * refskold_io_commit commits it: after a crash all of it is there, or none. Nothing else commits it: neither a flush of the channel, as
 * ext2fs_flush asks two for one change, nor a close, which brings home what was committed.
 *
 * Options, which stand before `log` with a `&` behind each:
 *
 *     log_bytes=N   bytes that each of the two files may have before the other one is written, 65,536 to 16,777,216; 4,194,304 if not said
 *     any           a log is laid also where it says that it is of a volume with another name
 *     flush         for tools that know nothing of this manager: an ext2fs_flush is committed, and a close
 *
 * IMAGE and both files of the log are locked, by flock, until the channel is closed: EBUSY where somebody has them. EUCLEAN: the log is
 * broken, or has blocks of another size. EXDEV: it is of a volume with another name. Then nothing was changed. One call at a time for each
 * channel. */
#ifndef REFSKOLD_IO_H
#define REFSKOLD_IO_H

#include <ext2fs/ext2fs.h>

extern io_manager refskold_io_manager;

/* Commits what was written since the last commit. Where `is_forced` it is on the log when this returns 0, and so is all that was committed
 * before; it always is where more than 64 blocks were changed. Else it waits in memory, and commits of up to 64 blocks together become one
 * transaction: a crash may take the last ones away, but none in part and none before another that stays. Where this fails close the channel,
 * and open it again: then it is known which of the changes are there that are not on the log for sure. */
errcode_t refskold_io_commit(io_channel channel, int is_forced);

/* How many blocks were written since the last commit. */
unsigned refskold_io_changed(io_channel channel);

/* What it did, from the opening on. */
struct refskold_io_counts {
    unsigned long commits, blocks, checkpoints, home_blocks, syncs, settles, turns;
};
struct refskold_io_counts refskold_io_counts(io_channel channel);

#endif
