/* files.h: what e2tx does to an ext2 file system. Each function leaves its change in memory and in the channel: who calls commits it, or where
 * it has failed gives it up. */
#ifndef E2TX_FILES_H
#define E2TX_FILES_H

#include <ext2fs/ext2fs.h>
#include <stddef.h>

errcode_t files_find(ext2_filsys fs, const char *path, ext2_ino_t *ino);
errcode_t files_make_dir(ext2_filsys fs, const char *path);

/* Gives a file this content; it is made where it is not there. */
errcode_t files_put(ext2_filsys fs, const char *path, const char *data, size_t length);

/* Takes a name away, and with the last one the file; a directory must be empty. */
errcode_t files_remove(ext2_filsys fs, const char *path);

/* Gives a file or directory another name. A file that has it already gives it up. */
errcode_t files_move(ext2_filsys fs, const char *from, const char *to);
errcode_t files_change_mode(ext2_filsys fs, const char *path, unsigned mode);

#endif
