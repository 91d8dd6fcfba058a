#define _GNU_SOURCE
#include "files.h"
#include <errno.h>
#include <stdbool.h>
#include <stdlib.h>
#include <string.h>
#include <time.h>

enum { AT_ONCE = 1 << 20 };

/* ---- Names and inodes ---- */

errcode_t files_find(ext2_filsys fs, const char *path, ext2_ino_t *ino)
{
    return ext2fs_namei(fs, EXT2_ROOT_INO, EXT2_ROOT_INO, path, ino);
}

static bool is_name(const char *name)
{
    return *name != '\0' && strlen(name) <= EXT2_NAME_LEN && strcmp(name, ".") != 0 && strcmp(name, "..") != 0;
}

/* The directory that a path's last name stands in, and the name. */
static errcode_t find_parent(ext2_filsys fs, const char *path, ext2_ino_t *dir, const char **name)
{
    char *copy = strdup(path), *slash = copy == NULL ? NULL : strrchr(copy, '/');
    if (slash == NULL || !is_name(slash + 1)) {
        free(copy);
        return EINVAL;
    }
    *name = path + (slash + 1 - copy);
    slash[slash == copy] = '\0';
    errcode_t error = files_find(fs, copy, dir);
    free(copy);
    return error;
}

/* An inode of a path whole, with what stands behind the first 128 bytes. */
static errcode_t find_inode(ext2_filsys fs, const char *path, ext2_ino_t *ino, struct ext2_inode_large *inode)
{
    errcode_t error = files_find(fs, path, ino);
    memset(inode, 0, sizeof *inode);
    return error != 0 ? error : ext2fs_read_inode_full(fs, *ino, (struct ext2_inode *)inode, sizeof *inode);
}

/* Changes the count of an inode's links, and its time. */
static errcode_t note_change(ext2_filsys fs, ext2_ino_t ino, int links)
{
    struct ext2_inode inode;
    errcode_t error = ext2fs_read_inode(fs, ino, &inode);
    if (error != 0) return error;
    inode.i_links_count = (uint16_t)(inode.i_links_count + links);
    inode.i_ctime = (uint32_t)time(NULL);
    if (LINUX_S_ISDIR(inode.i_mode)) inode.i_mtime = inode.i_ctime;
    return ext2fs_write_inode(fs, ino, &inode);
}

static int type_of(unsigned mode)
{
    static const unsigned char types[16] = {
        [LINUX_S_IFREG >> 12] = EXT2_FT_REG_FILE, [LINUX_S_IFDIR >> 12] = EXT2_FT_DIR,   [LINUX_S_IFCHR >> 12] = EXT2_FT_CHRDEV,
        [LINUX_S_IFBLK >> 12] = EXT2_FT_BLKDEV,   [LINUX_S_IFIFO >> 12] = EXT2_FT_FIFO,  [LINUX_S_IFSOCK >> 12] = EXT2_FT_SOCK,
        [LINUX_S_IFLNK >> 12] = EXT2_FT_SYMLINK,
    };
    return types[(mode & LINUX_S_IFMT) >> 12];
}

static errcode_t add_name(ext2_filsys fs, ext2_ino_t dir, const char *name, ext2_ino_t ino, unsigned mode)
{
    errcode_t error = ext2fs_link(fs, dir, name, ino, type_of(mode));
    if (error == EXT2_ET_DIR_NO_SPACE && (error = ext2fs_expand_dir(fs, dir)) == 0) error = ext2fs_link(fs, dir, name, ino, type_of(mode));
    return error != 0 ? error : note_change(fs, dir, 0);
}

/* ---- Made and written ---- */

errcode_t files_make_dir(ext2_filsys fs, const char *path)
{
    ext2_ino_t dir, ino;
    const char *name;
    errcode_t error = find_parent(fs, path, &dir, &name);
    if (error != 0) return error;
    if (files_find(fs, path, &ino) == 0) return EXT2_ET_DIR_EXISTS;
    error = ext2fs_mkdir(fs, dir, 0, name);
    if (error == EXT2_ET_DIR_NO_SPACE && (error = ext2fs_expand_dir(fs, dir)) == 0) error = ext2fs_mkdir(fs, dir, 0, name);
    return error != 0 ? error : note_change(fs, dir, 0);
}

static errcode_t make_file(ext2_filsys fs, const char *path, ext2_ino_t *ino)
{
    struct ext2_inode inode = { .i_mode = LINUX_S_IFREG | 0644, .i_links_count = 1 };
    ext2_ino_t dir;
    const char *name;
    errcode_t error = find_parent(fs, path, &dir, &name);
    if (error == 0) error = ext2fs_new_inode(fs, dir, inode.i_mode, 0, ino);
    if (error == 0) error = add_name(fs, dir, name, *ino, inode.i_mode);
    if (error != 0) return error;
    ext2fs_inode_alloc_stats2(fs, *ino, 1, 0);
    inode.i_atime = inode.i_ctime = inode.i_mtime = (uint32_t)time(NULL);
    return ext2fs_write_new_inode(fs, *ino, &inode);
}

static errcode_t write_content(ext2_filsys fs, ext2_ino_t ino, const char *data, size_t length)
{
    ext2_file_t file;
    errcode_t error = ext2fs_file_open(fs, ino, EXT2_FILE_WRITE, &file), closed;
    if (error != 0) return error;
    error = ext2fs_file_set_size2(file, 0);
    for (unsigned wrote; error == 0 && length > 0; data += wrote, length -= wrote)
        error = ext2fs_file_write(file, data, length < AT_ONCE ? (unsigned)length : AT_ONCE, &wrote);
    closed = ext2fs_file_close(file);
    return error != 0 ? error : closed;
}

errcode_t files_put(ext2_filsys fs, const char *path, const char *data, size_t length)
{
    struct ext2_inode inode;
    ext2_ino_t ino;
    errcode_t error = files_find(fs, path, &ino);
    if (error == EXT2_ET_FILE_NOT_FOUND) error = make_file(fs, path, &ino);
    if (error == 0) error = ext2fs_read_inode(fs, ino, &inode);
    if (error == 0 && !LINUX_S_ISREG(inode.i_mode)) error = LINUX_S_ISDIR(inode.i_mode) ? EISDIR : EINVAL;
    if (error == 0) error = write_content(fs, ino, data, length);
    if (error == 0) error = ext2fs_read_inode(fs, ino, &inode);
    if (error != 0) return error;
    inode.i_ctime = inode.i_mtime = (uint32_t)time(NULL);
    return ext2fs_write_inode(fs, ino, &inode);
}

/* ---- Taken away ---- */

static int is_other_name(ext2_ino_t dir, int entry, struct ext2_dir_entry *dirent, int offset, int size, char *block, void *found)
{
    (void)dir, (void)offset, (void)size, (void)block;
    if (entry != DIRENT_OTHER_FILE || dirent->inode == 0) return 0;
    *(bool *)found = true;
    return DIRENT_ABORT;
}

/* Gives an inode with its blocks free. */
static errcode_t free_inode(ext2_filsys fs, ext2_ino_t ino, struct ext2_inode_large *inode)
{
    struct ext2_inode *front = (struct ext2_inode *)inode;
    errcode_t error = ext2fs_free_ext_attr(fs, ino, inode);
    if (error == 0 && ext2fs_inode_has_valid_blocks2(fs, front)) error = ext2fs_punch(fs, ino, front, NULL, 0, ~0ULL);
    if (error != 0) return error;
    inode->i_links_count = 0;
    inode->i_dtime = (uint32_t)time(NULL);
    ext2fs_inode_alloc_stats2(fs, ino, -1, LINUX_S_ISDIR(inode->i_mode));
    return ext2fs_write_inode_full(fs, ino, front, sizeof *inode);
}

errcode_t files_remove(ext2_filsys fs, const char *path)
{
    struct ext2_inode_large inode;
    ext2_ino_t dir, ino;
    const char *name;
    bool is_full = false;
    errcode_t error = find_parent(fs, path, &dir, &name);
    if (error == 0) error = find_inode(fs, path, &ino, &inode);
    if (error != 0) return error;
    bool is_dir = LINUX_S_ISDIR(inode.i_mode);
    if (is_dir && ino == EXT2_ROOT_INO) return EBUSY;
    if (is_dir) error = ext2fs_dir_iterate2(fs, ino, 0, NULL, is_other_name, &is_full);
    if (error != 0 || is_full) return error != 0 ? error : ENOTEMPTY;
    if ((error = ext2fs_unlink(fs, dir, name, ino, 0)) != 0) return error;
    if ((error = note_change(fs, dir, is_dir ? -1 : 0)) != 0) return error;
    return !is_dir && inode.i_links_count > 1 ? note_change(fs, ino, -1) : free_inode(fs, ino, &inode);
}

/* ---- Moved ---- */

static int set_dot_dot(ext2_ino_t dir, int entry, struct ext2_dir_entry *dirent, int offset, int size, char *block, void *parent)
{
    (void)dir, (void)offset, (void)size, (void)block;
    if (entry != DIRENT_DOT_DOT_FILE) return 0;
    dirent->inode = *(ext2_ino_t *)parent;
    return DIRENT_CHANGED | DIRENT_ABORT;
}

static bool is_below(ext2_filsys fs, ext2_ino_t dir, ext2_ino_t top)
{
    while (dir != top && dir != EXT2_ROOT_INO)
        if (ext2fs_lookup(fs, dir, "..", 2, NULL, &dir) != 0) return true;
    return dir == top;
}

/* Takes away the file that has a name, if one has it. */
static errcode_t make_way(ext2_filsys fs, const char *path, bool is_for_dir)
{
    struct ext2_inode_large inode;
    ext2_ino_t ino;
    errcode_t error = find_inode(fs, path, &ino, &inode);
    if (error == EXT2_ET_FILE_NOT_FOUND) return 0;
    if (error == 0 && (is_for_dir || LINUX_S_ISDIR(inode.i_mode))) error = EEXIST;
    return error != 0 ? error : files_remove(fs, path);
}

static errcode_t move_dir(ext2_filsys fs, ext2_ino_t ino, ext2_ino_t dir, ext2_ino_t to)
{
    errcode_t error = ext2fs_dir_iterate2(fs, ino, DIRENT_FLAG_INCLUDE_EMPTY, NULL, set_dot_dot, &to);
    if (error == 0) error = note_change(fs, dir, -1);
    return error != 0 ? error : note_change(fs, to, 1);
}

errcode_t files_move(ext2_filsys fs, const char *from, const char *to)
{
    struct ext2_inode_large inode;
    ext2_ino_t dir, new_dir, ino, other;
    const char *name, *new_name;
    errcode_t error = find_parent(fs, from, &dir, &name);
    if (error == 0) error = find_parent(fs, to, &new_dir, &new_name);
    if (error == 0) error = find_inode(fs, from, &ino, &inode);
    if (error != 0) return error;
    bool is_dir = LINUX_S_ISDIR(inode.i_mode);
    if (ino == EXT2_ROOT_INO || (is_dir && is_below(fs, new_dir, ino))) return EINVAL;
    if (files_find(fs, to, &other) == 0 && other == ino) return 0;
    if ((error = make_way(fs, to, is_dir)) == 0) error = add_name(fs, new_dir, new_name, ino, inode.i_mode);
    if (error == 0) error = ext2fs_unlink(fs, dir, name, ino, 0);
    if (error == 0) error = is_dir && dir != new_dir ? move_dir(fs, ino, dir, new_dir) : note_change(fs, dir, 0);
    return error != 0 ? error : note_change(fs, ino, 0);
}

errcode_t files_change_mode(ext2_filsys fs, const char *path, unsigned mode)
{
    struct ext2_inode inode;
    ext2_ino_t ino;
    errcode_t error = files_find(fs, path, &ino);
    if (error == 0) error = ext2fs_read_inode(fs, ino, &inode);
    if (error != 0) return error;
    inode.i_mode = (uint16_t)((inode.i_mode & ~07777) | (mode & 07777));
    inode.i_ctime = (uint32_t)time(NULL);
    return ext2fs_write_inode(fs, ino, &inode);
}
