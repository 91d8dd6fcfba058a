#define _GNU_SOURCE
#include "show.h"
#include "files.h"

/* What is printed, and the path above the names that come. */
struct place {
    ext2_filsys fs;
    FILE *out;
    const char *above;
    errcode_t error;
};

static errcode_t print_content(ext2_filsys fs, ext2_ino_t ino, FILE *out)
{
    char bytes[1 << 16];
    unsigned got;
    ext2_file_t file;
    errcode_t error = ext2fs_file_open(fs, ino, 0, &file);
    if (error != 0) return error;
    while ((error = ext2fs_file_read(file, bytes, sizeof bytes, &got)) == 0 && got > 0) fwrite(bytes, 1, got, out);
    ext2fs_file_close(file);
    fputc('\n', out);
    return error;
}

errcode_t show_content(ext2_filsys fs, const char *path, FILE *out)
{
    ext2_ino_t ino;
    errcode_t error = files_find(fs, path, &ino);
    return error != 0 ? error : print_content(fs, ino, out);
}

static int print_name(ext2_ino_t dir, int entry, struct ext2_dir_entry *dirent, int offset, int size, char *block, void *out)
{
    (void)dir, (void)offset, (void)size, (void)block;
    if (entry == DIRENT_OTHER_FILE) fprintf(out, "%.*s\n", ext2fs_dirent_name_len(dirent), dirent->name);
    return 0;
}

errcode_t show_names(ext2_filsys fs, const char *path, FILE *out)
{
    ext2_ino_t ino;
    errcode_t error = files_find(fs, path, &ino);
    return error != 0 ? error : ext2fs_dir_iterate2(fs, ino, 0, NULL, print_name, out);
}

static int print_below(ext2_ino_t dir, int entry, struct ext2_dir_entry *dirent, int offset, int size, char *block, void *above)
{
    char path[4096];
    struct place *place = above, here = *place;
    struct ext2_inode inode;
    (void)dir, (void)offset, (void)size, (void)block;
    if (entry != DIRENT_OTHER_FILE) return 0;
    if ((place->error = ext2fs_read_inode(here.fs, dirent->inode, &inode)) != 0) return DIRENT_ABORT;
    snprintf(path, sizeof path, "%s/%.*s", here.above, ext2fs_dirent_name_len(dirent), dirent->name);
    fprintf(here.out, "%s %o ", path, inode.i_mode);
    here.above = path;
    if (LINUX_S_ISDIR(inode.i_mode)) {
        fputc('\n', here.out);
        place->error = ext2fs_dir_iterate2(here.fs, dirent->inode, 0, NULL, print_below, &here);
        if (place->error == 0) place->error = here.error;
    } else if (LINUX_S_ISREG(inode.i_mode)) place->error = print_content(here.fs, dirent->inode, here.out);
    else fputc('\n', here.out);
    return place->error == 0 ? 0 : DIRENT_ABORT;
}

errcode_t show_tree(ext2_filsys fs, FILE *out)
{
    struct place place = { fs, out, "", 0 };
    errcode_t error = ext2fs_dir_iterate2(fs, EXT2_ROOT_INO, 0, NULL, print_below, &place);
    return error != 0 ? error : place.error;
}
