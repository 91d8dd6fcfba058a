/* show.h: what e2tx prints of an ext2 file system. */
#ifndef E2TX_SHOW_H
#define E2TX_SHOW_H

#include <ext2fs/ext2fs.h>
#include <stdio.h>

/* The names in a directory, each a line. */
errcode_t show_names(ext2_filsys fs, const char *path, FILE *out);

/* What a file has, and a newline. */
errcode_t show_content(ext2_filsys fs, const char *path, FILE *out);

/* Of each path a line: the path, its mode, and what a file has. */
errcode_t show_tree(ext2_filsys fs, FILE *out);

#endif
