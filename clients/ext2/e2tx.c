/* e2tx: files of an ext2 file system, each change of which is there after a crash whole or not at all.
 *
 *     e2tx [-af] [-s BYTES] IMAGE LOG [COMMAND ARGUMENT..]     over Refskold: each change is one transaction
 *     e2tx -p|-n IMAGE [COMMAND ARGUMENT..]                    over libext2fs alone, with a sync after each change or with none: to compare
 *
 * Without a command it reads commands from standard input, one a line, and answers each by what was asked for and a line `ok`, or by
 * `error TEXT`. `ok` of a change says that it is committed, with -f that it is on the log, as does that of `sync`.
 *
 *     mkdir PATH      put PATH TEXT      mv FROM TO          sync        ls PATH       tree
 *     rm PATH         load PATH FILE     chmod PATH MODE     stat        cat PATH */
#define _GNU_SOURCE
#include "files.h"
#include "refskold_io.h"
#include "show.h"
#include <errno.h>
#include <et/com_err.h>
#include <stdbool.h>
#include <stdlib.h>
#include <string.h>
#include <unistd.h>

enum { AT_ONCE = 1 << 20 };

static const char usage[] = "usage: e2tx [-af] [-s BYTES] IMAGE LOG [COMMAND ARGUMENT..]\n"
                            "       e2tx -p|-n IMAGE [COMMAND ARGUMENT..]\n"
                            "commands: mkdir PATH, put PATH TEXT, load PATH FILE, rm PATH, mv FROM TO, chmod PATH MODE,\n"
                            "          ls PATH, cat PATH, tree, sync, stat; without one they are read from standard input, one a line\n"
                            "  -f  a change is answered once it is on the log\n"
                            "  -a  a log is laid also where it says that it is of another image\n"
                            "  -s  bytes that each of the two files of the log may have, 65536 to 16777216\n"
                            "  -p  libext2fs alone, with a sync after each change, to compare; -n with none\n";

static const char *device, *options;
static io_manager manager;
static bool is_forced, is_synced;
static ext2_filsys fs;
static FILE *out;

/* ---- The file system ---- */

/* Opens the file system anew where it was given up. */
static errcode_t open_fs(void)
{
    if (fs != NULL) return 0;
    errcode_t error = ext2fs_open2(device, options, EXT2_FLAG_RW | EXT2_FLAG_64BITS | EXT2_FLAG_EXCLUSIVE, 0, 0, manager, &fs);
    if (error != 0) return error;
    fs->flags |= EXT2_FLAG_MASTER_SB_ONLY; // as the kernel does: no copies of superblock and descriptors
    if (ext2fs_has_feature_journal_needs_recovery(fs->super)) error = EUCLEAN; // it has a journal of its own, which is to be replayed first
    if (error == 0) error = ext2fs_read_bitmaps(fs);
    if (error == 0) return 0;
    ext2fs_free(fs);
    fs = NULL;
    return error;
}

/* Ends what is to be there whole or not at all. */
static errcode_t end_change(void)
{
    errcode_t error = ext2fs_flush2(fs, is_synced ? 0 : EXT2_FLAG_FLUSH_NO_SYNC);
    return error != 0 || manager != refskold_io_manager ? error : refskold_io_commit(fs->io, is_forced);
}

static bool is_touched(void)
{
    return (fs->flags & (EXT2_FLAG_DIRTY | EXT2_FLAG_IB_DIRTY | EXT2_FLAG_BB_DIRTY)) != 0 || (manager == refskold_io_manager && refskold_io_changed(fs->io) > 0);
}

/* Gives up what was not committed, of which libext2fs has some in memory. */
static void give_up(void)
{
    ext2fs_free(fs);
    fs = NULL;
}

/* ---- Commands ---- */

static errcode_t make_dir(const char *path, const char *text)
{
    (void)text;
    return files_make_dir(fs, path);
}

static errcode_t put(const char *path, const char *text)
{
    return files_put(fs, path, text, strlen(text));
}

static errcode_t load(const char *path, const char *name)
{
    FILE *from = fopen(name, "r");
    char *data = NULL, *more;
    size_t length = 0, got = 1;
    if (from == NULL) return errno;
    while (got > 0 && (more = realloc(data, length + AT_ONCE)) != NULL) {
        data = more;
        length += got = fread(data + length, 1, AT_ONCE, from);
    }
    errcode_t error = feof(from) ? files_put(fs, path, data, length) : EIO;
    fclose(from);
    free(data);
    return error;
}

static errcode_t drop(const char *path, const char *text)
{
    (void)text;
    return files_remove(fs, path);
}

static errcode_t move(const char *from, const char *to)
{
    return files_move(fs, from, to);
}

static errcode_t change_mode(const char *path, const char *octal)
{
    char *end;
    unsigned long mode = strtoul(octal, &end, 8);
    return *octal == '\0' || *end != '\0' || mode > 07777 ? EINVAL : files_change_mode(fs, path, (unsigned)mode);
}

static errcode_t sync_all(const char *path, const char *text)
{
    (void)path, (void)text;
    return manager == refskold_io_manager ? refskold_io_commit(fs->io, true) : io_channel_flush(fs->io);
}

static errcode_t list(const char *path, const char *text)
{
    (void)text;
    return show_names(fs, path, out);
}

static errcode_t print(const char *path, const char *text)
{
    (void)text;
    return show_content(fs, path, out);
}

static errcode_t print_all(const char *path, const char *text)
{
    (void)path, (void)text;
    return show_tree(fs, out);
}

static errcode_t print_counts(const char *path, const char *text)
{
    (void)path, (void)text;
    if (manager != refskold_io_manager) return 0;
    struct refskold_io_counts c = refskold_io_counts(fs->io);
    fprintf(out, "commits %lu blocks %lu checkpoints %lu home_blocks %lu syncs %lu settles %lu turns %lu\n", c.commits, c.blocks, c.checkpoints,
            c.home_blocks, c.syncs, c.settles, c.turns);
    return 0;
}

static const struct command {
    const char *name;
    errcode_t (*run)(const char *path, const char *text);
    int arguments;
    bool is_change;
} commands[] = {
    { "mkdir", make_dir, 1, true },   { "put", put, 2, true },    { "load", load, 2, true },        { "rm", drop, 1, true },
    { "mv", move, 2, true },          { "ls", list, 1, false },   { "cat", print, 1, false },       { "tree", print_all, 0, false },
    { "chmod", change_mode, 2, true }, { "sync", sync_all, 0, false }, { "stat", print_counts, 0, false },
};

/* Runs a command and prints its answer. A change that failed is given up. */
static bool run(const char *name, const char *path, const char *text)
{
    const struct command *command = commands, *end = commands + sizeof commands / sizeof *commands;
    errcode_t error = EINVAL;
    while (command < end && strcmp(command->name, name) != 0) command++;
    if (command < end && (command->arguments < 1 || path != NULL) && (command->arguments < 2 || text != NULL)) {
        if ((error = open_fs()) == 0) error = command->run(path, text);
        if (error == 0 && command->is_change) error = end_change();
        if (error != 0 && fs != NULL && (command->is_change ? is_touched() : command->run == sync_all)) give_up();
    }
    if (error == 0) fprintf(out, "ok\n");
    else fprintf(out, "error %s\n", error_message(error));
    return fflush(out) == 0 && error == 0;
}

static void run_line(char *line)
{
    char *path = strchr(line, ' '), *text = NULL;
    line[strcspn(line, "\n")] = '\0';
    if (path != NULL) *path++ = '\0';
    if (path != NULL && (text = strchr(path, ' ')) != NULL) *text++ = '\0';
    run(line, path, text == NULL && path != NULL ? "" : text);
}

static bool run_lines(void)
{
    char *line = NULL;
    size_t room = 0;
    while (!ferror(out) && getline(&line, &room, stdin) > 0) run_line(line);
    free(line);
    return !ferror(out) && !ferror(stdin);
}

/* ---- The program ---- */

static int misused(void)
{
    fputs(usage, stderr);
    return 2;
}

/* What is printed goes out by calls of write, so that a library in front of the C library's sees each answer. */
static ssize_t write_out(void *unused, const char *bytes, size_t length)
{
    size_t said = 0;
    (void)unused;
    for (ssize_t more; said < length; said += (size_t)more)
        if ((more = write(STDOUT_FILENO, bytes + said, length - said)) < 0) return 0;
    return (ssize_t)said;
}

static const char *words_of(errcode_t error)
{
    if (error == EUCLEAN) return "its log is broken, or it has a journal that waits to be replayed; nothing was changed";
    if (error == EXDEV) return "its log says that it is of another image; -a lays it all the same";
    return error_message(error);
}

static int fail(const char *what, errcode_t error)
{
    fprintf(stderr, "e2tx: %s: %s\n", what, words_of(error));
    return 1;
}

/* The options of the io_manager, of which the last one names the log. */
static bool make_options(char **made, const char *log, const char *bytes, bool takes_any)
{
    const char *any = takes_any ? "any&" : "";
    if (strchr(log, '&') != NULL) return false; // it would end the option
    return bytes == NULL ? asprintf(made, "%slog=%s", any, log) >= 0 : asprintf(made, "%slog_bytes=%s&log=%s", any, bytes, log) >= 0;
}

/* Runs what is asked for, on the file system that is named. */
static int serve(int count, char **words)
{
    bool is_good;
    errcode_t error = open_fs();
    if (error != 0) return fail(device, error);
    if (count > 0) is_good = run(words[0], count > 1 ? words[1] : NULL, count > 2 ? words[2] : NULL);
    else is_good = run_lines();
    error = fs != NULL ? ext2fs_close_free(&fs) : 0;
    if (error != 0) return fail(device, error);
    return !is_good;
}

int main(int argc, char **argv)
{
    int option;
    bool takes_any = false;
    const char *bytes = NULL;
    char *made = NULL;
    manager = refskold_io_manager;
    if (argc > 1 && strcmp(argv[1], "--help") == 0) return fputs(usage, stdout) < 0;
    while ((option = getopt(argc, argv, "+afs:pn")) != -1) {
        if (option == 'a') takes_any = true;
        else if (option == 'f') is_forced = true;
        else if (option == 's') bytes = optarg;
        else if (option == '?') return misused();
        else manager = unix_io_manager, is_synced = option == 'p';
    }
    bool is_over = manager == refskold_io_manager;
    out = fopencookie(NULL, "w", (cookie_io_functions_t){ .write = write_out });
    if (out == NULL) return fail("standard output", errno);
    initialize_ext2_error_table();
    if (argc - optind < 1 + is_over) return misused();
    device = argv[optind++];
    if (is_over && !make_options(&made, argv[optind++], bytes, takes_any)) return fail("the log's name", EINVAL);
    options = made;
    int status = serve(argc - optind, argv + optind);
    free(made);
    return status;
}
