/* A daemon that keeps lines of text in the blocks of one volume, and loses none that it has answered.
 *
 *     daemon HOMEFILE LOGFILE PORT
 *
 * HOMEFILE and LOGFILE are the volume's two devices, which it locks and recovers as it starts. The log is sealed, and in two files that are written by turns:
 * LOGFILE, and LOGFILE with `.1` behind its name. On this port of this machine it answers each line by a line:
 * `put BLOCK TEXT` by `ok` once the text is on the log, `get BLOCK` by the text; else by `error N`. All that came in at once is committed together: one
 * checkpoint, and one sync of the log, for all of it. */
#define _GNU_SOURCE
#include <arpa/inet.h>
#include <fcntl.h>
#include <libgen.h>
#include <poll.h>
#include <refskold.h>
#include <signal.h>
#include <stdbool.h>
#include <stdio.h>
#include <stdlib.h>
#include <string.h>
#include <sys/file.h>
#include <sys/mman.h>
#include <sys/random.h>
#include <unistd.h>

/* A file of the log has the header, texts of LOG_BYTES at most, and 8 bytes for each of them, the shortest of which has 52: that is less than FILE_BYTES. */
enum { BLOCKS = 1024, CLIENTS = 16, LINE = 4096, LOG_BYTES = REFSKOLD_LEAST_LOG, FILE_BYTES = LOG_BYTES * 3 / 2 };

/* A volume: its mount, and its devices. */
static refskold mount;
static int home;

/* The log: its two files, the one that is written, the header of that one, whose end becomes the last seal, how many bytes it has, and its texts alone. */
static int journals[2], newer;
static unsigned char header[REFSKOLD_LOG_HEADER], volume[16];
static uint64_t generation, salt;
static size_t filled, texts;

/* Who is served: the beginning of the next line, and how many `ok` are owed to him. */
static struct client {
    char line[LINE];
    size_t length;
    unsigned owed;
} clients[CLIENTS];

static volatile sig_atomic_t is_ending;

static void stop(const char *what, int status)
{
    fprintf(stderr, "daemon: %s: %s\n", what, strerror(status < 0 ? -status : errno));
    exit(1);
}

/* ---- The log ---- */

static bool put_at(int file, const void *bytes, size_t length, size_t at)
{
    return pwrite(file, bytes, length, (off_t)at) == (ssize_t)length;
}

/* Empties a file, and makes that safe. */
static bool empty(int file)
{
    return ftruncate(file, 0) == 0 && fdatasync(file) == 0;
}

/* Begins a file of the log that is empty. Its header is safe before anything stands behind it; then come zeros, so that no later sync changes a length. */
static bool begin_file(int which, const unsigned char *link)
{
    static const uint8_t zeros[FILE_BYTES - REFSKOLD_LOG_HEADER];
    if (refskold_log_header(header, REFSKOLD_BLOCK, LOG_BYTES, ++generation, salt, link, volume) != 0) return false;
    if (!put_at(journals[which], header, sizeof header, 0) || fdatasync(journals[which]) != 0) return false;
    newer = which, filled = sizeof header, texts = 0;
    return put_at(journals[which], zeros, sizeof zeros, sizeof header);
}

/* Takes a turn where the next text would be too much for the file that is written. What the other one has is home then, or again in this one: the mount
 * has never more than LOG_BYTES on the log that it still needs. So that one is emptied, and goes on behind the last seal of this one. */
static bool take_turn(size_t next)
{
    int older = !newer;
    if (texts + next <= LOG_BYTES) return true;
    return empty(journals[older]) && begin_file(older, header + REFSKOLD_LOG_HEAD);
}

/* Writes the text of the checkpoint that is begun, and behind it its seal, and syncs both at once. The room has place for the seal. */
static bool append(uint8_t *text, size_t length)
{
    if (!take_turn(length) || refskold_seal(&mount, header) != 0) return false;
    memcpy(text + length, header + REFSKOLD_LOG_HEAD, REFSKOLD_SEAL);
    if (!put_at(journals[newer], text, length + REFSKOLD_SEAL, filled) || fdatasync(journals[newer]) != 0) return false;
    filled += length + REFSKOLD_SEAL;
    texts += length;
    return true;
}

/* Empties the log, once all that it says is home. The newer file alone says what came last, so it is the last to go. */
static bool empty_log(void)
{
    return empty(journals[!newer]) && empty(journals[newer]);
}

/* ---- Jobs ---- */

/* Does the checkpoint that is owed, if one is. */
static int checkpoint(void)
{
    static uint8_t text[REFSKOLD_PIECES * REFSKOLD_BLOCK + REFSKOLD_SEAL];
    refskold_reply reply;
    uint64_t serial;
    size_t length = 0;
    int status = refskold_take(&mount, REFSKOLD_CHECKPOINT, &serial);
    if (status != REFSKOLD_TAKEN) return status;
    status = refskold_begin(&mount, serial, &reply);
    if (status != 0 || reply.word != REFSKOLD_BEGUN) return status;
    for (uint32_t k = 0; k < reply.pieces; k++) {
        if ((status = refskold_piece(&mount, k, text + length, REFSKOLD_BLOCK)) < 0) stop("a piece", status);
        length += (size_t)status;
    }
    bool is_safe = append(text, length);
    return refskold_end(&mount, serial, is_safe ? reply.pieces : 0, is_safe, NULL);
}

/* Does the flush that is owed, if one is: how many blocks it had. */
static int flush(void)
{
    static uint8_t contents[REFSKOLD_PLAN][REFSKOLD_BLOCK];
    refskold_plan plan;
    uint64_t serial;
    uint32_t written = 0;
    int status = refskold_take(&mount, REFSKOLD_FLUSH, &serial);
    if (status != REFSKOLD_TAKEN) return status;
    status = refskold_homes(&mount, &plan, contents, sizeof contents);
    if (status < 0) return status;
    for (uint32_t k = 0; k < plan.count; k++)
        if (pwrite(home, contents[k], REFSKOLD_BLOCK, (off_t)(plan.blocks[k] * REFSKOLD_BLOCK)) == REFSKOLD_BLOCK) written |= 1u << k;
    status = refskold_flush(&mount, serial, plan.count, written, fdatasync(home) == 0, NULL);
    return status < 0 ? status : (int)plan.count;
}

/* Brings all that is committed to the log. */
static int force(void)
{
    uint64_t waits = 0;
    int status;
    while ((status = refskold_force(&mount, &waits)) == 0 && waits != 0)
        if ((status = checkpoint()) != 0) return status;
    return status;
}

/* Brings all of it home as well: then the mount has its whole log again. */
static int settle(void)
{
    int status = force();
    if (status == 0) status = refskold_push(&mount);
    while (status == 0 && (status = flush()) > 0) status = 0;
    return status;
}

/* ---- Transactions ---- */

/* Opens a transaction that has one block, with its content. */
static int start(uint64_t block, uint64_t *trans)
{
    uint8_t content[REFSKOLD_BLOCK];
    int status = refskold_alloc(&mount, 5000, 1, 0, trans);
    if (status == -EAGAIN && settle() == 0) status = refskold_alloc(&mount, 5000, 1, 0, trans);
    if (status != 0) return status;
    if ((status = refskold_read(&mount, *trans, block)) == -ENOBUFS && settle() == 0) status = refskold_read(&mount, *trans, block);
    if (status == REFSKOLD_ASKS) {
        bool is_read = pread(home, content, sizeof content, (off_t)(block * sizeof content)) == sizeof content;
        status = is_read ? refskold_read_content(&mount, *trans, block, content) : refskold_read_failed(&mount, *trans, block);
    }
    if (status != 0) refskold_cancel(&mount, *trans, NULL);
    return status;
}

static int put(uint64_t block, const char *text)
{
    uint64_t trans;
    int status = start(block, &trans);
    if (status != 0) return status;
    status = refskold_log(&mount, trans, block, 0, text, strlen(text) + 1);
    if (status == 0) return refskold_commit(&mount, trans, NULL);
    refskold_cancel(&mount, trans, NULL);
    return status;
}

static int get(uint64_t block, char text[REFSKOLD_BLOCK])
{
    uint64_t trans;
    int status = start(block, &trans);
    if (status != 0) return status;
    status = refskold_view(&mount, trans, block, text);
    refskold_cancel(&mount, trans, NULL);
    return status;
}

/* ---- Clients ---- */

/* Answers what is owed to a client, once all that was committed is on the log. Without its log the daemon can only end. */
static void pay(struct client *client, int to)
{
    int status = client->owed > 0 ? force() : 0;
    if (status != 0) stop("the log", status);
    for (; client->owed > 0; client->owed--) dprintf(to, "ok\n");
}

static void serve(struct client *client, int to, const char *line)
{
    char text[REFSKOLD_BLOCK];
    unsigned long long block;
    int at = 0, status = -EINVAL;
    if (sscanf(line, "put %llu %n", &block, &at) == 1 && at > 0 && (status = put(block, line + at)) == 0) {
        client->owed++;
        return;
    }
    if (sscanf(line, "get %llu", &block) == 1) status = get(block, text);
    pay(client, to);
    if (status == 0) dprintf(to, "%s\n", text);
    else dprintf(to, "error %d\n", -status);
}

/* Serves the lines that came from a client: whether it is still there. */
static bool take_lines(struct client *client, int from)
{
    ssize_t got = read(from, client->line + client->length, LINE - 1 - client->length);
    if (got <= 0) return false;
    client->length += (size_t)got;
    client->line[client->length] = '\0';
    for (char *end; (end = strchr(client->line, '\n')) != NULL;) {
        *end = '\0';
        serve(client, from, client->line);
        client->length -= (size_t)(end + 1 - client->line);
        memmove(client->line, end + 1, client->length + 1);
    }
    return client->length < LINE - 1;
}

/* ---- The daemon ---- */

/* Makes the name of a file safe: one that was made just now could be gone after a power cut, with all that it has. */
static void sync_folder(const char *file)
{
    char *name = strdup(file);
    int folder = name == NULL ? -1 : open(dirname(name), O_RDONLY | O_DIRECTORY | O_CLOEXEC);
    if (folder < 0 || (fsync(folder) != 0 && errno != EINVAL)) stop("the folder", 0); // a file system that syncs no folders is trusted
    close(folder);
    free(name);
}

/* Opens a file, and locks it as `xth` does: nobody else may have it while this daemon lives. */
static int open_file(const char *name)
{
    int file = open(name, O_RDWR | O_CREAT | O_CLOEXEC, 0600);
    if (file < 0) stop("the volume", 0);
    if (flock(file, LOCK_EX | LOCK_NB) != 0) stop("the volume is in use", 0);
    sync_folder(name);
    return file;
}

/* Opens the volume's files. Its log has the home file's name, as far as that fits. */
static void open_volume(const char *home_file, const char *log_file)
{
    char *other_file, *copy = strdup(home_file);
    if (copy == NULL || asprintf(&other_file, "%s.1", log_file) < 0) stop("the names", 0);
    const char *name = basename(copy);
    memcpy(volume, name, strnlen(name, sizeof volume));
    home = open_file(home_file);
    journals[0] = open_file(log_file);
    journals[1] = open_file(other_file);
    if (ftruncate(home, (off_t)BLOCKS * REFSKOLD_BLOCK) != 0) stop("the home device", 0);
    free(copy);
    free(other_file);
}

/* What a file of the log has. */
struct bytes {
    void *at;
    size_t length;
};

static struct bytes bytes_of(int file)
{
    struct bytes bytes = { NULL, (size_t)lseek(file, 0, SEEK_END) };
    if (bytes.length > 0) bytes.at = mmap(NULL, bytes.length, PROT_READ, MAP_PRIVATE, file, 0);
    if (bytes.at == MAP_FAILED) stop("the log", 0);
    return bytes;
}

/* Lays over the home device what the texts of the log say. */
static void lay(refskold_recovery *recovery, uint64_t blocks)
{
    uint8_t content[REFSKOLD_BLOCK];
    uint64_t block;
    for (uint64_t k = 0; k < blocks; k++) {
        int status = refskold_recovery_block(recovery, k, &block);
        if (status != 0) stop("the log", status);
        if (pread(home, content, sizeof content, (off_t)(block * sizeof content)) != sizeof content) stop("the home device", 0);
        if ((status = refskold_recovery_lay(recovery, block, content)) != 0) stop("the log", status);
        if (!put_at(home, content, sizeof content, block * sizeof content)) stop("the home device", 0);
    }
}

/* Brings home what the log says, and then empties it. */
static void recover(void)
{
    refskold_recovery recovery = REFSKOLD_NONE;
    refskold_log_told told;
    struct bytes one = bytes_of(journals[0]), other = bytes_of(journals[1]);
    int status = refskold_recovery_open_files(&recovery, one.at, one.length, other.at, other.length, &told);
    if (status == -EILSEQ) fprintf(stderr, "daemon: the log is broken at byte %llu of file %llu\n", (unsigned long long)told.at, (unsigned long long)told.file);
    if (status != 0 || told.size != 0) stop("the log", status < 0 ? status : -EILSEQ); // a log of other blocks is another program's
    lay(&recovery, told.blocks);
    refskold_recovery_close(&recovery);
    newer = told.older == 0;
    if (one.at != NULL) munmap(one.at, one.length);
    if (other.at != NULL) munmap(other.at, other.length);
    if (fdatasync(home) != 0 || !empty_log()) stop("the volume", 0);
    printf("recovered %llu texts %llu blocks\n", (unsigned long long)told.texts, (unsigned long long)told.blocks);
    fflush(stdout);
}

/* Begins a life: a mount, and an empty log that no file of another life goes on. */
static void begin_life(void)
{
    int status = refskold_open(&mount, 0, LOG_BYTES, BLOCKS);
    if (status != 0) stop("the mount", status);
    if (getrandom(&salt, sizeof salt, 0) != sizeof salt || !begin_file(0, NULL)) stop("the log", 0);
}

static int listen_at(const char *port)
{
    struct sockaddr_in at = { .sin_family = AF_INET, .sin_port = htons((uint16_t)atoi(port)), .sin_addr.s_addr = htonl(INADDR_LOOPBACK) };
    int listening = socket(AF_INET, SOCK_STREAM | SOCK_CLOEXEC, 0), yes = 1;
    setsockopt(listening, SOL_SOCKET, SO_REUSEADDR, &yes, sizeof yes);
    if (bind(listening, (struct sockaddr *)&at, sizeof at) != 0 || listen(listening, CLIENTS) != 0) stop("the port", 0);
    return listening;
}

static void end(int signal)
{
    is_ending = signal;
}

/* Serves what came in, and then answers what is owed. */
static void turn(struct pollfd *polled)
{
    for (int k = 0; k < CLIENTS; k++) {
        if (polled[k].fd < 0 || polled[k].revents == 0 || take_lines(&clients[k], polled[k].fd)) continue;
        close(polled[k].fd);
        polled[k].fd = -1;
        clients[k] = (struct client){ .length = 0 };
    }
    for (int k = 0; k < CLIENTS; k++) pay(&clients[k], polled[k].fd);
}

int main(int argc, char **argv)
{
    struct pollfd polled[CLIENTS + 1];
    if (argc != 4) stop("HOMEFILE LOGFILE PORT", -EINVAL);
    open_volume(argv[1], argv[2]);
    int listening = listen_at(argv[3]); // before the log is emptied: a daemon that cannot be asked changes nothing
    recover();
    begin_life();
    signal(SIGPIPE, SIG_IGN);
    sigaction(SIGTERM, &(struct sigaction){ .sa_handler = end }, NULL);
    for (int k = 0; k < CLIENTS; k++) polled[k] = (struct pollfd){ -1, POLLIN, 0 };
    polled[CLIENTS] = (struct pollfd){ listening, POLLIN, 0 };
    while (!is_ending && poll(polled, CLIENTS + 1, -1) > 0) {
        turn(polled);
        for (int k = 0; k < CLIENTS && polled[CLIENTS].revents != 0; k++)
            if (polled[k].fd < 0) polled[k].fd = accept4(polled[CLIENTS].fd, NULL, NULL, SOCK_CLOEXEC), polled[CLIENTS].revents = 0;
    }
    int status = settle();
    if (status == 0) status = refskold_unmount(&mount);
    if (status != 0 || !empty_log()) stop("the end", status);
    return 0;
}
