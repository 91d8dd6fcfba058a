/* Sixteen mounts of the library, driven by the lines of a script. */
#define _GNU_SOURCE
#include "host.h"

#include <stdarg.h>
#include <stdio.h>
#include <stdlib.h>
#include <string.h>

/* The words of a line. */
struct words {
    unsigned count;
    size_t at[MOST_WORDS]; /* where each begins */
    char text[8448];
};

static void fail(const char *why)
{
    fprintf(stderr, "script: %s\n", why);
    exit(2);
}

/* ---- What is told ---- */

__attribute__((format(printf, 2, 3))) static void tell(struct host *host, const char *form, ...)
{
    va_list rest;
    va_start(rest, form);
    int length = vsnprintf(host->output + host->length, OUTPUT_BYTES - host->length, form, rest);
    va_end(rest);
    if (length < 0 || (size_t)length >= OUTPUT_BYTES - host->length) fail("the output is too long");
    host->length += (size_t)length;
}

static size_t run_at(const uint8_t *bytes, size_t length, size_t at)
{
    size_t end = at;
    while (end < length && bytes[end] == bytes[at]) end++;
    return end - at;
}

/* Bytes as lines spell them: a run of four or more is XX*N, and a dot stands between runs unless both are shorter. */
static void tell_data(struct host *host, const uint8_t *bytes, size_t length)
{
    bool short_before = true;
    for (size_t at = 0; at < length;) {
        size_t run = run_at(bytes, length, at);
        bool is_short = run < 4;
        if (at > 0 && !(is_short && short_before)) tell(host, ".");
        if (!is_short) tell(host, "%02x*%zu", bytes[at], run);
        for (size_t k = 0; is_short && k < run; k++) tell(host, "%02x", bytes[at]);
        short_before = is_short;
        at += run;
    }
    if (length == 0) tell(host, "-");
}

static const char *error_name(int status)
{
    switch (-status) {
    case EIO: return "EIO";
    case EAGAIN: return "EAGAIN";
    case EBUSY: return "EBUSY";
    case ENODEV: return "ENODEV";
    case EINVAL: return "EINVAL";
    case ENOSPC: return "ENOSPC";
    case ENOBUFS: return "ENOBUFS";
    case ESTALE: return "ESTALE";
    default: fail("an errno that no reply has");
    }
    return NULL;
}

static void tell_held(struct host *host, const refskold_reply *reply)
{
    if (reply->held_count > 0) tell(host, " held");
    for (uint32_t k = 0; k < reply->held_count; k++) tell(host, " %llu", (unsigned long long)reply->held[k]);
}

/* Tells an error where it is one. */
static bool told_error(struct host *host, int status)
{
    if (status < 0 && status != -ENOMEM) tell(host, "%s", error_name(status));
    return status < 0;
}

/* ---- What a line says ---- */

static struct words words_of(const char *line, size_t length)
{
    struct words words = { .count = 0 };
    if (length >= sizeof words.text) fail("a line is too long");
    memcpy(words.text, line, length);
    for (char *rest = words.text, *word; (word = strtok_r(rest, " ", &rest)) != NULL;) {
        if (words.count == MOST_WORDS) fail("a line has too many words");
        words.at[words.count++] = (size_t)(word - words.text);
    }
    return words;
}

static const char *word(const struct words *words, unsigned place)
{
    if (place >= words->count) fail("a line has too few words");
    return words->text + words->at[place];
}

static uint64_t number(const char *text)
{
    return strtoull(text, NULL, 10);
}

/* A number behind its letter. */
static uint64_t numbered(const char *text)
{
    return number(text + 1);
}

static struct job job_of(const char *text)
{
    struct job job = { 0 };
    char kind[8];
    unsigned long long serial;
    if (sscanf(text, "%u.%u.%7[a-z].%llu", &job.slot, &job.life, kind, &serial) != 4 || job.slot >= SLOTS) fail("no name of a job");
    job.kind = strcmp(kind, "flush") == 0 ? REFSKOLD_FLUSH : REFSKOLD_CHECKPOINT;
    job.serial = serial;
    return job;
}

/* Bytes that a line spells: their count. */
static size_t data_of(const char *text, uint8_t *bytes, size_t room)
{
    size_t length = 0;
    while (*text != '\0' && *text != '-') {
        unsigned byte;
        size_t run = 1;
        if (*text == '.') text++;
        if (sscanf(text, "%2x", &byte) != 1) fail("no data");
        text += 2;
        if (*text == '*') run = strtoul(text + 1, (char **)&text, 10);
        if (run > room - length) fail("data is too long");
        memset(bytes + length, (int)byte, run);
        length += run;
    }
    return length;
}

unsigned slot_of_line(const char *line)
{
    unsigned slot = SLOTS, worker;
    if (sscanf(line, "%u.", &slot) != 1 && sscanf(line, "post %u", &slot) != 1 && sscanf(line, "mount %u", &slot) != 1
        && sscanf(line, "show %u", &slot) != 1 && sscanf(line, "peek %u", &slot) != 1
        && sscanf(line, "%*[a-z] %u %u.", &worker, &slot) != 2) fail("no step");
    return slot;
}

/* ---- Requests ---- */

static int read_block(refskold *mount, size_t size, const struct words *words, bool *disorder)
{
    uint8_t content[REFSKOLD_BLOCK];
    uint64_t trans = numbered(word(words, 2)), block = number(word(words, 3));
    int status = refskold_read(mount, trans, block);
    bool is_answered = words->count > 4;
    *disorder = is_answered != (status == REFSKOLD_ASKS);
    if (status != REFSKOLD_ASKS || *disorder) return status;
    if (strcmp(word(words, 5), "fail") == 0) return refskold_read_failed(mount, trans, block);
    size_t length = data_of(word(words, 5), content, sizeof content);
    status = refskold_read_content_sized(mount, trans, block, content, length);
    // a content of another length is no answer
    *disorder = length != size && status != -ENOMEM;
    if (*disorder && status != -EINVAL) fail("a content of another length was taken");
    return status;
}

/* The requests that tell `ok` where they are not refused; -1 where it is another. */
static int plain_request(refskold *mount, const struct words *words)
{
    static const struct { const char *word; int (*of_block)(refskold *, uint64_t, uint64_t); } of_blocks[] = {
        { "get", refskold_get }, { "hold", refskold_hold }, { "unhold", refskold_unhold }, { "join", refskold_join },
        { "inval", refskold_inval },
    };
    static const struct { const char *word; int (*of_mount)(refskold *); } of_mounts[] = {
        { "push", refskold_push }, { "shutdown", refskold_shutdown }, { "freeze", refskold_freeze },
        { "thaw", refskold_thaw }, { "unmount", refskold_unmount },
    };
    const char *name = word(words, 1);
    for (size_t k = 0; k < sizeof of_blocks / sizeof *of_blocks; k++)
        if (strcmp(name, of_blocks[k].word) == 0)
            return of_blocks[k].of_block(mount, numbered(word(words, 2)), number(word(words, 3)));
    for (size_t k = 0; k < sizeof of_mounts / sizeof *of_mounts; k++)
        if (strcmp(name, of_mounts[k].word) == 0) return of_mounts[k].of_mount(mount);
    if (strcmp(name, "drop") == 0) return refskold_release(mount, number(word(words, 2)));
    if (strcmp(name, "log") != 0) return 1;
    uint8_t data[REFSKOLD_BLOCK];
    size_t length = data_of(word(words, 5), data, sizeof data);
    return refskold_log(mount, numbered(word(words, 2)), number(word(words, 3)), (uint32_t)number(word(words, 4)), data, length);
}

/* Commit, roll or cancel. */
static int end_leg(struct host *host, refskold *mount, const struct words *words)
{
    refskold_reply reply = { 0 };
    const char *name = word(words, 1);
    uint64_t trans = numbered(word(words, 2));
    int status = name[0] == 'r' ? refskold_roll(mount, trans, &reply)
        : name[1] == 'o' ? refskold_commit(mount, trans, &reply) : refskold_cancel(mount, trans, &reply);
    if (!told_error(host, status)) {
        if (name[0] == 'c' && name[1] == 'a') tell(host, "ok");
        else tell(host, "c%llu", (unsigned long long)reply.number);
    }
    if (status != -ENOMEM) tell_held(host, &reply);
    return status;
}

/* Force, or force to a checkpoint. */
static int force(struct host *host, refskold *mount, const struct words *words)
{
    uint64_t waits = 0;
    int status = words->count > 2 ? refskold_force_to(mount, numbered(word(words, 2)), &waits) : refskold_force(mount, &waits);
    if (told_error(host, status)) return status;
    if (waits == 0) tell(host, "done");
    else tell(host, "wait c%llu", (unsigned long long)waits);
    return status;
}

static int alloc(struct host *host, refskold *mount, const struct words *words)
{
    uint64_t trans = 0;
    int status = refskold_alloc(mount, (uint32_t)number(word(words, 2)), (uint32_t)number(word(words, 3)),
                                strcmp(word(words, 4), "perm") == 0, &trans);
    if (!told_error(host, status)) tell(host, "t%llu", (unsigned long long)trans);
    return status;
}

/* What a mount tells of itself. */
static int look(struct host *host, refskold *mount)
{
    refskold_state state;
    int status = refskold_stat(mount, &state);
    if (told_error(host, status)) return status;
    tell(host, "stat %u %u %u %u %u", state.transactions, state.busy, state.idle, state.committed, state.cost);
    tell(host, " c%llu %u c%llu", (unsigned long long)state.flight, state.active, (unsigned long long)state.least);
    tell(host, " %u %u %u %s", state.granted, state.used, state.free, state.frozen != 0 ? "frozen" : "thawed");
    tell(host, " %u %u", state.owed, state.outstanding);
    return status;
}

/* The requests that tell something; 1 where it is another. */
static int telling_request(struct host *host, unsigned slot, const struct words *words)
{
    refskold *mount = &host->mounts[slot];
    size_t size = host->sizes[slot];
    const char *name = word(words, 1);
    uint8_t content[REFSKOLD_BLOCK];
    int unlocked = 0, status;
    if (strcmp(name, "alloc") == 0) return alloc(host, mount, words);
    if (strcmp(name, "commit") == 0 || strcmp(name, "roll") == 0 || strcmp(name, "cancel") == 0) return end_leg(host, mount, words);
    if (strncmp(name, "force", 5) == 0) return force(host, mount, words);
    if (strcmp(name, "stat") == 0) return look(host, mount);
    if (strcmp(name, "view") == 0) {
        status = refskold_view_sized(mount, numbered(word(words, 2)), number(word(words, 3)), content, size);
        if (told_error(host, status)) return status;
        tell(host, "data ");
        tell_data(host, content, size);
        return status;
    }
    if (strcmp(name, "relse") != 0) return 1;
    status = refskold_relse(mount, numbered(word(words, 2)), number(word(words, 3)), &unlocked);
    if (!told_error(host, status)) tell(host, unlocked ? "free" : "kept");
    return status;
}

static enum ended call(struct host *host, unsigned slot, const struct words *words)
{
    refskold *mount = &host->mounts[slot];
    bool disorder = false;
    uint32_t life = (uint32_t)number(strchr(word(words, 0), '.') + 1);
    if (life != host->lives[slot] && refskold_shut(mount) != -ENODEV) {
        tell(host, "ESTALE");
        return TOLD;
    }
    int status = telling_request(host, slot, words);
    if (status == 1) {
        status = strcmp(word(words, 1), "read") == 0 ? read_block(mount, host->sizes[slot], words, &disorder) : plain_request(mount, words);
        if (status == 1 && !disorder) fail("no request");
        if (disorder) return DISORDER;
        if (!told_error(host, status)) tell(host, "ok");
    }
    return status == -ENOMEM ? NO_MEMORY : TOLD;
}

/* ---- Jobs ---- */

static bool is_same(const struct job *one, const struct job *other)
{
    return one->slot == other->slot && one->life == other->life && one->kind == other->kind && one->serial == other->serial;
}

static enum ended post(struct host *host, struct job job)
{
    uint64_t serial;
    if (job.life != host->lives[job.slot] || refskold_take(&host->mounts[job.slot], job.kind, &serial) != REFSKOLD_TAKEN || serial != job.serial
        || host->queued == QUEUE_PLACES) return DISORDER;
    host->queue[host->queued++] = job;
    tell(host, "ok");
    return TOLD;
}

static enum ended take(struct host *host, unsigned worker, struct job job)
{
    if (host->busy[worker] || host->queued == 0 || !is_same(&host->queue[0], &job)) return DISORDER;
    host->queued--;
    memmove(host->queue, host->queue + 1, host->queued * sizeof *host->queue);
    host->hands[worker] = job;
    host->busy[worker] = true;
    tell(host, "ok");
    return TOLD;
}

static bool has_in_hand(const struct host *host, unsigned worker, const struct job *job)
{
    return host->busy[worker] && is_same(&host->hands[worker], job);
}

static enum ended begin(struct host *host, unsigned worker, struct job job)
{
    refskold_reply reply;
    if (!has_in_hand(host, worker, &job) || job.kind != REFSKOLD_CHECKPOINT) return DISORDER;
    int status = refskold_begin(&host->mounts[job.slot], job.serial, &reply);
    if (status != 0) return status == -ENOMEM ? NO_MEMORY : DISORDER;
    host->busy[worker] = reply.word == REFSKOLD_BEGUN;
    if (reply.word == REFSKOLD_BEGUN) tell(host, "begun c%llu %u", (unsigned long long)reply.number, reply.pieces);
    else tell(host, "nothing");
    return TOLD;
}

/* What the end offers: the pieces that were taken, and the sync; or the piece that was not. */
static void tell_log(struct host *host, unsigned slot, uint32_t taken, bool is_all, bool is_synced,
                     uint8_t (*pieces)[REFSKOLD_BLOCK], const int *lengths)
{
    for (uint32_t k = 0; k < taken + !is_all; k++) {
        tell(host, "\n%u log ", slot);
        tell_data(host, pieces[k], (size_t)lengths[k]);
        tell(host, k < taken ? " ok" : " fail");
    }
    if (is_all) tell(host, "\n%u logsync %s", slot, is_synced ? "ok" : "fail");
}

static enum ended end(struct host *host, unsigned worker, struct job job, const struct words *words)
{
    uint8_t pieces[REFSKOLD_PIECES][REFSKOLD_BLOCK];
    int lengths[REFSKOLD_PIECES], length;
    uint32_t count = 0, taken = (uint32_t)number(word(words, 3));
    refskold *mount = &host->mounts[job.slot];
    refskold_reply reply;
    bool is_all = strcmp(word(words, 4), "none") != 0, is_synced = strcmp(word(words, 4), "ok") == 0;
    if (!has_in_hand(host, worker, &job)) return DISORDER;
    while (count < REFSKOLD_PIECES && (length = refskold_piece(mount, count, pieces[count], REFSKOLD_BLOCK)) > 0) lengths[count++] = length;
    if (is_all ? taken != count : taken >= count) return DISORDER;
    int status = refskold_end(mount, job.serial, taken, is_synced, &reply);
    if (status < 0 && status != -EIO) return status == -ENOMEM ? NO_MEMORY : DISORDER;
    host->busy[worker] = false;
    tell(host, "%s c%llu", status == 0 ? "landed" : "failed", (unsigned long long)reply.number);
    tell_log(host, job.slot, taken, is_all, is_synced, pieces, lengths);
    return TOLD;
}

static enum ended flush(struct host *host, unsigned worker, struct job job, const struct words *words)
{
    uint8_t contents[REFSKOLD_PLAN * REFSKOLD_BLOCK], content[REFSKOLD_BLOCK];
    refskold *mount = &host->mounts[job.slot];
    size_t size = host->sizes[job.slot];
    refskold_plan plan;
    refskold_reply reply;
    uint32_t written = 0;
    int count = refskold_homes(mount, &plan, contents, sizeof contents);
    if (!has_in_hand(host, worker, &job) || count < 0 || words->count - 3 != (count > 0 ? (unsigned)count + 1 : 0)) return DISORDER;
    for (unsigned k = 0; k < (unsigned)count; k++) {
        if (refskold_home_sized(mount, k, content, size) != 0) fail("no content of a block of the plan");
        if (memcmp(content, contents + k * size, size) != 0) fail("another content of a block of the plan");
        if (strcmp(word(words, 3 + k), "ok") == 0) written |= 1u << k;
    }
    bool is_synced = strcmp(word(words, words->count - 1), "ok") == 0;
    int status = refskold_flush(mount, job.serial, (uint32_t)count, written, is_synced, &reply);
    if (status < 0 && status != -EIO) return status == -ENOMEM ? NO_MEMORY : DISORDER;
    if ((status == -EIO) != (count > 0 && !(is_synced && written == (1u << count) - 1))) fail("an I/O error of a flush, or none");
    host->busy[worker] = false;
    if (reply.word == REFSKOLD_FLUSHED) tell(host, "flushed %llu", (unsigned long long)reply.number);
    else tell(host, "nothing");
    for (unsigned k = 0; k < (unsigned)count; k++) {
        tell(host, "\n%u home %llu ", job.slot, (unsigned long long)plan.blocks[k]);
        tell_data(host, contents + k * size, size);
        tell(host, written & 1u << k ? " ok" : " fail");
    }
    if (count > 0) tell(host, "\n%u homesync %s", job.slot, is_synced ? "ok" : "fail");
    return TOLD;
}

static enum ended job_step(struct host *host, const struct words *words)
{
    const char *name = word(words, 0);
    if (strcmp(name, "post") == 0) return post(host, job_of(word(words, 1)));
    unsigned worker = (unsigned)number(word(words, 1));
    struct job job = job_of(word(words, 2));
    if (worker >= WORKERS) fail("no worker");
    if (strcmp(name, "take") == 0) return take(host, worker, job);
    if (strcmp(name, "begin") == 0) return begin(host, worker, job);
    if (strcmp(name, "end") == 0) return end(host, worker, job, words);
    if (strcmp(name, "flush") == 0) return flush(host, worker, job, words);
    fail("no step");
    return DISORDER;
}

/* ---- Slots ---- */

static enum ended mount_slot(struct host *host, unsigned slot, const struct words *words)
{
    refskold *mount = &host->mounts[slot];
    uint32_t last = host->lives[slot], log_bytes = (uint32_t)number(word(words, 2));
    uint64_t blocks = number(word(words, 3)), size = words->count > 4 ? number(word(words, 4)) : REFSKOLD_BLOCK;
    int status = words->count > 4 ? refskold_open_sized(mount, last, log_bytes, blocks, (uint32_t)size) : refskold_open(mount, last, log_bytes, blocks);
    if (status == 0) host->sizes[slot] = (size_t)size;
    if (!told_error(host, status)) tell(host, "life %u", ++host->lives[slot]);
    return status == -ENOMEM ? NO_MEMORY : TOLD;
}

static enum ended show(struct host *host, unsigned slot)
{
    int reason = refskold_shut(&host->mounts[slot]);
    if (reason != -ENODEV) host->board[slot] = (struct shown){ host->lives[slot], reason };
    tell(host, "ok");
    return TOLD;
}

static enum ended peek(struct host *host, unsigned slot)
{
    static const char *const reasons[] = { "live", "META_IO_ERROR", "LOG_IO_ERROR", "FORCE_UMOUNT", "CORRUPT_INCORE" };
    tell(host, "seen %u %s", host->board[slot].life, reasons[host->board[slot].reason]);
    return TOLD;
}

void host_start(struct host *host)
{
    memset(host, 0, offsetof(struct host, output));
}

enum ended host_step(struct host *host, const char *line, size_t length)
{
    struct words words = words_of(line, length);
    const char *name = word(&words, 0);
    unsigned slot = slot_of_line(line);
    size_t told = host->length;
    enum ended ended;
    if (slot >= SLOTS) fail("no slot");
    host->steps++;
    tell(host, "%u ", slot);
    if (name[0] >= '0' && name[0] <= '9') ended = call(host, slot, &words);
    else if (strcmp(name, "mount") == 0) ended = mount_slot(host, slot, &words);
    else if (strcmp(name, "show") == 0) ended = show(host, slot);
    else if (strcmp(name, "peek") == 0) ended = peek(host, slot);
    else ended = job_step(host, &words);
    if (ended != TOLD) host->length = told;
    if (ended == DISORDER) tell(host, "disorder %u", host->steps);
    if (ended == NO_MEMORY) host->steps--;
    else tell(host, "\n");
    return ended;
}

void host_end(struct host *host)
{
    for (unsigned slot = 0; slot < SLOTS; slot++) refskold_close(&host->mounts[slot]);
}
