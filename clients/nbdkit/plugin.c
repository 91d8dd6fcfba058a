/* An nbdkit plugin: up to sixteen block devices in one process, each over a volume of Refskold of its own.
 *
 *     nbdkit refskold export=NAME home=FILE|URI log=FILE|URI [log.1=URI] [size=SIZE] [log-size=SIZE] [export=NAME ..]..
 *
 * nbdkit-refskold-plugin(1) says what a client may rely on. */
#define NBDKIT_API_VERSION 2
#define REFSKOLD_VOLUME_IMPLEMENTATION
#include "device.h"

#include <inttypes.h>
#include <nbdkit-plugin.h>
#include <stdio.h>

#define THREAD_MODEL NBDKIT_THREAD_MODEL_PARALLEL

enum {
    EXPORTS = 16,
    BLOCK = REFSKOLD_BLOCK,
    MOST = REFSKOLD_HELD * BLOCK, /* bytes of whole blocks that one change takes */
    LEAST_LOG = 327680,           /* of a log that takes each such change */
    LOG = 4194304                 /* of one of which nothing is said */
};

/* An export. Its keeper, a thread, opens and closes its volume: one whose disk hangs holds up no other. */
struct export {
    const char *name, *home, *log, *other; /* other: the second device of a log that is no file */
    refskold_volume_options options;
    pthread_t keeper;
    pthread_mutex_t lock;   /* of all below */
    pthread_cond_t changed; /* any of it */
    enum { STARTING, LIVE, SHUT } state;
    bool is_stopping;
    unsigned users;
    refskold_volume *volume; /* NULL where it is not open; while there are users it stays */
};

static struct export exports[EXPORTS];
static unsigned export_count;

/* ---- The life of an export ---- */

/* A home file, which is made as long as it is to be. */
static int home_file(refskold_device *device, const struct export *export)
{
    int64_t wanted = (int64_t)export->options.blocks * BLOCK, length;
    int status = refskold_device_file(device, export->home);
    if (status != 0 || (length = device->length(device->context)) >= wanted) return status;
    return length < 0 ? (int)length : truncate(export->home, wanted) == 0 ? 0 : -errno;
}

/* The devices of an export of which some are remote: home, and both of the log. */
static int open_devices(const struct export *export, refskold_device devices[3])
{
    uint32_t log_bytes = export->options.log_bytes;
    int status = is_uri(export->home) ? remote_home(&devices[0], export->home) : home_file(&devices[0], export);
    if (status != 0) return status;
    if (!is_uri(export->log)) return refskold_device_log(&devices[1], export->log, 0);
    status = remote_log(&devices[1], export->log, log_bytes);
    if (status == 0) status = remote_log(&devices[2], export->other, log_bytes);
    if (status == -ENOSPC) nbdkit_error("export %s: a device of its log has less than %" PRIu64 " bytes", export->name, remote_room(log_bytes));
    if (status == -EEXIST) nbdkit_error("export %s: a device of its log has something else on it", export->name);
    return status;
}

static int open_remote(struct export *export, refskold_log_told *told)
{
    refskold_device devices[3] = { { 0 } };
    const char *name = is_uri(export->home) ? export->name : strrchr(export->home, '/') + 1; /* of an absolute path */
    int status = open_devices(export, devices);
    if (status == 0) return refskold_volume_open_on(&export->volume, &devices[0], &devices[1], name, &export->options, told);
    for (int k = 0; k < 3; k++)
        if (devices[k].close != NULL) devices[k].close(devices[k].context);
    return status;
}

/* Opens the volume of an export, and says what was recovered, or why it was not opened. */
static int open_volume(struct export *export)
{
    refskold_log_told told = { 0 };
    int status;
    if (!is_uri(export->home) && export->options.blocks == 0 && access(export->home, F_OK) != 0) status = -errno; /* it would be made, and be empty */
    else if (is_uri(export->home) || is_uri(export->log)) status = open_remote(export, &told);
    else status = refskold_volume_open(&export->volume, export->home, export->log, &export->options, &told);
    if (status == 0 && told.texts != 0)
        nbdkit_debug("export %s: recovered %" PRIu64 " checkpoints, %" PRIu64 " blocks", export->name, told.texts, told.blocks);
    if (status == -EILSEQ) nbdkit_error("export %s: its log is broken at byte %" PRIu64, export->name, told.at);
    else if (status == -EXDEV) nbdkit_error("export %s: its log is another volume's", export->name);
    else if (status != 0) nbdkit_error("export %s does not start: %s", export->name, strerror(-status));
    return status;
}

static void close_volume(struct export *export)
{
    if (export->volume == NULL) return;
    if (refskold_volume_close(export->volume) != 0) nbdkit_error("export %s did not end in order: its log has what was flushed", export->name);
    export->volume = NULL;
}

static void *keep(void *argument)
{
    struct export *export = argument;
    pthread_mutex_lock(&export->lock);
    while (!export->is_stopping) {
        if (export->state == STARTING) {
            pthread_mutex_unlock(&export->lock);
            close_volume(export);
            int status = open_volume(export);
            pthread_mutex_lock(&export->lock);
            export->state = status == 0 ? LIVE : SHUT;
            pthread_cond_broadcast(&export->changed);
        } else {
            pthread_cond_wait(&export->changed, &export->lock);
        }
    }
    pthread_mutex_unlock(&export->lock);
    close_volume(export);
    return NULL;
}

static int plugin_after_fork(void)
{
    for (unsigned k = 0; k < export_count; k++)
        if (pthread_create(&exports[k].keeper, NULL, keep, &exports[k]) != 0) {
            nbdkit_error("no thread for export %s", exports[k].name);
            return -1;
        }
    return 0;
}

static void plugin_cleanup(void)
{
    for (unsigned k = 0; k < export_count; k++) {
        pthread_mutex_lock(&exports[k].lock);
        exports[k].is_stopping = true;
        pthread_cond_broadcast(&exports[k].changed);
        pthread_mutex_unlock(&exports[k].lock);
    }
    for (unsigned k = 0; k < export_count; k++) pthread_join(exports[k].keeper, NULL);
}

/* ---- Words of the command line ---- */

static struct export *begin_export(const char *name)
{
    if (export_count == EXPORTS) {
        nbdkit_error("export %s: there are %d already, which are all that one process has", name, EXPORTS);
        return NULL;
    }
    exports[export_count] = (struct export){ .name = name, .options = { .log_bytes = LOG }, .lock = PTHREAD_MUTEX_INITIALIZER, .changed = PTHREAD_COND_INITIALIZER };
    return &exports[export_count++];
}

static int config_size(struct export *export, const char *key, const char *value)
{
    int64_t size = nbdkit_parse_size(value);
    if (size < 0) return -1;
    if (strcmp(key, "size") == 0 && size > 0 && size % BLOCK == 0) {
        export->options.blocks = (uint64_t)size / BLOCK;
        return 0;
    }
    if (strcmp(key, "log-size") == 0 && size >= LEAST_LOG && size <= (int64_t)REFSKOLD_MOST_LOG) {
        export->options.log_bytes = (uint32_t)size;
        return 0;
    }
    if (strcmp(key, "size") == 0) nbdkit_error("size=%s: no number of whole blocks of %d bytes", value, BLOCK);
    else nbdkit_error("log-size=%s: a log has %d to %u bytes here", value, LEAST_LOG, REFSKOLD_MOST_LOG);
    return -1;
}

static int plugin_config(const char *key, const char *value)
{
    struct export *export = export_count == 0 ? NULL : &exports[export_count - 1];
    const char *copy;
    if (strcmp(key, "export") == 0) return (copy = nbdkit_strdup_intern(value)) != NULL && begin_export(copy) != NULL ? 0 : -1;
    if (export == NULL) {
        nbdkit_error("%s=%s stands before the first export=NAME", key, value);
        return -1;
    }
    if (strcmp(key, "size") == 0 || strcmp(key, "log-size") == 0) return config_size(export, key, value);
    if (strcmp(key, "home") != 0 && strcmp(key, "log") != 0 && strcmp(key, "log.1") != 0) {
        nbdkit_error("%s is not known here", key);
        return -1;
    }
    copy = is_uri(value) ? nbdkit_strdup_intern(value) : nbdkit_absolute_path(value);
    if (strcmp(key, "home") == 0) export->home = copy;
    else if (strcmp(key, "log") == 0) export->log = copy;
    else export->other = copy;
    return copy == NULL ? -1 : 0;
}

/* How many exports have a name, or devices a word. */
static unsigned times(const char *word, bool is_name)
{
    unsigned count = 0;
    for (const struct export *export = exports; export < exports + export_count; export++) {
        const char *words[] = { export->home, export->log, export->other };
        if (is_name) count += strcmp(export->name, word) == 0;
        for (int k = 0; k < 3 && !is_name; k++) count += words[k] != NULL && strcmp(words[k], word) == 0;
    }
    return count;
}

/* Whether a device is remote and has two uses: what the locks of files keep away. */
static bool is_shared(const char *word)
{
    return word != NULL && is_uri(word) && times(word, false) > 1;
}

static int plugin_config_complete(void)
{
    for (const struct export *export = exports; export < exports + export_count; export++) {
        const char *fault = NULL;
        if (times(export->name, true) > 1) fault = "it stands there twice";
        else if (export->home == NULL || export->log == NULL) fault = "it has no home, or no log";
        else if (is_uri(export->log) && (export->other == NULL || !is_uri(export->other))) fault = "a log=URI wants log.1=URI beside it";
        else if (!is_uri(export->log) && export->other != NULL) fault = "log.1 stands beside a log=URI alone";
        else if (is_shared(export->home) || is_shared(export->log) || is_shared(export->other)) fault = "one of its devices stands there twice";
        if (fault == NULL) continue;
        nbdkit_error("export %s: %s", export->name, fault);
        return -1;
    }
    if (export_count > 0) return 0;
    nbdkit_error("no export=NAME is there");
    return -1;
}

static int plugin_get_ready(void)
{
    if (refskold_version() == REFSKOLD_VERSION) return 0;
    nbdkit_error("the library refskold is of another version");
    return -1;
}

/* ---- Clients ---- */

static int plugin_list_exports(int readonly, int is_tls, struct nbdkit_exports *list)
{
    (void)readonly, (void)is_tls;
    for (unsigned k = 0; k < export_count; k++)
        if (nbdkit_add_export(list, exports[k].name, NULL) != 0) return -1;
    return 0;
}

static const char *plugin_default_export(int readonly, int is_tls)
{
    (void)readonly, (void)is_tls;
    return exports[0].name;
}

/* An export that was shut starts again, by a recovery, at the first client after the last has left. */
static bool enter(struct export *export)
{
    pthread_mutex_lock(&export->lock);
    if (export->state == LIVE && refskold_volume_fault(export->volume) != 0) export->state = SHUT;
    if (export->state == SHUT && export->users == 0) {
        export->state = STARTING;
        pthread_cond_broadcast(&export->changed);
    }
    while (export->state == STARTING && !export->is_stopping) pthread_cond_wait(&export->changed, &export->lock);
    bool is_live = export->state == LIVE;
    if (is_live) export->users++;
    pthread_mutex_unlock(&export->lock);
    return is_live;
}

static void *plugin_open(int readonly)
{
    const char *name = nbdkit_export_name();
    (void)readonly;
    for (struct export *export = exports; export < exports + export_count; export++) {
        if (strcmp(export->name, name) != 0) continue;
        if (enter(export)) return export;
        nbdkit_error("export %s is shut", name);
        return NULL;
    }
    nbdkit_error("no export %s", name);
    return NULL;
}

static void plugin_close(void *handle)
{
    struct export *export = handle;
    pthread_mutex_lock(&export->lock);
    export->users--;
    pthread_mutex_unlock(&export->lock);
}

static int64_t plugin_get_size(void *handle)
{
    return (int64_t)refskold_volume_length(((struct export *)handle)->volume);
}

static int plugin_block_size(void *handle, uint32_t *minimum, uint32_t *preferred, uint32_t *maximum)
{
    (void)handle;
    *minimum = 1;
    *preferred = BLOCK;
    *maximum = MOST;
    return 0;
}

static int plugin_can_multi_conn(void *handle)
{
    (void)handle;
    return 1;
}

static int plugin_can_fua(void *handle)
{
    (void)handle;
    return NBDKIT_FUA_NATIVE;
}

/* What a client is answered. The device that shut the export is told once for each request that meets it. */
static int answer(struct export *export, int status)
{
    int fault;
    if (status >= 0) return 0;
    fault = refskold_volume_fault(export->volume);
    if (fault != 0) nbdkit_error("export %s is shut: %s", export->name, strerror(-fault));
    else nbdkit_error("export %s: %s", export->name, strerror(-status));
    nbdkit_set_error(-status);
    return -1;
}

static int plugin_pread(void *handle, void *buffer, uint32_t count, uint64_t offset, uint32_t flags)
{
    struct export *export = handle;
    (void)flags;
    return answer(export, refskold_volume_read(export->volume, offset, buffer, count));
}

static int plugin_flush(void *handle, uint32_t flags)
{
    struct export *export = handle;
    (void)flags;
    return answer(export, refskold_volume_force(export->volume, 0));
}

/* One change of bytes that touch at most REFSKOLD_HELD blocks. */
static int write_part(refskold_volume *volume, const void *data, size_t length, uint64_t offset, uint64_t *number)
{
    refskold_change *change;
    int status = refskold_volume_begin(volume, &change);
    if (status != 0) return status;
    status = refskold_change_write(change, offset, data, length);
    if (status == 0) return refskold_volume_commit(change, number);
    refskold_volume_cancel(change);
    return status;
}

/* Writes data, or zeros where that is NULL: what touches more blocks than a change takes is several of them, in order, cut between blocks. */
static int write_all(struct export *export, const uint8_t *data, uint64_t count, uint64_t offset, bool is_forced)
{
    static const uint8_t zeros[MOST];
    uint64_t number = 0;
    int status = 0;
    while (status == 0 && count > 0) {
        uint64_t part = MOST - offset % BLOCK;
        if (part > count) part = count;
        status = write_part(export->volume, data != NULL ? data : zeros, part, offset, &number);
        if (data != NULL) data += part;
        offset += part;
        count -= part;
    }
    if (status == 0 && is_forced && number != 0) status = refskold_volume_force(export->volume, number);
    return answer(export, status);
}

static int plugin_pwrite(void *handle, const void *buffer, uint32_t count, uint64_t offset, uint32_t flags)
{
    return write_all(handle, buffer, count, offset, (flags & NBDKIT_FLAG_FUA) != 0);
}

static int plugin_zero(void *handle, uint32_t count, uint64_t offset, uint32_t flags)
{
    return write_all(handle, NULL, count, offset, (flags & NBDKIT_FLAG_FUA) != 0);
}

static struct nbdkit_plugin plugin = {
    .name = "refskold",
    .version = "1",
    .longname = "block devices over volumes of Refskold",
    .config = plugin_config,
    .config_complete = plugin_config_complete,
    .config_help = "export=NAME home=FILE|URI log=FILE|URI [log.1=URI] [size=SIZE] [log-size=SIZE] [export=NAME ..]..",
    .get_ready = plugin_get_ready,
    .after_fork = plugin_after_fork,
    .cleanup = plugin_cleanup,
    .list_exports = plugin_list_exports,
    .default_export = plugin_default_export,
    .open = plugin_open,
    .close = plugin_close,
    .get_size = plugin_get_size,
    .block_size = plugin_block_size,
    .can_multi_conn = plugin_can_multi_conn,
    .can_fua = plugin_can_fua,
    .pread = plugin_pread,
    .pwrite = plugin_pwrite,
    .zero = plugin_zero,
    .flush = plugin_flush,
    .errno_is_preserved = 1,
};

NBDKIT_REGISTER_PLUGIN(plugin)
