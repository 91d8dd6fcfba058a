/* Sealed logs by the library: a header and a log that another program wrote, made again byte for byte by two checkpoints of a mount; what is read of two files,
 * whole and in pieces, in either order: turns, ends that a loss of power tore, and files that no loss of power leaves; and what calls get that no caller should
 * make. */
#define _GNU_SOURCE
#include <refskold.h>
#include <stdio.h>
#include <stdlib.h>
#include <string.h>

enum { SIZE = 512, LOG = 4194304 };

static void want(int is_well, const char *what)
{
    if (is_well) return;
    fprintf(stderr, "seals: %s\n", what);
    exit(1);
}

/* ---- A log that another program wrote ---- */

static const uint8_t golden_link[REFSKOLD_SEAL] = { 0xf0, 0xe1, 0xd2, 0xc3, 0xb4, 0xa5, 0x96, 0x87 };
static const uint8_t name[16] = "vol-a";
static const uint64_t salt = UINT64_C(0x0123456789abcdef);

/* The header of volume `vol-a`, its third, behind that link; the text of checkpoint 1, one chunk of block 7; its seal; the text of checkpoint 2, a
 * cancel of block 7; its seal. `.00*N.` in a text of hexadecimal are N zeros. */
static const char *const golden_parts[] = {
    "58434c31000002000040000000000000" "0000000000000003" "0123456789abcdef" "f0e1d2c3b4a59687" "766f6c2d610000000000000000000000" "c35c45c81098c270",
    "58435032" "0000000000000001" "00000001" "00000200" "0000000000000007" "00000002" "00000000" "00000102.00*124." "58434532" "00000001" "0000000000000001",
    "49f5f1aa68e3e4ad",
    "58435032" "0000000000000002" "00000001" "00000200" "0000000000000007" "00000000" "00000001" "58434532" "00000001" "0000000000000002",
    "43b6b6e55157f76f",
};

enum { TEXT_1 = 180, TEXT_2 = 52, GOLDEN = REFSKOLD_LOG_HEADER + TEXT_1 + REFSKOLD_SEAL + TEXT_2 + REFSKOLD_SEAL };

static uint8_t golden[GOLDEN];

static void make_golden(void)
{
    size_t length = 0;
    for (size_t part = 0; part < sizeof golden_parts / sizeof *golden_parts; part++)
        for (const char *at = golden_parts[part]; *at != '\0';) {
            unsigned byte;
            int zeros, read = 0;
            if (sscanf(at, ".00*%d.%n", &zeros, &read) == 1) length += (size_t)zeros;
            else want(sscanf(at, "%2x%n", &byte, &read) == 1, "hexadecimal"), golden[length++] = (uint8_t)byte;
            at += read;
        }
    want(length == GOLDEN, "another length of what another program wrote");
}

/* ---- Headers ---- */

/* Whether fields are those of the golden header. */
static int is_golden(const refskold_log_fields *fields)
{
    return fields->block_size == SIZE && fields->log_bytes == LOG && fields->generation == 3 && fields->salt == salt
           && memcmp(fields->link, golden_link, sizeof golden_link) == 0 && memcmp(fields->name, name, sizeof name) == 0;
}

static void headers(void)
{
    uint8_t log[REFSKOLD_LOG_HEADER], zeros[REFSKOLD_SEAL] = { 0 };
    refskold_log_fields fields, before;
    want(refskold_log_header(log, SIZE, LOG, 3, salt, golden_link, name) == 0 && memcmp(log, golden, sizeof log) == 0, "another header");
    want(refskold_log_read(golden, &fields) == 0 && is_golden(&fields), "other fields");
    memset(&fields, 0x5a, sizeof fields), before = fields;
    for (size_t at = 0; at < sizeof log; at++) {
        log[at] ^= 0x10;
        want(refskold_log_read(log, &fields) == -EILSEQ, "a header with a byte changed");
        log[at] ^= 0x10;
        want(refskold_abi_log_read(log, at, &fields) == -EILSEQ, "a header that is cut");
    }
    want(memcmp(&fields, &before, sizeof fields) == 0, "fields of no header");
    want(refskold_log_header(log, 4096, 65536, 1, 7, NULL, NULL) == 0 && refskold_log_read(log, &fields) == 0, "a first header");
    want(memcmp(fields.link, zeros, sizeof zeros) == 0 && memcmp(fields.name, zeros, sizeof zeros) == 0 && fields.name[15] == 0, "no link and no name");
    memset(log, 0x5a, sizeof log);
    want(refskold_abi_log_header(log, sizeof log - 1, &fields) == -EINVAL && log[0] == 0x5a, "too short a room");
    want(refskold_log_header(NULL, 512, 65536, 1, 7, NULL, NULL) == -EINVAL && refskold_log_read(NULL, &fields) == -EINVAL, "NULL");
    want(refskold_log_read(golden, NULL) == -EINVAL, "NULL");
}

/* ---- Checkpoints and their seals ---- */

/* A file of a log: its bytes, and what makes its next seal. */
struct file {
    uint8_t bytes[1 << 20];
    size_t length;
    uint8_t log[REFSKOLD_LOG_HEADER];
};

/* Begins a file anew. */
static void begin(struct file *file, uint64_t generation, const uint8_t *behind)
{
    want(refskold_log_header(file->log, SIZE, LOG, generation, salt, behind, name) == 0, "a header");
    memcpy(file->bytes, file->log, sizeof file->log);
    file->length = sizeof file->log;
}

/* What calls get that no caller should make, where no checkpoint is begun. */
static void bad_seals(refskold *mount, struct file *file, int wanted)
{
    uint8_t before[REFSKOLD_LOG_HEADER];
    memcpy(before, file->log, sizeof before);
    want(refskold_seal(mount, file->log) == wanted, "a seal of nothing");
    want(refskold_seal(NULL, file->log) == -EINVAL && refskold_seal(mount, NULL) == -EINVAL, "NULL");
    want(memcmp(before, file->log, sizeof before) == 0, "a seal of nothing is written");
}

/* Writes the checkpoint that is owed behind the bytes of a file, with its seal. */
static void checkpoint(refskold *mount, struct file *file)
{
    refskold_reply reply;
    uint64_t serial, waits;
    uint8_t before[REFSKOLD_LOG_HEADER];
    want(refskold_force(mount, &waits) == 0 && waits != 0, "a force");
    want(refskold_take(mount, REFSKOLD_CHECKPOINT, &serial) == REFSKOLD_TAKEN, "a checkpoint that is owed");
    bad_seals(mount, file, -EINVAL);
    want(refskold_begin(mount, serial, &reply) == 0 && reply.word == REFSKOLD_BEGUN, "a begin");
    for (uint32_t k = 0; k < reply.pieces; k++) {
        int length = refskold_piece(mount, k, file->bytes + file->length, sizeof file->bytes - file->length);
        want(length > 0, "a piece");
        file->length += (size_t)length;
    }
    memcpy(before, file->log, sizeof before);
    want(refskold_abi_seal(mount, file->log, sizeof file->log - 1) == -EINVAL && memcmp(before, file->log, sizeof before) == 0, "a seal of less than a header");
    want(refskold_seal(mount, file->log) == 0 && memcmp(before, file->log, REFSKOLD_LOG_HEAD) == 0, "a seal");
    memcpy(file->bytes + file->length, file->log + REFSKOLD_LOG_HEAD, REFSKOLD_SEAL);
    file->length += REFSKOLD_SEAL;
    want(refskold_end(mount, serial, reply.pieces, 1, &reply) == 0, "an end");
    bad_seals(mount, file, -EINVAL);
}

/* Writes bytes in a block from an offset on, over zeros, and commits them. */
static void change(refskold *mount, uint64_t block, uint32_t first, const void *bytes, size_t length)
{
    static const uint8_t zeros[SIZE];
    uint64_t trans;
    want(refskold_alloc(mount, 1000, 1, 0, &trans) == 0, "a transaction");
    int status = refskold_read(mount, trans, block);
    if (status == REFSKOLD_ASKS) status = refskold_read_content_sized(mount, trans, block, zeros, SIZE);
    want(status == 0 && refskold_log(mount, trans, block, first, bytes, length) == 0, "a change");
    want(refskold_commit(mount, trans, NULL) == 0, "a commit");
}

/* Gives a block up. */
static void give_up(refskold *mount, uint64_t block)
{
    uint64_t trans;
    want(refskold_alloc(mount, 1000, 1, 0, &trans) == 0, "a transaction");
    want(refskold_read(mount, trans, block) == 0 && refskold_inval(mount, trans, block) == 0, "a block given up");
    want(refskold_commit(mount, trans, NULL) == 0, "a commit");
}

/* The log that another program wrote, by a mount. */
static void golden_log(void)
{
    static struct file file;
    refskold mount = REFSKOLD_NONE;
    begin(&file, 3, golden_link);
    bad_seals(&mount, &file, -ENODEV);
    want(refskold_open_sized(&mount, 0, LOG, 64, SIZE) == 0, "a mount");
    bad_seals(&mount, &file, -EINVAL);
    change(&mount, 7, 128, "\0\0\1\2", 4);
    checkpoint(&mount, &file);
    want(file.length == REFSKOLD_LOG_HEADER + TEXT_1 + REFSKOLD_SEAL && memcmp(file.bytes, golden, file.length) == 0, "another first text, or another seal");
    give_up(&mount, 7);
    checkpoint(&mount, &file);
    want(file.length == GOLDEN && memcmp(file.bytes, golden, GOLDEN) == 0, "another second text, or another seal");
    refskold_close(&mount);
}

/* ---- Recovery ---- */

enum { MOST_REST = 263212 };

/* What is told of two files. */
struct wanted {
    uint64_t end, at, file; /* at which byte of which file it ends so, or */
    uint64_t texts, rest, blocks, older;
};

static struct wanted whole(uint64_t texts, uint64_t rest, uint64_t blocks, uint64_t older)
{
    return (struct wanted){ .texts = texts, .rest = rest, .blocks = blocks, .older = older };
}

static struct wanted rotten(size_t at, uint64_t file)
{
    return (struct wanted){ .end = REFSKOLD_ROTTEN, .at = at, .file = file };
}

static const struct wanted strange = { .end = REFSKOLD_STRANGE };

/* Whether that was told. */
static int is_told(const refskold_log_told *told, int status, const struct wanted *wanted)
{
    if (told->end != wanted->end || told->texts != wanted->texts || told->rest != wanted->rest || told->blocks != wanted->blocks) return 0;
    if (status == 0) return wanted->end == REFSKOLD_WHOLE && told->older == wanted->older;
    return status == -EILSEQ && told->at == wanted->at && told->file == wanted->file;
}

/* Feeds bytes in pieces. */
static void feed(refskold_recovery *recovery, const uint8_t *bytes, size_t length, size_t piece)
{
    for (size_t at = 0; at < length; at += piece)
        want(refskold_recovery_feed(recovery, bytes + at, length - at < piece ? length - at : piece) == 0, "a piece");
}

/* That this is told of two files in pieces. */
static void in_pieces(const struct file *one, const struct file *other, const struct wanted *wanted, size_t piece, const char *what)
{
    refskold_recovery recovery = REFSKOLD_NONE;
    refskold_log_told told;
    memset(&told, 0x5a, sizeof told);
    feed(&recovery, one->bytes, one->length, piece);
    want(refskold_recovery_other(&recovery) == 0 && refskold_recovery_other(&recovery) == -EBUSY, "the other file");
    feed(&recovery, other->bytes, other->length, piece);
    int status = refskold_recovery_end(&recovery, &told);
    want(is_told(&told, status, wanted), what);
    if (status == 0) want(refskold_recovery_other(&recovery) == -EBUSY, "another file behind what texts say");
    refskold_recovery_close(&recovery);
}

/* That this is told of two files, and nothing is held where they are no log; else what they say is held. */
static void opens(refskold_recovery *recovery, const struct file *one, const struct file *other, const struct wanted *wanted, const char *what)
{
    static const refskold_recovery none = REFSKOLD_NONE;
    refskold_log_told told;
    memset(&told, 0x5a, sizeof told);
    int status = refskold_recovery_open_files(recovery, one->bytes, one->length, other->bytes, other->length, &told);
    want(is_told(&told, status, wanted), what);
    if (status != 0) want(memcmp(recovery, &none, sizeof none) == 0, "what is held of no log");
    else want(refskold_recovery_open_files(recovery, NULL, 0, NULL, 0, &told) == -EBUSY, "an open of what is open");
}

/* That this is told of two files, whole and in pieces, and of the same the other way round. */
static void reads(const struct file *one, const struct file *other, struct wanted wanted, const char *what)
{
    for (int turned = 0; turned < 2; turned++) {
        refskold_recovery recovery = REFSKOLD_NONE;
        opens(&recovery, one, other, &wanted, what);
        refskold_recovery_close(&recovery);
        for (size_t k = 0; k < 2; k++) in_pieces(one, other, &wanted, (const size_t[]){ 4096, 7 }[k], what);
        const struct file *first = one;
        one = other, other = first;
        if (wanted.end == REFSKOLD_ROTTEN) wanted.file = !wanted.file;
        if (wanted.end == REFSKOLD_WHOLE && one != other && wanted.texts + wanted.rest > 0) wanted.older = !wanted.older;
    }
}

/* That two files say this byte of a block. */
static void says(const struct file *one, const struct file *other, struct wanted wanted, uint64_t block, size_t at, uint8_t byte)
{
    refskold_recovery recovery = REFSKOLD_NONE;
    uint8_t content[SIZE] = { 0 };
    opens(&recovery, one, other, &wanted, "what is laid");
    want(refskold_recovery_lay_sized(&recovery, block, content, SIZE) == 0 && content[at] == byte, "another content");
    refskold_recovery_close(&recovery);
}

static const struct file nothing;

/* The files of a life: two texts in the first one, and behind a turn two more in the second; where the last text of each begins, and ends. */
static struct file older, newer, torn;
static size_t older_last, newer_last;

static void live(void)
{
    refskold mount = REFSKOLD_NONE;
    want(refskold_open_sized(&mount, 0, LOG, 64, SIZE) == 0, "a mount");
    begin(&older, 1, NULL);
    reads(&older, &nothing, whole(0, 0, 0, 1), "a header alone");
    change(&mount, 7, 0, "1", 1), checkpoint(&mount, &older), older_last = older.length;
    change(&mount, 8, 0, "2", 1), checkpoint(&mount, &older);
    says(&older, &nothing, whole(2, 0, 2, 1), 8, 0, '2');
    begin(&newer, 2, older.log + REFSKOLD_LOG_HEAD);
    reads(&older, &newer, whole(2, 0, 2, 1), "a turn"); // the newer one has nothing yet
    change(&mount, 7, 0, "3", 1), checkpoint(&mount, &newer), newer_last = newer.length;
    says(&older, &newer, whole(3, 0, 2, 0), 7, 0, '3');
    change(&mount, 9, 0, "4", 1), checkpoint(&mount, &newer);
    reads(&older, &newer, whole(4, 0, 3, 0), "two files");
    refskold_close(&mount);
}

/* A header that was not written whole counts for nothing, whatever stands there. */
static void torn_turns(void)
{
    for (size_t length = 0; length < REFSKOLD_LOG_HEADER; length++) {
        torn = newer, torn.length = length;
        reads(&older, &torn, whole(2, 0, 2, 1), "a header that is cut");
        memset(torn.bytes, 0x5a, REFSKOLD_LOG_HEADER), torn.length++;
        reads(&older, &torn, whole(2, 0, 2, 1), "noise for a header");
    }
    torn.length = REFSKOLD_LOG_HEADER + 1;
    reads(&older, &torn, strange, "noise beside a log");
    reads(&torn, &torn, strange, "noise alone");
}

/* The last text of the newer file is not whole: it counts for nothing, whatever stands there. */
static void torn_ends(void)
{
    for (size_t length = newer_last; length < newer.length; length++) {
        torn = newer, torn.length = length;
        reads(&older, &torn, whole(3, length - newer_last, 2, 0), "an end that is cut");
        torn = newer;
        memset(torn.bytes + length, 0, newer.length - length);
        reads(&older, &torn, whole(3, newer.length - newer_last, 2, 0), "an end of zeros");
        torn = newer, torn.bytes[length] ^= 0x10;
        reads(&older, &torn, whole(3, newer.length - newer_last, 2, 0), "an end with a byte changed");
    }
    torn = newer;
    memcpy(torn.bytes + newer_last, older.bytes + older_last, older.length - older_last);
    reads(&older, &torn, whole(3, newer.length - newer_last, 2, 0), "an end of old bytes");
    torn = newer, torn.length = newer.length + MOST_REST;
    memset(torn.bytes + newer.length, 0x5a, MOST_REST);
    reads(&older, &torn, whole(4, MOST_REST, 3, 0), "the longest end");
    memset(torn.bytes + newer.length, 0, MOST_REST);
    reads(&older, &torn, whole(4, MOST_REST, 3, 0), "zeros that were written ahead");
}

/* What no loss of power leaves. */
static void rotten_files(void)
{
    for (size_t at = REFSKOLD_LOG_HEADER; at < newer_last - REFSKOLD_SEAL; at += 5) {
        torn = newer, torn.bytes[at] ^= 0x10;
        reads(&older, &torn, rotten(REFSKOLD_LOG_HEADER, 1), "a text in the middle of the newer file");
    }
    for (size_t at = older_last; at < older.length; at += 5) {
        torn = older, torn.bytes[at] ^= 0x10;
        reads(&torn, &newer, rotten(older_last, 0), "the last text of the older file");
        torn = older, torn.length = at;
        reads(&torn, &newer, rotten(older_last, 0), "an older file that is cut");
    }
    torn = newer, torn.length = newer.length + MOST_REST + 1;
    reads(&older, &torn, rotten(newer.length, 1), "a longer end than one text has");
    // a header with nothing behind it is none: an emptied file may have got back, of old bytes, the one that it had two turns before
    begin(&torn, 2, older.bytes);
    reads(&older, &torn, whole(2, 0, 2, 1), "an old header");
    torn.bytes[torn.length++] = 0;
    reads(&older, &torn, rotten(older.length, 0), "a newer file that goes on behind another seal");
    begin(&torn, 3, older.log + REFSKOLD_LOG_HEAD);
    torn.bytes[torn.length++] = 0;
    reads(&older, &torn, strange, "a generation that is left out");
    want(refskold_log_header(torn.bytes, SIZE, LOG, 2, salt + 1, older.log + REFSKOLD_LOG_HEAD, name) == 0, "a header");
    reads(&older, &torn, strange, "another life");
    reads(&newer, &newer, strange, "one file twice");
}

/* A log without seals is the first file alone. */
static void bare_files(void)
{
    torn.length = TEXT_1 + TEXT_2;
    memcpy(torn.bytes, golden + REFSKOLD_LOG_HEADER, TEXT_1);
    memcpy(torn.bytes + TEXT_1, golden + REFSKOLD_LOG_HEADER + TEXT_1 + REFSKOLD_SEAL, TEXT_2);
    refskold_recovery recovery = REFSKOLD_NONE;
    struct wanted wanted = whole(2, 0, 0, 1);
    opens(&recovery, &torn, &nothing, &wanted, "a log without seals");
    refskold_recovery_close(&recovery);
    in_pieces(&torn, &nothing, &wanted, 7, "a log without seals in pieces");
    torn.bytes[TEXT_1] ^= 0x10;
    wanted = (struct wanted){ .end = REFSKOLD_BROKEN, .at = TEXT_1 };
    opens(&recovery, &torn, &nothing, &wanted, "a log without seals that is broken");
    reads(&torn, &newer, strange, "a log without seals beside one with them");
    reads(&nothing, &nothing, whole(0, 0, 0, 1), "no log");
}

/* What calls get that no caller should make. */
static void bad_recoveries(void)
{
    refskold_recovery recovery = REFSKOLD_NONE;
    refskold_log_told told;
    want(refskold_recovery_open_files(NULL, golden, 1, NULL, 0, &told) == -EINVAL, "NULL");
    want(refskold_recovery_open_files(&recovery, golden, 1, NULL, 0, NULL) == -EINVAL, "NULL");
    want(refskold_recovery_open_files(&recovery, NULL, 1, NULL, 0, &told) == -EINVAL, "NULL with a length");
    want(refskold_recovery_open_files(&recovery, NULL, 0, NULL, 1, &told) == -EINVAL, "NULL with a length");
    want(refskold_recovery_other(NULL) == -EINVAL, "NULL");
    want(refskold_recovery_open(&recovery, golden, GOLDEN, &told) == -EILSEQ, "a sealed log as a bare one");
    want(told.end == REFSKOLD_BROKEN && told.at == 0 && told.file == 0, "why it is none");
}

/* The log that another program wrote, read. */
static void golden_files(void)
{
    memcpy(torn.bytes, golden, GOLDEN), torn.length = GOLDEN;
    reads(&torn, &nothing, whole(2, 0, 0, 1), "the log of another program");
    torn.length -= TEXT_2 + REFSKOLD_SEAL;
    says(&torn, &nothing, whole(1, 0, 1, 1), 7, 131, 2);
}

int main(void)
{
    make_golden();
    headers();
    golden_log();
    golden_files();
    live();
    torn_turns();
    torn_ends();
    rotten_files();
    bare_files();
    bad_recoveries();
    return 0;
}
