/* What bad callers get, and what want of memory leaves: each allocation of a run is refused in turn, and then the call is made again. */
#define _GNU_SOURCE
#include "refskold.h"
#include <stdio.h>
#include <stdlib.h>
#include <string.h>

/* ---- the program's memory, which can be refused ---- */
static long until_refused = -1, asked, living;
void *__real_malloc(size_t);
void *__real_realloc(void *, size_t);
void __real_free(void *);
static int refuses(void) { return asked++, until_refused >= 0 && until_refused-- == 0; }
void *__wrap_malloc(size_t n) {
    void *p = refuses() ? NULL : __real_malloc(n);
    living += p != NULL;
    return p;
}
void *__wrap_realloc(void *old, size_t n) {
    void *p = refuses() ? NULL : __real_realloc(old, n);
    living += p != NULL && old == NULL;
    return p;
}
void __wrap_free(void *p) {
    living -= p != NULL;
    __real_free(p);
}

static int failures;
static void wants(const char *what, long got, long wanted) {
    if (got != wanted) failures++, printf("FAILED %s: %ld, wanted %ld\n", what, got, wanted);
}

static uint8_t block[4097], room[4097];

/* a home device that lies in memory */
static uint8_t device[64 * 4096];

/* whether so many bytes of it are as they were */
static int untouched(size_t first, size_t count) {
    while (count > 0 && device[first] == 0x5a) first++, count--;
    return count == 0;
}

/* whether a handle of a mount is all zeros, as one that holds none */
static int is_zero(const refskold *mount) {
    static const uint8_t zeros[sizeof *mount];
    return memcmp(mount, zeros, sizeof zeros) == 0;
}

/* the text of the checkpoint of the last run */
static uint8_t text[4 * 4096];
static size_t text_length;

/* the same as a sealed log, and the header of its next file */
static uint8_t sealed[REFSKOLD_LOG_HEADER + sizeof text + REFSKOLD_SEAL], next[REFSKOLD_LOG_HEADER];

/* makes them, while that checkpoint is begun */
static void seal(refskold *mount) {
    uint8_t log[REFSKOLD_LOG_HEADER];
    wants("header", refskold_log_header(log, REFSKOLD_BLOCK, 65536, 1, 7, NULL, NULL), 0);
    memcpy(sealed, log, sizeof log), memcpy(sealed + sizeof log, text, text_length);
    wants("seal", refskold_seal(mount, log), 0), memcpy(sealed + sizeof log + text_length, log + REFSKOLD_LOG_HEAD, REFSKOLD_SEAL);
    wants("next header", refskold_log_header(next, REFSKOLD_BLOCK, 65536, 2, 7, log + REFSKOLD_LOG_HEAD, NULL), 0);
}

/* a call that was refused memory changes nothing, and is made again */
#define AGAIN_OF(kind, handle, status, call)                                 \
    do {                                                                     \
        kind before = handle;                                                \
        status = (call);                                                     \
        if (status != -ENOMEM) break;                                        \
        if (memcmp(&before, &handle, sizeof before)) wants("handle", 1, 0);  \
        refused++;                                                           \
    } while (1)
#define AGAIN(status, call) AGAIN_OF(refskold, m, status, call)

/* one run, in which the allocation of this number is refused: how many calls were */
static long run(long number) {
    refskold m = REFSKOLD_NONE;
    refskold_reply reply;
    refskold_plan plan;
    refskold_state state;
    uint64_t trans = 0, serial = 0, waits = 0;
    uint32_t pieces, k;
    long refused = 0, before;
    int status;
    until_refused = number, text_length = 0;
    AGAIN(status, refskold_open(&m, 0, 65536, 64)); wants("open", status, 0);
    AGAIN(status, refskold_alloc(&m, 30000, 2, 1, &trans)); wants("alloc", status, 0);
    AGAIN(status, refskold_read_content(&m, trans, 7, block)); wants("read", status, 0);
    AGAIN(status, refskold_log(&m, trans, 7, 100, "hello", 5)); wants("log", status, 0);
    AGAIN(status, refskold_get(&m, trans, 8)); wants("get", status, 0);
    AGAIN(status, refskold_log(&m, trans, 8, 0, block, 4096)); wants("log whole", status, 0);
    AGAIN(status, refskold_hold(&m, trans, 8)); wants("hold", status, 0);
    AGAIN(status, refskold_view(&m, trans, 7, room)); wants("view", status, 0);
    wants("view's bytes", memcmp(room + 100, "hello", 5), 0);
    AGAIN(status, refskold_roll(&m, trans, &reply)); wants("roll", status, 0);
    wants("held", (long)reply.held[0], 8);
    AGAIN(status, refskold_release(&m, 8)); wants("release", status, 0);
    AGAIN(status, refskold_commit(&m, trans, &reply)); wants("commit", status, 0);
    before = asked;
    wants("stat", refskold_stat(&m, &state), 0), wants("its blocks", state.committed, 2), wants("memory that it asked for", asked - before, 0);
    AGAIN(status, refskold_force(&m, &waits)); wants("force", (long)waits, 1);
    AGAIN(status, refskold_take(&m, REFSKOLD_CHECKPOINT, &serial)); wants("take", status, REFSKOLD_TAKEN);
    AGAIN(status, refskold_begin(&m, serial, &reply)); wants("begin", status, 0);
    pieces = reply.pieces;
    for (k = 0; k < pieces && text_length + 4096 <= sizeof text; k++) {
        status = refskold_piece(&m, k, text + text_length, 4096), wants("piece", status > 0, 1);
        text_length += (size_t)status;
    }
    wants("pieces", k, pieces), seal(&m);
    AGAIN(status, refskold_end(&m, serial, pieces, 1, &reply)); wants("end", reply.word, REFSKOLD_LANDED);
    AGAIN(status, refskold_push(&m)); wants("push", status, 0);
    AGAIN(status, refskold_take(&m, REFSKOLD_FLUSH, &serial)); wants("take a flush", status, REFSKOLD_TAKEN);
    wants("plan", refskold_flush_plan(&m, &plan), 2);
    wants("home", refskold_home(&m, 0, room), 0), wants("home's bytes", memcmp(room + 100, "hello", 5), 0);
    memset(device, 0x5a, sizeof device);
    wants("mapped homes of two", refskold_homes_mapped(&m, &plan, device, sizeof device), 2);
    wants("the first's place", memcmp(device + plan.blocks[0] * 4096, room, 4096), 0);
    wants("home of the second", refskold_home(&m, 1, room), 0), wants("its place", memcmp(device + plan.blocks[1] * 4096, room, 4096), 0);
    wants("before them", untouched(0, 7 * 4096), 1), wants("behind them", untouched(9 * 4096, sizeof device - 9 * 4096), 1);
    AGAIN(status, refskold_flush(&m, serial, 2, 3, 1, &reply)); wants("flush", (long)reply.number, 2);
    AGAIN(status, refskold_unmount(&m)); wants("unmount", status, 0);
    wants("gone", refskold_push(&m), -ENODEV), wants("a handle all zeros", is_zero(&m), 1);
    until_refused = -1;
    return refused;
}

/* the log of this one text, fed by halves and gathered, where the allocation of this number is refused: how many calls were */
static long gather(long number) {
    refskold_recovery r = REFSKOLD_NONE;
    refskold_log_told told;
    uint8_t content[REFSKOLD_BLOCK] = {0};
    size_t half = text_length / 2;
    long refused = 0;
    int status;
    until_refused = number;
    AGAIN_OF(refskold_recovery, r, status, refskold_recovery_feed(&r, text, half)); wants("feed", status, 0);
    AGAIN_OF(refskold_recovery, r, status, refskold_recovery_feed(&r, text + half, text_length - half)); wants("feed more", status, 0);
    AGAIN_OF(refskold_recovery, r, status, refskold_recovery_end(&r, &told)); wants("end of a log", status, 0);
    wants("texts", (long)told.texts, 1), wants("rest", (long)told.rest, 0), wants("blocks", (long)told.blocks, 2);
    wants("lay", refskold_recovery_lay(&r, 7, content), 0), wants("laid", memcmp(content + 100, "hello", 5), 0);
    wants("close of a log", refskold_recovery_close(&r), 0);
    until_refused = -1;
    return refused;
}

/* what must be told of that log in two files, and what it says */
static void tells(refskold_recovery *r, int status, const refskold_log_told *told) {
    uint8_t content[REFSKOLD_BLOCK] = {0};
    wants("two files", status, 0), wants("their texts", (long)told->texts, 1), wants("their rest", (long)told->rest, 0);
    wants("their blocks", (long)told->blocks, 2), wants("the older", (long)told->older, 1); // a header alone is the other one
    wants("lay of two files", refskold_recovery_lay(r, 7, content), 0), wants("laid of two files", memcmp(content + 100, "hello", 5), 0);
    wants("close of two files", refskold_recovery_close(r), 0);
}

/* the sealed log of this one text in two files, fed and gathered, where the allocation of this number is refused: how many calls were */
static long gather_files(long number) {
    refskold_recovery r = REFSKOLD_NONE;
    refskold_log_told told;
    size_t length = REFSKOLD_LOG_HEADER + text_length + REFSKOLD_SEAL, half = length / 2;
    long refused = 0;
    int status;
    until_refused = number;
    AGAIN_OF(refskold_recovery, r, status, refskold_recovery_other(&r)); wants("other of nothing", status, 0);
    AGAIN_OF(refskold_recovery, r, status, refskold_recovery_feed(&r, sealed, half)); wants("feed the other", status, 0);
    wants("close of half", refskold_recovery_close(&r), 0);
    AGAIN_OF(refskold_recovery, r, status, refskold_recovery_feed(&r, sealed, half)); wants("feed", status, 0);
    AGAIN_OF(refskold_recovery, r, status, refskold_recovery_feed(&r, sealed + half, length - half)); wants("feed more", status, 0);
    AGAIN_OF(refskold_recovery, r, status, refskold_recovery_other(&r)); wants("other", status, 0);
    AGAIN_OF(refskold_recovery, r, status, refskold_recovery_feed(&r, next, sizeof next)); wants("feed the next", status, 0);
    AGAIN_OF(refskold_recovery, r, status, refskold_recovery_end(&r, &told)); tells(&r, status, &told);
    until_refused = -1;
    return refused;
}

/* the same, whole */
static long open_files(long number) {
    refskold_recovery r = REFSKOLD_NONE;
    refskold_log_told told;
    size_t length = REFSKOLD_LOG_HEADER + text_length + REFSKOLD_SEAL;
    long refused = 0;
    int status;
    until_refused = number;
    AGAIN_OF(refskold_recovery, r, status, refskold_recovery_open_files(&r, sealed, length, next, sizeof next, &told));
    tells(&r, status, &told);
    until_refused = -1;
    return refused;
}

static void memory(void) {
    long all, number, refused = 0;
    asked = 0, run(-1), all = asked;
    for (number = 0; number < all; number++) refused += run(number);
    wants("refused calls", refused, all);
    wants("what is not given back", living, 0);
    printf("%ld allocations, each refused in turn: %ld calls said ENOMEM and were made again\n", all, refused);
}

/* the same of a log: so many allocations are of room that a gathering does without */
static void memory_of(const char *what, long gathers(long), long without) {
    long all, number, refused = 0;
    asked = 0, gathers(-1), all = asked;
    for (number = 0; number < all; number++) refused += gathers(number);
    wants(what, refused, all - without);
    wants("what is not given back", living, 0);
    printf("%ld allocations of %s, each refused in turn: %ld calls said ENOMEM and were made again\n", all, what, refused);
}

/* ---- bad words ---- */
static void bad_callers(void) {
    refskold m = REFSKOLD_NONE;
    refskold_request q = {0};
    refskold_reply reply, before;
    refskold_plan plan;
    refskold_state state;
    uint64_t trans = 0, serial = 77;
    wants("no mount: call", refskold_push(&m), -ENODEV);
    wants("no mount: shut", refskold_shut(&m), -ENODEV);
    wants("no mount: stat", refskold_stat(&m, &state), -ENODEV);
    wants("no mount: take", refskold_take(&m, 0, &serial), -ENODEV);
    wants("no mount: begin", refskold_begin(&m, 1, &reply), -ENODEV);
    wants("no mount: piece", refskold_piece(&m, 0, room, 4096), -ENODEV);
    wants("no mount: end", refskold_end(&m, 1, 0, 1, &reply), -ENODEV);
    wants("no mount: plan", refskold_flush_plan(&m, &plan), -ENODEV);
    wants("no mount: home", refskold_home(&m, 0, room), -ENODEV);
    wants("no mount: homes", refskold_homes(&m, &plan, room, sizeof room), -ENODEV);
    wants("no mount: mapped homes", refskold_homes_mapped(&m, &plan, device, sizeof device), -ENODEV);
    wants("no mount: flush", refskold_flush(&m, 1, 0, 0, 1, &reply), -ENODEV);
    wants("no mount: close", refskold_close(&m), 0);
    wants("NULL handle", refskold_open(NULL, 0, 65536, 1), -EINVAL);
    wants("log too small", refskold_open(&m, 0, 65535, 1), -EINVAL);
    wants("log too great", refskold_open(&m, 0, 16777217, 1), -EINVAL);
    wants("no blocks", refskold_open(&m, 0, 65536, 0), -EINVAL);
    wants("too many blocks", refskold_open(&m, 0, 65536, REFSKOLD_MOST_BLOCKS + 1), -EINVAL);
    wants("no such size", refskold_open_sized(&m, 0, 65536, 1, 513), -EINVAL);
    wants("last life", refskold_open(&m, UINT32_MAX, 65536, 1), -ENOSPC);
    wants("open", refskold_open(&m, UINT32_MAX - 1, 65536, 64), 0);
    wants("open again", refskold_open(&m, 0, 65536, 64), -EBUSY);
    wants("alloc", refskold_alloc(&m, 5000, 1, 0, &trans), 0);
    memset(&reply, 0x5a, sizeof reply), before = reply;
#define UNTOUCHED(what) wants(what ": reply untouched", memcmp(&reply, &before, sizeof reply), 0)
    q.word = 21, wants("no word", refskold_call(&m, &q, NULL, 0, 0, NULL, 0, &reply, NULL, 0), -EINVAL), UNTOUCHED("no word");
    q.word = REFSKOLD_LOG, q.trans = trans, q.block = 7;
    wants("too many bytes", refskold_call(&m, &q, block, 4097, 0, NULL, 0, &reply, NULL, 0), -EINVAL), UNTOUCHED("too many bytes");
    wants("NULL with a length", refskold_call(&m, &q, NULL, 1, 0, NULL, 0, &reply, NULL, 0), -EINVAL), UNTOUCHED("NULL with a length");
    wants("too many bytes of a log", refskold_log(&m, trans, 7, 0, block, 4097), -EINVAL);
    q.word = REFSKOLD_READ;
    wants("asks", refskold_call(&m, &q, NULL, 0, 0, NULL, 0, &reply, NULL, 0), REFSKOLD_ASKS), wants("asks for", (long)reply.number, 7);
    before = reply;
    wants("no answer", refskold_call(&m, &q, NULL, 0, (enum refskold_answer)3, NULL, 0, &reply, NULL, 0), -EINVAL), UNTOUCHED("no answer");
    wants("short content", refskold_call(&m, &q, NULL, 0, REFSKOLD_CONTENT, block, 4095, &reply, NULL, 0), -EINVAL), UNTOUCHED("short content");
    wants("read", refskold_read_content(&m, trans, 7, block), 0);
    wants("not asked for", refskold_call(&m, &q, NULL, 0, REFSKOLD_CONTENT, block, 4096, &reply, NULL, 0), -EINVAL), UNTOUCHED("not asked for");
    q.word = REFSKOLD_VIEW;
    wants("short room", refskold_call(&m, &q, NULL, 0, 0, NULL, 0, &reply, room, 4095), -EINVAL), UNTOUCHED("short room");
    wants("no room", refskold_call(&m, &q, NULL, 0, 0, NULL, 0, &reply, NULL, 0), -EINVAL), UNTOUCHED("no room");
    wants("no kind", refskold_take(&m, 2, &serial), -EINVAL), wants("serial untouched", (long)serial, 77);
    wants("none owed", refskold_take(&m, 0, &serial), 0), wants("serial untouched", (long)serial, 77);
    wants("no such begin", refskold_begin(&m, 1, &reply), -EINVAL), UNTOUCHED("no such begin");
    wants("no such end", refskold_end(&m, 1, 0, 1, &reply), -EINVAL), UNTOUCHED("no such end");
    wants("no such flush", refskold_flush(&m, 1, 0, 0, 1, &reply), -EINVAL), UNTOUCHED("no such flush");
    wants("no such piece", refskold_piece(&m, 0, room, 4096), -EINVAL);
    q.word = REFSKOLD_LOG, q.first = 1;
    wants("log by words", refskold_call(&m, &q, "y", 1, 0, NULL, 0, &reply, NULL, 0), 0), wants("its reply", (long)reply.word, REFSKOLD_OK);
    wants("log", refskold_log(&m, trans, 7, 0, "x", 1), 0), wants("view", refskold_view(&m, trans, 7, room), 0), wants("both", memcmp(room, "xy", 2), 0);
    wants("commit", refskold_commit(&m, trans, &reply), 0);
    wants("force", refskold_force(&m, &trans), 0);
    wants("take", refskold_take(&m, 0, &serial), REFSKOLD_TAKEN);
    wants("begin another", refskold_begin(&m, serial + 1, &reply), -EINVAL);
    wants("begin", refskold_begin(&m, serial, &reply), 0);
    wants("begin twice", refskold_begin(&m, serial, &before), -EINVAL);
    wants("short room for a piece", refskold_piece(&m, 0, room, 3), -EINVAL);
    wants("past the pieces", refskold_piece(&m, reply.pieces, room, 4096), -EINVAL);
    wants("more than there are", refskold_end(&m, serial, reply.pieces + 1, 1, &before), -EINVAL);
    wants("another serial", refskold_end(&m, serial + 1, reply.pieces, 1, &before), -EINVAL);
    wants("end", refskold_end(&m, serial, reply.pieces, 1, &reply), 0), wants("landed", reply.word, REFSKOLD_LANDED);
    wants("push", refskold_push(&m), 0), wants("take", refskold_take(&m, 1, &serial), REFSKOLD_TAKEN);
    wants("another count", refskold_flush(&m, serial, 2, 3, 1, &reply), -EINVAL);
    wants("past the plan", refskold_home(&m, 1, room), -EINVAL);
    memset(&plan, 0x5a, sizeof plan), memset(room, 0x5a, sizeof room);
    wants("short room for a plan", refskold_homes(&m, &plan, room, REFSKOLD_BLOCK - 1), -EINVAL);
    wants("plan untouched", plan.count, 0x5a5a5a5a), wants("room untouched", room[0], 0x5a);
    wants("homes", refskold_homes(&m, &plan, room, REFSKOLD_BLOCK), 1);
    wants("the plan's count", plan.count, 1), wants("the plan's block", (long)plan.blocks[0], 7), wants("its content", room[0], 'x');
    memset(&plan, 0x5a, sizeof plan), memset(device, 0x5a, sizeof device);
    wants("an empty device", refskold_homes_mapped(&m, &plan, device, 0), -EINVAL);
    wants("a device of 7 blocks", refskold_homes_mapped(&m, &plan, device, 7 * REFSKOLD_BLOCK), -EINVAL);
    wants("a device that ends in block 7", refskold_homes_mapped(&m, &plan, device, 8 * REFSKOLD_BLOCK - 1), -EINVAL);
    wants("plan untouched", plan.count, 0x5a5a5a5a), wants("device untouched", untouched(0, sizeof device), 1);
    wants("mapped homes", refskold_homes_mapped(&m, &plan, device, 8 * REFSKOLD_BLOCK), 1);
    wants("the plan's count", plan.count, 1), wants("the plan's block", (long)plan.blocks[0], 7);
    wants("its place", memcmp(device + 7 * REFSKOLD_BLOCK, room, REFSKOLD_BLOCK), 0);
    wants("before it", untouched(0, 7 * REFSKOLD_BLOCK), 1), wants("behind it", untouched(8 * REFSKOLD_BLOCK, 56 * REFSKOLD_BLOCK), 1);
    wants("flush", refskold_flush(&m, serial, 1, 1, 1, &reply), 0);
    wants("version", (long)refskold_version(), REFSKOLD_VERSION);
    refskold_close(&m), wants("closed", is_zero(&m), 1);
}

/* a mount of blocks of 512 bytes: each content and each room has as many */
static void small_blocks(void) {
    enum { SMALL = 512 };
    refskold m = REFSKOLD_NONE;
    refskold_plan plan;
    refskold_reply reply;
    uint64_t trans = 0, serial = 0;
    wants("open a small one", refskold_open_sized(&m, 0, 65536, 64, SMALL), 0);
    wants("alloc there", refskold_alloc(&m, 180, 1, 0, &trans), 0), wants("read there", refskold_read(&m, trans, 7), REFSKOLD_ASKS);
    wants("a content too long", refskold_read_content(&m, trans, 7, block), -EINVAL);
    wants("its content", refskold_read_content_sized(&m, trans, 7, block, SMALL), 0);
    wants("past its end", refskold_log(&m, trans, 7, SMALL - 1, "xy", 2), -EINVAL);
    wants("its last byte", refskold_log(&m, trans, 7, SMALL - 1, "x", 1), 0);
    wants("a room too long", refskold_view(&m, trans, 7, room), -EINVAL);
    wants("its room", refskold_view_sized(&m, trans, 7, room, SMALL), 0), wants("what it shows", room[SMALL - 1], 'x');
    wants("commit there", refskold_commit(&m, trans, &reply), 0), wants("force there", refskold_force(&m, &trans), 0);
    wants("take there", refskold_take(&m, REFSKOLD_CHECKPOINT, &serial), REFSKOLD_TAKEN);
    wants("begin there", refskold_begin(&m, serial, &reply), 0), wants("its piece", refskold_piece(&m, 0, room, sizeof room), 180);
    wants("its words", memcmp(room, "XCP2", 4), 0), wants("end there", refskold_end(&m, serial, 1, 1, &reply), 0);
    wants("push there", refskold_push(&m), 0), wants("take a flush there", refskold_take(&m, REFSKOLD_FLUSH, &serial), REFSKOLD_TAKEN);
    wants("a room too long for a home", refskold_home(&m, 0, room), -EINVAL), wants("a home there", refskold_home_sized(&m, 0, room, SMALL), 0);
    memset(room, 0x5a, sizeof room);
    wants("homes there", refskold_homes(&m, &plan, room, SMALL), 1), wants("its content", room[SMALL - 1], 'x'), wants("behind it", room[SMALL], 0x5a);
    memset(device, 0x5a, sizeof device);
    wants("a device of 7 small ones", refskold_homes_mapped(&m, &plan, device, 8 * SMALL - 1), -EINVAL);
    wants("device untouched", untouched(0, sizeof device), 1);
    wants("mapped homes there", refskold_homes_mapped(&m, &plan, device, sizeof device), 1);
    wants("its place", memcmp(device + 7 * SMALL, room, SMALL), 0);
    wants("before it", untouched(0, 7 * SMALL), 1), wants("behind it", untouched(8 * SMALL, sizeof device - 8 * SMALL), 1);
    memset(device, 0x5a, sizeof device), memset(&reply, 0x5a, sizeof reply);
    wants("a flush into 7", refskold_flush_mapped(&m, serial, device, 8 * SMALL - 1, &reply), -EINVAL);
    wants("a flush of another serial", refskold_flush_mapped(&m, serial + 1, device, sizeof device, &reply), -EINVAL);
    wants("device untouched", untouched(0, sizeof device), 1), wants("reply untouched", reply.word, 0x5a5a5a5a);
    wants("flush there", refskold_flush_mapped(&m, serial, device, 8 * SMALL, &reply), 0);
    wants("flushed", reply.word, REFSKOLD_FLUSHED), wants("one block", (long)reply.number, 1);
    wants("its place", memcmp(device + 7 * SMALL, room, SMALL), 0);
    wants("before it", untouched(0, 7 * SMALL), 1), wants("behind it", untouched(8 * SMALL, sizeof device - 8 * SMALL), 1);
    wants("flushed twice", refskold_flush_mapped(&m, serial, device, sizeof device, NULL), -EINVAL);
    wants("unmount there", refskold_unmount(&m), 0);
}

int main(void) {
    bad_callers();
    small_blocks();
    memory();
    memory_of("a log", gather, 2);
    memory_of("a log in two files, in pieces", gather_files, 2);
    memory_of("a log in two files", open_files, 2);
    return failures != 0;
}
