/* What a mount tells of itself, behind each step of a small life. Each number is compared with this program's own count. */
#include "refskold.h"
#include <stddef.h>
#include <stdio.h>
#include <string.h>

enum { LOG_BYTES = 65536, BLOCKS = 1024, UNIT = 5000, SMALL = 512 };

/* Bytes of the text of one change within a chunk: the text's ends, its block and its chunk. Of a mount with a size the ends have 4 more. */
enum { TEXT = 32 + 16 + 128, SMALL_TEXT = TEXT + 4 };

static refskold mount;
static uint8_t content[REFSKOLD_BLOCK];
static int failures;

/* What it is to tell; `used` and `free` are made of the rest. */
static refskold_state now;

/* Bytes of the texts that are in flight, or landed and wanted still. */
static uint32_t texts;

static void want(const char *what, int is_so)
{
    if (is_so) return;
    printf("FAILED %s\n", what);
    failures++;
}

static void compare(const char *what, const char *field, uint64_t got, uint64_t wanted)
{
    if (got == wanted) return;
    printf("FAILED %s: %s is %llu, wanted %llu\n", what, field, (unsigned long long)got, (unsigned long long)wanted);
    failures++;
}

/* Asks twice, since asking changes nothing, and compares each field. */
static void look(const char *what)
{
    refskold_state told, again;
    memset(&told, 0xa5, sizeof told);
    memset(&again, 0x5a, sizeof again);
    want(what, refskold_stat(&mount, &told) == 0 && refskold_stat(&mount, &again) == 0);
    want("told twice, the same", memcmp(&told, &again, sizeof told) == 0);
    now.used = now.granted + now.cost + texts;
    now.free = LOG_BYTES - now.used;
#define COMPARE(field) compare(what, #field, told.field, now.field)
    COMPARE(transactions), COMPARE(busy), COMPARE(idle), COMPARE(committed), COMPARE(active), COMPARE(owed), COMPARE(outstanding);
    COMPARE(frozen), COMPARE(cost), COMPARE(granted), COMPARE(used), COMPARE(free), COMPARE(flight), COMPARE(least);
}

/* ---- Steps ---- */

static uint64_t alloc(uint32_t unit, uint32_t count)
{
    uint64_t trans = 0;
    want("alloc", refskold_alloc(&mount, unit, count, count > 1, &trans) == 0);
    return trans;
}

static void read_block(uint64_t trans, uint64_t block, size_t size)
{
    int status = refskold_read(&mount, trans, block);
    if (status == REFSKOLD_ASKS) status = refskold_read_content_sized(&mount, trans, block, content, size);
    want("read", status == 0);
}

/* A transaction that changes a byte of a block. */
static void change(uint64_t block, size_t size)
{
    uint64_t trans = alloc(UNIT, 1);
    read_block(trans, block, size);
    want("log", refskold_log(&mount, trans, block, 0, "x", 1) == 0);
    want("commit", refskold_commit(&mount, trans, NULL) == 0);
}

static void force(void)
{
    want("force", refskold_force(&mount, NULL) == 0);
}

static uint64_t take(uint32_t kind)
{
    uint64_t serial = 0;
    want("a job that is owed", refskold_take(&mount, kind, &serial) == REFSKOLD_TAKEN);
    return serial;
}

static uint32_t begin(uint64_t serial)
{
    refskold_reply reply;
    want("begin", refskold_begin(&mount, serial, &reply) == 0 && reply.word == REFSKOLD_BEGUN);
    return reply.pieces;
}

static void end(uint64_t serial, uint32_t pieces)
{
    want("end", refskold_end(&mount, serial, pieces, 1, NULL) == 0);
}

/* ---- A life ---- */

static void no_mount(void)
{
    refskold_state told, untouched;
    memset(&told, 0x5a, sizeof told);
    memset(&untouched, 0x5a, sizeof untouched);
    want("no mount", refskold_stat(&mount, &told) == -ENODEV);
    want("no handle", refskold_stat(NULL, &told) == -EINVAL && refskold_stat(&mount, NULL) == -EINVAL);
    want("nothing is written", memcmp(&told, &untouched, sizeof told) == 0);
    want("64 bytes", sizeof told == 64 && offsetof(refskold_state, cost) == 32 && offsetof(refskold_state, flight) == 48);
}

/* Transactions that are open: of two, with what they are granted, and with blocks of the one. */
static void transactions(void)
{
    uint64_t rolls = alloc(UNIT, 3), other;
    now.transactions = 1, now.granted = 3 * UNIT;
    look("a transaction of three legs");
    other = alloc(1000, 1);
    now.transactions = 2, now.granted += 1000;
    look("two transactions");
    read_block(other, 20, REFSKOLD_BLOCK), read_block(other, 21, REFSKOLD_BLOCK);
    now.busy = 2;
    look("blocks that are locked");
    want("cancel", refskold_cancel(&mount, other, NULL) == 0);
    now.transactions = 1, now.granted -= 1000, now.busy = 0, now.idle = 2;
    look("blocks that are read and let go");
    read_block(rolls, 20, REFSKOLD_BLOCK);
    now.busy = 1, now.idle = 1;
    look("a block that is locked again");
    want("log", refskold_log(&mount, rolls, 20, 0, "x", 1) == 0 && refskold_roll(&mount, rolls, NULL) == 0);
    now.granted = 2 * UNIT, now.committed = 1, now.cost = TEXT;
    look("a leg that is committed");
    want("commit", refskold_commit(&mount, rolls, NULL) == 0);
    now.transactions = 0, now.granted = 0;
    look("what it was granted is given back");
}

/* The block's checkpoint, and a second one behind it. */
static void checkpoints(void)
{
    uint64_t serial;
    uint32_t pieces;
    force();
    now.owed = 1;
    look("a checkpoint that is owed");
    serial = take(REFSKOLD_CHECKPOINT);
    now.owed = 0, now.outstanding = 1;
    look("a checkpoint that is taken");
    pieces = begin(serial);
    now.committed = 0, now.cost = 0, now.flight = 1, texts = TEXT;
    look("a checkpoint in flight");
    change(30, REFSKOLD_BLOCK), change(31, REFSKOLD_BLOCK);
    now.busy = 3, now.committed = 2, now.cost = TEXT + 16 + 128;
    look("changes beside it");
    end(serial, pieces);
    now.flight = 0, now.outstanding = 0, now.active = 1, now.least = 1;
    look("a checkpoint that landed");
    force();
    serial = take(REFSKOLD_CHECKPOINT), pieces = begin(serial);
    texts += now.cost, now.committed = 0, now.cost = 0, now.flight = 2, now.outstanding = 1;
    look("another in flight");
    end(serial, pieces);
    now.flight = 0, now.outstanding = 0, now.active = 3;
    look("both landed");
}

/* A flush that brings one block home, another that brings the rest, and both kinds of jobs at once. */
static void flushes(void)
{
    uint64_t serial, other;
    want("push", refskold_push(&mount) == 0);
    now.owed = 1;
    look("a flush that is owed");
    serial = take(REFSKOLD_FLUSH);
    now.owed = 0, now.outstanding = 1;
    look("a flush that is taken");
    want("a flush of which one write is good", refskold_flush(&mount, serial, 3, 1, 1, NULL) == -EIO);
    now.outstanding = 0, now.busy = 2, now.idle = 2, now.active = 2, now.least = 2, texts -= TEXT;
    look("a block that is home");
    change(40, REFSKOLD_BLOCK), force();
    want("push", refskold_push(&mount) == 0);
    now.busy = 3, now.committed = 1, now.cost = TEXT, now.owed = 2;
    look("two jobs that are owed");
    serial = take(REFSKOLD_FLUSH);
    now.owed = 1, now.outstanding = 1;
    look("one of them taken");
    other = take(REFSKOLD_CHECKPOINT);
    now.owed = 0, now.outstanding = 2;
    look("both taken");
    want("a flush", refskold_flush(&mount, serial, 2, 3, 1, NULL) == 0);
    now.outstanding = 1, now.busy = 1, now.idle = 4, now.active = 0, now.least = 0, texts = 0;
    look("all of it home");
    end(other, begin(other));
    now.outstanding = 0, now.committed = 0, now.cost = 0, now.active = 1, now.least = 3, texts = TEXT;
    look("the third landed");
}

static void frozen(void)
{
    want("freeze", refskold_freeze(&mount) == 0);
    now.frozen = 1;
    look("a frozen mount");
    want("thaw", refskold_thaw(&mount) == 0);
    now.frozen = 0;
    look("a thawed one");
    want("push", refskold_push(&mount) == 0);
    now.owed = 1;
    look("a flush that is owed");
    want("freeze", refskold_freeze(&mount) == 0 && refskold_shutdown(&mount) == 0);
    now.frozen = 1, now.owed = 0;
    look("a shut mount");
}

/* A mount whose texts say the size of a block. */
static void sized(void)
{
    memset(&now, 0, sizeof now), texts = 0;
    want("open", refskold_open_sized(&mount, 0, LOG_BYTES, BLOCKS, SMALL) == 0);
    look("a new mount with a size");
    change(7, SMALL);
    now.busy = 1, now.committed = 1, now.cost = SMALL_TEXT;
    look("a change of it");
    refskold_close(&mount);
}

int main(void)
{
    no_mount();
    want("open", refskold_open(&mount, 0, LOG_BYTES, BLOCKS) == 0);
    look("a new mount");
    transactions();
    checkpoints();
    flushes();
    frozen();
    refskold_close(&mount);
    no_mount();
    sized();
    return failures != 0;
}
