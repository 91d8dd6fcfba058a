/* refskold.h: a mount of Refskold inside your program, driven by your calls.
 *
 * Refskold is the transaction layer of a journaling file system: lock blocks, log changes to them, commit, force the log.
 * The library does no input and no output, starts no thread and takes no lock. You own two devices: a home device of
 * `blocks` blocks, counted from 0, of 4,096 bytes each or of another size that you say, and a log, to which you only append.
 * You ask a mount by calls; where it needs a block, it says which one; where it owes a job (a checkpoint into the log, a
 * flush of blocks home), you fetch what is to be written, write it, and say what your device answered.
 *
 * That each call does what the definitions say of it is proved, of the library's code as it was before it was compiled.
 * Nothing is proved of the few lines in this header, which are tested, nor of your devices.
 *
 * An example: one change to block 7, and its checkpoint into a sealed log, of which a reader tells what was written whole.
 *
 *     #include <fcntl.h>
 *     #include <refskold.h>
 *     #include <stdio.h>
 *     #include <unistd.h>
 *
 *     static unsigned char header[REFSKOLD_LOG_HEADER]; // of the log; at its end stands the last seal
 *
 *     static int write_checkpoint(refskold *mount, int log) {
 *         static unsigned char piece[REFSKOLD_BLOCK];
 *         refskold_reply reply;
 *         uint64_t serial;
 *         uint32_t taken = 0;
 *         if (refskold_take(mount, REFSKOLD_CHECKPOINT, &serial) != REFSKOLD_TAKEN) return 0; // none is owed
 *         int status = refskold_begin(mount, serial, &reply);
 *         if (status < 0 || reply.word == REFSKOLD_NOTHING) return status;
 *         for (; taken < reply.pieces; taken++) {
 *             int length = refskold_piece(mount, taken, piece, sizeof piece);
 *             if (write(log, piece, (size_t)length) != length) break;
 *         }
 *         int is_safe = taken == reply.pieces && refskold_seal(mount, header) == 0
 *                       && write(log, header + REFSKOLD_LOG_HEAD, REFSKOLD_SEAL) == REFSKOLD_SEAL && fsync(log) == 0;
 *         return refskold_end(mount, serial, taken, is_safe, &reply);
 *     }
 *
 *     // a log that is new: its header is safe before the first text
 *     static int begin_log(int log) {
 *         int random = open("/dev/urandom", O_RDONLY);
 *         uint64_t salt;
 *         if (read(random, &salt, sizeof salt) != sizeof salt) return -EIO;
 *         int status = refskold_log_header(header, REFSKOLD_BLOCK, REFSKOLD_LEAST_LOG, 1, salt, NULL, NULL);
 *         if (status < 0) return status;
 *         return write(log, header, sizeof header) == sizeof header && fsync(log) == 0 ? 0 : -EIO;
 *     }
 *
 *     int main(void) {
 *         static unsigned char block[REFSKOLD_BLOCK]; // what your home device has of block 7
 *         refskold mount = REFSKOLD_NONE;
 *         uint64_t trans, waits;
 *         int log = open("example.log", O_CREAT | O_TRUNC | O_WRONLY, 0600);
 *         int status = begin_log(log);
 *         if (status == 0) status = refskold_open(&mount, 0, REFSKOLD_LEAST_LOG, 1024);
 *         if (status == 0) status = refskold_alloc(&mount, 5000, 1, 0, &trans);
 *         if (status == 0) status = refskold_read(&mount, trans, 7);
 *         if (status == REFSKOLD_ASKS) status = refskold_read_content(&mount, trans, 7, block);
 *         if (status == 0) status = refskold_log(&mount, trans, 7, 100, "hello", 5);
 *         if (status == 0) status = refskold_commit(&mount, trans, NULL);
 *         if (status == 0) status = refskold_force(&mount, &waits); // asks for a checkpoint
 *         if (status == 0) status = write_checkpoint(&mount, log);
 *         if (status == 0) status = refskold_force(&mount, &waits);
 *         printf(status == 0 && waits == 0 ? "on the log\n" : "status %d\n", status);
 *         refskold_close(&mount);
 *         return status != 0;
 *     }
 *
 * What functions return
 *
 *   0 or more is well, as each function says. Below 0 is an error, an errno of Linux with a minus in front:
 *
 *     -EINVAL   what the function says; also a NULL pointer, except where NULL is said to be allowed
 *     -ENODEV   the handle holds no mount
 *     -ENOMEM   there was no memory: at the functions that say so. Nothing has changed, and the call may be made again
 *     -EIO      the mount is shut, or a device failed
 *     -EAGAIN, -EBUSY, -EILSEQ, -ENOBUFS, -ENOSPC as each function says
 *
 *   After an error nothing has changed, and nothing was written through your pointers but a reply, except where the
 *   function says what is left. Refusals are tested in the order in which they are listed.
 *
 * Who owns what
 *
 *   A handle is yours: 16 bytes, all zeros where it holds no mount, also once that has ended. Memory behind it is the
 *   library's, from malloc, and refskold_close gives it back. Do not copy a handle that holds a mount: of two copies only one may be used. What you
 *   hand in is copied; the library keeps none of your pointers. In one call no two arguments may overlap.
 *
 * Threads, signals, forks
 *
 *   One call at a time for each mount: between threads you order the calls of one mount by a lock, or by starting and
 *   joining threads. Two mounts share nothing, so two threads may be at two mounts at once, and a mount may go from one
 *   thread to another. Call nothing from a signal handler, nor in the child of a fork of a process with several threads.
 *   A mount that lives in parent and child is two mounts with one log: use one of them alone.
 *
 *   Several threads may share a mount under a lock of yours. Of a job that the mount owes, one of them takes it, and
 *   refskold_take is 0 for the others. So where refskold_force says that something waits, and no checkpoint is to be taken,
 *   one is under way: wait until it has ended, as by a condition variable that whoever calls refskold_end signals, and force
 *   again. A loop that only takes and forces would spin. The lock need not be held while a device works: see at
 *   refskold_begin and refskold_flush. refskold_volume.h does all this for a volume.
 *
 * Words
 *
 *   A block is busy while a transaction has it locked, or it is held; while what was committed of it is not on the log, or
 *   not home; and, once it was invalidated, until that has landed. A mount has at most REFSKOLD_MOST_BUSY busy blocks, which
 *   is therefore also how many may change at once, and how many different blocks are committed before some must go home.
 *
 *   Home, of a block: written to the home device, by what you answered to a flush. On the log, of a commit: its checkpoint has
 *   landed, by what you answered to refskold_end.
 *
 * Numbers
 *
 *   Lengths and offsets are in bytes. Blocks, pieces and places of a plan count from 0; transactions, checkpoints, serials
 *   and lives from 1. `malloc` has to align blocks to 16 bytes, as that of each C library on Linux does.
 */
#ifndef REFSKOLD_H
#define REFSKOLD_H

#include <errno.h>
#include <stddef.h>
#include <stdint.h>

#ifdef __cplusplus
extern "C" {
#endif

/* ---- Sizes and limits ---------------------------------------------------------------------------------------------- */

/* What this header says. The library says its own by refskold_version(): they must be equal. It goes up with each change
 * that a program that was compiled earlier would notice. */
#define REFSKOLD_VERSION 5u

#define REFSKOLD_BLOCK 4096u                       /* bytes of the longest block, and of the longest piece */
#define REFSKOLD_LEAST_LOG 65536u                  /* bytes of the smallest log */
#define REFSKOLD_MOST_LOG 16777216u                /* bytes of the largest log */
#define REFSKOLD_MOST_BLOCKS UINT64_C(1099511627776) /* blocks of the largest home device */
#define REFSKOLD_MOST_TRANS 32u                    /* transactions that are open at once */
#define REFSKOLD_MOST_LEGS 8u                      /* legs that a transaction is given at once */
#define REFSKOLD_MOST_BUSY 64u                     /* blocks that are busy at once, and most that a reply says are held */
#define REFSKOLD_HELD REFSKOLD_MOST_BUSY           /* its name in earlier headers */
#define REFSKOLD_PIECES 65u                   /* pieces of the longest checkpoint */
#define REFSKOLD_PLAN 8u                      /* blocks of a flush */
#define REFSKOLD_TEXT 263204u                 /* bytes of the longest checkpoint, of all its pieces */
#define REFSKOLD_LOG_HEADER 64u               /* bytes of the header of a sealed log: a head, and its seal */
#define REFSKOLD_LOG_HEAD 56u                 /* bytes of the head */
#define REFSKOLD_SEAL 8u                      /* bytes of a seal */

/* ---- A mount ------------------------------------------------------------------------------------------------------- */

/* A handle: a mount, or none. Both fields are the library's. */
typedef struct refskold {
    void *at;
    uint64_t holds;
} refskold;

/* A handle that holds no mount. */
#define REFSKOLD_NONE { NULL, 0 }

/* Why a mount is shut: the first reason is kept. */
enum refskold_reason {
    REFSKOLD_LIVE = 0,            /* it is not */
    REFSKOLD_META_IO_ERROR = 1,   /* a read failed in a transaction that had changed something */
    REFSKOLD_LOG_IO_ERROR = 2,    /* a checkpoint failed */
    REFSKOLD_FORCE_UMOUNT = 3,    /* refskold_shutdown */
    REFSKOLD_CORRUPT_INCORE = 4   /* a transaction that had changed something was cancelled */
};

/* What a reply tells. */
enum refskold_told {
    REFSKOLD_OK = 0,
    REFSKOLD_OK_HELD = 1,         /* cancel: `held`, `held_count` of them */
    REFSKOLD_LIFE = 2,
    REFSKOLD_TRANS = 3,           /* alloc: `number` */
    REFSKOLD_COMMITTED = 4,       /* commit, roll: `number`, 0 where nothing was changed */
    REFSKOLD_COMMITTED_HELD = 5,  /* the same: `number`, `held` */
    REFSKOLD_ABORTED = 6,         /* commit, roll: given up, with `error`; `held` */
    REFSKOLD_WAIT = 7,            /* force: `number` */
    REFSKOLD_DONE = 8,            /* force */
    REFSKOLD_KEPT = 9,            /* relse: the block is still the transaction's */
    REFSKOLD_FREE = 10,           /* relse: it is unlocked */
    REFSKOLD_DATA = 11,           /* view: the room is filled */
    REFSKOLD_NOTHING = 12,        /* begin, flush: there is nothing to do; the job is finished */
    REFSKOLD_BEGUN = 13,          /* begin: `number`, `pieces` */
    REFSKOLD_LANDED = 14,         /* end: `number` */
    REFSKOLD_FAILED = 15,         /* end: `number` */
    REFSKOLD_FLUSHED = 16,        /* flush: `number`, how many blocks are home */
    REFSKOLD_SEEN = 17,
    REFSKOLD_REFUSED = 18,        /* `error` */
    REFSKOLD_STAT = 19
};

/* A reply. Fields that its word does not name are 0; of `held` only the first `held_count` say something. */
typedef struct refskold_reply {
    uint32_t word;                /* enum refskold_told */
    uint32_t error;               /* an errno, without a minus */
    uint64_t number;
    uint32_t pieces;
    uint32_t held_count;
    uint64_t held[64];            /* blocks that stay locked, ascending */
} refskold_reply;

/* The blocks that a flush writes home: the first `count`, in the order in which they are to be written. */
typedef struct refskold_plan {
    uint32_t count;
    uint32_t unused;
    uint64_t blocks[8];
} refskold_plan;

/* What a mount tells of itself, in 64 bytes: twelve numbers of 32 bits, and two of 64. A block is idle where it is not busy,
 * and its content is still in memory. Bytes are of the log, of the `log_bytes` that the mount was opened with. */
typedef struct refskold_state {
    uint32_t transactions;        /* that are open: 0 to REFSKOLD_MOST_TRANS */
    uint32_t busy;                /* blocks: 0 to REFSKOLD_MOST_BUSY */
    uint32_t idle;                /* blocks: 0 to 64 */
    uint32_t committed;           /* blocks that the next checkpoint would have: 0 to REFSKOLD_MOST_BUSY */
    uint32_t active;              /* blocks of checkpoints that landed, which are not home: 0 to REFSKOLD_MOST_BUSY */
    uint32_t owed;                /* jobs that refskold_take would give: 0 to 2 */
    uint32_t outstanding;         /* jobs that were taken and have not ended: 0 to 2 */
    uint32_t frozen;              /* 1 from refskold_freeze to refskold_thaw, else 0 */
    uint32_t cost;                /* bytes that the text of the next checkpoint would have: 0 to REFSKOLD_TEXT */
    uint32_t granted;             /* bytes kept for open transactions: for each its `unit` times the legs it has left */
    uint32_t used;                /* bytes in use: granted + cost, and texts that are in flight, or landed from `least` on */
    uint32_t free;                /* bytes that are left: used + free is `log_bytes` */
    uint64_t flight;              /* number of the checkpoint that is begun; 0 for none */
    uint64_t least;               /* least number of a checkpoint that has an active block; 0 for none */
} refskold_state;

/* The kinds of jobs. */
enum refskold_job { REFSKOLD_CHECKPOINT = 0, REFSKOLD_FLUSH = 1 };

/* What refskold_read returns where the home device must be asked, and refskold_take where a job was owed. */
#define REFSKOLD_ASKS 1
#define REFSKOLD_TAKEN 1

/* ---- The struct form ----------------------------------------------------------------------------------------------- */

/* What the library exports: for bindings of other languages. In C use the functions below this part, which refuse NULL.
 *
 * Here no pointer may be NULL, also where its length is 0, and each is to as many bytes as is said. A function below says
 * what its export does, with the differences that are named here. An export that ends what a handle holds sets `holds` to
 * 0, and `at` then says nothing. */

/* The words of requests, with the fields of a refskold_request that each reads. */
enum refskold_word {
    REFSKOLD_ALLOC = 0,           /* unit, count, perm */
    REFSKOLD_GET = 1,             /* trans, block, as the others up to 10, but 9 */
    REFSKOLD_READ = 2,
    REFSKOLD_VIEW = 3,
    REFSKOLD_LOG = 4,             /* first beside these, and the bytes of `data` */
    REFSKOLD_HOLD = 5,
    REFSKOLD_UNHOLD = 6,
    REFSKOLD_RELSE = 7,
    REFSKOLD_JOIN = 8,
    REFSKOLD_RELEASE = 9,         /* block */
    REFSKOLD_INVAL = 10,
    REFSKOLD_COMMIT = 11,         /* trans */
    REFSKOLD_ROLL = 12,           /* trans */
    REFSKOLD_CANCEL = 13,         /* trans */
    REFSKOLD_FORCE = 14,
    REFSKOLD_FORCE_TO = 15,       /* number */
    REFSKOLD_PUSH = 16,
    REFSKOLD_SHUTDOWN = 17,
    REFSKOLD_FREEZE = 18,
    REFSKOLD_THAW = 19,
    REFSKOLD_UNMOUNT = 20
};

/* What the home device answered to a read: nothing yet, the block, or a failure. */
enum refskold_answer { REFSKOLD_UNASKED = 0, REFSKOLD_CONTENT = 1, REFSKOLD_FAILED_READ = 2 };

/* A request: fields that its word does not name are not looked at. */
typedef struct refskold_request {
    uint32_t word;                /* enum refskold_word */
    uint32_t perm;
    uint32_t unit;
    uint32_t count;
    uint32_t first;
    uint32_t unused;
    uint64_t trans;
    uint64_t block;
    uint64_t number;
} refskold_request;

uint32_t refskold_abi_version(void);
int32_t refskold_abi_open(refskold *mount, uint32_t last, uint32_t log_bytes, uint64_t blocks);
int32_t refskold_abi_open_sized(refskold *mount, uint32_t last, uint32_t log_bytes, uint64_t blocks, uint32_t size);
void refskold_abi_close(refskold *mount);
int32_t refskold_abi_shut(refskold *mount);
int32_t refskold_abi_log_needed(refskold *mount);
int32_t refskold_abi_stat(refskold *mount, refskold_state *state);

/* Serves a request. `data` are the bytes of a LOG, for other words of length 0. `answered` (enum refskold_answer) is what
 * the home device answered, with the block in `content`. `room` is filled by a VIEW, and is then as long as a block.
 *
 * Returns 0 with the reply; REFSKOLD_ASKS where the home device must be asked for block reply->number, and the call be
 * made again with its answer; or an error. The mount's own refusals come with a reply (REFUSED, ABORTED). Without one, and
 * with nothing changed: -EINVAL where the words spell no request, `data` has more than 4,096 bytes, `content` is no whole
 * block of the mount, `room` has another length at a VIEW, or an answer has come that was not asked for; -ENODEV;
 * -ENOMEM. */
int32_t refskold_abi_call(refskold *mount, const refskold_request *request, const uint8_t *data, size_t data_len,
                          uint32_t answered, const uint8_t *content, size_t content_len, refskold_reply *reply,
                          uint8_t *room, size_t room_len);

/* The requests of which most changes are made, by their own arguments: as refskold_abi_call serves them with no answer,
 * but no reply is told. Alloc writes the number of the transaction where it returns 0. */
int32_t refskold_abi_alloc(refskold *mount, uint32_t unit, uint32_t count, uint32_t perm, uint64_t *trans);
int32_t refskold_abi_read(refskold *mount, uint64_t trans, uint64_t block);
int32_t refskold_abi_log(refskold *mount, uint64_t trans, uint64_t block, uint32_t first, const uint8_t *data,
                         size_t data_len);
int32_t refskold_abi_commit(refskold *mount, uint64_t trans);

int32_t refskold_abi_take(refskold *mount, uint32_t kind, uint64_t *serial);
int32_t refskold_abi_begin(refskold *mount, uint64_t serial, refskold_reply *reply);
int32_t refskold_abi_piece(refskold *mount, uint32_t index, uint8_t *room, size_t room_len);

/* `log` has REFSKOLD_LOG_HEADER bytes; -EINVAL where it has not. */
int32_t refskold_abi_seal(refskold *mount, uint8_t *log, size_t log_len);

/* It returns 0 also where the checkpoint failed: the reply's word says which. */
int32_t refskold_abi_end(refskold *mount, uint64_t serial, uint32_t taken, uint32_t synced, refskold_reply *reply);
int32_t refskold_abi_plan(refskold *mount, refskold_plan *plan);
int32_t refskold_abi_home(refskold *mount, uint32_t index, uint8_t *room, size_t room_len);
int32_t refskold_abi_homes(refskold *mount, refskold_plan *plan, uint8_t *room, size_t room_len);
int32_t refskold_abi_homes_mapped(refskold *mount, refskold_plan *plan, uint8_t *device, size_t device_len);

/* It returns -EIO, as the function below, also with the reply written. */
int32_t refskold_abi_flush(refskold *mount, uint64_t serial, uint32_t count, uint32_t written, uint32_t synced,
                           refskold_reply *reply);
int32_t refskold_abi_flush_mapped(refskold *mount, uint64_t serial, uint8_t *device, size_t device_len, refskold_reply *reply);

/* refskold_abi_call with pointers that may be NULL: `data`, `content` and `room` where their length is 0, and `reply`. Other
 * NULLs are -EINVAL. Most functions below are made of it. */
static inline int refskold_call(refskold *mount, const refskold_request *request, const void *data, size_t data_len,
                                uint32_t answered, const void *content, size_t content_len, refskold_reply *reply,
                                void *room, size_t room_len)
{
    static const uint8_t none[1] = { 0 };
    uint8_t no_room[1];
    refskold_reply told;
    int status;
    if (mount == NULL || request == NULL) return -EINVAL;
    if ((data == NULL && data_len != 0) || (content == NULL && content_len != 0)) return -EINVAL;
    if (room == NULL && room_len != 0) return -EINVAL;
    status = refskold_abi_call(mount, request, data == NULL ? none : (const uint8_t *)data, data_len, answered,
                               content == NULL ? none : (const uint8_t *)content, content_len, reply == NULL ? &told : reply,
                               room == NULL ? no_room : (uint8_t *)room, room_len);
    if (mount->holds == 0) mount->at = NULL;
    return status;
}

/* A request of this word, with no other field; and one of a block of a transaction. For the functions below. */
static inline refskold_request refskold_request_of(uint32_t word, uint64_t trans, uint64_t block)
{
    refskold_request request = { 0, 0, 0, 0, 0, 0, 0, 0, 0 };
    request.word = word;
    request.trans = trans;
    request.block = block;
    return request;
}

/* Asks a request that carries no bytes and fills no room. For the functions below. */
static inline int refskold_ask(refskold *mount, refskold_request request, refskold_reply *reply)
{
    return refskold_call(mount, &request, NULL, 0, REFSKOLD_UNASKED, NULL, 0, reply, NULL, 0);
}

/* The same of a block of a transaction. For the functions below. */
static inline int refskold_ask_of(refskold *mount, uint32_t word, uint64_t trans, uint64_t block)
{
    return refskold_ask(mount, refskold_request_of(word, trans, block), NULL);
}

/* ---- Made and ended ------------------------------------------------------------------------------------------------ */

/* The version of the library: REFSKOLD_VERSION of the header that it belongs to. */
static inline uint32_t refskold_version(void)
{
    return refskold_abi_version();
}

/* Makes a mount, which the handle then holds: with nothing committed, and over a home device that has all that earlier
 * lives committed. So after a crash first lay the log over the home device (refskold_recovery_open), and begin with an
 * empty log. That no second program has your devices is yours to see to: before you look at them, lock both files as `xth`
 * does, by flock(LOCK_EX | LOCK_NB).
 *
 * `last` is the last life of this volume, 0 at first; the mount's own is one more. `xth` numbers lives so; nothing that this
 * library tells or writes of a mount depends on it, so where you count none 0 does each time.
 *
 * `log_bytes` is the space that the log's checkpoints may take, REFSKOLD_LEAST_LOG to REFSKOLD_MOST_LOG: more than that is
 * never in use, though the log itself grows until you empty it (refskold_log_needed says when you may) or write it in two
 * files by turns. A log of more than 2,105,639 bytes buys little: an eighth of it is more than all busy blocks cost, so that no
 * checkpoint is owed which was not asked, and the rest is for more checkpoints of the same blocks before these are home.
 *
 * `blocks` is the size of the home device, 1 to REFSKOLD_MOST_BLOCKS. A block has REFSKOLD_BLOCK bytes, and the log does not
 * say so.
 *
 * -EBUSY: the handle holds a mount. -EINVAL: a size out of its range. -ENOSPC: `last` is 4,294,967,295. -ENOMEM. */
static inline int refskold_open(refskold *mount, uint32_t last, uint32_t log_bytes, uint64_t blocks)
{
    return mount == NULL ? -EINVAL : refskold_abi_open(mount, last, log_bytes, blocks);
}

/* The same with blocks of `size` bytes, 512, 1,024, 2,048 or 4,096, which each text of its log says. Of such a mount you call
 * refskold_read_content_sized, refskold_view_sized and refskold_home_sized, with its size; without `_sized` they are of
 * REFSKOLD_BLOCK bytes. -EINVAL also where a block may not have so many bytes. */
static inline int refskold_open_sized(refskold *mount, uint32_t last, uint32_t log_bytes, uint64_t blocks, uint32_t size)
{
    return mount == NULL ? -EINVAL : refskold_abi_open_sized(mount, last, log_bytes, blocks, size);
}

/* Ends a mount, whatever is left of it, and gives its memory back; the handle then holds none. 0, also where it held none.
 * What is committed and not on the log is lost, as in a crash: refskold_unmount is the orderly end. */
static inline int refskold_close(refskold *mount)
{
    if (mount == NULL) return -EINVAL;
    refskold_abi_close(mount);
    mount->at = NULL;
    return 0;
}

/* Why the mount is shut: REFSKOLD_LIVE, or another enum refskold_reason. */
static inline int refskold_shut(refskold *mount)
{
    return mount == NULL ? -EINVAL : refskold_abi_shut(mount);
}

/* Whether a text on the mount's log may still be wanted. 0: the mount is live, no checkpoint is begun, and each block of a
 * checkpoint that landed is home, by what your home device answered; then the log may be emptied, at any time before the
 * next refskold_begin, and a crash takes nothing back of what refskold_force said was on the log. Else 1; of a shut mount it
 * is 1 for good, and the way on is a recovery.
 *
 * Of a log in two files the older one goes first, and that is synced before the newer one goes; then the log begins anew, as
 * that of a new life does: a header of generation 1, with a new salt. Where you have answered flushes as synced before your
 * home device was, sync it before the log loses any text, here or at a turn; that this loses nothing was tried, not proved.
 *
 * That it is 0 just where that is so is proved, and that a crash then takes nothing back (docs/use/recovery.md). */
static inline int refskold_log_needed(refskold *mount)
{
    return mount == NULL ? -EINVAL : refskold_abi_log_needed(mount);
}

/* Writes what the mount tells of itself, live or shut: how full its log and its lists are, and what it owes. It changes
 * nothing, asks no device and wants no memory, so it may come at any time, also between a plan and its flush. 0. -ENODEV. */
static inline int refskold_stat(refskold *mount, refskold_state *state)
{
    return mount == NULL || state == NULL ? -EINVAL : refskold_abi_stat(mount, state);
}

/* ---- Transactions -------------------------------------------------------------------------------------------------- */

/* Opens a transaction, and writes its number. It may log `unit` bytes in each of `count` legs, 1 to REFSKOLD_MOST_LEGS;
 * `perm` not 0 means that it may be rolled. A leg that changes something costs 32 bytes, or 36 where the mount was opened
 * with a size; 16 for each block, and 128 for each chunk of 128 bytes that a change touches.
 *
 * -EINVAL: `unit` is 0, `count` is out of its range or above 1 without `perm`, or unit * count is over the log.
 * -EIO: shut. -EAGAIN: frozen. -ENOSPC: no number is left. -EAGAIN: REFSKOLD_MOST_TRANS are open. -EAGAIN: there is no log
 * space, which asks a checkpoint and a flush: do the jobs that are owed, and try again. -ENOMEM. */
static inline int refskold_alloc(refskold *mount, uint32_t unit, uint32_t count, int perm, uint64_t *trans)
{
    return mount == NULL || trans == NULL ? -EINVAL : refskold_abi_alloc(mount, unit, count, perm != 0, trans);
}

/* Locks a block for a transaction without its content: it shows zeros, and must first be written whole, unless its content
 * is in memory. One that the transaction has already is locked once more.
 *
 * -EINVAL: the transaction is not open, or the block is past the end. -EIO: shut. -EINVAL: it is locked 4,294,967,296
 * times. -EAGAIN: locked elsewhere. -ENOBUFS: it would be the 65th busy block. */
static inline int refskold_get(refskold *mount, uint64_t trans, uint64_t block)
{
    return refskold_ask_of(mount, REFSKOLD_GET, trans, block);
}

/* Locks a block for a transaction with its content. REFSKOLD_ASKS: nothing has changed, and the home device must be asked:
 * read the block, and call refskold_read_content or refskold_read_failed, with no other call of this mount between.
 *
 * -EINVAL: the transaction is not open, or the block is past the end. -EIO: shut. -EINVAL: it is locked 4,294,967,296
 * times, or the transaction has it by a get and has not written it whole, or has invalidated it. -EAGAIN: locked elsewhere.
 * -ENOBUFS: it would be the 65th busy block. -ENOMEM. */
static inline int refskold_read(refskold *mount, uint64_t trans, uint64_t block)
{
    return mount == NULL ? -EINVAL : refskold_abi_read(mount, trans, block);
}

/* The same with the `size` bytes that the home device gave. -EINVAL also where it need not be asked, or a block of the mount
 * has not so many bytes. */
static inline int refskold_read_content_sized(refskold *mount, uint64_t trans, uint64_t block, const void *content,
                                              size_t size)
{
    refskold_request request = refskold_request_of(REFSKOLD_READ, trans, block);
    if (content == NULL) return -EINVAL;
    return refskold_call(mount, &request, NULL, 0, REFSKOLD_CONTENT, content, size, NULL, NULL, 0);
}

/* The same with REFSKOLD_BLOCK bytes. */
static inline int refskold_read_content(refskold *mount, uint64_t trans, uint64_t block, const void *content)
{
    return refskold_read_content_sized(mount, trans, block, content, REFSKOLD_BLOCK);
}

/* The same where the home device failed: -EIO, and the block is not locked; the mount is shut for REFSKOLD_META_IO_ERROR
 * where the transaction has changed something. -EINVAL also where the home device need not be asked. */
static inline int refskold_read_failed(refskold *mount, uint64_t trans, uint64_t block)
{
    refskold_request request = refskold_request_of(REFSKOLD_READ, trans, block);
    return refskold_call(mount, &request, NULL, 0, REFSKOLD_FAILED_READ, NULL, 0, NULL, NULL, 0);
}

/* Copies what the transaction sees of its block into a room of `size` bytes.
 *
 * -EINVAL: a block of the mount has not so many bytes, the transaction is not open, or does not have the block. -ENOMEM. */
static inline int refskold_view_sized(refskold *mount, uint64_t trans, uint64_t block, void *room, size_t size)
{
    refskold_request request = refskold_request_of(REFSKOLD_VIEW, trans, block);
    if (room == NULL) return -EINVAL;
    return refskold_call(mount, &request, NULL, 0, REFSKOLD_UNASKED, NULL, 0, NULL, room, size);
}

/* The same of a room of REFSKOLD_BLOCK bytes. */
static inline int refskold_view(refskold *mount, uint64_t trans, uint64_t block, void *room)
{
    return refskold_view_sized(mount, trans, block, room, REFSKOLD_BLOCK);
}

/* Writes `length` bytes of `data` in a block of the transaction, from the offset `first` on. They are seen by this
 * transaction alone until it commits.
 *
 * -EINVAL: the transaction is not open, or does not have the block. -EINVAL: `length` is 0, or first + length is past
 * the end of a block. -EINVAL: the transaction has the block by refskold_get alone, or has invalidated it, and this is not the
 * whole block: read it (refskold_read) before you write a part of it, or write all of it first. -ENOSPC: the leg would
 * cost more than its `unit`. -ENOMEM. */
static inline int refskold_log(refskold *mount, uint64_t trans, uint64_t block, uint32_t first, const void *data,
                               size_t length)
{
    static const uint8_t none[1] = { 0 };
    if (mount == NULL || (data == NULL && length != 0)) return -EINVAL;
    return refskold_abi_log(mount, trans, block, first, data == NULL ? none : (const uint8_t *)data, length);
}

/* Lets a block stay locked when the leg ends, for a transaction to join; refskold_unhold takes that back.
 *
 * -EINVAL: the transaction is not open, does not have the block, or has invalidated it; of unhold: or does not hold it. */
static inline int refskold_hold(refskold *mount, uint64_t trans, uint64_t block)
{
    return refskold_ask_of(mount, REFSKOLD_HOLD, trans, block);
}

static inline int refskold_unhold(refskold *mount, uint64_t trans, uint64_t block)
{
    return refskold_ask_of(mount, REFSKOLD_UNHOLD, trans, block);
}

/* Gives one lock of a block back, and writes whether it is unlocked (1), or still the transaction's (0), because it is
 * locked more than once or the leg has changed it. `unlocked` may be NULL.
 *
 * -EINVAL: the transaction is not open, or does not have the block. */
static inline int refskold_relse(refskold *mount, uint64_t trans, uint64_t block, int *unlocked)
{
    refskold_reply reply;
    int status = refskold_ask(mount, refskold_request_of(REFSKOLD_RELSE, trans, block), &reply);
    if (status == 0 && unlocked != NULL) *unlocked = reply.word == REFSKOLD_FREE;
    return status;
}

/* Takes a held block into a transaction. -EINVAL: the transaction is not open, or the block is not held. -EIO: shut. */
static inline int refskold_join(refskold *mount, uint64_t trans, uint64_t block)
{
    return refskold_ask_of(mount, REFSKOLD_JOIN, trans, block);
}

/* Gives a held block up. -EINVAL: it is not held. */
static inline int refskold_release(refskold *mount, uint64_t block)
{
    return refskold_ask_of(mount, REFSKOLD_RELEASE, 0, block);
}

/* Gives a block up for good, as a freed one: what was written to it is forgotten, and the log will say so. It stays locked
 * until the checkpoint of that has landed.
 *
 * -EINVAL: the transaction is not open, or does not have the block. -ENOSPC: the leg would cost more than its `unit`. */
static inline int refskold_inval(refskold *mount, uint64_t trans, uint64_t block)
{
    return refskold_ask_of(mount, REFSKOLD_INVAL, trans, block);
}

/* Ends a transaction and commits its changes. The reply, which may be NULL, tells the checkpoint that they will be in
 * (`number`; 0 where nothing was changed) and the blocks that stay held. Committed is not yet on the log: refskold_force.
 *
 * -EINVAL: the transaction is not open. -EIO: it has changed something and the mount is shut: the transaction has ended,
 * its changes are given up, and the reply (ABORTED) tells the blocks that stay held. -ENOMEM: only where some would stay
 * held. */
static inline int refskold_commit(refskold *mount, uint64_t trans, refskold_reply *reply)
{
    if (mount == NULL) return -EINVAL;
    if (reply == NULL) return refskold_abi_commit(mount, trans);
    return refskold_ask(mount, refskold_request_of(REFSKOLD_COMMIT, trans, 0), reply);
}

/* Commits the changes of a transaction that may roll, which goes on with its next leg. The reply is as that of a commit.
 *
 * -EINVAL: the transaction is not open, or may not roll. -EIO: shut: the leg is given up, and the transaction stays open.
 * -EAGAIN: it was the last leg and there is no log space for one more, which asks a checkpoint and a flush. -ENOMEM: as of
 * a commit. */
static inline int refskold_roll(refskold *mount, uint64_t trans, refskold_reply *reply)
{
    return refskold_ask(mount, refskold_request_of(REFSKOLD_ROLL, trans, 0), reply);
}

/* Ends a transaction and gives its changes up; the reply, which may be NULL, tells the blocks that stay held. Where it has
 * changed something, that shuts a live mount for REFSKOLD_CORRUPT_INCORE: cancel before the first change.
 *
 * -EINVAL: the transaction is not open. -ENOMEM: as of a commit. */
static inline int refskold_cancel(refskold *mount, uint64_t trans, refskold_reply *reply)
{
    return refskold_ask(mount, refskold_request_of(REFSKOLD_CANCEL, trans, 0), reply);
}

/* ---- The mount as a whole ------------------------------------------------------------------------------------------ */

/* Writes 0 where all that is committed is on the log; else it asks a checkpoint, and writes the number of the one to be
 * waited for. So: do the checkpoints that are owed, and force again, until that is 0. `waits` may be NULL. -EIO: shut. */
static inline int refskold_force(refskold *mount, uint64_t *waits)
{
    refskold_reply reply;
    int status = refskold_ask(mount, refskold_request_of(REFSKOLD_FORCE, 0, 0), &reply);
    if (status == 0 && waits != NULL) *waits = reply.word == REFSKOLD_WAIT ? reply.number : 0;
    return status;
}

/* The same for one checkpoint. -EINVAL: `number` is 0 or above that of the checkpoint to come. -EIO: shut. */
static inline int refskold_force_to(refskold *mount, uint64_t number, uint64_t *waits)
{
    refskold_request request = refskold_request_of(REFSKOLD_FORCE_TO, 0, 0);
    refskold_reply reply;
    int status;
    request.number = number;
    status = refskold_ask(mount, request, &reply);
    if (status == 0 && waits != NULL) *waits = reply.word == REFSKOLD_WAIT ? reply.number : 0;
    return status;
}

/* Asks a flush, of blocks whose checkpoints are on the log. Once is enough: while blocks are left that may be written, a flush
 * of which all was written asks the next one. -EIO: shut. */
static inline int refskold_push(refskold *mount)
{
    return refskold_ask_of(mount, REFSKOLD_PUSH, 0, 0);
}

/* Shuts the mount for REFSKOLD_FORCE_UMOUNT. It takes no more changes; what is on the log stays there. */
static inline int refskold_shutdown(refskold *mount)
{
    return refskold_ask_of(mount, REFSKOLD_SHUTDOWN, 0, 0);
}

/* Freezes the mount: it opens no transaction until refskold_thaw; those that are open, and jobs, go on.
 *
 * -EIO: shut. -EBUSY: frozen already. Of thaw: -EINVAL: not frozen. */
static inline int refskold_freeze(refskold *mount)
{
    return refskold_ask_of(mount, REFSKOLD_FREEZE, 0, 0);
}

static inline int refskold_thaw(refskold *mount)
{
    return refskold_ask_of(mount, REFSKOLD_THAW, 0, 0);
}

/* Ends a mount in order; the handle then holds none, and its memory is given back.
 *
 * -EBUSY: a transaction is open, a block is held, a job is outstanding, or the mount is live and not all that was committed
 * is home: force, push and do the jobs that are owed until none is. */
static inline int refskold_unmount(refskold *mount)
{
    return refskold_ask_of(mount, REFSKOLD_UNMOUNT, 0, 0);
}

/* ---- Jobs ---------------------------------------------------------------------------------------------------------- */

/* Takes the job of a kind (enum refskold_job) that the mount owes: REFSKOLD_TAKEN, and its serial is written; it is then
 * yours to do. 0 where none is owed, also because one of the kind was taken and has not ended: a mount owes at most one of
 * each kind at a time. Ask after each force, push and commit, and after -EAGAIN: a mount owes a checkpoint also where what is
 * committed costs an eighth of the log.
 *
 * Keep the serial until the job has ended, also past an error: nothing but that ends it, and who has the serial may do it. A
 * flush that can't be done now may be ended as one of which nothing was written; refskold_push then asks another.
 *
 * -EINVAL: there is no such kind. */
static inline int refskold_take(refskold *mount, uint32_t kind, uint64_t *serial)
{
    return mount == NULL || serial == NULL ? -EINVAL : refskold_abi_take(mount, kind, serial);
}

/* Begins a checkpoint that was taken: what is committed now will be on the log when it has landed. The reply's word is
 * REFSKOLD_BEGUN, with its number and how many pieces it has, 1 to REFSKOLD_PIECES; or REFSKOLD_NOTHING, and the job
 * is finished.
 *
 * Then append each piece to your log, in order, sync it, and call refskold_end. Other calls may come between.
 *
 * -EINVAL: no checkpoint of this serial waits to begin. -ENOMEM: it still waits. */
static inline int refskold_begin(refskold *mount, uint64_t serial, refskold_reply *reply)
{
    return mount == NULL || reply == NULL ? -EINVAL : refskold_abi_begin(mount, serial, reply);
}

/* Copies a piece of the checkpoint that is begun to the front of a room of `length` bytes, and returns the piece's length:
 * 1 to REFSKOLD_BLOCK; only the last is shorter than that.
 *
 * -EINVAL: there is no such piece, no checkpoint is begun, or the room is too short. */
static inline int refskold_piece(refskold *mount, uint32_t index, void *room, size_t length)
{
    return mount == NULL || room == NULL ? -EINVAL : refskold_abi_piece(mount, index, (uint8_t *)room, length);
}

/* Copies all pieces of the checkpoint that is begun, one behind the other, to the front of a room of `length` bytes, and
 * returns how many bytes they have: at most REFSKOLD_TEXT. `pieces` are as many as refskold_begin told.
 *
 * -EINVAL: it has fewer pieces, or the room is too short; then the front of the room may be written. */
static inline int refskold_pieces(refskold *mount, uint32_t pieces, void *room, size_t length)
{
    size_t filled = 0;
    uint32_t index;
    if (room == NULL) return -EINVAL;
    for (index = 0; index < pieces; index++) {
        int copied = refskold_piece(mount, index, (uint8_t *)room + filled, length - filled);
        if (copied < 0) return copied;
        filled += (size_t)copied;
    }
    return (int)filled;
}

/* Makes the seal of the checkpoint that is begun, where your log is sealed: append it behind the last piece, REFSKOLD_SEAL
 * bytes, before the sync. `log` is as refskold_log_header or the seal before has left it: log[0..55] are the head of the file
 * that the checkpoint is written to, and log + REFSKOLD_LOG_HEAD is the last seal of that file, the header's own at first. 0,
 * and the new seal stands there in its place. Call it once for each checkpoint, since each seal goes on from the one before;
 * where the checkpoint fails, the log has ended, and so has its chain.
 *
 * That the seal is the one which the format says, of the pieces, is proved.
 *
 * -EINVAL: no checkpoint is begun. -ENODEV. */
static inline int refskold_seal(refskold *mount, unsigned char log[REFSKOLD_LOG_HEADER])
{
    return mount == NULL || log == NULL ? -EINVAL : refskold_abi_seal(mount, log, REFSKOLD_LOG_HEADER);
}

/* Ends a checkpoint by what your log answered: it has taken so many pieces, and where these were all, `synced` not 0 says
 * that its sync was good. 0: it has landed. The reply may be NULL.
 *
 * -EINVAL: no checkpoint of this serial is begun, or it has fewer pieces. -EIO: it has failed (the reply's word is
 * REFSKOLD_FAILED): the mount is shut, for REFSKOLD_LOG_IO_ERROR where it was live, and what it had begun to write counts
 * for nothing. */
static inline int refskold_end(refskold *mount, uint64_t serial, uint32_t taken, int synced, refskold_reply *reply)
{
    refskold_reply told;
    int status;
    if (mount == NULL) return -EINVAL;
    if (reply == NULL) reply = &told;
    status = refskold_abi_end(mount, serial, taken, synced != 0, reply);
    return status == 0 && reply->word == REFSKOLD_FAILED ? -EIO : status;
}

/* Writes which blocks a flush writes home now, and returns how many, 0 to REFSKOLD_PLAN. */
static inline int refskold_flush_plan(refskold *mount, refskold_plan *plan)
{
    return mount == NULL || plan == NULL ? -EINVAL : refskold_abi_plan(mount, plan);
}

/* Copies what is to be written home of the block at a place of the plan into a room of `size` bytes.
 *
 * -EINVAL: the plan has no such place, or a block of the mount has not so many bytes. -ENODEV. */
static inline int refskold_home_sized(refskold *mount, uint32_t index, void *room, size_t size)
{
    return mount == NULL || room == NULL ? -EINVAL : refskold_abi_home(mount, index, (uint8_t *)room, size);
}

/* The same of a room of REFSKOLD_BLOCK bytes. */
static inline int refskold_home(refskold *mount, uint32_t index, void *room)
{
    return refskold_home_sized(mount, index, room, REFSKOLD_BLOCK);
}

/* Both at once: writes which blocks a flush writes home now, and copies what is to be written of each to the front of a room
 * of `length` bytes, one after another in the order of the plan. Returns how many, 0 to REFSKOLD_PLAN. The plan is made
 * once, where refskold_home makes it anew for each block. A room of REFSKOLD_PLAN blocks fits each plan.
 *
 * -EINVAL: the room is too short, and neither it nor the plan is written. */
static inline int refskold_homes(refskold *mount, refskold_plan *plan, void *room, size_t length)
{
    if (mount == NULL || plan == NULL || room == NULL) return -EINVAL;
    return refskold_abi_homes(mount, plan, (uint8_t *)room, length);
}

/* The same where your home device lies in memory, as a file that is mapped: writes which blocks a flush writes home now, and
 * copies what is to be written of each straight to its own place in the device, which has `length` bytes and begins with
 * block 0; a block has the mount's size. Returns how many, 0 to REFSKOLD_PLAN. The bytes of all other blocks are as they
 * were. To sync the device, as by msync, is still yours, before refskold_flush.
 *
 * -EINVAL: the device ends before a block of the plan does, and neither it nor the plan is written. */
static inline int refskold_homes_mapped(refskold *mount, refskold_plan *plan, void *device, size_t length)
{
    if (mount == NULL || plan == NULL || device == NULL) return -EINVAL;
    return refskold_abi_homes_mapped(mount, plan, (uint8_t *)device, length);
}

/* Ends a flush that was taken, by what your home device answered to the writes of the plan: `count` as in the plan, bit k
 * of `written` set where the write at place k was good, `synced` not 0 where the sync after them was. Write each block of
 * the plan, also where one fails. No other call of this mount may come between the plan and the flush: else the plan may be
 * another. To write while other calls come, make the plan again behind the writes, by refskold_homes, and set the bits of those
 * blocks of it alone that were written, and with the content that they have now.
 *
 * 0: all of them are home now, or there was nothing to do. The reply, which may be NULL, tells how many are (REFSKOLD_FLUSHED),
 * or that (REFSKOLD_NOTHING).
 *
 * -EINVAL: no flush of this serial waits, or the plan has not `count` blocks. -EIO: a write or the sync failed, so fewer are
 * home than the plan has; the flush has ended, and the reply tells how many. The mount stays live. Blocks whose write failed,
 * and all where the sync failed, are planned again at the next flush, which refskold_push asks. */
static inline int refskold_flush(refskold *mount, uint64_t serial, uint32_t count, uint32_t written, int synced,
                                 refskold_reply *reply)
{
    refskold_reply told;
    if (mount == NULL) return -EINVAL;
    return refskold_abi_flush(mount, serial, count, written, synced != 0, reply == NULL ? &told : reply);
}

/* Does a flush that was taken, and ends it, where your home device lies in memory and needs no sync, as a RAM disk, or a
 * mapped file whose content need not outlive the machine: copies what is to be written of each block straight to its place
 * in the device, as refskold_homes_mapped, and goes on as refskold_flush does where each write and the sync were good. The
 * reply, which may be NULL, is as that of a flush.
 *
 * -EINVAL: no flush of this serial waits, or the device ends before one of its blocks does, and nothing is written. */
static inline int refskold_flush_mapped(refskold *mount, uint64_t serial, void *device, size_t length, refskold_reply *reply)
{
    refskold_reply told;
    if (mount == NULL || device == NULL) return -EINVAL;
    return refskold_abi_flush_mapped(mount, serial, (uint8_t *)device, length, reply == NULL ? &told : reply);
}

/* ---- Logs ---------------------------------------------------------------------------------------------------------- */

/* What is held of a log: its bytes, as far as they came, or what its texts say, gathered. A handle as that of a mount, by the
 * same rules, with REFSKOLD_NONE for nothing. */
typedef struct refskold_recovery {
    void *at;
    uint64_t holds;
} refskold_recovery;

/* What is told of a log. */
typedef struct refskold_log_told {
    uint64_t texts;               /* whole texts, one for each checkpoint */
    uint64_t rest;                /* bytes behind them, which are no whole text, as a crash leaves them */
    uint64_t blocks;              /* blocks of which the texts say something */
    uint64_t size;                /* of a block, where the texts say it; else 0, and a block has 4,096 bytes */
    uint64_t at;                  /* -EILSEQ: at which byte the log is broken */
    uint64_t file;                /* and in which of its files: 0, or 1 for the other one */
    uint64_t older;               /* 0: which of its files is to be emptied first */
    uint64_t end;                 /* how the log ends: enum refskold_log_end. The exports do not write it */
} refskold_log_told;

/* What is told of a checkpoint's text. */
typedef struct refskold_found {
    uint64_t number;              /* of the checkpoint, from 1 */
    uint64_t bytes;               /* of its text; where that is broken, before the field that is */
    uint64_t items;
    uint64_t size;                /* of a block, where the text says it; else 0, and a block has 4,096 bytes */
} refskold_found;

/* The fields of a header, with which a file of a sealed log begins (docs/use/checkpoint-format.md). */
typedef struct refskold_log_fields {
    uint64_t generation;          /* which header of its life this is, from 1 */
    uint64_t salt;                /* bytes at random, new for each life */
    uint32_t block_size;          /* bytes of a block, 4,096 too */
    uint32_t log_bytes;           /* as refskold_open was told */
    unsigned char link[8];        /* the seal behind which the log goes on, the last of the other file; zeros where it begins a life */
    unsigned char name[16];       /* of the volume; zeros where it has none */
} refskold_log_fields;

/* How a log ends. */
enum refskold_log_end {
    REFSKOLD_WHOLE = 0,           /* as checkpoints write it, or as a crash leaves it */
    REFSKOLD_BROKEN = 1,          /* a field breaks its rule */
    REFSKOLD_MIXED = 2,           /* a text says something else of the size of a block than those before it */
    REFSKOLD_ROTTEN = 3,          /* of a sealed log: a file's texts end where more were written and synced */
    REFSKOLD_STRANGE = 4          /* two files are no log; `at` and `file` are 0 */
};

/* The struct form, as above. Of a log that is broken open, open_files and end return its enum refskold_log_end, and write
 * told->at and told->file alone. */
int32_t refskold_abi_log_open(refskold_recovery *recovery, const uint8_t *log, size_t log_len, refskold_log_told *told);
int32_t refskold_abi_log_open_files(refskold_recovery *recovery, const uint8_t *one, size_t one_len, const uint8_t *other,
                                    size_t other_len, refskold_log_told *told);
int32_t refskold_abi_log_feed(refskold_recovery *recovery, const uint8_t *piece, size_t piece_len);
int32_t refskold_abi_log_other(refskold_recovery *recovery);
int32_t refskold_abi_log_end(refskold_recovery *recovery, refskold_log_told *told);
void refskold_abi_log_close(refskold_recovery *recovery);
int32_t refskold_abi_log_block(refskold_recovery *recovery, uint64_t index, uint64_t *block);
int32_t refskold_abi_log_lay(refskold_recovery *recovery, uint64_t block, uint8_t *content, size_t content_len);

/* `log` has REFSKOLD_LOG_HEADER bytes to be written; -EINVAL where it has not. Those that are read may be of any length. */
int32_t refskold_abi_log_header(uint8_t *log, size_t log_len, const refskold_log_fields *fields);
int32_t refskold_abi_log_read(const uint8_t *log, size_t log_len, refskold_log_fields *fields);

/* 1 where a text was found, 0 where the input ends before it does, 2 where it is broken. */
int32_t refskold_abi_read_checkpoint(const uint8_t *input, size_t input_len, refskold_found *found);

/* Writes the header of a file of a sealed log: its REFSKOLD_LOG_HEADER bytes are the first of the file. Keep them: with
 * refskold_seal they go on as the file's head and its last seal. A life begins with generation 1 and a link of zeros, in an
 * empty file beside another; `salt` is 8 bytes at random, new for each life, as from getrandom(). `link` and `name` may be
 * NULL for zeros; `link` may be the last seal of the same `log`. 0.
 *
 * That the bytes are those which the format says of these fields is proved. */
static inline int refskold_log_header(unsigned char log[REFSKOLD_LOG_HEADER], uint32_t block_size, uint32_t log_bytes,
                                      uint64_t generation, uint64_t salt, const unsigned char link[8],
                                      const unsigned char name[16])
{
    refskold_log_fields fields = { 0, 0, 0, 0, { 0 }, { 0 } };
    size_t k;
    if (log == NULL) return -EINVAL;
    fields.block_size = block_size;
    fields.log_bytes = log_bytes;
    fields.generation = generation;
    fields.salt = salt;
    for (k = 0; link != NULL && k < sizeof fields.link; k++) fields.link[k] = link[k];
    for (k = 0; name != NULL && k < sizeof fields.name; k++) fields.name[k] = name[k];
    return refskold_abi_log_header(log, REFSKOLD_LOG_HEADER, &fields);
}

/* Reads the header with which a file of a sealed log begins: 0, and its fields are written.
 *
 * That 0 comes just where these bytes are a header of the format, with its own seal, and of these fields, is proved.
 *
 * -EILSEQ: they are none. */
static inline int refskold_log_read(const unsigned char log[REFSKOLD_LOG_HEADER], refskold_log_fields *fields)
{
    return log == NULL || fields == NULL ? -EINVAL : refskold_abi_log_read(log, REFSKOLD_LOG_HEADER, fields);
}

/* What a gathering returned, told as an error where the log is broken. For the functions below. */
static inline int refskold_gathered(int status, refskold_log_told *told)
{
    if (status < 0) return status;
    told->end = (uint64_t)status;
    if (status == REFSKOLD_WHOLE) return 0;
    told->texts = told->rest = told->blocks = told->size = 0;
    return -EILSEQ;
}

/* Gathers what the texts of a log in two files say, the later over the earlier: of a sealed log, in either order, or of a bare
 * one, which `one` has, while `other` has nothing. The files may then be forgotten. 0, with the counts. Then lay it over your
 * home device, sync that, and empty the log: first the file that told.older says, and once that is synced the other one.
 *
 *     int status = refskold_recovery_open_files(&recovery, one, one_length, other, other_length, &told);
 *     for (uint64_t k = 0; status == 0 && k < told.blocks; k++) {
 *         status = refskold_recovery_block(&recovery, k, &block);
 *         // read the block into `content`; where told.size is not 0, refskold_recovery_lay_sized
 *         if (status == 0) status = refskold_recovery_lay(&recovery, block, content);
 *         // write it; where the read or the write fails, status = -EIO
 *     }
 *     // only where status is 0: sync the home device, and then empty the log
 *
 * Broken off and done again, from the first block on, it gives the same. What refskold_force said was on the log is then
 * home, and of each checkpoint all or nothing. Of a sealed log that is so whatever a loss of power left behind the last sync,
 * at most 263,212 bytes: zeros, old bytes, or parts of what was written; `rest` counts them. Of a bare log it is so where that
 * is a beginning of what was written.
 *
 * Whose log it is, a header says (refskold_log_read): compare its name with yours before you lay anything.
 *
 * -EILSEQ: the log is broken, as no crash leaves it, and nothing is gathered: told.end says how, told.at at which byte, and
 * told.file in which file; the counts are 0. REFSKOLD_ROTTEN says that a file's texts end at that byte, though more were
 * synced behind them: another text stands further on with its seal, more bytes than one text has are left, a text is of
 * blocks of another size, or the newer file goes on behind another seal. -EBUSY: the handle holds something. -ENOMEM. */
static inline int refskold_recovery_open_files(refskold_recovery *recovery, const void *one, size_t one_length,
                                               const void *other, size_t other_length, refskold_log_told *told)
{
    static const uint8_t none[1] = { 0 };
    int status;
    if (recovery == NULL || told == NULL) return -EINVAL;
    if ((one == NULL && one_length != 0) || (other == NULL && other_length != 0)) return -EINVAL;
    status = refskold_abi_log_open_files(recovery, one == NULL ? none : (const uint8_t *)one, one_length,
                                         other == NULL ? none : (const uint8_t *)other, other_length, told);
    return refskold_gathered(status, told);
}

/* The same of a bare log, which is in one file. -EILSEQ: told.end is REFSKOLD_BROKEN or REFSKOLD_MIXED; a sealed log is broken
 * at byte 0. */
static inline int refskold_recovery_open(refskold_recovery *recovery, const void *log, size_t length,
                                         refskold_log_told *told)
{
    static const uint8_t none[1] = { 0 };
    if (recovery == NULL || told == NULL || (log == NULL && length != 0)) return -EINVAL;
    return refskold_gathered(refskold_abi_log_open(recovery, log == NULL ? none : (const uint8_t *)log, length, told), told);
}

/* Takes a piece of a log, behind those that the handle holds: a log that is not in one place comes in pieces of any length,
 * in any number of calls, in order. Their bytes are held until refskold_recovery_end has gathered what they say. That wants
 * memory of up to twice the log's length, and of three times for the moment in which it grows. 0.
 *
 * -EBUSY: the handle holds what texts say. -ENOMEM: the piece was not taken. */
static inline int refskold_recovery_feed(refskold_recovery *recovery, const void *piece, size_t length)
{
    static const uint8_t none[1] = { 0 };
    if (recovery == NULL || (piece == NULL && length != 0)) return -EINVAL;
    return refskold_abi_log_feed(recovery, piece == NULL ? none : (const uint8_t *)piece, length);
}

/* What comes in pieces from here on is the log's other file. Without it refskold_recovery_end gathers a bare log. 0.
 *
 * -EBUSY: it is the other file already, or the handle holds what texts say. -ENOMEM: nothing has changed. */
static inline int refskold_recovery_other(refskold_recovery *recovery)
{
    return recovery == NULL ? -EINVAL : refskold_abi_log_other(recovery);
}

/* Gathers what the texts of the log say that came in pieces: it returns and tells what refskold_recovery_open does of the
 * log whole, and where refskold_recovery_other was called, refskold_recovery_open_files of both files. After 0 the handle
 * holds that, and the bytes no more. A handle that holds nothing has a log of no bytes.
 *
 * -EILSEQ: the log is broken, as told says; the bytes are held until refskold_recovery_close. -EBUSY: the handle holds what
 * texts say. -ENOMEM: the bytes are held, and this may be called again. */
static inline int refskold_recovery_end(refskold_recovery *recovery, refskold_log_told *told)
{
    return recovery == NULL || told == NULL ? -EINVAL : refskold_gathered(refskold_abi_log_end(recovery, told), told);
}

/* Gives the memory of what is held back, texts or bytes; the handle then holds nothing. 0. */
static inline int refskold_recovery_close(refskold_recovery *recovery)
{
    if (recovery == NULL) return -EINVAL;
    refskold_abi_log_close(recovery);
    recovery->at = NULL;
    return 0;
}

/* Writes which block it is at a place, from 0, of those of which the texts say something, ascending.
 *
 * -EINVAL: there is no such place. -ENODEV: the handle holds nothing, or bytes that were not gathered. */
static inline int refskold_recovery_block(refskold_recovery *recovery, uint64_t index, uint64_t *block)
{
    return recovery == NULL || block == NULL ? -EINVAL : refskold_abi_log_block(recovery, index, block);
}

/* Lays what the texts say of a block over the `size` bytes that the home device has of it, in place; where they say nothing,
 * these stay. -EINVAL: by the texts a block has not so many bytes. -ENODEV: as above. */
static inline int refskold_recovery_lay_sized(refskold_recovery *recovery, uint64_t block, void *content, size_t size)
{
    if (recovery == NULL || content == NULL) return -EINVAL;
    return refskold_abi_log_lay(recovery, block, (uint8_t *)content, size);
}

/* The same over REFSKOLD_BLOCK bytes. */
static inline int refskold_recovery_lay(refskold_recovery *recovery, uint64_t block, void *content)
{
    return refskold_recovery_lay_sized(recovery, block, content, REFSKOLD_BLOCK);
}

/* Reads the text of a checkpoint that begins the input. REFSKOLD_FOUND, and what is told of it is written; the next text
 * begins behind its bytes. 0: the input ends before the text does. -EILSEQ: the text is broken, at the field that begins at
 * found->bytes. -ENOMEM. */
#define REFSKOLD_FOUND 1
static inline int refskold_read_checkpoint(const void *input, size_t length, refskold_found *found)
{
    static const uint8_t none[1] = { 0 };
    int status;
    if (found == NULL || (input == NULL && length != 0)) return -EINVAL;
    status = refskold_abi_read_checkpoint(input == NULL ? none : (const uint8_t *)input, length, found);
    return status == 2 ? -EILSEQ : status;
}

/* ---- Names and sizes ------------------------------------------------------------------------------------------------- */

/* The log space that a leg asks for, the `unit` of refskold_alloc, which changes at most so many blocks of `size` bytes, all
 * of each. Of less than whole blocks it costs less: see there. */
static inline uint32_t refskold_unit(uint32_t blocks, uint32_t size)
{
    return 36 + blocks * (16 + size);
}

/* The name of an errno, as a function returns it or a reply has it, with its minus or without: "EAGAIN" for -EAGAIN. "0"
 * for another number from 0 on, NULL for another below. */
static inline const char *refskold_error_name(int status)
{
    switch (status < 0 ? -status : status) {
    case EAGAIN: return "EAGAIN";
    case EBUSY: return "EBUSY";
    case EILSEQ: return "EILSEQ";
    case EINVAL: return "EINVAL";
    case EIO: return "EIO";
    case ENOBUFS: return "ENOBUFS";
    case ENODEV: return "ENODEV";
    case ENOMEM: return "ENOMEM";
    case ENOSPC: return "ENOSPC";
    case EPROTO: return "EPROTO";
    case ESTALE: return "ESTALE";
    default: return status < 0 ? NULL : "0";
    }
}

/* The name of an enum refskold_reason, as `xth script` prints it: "LOG_IO_ERROR". NULL for another number. */
static inline const char *refskold_reason_name(int reason)
{
    static const char *const names[] = { "LIVE", "META_IO_ERROR", "LOG_IO_ERROR", "FORCE_UMOUNT", "CORRUPT_INCORE" };
    return reason < 0 || reason > REFSKOLD_CORRUPT_INCORE ? NULL : names[reason];
}

/* The name of the word of a request, an enum refskold_word, as `xth script` reads it: "forceto". NULL for another number. */
static inline const char *refskold_word_name(uint32_t word)
{
    static const char *const names[] = {
        "alloc", "get", "read", "view", "log", "hold", "unhold", "relse", "join", "release", "inval", "commit", "roll", "cancel",
        "force", "forceto", "push", "shutdown", "freeze", "thaw", "unmount"
    };
    return word > REFSKOLD_UNMOUNT ? NULL : names[word];
}

/* ---- Sixteen slots by lines ------------------------------------------------------------------------------------------ */

/* A host of sixteen slots, none of which can see another: a handle as that of a mount, by the same rules, with
 * REFSKOLD_NONE for none. It is asked by lines of the language of `xth script` (docs/use/script.md), in which a step has
 * the answers of devices in it. So it says what a volume would say and would write; it writes to no device, and hands a
 * write out only with its answer. Where devices are real take a handle of a mount for each volume. */
typedef struct refskold_host {
    void *at;
    uint64_t holds;
} refskold_host;

#define REFSKOLD_REPLY 8448u                  /* bytes of a room that each reply and each offer fits */

/* The struct form, as above. */
int32_t refskold_abi_host_open(refskold_host *host);
void refskold_abi_host_close(refskold_host *host);
int32_t refskold_abi_host_step(refskold_host *host, const uint8_t *line, size_t line_len);
int32_t refskold_abi_host_reply(refskold_host *host, size_t *length, uint8_t *room, size_t room_len);
int32_t refskold_abi_host_offer(refskold_host *host, uint32_t index, size_t *length, uint8_t *room, size_t room_len);

/* Makes a host of which no slot was mounted. 0. -EBUSY: the handle holds one. -ENOMEM. */
static inline int refskold_host_open(refskold_host *host)
{
    return host == NULL ? -EINVAL : refskold_abi_host_open(host);
}

/* Gives the memory of a host back; the handle then holds none. 0. */
static inline int refskold_host_close(refskold_host *host)
{
    if (host == NULL) return -EINVAL;
    refskold_abi_host_close(host);
    host->at = NULL;
    return 0;
}

/* Takes the step that a line spells, which stands without its newline. 0, and its reply can be asked for: an errno that a
 * volume answers is a reply. The replies of a slot, and what it holds, are those of the slot alone on its own steps; a step
 * whose reply is ENOMEM did not happen.
 *
 * -EINVAL: the line spells no step. -EPROTO: the step may not come now, as the answer to a read that nobody asked for.
 * -ENOMEM: only of a line of a log or a read, of the end of a checkpoint, and of a flush. -ENODEV. */
static inline int refskold_host_step(refskold_host *host, const char *line, size_t length)
{
    static const uint8_t none[1] = { 0 };
    if (host == NULL || (line == NULL && length != 0)) return -EINVAL;
    return refskold_abi_host_step(host, line == NULL ? none : (const uint8_t *)line, length);
}

/* Copies the line of the last step's reply into a room, the slot in front, without a newline and without a zero behind it;
 * its length is written. 0.
 *
 * -EINVAL: no step was taken yet, or the room is too short. -ENODEV. */
static inline int refskold_host_reply(refskold_host *host, char *room, size_t room_length, size_t *length)
{
    if (host == NULL || room == NULL || length == NULL) return -EINVAL;
    return refskold_abi_host_reply(host, length, (uint8_t *)room, room_length);
}

/* Copies a line of what the last step offered to a device, as a reply is copied: `SLOT log DATA ok` for each piece of a
 * checkpoint that ended, and `SLOT logsync ok`; `SLOT home BLOCK DATA ok` for each block of a flush, and `SLOT homesync ok`;
 * `fail` for `ok` where the step said that it failed. Places count from 0; other steps offer nothing. 0.
 *
 * -EINVAL: no step was taken yet, it has no offer at this place, or the room is too short. -ENODEV. */
static inline int refskold_host_offer(refskold_host *host, uint32_t index, char *room, size_t room_length, size_t *length)
{
    if (host == NULL || room == NULL || length == NULL) return -EINVAL;
    return refskold_abi_host_offer(host, index, length, (uint8_t *)room, room_length);
}

#ifdef __cplusplus
}
#endif

#endif
