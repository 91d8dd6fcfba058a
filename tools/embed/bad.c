/* Calls that no caller should make. */
#include "bad.h"

#include <stdio.h>
#include <string.h>

/* What a call must leave as it was. */
struct rooms {
    refskold_reply reply;
    refskold_plan plan;
    refskold_state state;
    uint64_t number;
    uint8_t room[REFSKOLD_BLOCK];
};

/* Bytes that are handed in: longer than any length that is allowed. */
static const uint8_t given[2 * REFSKOLD_BLOCK];

static void fill(struct rooms *rooms)
{
    memset(rooms, 0xa5, sizeof *rooms);
}

/* 0 where the status is as wanted and nothing was written; else it tells so, and 1. */
static unsigned judge(const char *what, int status, int wanted, const struct rooms *rooms)
{
    struct rooms untouched;
    fill(&untouched);
    bool is_same = memcmp(rooms, &untouched, sizeof untouched) == 0;
    if (status == wanted && is_same) return 0;
    printf("FAILED %s: %d, wanted %d%s\n", what, status, wanted, is_same ? "" : ", and something was written");
    return 1;
}

static int ask(refskold *mount, refskold_request request, size_t data, uint32_t answered, size_t content, size_t room,
               struct rooms *rooms)
{
    return refskold_abi_call(mount, &request, given, data, answered, given, content, &rooms->reply, rooms->room, room);
}

/* Requests whose words or lengths say nothing. */
static unsigned bad_requests(refskold *mount, int wanted, struct rooms *rooms)
{
    static const struct {
        const char *what;
        refskold_request request;
        size_t data;
        uint32_t answered;
        size_t content, room;
    } cases[] = {
        { "a word behind the last", { .word = 21 }, 0, 0, 0, 0 },
        { "the greatest word", { .word = UINT32_MAX }, 0, 0, 0, 0 },
        { "a byte too many", { .word = REFSKOLD_LOG, .trans = 1, .block = 7 }, REFSKOLD_BLOCK + 1, 0, 0, 0 },
        { "twice a block", { .word = REFSKOLD_LOG, .trans = 1, .block = 7 }, 2 * REFSKOLD_BLOCK, 0, 0, 0 },
        { "an answer of another kind", { .word = REFSKOLD_READ, .trans = 1, .block = 7 }, 0, 3, 0, 0 },
        { "the greatest kind of answer", { .word = REFSKOLD_READ, .trans = 1, .block = 7 }, 0, UINT32_MAX, 0, 0 },
        { "a content too short", { .word = REFSKOLD_READ, .trans = 1, .block = 7 }, 0, 1, REFSKOLD_BLOCK - 1, 0 },
        { "a content too long", { .word = REFSKOLD_READ, .trans = 1, .block = 7 }, 0, 1, REFSKOLD_BLOCK + 1, 0 },
        { "no content", { .word = REFSKOLD_READ, .trans = 1, .block = 7 }, 0, 1, 0, 0 },
        { "an answer to a get", { .word = REFSKOLD_GET, .trans = 1, .block = 7 }, 0, 1, REFSKOLD_BLOCK, 0 },
        { "an answer to a force", { .word = REFSKOLD_FORCE }, 0, 2, 0, 0 },
        { "an answer to a shutdown", { .word = REFSKOLD_SHUTDOWN }, 0, 1, REFSKOLD_BLOCK, 0 },
        { "an answer to an unmount", { .word = REFSKOLD_UNMOUNT }, 0, 2, 0, 0 },
        { "an answer that no transaction asked for", { .word = REFSKOLD_READ, .trans = 0, .block = 7 }, 0, 2, 0, 0 },
        { "a room too short", { .word = REFSKOLD_VIEW, .trans = 1, .block = 7 }, 0, 0, 0, REFSKOLD_BLOCK - 1 },
        { "no room", { .word = REFSKOLD_VIEW, .trans = 1, .block = 7 }, 0, 0, 0, 0 },
    };
    unsigned failed = 0;
    for (size_t k = 0; k < sizeof cases / sizeof *cases; k++) {
        int status = ask(mount, cases[k].request, cases[k].data, cases[k].answered, cases[k].content, cases[k].room, rooms);
        failed += judge(cases[k].what, status, wanted, rooms);
    }
    return failed;
}

/* Jobs that no mount has. */
static unsigned bad_jobs(refskold *mount, int wanted, struct rooms *rooms)
{
    static const uint64_t serials[] = { 0, UINT64_C(1) << 32, UINT64_MAX };
    unsigned failed = 0;
    for (size_t k = 0; k < sizeof serials / sizeof *serials; k++) {
        failed += judge("a begin of no job", refskold_begin(mount, serials[k], &rooms->reply), wanted, rooms);
        failed += judge("an end of no job", refskold_end(mount, serials[k], 0, 1, &rooms->reply), wanted, rooms);
        failed += judge("a flush of no job", refskold_flush(mount, serials[k], 0, 0, 1, &rooms->reply), wanted, rooms);
        failed += judge("a mapped flush of no job", refskold_flush_mapped(mount, serials[k], rooms->room, sizeof rooms->room, &rooms->reply), wanted, rooms);
    }
    failed += judge("a job of no kind", refskold_take(mount, 2, &rooms->number), wanted, rooms);
    failed += judge("the greatest kind", refskold_take(mount, UINT32_MAX, &rooms->number), wanted, rooms);
    failed += judge("a piece behind the last", refskold_piece(mount, REFSKOLD_PIECES, rooms->room, REFSKOLD_BLOCK), wanted, rooms);
    failed += judge("the greatest piece", refskold_piece(mount, UINT32_MAX, rooms->room, REFSKOLD_BLOCK), wanted, rooms);
    failed += judge("a piece without room", refskold_piece(mount, 0, rooms->room, 0), wanted, rooms);
    failed += judge("a block behind the plan", refskold_home(mount, REFSKOLD_PLAN, rooms->room), wanted, rooms);
    failed += judge("the greatest place of a plan", refskold_home(mount, UINT32_MAX, rooms->room), wanted, rooms);
    failed += judge("a room too short for a block", refskold_abi_home(mount, 0, rooms->room, REFSKOLD_BLOCK - 1), wanted, rooms);
    return failed;
}

unsigned bad_calls(refskold *mount)
{
    struct rooms rooms;
    bool is_open = refskold_shut(mount) != -ENODEV;
    int wanted = is_open ? -EINVAL : -ENODEV;
    unsigned failed = 0;
    fill(&rooms);
    failed += bad_requests(mount, wanted, &rooms) + bad_jobs(mount, wanted, &rooms);
    if (is_open) return failed + judge("an open of a mount", refskold_open(mount, 0, REFSKOLD_LEAST_LOG, 1), -EBUSY, &rooms);
    failed += judge("a log too small", refskold_open(mount, 0, REFSKOLD_LEAST_LOG - 1, 1), -EINVAL, &rooms);
    failed += judge("a log too great", refskold_open(mount, 0, REFSKOLD_MOST_LOG + 1, 1), -EINVAL, &rooms);
    failed += judge("no blocks", refskold_open(mount, 0, REFSKOLD_LEAST_LOG, 0), -EINVAL, &rooms);
    failed += judge("too many blocks", refskold_open(mount, 0, REFSKOLD_LEAST_LOG, REFSKOLD_MOST_BLOCKS + 1), -EINVAL, &rooms);
    static const uint32_t sizes[] = { 0, 1, 511, 513, 1536, REFSKOLD_BLOCK - 1, 2 * REFSKOLD_BLOCK, UINT32_MAX };
    for (size_t k = 0; k < sizeof sizes / sizeof *sizes; k++)
        failed += judge("a size that no block has", refskold_open_sized(mount, 0, REFSKOLD_LEAST_LOG, 1, sizes[k]), -EINVAL, &rooms);
    failed += judge("the last life", refskold_open(mount, UINT32_MAX, REFSKOLD_LEAST_LOG, 1), -ENOSPC, &rooms);
    failed += judge("a state of no mount", refskold_stat(mount, &rooms.state), -ENODEV, &rooms);
    failed += judge("a plan of no mount", refskold_flush_plan(mount, &rooms.plan), -ENODEV, &rooms);
    failed += judge("homes of no mount", refskold_homes(mount, &rooms.plan, rooms.room, sizeof rooms.room), -ENODEV, &rooms);
    failed += judge("mapped homes of no mount", refskold_homes_mapped(mount, &rooms.plan, rooms.room, sizeof rooms.room), -ENODEV, &rooms);
    failed += judge("an alloc of no mount", refskold_alloc(mount, 1, 1, 0, &rooms.number), -ENODEV, &rooms);
    failed += judge("a read of no mount", refskold_read(mount, 1, 7), -ENODEV, &rooms);
    failed += judge("a log of no mount", refskold_log(mount, 1, 7, 0, given, 1), -ENODEV, &rooms);
    failed += judge("a commit of no mount", refskold_commit(mount, 1, NULL), -ENODEV, &rooms);
    return failed + judge("a force of no mount", refskold_force(mount, &rooms.number), -ENODEV, &rooms);
}

unsigned bad_answers(struct host *host)
{
    struct rooms rooms;
    unsigned failed = 0;
    fill(&rooms);
    for (unsigned worker = 0; worker < WORKERS; worker++) {
        struct job *job = &host->hands[worker];
        refskold *mount = &host->mounts[job->slot];
        if (!host->busy[worker]) continue;
        int status = refskold_end(mount, job->serial, REFSKOLD_PIECES + 1, 1, &rooms.reply);
        failed += judge("more pieces than there are", status, -EINVAL, &rooms);
        status = refskold_flush(mount, job->serial, REFSKOLD_PLAN + 1, 511, 1, &rooms.reply);
        failed += judge("more blocks than the plan has", status, -EINVAL, &rooms);
        status = refskold_begin(mount, job->serial + 1000, &rooms.reply);
        failed += judge("a begin of another serial", status, -EINVAL, &rooms);
        status = refskold_end(mount, job->serial + 1000, 0, 1, &rooms.reply);
        failed += judge("an end of another serial", status, -EINVAL, &rooms);
        status = refskold_flush(mount, job->serial + 1000, 0, 0, 1, &rooms.reply);
        failed += judge("a flush of another serial", status, -EINVAL, &rooms);
    }
    return failed;
}

/* Of the requests, with a handle that is NULL. */
static unsigned null_requests(struct rooms *rooms)
{
    int statuses[] = {
        refskold_alloc(NULL, 1, 1, 0, &rooms->number), refskold_get(NULL, 1, 7), refskold_read(NULL, 1, 7),
        refskold_read_content(NULL, 1, 7, given), refskold_read_failed(NULL, 1, 7), refskold_view(NULL, 1, 7, rooms->room),
        refskold_log(NULL, 1, 7, 0, given, 1), refskold_hold(NULL, 1, 7), refskold_unhold(NULL, 1, 7),
        refskold_relse(NULL, 1, 7, NULL), refskold_join(NULL, 1, 7), refskold_release(NULL, 7), refskold_inval(NULL, 1, 7),
        refskold_commit(NULL, 1, &rooms->reply), refskold_roll(NULL, 1, &rooms->reply), refskold_cancel(NULL, 1, NULL),
        refskold_force(NULL, &rooms->number), refskold_force_to(NULL, 1, &rooms->number), refskold_push(NULL),
        refskold_shutdown(NULL), refskold_freeze(NULL), refskold_thaw(NULL), refskold_unmount(NULL), refskold_shut(NULL), refskold_log_needed(NULL),
        refskold_stat(NULL, &rooms->state),
        refskold_open(NULL, 0, REFSKOLD_LEAST_LOG, 1), refskold_open_sized(NULL, 0, REFSKOLD_LEAST_LOG, 1, 512), refskold_take(NULL, REFSKOLD_CHECKPOINT, &rooms->number),
        refskold_begin(NULL, 1, &rooms->reply), refskold_piece(NULL, 0, rooms->room, REFSKOLD_BLOCK), refskold_end(NULL, 1, 0, 0, &rooms->reply),
        refskold_flush_plan(NULL, &rooms->plan), refskold_home(NULL, 0, rooms->room),
        refskold_homes(NULL, &rooms->plan, rooms->room, REFSKOLD_BLOCK), refskold_homes_mapped(NULL, &rooms->plan, rooms->room, REFSKOLD_BLOCK),
        refskold_flush(NULL, 1, 0, 0, 0, NULL), refskold_flush_mapped(NULL, 1, rooms->room, REFSKOLD_BLOCK, NULL), refskold_close(NULL),
    };
    unsigned failed = 0;
    for (size_t k = 0; k < sizeof statuses / sizeof *statuses; k++) failed += judge("no handle", statuses[k], -EINVAL, rooms);
    return failed;
}

unsigned null_pointers(refskold *mount)
{
    struct rooms rooms;
    fill(&rooms);
    int statuses[] = {
        refskold_alloc(mount, 1, 1, 0, NULL), refskold_view(mount, 1, 7, NULL), refskold_log(mount, 1, 7, 0, NULL, 1),
        refskold_take(mount, REFSKOLD_CHECKPOINT, NULL), refskold_begin(mount, 1, NULL), refskold_piece(mount, 0, NULL, REFSKOLD_BLOCK), refskold_read_content(mount, 1, 7, NULL),
        refskold_stat(mount, NULL), refskold_flush_plan(mount, NULL), refskold_home(mount, 0, NULL),
        refskold_homes(mount, NULL, rooms.room, REFSKOLD_BLOCK), refskold_homes(mount, &rooms.plan, NULL, REFSKOLD_BLOCK),
        refskold_homes_mapped(mount, NULL, rooms.room, REFSKOLD_BLOCK), refskold_homes_mapped(mount, &rooms.plan, NULL, REFSKOLD_BLOCK),
        refskold_flush_mapped(mount, 1, NULL, REFSKOLD_BLOCK, NULL),
    };
    unsigned failed = null_requests(&rooms);
    for (size_t k = 0; k < sizeof statuses / sizeof *statuses; k++) failed += judge("a pointer that is NULL", statuses[k], -EINVAL, &rooms);
    return failed;
}
