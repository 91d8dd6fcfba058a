/* Runs worked scripts by calls of the library, and compares what is told with what each must print.
 *
 *     rows plain SCRIPT.in ..      as they stand
 *     rows bad SCRIPT.in ..        with calls between the steps that no caller should make: all are refused, and the scripts tell the same
 *     rows refuse SCRIPT.in ..     each once for each request for memory, which is refused: the step is ENOMEM, made again, and tells the same
 *     rows threads SCRIPT.in ..    each by two threads at once, over mounts of their own, which change hands half way
 *
 * NAME.out has what a script prints, NAME.status how it ends; NAME.strikeN is struck to slot N. A script of bad lines is left out.
 */
#define _GNU_SOURCE
#include "bad.h"

#include <pthread.h>
#include <stdio.h>
#include <stdlib.h>
#include <string.h>

enum { MOST_LINES = 1024 };

/* A script, and what it must print. */
struct script {
    char name[256];
    char *text, *wanted;
    unsigned count, slot; /* only the steps of the slot are run, where it is one */
    int status;
    struct line { const char *at; size_t length; } lines[MOST_LINES];
};

/* ---- Memory that is refused ---- */

/* Requests of the library for memory: counted, and the one that is to be refused, from 1; 0: none. */
static unsigned long asked, refused_at;
/* How many of its blocks are not given back. */
static long kept;
static bool counts;

void *__real_malloc(size_t size);
void *__real_realloc(void *old, size_t size);
void __real_free(void *old);

static bool is_refused(void)
{
    return counts && ++asked == refused_at;
}

void *__wrap_malloc(size_t size)
{
    void *got = is_refused() ? NULL : __real_malloc(size);
    if (counts && got != NULL) kept++;
    return got;
}

void *__wrap_realloc(void *old, size_t size)
{
    void *got = is_refused() ? NULL : __real_realloc(old, size);
    if (counts && old == NULL && got != NULL) kept++;
    return got;
}

void __wrap_free(void *old)
{
    if (counts && old != NULL) kept--;
    __real_free(old);
}

/* ---- Scripts ---- */

static char *text_of(const char *name, const char *ending)
{
    char path[512];
    snprintf(path, sizeof path, "%s%s", name, ending);
    FILE *file = fopen(path, "r");
    char *text = calloc(1, OUTPUT_BYTES);
    if (file == NULL || text == NULL || fread(text, 1, OUTPUT_BYTES, file) >= OUTPUT_BYTES) {
        fprintf(stderr, "rows: %s can't be read\n", path);
        exit(2);
    }
    fclose(file);
    return text;
}

static void cut(struct script *script)
{
    script->count = 0;
    for (const char *at = script->text; *at != '\0';) {
        size_t length = strcspn(at, "\n");
        if (script->count == MOST_LINES) exit(2);
        if (script->slot == SLOTS || slot_of_line(at) == script->slot) script->lines[script->count++] = (struct line){ at, length };
        at += length + (at[length] == '\n');
    }
}

/* Whether it has steps alone. */
static bool read_script(struct script *script, const char *path)
{
    snprintf(script->name, sizeof script->name, "%.*s", (int)(strlen(path) - strlen(".in")), path);
    char *status = text_of(script->name, ".status");
    script->status = atoi(status);
    free(status);
    if (script->status == 2) return false;
    const char *strike = strstr(script->name, ".strike");
    script->slot = strike == NULL ? SLOTS : (unsigned)atoi(strike + strlen(".strike"));
    script->text = text_of(script->name, ".in");
    script->wanted = text_of(script->name, ".out");
    cut(script);
    return true;
}

static void forget(struct script *script)
{
    free(script->text);
    free(script->wanted);
}

/* Runs some lines, each again while it is refused memory: whether one broke order. */
static bool run_lines(struct host *host, const struct script *script, unsigned from, unsigned to)
{
    enum ended ended = TOLD;
    for (unsigned k = from; k < to && ended != DISORDER; k++)
        do ended = host_step(host, script->lines[k].at, script->lines[k].length);
        while (ended == NO_MEMORY);
    return ended == DISORDER;
}

/* 0 where it told what it must; else it says so, and 1. */
static unsigned compare(const struct host *host, const struct script *script, bool disorder, const char *how)
{
    bool is_same = host->length == strlen(script->wanted) && memcmp(host->output, script->wanted, host->length) == 0;
    if (is_same && disorder == (script->status == 3)) return 0;
    printf("FAILED %s, %s: %s\n", script->name, how, is_same ? "another status" : "another output");
    return 1;
}

/* ---- The ways to run one ---- */

static struct host hosts[2];

static unsigned plain(const struct script *script)
{
    host_start(&hosts[0]);
    bool disorder = run_lines(&hosts[0], script, 0, script->count);
    host_end(&hosts[0]);
    return compare(&hosts[0], script, disorder, "plain");
}

static unsigned bad(const struct script *script)
{
    struct host *host = &hosts[0];
    unsigned failed = 0;
    bool disorder = false;
    host_start(host);
    for (unsigned k = 0; k < script->count && !disorder; k++) {
        for (unsigned slot = 0; slot < SLOTS; slot++) failed += bad_calls(&host->mounts[slot]) + null_pointers(&host->mounts[slot]);
        failed += bad_answers(host);
        disorder = run_lines(host, script, k, k + 1);
    }
    host_end(host);
    return failed + compare(host, script, disorder, "with bad calls");
}

/* A run with one request for memory refused: whether so many were made. */
static bool refuse_at(const struct script *script, unsigned long place, unsigned *failed)
{
    host_start(&hosts[0]);
    asked = 0, kept = 0, refused_at = place, counts = true;
    bool disorder = run_lines(&hosts[0], script, 0, script->count);
    host_end(&hosts[0]);
    counts = false;
    *failed += compare(&hosts[0], script, disorder, "with memory refused");
    if (kept != 0) {
        printf("FAILED %s: of its memory %ld blocks are kept, with request %lu refused\n", script->name, kept, place);
        *failed += 1;
    }
    return asked >= place;
}

static unsigned long refusals;

static unsigned refuse(const struct script *script)
{
    unsigned failed = 0;
    for (unsigned long place = 1; refuse_at(script, place, &failed) && failed == 0; place++) refusals++;
    return failed;
}

/* What a thread runs. */
struct part {
    struct host *host;
    const struct script *script;
    unsigned from, to;
    bool disorder;
};

static void *run_part(void *argument)
{
    struct part *part = argument;
    part->disorder = run_lines(part->host, part->script, part->from, part->to);
    return NULL;
}

/* Two parts by two threads. */
static void run_both(struct part *parts)
{
    pthread_t threads[2];
    for (int k = 0; k < 2; k++)
        if (pthread_create(&threads[k], NULL, run_part, &parts[k]) != 0) exit(2);
    for (int k = 0; k < 2; k++) pthread_join(threads[k], NULL);
}

static unsigned threads(const struct script *script)
{
    unsigned half = script->count / 2, failed = 0;
    for (int k = 0; k < 2; k++) host_start(&hosts[k]);
    struct part first[2] = { { &hosts[0], script, 0, half, false }, { &hosts[1], script, 0, half, false } };
    run_both(first);
    struct part second[2] = { { &hosts[1], script, half, script->count, false }, { &hosts[0], script, half, script->count, false } };
    run_both(second);
    for (int k = 0; k < 2; k++) {
        host_end(&hosts[k]);
        failed += compare(&hosts[k], script, second[1 - k].disorder, "by two threads");
    }
    return failed;
}

int main(int argc, char **argv)
{
    static const struct { const char *word; unsigned (*run)(const struct script *); } ways[] = {
        { "plain", plain }, { "bad", bad }, { "refuse", refuse }, { "threads", threads },
    };
    static struct script script;
    unsigned failed = 0, count = 0;
    for (size_t way = 0; argc > 1 && way < sizeof ways / sizeof *ways; way++) {
        if (strcmp(argv[1], ways[way].word) != 0) continue;
        for (int k = 2; k < argc; k++) {
            if (!read_script(&script, argv[k])) continue;
            failed += ways[way].run(&script);
            count++;
            forget(&script);
        }
        printf("%s: %u scripts", argv[1], count);
        if (refusals > 0) printf(", %lu requests for memory refused", refusals);
        printf(", %u failed\n", failed);
        return failed != 0;
    }
    fprintf(stderr, "rows: plain, bad, refuse or threads, and scripts\n");
    return 2;
}
