/* Times LMDB (-DLMDB) or SQLite (-DSQLITE) at what bench/embed.c times: transactions that change 128 bytes of one block of 64, or eight whole
 * blocks, each read before it is written; files that are not synced. With a second word LMDB also changes 128 bytes of sixteen environments
 * by four threads, each of which has four of them by turns. */
#define _GNU_SOURCE
#include <pthread.h>
#include <stdint.h>
#include <stdio.h>
#include <stdlib.h>
#include <string.h>
#include "timing.h"

enum { BLOCKS = 64, BLOCK = 4096, CHANGE = 128, WHOLE = 8, THREADS = 4, SHARE = 4 };

static _Thread_local uint8_t content[BLOCK];

/* Changes a content that was read, as the transaction of this number does. */
static void edit(const void *read, long number, unsigned bytes)
{
    memcpy(content, read, BLOCK);
    memcpy(content + number % 32 * CHANGE % (BLOCK - bytes + 1), written(number), bytes);
}

#ifdef LMDB
#include <lmdb.h>

static const char *const name = "LMDB";
static _Thread_local MDB_env *environment;
static _Thread_local MDB_txn *transaction;
static _Thread_local MDB_dbi table;

static void begin(void)
{
    want(mdb_txn_begin(environment, NULL, 0, &transaction) == 0, "begin");
}

static void commit(void)
{
    want(mdb_txn_commit(transaction) == 0, "commit");
}

static void write_block(uint32_t block)
{
    MDB_val key = { sizeof block, &block }, value = { BLOCK, content };
    want(mdb_put(transaction, table, &key, &value, 0) == 0, "put");
}

static const void *read_block(uint32_t block)
{
    MDB_val key = { sizeof block, &block }, value;
    want(mdb_get(transaction, table, &key, &value) == 0 && value.mv_size == BLOCK, "get");
    return value.mv_data;
}

static void read_done(void) {}

static void start(const char *file)
{
    want(mdb_env_create(&environment) == 0 && mdb_env_set_mapsize(environment, 1ul << 28) == 0, "environment");
    want(mdb_env_open(environment, file, MDB_NOSUBDIR | MDB_NOSYNC | MDB_WRITEMAP, 0600) == 0, "open");
    begin();
    want(mdb_dbi_open(transaction, NULL, MDB_INTEGERKEY | MDB_CREATE, &table) == 0, "table");
}
#else
#include <sqlite3.h>

static const char *const name = "SQLite";
static sqlite3 *database;
static sqlite3_stmt *beginning, *committing, *reading, *writing;

static void run(sqlite3_stmt *statement)
{
    want(sqlite3_step(statement) == SQLITE_DONE && sqlite3_reset(statement) == SQLITE_OK, "statement");
}

static void begin(void)
{
    run(beginning);
}

static void commit(void)
{
    run(committing);
}

static void write_block(uint32_t block)
{
    sqlite3_bind_int(writing, 1, (int)block);
    sqlite3_bind_blob(writing, 2, content, BLOCK, SQLITE_STATIC);
    run(writing);
}

static const void *read_block(uint32_t block)
{
    sqlite3_bind_int(reading, 1, (int)block);
    want(sqlite3_step(reading) == SQLITE_ROW && sqlite3_column_bytes(reading, 0) == BLOCK, "select");
    return sqlite3_column_blob(reading, 0);
}

static void read_done(void)
{
    sqlite3_reset(reading);
}

static sqlite3_stmt *prepared(const char *text)
{
    sqlite3_stmt *statement;
    want(sqlite3_prepare_v2(database, text, -1, &statement, NULL) == SQLITE_OK, text);
    return statement;
}

static void start(const char *file)
{
    want(sqlite3_open(file, &database) == SQLITE_OK, "open");
    want(sqlite3_exec(database, "pragma journal_mode=wal; pragma synchronous=off; create table blocks(number integer primary key, content blob)",
                      NULL, NULL, NULL) == SQLITE_OK, "table");
    beginning = prepared("begin");
    committing = prepared("commit");
    reading = prepared("select content from blocks where number = ?1");
    writing = prepared("insert or replace into blocks values(?1, ?2)");
    begin();
}
#endif

static void change(long number, unsigned blocks, unsigned bytes)
{
    begin();
    for (unsigned place = 0; place < blocks; place++) {
        uint32_t block = (uint32_t)((number * blocks + place) * 7 % BLOCKS);
        edit(read_block(block), number, bytes);
        read_done();
        write_block(block);
    }
    commit();
}

static void fill(const char *file)
{
    start(file);
    for (uint32_t block = 0; block < BLOCKS; block++) write_block(block);
    commit();
}

#ifdef LMDB
static long share;

static void *work(void *first)
{
    MDB_env *environments[SHARE];
    MDB_dbi tables[SHARE];
    for (int k = 0; k < SHARE; k++) {
        char file[32];
        snprintf(file, sizeof file, "lmdb%d", *(int *)first + k);
        fill(file);
        environments[k] = environment, tables[k] = table;
    }
    for (long k = 0; k < share; k++) {
        environment = environments[k % SHARE], table = tables[k % SHARE];
        change(k / SHARE, 1, CHANGE);
    }
    return NULL;
}

static void time_threads(long count)
{
    pthread_t threads[THREADS];
    int firsts[THREADS];
    double start = clock_now();
    share = count / THREADS;
    for (int k = 0; k < THREADS; k++) {
        firsts[k] = k * SHARE;
        want(pthread_create(&threads[k], NULL, work, &firsts[k]) == 0, "thread");
    }
    for (int k = 0; k < THREADS; k++) want(pthread_join(threads[k], NULL) == 0, "join");
    printf("%s, 1 of 128 bytes, 16 environments, four threads: %.0f transactions/s\n", name, (double)count / (clock_now() - start));
}
#else
static void time_threads(long count)
{
    (void)count;
}
#endif

static void time_changes(long count, unsigned blocks, unsigned bytes)
{
    double start = now();
    for (long k = 0; k < count; k++) change(k, blocks, bytes);
    printf("%s, %u of %u bytes: %.0f transactions/s\n", name, blocks, bytes, (double)count / (now() - start));
}

int main(int argc, char **argv)
{
    long count = argc > 1 ? atol(argv[1]) : 300000;
    fill("database");
    time_changes(count, 1, CHANGE);
    time_changes(count / WHOLE, WHOLE, BLOCK);
    if (argc > 2) time_threads(count);
    return 0;
}
