/* SQLite, each write a transaction of its own: the file as one blob, and as rows of one chunk each, in memory and in a file. */
#define _POSIX_C_SOURCE 200809L
#include <sqlite3.h>
#include <stdio.h>
#include <stdlib.h>
#include <string.h>
#include <sys/stat.h>
#include <unistd.h>

#include "peers.h"

static const char MEMORY[] = ":memory:";

/* Of the pages that SQLite has, those with which each way took the least time, dense and sparse together. */
enum { BLOB_PAGE = 32768, ROW_PAGE = 8192, FILE_PAGE = 4096 };

/* A row's number is made of file and index, since a row is found fastest by its number. */
enum { FILE_NUMBER = 1, INDEX_BITS = 26 };

static sqlite3 *database;
static sqlite3_stmt *insert_row, *start, *commit;

/* What reads go through; and a row that is there, for a handle that has lost its row must be opened anew. */
static sqlite3_blob *reader;
static sqlite3_int64 row_there;

static sqlite3_int64 memory_before;
static char path[4096];

static void must(int code)
{
    if (code != SQLITE_OK)
        give_up("SQLite", database ? sqlite3_errmsg(database) : sqlite3_errstr(code));
}

static void run(const char *text)
{
    must(sqlite3_exec(database, text, NULL, NULL, NULL));
}

static void step(sqlite3_stmt *statement)
{
    sqlite3_step(statement);
    must(sqlite3_reset(statement));
}

static sqlite3_stmt *prepared(const char *text)
{
    sqlite3_stmt *statement;
    must(sqlite3_prepare_v3(database, text, -1, SQLITE_PREPARE_PERSISTENT, &statement, NULL));
    return statement;
}

/* ---- a database */

static void open_database(const char *name, int page)
{
    char pragma[64];
    must(sqlite3_config(SQLITE_CONFIG_SINGLETHREAD));
    memory_before = sqlite3_memory_used();
    must(sqlite3_open(name, &database));
    snprintf(pragma, sizeof pragma, "pragma page_size = %d", page);
    run(pragma);
    run("create table chunk (id integer primary key, bytes blob)");
}

static void close_database(void)
{
    must(sqlite3_blob_close(reader));
    must(sqlite3_close(database));
    database = NULL;
    /* the next database is to find nothing of this one's */
    must(sqlite3_shutdown());
}

static uint64_t memory_taken(void)
{
    return (uint64_t)(sqlite3_memory_used() - memory_before);
}

static struct held memory_held(void)
{
    return (struct held){memory_taken(), 0};
}

static int open_row(sqlite3_int64 row, bool writing, sqlite3_blob **blob)
{
    return sqlite3_blob_open(database, "main", "chunk", "bytes", row, writing, blob);
}

/* Closing ends the transaction, if no other is under way. */
static void write_row(sqlite3_blob *blob, const uint8_t *bytes, size_t length, size_t from)
{
    must(sqlite3_blob_write(blob, bytes, (int)length, (int)from));
    must(sqlite3_blob_close(blob));
}

/* ---- one blob */

static void begin_blob(const struct work *work)
{
    char insert[64];
    open_database(MEMORY, BLOB_PAGE);
    snprintf(insert, sizeof insert, "insert into chunk values (%d, zeroblob(%llu))", FILE_NUMBER, (unsigned long long)work->size);
    run(insert);
}

static void write_blob(const struct place *place, const uint8_t *bytes, size_t length)
{
    sqlite3_blob *blob;
    must(open_row(FILE_NUMBER, true, &blob));
    write_row(blob, bytes, length, place->offset);
}

/* Reads need no transaction of their own, and so share a handle. */
static void settle_blob(void)
{
    must(open_row(FILE_NUMBER, false, &reader));
}

static void read_blob(const struct place *place, uint8_t *buffer, size_t length)
{
    must(sqlite3_blob_read(reader, buffer, (int)length, (int)place->offset));
}

/* ---- rows */

static void prepare_rows(void)
{
    insert_row = prepared("insert into chunk values (?1, ?2)");
    start = prepared("begin");
    commit = prepared("commit");
}

static void begin_rows(const struct work *work)
{
    (void)work;
    open_database(MEMORY, ROW_PAGE);
    prepare_rows();
}

static sqlite3_int64 row_of(uint64_t offset)
{
    return ((sqlite3_int64)FILE_NUMBER << INDEX_BITS) + (sqlite3_int64)(offset / CHUNK);
}

/* How many of these bytes lie in the chunk of the first. */
static size_t part_of(uint64_t offset, size_t length)
{
    size_t left = CHUNK - offset % CHUNK;
    return length < left ? length : left;
}

/* A row that is new has zeros around what is written. */
static void write_new_row(uint64_t offset, const uint8_t *bytes, size_t length)
{
    uint8_t chunk[CHUNK] = {0};
    memcpy(&chunk[offset % CHUNK], bytes, length);
    must(sqlite3_bind_int64(insert_row, 1, row_of(offset)));
    must(sqlite3_bind_blob(insert_row, 2, chunk, CHUNK, SQLITE_STATIC));
    step(insert_row);
}

static void write_part(uint64_t offset, const uint8_t *bytes, size_t length)
{
    sqlite3_blob *blob;
    row_there = row_of(offset);
    if (open_row(row_there, true, &blob) == SQLITE_OK)
        write_row(blob, bytes, length, offset % CHUNK);
    else
        write_new_row(offset, bytes, length);
}

static void write_rows(const struct place *place, const uint8_t *bytes, size_t length)
{
    size_t part = part_of(place->offset, length);
    if (part == length) {
        write_part(place->offset, bytes, length);
        return;
    }
    step(start);
    write_part(place->offset, bytes, part);
    write_part(place->offset + part, bytes + part, length - part);
    step(commit);
}

static void settle_rows(void)
{
    must(open_row(row_there, false, &reader));
}

/* Where there is no row, zeros. */
static void read_part(uint64_t offset, uint8_t *buffer, size_t length)
{
    if (sqlite3_blob_reopen(reader, row_of(offset)) == SQLITE_OK) {
        row_there = row_of(offset);
        must(sqlite3_blob_read(reader, buffer, (int)length, (int)(offset % CHUNK)));
        return;
    }
    sqlite3_blob_close(reader);
    must(open_row(row_there, false, &reader));
    memset(buffer, 0, length);
}

static void read_rows(const struct place *place, uint8_t *buffer, size_t length)
{
    size_t part = part_of(place->offset, length);
    read_part(place->offset, buffer, part);
    if (part < length)
        read_part(place->offset + part, buffer + part, length - part);
}

static void end_rows(void)
{
    sqlite3_finalize(insert_row);
    sqlite3_finalize(start);
    sqlite3_finalize(commit);
    close_database();
}

/* ---- rows in a file */

/* Room for all pages in memory, as the others have, and the file for one program alone: with both SQLite is faster. */
static void begin_file(const struct work *work)
{
    (void)work;
    snprintf(path, sizeof path, "%s/peers.db", folder);
    open_database(path, FILE_PAGE);
    run("pragma cache_size = -262144; pragma locking_mode = exclusive; pragma journal_mode = wal; pragma synchronous = normal");
    prepare_rows();
}

static uint64_t file_length(const char *name)
{
    struct stat told;
    return stat(name, &told) == 0 ? (uint64_t)told.st_size : 0;
}

/* The pages in memory, the file and its log. */
static struct held file_held(void)
{
    char log[sizeof path + 8];
    snprintf(log, sizeof log, "%s-wal", path);
    return (struct held){memory_taken() + file_length(path) + file_length(log), 0};
}

static void end_file(void)
{
    end_rows();
    if (unlink(path) != 0)
        give_up("SQLite", "the database is not where it was made");
}

const char *sqlite_version(void)
{
    return sqlite3_libversion();
}

const struct peer sqlite_one_blob = {"SQLite, one blob, in memory", true, begin_blob, write_blob, settle_blob, read_blob, memory_held, close_database};
const struct peer sqlite_rows = {"SQLite, a row a chunk, in memory", false, begin_rows, write_rows, settle_rows, read_rows, memory_held, end_rows};
const struct peer sqlite_rows_in_file = {"SQLite, a row a chunk, in a file", false, begin_file, write_rows, settle_rows, read_rows, file_held, end_file};
