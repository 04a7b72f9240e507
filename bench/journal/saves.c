/* saves WORD PATH COUNT: how long a save of 100 bytes over 100 files takes, in microseconds of the clock, if each is on the disk when it
 * returns, or only a sync at the end waits for the disk. Prints the figure and its name.
 *     memory    a store without a file; PATH isn't used
 *     asked     elephant_file.h: each save is committed, and elephant_file_sync comes at the end
 *     each      elephant_file.h: each save is committed and synced
 *     sqlite    SQLite with a WAL and synchronous=FULL: each save is an update, and a trigger keeps the version that it ends
 *     insert    the same with one insert into a table without an index for each save, the least that keeps all versions
 *     raw       100 bytes written over a file's own bytes, and fdatasync: what the disk itself takes */
#define _GNU_SOURCE
#include "../beside_sqlite/schema.h"
#include <elephant_file.h>
#include <fcntl.h>
#include <sqlite3.h>
#include <stdio.h>
#include <stdlib.h>
#include <string.h>
#include <time.h>
#include <unistd.h>

enum { FILES = 100, LENGTH = 100, FIRST = 200 };

static void must(int is_good, const char *what) {
    if (is_good) return;
    fprintf(stderr, "saves: %s failed\n", what);
    exit(1);
}

static double now(void) {
    struct timespec it;
    clock_gettime(CLOCK_MONOTONIC, &it);
    return (double)it.tv_sec * 1e6 + (double)it.tv_nsec / 1e3;
}

/* A content that no other save has. */
static const char *content_of(int number) {
    static char content[LENGTH + 1];
    snprintf(content, sizeof content, "%0*d", LENGTH, number);
    return content;
}

/* What a word measures: the state of a run, what opens it, what saves, and what ends it. */
struct way {
    const char *name;
    void (*open)(const char *path);
    void (*save)(int number);
    void (*end)(void);
};

/* ---- Elephant ---- */

static elephant *store;
static elephant_file *file;

static void save_in(elephant *e, int number) {
    char path[8];
    uint64_t version;
    const int length = snprintf(path, sizeof path, "/f%d", number % FILES);
    must(!elephant_save(e, path, (size_t)length, content_of(number), LENGTH, &version), "save");
}

static void open_memory(const char *path) {
    (void)path;
    elephant_new(&store);
    must(store && !elephant_open_largest(store, 0), "open");
}

static void save_memory(int number) {
    save_in(store, number);
}

static void end_memory(void) {
    elephant_delete(store);
}

static void open_how(const char *path, uint32_t sync) {
    const elephant_file_options options = {.sync = sync};
    elephant_file_fault fault;
    must(!elephant_file_open(path, &options, &file, &fault), "open");
}

static void open_asked(const char *path) {
    open_how(path, ELEPHANT_FILE_SYNC_ASKED);
}

static void open_each(const char *path) {
    open_how(path, ELEPHANT_FILE_SYNC_EACH);
}

static void save_file(int number) {
    save_in(elephant_file_store(file), number);
    must(!elephant_file_commit(file), "commit");
}

static void end_file(void) {
    must(!elephant_file_sync(file), "sync");
    elephant_file_close(file);
}

/* ---- SQLite ---- */

static sqlite3 *base;
static sqlite3_stmt *statement;

static void exec(const char *text) {
    must(sqlite3_exec(base, text, NULL, NULL, NULL) == SQLITE_OK, text);
}

static void open_base(const char *path, const char *schema, const char *save) {
    must(sqlite3_open(path, &base) == SQLITE_OK, "open");
    exec("PRAGMA journal_mode=WAL");
    exec("PRAGMA synchronous=FULL");
    exec(schema);
    must(sqlite3_prepare_v2(base, save, -1, &statement, NULL) == SQLITE_OK, save);
}

static void open_sqlite(const char *path) {
    char name[16];
    sqlite3_stmt *make;
    open_base(path, SCHEMA, "UPDATE files SET number = number + 1, opened = ?1, closed = ?1, content = ?2 WHERE name = ?3");
    must(sqlite3_prepare_v2(base, "INSERT INTO files VALUES (?1, ?2, 1, 0, 0, x'')", -1, &make, NULL) == SQLITE_OK, "prepare");
    exec("BEGIN");
    for (int at = 0; at < FILES; at++) {
        snprintf(name, sizeof name, "/f%d", at);
        sqlite3_bind_int(make, 1, at + 1);
        sqlite3_bind_text(make, 2, name, -1, SQLITE_TRANSIENT);
        must(sqlite3_step(make) == SQLITE_DONE && sqlite3_reset(make) == SQLITE_OK, "make");
    }
    sqlite3_finalize(make);
    exec("COMMIT");
}

static void open_insert(const char *path) {
    open_base(path, "CREATE TABLE versions (closed INTEGER NOT NULL, content BLOB NOT NULL, name TEXT NOT NULL)",
              "INSERT INTO versions VALUES (?1, ?2, ?3)");
}

static void save_base(int number) {
    char name[16];
    snprintf(name, sizeof name, "/f%d", number % FILES);
    sqlite3_bind_int(statement, 1, number);
    sqlite3_bind_blob(statement, 2, content_of(number), LENGTH, SQLITE_STATIC);
    sqlite3_bind_text(statement, 3, name, -1, SQLITE_STATIC);
    must(sqlite3_step(statement) == SQLITE_DONE && sqlite3_reset(statement) == SQLITE_OK, "save");
}

static void end_base(void) {
    sqlite3_finalize(statement);
    must(sqlite3_close(base) == SQLITE_OK, "close");
}

/* ---- The disk itself ---- */

static int raw;

static void open_raw(const char *path) {
    static const char zeros[1 << 20];
    raw = open(path, O_RDWR | O_CREAT | O_TRUNC, 0600);
    must(raw >= 0 && write(raw, zeros, sizeof zeros) == sizeof zeros && !fsync(raw), "open");
}

static void save_raw(int number) {
    must(pwrite(raw, content_of(number), LENGTH, number % 8000 * LENGTH) == LENGTH && !fdatasync(raw), "write");
}

static void end_raw(void) {
    close(raw);
}

static const struct way ways[] = {
    {"memory", open_memory, save_memory, end_memory}, {"asked", open_asked, save_file, end_file}, {"each", open_each, save_file, end_file},
    {"sqlite", open_sqlite, save_base, end_base},     {"insert", open_insert, save_base, end_base}, {"raw", open_raw, save_raw, end_raw},
};

int main(int count, char **words) {
    for (size_t at = 0; count == 4 && at < sizeof ways / sizeof *ways; at++) {
        const struct way *way = &ways[at];
        const int saves = atoi(words[3]);
        double began;
        if (strcmp(way->name, words[1])) continue;
        way->open(words[2]);
        /* The first make the files. */
        for (int number = 0; number < FIRST; number++) way->save(number);
        began = now();
        for (int number = FIRST; number < FIRST + saves; number++) way->save(number);
        /* The closing syncs what no save has waited for. */
        way->end();
        printf("c_%s %.3f\n", way->name, (now() - began) / saves);
        return 0;
    }
    fprintf(stderr, "saves: memory, asked, each, sqlite, insert or raw, a path, and how many saves\n");
    return 2;
}
