/* copies FILES SAVES BYTES: makes a database of versions in memory, and prints how long SQLite takes to copy it, as bench/checkpoints
 * does for a core: into a second database as `.backup` does, into bytes and back, and anew with VACUUM. */
#define _GNU_SOURCE
#include "schema.h"
#include <sqlite3.h>
#include <stdint.h>
#include <stdio.h>
#include <stdlib.h>
#include <time.h>

static sqlite3 *base;

static void check(int status, const char *what) {
    if (status == SQLITE_OK) return;
    fprintf(stderr, "copies: %s: %s\n", what, base ? sqlite3_errmsg(base) : "no database");
    exit(1);
}

static void exec(sqlite3 *on, const char *text) {
    check(sqlite3_exec(on, text, NULL, NULL, NULL), text);
}

static sqlite3 *opened(void) {
    sqlite3 *made;
    check(sqlite3_open(":memory:", &made), "open");
    return made;
}

/* ---- the versions ---- */

/* Writes a content that no other has. */
static void put_content(unsigned char *bytes, int length) {
    static uint32_t last = 1;
    for (int at = 0; at < length; at++) {
        if (at % 4 == 0) last = last * 1664525 + 1013904223;
        bytes[at] = (unsigned char)(last >> (24 - at % 4 * 8));
    }
}

static sqlite3_stmt *prepared(const char *text) {
    sqlite3_stmt *made;
    check(sqlite3_prepare_v2(base, text, -1, &made, NULL), text);
    return made;
}

static void run(sqlite3_stmt *statement) {
    if (sqlite3_step(statement) != SQLITE_DONE) check(SQLITE_ERROR, "step");
    sqlite3_reset(statement);
}

static void fill(int files, int saves, int length) {
    unsigned char *bytes = malloc((size_t)length + 1);
    sqlite3_stmt *create = prepared("INSERT INTO files VALUES (?1, ?1, 1, ?2, ?2, x'')");
    sqlite3_stmt *save = prepared("UPDATE files SET number = ?2, opened = ?3, closed = ?3, content = ?4 WHERE id = ?1");
    int now = 0;
    if (!bytes) check(SQLITE_NOMEM, "fill");
    exec(base, "BEGIN");
    for (int file = 1; file <= files; file++) {
        sqlite3_bind_int(create, 1, file);
        sqlite3_bind_int(create, 2, now);
        run(create);
        for (int number = 2; number <= saves + 1; number++) {
            put_content(bytes, length);
            sqlite3_bind_int(save, 1, file);
            sqlite3_bind_int(save, 2, number);
            sqlite3_bind_int(save, 3, ++now);
            check(sqlite3_bind_blob(save, 4, bytes, length, SQLITE_STATIC), "bind");
            run(save);
        }
    }
    exec(base, "COMMIT");
    sqlite3_finalize(create);
    sqlite3_finalize(save);
    free(bytes);
}

/* ---- what is measured ---- */

static double seconds(void) {
    struct timespec now;
    clock_gettime(CLOCK_MONOTONIC, &now);
    return (double)now.tv_sec + (double)now.tv_nsec / 1e9;
}

static void print_since(const char *what, double start) {
    printf("%s: %.3f seconds\n", what, seconds() - start);
}

static void back_up(void) {
    sqlite3 *copy = opened();
    double start = seconds();
    sqlite3_backup *backup = sqlite3_backup_init(copy, "main", base, "main");
    if (!backup || sqlite3_backup_step(backup, -1) != SQLITE_DONE) check(SQLITE_ERROR, "backup");
    check(sqlite3_backup_finish(backup), "backup");
    print_since("a backup", start);
    sqlite3_close(copy);
}

/* Into bytes and back; the rows are counted, so that they are read once. */
static void serialize(void) {
    sqlite3_int64 size;
    double start = seconds();
    unsigned char *bytes = sqlite3_serialize(base, "main", &size, 0);
    if (!bytes) check(SQLITE_NOMEM, "serialize");
    print_since("bytes", start);
    printf("%lld bytes\n", (long long)size);
    sqlite3 *copy = opened();
    start = seconds();
    check(sqlite3_deserialize(copy, "main", bytes, size, size, SQLITE_DESERIALIZE_FREEONCLOSE | SQLITE_DESERIALIZE_RESIZEABLE), "deserialize");
    exec(copy, "SELECT count(content) FROM versions");
    print_since("a database of the bytes", start);
    sqlite3_close(copy);
}

int main(int count, char **words) {
    if (count != 4) return 2;
    sqlite3_config(SQLITE_CONFIG_SINGLETHREAD);
    sqlite3_config(SQLITE_CONFIG_MEMSTATUS, 0);
    base = opened();
    exec(base, SCHEMA);
    fill(atoi(words[1]), atoi(words[2]), atoi(words[3]));
    back_up();
    serialize();
    double start = seconds();
    exec(base, "VACUUM");
    print_since("VACUUM", start);
    sqlite3_close(base);
    return fflush(stdout) == 0 ? 0 : 1;
}
