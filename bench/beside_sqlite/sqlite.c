/* Answers the scripts of bench/beside_sqlite/compare from a database of SQLite in memory, as `elephant run` answers them.
 *
 * One table holds the files with their current contents. When a file gets another content, a trigger copies the old
 * one into the table of versions. This program holds the drafts, and the database doesn't. Each event is a transaction of its
 * own, or with the word `thousand` 1,000 lines are one. */
#define _GNU_SOURCE
#include "schema.h"
#include <sqlite3.h>
#include <stdio.h>
#include <stdlib.h>
#include <string.h>
#include <time.h>

enum { LONGEST_LINE = 8194, LONGEST_CONTENT = 1048576, LONGEST_ROW = 128, TRANSACTION = 1000 };

enum Statement { CREATE, OPEN, CLOSE, CURRENT, THEN, LAST, LIST, PASS, BEGIN, COMMIT, STATEMENTS };

static const char *const TEXTS[STATEMENTS] = {
    [CREATE] = "INSERT INTO files (name, number, opened, closed, content) VALUES (?1, 1, ?2, ?2, x'')",
    [OPEN] = "SELECT id, number, content FROM files WHERE name = ?1",
    [CLOSE] = "UPDATE files SET number = ?2, opened = ?3, closed = ?4, content = ?5 WHERE id = ?1",
    [CURRENT] = "SELECT id, closed, content FROM files WHERE name = ?1",
    /* Of the versions that closed in one second the last one has the greatest rowid. */
    [THEN] = "SELECT content FROM versions WHERE file = ?1 AND closed <= ?2 ORDER BY closed DESC, rowid DESC LIMIT 1",
    [LAST] = "SELECT id, number, opened, closed, length(content) FROM files WHERE name = ?1",
    [LIST] = "SELECT number, opened, closed, ended, length(content) FROM versions WHERE file = ?1 ORDER BY closed, rowid",
    [PASS] = "DELETE FROM versions WHERE ended <= ?1",
    [BEGIN] = "BEGIN",
    [COMMIT] = "COMMIT",
};

/* The draft of the open session: the scripts have one at a time. */
struct draft {
    sqlite3_int64 handle, file, number, opened;
    int length;
    unsigned char bytes[LONGEST_CONTENT];
};

static sqlite3 *base;
static sqlite3_stmt *statements[STATEMENTS];
static sqlite3_int64 now, kept_for = 86400, files, handles;
static struct draft draft;

static void fail(const char *why) {
    fprintf(stderr, "sqlite: %s: %s\n", why, base ? sqlite3_errmsg(base) : "no database");
    exit(1);
}

static void check(int status, const char *what) {
    if (status != SQLITE_OK) fail(what);
}

/* The statement, with the path or the number as its first parameter. */
static sqlite3_stmt *with_text(enum Statement which, const char *text) {
    check(sqlite3_bind_text(statements[which], 1, text, -1, SQLITE_STATIC), "bind");
    return statements[which];
}

static sqlite3_stmt *with_number(enum Statement which, sqlite3_int64 number) {
    check(sqlite3_bind_int64(statements[which], 1, number), "bind");
    return statements[which];
}

static void bind(sqlite3_stmt *statement, int at, sqlite3_int64 number) {
    check(sqlite3_bind_int64(statement, at, number), "bind");
}

static void find_row(sqlite3_stmt *statement) {
    if (sqlite3_step(statement) != SQLITE_ROW) fail("there is no such row");
}

static void run(sqlite3_stmt *statement) {
    if (sqlite3_step(statement) != SQLITE_DONE) fail("step");
    sqlite3_reset(statement);
}

static void set_up(void) {
    sqlite3_config(SQLITE_CONFIG_SINGLETHREAD);
    sqlite3_config(SQLITE_CONFIG_MEMSTATUS, 0);
    check(sqlite3_open(":memory:", &base), "open");
    check(sqlite3_exec(base, SCHEMA, NULL, NULL, NULL), "schema");
    for (int at = 0; at < STATEMENTS; at++)
        check(sqlite3_prepare_v3(base, TEXTS[at], -1, SQLITE_PREPARE_PERSISTENT, &statements[at], NULL), TEXTS[at]);
}

static int digit(char letter) {
    return letter <= '9' ? letter - '0' : letter - 'a' + 10;
}

static void print(const char *text) {
    fputs_unlocked(text, stdout);
}

/* Writes the number and the letter at the place, and returns the place after them. `printf` would take as long as a query. */
static char *put_number(char *at, sqlite3_int64 number, char letter) {
    char digits[20];
    int count = 0;
    do digits[count++] = (char)('0' + number % 10);
    while ((number /= 10) > 0);
    while (count > 0) *at++ = digits[--count];
    *at++ = letter;
    return at;
}

static void print_number(sqlite3_int64 number, char letter) {
    char text[24];
    fwrite_unlocked(text, 1, (size_t)(put_number(text, number, letter) - text), stdout);
}

static void print_line(const char *words, sqlite3_int64 number) {
    print(words);
    print_number(number, '\n');
}

static void print_bytes(const unsigned char *bytes, int length) {
    static char text[2 * LONGEST_CONTENT];
    for (int at = 0; at < length; at++) {
        text[2 * at] = "0123456789abcdef"[bytes[at] >> 4];
        text[2 * at + 1] = "0123456789abcdef"[bytes[at] & 15];
    }
    print("ok bytes ");
    print_number(length, ' ');
    if (length == 0) print("-");
    fwrite_unlocked(text, 1, 2 * (size_t)length, stdout);
    print("\n");
}

static void create(const char *path) {
    sqlite3_stmt *statement = with_text(CREATE, path);
    bind(statement, 2, now);
    run(statement);
    print_line("ok file ", ++files);
}

static void move_clock(sqlite3_int64 moment) {
    time_t seconds = (time_t)moment;
    struct tm parts;
    char text[32];
    now = moment;
    strftime(text, sizeof text, "%Y-%m-%dT%H:%M:%SZ\n", gmtime_r(&seconds, &parts));
    print("ok now ");
    print_number(now, ' ');
    print(text);
}

static void open_write(const char *path) {
    sqlite3_stmt *statement = with_text(OPEN, path);
    find_row(statement);
    draft.handle = ++handles;
    draft.file = sqlite3_column_int64(statement, 0);
    draft.number = sqlite3_column_int64(statement, 1);
    draft.opened = now;
    const void *content = sqlite3_column_blob(statement, 2);
    draft.length = sqlite3_column_bytes(statement, 2);
    if (draft.length > 0) memcpy(draft.bytes, content, (size_t)draft.length);
    sqlite3_reset(statement);
    print_line("ok handle ", draft.handle);
}

static void resize(int length) {
    if (length > draft.length) memset(draft.bytes + draft.length, 0, (size_t)(length - draft.length));
    draft.length = length;
}

static void write_bytes(int offset, const char *text) {
    int count = (int)(strlen(text) / 2);
    if (offset + count > LONGEST_CONTENT) fail("the content is too long");
    if (offset + count > draft.length) resize(offset + count);
    for (int at = 0; at < count; at++)
        draft.bytes[offset + at] = (unsigned char)(digit(text[2 * at]) << 4 | digit(text[2 * at + 1]));
    print("ok done\n");
}

static void close_write(void) {
    sqlite3_stmt *statement = with_number(CLOSE, draft.file);
    bind(statement, 2, draft.number + 1);
    bind(statement, 3, draft.opened);
    bind(statement, 4, now);
    check(sqlite3_bind_blob(statement, 5, draft.bytes, draft.length, SQLITE_STATIC), "bind");
    run(statement);
    print_line("ok closed version ", draft.number + 1);
}

/* Prints the content that was current at the moment. */
static void read_at(const char *path, sqlite3_int64 moment) {
    sqlite3_stmt *current = with_text(CURRENT, path), *found = current;
    int column = 2;
    find_row(current);
    if (sqlite3_column_int64(current, 1) > moment) {
        found = with_number(THEN, sqlite3_column_int64(current, 0));
        bind(found, 2, moment);
        column = 0;
        find_row(found);
    }
    const unsigned char *content = sqlite3_column_blob(found, column);
    print_bytes(content, sqlite3_column_bytes(found, column));
    sqlite3_reset(found);
    sqlite3_reset(current);
}

/* Writes the columns from the first on, an end or `-` among them, as a row of an answer. */
static char *put_row(char *at, sqlite3_stmt *row, int first, int is_current) {
    *at++ = '-';
    *at++ = ' ';
    for (int column = first; column < first + 3; column++) at = put_number(at, sqlite3_column_int64(row, column), ' ');
    if (!is_current) at = put_number(at, sqlite3_column_int64(row, first + 3), ' ');
    if (is_current) at = stpcpy(at, "- ");
    return put_number(at, sqlite3_column_int64(row, first + 4 - is_current), '\n');
}

/* Collects the rows, since their count is printed before them. */
static void list(const char *path) {
    static char *rows;
    static size_t capacity;
    size_t length = 0;
    int count = 1, status;
    sqlite3_stmt *last = with_text(LAST, path);
    find_row(last);
    sqlite3_stmt *row = with_number(LIST, sqlite3_column_int64(last, 0));
    do {
        status = sqlite3_step(row);
        if (capacity < length + LONGEST_ROW && !(rows = realloc(rows, capacity = 2 * length + LONGEST_ROW))) fail("memory");
        char *end = status == SQLITE_ROW ? put_row(rows + length, row, 0, 0) : put_row(rows + length, last, 1, 1);
        length = (size_t)(end - rows);
        count += status == SQLITE_ROW;
    } while (status == SQLITE_ROW);
    print_line("ok versions ", count);
    fwrite_unlocked(rows, 1, length, stdout);
    sqlite3_reset(row);
    sqlite3_reset(last);
}

static void pass(void) {
    run(with_number(PASS, now - kept_for));
    print_line("ok pass finished ", sqlite3_changes(base));
}

/* Returns the rest of the line, if it begins with the words. */
static char *after(char *line, const char *words) {
    size_t length = strlen(words);
    return strncmp(line, words, length) == 0 ? line + length : NULL;
}

/* Ends the text at the letter, and returns the rest. */
static char *cut(char *text, char letter) {
    char *at = strchr(text, letter);
    if (!at) fail("a word is missing");
    *at = '\0';
    return at + 1;
}

static void own_handle(const char *text) {
    if (atoll(text) != draft.handle) fail("the handle isn't open");
}

static void answer(char *line) {
    char *rest, *next;
    if ((rest = after(line, "open write "))) {
        open_write(rest);
    } else if ((rest = after(line, "write "))) {
        next = cut(rest, ' ');
        own_handle(rest);
        char *bytes = cut(next, ' ');
        write_bytes(atoi(next), bytes);
    } else if ((rest = after(line, "close "))) {
        own_handle(rest);
        close_write();
    } else if ((rest = after(line, "read "))) {
        next = cut(rest, '@');
        read_at(rest, atoll(next));
    } else if ((rest = after(line, "versions "))) {
        list(rest);
    } else if ((rest = after(line, "clock "))) {
        move_clock(atoll(rest));
    } else if ((rest = after(line, "create "))) {
        create(rest);
    } else if (after(line, "pass ")) {
        pass();
    } else if ((rest = after(line, "default / safe:"))) {
        kept_for = atoll(rest);
        print("ok done\n");
    } else {
        fail("there is no such command");
    }
}

static void answer_all(int in_thousands) {
    static char line[LONGEST_LINE];
    for (long count = 0; fgets_unlocked(line, sizeof line, stdin); count++) {
        if (in_thousands && count % TRANSACTION == 0) {
            if (count > 0) run(statements[COMMIT]);
            run(statements[BEGIN]);
        }
        line[strcspn(line, "\n")] = '\0';
        answer(line);
    }
    if (!sqlite3_get_autocommit(base)) run(statements[COMMIT]);
}

int main(int count, char **words) {
    if (count == 2 && strcmp(words[1], "--version") == 0) return puts(sqlite3_libversion()) < 0;
    set_up();
    answer_all(count == 2 && strcmp(words[1], "thousand") == 0);
    return fflush(stdout) == 0 ? 0 : 1;
}
