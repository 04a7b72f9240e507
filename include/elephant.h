/* elephant.h: Elephant as a C library. One page: every call, its codes and units, and what the caller must ensure.
 *
 *     elephant *e;
 *     elephant_new(&e);                                            // NULL if there is no memory
 *     elephant_open_largest(e, 0);                                 // a fresh store
 *     uint64_t version, length;
 *     elephant_save(e, "/f", 2, "abc", 3, &version);               // version 2: the file is made with an empty version 1
 *     elephant_read(e, "/f", 2, ELEPHANT_NOW, 0, &length);         // keeps the bytes in e
 *     char text[16]; uint64_t copied;
 *     elephant_take(e, 0, text, sizeof text, &copied);             // copies them out, in pieces if need be
 *     elephant_delete(e);
 *
 * THE STORE. It keeps every version of every file in memory until elephant_clean or elephant_pass removes it by the file's
 * policy. You set its time: the moment is 0 at first, and only elephant_clock and elephant_tick move it. The store never reads
 * the machine's clock, and writes nothing to a disk.
 *
 * UNITS. A moment is in seconds since 1970-01-01T00:00:00Z, from 0 to 253402300799. Lengths, sizes and offsets are in bytes. A
 * content has at most 1,048,576 bytes. A name has 1 to 64 bytes from '!' to '~' without '/', '@' and '#', and is neither "." nor
 * "..". A path is "/" or at most 32 names with a slash before each. It needs no zero byte at its end: "/a/b" has length 4.
 *
 * CODES. Each call that returns int32_t returns one of enum elephant_code. ELEPHANT_OK: the call succeeded, and its results are
 * at its pointers. Any other code: nothing has changed, neither the store nor what the pointers point to. The exceptions are the
 * kept result, the history, and what elephant_pass and elephant_line say below. A history keeps a call that the store refused as
 * an entry, which takes memory and counts towards the limit of events. The comment of a call, and that of its section, list its
 * codes without ELEPHANT_. They leave out three: CLOSED, NO_MEMORY, and HISTORY_FULL if the store has a history.
 * If two arguments are bad, the code is that of the first.
 *
 * THE KEPT RESULT. The handle keeps the content or the list of the last call. elephant_take, elephant_row_.. and the like copy it
 * out, as often as you want. The next call that runs or asks something replaces it, even if that call is refused. Calls that only
 * look leave it: elephant_now, elephant_tell, elephant_answer, elephant_history, elephant_read_into and the like.
 *
 * THE CALLER ENSURES what no call can check:
 *   - No pointer is NULL, not even with a length of 0 (pass ""). The handle is one from elephant_new, and elephant_delete has not
 *     freed it. elephant_new may return NULL: test it.
 *   - A pointer with a length points to that many bytes, fewer than 2^63, which stay valid during the call. Other pointers point
 *     to one object of their type, aligned. The memory that a call writes overlaps no other argument.
 *   - One call at a time on a handle, also on a const one. Threads may share it with a lock, a join or the like between two calls.
 *     Two handles share nothing.
 *   - No call from a signal handler, and none in the child of a fork of a process with threads.
 *   - malloc, realloc and free are those of one allocator, which aligns by 16 bytes. The processor is x86-64-v2 or later.
 * Each other mistake returns a code: a closed store, a bad path, a handle or a row that is not there, too small a buffer.
 */
#ifndef ELEPHANT_H
#define ELEPHANT_H

/* SPDX-License-Identifier: NONE */

/* The version of this header, as pkg-config says it, and as a number: 1.2.3 is 1002003. */
#define ELEPHANT_LIBRARY_VERSION "2.1.0"
#define ELEPHANT_LIBRARY_VERSION_NUMBER 2001000

#include <stddef.h>
#include <stdint.h>

#ifdef __cplusplus
extern "C" {
#endif

typedef struct elephant elephant;

/* tools/pages/surface --write prints the enums of codes and limits, and the columns of each row. The comments of columns are by hand. */

/* ---- Codes ---- */

/* Printed by tools/pages/surface --write: the codes, from refusal.rt of ele_model, fault.rt of ele_printer and codes.rt of ele_c_values. */
enum elephant_code {
    ELEPHANT_OK = 0,

    /* The command was not run. Without a history elephant_clock, _tick, _abandon, _clean and _pass never stop. */
    ELEPHANT_NO_MEMORY = 1,        /* there was no memory */
    ELEPHANT_HISTORY_FULL = 2,     /* the history has as many events as it may; only with a history */

    /* The store refused the command. elephant_detail returns the detail of 13 and 27. */
    ELEPHANT_CLOCK_BACK = 3,       /* the moment is earlier than now */
    ELEPHANT_CLOCK_END = 4,        /* the moment would be later than the year 9999 */
    ELEPHANT_NO_ENTRY = 5,         /* the path names nothing */
    ELEPHANT_NOT_DIRECTORY = 6,    /* the path leads to a file, or through one */
    ELEPHANT_IS_DIRECTORY = 7,     /* the path leads to a directory */
    ELEPHANT_EXISTS = 8,           /* the name is in use */
    ELEPHANT_NOT_EMPTY = 9,        /* the directory has names */
    ELEPHANT_INTO_ITSELF = 10,     /* the directory would be moved below itself */
    ELEPHANT_IS_ROOT = 11,         /* the root can't be made, moved or deleted */
    ELEPHANT_FUTURE = 12,          /* the moment is later than now */
    ELEPHANT_FORGOTTEN = 13,       /* the version was removed; detail: the greatest held number before it, or 0 */
    ELEPHANT_NO_VERSION = 14,      /* no version has had the number yet */
    ELEPHANT_NO_HANDLE = 15,       /* no open handle has the number */
    ELEPHANT_NOT_WRITER = 16,      /* the handle is one that reads */
    ELEPHANT_TOO_BIG = 17,         /* the content would be longer than 1,048,576 bytes, or the note than 200 */
    ELEPHANT_DRAFTING = 18,        /* a handle writes the file */
    ELEPHANT_NOT_RESTORABLE = 19,  /* nothing can be restored by this name */
    ELEPHANT_NO_GROUP = 20,        /* no group has the name */
    ELEPHANT_GROUP_EXISTS = 21,    /* a group has the name already */
    ELEPHANT_NO_MARK = 22,         /* the group has no mark for the moment */
    ELEPHANT_MARK_EXISTS = 23,     /* the group has a mark for the moment already */
    ELEPHANT_NOT_PAST = 24,        /* the moment of a mark must be earlier than now */
    ELEPHANT_ALREADY_MEMBER = 25,  /* the file is in the group already */
    ELEPHANT_NOT_MEMBER = 26,      /* the file isn't in the group */
    ELEPHANT_FULL = 27,            /* a limit is reached, for good; detail: which, an enum elephant_limit */
    ELEPHANT_NOT_AHEAD = 41,       /* the end of a mark must be later than now, the moment of 'ahead' or 'expiring' not earlier, nor the second of 'changes' than its first */

    /* An argument is not valid. If several are not, the code is that of the first one. */
    ELEPHANT_BAD_NAME = 28,        /* a name has 1 to 64 bytes without /, @ and #, and isn't . or .. */
    ELEPHANT_BAD_PATH = 29,        /* a path begins with /, has no empty name and at most 32 names, and a number after # */
    ELEPHANT_BAD_MOMENT = 30,      /* no moment has this form, or it is too late; past 253402300799 */
    ELEPHANT_BAD_LADDER = 31,      /* no policy has these numbers */
    ELEPHANT_SYNTAX = 32,          /* the line is no command, or a word is missing, too many or of another form */

    /* The handle itself. */
    ELEPHANT_CLOSED = 64,          /* the store, or the handle, is closed */
    ELEPHANT_OPENED = 65,          /* the store is open already */
    ELEPHANT_BAD_LIMITS = 66,      /* a limit is above its largest */
    ELEPHANT_NO_HISTORY = 67,      /* the store was opened without a history */
    ELEPHANT_NO_RESULT = 68,       /* the handle keeps nothing of that kind */
    ELEPHANT_NO_ROW = 69,          /* the kept list has no row of that index */
    ELEPHANT_NO_ROOM = 70,         /* the buffer is too small, and nothing is copied */
    ELEPHANT_UNTOLD = 71,          /* the line was run, but there was no memory for the text of its answer */
    ELEPHANT_BAD_CHECKPOINT = 72,  /* the bytes are no checkpoint of a store */
    ELEPHANT_HANDLES_OPEN = 73,    /* a handle is open */
    ELEPHANT_NO_JOURNAL = 74,      /* the store has no journal */
    ELEPHANT_HAS_JOURNAL = 75,     /* the store has a journal */
    ELEPHANT_BAD_JOURNAL = 76      /* the bytes are no file of a store */
};
/* End of the codes. */

/* Returns the name and the meaning of a code, as "NoEntry: the path names nothing". The text is never freed. */
const char *elephant_code_text(int32_t code);

/* Return the version of the library that the program runs with, in the forms of the two macros. The text is never freed. */
const char *elephant_library_version(void);
uint32_t elephant_library_version_number(void);

/* No moment or no level: a version that has not ended, a mark without an end, .. */
#define ELEPHANT_NEVER UINT64_MAX

/* ---- The handle ---- */

/* How many of each kind may ever be made. A removal lowers no count; elephant_renew counts only what is held. */
typedef struct elephant_limits {
    uint64_t events;       /* with a history: events answered, at most 1,000,000,000; else not counted */
    uint64_t files;        /* at most 100,000 */
    uint64_t directories;  /* without the root: at most 10,000 */
    uint64_t names;        /* names given, also by link, rename and undelete: at most 200,000 */
    uint64_t versions;     /* with the open drafts: at most 1,000,000 */
    uint64_t handles;      /* handles opened: at most 1,000,000 */
    uint64_t groups;       /* at most 1,000 */
    uint64_t members;      /* files added to groups: at most 100,000 */
    uint64_t marks;        /* at most 10,000 */
} elephant_limits;

/* Printed by tools/pages/surface --write: the limits, from ele_c_values/src/codes.rt. */
enum elephant_limit {
    ELEPHANT_LIMIT_FILES = 1,
    ELEPHANT_LIMIT_DIRECTORIES = 2,
    ELEPHANT_LIMIT_NAMES = 3,
    ELEPHANT_LIMIT_VERSIONS = 4,
    ELEPHANT_LIMIT_HANDLES = 5,
    ELEPHANT_LIMIT_GROUPS = 6,
    ELEPHANT_LIMIT_MEMBERS = 7,
    ELEPHANT_LIMIT_MARKS = 8
};
/* End of the limits. */

/* Makes a closed handle at *out, or NULL if there is no memory. Pass it to elephant_delete once. */
void elephant_new(elephant **out);

/* Closes the handle and frees it. */
void elephant_delete(elephant *e);

/* Opens a fresh store. With `history` not 0 the store also keeps each event and question with its answer, and elephant_history and
 * elephant_trim work. With 0 it keeps no events, so its memory doesn't grow with them. OPENED, BAD_LIMITS, NO_MEMORY. */
int32_t elephant_open(elephant *e, const elephant_limits *limits, uint32_t history);

/* Opens a fresh store with the largest limits. */
int32_t elephant_open_largest(elephant *e, uint32_t history);

/* Drops the store and frees its memory; you can open the handle again. A closed handle stays closed. */
void elephant_close(elephant *e);

/* Returns the detail of ELEPHANT_FORGOTTEN and ELEPHANT_FULL. NO_RESULT after any other answer. A call that returns 64 to 70 or 72 to 76
 * has no answer, and elephant_checkpoint and the calls of a journal never have one: the one before it stays. After elephant_renew there
 * is none. */
int32_t elephant_detail(const elephant *e, uint64_t *detail);

/* How many of each kind were ever made, as the limits count them. A limit less its count is what may still be made. */
typedef struct elephant_counts_row {
    uint64_t events;       /* with a history: its entries, and the folded ones; else 0 */
    uint64_t files;
    uint64_t directories;  /* without the root */
    uint64_t names;        /* names given, also by link, rename and undelete */
    uint64_t versions;     /* with the open drafts */
    uint64_t handles, groups, members, marks;
} elephant_counts_row;

/* Returns what the limits count. */
int32_t elephant_counts(const elephant *e, elephant_counts_row *row);

/* ---- Lines of the script language ---- */

/* Runs one line, without its line feed, and keeps the text of its answer, of *length bytes: lines with their line feeds, as the
 * program prints them. It answers what `--explain` adds too. `history`, `trim`,
 * `handles`, `gone` and `answers` are "bad 32 Syntax" in a store without a history.
 * An empty line has an empty answer. ELEPHANT_OK: there is an answer, which may be a refusal ("no 5 NoEntry"). UNTOLD: the line
 * was run, but there is no memory for its text, which has more than 8,192 bytes; elephant_tell tries again. The handle also keeps
 * the result of the line's event: after `read /f` elephant_take copies the bytes. CLOSED. */
int32_t elephant_line(elephant *e, const void *line, size_t len, uint64_t *length);

/* Makes the text of the last call's answer, also of a typed call, as the program prints it: "ok file 1". It passes over calls that
 * only look: elephant_now, elephant_take, elephant_row_.., elephant_history and the like. UNTOLD. */
int32_t elephant_tell(elephant *e, uint64_t *length);

/* Copies the text that elephant_line, elephant_tell, elephant_checkpoint or a call of a journal made last, from `offset` on, at most
 * `room` bytes. *copied: how many, 0 at and past its end. You may copy it in pieces, with other calls between: the text stays until the
 * next call of these. */
int32_t elephant_answer(const elephant *e, uint64_t offset, void *into, size_t room, uint64_t *copied);

/* ---- The clock ---- */

/* Returns the store's moment. */
int32_t elephant_now(const elephant *e, uint64_t *moment);

/* Sets the clock to the moment. CLOCK_BACK; BAD_MOMENT. */
int32_t elephant_clock(elephant *e, uint64_t moment);

/* Moves the clock forward by so many seconds. CLOCK_END. */
int32_t elephant_tick(elephant *e, uint64_t seconds);

/* ---- Names ----
 * Each call may return a code for its path: NO_ENTRY, NOT_DIRECTORY, IS_ROOT; BAD_PATH, BAD_NAME. */

/* Makes a directory. *directory: its number. EXISTS, FULL. */
int32_t elephant_mkdir(elephant *e, const void *path, size_t len, uint64_t *directory);

/* Removes the name of an empty directory. NOT_EMPTY. */
int32_t elephant_rmdir(elephant *e, const void *path, size_t len);

/* Makes a file with an empty version 1. *file: its number. EXISTS, FULL. */
int32_t elephant_create(elephant *e, const void *path, size_t len, uint64_t *file);

/* Gives the file at `from` the path `to` as another name. EXISTS, IS_DIRECTORY, FULL. EXISTS and IS_ROOT are about `to`, IS_DIRECTORY
 * about `from`. `from` is looked up first: NO_ENTRY, NOT_DIRECTORY, BAD_PATH and BAD_NAME are about `from` if elephant_read_into of
 * `from` returns the same code, else about `to`. */
int32_t elephant_link(elephant *e, const void *from, size_t from_len, const void *to, size_t to_len);

/* Removes the name of a file; with the last name the current version ends. IS_DIRECTORY. */
int32_t elephant_unlink(elephant *e, const void *path, size_t len);

/* Moves the file or directory at `from` to `to`. EXISTS, INTO_ITSELF, FULL. EXISTS and INTO_ITSELF are about `to`, IS_ROOT about
 * `from` if that is "/", else about `to`, and the others as those of elephant_link. */
int32_t elephant_rename(elephant *e, const void *from, size_t from_len, const void *to, size_t to_len);

/* Restores a deleted name. A file without a live name gets a version: its number at *version, else 0. NOT_RESTORABLE, EXISTS,
 * DRAFTING, FULL. */
int32_t elephant_undelete(elephant *e, const void *path, size_t len, uint64_t *version);

/* ---- Writing ---- */

/* Opens a handle that writes the file. All writers of a file share one draft, which becomes a version when the last of them
 * closes, if it was changed. NO_ENTRY, NOT_DIRECTORY, IS_DIRECTORY, FULL; BAD_PATH, BAD_NAME. */
int32_t elephant_open_write(elephant *e, const void *path, size_t len, uint64_t *handle);

/* Writes bytes at the offset into the draft; zeros fill a gap before them. NO_HANDLE, NOT_WRITER, TOO_BIG. */
int32_t elephant_write(elephant *e, uint64_t handle, uint64_t offset, const void *bytes, size_t len);

/* Sets the length of the draft to so many bytes. NO_HANDLE, NOT_WRITER, TOO_BIG. */
int32_t elephant_truncate(elephant *e, uint64_t handle, uint64_t size);

/* Closes a handle, for writing or reading. *version: the number of the version that the close made, or 0. NO_HANDLE. */
int32_t elephant_close_handle(elephant *e, uint64_t handle, uint64_t *version);

/* Ends a handle for writing. If it was the last one that writes the file, the draft vanishes and makes no version.
 * NO_HANDLE, NOT_WRITER. */
int32_t elephant_abandon(elephant *e, uint64_t handle);

/* Makes the bytes the next version of the file, whole or not at all, without a handle and a draft. *version: its number. If the path
 * names nothing, it makes the file, with an empty version 1 before this one. NO_ENTRY, NOT_DIRECTORY, IS_ROOT, IS_DIRECTORY, TOO_BIG,
 * DRAFTING, FULL; BAD_PATH, BAD_NAME. */
int32_t elephant_save(elephant *e, const void *path, size_t len, const void *bytes, size_t bytes_len, uint64_t *version);

/* Makes a new version of the file with the content of the version of that number. *version: the new number.
 * NO_ENTRY, NOT_DIRECTORY, IS_DIRECTORY, NO_VERSION, FORGOTTEN, DRAFTING, FULL; BAD_PATH, BAD_NAME. */
int32_t elephant_revert(elephant *e, const void *path, size_t len, uint64_t number, uint64_t *version);

/* Makes what the path held at that moment the newest version of the file at the path. *version: its number. If the path named nothing
 * then, it is what the file that it names now held. If it names nothing now, the file of that version has the name again; if that
 * has another name, a new file gets the bytes. NO_ENTRY, NOT_DIRECTORY, IS_ROOT, IS_DIRECTORY, FUTURE, FORGOTTEN, DRAFTING, FULL;
 * BAD_PATH, BAD_NAME, BAD_MOMENT. */
int32_t elephant_restore(elephant *e, const void *path, size_t len, uint64_t moment, uint64_t *version);

/* ---- Reading ----
 * A path and a tag mean a version: the current one, the one at a past moment, or one by its number. Each call with a tag may return
 * NO_ENTRY, NOT_DIRECTORY, IS_DIRECTORY, FUTURE, NO_VERSION, FORGOTTEN; BAD_PATH, BAD_NAME, BAD_MOMENT, SYNTAX. */

enum elephant_tag {
    ELEPHANT_NOW = 0,      /* number is 0, or anything */
    ELEPHANT_AT = 1,       /* number is a moment, not after now: FUTURE, BAD_MOMENT */
    ELEPHANT_VERSION = 2   /* number is a version of the file that the path names now: NO_VERSION, FORGOTTEN */
};

/* Opens a handle that reads that version; while it is open, the version is not removed. FULL. */
int32_t elephant_open_read(elephant *e, const void *path, size_t len, uint32_t tag, uint64_t number, uint64_t *handle);

/* Keeps the bytes of that version. *length: how many. */
int32_t elephant_read(elephant *e, const void *path, size_t len, uint32_t tag, uint64_t number, uint64_t *length);

/* Keeps the bytes of the version that the handle reads, or of the draft that it writes. NO_HANDLE. */
int32_t elephant_read_handle(elephant *e, uint64_t handle, uint64_t *length);

/* Copies the kept bytes from `offset` on, at most `room` bytes. *copied: how many, 0 at and past their end. NO_RESULT. */
int32_t elephant_take(const elephant *e, uint64_t offset, void *into, size_t room, uint64_t *copied);

/* Copies the bytes of that version from `offset` on straight to `into`, at most `room` bytes. *copied: how many, 0 at and past the
 * end. *length: how many the version has. It only looks: the kept result stays, and a history gets no entry. It returns the codes of
 * elephant_read, but elephant_tell and elephant_detail still mean the call before. After FORGOTTEN call elephant_stat, which returns
 * the same code, for the detail. A read of 1 MiB takes about half as long as with elephant_read and elephant_take. */
int32_t elephant_read_into(const elephant *e, const void *path, size_t len, uint32_t tag, uint64_t number, uint64_t offset,
                           void *into, size_t room, uint64_t *length, uint64_t *copied);

/* Copies the bytes of the handle's version or draft in the same way. NO_HANDLE. It takes no memory. */
int32_t elephant_read_handle_into(const elephant *e, uint64_t handle, uint64_t offset, void *into, size_t room, uint64_t *length,
                                  uint64_t *copied);

/* A policy in numbers. */
enum elephant_policy_kind {
    ELEPHANT_KEEP_ONE = 0,
    ELEPHANT_KEEP_ALL = 1,
    ELEPHANT_KEEP_SAFE = 2,        /* seconds and floor */
    ELEPHANT_KEEP_LANDMARKS = 3    /* rungs, 1 to 8: elephant_rung */
};

typedef struct elephant_stat_row {
    uint64_t is_directory;   /* 0 or 1 */
    uint64_t id;             /* number of the file or directory */
    uint64_t version;        /* a directory has 0 in these five */
    uint64_t opened;         /* the moment at which its draft was opened, */
    uint64_t closed;         /* at which it became a version, */
    uint64_t ended;          /* and at which the next one superseded it, or ELEPHANT_NEVER */
    uint64_t length;
    uint64_t policy;         /* enum elephant_policy_kind: of the file, or of the directory's new files */
    uint64_t seconds;        /* of KEEP_SAFE, else 0 */
    uint64_t floor;          /* of KEEP_SAFE, else 0 */
    uint64_t rungs;          /* how many of KEEP_LANDMARKS, else 0 */
} elephant_stat_row;

/* Returns what the path and its tag mean, and keeps it for elephant_rung. A directory is IS_DIRECTORY only with the tag VERSION. */
int32_t elephant_stat(elephant *e, const void *path, size_t len, uint32_t tag, uint64_t number, elephant_stat_row *row);

/* Returns rung `index` of the ladder of the last elephant_stat: from that age on one version stays in each span of that width, both
 * in seconds. NO_RESULT, NO_ROW. */
int32_t elephant_rung(const elephant *e, uint64_t index, uint64_t *age, uint64_t *width);

/* ---- Lists ----
 * Each of these calls keeps a list. *rows: how many rows it has. elephant_row_.. copies a row by its index, from 0 on: NO_RESULT,
 * NO_ROW. */

/* Lists the held versions of a file, by number. Tags NOW and AT: the file that the path names, or named at that moment. NO_ENTRY,
 * NOT_DIRECTORY, IS_DIRECTORY, FUTURE; BAD_PATH, BAD_NAME, BAD_MOMENT, SYNTAX. */
int32_t elephant_versions(elephant *e, const void *path, size_t len, uint32_t tag, uint64_t number, uint64_t *rows);

typedef struct elephant_version_row {
    uint64_t number, opened, closed;
    uint64_t ended;          /* or ELEPHANT_NEVER */
    uint64_t length;
} elephant_version_row;

int32_t elephant_row_version(const elephant *e, uint64_t index, elephant_version_row *row);

/* Lists the names in a directory, in order. Tags NOW and AT. NO_ENTRY, NOT_DIRECTORY, FUTURE; BAD_PATH, BAD_NAME, BAD_MOMENT,
 * SYNTAX. */
int32_t elephant_list(elephant *e, const void *path, size_t len, uint32_t tag, uint64_t number, uint64_t *rows);

/* Lists the deleted names that elephant_undelete can restore, by directory and name. */
int32_t elephant_restorable(elephant *e, uint64_t *rows);

typedef struct elephant_name_row {
    uint64_t directory;      /* of elephant_restorable: the number of the name's directory; of elephant_list: 0 */
    uint64_t is_directory;   /* 0 or 1: whether the name means, or meant, a directory */
    uint64_t id;             /* the number of that file or directory */
    uint64_t name_length;    /* see elephant_row_bytes */
} elephant_name_row;

int32_t elephant_row_name(const elephant *e, uint64_t index, elephant_name_row *row);

/* Copies the name of a row of elephant_list, elephant_restorable or elephant_groups, without a zero byte at the end. *length: how
 * many bytes. A buffer of 64 bytes is always enough. NO_ROOM. */
int32_t elephant_row_bytes(const elephant *e, uint64_t index, void *into, size_t room, uint64_t *length);

/* Lists the versions that are due now, in order of removal. */
int32_t elephant_due(elephant *e, uint64_t *rows);

/* Lists the versions that will be due at that moment if only the clock moves. NOT_AHEAD, BAD_MOMENT. It is no event. */
int32_t elephant_ahead(elephant *e, uint64_t moment, uint64_t *rows);

typedef struct elephant_key {
    uint64_t since;          /* the moment from which it is due */
    uint64_t file, number;   /* file 0 (of elephant_clean): no version */
} elephant_key;

int32_t elephant_row_key(const elephant *e, uint64_t index, elephant_key *key);

/* Lists what the files of each kind of policy use: four rows, in the order of enum elephant_policy_kind. */
int32_t elephant_usage(elephant *e, uint64_t *rows);

typedef struct elephant_usage_row {
    uint64_t files, versions;
    uint64_t bytes;          /* the sum of the lengths of the versions */
    uint64_t blocks;         /* distinct blocks of at most 512 bytes, of versions and drafts */
} elephant_usage_row;

int32_t elephant_row_usage(const elephant *e, uint64_t index, elephant_usage_row *row);

/* ---- Policies ----
 * NO_ENTRY, NOT_DIRECTORY; BAD_PATH, BAD_NAME, BAD_LADDER, SYNTAX. */

/* Sets the file's policy, a word of the script language: "one", "all", "safe:604800", "safe:604800/3",
 * "landmarks:86400/3600,604800/86400". IS_DIRECTORY. */
int32_t elephant_policy(elephant *e, const void *path, size_t len, const void *policy, size_t policy_len);

/* Sets the policy that later files in the directory get. */
int32_t elephant_default(elephant *e, const void *path, size_t len, const void *policy, size_t policy_len);

/* ---- Groups and marks ----
 * BAD_NAME; NO_GROUP, but for elephant_group_make. */

int32_t elephant_group_make(elephant *e, const void *group, size_t group_len);   /* GROUP_EXISTS, FULL */
int32_t elephant_group_drop(elephant *e, const void *group, size_t group_len);   /* also removes its marks */

/* Adds a file to the group. NO_ENTRY, NOT_DIRECTORY, IS_DIRECTORY, ALREADY_MEMBER, FULL; BAD_PATH. */
int32_t elephant_group_add(elephant *e, const void *group, size_t group_len, const void *path, size_t len);

/* Removes a file from the group. NO_ENTRY, NOT_DIRECTORY, IS_DIRECTORY, NOT_MEMBER; BAD_PATH. */
int32_t elephant_group_remove(elephant *e, const void *group, size_t group_len, const void *path, size_t len);

/* Marks the group: no version that was current in its files at that past moment is removed before `until`, which may be
 * ELEPHANT_NEVER. NOT_PAST, NOT_AHEAD, MARK_EXISTS, FULL, BAD_MOMENT. */
int32_t elephant_mark(elephant *e, const void *group, size_t group_len, uint64_t moment, uint64_t until);
int32_t elephant_unmark(elephant *e, const void *group, size_t group_len, uint64_t moment);   /* NO_MARK; BAD_MOMENT */

/* Lists the groups, in order of making. */
int32_t elephant_groups(elephant *e, uint64_t *rows);

typedef struct elephant_group_row {
    uint64_t name_length;    /* see elephant_row_bytes */
    uint64_t members, marks; /* how many: elephant_row_member, elephant_row_mark */
} elephant_group_row;

typedef struct elephant_mark_row {
    uint64_t moment;
    uint64_t until;          /* or ELEPHANT_NEVER */
} elephant_mark_row;

int32_t elephant_row_group(const elephant *e, uint64_t index, elephant_group_row *row);

/* Return the number of a member's file, and a mark, of the group in that row. */
int32_t elephant_row_member(const elephant *e, uint64_t index, uint64_t member, uint64_t *file);
int32_t elephant_row_mark(const elephant *e, uint64_t index, uint64_t mark, elephant_mark_row *row);

/* ---- Forgetting ---- */

enum elephant_fate {
    ELEPHANT_IS_CURRENT = 0,   /* it has not ended */
    ELEPHANT_IS_OPEN = 1,      /* a handle reads it */
    ELEPHANT_IS_MARKED = 2,    /* moment and until are the mark's; elephant_why_group returns the group's name */
    ELEPHANT_IS_KEPT = 3,      /* its policy keeps it: until, and level */
    ELEPHANT_IS_DUE = 4        /* since moment, for cause; elephant_why_hold returns the mark that held it until then */
};

enum elephant_cause {
    ELEPHANT_AT_ONCE = 0,      /* Keep One keeps no version that has ended */
    ELEPHANT_BY_AGE = 1,       /* it ended so many seconds ago */
    ELEPHANT_DISPLACED = 2     /* at `level` of the ladder, version `by` closed in the same span */
};

typedef struct elephant_why_row {
    uint64_t fate;             /* enum elephant_fate */
    uint64_t moment;           /* of MARKED: the mark's; of DUE: since when; else 0 */
    uint64_t until;            /* of MARKED and KEPT, or ELEPHANT_NEVER */
    uint64_t level;            /* of KEPT (ELEPHANT_NEVER: it has none) and DISPLACED, else 0 */
    uint64_t cause;            /* of DUE: enum elephant_cause, else 0 */
    uint64_t seconds;          /* of BY_AGE, else 0 */
    uint64_t by;               /* of DISPLACED, else 0 */
} elephant_why_row;

/* Returns why the version is held, or due. It is no event. If a mark ended at the moment since which the version is due, the call copies
 * the whole store to see whether the mark held the version, and takes that much time and memory. NO_ENTRY, NOT_DIRECTORY, IS_DIRECTORY,
 * FUTURE, NO_VERSION, FORGOTTEN; BAD_PATH, BAD_NAME, BAD_MOMENT, SYNTAX. */
int32_t elephant_why(elephant *e, const void *path, size_t len, uint32_t tag, uint64_t number, elephant_why_row *row);

/* Returns the mark that held the version of the last elephant_why after its policy had let it go. Its `until` is the moment since which the
 * version is due. NO_RESULT: the fate wasn't DUE, or no mark held the version. */
int32_t elephant_why_hold(const elephant *e, elephant_mark_row *mark);

/* Copies the name of the group of the last elephant_why: that of the mark, if the fate was MARKED, or that of the mark of
 * elephant_why_hold. *length: how many bytes. NO_RESULT: there is no such mark; NO_ROOM. */
int32_t elephant_why_group(const elephant *e, void *into, size_t room, uint64_t *length);

/* Removes the first due version, and returns its key; removed->file is 0 if none was due. */
int32_t elephant_clean(elephant *e, elephant_key *removed);

/* Removes due versions until none is due, or as many as the budget says. *removed: how many. *finished: 1 if none is due any more,
 * 0 if the budget was used up. After NO_MEMORY and HISTORY_FULL the *removed versions stay removed, and *finished is 0. */
int32_t elephant_pass(elephant *e, uint64_t budget, uint64_t *removed, uint64_t *finished);

/* ---- The history ----
 * NO_HISTORY without one. */

/* Returns how many events are folded, and how many entries follow them. The line `history` also prints the entries. */
int32_t elephant_history(const elephant *e, uint64_t *folded, uint64_t *entries);

/* Puts the bytes into the history as an entry: who makes the next changes, say, and why. It changes nothing else, so a store without a
 * history forgets them. The file of a journal has them. TOO_BIG for more than 200 bytes. */
int32_t elephant_note(elephant *e, const void *bytes, size_t len);

/* Folds all entries into the base, and frees them. *folded: how many they were. */
int32_t elephant_trim(elephant *e, uint64_t *folded);

/* ---- Checkpoints ----
 * A checkpoint is a whole store as bytes: the moment, names, files, versions, groups, open handles and drafts, the counts and the
 * limits, but no history. Two stores have the same bytes only if they are the same in all of these. The bytes have a sum, so damage
 * is found. They are no secret and no signature: whoever can change them can make the sum too. */

/* Makes the checkpoint of the store the text that elephant_answer copies, of *length bytes. The store and the kept result stay. It
 * takes memory for a copy of the store and for the text; after NO_MEMORY the text is the one before. The store keeps the memory of its
 * longest text until it is closed. */
int32_t elephant_checkpoint(elephant *e, uint64_t *length);

/* Opens the store that these bytes are the checkpoint of. What was open in it is open again, by the same numbers. With `history` not 0
 * the store also keeps a history, which begins there, with one folded event. OPENED, BAD_CHECKPOINT, NO_MEMORY; HISTORY_FULL if the
 * limits in the checkpoint allow a history no event. */
int32_t elephant_open_checkpoint(elephant *e, const void *bytes, size_t len, uint32_t history);

/* ---- Renewal ---- */

/* Gives directories, files and versions fresh numbers, and counts only what is held, so that a store near its limits can go on. Each
 * path leads to the same at each moment, with the same contents, moments, policies and marks. Close all handles first. A history
 * begins anew there, with one folded event, and keeps nothing of what was before. The kept result is dropped, since it has the old
 * numbers. HAS_JOURNAL, HANDLES_OPEN; HISTORY_FULL if the limits allow a history no event. A store with a journal is renewed in a second
 * handle: elephant_checkpoint of the first, elephant_open_checkpoint, elephant_renew and elephant_journal_begin of the second. */
int32_t elephant_renew(elephant *e);

/* Return the number that a directory, a file, or a version of the file of that number will have after elephant_renew: ask before it.
 * NO_RESULT: there is no such one, as of a removed version. The kept result stays. Each call copies the whole store to look, and
 * takes that much time and memory. */
int32_t elephant_directory_across(const elephant *e, uint64_t directory, uint64_t *fresh);
int32_t elephant_file_across(const elephant *e, uint64_t file, uint64_t *fresh);
int32_t elephant_version_across(const elephant *e, uint64_t file, uint64_t version, uint64_t *fresh);

/* ---- Journals ----
 * A journal keeps a store in a file: a checkpoint, and the changes since, which you append. These calls say which bytes the file gets,
 * and you write them; the library opens no file. elephant_answer copies the bytes.
 *
 * A change is all that was done between two calls of elephant_journal_pending whose bytes you wrote. After a crash the file has all of
 * it or none. Questions, refused calls and cleans that find nothing due add nothing. With a journal every call but a question takes
 * memory, so elephant_tick and the like can stop too, and elephant_pass keeps what it removed before it stopped. */

/* Begins a journal. The text is the bytes of its file, a new one of *length bytes. The kept result stays. HAS_JOURNAL. */
int32_t elephant_journal_begin(elephant *e, uint64_t *length);

/* Opens the store that the bytes of a file keep, with its journal. The first *whole bytes keep it: cut the file there before you append.
 * *rest: 0 if nothing follows them, 1 if the front of a change does, as after a crash, and 2 if damaged bytes do. With `history` not 0
 * a history begins at the checkpoint, with one folded event, and what the changes did are its entries. OPENED; BAD_JOURNAL if the
 * checkpoint is cut off or damaged, or the bytes are no journal; NO_MEMORY; HISTORY_FULL if the limits allow a history fewer events. */
int32_t elephant_journal_open(elephant *e, const void *bytes, size_t len, uint32_t history, uint64_t *whole, uint32_t *rest);

/* Makes the text the *length bytes that the change under way adds at the end of the file; none if nothing is under way. Once they are on
 * the disk, call elephant_journal_written. If they don't get there, cut the file to its old length and ask again, or write a new file:
 * only the bytes that were given last count. What is done in between isn't in them, and stays under way. NO_JOURNAL. */
int32_t elephant_journal_pending(elephant *e, uint64_t *length);

/* Says that the bytes of the last elephant_journal_pending or elephant_journal_compact are on the disk. It takes no memory. NO_JOURNAL;
 * NO_RESULT if no bytes were given since the last call, also if elephant_journal_pending gave none. */
int32_t elephant_journal_written(elephant *e);

/* Makes the text the *length bytes of a new file: a checkpoint of the store as it is, also of what is under way. Once they are on the
 * disk in the place of the old file, call elephant_journal_written. Until then the old file counts. NO_JOURNAL. */
int32_t elephant_journal_compact(elephant *e, uint64_t *length);

#ifdef __cplusplus
}
#endif
#endif
