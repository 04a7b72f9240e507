/* elephant_file.h: a store of elephant.h that is kept in a file. One page: every call, and what the caller must ensure.
 *
 *     elephant_file *f;
 *     elephant_file_fault fault;
 *     uint64_t version;
 *     if (elephant_file_open("notes.journal", NULL, &f, &fault)) return 1;           // makes the file, or reads it
 *     elephant_save(elephant_file_store(f), "/notes", 6, "milk", 4, &version);
 *     if (elephant_file_commit(f)) return 1;                                         // now the save is on the disk
 *     elephant_file_close(f);
 *
 * It comes as source: compile elephant_file.c with your program, and leave the two headers that it includes beside it. It runs on Linux, has no globals, starts no thread and handles no signal.
 *
 * THE FILE is a journal: a checkpoint, and the changes since. A change is what you did with the store between two commits. The file has
 * each change wholly or not at all, whatever happens. It is made with mode 600, since only its owner should read what is in it.
 *
 * SPACE AHEAD. While the file is open it is longer than its changes: the rest has the 16 bytes "not written yet ", again and again, so that
 * each place has the byte at its offset modulo 16. So a commit overwrites space that is on the disk already, and its sync writes nothing
 * else. elephant_file_close cuts that space off; if the program was killed, the next opening does. Where the disk has no space to take
 * ahead, a commit makes the file longer.
 *
 * WHAT AN OPENING FINDS after the last whole change, and does:
 *   - nothing, or space that nothing was written to: cuts it off;
 *   - a change that ends where the file ends, that lacks a block of 512 bytes, which still has that text, or that has only that text from
 *     some place on: its commit never returned, as after a kill or a power failure. Cuts it off, and info.cut says of how many bytes;
 *   - anything else: ELEPHANT_FILE_DAMAGED, and the file stays as it is. See options.repair. A file system that doesn't write data before
 *     a file's length, as ext4 with data=writeback, may leave zeros after a power failure where the file was made longer, which look so.
 *
 * CODES. Each call that returns int32_t returns ELEPHANT_OK, a code of elephant.h, or one of enum elephant_file_code. A call that the store
 * stops returns NO_MEMORY, and you can make it again.
 *
 * THE CALLER ENSURES:
 *   - One call at a time on an elephant_file and on its store. Two of them share nothing, and two in one process may not have one file.
 *   - After a fork only one of both processes goes on with it, and the other neither uses nor closes it.
 *   - The program ignores SIGXFSZ if the length of its files is limited.
 *   - What the head of elephant.h says. `out`, `fault`, `info` and a path are never NULL.
 */
#ifndef ELEPHANT_FILE_H
#define ELEPHANT_FILE_H

/* SPDX-License-Identifier: NONE */

#include <elephant.h>

#ifdef __cplusplus
extern "C" {
#endif

typedef struct elephant_file elephant_file;

enum elephant_file_code {
    ELEPHANT_FILE_LOCKED = 128,    /* another opener has the file */
    ELEPHANT_FILE_SYSTEM = 129,    /* the system refused a call: see the fault. A full disk is ENOSPC */
    ELEPHANT_FILE_DAMAGED = 130,   /* a change is damaged: the fault has the place at which it begins */
    ELEPHANT_FILE_LOST = 131,      /* the path names another file or none, or another program changed the file's length */
    ELEPHANT_FILE_READ_ONLY = 132, /* it was opened to look only */
    ELEPHANT_FILE_STUCK = 133      /* a sync failed, so the file takes no more changes: compact it, or open it anew */
};

/* Returns the name and the meaning of a code, also of one of elephant.h. The text is never freed. */
const char *elephant_file_code_text(int32_t code);

/* What lies behind the last code that wasn't ELEPHANT_OK. */
typedef struct elephant_file_fault {
    int32_t system;        /* of SYSTEM: the number of the error, as in <errno.h>; else 0 */
    const char *call;      /* of SYSTEM: the name of the call, as "fdatasync"; else "" */
    uint64_t place;        /* of DAMAGED: how many bytes before it are whole; else 0 */
} elephant_file_fault;

/* When a commit waits for the disk. */
enum elephant_file_sync {
    ELEPHANT_FILE_SYNC_EACH = 0,  /* each commit: what it returned for is there also after a power failure */
    ELEPHANT_FILE_SYNC_ASKED = 1  /* only elephant_file_sync: a kill loses nothing, a power failure what followed the last of these */
};

/* How a file is opened. Zeros are the safe choice, and NULL means zeros. */
typedef struct elephant_file_options {
    uint32_t read_only;            /* 1: look only. Takes no lock, and changes no file; another program may be writing it */
    uint32_t history;              /* 1: the store has a history, as in elephant_open. It begins with the checkpoint in the file */
    uint32_t sync;                 /* enum elephant_file_sync */
    uint32_t repair;               /* 1: copies a damaged end to PATH.damaged-1, or the next free number, and cuts it off */
    uint32_t no_compaction;        /* 1: no compaction by itself */
    uint32_t no_renewal;           /* 1: no renewal by itself */
    uint32_t wait;                 /* how many milliseconds to wait for another opener */
    const elephant_limits *limits; /* of a new store; NULL: the largest. The file has those of the store that it keeps */
} elephant_file_options;

/* Opens the store that a file keeps. If the file doesn't exist, or is empty, makes it with a fresh store. Handles that were open at the
 * last commit are open again. *out: NULL if the code isn't ELEPHANT_OK; *fault has the cause. LOCKED, SYSTEM, DAMAGED; BAD_JOURNAL if the
 * file is none, or its checkpoint is damaged; BAD_LIMITS, NO_MEMORY. */
int32_t elephant_file_open(const char *path, const elephant_file_options *options, elephant_file **out, elephant_file_fault *fault);

/* Closes the file and the store, and frees both. What wasn't committed is lost; with SYNC_ASKED call elephant_file_sync before. */
void elephant_file_close(elephant_file *f);

/* Returns the store. A renewal and elephant_file_rollback replace it by another handle, so ask again after each call of this header. Change
 * it by any call of elephant.h but those that close, open or renew it, and leave its elephant_journal_.. calls to this library. */
elephant *elephant_file_store(elephant_file *f);

/* Appends what was done since the last commit, as one change, and waits for the disk if the option says so. The text of elephant_answer is
 * replaced. If it fails, the file is as before and the store has what was done: commit again when there is space, or roll back.
 * READ_ONLY, STUCK, LOST, SYSTEM, NO_MEMORY. */
int32_t elephant_file_commit(elephant_file *f);

/* Makes the store what it was at the last commit, by reading the file. Every handle number stays what it was then. If it fails, nothing
 * changes. SYSTEM, DAMAGED, NO_MEMORY. */
int32_t elephant_file_rollback(elephant_file *f);

/* Waits until all commits are on the disk. STUCK, SYSTEM. After a failure it isn't tried again, as the system may have dropped what it
 * couldn't write: call elephant_file_compact, which writes everything anew. */
int32_t elephant_file_sync(elephant_file *f);

/* Writes the store as it is now into PATH.elephant-new, of the same mode and owner, syncs it, and renames it over the file. It commits too.
 * If it fails, the file is as before; only if the very last step fails, the sync of the folder, the new one is there and STUCK. What a
 * kill leaves of the new file the next opening removes. It takes as long as to write all that is held.
 * A commit and an opening do this by themselves when the file has more than 1 MiB and twice the bytes that it had when it was made. If
 * that fails, info.tidied has the code, and the commit or the opening has succeeded all the same. READ_ONLY, LOST, SYSTEM, NO_MEMORY. */
int32_t elephant_file_compact(elephant_file *f);

/* Does the same with fresh numbers, as elephant_renew gives them, so that a store near its limits can go on. A history begins anew.
 * A commit and an opening do this by themselves when a count has reached nine tenths of its limit, and less than half of that limit is
 * held. Then info.renewals is higher than before: numbers that you keep are wrong, and elephant_file_store returns another handle.
 * HANDLES_OPEN, READ_ONLY, LOST, SYSTEM, NO_MEMORY. */
int32_t elephant_file_renew(elephant_file *f);

/* Does what a commit does by itself, if that is worth it: renews and compacts. Call it when your program has time, and open the file with
 * no_compaction and no_renewal: then no commit takes longer for them. What isn't worth it takes no time. It returns what info.tidied
 * has then. READ_ONLY, STUCK, and those of the two calls above. */
int32_t elephant_file_tidy(elephant_file *f);

/* What is known of an open file. */
typedef struct elephant_file_info {
    uint64_t length;       /* how many bytes of the file count */
    uint64_t start;        /* how many of them it was made with */
    uint64_t cut;          /* how many bytes of an unfinished change the opening left out */
    uint64_t copy;         /* the number N of PATH.damaged-N, which the opening made; 0: none */
    uint64_t compactions;  /* since the opening, without renewals */
    uint64_t renewals;     /* since the opening */
    int32_t tidied;        /* what the last compaction or renewal by itself returned; ELEPHANT_OK before the first */
    uint32_t is_new;       /* 1: the opening made the file */
} elephant_file_info;

void elephant_file_look(const elephant_file *f, elephant_file_info *info);

/* Returns the cause of the last code of a call on this file, or of info.tidied if the commit that set it succeeded. */
void elephant_file_last_fault(const elephant_file *f, elephant_file_fault *fault);

#ifdef __cplusplus
}
#endif
#endif
