/* A store in a file: include/elephant_file.h says what each call does. What bytes mean is decided in the library, which is proved; here
 * they are only carried to the disk and back. Two headers beside this file have the calls of the system and the text of the space ahead. */
#ifndef _DEFAULT_SOURCE
#define _DEFAULT_SOURCE
#endif

#include <elephant_file.h>

#include "elephant_file_ahead.h"
#include "elephant_file_calls.h"

#include <errno.h>
#include <fcntl.h>
#include <limits.h>
#include <stdbool.h>
#include <stdio.h>
#include <stdlib.h>
#include <string.h>
#include <sys/file.h>
#include <sys/stat.h>
#include <time.h>
#include <unistd.h>

/* In bytes: what a file system gives at once, the space ahead, and a piece that is copied. */
enum { PAGE = 4096, LEAST_AHEAD = 1 << 16, MOST_AHEAD = 1 << 20, PIECE = 1 << 16 };
/* The length from which on a file is compacted by itself. */
enum { LONG = 1 << 20 };
/* Where a journal has the length of its checkpoint, in eight bytes, the highest first, and where the checkpoint begins. */
enum { LENGTH_AT = 17, CHECKPOINT_AT = 25 };
/* The last bytes of a checkpoint: its length and its sum. Before them it has the limits. */
enum { AFTER_LIMITS = 12 };
/* What elephant_journal_open says of the bytes after the last whole change. */
enum { NOTHING_FOLLOWS, CUT_CHANGE, DAMAGE };
/* A reader may meet a commit that is under way, and looks again. */
enum { TRIES = 4, PAUSE_MS = 10 };
/* In tenths of a limit: the count from which on a renewal is worth a try, and the part that the renewed store must be below. */
enum { NEARLY_ALL = 9, HALF = 5, ALL = 10 };
/* The counts that have a limit, in the order of a checkpoint. Events aren't among them: a renewal would drop the history. */
enum { COUNTS = 8 };

/* TORN: a failed append may have left bytes, which are cut off before the next one. */
enum condition { SOUND, TORN, STUCK };

struct elephant_file {
    elephant *store;
    elephant_file_options options;
    uint64_t limits[COUNTS];   /* of the store in the file */
    elephant_file_info info;
    elephant_file_fault fault;
    char *path;                /* absolute, without links */
    char *spare;               /* of the file that takes its place */
    int file;
    struct stat identity;
    uint64_t size;             /* of the file, with the space ahead */
    enum condition condition;
    bool has_unsynced;
    uint64_t placed;           /* how many files took this one's place */
    uint64_t compact_from;     /* the length from which on a compaction by itself is tried again */
    uint64_t renew_from[COUNTS];  /* the counts from which on a renewal by itself is tried */
    uint64_t waited, wait;     /* in commits: since a try that renewed nothing, and until the next one; 0: there was none */
    unsigned char piece[PIECE];
};

/* ---- Faults ---- */

const char *elephant_file_code_text(int32_t code) {
    switch (code) {
    case ELEPHANT_FILE_LOCKED: return "Locked: another opener has the file";
    case ELEPHANT_FILE_SYSTEM: return "System: the system refused a call";
    case ELEPHANT_FILE_DAMAGED: return "Damaged: a change in the file is damaged";
    case ELEPHANT_FILE_LOST: return "Lost: the path names another file or none, or another program changed the file's length";
    case ELEPHANT_FILE_READ_ONLY: return "ReadOnly: the file was opened to look only";
    case ELEPHANT_FILE_STUCK: return "Stuck: a sync failed, so the file takes no more changes until it is compacted or opened anew";
    default: return elephant_code_text(code);
    }
}

static void clear_fault(elephant_file *f) {
    f->fault = (elephant_file_fault){0, "", 0};
}

static int32_t system_fault(elephant_file *f, const char *call) {
    f->fault = (elephant_file_fault){errno, call, 0};
    return ELEPHANT_FILE_SYSTEM;
}

static int32_t damage_at(elephant_file *f, uint64_t place) {
    f->fault = (elephant_file_fault){0, "", place};
    return ELEPHANT_FILE_DAMAGED;
}

/* ---- Steps of the system ---- */

/* Frees the lock at once. To close the file doesn't, while a child of another thread that is about to run a program has it too. */
static void let_go(int file) {
    flock(file, LOCK_UN);
    close(file);
}

static void pause_for(uint32_t milliseconds) {
    struct timespec rest = {milliseconds / 1000, (long)(milliseconds % 1000) * 1000000};
    nanosleep(&rest, NULL);
}

static int32_t sync_folder(elephant_file *f) {
    char *end = strrchr(f->path, '/');
    int folder, failed;
    *end = 0;
    folder = open_file(*f->path ? f->path : "/", O_RDONLY | O_DIRECTORY);
    *end = '/';
    if (folder < 0) return system_fault(f, "open");
    failed = sync_all(folder) ? system_fault(f, "fsync") : 0;
    close(folder);
    return failed;
}

/* Once a sync has failed, the system may have dropped what it couldn't write, and a second one would succeed. */
static int32_t sync_file(elephant_file *f) {
    if (sync_data(f->file)) {
        f->condition = STUCK;
        return system_fault(f, "fdatasync");
    }
    f->has_unsynced = false;
    return ELEPHANT_OK;
}

/* Whether the path still names this file, and nobody else changed its length. */
static int32_t want_ours(elephant_file *f) {
    struct stat named;
    if (stat(f->path, &named)) return errno == ENOENT || errno == ENOTDIR ? ELEPHANT_FILE_LOST : system_fault(f, "stat");
    if (named.st_ino != f->identity.st_ino || named.st_dev != f->identity.st_dev) return ELEPHANT_FILE_LOST;
    return f->condition == SOUND && (uint64_t)named.st_size != f->size ? ELEPHANT_FILE_LOST : ELEPHANT_OK;
}

/* ---- The space ahead ---- */

static int fill(elephant_file *f, uint64_t from, uint64_t end) {
    while (from < end) {
        uint64_t length = end - from < PIECE ? end - from : PIECE;
        for (uint64_t at = 0; at < length; at++) f->piece[at] = filling_at(from + at);
        if (write_all(f->file, f->piece, length, from)) return -1;
        from += length;
    }
    return 0;
}

static int cut(elephant_file *f, uint64_t length) {
    int failed;
    do failed = ftruncate(f->file, (off_t)length);
    while (failed && errno == EINTR);
    if (!failed) f->size = length;
    return failed;
}

/* Makes the file end where its changes do. It must be on the disk before anything is written there: else a crash could leave both. */
static int32_t cut_off(elephant_file *f) {
    if (cut(f, f->info.length)) {
        f->condition = TORN;
        return system_fault(f, "ftruncate");
    }
    f->condition = SOUND;
    return sync_file(f);
}

/* Takes space for so many bytes, and more. If the disk has none to take ahead, the append makes the file longer. */
static int32_t take_ahead(elephant_file *f, uint64_t length) {
    uint64_t end = f->info.length + length, ahead = end / 4, had = f->size;
    if (end <= f->size) return ELEPHANT_OK;
    if (ahead < LEAST_AHEAD) ahead = LEAST_AHEAD;
    if (ahead > MOST_AHEAD) ahead = MOST_AHEAD;
    end += ahead + PAGE - 1;
    end -= end % PAGE;
    if (!fill(f, had, end)) {
        f->size = end;
        return sync_file(f);
    }
    if (!cut(f, had)) return ELEPHANT_OK;
    f->condition = TORN;
    return system_fault(f, "ftruncate");
}

/* ---- Reading ---- */

/* Reads the first bytes of the file, at most so many. */
static int32_t load(elephant_file *f, uint64_t most, unsigned char **bytes, uint64_t *length) {
    int64_t had;
    struct stat found;
    if (fstat(f->file, &found)) return system_fault(f, "fstat");
    *length = (uint64_t)found.st_size < most ? (uint64_t)found.st_size : most;
    *bytes = malloc(*length + 1);
    if (!*bytes) return ELEPHANT_NO_MEMORY;
    had = read_all(f->file, *bytes, *length);
    if (had < 0) {
        free(*bytes);
        return system_fault(f, "pread");
    }
    *length = (uint64_t)had;
    return ELEPHANT_OK;
}

static uint64_t start_of(const unsigned char *bytes) {
    uint64_t length = 0;
    for (int at = LENGTH_AT; at < CHECKPOINT_AT; at++) length = length << 8 | bytes[at];
    return CHECKPOINT_AT + length;
}

/* Returns where the number of a checkpoint begins that ends there. A number has seven bits in each byte, the lowest first, and 128 is added
 * to all bytes but the last one. */
static uint64_t number_before(const unsigned char *bytes, uint64_t end, uint64_t *number) {
    uint64_t at = end - 1;
    *number = bytes[at];
    while (bytes[at - 1] >= 128) *number = *number << 7 | (bytes[--at] & 127);
    return at;
}

/* Takes the limits of the store from the checkpoint that a file begins with, which the library has read. */
static void take_limits(elephant_file *f, const unsigned char *bytes) {
    uint64_t end = start_of(bytes) - AFTER_LIMITS;
    for (int at = COUNTS; at--;) end = number_before(bytes, end, &f->limits[at]);
}

/* Opens the store of these bytes. *rest: what follows the whole changes. Damage is a cut change if the library, asked for the bytes
 * before the first gap, finds that they end within the change. */
static int32_t open_store(const elephant_file *f, elephant *store, const unsigned char *bytes, uint64_t length, uint64_t *whole,
                          uint32_t *rest) {
    uint64_t gap;
    int32_t code = elephant_journal_open(store, bytes, length, f->options.history, whole, rest);
    if (code || *rest != DAMAGE) return code;
    if (bytes[*whole] == filling_at(*whole) && written_end(bytes, *whole, length) == *whole) {
        *rest = NOTHING_FOLLOWS;
        return ELEPHANT_OK;
    }
    gap = first_gap(bytes, *whole, length);
    if (gap == *whole) *rest = CUT_CHANGE;
    if (gap == *whole || gap == length) return ELEPHANT_OK;
    elephant_close(store);
    return elephant_journal_open(store, bytes, gap, f->options.history, whole, rest);
}

/* Makes PATH.damaged-N for the smallest free N. Returns its file, or -1. */
static int make_copy(elephant_file *f, char *name, size_t room) {
    int file = -1;
    for (f->info.copy = 1; file < 0; f->info.copy += file < 0) {
        snprintf(name, room, "%s.damaged-%llu", f->path, (unsigned long long)f->info.copy);
        file = open_file(name, O_WRONLY | O_CREAT | O_EXCL);
        if (file < 0 && errno != EEXIST) break;
    }
    return file;
}

/* Copies what is damaged into a file beside this one. */
static int32_t copy_damaged(elephant_file *f, const unsigned char *bytes, uint64_t length) {
    char name[PATH_MAX + 32];
    int32_t code = ELEPHANT_OK;
    int file = make_copy(f, name, sizeof name);
    if (file < 0) code = system_fault(f, "open");
    else if (write_all(file, bytes, length, 0)) code = system_fault(f, "pwrite");
    else if (sync_all(file)) code = system_fault(f, "fsync");
    else code = sync_folder(f);
    if (file >= 0) close(file);
    if (file >= 0 && code) unlink(name);
    if (code) f->info.copy = 0;
    return code;
}

/* Takes the store from the bytes of the file, and ends the file after its last whole change. */
static int32_t take_in(elephant_file *f, const unsigned char *bytes, uint64_t length) {
    uint64_t whole;
    uint32_t rest;
    int32_t code = open_store(f, f->store, bytes, length, &whole, &rest);
    if (code) return code;
    f->size = length;
    f->info.length = whole;
    f->info.start = start_of(bytes);
    take_limits(f, bytes);
    f->info.cut = written_end(bytes, whole, length) - whole;
    if (rest == DAMAGE) {
        if (!f->options.repair) return damage_at(f, whole);
        if (!f->options.read_only) code = copy_damaged(f, bytes + whole, length - whole);
    }
    return code || f->options.read_only || length == whole ? code : cut_off(f);
}

static int32_t read_once(elephant_file *f) {
    unsigned char *bytes;
    uint64_t length;
    int32_t code = load(f, UINT64_MAX, &bytes, &length);
    if (code) return code;
    code = take_in(f, bytes, length);
    free(bytes);
    return code;
}

/* What the store reads must not vanish in a power failure, neither its last changes nor the rename that put the file in its place: the last
 * owner may have been killed before it synced them. */
static int32_t make_durable(elephant_file *f) {
    return sync_data(f->file) ? system_fault(f, "fdatasync") : sync_folder(f);
}

static int32_t read_in(elephant_file *f) {
    int32_t code = ELEPHANT_OK;
    if (!f->options.read_only) {
        code = make_durable(f);
        return code ? code : read_once(f);
    }
    for (int tries = 0; tries < TRIES; tries++) {
        if (tries) pause_for(PAUSE_MS);
        elephant_close(f->store);
        code = read_once(f);
        if (code != ELEPHANT_FILE_DAMAGED) break;
    }
    return code;
}

/* ---- Writing ---- */

/* Writes the text of a store, which its last call made. */
static int32_t write_text(elephant_file *f, int file, const elephant *store, uint64_t place, uint64_t length) {
    uint64_t copied = 0;
    for (uint64_t at = 0; at < length; at += copied) {
        int32_t code = elephant_answer(store, at, f->piece, PIECE, &copied);
        if (code) return code;
        if (write_all(file, f->piece, copied, place + at)) return system_fault(f, "pwrite");
    }
    return ELEPHANT_OK;
}

/* Cuts off what a failed append left. What was wrong first is what is reported. */
static void take_back(elephant_file *f) {
    const elephant_file_fault first = f->fault;
    const bool is_stuck = f->condition == STUCK;
    f->condition = TORN;
    if (is_stuck) cut(f, f->info.length);
    else cut_off(f);
    if (is_stuck) f->condition = STUCK;
    f->fault = first;
}

/* Writes the change that is the store's text after the others. */
static int32_t append(elephant_file *f, uint64_t length) {
    const uint64_t end = f->info.length + length;
    int32_t code = write_text(f, f->file, f->store, f->info.length, length);
    f->has_unsynced = true;
    if (!code && f->options.sync == ELEPHANT_FILE_SYNC_EACH) code = sync_file(f);
    if (code) {
        take_back(f);
        return code;
    }
    f->info.length = end;
    if (f->size < end) f->size = end;
    return elephant_journal_written(f->store);
}

static int32_t want_changeable(elephant_file *f) {
    clear_fault(f);
    if (f->options.read_only) return ELEPHANT_FILE_READ_ONLY;
    return f->condition == STUCK ? ELEPHANT_FILE_STUCK : ELEPHANT_OK;
}

static void tidy_by_itself(elephant_file *f);

int32_t elephant_file_commit(elephant_file *f) {
    uint64_t length = 0;
    int32_t code = want_changeable(f);
    if (!code) code = elephant_journal_pending(f->store, &length);
    if (code || !length) return code;
    code = want_ours(f);
    if (!code && f->condition == TORN) code = cut_off(f);
    if (!code) code = take_ahead(f, length);
    if (!code) code = append(f, length);
    if (!code) tidy_by_itself(f);
    return code;
}

int32_t elephant_file_sync(elephant_file *f) {
    clear_fault(f);
    if (f->options.read_only) return ELEPHANT_OK;
    if (f->condition == STUCK) return ELEPHANT_FILE_STUCK;
    return f->has_unsynced ? sync_file(f) : ELEPHANT_OK;
}

/* ---- A file in place of this one ---- */

static int32_t lock(elephant_file *f, int file) {
    for (uint32_t waited = 0;; waited += PAUSE_MS) {
        int failed;
        do failed = flock(file, LOCK_EX | LOCK_NB);
        while (failed && errno == EINTR);
        if (!failed) return ELEPHANT_OK;
        if (errno != EWOULDBLOCK) return system_fault(f, "flock");
        if (waited >= f->options.wait) return ELEPHANT_FILE_LOCKED;
        pause_for(PAUSE_MS);
    }
}

/* Gives a file the mode and the owner of this one, and a lock, so that no other opener gets in between. */
static int32_t dress(elephant_file *f, int file, struct stat *has) {
    struct stat had;
    if (fstat(f->file, &had) || fstat(file, has)) return system_fault(f, "fstat");
    if ((had.st_uid != has->st_uid || had.st_gid != has->st_gid) && fchown(file, had.st_uid, had.st_gid)) return system_fault(f, "fchown");
    if (fchmod(file, had.st_mode & 07777)) return system_fault(f, "fchmod");
    return lock(f, file);
}

static void put_in_place(elephant_file *f, int file, const struct stat *identity, uint64_t length) {
    let_go(f->file);
    f->file = file;
    f->identity = *identity;
    f->size = f->info.length = f->info.start = length;
    f->condition = SOUND;
    f->has_unsynced = false;
    f->placed++;
}

/* Makes the new file. Its maker has this one's lock, so a file of that name is what a killed process left. */
static int32_t make_spare(elephant_file *f, int *file) {
    if (unlink(f->spare) && errno != ENOENT) return system_fault(f, "unlink");
    *file = open_file(f->spare, O_RDWR | O_CREAT | O_EXCL);
    return *file < 0 ? system_fault(f, "open") : ELEPHANT_OK;
}

/* Writes the text of a store into a new file, and puts it in place of this one. */
static int32_t replace(elephant_file *f, const elephant *store, uint64_t length) {
    int file;
    struct stat identity;
    int32_t code = make_spare(f, &file);
    if (code) return code;
    code = dress(f, file, &identity);
    if (!code) code = write_text(f, file, store, 0, length);
    if (!code && sync_all(file)) code = system_fault(f, "fsync");
    if (!code) code = want_ours(f);
    if (!code && rename(f->spare, f->path)) code = system_fault(f, "rename");
    if (code) {
        close(file);
        unlink(f->spare);
        return code;
    }
    put_in_place(f, file, &identity, length);
    code = sync_folder(f);
    if (code) f->condition = STUCK;
    return code;
}

static int32_t compact(elephant_file *f) {
    const uint64_t placed = f->placed;
    uint64_t length;
    int32_t written, code = elephant_journal_compact(f->store, &length);
    if (code) return code;
    code = replace(f, f->store, length);
    if (f->placed == placed) return code;
    f->info.compactions++;
    written = elephant_journal_written(f->store);
    return code ? code : written;
}

int32_t elephant_file_compact(elephant_file *f) {
    clear_fault(f);
    return f->options.read_only ? ELEPHANT_FILE_READ_ONLY : compact(f);
}

/* ---- Renewal ---- */

static void counted(const elephant *store, uint64_t counts[COUNTS]) {
    elephant_counts_row row = {0};
    elephant_counts(store, &row);
    const uint64_t found[COUNTS] = {row.files, row.directories, row.names, row.versions, row.handles, row.groups, row.members, row.marks};
    memcpy(counts, found, sizeof found);
}

/* The count from which on so many may soon be all that may be made. */
static uint64_t nearly_all(uint64_t limit) {
    return limit ? (limit * NEARLY_ALL + ALL - 1) / ALL : UINT64_MAX;
}

/* Whether each count that is nearly at its limit is below half of it in the renewed store. */
static bool is_worth(const elephant_file *f, const elephant *renewed) {
    uint64_t had[COUNTS], has[COUNTS];
    counted(f->store, had);
    counted(renewed, has);
    for (int at = 0; at < COUNTS; at++) {
        if (had[at] >= nearly_all(f->limits[at]) && has[at] * ALL >= f->limits[at] * HALF) return false;
    }
    return true;
}

/* Whether a renewal is to be tried now. It copies the whole store. So if it isn't worth it, or is refused, it is tried again when half of
 * what could still be made is used up, and after one commit, two, four and so on. */
static bool wants_renewal(elephant_file *f) {
    uint64_t had[COUNTS];
    bool is_near = false;
    counted(f->store, had);
    for (int at = 0; at < COUNTS; at++) {
        if (had[at] >= f->renew_from[at]) return true;
        is_near |= had[at] >= nearly_all(f->limits[at]);
    }
    return is_near && f->wait && ++f->waited >= f->wait;
}

/* A renewal is tried as soon as a count is nearly at its limit. */
static void expect_renewal(elephant_file *f) {
    for (int at = 0; at < COUNTS; at++) f->renew_from[at] = nearly_all(f->limits[at]);
    f->waited = f->wait = 0;
}

static void put_off_renewal(elephant_file *f) {
    uint64_t had[COUNTS];
    counted(f->store, had);
    for (int at = 0; at < COUNTS; at++) {
        const uint64_t most = f->limits[at];
        if (had[at] >= f->renew_from[at]) f->renew_from[at] = had[at] < most ? most - (most - had[at]) / 2 : UINT64_MAX;
    }
    f->waited = 0;
    f->wait = f->wait ? 2 * f->wait : 1;
}

/* Opens a second handle with the store, its numbers renewed, and begins its journal, whose bytes are its text. */
static int32_t open_renewed(const elephant_file *f, elephant *renewed, uint64_t *length) {
    uint64_t size, copied;
    unsigned char *bytes;
    int32_t code = elephant_checkpoint(f->store, &size);
    if (code) return code;
    bytes = malloc(size + 1);
    if (!bytes) return ELEPHANT_NO_MEMORY;
    code = elephant_answer(f->store, 0, bytes, size, &copied);
    if (!code) code = elephant_open_checkpoint(renewed, bytes, size, f->options.history);
    free(bytes);
    if (!code) code = elephant_renew(renewed);
    if (!code) code = elephant_journal_begin(renewed, length);
    return code;
}

/* Puts the renewed store in place of this one; if it says so, only if that is worth it. */
static int32_t renew(elephant_file *f, bool if_worth) {
    const uint64_t placed = f->placed;
    uint64_t length;
    elephant *renewed;
    int32_t code;
    elephant_new(&renewed);
    if (!renewed) return ELEPHANT_NO_MEMORY;
    code = open_renewed(f, renewed, &length);
    if (!code && (!if_worth || is_worth(f, renewed))) code = replace(f, renewed, length);
    if (f->placed == placed) {
        elephant_delete(renewed);
        if (if_worth) put_off_renewal(f);
        return code;
    }
    elephant_delete(f->store);
    f->store = renewed;
    f->info.renewals++;
    expect_renewal(f);
    return code;
}

int32_t elephant_file_renew(elephant_file *f) {
    clear_fault(f);
    return f->options.read_only ? ELEPHANT_FILE_READ_ONLY : renew(f, false);
}

/* ---- By itself ---- */

static bool wants_compaction(const elephant_file *f) {
    return f->condition == SOUND && f->info.length > LONG && f->info.length > 2 * f->info.start && f->info.length >= f->compact_from;
}

static int32_t compact_long(elephant_file *f) {
    const int32_t code = compact(f);
    f->compact_from = code ? f->info.length + f->info.start + LONG : 0;
    return code;
}

/* Renews and compacts, if that is worth it. What is refused is tried again later, and not at each commit. */
static int32_t tidy(elephant_file *f, bool renews, bool compacts) {
    int32_t renewed = ELEPHANT_OK, compacted = ELEPHANT_OK;
    const bool is_renewal = renews && wants_renewal(f);
    bool is_compaction;
    if (is_renewal) renewed = renew(f, true);
    is_compaction = compacts && wants_compaction(f);
    if (is_compaction) compacted = compact_long(f);
    if (is_renewal || is_compaction) f->info.tidied = renewed ? renewed : compacted;
    return renewed ? renewed : compacted;
}

static void tidy_by_itself(elephant_file *f) {
    tidy(f, !f->options.no_renewal, !f->options.no_compaction);
}

int32_t elephant_file_tidy(elephant_file *f) {
    const int32_t code = want_changeable(f);
    return code ? code : tidy(f, true, true);
}

/* ---- Opening and closing ---- */

/* Opens the file, or makes an empty one. */
static int32_t open_or_make(elephant_file *f, const char *path) {
    /* Without a wait for the other end of a pipe. */
    const int flags = O_NOCTTY | O_NONBLOCK | (f->options.read_only ? O_RDONLY : O_RDWR);
    f->info.is_new = 0;
    for (;;) {
        f->file = open_file(path, flags);
        if (f->file >= 0) return ELEPHANT_OK;
        if (errno != ENOENT || f->options.read_only) return system_fault(f, "open");
        f->file = open_file(path, flags | O_CREAT | O_EXCL);
        f->info.is_new = f->file >= 0;
        if (f->file >= 0) return ELEPHANT_OK;
        if (errno != EEXIST) return system_fault(f, "open");
    }
}

static int32_t name_it(elephant_file *f, const char *path) {
    static const char ending[] = ".elephant-new";
    free(f->path);
    free(f->spare);
    f->spare = NULL;
    f->path = realpath(path, NULL);
    if (!f->path) return errno == ENOMEM ? ELEPHANT_NO_MEMORY : system_fault(f, "realpath");
    f->spare = malloc(strlen(f->path) + sizeof ending);
    if (!f->spare) return ELEPHANT_NO_MEMORY;
    strcpy(f->spare, f->path);
    strcat(f->spare, ending);
    return ELEPHANT_OK;
}

/* Opens the file that the path names, and locks it. The last owner may have replaced it before the lock: then this opens the new one. */
static int32_t find(elephant_file *f, const char *path) {
    for (;;) {
        struct stat named;
        int32_t code = open_or_make(f, path);
        if (!code && fstat(f->file, &f->identity)) code = system_fault(f, "fstat");
        if (!code && !S_ISREG(f->identity.st_mode)) code = ELEPHANT_BAD_JOURNAL;
        if (code) return code;
        if (!f->options.read_only) code = lock(f, f->file);
        if (code) return code;
        code = name_it(f, path);
        if (!code && !stat(f->path, &named) && named.st_ino == f->identity.st_ino && named.st_dev == f->identity.st_dev) return ELEPHANT_OK;
        if (code && f->fault.system != ENOENT) return code;
        clear_fault(f);
        let_go(f->file);
        f->file = -1;
    }
}

/* The largest limits, as elephant.h has them. */
static const elephant_limits largest = {1000000000, 100000, 10000, 200000, 1000000, 1000000, 1000, 100000, 10000};

/* Begins a fresh store in the empty file that this holds the lock of. */
static int32_t begin(elephant_file *f) {
    const elephant_limits *it = f->options.limits ? f->options.limits : &largest;
    const uint64_t found[COUNTS] = {it->files, it->directories, it->names, it->versions, it->handles, it->groups, it->members, it->marks};
    uint64_t length;
    int32_t code = elephant_open(f->store, it, f->options.history);
    memcpy(f->limits, found, sizeof found);
    if (!code) code = elephant_journal_begin(f->store, &length);
    if (!code) code = replace(f, f->store, length);
    return code;
}

static int32_t open_all(elephant_file *f, const char *path) {
    bool is_made;
    struct stat found;
    int32_t code;
    elephant_new(&f->store);
    if (!f->store) return ELEPHANT_NO_MEMORY;
    code = find(f, path);
    if (code) return code;
    if (fstat(f->file, &found)) return system_fault(f, "fstat");
    if (found.st_size || f->options.read_only) {
        f->info.is_new = 0;
        return read_in(f);
    }
    is_made = f->info.is_new;
    code = begin(f);
    /* Nobody else has opened it: that takes the lock. */
    if (code && is_made && !f->placed) unlink(f->path);
    f->info.is_new = 1;
    return code;
}

static void release(elephant_file *f) {
    if (f->file >= 0) let_go(f->file);
    if (f->store) elephant_delete(f->store);
    free(f->path);
    free(f->spare);
    free(f);
}

int32_t elephant_file_open(const char *path, const elephant_file_options *options, elephant_file **out, elephant_file_fault *fault) {
    elephant_file *f = calloc(1, sizeof *f);
    int32_t code;
    *out = NULL;
    *fault = (elephant_file_fault){0, "", 0};
    if (!f) return ELEPHANT_NO_MEMORY;
    f->file = -1;
    f->fault = *fault;
    if (options) f->options = *options;
    code = open_all(f, path);
    *fault = f->fault;
    if (code) {
        release(f);
        return code;
    }
    expect_renewal(f);
    if (!f->options.read_only) {
        /* A kill may have come before a new file took this one's place, or before the last commit tidied. */
        unlink(f->spare);
        if (f->condition == SOUND) tidy_by_itself(f);
    }
    *out = f;
    return ELEPHANT_OK;
}

void elephant_file_close(elephant_file *f) {
    if (!f->options.read_only && f->condition == SOUND && f->size > f->info.length) cut(f, f->info.length);
    release(f);
}

int32_t elephant_file_rollback(elephant_file *f) {
    unsigned char *bytes;
    uint64_t length, whole;
    uint32_t rest;
    elephant *again;
    int32_t code;
    clear_fault(f);
    elephant_new(&again);
    if (!again) return ELEPHANT_NO_MEMORY;
    code = load(f, f->info.length, &bytes, &length);
    if (!code) {
        code = elephant_journal_open(again, bytes, length, f->options.history, &whole, &rest);
        free(bytes);
        if (code == ELEPHANT_BAD_JOURNAL) code = damage_at(f, 0);
        if (!code && whole != f->info.length) code = damage_at(f, whole);
    }
    elephant_delete(code ? again : f->store);
    if (!code) f->store = again;
    return code;
}

elephant *elephant_file_store(elephant_file *f) {
    return f->store;
}

void elephant_file_look(const elephant_file *f, elephant_file_info *info) {
    *info = f->info;
}

void elephant_file_last_fault(const elephant_file *f, elephant_file_fault *fault) {
    *fault = f->fault;
}
