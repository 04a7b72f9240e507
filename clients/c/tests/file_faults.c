/* What file_faults.h says. */
#include "file_faults.h"

#include <errno.h>
#include <fcntl.h>
#include <signal.h>
#include <stdarg.h>
#include <stdio.h>
#include <stdlib.h>
#include <sys/stat.h>
#include <sys/types.h>

enum { HALF = 0, KILL = 1000, KILL_WITHIN = 1001, HALF_FIRST = 1002 };

static unsigned long calls, first, count, kind;
static FILE *the_log;

int __real_open(const char *path, int flags, ...);
int __real_close(int file);
ssize_t __real_pwrite(int file, const void *bytes, size_t length, off_t place);
ssize_t __real_pread(int file, void *bytes, size_t length, off_t place);
int __real_fdatasync(int file);
int __real_fsync(int file);
int __real_ftruncate(int file, off_t length);
int __real_rename(const char *from, const char *to);
int __real_unlink(const char *path);
int __real_flock(int file, int how);
int __real_fchmod(int file, mode_t mode);
int __real_fchown(int file, uid_t user, gid_t group);
int __real_stat(const char *path, struct stat *found);
int __real_fstat(int file, struct stat *found);

static void begin(void) {
    static int is_begun;
    const char *fault = getenv("FILE_FAULT"), *path = getenv("FILE_LOG");
    if (is_begun++) return;
    if (fault && sscanf(fault, "%lu %lu %lu", &first, &count, &kind) != 3) abort();
    if (path) the_log = fopen(path, "w");
}

unsigned long faults_counted(void) {
    return calls;
}

void note_in_log(const char *what, unsigned long number) {
    begin();
    if (!the_log) return;
    fprintf(the_log, "%s %lu\n", what, number);
    fflush(the_log);
}

static void die(void) {
    if (the_log) fflush(the_log);
    raise(SIGKILL);
}

/* Whether this call is to do otherwise. */
static int is_chosen(void) {
    begin();
    calls++;
    if (calls < first || calls >= first + count) return 0;
    if (kind == KILL) die();
    return 1;
}

/* Whether a call fails, which it does with an error's number. */
static int fails_if(int chosen) {
    if (!chosen || kind == HALF || kind == KILL_WITHIN || (kind == HALF_FIRST && calls == first)) return 0;
    errno = kind == HALF_FIRST ? EIO : (int)kind;
    return 1;
}

static int fails(void) {
    return fails_if(is_chosen());
}

/* The same of a call that never waits. */
static int fails_at_once(void) {
    return fails_if(is_chosen() && kind != EINTR);
}

static void log_bytes(const unsigned char *bytes, size_t length) {
    for (size_t at = 0; at < length; at++) fprintf(the_log, "%02x", bytes[at]);
}

int __wrap_open(const char *path, int flags, ...) {
    int file, error;
    mode_t mode = 0;
    va_list more;
    va_start(more, flags);
    if (flags & O_CREAT) mode = va_arg(more, mode_t);
    va_end(more);
    if (fails()) return -1;
    file = __real_open(path, flags, mode);
    error = errno;
    if (the_log && file >= 0) fprintf(the_log, "open %d %d %s\n", file, flags & O_CREAT ? 1 : 0, path);
    errno = error;
    return file;
}

int __wrap_close(int file) {
    begin();
    if (the_log) fprintf(the_log, "close %d\n", file);
    return __real_close(file);
}

ssize_t __wrap_pwrite(int file, const void *bytes, size_t length, off_t place) {
    ssize_t written;
    const int is_other = is_chosen();
    if (fails_if(is_other)) return -1;
    written = __real_pwrite(file, bytes, is_other && length > 1 ? length / 2 : length, place);
    if (the_log && written > 0) {
        fprintf(the_log, "pwrite %d %lld ", file, (long long)place);
        log_bytes(bytes, (size_t)written);
        fprintf(the_log, "\n");
    }
    if (is_other && kind == KILL_WITHIN) die();
    return written;
}

ssize_t __wrap_pread(int file, void *bytes, size_t length, off_t place) {
    const int is_other = is_chosen();
    if (fails_if(is_other)) return -1;
    return __real_pread(file, bytes, is_other && length > 1 ? length / 2 : length, place);
}

/* Logs a sync and what it answers. One that a signal interrupts has dropped nothing. */
static int synced(int file, int failed) {
    const int error = errno;
    if (the_log && !(failed && error == EINTR)) fprintf(the_log, "%s %d\n", failed ? "unsynced" : "synced", file);
    errno = error;
    return failed;
}

int __wrap_fdatasync(int file) {
    return synced(file, fails() ? -1 : __real_fdatasync(file));
}

int __wrap_fsync(int file) {
    return synced(file, fails() ? -1 : __real_fsync(file));
}

int __wrap_ftruncate(int file, off_t length) {
    if (fails()) return -1;
    if (the_log) fprintf(the_log, "ftruncate %d %lld\n", file, (long long)length);
    return __real_ftruncate(file, length);
}

int __wrap_rename(const char *from, const char *to) {
    if (fails_at_once()) return -1;
    if (the_log) fprintf(the_log, "rename %s %s\n", from, to);
    return __real_rename(from, to);
}

int __wrap_unlink(const char *path) {
    int failed;
    if (fails_at_once()) return -1;
    failed = __real_unlink(path);
    if (the_log && !failed) fprintf(the_log, "unlink %s\n", path);
    return failed;
}

int __wrap_flock(int file, int how) {
    return fails() ? -1 : __real_flock(file, how);
}

int __wrap_fchmod(int file, mode_t mode) {
    return fails_at_once() ? -1 : __real_fchmod(file, mode);
}

int __wrap_fchown(int file, uid_t user, gid_t group) {
    return fails_at_once() ? -1 : __real_fchown(file, user, group);
}

int __wrap_stat(const char *path, struct stat *found) {
    return fails_at_once() ? -1 : __real_stat(path, found);
}

int __wrap_fstat(int file, struct stat *found) {
    return fails_at_once() ? -1 : __real_fstat(file, found);
}
