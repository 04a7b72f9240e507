/* Calls of the system, made until they are done or have failed. A part of elephant_file.c, and of elephant_file_append.c. */
#ifndef ELEPHANT_FILE_CALLS_H
#define ELEPHANT_FILE_CALLS_H

#include <errno.h>
#include <fcntl.h>
#include <stdint.h>
#include <unistd.h>

static inline int open_file(const char *path, int flags) {
    int file;
    do file = open(path, flags | O_CLOEXEC, 0600);
    while (file < 0 && errno == EINTR);
    return file;
}

static inline int sync_data(int file) {
    int failed, error;
    /* A call that a signal interrupted has not failed to write anything. */
    do failed = fdatasync(file);
    while (failed && errno == EINTR);
    if (!failed) return 0;
    /* The system may go on showing what it couldn't write. The next opening is to read what the disk has. */
    error = errno;
    posix_fadvise(file, 0, 0, POSIX_FADV_DONTNEED);
    errno = error;
    return failed;
}

static inline int sync_all(int file) {
    int failed;
    do failed = fsync(file);
    while (failed && errno == EINTR);
    return failed;
}

static inline int write_all(int file, const unsigned char *bytes, uint64_t length, uint64_t place) {
    while (length) {
        ssize_t written = pwrite(file, bytes, length, (off_t)place);
        if (written < 0 && errno == EINTR) continue;
        if (written <= 0) {
            if (!written) errno = ENOSPC;
            return -1;
        }
        bytes += written;
        length -= (uint64_t)written;
        place += (uint64_t)written;
    }
    return 0;
}

/* Returns how many bytes were read: fewer at the end of the file. */
static inline int64_t read_all(int file, unsigned char *bytes, uint64_t length) {
    uint64_t place = 0;
    while (place < length) {
        ssize_t had = pread(file, bytes + place, length - place, (off_t)place);
        if (had < 0 && errno == EINTR) continue;
        if (had < 0) return -1;
        if (!had) break;
        place += (uint64_t)had;
    }
    return (int64_t)place;
}

#endif
