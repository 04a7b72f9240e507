/* Puts file_faults.c between the C library and a program in any language: built as a shared object with it, and named by LD_PRELOAD. It
 * stands before the calls on paths that begin with those of FILE_FOLDER, and on files that were opened by them; others go by. */
#define _GNU_SOURCE
#include <dlfcn.h>
#include <fcntl.h>
#include <stdarg.h>
#include <stdbool.h>
#include <stdlib.h>
#include <string.h>
#include <sys/stat.h>
#include <sys/types.h>

enum { FILES = 4096 };
static bool is_ours[FILES];

/* The real calls, which file_faults.c takes as the linker's --wrap names them. */

#define REAL(type, name, parameters, words)                                \
    type __real_##name parameters;                                         \
    type __real_##name parameters {                                        \
        static type(*real) parameters;                                     \
        if (!real) *(void **)&real = dlsym(RTLD_NEXT, #name);              \
        return real words;                                                 \
    }

REAL(int, close, (int file), (file))
REAL(ssize_t, pwrite, (int file, const void *bytes, size_t length, off_t place), (file, bytes, length, place))
REAL(ssize_t, pread, (int file, void *bytes, size_t length, off_t place), (file, bytes, length, place))
REAL(int, fdatasync, (int file), (file))
REAL(int, fsync, (int file), (file))
REAL(int, ftruncate, (int file, off_t length), (file, length))
REAL(int, rename, (const char *from, const char *to), (from, to))
REAL(int, unlink, (const char *path), (path))
REAL(int, flock, (int file, int how), (file, how))
REAL(int, fchmod, (int file, mode_t mode), (file, mode))
REAL(int, fchown, (int file, uid_t user, gid_t group), (file, user, group))
REAL(int, stat, (const char *path, struct stat *found), (path, found))
REAL(int, fstat, (int file, struct stat *found), (file, found))

int __real_open(const char *path, int flags, ...);
int __real_open(const char *path, int flags, ...) {
    static int (*real)(const char *path, int flags, ...);
    va_list more;
    mode_t mode;
    va_start(more, flags);
    mode = va_arg(more, mode_t);
    va_end(more);
    if (!real) *(void **)&real = dlsym(RTLD_NEXT, "open");
    return real(path, flags, mode);
}

/* Those of file_faults.c. */

int __wrap_open(const char *path, int flags, ...);
int __wrap_close(int file);
ssize_t __wrap_pwrite(int file, const void *bytes, size_t length, off_t place);
ssize_t __wrap_pread(int file, void *bytes, size_t length, off_t place);
int __wrap_fdatasync(int file);
int __wrap_fsync(int file);
int __wrap_ftruncate(int file, off_t length);
int __wrap_rename(const char *from, const char *to);
int __wrap_unlink(const char *path);
int __wrap_flock(int file, int how);
int __wrap_fchmod(int file, mode_t mode);
int __wrap_fchown(int file, uid_t user, gid_t group);
int __wrap_stat(const char *path, struct stat *found);
int __wrap_fstat(int file, struct stat *found);

static bool is_path(const char *path) {
    const char *folder = getenv("FILE_FOLDER");
    return folder && !strncmp(path, folder, strlen(folder));
}

static bool is_file(int file) {
    return file >= 0 && file < FILES && is_ours[file];
}

/* What programs call, by both of its names. */

#define OF_FILE(type, name, parameters, words)                             \
    type name parameters {                                                 \
        return is_file(file) ? __wrap_##name words : __real_##name words;  \
    }
#define OF_PATH(type, name, path, parameters, words)                       \
    type name parameters {                                                 \
        return is_path(path) ? __wrap_##name words : __real_##name words;  \
    }
#define ALSO(type, name, other, parameters) type other parameters __attribute__((alias(#name)));

OF_FILE(ssize_t, pwrite, (int file, const void *bytes, size_t length, off_t place), (file, bytes, length, place))
ALSO(ssize_t, pwrite, pwrite64, (int file, const void *bytes, size_t length, off_t place))
OF_FILE(ssize_t, pread, (int file, void *bytes, size_t length, off_t place), (file, bytes, length, place))
ALSO(ssize_t, pread, pread64, (int file, void *bytes, size_t length, off_t place))
OF_FILE(int, fdatasync, (int file), (file))
OF_FILE(int, fsync, (int file), (file))
OF_FILE(int, ftruncate, (int file, off_t length), (file, length))
ALSO(int, ftruncate, ftruncate64, (int file, off_t length))
OF_FILE(int, flock, (int file, int how), (file, how))
OF_FILE(int, fchmod, (int file, mode_t mode), (file, mode))
OF_FILE(int, fchown, (int file, uid_t user, gid_t group), (file, user, group))
OF_FILE(int, fstat, (int file, struct stat *found), (file, found))
OF_PATH(int, stat, path, (const char *path, struct stat *found), (path, found))
OF_PATH(int, unlink, path, (const char *path), (path))
OF_PATH(int, rename, from, (const char *from, const char *to), (from, to))

int fstat64(int file, struct stat64 *found) {
    return fstat(file, (struct stat *)found);
}

int stat64(const char *path, struct stat64 *found) {
    return stat(path, (struct stat *)found);
}

int close(int file) {
    const bool is_one = is_file(file);
    if (is_one) is_ours[file] = false;
    return is_one ? __wrap_close(file) : __real_close(file);
}

int open(const char *path, int flags, ...) {
    int file;
    mode_t mode;
    va_list more;
    va_start(more, flags);
    mode = va_arg(more, mode_t);
    va_end(more);
    if (!is_path(path)) return __real_open(path, flags, mode);
    file = __wrap_open(path, flags, mode);
    if (file >= 0 && file < FILES) is_ours[file] = true;
    return file;
}

int open64(const char *path, int flags, ...) __attribute__((alias("open")));
