/* The ordinary commit of a store in a file as one call, for a language in which each call takes long: what elephant_file_commit does if the
 * space ahead has room for the change. It is built as libelephant_file.so, and the Python package loads that. Whatever else there is to do,
 * or to refuse, it leaves to its caller before anything is written. */
#ifndef _DEFAULT_SOURCE
#define _DEFAULT_SOURCE
#endif

#include "elephant_file_append.h"

#include "elephant_file_calls.h"

#include <sys/stat.h>

/* Whether the path still names this file, nobody else changed its length, and so many bytes fit into its space ahead. */
static int is_ordinary(const elephant_append *it, uint64_t length) {
    struct stat named;
    if (it->length + length > it->size || stat(it->path, &named)) return 0;
    return named.st_ino == it->inode && named.st_dev == it->device && (uint64_t)named.st_size == it->size;
}

/* Writes the store's text after the changes that are there. */
static int32_t write_text(const elephant *store, elephant_append *it, uint64_t length) {
    uint64_t copied = 0;
    for (uint64_t at = 0; at < length; at += copied) {
        const int32_t code = it->answer(store, at, it->piece, sizeof it->piece, &copied);
        if (code) return code;
        if (write_all(it->file, it->piece, copied, it->length + at)) {
            it->error = errno;
            return 0;
        }
    }
    return 0;
}

/* Writes the change and waits for the disk, if that is wanted. */
static int32_t put(const elephant *store, elephant_append *it, uint64_t length) {
    int32_t code;
    it->step = ELEPHANT_APPEND_WRITE;
    code = write_text(store, it, length);
    if (code || it->error) return code;
    if (it->syncs) {
        it->step = ELEPHANT_APPEND_SYNC;
        if (sync_data(it->file)) {
            it->error = errno;
            return 0;
        }
    }
    it->length += length;
    return 0;
}

int32_t elephant_file_append(elephant *store, elephant_append *it, size_t size) {
    uint64_t length = 0;
    int32_t code;
    if (size != sizeof *it) return ELEPHANT_APPEND_OTHER;
    it->step = ELEPHANT_APPEND_NOTHING;
    it->error = 0;
    code = it->pending(store, &length);
    if (code || !length) return code;
    it->step = ELEPHANT_APPEND_NOT_ORDINARY;
    if (!is_ordinary(it, length)) return 0;
    code = put(store, it, length);
    if (code || it->error) return code;
    it->step = ELEPHANT_APPEND_DONE;
    return it->written(store);
}
