/* The one call of libelephant_file.so. It is between that library and the Python package of the same version, and no promise: a program in
 * C has elephant_file.h. It takes the calls of elephant.h as pointers, so it works for whichever library the store is of. */
#ifndef ELEPHANT_FILE_APPEND_H
#define ELEPHANT_FILE_APPEND_H

#include <elephant.h>

/* How far a call came. */
enum elephant_append_step {
    ELEPHANT_APPEND_NOTHING,      /* no change is under way, or a code says why there is none */
    ELEPHANT_APPEND_NOT_ORDINARY, /* there is more to do, or to refuse, than to write; nothing is written */
    ELEPHANT_APPEND_WRITE,        /* the write failed, and may have left bytes after the changes */
    ELEPHANT_APPEND_SYNC,         /* the sync failed */
    ELEPHANT_APPEND_DONE          /* the file has the change; the code is that of elephant_journal_written */
};

/* What is returned if the caller's elephant_append is of another size. */
enum { ELEPHANT_APPEND_OTHER = -1 };

/* An open file, which has space ahead as elephant_file.h says, and what the last call did. */
typedef struct elephant_append {
    int32_t (*pending)(elephant *store, uint64_t *length);
    int32_t (*answer)(const elephant *store, uint64_t offset, void *into, size_t size, uint64_t *copied);
    int32_t (*written)(elephant *store);
    const char *path;       /* absolute, without links */
    uint64_t inode, device; /* of the open file */
    uint64_t length, size;  /* how many bytes count, and the file's length with the space ahead. After the changes it has nothing else */
    int32_t file;
    uint32_t syncs;         /* 1: a call waits for the disk */
    uint32_t step;          /* enum elephant_append_step */
    int32_t error;          /* why the write or the sync failed, as in <errno.h>; else 0 */
    unsigned char piece[1 << 14];
} elephant_append;

/* Appends the change under way, if that takes no more than to write it, and maybe to sync it. Returns a code of elephant.h. */
int32_t elephant_file_append(elephant *store, elephant_append *it, size_t size);

#endif
