/* What the space ahead of a file has, and how what was written into it is told from it. A part of elephant_file.c. */
#ifndef ELEPHANT_FILE_AHEAD_H
#define ELEPHANT_FILE_AHEAD_H

#include <stdbool.h>
#include <stdint.h>

/* What a disk writes wholly or not at all, in bytes. */
enum { BLOCK = 512 };
/* The space ahead: the byte at each place modulo 16. */
static const char FILLING[] = "not written yet ";
enum { FILLED = sizeof FILLING - 1 };

static inline unsigned char filling_at(uint64_t place) {
    return (unsigned char)FILLING[place % FILLED];
}

static inline uint64_t block_of(uint64_t place) {
    return place - place % BLOCK;
}

/* Where the filling begins that goes on to the end of these bytes. */
static inline uint64_t filled_from(const unsigned char *bytes, uint64_t from, uint64_t end) {
    while (end > from && bytes[end - 1] == filling_at(end - 1)) end--;
    return end;
}

/* A block that a crash kept from being filled may have zeros. These follow filled ones: zeros in the place of a change are damage. */
static inline bool is_blank(const unsigned char *bytes, uint64_t from, uint64_t end) {
    if (filled_from(bytes, from, end) == from) return true;
    while (end > from && !bytes[end - 1]) end--;
    return end == from;
}

/* Where what was written ends: all blocks after it are blank. */
static inline uint64_t written_end(const unsigned char *bytes, uint64_t from, uint64_t end) {
    while (end > from) {
        uint64_t block = block_of(end - 1) > from ? block_of(end - 1) : from;
        if (!is_blank(bytes, block, end)) return filled_from(bytes, block, end);
        end = block;
    }
    return from;
}

/* The first place from which on what was to be written isn't there: a part of a block that still has the filling, all of it, or the place
 * after which nothing was written. That a block ends with some bytes of the filling says nothing, since a change may have them. */
static inline uint64_t first_gap(const unsigned char *bytes, uint64_t from, uint64_t end) {
    const uint64_t written = written_end(bytes, from, end);
    while (from < end) {
        uint64_t next = block_of(from) + BLOCK < end ? block_of(from) + BLOCK : end;
        uint64_t gap = filled_from(bytes, from, next);
        if (gap == from || (gap < next && gap >= written)) return gap;
        from = next;
    }
    return end;
}

#endif
