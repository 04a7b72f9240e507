/* What the tests share: a condition that must hold, and paths and names as C strings. */
#ifndef WANT_H
#define WANT_H

#include <elephant.h>
#include <stdio.h>
#include <stdlib.h>
#include <string.h>

#define WANT(holds)                                                             \
    do {                                                                        \
        if (!(holds)) {                                                         \
            fprintf(stderr, "%s:%d: not so: %s\n", __FILE__, __LINE__, #holds); \
            exit(1);                                                            \
        }                                                                       \
    } while (0)

/* The call returns that code. */
#define CODE(code, call)                                                                                         \
    do {                                                                                                         \
        int32_t answered = (call);                                                                               \
        if (answered != (code)) {                                                                                \
            fprintf(stderr, "%s:%d: %s answers %d, not %s\n", __FILE__, __LINE__, #call, (int)answered, #code); \
            exit(1);                                                                                             \
        }                                                                                                        \
    } while (0)

#define OK(call) CODE(ELEPHANT_OK, call)

/* A string as two arguments. */
#define TEXT(string) (string), strlen(string)

/* A fresh store, without a history or with one. */
static inline elephant *fresh(uint32_t history) {
    elephant *e;
    elephant_new(&e);
    WANT(e);
    OK(elephant_open_largest(e, history));
    return e;
}

/* Makes the file's next version of these bytes. */
static inline void save(elephant *e, const char *path, const void *bytes, size_t length) {
    uint64_t handle, version;
    OK(elephant_open_write(e, TEXT(path), &handle));
    OK(elephant_write(e, handle, 0, bytes, length));
    OK(elephant_truncate(e, handle, length));
    OK(elephant_close_handle(e, handle, &version));
}

#endif
