/* How long calls of the C library take, in microseconds: a small save with a history and without one, a read of 100 bytes and one
 * of 1 MiB into a buffer, straight and by way of the kept result, and a plain copy of 1 MiB. */

#define _POSIX_C_SOURCE 199309L
#include <elephant.h>
#include <stdio.h>
#include <stdlib.h>
#include <string.h>
#include <time.h>

enum { SAVES = 30000, READS = 200, ROUNDS = 5, LENGTH = 1 << 20 };
/* The short reads are those of reads.py, and of benches/reads.rs in clients/rust. */
enum { FILES = 100, SHORT = 100, SHORT_READS = 100000, PATH = 6 };

static char bytes[LENGTH], into[LENGTH];

static double now(void) {
    struct timespec at;
    clock_gettime(CLOCK_MONOTONIC, &at);
    return (double)at.tv_sec * 1e6 + (double)at.tv_nsec / 1e3;
}

static double least(double one, double other) {
    return one < other ? one : other;
}

static void must(int32_t code) {
    if (code == ELEPHANT_OK) return;
    fprintf(stderr, "calls: code %d\n", (int)code);
    exit(1);
}

static elephant *with_file(uint32_t history) {
    elephant *e;
    uint64_t file;
    elephant_new(&e);
    if (!e) exit(1);
    must(elephant_open_largest(e, history));
    must(elephant_create(e, "/f", 2, &file));
    return e;
}

static void save(elephant *e, const void *content, size_t length) {
    uint64_t handle, version;
    must(elephant_open_write(e, "/f", 2, &handle));
    must(elephant_write(e, handle, 0, content, length));
    must(elephant_close_handle(e, handle, &version));
}

static double saves(uint32_t history) {
    elephant *e = with_file(history);
    double start = now();
    for (int at = 0; at < SAVES; at++) save(e, "hello", 5);
    start = (now() - start) / SAVES;
    elephant_delete(e);
    return start;
}

static double reads(elephant *e) {
    uint64_t length, copied;
    double start = now();
    for (int at = 0; at < READS; at++) {
        must(elephant_read(e, "/f", 2, ELEPHANT_NOW, 0, &length));
        must(elephant_take(e, 0, into, sizeof into, &copied));
        if (copied != LENGTH) exit(1);
    }
    return (now() - start) / READS;
}

static double reads_into(elephant *e) {
    uint64_t length, copied;
    double start = now();
    for (int at = 0; at < READS; at++) {
        must(elephant_read_into(e, "/f", 2, ELEPHANT_NOW, 0, 0, into, sizeof into, &length, &copied));
        if (copied != LENGTH) exit(1);
    }
    return (now() - start) / READS;
}

static elephant *with_short_files(char paths[FILES][PATH + 1]) {
    elephant *e;
    uint64_t directory, version;
    elephant_new(&e);
    if (!e) exit(1);
    must(elephant_open_largest(e, 0));
    must(elephant_mkdir(e, "/d", 2, &directory));
    for (int at = 0; at < FILES; at++) {
        snprintf(paths[at], PATH + 1, "/d/f%02d", at);
        must(elephant_save(e, paths[at], PATH, bytes, SHORT, &version));
    }
    return e;
}

static double short_reads(const elephant *e, char paths[FILES][PATH + 1]) {
    uint64_t length, copied;
    double start = now();
    for (int at = 0; at < SHORT_READS; at++) {
        must(elephant_read_into(e, paths[at % FILES], PATH, ELEPHANT_NOW, 0, 0, into, sizeof into, &length, &copied));
        if (copied != SHORT) exit(1);
    }
    return (now() - start) / SHORT_READS;
}

static double short_reads_kept(elephant *e, char paths[FILES][PATH + 1]) {
    uint64_t length, copied;
    double start = now();
    for (int at = 0; at < SHORT_READS; at++) {
        must(elephant_read(e, paths[at % FILES], PATH, ELEPHANT_NOW, 0, &length));
        must(elephant_take(e, 0, into, sizeof into, &copied));
        if (copied != SHORT) exit(1);
    }
    return (now() - start) / SHORT_READS;
}

static void print_short_reads(void) {
    char paths[FILES][PATH + 1];
    double read = 1e9, kept = 1e9;
    elephant *e = with_short_files(paths);
    for (int round = 0; round < ROUNDS; round++) {
        read = least(read, short_reads(e, paths));
        kept = least(kept, short_reads_kept(e, paths));
    }
    elephant_delete(e);
    printf("short_read %.4f\nshort_read_kept %.4f\n", read, kept);
}

static double copies(void) {
    double start = now();
    for (int at = 0; at < READS; at++) {
        memcpy(into, bytes, LENGTH);
        /* The compiler is not to leave a copy out. */
        __asm__ volatile("" : : "r"(into) : "memory");
    }
    return (now() - start) / READS;
}

int main(void) {
    elephant *e = with_file(0);
    double read = 1e9, read_into = 1e9, copy = 1e9;
    for (int at = 0; at < LENGTH; at++) bytes[at] = (char)(at * 31 + at / 977);
    save(e, bytes, LENGTH);
    reads(e);
    if (memcmp(into, bytes, LENGTH)) return 1;
    memset(into, 0, LENGTH);
    reads_into(e);
    if (memcmp(into, bytes, LENGTH)) return 1;
    copies();
    for (int round = 0; round < ROUNDS; round++) {
        read = least(read, reads(e));
        read_into = least(read_into, reads_into(e));
        copy = least(copy, copies());
    }
    elephant_delete(e);
    printf("save_with_history %.4f\nsave %.4f\nread %.4f\nread_into %.4f\ncopy %.4f\n", saves(1), saves(0), read, read_into, copy);
    print_short_reads();
    return 0;
}
