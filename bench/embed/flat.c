/* Saves 10,000,000 versions into 1,000 files, one a second, that are kept safe for 10,000 seconds, with a pass after each 1,000. When nine
 * tenths of the numbers are used, a fresh store takes the place of this one, or with `renew` the store gets fresh numbers. Prints the
 * peak of memory after the first 100,000 saves and at the end: a store that forgets as fast as it saves stays as it is. A renewal copies
 * what is held, so its peak is higher.
 *     cc -O2 -o flat flat.c $(pkg-config --cflags --libs elephant) && ./flat && ./flat renew */
#include <elephant.h>
#include <inttypes.h>
#include <stdbool.h>
#include <stdio.h>
#include <stdlib.h>
#include <string.h>
#include <sys/resource.h>
#include <time.h>

enum { FILES = 1000, FIRST = 100000, EACH = 1000 };
static const uint64_t SAVES = 10000000, MOST = 1000000;

static void must(int32_t code, const char *what) {
    if (code) {
        fprintf(stderr, "flat: %s: %" PRId32 "\n", what, code);
        exit(1);
    }
}

/* The most memory that the process has had, in KiB. */
static long peak(void) {
    struct rusage used;
    getrusage(RUSAGE_SELF, &used);
    return used.ru_maxrss;
}

static elephant *make(void) {
    const elephant_limits limits = {1000000000, 100000, 10000, 200000, MOST, MOST, 1000, 100000, 10000};
    elephant *e;
    elephant_new(&e);
    must(e ? ELEPHANT_OK : ELEPHANT_NO_MEMORY, "new");
    must(elephant_open(e, &limits, 0), "open");
    must(elephant_default(e, "/", 1, "safe:10000", 10), "default");
    return e;
}

static bool is_nearly_full(const elephant *e) {
    elephant_counts_row counts;
    must(elephant_counts(e, &counts), "counts");
    return counts.versions >= MOST / 10 * 9 || counts.handles >= MOST / 10 * 9;
}

/* Returns the store with fresh numbers, or a fresh one. */
static elephant *go_on(elephant *e, bool renews) {
    if (renews) {
        must(elephant_renew(e), "renew");
        return e;
    }
    elephant_delete(e);
    return make();
}

int main(int count, char **words) {
    const bool renews = count > 1 && !strcmp(words[1], "renew");
    elephant *e = make();
    long first = 0;
    uint64_t removed_in_all = 0, turns = 0;
    for (uint64_t save = 1; save <= SAVES; save++) {
        char path[16], bytes[32];
        uint64_t version, removed, finished;
        const int path_len = snprintf(path, sizeof path, "/f%" PRIu64, save % FILES);
        const int bytes_len = snprintf(bytes, sizeof bytes, "%" PRIu64, save);
        must(elephant_clock(e, save), "clock");
        must(elephant_save(e, path, (size_t)path_len, bytes, (size_t)bytes_len, &version), "save");
        if (save % EACH == 0) {
            must(elephant_pass(e, UINT64_MAX, &removed, &finished), "pass");
            removed_in_all += removed;
        }
        if (save == FIRST) first = peak();
        if (save % EACH == 0 && is_nearly_full(e)) {
            e = go_on(e, renews);
            turns++;
        }
    }
    printf("%" PRIu64 " saves, %" PRIu64 " removed, %" PRIu64 " times %s\n", SAVES, removed_in_all, turns, renews ? "renewed" : "a fresh store");
    printf("peak %ld KiB after %d saves, %ld KiB at the end: %.2f times, in %.1f seconds of a processor\n", first, FIRST, peak(),
           (double)peak() / (double)first, (double)clock() / CLOCKS_PER_SEC);
    elephant_delete(e);
    return 0;
}
