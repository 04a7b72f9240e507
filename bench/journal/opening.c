/* opening make PATH SAVES FILES SECONDS HOW   makes a file of a store: so many saves of 100 bytes over so many files, one a second, that are
 *                          kept safe for so many seconds, with a pass after each 1,000 and a commit after each 100. HOW is `tidy`, as a
 *                          store is by itself, or `grow`, without compactions and renewals. Prints what that took.
 * opening open PATH HOW    opens it. Prints how long that took, the most memory that it took, what the store keeps of it, and what is held */
#define _GNU_SOURCE
#include <elephant_file.h>
#include <inttypes.h>
#include <malloc.h>
#include <stdio.h>
#include <stdlib.h>
#include <string.h>
#include <sys/resource.h>
#include <time.h>

enum { LENGTH = 100, PASS = 1000, COMMIT = 100, START = 1790000000 };

static void must(int32_t code, const char *what) {
    if (!code) return;
    fprintf(stderr, "opening: %s: %s\n", what, elephant_file_code_text(code));
    exit(1);
}

static double now(void) {
    struct timespec it;
    clock_gettime(CLOCK_MONOTONIC, &it);
    return (double)it.tv_sec + (double)it.tv_nsec / 1e9;
}

/* In MiB: the most that the process has had, and what it has once it has given back what it freed. */
static double peak(void) {
    struct rusage used;
    getrusage(RUSAGE_SELF, &used);
    return (double)used.ru_maxrss / 1024;
}

static double resident(void) {
    long pages = 0, all = 0;
    FILE *told;
    malloc_trim(0);
    told = fopen("/proc/self/statm", "r");
    if (!told || fscanf(told, "%ld %ld", &all, &pages) != 2) exit(1);
    fclose(told);
    return (double)pages * 4096 / (1 << 20);
}

static elephant_file *opened(const char *path, int grows) {
    const elephant_file_options options = {
        .sync = ELEPHANT_FILE_SYNC_ASKED, .no_compaction = (uint32_t)grows, .no_renewal = (uint32_t)grows,
    };
    elephant_file_fault fault;
    elephant_file *f;
    must(elephant_file_open(path, &options, &f, &fault), path);
    return f;
}

static void save(elephant *e, long number, long files) {
    char path[32], content[LENGTH + 1];
    uint64_t version;
    const int length = snprintf(path, sizeof path, "/f%ld", number % files);
    snprintf(content, sizeof content, "%0*ld", LENGTH, number);
    must(elephant_clock(e, (uint64_t)(START + number)), "clock");
    must(elephant_save(e, path, (size_t)length, content, LENGTH, &version), "save");
}

static void make(const char *path, long saves, long files, long seconds, int grows) {
    elephant_file_info info;
    elephant_file *f = opened(path, grows);
    char policy[32];
    const double began = now();
    double longest = 0;
    const int length = snprintf(policy, sizeof policy, "safe:%ld", seconds);
    must(elephant_default(elephant_file_store(f), "/", 1, policy, (size_t)length), "default");
    for (long number = 1; number <= saves; number++) {
        double commit;
        save(elephant_file_store(f), number, files);
        if (number % PASS == 0) must(elephant_pass(elephant_file_store(f), UINT64_MAX, &(uint64_t){0}, &(uint64_t){0}), "pass");
        if (number % COMMIT) continue;
        commit = now();
        must(elephant_file_commit(f), "commit");
        if (now() - commit > longest) longest = now() - commit;
    }
    must(elephant_file_sync(f), "sync");
    elephant_file_look(f, &info);
    elephant_file_close(f);
    printf("saves_seconds %.3f\nlongest_commit %.3f\ncompactions %" PRIu64 "\nrenewals %" PRIu64 "\n", now() - began, longest,
           info.compactions, info.renewals);
}

static void print_held(elephant *e) {
    uint64_t rows, versions = 0, bytes = 0;
    must(elephant_usage(e, &rows), "usage");
    for (uint64_t at = 0; at < rows; at++) {
        elephant_usage_row row;
        must(elephant_row_usage(e, at, &row), "usage");
        versions += row.versions;
        bytes += row.bytes;
    }
    printf("versions %" PRIu64 "\nheld_mib %.1f\n", versions, (double)bytes / (1 << 20));
}

static void open_again(const char *path, int grows) {
    elephant_file_info info;
    const double began = now();
    elephant_file *f = opened(path, grows);
    const double took = now() - began;
    elephant_file_look(f, &info);
    printf("open_seconds %.3f\npeak_mib %.1f\nstore_mib %.1f\nfile_mib %.1f\nstart_mib %.1f\n", took, peak(), resident(),
           (double)info.length / (1 << 20), (double)info.start / (1 << 20));
    print_held(elephant_file_store(f));
    elephant_file_close(f);
}

int main(int count, char **words) {
    const int grows = count > 1 && !strcmp(words[count - 1], "grow");
    if (count == 7 && !strcmp(words[1], "make")) {
        make(words[2], atol(words[3]), atol(words[4]), atol(words[5]), grows);
    } else if (count == 4 && !strcmp(words[1], "open")) {
        open_again(words[2], grows);
    } else {
        fprintf(stderr, "opening: make PATH SAVES FILES SECONDS tidy|grow, or open PATH tidy|grow\n");
        return 2;
    }
    return 0;
}
