/* Saves numbered contents into a store in a file, and says which of them were committed; and looks at what such a file has. Other programs
 * kill the one, make its calls fail, and take the power away; then the other must find all that was committed, and nothing by halves.
 *
 *     file_saves run PATH COUNT COMPACT SYNC VERSIONS   makes COUNT changes after the last one of the file. After each commit it prints
 *                                              "ack N"; with SYNC > 1 only after each so many, when it asked for the disk. After
 *                                              each COMPACT changes it compacts, and after half of all it opens the file anew. The
 *                                              store may make so many VERSIONS.
 *     file_saves peek PATH COUNT               looks into the file so many times, while another program may be writing it
 *     file_saves check VERSIONS                for each path that it reads prints "has N", goes on with a change, and finds that too
 *
 * A change is two saves, of the same number. */
#define _DEFAULT_SOURCE
#include <elephant_file.h>
#include "file_faults.h"
#include "want.h"

#include <errno.h>
#include <inttypes.h>
#include <unistd.h>

enum { MOST = 70000, HEADED = 8, KINDS = 7, TRIES = 4 };
static const size_t lengths[KINDS] = {40, 8, 700, 3000, 100, 20000, 450};
static unsigned char content[MOST];

static uint64_t versions = 1000000;

/* The content of a number: its bytes, and then bytes that follow from it. Every third has long runs of zeros. */
static size_t content_of(uint64_t number, int of) {
    const size_t length = lengths[(number + (uint64_t)of) % KINDS] + HEADED;
    uint64_t state = number * 2654435761u + (uint64_t)of;
    memcpy(content, &number, HEADED);
    for (size_t at = HEADED; at < length; at++) {
        state = state * 6364136223846793005u + 1442695040888963407u;
        content[at] = number % 3 ? (unsigned char)(state >> 56) : 0;
    }
    return length;
}

static const char *const paths[] = {"/one", "/two"};

/* Returns the number of what the path has, 0 if it has nothing yet. Any other content ends the program. */
static uint64_t number_at(elephant *e, int of) {
    static unsigned char has[MOST];
    uint64_t length, copied, number;
    const int32_t code = elephant_read_into(e, TEXT(paths[of]), ELEPHANT_NOW, 0, 0, has, sizeof has, &length, &copied);
    if (code == ELEPHANT_NO_ENTRY) return 0;
    WANT(code == ELEPHANT_OK && length == copied && length >= HEADED);
    memcpy(&number, has, HEADED);
    WANT(content_of(number, of) == length && !memcmp(has, content, length));
    return number;
}

static uint64_t number_in(elephant *e) {
    const uint64_t number = number_at(e, 0);
    WANT(number_at(e, 1) == number);
    return number;
}

static void change(elephant *e, uint64_t number) {
    uint64_t version, removed, finished;
    if (!number_in(e)) OK(elephant_default(e, TEXT("/"), TEXT("one")));
    for (int of = 0; of < 2; of++) {
        const size_t length = content_of(number, of);
        OK(elephant_save(e, TEXT(paths[of]), content, length, &version));
    }
    OK(elephant_pass(e, 100, &removed, &finished));
}

static void say(const char *what, uint64_t number) {
    char line[64];
    const int length = snprintf(line, sizeof line, "%s %" PRIu64 "\n", what, number);
    note_in_log(what, number);
    WANT(write(STDOUT_FILENO, line, (size_t)length) == length);
}

static void complain(const char *what, int32_t code, const elephant_file_fault *fault) {
    fprintf(stderr, "%s: %s; %s %s, after byte %" PRIu64 "\n", what, elephant_file_code_text(code), fault->call,
            fault->system ? strerror(fault->system) : "", fault->place);
}

/* The call of the system by which the last opening failed. */
static const char *failed_call = "";

static elephant_file *opened(const char *path, uint32_t sync) {
    const elephant_limits limits = {1000, 100, 100, 1000, versions, 1000, 10, 10, 10};
    const elephant_file_options options = {.limits = &limits, .sync = sync};
    elephant_file_fault fault;
    elephant_file *f;
    const int32_t code = elephant_file_open(path, &options, &f, &fault);
    if (!code) return f;
    complain(path, code, &fault);
    failed_call = fault.call;
    return NULL;
}

static void complain_of(elephant_file *f, int32_t code) {
    elephant_file_fault fault;
    elephant_file_last_fault(f, &fault);
    complain("commit", code, &fault);
}

/* Makes a call, or tries again, and at last writes a new file. Returns whether all is in the file. */
static int is_kept(elephant_file *f, int32_t (*call)(elephant_file *)) {
    for (int tries = 0; tries < TRIES; tries++) {
        const int32_t code = call(f);
        if (!code) return 1;
        complain_of(f, code);
        if (code == ELEPHANT_FILE_STUCK) call = elephant_file_compact;
    }
    return 0;
}

/* Makes a change and commits it. If that fails, every other one is given up, and the next one made in its place. */
static int is_changed(elephant_file *f, uint64_t *number) {
    int32_t code;
    change(elephant_file_store(f), ++*number);
    note_in_log("try", *number);
    code = elephant_file_commit(f);
    if (!code) return 1;
    complain_of(f, code);
    if (*number % 2 && !elephant_file_rollback(f)) {
        change(elephant_file_store(f), ++*number);
        note_in_log("try", *number);
    }
    return is_kept(f, elephant_file_commit);
}

/* Closes the file and opens it again, which makes all of it durable. After a failed sync it stops, since the memory here still has what a
 * disk has lost. */
static elephant_file *reopened(elephant_file *f, const char *path, uint32_t how, uint64_t number) {
    elephant_file_close(f);
    f = opened(path, how);
    if (!f && strcmp(failed_call, "fdatasync")) f = opened(path, how);
    if (!f) return NULL;
    WANT(number_in(elephant_file_store(f)) == number);
    note_in_log("has", number);
    return f;
}

static int run(const char *path, uint64_t count, uint64_t compact, uint64_t sync) {
    const uint32_t how = sync > 1 ? ELEPHANT_FILE_SYNC_ASKED : ELEPHANT_FILE_SYNC_EACH;
    elephant_file *f = opened(path, how);
    uint64_t number;
    if (!f) return 3;
    number = number_in(elephant_file_store(f));
    say("has", number);
    for (uint64_t made = 1; made <= count; made++) {
        if (!is_changed(f, &number)) break;
        if (made == count / 2) f = reopened(f, path, how, number);
        if (!f) return 3;
        if (sync > 1 && made % sync) continue;
        if (sync > 1 && !is_kept(f, elephant_file_sync)) break;
        say("ack", number);
        if (compact && !(made % compact)) is_kept(f, elephant_file_compact);
    }
    elephant_file_close(f);
    fprintf(stderr, "%lu calls\n", faults_counted());
    return 0;
}

/* What a reader sees is never older than what it saw before. */
static int peek(const char *path, uint64_t count) {
    const elephant_file_options options = {.read_only = 1};
    uint64_t last = 0;
    for (uint64_t seen = 0; seen < count; seen++) {
        elephant_file_fault fault;
        elephant_file *f;
        const int32_t code = elephant_file_open(path, &options, &f, &fault);
        uint64_t number;
        if (code) {
            complain(path, code, &fault);
            return 3;
        }
        number = number_in(elephant_file_store(f));
        elephant_file_close(f);
        WANT(number >= last);
        last = number;
    }
    say("has", last);
    return 0;
}

/* A store that was found must go on, and be found again. */
static int look(const char *path) {
    uint64_t number;
    elephant_file *f = opened(path, ELEPHANT_FILE_SYNC_EACH);
    if (!f) return 3;
    number = number_in(elephant_file_store(f));
    change(elephant_file_store(f), number + 1);
    WANT(is_kept(f, elephant_file_commit));
    elephant_file_close(f);
    f = opened(path, ELEPHANT_FILE_SYNC_EACH);
    if (!f) return 3;
    WANT(number_in(elephant_file_store(f)) == number + 1);
    elephant_file_close(f);
    say("has", number);
    return 0;
}

int main(int count, char **words) {
    static char line[4096];
    int wrong = 0;
    if (count == 7 && !strcmp(words[1], "run")) {
        versions = strtoull(words[6], NULL, 10);
        return run(words[2], strtoull(words[3], NULL, 10), strtoull(words[4], NULL, 10), strtoull(words[5], NULL, 10));
    }
    if (count == 4 && !strcmp(words[1], "peek")) return peek(words[2], strtoull(words[3], NULL, 10));
    if (count != 3 || strcmp(words[1], "check")) return 2;
    versions = strtoull(words[2], NULL, 10);
    while (fgets(line, sizeof line, stdin)) {
        line[strcspn(line, "\n")] = 0;
        if (look(line)) say("lost", (uint64_t)++wrong);
    }
    return wrong ? 3 : 0;
}
