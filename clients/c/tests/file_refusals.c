/* Refuses each allocation of each call of a store in a file. The call then says NO_MEMORY and can be made again, or it did without.
 *
 *     file_refusals FOLDER         makes its file in that folder */
#include <elephant_file.h>
#include "want.h"

#include <unistd.h>

static char path[4200];
static elephant_file *f;
static unsigned saved;

/* ---- Memory that is refused once ---- */

static long left = -1;
static int is_refused;

void *__real_malloc(size_t length);
void *__real_calloc(size_t count, size_t length);
void *__real_realloc(void *at, size_t length);
void *__wrap_malloc(size_t length);
void *__wrap_calloc(size_t count, size_t length);
void *__wrap_realloc(void *at, size_t length);

static int refuses(void) {
    if (left < 0 || left--) return 0;
    is_refused = 1;
    return 1;
}

void *__wrap_malloc(size_t length) {
    return refuses() ? NULL : __real_malloc(length);
}

void *__wrap_calloc(size_t count, size_t length) {
    return refuses() ? NULL : __real_calloc(count, length);
}

void *__wrap_realloc(void *at, size_t length) {
    return refuses() ? NULL : __real_realloc(at, length);
}

/* ---- Calls ---- */

static int32_t open_it(void) {
    elephant_file_fault fault;
    const int32_t code = elephant_file_open(path, NULL, &f, &fault);
    WANT(!code == !!f);
    return code;
}

static int32_t commit_it(void) {
    return elephant_file_commit(f);
}

static int32_t compact_it(void) {
    return elephant_file_compact(f);
}

static int32_t renew_it(void) {
    return elephant_file_renew(f);
}

static int32_t roll_back(void) {
    return elephant_file_rollback(f);
}

/* ---- What is there before each of them ---- */

static void change(unsigned char number) {
    static unsigned char content[3000];
    uint64_t version;
    content[0] = number;
    OK(elephant_save(elephant_file_store(f), TEXT("/f"), content, sizeof content, &version));
}

static void nothing_there(void) {
    if (f) elephant_file_close(f);
    f = NULL;
    unlink(path);
}

/* A file with a change. */
static void a_closed_file(void) {
    nothing_there();
    OK(open_it());
    change(1);
    OK(commit_it());
    elephant_file_close(f);
    f = NULL;
    saved = 1;
}

/* An open one, with a change under way. */
static void an_open_file(void) {
    a_closed_file();
    OK(open_it());
    change(2);
    saved = 2;
}

/* An open one whose change is to be given up. */
static void a_spoilt_file(void) {
    an_open_file();
    saved = 1;
}

static void want_saved(void) {
    unsigned char content[1];
    uint64_t length, copied;
    const int32_t code = elephant_read_into(elephant_file_store(f), TEXT("/f"), ELEPHANT_NOW, 0, 0, content, 1, &length, &copied);
    if (saved) WANT(!code && length == 3000 && content[0] == saved);
    else WANT(code == ELEPHANT_NO_ENTRY);
}

/* Makes a call with each of its allocations refused in turn, the last time with none. Returns how many it makes. */
static long refuse_each(void (*prepare)(void), int32_t (*call)(void)) {
    for (long at = 0;; at++) {
        int32_t code;
        saved = 0;
        prepare();
        is_refused = 0;
        left = at;
        code = call();
        left = -1;
        if (code) {
            WANT(code == ELEPHANT_NO_MEMORY && is_refused);
            OK(call());
        }
        want_saved();
        elephant_file_close(f);
        f = NULL;
        OK(open_it());
        want_saved();
        if (!is_refused) return at;
    }
}

int main(int count, char **words) {
    long made = 0;
    if (count != 2 || snprintf(path, sizeof path, "%s/refused", words[1]) >= (int)sizeof path) return 2;
    made += refuse_each(nothing_there, open_it);
    made += refuse_each(a_closed_file, open_it);
    made += refuse_each(an_open_file, commit_it);
    made += refuse_each(an_open_file, compact_it);
    made += refuse_each(an_open_file, renew_it);
    made += refuse_each(a_spoilt_file, roll_back);
    nothing_there();
    WANT(made >= 10);
    printf("%ld allocations refused\n", made);
    return 0;
}
