/* A store in a file: what an opening finds in a file that was cut or changed anywhere, who may open it, what a commit does if the file
 * isn't its own any more or the disk is full, and files that take its place.
 *
 *     files FOLDER         makes its files in that folder, which is empty
 */
#define _DEFAULT_SOURCE
#include <elephant_file.h>
#include "want.h"

#include <errno.h>
#include <fcntl.h>
#include <signal.h>
#include <stdbool.h>
#include <sys/resource.h>
#include <sys/stat.h>
#include <sys/wait.h>
#include <time.h>
#include <unistd.h>

enum { CHANGES = 6, MOST_CHANGE = 2000, BLOCK = 512, ROOM = 1 << 21, NAME = 4200 };
static const size_t sizes[CHANGES] = {600, 3, 1700, 40, 1024, 90};
static const char filling[] = "not written yet ";
static char folder[2000], path[NAME], other[NAME];

/* ---- Files ---- */

struct image {
    size_t length;
    unsigned char at[ROOM];
};

static char *in_folder(char *into, const char *name) {
    snprintf(into, NAME, "%s/%s", folder, name);
    return into;
}

static void load(struct image *image, const char *name) {
    FILE *file = fopen(name, "rb");
    WANT(file);
    image->length = fread(image->at, 1, ROOM, file);
    WANT(image->length < ROOM);
    fclose(file);
}

static void store(const struct image *image, size_t length, const char *name) {
    FILE *file = fopen(name, "wb");
    WANT(file);
    WANT(fwrite(image->at, 1, length, file) == length);
    WANT(!fclose(file));
}

static void want_holds(const char *name, const struct image *image, size_t from, size_t length) {
    static struct image has;
    load(&has, name);
    WANT(has.length == length && !memcmp(has.at, image->at + from, length));
}

static bool exists(const char *name) {
    return !access(name, F_OK);
}

static struct stat stat_of(const char *name) {
    struct stat found;
    WANT(!stat(name, &found));
    return found;
}

/* ---- Stores ---- */

static elephant_file *opened(const char *name, const elephant_file_options *options) {
    elephant_file_fault fault;
    elephant_file *f;
    OK(elephant_file_open(name, options, &f, &fault));
    return f;
}

static elephant_file_fault refused(int32_t wanted, const char *name, const elephant_file_options *options) {
    elephant_file_fault fault;
    elephant_file *f;
    CODE(wanted, elephant_file_open(name, options, &f, &fault));
    WANT(!f);
    return fault;
}

static elephant_file_info info_of(const elephant_file *f) {
    elephant_file_info info;
    elephant_file_look(f, &info);
    return info;
}

/* Change N saves bytes that begin with N, and a third of which are zeros. */
static void change(elephant_file *f, unsigned number) {
    static unsigned char content[MOST_CHANGE];
    const size_t length = sizes[number % CHANGES];
    uint64_t version;
    for (size_t at = 0; at < length; at++) content[at] = at % BLOCK < BLOCK / 3 ? 0 : (unsigned char)(at * 31 + number);
    content[0] = (unsigned char)number;
    OK(elephant_save(elephant_file_store(f), TEXT("/f"), content, length, &version));
}

/* Returns the change that the store was made by last, or 0. */
static unsigned number_in(const elephant_file *f) {
    unsigned char content[MOST_CHANGE];
    uint64_t length, copied;
    elephant *e = elephant_file_store((elephant_file *)f);
    const int32_t code = elephant_read_into(e, TEXT("/f"), ELEPHANT_NOW, 0, 0, content, sizeof content, &length, &copied);
    if (code == ELEPHANT_NO_ENTRY) return 0;
    WANT(!code && length == sizes[content[0] % CHANGES]);
    return content[0];
}

static void commit(elephant_file *f, unsigned number) {
    change(f, number);
    OK(elephant_file_commit(f));
}

static void want_has(const char *name, unsigned number) {
    const elephant_file_options options = {.read_only = 1};
    elephant_file *f = opened(name, &options);
    WANT(number_in(f) == number);
    elephant_file_close(f);
}

/* A file with all changes: how it is while it is open, how it is after that, and where the changes end. */
struct sample {
    struct image open, closed;
    size_t ends[CHANGES + 1];
};
static struct sample sample;

static void make_sample(void) {
    elephant_file *f = opened(in_folder(path, "sample"), NULL);
    sample.ends[0] = info_of(f).length;
    for (unsigned number = 1; number <= CHANGES; number++) {
        commit(f, number);
        sample.ends[number] = info_of(f).length;
    }
    load(&sample.open, path);
    elephant_file_close(f);
    load(&sample.closed, path);
    WANT(!unlink(path));
}

/* ---- A file that is made, and opened again ---- */

static void a_file_is_made_and_opened_again(void) {
    elephant_file *f = opened(in_folder(path, "made"), NULL);
    static struct image has;
    WANT(info_of(f).is_new && number_in(f) == 0 && (stat_of(path).st_mode & 07777) == 0600);
    WANT(info_of(f).length == info_of(f).start && info_of(f).cut == 0 && info_of(f).tidied == ELEPHANT_OK);
    OK(elephant_file_commit(f));
    WANT(info_of(f).length == info_of(f).start);
    commit(f, 1);
    WANT(info_of(f).length > info_of(f).start && (uint64_t)stat_of(path).st_size > info_of(f).length);
    change(f, 2);
    elephant_file_close(f);
    load(&has, path);
    WANT(has.length > 17 && !memcmp(has.at, "ELEPHANT JOURNAL\2", 17));
    f = opened(path, NULL);
    WANT(!info_of(f).is_new && number_in(f) == 1 && info_of(f).length == has.length && info_of(f).cut == 0);
    commit(f, 3);
    elephant_file_close(f);
    want_has(path, 3);
    WANT(!exists(in_folder(other, "made.elephant-new")));
}

static void an_empty_file_becomes_one(void) {
    elephant_file *f;
    store(&sample.open, 0, in_folder(path, "empty"));
    WANT(!chmod(path, 0640));
    f = opened(path, NULL);
    WANT(info_of(f).is_new && (stat_of(path).st_mode & 07777) == 0640);
    commit(f, 1);
    elephant_file_close(f);
    want_has(path, 1);
}

static void the_space_ahead_is_filled(void) {
    const size_t end = sample.ends[CHANGES];
    WANT(sample.closed.length == end && !memcmp(sample.closed.at, sample.open.at, end));
    WANT(sample.open.length >= sample.ends[1] + (1 << 16) && sample.open.length % 4096 == 0);
    for (size_t at = end; at < sample.open.length; at++) WANT(sample.open.at[at] == (unsigned char)filling[at % 16]);
}

static void no_file_is_refused(void) {
    const elephant_file_options look = {.read_only = 1};
    const elephant_limits too_many = {.versions = UINT64_MAX};
    const elephant_file_options limited = {.limits = &too_many};
    elephant_file_fault fault = refused(ELEPHANT_FILE_SYSTEM, in_folder(path, "none"), &look);
    WANT(fault.system == ENOENT && !strcmp(fault.call, "open") && !exists(path));
    refused(ELEPHANT_FILE_SYSTEM, in_folder(path, "none/none"), NULL);
    WANT(refused(ELEPHANT_FILE_SYSTEM, folder, NULL).system == EISDIR);
    refused(ELEPHANT_BAD_LIMITS, in_folder(path, "none"), &limited);
    WANT(!exists(path) && !exists(in_folder(other, "none.elephant-new")));
    WANT(!mkfifo(in_folder(path, "pipe"), 0600));
    refused(ELEPHANT_BAD_JOURNAL, path, NULL);
    store(&(struct image){.at = "a letter to Ms Weber"}, 20, in_folder(path, "letter"));
    refused(ELEPHANT_BAD_JOURNAL, path, NULL);
    WANT(stat_of(path).st_size == 20);
    WANT(!strncmp(elephant_file_code_text(ELEPHANT_FILE_LOCKED), "Locked: ", 8));
    WANT(!strncmp(elephant_file_code_text(ELEPHANT_NO_ENTRY), "NoEntry: ", 9));
}

/* ---- Other openers ---- */

/* It waits for the lock of the file that it opened, and then for that of the file that has taken its place. */
static void a_second_opener_waits(void) {
    const elephant_file_options patient = {.wait = 10000}, hasty = {.wait = 30};
    elephant_file *f = opened(in_folder(path, "locked"), NULL);
    pid_t child;
    refused(ELEPHANT_FILE_LOCKED, path, NULL);
    refused(ELEPHANT_FILE_LOCKED, path, &hasty);
    OK(elephant_file_compact(f));
    refused(ELEPHANT_FILE_LOCKED, path, NULL);
    elephant_file_close(f);
    child = fork();
    if (!child) {
        f = opened(path, NULL);
        commit(f, 1);
        store(&sample.open, 1, in_folder(other, "is locked"));
        nanosleep(&(struct timespec){0, 100000000}, NULL);
        OK(elephant_file_compact(f));
        nanosleep(&(struct timespec){0, 100000000}, NULL);
        commit(f, 2);
        elephant_file_close(f);
        _exit(0);
    }
    WANT(child > 0);
    while (!exists(in_folder(other, "is locked"))) nanosleep(&(struct timespec){0, 1000000}, NULL);
    f = opened(path, &patient);
    WANT(number_in(f) == 2);
    elephant_file_close(f);
    WANT(waitpid(child, NULL, 0) == child);
}

/* A child that has the file too, as one that is about to run a program, doesn't keep the lock. */
static void a_closed_file_is_free_at_once(void) {
    elephant_file *f = opened(in_folder(path, "free"), NULL);
    pid_t child = fork();
    if (!child) {
        nanosleep(&(struct timespec){60, 0}, NULL);
        _exit(0);
    }
    WANT(child > 0);
    commit(f, 1);
    elephant_file_close(f);
    f = opened(path, NULL);
    WANT(number_in(f) == 1);
    elephant_file_close(f);
    WANT(!kill(child, SIGKILL) && waitpid(child, NULL, 0) == child);
}

static void a_reader_changes_nothing(void) {
    const elephant_file_options look = {.read_only = 1};
    static struct image before;
    elephant_file *writer = opened(in_folder(path, "read"), NULL), *f;
    commit(writer, 1);
    load(&before, path);
    f = opened(path, &look);
    WANT(number_in(f) == 1 && info_of(f).cut == 0);
    change(f, 2);
    CODE(ELEPHANT_FILE_READ_ONLY, elephant_file_commit(f));
    CODE(ELEPHANT_FILE_READ_ONLY, elephant_file_compact(f));
    CODE(ELEPHANT_FILE_READ_ONLY, elephant_file_renew(f));
    CODE(ELEPHANT_FILE_READ_ONLY, elephant_file_tidy(f));
    OK(elephant_file_sync(f));
    want_holds(path, &before, 0, before.length);
    commit(writer, 3);
    WANT(number_in(f) == 2);
    OK(elephant_file_rollback(f));
    WANT(number_in(f) == 1);
    elephant_file_close(f);
    elephant_file_close(writer);
    WANT(!chmod(path, 0444));
    want_has(path, 3);
}

/* ---- Files that were cut or changed ---- */

/* Whether something was written there: neither zeros alone nor the filling alone. */
static bool has_written(const struct image *image, size_t from) {
    bool is_zero = true, is_filling = true;
    for (size_t at = from; at < image->length; at++) {
        is_zero &= !image->at[at];
        is_filling &= image->at[at] == (unsigned char)filling[at % 16];
    }
    return !is_zero && !is_filling;
}

/* The file opens with so many changes, and goes on. What it cuts off is told if something was written there. */
static void want_opens(unsigned number) {
    const elephant_file_options look = {.read_only = 1};
    static struct image had;
    elephant_file *f = opened(path, &look);
    uint64_t cut;
    load(&had, path);
    cut = info_of(f).cut;
    WANT(number_in(f) == number && (cut > 0) == has_written(&had, sample.ends[number]) && cut <= had.length - sample.ends[number]);
    elephant_file_close(f);
    f = opened(path, NULL);
    WANT(number_in(f) == number && info_of(f).cut == cut && info_of(f).length == sample.ends[number]);
    commit(f, 9);
    elephant_file_close(f);
    want_has(path, 9);
}

static void each_cut_leaves_the_whole_changes(void) {
    unsigned number = 0;
    in_folder(path, "cut");
    for (size_t length = 1; length <= sample.ends[CHANGES]; length++) {
        store(&sample.closed, length, path);
        if (length < sample.ends[0]) {
            refused(ELEPHANT_BAD_JOURNAL, path, NULL);
            WANT(stat_of(path).st_size == (off_t)length);
            continue;
        }
        if (length >= sample.ends[number + 1] && number < CHANGES) number++;
        want_opens(number);
    }
    WANT(number == CHANGES);
}

/* The file is refused with that place, and stays as it is. A repair copies what follows, and goes on before it. */
static void want_damaged(const struct image *image, unsigned before, unsigned *copies) {
    const elephant_file_options repairs = {.repair = 1}, looks = {.read_only = 1, .repair = 1};
    const size_t whole = sample.ends[before];
    char ending[40];
    elephant_file *f;
    store(image, image->length, path);
    WANT(refused(ELEPHANT_FILE_DAMAGED, path, NULL).place == whole);
    want_holds(path, image, 0, image->length);
    f = opened(path, &looks);
    WANT(number_in(f) == before);
    elephant_file_close(f);
    want_holds(path, image, 0, image->length);
    f = opened(path, &repairs);
    WANT(number_in(f) == before && info_of(f).length == whole && info_of(f).copy == ++*copies);
    elephant_file_close(f);
    want_holds(path, image, 0, whole);
    snprintf(ending, sizeof ending, "changed.damaged-%u", *copies);
    want_holds(in_folder(other, ending), image, whole, image->length - whole);
    WANT(!unlink(other));
    *copies -= 1;
}

/* A change of one byte in what was committed is damage, also of the last change. There is one way to turn a byte into what was there before
 * it was written, and that is left out. */
static void each_changed_byte_is_damage(struct image *image) {
    unsigned copies = 0;
    in_folder(path, "changed");
    for (unsigned number = CHANGES - 2; number <= CHANGES; number++) {
        for (size_t at = sample.ends[number - 1]; at < sample.ends[number]; at++) {
            const unsigned char was = image->at[at];
            image->at[at] = (unsigned char)(was ^ 1 << at % 8);
            if (image->at[at] == (unsigned char)filling[at % 16]) image->at[at] = (unsigned char)(was ^ 1 << (at + 1) % 8);
            want_damaged(image, number - 1, &copies);
            image->at[at] = was;
        }
    }
    for (size_t at = 0; at < sample.ends[0]; at++) {
        image->at[at] ^= 0x10;
        store(image, image->length, path);
        refused(ELEPHANT_BAD_JOURNAL, path, NULL);
        want_holds(path, image, 0, image->length);
        image->at[at] ^= 0x10;
    }
}

static void two_copies_have_two_names(void) {
    const elephant_file_options repairs = {.repair = 1};
    in_folder(path, "changed");
    for (unsigned number = 1; number <= 2; number++) {
        elephant_file *f;
        sample.closed.at[sample.ends[3]] ^= 1;
        store(&sample.closed, sample.closed.length, path);
        sample.closed.at[sample.ends[3]] ^= 1;
        f = opened(path, &repairs);
        WANT(info_of(f).copy == number);
        elephant_file_close(f);
    }
    WANT(exists(in_folder(other, "changed.damaged-1")) && exists(in_folder(other, "changed.damaged-2")));
}

static void unwrite(struct image *image, size_t from, size_t end) {
    for (size_t at = from; at < end; at++) image->at[at] = (unsigned char)filling[at % 16];
}

/* A change that was written up to any place, and then the program was killed. */
static void each_torn_change_is_cut_off(void) {
    static struct image torn;
    in_folder(path, "torn");
    for (unsigned number = CHANGES - 2; number <= CHANGES; number++) {
        torn = sample.open;
        unwrite(&torn, sample.ends[number], sample.ends[CHANGES]);
        for (size_t end = sample.ends[number]; end-- > sample.ends[number - 1];) {
            unwrite(&torn, end, end + 1);
            store(&torn, torn.length, path);
            want_opens(number - 1);
        }
    }
}

/* A change of which any blocks were written, and others not. The last block of the file that has a part of it may be one of them. */
static void each_change_with_a_hole_is_cut_off(void) {
    static struct image torn;
    in_folder(path, "torn");
    for (unsigned number = 1; number <= CHANGES; number++) {
        const size_t from = sample.ends[number - 1], end = sample.ends[number];
        const size_t first = from / BLOCK, count = (end - 1) / BLOCK - first + 1;
        for (unsigned lacks = 1; lacks < 1u << count; lacks++) {
            elephant_file *f;
            torn = sample.open;
            unwrite(&torn, end, sample.ends[CHANGES]);
            for (size_t at = from; at < end; at++) {
                if (lacks >> (at / BLOCK - first) & 1) unwrite(&torn, at, at + 1);
            }
            store(&torn, torn.length, path);
            f = opened(path, NULL);
            WANT(number_in(f) == number - 1 && info_of(f).cut <= end - from);
            elephant_file_close(f);
        }
    }
}

/* A hole in a later change doesn't hide damage in one before it. */
static void damage_before_a_hole_is_damage(void) {
    static struct image torn;
    unsigned copies = 0;
    in_folder(path, "changed");
    WANT(!unlink(in_folder(other, "changed.damaged-1")) && !unlink(in_folder(other, "changed.damaged-2")));
    torn = sample.open;
    unwrite(&torn, sample.ends[4] + 100, sample.ends[4] + 1024);
    torn.at[sample.ends[3] - 9] ^= 4;
    want_damaged(&torn, 2, &copies);
}

/* A content may have the bytes with which a block of the filling ends, as text with its spaces does. */
static void text_in_a_damaged_change_is_no_hole(void) {
    static unsigned char spaces[MOST_CHANGE];
    static struct image image;
    elephant_file *f = opened(in_folder(path, "text"), NULL);
    const uint64_t whole = info_of(f).length;
    uint64_t version;
    memset(spaces, ' ', sizeof spaces);
    OK(elephant_save(elephant_file_store(f), TEXT("/f"), spaces, sizeof spaces, &version));
    OK(elephant_file_commit(f));
    commit(f, 2);
    for (int is_open = 1; is_open >= 0; is_open--) {
        if (!is_open) elephant_file_close(f);
        load(&image, path);
        for (size_t at = whole; at < whole + sizeof spaces; at += 37) {
            image.at[at] ^= 1;
            store(&image, image.length, in_folder(other, "damaged text"));
            WANT(refused(ELEPHANT_FILE_DAMAGED, other, NULL).place == whole);
            image.at[at] ^= 1;
        }
    }
}

/* An extension of the file that a power failure stopped may leave zeros after the filling, and no change was there yet. */
static void unfilled_space_is_no_damage(void) {
    static struct image zeros;
    elephant_file *f;
    in_folder(path, "zeros");
    zeros = sample.open;
    memset(zeros.at + (zeros.length - 8192), 0, 8192);
    store(&zeros, zeros.length, path);
    f = opened(path, NULL);
    WANT(number_in(f) == CHANGES && info_of(f).cut == 0);
    commit(f, 9);
    elephant_file_close(f);
    want_has(path, 9);
}

/* A disk that lost what was committed may give zeros for it. */
static void zeros_in_place_of_a_change_are_damage(void) {
    static struct image zeros;
    unsigned copies = 0;
    in_folder(path, "changed");
    for (int is_open = 0; is_open < 2; is_open++) {
        zeros = is_open ? sample.open : sample.closed;
        memset(zeros.at + sample.ends[CHANGES - 1], 0, sample.ends[CHANGES] - sample.ends[CHANGES - 1]);
        want_damaged(&zeros, CHANGES - 1, &copies);
    }
}

/* ---- A file that isn't ours any more ---- */

static void want_lost(elephant_file *f) {
    CODE(ELEPHANT_FILE_LOST, elephant_file_commit(f));
    CODE(ELEPHANT_FILE_LOST, elephant_file_compact(f));
    WANT(!exists(in_folder(other, "mine.elephant-new")));
}

static void a_lost_file_is_told(void) {
    static struct image copy;
    char away[NAME];
    elephant_file *f = opened(in_folder(path, "mine"), NULL);
    struct stat had;
    commit(f, 1);
    had = stat_of(path);
    WANT(!rename(path, in_folder(away, "away")));
    change(f, 2);
    want_lost(f);
    store(&sample.closed, sample.closed.length, path);
    want_lost(f);
    want_holds(path, &sample.closed, 0, sample.closed.length);
    load(&copy, away);
    store(&copy, copy.length, path);
    want_lost(f);
    WANT(!rename(away, path));
    WANT(!truncate(path, had.st_size - 1));
    want_lost(f);
    WANT(!truncate(path, had.st_size + 1));
    want_lost(f);
    WANT(!truncate(path, had.st_size));
    elephant_file_close(f);
    want_has(path, 1);
}

/* ---- Notes ---- */

static void a_note_is_in_the_history(void) {
    static const char wanted[] = "ok history 1 1\n- note 7469636b65742037\n";
    const elephant_file_options with_history = {.history = 1};
    elephant_file *f = opened(in_folder(path, "noted"), NULL);
    char told[sizeof wanted] = "";
    uint64_t length, copied;
    OK(elephant_note(elephant_file_store(f), TEXT("ticket 7")));
    OK(elephant_file_commit(f));
    elephant_file_close(f);
    f = opened(path, &with_history);
    OK(elephant_line(elephant_file_store(f), TEXT("history"), &length));
    OK(elephant_answer(elephant_file_store(f), 0, told, sizeof told - 1, &copied));
    WANT(length == strlen(wanted) && !strcmp(told, wanted));
    elephant_file_close(f);
}

/* ---- A full disk ---- */

static void limit_files(rlim_t most) {
    struct rlimit limit;
    WANT(!getrlimit(RLIMIT_FSIZE, &limit));
    limit.rlim_cur = most;
    WANT(!setrlimit(RLIMIT_FSIZE, &limit));
}

static void a_full_disk_leaves_the_file(void) {
    elephant_file_fault fault;
    elephant_file *f = opened(in_folder(path, "full"), NULL);
    uint64_t length;
    signal(SIGXFSZ, SIG_IGN);
    commit(f, 1);
    length = info_of(f).length;
    elephant_file_close(f);
    f = opened(path, NULL);
    for (rlim_t more = 0; more < 40; more += 13) {
        limit_files(length + more);
        change(f, 2);
        CODE(ELEPHANT_FILE_SYSTEM, elephant_file_commit(f));
        elephant_file_last_fault(f, &fault);
        WANT(fault.system == EFBIG && !strcmp(fault.call, "pwrite") && (uint64_t)stat_of(path).st_size == length);
        want_has(path, 1);
        WANT(number_in(f) == 2);
        CODE(ELEPHANT_FILE_SYSTEM, elephant_file_compact(f));
        WANT(!exists(in_folder(other, "full.elephant-new")));
    }
    limit_files(length + 20000);
    OK(elephant_file_commit(f));
    want_has(path, 2);
    WANT((uint64_t)stat_of(path).st_size == info_of(f).length);
    limit_files(RLIM_INFINITY);
    commit(f, 3);
    elephant_file_close(f);
    want_has(path, 3);
}

static void a_change_is_rolled_back(void) {
    elephant_file *f = opened(in_folder(path, "back"), NULL);
    commit(f, 1);
    change(f, 2);
    OK(elephant_file_rollback(f));
    WANT(number_in(f) == 1);
    commit(f, 3);
    OK(elephant_file_rollback(f));
    WANT(number_in(f) == 3);
    elephant_file_close(f);
    want_has(path, 3);
}

/* ---- Files that take the place of one ---- */

static void a_compaction_keeps_mode_and_owner(void) {
    const bool is_root = !geteuid();
    struct stat had;
    elephant_file *f = opened(in_folder(path, "kept"), NULL);
    WANT(!chmod(path, 0640) && (!is_root || !chown(path, 1234, 4321)));
    for (unsigned number = 1; number < 40; number++) commit(f, number);
    had = stat_of(path);
    store(&sample.open, 99, in_folder(other, "kept.elephant-new"));
    change(f, 40);
    OK(elephant_file_compact(f));
    WANT((stat_of(path).st_mode & 07777) == 0640 && stat_of(path).st_uid == had.st_uid && stat_of(path).st_gid == had.st_gid);
    WANT(info_of(f).compactions == 1 && info_of(f).length == info_of(f).start && stat_of(path).st_ino != had.st_ino);
    WANT((uint64_t)stat_of(path).st_size == info_of(f).length && info_of(f).length < (uint64_t)had.st_size && !exists(other));
    want_has(path, 40);
    commit(f, 41);
    elephant_file_close(f);
    want_has(path, 41);
}

/* A kill may leave the file that was to take the place of one. */
static void an_opening_removes_what_a_kill_left(void) {
    elephant_file_close(opened(in_folder(path, "left"), NULL));
    store(&sample.open, 99, in_folder(other, "left.elephant-new"));
    want_has(path, 0);
    WANT(exists(other));
    elephant_file_close(opened(path, NULL));
    WANT(!exists(other));
}

static void a_link_stays_a_link(void) {
    struct stat found;
    elephant_file *f;
    WANT(!symlink("kept", in_folder(path, "link")));
    f = opened(path, NULL);
    OK(elephant_file_compact(f));
    commit(f, 42);
    elephant_file_close(f);
    WANT(!lstat(path, &found) && S_ISLNK(found.st_mode));
    want_has(in_folder(other, "kept"), 42);
}

/* Saves of 20,000 bytes, until the file is compacted by itself, or is long. Of each the store is to hold only the last. */
static void a_long_file_is_compacted(bool is_kept_long) {
    static unsigned char content[20000];
    const elephant_file_options options = {.no_compaction = is_kept_long, .sync = ELEPHANT_FILE_SYNC_ASKED};
    elephant_file *f = opened(in_folder(path, is_kept_long ? "kept long" : "long"), &options);
    uint64_t version, removed, finished, longest = 0;
    OK(elephant_default(elephant_file_store(f), TEXT("/"), TEXT("one")));
    for (unsigned saves = 0; saves < 120; saves++) {
        content[0] = (unsigned char)saves;
        OK(elephant_save(elephant_file_store(f), TEXT("/long"), content, sizeof content, &version));
        OK(elephant_pass(elephant_file_store(f), 100, &removed, &finished));
        OK(elephant_file_commit(f));
        if (info_of(f).length > longest) longest = info_of(f).length;
    }
    OK(elephant_file_sync(f));
    if (is_kept_long) {
        WANT(info_of(f).compactions == 0 && longest > 2000000);
    } else {
        WANT(info_of(f).compactions == 2 && longest < 1 << 20 && info_of(f).tidied == ELEPHANT_OK && info_of(f).length > info_of(f).start);
    }
    elephant_file_close(f);
    f = opened(path, NULL);
    OK(elephant_read(elephant_file_store(f), TEXT("/long"), ELEPHANT_NOW, 0, &version));
    WANT(version == sizeof content);
    elephant_file_close(f);
}

/* ---- Renewal ---- */

static const elephant_limits few = {.files = 20, .directories = 5, .names = 40, .versions = 20, .handles = 30, .groups = 1, .members = 1,
                                    .marks = 1};

static uint64_t versions_of(elephant_file *f) {
    elephant_counts_row row;
    OK(elephant_counts(elephant_file_store(f), &row));
    return row.versions;
}

/* A change of a store that is to hold only the newest versions. */
static void change_short(elephant_file *f, unsigned number) {
    uint64_t removed, finished;
    OK(elephant_default(elephant_file_store(f), TEXT("/"), TEXT("one")));
    change(f, number);
    OK(elephant_pass(elephant_file_store(f), 100, &removed, &finished));
}

static void a_renewal_gives_fresh_numbers(void) {
    const elephant_file_options options = {.limits = &few, .no_renewal = 1};
    elephant_file *f = opened(in_folder(path, "renewed"), &options);
    uint64_t handle, version;
    for (unsigned number = 1; number < 19; number++) {
        change_short(f, number);
        OK(elephant_file_commit(f));
    }
    WANT(versions_of(f) == 19 && info_of(f).renewals == 0);
    elephant_file_close(f);
    f = opened(path, &options);
    WANT(versions_of(f) == 19 && info_of(f).renewals == 0);
    OK(elephant_open_read(elephant_file_store(f), TEXT("/f"), ELEPHANT_NOW, 0, &handle));
    CODE(ELEPHANT_HANDLES_OPEN, elephant_file_renew(f));
    WANT(versions_of(f) == 19 && info_of(f).renewals == 0);
    OK(elephant_close_handle(elephant_file_store(f), handle, &version));
    OK(elephant_file_renew(f));
    WANT(versions_of(f) == 1 && info_of(f).renewals == 1 && info_of(f).compactions == 0 && number_in(f) == 18);
    want_has(path, 18);
    change_short(f, 19);
    OK(elephant_file_commit(f));
    elephant_file_close(f);
    f = opened(path, &options);
    WANT(versions_of(f) == 2 && number_in(f) == 19);
    elephant_file_close(f);
}

/* A renewal is refused while a handle is open. It is tried again before the store is full. */
static void an_open_handle_puts_a_renewal_off(void) {
    const elephant_file_options options = {.limits = &few};
    elephant_file *f = opened(in_folder(path, "put off"), &options);
    uint64_t handle = 0, version;
    for (unsigned number = 1; number < 18; number++) {
        change_short(f, number);
        if (number == 16) OK(elephant_open_read(elephant_file_store(f), TEXT("/f"), ELEPHANT_NOW, 0, &handle));
        OK(elephant_file_commit(f));
    }
    WANT(versions_of(f) == 18 && info_of(f).renewals == 0 && info_of(f).tidied == ELEPHANT_HANDLES_OPEN);
    CODE(ELEPHANT_HANDLES_OPEN, elephant_file_renew(f));
    change_short(f, 18);
    OK(elephant_file_commit(f));
    WANT(versions_of(f) == 19 && info_of(f).renewals == 0);
    OK(elephant_close_handle(elephant_file_store(f), handle, &version));
    change_short(f, 19);
    OK(elephant_file_commit(f));
    WANT(versions_of(f) == 1 && info_of(f).renewals == 1 && info_of(f).tidied == ELEPHANT_OK && number_in(f) == 19);
    elephant_file_close(f);
}

/* With no compaction and no renewal by itself, a program chooses its own moment for them. */
static void only_a_call_tidies(void) {
    static unsigned char content[100000];
    const elephant_file_options options = {.limits = &few, .no_renewal = 1, .no_compaction = 1};
    elephant_file *f = opened(in_folder(path, "tidied"), &options);
    uint64_t version;
    OK(elephant_file_tidy(f));
    WANT(info_of(f).compactions == 0 && info_of(f).renewals == 0);
    for (unsigned number = 1; number < 18; number++) {
        change_short(f, number);
        OK(elephant_save(elephant_file_store(f), TEXT("/long"), content, number == 1 ? 0 : sizeof content, &version));
        OK(elephant_pass(elephant_file_store(f), 100, &(uint64_t){0}, &(uint64_t){0}));
        OK(elephant_file_commit(f));
        if (versions_of(f) > 17) break;
    }
    WANT(info_of(f).compactions == 0 && info_of(f).renewals == 0);
    OK(elephant_file_tidy(f));
    WANT(info_of(f).renewals == 1 && info_of(f).compactions == 0 && versions_of(f) == 2);
    for (unsigned number = 1; number < 13; number++) {
        OK(elephant_save(elephant_file_store(f), TEXT("/long"), content, sizeof content, &version));
        OK(elephant_pass(elephant_file_store(f), 100, &(uint64_t){0}, &(uint64_t){0}));
        OK(elephant_file_commit(f));
    }
    WANT(info_of(f).length > 1200000 && info_of(f).compactions == 0);
    OK(elephant_file_tidy(f));
    WANT(info_of(f).length < 200000 && info_of(f).compactions == 1 && info_of(f).renewals == 1);
    OK(elephant_file_tidy(f));
    WANT(info_of(f).compactions == 1 && info_of(f).renewals == 1);
    elephant_file_close(f);
}

static void a_store_goes_on_by_itself(void) {
    const elephant_file_options options = {.limits = &few};
    elephant_file *f = opened(in_folder(path, "goes on"), &options);
    for (unsigned number = 1; number < 200; number++) {
        change_short(f, number);
        OK(elephant_file_commit(f));
        WANT(versions_of(f) < 18);
    }
    WANT(info_of(f).renewals >= 10 && info_of(f).tidied == ELEPHANT_OK);
    elephant_file_close(f);
    want_has(path, 199);
}

/* A kill may come between the commit and the renewal. The limits are those of the file. */
static void an_opening_renews_by_itself(void) {
    const elephant_file_options options = {.limits = &few, .no_renewal = 1};
    elephant_file *f = opened(in_folder(path, "nearly full"), &options);
    for (unsigned number = 1; number < 19; number++) {
        change_short(f, number);
        OK(elephant_file_commit(f));
    }
    elephant_file_close(f);
    f = opened(path, NULL);
    WANT(versions_of(f) == 1 && info_of(f).renewals == 1 && number_in(f) == 18);
    elephant_file_close(f);
}

/* If half of the limit is held, a renewal would soon be due again. */
static void a_full_store_is_not_renewed(void) {
    const elephant_file_options options = {.limits = &few};
    elephant_file *f = opened(in_folder(path, "full of files"), &options);
    uint64_t version;
    for (unsigned number = 0; number < 10; number++) {
        const char name[3] = {'/', (char)('a' + number), 0};
        OK(elephant_default(elephant_file_store(f), TEXT("/"), TEXT("one")));
        OK(elephant_save(elephant_file_store(f), TEXT(name), "x", 1, &version));
        OK(elephant_pass(elephant_file_store(f), 100, &(uint64_t){0}, &(uint64_t){0}));
    }
    OK(elephant_file_commit(f));
    WANT(info_of(f).renewals == 0 && versions_of(f) == 20);
    CODE(ELEPHANT_FULL, elephant_save(elephant_file_store(f), TEXT("/k"), "x", 1, &version));
    elephant_file_close(f);
}

int main(int count, char **words) {
    if (count != 2 || strlen(words[1]) >= sizeof folder) return 2;
    strcpy(folder, words[1]);
    make_sample();
    a_file_is_made_and_opened_again();
    an_empty_file_becomes_one();
    the_space_ahead_is_filled();
    no_file_is_refused();
    a_second_opener_waits();
    a_closed_file_is_free_at_once();
    a_reader_changes_nothing();
    each_cut_leaves_the_whole_changes();
    each_changed_byte_is_damage(&sample.closed);
    each_changed_byte_is_damage(&sample.open);
    two_copies_have_two_names();
    each_torn_change_is_cut_off();
    each_change_with_a_hole_is_cut_off();
    damage_before_a_hole_is_damage();
    text_in_a_damaged_change_is_no_hole();
    unfilled_space_is_no_damage();
    zeros_in_place_of_a_change_are_damage();
    a_lost_file_is_told();
    a_note_is_in_the_history();
    a_full_disk_leaves_the_file();
    a_change_is_rolled_back();
    a_compaction_keeps_mode_and_owner();
    an_opening_removes_what_a_kill_left();
    a_link_stays_a_link();
    a_long_file_is_compacted(false);
    a_long_file_is_compacted(true);
    a_renewal_gives_fresh_numbers();
    an_open_handle_puts_a_renewal_off();
    only_a_call_tidies();
    a_store_goes_on_by_itself();
    an_opening_renews_by_itself();
    a_full_store_is_not_renewed();
    puts("files: as the header says");
    return 0;
}
