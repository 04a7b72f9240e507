/* Refuses each allocation of each call in turn, once alone and once with all that follow. The call then returns ELEPHANT_NO_MEMORY
 * and writes nothing at its pointers. The store is as it was: it answers each question as before. Then the test makes the call again,
 * with memory. It is linked so that malloc and realloc call the functions here. */

#include "want.h"

/* How many allocations succeed before one is refused (negative: all succeed), and whether all that follow are refused too. */
static long left = -1;
static int all_after;
static unsigned long refused, seen, calls;

void *__real_malloc(size_t size);
void *__real_realloc(void *at, size_t size);

static int refuses(void) {
    if (left != 0) {
        left -= left > 0;
        return 0;
    }
    left = all_after ? 0 : -1;
    seen++;
    return 1;
}

void *__wrap_malloc(size_t size) {
    return refuses() ? NULL : __real_malloc(size);
}

void *__wrap_realloc(void *at, size_t size) {
    return refuses() ? NULL : __real_realloc(at, size);
}

/* ---- The state of a store: the answers to all questions ---- */

#define MOST (1 << 16)
/* The text of an answer that has so many bytes takes no memory. */
#define SHORT 8192

struct told {
    size_t length;
    char text[MOST];
};

static void tell(struct told *told, elephant *e, const char *line) {
    uint64_t length, copied;
    OK(elephant_line(e, TEXT(line), &length));
    WANT(told->length + length <= MOST);
    OK(elephant_answer(e, 0, told->text + told->length, length, &copied));
    WANT(copied == length);
    told->length += copied;
}

static const char *const questions[] = {
    "list /",       "list /d",     "restorable", "due",         "usage",      "groups",     "ahead 2000000", "stat /",     "stat /d",
    "versions /f",  "versions /d/a", "stat /f",  "stat /d/a",   "read /f",    "read /d/a",  "read /f#1",     "read /f#2",  "read /f#3",
    "read /d/a#1",  "read /d/a#2", "read 1",     "read 2",      "read 3",     "read 4",     "why /f#1",      "why /f#2",   "versions /new",
    "read /new",    "list /new",   "list /@1",   "versions /f@1", "story /f", "story /d/a", "story /new",
    "why /h#2",
};

static void tell_all(struct told *told, elephant *e) {
    uint64_t moment;
    told->length = 0;
    OK(elephant_now(e, &moment));
    told->length += (size_t)snprintf(told->text, MOST, "%llu\n", (unsigned long long)moment);
    for (size_t at = 0; at < sizeof questions / sizeof *questions; at++) tell(told, e, questions[at]);
}

static struct told before, after;

/* ---- The calls ---- */

/* The results of calls. A refused call leaves them as they were. */
static struct {
    uint64_t number, other;
    elephant_stat_row stat;
    elephant_why_row why;
    elephant_key key;
    char bytes[64];
} out, kept;

static char large[20000];

/* One call with all its arguments, on the store that `ready` makes. */
struct attempt {
    const char *name;
    int32_t (*make)(elephant *e);
};

#define ATTEMPT(name, call) \
    static int32_t name(elephant *e) { return call; }

ATTEMPT(clock_on, elephant_clock(e, 1000))
ATTEMPT(clock_far, elephant_clock(e, 1900000))
ATTEMPT(tick, elephant_tick(e, 5))
ATTEMPT(mkdir_new, elephant_mkdir(e, TEXT("/new"), &out.number))
ATTEMPT(rmdir_empty, elephant_rmdir(e, TEXT("/empty")))
ATTEMPT(create, elephant_create(e, TEXT("/new"), &out.number))
ATTEMPT(link_file, elephant_link(e, TEXT("/f"), TEXT("/new")))
ATTEMPT(unlink_file, elephant_unlink(e, TEXT("/d/a")))
ATTEMPT(rename_file, elephant_rename(e, TEXT("/f"), TEXT("/new")))
ATTEMPT(rename_directory, elephant_rename(e, TEXT("/d"), TEXT("/new")))
ATTEMPT(undelete, elephant_undelete(e, TEXT("/dead"), &out.number))
ATTEMPT(open_write, elephant_open_write(e, TEXT("/f"), &out.number))
ATTEMPT(write_small, elephant_write(e, 4, 2, TEXT("xyz")))
ATTEMPT(write_large, elephant_write(e, 4, 300, large, sizeof large))
ATTEMPT(write_none, elephant_write(e, 4, 0, "", 0))
ATTEMPT(truncate_down, elephant_truncate(e, 4, 1))
ATTEMPT(truncate_up, elephant_truncate(e, 4, 9000))
ATTEMPT(close_changed, elephant_close_handle(e, 4, &out.number))
ATTEMPT(close_reader, elephant_close_handle(e, 3, &out.number))
ATTEMPT(revert, elephant_revert(e, TEXT("/f"), 2, &out.number))
ATTEMPT(abandon, elephant_abandon(e, 4))
ATTEMPT(note, elephant_note(e, TEXT("ticket 7")))
ATTEMPT(save_over, elephant_save(e, TEXT("/f"), TEXT("xyz"), &out.number))
ATTEMPT(save_large, elephant_save(e, TEXT("/f"), large, sizeof large, &out.number))
ATTEMPT(save_none, elephant_save(e, TEXT("/f"), "", 0, &out.number))
ATTEMPT(save_new, elephant_save(e, TEXT("/new"), large, 1000, &out.number))
ATTEMPT(restore_own, elephant_restore(e, TEXT("/f"), 1, &out.number))
ATTEMPT(restore_dead, elephant_restore(e, TEXT("/dead"), 1, &out.number))
ATTEMPT(restore_left, elephant_restore(e, TEXT("/left"), 1, &out.number))
ATTEMPT(open_read, elephant_open_read(e, TEXT("/f"), ELEPHANT_AT, 1, &out.number))
ATTEMPT(read_now, elephant_read(e, TEXT("/f"), ELEPHANT_NOW, 0, &out.number))
ATTEMPT(read_handle, elephant_read_handle(e, 4, &out.number))
ATTEMPT(read_into, elephant_read_into(e, TEXT("/f"), ELEPHANT_NOW, 0, 0, out.bytes, sizeof out.bytes, &out.number, &out.other))
ATTEMPT(read_handle_into, elephant_read_handle_into(e, 4, 0, out.bytes, sizeof out.bytes, &out.number, &out.other))
ATTEMPT(stat_version, elephant_stat(e, TEXT("/f"), ELEPHANT_VERSION, 2, &out.stat))
ATTEMPT(stat_directory, elephant_stat(e, TEXT("/d"), ELEPHANT_NOW, 0, &out.stat))
ATTEMPT(versions, elephant_versions(e, TEXT("/f"), ELEPHANT_NOW, 0, &out.number))
ATTEMPT(list, elephant_list(e, TEXT("/"), ELEPHANT_AT, 1, &out.number))
ATTEMPT(restorable, elephant_restorable(e, &out.number))
ATTEMPT(due, elephant_due(e, &out.number))
ATTEMPT(ahead, elephant_ahead(e, 2000000, &out.number))
ATTEMPT(usage, elephant_usage(e, &out.number))
ATTEMPT(policy_one, elephant_policy(e, TEXT("/f"), TEXT("one")))
ATTEMPT(policy_ladder, elephant_policy(e, TEXT("/f"), TEXT("landmarks:10/5,40/50")))
ATTEMPT(default_safe, elephant_default(e, TEXT("/d"), TEXT("safe:9/3")))
ATTEMPT(group_make, elephant_group_make(e, TEXT("new")))
ATTEMPT(group_drop, elephant_group_drop(e, TEXT("g")))
ATTEMPT(group_add, elephant_group_add(e, TEXT("g"), TEXT("/d/a")))
ATTEMPT(group_remove, elephant_group_remove(e, TEXT("g"), TEXT("/f")))
ATTEMPT(mark, elephant_mark(e, TEXT("g"), 20, ELEPHANT_NEVER))
ATTEMPT(mark_until, elephant_mark(e, TEXT("g"), 21, 500))
ATTEMPT(unmark, elephant_unmark(e, TEXT("g"), 5))
ATTEMPT(groups, elephant_groups(e, &out.number))
ATTEMPT(why, elephant_why(e, TEXT("/f"), ELEPHANT_VERSION, 2, &out.why))
ATTEMPT(why_held, elephant_why(e, TEXT("/h"), ELEPHANT_VERSION, 2, &out.why))
ATTEMPT(clean, elephant_clean(e, &out.key))
ATTEMPT(checkpoint, elephant_checkpoint(e, &out.number))
ATTEMPT(directory_across, elephant_directory_across(e, 2, &out.number))
ATTEMPT(file_across, elephant_file_across(e, 2, &out.number))
ATTEMPT(version_across, elephant_version_across(e, 1, 2, &out.number))
ATTEMPT(journal_begin, elephant_journal_begin(e, &out.number))
ATTEMPT(journal_pending, elephant_journal_pending(e, &out.number))
ATTEMPT(journal_compact, elephant_journal_compact(e, &out.number))

#define NAMED(name) {#name, name}

static const struct attempt attempts[] = {
    NAMED(clock_on),       NAMED(clock_far),     NAMED(tick),          NAMED(mkdir_new),     NAMED(rmdir_empty),  NAMED(create),
    NAMED(link_file),      NAMED(unlink_file),   NAMED(rename_file),   NAMED(rename_directory), NAMED(undelete),  NAMED(open_write),
    NAMED(write_small),    NAMED(write_large),   NAMED(write_none),    NAMED(truncate_down), NAMED(truncate_up),  NAMED(close_changed),
    NAMED(close_reader),   NAMED(revert),        NAMED(open_read),     NAMED(read_now),      NAMED(read_handle),  NAMED(stat_version),
    NAMED(stat_directory), NAMED(versions),      NAMED(list),          NAMED(restorable),    NAMED(due),          NAMED(ahead),
    NAMED(usage),          NAMED(policy_one),    NAMED(policy_ladder), NAMED(default_safe),  NAMED(group_make),   NAMED(group_drop),
    NAMED(group_add),      NAMED(group_remove),  NAMED(mark),          NAMED(mark_until),    NAMED(unmark),       NAMED(groups),
    NAMED(why),            NAMED(clean),         NAMED(read_into),     NAMED(read_handle_into), NAMED(abandon),   NAMED(save_over),
    NAMED(save_large),     NAMED(save_none),     NAMED(save_new),      NAMED(restore_own),   NAMED(restore_dead), NAMED(restore_left),
    NAMED(checkpoint),     NAMED(directory_across), NAMED(file_across), NAMED(version_across), NAMED(note),
    NAMED(why_held),
};

/* Those of a store without a journal, and of one with a journal. */
static const struct attempt of_begin[] = {NAMED(journal_begin)}, of_journal[] = {NAMED(journal_pending), NAMED(journal_compact)};

/* Whether the stores have a journal, with a change under way. */
static int journaled;

/* A store in which each of these calls has something to do. */
static elephant *ready(uint32_t history) {
    elephant *e = fresh(history);
    uint64_t number;
    OK(elephant_default(e, TEXT("/"), TEXT("safe:1000000")));
    OK(elephant_create(e, TEXT("/f"), &number));
    save(e, "/f", "one", 3);
    OK(elephant_mkdir(e, TEXT("/d"), &number));
    OK(elephant_mkdir(e, TEXT("/empty"), &number));
    OK(elephant_create(e, TEXT("/d/a"), &number));
    save(e, "/d/a", large, 5000);
    OK(elephant_create(e, TEXT("/dead"), &number));
    OK(elephant_link(e, TEXT("/f"), TEXT("/left")));
    OK(elephant_save(e, TEXT("/h"), TEXT("first"), &number));
    OK(elephant_tick(e, 10));
    OK(elephant_save(e, TEXT("/h"), TEXT("second"), &number));
    OK(elephant_policy(e, TEXT("/h"), TEXT("one")));
    OK(elephant_group_make(e, TEXT("k")));
    OK(elephant_group_add(e, TEXT("k"), TEXT("/h")));
    OK(elephant_mark(e, TEXT("k"), 5, 30));
    OK(elephant_unlink(e, TEXT("/dead")));
    OK(elephant_unlink(e, TEXT("/left")));
    OK(elephant_group_make(e, TEXT("g")));
    OK(elephant_group_add(e, TEXT("g"), TEXT("/f")));
    OK(elephant_mark(e, TEXT("g"), 5, ELEPHANT_NEVER));
    OK(elephant_mark(e, TEXT("g"), 6, 60));
    OK(elephant_clock(e, 40));
    OK(elephant_open_read(e, TEXT("/f"), ELEPHANT_NOW, 0, &number));
    WANT(number == 3);
    OK(elephant_open_write(e, TEXT("/d/a"), &number));
    WANT(number == 4);
    OK(elephant_write(e, 4, 0, TEXT("draft")));
    OK(elephant_create(e, TEXT("/g"), &number));
    save(e, "/g", "first", 5);
    OK(elephant_policy(e, TEXT("/g"), TEXT("one")));
    if (journaled) {
        OK(elephant_journal_begin(e, &number));
        OK(elephant_tick(e, 0));
    }
    return e;
}

/* How many events a store with a history has answered. */
static uint64_t answered(elephant *e, uint32_t history) {
    uint64_t folded = 0, entries = 0;
    if (history) OK(elephant_history(e, &folded, &entries));
    return folded + entries;
}

static struct told given, given_again;

/* The bytes of the change under way. */
static void give(struct told *told, elephant *e) {
    uint64_t length, copied;
    told->length = 0;
    if (!journaled) return;
    OK(elephant_journal_pending(e, &length));
    OK(elephant_answer(e, 0, told->text, MOST, &copied));
    WANT(copied == length && length > 0);
    told->length = length;
}

/* Makes the call with one of its allocations refused, and then with memory. Returns whether it asked for so many. */
static int refuse_one(const struct attempt *it, long growth, uint32_t history) {
    elephant *e = ready(history);
    uint64_t events;
    int32_t code;
    tell_all(&before, e);
    give(&given, e);
    memset(&out, 0x5a, sizeof out);
    kept = out;
    events = answered(e, history);
    seen = 0;
    left = growth;
    code = it->make(e);
    left = -1;
    if (code == ELEPHANT_NO_MEMORY) {
        refused++;
        WANT(!memcmp(&out, &kept, sizeof out) && answered(e, history) == events);
        tell_all(&after, e);
        if (before.length != after.length || memcmp(before.text, after.text, before.length)) {
            fprintf(stderr, "%s, allocation %ld refused: the store was\n%.*s\nand is\n%.*s\n", it->name, growth, (int)before.length,
                    before.text, (int)after.length, after.text);
            exit(1);
        }
        give(&given_again, e);
        WANT(given.length == given_again.length && !memcmp(given.text, given_again.text, given.length));
        code = it->make(e);
    }
    if (code != ELEPHANT_OK) {
        fprintf(stderr, "%s, allocation %ld refused: it answers %d\n", it->name, growth, (int)code);
        exit(1);
    }
    elephant_delete(e);
    return seen != 0;
}

static void refuse_each(const struct attempt *it, uint32_t history) {
    long growth = 0;
    calls++;
    while (refuse_one(it, growth, history)) growth++;
}

/* ---- Other calls ---- */

/* Making and opening a handle. */
static void refuse_open(uint32_t history) {
    for (long growth = 0;; growth++) {
        elephant *e = (elephant *)&out;
        int32_t code;
        seen = 0;
        left = growth;
        elephant_new(&e);
        if (!e) {
            WANT(seen);
            refused++;
            continue;
        }
        code = elephant_open_largest(e, history);
        left = -1;
        if (code == ELEPHANT_NO_MEMORY) {
            uint64_t number;
            WANT(seen);
            refused++;
            CODE(ELEPHANT_CLOSED, elephant_now(e, &number));
            OK(elephant_open_largest(e, history));
        } else {
            WANT(code == ELEPHANT_OK);
        }
        elephant_delete(e);
        if (!seen) return;
    }
}

static int32_t open_again(elephant *closed, const char *bytes, size_t length, uint32_t history) {
    uint64_t whole = 7;
    uint32_t rest = 7;
    int32_t code;
    if (!journaled) return elephant_open_checkpoint(closed, bytes, length, history);
    code = elephant_journal_open(closed, bytes, length, history, &whole, &rest);
    if (code == ELEPHANT_OK)
        WANT(whole == length && rest == 0);
    else
        WANT(whole == 7 && rest == 7);
    return code;
}

/* Opening a checkpoint, or the file of a journal: the handle stays closed. */
static void refuse_open_checkpoint(uint32_t history) {
    elephant *e = ready(0), *back;
    uint64_t length, copied;
    char *bytes;
    tell_all(&before, e);
    OK(journaled ? elephant_journal_compact(e, &length) : elephant_checkpoint(e, &length));
    bytes = malloc(length);
    WANT(bytes);
    OK(elephant_answer(e, 0, bytes, length, &copied));
    elephant_delete(e);
    elephant_new(&back);
    WANT(back);
    for (long growth = 0;; growth++) {
        int32_t code;
        seen = 0;
        left = growth;
        code = open_again(back, bytes, length, history);
        left = -1;
        if (code == ELEPHANT_NO_MEMORY) {
            WANT(seen);
            refused++;
            CODE(ELEPHANT_CLOSED, elephant_now(back, &copied));
            OK(open_again(back, bytes, length, history));
        } else {
            WANT(code == ELEPHANT_OK);
        }
        tell_all(&after, back);
        WANT(before.length == after.length && !memcmp(before.text, after.text, before.length));
        elephant_close(back);
        if (!seen) break;
    }
    elephant_delete(back);
    free(bytes);
}

/* A renewal: the store is as it was, with its history. */
static void refuse_renew(uint32_t history) {
    for (long growth = 0;; growth++) {
        elephant *e = ready(history);
        uint64_t number, events;
        int32_t code;
        OK(elephant_close_handle(e, 3, &number));
        OK(elephant_close_handle(e, 4, &number));
        tell_all(&before, e);
        events = answered(e, history);
        seen = 0;
        left = growth;
        code = elephant_renew(e);
        left = -1;
        if (code == ELEPHANT_NO_MEMORY) {
            WANT(seen && answered(e, history) == events);
            refused++;
            tell_all(&after, e);
            WANT(before.length == after.length && !memcmp(before.text, after.text, before.length));
            OK(elephant_renew(e));
        } else {
            WANT(code == ELEPHANT_OK);
        }
        WANT(answered(e, history) == history);
        elephant_delete(e);
        if (!seen) return;
    }
}

/* Versions that a pass removed stay removed. */
static void refuse_pass(uint32_t history) {
    for (long growth = 0;; growth++) {
        elephant *e = ready(history);
        uint64_t rows, removed = 77, finished = 77, more;
        int32_t code;
        OK(elephant_policy(e, TEXT("/f"), TEXT("one")));
        OK(elephant_policy(e, TEXT("/d/a"), TEXT("one")));
        OK(elephant_due(e, &rows));
        WANT(rows >= 2);
        seen = 0;
        left = growth;
        code = elephant_pass(e, 99, &removed, &finished);
        left = -1;
        if (code == ELEPHANT_NO_MEMORY) {
            refused++;
            WANT(finished == 0 && removed <= rows);
            OK(elephant_due(e, &more));
            WANT(more == rows - removed);
            OK(elephant_pass(e, 99, &more, &finished));
            WANT(removed + more == rows && finished == 1);
        } else {
            WANT(code == ELEPHANT_OK && removed == rows && finished == 1);
        }
        elephant_delete(e);
        if (!seen) return;
    }
}

/* The text of the last line's answer. */
static size_t text_of(elephant *e, char *into, size_t room) {
    uint64_t copied;
    OK(elephant_answer(e, 0, into, room, &copied));
    WANT(copied < room);
    return copied;
}

/* A line runs, or it stops without memory. If the text of the answer is longer than SHORT and there is no memory for it, elephant_tell
 * makes it later. */
static void refuse_line(const char *line) {
    static char whole[MOST], text[MOST];
    const char *stop = "stop 1 NoMemory\n";
    uint64_t length;
    elephant *e = ready(1);
    size_t wanted;
    int was_untold = 0;
    OK(elephant_line(e, TEXT(line), &length));
    wanted = text_of(e, whole, MOST);
    WANT(wanted == length);
    elephant_delete(e);
    for (long growth = 0;; growth++) {
        uint64_t events;
        int32_t code;
        e = ready(1);
        events = answered(e, 1);
        length = 77;
        seen = 0;
        left = growth;
        code = elephant_line(e, TEXT(line), &length);
        left = -1;
        events = answered(e, 1) - events;
        refused += seen != 0;
        if (code == ELEPHANT_UNTOLD) {
            WANT(length == 77 && seen && wanted > SHORT);
            was_untold = 1;
            OK(elephant_tell(e, &length));
        } else {
            WANT(code == ELEPHANT_OK);
        }
        WANT(text_of(e, text, MOST) == length);
        if (events) WANT(length == wanted && !memcmp(text, whole, wanted));
        else WANT(seen && length == strlen(stop) && !memcmp(text, stop, length));
        elephant_delete(e);
        if (!seen) break;
    }
    WANT(was_untold == (wanted > SHORT));
}

static void refuse_trim(void) {
    for (long growth = 0;; growth++) {
        elephant *e = ready(1);
        uint64_t folded = 77, events, entries;
        int32_t code;
        OK(elephant_history(e, &folded, &entries));
        events = entries;
        folded = 77;
        seen = 0;
        left = growth;
        code = elephant_trim(e, &folded);
        left = -1;
        if (code == ELEPHANT_NO_MEMORY) {
            refused++;
            WANT(folded == 77);
            OK(elephant_trim(e, &folded));
        }
        WANT(folded == events);
        elephant_delete(e);
        if (!seen) return;
    }
}

/* Without memory a bad name, a path without its first slash, and a number that is no moment are still refused for what they are. Calls
 * of numbers alone ask for no memory. */
static void bad_arguments_take_no_memory(void) {
    const uint64_t late = 253402300800;
    uint64_t number, moment;
    elephant *e = ready(0);
    all_after = 1;
    seen = 0;
    left = 0;
    CODE(ELEPHANT_BAD_PATH, elephant_create(e, TEXT("f"), &number));
    CODE(ELEPHANT_BAD_PATH, elephant_read(e, TEXT(""), ELEPHANT_NOW, 0, &number));
    CODE(ELEPHANT_BAD_PATH, elephant_versions(e, TEXT("f"), 7, 0, &number));
    CODE(ELEPHANT_BAD_PATH, elephant_rename(e, TEXT("f"), TEXT("/g")));
    CODE(ELEPHANT_BAD_PATH, elephant_policy(e, TEXT("f"), TEXT("one")));
    CODE(ELEPHANT_BAD_PATH, elephant_save(e, TEXT("f"), TEXT("x"), &number));
    CODE(ELEPHANT_BAD_PATH, elephant_restore(e, TEXT("f"), late, &number));
    CODE(ELEPHANT_BAD_NAME, elephant_group_make(e, TEXT("a b")));
    CODE(ELEPHANT_BAD_NAME, elephant_group_add(e, TEXT("a b"), TEXT("/f")));
    CODE(ELEPHANT_BAD_PATH, elephant_group_add(e, TEXT("g"), TEXT("f")));
    CODE(ELEPHANT_BAD_NAME, elephant_mark(e, TEXT("a b"), late, late));
    CODE(ELEPHANT_BAD_MOMENT, elephant_mark(e, TEXT("g"), late, ELEPHANT_NEVER));
    CODE(ELEPHANT_BAD_MOMENT, elephant_mark(e, TEXT("g"), 5, late));
    CODE(ELEPHANT_BAD_MOMENT, elephant_unmark(e, TEXT("g"), late));
    CODE(ELEPHANT_BAD_MOMENT, elephant_clock(e, late));
    CODE(ELEPHANT_NO_HANDLE, elephant_truncate(e, 99, 0));
    CODE(ELEPHANT_NO_HANDLE, elephant_close_handle(e, 99, &number));
    CODE(ELEPHANT_NO_HANDLE, elephant_abandon(e, 99));
    CODE(ELEPHANT_NOT_WRITER, elephant_abandon(e, 3));
    OK(elephant_abandon(e, 4));
    OK(elephant_now(e, &moment));
    OK(elephant_clock(e, moment + 1));
    WANT(!seen);
    left = -1;
    elephant_delete(e);
}

static void refuse_all(uint32_t history) {
    refuse_open(history);
    refuse_open_checkpoint(history);
    for (size_t at = 0; at < sizeof attempts / sizeof *attempts; at++) refuse_each(&attempts[at], history);
    refuse_pass(history);
    if (journaled) {
        for (size_t at = 0; at < sizeof of_journal / sizeof *of_journal; at++) refuse_each(&of_journal[at], history);
        return;
    }
    refuse_renew(history);
    for (size_t at = 0; at < sizeof of_begin / sizeof *of_begin; at++) refuse_each(&of_begin[at], history);
}

int main(void) {
    for (size_t at = 0; at < sizeof large; at++) large[at] = (char)(at % 251);
    for (all_after = 0; all_after < 2; all_after++) {
        for (journaled = 0; journaled < 2; journaled++) {
            refuse_all(0);
            refuse_all(1);
        }
        journaled = 0;
        refuse_line("create /new");
        refuse_line("versions /f");
        refuse_line("read /d/a");
        refuse_line("unlink /no");
        refuse_trim();
    }
    bad_arguments_take_no_memory();
    printf("%lu calls, %lu refused allocations: the store as it was\n", calls, refused);
    return 0;
}
