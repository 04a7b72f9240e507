/* Each call once with success, and each code that it can return. Expected values are those of docs/SCRIPT.md. */

#include "want.h"

#define LAST_MOMENT UINT64_C(253402300799)
#define LARGEST (UINT64_C(1) << 20)

static const elephant_limits largest = {1000000000, 100000, 10000, 200000, 1000000, 1000000, 1000, 100000, 10000};

/* The path and its tag mean a version with this text. */
#define HOLDS(e, path, tag, number, text)                                          \
    do {                                                                           \
        char got[64];                                                              \
        uint64_t length, copied;                                                   \
        OK(elephant_read(e, TEXT(path), tag, number, &length));                    \
        WANT(length == strlen(text));                                              \
        OK(elephant_take(e, 0, got, sizeof got, &copied));                         \
        WANT(copied == length && !memcmp(got, text, length));                      \
    } while (0)

/* A store with a file /f that was saved as `one` at 0 and as `two` at 10, and keeps all versions. */
static elephant *with_file(uint32_t history) {
    elephant *e = fresh(history);
    uint64_t file;
    OK(elephant_default(e, TEXT("/"), TEXT("all")));
    OK(elephant_create(e, TEXT("/f"), &file));
    WANT(file == 1);
    save(e, "/f", "one", 3);
    OK(elephant_clock(e, 10));
    save(e, "/f", "two", 3);
    return e;
}

static void a_handle_is_opened_and_closed(void) {
    elephant *e;
    uint64_t number;
    elephant_new(&e);
    WANT(e);
    elephant_close(e);
    OK(elephant_open(e, &largest, 0));
    CODE(ELEPHANT_OPENED, elephant_open(e, &largest, 0));
    CODE(ELEPHANT_OPENED, elephant_open_largest(e, 1));
    OK(elephant_create(e, TEXT("/f"), &number));
    elephant_close(e);
    elephant_close(e);
    OK(elephant_open_largest(e, 1));
    OK(elephant_create(e, TEXT("/f"), &number));
    elephant_delete(e);
    elephant_new(&e);
    WANT(e);
    elephant_delete(e);
}

static void limits_above_the_largest_are_refused(void) {
    elephant *e;
    elephant_new(&e);
    WANT(e);
    for (size_t at = 0; at < sizeof largest / sizeof(uint64_t); at++) {
        uint64_t numbers[sizeof largest / sizeof(uint64_t)];
        elephant_limits limits;
        memcpy(numbers, &largest, sizeof largest);
        numbers[at]++;
        memcpy(&limits, numbers, sizeof limits);
        CODE(ELEPHANT_BAD_LIMITS, elephant_open(e, &limits, 1));
    }
    OK(elephant_open(e, &largest, 1));
    elephant_delete(e);
}

/* A closed handle returns a code for each call, and writes nothing at the call's pointers. */
static void a_closed_handle_answers(void) {
    const int32_t closed = ELEPHANT_CLOSED;
    elephant *e;
    uint64_t a = 7, b = 7;
    char into[8] = "unasked";
    elephant_stat_row stat = {.id = 7};
    elephant_version_row version = {.number = 7};
    elephant_name_row name = {.id = 7};
    elephant_key key = {.file = 7};
    elephant_usage_row usage = {.files = 7};
    elephant_counts_row counts = {.files = 7};
    elephant_group_row group = {.marks = 7};
    elephant_mark_row mark = {.moment = 7};
    elephant_why_row why = {.fate = 7};
    elephant_new(&e);
    WANT(e);
    CODE(closed, elephant_detail(e, &a));
    CODE(closed, elephant_counts(e, &counts));
    CODE(closed, elephant_line(e, TEXT("due"), &a));
    CODE(closed, elephant_tell(e, &a));
    CODE(closed, elephant_answer(e, 0, into, sizeof into, &a));
    CODE(closed, elephant_now(e, &a));
    CODE(closed, elephant_clock(e, 1));
    CODE(closed, elephant_tick(e, 1));
    CODE(closed, elephant_mkdir(e, TEXT("/d"), &a));
    CODE(closed, elephant_rmdir(e, TEXT("/d")));
    CODE(closed, elephant_create(e, TEXT("/f"), &a));
    CODE(closed, elephant_link(e, TEXT("/f"), TEXT("/g")));
    CODE(closed, elephant_unlink(e, TEXT("/f")));
    CODE(closed, elephant_rename(e, TEXT("/f"), TEXT("/g")));
    CODE(closed, elephant_undelete(e, TEXT("/f"), &a));
    CODE(closed, elephant_open_write(e, TEXT("/f"), &a));
    CODE(closed, elephant_write(e, 1, 0, TEXT("x")));
    CODE(closed, elephant_truncate(e, 1, 0));
    CODE(closed, elephant_close_handle(e, 1, &a));
    CODE(closed, elephant_abandon(e, 1));
    CODE(closed, elephant_save(e, TEXT("/f"), TEXT("x"), &a));
    CODE(closed, elephant_revert(e, TEXT("/f"), 1, &a));
    CODE(closed, elephant_restore(e, TEXT("/f"), 0, &a));
    CODE(closed, elephant_open_read(e, TEXT("/f"), ELEPHANT_NOW, 0, &a));
    CODE(closed, elephant_read(e, TEXT("/f"), ELEPHANT_NOW, 0, &a));
    CODE(closed, elephant_read_handle(e, 1, &a));
    CODE(closed, elephant_take(e, 0, into, sizeof into, &a));
    CODE(closed, elephant_read_into(e, TEXT("/f"), ELEPHANT_NOW, 0, 0, into, sizeof into, &a, &b));
    CODE(closed, elephant_read_handle_into(e, 1, 0, into, sizeof into, &a, &b));
    CODE(closed, elephant_stat(e, TEXT("/f"), ELEPHANT_NOW, 0, &stat));
    CODE(closed, elephant_rung(e, 0, &a, &b));
    CODE(closed, elephant_versions(e, TEXT("/f"), ELEPHANT_NOW, 0, &a));
    CODE(closed, elephant_row_version(e, 0, &version));
    CODE(closed, elephant_list(e, TEXT("/"), ELEPHANT_NOW, 0, &a));
    CODE(closed, elephant_restorable(e, &a));
    CODE(closed, elephant_row_name(e, 0, &name));
    CODE(closed, elephant_row_bytes(e, 0, into, sizeof into, &a));
    CODE(closed, elephant_due(e, &a));
    CODE(closed, elephant_ahead(e, 0, &a));
    CODE(closed, elephant_row_key(e, 0, &key));
    CODE(closed, elephant_usage(e, &a));
    CODE(closed, elephant_row_usage(e, 0, &usage));
    CODE(closed, elephant_policy(e, TEXT("/f"), TEXT("one")));
    CODE(closed, elephant_default(e, TEXT("/"), TEXT("one")));
    CODE(closed, elephant_group_make(e, TEXT("g")));
    CODE(closed, elephant_group_drop(e, TEXT("g")));
    CODE(closed, elephant_group_add(e, TEXT("g"), TEXT("/f")));
    CODE(closed, elephant_group_remove(e, TEXT("g"), TEXT("/f")));
    CODE(closed, elephant_mark(e, TEXT("g"), 1, ELEPHANT_NEVER));
    CODE(closed, elephant_unmark(e, TEXT("g"), 1));
    CODE(closed, elephant_groups(e, &a));
    CODE(closed, elephant_row_group(e, 0, &group));
    CODE(closed, elephant_row_member(e, 0, 0, &a));
    CODE(closed, elephant_row_mark(e, 0, 0, &mark));
    CODE(closed, elephant_why(e, TEXT("/f"), ELEPHANT_NOW, 0, &why));
    CODE(closed, elephant_why_hold(e, &mark));
    CODE(closed, elephant_why_group(e, into, sizeof into, &a));
    CODE(closed, elephant_clean(e, &key));
    CODE(closed, elephant_pass(e, 1, &a, &b));
    CODE(closed, elephant_history(e, &a, &b));
    CODE(closed, elephant_trim(e, &a));
    WANT(a == 7 && b == 7 && !strcmp(into, "unasked"));
    WANT(stat.id == 7 && version.number == 7 && name.id == 7 && key.file == 7 && usage.files == 7);
    WANT(group.marks == 7 && mark.moment == 7 && why.fate == 7 && counts.files == 7);
    elephant_delete(e);
}

static void the_clock_never_goes_back(void) {
    elephant *e = fresh(0);
    uint64_t now = 7;
    OK(elephant_now(e, &now));
    WANT(now == 0);
    OK(elephant_clock(e, 5));
    OK(elephant_tick(e, 7));
    CODE(ELEPHANT_CLOCK_BACK, elephant_clock(e, 11));
    CODE(ELEPHANT_BAD_MOMENT, elephant_clock(e, LAST_MOMENT + 1));
    CODE(ELEPHANT_CLOCK_END, elephant_tick(e, LAST_MOMENT));
    CODE(ELEPHANT_CLOCK_END, elephant_tick(e, UINT64_MAX));
    OK(elephant_now(e, &now));
    WANT(now == 12);
    OK(elephant_clock(e, LAST_MOMENT));
    elephant_delete(e);
}

/* The names in the directory, each with a space after it. */
static const char *names_in(elephant *e, const char *path, uint32_t tag, uint64_t number) {
    static char names[256];
    uint64_t rows, length;
    size_t at = 0;
    OK(elephant_list(e, TEXT(path), tag, number, &rows));
    for (uint64_t index = 0; index < rows; index++) {
        OK(elephant_row_bytes(e, index, names + at, 64, &length));
        at += length;
        names[at++] = ' ';
    }
    names[at] = '\0';
    return names;
}

static void names_are_made_moved_ended_and_brought_back(void) {
    elephant *e = fresh(0);
    uint64_t number = 7, rows;
    elephant_name_row row;
    char name[64];
    OK(elephant_mkdir(e, TEXT("/d"), &number));
    WANT(number == 1);
    OK(elephant_create(e, TEXT("/d/a"), &number));
    WANT(number == 1);
    OK(elephant_link(e, TEXT("/d/a"), TEXT("/d/b")));
    OK(elephant_rename(e, TEXT("/d/a"), TEXT("/c")));
    WANT(!strcmp(names_in(e, "/", ELEPHANT_NOW, 0), "c d "));
    OK(elephant_row_name(e, 0, &row));
    WANT(row.directory == 0 && row.is_directory == 0 && row.id == 1 && row.name_length == 1);
    OK(elephant_row_name(e, 1, &row));
    WANT(row.directory == 0 && row.is_directory == 1 && row.id == 1 && row.name_length == 1);
    CODE(ELEPHANT_NO_ROW, elephant_row_name(e, 2, &row));
    OK(elephant_tick(e, 1));
    OK(elephant_unlink(e, TEXT("/d/b")));
    OK(elephant_unlink(e, TEXT("/c")));
    OK(elephant_rmdir(e, TEXT("/d")));
    WANT(!strcmp(names_in(e, "/", ELEPHANT_NOW, 0), ""));
    WANT(!strcmp(names_in(e, "/", ELEPHANT_AT, 0), "c d "));
    WANT(!strcmp(names_in(e, "/d", ELEPHANT_AT, 0), "b "));
    OK(elephant_restorable(e, &rows));
    WANT(rows >= 2);
    OK(elephant_row_name(e, 0, &row));
    WANT(row.directory == 0 && row.is_directory == 0 && row.id == 1 && row.name_length == 1);
    OK(elephant_row_bytes(e, 0, name, sizeof name, &number));
    WANT(number == 1 && name[0] == 'c');
    OK(elephant_undelete(e, TEXT("/c"), &number));
    WANT(number == 2);
    OK(elephant_undelete(e, TEXT("/d"), &number));
    WANT(number == 0);
    elephant_delete(e);
}

static void names_are_refused_for_the_reason_that_holds(void) {
    elephant *e = fresh(0);
    uint64_t number, version = 7;
    char longest[66] = "/";
    OK(elephant_mkdir(e, TEXT("/d"), &number));
    OK(elephant_create(e, TEXT("/d/f"), &number));
    CODE(ELEPHANT_NO_ENTRY, elephant_create(e, TEXT("/x/y"), &number));
    CODE(ELEPHANT_NOT_DIRECTORY, elephant_create(e, TEXT("/d/f/y"), &number));
    CODE(ELEPHANT_EXISTS, elephant_create(e, TEXT("/d/f"), &number));
    CODE(ELEPHANT_EXISTS, elephant_mkdir(e, TEXT("/d"), &number));
    CODE(ELEPHANT_IS_ROOT, elephant_mkdir(e, TEXT("/"), &number));
    CODE(ELEPHANT_IS_ROOT, elephant_create(e, TEXT("/"), &number));
    CODE(ELEPHANT_IS_ROOT, elephant_rmdir(e, TEXT("/")));
    CODE(ELEPHANT_NOT_EMPTY, elephant_rmdir(e, TEXT("/d")));
    CODE(ELEPHANT_NOT_DIRECTORY, elephant_rmdir(e, TEXT("/d/f")));
    CODE(ELEPHANT_IS_DIRECTORY, elephant_unlink(e, TEXT("/d")));
    CODE(ELEPHANT_IS_DIRECTORY, elephant_link(e, TEXT("/d"), TEXT("/e")));
    CODE(ELEPHANT_EXISTS, elephant_link(e, TEXT("/d/f"), TEXT("/d")));
    CODE(ELEPHANT_INTO_ITSELF, elephant_rename(e, TEXT("/d"), TEXT("/d/e")));
    CODE(ELEPHANT_NO_ENTRY, elephant_rename(e, TEXT("/x"), TEXT("/y")));
    CODE(ELEPHANT_NO_ENTRY, elephant_undelete(e, TEXT("/x"), &version));
    CODE(ELEPHANT_EXISTS, elephant_undelete(e, TEXT("/d/f"), &version));
    WANT(version == 7);
    /* Words that are no paths, also without bytes and with bytes of any kind. */
    CODE(ELEPHANT_BAD_PATH, elephant_create(e, "", 0, &number));
    CODE(ELEPHANT_BAD_PATH, elephant_create(e, TEXT("f"), &number));
    CODE(ELEPHANT_BAD_PATH, elephant_create(e, TEXT("//"), &number));
    CODE(ELEPHANT_BAD_NAME, elephant_create(e, TEXT("/a b"), &number));
    CODE(ELEPHANT_BAD_NAME, elephant_create(e, "/a\0", 3, &number));
    CODE(ELEPHANT_BAD_NAME, elephant_create(e, "/\xff", 2, &number));
    CODE(ELEPHANT_BAD_NAME, elephant_create(e, TEXT("/.."), &number));
    CODE(ELEPHANT_BAD_NAME, elephant_create(e, TEXT("/f@1"), &number));
    memset(longest + 1, 'x', 65);
    CODE(ELEPHANT_BAD_NAME, elephant_create(e, longest, 66, &number));
    OK(elephant_create(e, longest, 65, &number));
    elephant_delete(e);
}

static void the_first_of_two_bad_arguments_is_told(void) {
    elephant *e = fresh(0);
    const uint64_t late = 253402300800;
    uint64_t number;
    OK(elephant_group_make(e, TEXT("g")));
    CODE(ELEPHANT_BAD_PATH, elephant_link(e, TEXT("f"), TEXT("/a b")));
    CODE(ELEPHANT_BAD_NAME, elephant_link(e, TEXT("/a b"), TEXT("f")));
    CODE(ELEPHANT_BAD_PATH, elephant_rename(e, TEXT("f"), TEXT("/a b")));
    CODE(ELEPHANT_BAD_NAME, elephant_rename(e, TEXT("/a b"), TEXT("f")));
    CODE(ELEPHANT_BAD_PATH, elephant_link(e, TEXT("/f"), TEXT("g")));
    CODE(ELEPHANT_BAD_NAME, elephant_rename(e, TEXT("/f"), TEXT("/a b")));
    CODE(ELEPHANT_BAD_PATH, elephant_read(e, TEXT("f"), ELEPHANT_AT, late, &number));
    CODE(ELEPHANT_BAD_NAME, elephant_versions(e, TEXT("/a b"), 7, 0, &number));
    CODE(ELEPHANT_BAD_PATH, elephant_restore(e, TEXT("f"), late, &number));
    CODE(ELEPHANT_BAD_PATH, elephant_policy(e, TEXT("f"), TEXT("never")));
    CODE(ELEPHANT_BAD_NAME, elephant_default(e, TEXT("/a b"), TEXT("safe:0")));
    CODE(ELEPHANT_BAD_NAME, elephant_group_add(e, TEXT("a b"), TEXT("f")));
    CODE(ELEPHANT_BAD_PATH, elephant_group_remove(e, TEXT("g"), TEXT("f")));
    CODE(ELEPHANT_BAD_NAME, elephant_mark(e, TEXT("a b"), late, ELEPHANT_NEVER));
    CODE(ELEPHANT_BAD_NAME, elephant_unmark(e, TEXT("a b"), late));
    elephant_delete(e);
}

static void some_names_do_not_come_back(void) {
    elephant *e = fresh(0);
    uint64_t number, finished;
    OK(elephant_mkdir(e, TEXT("/d"), &number));
    OK(elephant_rename(e, TEXT("/d"), TEXT("/e")));
    CODE(ELEPHANT_NOT_RESTORABLE, elephant_undelete(e, TEXT("/d"), &number));
    OK(elephant_default(e, TEXT("/"), TEXT("one")));
    OK(elephant_create(e, TEXT("/f"), &number));
    OK(elephant_unlink(e, TEXT("/f")));
    OK(elephant_pass(e, 9, &number, &finished));
    WANT(number == 1 && finished == 1);
    CODE(ELEPHANT_NO_ENTRY, elephant_undelete(e, TEXT("/f"), &number));
    elephant_delete(e);
}

static void a_session_makes_one_version(void) {
    elephant *e = with_file(0);
    uint64_t first, second, reader, version = 7, length;
    char big[8] = "x";
    OK(elephant_open_write(e, TEXT("/f"), &first));
    OK(elephant_open_write(e, TEXT("/f"), &second));
    WANT(first != second);
    OK(elephant_write(e, first, 0, TEXT("abc")));
    OK(elephant_write(e, second, 5, TEXT("!")));
    OK(elephant_write(e, second, 2, "", 0));
    OK(elephant_read_handle(e, first, &length));
    WANT(length == 6);
    OK(elephant_take(e, 2, big, sizeof big, &length));
    WANT(length == 4 && !memcmp(big, "c\0\0!", 4));
    HOLDS(e, "/f", ELEPHANT_NOW, 0, "two");
    CODE(ELEPHANT_DRAFTING, elephant_revert(e, TEXT("/f"), 2, &version));
    OK(elephant_truncate(e, first, 2));
    OK(elephant_close_handle(e, first, &version));
    WANT(version == 0);
    OK(elephant_close_handle(e, second, &version));
    WANT(version == 4);
    HOLDS(e, "/f", ELEPHANT_NOW, 0, "ab");
    CODE(ELEPHANT_NO_HANDLE, elephant_close_handle(e, second, &version));
    CODE(ELEPHANT_NO_HANDLE, elephant_write(e, second, 0, TEXT("x")));
    CODE(ELEPHANT_NO_HANDLE, elephant_truncate(e, 99, 0));
    CODE(ELEPHANT_NO_HANDLE, elephant_read_handle(e, 99, &length));
    OK(elephant_open_read(e, TEXT("/f"), ELEPHANT_VERSION, 2, &reader));
    CODE(ELEPHANT_NOT_WRITER, elephant_write(e, reader, 0, TEXT("x")));
    CODE(ELEPHANT_NOT_WRITER, elephant_truncate(e, reader, 0));
    OK(elephant_read_handle(e, reader, &length));
    WANT(length == 3);
    OK(elephant_close_handle(e, reader, &version));
    WANT(version == 0);
    OK(elephant_revert(e, TEXT("/f"), 2, &version));
    WANT(version == 5);
    HOLDS(e, "/f", ELEPHANT_NOW, 0, "one");
    CODE(ELEPHANT_NO_VERSION, elephant_revert(e, TEXT("/f"), 6, &version));
    CODE(ELEPHANT_IS_DIRECTORY, elephant_open_write(e, TEXT("/"), &first));
    CODE(ELEPHANT_NO_ENTRY, elephant_open_write(e, TEXT("/g"), &first));
    elephant_delete(e);
}

static void a_note_is_an_entry_of_the_history(void) {
    static const char large[201];
    elephant *e = with_file(1);
    uint64_t folded, before, entries;
    OK(elephant_history(e, &folded, &before));
    OK(elephant_note(e, TEXT("ticket 7")));
    OK(elephant_note(e, "", 0));
    OK(elephant_note(e, large, 200));
    CODE(ELEPHANT_TOO_BIG, elephant_note(e, large, 201));
    OK(elephant_history(e, &folded, &entries));
    WANT(entries == before + 4);
    HOLDS(e, "/f", ELEPHANT_NOW, 0, "two");
    elephant_delete(e);
}

static void an_abandoned_draft_makes_no_version(void) {
    elephant *e = with_file(0);
    uint64_t first, second, reader, version, rows;
    OK(elephant_open_write(e, TEXT("/f"), &first));
    OK(elephant_open_write(e, TEXT("/f"), &second));
    OK(elephant_write(e, first, 0, TEXT("x")));
    /* The other handle keeps the draft. */
    OK(elephant_abandon(e, first));
    CODE(ELEPHANT_NO_HANDLE, elephant_abandon(e, first));
    OK(elephant_read_handle(e, second, &rows));
    CODE(ELEPHANT_DRAFTING, elephant_save(e, TEXT("/f"), TEXT("y"), &version));
    OK(elephant_abandon(e, second));
    HOLDS(e, "/f", ELEPHANT_NOW, 0, "two");
    OK(elephant_versions(e, TEXT("/f"), ELEPHANT_NOW, 0, &rows));
    WANT(rows == 3);
    OK(elephant_open_read(e, TEXT("/f"), ELEPHANT_NOW, 0, &reader));
    CODE(ELEPHANT_NOT_WRITER, elephant_abandon(e, reader));
    OK(elephant_close_handle(e, reader, &version));
    elephant_delete(e);
}

static void a_save_makes_one_version(void) {
    elephant *e = with_file(0);
    static char large[LARGEST + 1];
    uint64_t number, version = 7;
    OK(elephant_save(e, TEXT("/f"), TEXT("three"), &version));
    WANT(version == 4);
    HOLDS(e, "/f", ELEPHANT_NOW, 0, "three");
    HOLDS(e, "/f", ELEPHANT_VERSION, 3, "two");
    OK(elephant_save(e, TEXT("/f"), TEXT("three"), &version));
    OK(elephant_save(e, TEXT("/f"), "", 0, &version));
    WANT(version == 6);
    HOLDS(e, "/f", ELEPHANT_NOW, 0, "");
    /* A file that isn't there is made. */
    OK(elephant_save(e, TEXT("/new"), TEXT("one"), &version));
    WANT(version == 2);
    HOLDS(e, "/new", ELEPHANT_VERSION, 1, "");
    HOLDS(e, "/new", ELEPHANT_NOW, 0, "one");
    OK(elephant_mkdir(e, TEXT("/d"), &number));
    version = 7;
    CODE(ELEPHANT_IS_DIRECTORY, elephant_save(e, TEXT("/d"), TEXT("x"), &version));
    CODE(ELEPHANT_IS_ROOT, elephant_save(e, TEXT("/"), TEXT("x"), &version));
    CODE(ELEPHANT_NO_ENTRY, elephant_save(e, TEXT("/x/y"), TEXT("x"), &version));
    CODE(ELEPHANT_NOT_DIRECTORY, elephant_save(e, TEXT("/f/y"), TEXT("x"), &version));
    CODE(ELEPHANT_TOO_BIG, elephant_save(e, TEXT("/f"), large, LARGEST + 1, &version));
    CODE(ELEPHANT_TOO_BIG, elephant_save(e, TEXT("/none"), large, LARGEST + 1, &version));
    CODE(ELEPHANT_NO_ENTRY, elephant_read(e, TEXT("/none"), ELEPHANT_NOW, 0, &number));
    CODE(ELEPHANT_BAD_PATH, elephant_save(e, TEXT("f"), TEXT("x"), &version));
    CODE(ELEPHANT_BAD_NAME, elephant_save(e, TEXT("/a b"), TEXT("x"), &version));
    WANT(version == 7);
    OK(elephant_save(e, TEXT("/f"), large, LARGEST, &version));
    WANT(version == 7);
    elephant_delete(e);
}

static void what_a_path_held_is_restored(void) {
    elephant *e = with_file(0);
    uint64_t version = 7, rows;
    OK(elephant_clock(e, 20));
    OK(elephant_restore(e, TEXT("/f"), 9, &version));
    WANT(version == 4);
    HOLDS(e, "/f", ELEPHANT_NOW, 0, "one");
    OK(elephant_rename(e, TEXT("/f"), TEXT("/g")));
    /* By its own past, and by that of the name. */
    OK(elephant_restore(e, TEXT("/g"), 10, &version));
    WANT(version == 5);
    HOLDS(e, "/g", ELEPHANT_NOW, 0, "two");
    OK(elephant_restore(e, TEXT("/f"), 9, &version));
    WANT(version == 2);
    HOLDS(e, "/f", ELEPHANT_NOW, 0, "one");
    HOLDS(e, "/g", ELEPHANT_NOW, 0, "two");
    OK(elephant_tick(e, 1));
    OK(elephant_unlink(e, TEXT("/g")));
    OK(elephant_restore(e, TEXT("/g"), 20, &version));
    WANT(version == 6);
    OK(elephant_versions(e, TEXT("/g"), ELEPHANT_NOW, 0, &rows));
    WANT(rows == 6);
    version = 7;
    CODE(ELEPHANT_FUTURE, elephant_restore(e, TEXT("/g"), 22, &version));
    CODE(ELEPHANT_NO_ENTRY, elephant_restore(e, TEXT("/none"), 9, &version));
    CODE(ELEPHANT_NOT_DIRECTORY, elephant_restore(e, TEXT("/g/x"), 21, &version));
    CODE(ELEPHANT_IS_DIRECTORY, elephant_restore(e, TEXT("/"), 9, &version));
    CODE(ELEPHANT_BAD_MOMENT, elephant_restore(e, TEXT("/g"), LAST_MOMENT + 1, &version));
    CODE(ELEPHANT_BAD_NAME, elephant_restore(e, TEXT("/a b"), 9, &version));
    OK(elephant_open_write(e, TEXT("/g"), &rows));
    CODE(ELEPHANT_DRAFTING, elephant_restore(e, TEXT("/g"), 20, &version));
    OK(elephant_abandon(e, rows));
    OK(elephant_policy(e, TEXT("/g"), TEXT("one")));
    OK(elephant_pass(e, 9, &rows, &version));
    version = 7;
    CODE(ELEPHANT_FORGOTTEN, elephant_restore(e, TEXT("/g"), 20, &version));
    WANT(version == 7);
    elephant_delete(e);
}

static void a_content_has_a_mebibyte_at_most(void) {
    elephant *e = with_file(0);
    uint64_t handle, version, length, copied;
    char *bytes = malloc(LARGEST + 1), *got = malloc(LARGEST);
    WANT(bytes && got);
    for (size_t at = 0; at <= LARGEST; at++) bytes[at] = (char)(at * 31 + at / 977);
    OK(elephant_open_write(e, TEXT("/f"), &handle));
    CODE(ELEPHANT_TOO_BIG, elephant_write(e, handle, 0, bytes, LARGEST + 1));
    CODE(ELEPHANT_TOO_BIG, elephant_write(e, handle, LARGEST, bytes, 1));
    CODE(ELEPHANT_TOO_BIG, elephant_write(e, handle, UINT64_MAX, bytes, 1));
    CODE(ELEPHANT_TOO_BIG, elephant_truncate(e, handle, LARGEST + 1));
    OK(elephant_write(e, handle, 0, bytes, LARGEST));
    OK(elephant_close_handle(e, handle, &version));
    OK(elephant_read(e, TEXT("/f"), ELEPHANT_NOW, 0, &length));
    WANT(length == LARGEST);
    OK(elephant_take(e, 0, got, LARGEST, &copied));
    WANT(copied == LARGEST && !memcmp(got, bytes, LARGEST));
    /* The same in pieces, with buffers of several sizes. */
    for (uint64_t at = 0; at < LARGEST; at += copied) {
        char *piece = malloc(4099);
        WANT(piece);
        OK(elephant_take(e, at, piece, 4099, &copied));
        WANT(copied == (LARGEST - at < 4099 ? LARGEST - at : 4099) && !memcmp(piece, bytes + at, copied));
        free(piece);
    }
    OK(elephant_take(e, LARGEST, got, 1, &copied));
    WANT(copied == 0);
    OK(elephant_take(e, UINT64_MAX, got, 1, &copied));
    WANT(copied == 0);
    OK(elephant_take(e, 0, got, 0, &copied));
    WANT(copied == 0);
    free(bytes);
    free(got);
    elephant_delete(e);
}

/* A straight read from the offset on gives this text, in a buffer of so many bytes, and writes no byte after it. */
#define COPIES(e, path, tag, number, offset, room, whole, text)                                              \
    do {                                                                                                     \
        char *straight = malloc((room) + 1);                                                                 \
        uint64_t length, copied;                                                                             \
        WANT(straight);                                                                                      \
        memset(straight, '~', (room) + 1);                                                                   \
        OK(elephant_read_into(e, TEXT(path), tag, number, offset, straight, room, &length, &copied));        \
        WANT(length == (whole) && copied == strlen(text) && !memcmp(straight, text, copied));                \
        for (size_t at = copied; at <= (room); at++) WANT(straight[at] == '~');                              \
        free(straight);                                                                                      \
    } while (0)

static void a_content_is_copied_straight_to_the_caller(void) {
    elephant *e = with_file(0);
    uint64_t writer, reader, length, copied;
    char got[8];
    COPIES(e, "/f", ELEPHANT_NOW, 0, 0, 3, 3, "two");
    COPIES(e, "/f", ELEPHANT_NOW, 0, 0, 9, 3, "two");
    COPIES(e, "/f", ELEPHANT_NOW, 0, 0, 2, 3, "tw");
    COPIES(e, "/f", ELEPHANT_NOW, 0, 1, 1, 3, "w");
    COPIES(e, "/f", ELEPHANT_NOW, 0, 2, 9, 3, "o");
    COPIES(e, "/f", ELEPHANT_NOW, 0, 3, 9, 3, "");
    COPIES(e, "/f", ELEPHANT_NOW, 0, UINT64_MAX, 9, 3, "");
    COPIES(e, "/f", ELEPHANT_NOW, 0, 0, 0, 3, "");
    COPIES(e, "/f", ELEPHANT_AT, 9, 0, 9, 3, "one");
    COPIES(e, "/f", ELEPHANT_AT, 10, 0, 9, 3, "two");
    COPIES(e, "/f", ELEPHANT_VERSION, 1, 0, 9, 0, "");
    /* A writer reads its draft. */
    OK(elephant_open_write(e, TEXT("/f"), &writer));
    OK(elephant_open_read(e, TEXT("/f"), ELEPHANT_VERSION, 2, &reader));
    OK(elephant_write(e, writer, 3, TEXT("!?")));
    OK(elephant_read_handle_into(e, writer, 2, got, sizeof got, &length, &copied));
    WANT(length == 5 && copied == 3 && !memcmp(got, "o!?", 3));
    OK(elephant_read_handle_into(e, reader, 1, got, 1, &length, &copied));
    WANT(length == 3 && copied == 1 && !memcmp(got, "n!?", 3));
    OK(elephant_truncate(e, writer, 0));
    OK(elephant_read_handle_into(e, writer, 0, got, sizeof got, &length, &copied));
    WANT(length == 0 && copied == 0);
    elephant_delete(e);
}

static void a_copy_leaves_what_is_kept_and_the_history(void) {
    elephant *e = with_file(1);
    uint64_t folded, entries, later, length, copied;
    char got[32];
    OK(elephant_read(e, TEXT("/f"), ELEPHANT_VERSION, 2, &length));
    OK(elephant_history(e, &folded, &entries));
    COPIES(e, "/f", ELEPHANT_NOW, 0, 0, 9, 3, "two");
    CODE(ELEPHANT_NO_ENTRY, elephant_read_into(e, TEXT("/g"), ELEPHANT_NOW, 0, 0, got, sizeof got, &length, &copied));
    CODE(ELEPHANT_NO_HANDLE, elephant_read_handle_into(e, 99, 0, got, sizeof got, &length, &copied));
    OK(elephant_history(e, &folded, &later));
    WANT(entries == later);
    OK(elephant_take(e, 0, got, sizeof got, &copied));
    WANT(copied == 3 && !memcmp(got, "one", 3));
    OK(elephant_tell(e, &length));
    OK(elephant_answer(e, 0, got, sizeof got, &copied));
    WANT(copied == 18 && !memcmp(got, "ok bytes 3 6f6e65\n", 18));
    elephant_delete(e);
}

static void a_copy_that_is_refused_writes_nothing(void) {
    elephant *e = with_file(0);
    uint64_t length = 7, copied = 8, detail;
    elephant_key removed;
    elephant_stat_row row;
    char got[8] = "~~~~~~~";
#define REFUSED(code, path, tag, number) CODE(code, elephant_read_into(e, TEXT(path), tag, number, 0, got, sizeof got, &length, &copied))
    REFUSED(ELEPHANT_FUTURE, "/f", ELEPHANT_AT, 11);
    REFUSED(ELEPHANT_BAD_MOMENT, "/f", ELEPHANT_AT, LAST_MOMENT + 1);
    REFUSED(ELEPHANT_NO_VERSION, "/f", ELEPHANT_VERSION, 4);
    REFUSED(ELEPHANT_SYNTAX, "/f", 3, 0);
    REFUSED(ELEPHANT_IS_DIRECTORY, "/", ELEPHANT_NOW, 0);
    REFUSED(ELEPHANT_NO_ENTRY, "/g", ELEPHANT_NOW, 0);
    REFUSED(ELEPHANT_NOT_DIRECTORY, "/f/g", ELEPHANT_NOW, 0);
    REFUSED(ELEPHANT_BAD_PATH, "f", ELEPHANT_NOW, 0);
    CODE(ELEPHANT_NO_HANDLE, elephant_read_handle_into(e, 1, 0, got, sizeof got, &length, &copied));
    OK(elephant_policy(e, TEXT("/f"), TEXT("one")));
    OK(elephant_clean(e, &removed));
    OK(elephant_clean(e, &removed));
    WANT(removed.number == 2);
    REFUSED(ELEPHANT_FORGOTTEN, "/f", ELEPHANT_VERSION, 2);
    CODE(ELEPHANT_NO_RESULT, elephant_detail(e, &detail));
    CODE(ELEPHANT_FORGOTTEN, elephant_stat(e, TEXT("/f"), ELEPHANT_VERSION, 2, &row));
    OK(elephant_detail(e, &detail));
    WANT(length == 7 && copied == 8 && !memcmp(got, "~~~~~~~", 8));
#undef REFUSED
    elephant_delete(e);
}

static void a_large_content_is_copied_whole_and_in_pieces(void) {
    elephant *e = with_file(0);
    uint64_t handle, version, length, copied;
    static char bytes[LARGEST], got[LARGEST + 1];
    for (size_t at = 0; at < LARGEST; at++) bytes[at] = (char)(at * 31 + at / 977);
    OK(elephant_open_write(e, TEXT("/f"), &handle));
    OK(elephant_write(e, handle, 0, bytes, LARGEST));
    OK(elephant_close_handle(e, handle, &version));
    OK(elephant_read_into(e, TEXT("/f"), ELEPHANT_NOW, 0, 0, got, LARGEST, &length, &copied));
    WANT(length == LARGEST && copied == LARGEST && !memcmp(got, bytes, LARGEST));
    /* Buffers of each size about a block of 512 bytes, at each offset about one. */
    for (uint64_t offset = 510; offset < 515; offset++)
        for (uint64_t room = 0; room < 1030; room++) {
            memset(got, '~', room + 1);
            OK(elephant_read_into(e, TEXT("/f"), ELEPHANT_NOW, 0, offset, got, room, &length, &copied));
            WANT(length == LARGEST && copied == room && !memcmp(got, bytes + offset, room) && got[room] == '~');
        }
    for (uint64_t at = 0; at < LARGEST; at += copied) {
        OK(elephant_read_into(e, TEXT("/f"), ELEPHANT_NOW, 0, at, got, 4099, &length, &copied));
        WANT(copied == (LARGEST - at < 4099 ? LARGEST - at : 4099) && !memcmp(got, bytes + at, copied));
    }
    elephant_delete(e);
}

static void a_version_is_read_by_moment_and_by_number_or_not_at_all(void) {
    elephant *e = with_file(0);
    uint64_t length = 7, copied, detail, handle;
    elephant_key removed;
    char got[8];
    HOLDS(e, "/f", ELEPHANT_NOW, 0, "two");
    HOLDS(e, "/f", ELEPHANT_AT, 9, "one");
    HOLDS(e, "/f", ELEPHANT_AT, 10, "two");
    HOLDS(e, "/f", ELEPHANT_VERSION, 1, "");
    CODE(ELEPHANT_FUTURE, elephant_read(e, TEXT("/f"), ELEPHANT_AT, 11, &length));
    CODE(ELEPHANT_NO_RESULT, elephant_take(e, 0, got, sizeof got, &copied));
    CODE(ELEPHANT_NO_RESULT, elephant_detail(e, &detail));
    CODE(ELEPHANT_BAD_MOMENT, elephant_read(e, TEXT("/f"), ELEPHANT_AT, LAST_MOMENT + 1, &length));
    CODE(ELEPHANT_NO_VERSION, elephant_read(e, TEXT("/f"), ELEPHANT_VERSION, 4, &length));
    CODE(ELEPHANT_SYNTAX, elephant_read(e, TEXT("/f"), 3, 0, &length));
    CODE(ELEPHANT_IS_DIRECTORY, elephant_read(e, TEXT("/"), ELEPHANT_NOW, 0, &length));
    CODE(ELEPHANT_NO_ENTRY, elephant_read(e, TEXT("/g"), ELEPHANT_NOW, 0, &length));
    WANT(length == 7);
    OK(elephant_policy(e, TEXT("/f"), TEXT("one")));
    OK(elephant_clean(e, &removed));
    WANT(removed.since == 0 && removed.file == 1 && removed.number == 1);
    CODE(ELEPHANT_FORGOTTEN, elephant_read(e, TEXT("/f"), ELEPHANT_VERSION, 1, &length));
    OK(elephant_detail(e, &detail));
    WANT(detail == 0);
    OK(elephant_open_read(e, TEXT("/f"), ELEPHANT_AT, 9, &handle));
    OK(elephant_tick(e, 1));
    save(e, "/f", "three", 5);
    OK(elephant_clean(e, &removed));
    WANT(removed.since == 11 && removed.file == 1 && removed.number == 3);
    OK(elephant_clean(e, &removed));
    WANT(removed.file == 0);
    CODE(ELEPHANT_FORGOTTEN, elephant_read(e, TEXT("/f"), ELEPHANT_AT, 10, &length));
    OK(elephant_detail(e, &detail));
    WANT(detail == 2);
    /* A call of the handle itself has no answer, so the one before it stays; an argument that isn't valid has one. */
    CODE(ELEPHANT_NO_HISTORY, elephant_trim(e, &length));
    OK(elephant_detail(e, &detail));
    WANT(detail == 2);
    CODE(ELEPHANT_BAD_PATH, elephant_create(e, TEXT("f"), &length));
    CODE(ELEPHANT_NO_RESULT, elephant_detail(e, &detail));
    CODE(ELEPHANT_FORGOTTEN, elephant_revert(e, TEXT("/f"), 3, &length));
    OK(elephant_now(e, &length));
    elephant_delete(e);
}

static void what_a_path_means_is_told_with_its_policy(void) {
    elephant *e = with_file(0);
    elephant_stat_row row;
    uint64_t age = 7, width = 7;
    OK(elephant_stat(e, TEXT("/f"), ELEPHANT_VERSION, 2, &row));
    WANT(!row.is_directory && row.id == 1 && row.version == 2 && row.opened == 0 && row.closed == 0);
    WANT(row.ended == 10 && row.length == 3 && row.policy == ELEPHANT_KEEP_ALL);
    WANT(row.seconds == 0 && row.floor == 0 && row.rungs == 0);
    CODE(ELEPHANT_NO_ROW, elephant_rung(e, 0, &age, &width));
    OK(elephant_policy(e, TEXT("/f"), TEXT("safe:604800/3")));
    OK(elephant_stat(e, TEXT("/f"), ELEPHANT_NOW, 0, &row));
    WANT(row.version == 3 && row.ended == ELEPHANT_NEVER && row.policy == ELEPHANT_KEEP_SAFE && row.seconds == 604800 && row.floor == 3);
    OK(elephant_default(e, TEXT("/"), TEXT("landmarks:10/5,40/50")));
    OK(elephant_stat(e, TEXT("/"), ELEPHANT_NOW, 0, &row));
    WANT(row.is_directory == 1 && row.id == 0 && row.version == 0 && row.length == 0);
    WANT(row.policy == ELEPHANT_KEEP_LANDMARKS && row.rungs == 2);
    OK(elephant_rung(e, 1, &age, &width));
    WANT(age == 40 && width == 50);
    CODE(ELEPHANT_NO_ROW, elephant_rung(e, 2, &age, &width));
    OK(elephant_policy(e, TEXT("/f"), TEXT("one")));
    CODE(ELEPHANT_NO_RESULT, elephant_rung(e, 0, &age, &width));
    WANT(age == 40 && width == 50);
    OK(elephant_stat(e, TEXT("/f"), ELEPHANT_NOW, 0, &row));
    WANT(row.policy == ELEPHANT_KEEP_ONE);
    CODE(ELEPHANT_BAD_LADDER, elephant_policy(e, TEXT("/f"), TEXT("safe:0")));
    CODE(ELEPHANT_BAD_LADDER, elephant_policy(e, TEXT("/f"), TEXT("landmarks:10/5,10/50")));
    CODE(ELEPHANT_SYNTAX, elephant_policy(e, TEXT("/f"), TEXT("two")));
    CODE(ELEPHANT_SYNTAX, elephant_default(e, TEXT("/"), "", 0));
    CODE(ELEPHANT_IS_DIRECTORY, elephant_policy(e, TEXT("/"), TEXT("one")));
    CODE(ELEPHANT_NOT_DIRECTORY, elephant_default(e, TEXT("/f"), TEXT("one")));
    CODE(ELEPHANT_SYNTAX, elephant_stat(e, TEXT("/f"), UINT32_MAX, 0, &row));
    elephant_delete(e);
}

static void lists_are_kept_and_read_by_row(void) {
    elephant *e = with_file(0);
    uint64_t rows = 7, length;
    elephant_version_row version;
    elephant_name_row name = {.id = 7};
    elephant_usage_row usage;
    char room[2];
    OK(elephant_versions(e, TEXT("/f"), ELEPHANT_NOW, 0, &rows));
    WANT(rows == 3);
    OK(elephant_row_version(e, 1, &version));
    WANT(version.number == 2 && version.opened == 0 && version.closed == 0 && version.ended == 10 && version.length == 3);
    OK(elephant_row_version(e, 2, &version));
    WANT(version.number == 3 && version.opened == 10 && version.closed == 10 && version.ended == ELEPHANT_NEVER);
    CODE(ELEPHANT_NO_ROW, elephant_row_version(e, 3, &version));
    CODE(ELEPHANT_NO_ROW, elephant_row_version(e, UINT64_MAX, &version));
    CODE(ELEPHANT_NO_RESULT, elephant_row_name(e, 0, &name));
    WANT(name.id == 7);
    OK(elephant_row_version(e, 0, &version));
    OK(elephant_versions(e, TEXT("/f"), ELEPHANT_AT, 3, &rows));
    WANT(rows == 3);
    CODE(ELEPHANT_IS_DIRECTORY, elephant_versions(e, TEXT("/"), ELEPHANT_NOW, 0, &rows));
    CODE(ELEPHANT_SYNTAX, elephant_versions(e, TEXT("/f"), ELEPHANT_VERSION, 1, &rows));
    CODE(ELEPHANT_NO_RESULT, elephant_row_version(e, 0, &version));
    CODE(ELEPHANT_NOT_DIRECTORY, elephant_list(e, TEXT("/f"), ELEPHANT_NOW, 0, &rows));
    CODE(ELEPHANT_SYNTAX, elephant_list(e, TEXT("/"), ELEPHANT_VERSION, 1, &rows));
    OK(elephant_rename(e, TEXT("/f"), TEXT("/abc")));
    OK(elephant_list(e, TEXT("/"), ELEPHANT_NOW, 0, &rows));
    WANT(rows == 1);
    memset(room, 'z', sizeof room);
    CODE(ELEPHANT_NO_ROOM, elephant_row_bytes(e, 0, room, sizeof room, &length));
    WANT(room[0] == 'z');
    CODE(ELEPHANT_NO_ROW, elephant_row_bytes(e, 1, room, sizeof room, &length));
    OK(elephant_usage(e, &rows));
    WANT(rows == 4);
    OK(elephant_row_usage(e, ELEPHANT_KEEP_ALL, &usage));
    WANT(usage.files == 1 && usage.versions == 3 && usage.bytes == 6);
    OK(elephant_row_usage(e, ELEPHANT_KEEP_ONE, &usage));
    WANT(usage.files == 0 && usage.versions == 0 && usage.bytes == 0 && usage.blocks == 0);
    CODE(ELEPHANT_NO_ROW, elephant_row_usage(e, 4, &usage));
    OK(elephant_tick(e, 1));
    CODE(ELEPHANT_NO_RESULT, elephant_row_usage(e, 0, &usage));
    elephant_delete(e);
}

static void versions_become_due_and_are_removed(void) {
    elephant *e = with_file(0);
    uint64_t rows, removed = 7, finished = 7;
    elephant_key key;
    elephant_why_row why;
    OK(elephant_policy(e, TEXT("/f"), TEXT("safe:5")));
    OK(elephant_due(e, &rows));
    WANT(rows == 1);
    OK(elephant_row_key(e, 0, &key));
    WANT(key.since == 5 && key.file == 1 && key.number == 1);
    CODE(ELEPHANT_NO_ROW, elephant_row_key(e, 1, &key));
    OK(elephant_ahead(e, 15, &rows));
    WANT(rows == 2);
    OK(elephant_row_key(e, 1, &key));
    WANT(key.since == 15 && key.file == 1 && key.number == 2);
    CODE(ELEPHANT_NOT_AHEAD, elephant_ahead(e, 9, &rows));
    CODE(ELEPHANT_BAD_MOMENT, elephant_ahead(e, LAST_MOMENT + 1, &rows));
    CODE(ELEPHANT_NO_RESULT, elephant_row_key(e, 0, &key));
    OK(elephant_why(e, TEXT("/f"), ELEPHANT_NOW, 0, &why));
    WANT(why.fate == ELEPHANT_IS_CURRENT);
    OK(elephant_why(e, TEXT("/f"), ELEPHANT_VERSION, 2, &why));
    WANT(why.fate == ELEPHANT_IS_KEPT && why.until == 15 && why.level == ELEPHANT_NEVER);
    OK(elephant_why(e, TEXT("/f"), ELEPHANT_VERSION, 1, &why));
    WANT(why.fate == ELEPHANT_IS_DUE && why.moment == 5 && why.cause == ELEPHANT_BY_AGE && why.seconds == 5);
    OK(elephant_pass(e, 0, &removed, &finished));
    WANT(removed == 0 && finished == 0);
    OK(elephant_clock(e, 15));
    OK(elephant_pass(e, 1, &removed, &finished));
    WANT(removed == 1 && finished == 0);
    OK(elephant_pass(e, UINT64_MAX, &removed, &finished));
    WANT(removed == 1 && finished == 1);
    OK(elephant_clean(e, &key));
    WANT(key.file == 0);
    CODE(ELEPHANT_FORGOTTEN, elephant_why(e, TEXT("/f"), ELEPHANT_VERSION, 2, &why));
    elephant_delete(e);
}

static void a_ladder_tells_what_displaced_a_version(void) {
    elephant *e = with_file(0);
    elephant_why_row why;
    OK(elephant_policy(e, TEXT("/f"), TEXT("landmarks:10/50")));
    OK(elephant_why(e, TEXT("/f"), ELEPHANT_VERSION, 2, &why));
    WANT(why.fate == ELEPHANT_IS_KEPT && why.until == 20 && why.level == 0);
    OK(elephant_clock(e, 20));
    OK(elephant_why(e, TEXT("/f"), ELEPHANT_VERSION, 2, &why));
    WANT(why.fate == ELEPHANT_IS_DUE && why.moment == 20 && why.cause == ELEPHANT_DISPLACED && why.level == 1 && why.by == 3);
    OK(elephant_policy(e, TEXT("/f"), TEXT("one")));
    OK(elephant_why(e, TEXT("/f"), ELEPHANT_VERSION, 2, &why));
    WANT(why.fate == ELEPHANT_IS_DUE && why.moment == 10 && why.cause == ELEPHANT_AT_ONCE);
    elephant_delete(e);
}

static void a_mark_keeps_what_was_current(void) {
    elephant *e = with_file(0);
    uint64_t rows, length = 7, file;
    elephant_group_row group;
    elephant_mark_row mark;
    elephant_why_row why;
    char name[64];
    OK(elephant_group_make(e, TEXT("release")));
    CODE(ELEPHANT_GROUP_EXISTS, elephant_group_make(e, TEXT("release")));
    CODE(ELEPHANT_BAD_NAME, elephant_group_make(e, TEXT("a b")));
    CODE(ELEPHANT_BAD_NAME, elephant_group_make(e, "", 0));
    char longest[65];
    memset(longest, 'n', sizeof longest);
    OK(elephant_group_make(e, longest, 64));
    CODE(ELEPHANT_BAD_NAME, elephant_group_make(e, longest, 65));
    OK(elephant_group_drop(e, longest, 64));
    OK(elephant_group_add(e, TEXT("release"), TEXT("/f")));
    CODE(ELEPHANT_ALREADY_MEMBER, elephant_group_add(e, TEXT("release"), TEXT("/f")));
    CODE(ELEPHANT_NO_GROUP, elephant_group_add(e, TEXT("other"), TEXT("/f")));
    CODE(ELEPHANT_IS_DIRECTORY, elephant_group_add(e, TEXT("release"), TEXT("/")));
    OK(elephant_mark(e, TEXT("release"), 5, ELEPHANT_NEVER));
    OK(elephant_mark(e, TEXT("release"), 6, 99));
    CODE(ELEPHANT_MARK_EXISTS, elephant_mark(e, TEXT("release"), 5, ELEPHANT_NEVER));
    CODE(ELEPHANT_NOT_PAST, elephant_mark(e, TEXT("release"), 10, ELEPHANT_NEVER));
    CODE(ELEPHANT_NOT_AHEAD, elephant_mark(e, TEXT("release"), 7, 10));
    CODE(ELEPHANT_BAD_MOMENT, elephant_mark(e, TEXT("release"), LAST_MOMENT + 1, ELEPHANT_NEVER));
    CODE(ELEPHANT_BAD_MOMENT, elephant_mark(e, TEXT("release"), 7, LAST_MOMENT + 1));
    CODE(ELEPHANT_NO_GROUP, elephant_mark(e, TEXT("other"), 5, ELEPHANT_NEVER));
    OK(elephant_groups(e, &rows));
    WANT(rows == 1);
    OK(elephant_row_group(e, 0, &group));
    WANT(group.name_length == 7 && group.members == 1 && group.marks == 2);
    OK(elephant_row_bytes(e, 0, name, sizeof name, &length));
    WANT(length == 7 && !memcmp(name, "release", 7));
    OK(elephant_row_member(e, 0, 0, &file));
    WANT(file == 1);
    OK(elephant_row_mark(e, 0, 0, &mark));
    WANT(mark.moment == 5 && mark.until == ELEPHANT_NEVER);
    OK(elephant_row_mark(e, 0, 1, &mark));
    WANT(mark.moment == 6 && mark.until == 99);
    CODE(ELEPHANT_NO_ROW, elephant_row_group(e, 1, &group));
    CODE(ELEPHANT_NO_ROW, elephant_row_member(e, 0, 1, &file));
    CODE(ELEPHANT_NO_ROW, elephant_row_member(e, 1, 0, &file));
    CODE(ELEPHANT_NO_ROW, elephant_row_mark(e, 0, 2, &mark));
    OK(elephant_policy(e, TEXT("/f"), TEXT("one")));
    CODE(ELEPHANT_NO_RESULT, elephant_row_group(e, 0, &group));
    OK(elephant_why(e, TEXT("/f"), ELEPHANT_VERSION, 2, &why));
    WANT(why.fate == ELEPHANT_IS_MARKED && why.moment == 5 && why.until == ELEPHANT_NEVER);
    CODE(ELEPHANT_NO_ROOM, elephant_why_group(e, name, 6, &length));
    OK(elephant_why_group(e, name, sizeof name, &length));
    WANT(length == 7 && !memcmp(name, "release", 7));
    OK(elephant_why(e, TEXT("/f"), ELEPHANT_NOW, 0, &why));
    CODE(ELEPHANT_NO_RESULT, elephant_why_group(e, name, sizeof name, &length));
    OK(elephant_unmark(e, TEXT("release"), 5));
    CODE(ELEPHANT_NO_MARK, elephant_unmark(e, TEXT("release"), 5));
    OK(elephant_group_remove(e, TEXT("release"), TEXT("/f")));
    CODE(ELEPHANT_NOT_MEMBER, elephant_group_remove(e, TEXT("release"), TEXT("/f")));
    OK(elephant_group_drop(e, TEXT("release")));
    CODE(ELEPHANT_NO_GROUP, elephant_group_drop(e, TEXT("release")));
    CODE(ELEPHANT_NO_GROUP, elephant_unmark(e, TEXT("release"), 6));
    elephant_delete(e);
}

/* Asks for the mark that held the version of the last elephant_why, and finds none. */
static void want_no_hold(const elephant *e) {
    elephant_mark_row mark = {.moment = 7, .until = 8};
    CODE(ELEPHANT_NO_RESULT, elephant_why_hold(e, &mark));
    WANT(mark.moment == 7 && mark.until == 8);
}

static void the_mark_that_held_a_version_is_told(void) {
    elephant *e = with_file(0);
    elephant_mark_row mark;
    elephant_why_row why;
    uint64_t length = 7, copied;
    char text[64];
    want_no_hold(e);
    OK(elephant_group_make(e, TEXT("release")));
    OK(elephant_group_add(e, TEXT("release"), TEXT("/f")));
    OK(elephant_mark(e, TEXT("release"), 6, 99));
    OK(elephant_policy(e, TEXT("/f"), TEXT("safe:5")));
    OK(elephant_why(e, TEXT("/f"), ELEPHANT_VERSION, 2, &why));
    WANT(why.fate == ELEPHANT_IS_MARKED && why.moment == 6 && why.until == 99);
    want_no_hold(e);
    OK(elephant_clock(e, 120));
    OK(elephant_why(e, TEXT("/f"), ELEPHANT_VERSION, 2, &why));
    WANT(why.fate == ELEPHANT_IS_DUE && why.moment == 99 && why.cause == ELEPHANT_BY_AGE && why.seconds == 5);
    OK(elephant_why_hold(e, &mark));
    WANT(mark.moment == 6 && mark.until == 99);
    CODE(ELEPHANT_NO_ROOM, elephant_why_group(e, text, 6, &length));
    OK(elephant_why_group(e, text, sizeof text, &length));
    WANT(length == 7 && !memcmp(text, "release", 7));
    OK(elephant_tell(e, &length));
    OK(elephant_answer(e, 0, text, sizeof text, &copied));
    WANT(copied == 41 && !memcmp(text, "ok why held release 6/99 due 99 by age 5\n", 41));
    /* No mark was made while version 1 was current. */
    OK(elephant_why(e, TEXT("/f"), ELEPHANT_VERSION, 1, &why));
    WANT(why.fate == ELEPHANT_IS_DUE && why.moment == 5);
    want_no_hold(e);
    CODE(ELEPHANT_NO_RESULT, elephant_why_group(e, text, sizeof text, &length));
    /* The handle keeps the answer to a line too. */
    OK(elephant_line(e, TEXT("why /f#2"), &length));
    OK(elephant_why_hold(e, &mark));
    WANT(mark.moment == 6 && mark.until == 99);
    /* The policy held it as long as the mark. */
    OK(elephant_policy(e, TEXT("/f"), TEXT("safe:89")));
    OK(elephant_why(e, TEXT("/f"), ELEPHANT_VERSION, 2, &why));
    WANT(why.fate == ELEPHANT_IS_DUE && why.moment == 99 && why.seconds == 89);
    want_no_hold(e);
    OK(elephant_due(e, &length));
    want_no_hold(e);
    elephant_delete(e);
}

/* The limit that was reached, from the detail. */
#define FULL_OF(e, limit, call)                            \
    do {                                                   \
        uint64_t which;                                    \
        CODE(ELEPHANT_FULL, call);                         \
        OK(elephant_detail(e, &which));                    \
        WANT(which == (limit));                            \
        OK(elephant_due(e, &which));                       \
        CODE(ELEPHANT_NO_RESULT, elephant_detail(e, &which)); \
    } while (0)

static void each_limit_is_told_by_its_number(void) {
    const elephant_limits few = {9, 1, 1, 9, 9, 9, 1, 1, 1}, others = {9, 9, 9, 1, 2, 1, 9, 9, 9};
    elephant *e;
    uint64_t number;
    elephant_new(&e);
    WANT(e);
    OK(elephant_open(e, &few, 0));
    OK(elephant_create(e, TEXT("/f"), &number));
    FULL_OF(e, ELEPHANT_LIMIT_FILES, elephant_create(e, TEXT("/g"), &number));
    OK(elephant_mkdir(e, TEXT("/d"), &number));
    FULL_OF(e, ELEPHANT_LIMIT_DIRECTORIES, elephant_mkdir(e, TEXT("/e"), &number));
    OK(elephant_group_make(e, TEXT("g")));
    FULL_OF(e, ELEPHANT_LIMIT_GROUPS, elephant_group_make(e, TEXT("h")));
    OK(elephant_group_add(e, TEXT("g"), TEXT("/f")));
    OK(elephant_group_remove(e, TEXT("g"), TEXT("/f")));
    FULL_OF(e, ELEPHANT_LIMIT_MEMBERS, elephant_group_add(e, TEXT("g"), TEXT("/f")));
    OK(elephant_tick(e, 9));
    OK(elephant_mark(e, TEXT("g"), 1, ELEPHANT_NEVER));
    FULL_OF(e, ELEPHANT_LIMIT_MARKS, elephant_mark(e, TEXT("g"), 2, ELEPHANT_NEVER));
    elephant_close(e);
    OK(elephant_open(e, &others, 0));
    OK(elephant_create(e, TEXT("/f"), &number));
    FULL_OF(e, ELEPHANT_LIMIT_NAMES, elephant_create(e, TEXT("/g"), &number));
    save(e, "/f", "x", 1);
    FULL_OF(e, ELEPHANT_LIMIT_HANDLES, elephant_open_write(e, TEXT("/f"), &number));
    FULL_OF(e, ELEPHANT_LIMIT_VERSIONS, elephant_revert(e, TEXT("/f"), 1, &number));
    elephant_delete(e);
}

static void what_the_limits_count_is_told(void) {
    elephant *e = fresh(1);
    elephant_counts_row counts;
    uint64_t number, handle;
    OK(elephant_counts(e, &counts));
    WANT(!counts.events && !counts.files && !counts.directories && !counts.names && !counts.versions && !counts.handles);
    WANT(!counts.groups && !counts.members && !counts.marks);
    OK(elephant_mkdir(e, TEXT("/d"), &number));
    OK(elephant_create(e, TEXT("/d/f"), &number));
    OK(elephant_link(e, TEXT("/d/f"), TEXT("/l")));
    OK(elephant_open_write(e, TEXT("/l"), &handle));
    OK(elephant_write(e, handle, 0, TEXT("x")));
    OK(elephant_close_handle(e, handle, &number));
    OK(elephant_open_write(e, TEXT("/l"), &handle));
    OK(elephant_group_make(e, TEXT("g")));
    OK(elephant_group_add(e, TEXT("g"), TEXT("/l")));
    OK(elephant_tick(e, 9));
    OK(elephant_mark(e, TEXT("g"), 3, ELEPHANT_NEVER));
    OK(elephant_counts(e, &counts));
    WANT(counts.events == 11 && counts.files == 1 && counts.directories == 1 && counts.names == 3);
    /* The empty first version, that of the session, and the open draft. */
    WANT(counts.versions == 3 && counts.handles == 2 && counts.groups == 1 && counts.members == 1 && counts.marks == 1);
    OK(elephant_close_handle(e, handle, &number));
    OK(elephant_group_drop(e, TEXT("g")));
    OK(elephant_unlink(e, TEXT("/l")));
    OK(elephant_trim(e, &number));
    OK(elephant_counts(e, &counts));
    WANT(counts.events == 14 && counts.names == 3 && counts.versions == 2 && counts.handles == 2);
    WANT(counts.groups == 1 && counts.members == 1 && counts.marks == 1);
    elephant_delete(e);
    e = fresh(0);
    OK(elephant_tick(e, 9));
    OK(elephant_counts(e, &counts));
    WANT(counts.events == 0);
    elephant_delete(e);
}

static void a_history_is_kept_and_folded(void) {
    const elephant_limits few = {3, 9, 9, 9, 9, 9, 9, 9, 9};
    elephant *e;
    uint64_t folded, entries, removed = 7, finished = 7;
    elephant_new(&e);
    WANT(e);
    OK(elephant_open(e, &few, 1));
    OK(elephant_create(e, TEXT("/f"), &folded));
    CODE(ELEPHANT_NO_ENTRY, elephant_unlink(e, TEXT("/g")));
    CODE(ELEPHANT_BAD_PATH, elephant_unlink(e, TEXT("g")));
    OK(elephant_history(e, &folded, &entries));
    WANT(folded == 0 && entries == 2);
    OK(elephant_trim(e, &folded));
    WANT(folded == 2);
    OK(elephant_trim(e, &folded));
    WANT(folded == 0);
    OK(elephant_history(e, &folded, &entries));
    WANT(folded == 2 && entries == 0);
    OK(elephant_tick(e, 1));
    CODE(ELEPHANT_HISTORY_FULL, elephant_tick(e, 1));
    CODE(ELEPHANT_HISTORY_FULL, elephant_pass(e, 9, &removed, &finished));
    WANT(removed == 0 && finished == 0);
    elephant_close(e);
    OK(elephant_open(e, &few, 0));
    for (int turn = 0; turn < 20; turn++) OK(elephant_tick(e, 1));
    CODE(ELEPHANT_NO_HISTORY, elephant_history(e, &folded, &entries));
    CODE(ELEPHANT_NO_HISTORY, elephant_trim(e, &folded));
    elephant_delete(e);
}

/* The answer to the line is the text. */
static void says(elephant *e, const char *line, const char *text) {
    char got[256];
    uint64_t length, copied;
    OK(elephant_line(e, TEXT(line), &length));
    OK(elephant_answer(e, 0, got, sizeof got, &copied));
    if (length != strlen(text) || copied != length || memcmp(got, text, length)) {
        fprintf(stderr, "%s is answered %.*s\n", line, (int)copied, got);
        exit(1);
    }
}

static void lines_are_answered_as_the_program_prints_them(void) {
    elephant *e = fresh(1);
    uint64_t length = 7, copied;
    char got[8];
    OK(elephant_tell(e, &length));
    WANT(length == 0);
    says(e, "create /f", "ok file 1\n");
    says(e, "versions /f", "ok versions 1\n- 1 0 0 - 0\n");
    OK(elephant_tick(e, 1));
    OK(elephant_answer(e, 3, got, 8, &copied));
    WANT(copied == 8 && !memcmp(got, "versions", 8));
    OK(elephant_answer(e, 99, got, 8, &copied));
    WANT(copied == 0);
    says(e, "read /g", "no 5 NoEntry\n");
    OK(elephant_tell(e, &length));
    WANT(length == 13);
    says(e, "hello", "bad 32 Syntax\n");
    says(e, "why /f", "ok why current\n");
    says(e, "ahead 1", "ok ahead 0\n");
    says(e, "story /f", "ok story 1 2\n- version 1 0 - 0 current\n- name 0 - /f\n");
    says(e, "story /g", "no 5 NoEntry\n");
    says(e, "", "");
    says(e, "history", "ok history 0 4\n- create /f\n- versions /f\n- tick 1\n- read /g\n");
    says(e, "trim", "ok trimmed 4\n");
    elephant_delete(e);
    e = fresh(0);
    says(e, "history", "bad 32 Syntax\n");
    says(e, "trim", "bad 32 Syntax\n");
    elephant_delete(e);
}

/* The text of the last call's answer. */
static void told_as(elephant *e, const char *text) {
    char got[256];
    uint64_t length, copied;
    OK(elephant_tell(e, &length));
    OK(elephant_answer(e, 0, got, sizeof got, &copied));
    WANT(length == strlen(text) && copied == length && !memcmp(got, text, length));
}

static void calls_that_only_look_leave_the_result(void) {
    elephant *e = with_file(1);
    uint64_t length, copied, file;
    char got[8];
    OK(elephant_create(e, TEXT("/g"), &file));
    told_as(e, "ok file 2\n");
    CODE(ELEPHANT_NO_ENTRY, elephant_unlink(e, TEXT("/h")));
    told_as(e, "no 5 NoEntry\n");
    OK(elephant_read(e, TEXT("/f"), ELEPHANT_NOW, 0, &length));
    OK(elephant_now(e, &length));
    OK(elephant_history(e, &length, &copied));
    CODE(ELEPHANT_NO_RESULT, elephant_detail(e, &length));
    told_as(e, "ok bytes 3 74776f\n");
    OK(elephant_take(e, 0, got, sizeof got, &copied));
    WANT(copied == 3 && !memcmp(got, "two", 3));
    says(e, "read /f#2", "ok bytes 3 6f6e65\n");
    OK(elephant_take(e, 1, got, sizeof got, &copied));
    WANT(copied == 2 && !memcmp(got, "ne", 2));
    OK(elephant_tick(e, 1));
    CODE(ELEPHANT_NO_RESULT, elephant_take(e, 0, got, sizeof got, &copied));
    elephant_delete(e);
}

static void two_handles_share_nothing(void) {
    elephant *e = with_file(0), *other = fresh(0);
    uint64_t length;
    CODE(ELEPHANT_NO_ENTRY, elephant_read(other, TEXT("/f"), ELEPHANT_NOW, 0, &length));
    elephant_delete(other);
    HOLDS(e, "/f", ELEPHANT_NOW, 0, "two");
    elephant_delete(e);
}

static void each_code_has_a_text(void) {
    WANT(!strcmp(elephant_code_text(ELEPHANT_OK), "Ok: the call succeeded"));
    WANT(!strcmp(elephant_code_text(ELEPHANT_NO_MEMORY), "NoMemory: there was no memory"));
    WANT(!strcmp(elephant_code_text(ELEPHANT_NO_ENTRY), "NoEntry: the path names nothing"));
    WANT(!strcmp(elephant_code_text(ELEPHANT_NO_ROW), "NoRow: the kept list has no row of that index"));
    WANT(!strcmp(elephant_code_text(-1), "no code has this number"));
    WANT(!strcmp(elephant_code_text(ELEPHANT_SYNTAX + 1), "no code has this number"));
}

static void the_library_has_the_version_of_its_header(void) {
    char text[32];
    uint32_t number = elephant_library_version_number();
    WANT(!strcmp(elephant_library_version(), ELEPHANT_LIBRARY_VERSION));
    WANT(number == ELEPHANT_LIBRARY_VERSION_NUMBER);
    snprintf(text, sizeof text, "%u.%u.%u", (unsigned)(number / 1000000), (unsigned)(number / 1000 % 1000), (unsigned)(number % 1000));
    WANT(!strcmp(text, ELEPHANT_LIBRARY_VERSION));
}

/* What only looks takes a const handle. */
static uint64_t moment_of(const elephant *e) {
    uint64_t moment;
    OK(elephant_now(e, &moment));
    return moment;
}

static void a_const_handle_is_looked_at(void) {
    elephant *e = with_file(0);
    WANT(moment_of(e) == 10);
    elephant_delete(e);
}

int main(void) {
    each_code_has_a_text();
    the_library_has_the_version_of_its_header();
    a_const_handle_is_looked_at();
    a_handle_is_opened_and_closed();
    limits_above_the_largest_are_refused();
    a_closed_handle_answers();
    the_clock_never_goes_back();
    names_are_made_moved_ended_and_brought_back();
    names_are_refused_for_the_reason_that_holds();
    the_first_of_two_bad_arguments_is_told();
    some_names_do_not_come_back();
    a_session_makes_one_version();
    a_note_is_an_entry_of_the_history();
    an_abandoned_draft_makes_no_version();
    a_save_makes_one_version();
    what_a_path_held_is_restored();
    a_content_has_a_mebibyte_at_most();
    a_content_is_copied_straight_to_the_caller();
    a_copy_leaves_what_is_kept_and_the_history();
    a_copy_that_is_refused_writes_nothing();
    a_large_content_is_copied_whole_and_in_pieces();
    a_version_is_read_by_moment_and_by_number_or_not_at_all();
    what_a_path_means_is_told_with_its_policy();
    lists_are_kept_and_read_by_row();
    versions_become_due_and_are_removed();
    a_ladder_tells_what_displaced_a_version();
    a_mark_keeps_what_was_current();
    the_mark_that_held_a_version_is_told();
    each_limit_is_told_by_its_number();
    what_the_limits_count_is_told();
    a_history_is_kept_and_folded();
    lines_are_answered_as_the_program_prints_them();
    calls_that_only_look_leave_the_result();
    two_handles_share_nothing();
    puts("each call and each code: as the header says");
    return 0;
}
