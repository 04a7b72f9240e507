/* Checkpoints and renewals: a store that is taken out as bytes comes back and goes on as it would have, bytes that are no checkpoint
 * open nothing, and a renewal gives the numbers that were told before it. The bytes of a fresh store are those of
 * crates/ele_checkpoint/README.md, by hand. */

#include "want.h"

#define MOST (1 << 16)
#define ROOM ((size_t)5 << 20)

static elephant *closed_handle(void) {
    elephant *e;
    elephant_new(&e);
    WANT(e);
    return e;
}

/* The bytes of a checkpoint. */
struct bytes {
    size_t length;
    unsigned char *at;
};

/* Takes a store out, and copies the text in pieces of so many bytes. */
static struct bytes take_out(elephant *e, size_t piece) {
    struct bytes taken = {0, NULL};
    uint64_t length = 7, copied;
    OK(elephant_checkpoint(e, &length));
    WANT(length <= ROOM);
    taken.at = calloc(1, ROOM);
    WANT(taken.at);
    do {
        OK(elephant_answer(e, taken.length, taken.at + taken.length, piece, &copied));
        taken.length += copied;
    } while (copied);
    WANT(taken.length == length);
    return taken;
}

/* Opens a new handle from a checkpoint. */
static elephant *put_back(const struct bytes *taken, uint32_t history) {
    elephant *e = closed_handle();
    OK(elephant_open_checkpoint(e, taken->at, taken->length, history));
    return e;
}

static void want_same_bytes(elephant *e, const struct bytes *wanted) {
    struct bytes has = take_out(e, 1000);
    WANT(has.length == wanted->length && !memcmp(has.at, wanted->at, has.length));
    free(has.at);
}

/* ---- What a store answers ---- */

struct told {
    size_t length;
    char text[MOST];
};

static void tell(struct told *told, elephant *e, const char *line) {
    uint64_t length, copied;
    OK(elephant_line(e, TEXT(line), &length));
    WANT(told->length + length <= MOST);
    OK(elephant_answer(e, 0, told->text + told->length, length, &copied));
    told->length += copied;
}

static const char *const questions[] = {
    "tick 0",     "list /",     "list /d",    "list /d/e",   "list /@1",    "list /d@5",   "restorable",   "due",         "usage",
    "groups",     "ahead 90000", "stat /",    "stat /d",     "stat /d/e",   "stat /f",     "stat /d/a",    "versions /f", "versions /d/a",
    "versions /old@6", "read /f", "read /f#1", "read /f#2",  "read /f#3",   "read /f@5",   "read /d/a",    "read /d/a@5", "read /old@6",
    "read /two",  "read 1",     "read 2",     "read 3",      "read 9",      "why /f#1",    "why /f#2",     "why /f#3",    "why /d/a#3",
    "versions /two", "read /no", "stat /d/new", "stat /new",
};

/* Commands that go on with the store. Their numbers show what it counts. */
static const char *const further[] = {
    "close 9",       "create /new",  "mkdir /d/new", "open write /f", "write 10 0 616263", "close 10", "undelete /old", "undelete /gone",
    "group make h",  "group add h /new", "tick 100", "open read /f#2", "clean",      "pass 9",        "create /d/new/x", "unmark g 5",
    "tick 90000",    "pass 99",      "save /f 646566", "restore /f 5", "unlink /two", "close 3",
};

static void tell_all(struct told *told, elephant *e) {
    told->length = 0;
    for (size_t at = 0; at < sizeof questions / sizeof *questions; at++) tell(told, e, questions[at]);
}

static void go_on(struct told *told, elephant *e) {
    told->length = 0;
    for (size_t at = 0; at < sizeof further / sizeof *further; at++) tell(told, e, further[at]);
    for (size_t at = 0; at < sizeof questions / sizeof *questions; at++) tell(told, e, questions[at]);
}

static void want_alike(const struct told *one, const struct told *other) {
    if (one->length == other->length && !memcmp(one->text, other->text, one->length)) return;
    fprintf(stderr, "one store answers\n%.*s\nand the other\n%.*s\n", (int)one->length, one->text, (int)other->length, other->text);
    exit(1);
}

static struct told before, after;

static void run(elephant *e, const char *const *lines, size_t count) {
    for (size_t at = 0; at < count; at++) {
        char text[64] = "";
        uint64_t length, copied;
        OK(elephant_line(e, TEXT(lines[at]), &length));
        OK(elephant_answer(e, 0, text, sizeof text - 1, &copied));
        if (strncmp(text, "ok ", 3)) {
            fprintf(stderr, "%s answers %s\n", lines[at], text);
            exit(1);
        }
    }
}

#define RUN(e, lines) run(e, lines, sizeof lines / sizeof *lines)

/* Files in directories with policies of each kind, blocks that versions share, deleted names of which /old can come back, a group with
 * marks, and removed versions: of /gone all, and of /d/a the first two. Handle 1 was used and closed. */
static elephant *filled(uint32_t history) {
    static const char *const lines[] = {
        "default / safe:100/2", "mkdir /d", "mkdir /d/e", "mkdir /none", "create /gone", "create /f", "open write /f", "write 1 0 6f6e65",
        "close 1", "create /d/a", "create /old", "save /d/a 61626364", "tick 5", "save /f 74776f", "save /d/a 61626365", "save /old 6f6c64",
        "link /f /two", "rmdir /none", "policy /f all", "policy /old all", "group make g", "tick 5", "unlink /old", "unlink /gone",
        "group add g /f", "group add g /d/a", "mark g 5", "mark g 6 900", "policy /d/a one", "default /d/e landmarks:60/5,3600/60",
        "save /f 736978", "tick 200", "pass 99", "save /f 7375", "tick 1",
    };
    elephant *e = fresh(history);
    RUN(e, lines);
    return e;
}

/* The same store with open handles: 2 and 3 read versions, and 9 writes a draft. */
static elephant *busy(uint32_t history) {
    static const char *const lines[] = {
        "open read /f#2", "open read /d/a", "open read /f", "open read /f", "close 4", "close 5", "open read /f", "open read /f", "close 6",
        "close 7", "open read /f", "close 8", "open write /d/a", "write 9 0 58", "write 9 600 59", "tick 3",
    };
    elephant *e = filled(history);
    RUN(e, lines);
    return e;
}

/* ---- Checkpoints ---- */

static void a_store_comes_back_and_goes_on(uint32_t history, uint32_t then) {
    elephant *e = busy(history), *back;
    struct bytes taken = take_out(e, 77);
    tell_all(&before, e);
    back = put_back(&taken, then);
    want_same_bytes(back, &taken);
    tell_all(&after, back);
    want_alike(&before, &after);
    go_on(&before, e);
    go_on(&after, back);
    want_alike(&before, &after);
    free(taken.at);
    taken = take_out(e, ROOM);
    want_same_bytes(back, &taken);
    free(taken.at);
    elephant_delete(e);
    elephant_delete(back);
}

static void open_handles_come_back(void) {
    elephant *e = busy(0), *back;
    struct bytes taken = take_out(e, 4096);
    char got[601];
    uint64_t length, copied, version, number;
    elephant_delete(e);
    back = put_back(&taken, 0);
    OK(elephant_read_handle_into(back, 2, 0, got, sizeof got, &length, &copied));
    WANT(copied == 3 && !memcmp(got, "one", 3));
    CODE(ELEPHANT_DRAFTING, elephant_save(back, TEXT("/d/a"), TEXT("x"), &version));
    OK(elephant_read_handle_into(back, 9, 0, got, sizeof got, &length, &copied));
    WANT(length == 601 && got[0] == 'X' && !memcmp(got + 1, "bce", 3) && !got[4] && !got[599] && got[600] == 'Y');
    OK(elephant_close_handle(back, 9, &version));
    OK(elephant_read_into(back, TEXT("/d/a"), ELEPHANT_NOW, 0, 0, got, sizeof got, &length, &copied));
    WANT(length == 601 && got[0] == 'X' && got[600] == 'Y' && version == 4);
    OK(elephant_open_write(back, TEXT("/f"), &number));
    WANT(number == 10);
    free(taken.at);
    elephant_delete(back);
}

/* A history isn't in the bytes. One begins in the store, with one folded event. */
static void a_history_begins_with_the_checkpoint(void) {
    elephant *e = busy(1), *back;
    struct bytes taken = take_out(e, 4096);
    uint64_t folded, entries;
    elephant_counts_row counts;
    back = put_back(&taken, 1);
    OK(elephant_history(back, &folded, &entries));
    WANT(folded == 1 && entries == 0);
    OK(elephant_tick(back, 1));
    OK(elephant_counts(back, &counts));
    WANT(counts.events == 2);
    elephant_close(back);
    OK(elephant_open_checkpoint(back, taken.at, taken.length, 0));
    CODE(ELEPHANT_NO_HISTORY, elephant_history(back, &folded, &entries));
    OK(elephant_counts(back, &counts));
    WANT(counts.events == 0);
    free(taken.at);
    elephant_delete(e);
    elephant_delete(back);
}

/* Nothing but the text changes: neither the history, nor what is kept of the last call. */
static void a_checkpoint_leaves_the_store(void) {
    elephant *e = busy(1);
    uint64_t length, copied, folded, entries, more, detail;
    char got[8];
    struct bytes taken;
    OK(elephant_history(e, &folded, &entries));
    OK(elephant_read(e, TEXT("/f"), ELEPHANT_VERSION, 2, &length));
    taken = take_out(e, 500);
    OK(elephant_take(e, 0, got, sizeof got, &copied));
    WANT(copied == 3 && !memcmp(got, "one", 3));
    OK(elephant_tell(e, &length));
    OK(elephant_answer(e, 0, got, sizeof got, &copied));
    WANT(!memcmp(got, "ok", 2));
    CODE(ELEPHANT_FORGOTTEN, elephant_read(e, TEXT("/d/a"), ELEPHANT_VERSION, 1, &length));
    want_same_bytes(e, &taken);
    OK(elephant_detail(e, &detail));
    WANT(detail == 0);
    OK(elephant_history(e, &folded, &more));
    WANT(more == entries + 2);
    free(taken.at);
    elephant_delete(e);
}

/* ---- Bytes that are no checkpoint ---- */

/* The bytes open nothing, and the handle stays closed. */
static void want_refused(elephant *closed, const unsigned char *at, size_t length) {
    uint64_t moment = 7;
    for (uint32_t history = 0; history < 2; history++) {
        CODE(ELEPHANT_BAD_CHECKPOINT, elephant_open_checkpoint(closed, at, length, history));
        CODE(ELEPHANT_CLOSED, elephant_now(closed, &moment));
        WANT(moment == 7);
    }
}

static void damage_is_refused(void) {
    elephant *e = busy(0), *closed = closed_handle();
    struct bytes taken = take_out(e, 4096);
    WANT(taken.length < ROOM);
    for (size_t at = 0; at < taken.length; at++) {
        for (int bit = 0; bit < 8; bit++) {
            taken.at[at] ^= (unsigned char)(1 << bit);
            want_refused(closed, taken.at, taken.length);
            taken.at[at] ^= (unsigned char)(1 << bit);
        }
        want_refused(closed, taken.at + at + 1, taken.length - at - 1);
        want_refused(closed, taken.at, at);
    }
    want_refused(closed, taken.at, taken.length + 1);
    want_same_bytes(e, &taken);
    memmove(taken.at + 1, taken.at, taken.length);
    want_refused(closed, taken.at, taken.length + 1);
    OK(elephant_open_checkpoint(closed, taken.at + 1, taken.length, 0));
    free(taken.at);
    elephant_delete(e);
    elephant_delete(closed);
}

/* The CRC-32C of bytes, bit by bit: the polynomial 0x1EDC6F41, bits reversed, begun with all ones and inverted at the end. */
static uint32_t crc_of(const unsigned char *at, size_t length) {
    uint32_t sum = 0xffffffff;
    for (size_t byte = 0; byte < length; byte++) {
        sum ^= at[byte];
        for (int bit = 0; bit < 8; bit++) sum = sum >> 1 ^ (sum & 1 ? 0x82f63b78 : 0);
    }
    return ~sum;
}

/* Puts the length of all and the sum behind a body, and returns that length. */
static size_t seal(unsigned char *at, size_t body) {
    uint32_t sum;
    for (unsigned byte = 0; byte < 8; byte++) at[body + byte] = (unsigned char)((uint64_t)(body + 12) >> (56 - 8 * byte));
    sum = crc_of(at, body + 8);
    for (unsigned byte = 0; byte < 4; byte++) at[body + 8 + byte] = (unsigned char)(sum >> (24 - 8 * byte));
    return body + 12;
}

/* A fresh store with the limits 128, 1, 2, .., 8: the moment, one directory that is the root and keeps for 86,400 seconds and no floor,
 * six empty lists, eight counts and nine limits. */
static const unsigned char by_hand[] = {
    'E', 'L', 'E', 'P', 'H', 'A', 'N', 'T', 1, 0, 1, 0, 2, 0x80, 0xa3, 5, 0,
    0, 0, 0, 0, 0, 0,
    0, 0, 0, 0, 0, 0, 0, 0,
    0x80, 1, 1, 2, 3, 4, 5, 6, 7, 8,
};
/* Where it has the moment, the number of directories, the root's number and policy, the number of versions, the count of files, the limit
 * of events, and the last limit, of marks. */
enum { MOMENT = 9, DIRECTORIES, ROOT_NUMBER, POLICY, VERSIONS = 19, FILES_MADE = 23, EVENTS = 31, MARKS = 40 };

static void the_bytes_are_those_of_the_page(void) {
    const elephant_limits limits = {128, 1, 2, 3, 4, 5, 6, 7, 8};
    unsigned char text[sizeof by_hand + 12];
    struct bytes wanted = {sizeof text, text};
    elephant *e = closed_handle(), *back;
    uint64_t number;
    WANT(crc_of((const unsigned char *)"123456789", 9) == 0xe3069283);
    memcpy(text, by_hand, sizeof by_hand);
    WANT(seal(text, sizeof by_hand) == sizeof text);
    OK(elephant_open(e, &limits, 0));
    want_same_bytes(e, &wanted);
    back = put_back(&wanted, 1);
    want_same_bytes(back, &wanted);
    OK(elephant_create(back, TEXT("/f"), &number));
    CODE(ELEPHANT_FULL, elephant_create(back, TEXT("/g"), &number));
    elephant_delete(e);
    elephant_delete(back);
}

/* Bytes with a right sum: another form, rows that aren't there, a choice that isn't one, a number that is too long, and rows and counts
 * that no store has. */
static void sealed_bytes_may_be_no_store(void) {
    static const struct {
        size_t at;
        unsigned char byte;
    } wrong[] = {{0, 'e'}, {8, 2}, {MOMENT, 0x80}, {DIRECTORIES, 0x7f}, {ROOT_NUMBER, 1}, {POLICY, 4}, {VERSIONS, 0x7f}, {FILES_MADE, 2},
                 {EVENTS + 1, 0}};
    unsigned char text[sizeof by_hand + 24];
    elephant *closed = closed_handle();
    for (size_t at = 0; at < sizeof wrong / sizeof *wrong; at++) {
        memcpy(text, by_hand, sizeof by_hand);
        text[wrong[at].at] = wrong[at].byte;
        want_refused(closed, text, seal(text, sizeof by_hand));
    }
    /* 2^63 versions, though no byte follows. */
    memcpy(text, by_hand, VERSIONS);
    memset(text + VERSIONS, 0x80, 9);
    text[VERSIONS + 9] = 1;
    want_refused(closed, text, seal(text, VERSIONS + 10));
    /* A byte after the last limit, which may be 10,000 and not 10,001. */
    memcpy(text, by_hand, sizeof by_hand);
    text[sizeof by_hand] = 0;
    want_refused(closed, text, seal(text, sizeof by_hand + 1));
    text[MARKS] = 0x91;
    text[MARKS + 1] = 0x4e;
    want_refused(closed, text, seal(text, sizeof by_hand + 1));
    text[MARKS] = 0x90;
    OK(elephant_open_checkpoint(closed, text, seal(text, sizeof by_hand + 1), 0));
    elephant_delete(closed);
}

/* With limits that allow no event there is no history; without one events aren't counted. */
static void no_history_begins_with_a_limit_of_none(void) {
    unsigned char text[sizeof by_hand + 12];
    const elephant_limits none = {0, 9, 9, 9, 9, 9, 9, 9, 9};
    elephant *e = closed_handle();
    uint64_t number;
    memcpy(text, by_hand, EVENTS);
    memcpy(text + EVENTS + 1, by_hand + EVENTS + 2, sizeof by_hand - EVENTS - 2);
    text[EVENTS] = 0;
    CODE(ELEPHANT_HISTORY_FULL, elephant_open_checkpoint(e, text, seal(text, sizeof by_hand - 1), 1));
    CODE(ELEPHANT_CLOSED, elephant_now(e, &number));
    OK(elephant_open_checkpoint(e, text, seal(text, sizeof by_hand - 1), 0));
    OK(elephant_create(e, TEXT("/f"), &number));
    OK(elephant_renew(e));
    elephant_close(e);
    text[EVENTS] = 1;
    OK(elephant_open_checkpoint(e, text, seal(text, sizeof by_hand - 1), 1));
    CODE(ELEPHANT_HISTORY_FULL, elephant_create(e, TEXT("/f"), &number));
    OK(elephant_renew(e));
    elephant_close(e);
    OK(elephant_open(e, &none, 1));
    CODE(ELEPHANT_HISTORY_FULL, elephant_renew(e));
    elephant_delete(e);
}

static void open_and_closed_handles_answer(void) {
    elephant *e = filled(0), *closed = closed_handle();
    struct bytes taken = take_out(e, 4096);
    uint64_t number = 7;
    for (uint32_t history = 0; history < 2; history++) {
        CODE(ELEPHANT_OPENED, elephant_open_checkpoint(e, taken.at, taken.length, history));
        CODE(ELEPHANT_OPENED, elephant_open_checkpoint(e, taken.at, taken.length - 1, history));
    }
    want_same_bytes(e, &taken);
    CODE(ELEPHANT_CLOSED, elephant_checkpoint(closed, &number));
    CODE(ELEPHANT_CLOSED, elephant_renew(closed));
    CODE(ELEPHANT_CLOSED, elephant_directory_across(closed, 0, &number));
    CODE(ELEPHANT_CLOSED, elephant_file_across(closed, 1, &number));
    CODE(ELEPHANT_CLOSED, elephant_version_across(closed, 1, 1, &number));
    WANT(number == 7);
    free(taken.at);
    elephant_delete(e);
    elephant_delete(closed);
}

/* Contents of a mebibyte, and more bytes after a checkpoint than it has. */
static void long_checkpoints_come_back(void) {
    const size_t length = (size_t)1 << 20;
    char *content = malloc(length);
    elephant *e = fresh(0), *closed = closed_handle(), *back;
    struct bytes taken;
    uint64_t handle, version, has, copied;
    WANT(content);
    for (size_t at = 0; at < length; at++) content[at] = (char)(at * 2654435761u >> 13);
    OK(elephant_save(e, TEXT("/f"), content, length, &version));
    OK(elephant_save(e, TEXT("/g"), content, length, &version));
    content[length / 2] ^= 1;
    OK(elephant_open_write(e, TEXT("/f"), &handle));
    OK(elephant_write(e, handle, length / 2, content + length / 2, 1));
    OK(elephant_close_handle(e, handle, &version));
    taken = take_out(e, 65537);
    /* Of its last version /f has one block that the version before hasn't. */
    WANT(taken.length > 2 * length && taken.length < 2 * length + length / 16);
    back = put_back(&taken, 0);
    want_same_bytes(back, &taken);
    want_refused(closed, taken.at, ROOM);
    OK(elephant_read_into(back, TEXT("/f"), ELEPHANT_NOW, 0, 1, taken.at, ROOM, &has, &copied));
    WANT(has == length && copied == length - 1 && !memcmp(taken.at, content + 1, copied));
    free(content);
    free(taken.at);
    elephant_delete(closed);
    elephant_delete(e);
    elephant_delete(back);
}

/* ---- Renewal ---- */

static elephant_stat_row stat_of(elephant *e, const char *path) {
    elephant_stat_row row;
    OK(elephant_stat(e, TEXT(path), ELEPHANT_NOW, 0, &row));
    return row;
}

/* A store whose files 1 and 2 are gone, and the versions 1, 2 and 4 of /f, which is file 3. Marks hold its versions 3 and 5; 6 is current.
 * /d/e/a is file 4. The name of directory 2, /w, is deleted. */
static elephant *aged(uint32_t history) {
    static const char *const lines[] = {
        "default / one", "create /x", "create /y", "mkdir /d", "mkdir /w", "create /f", "mkdir /d/e", "create /d/e/a", "unlink /x", "unlink /y",
        "rmdir /w", "save /f 61", "tick 10", "group make g", "group add g /f", "save /f 62", "tick 1", "mark g 10", "save /f 63", "tick 1",
        "save /f 64", "tick 1", "mark g 12", "save /f 65", "tick 9", "pass 99", "save /d/e/a 7a",
    };
    elephant *e = fresh(history);
    RUN(e, lines);
    return e;
}

/* A number is its place among those that are held. A directory is never removed, so its number stays. */
static void the_numbers_to_come_are_told(uint32_t history) {
    static const uint64_t files[][2] = {{3, 1}, {4, 2}}, versions[][2] = {{3, 1}, {5, 2}, {6, 3}};
    elephant *e = aged(history);
    uint64_t number;
    for (uint64_t directory = 0; directory < 4; directory++) {
        OK(elephant_directory_across(e, directory, &number));
        WANT(number == directory);
    }
    for (size_t at = 0; at < 2; at++) {
        OK(elephant_file_across(e, files[at][0], &number));
        WANT(number == files[at][1]);
    }
    for (size_t at = 0; at < 3; at++) {
        OK(elephant_version_across(e, 3, versions[at][0], &number));
        WANT(number == versions[at][1]);
    }
    number = 7;
    CODE(ELEPHANT_NO_RESULT, elephant_directory_across(e, 4, &number));
    CODE(ELEPHANT_NO_RESULT, elephant_directory_across(e, UINT64_MAX, &number));
    CODE(ELEPHANT_NO_RESULT, elephant_file_across(e, 0, &number));
    CODE(ELEPHANT_NO_RESULT, elephant_file_across(e, 1, &number));
    CODE(ELEPHANT_NO_RESULT, elephant_file_across(e, UINT64_MAX, &number));
    CODE(ELEPHANT_NO_RESULT, elephant_version_across(e, 3, 4, &number));
    CODE(ELEPHANT_NO_RESULT, elephant_version_across(e, 3, 7, &number));
    CODE(ELEPHANT_NO_RESULT, elephant_version_across(e, 1, 1, &number));
    CODE(ELEPHANT_NO_RESULT, elephant_version_across(e, UINT64_MAX, UINT64_MAX, &number));
    WANT(number == 7);
    OK(elephant_renew(e));
    WANT(stat_of(e, "/d").id == 1 && stat_of(e, "/d/e").id == 3 && stat_of(e, "/f").id == 1 && stat_of(e, "/d/e/a").id == 2);
    WANT(stat_of(e, "/f").version == 3 && stat_of(e, "/d/e/a").version == 2);
    elephant_delete(e);
}

/* The counts are those of what is held: the names without those of the removed files. */
static void only_what_is_held_counts(uint32_t history) {
    elephant *e = aged(history);
    elephant_counts_row had, has;
    uint64_t folded, entries, number;
    OK(elephant_counts(e, &had));
    WANT(had.files == 4 && had.directories == 3 && had.names == 7 && had.versions == 10 && had.handles == 0 && had.marks == 2);
    OK(elephant_renew(e));
    OK(elephant_counts(e, &has));
    WANT(has.files == 2 && has.directories == 3 && has.names == 5 && has.versions == 5 && has.handles == 0);
    WANT(has.groups == 1 && has.members == 1 && has.marks == 2 && has.events == history);
    if (history) {
        OK(elephant_history(e, &folded, &entries));
        WANT(folded == 1 && entries == 0);
    } else {
        CODE(ELEPHANT_NO_HISTORY, elephant_history(e, &folded, &entries));
    }
    OK(elephant_create(e, TEXT("/x"), &number));
    WANT(number == 3);
    OK(elephant_open_write(e, TEXT("/f"), &number));
    WANT(number == 1);
    OK(elephant_close_handle(e, 1, &number));
    OK(elephant_save(e, TEXT("/f"), TEXT("on"), &number));
    WANT(number == 4);
    elephant_delete(e);
}

/* What a path means at each moment, and of each version its moments and length: all as before, by the numbers that were told. */
struct seen {
    int32_t code;
    uint64_t length;
    char bytes[16];
};
enum { LATE = 220 };

static void look(elephant *e, const char *path, struct seen *seen) {
    for (uint64_t moment = 0; moment <= LATE; moment++) {
        struct seen *it = &seen[moment];
        uint64_t copied;
        memset(it, 0, sizeof *it);
        it->code = elephant_read_into(e, TEXT(path), ELEPHANT_AT, moment, 0, it->bytes, sizeof it->bytes, &it->length, &copied);
    }
}

static void want_same_versions(elephant *old, elephant *new, const char *path, uint64_t file) {
    uint64_t rows, same, number;
    elephant_version_row was, is;
    OK(elephant_versions(old, TEXT(path), ELEPHANT_NOW, 0, &rows));
    OK(elephant_versions(new, TEXT(path), ELEPHANT_NOW, 0, &same));
    WANT(rows == same && rows);
    for (uint64_t row = 0; row < rows; row++) {
        OK(elephant_row_version(old, row, &was));
        OK(elephant_row_version(new, row, &is));
        OK(elephant_version_across(old, file, was.number, &number));
        WANT(number == is.number && number == row + 1);
        was.number = number;
        WANT(!memcmp(&was, &is, sizeof is));
    }
}

static void a_renewal_keeps_the_past(uint32_t history) {
    static const char *const paths[] = {"/f", "/d/a", "/old", "/two", "/gone", "/d", "/no"};
    static struct seen was[LATE + 1], is[LATE + 1];
    elephant *e = filled(history), *new;
    struct bytes taken = take_out(e, 4096);
    uint64_t rows, same;
    new = put_back(&taken, history);
    OK(elephant_tick(e, 9));
    OK(elephant_tick(new, 9));
    OK(elephant_renew(new));
    for (size_t at = 0; at < sizeof paths / sizeof *paths; at++) {
        look(e, paths[at], was);
        look(new, paths[at], is);
        WANT(!memcmp(was, is, sizeof is));
    }
    want_same_versions(e, new, "/f", 2);
    want_same_versions(e, new, "/two", 2);
    want_same_versions(e, new, "/d/a", 3);
    OK(elephant_ahead(e, 200000, &rows));
    OK(elephant_ahead(new, 200000, &same));
    WANT(rows == same);
    OK(elephant_undelete(new, TEXT("/old"), &same));
    OK(elephant_restorable(e, &rows));
    OK(elephant_restorable(new, &same));
    WANT(rows == same + 1);
    free(taken.at);
    elephant_delete(e);
    elephant_delete(new);
}

/* With a handle open nothing is renewed, and nothing changes. */
static void open_handles_are_not_renewed(uint32_t history) {
    elephant *e = busy(history);
    struct bytes taken = take_out(e, 4096);
    uint64_t length, copied, version;
    char got[8];
    OK(elephant_read(e, TEXT("/f"), ELEPHANT_VERSION, 2, &length));
    CODE(ELEPHANT_HANDLES_OPEN, elephant_renew(e));
    OK(elephant_take(e, 0, got, sizeof got, &copied));
    WANT(copied == 3 && !memcmp(got, "one", 3));
    want_same_bytes(e, &taken);
    OK(elephant_abandon(e, 9));
    CODE(ELEPHANT_HANDLES_OPEN, elephant_renew(e));
    OK(elephant_close_handle(e, 2, &version));
    CODE(ELEPHANT_HANDLES_OPEN, elephant_renew(e));
    OK(elephant_close_handle(e, 3, &version));
    OK(elephant_renew(e));
    CODE(ELEPHANT_NO_HANDLE, elephant_close_handle(e, 3, &version));
    free(taken.at);
    elephant_delete(e);
}

/* The kept result is dropped. The text stays. */
static void a_renewal_drops_the_result(void) {
    elephant *e = filled(0);
    uint64_t length, copied;
    char got[8];
    struct bytes taken;
    OK(elephant_read(e, TEXT("/f"), ELEPHANT_NOW, 0, &length));
    taken = take_out(e, 4096);
    OK(elephant_take(e, 0, got, sizeof got, &copied));
    OK(elephant_renew(e));
    CODE(ELEPHANT_NO_RESULT, elephant_take(e, 0, got, sizeof got, &copied));
    CODE(ELEPHANT_NO_RESULT, elephant_detail(e, &length));
    OK(elephant_answer(e, 0, got, sizeof got, &copied));
    WANT(copied == 8 && !memcmp(got, "ELEPHANT", 8));
    OK(elephant_tell(e, &length));
    WANT(length == 0);
    free(taken.at);
    elephant_delete(e);
}

/* A store is renewed as the one that its checkpoint opens. */
static void a_renewal_may_follow_a_checkpoint(void) {
    elephant *e = aged(0), *back;
    struct bytes taken = take_out(e, 4096);
    back = put_back(&taken, 1);
    free(taken.at);
    OK(elephant_renew(e));
    OK(elephant_renew(back));
    taken = take_out(e, 4096);
    want_same_bytes(back, &taken);
    OK(elephant_renew(e));
    want_same_bytes(e, &taken);
    free(taken.at);
    elephant_delete(e);
    elephant_delete(back);
}

/* A store that may make six versions makes a hundred and more. */
static void a_store_lives_longer_than_its_counters(uint32_t history) {
    const elephant_limits limits = {10000, 1, 1, 1, 6, 1, 1, 1, 1};
    elephant *e = closed_handle();
    uint64_t number, removed, finished, saved = 0;
    OK(elephant_open(e, &limits, history));
    OK(elephant_default(e, TEXT("/"), TEXT("one")));
    OK(elephant_create(e, TEXT("/f"), &number));
    for (int life = 0; life < 30; life++) {
        while (elephant_save(e, TEXT("/f"), &saved, sizeof saved, &number) == ELEPHANT_OK) saved++;
        CODE(ELEPHANT_FULL, elephant_save(e, TEXT("/f"), "", 0, &number));
        OK(elephant_pass(e, 99, &removed, &finished));
        WANT(finished && removed == 5);
        OK(elephant_renew(e));
        WANT(stat_of(e, "/f").version == 1 && stat_of(e, "/f").length == sizeof saved);
    }
    WANT(saved == 150);
    elephant_delete(e);
}

int main(void) {
    for (uint32_t history = 0; history < 2; history++) {
        a_store_comes_back_and_goes_on(history, 0);
        a_store_comes_back_and_goes_on(history, 1);
        the_numbers_to_come_are_told(history);
        only_what_is_held_counts(history);
        a_renewal_keeps_the_past(history);
        open_handles_are_not_renewed(history);
        a_store_lives_longer_than_its_counters(history);
    }
    open_handles_come_back();
    a_history_begins_with_the_checkpoint();
    a_checkpoint_leaves_the_store();
    damage_is_refused();
    the_bytes_are_those_of_the_page();
    sealed_bytes_may_be_no_store();
    no_history_begins_with_a_limit_of_none();
    open_and_closed_handles_answer();
    long_checkpoints_come_back();
    a_renewal_drops_the_result();
    a_renewal_may_follow_a_checkpoint();
    puts("checkpoints and renewals: as the header says");
    return 0;
}
