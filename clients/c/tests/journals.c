/* Journals: the bytes that a store gives for its file open the store again, cut anywhere after the checkpoint that after the whole
 * changes, and nothing is given twice or lost. The bytes of a change are worked out by hand, with a sum of the test's own. */

#include "want.h"

#define MOST (1 << 16)
#define ROOM ((size_t)1 << 20)

/* The file, in memory. */
struct file {
    size_t length;
    unsigned char at[1 << 20];
};

static struct file file, other, taken;

static elephant *closed_handle(void) {
    elephant *e;
    elephant_new(&e);
    WANT(e);
    return e;
}

/* Puts the text at the end of a file, in pieces of so many bytes. */
static void put_text(struct file *to, elephant *e, uint64_t length, size_t piece) {
    uint64_t copied, sum = 0;
    do {
        WANT(to->length + piece <= ROOM);
        OK(elephant_answer(e, sum, to->at + to->length, piece, &copied));
        to->length += copied;
        sum += copied;
    } while (copied);
    WANT(sum == length);
}

/* Puts the bytes of the change under way at the end of a file, which is then on the disk. Returns how many bytes they were. */
static uint64_t append(struct file *to, elephant *e) {
    uint64_t length = 7;
    OK(elephant_journal_pending(e, &length));
    put_text(to, e, length, 100);
    if (length)
        OK(elephant_journal_written(e));
    else
        CODE(ELEPHANT_NO_RESULT, elephant_journal_written(e));
    return length;
}

static void begin(struct file *to, elephant *e) {
    uint64_t length = 7;
    OK(elephant_journal_begin(e, &length));
    to->length = 0;
    put_text(to, e, length, 1000);
}

static void take_checkpoint(struct file *to, elephant *e) {
    uint64_t length;
    OK(elephant_checkpoint(e, &length));
    to->length = 0;
    put_text(to, e, length, 4096);
}

/* Opens a new handle from the first bytes of a file: so many keep the store, and this follows them. */
static elephant *open_file(const struct file *from, size_t length, uint32_t history, uint64_t wanted, uint32_t wanted_rest) {
    elephant *e = closed_handle();
    uint64_t whole = 7;
    uint32_t rest = 7;
    OK(elephant_journal_open(e, from->at, length, history, &whole, &rest));
    if (whole != wanted || rest != wanted_rest) {
        fprintf(stderr, "%zu bytes: whole %llu, rest %u\n", length, (unsigned long long)whole, (unsigned)rest);
        exit(1);
    }
    return e;
}

static void line(elephant *e, const char *text, const char *wanted) {
    char got[200] = "";
    uint64_t length, copied;
    OK(elephant_line(e, TEXT(text), &length));
    OK(elephant_answer(e, 0, got, sizeof got - 1, &copied));
    if (strncmp(got, wanted, strlen(wanted))) {
        fprintf(stderr, "%s answers %s\n", text, got);
        exit(1);
    }
}

/* The two stores have the same checkpoint: they are the same but for their histories. */
static void want_same(elephant *one, elephant *two) {
    take_checkpoint(&taken, one);
    take_checkpoint(&other, two);
    WANT(taken.length == other.length && !memcmp(taken.at, other.at, taken.length));
}

/* ---- The bytes, by hand ---- */

/* CRC-32C, bit by bit. */
static uint32_t sum_of(const unsigned char *at, size_t length) {
    uint32_t sum = 0xffffffffu;
    for (size_t n = 0; n < length; n++) {
        sum ^= at[n];
        for (int bit = 0; bit < 8; bit++) sum = (sum >> 1) ^ (sum & 1 ? 0x82f63b78u : 0);
    }
    return ~sum;
}

static void put_check(unsigned char *to, const unsigned char *at, size_t length) {
    uint32_t sum = sum_of(at, length);
    for (int n = 0; n < 4; n++) to[n] = (unsigned char)(sum >> (24 - 8 * n));
}

/* The bytes of a change after those of a file: its length and the check of that, its events and their check. */
static void put_change(struct file *to, const unsigned char *events, size_t length) {
    unsigned char *at = to->at + to->length;
    for (int n = 0; n < 8; n++) at[n] = (unsigned char)((uint64_t)length >> (56 - 8 * n));
    put_check(at + 8, at - 4, 12);
    memcpy(at + 12, events, length);
    put_check(at + 12 + length, at + 8, 4 + length);
    to->length += 16 + length;
}

static void the_bytes_are_those_of_the_form(void) {
    static const unsigned char head[17] = "ELEPHANT JOURNAL\2";
    /* One event: tick 5. Three events: mkdir /a, then a clock and a clean of nothing, of which the last isn't in the file. */
    static const unsigned char one[] = {1, 8, 5}, two[] = {2, 0, 1, 1, 'a', 11, 9};
    elephant *e = fresh(0);
    uint64_t moment, directory;
    begin(&file, e);
    take_checkpoint(&taken, e);
    WANT(sum_of((const unsigned char *)"123456789", 9) == 0xe3069283u);
    WANT(!memcmp(file.at, head, 17) && file.length == 25 + taken.length && !memcmp(file.at + 25, taken.at, taken.length));
    for (int n = 0; n < 8; n++) WANT(file.at[17 + n] == (unsigned char)((uint64_t)taken.length >> (56 - 8 * n)));
    other = file;
    OK(elephant_tick(e, 5));
    OK(elephant_now(e, &moment));
    append(&file, e);
    put_change(&other, one, sizeof one);
    WANT(file.length == other.length && !memcmp(file.at, other.at, file.length));
    OK(elephant_mkdir(e, TEXT("/a"), &directory));
    CODE(ELEPHANT_EXISTS, elephant_mkdir(e, TEXT("/a"), &directory));
    OK(elephant_clock(e, 9));
    line(e, "clean", "ok nothing");
    line(e, "list /", "ok");
    append(&file, e);
    put_change(&other, two, sizeof two);
    WANT(file.length == other.length && !memcmp(file.at, other.at, file.length));
    WANT(moment == 5);
    elephant_delete(e);
}

/* ---- Cut and damaged files ---- */

/* What a store is made of, change by change. Each group is one change; `pass` and `clean` remove versions. */
static const char *const changes[][6] = {
    {"mkdir /d", "create /f", "save /f 6f6e65", "tick 3", NULL},
    {"default / one", "create /d/a", "open write /d/a", "write 1 0 616263", "close 1", NULL},
    {"policy /f one", "save /f 74776f", "save /f 736978", "tick 1", "pass 99", NULL},
    {"group make g", "group add g /d/a", "open read /f", "link /f /two", "rename /two /three", NULL},
    {"save /d/a 64", "mark g 3 900", "clean", "unlink /three", "close 2", NULL},
    {"undelete /three", "revert /d/a 2", "unmark g 3", "rmdir /d/no", "clock 9000", NULL},
};
#define CHANGES (sizeof changes / sizeof *changes)

static void make(elephant *e, size_t change) {
    uint64_t length;
    for (const char *const *text = changes[change]; *text; text++) OK(elephant_line(e, TEXT(*text), &length));
}

/* The stores before all changes and after each, and where each ends in the file. */
static struct {
    elephant *store;
    uint64_t end;
} after[CHANGES + 1];

/* A store and its file, and beside it stores that were taken out after each change. */
static elephant *written_file(uint32_t history) {
    elephant *e = fresh(history);
    for (size_t n = 0; n <= CHANGES; n++) {
        if (n) {
            make(e, n - 1);
            WANT(append(&file, e) > 16);
        } else {
            begin(&file, e);
        }
        take_checkpoint(&taken, e);
        after[n].store = closed_handle();
        OK(elephant_open_checkpoint(after[n].store, taken.at, taken.length, 0));
        after[n].end = file.length;
    }
    return e;
}

static void forget(elephant *e) {
    for (size_t n = 0; n <= CHANGES; n++) elephant_delete(after[n].store);
    elephant_delete(e);
}

/* Nothing is opened from these bytes, and nothing is written. */
static void want_refused(const unsigned char *at, size_t length) {
    elephant *closed = closed_handle();
    for (uint32_t history = 0; history < 2; history++) {
        uint64_t whole = 7, moment = 7;
        uint32_t rest = 7;
        CODE(ELEPHANT_BAD_JOURNAL, elephant_journal_open(closed, at, length, history, &whole, &rest));
        WANT(whole == 7 && rest == 7);
        CODE(ELEPHANT_CLOSED, elephant_now(closed, &moment));
    }
    elephant_delete(closed);
}

static void a_cut_file_is_the_store_of_its_whole_changes(uint32_t history) {
    elephant *e = written_file(history);
    size_t last = 0;
    want_same(e, after[CHANGES].store);
    for (size_t length = 0; length <= file.length; length++) {
        elephant *back;
        if (length < after[0].end) {
            want_refused(file.at, length);
            continue;
        }
        if (last < CHANGES && length == after[last + 1].end) last++;
        back = open_file(&file, length, history, after[last].end, length > after[last].end);
        if (length == after[last].end || length + 1 == after[last + 1].end) want_same(back, after[last].store);
        elephant_delete(back);
    }
    WANT(last == CHANGES);
    forget(e);
}

static void a_damaged_file_is_the_store_before_the_damage(void) {
    elephant *e = written_file(0);
    size_t last = 0;
    for (size_t at = 0; at < file.length; at++) {
        file.at[at] ^= (unsigned char)(1 << at % 8);
        if (at < after[0].end) {
            want_refused(file.at, file.length);
        } else {
            elephant *back;
            if (at == after[last + 1].end) last++;
            back = open_file(&file, file.length, 0, after[last].end, 2);
            if (at == after[last].end) want_same(back, after[last].store);
            elephant_delete(back);
        }
        file.at[at] ^= (unsigned char)(1 << at % 8);
    }
    want_refused((const unsigned char *)"twenty bytes of text", 20);
    want_refused((const unsigned char *)"", 0);
    forget(e);
}

/* A store that was opened goes on as the one that wrote the file, and its file goes on too. */
static void an_opened_store_goes_on(uint32_t history, uint32_t then) {
    elephant *e = fresh(history), *back;
    begin(&file, e);
    for (size_t n = 0; n < 3; n++) {
        make(e, n);
        append(&file, e);
    }
    back = open_file(&file, file.length, then, file.length, 0);
    want_same(e, back);
    for (size_t n = 3; n < CHANGES; n++) {
        make(e, n);
        make(back, n);
        append(&file, back);
    }
    want_same(e, back);
    elephant_delete(back);
    back = open_file(&file, file.length, then, file.length, 0);
    want_same(e, back);
    elephant_delete(back);
    elephant_delete(e);
}

/* ---- What is under way ---- */

static void nothing_is_given_twice_or_lost(void) {
    elephant *e = fresh(0), *back;
    uint64_t length, again, version;
    begin(&file, e);
    CODE(ELEPHANT_NO_RESULT, elephant_journal_written(e));
    WANT(append(&file, e) == 0);
    OK(elephant_save(e, TEXT("/f"), TEXT("one"), &version));
    OK(elephant_journal_pending(e, &length));
    /* The append failed, and more is done. The bytes that are asked for again have both. */
    OK(elephant_save(e, TEXT("/f"), TEXT("two"), &version));
    OK(elephant_journal_pending(e, &again));
    WANT(again > length);
    put_text(&file, e, again, 77);
    /* What is done before they are on the disk isn't in them. */
    OK(elephant_tick(e, 5));
    OK(elephant_journal_written(e));
    CODE(ELEPHANT_NO_RESULT, elephant_journal_written(e));
    back = open_file(&file, file.length, 0, file.length, 0);
    OK(elephant_tick(back, 5));
    want_same(e, back);
    elephant_delete(back);
    WANT(append(&file, e) > 0);
    back = open_file(&file, file.length, 0, file.length, 0);
    want_same(e, back);
    elephant_delete(back);
    WANT(append(&file, e) == 0);
    elephant_delete(e);
}

/* The kept result, the history and the last answer stay, and a text that is asked for again is the same. */
static void giving_bytes_leaves_the_store(void) {
    elephant *e = fresh(1);
    uint64_t length, copied, folded, entries, more, version;
    char got[8];
    OK(elephant_save(e, TEXT("/f"), TEXT("one"), &version));
    OK(elephant_read(e, TEXT("/f"), ELEPHANT_NOW, 0, &length));
    OK(elephant_history(e, &folded, &entries));
    begin(&file, e);
    OK(elephant_journal_pending(e, &length));
    WANT(length == 0);
    OK(elephant_answer(e, 0, got, sizeof got, &copied));
    WANT(copied == 0);
    OK(elephant_journal_compact(e, &length));
    OK(elephant_journal_written(e));
    OK(elephant_history(e, &folded, &more));
    WANT(more == entries);
    OK(elephant_take(e, 0, got, sizeof got, &copied));
    WANT(copied == 3 && !memcmp(got, "one", 3));
    OK(elephant_tell(e, &length));
    OK(elephant_answer(e, 0, got, sizeof got, &copied));
    WANT(!memcmp(got, "ok", 2));
    elephant_delete(e);
}

static void a_new_file_takes_the_place_of_the_old(void) {
    static struct file fresh_file;
    elephant *e = fresh(0), *back;
    uint64_t length, version;
    begin(&file, e);
    make(e, 0);
    append(&file, e);
    make(e, 1);
    OK(elephant_journal_compact(e, &length));
    fresh_file.length = 0;
    put_text(&fresh_file, e, length, 500);
    /* The old file still counts: it lacks the change under way. */
    back = open_file(&file, file.length, 0, file.length, 0);
    make(back, 1);
    want_same(e, back);
    elephant_delete(back);
    OK(elephant_save(e, TEXT("/f"), TEXT("three"), &version));
    OK(elephant_journal_written(e));
    WANT(append(&fresh_file, e) > 0);
    back = open_file(&fresh_file, fresh_file.length, 0, fresh_file.length, 0);
    want_same(e, back);
    elephant_delete(back);
    /* The bytes of the new file don't follow those of the old one. */
    memcpy(file.at + file.length, fresh_file.at + length, fresh_file.length - length);
    back = open_file(&file, file.length + fresh_file.length - length, 0, file.length, 2);
    elephant_delete(back);
    elephant_delete(e);
}

/* A trim folds the history, and leaves the journal what is under way. */
static void a_history_begins_with_the_file(void) {
    elephant *e = fresh(1), *back;
    uint64_t folded, entries;
    begin(&file, e);
    make(e, 0);
    OK(elephant_trim(e, &folded));
    WANT(folded == 4);
    make(e, 1);
    append(&file, e);
    back = open_file(&file, file.length, 1, file.length, 0);
    OK(elephant_history(back, &folded, &entries));
    WANT(folded == 1 && entries == 9);
    want_same(e, back);
    elephant_delete(back);
    back = open_file(&file, file.length, 0, file.length, 0);
    CODE(ELEPHANT_NO_HISTORY, elephant_history(back, &folded, &entries));
    elephant_delete(back);
    elephant_delete(e);
}

/* A note changes nothing, and is in the file, so that a history that is opened from it has the note. */
static void a_note_is_in_the_file(void) {
    /* One event: the note "hi". */
    static const unsigned char note[] = {1, 27, 2, 'h', 'i'};
    static const char large[201];
    elephant *e = fresh(0), *back;
    begin(&file, e);
    other = file;
    OK(elephant_note(e, TEXT("hi")));
    CODE(ELEPHANT_TOO_BIG, elephant_note(e, large, sizeof large));
    append(&file, e);
    put_change(&other, note, sizeof note);
    WANT(file.length == other.length && !memcmp(file.at, other.at, file.length));
    back = open_file(&file, file.length, 1, file.length, 0);
    line(back, "history", "ok history 1 1\n- note 6869\n");
    want_same(e, back);
    elephant_delete(back);
    elephant_delete(e);
}

/* ---- Codes ---- */

static void each_code_comes(void) {
    elephant *e = closed_handle();
    uint64_t length = 7, whole = 7;
    uint32_t rest = 7;
    CODE(ELEPHANT_CLOSED, elephant_journal_begin(e, &length));
    CODE(ELEPHANT_CLOSED, elephant_journal_pending(e, &length));
    CODE(ELEPHANT_CLOSED, elephant_journal_written(e));
    CODE(ELEPHANT_CLOSED, elephant_journal_compact(e, &length));
    OK(elephant_open_largest(e, 0));
    CODE(ELEPHANT_NO_JOURNAL, elephant_journal_pending(e, &length));
    CODE(ELEPHANT_NO_JOURNAL, elephant_journal_written(e));
    CODE(ELEPHANT_NO_JOURNAL, elephant_journal_compact(e, &length));
    CODE(ELEPHANT_OPENED, elephant_journal_open(e, "", 0, 0, &whole, &rest));
    WANT(length == 7 && whole == 7 && rest == 7);
    begin(&file, e);
    CODE(ELEPHANT_HAS_JOURNAL, elephant_journal_begin(e, &length));
    CODE(ELEPHANT_HAS_JOURNAL, elephant_renew(e));
    CODE(ELEPHANT_OPENED, elephant_journal_open(e, file.at, file.length, 0, &whole, &rest));
    WANT(length == 7 && whole == 7 && rest == 7);
    elephant_delete(e);
}

/* A store with a journal is renewed in a second handle, which gets a file of its own. */
static void a_renewed_store_gets_a_new_file(void) {
    elephant *e = fresh(0), *renewed = closed_handle(), *back;
    uint64_t directory;
    begin(&file, e);
    OK(elephant_mkdir(e, TEXT("/no"), &directory));
    OK(elephant_rmdir(e, TEXT("/no")));
    OK(elephant_mkdir(e, TEXT("/yes"), &directory));
    WANT(directory == 2);
    append(&file, e);
    take_checkpoint(&taken, e);
    OK(elephant_open_checkpoint(renewed, taken.at, taken.length, 0));
    OK(elephant_renew(renewed));
    begin(&file, renewed);
    OK(elephant_mkdir(renewed, TEXT("/more"), &directory));
    append(&file, renewed);
    back = open_file(&file, file.length, 0, file.length, 0);
    want_same(renewed, back);
    elephant_delete(back);
    elephant_delete(renewed);
    elephant_delete(e);
}

int main(void) {
    the_bytes_are_those_of_the_form();
    for (uint32_t history = 0; history < 2; history++) {
        a_cut_file_is_the_store_of_its_whole_changes(history);
        an_opened_store_goes_on(history, 0);
        an_opened_store_goes_on(history, 1);
    }
    a_damaged_file_is_the_store_before_the_damage();
    nothing_is_given_twice_or_lost();
    giving_bytes_leaves_the_store();
    a_new_file_takes_the_place_of_the_old();
    a_history_begins_with_the_file();
    a_note_is_in_the_file();
    each_code_comes();
    a_renewed_store_gets_a_new_file();
    puts("journals: as the header says");
}
