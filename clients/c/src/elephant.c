/* Printed by tools/pages/surface --write, from include/elephant.h and the exports of ele_c.
 *
 * The calls of include/elephant.h over the exports of the crate ele_c. They hand their arguments on, and copy numbers out. Nothing
 * here is proved. The contracts of the exports say what each of them does. */

#include "elephant.h"

/* An answer in numbers: those of a row are in the order of its columns. */
typedef struct inner_row {
    uint64_t at[11];
} inner_row;

/* The numbers of calls that run an event, of what is kept in numbers, and of what is kept as bytes. */
enum { CALL_CLOCK, CALL_TICK, CALL_MAKE_DIR, CALL_REMOVE_DIR, CALL_CREATE, CALL_LINK, CALL_UNLINK, CALL_RENAME, CALL_UNDELETE,
       CALL_OPEN_WRITE, CALL_OPEN_READ, CALL_WRITE, CALL_TRUNCATE, CALL_CLOSE, CALL_REVERT, CALL_SET_POLICY, CALL_SET_DEFAULT,
       CALL_GROUP_MAKE, CALL_GROUP_DROP, CALL_GROUP_ADD, CALL_GROUP_REMOVE, CALL_MARK, CALL_UNMARK, CALL_CLEAN_ONE, CALL_READ,
       CALL_READ_HANDLE, CALL_STAT, CALL_VERSIONS, CALL_LIST_NAMES, CALL_RESTORABLE, CALL_DUE, CALL_USAGE_ALL, CALL_GROUPS_ALL,
       CALL_SAVE, CALL_ABANDON, CALL_RESTORE, CALL_NOTE };
enum { KIND_NOW, KIND_DETAIL, KIND_HISTORY, KIND_PASS, KIND_WHY, KIND_KEY, KIND_REMOVED, KIND_VERSION, KIND_NAME, KIND_USAGE,
       KIND_GROUP, KIND_MEMBER, KIND_MARK, KIND_STAT, KIND_RUNG, KIND_COUNTS, KIND_HOLD };
enum { BYTES_CONTENT, BYTES_TEXT, BYTES_NAME, BYTES_GROUP };

int32_t inner_numbers(const elephant *e, uint32_t kind, uint64_t index, uint64_t inner, inner_row *into);
int32_t inner_bytes(const elephant *e, uint32_t kind, uint64_t index, uint32_t whole, uint64_t offset, void *into, size_t length_1,
            uint64_t *copied);
int32_t inner_read(const elephant *e, uint32_t by_handle, const void *path, size_t length_1, uint32_t tag, uint64_t number,
            uint64_t offset, void *into, size_t length_2, uint64_t *length, uint64_t *copied);
int32_t inner_event(elephant *e, uint32_t call, const void *first, size_t length_1, const void *second, size_t length_2,
            uint32_t tag, uint64_t number, uint64_t other, uint64_t *value);
int32_t inner_why(elephant *e, const void *path, size_t length_1, uint32_t tag, uint64_t number);
int32_t inner_pass(elephant *e, uint64_t budget);

const char *elephant_code_text(int32_t code) {
    switch (code) {
    case 0: return "Ok: the call succeeded";
    case 1: return "NoMemory: there was no memory";
    case 2: return "HistoryFull: the history has as many events as it may";
    case 3: return "ClockBack: the moment is earlier than now";
    case 4: return "ClockEnd: the moment would be later than the year 9999";
    case 5: return "NoEntry: the path names nothing";
    case 6: return "NotDirectory: the path leads to a file, or through one";
    case 7: return "IsDirectory: the path leads to a directory";
    case 8: return "Exists: the name is in use";
    case 9: return "NotEmpty: the directory has names";
    case 10: return "IntoItself: the directory would be moved below itself";
    case 11: return "IsRoot: the root can't be made, moved or deleted";
    case 12: return "Future: the moment is later than now";
    case 13: return "Forgotten: the version was removed";
    case 14: return "NoVersion: no version has had the number yet";
    case 15: return "NoHandle: no open handle has the number";
    case 16: return "NotWriter: the handle is one that reads";
    case 17: return "TooBig: the content would be longer than 1,048,576 bytes, or the note than 200";
    case 18: return "Drafting: a handle writes the file";
    case 19: return "NotRestorable: nothing can be restored by this name";
    case 20: return "NoGroup: no group has the name";
    case 21: return "GroupExists: a group has the name already";
    case 22: return "NoMark: the group has no mark for the moment";
    case 23: return "MarkExists: the group has a mark for the moment already";
    case 24: return "NotPast: the moment of a mark must be earlier than now";
    case 25: return "AlreadyMember: the file is in the group already";
    case 26: return "NotMember: the file isn't in the group";
    case 27: return "Full: a limit is reached, for good";
    case 41: return "NotAhead: the end of a mark must be later than now, the moment of 'ahead' or 'expiring' not earlier, nor the second of 'changes' than its first";
    case 28: return "BadName: a name has 1 to 64 bytes without /, @ and #, and isn't . or ..";
    case 29: return "BadPath: a path begins with /, has no empty name and at most 32 names, and a number after #";
    case 30: return "BadMoment: no moment has this form, or it is too late";
    case 31: return "BadLadder: no policy has these numbers";
    case 32: return "Syntax: the line is no command, or a word is missing, too many or of another form";
    case 64: return "Closed: the store, or the handle, is closed";
    case 65: return "Opened: the store is open already";
    case 66: return "BadLimits: a limit is above its largest";
    case 67: return "NoHistory: the store was opened without a history";
    case 68: return "NoResult: the handle keeps nothing of that kind";
    case 69: return "NoRow: the kept list has no row of that index";
    case 70: return "NoRoom: the buffer is too small, and nothing is copied";
    case 71: return "Untold: the line was run, but there was no memory for the text of its answer";
    case 72: return "BadCheckpoint: the bytes are no checkpoint of a store";
    case 73: return "HandlesOpen: a handle is open";
    case 74: return "NoJournal: the store has no journal";
    case 75: return "HasJournal: the store has a journal";
    case 76: return "BadJournal: the bytes are no file of a store";
    default: return "no code has this number";
    }
}

const char *elephant_library_version(void) {
    return ELEPHANT_LIBRARY_VERSION;
}

uint32_t elephant_library_version_number(void) {
    return ELEPHANT_LIBRARY_VERSION_NUMBER;
}

int32_t elephant_open_largest(elephant *e, uint32_t history) {
    static const elephant_limits largest = {1000000000, 100000, 10000, 200000, 1000000, 1000000, 1000, 100000, 10000};
    return elephant_open(e, &largest, history);
}

int32_t elephant_detail(const elephant *e, uint64_t *detail) {
    inner_row kept;
    int32_t code = inner_numbers(e, KIND_DETAIL, 0, 0, &kept);
    if (!code) {
        *detail = kept.at[0];
    }
    return code;
}

int32_t elephant_counts(const elephant *e, elephant_counts_row *row) {
    inner_row kept;
    int32_t code = inner_numbers(e, KIND_COUNTS, 0, 0, &kept);
    if (!code) {
        *row = (elephant_counts_row){kept.at[0], kept.at[1], kept.at[2], kept.at[3], kept.at[4], kept.at[5], kept.at[6], kept.at[7],
            kept.at[8]};
    }
    return code;
}

int32_t elephant_answer(const elephant *e, uint64_t offset, void *into, size_t room, uint64_t *copied) {
    return inner_bytes(e, BYTES_TEXT, 0, 0, offset, into, room, copied);
}

int32_t elephant_now(const elephant *e, uint64_t *moment) {
    inner_row kept;
    int32_t code = inner_numbers(e, KIND_NOW, 0, 0, &kept);
    if (!code) {
        *moment = kept.at[0];
    }
    return code;
}

int32_t elephant_clock(elephant *e, uint64_t moment) {
    uint64_t value;
    return inner_event(e, CALL_CLOCK, "", 0, "", 0, 0, moment, 0, &value);
}

int32_t elephant_tick(elephant *e, uint64_t seconds) {
    uint64_t value;
    return inner_event(e, CALL_TICK, "", 0, "", 0, 0, seconds, 0, &value);
}

int32_t elephant_mkdir(elephant *e, const void *path, size_t len, uint64_t *directory) {
    return inner_event(e, CALL_MAKE_DIR, path, len, "", 0, 0, 0, 0, directory);
}

int32_t elephant_rmdir(elephant *e, const void *path, size_t len) {
    uint64_t value;
    return inner_event(e, CALL_REMOVE_DIR, path, len, "", 0, 0, 0, 0, &value);
}

int32_t elephant_create(elephant *e, const void *path, size_t len, uint64_t *file) {
    return inner_event(e, CALL_CREATE, path, len, "", 0, 0, 0, 0, file);
}

int32_t elephant_link(elephant *e, const void *from, size_t from_len, const void *to, size_t to_len) {
    uint64_t value;
    return inner_event(e, CALL_LINK, from, from_len, to, to_len, 0, 0, 0, &value);
}

int32_t elephant_unlink(elephant *e, const void *path, size_t len) {
    uint64_t value;
    return inner_event(e, CALL_UNLINK, path, len, "", 0, 0, 0, 0, &value);
}

int32_t elephant_rename(elephant *e, const void *from, size_t from_len, const void *to, size_t to_len) {
    uint64_t value;
    return inner_event(e, CALL_RENAME, from, from_len, to, to_len, 0, 0, 0, &value);
}

int32_t elephant_undelete(elephant *e, const void *path, size_t len, uint64_t *version) {
    return inner_event(e, CALL_UNDELETE, path, len, "", 0, 0, 0, 0, version);
}

int32_t elephant_open_write(elephant *e, const void *path, size_t len, uint64_t *handle) {
    return inner_event(e, CALL_OPEN_WRITE, path, len, "", 0, 0, 0, 0, handle);
}

int32_t elephant_write(elephant *e, uint64_t handle, uint64_t offset, const void *bytes, size_t len) {
    uint64_t value;
    return inner_event(e, CALL_WRITE, bytes, len, "", 0, 0, handle, offset, &value);
}

int32_t elephant_truncate(elephant *e, uint64_t handle, uint64_t size) {
    uint64_t value;
    return inner_event(e, CALL_TRUNCATE, "", 0, "", 0, 0, handle, size, &value);
}

int32_t elephant_close_handle(elephant *e, uint64_t handle, uint64_t *version) {
    return inner_event(e, CALL_CLOSE, "", 0, "", 0, 0, handle, 0, version);
}

int32_t elephant_abandon(elephant *e, uint64_t handle) {
    uint64_t value;
    return inner_event(e, CALL_ABANDON, "", 0, "", 0, 0, handle, 0, &value);
}

int32_t elephant_save(elephant *e, const void *path, size_t len, const void *bytes, size_t bytes_len, uint64_t *version) {
    return inner_event(e, CALL_SAVE, path, len, bytes, bytes_len, 0, 0, 0, version);
}

int32_t elephant_revert(elephant *e, const void *path, size_t len, uint64_t number, uint64_t *version) {
    return inner_event(e, CALL_REVERT, path, len, "", 0, 0, number, 0, version);
}

int32_t elephant_restore(elephant *e, const void *path, size_t len, uint64_t moment, uint64_t *version) {
    return inner_event(e, CALL_RESTORE, path, len, "", 0, 0, moment, 0, version);
}

int32_t elephant_open_read(elephant *e, const void *path, size_t len, uint32_t tag, uint64_t number, uint64_t *handle) {
    return inner_event(e, CALL_OPEN_READ, path, len, "", 0, tag, number, 0, handle);
}

int32_t elephant_read(elephant *e, const void *path, size_t len, uint32_t tag, uint64_t number, uint64_t *length) {
    return inner_event(e, CALL_READ, path, len, "", 0, tag, number, 0, length);
}

int32_t elephant_read_handle(elephant *e, uint64_t handle, uint64_t *length) {
    return inner_event(e, CALL_READ_HANDLE, "", 0, "", 0, 0, handle, 0, length);
}

int32_t elephant_take(const elephant *e, uint64_t offset, void *into, size_t room, uint64_t *copied) {
    return inner_bytes(e, BYTES_CONTENT, 0, 0, offset, into, room, copied);
}

int32_t elephant_read_into(const elephant *e, const void *path, size_t len, uint32_t tag, uint64_t number, uint64_t offset,
            void *into, size_t room, uint64_t *length, uint64_t *copied) {
    return inner_read(e, 0, path, len, tag, number, offset, into, room, length, copied);
}

int32_t elephant_read_handle_into(const elephant *e, uint64_t handle, uint64_t offset, void *into, size_t room, uint64_t *length,
            uint64_t *copied) {
    return inner_read(e, 1, "", 0, 0, handle, offset, into, room, length, copied);
}

int32_t elephant_stat(elephant *e, const void *path, size_t len, uint32_t tag, uint64_t number, elephant_stat_row *row) {
    uint64_t value;
    inner_row kept;
    int32_t code = inner_event(e, CALL_STAT, path, len, "", 0, tag, number, 0, &value);
    if (!code && !inner_numbers(e, KIND_STAT, 0, 0, &kept)) {
        *row = (elephant_stat_row){kept.at[0], kept.at[1], kept.at[2], kept.at[3], kept.at[4], kept.at[5], kept.at[6], kept.at[7],
            kept.at[8], kept.at[9], kept.at[10]};
    }
    return code;
}

int32_t elephant_rung(const elephant *e, uint64_t index, uint64_t *age, uint64_t *width) {
    inner_row kept;
    int32_t code = inner_numbers(e, KIND_RUNG, index, 0, &kept);
    if (!code) {
        *age = kept.at[0];
        *width = kept.at[1];
    }
    return code;
}

int32_t elephant_versions(elephant *e, const void *path, size_t len, uint32_t tag, uint64_t number, uint64_t *rows) {
    return inner_event(e, CALL_VERSIONS, path, len, "", 0, tag, number, 0, rows);
}

int32_t elephant_row_version(const elephant *e, uint64_t index, elephant_version_row *row) {
    inner_row kept;
    int32_t code = inner_numbers(e, KIND_VERSION, index, 0, &kept);
    if (!code) {
        *row = (elephant_version_row){kept.at[0], kept.at[1], kept.at[2], kept.at[3], kept.at[4]};
    }
    return code;
}

int32_t elephant_list(elephant *e, const void *path, size_t len, uint32_t tag, uint64_t number, uint64_t *rows) {
    return inner_event(e, CALL_LIST_NAMES, path, len, "", 0, tag, number, 0, rows);
}

int32_t elephant_restorable(elephant *e, uint64_t *rows) {
    return inner_event(e, CALL_RESTORABLE, "", 0, "", 0, 0, 0, 0, rows);
}

int32_t elephant_row_name(const elephant *e, uint64_t index, elephant_name_row *row) {
    inner_row kept;
    int32_t code = inner_numbers(e, KIND_NAME, index, 0, &kept);
    if (!code) {
        *row = (elephant_name_row){kept.at[0], kept.at[1], kept.at[2], kept.at[3]};
    }
    return code;
}

int32_t elephant_row_bytes(const elephant *e, uint64_t index, void *into, size_t room, uint64_t *length) {
    return inner_bytes(e, BYTES_NAME, index, 1, 0, into, room, length);
}

int32_t elephant_due(elephant *e, uint64_t *rows) {
    return inner_event(e, CALL_DUE, "", 0, "", 0, 0, 0, 0, rows);
}

int32_t elephant_row_key(const elephant *e, uint64_t index, elephant_key *key) {
    inner_row kept;
    int32_t code = inner_numbers(e, KIND_KEY, index, 0, &kept);
    if (!code) {
        *key = (elephant_key){kept.at[0], kept.at[1], kept.at[2]};
    }
    return code;
}

int32_t elephant_usage(elephant *e, uint64_t *rows) {
    return inner_event(e, CALL_USAGE_ALL, "", 0, "", 0, 0, 0, 0, rows);
}

int32_t elephant_row_usage(const elephant *e, uint64_t index, elephant_usage_row *row) {
    inner_row kept;
    int32_t code = inner_numbers(e, KIND_USAGE, index, 0, &kept);
    if (!code) {
        *row = (elephant_usage_row){kept.at[0], kept.at[1], kept.at[2], kept.at[3]};
    }
    return code;
}

int32_t elephant_policy(elephant *e, const void *path, size_t len, const void *policy, size_t policy_len) {
    uint64_t value;
    return inner_event(e, CALL_SET_POLICY, path, len, policy, policy_len, 0, 0, 0, &value);
}

int32_t elephant_default(elephant *e, const void *path, size_t len, const void *policy, size_t policy_len) {
    uint64_t value;
    return inner_event(e, CALL_SET_DEFAULT, path, len, policy, policy_len, 0, 0, 0, &value);
}

int32_t elephant_group_make(elephant *e, const void *group, size_t group_len) {
    uint64_t value;
    return inner_event(e, CALL_GROUP_MAKE, group, group_len, "", 0, 0, 0, 0, &value);
}

int32_t elephant_group_drop(elephant *e, const void *group, size_t group_len) {
    uint64_t value;
    return inner_event(e, CALL_GROUP_DROP, group, group_len, "", 0, 0, 0, 0, &value);
}

int32_t elephant_group_add(elephant *e, const void *group, size_t group_len, const void *path, size_t len) {
    uint64_t value;
    return inner_event(e, CALL_GROUP_ADD, group, group_len, path, len, 0, 0, 0, &value);
}

int32_t elephant_group_remove(elephant *e, const void *group, size_t group_len, const void *path, size_t len) {
    uint64_t value;
    return inner_event(e, CALL_GROUP_REMOVE, group, group_len, path, len, 0, 0, 0, &value);
}

int32_t elephant_mark(elephant *e, const void *group, size_t group_len, uint64_t moment, uint64_t until) {
    uint64_t value;
    return inner_event(e, CALL_MARK, group, group_len, "", 0, 0, moment, until, &value);
}

int32_t elephant_unmark(elephant *e, const void *group, size_t group_len, uint64_t moment) {
    uint64_t value;
    return inner_event(e, CALL_UNMARK, group, group_len, "", 0, 0, moment, 0, &value);
}

int32_t elephant_groups(elephant *e, uint64_t *rows) {
    return inner_event(e, CALL_GROUPS_ALL, "", 0, "", 0, 0, 0, 0, rows);
}

int32_t elephant_row_group(const elephant *e, uint64_t index, elephant_group_row *row) {
    inner_row kept;
    int32_t code = inner_numbers(e, KIND_GROUP, index, 0, &kept);
    if (!code) {
        *row = (elephant_group_row){kept.at[0], kept.at[1], kept.at[2]};
    }
    return code;
}

int32_t elephant_row_member(const elephant *e, uint64_t index, uint64_t member, uint64_t *file) {
    inner_row kept;
    int32_t code = inner_numbers(e, KIND_MEMBER, index, member, &kept);
    if (!code) {
        *file = kept.at[0];
    }
    return code;
}

int32_t elephant_row_mark(const elephant *e, uint64_t index, uint64_t mark, elephant_mark_row *row) {
    inner_row kept;
    int32_t code = inner_numbers(e, KIND_MARK, index, mark, &kept);
    if (!code) {
        *row = (elephant_mark_row){kept.at[0], kept.at[1]};
    }
    return code;
}

int32_t elephant_why(elephant *e, const void *path, size_t len, uint32_t tag, uint64_t number, elephant_why_row *row) {
    inner_row kept;
    int32_t code = inner_why(e, path, len, tag, number);
    if (!code && !inner_numbers(e, KIND_WHY, 0, 0, &kept)) {
        *row = (elephant_why_row){kept.at[0], kept.at[1], kept.at[2], kept.at[3], kept.at[4], kept.at[5], kept.at[6]};
    }
    return code;
}

int32_t elephant_why_hold(const elephant *e, elephant_mark_row *mark) {
    inner_row kept;
    int32_t code = inner_numbers(e, KIND_HOLD, 0, 0, &kept);
    if (!code) {
        *mark = (elephant_mark_row){kept.at[0], kept.at[1]};
    }
    return code;
}

int32_t elephant_why_group(const elephant *e, void *into, size_t room, uint64_t *length) {
    return inner_bytes(e, BYTES_GROUP, 0, 1, 0, into, room, length);
}

int32_t elephant_clean(elephant *e, elephant_key *removed) {
    uint64_t value;
    inner_row kept;
    int32_t code = inner_event(e, CALL_CLEAN_ONE, "", 0, "", 0, 0, 0, 0, &value);
    if (!code && !inner_numbers(e, KIND_REMOVED, 0, 0, &kept)) {
        *removed = (elephant_key){kept.at[0], kept.at[1], kept.at[2]};
    }
    return code;
}

int32_t elephant_pass(elephant *e, uint64_t budget, uint64_t *removed, uint64_t *finished) {
    inner_row kept;
    int32_t code = inner_pass(e, budget);
    if (!inner_numbers(e, KIND_PASS, 0, 0, &kept)) {
        *removed = kept.at[0];
        *finished = kept.at[1];
    }
    return code;
}

int32_t elephant_history(const elephant *e, uint64_t *folded, uint64_t *entries) {
    inner_row kept;
    int32_t code = inner_numbers(e, KIND_HISTORY, 0, 0, &kept);
    if (!code) {
        *folded = kept.at[0];
        *entries = kept.at[1];
    }
    return code;
}

int32_t elephant_note(elephant *e, const void *bytes, size_t len) {
    uint64_t value;
    return inner_event(e, CALL_NOTE, bytes, len, "", 0, 0, 0, 0, &value);
}
