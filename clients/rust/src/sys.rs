//! The declarations of `include/elephant.h`.
// Printed by tools/pages/surface --write, from include/elephant.h.

use std::marker::{PhantomData, PhantomPinned};
use std::os::raw::c_char;

/// The type of a handle.
#[repr(C)]
pub struct elephant {
    private: [u8; 0],
    // Neither `Send` nor `Sync` nor `Unpin`, since its content is unknown here.
    marker: PhantomData<(*mut u8, PhantomPinned)>,
}

pub const ELEPHANT_OK: i32 = 0;
pub const ELEPHANT_NO_MEMORY: i32 = 1;
pub const ELEPHANT_HISTORY_FULL: i32 = 2;
pub const ELEPHANT_CLOCK_BACK: i32 = 3;
pub const ELEPHANT_CLOCK_END: i32 = 4;
pub const ELEPHANT_NO_ENTRY: i32 = 5;
pub const ELEPHANT_NOT_DIRECTORY: i32 = 6;
pub const ELEPHANT_IS_DIRECTORY: i32 = 7;
pub const ELEPHANT_EXISTS: i32 = 8;
pub const ELEPHANT_NOT_EMPTY: i32 = 9;
pub const ELEPHANT_INTO_ITSELF: i32 = 10;
pub const ELEPHANT_IS_ROOT: i32 = 11;
pub const ELEPHANT_FUTURE: i32 = 12;
pub const ELEPHANT_FORGOTTEN: i32 = 13;
pub const ELEPHANT_NO_VERSION: i32 = 14;
pub const ELEPHANT_NO_HANDLE: i32 = 15;
pub const ELEPHANT_NOT_WRITER: i32 = 16;
pub const ELEPHANT_TOO_BIG: i32 = 17;
pub const ELEPHANT_DRAFTING: i32 = 18;
pub const ELEPHANT_NOT_RESTORABLE: i32 = 19;
pub const ELEPHANT_NO_GROUP: i32 = 20;
pub const ELEPHANT_GROUP_EXISTS: i32 = 21;
pub const ELEPHANT_NO_MARK: i32 = 22;
pub const ELEPHANT_MARK_EXISTS: i32 = 23;
pub const ELEPHANT_NOT_PAST: i32 = 24;
pub const ELEPHANT_ALREADY_MEMBER: i32 = 25;
pub const ELEPHANT_NOT_MEMBER: i32 = 26;
pub const ELEPHANT_FULL: i32 = 27;
pub const ELEPHANT_NOT_AHEAD: i32 = 41;
pub const ELEPHANT_BAD_NAME: i32 = 28;
pub const ELEPHANT_BAD_PATH: i32 = 29;
pub const ELEPHANT_BAD_MOMENT: i32 = 30;
pub const ELEPHANT_BAD_LADDER: i32 = 31;
pub const ELEPHANT_SYNTAX: i32 = 32;
pub const ELEPHANT_BAD_LIMITS: i32 = 66;
pub const ELEPHANT_NO_HISTORY: i32 = 67;
pub const ELEPHANT_NO_RESULT: i32 = 68;
pub const ELEPHANT_UNTOLD: i32 = 71;
pub const ELEPHANT_BAD_CHECKPOINT: i32 = 72;
pub const ELEPHANT_HANDLES_OPEN: i32 = 73;
pub const ELEPHANT_NO_JOURNAL: i32 = 74;
pub const ELEPHANT_HAS_JOURNAL: i32 = 75;
pub const ELEPHANT_BAD_JOURNAL: i32 = 76;

pub const ELEPHANT_LIMIT_FILES: u64 = 1;
pub const ELEPHANT_LIMIT_DIRECTORIES: u64 = 2;
pub const ELEPHANT_LIMIT_NAMES: u64 = 3;
pub const ELEPHANT_LIMIT_VERSIONS: u64 = 4;
pub const ELEPHANT_LIMIT_HANDLES: u64 = 5;
pub const ELEPHANT_LIMIT_GROUPS: u64 = 6;
pub const ELEPHANT_LIMIT_MEMBERS: u64 = 7;
pub const ELEPHANT_LIMIT_MARKS: u64 = 8;

pub const ELEPHANT_NOW: u32 = 0;
pub const ELEPHANT_AT: u32 = 1;
pub const ELEPHANT_VERSION: u32 = 2;

pub const ELEPHANT_KEEP_ONE: u64 = 0;
pub const ELEPHANT_KEEP_ALL: u64 = 1;
pub const ELEPHANT_KEEP_SAFE: u64 = 2;
pub const ELEPHANT_KEEP_LANDMARKS: u64 = 3;

pub const ELEPHANT_IS_CURRENT: u64 = 0;
pub const ELEPHANT_IS_OPEN: u64 = 1;
pub const ELEPHANT_IS_MARKED: u64 = 2;
pub const ELEPHANT_IS_KEPT: u64 = 3;
pub const ELEPHANT_IS_DUE: u64 = 4;

pub const ELEPHANT_AT_ONCE: u64 = 0;
pub const ELEPHANT_BY_AGE: u64 = 1;
pub const ELEPHANT_DISPLACED: u64 = 2;

pub const ELEPHANT_NEVER: u64 = u64::MAX;

#[repr(C)]
pub struct elephant_limits {
    pub events: u64,
    pub files: u64,
    pub directories: u64,
    pub names: u64,
    pub versions: u64,
    pub handles: u64,
    pub groups: u64,
    pub members: u64,
    pub marks: u64,
}

#[repr(C)]
#[derive(Default)]
pub struct elephant_counts_row {
    pub events: u64,
    pub files: u64,
    pub directories: u64,
    pub names: u64,
    pub versions: u64,
    pub handles: u64,
    pub groups: u64,
    pub members: u64,
    pub marks: u64,
}

#[repr(C)]
#[derive(Default)]
pub struct elephant_stat_row {
    pub is_directory: u64,
    pub id: u64,
    pub version: u64,
    pub opened: u64,
    pub closed: u64,
    pub ended: u64,
    pub length: u64,
    pub policy: u64,
    pub seconds: u64,
    pub floor: u64,
    pub rungs: u64,
}

#[repr(C)]
#[derive(Default)]
pub struct elephant_version_row {
    pub number: u64,
    pub opened: u64,
    pub closed: u64,
    pub ended: u64,
    pub length: u64,
}

#[repr(C)]
#[derive(Default)]
pub struct elephant_name_row {
    pub directory: u64,
    pub is_directory: u64,
    pub id: u64,
    pub name_length: u64,
}

#[repr(C)]
#[derive(Default)]
pub struct elephant_key {
    pub since: u64,
    pub file: u64,
    pub number: u64,
}

#[repr(C)]
#[derive(Default)]
pub struct elephant_usage_row {
    pub files: u64,
    pub versions: u64,
    pub bytes: u64,
    pub blocks: u64,
}

#[repr(C)]
#[derive(Default)]
pub struct elephant_group_row {
    pub name_length: u64,
    pub members: u64,
    pub marks: u64,
}

#[repr(C)]
#[derive(Default)]
pub struct elephant_mark_row {
    pub moment: u64,
    pub until: u64,
}

#[repr(C)]
#[derive(Default)]
pub struct elephant_why_row {
    pub fate: u64,
    pub moment: u64,
    pub until: u64,
    pub level: u64,
    pub cause: u64,
    pub seconds: u64,
    pub by: u64,
}

extern "C" {
    pub fn elephant_code_text(code: i32) -> *const c_char;
    pub fn elephant_library_version() -> *const c_char;
    pub fn elephant_library_version_number() -> u32;
    pub fn elephant_new(out: *mut *mut elephant);
    pub fn elephant_delete(e: *mut elephant);
    pub fn elephant_open(e: *mut elephant, limits: *const elephant_limits, history: u32) -> i32;
    pub fn elephant_detail(e: *const elephant, detail: *mut u64) -> i32;
    pub fn elephant_counts(e: *const elephant, row: *mut elephant_counts_row) -> i32;
    pub fn elephant_line(e: *mut elephant, line: *const u8, len: usize, length: *mut u64) -> i32;
    pub fn elephant_tell(e: *mut elephant, length: *mut u64) -> i32;
    pub fn elephant_answer(e: *const elephant, offset: u64, into: *mut u8, room: usize, copied: *mut u64) -> i32;
    pub fn elephant_now(e: *const elephant, moment: *mut u64) -> i32;
    pub fn elephant_clock(e: *mut elephant, moment: u64) -> i32;
    pub fn elephant_tick(e: *mut elephant, seconds: u64) -> i32;
    pub fn elephant_mkdir(e: *mut elephant, path: *const u8, len: usize, directory: *mut u64) -> i32;
    pub fn elephant_rmdir(e: *mut elephant, path: *const u8, len: usize) -> i32;
    pub fn elephant_create(e: *mut elephant, path: *const u8, len: usize, file: *mut u64) -> i32;
    pub fn elephant_link(e: *mut elephant, from: *const u8, from_len: usize, to: *const u8, to_len: usize) -> i32;
    pub fn elephant_unlink(e: *mut elephant, path: *const u8, len: usize) -> i32;
    pub fn elephant_rename(e: *mut elephant, from: *const u8, from_len: usize, to: *const u8, to_len: usize) -> i32;
    pub fn elephant_undelete(e: *mut elephant, path: *const u8, len: usize, version: *mut u64) -> i32;
    pub fn elephant_open_write(e: *mut elephant, path: *const u8, len: usize, handle: *mut u64) -> i32;
    pub fn elephant_write(e: *mut elephant, handle: u64, offset: u64, bytes: *const u8, len: usize) -> i32;
    pub fn elephant_truncate(e: *mut elephant, handle: u64, size: u64) -> i32;
    pub fn elephant_close_handle(e: *mut elephant, handle: u64, version: *mut u64) -> i32;
    pub fn elephant_abandon(e: *mut elephant, handle: u64) -> i32;
    pub fn elephant_save(
        e: *mut elephant,
        path: *const u8,
        len: usize,
        bytes: *const u8,
        bytes_len: usize,
        version: *mut u64,
    ) -> i32;
    pub fn elephant_revert(e: *mut elephant, path: *const u8, len: usize, number: u64, version: *mut u64) -> i32;
    pub fn elephant_restore(e: *mut elephant, path: *const u8, len: usize, moment: u64, version: *mut u64) -> i32;
    pub fn elephant_open_read(e: *mut elephant, path: *const u8, len: usize, tag: u32, number: u64, handle: *mut u64) -> i32;
    pub fn elephant_read(e: *mut elephant, path: *const u8, len: usize, tag: u32, number: u64, length: *mut u64) -> i32;
    pub fn elephant_read_handle(e: *mut elephant, handle: u64, length: *mut u64) -> i32;
    pub fn elephant_take(e: *const elephant, offset: u64, into: *mut u8, room: usize, copied: *mut u64) -> i32;
    pub fn elephant_read_into(
        e: *const elephant,
        path: *const u8,
        len: usize,
        tag: u32,
        number: u64,
        offset: u64,
        into: *mut u8,
        room: usize,
        length: *mut u64,
        copied: *mut u64,
    ) -> i32;
    pub fn elephant_read_handle_into(
        e: *const elephant,
        handle: u64,
        offset: u64,
        into: *mut u8,
        room: usize,
        length: *mut u64,
        copied: *mut u64,
    ) -> i32;
    pub fn elephant_stat(
        e: *mut elephant,
        path: *const u8,
        len: usize,
        tag: u32,
        number: u64,
        row: *mut elephant_stat_row,
    ) -> i32;
    pub fn elephant_rung(e: *const elephant, index: u64, age: *mut u64, width: *mut u64) -> i32;
    pub fn elephant_versions(e: *mut elephant, path: *const u8, len: usize, tag: u32, number: u64, rows: *mut u64) -> i32;
    pub fn elephant_row_version(e: *const elephant, index: u64, row: *mut elephant_version_row) -> i32;
    pub fn elephant_list(e: *mut elephant, path: *const u8, len: usize, tag: u32, number: u64, rows: *mut u64) -> i32;
    pub fn elephant_restorable(e: *mut elephant, rows: *mut u64) -> i32;
    pub fn elephant_row_name(e: *const elephant, index: u64, row: *mut elephant_name_row) -> i32;
    pub fn elephant_row_bytes(e: *const elephant, index: u64, into: *mut u8, room: usize, length: *mut u64) -> i32;
    pub fn elephant_due(e: *mut elephant, rows: *mut u64) -> i32;
    pub fn elephant_ahead(e: *mut elephant, moment: u64, rows: *mut u64) -> i32;
    pub fn elephant_row_key(e: *const elephant, index: u64, key: *mut elephant_key) -> i32;
    pub fn elephant_usage(e: *mut elephant, rows: *mut u64) -> i32;
    pub fn elephant_row_usage(e: *const elephant, index: u64, row: *mut elephant_usage_row) -> i32;
    pub fn elephant_policy(e: *mut elephant, path: *const u8, len: usize, policy: *const u8, policy_len: usize) -> i32;
    pub fn elephant_default(e: *mut elephant, path: *const u8, len: usize, policy: *const u8, policy_len: usize) -> i32;
    pub fn elephant_group_make(e: *mut elephant, group: *const u8, group_len: usize) -> i32;
    pub fn elephant_group_drop(e: *mut elephant, group: *const u8, group_len: usize) -> i32;
    pub fn elephant_group_add(e: *mut elephant, group: *const u8, group_len: usize, path: *const u8, len: usize) -> i32;
    pub fn elephant_group_remove(e: *mut elephant, group: *const u8, group_len: usize, path: *const u8, len: usize) -> i32;
    pub fn elephant_mark(e: *mut elephant, group: *const u8, group_len: usize, moment: u64, until: u64) -> i32;
    pub fn elephant_unmark(e: *mut elephant, group: *const u8, group_len: usize, moment: u64) -> i32;
    pub fn elephant_groups(e: *mut elephant, rows: *mut u64) -> i32;
    pub fn elephant_row_group(e: *const elephant, index: u64, row: *mut elephant_group_row) -> i32;
    pub fn elephant_row_member(e: *const elephant, index: u64, member: u64, file: *mut u64) -> i32;
    pub fn elephant_row_mark(e: *const elephant, index: u64, mark: u64, row: *mut elephant_mark_row) -> i32;
    pub fn elephant_why(e: *mut elephant, path: *const u8, len: usize, tag: u32, number: u64, row: *mut elephant_why_row) -> i32;
    pub fn elephant_why_hold(e: *const elephant, mark: *mut elephant_mark_row) -> i32;
    pub fn elephant_why_group(e: *const elephant, into: *mut u8, room: usize, length: *mut u64) -> i32;
    pub fn elephant_clean(e: *mut elephant, removed: *mut elephant_key) -> i32;
    pub fn elephant_pass(e: *mut elephant, budget: u64, removed: *mut u64, finished: *mut u64) -> i32;
    pub fn elephant_history(e: *const elephant, folded: *mut u64, entries: *mut u64) -> i32;
    pub fn elephant_note(e: *mut elephant, bytes: *const u8, len: usize) -> i32;
    pub fn elephant_trim(e: *mut elephant, folded: *mut u64) -> i32;
    pub fn elephant_checkpoint(e: *mut elephant, length: *mut u64) -> i32;
    pub fn elephant_open_checkpoint(e: *mut elephant, bytes: *const u8, len: usize, history: u32) -> i32;
    pub fn elephant_renew(e: *mut elephant) -> i32;
    pub fn elephant_directory_across(e: *const elephant, directory: u64, fresh: *mut u64) -> i32;
    pub fn elephant_file_across(e: *const elephant, file: u64, fresh: *mut u64) -> i32;
    pub fn elephant_version_across(e: *const elephant, file: u64, version: u64, fresh: *mut u64) -> i32;
    pub fn elephant_journal_begin(e: *mut elephant, length: *mut u64) -> i32;
    pub fn elephant_journal_open(
        e: *mut elephant,
        bytes: *const u8,
        len: usize,
        history: u32,
        whole: *mut u64,
        rest: *mut u32,
    ) -> i32;
    pub fn elephant_journal_pending(e: *mut elephant, length: *mut u64) -> i32;
    pub fn elephant_journal_written(e: *mut elephant) -> i32;
    pub fn elephant_journal_compact(e: *mut elephant, length: *mut u64) -> i32;
}
