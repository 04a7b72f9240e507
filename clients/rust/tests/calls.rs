//! Each call once on its happy path, and each error that a store can answer.

use elephant::{
    at, moment, version, Cause, Counts, DeletedName, Entry, Error, Fate, Group, History, Hold, Limit, Limits, Mark, Node,
    Options, PassEnd, Policy, Removable, Rung, Stat, Store, Usage, Version, LARGEST_CONTENT,
};
use std::io::{self, BufRead, Read, Seek, SeekFrom, Write};
use std::sync::{Arc, Mutex};
use std::thread;
use std::time::{Duration, UNIX_EPOCH};

const LAST_MOMENT: u64 = 253_402_300_799;

/// A store with a file `/f` that was saved as `one` at 0 and as `two` at 10, and keeps all versions.
fn with_file() -> Store {
    let store = Store::new().unwrap();
    store.set_default("/", &Policy::KeepAll).unwrap();
    assert_eq!(store.create("/f"), Ok(1));
    assert_eq!(store.save("/f", b"one"), Ok(2));
    store.clock(10).unwrap();
    assert_eq!(store.save("/f", b"two"), Ok(3));
    store
}

fn limited(limits: Limits) -> Store {
    Options::new().limits(limits).open().unwrap()
}

#[test]
fn the_clock_goes_where_it_is_set_and_never_back() {
    let store = Store::new().unwrap();
    assert_eq!(store.now(), 0);
    store.clock(5).unwrap();
    store.tick(7).unwrap();
    assert_eq!(store.now(), 12);
    assert_eq!(store.clock(11), Err(Error::ClockBack));
    assert_eq!(store.clock(LAST_MOMENT + 1), Err(Error::BadMoment));
    assert_eq!(store.tick(LAST_MOMENT), Err(Error::ClockEnd));
    assert_eq!(store.now(), 12);
    assert_eq!(moment(UNIX_EPOCH + Duration::from_millis(2_900)), 2);
    assert_eq!(moment(UNIX_EPOCH - Duration::from_secs(1)), 0);
}

#[test]
fn names_are_made_moved_ended_and_brought_back() {
    let store = Store::new().unwrap();
    assert_eq!(store.mkdir("/d"), Ok(1));
    assert_eq!(store.create("/d/a"), Ok(1));
    store.link("/d/a", "/d/b").unwrap();
    store.rename("/d/a", "/c").unwrap();
    let entry = |name: &str, node| Entry { name: name.to_string(), node };
    assert_eq!(store.list("/d"), Ok(vec![entry("b", Node::File(1))]));
    assert_eq!(store.list("/"), Ok(vec![entry("c", Node::File(1)), entry("d", Node::Directory(1))]));
    store.unlink("/d/b").unwrap();
    store.tick(1).unwrap();
    store.unlink("/c").unwrap();
    store.rmdir("/d").unwrap();
    assert_eq!(store.list("/"), Ok(vec![]));
    assert_eq!(store.list(at("/", 0)), Ok(vec![entry("c", Node::File(1)), entry("d", Node::Directory(1))]));
    let deleted = |parent, name: &str, node| DeletedName { parent, name: name.to_string(), node };
    let restorable = store.restorable().unwrap();
    assert!(restorable.contains(&deleted(0, "c", Node::File(1))), "{restorable:?}");
    assert_eq!(store.undelete("/c"), Ok(Some(2)));
    assert_eq!(store.undelete("/d"), Ok(None));
    assert_eq!(store.undelete("/d/b"), Ok(None));
}

#[test]
fn names_are_refused_for_the_reason_that_holds() {
    let store = Store::new().unwrap();
    store.mkdir("/d").unwrap();
    store.create("/d/f").unwrap();
    assert_eq!(store.create("/x/y"), Err(Error::NoEntry));
    assert_eq!(store.create("/d/f/y"), Err(Error::NotDirectory));
    assert_eq!(store.create("/d"), Err(Error::Exists));
    assert_eq!(store.create("/"), Err(Error::IsRoot));
    assert_eq!(store.unlink("/d"), Err(Error::IsDirectory));
    assert_eq!(store.rmdir("/d"), Err(Error::NotEmpty));
    assert_eq!(store.rename("/d", "/d/e").map_err(Error::from), Err(Error::IntoItself));
    assert_eq!(store.undelete("/d/g"), Err(Error::NoEntry));
    for path in ["", "f", "//", "/f/"] {
        assert!(matches!(store.create(path), Err(Error::BadPath | Error::BadName)), "{path:?}");
    }
    for path in ["/a b", "/\u{e9}", "/a@b", "/.."] {
        assert_eq!(store.create(path), Err(Error::BadName), "{path:?}");
    }
}

#[test]
fn some_names_do_not_come_back() {
    let store = Store::new().unwrap();
    store.mkdir("/d").unwrap();
    store.rename("/d", "/e").unwrap();
    assert_eq!(store.undelete("/d"), Err(Error::NotRestorable));
    store.set_default("/", &Policy::KeepOne).unwrap();
    store.create("/f").unwrap();
    store.unlink("/f").unwrap();
    assert_eq!(store.pass(9).end, PassEnd::Finished);
    assert_eq!(store.undelete("/f"), Err(Error::NoEntry));
}

#[test]
fn a_session_makes_one_version_and_an_unchanged_one_none() {
    let store = with_file();
    let mut session = store.session("/f").unwrap();
    session.write_all(b"a").unwrap();
    session.write_all(b"bc").unwrap();
    assert_eq!(session.contents().unwrap(), b"abc");
    assert_eq!(session.seek(SeekFrom::End(-1)).unwrap(), 2);
    session.write_all(b"def").unwrap();
    assert_eq!(session.seek(SeekFrom::Current(-4)).unwrap(), 1);
    assert!(session.seek(SeekFrom::Current(-2)).is_err());
    assert_eq!(session.seek(SeekFrom::Start(1)).unwrap(), 1);
    session.write_all(b"B").unwrap();
    session.set_len(4).unwrap();
    session.write_at(6, b"!").unwrap();
    session.flush().unwrap();
    assert_eq!(store.read("/f").unwrap(), b"two");
    assert_eq!(session.close(), Ok(Some(4)));
    assert_eq!(store.read("/f").unwrap(), b"aBde\0\0!");
    assert_eq!(store.session("/f").unwrap().close(), Ok(None));
}

#[test]
fn a_session_that_is_dropped_keeps_what_was_written() {
    let store = with_file();
    store.session("/f").unwrap().write_at(0, b"T").unwrap();
    assert_eq!(store.read("/f").unwrap(), b"Two");
    assert_eq!(store.revert("/f", 3), Ok(5));
}

#[test]
fn the_last_session_of_a_draft_makes_the_version() {
    let store = with_file();
    let (first, second) = (store.session("/f").unwrap(), store.session("/f").unwrap());
    assert_ne!(first.handle(), second.handle());
    first.write_at(0, b"x").unwrap();
    assert_eq!(second.contents().unwrap(), b"xwo");
    assert_eq!(store.revert("/f", 2), Err(Error::Drafting));
    assert_eq!(first.close(), Ok(None));
    assert_eq!(second.close(), Ok(Some(4)));
}

#[test]
fn an_abandoned_session_makes_no_version() {
    let store = with_file();
    let session = store.session("/f").unwrap();
    session.write_at(0, b"mistake").unwrap();
    let handle = session.handle();
    assert_eq!(session.abandon(), Ok(()));
    assert_eq!((store.read("/f").unwrap(), store.versions("/f").unwrap().len()), (b"two".to_vec(), 3));
    assert_eq!(store.line(&format!("close {handle}")).unwrap(), "no 15 NoHandle\n");
    // Another session keeps the draft, with what both wrote.
    let (first, second) = (store.session("/f").unwrap(), store.session("/f").unwrap());
    first.write_at(0, b"a").unwrap();
    second.write_at(1, b"b").unwrap();
    assert_eq!(first.abandon(), Ok(()));
    assert_eq!(store.save("/f", b"x"), Err(Error::Drafting));
    assert_eq!(second.close(), Ok(Some(4)));
    assert_eq!(store.read("/f").unwrap(), b"abo");
    // A line may have closed it.
    let session = store.session("/f").unwrap();
    store.line(&format!("close {}", session.handle())).unwrap();
    assert_eq!(session.abandon(), Err(Error::NoHandle));
}

#[test]
fn what_a_path_held_is_restored() {
    let store = with_file();
    store.tick(10).unwrap();
    assert_eq!(store.restore("/f", 9), Ok(4));
    assert_eq!((store.read("/f").unwrap(), store.read(version("/f", 3)).unwrap()), (b"one".to_vec(), b"two".to_vec()));
    // By its own past, if the name is new; and a deleted name comes back, with its file.
    store.rename("/f", "/g").unwrap();
    assert_eq!(store.restore("/g", 10), Ok(5));
    assert_eq!(store.read("/g").unwrap(), b"two");
    store.tick(1).unwrap();
    store.unlink("/g").unwrap();
    assert_eq!(store.restore("/g", 20), Ok(6));
    assert_eq!((store.read("/g").unwrap(), store.versions("/g").unwrap().len()), (b"two".to_vec(), 6));
    // The file that had this name has another one: a new file gets the content.
    assert_eq!(store.restore("/f", 9), Ok(2));
    assert_eq!((store.read("/f").unwrap(), store.versions("/f").unwrap().len()), (b"one".to_vec(), 2));
    assert_eq!(store.restore("/f", 22), Err(Error::Future));
    assert_eq!(store.restore("/none", 9), Err(Error::NoEntry));
    assert_eq!(store.restore("/", 9), Err(Error::IsDirectory));
    assert_eq!(store.restore("/f", u64::MAX), Err(Error::BadMoment));
    let session = store.session("/f").unwrap();
    assert_eq!(store.restore("/f", 9), Err(Error::Drafting));
    drop(session);
}

#[test]
fn a_content_has_a_mebibyte_at_most() {
    let store = with_file();
    let whole = vec![7; LARGEST_CONTENT];
    assert_eq!(store.save("/f", &whole), Ok(4));
    assert_eq!(store.read("/f").unwrap(), whole);
    assert_eq!(store.save("/f", &vec![7; LARGEST_CONTENT + 1]), Err(Error::TooBig));
    let mut session = store.session("/f").unwrap();
    assert_eq!(session.write_at(LARGEST_CONTENT as u64, b"x"), Err(Error::TooBig));
    assert_eq!(session.set_len(LARGEST_CONTENT as u64 + 1), Err(Error::TooBig));
    session.seek(SeekFrom::End(0)).unwrap();
    let error = session.write(b"x").unwrap_err();
    assert_eq!(error.kind(), io::ErrorKind::InvalidInput);
    assert_eq!(session.close(), Ok(None));
}

#[test]
fn a_version_is_read_by_moment_and_by_number_or_not_at_all() {
    let store = with_file();
    assert_eq!(store.read("/f").unwrap(), b"two");
    assert_eq!(store.read(at("/f", 9)).unwrap(), b"one");
    assert_eq!(store.read(version("/f", 1)).unwrap(), b"");
    assert_eq!(store.read(at("/f", 11)), Err(Error::Future));
    assert_eq!(store.read(at("/f", LAST_MOMENT + 1)), Err(Error::BadMoment));
    assert_eq!(store.read(version("/f", 4)), Err(Error::NoVersion));
    assert_eq!(store.read("/"), Err(Error::IsDirectory));
    assert_eq!(store.read("/g"), Err(Error::NoEntry));
    store.set_policy("/f", &Policy::KeepOne).unwrap();
    assert_eq!(store.clean(), Ok(Some(Removable { since: 0, file: 1, number: 1 })));
    assert_eq!(store.read(version("/f", 1)), Err(Error::Forgotten { last: None }));
    store.set_policy("/f", &Policy::KeepAll).unwrap();
    store.tick(1).unwrap();
    store.save("/f", b"three").unwrap();
    store.set_policy("/f", &Policy::KeepOne).unwrap();
    let reader = store.reader(version("/f", 2)).unwrap();
    assert_eq!(store.clean(), Ok(Some(Removable { since: 11, file: 1, number: 3 })));
    assert_eq!(store.read(version("/f", 3)), Err(Error::Forgotten { last: Some(2) }));
    reader.close().unwrap();
    assert_eq!(store.clean(), Ok(Some(Removable { since: 10, file: 1, number: 2 })));
    assert_eq!(store.clean(), Ok(None));
}

#[test]
fn a_reader_reads_its_version_and_holds_it() {
    let store = with_file();
    store.save("/f", b"first\nsecond\n").unwrap();
    let mut reader = store.reader("/f").unwrap();
    assert_ne!(reader.handle(), 0);
    store.save("/f", b"other").unwrap();
    store.set_policy("/f", &Policy::KeepOne).unwrap();
    assert_eq!(store.pass(9).removed, 3);
    assert_eq!(store.why(version("/f", 4)), Ok(Fate::Open));
    assert_eq!((&mut reader).lines().collect::<Result<Vec<_>, _>>().unwrap(), ["first", "second"]);
    assert_eq!(reader.read(&mut [0; 4]).unwrap(), 0);
    assert_eq!(reader.seek(SeekFrom::End(-7)).unwrap(), 6);
    let mut rest = String::new();
    reader.read_to_string(&mut rest).unwrap();
    assert_eq!(rest, "second\n");
    assert_eq!(reader.seek(SeekFrom::Start(99)).unwrap(), 99);
    assert_eq!(reader.read(&mut [0; 4]).unwrap(), 0);
    assert_eq!(reader.contents().unwrap(), b"first\nsecond\n");
    drop(reader);
    assert_eq!(store.pass(9).removed, 1);
}

#[test]
fn what_a_path_means_is_told_with_its_policy() {
    let store = with_file();
    let ladder = Policy::KeepLandmarks(vec![Rung { age: 10, width: 5 }, Rung { age: 40, width: 50 }]);
    let last = Version { number: 3, opened: 10, closed: 10, ended: None, length: 3 };
    for policy in [Policy::KeepOne, Policy::KeepAll, Policy::keep_days(7), Policy::KeepSafe { seconds: 9, floor: 2 }, ladder] {
        store.set_policy("/f", &policy).unwrap();
        assert_eq!(store.stat("/f"), Ok(Stat::File { file: 1, version: last, policy: policy.clone() }));
        store.set_default("/", &policy).unwrap();
        assert_eq!(store.stat("/"), Ok(Stat::Directory { directory: 0, policy }));
    }
    assert_eq!(Policy::standard_landmarks().to_string(), "landmarks:86400/3600,604800/86400,2592000/604800");
    assert_eq!(Policy::KeepSafe { seconds: 9, floor: 2 }.to_string(), "safe:9/2");
    assert_eq!(store.set_policy("/f", &Policy::KeepSafe { seconds: 0, floor: 0 }), Err(Error::BadLadder));
    assert_eq!(store.set_policy("/f", &Policy::KeepLandmarks(vec![])), Err(Error::BadLadder));
    assert_eq!(store.set_policy("/", &Policy::KeepOne), Err(Error::IsDirectory));
    assert_eq!(store.set_default("/f", &Policy::KeepOne), Err(Error::NotDirectory));
}

#[test]
fn the_held_versions_are_listed() {
    let store = with_file();
    let first = Version { number: 1, opened: 0, closed: 0, ended: Some(0), length: 0 };
    let second = Version { number: 2, opened: 0, closed: 0, ended: Some(10), length: 3 };
    let third = Version { number: 3, opened: 10, closed: 10, ended: None, length: 3 };
    assert_eq!(store.versions("/f"), Ok(vec![first, second, third]));
    assert_eq!(store.versions(at("/f", 3)), Ok(vec![first, second, third]));
    assert_eq!(store.versions(version("/f", 3)), Err(Error::Syntax));
    assert_eq!(store.list("/f"), Err(Error::NotDirectory));
}

#[test]
fn what_is_used_is_told_by_kind_of_policy() {
    let store = with_file();
    let used = store.usage().unwrap();
    assert_eq!((used.keep_all.files, used.keep_all.versions, used.keep_all.bytes), (1, 3, 6));
    assert_eq!(used.keep_one, Usage::default());
}

#[test]
fn what_the_limits_count_is_told() {
    let store = Options::new().history(true).open().unwrap();
    store.mkdir("/d").unwrap();
    store.create("/d/f").unwrap();
    store.link("/d/f", "/l").unwrap();
    store.session("/l").unwrap().write_at(0, b"abc").unwrap();
    let session = store.session("/l").unwrap();
    store.group_make("g").unwrap();
    store.group_add("g", "/l").unwrap();
    store.clock(9).unwrap();
    store.mark("g", 3, None).unwrap();
    // A file is made with an empty version, the first session made another one, and the second has a draft.
    let counts = store.counts();
    let made = (counts.files, counts.directories, counts.names, counts.versions, counts.handles);
    assert_eq!(made, (1, 1, 3, 3, 2));
    assert_eq!((counts.groups, counts.members, counts.marks), (1, 1, 1));
    // A draft that wasn't changed makes no version. Its handle stays counted.
    drop(session);
    assert_eq!((store.counts().versions, store.counts().handles), (2, 2));
    let events = store.counts().events;
    store.tick(1).unwrap();
    store.trim().unwrap();
    assert_eq!(store.counts().events, events + 1);
    assert_eq!(Store::new().unwrap().counts(), Counts::default());
}

#[test]
fn versions_become_due_and_a_pass_removes_them() {
    let store = with_file();
    store.set_policy("/f", &Policy::KeepSafe { seconds: 5, floor: 0 }).unwrap();
    let (first, second) = (Removable { since: 5, file: 1, number: 1 }, Removable { since: 15, file: 1, number: 2 });
    assert_eq!(store.due(), Ok(vec![first]));
    assert_eq!(store.ahead(15), Ok(vec![first, second]));
    assert_eq!(store.ahead(9), Err(Error::NotAhead));
    assert_eq!(store.ahead(LAST_MOMENT + 1), Err(Error::BadMoment));
    assert_eq!(store.why("/f"), Ok(Fate::Current));
    assert_eq!(store.why(version("/f", 2)), Ok(Fate::Kept { until: Some(15), level: None }));
    assert_eq!(store.why(version("/f", 1)), Ok(Fate::Due { held: None, since: 5, cause: Cause::ByAge { seconds: 5 } }));
    store.clock(15).unwrap();
    let pass = store.pass(1);
    assert_eq!((pass.removed, pass.end), (1, PassEnd::Budget));
    let pass = store.pass(9);
    assert_eq!((pass.removed, pass.end), (1, PassEnd::Finished));
}

#[test]
fn a_ladder_tells_what_displaced_a_version() {
    let store = with_file();
    store.set_policy("/f", &Policy::KeepLandmarks(vec![Rung { age: 10, width: 50 }])).unwrap();
    assert_eq!(store.why(version("/f", 2)), Ok(Fate::Kept { until: Some(20), level: Some(0) }));
    store.clock(20).unwrap();
    let cause = Cause::Displaced { level: 1, by: 3 };
    assert_eq!(store.why(version("/f", 2)), Ok(Fate::Due { held: None, since: 20, cause }));
    store.set_policy("/f", &Policy::KeepOne).unwrap();
    assert_eq!(store.why(version("/f", 2)), Ok(Fate::Due { held: None, since: 10, cause: Cause::AtOnce }));
}

#[test]
fn a_mark_keeps_what_was_current() {
    let store = with_file();
    store.group_make("release").unwrap();
    assert_eq!(store.group_make("release"), Err(Error::GroupExists));
    assert_eq!(store.group_make("a b"), Err(Error::BadName));
    store.group_add("release", "/f").unwrap();
    assert_eq!(store.group_add("release", "/f"), Err(Error::AlreadyMember));
    store.mark("release", 5, None).unwrap();
    store.mark("release", 6, Some(99)).unwrap();
    assert_eq!(store.mark("release", 5, None), Err(Error::MarkExists));
    assert_eq!(store.mark("release", 10, None), Err(Error::NotPast));
    assert_eq!(store.mark("release", 7, Some(10)), Err(Error::NotAhead));
    assert_eq!(store.mark("other", 5, None), Err(Error::NoGroup));
    let (forever, ending) = (Mark { at: 5, until: None }, Mark { at: 6, until: Some(99) });
    let group = Group { name: "release".to_string(), members: vec![1], marks: vec![forever, ending] };
    assert_eq!(store.groups(), Ok(vec![group]));
    store.set_policy("/f", &Policy::KeepOne).unwrap();
    assert_eq!(store.why(version("/f", 2)), Ok(Fate::Marked { group: "release".to_string(), mark: forever }));
    store.unmark("release", 5).unwrap();
    assert_eq!(store.unmark("release", 5), Err(Error::NoMark));
    store.group_remove("release", "/f").unwrap();
    assert_eq!(store.group_remove("release", "/f"), Err(Error::NotMember));
    store.group_drop("release").unwrap();
    assert_eq!(store.group_drop("release"), Err(Error::NoGroup));
}

#[test]
fn the_mark_that_held_a_version_is_told() {
    let store = with_file();
    store.group_make("release").unwrap();
    store.group_add("release", "/f").unwrap();
    store.mark("release", 6, Some(99)).unwrap();
    store.set_policy("/f", &Policy::KeepSafe { seconds: 5, floor: 0 }).unwrap();
    let (group, mark) = ("release".to_string(), Mark { at: 6, until: Some(99) });
    assert_eq!(store.why(version("/f", 2)), Ok(Fate::Marked { group: group.clone(), mark }));
    store.clock(120).unwrap();
    let (held, cause) = (Some(Hold { group, mark }), Cause::ByAge { seconds: 5 });
    assert_eq!(store.why(version("/f", 2)), Ok(Fate::Due { held, since: 99, cause }));
    // No mark was made while version 1 was current.
    assert_eq!(store.why(version("/f", 1)), Ok(Fate::Due { held: None, since: 5, cause }));
    // The policy holds version 2 as long as the mark.
    store.set_policy("/f", &Policy::KeepSafe { seconds: 89, floor: 0 }).unwrap();
    let cause = Cause::ByAge { seconds: 89 };
    assert_eq!(store.why(version("/f", 2)), Ok(Fate::Due { held: None, since: 99, cause }));
}

#[test]
fn each_limit_is_told_by_its_name() {
    let one = |limits: Limits| limited(limits);
    let full = |limit| Err(Error::Full(limit));
    let store = one(Limits { files: 1, directories: 1, groups: 1, members: 1, marks: 1, ..Limits::default() });
    store.create("/f").unwrap();
    assert_eq!(store.create("/g"), full(Limit::Files));
    store.mkdir("/d").unwrap();
    assert_eq!(store.mkdir("/e"), full(Limit::Directories));
    store.group_make("g").unwrap();
    assert_eq!(store.group_make("h").unwrap_err(), Error::Full(Limit::Groups));
    store.group_add("g", "/f").unwrap();
    store.group_remove("g", "/f").unwrap();
    assert_eq!(store.group_add("g", "/f").unwrap_err(), Error::Full(Limit::Members));
    store.tick(9).unwrap();
    store.mark("g", 1, None).unwrap();
    assert_eq!(store.mark("g", 2, None).unwrap_err(), Error::Full(Limit::Marks));
    let store = one(Limits { names: 1, versions: 2, handles: 0, ..Limits::default() });
    store.create("/f").unwrap();
    assert_eq!(store.create("/g"), full(Limit::Names));
    assert_eq!(store.save("/f", b"x"), Ok(2));
    assert_eq!(store.session("/f").unwrap_err(), Error::Full(Limit::Handles));
    assert_eq!(store.revert("/f", 1), full(Limit::Versions));
    let too_many = Limits { files: 100_001, ..Limits::default() };
    assert_eq!(Options::new().limits(too_many).open().unwrap_err(), Error::BadLimits);
}

#[test]
fn a_history_is_kept_and_folded_where_it_is_asked_for() {
    let store = Options::new().history(true).limits(Limits { events: 3, ..Limits::default() }).open().unwrap();
    store.create("/f").unwrap();
    assert_eq!(store.read("/g"), Err(Error::NoEntry));
    let lines = vec!["create /f".to_string(), "read /g".to_string()];
    assert_eq!(store.history(), Ok(History { folded: 0, lines }));
    assert_eq!(store.line("history").unwrap(), "ok history 0 2\n- create /f\n- read /g\n");
    assert_eq!(store.trim(), Ok(2));
    assert_eq!(store.history(), Ok(History { folded: 2, lines: vec![] }));
    store.tick(1).unwrap();
    assert_eq!(store.tick(1), Err(Error::HistoryFull));
    let pass = store.pass(1);
    assert_eq!((pass.removed, pass.end), (0, PassEnd::Stopped(Error::HistoryFull)));
    let plain = Store::new().unwrap();
    assert_eq!(plain.history(), Err(Error::NoHistory));
    assert_eq!(plain.trim(), Err(Error::NoHistory));
}

#[test]
fn lines_are_answered_as_the_program_prints_them() {
    let store = Store::new().unwrap();
    assert_eq!(store.line("create /f").unwrap(), "ok file 1\n");
    assert_eq!(store.line("versions /f").unwrap(), "ok versions 1\n- 1 0 0 - 0\n");
    assert_eq!(store.line("read /g").unwrap(), "no 5 NoEntry\n");
    assert_eq!(store.line("hello").unwrap(), "bad 32 Syntax\n");
    assert_eq!(store.line("why /f").unwrap(), "ok why current\n");
    assert_eq!(store.line("").unwrap(), "");
    store.tick(5).unwrap();
    assert_eq!(store.tell().unwrap(), "ok now 5 1970-01-01T00:00:05Z\n");
    assert_eq!(store.unlink("/g"), Err(Error::NoEntry));
    assert_eq!(store.tell().unwrap(), "no 5 NoEntry\n");
}

#[test]
fn an_error_has_its_number_its_text_and_its_kind() {
    assert_eq!(Error::NoEntry.code(), 5);
    assert_eq!(Error::Forgotten { last: None }.code(), 13);
    assert_eq!(Error::Full(Limit::Names).code(), 27);
    assert_eq!(Error::Full(Limit::Names).to_string(), "a limit is reached, for good: names");
    assert_eq!(Error::Forgotten { last: Some(2) }.to_string(), "the version was removed; before it version 2 is held");
    assert_eq!(io::Error::from(Error::NoEntry).kind(), io::ErrorKind::NotFound);
    assert_eq!(io::Error::from(Error::Exists).kind(), io::ErrorKind::AlreadyExists);
}

#[test]
fn a_store_goes_from_thread_to_thread_behind_a_lock() {
    let store = Arc::new(Mutex::new(with_file()));
    let threads: Vec<_> = (0..4)
        .map(|_| {
            let store = Arc::clone(&store);
            thread::spawn(move || {
                for _ in 0..100 {
                    store.lock().unwrap().save("/f", b"from a thread").unwrap();
                }
            })
        })
        .collect();
    for it in threads {
        it.join().unwrap();
    }
    assert_eq!(store.lock().unwrap().versions("/f").unwrap().len(), 403);
}
