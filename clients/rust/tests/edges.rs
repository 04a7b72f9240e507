//! The edges of calls: an empty save, the longest name, names below directories, one close for each reader, the largest limits, the
//! fields of answers that are equal in simple stores.

use elephant::{
    at, version, DeletedName, Entry, Error, Fate, Group, Limits, Mark, Node, Options, Policy, Removable, Rung, Stat, Store,
    Usages, Version,
};
use std::io::{Read, Seek, SeekFrom, Write};

// The longest name that a store takes.
fn longest_name() -> String {
    let name = format!("{}z", "abcdefg".repeat(9));
    assert_eq!(name.len(), 64);
    name
}

#[test]
fn an_empty_save_leaves_no_byte() {
    let store = Store::new().unwrap();
    store.create("/f").unwrap();
    assert_eq!(store.save("/f", b"one"), Ok(2));
    assert_eq!(store.save("/f", b""), Ok(3));
    assert_eq!(store.read("/f").unwrap(), b"");
    let lengths: Vec<u64> = store.versions("/f").unwrap().iter().map(|it| it.length).collect();
    assert_eq!(lengths, [0, 3, 0]);
}

#[test]
fn a_shorter_save_leaves_no_byte_of_the_longer_one() {
    let store = Store::new().unwrap();
    store.create("/f").unwrap();
    for content in [&[7; 9_000][..], &[8; 4_097], &[9; 4_096], &[1; 1]] {
        store.save("/f", content).unwrap();
        assert_eq!(store.read("/f").unwrap(), content);
    }
}

#[test]
fn the_longest_name_is_read_whole() {
    let (store, name) = (Store::new().unwrap(), longest_name());
    let path = format!("/{name}");
    store.create(&path).unwrap();
    assert_eq!(store.list("/"), Ok(vec![Entry { name: name.clone(), node: Node::File(1) }]));
    store.group_make(&name).unwrap();
    store.group_add(&name, &path).unwrap();
    store.tick(1).unwrap();
    store.mark(&name, 0, None).unwrap();
    let mark = Mark { at: 0, until: None };
    assert_eq!(store.groups(), Ok(vec![Group { name: name.clone(), members: vec![1], marks: vec![mark] }]));
    store.unlink(&path).unwrap();
    let deleted = DeletedName { parent: 0, name: name.clone(), node: Node::File(1) };
    assert_eq!(store.restorable(), Ok(vec![deleted]));
    assert_eq!(store.undelete(&path), Ok(Some(2)));
    store.set_policy(&path, &Policy::KeepOne).unwrap();
    assert_eq!(store.why(at(&path, 0)), Ok(Fate::Marked { group: name, mark }));
}

#[test]
fn a_deleted_name_has_its_directory() {
    let store = Store::new().unwrap();
    assert_eq!(store.mkdir("/a"), Ok(1));
    assert_eq!(store.mkdir("/a/b"), Ok(2));
    store.create("/a/f").unwrap();
    store.create("/a/b/g").unwrap();
    store.unlink("/a/f").unwrap();
    store.unlink("/a/b/g").unwrap();
    store.rmdir("/a/b").unwrap();
    let deleted = |parent, name: &str, node| DeletedName { parent, name: name.to_string(), node };
    let wanted = vec![deleted(1, "b", Node::Directory(2)), deleted(1, "f", Node::File(1)), deleted(2, "g", Node::File(2))];
    assert_eq!(store.restorable(), Ok(wanted));
}

#[test]
fn each_handle_is_closed_once() {
    let store = Options::new().history(true).limits(Limits::default()).open().unwrap();
    store.create("/f").unwrap();
    let entries = |after: usize| assert_eq!(store.history().unwrap().lines.len(), after);
    store.reader("/f").unwrap().close().unwrap();
    entries(3);
    drop(store.reader("/f").unwrap());
    entries(5);
    assert_eq!(store.session("/f").unwrap().close(), Ok(None));
    entries(7);
    drop(store.session("/f").unwrap());
    entries(9);
}

#[test]
fn each_limit_is_the_largest_by_default() {
    let largest = Limits::default();
    assert!(Options::new().limits(largest.clone()).open().is_ok());
    let raises: [fn(&mut Limits) -> &mut u64; 9] = [
        |it| &mut it.events,
        |it| &mut it.files,
        |it| &mut it.directories,
        |it| &mut it.names,
        |it| &mut it.versions,
        |it| &mut it.handles,
        |it| &mut it.groups,
        |it| &mut it.members,
        |it| &mut it.marks,
    ];
    for raise in raises {
        let mut limits = largest.clone();
        *raise(&mut limits) += 1;
        assert_eq!(Options::new().limits(limits.clone()).open().unwrap_err(), Error::BadLimits, "{limits:?}");
    }
}

#[test]
fn a_policy_of_days_has_their_seconds() {
    assert_eq!(Policy::keep_days(7), Policy::KeepSafe { seconds: 604_800, floor: 0 });
    assert_eq!(Policy::keep_days(7).to_string(), "safe:604800");
    let store = Store::new().unwrap();
    assert_eq!(store.set_default("/", &Policy::keep_days(u64::MAX)), Err(Error::BadLadder));
}

/// A store with a file whose version 2 was opened at 3, closed at 5 and ended at 9, when version 3 closed, which was opened at 7.
fn with_moments() -> Store {
    let store = Store::new().unwrap();
    store.set_default("/", &Policy::KeepAll).unwrap();
    store.clock(1).unwrap();
    store.create("/f").unwrap();
    for (opened, closed, content) in [(3, 5, &b"old"[..]), (7, 9, b"content")] {
        store.clock(opened).unwrap();
        let session = store.session("/f").unwrap();
        session.write_at(0, content).unwrap();
        store.clock(closed).unwrap();
        session.close().unwrap();
    }
    store
}

#[test]
fn each_moment_of_a_version_is_its_own() {
    let store = with_moments();
    let first = Version { number: 1, opened: 1, closed: 1, ended: Some(5), length: 0 };
    let second = Version { number: 2, opened: 3, closed: 5, ended: Some(9), length: 3 };
    let third = Version { number: 3, opened: 7, closed: 9, ended: None, length: 7 };
    assert_eq!(store.versions("/f"), Ok(vec![first, second, third]));
    for (target, wanted) in [("/f".into(), third), (version("/f", 2), second), (at("/f", 4), first)] {
        assert_eq!(store.stat(target), Ok(Stat::File { file: 1, version: wanted, policy: Policy::KeepAll }));
    }
}

#[test]
fn a_reader_and_a_session_seek_from_where_they_are() {
    let store = Store::new().unwrap();
    store.create("/f").unwrap();
    let mut session = store.session("/f").unwrap();
    session.write_all(b"abc").unwrap();
    assert_eq!(session.seek(SeekFrom::Current(2)).unwrap(), 5);
    session.write_all(b"f").unwrap();
    session.close().unwrap();
    let mut reader = store.reader(&"/f".to_string()).unwrap();
    let mut piece = [9; 2];
    reader.read_exact(&mut piece).unwrap();
    assert_eq!((piece, reader.seek(SeekFrom::Current(1)).unwrap()), (*b"ab", 3));
    reader.read_exact(&mut piece).unwrap();
    assert_eq!((piece, reader.seek(SeekFrom::Current(-5)).unwrap()), ([0, 0], 0));
    assert!(reader.seek(SeekFrom::Current(-1)).is_err());
    let mut text = Vec::new();
    reader.read_to_end(&mut text).unwrap();
    assert_eq!(text, b"abc\0\0f");
}

#[test]
fn what_is_used_is_told_of_each_kind() {
    let store = Store::new().unwrap();
    let ladder = Policy::KeepLandmarks(vec![Rung { age: 10, width: 5 }]);
    let policies = [Policy::KeepOne, Policy::KeepAll, Policy::KeepSafe { seconds: 9, floor: 2 }, ladder];
    for (files, policy) in (1..).zip(&policies) {
        for file in 0..files {
            let path = format!("/{files}-{file}");
            store.create(&path).unwrap();
            store.set_policy(&path, policy).unwrap();
            store.save(&path, &vec![b'a'; 513 * files]).unwrap();
        }
    }
    // Each file has an empty version and another.
    let used = store.usage().unwrap();
    let told = [used.keep_one, used.keep_all, used.keep_safe, used.keep_landmarks];
    for (files, found) in (1..).zip(told) {
        assert_eq!((found.files, found.versions, found.bytes), (files, 2 * files, 513 * files * files));
        assert!(found.blocks >= 2);
    }
    assert_eq!(Store::new().unwrap().usage(), Ok(Usages::default()));
}

#[test]
fn each_group_has_its_own_files_and_marks() {
    let store = with_moments();
    store.create("/g").unwrap();
    for (name, paths, marks) in [("a", &["/f"][..], &[(4, Some(99))][..]), ("b", &["/g", "/f"], &[(6, None), (5, Some(50))])] {
        store.group_make(name).unwrap();
        for path in paths {
            store.group_add(name, path).unwrap();
        }
        for (moment, until) in marks {
            store.mark(name, *moment, *until).unwrap();
        }
    }
    let group =
        |name: &str, files: &[u64], marks: &[Mark]| Group { name: name.to_string(), members: files.into(), marks: marks.into() };
    let (ending, lasting) = (Mark { at: 4, until: Some(99) }, Mark { at: 6, until: None });
    let other = Mark { at: 5, until: Some(50) };
    assert_eq!(store.groups(), Ok(vec![group("a", &[1], &[ending]), group("b", &[2, 1], &[lasting, other])]));
    // At 4 version 1 was current, at 5 and 6 version 2.
    assert_eq!(store.why(version("/f", 1)), Ok(Fate::Marked { group: "a".to_string(), mark: ending }));
    assert_eq!(store.why(version("/f", 2)), Ok(Fate::Marked { group: "b".to_string(), mark: lasting }));
}

#[test]
fn a_key_has_its_moment_its_file_and_its_number() {
    let store = with_moments();
    store.create("/g").unwrap();
    store.clock(20).unwrap();
    store.save("/g", b"x").unwrap();
    store.set_policy("/f", &Policy::KeepSafe { seconds: 4, floor: 0 }).unwrap();
    store.set_policy("/g", &Policy::KeepOne).unwrap();
    let wanted = [(9, 1, 1), (13, 1, 2), (20, 2, 1)].map(|(since, file, number)| Removable { since, file, number });
    assert_eq!(store.due(), Ok(wanted.to_vec()));
    assert_eq!(store.ahead(20), Ok(wanted.to_vec()));
    assert_eq!([store.clean(), store.clean(), store.clean()], wanted.map(|it| Ok(Some(it))));
}
