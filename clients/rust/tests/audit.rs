//! What an audit asks of a store with a history: the examples of docs/SCRIPT.md, by typed calls.

use elephant::{
    version, Answered, Cause, Error, Fate, Hold, Limits, Mark, NameStory, OpenHandle, Options, Policy, Removal, Rung, Store,
};

fn with_history() -> Store {
    Options::new().history(true).open().unwrap()
}

fn removal(moment: u64, version: (u64, u64), path: Option<&str>, since: u64, cause: Cause) -> Removal {
    let (file, number) = version;
    Removal { moment, file, number, path: path.map(str::to_owned), held: None, since, cause }
}

#[test]
fn removed_versions_are_listed_with_their_moments_and_causes() {
    let store = with_history();
    store.set_default("/", &Policy::KeepOne).unwrap();
    store.create("/f").unwrap();
    let session = store.session("/f").unwrap();
    store.clock(5).unwrap();
    let handle = OpenHandle { handle: 1, file: 1, version: None, since: Some(0), path: Some("/f".to_owned()) };
    assert_eq!(store.handles(), Ok(vec![handle]));
    session.write_at(0, b"a").unwrap();
    session.close().unwrap();
    store.clean().unwrap();
    store.unlink("/f").unwrap();
    store.clock(9).unwrap();
    store.clean().unwrap();
    let gone = store.gone().unwrap();
    let wanted = [removal(5, (1, 1), Some("/f"), 5, Cause::AtOnce), removal(9, (1, 2), None, 5, Cause::AtOnce)];
    assert_eq!((gone.folded, gone.removals), (0, wanted.to_vec()));
    // default, create, open write of the session, clock, write, close, clean, unlink, clock, clean.
    assert_eq!(store.trim(), Ok(10));
    assert_eq!(store.create("/g"), Ok(2));
    let (gone, answers) = (store.gone().unwrap(), store.answers().unwrap());
    assert_eq!((gone.folded, gone.removals, answers.folded), (10, vec![], 10));
    assert_eq!(answers.answered, [Answered { line: "create /g".to_owned(), answer: "ok file 2\n".to_owned() }]);
}

#[test]
fn each_cause_of_a_removal_is_its_own() {
    let store = with_history();
    let ladder = Policy::KeepLandmarks(vec![Rung { age: 10, width: 10 }, Rung { age: 40, width: 50 }]);
    for (path, policy) in [("/a", Policy::KeepSafe { seconds: 7, floor: 0 }), ("/l", ladder)] {
        store.create(path).unwrap();
        store.set_policy(path, &policy).unwrap();
    }
    for (moment, content) in [(12, "a"), (18, "b")] {
        store.clock(moment).unwrap();
        store.save("/a", content.as_bytes()).unwrap();
        store.save("/l", content.as_bytes()).unwrap();
    }
    store.clock(30).unwrap();
    let _ = store.pass(9);
    // Of /a version 1 ended at 12, and version 2 at 18. Of /l version 2 closed at 12 and ended at 18, version 3 closed at 18.
    let wanted = [
        removal(30, (1, 1), Some("/a"), 19, Cause::ByAge { seconds: 7 }),
        removal(30, (1, 2), Some("/a"), 25, Cause::ByAge { seconds: 7 }),
        removal(30, (2, 2), Some("/l"), 28, Cause::Displaced { level: 1, by: 3 }),
    ];
    assert_eq!(store.gone().unwrap().removals, wanted);
    let cause = Cause::Displaced { level: 1, by: 3 };
    assert_eq!(store.why(version("/l", 2)), Ok(Fate::Removed { moment: 30, held: None, since: 28, cause }));
    assert_eq!(store.why(version("/l", 4)), Err(Error::NoVersion));
    // After a trim no stored event removed them. What is removed later has its path and cause.
    store.trim().unwrap();
    assert_eq!(store.why(version("/l", 2)), Err(Error::Forgotten { last: Some(1) }));
    store.set_policy("/l", &Policy::KeepOne).unwrap();
    store.clean().unwrap();
    assert_eq!(store.gone().unwrap().removals, [removal(30, (2, 1), Some("/l"), 12, Cause::AtOnce)]);
    assert_eq!(store.why(version("/l", 1)), Ok(Fate::Removed { moment: 30, held: None, since: 12, cause: Cause::AtOnce }));
}

#[test]
fn a_version_that_was_removed_is_explained_only_by_its_number() {
    let store = with_history();
    store.set_default("/", &Policy::KeepOne).unwrap();
    store.save("/f", b"one").unwrap();
    store.clock(5).unwrap();
    store.save("/f", b"two").unwrap();
    let _ = store.pass(9);
    assert_eq!(store.why(version("/f", 1)), Ok(Fate::Removed { moment: 5, held: None, since: 0, cause: Cause::AtOnce }));
    // At 1 it is version 2, which was removed too.
    assert_eq!(store.why(elephant::at("/f", 1)), Err(Error::Forgotten { last: None }));
    assert_eq!(store.why("/f"), Ok(Fate::Current));
}

#[test]
fn open_handles_have_what_they_read_and_since_when() {
    let store = with_history();
    store.set_default("/", &Policy::KeepAll).unwrap();
    store.mkdir("/d").unwrap();
    store.save("/d/f", b"one").unwrap();
    store.clock(3).unwrap();
    let old = store.reader("/d/f").unwrap();
    store.trim().unwrap();
    store.clock(7).unwrap();
    let (reader, session) = (store.reader(version("/d/f", 1)).unwrap(), store.session("/d/f").unwrap());
    store.rename("/d/f", "/g").unwrap();
    let handle = |handle, version, since, path: Option<&str>| {
        let path = path.map(str::to_owned);
        OpenHandle { handle, file: 1, version, since, path }
    };
    // The event that opened the first reader is folded.
    let path = Some("/g");
    let wanted = [handle(1, Some(2), None, path), handle(2, Some(1), Some(7), path), handle(3, None, Some(7), path)];
    assert_eq!(store.handles().unwrap(), wanted);
    store.unlink("/g").unwrap();
    assert_eq!(store.handles().unwrap()[2], handle(3, None, Some(7), None));
    drop((old, reader, session));
    assert_eq!(store.handles(), Ok(vec![]));
}

#[test]
fn answers_are_those_that_the_lines_had() {
    let store = with_history();
    let lines =
        ["create /f", "list /", "versions /f", "read /g", "usage", "clean", "groups", "due", "mkdir /d", "restorable", "read /f"];
    let wanted: Vec<_> = lines.iter().map(|it| Answered { line: (*it).to_owned(), answer: store.line(it).unwrap() }).collect();
    assert_eq!(wanted[1].answer, "ok names 1\n- f file 1\n");
    let found = store.answers().unwrap();
    assert_eq!((found.folded, found.answered), (0, wanted));
}

#[test]
fn a_store_without_a_history_has_no_audit() {
    let store = Options::new().limits(Limits::default()).open().unwrap();
    store.set_default("/", &Policy::KeepOne).unwrap();
    store.save("/f", b"one").unwrap();
    store.clean().unwrap();
    assert_eq!(store.gone(), Err(Error::NoHistory));
    assert_eq!(store.handles(), Err(Error::NoHistory));
    assert_eq!(store.answers(), Err(Error::NoHistory));
    assert_eq!(store.history(), Err(Error::NoHistory));
    assert_eq!(store.why(version("/f", 1)), Err(Error::Forgotten { last: None }));
}

#[test]
fn a_story_has_removed_versions_the_mark_that_held_one_and_old_names() {
    let store = with_history();
    store.set_default("/", &Policy::KeepOne).unwrap();
    store.save("/a", b"one").unwrap();
    store.clock(5).unwrap();
    store.save("/a", b"two").unwrap();
    store.group_make("g").unwrap();
    store.group_add("g", "/a").unwrap();
    store.mark("g", 2, Some(30)).unwrap();
    store.clean().unwrap();
    store.clock(40).unwrap();
    store.clean().unwrap();
    store.rename("/a", "/b").unwrap();
    let found = store.story("/a").unwrap();
    let rows: Vec<_> = found.versions.iter().map(|it| (it.number, it.removed, it.info.and_then(|info| info.ended))).collect();
    // Version 2 was current at 2, and version 1 only at 0.
    assert_eq!((found.file, rows), (1, vec![(1, Some(5), Some(0)), (2, Some(40), Some(5)), (3, None, None)]));
    let mark = Mark { at: 2, until: Some(30) };
    assert_eq!(found.versions[0].held, None);
    let held = Some(Hold { group: "g".to_owned(), mark });
    assert_eq!(found.versions[1].held, held);
    assert_eq!(found.versions[1].fate, Some(Fate::Due { held, since: 30, cause: Cause::AtOnce }));
    assert_eq!(found.versions[2].fate, Some(Fate::Current));
    let name = |birth, death, path: &str| NameStory { birth, death, path: Some(path.to_owned()) };
    assert_eq!(found.names, [name(0, Some(40), "/a"), name(40, None, "/b")]);
    assert_eq!(store.story("/"), Err(Error::IsDirectory));
    assert_eq!(store.story("/none"), Err(Error::NoEntry));
    store.trim().unwrap();
    assert_eq!(store.story("/b").unwrap().versions.len(), 1);
}

#[test]
fn a_story_without_a_history_has_what_is_held() {
    let store = Store::new().unwrap();
    store.set_default("/", &Policy::KeepOne).unwrap();
    store.save("/a", b"one").unwrap();
    store.clean().unwrap();
    let found = store.story("/a").unwrap();
    assert_eq!(found.versions.iter().map(|it| it.number).collect::<Vec<_>>(), [2]);
}
