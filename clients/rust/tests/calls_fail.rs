//! Each call of the library that a method makes fails in turn. Only over the library of `tools/library/faulty.py`, whose calls fail when
//! a test asks for it: `tools/library/rust_client` makes it, and sets this condition.
#![cfg(faulty_library)]

use elephant::{at, version, Error, Fate, Options, PassEnd, Policy, Rung, Store};
use std::fmt::Debug;

extern "C" {
    fn elephant_fail(at: u64, code: i32, after: i32);
    fn elephant_made() -> u64;
}

const NO_MEMORY: i32 = 1;
const UNTOLD: i32 = 71;
// The two codes whose errors have a detail.
const FORGOTTEN: i32 = 13;
const FULL: i32 = 27;
// Every code that the crate has an error for, but those two.
const CODES: [i32; 39] = [
    1, 2, 3, 4, 5, 6, 7, 8, 9, 10, 11, 12, 14, 15, 16, 17, 18, 19, 20, 21, 22, 23, 24, 25, 26, 28, 29, 30, 31, 32, 41, 66, 67,
    71, 72, 73, 74, 75, 76,
];
const FIRST: [u8; 9_000] = [1; 9_000];
const CURRENT: [u8; 5_000] = [2; 5_000];

/// Makes a call of this thread fail, counted from here on from 0: without being run, or after it was.
fn fail(at: u64, code: i32, after: bool) {
    // SAFETY: it sets numbers of this thread.
    unsafe { elephant_fail(at, code, after.into()) }
}

fn fail_none() {
    fail(u64::MAX, 0, false);
}

fn calls_made() -> u64 {
    // SAFETY: it returns a number of this thread.
    unsafe { elephant_made() }
}

/// A store that has some of everything.
fn scene() -> Store {
    fail_none();
    let store = Store::new().unwrap();
    store.set_default("/", &Policy::KeepAll).unwrap();
    store.mkdir("/d").unwrap();
    store.mkdir("/empty").unwrap();
    store.create("/d/f").unwrap();
    store.save("/d/f", &FIRST).unwrap();
    store.save("/left", b"left").unwrap();
    store.clock(10).unwrap();
    store.unlink("/left").unwrap();
    store.save("/d/f", &CURRENT).unwrap();
    store.create("/one").unwrap();
    store.set_policy("/one", &Policy::KeepOne).unwrap();
    store.save("/one", b"1").unwrap();
    store.create("/gone").unwrap();
    store.unlink("/gone").unwrap();
    store.group_make("k").unwrap();
    store.group_add("k", "/d/f").unwrap();
    store.mark("k", 5, None).unwrap();
    store.set_policy("/d/f", &Policy::KeepLandmarks(vec![Rung { age: 10, width: 5 }, Rung { age: 40, width: 50 }])).unwrap();
    store
}

/// What a store has, as the answers to questions.
fn state(store: &Store) -> Vec<String> {
    let questions = [
        "list /",
        "list /d",
        "versions /d/f",
        "versions /one",
        "read /d/f",
        "read /d/f#2",
        "restorable",
        "due",
        "usage",
        "groups",
        "stat /",
        "stat /d",
        "stat /d/f",
    ];
    let mut found = vec![store.now().to_string()];
    found.extend(questions.iter().map(|it| store.line(it).unwrap()));
    found
}

type Method = fn(&Store) -> Result<String, Error>;

fn text<T: Debug>(result: Result<T, Error>) -> Result<String, Error> {
    result.map(|it| format!("{it:?}"))
}

// The methods that change nothing if a call fails.
const METHODS: [(&str, Method); 54] = [
    ("clock", |it| text(it.clock(11))),
    ("tick", |it| text(it.tick(1))),
    ("mkdir", |it| text(it.mkdir("/n"))),
    ("rmdir", |it| text(it.rmdir("/empty"))),
    ("create", |it| text(it.create("/n"))),
    ("link", |it| text(it.link("/d/f", "/n").map_err(Error::from))),
    ("unlink", |it| text(it.unlink("/d/f"))),
    ("rename", |it| text(it.rename("/d", "/n").map_err(Error::from))),
    ("undelete", |it| text(it.undelete("/gone"))),
    ("revert", |it| text(it.revert("/d/f", 2))),
    ("save", |it| text(it.save("/d/f", b"x"))),
    ("save of a new file", |it| text(it.save("/n", b"x"))),
    ("restore", |it| text(it.restore("/d/f", 9))),
    ("restore of a deleted file", |it| text(it.restore("/left", 9))),
    ("session", |it| text(it.session("/d/f").map(drop))),
    ("write_at", |it| text(it.session("/d/f").and_then(|it| it.write_at(0, b"x")))),
    ("set_len", |it| text(it.session("/d/f").and_then(|it| it.set_len(1)))),
    ("contents of a session", |it| text(it.session("/d/f").and_then(|it| it.contents()))),
    ("reader", |it| text(it.reader(version("/d/f", 2)).map(drop))),
    ("contents of a reader", |it| text(it.reader(version("/d/f", 2)).and_then(|mut it| it.contents().map(<[u8]>::to_vec)))),
    ("read", |it| text(it.read("/d/f"))),
    ("stat of a file", |it| text(it.stat("/d/f"))),
    ("stat of a directory", |it| text(it.stat("/d"))),
    ("versions", |it| text(it.versions("/d/f"))),
    ("list", |it| text(it.list("/"))),
    ("list of the past", |it| text(it.list(at("/", 9)))),
    ("walk", |it| text(it.walk("/"))),
    ("walk of the past", |it| text(it.walk(at("/", 9)))),
    ("path_of", |it| text(it.path_of(1))),
    ("paths_of", |it| text(it.paths_of(1))),
    ("make_parents of a file that is there", |it| text(it.make_parents("/d/f"))),
    ("make_parents of one directory", |it| text(it.make_parents("/d/n/f"))),
    ("restorable", |it| text(it.restorable())),
    ("due", |it| text(it.due())),
    ("ahead", |it| text(it.ahead(100))),
    ("usage", |it| text(it.usage())),
    ("why it is current", |it| text(it.why("/d/f"))),
    ("why it is marked", |it| text(it.why(version("/d/f", 2)))),
    ("why it is due", |it| text(it.why(version("/one", 1)))),
    ("set_policy", |it| text(it.set_policy("/d/f", &Policy::KeepOne))),
    ("set_default", |it| text(it.set_default("/d", &Policy::KeepOne))),
    ("group_make", |it| text(it.group_make("n"))),
    ("group_drop", |it| text(it.group_drop("k"))),
    ("group_add", |it| text(it.group_add("k", "/one"))),
    ("group_remove", |it| text(it.group_remove("k", "/d/f"))),
    ("mark", |it| text(it.mark("k", 6, Some(99)))),
    ("unmark", |it| text(it.unmark("k", 5))),
    ("groups", |it| text(it.groups())),
    ("clean", |it| text(it.clean())),
    ("line", |it| text(it.line("versions /d/f"))),
    ("checkpoint", |it| text(it.checkpoint())),
    ("directory_across", |it| text(it.directory_across(1))),
    ("file_across", |it| text(it.file_across(1))),
    ("version_across", |it| text(it.version_across(1, 3))),
];

#[test]
fn a_call_that_is_refused_memory_leaves_the_store_as_it_was() {
    for (name, method) in METHODS {
        let store = scene();
        fail_none();
        let wanted = method(&store);
        let calls = calls_made();
        assert!(wanted.is_ok() && calls > 0, "{name}: {wanted:?} by {calls} calls");
        for at in 0..calls {
            let store = scene();
            let before = state(&store);
            fail(at, NO_MEMORY, false);
            let found = method(&store);
            let is_closing = at + 1 == calls && (["session", "reader"].contains(&name) || name.contains("contents"));
            let is_write = at + 1 == calls && ["write_at", "set_len"].contains(&name);
            fail_none();
            if is_closing || is_write {
                // The drop of a session or of a reader can't return an error.
                assert_eq!(found, wanted, "{name}, call {at}");
                continue;
            }
            assert_eq!(found, Err(Error::NoMemory), "{name}, call {at}");
            assert_eq!(state(&store), before, "{name}, call {at}");
            assert_eq!(method(&store), wanted, "{name}, again after call {at}");
        }
    }
}

#[test]
fn a_save_is_one_call() {
    for (path, content, made) in [("/d/f", &b"short"[..], 4), ("/d/f", b"", 4), ("/d/f", &[3; 12_345], 4), ("/n", b"new", 2)] {
        let store = scene();
        fail_none();
        assert_eq!((store.save(path, content), calls_made()), (Ok(made), 1));
        assert_eq!(store.read(path).unwrap(), content);
        for code in CODES {
            let store = scene();
            let before = state(&store);
            fail(0, code, false);
            assert_eq!(store.save(path, content).unwrap_err().code(), code);
            fail_none();
            assert_eq!(state(&store), before, "code {code}");
        }
    }
}

#[test]
fn an_abandoned_session_that_is_refused_memory_is_closed() {
    let store = scene();
    let session = store.session("/d/f").unwrap();
    session.write_at(0, b"draft").unwrap();
    fail(0, NO_MEMORY, false);
    assert_eq!((session.abandon(), calls_made()), (Err(Error::NoMemory), 2));
    fail_none();
    assert_eq!(store.read("/d/f").unwrap()[..6], *b"draft\x02");
    let session = store.session("/d/f").unwrap();
    session.write_at(0, b"other").unwrap();
    fail_none();
    assert_eq!((session.abandon(), calls_made()), (Ok(()), 1));
    assert_eq!(store.read("/d/f").unwrap()[..6], *b"draft\x02");
}

#[test]
fn a_session_whose_drop_is_refused_still_holds_its_file() {
    let store = scene();
    let session = store.session("/d/f").unwrap();
    session.write_at(0, b"draft").unwrap();
    let handle = session.handle();
    fail(0, NO_MEMORY, false);
    drop(session);
    fail_none();
    assert_eq!(store.save("/d/f", b"other"), Err(Error::Drafting));
    assert_eq!(store.read("/d/f").unwrap(), CURRENT);
    assert_eq!(store.line(&format!("close {handle}")).unwrap(), "ok closed version 4\n");
    assert_eq!(store.read("/d/f").unwrap()[..6], *b"draft\x02");
}

#[test]
fn make_parents_that_is_refused_midway_keeps_what_it_made() {
    let path = "/d/x/y/f";
    let store = scene();
    fail_none();
    // It looks at the path, at /d and at /d/x, and makes two.
    assert_eq!((store.make_parents(path), calls_made()), (Ok(2), 5));
    for at in 0..5 {
        let store = scene();
        fail(at, NO_MEMORY, false);
        assert_eq!(store.make_parents(path), Err(Error::NoMemory), "call {at}");
        fail_none();
        assert_eq!(store.list("/d/x").is_ok(), at == 4, "call {at}");
        assert_eq!(store.make_parents(path), Ok(if at == 4 { 1 } else { 2 }), "call {at}");
    }
}

#[test]
fn a_refusal_whose_path_cannot_be_asked_for_has_none() {
    let store = scene();
    // The second call asks which path it is.
    for (from, to, error) in [("/none", "/n", Error::NoEntry), ("/d/f", "/none/n", Error::NoEntry), ("/one", "n", Error::BadPath)]
    {
        fail(1, NO_MEMORY, false);
        let refused = store.link(from, to).unwrap_err();
        assert_eq!((refused.error, refused.path, calls_made()), (error, None, 2));
        fail_none();
    }
}

#[test]
fn an_audit_that_is_refused_memory_is_an_error() {
    let store = Options::new().history(true).open().unwrap();
    store.set_default("/", &Policy::KeepOne).unwrap();
    store.save("/f", b"one").unwrap();
    store.clean().unwrap();
    let methods: [(&str, Method); 6] = [
        ("gone", |it| text(it.gone())),
        ("handles", |it| text(it.handles())),
        ("answers", |it| text(it.answers())),
        ("history", |it| text(it.history())),
        ("story", |it| text(it.story("/f"))),
        ("why", |it| text(it.why(version("/f", 1)))),
    ];
    for (name, method) in methods {
        fail_none();
        let wanted = method(&store);
        let calls = calls_made();
        assert!(wanted.is_ok() && calls > 1, "{name}: {wanted:?} by {calls} calls");
        for at in 0..calls {
            fail(at, NO_MEMORY, false);
            let found = method(&store);
            fail_none();
            // The second call of `why` asks for the detail of Forgotten, which isn't used.
            let is_detail = name == "why" && at == 1;
            assert_eq!(found, if is_detail { wanted.clone() } else { Err(Error::NoMemory) }, "{name}, call {at}");
            assert_eq!(method(&store), wanted, "{name}, again after call {at}");
        }
    }
}

#[test]
fn a_close_that_is_refused_memory_is_made_again() {
    let store = scene();
    let session = store.session("/d/f").unwrap();
    session.write_at(0, b"new").unwrap();
    fail(0, NO_MEMORY, false);
    assert_eq!(session.close(), Err(Error::NoMemory));
    assert_eq!(calls_made(), 2);
    fail_none();
    assert_eq!(store.read("/d/f").unwrap()[..4], *b"new\x02");
    let reader = store.reader("/d/f").unwrap();
    store.save("/d/f", b"newer").unwrap();
    store.set_policy("/d/f", &Policy::KeepOne).unwrap();
    assert_eq!(store.why(version("/d/f", 4)), Ok(Fate::Open));
    fail(0, NO_MEMORY, false);
    assert_eq!(reader.close(), Err(Error::NoMemory));
    assert_eq!(calls_made(), 2);
    fail_none();
    assert_ne!(store.why(version("/d/f", 4)), Ok(Fate::Open));
}

#[test]
fn a_pass_that_is_stopped_says_what_it_removed() {
    let store = scene();
    // The first version of each file.
    assert_eq!(store.due().unwrap().len(), 2);
    fail(0, NO_MEMORY, true);
    let pass = store.pass(9);
    fail_none();
    assert_eq!((pass.removed, pass.end), (2, PassEnd::Stopped(Error::NoMemory)));
    assert_eq!(store.due(), Ok(vec![]));
}

#[test]
fn a_line_that_cannot_be_told_was_run_and_is_told_later() {
    let store = scene();
    fail(0, UNTOLD, true);
    assert_eq!(store.line("mkdir /n"), Err(Error::Untold));
    fail_none();
    assert_eq!(store.tell().unwrap(), "ok directory 3\n");
    assert_eq!(store.line("mkdir /n").unwrap(), "no 8 Exists\n");
    fail(0, UNTOLD, false);
    assert_eq!(store.tell(), Err(Error::Untold));
}

#[test]
fn each_code_is_its_error_and_asks_for_a_detail_only_if_it_has_one() {
    let store = scene();
    for code in CODES {
        fail(0, code, false);
        let error = store.tick(1).unwrap_err();
        assert!(!matches!(error, Error::Unexpected(_)), "{code}: {error:?}");
        assert_eq!((error.code(), calls_made()), (code, 1), "{error:?}");
    }
    for (code, error) in [(FORGOTTEN, Error::Forgotten { last: None }), (FULL, Error::Unexpected(FULL))] {
        fail(0, code, false);
        assert_eq!((store.tick(1), calls_made()), (Err(error), 2));
    }
    fail(0, 99, false);
    assert_eq!(store.tick(1), Err(Error::Unexpected(99)));
    fail_none();
    assert_eq!(store.now(), 10);
}

#[test]
fn a_renewal_that_is_refused_leaves_the_store_as_it_was() {
    for code in CODES {
        let mut store = scene();
        let before = (state(&store), store.checkpoint().unwrap());
        fail(0, code, false);
        assert_eq!((store.renew().unwrap_err().code(), calls_made()), (code, 1));
        fail_none();
        assert_eq!((state(&store), store.checkpoint().unwrap()), before, "code {code}");
        assert_eq!(store.renew(), Ok(()));
    }
}

#[test]
fn a_checkpoint_that_cannot_be_opened_or_whose_handles_cannot_be_closed_is_an_error() {
    let store = scene();
    let session = store.session("/d/f").unwrap();
    session.write_at(0, b"draft").unwrap();
    let bytes = store.checkpoint().unwrap();
    fail_none();
    // It opens the store, counts its handles, finds the only one open, and closes it.
    assert_eq!(Store::from_checkpoint(&bytes, false).unwrap().read("/d/f").unwrap()[..6], *b"draft\x02");
    fail_none();
    drop(Store::from_checkpoint(&bytes, false).unwrap());
    assert_eq!(calls_made(), 4);
    for at in [0, 2, 3] {
        fail(at, NO_MEMORY, false);
        assert_eq!(Store::from_checkpoint(&bytes, false).unwrap_err(), Error::NoMemory, "call {at}");
    }
    fail(0, 72, false);
    assert_eq!(Store::from_checkpoint(&bytes, false).unwrap_err(), Error::BadCheckpoint);
    fail_none();
}

#[test]
fn a_store_that_cannot_be_opened_is_an_error() {
    for code in [NO_MEMORY, 66] {
        fail(0, code, false);
        assert_eq!(Store::new().unwrap_err().code(), code);
    }
}
