//! A save: the number that it returns, the file that it makes, and what it leaves if it is refused.

use elephant::{Error, Limit, Limits, Options, Policy, Store, LARGEST_CONTENT};

fn keeping(limits: Limits) -> Store {
    let store = Options::new().limits(limits).open().unwrap();
    store.set_default("/", &Policy::KeepAll).unwrap();
    store
}

fn contents(store: &Store, path: &str) -> Vec<Vec<u8>> {
    store.versions(path).unwrap().iter().map(|it| store.read(elephant::version(path, it.number)).unwrap()).collect()
}

#[test]
fn a_save_makes_the_file() {
    let store = keeping(Limits::default());
    assert_eq!(store.save("/f", b"one"), Ok(2));
    assert_eq!(contents(&store, "/f"), [&b""[..], b"one"]);
    assert_eq!(store.save("/d/f", b"one"), Err(Error::NoEntry));
    assert_eq!(store.save("/f/g", b"one"), Err(Error::NotDirectory));
    assert_eq!(store.save("/", b"one"), Err(Error::IsRoot));
    assert_eq!(store.save("f", b"one"), Err(Error::BadPath));
    assert_eq!(store.save("/a@b", b"one"), Err(Error::BadName));
    assert_eq!(store.list("/").unwrap().len(), 1);
}

#[test]
fn an_unchanged_content_makes_a_version_also_an_empty_one() {
    let store = keeping(Limits::default());
    assert_eq!([store.save("/f", b"x"), store.save("/f", b"x"), store.save("/f", b"")], [Ok(2), Ok(3), Ok(4)]);
    assert_eq!(store.save("/f", b""), Ok(5));
    assert_eq!(contents(&store, "/f"), [&b""[..], b"x", b"x", b"", b""]);
    assert_eq!([store.save("/e", b""), store.save("/e", b"")], [Ok(2), Ok(3)]);
    assert_eq!(contents(&store, "/e"), [b"", b"", b""]);
}

#[test]
fn a_save_takes_no_handle() {
    let store = keeping(Limits { handles: 0, ..Limits::default() });
    assert_eq!([store.save("/f", b"x"), store.save("/f", b"y")], [Ok(2), Ok(3)]);
}

#[test]
fn a_content_that_is_too_big_makes_no_file() {
    let store = keeping(Limits::default());
    assert_eq!(store.save("/f", &vec![1; LARGEST_CONTENT + 1]), Err(Error::TooBig));
    assert_eq!(store.list("/"), Ok(vec![]));
}

#[test]
fn a_save_waits_until_no_session_writes_the_file() {
    let store = keeping(Limits::default());
    store.save("/f", b"one").unwrap();
    store.link("/f", "/g").unwrap();
    store.mkdir("/d").unwrap();
    let session = store.session("/f").unwrap();
    session.write_at(0, b"t").unwrap();
    for path in ["/f", "/g"] {
        assert_eq!(store.save(path, b"other"), Err(Error::Drafting));
        assert_eq!(store.save(path, b""), Err(Error::Drafting));
    }
    assert_eq!((session.contents().unwrap(), store.read("/f").unwrap()), (b"tne".to_vec(), b"one".to_vec()));
    // Directory 1 is another thing than file 1.
    assert_eq!(store.save("/d", b"x"), Err(Error::IsDirectory));
    assert_eq!(store.save("/n", b"x"), Ok(2));
    assert_eq!(session.close(), Ok(Some(3)));
    assert_eq!(store.save("/g", b"other"), Ok(4));
    drop(store.session("/f").unwrap());
    assert_eq!(store.save("/f", b"last"), Ok(5));
}

#[test]
fn a_save_waits_until_a_line_writes_the_file_no_more() {
    let store = keeping(Limits::default());
    store.save("/f", b"one").unwrap();
    assert_eq!(store.line("open write /f").unwrap(), "ok handle 1\n");
    assert_eq!([store.save("/f", b"other"), store.save("/f", b"")], [Err(Error::Drafting), Err(Error::Drafting)]);
    assert_eq!(store.line("close 1").unwrap(), "ok closed\n");
    assert_eq!(contents(&store, "/f"), [&b""[..], b"one"]);
}

#[test]
fn a_session_that_a_line_closed_is_over() {
    let store = keeping(Limits::default());
    store.save("/f", b"one").unwrap();
    let session = store.session("/f").unwrap();
    assert_eq!(store.line("close 1").unwrap(), "ok closed\n");
    assert_eq!(store.save("/f", b"two"), Ok(3));
    assert_eq!(session.close(), Err(Error::NoHandle));
}

#[test]
fn a_new_file_that_finds_no_room_is_not_made() {
    let none = Limits::default;
    for (limits, limit) in [
        (Limits { versions: 1, ..none() }, Limit::Versions),
        (Limits { files: 0, ..none() }, Limit::Files),
        (Limits { names: 0, ..none() }, Limit::Names),
    ] {
        let store = keeping(limits);
        assert_eq!(store.save("/f", b"one"), Err(Error::Full(limit)));
        assert_eq!((store.list("/"), store.restorable()), (Ok(vec![]), Ok(vec![])));
    }
}
