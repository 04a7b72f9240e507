//! Names: the directories above a path, walks, the paths of a file, and which of two paths a refusal is about.

use elephant::{at, version, Error, Limit, Limits, Node, Options, PathEntry, PathError, Policy, Store};
use std::io;

type Move = fn(&Store, &str, &str) -> Result<(), PathError>;

/// The paths below a directory, each with a slash after it if it is a directory's.
fn paths(entries: &[PathEntry]) -> Vec<String> {
    entries.iter().map(|it| format!("{}{}", it.path, if matches!(it.node, Node::Directory(_)) { "/" } else { "" })).collect()
}

#[test]
fn the_directories_above_a_path_are_made() {
    let store = Store::new().unwrap();
    assert_eq!(store.make_parents("/a/b/c/f"), Ok(3));
    assert_eq!(paths(&store.walk("/").unwrap()), ["/a/", "/a/b/", "/a/b/c/"]);
    assert_eq!(store.make_parents("/a/b/c/f"), Ok(0));
    assert_eq!(store.make_parents("/a/b/x/f"), Ok(1));
    assert_eq!(store.make_parents("/f"), Ok(0));
    assert_eq!(store.make_parents("/"), Ok(0));
    assert_eq!(store.make_parents("/a/b"), Ok(0));
    assert_eq!(store.save("/a/b/c/f", b"x"), Ok(2));
}

#[test]
fn nothing_is_made_above_a_path_that_cannot_be() {
    let store = Store::new().unwrap();
    store.create("/f").unwrap();
    let too_deep = "/n".repeat(33);
    for (path, error) in [
        ("/n/f@1", Error::BadName),
        ("/n/../f", Error::BadName),
        ("/n//f", Error::BadPath),
        ("n/f", Error::BadPath),
        (&too_deep, Error::BadPath),
        ("/f/n/g", Error::NotDirectory),
    ] {
        let refused = store.make_parents(path);
        assert!(refused == Err(error) || matches!(refused, Err(Error::BadName | Error::BadPath)), "{path}: {refused:?}");
        assert_eq!(paths(&store.walk("/").unwrap()), ["/f"], "{path}");
    }
    assert_eq!(store.make_parents("/f/n/g"), Err(Error::NotDirectory));
}

#[test]
fn directories_that_were_made_before_a_refusal_stay() {
    let store = Options::new().limits(Limits { directories: 2, ..Limits::default() }).open().unwrap();
    assert_eq!(store.make_parents("/a/b/c/f"), Err(Error::Full(Limit::Directories)));
    assert_eq!(paths(&store.walk("/").unwrap()), ["/a/", "/a/b/"]);
}

/// `/a` with `/a/z` and the empty `/a/y`, `/b` that is `/a/z` too, and `/a-`, whose bytes are between those of `/a` and `/a/z`.
fn tree() -> Store {
    let store = Store::new().unwrap();
    store.mkdir("/a").unwrap();
    store.mkdir("/a/y").unwrap();
    assert_eq!(store.create("/a/z"), Ok(1));
    store.link("/a/z", "/b").unwrap();
    assert_eq!(store.create("/a-"), Ok(2));
    store
}

#[test]
fn a_walk_gives_each_directory_before_what_is_in_it() {
    let store = tree();
    assert_eq!(paths(&store.walk("/").unwrap()), ["/a/", "/a/y/", "/a/z", "/a-", "/b"]);
    assert_eq!(paths(&store.walk("/a").unwrap()), ["/a/y/", "/a/z"]);
    assert_eq!(store.walk("/a/y"), Ok(vec![]));
    assert_eq!(store.walk("/a").unwrap()[1], PathEntry { path: "/a/z".to_string(), node: Node::File(1) });
    assert_eq!(store.walk("/b"), Err(Error::NotDirectory));
    assert_eq!(store.walk("/c"), Err(Error::NoEntry));
    assert_eq!(store.walk(at("/", 1)), Err(Error::Future));
    assert_eq!(store.walk(version("/", 1)), Err(Error::Syntax));
}

#[test]
fn a_walk_of_a_moment_has_the_names_of_then() {
    let store = tree();
    store.tick(5).unwrap();
    store.rename("/a", "/c").unwrap();
    store.unlink("/b").unwrap();
    assert_eq!(paths(&store.walk(at("/", 4)).unwrap()), ["/a/", "/a/y/", "/a/z", "/a-", "/b"]);
    assert_eq!(paths(&store.walk(at("/a", 4)).unwrap()), ["/a/y/", "/a/z"]);
    assert_eq!(paths(&store.walk("/").unwrap()), ["/a-", "/c/", "/c/y/", "/c/z"]);
}

#[test]
fn a_file_has_the_paths_that_lead_to_it() {
    let store = tree();
    assert_eq!(store.paths_of(1).unwrap(), ["/a/z", "/b"]);
    assert_eq!(store.path_of(1).unwrap().as_deref(), Some("/a/z"));
    // A directory's number is no file's.
    store.mkdir("/d").unwrap();
    assert_eq!((store.paths_of(3), store.path_of(3)), (Ok(vec![]), Ok(None)));
    store.unlink("/a-").unwrap();
    assert_eq!((store.paths_of(2), store.path_of(2)), (Ok(vec![]), Ok(None)));
}

#[test]
fn a_name_that_no_path_reaches_is_left_out() {
    let store = Store::new().unwrap();
    let deep = "/d".repeat(31);
    store.make_parents(&format!("{deep}/x")).unwrap();
    store.mkdir("/m").unwrap();
    store.mkdir("/m/n").unwrap();
    store.create("/m/f").unwrap();
    store.create("/m/n/g").unwrap();
    // It has 32 names, those in it 33.
    store.rename("/m", &format!("{deep}/m")).unwrap();
    let found = store.walk("/").unwrap();
    assert_eq!(found.len(), 32);
    assert_eq!(found[31].path, format!("{deep}/m"));
    assert_eq!((store.path_of(1), store.path_of(2)), (Ok(None), Ok(None)));
}

#[test]
fn a_refusal_of_two_paths_has_the_one_that_it_is_about() {
    let store = Store::new().unwrap();
    store.mkdir("/d").unwrap();
    store.create("/d/f").unwrap();
    store.create("/f").unwrap();
    let (link, rename): (Move, Move) = (|it, from, to| it.link(from, to), |it, from, to| it.rename(from, to));
    let rows: [(Move, &str, &str, Error, &str); 22] = [
        (link, "/n", "/m", Error::NoEntry, "/n"),
        (link, "/f", "/n/m", Error::NoEntry, "/n/m"),
        (link, "/n", "/n/m", Error::NoEntry, "/n"),
        (link, "/f/g", "/m", Error::NotDirectory, "/f/g"),
        (link, "/f", "/d/f/g", Error::NotDirectory, "/d/f/g"),
        (link, "/d", "/m", Error::IsDirectory, "/d"),
        (link, "/", "/m", Error::IsDirectory, "/"),
        (link, "/f", "/", Error::IsRoot, "/"),
        (link, "/f", "/d/f", Error::Exists, "/d/f"),
        (link, "f", "/m", Error::BadPath, "f"),
        (link, "/f", "m", Error::BadPath, "m"),
        (rename, "/", "/m", Error::IsRoot, "/"),
        (rename, "/f", "/", Error::IsRoot, "/"),
        (rename, "/n", "/f", Error::NoEntry, "/n"),
        (rename, "/f", "/n/m", Error::NoEntry, "/n/m"),
        (rename, "/f/g", "/m", Error::NotDirectory, "/f/g"),
        (rename, "/f", "/d/f/g", Error::NotDirectory, "/d/f/g"),
        (rename, "/d", "/d/e", Error::IntoItself, "/d/e"),
        (rename, "/f", "/d/f", Error::Exists, "/d/f"),
        (rename, "/d", "/f", Error::Exists, "/f"),
        (rename, "/a@b", "/m", Error::BadName, "/a@b"),
        (rename, "/f", "/a@b", Error::BadName, "/a@b"),
    ];
    for (call, from, to, error, path) in rows {
        let refused = call(&store, from, to).unwrap_err();
        assert_eq!((refused.error, refused.path.as_deref()), (error, Some(path)), "{from} {to}");
        assert_eq!(refused.to_string(), format!("{path}: {error}"));
        assert_eq!(Error::from(refused), error);
    }
}

#[test]
fn a_refusal_for_a_limit_is_about_no_path() {
    let store = Options::new().limits(Limits { names: 1, ..Limits::default() }).open().unwrap();
    store.create("/f").unwrap();
    let refused = store.link("/f", "/g").unwrap_err();
    assert_eq!((refused.error, refused.path.as_deref()), (Error::Full(Limit::Names), None));
    assert_eq!(refused.to_string(), refused.error.to_string());
    let wrapped = io::Error::from(store.rename("/n", "/g").unwrap_err());
    assert_eq!((wrapped.kind(), wrapped.to_string()), (io::ErrorKind::NotFound, format!("/n: {}", Error::NoEntry)));
}

#[test]
fn asking_which_path_it_is_is_no_event() {
    let store = Options::new().history(true).open().unwrap();
    store.set_default("/", &Policy::KeepAll).unwrap();
    store.rename("/n", "/m").unwrap_err();
    assert_eq!(store.make_parents("/d/f"), Ok(1));
    assert_eq!(store.history().unwrap().lines, ["default / all", "rename /n /m", "mkdir /d"]);
    store.rename("/n", "/m").unwrap_err();
    assert_eq!(store.tell().unwrap(), "no 5 NoEntry\n");
}
