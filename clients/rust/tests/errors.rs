//! Every error: its number, its text and its kind. `tools/library/rust_client` compares the table with the header.

use elephant::{Error, Limit};
use std::collections::BTreeSet;
use std::io::{self, ErrorKind};

// The errors that are nothing but their number, with the number that include/elephant.h gives it, and its kind.
const BARE: [(Error, i32, ErrorKind); 39] = [
    (Error::NoMemory, 1, ErrorKind::OutOfMemory),
    (Error::HistoryFull, 2, ErrorKind::Other),
    (Error::ClockBack, 3, ErrorKind::Other),
    (Error::ClockEnd, 4, ErrorKind::Other),
    (Error::NoEntry, 5, ErrorKind::NotFound),
    (Error::NotDirectory, 6, ErrorKind::Other),
    (Error::IsDirectory, 7, ErrorKind::Other),
    (Error::Exists, 8, ErrorKind::AlreadyExists),
    (Error::NotEmpty, 9, ErrorKind::Other),
    (Error::IntoItself, 10, ErrorKind::Other),
    (Error::IsRoot, 11, ErrorKind::Other),
    (Error::Future, 12, ErrorKind::Other),
    (Error::NoVersion, 14, ErrorKind::NotFound),
    (Error::NoHandle, 15, ErrorKind::Other),
    (Error::NotWriter, 16, ErrorKind::Other),
    (Error::TooBig, 17, ErrorKind::InvalidInput),
    (Error::Drafting, 18, ErrorKind::Other),
    (Error::NotRestorable, 19, ErrorKind::Other),
    (Error::NoGroup, 20, ErrorKind::Other),
    (Error::GroupExists, 21, ErrorKind::Other),
    (Error::NoMark, 22, ErrorKind::Other),
    (Error::MarkExists, 23, ErrorKind::Other),
    (Error::NotPast, 24, ErrorKind::Other),
    (Error::AlreadyMember, 25, ErrorKind::Other),
    (Error::NotMember, 26, ErrorKind::Other),
    (Error::BadName, 28, ErrorKind::InvalidInput),
    (Error::BadPath, 29, ErrorKind::InvalidInput),
    (Error::BadMoment, 30, ErrorKind::InvalidInput),
    (Error::BadLadder, 31, ErrorKind::Other),
    (Error::Syntax, 32, ErrorKind::Other),
    (Error::NotAhead, 41, ErrorKind::Other),
    (Error::BadLimits, 66, ErrorKind::Other),
    (Error::NoHistory, 67, ErrorKind::Other),
    (Error::Untold, 71, ErrorKind::Other),
    (Error::BadCheckpoint, 72, ErrorKind::InvalidInput),
    (Error::HandlesOpen, 73, ErrorKind::Other),
    (Error::NoJournal, 74, ErrorKind::Other),
    (Error::HasJournal, 75, ErrorKind::Other),
    (Error::BadJournal, 76, ErrorKind::InvalidInput),
];
const LIMITS: [(Limit, &str); 8] = [
    (Limit::Files, "files"),
    (Limit::Directories, "directories"),
    (Limit::Names, "names"),
    (Limit::Versions, "versions"),
    (Limit::Handles, "handles"),
    (Limit::Groups, "groups"),
    (Limit::Members, "members"),
    (Limit::Marks, "marks"),
];

fn kind_of(error: Error) -> ErrorKind {
    let wrapped = io::Error::from(error);
    assert_eq!(wrapped.get_ref().and_then(|it| it.downcast_ref::<Error>()), Some(&error));
    assert_eq!(wrapped.to_string(), error.to_string());
    wrapped.kind()
}

#[test]
fn each_error_has_its_number_and_its_kind() {
    for (error, code, kind) in BARE {
        assert_eq!((error.code(), kind_of(error)), (code, kind), "{error:?}");
    }
    for last in [None, Some(2)] {
        let error = Error::Forgotten { last };
        assert_eq!((error.code(), kind_of(error)), (13, ErrorKind::NotFound));
    }
    for (limit, name) in LIMITS {
        let error = Error::Full(limit);
        assert_eq!((error.code(), kind_of(error)), (27, ErrorKind::Other), "{limit}");
        assert_eq!(error.to_string(), format!("a limit is reached, for good: {name}"));
    }
    assert_eq!((Error::Unexpected(99).code(), kind_of(Error::Unexpected(99))), (99, ErrorKind::Other));
}

#[test]
fn no_two_errors_have_one_text() {
    let texts: BTreeSet<String> = BARE.iter().map(|(error, ..)| error.to_string()).collect();
    assert_eq!(texts.len(), BARE.len());
    let details = [
        (Error::Forgotten { last: Some(2) }, "the version was removed; before it version 2 is held"),
        (Error::Forgotten { last: None }, "the version was removed, and none before it is held"),
        (Error::Unexpected(99), "the library answered the unexpected code 99"),
    ];
    for (error, text) in details {
        assert_eq!(error.to_string(), text);
    }
}
