//! A store as bytes and back, and fresh numbers. The bytes are worked out from the form of `ele_checkpoint`.

use elephant::{at, version, Counts, Error, Limits, Node, Options, PassEnd, Policy, Removable, Store};

// The bytes of `small`, by hand.
const SMALL: [&[u8]; 15] = [
    b"ELEPHANT\x01",
    // The moment 300: seven bits a byte, the lowest first.
    b"\xac\x02",
    // One directory: the root, which is 0, with the default KeepOne.
    b"\x01\x00\x00",
    // One file: number 1, KeepOne, the next version is 3.
    b"\x01\x01\x00\x03",
    // One name: in directory 0, f, of file 1, born at 0, not dead.
    b"\x01\x00\x01f\x00\x01\x00\x00",
    // Two versions. Number 1 of file 1, opened and closed at 0, ended at 0, of no cells: none is kept.
    b"\x02\x01\x01\x00\x00\x01\x00\x00\x00",
    // Number 2: not ended, of one cell: none is kept, writer 2, ab, and none is kept.
    b"\x01\x02\x00\x00\x00\x01\x00\x02\x02ab\x00",
    // No drafts, handles, groups.
    b"\x00\x00\x00",
    // Made: files, directories, names, versions, handles, groups, members, marks.
    b"\x01\x00\x01",
    b"\x02\x00\x00\x00\x00",
    // Limits: events, files, directories, names, versions, handles, groups, members, marks.
    b"\x05\x02\x03",
    b"\x04\x06\x07\x08\x09\x0a",
    // The length, and the CRC-32C of all before it.
    b"\x00\x00\x00\x00\x00\x00\x00",
    b"\x4f",
    b"\xfd\x37\x4b\xe5",
];

fn small() -> Store {
    let limits =
        Limits { events: 5, files: 2, directories: 3, names: 4, versions: 6, handles: 7, groups: 8, members: 9, marks: 10 };
    let store = Options::new().limits(limits).open().unwrap();
    store.set_default("/", &Policy::KeepOne).unwrap();
    store.save("/f", b"ab").unwrap();
    store.clock(300).unwrap();
    store
}

/// A store of which files 1 and 4, and the first versions of file 2 are gone.
fn aged() -> Store {
    let store = Store::new().unwrap();
    store.set_default("/", &Policy::KeepOne).unwrap();
    store.save("/was", b"was").unwrap();
    store.mkdir("/left").unwrap();
    store.mkdir("/d").unwrap();
    store.save("/d/f", b"one").unwrap();
    store.save("/k", b"kept").unwrap();
    store.set_policy("/k", &Policy::KeepAll).unwrap();
    store.save("/gone", b"gone").unwrap();
    store.clock(10).unwrap();
    store.unlink("/was").unwrap();
    store.unlink("/gone").unwrap();
    store.rmdir("/left").unwrap();
    store.save("/d/f", b"two").unwrap();
    store.group_make("g").unwrap();
    store.group_add("g", "/k").unwrap();
    store.group_add("g", "/d/f").unwrap();
    store.clock(20).unwrap();
    store.mark("g", 15, None).unwrap();
    store.save("/d/f", b"three").unwrap();
    // Version 3 of file 2 is marked.
    let pass = store.pass(u64::MAX);
    assert_eq!((pass.removed, pass.end), (6, PassEnd::Finished));
    store
}

/// What a store has, as the answers to questions.
fn told(store: &Store) -> Vec<String> {
    let mut found = vec![store.now().to_string(), format!("{:?}", store.counts())];
    for line in ["restorable", "due", "usage", "groups", "stat /", "list /@5", "list /d@12"] {
        found.push(store.line(line).unwrap());
    }
    for entry in store.walk("/").unwrap() {
        found.push(format!("{entry:?} {:?}", store.stat(&*entry.path).unwrap()));
        if let Node::File(_) = entry.node {
            for row in store.versions(&*entry.path).unwrap() {
                let target = version(&entry.path, row.number);
                found.push(format!("{row:?} {:?} {:?}", store.read(target), store.why(target)));
            }
        }
    }
    found
}

#[test]
fn the_bytes_are_those_of_the_form() {
    let bytes = SMALL.concat();
    assert_eq!(small().checkpoint().unwrap(), bytes);
    let store = Store::from_checkpoint(&bytes, false).unwrap();
    assert_eq!((store.now(), store.read("/f").unwrap()), (300, b"ab".to_vec()));
    assert_eq!((store.pass(9).removed, store.save("/f", b"c"), store.save("/g", b"d")), (1, Ok(3), Ok(2)));
    assert_eq!(store.create("/h"), Err(Error::Full(elephant::Limit::Files)));
}

#[test]
fn a_store_that_is_put_back_is_the_same_and_goes_on_alike() {
    for history in [false, true] {
        let store = aged();
        let bytes = store.checkpoint().unwrap();
        let again = Store::from_checkpoint(&bytes, history).unwrap();
        let lines =
            ["save /n 6e", "unmark g 15", "clean", "tick 5", "undelete /left", "open write /k", "write 1 0 61", "close 1"];
        for line in lines {
            assert_eq!(again.line(line), store.line(line), "{line}");
        }
        let (mut found, mut wanted) = (told(&again), told(&store));
        // A history counts its events.
        assert_eq!(found.remove(1) == wanted.remove(1), !history);
        assert_eq!((found, again.checkpoint()), (wanted, store.checkpoint()));
    }
}

#[test]
fn a_history_begins_with_the_checkpoint() {
    let store = Store::from_checkpoint(&SMALL.concat(), true).unwrap();
    let history = store.history().unwrap();
    assert_eq!((history.folded, history.lines), (1, vec![]));
    store.save("/f", b"c").unwrap();
    assert_eq!(store.history().unwrap().lines, ["save /f 63"]);
    assert_eq!(Store::from_checkpoint(&SMALL.concat(), false).unwrap().history(), Err(Error::NoHistory));
}

#[test]
fn what_was_open_is_closed() {
    for history in [false, true] {
        let store = aged();
        let session = store.session("/d/f").unwrap();
        session.write_at(0, b"draft").unwrap();
        let other = store.session("/k").unwrap();
        let reader = store.reader(version("/k", 1)).unwrap();
        let bytes = store.checkpoint().unwrap();
        let mut again = Store::from_checkpoint(&bytes, history).unwrap();
        assert_eq!((again.read("/d/f").unwrap(), again.read("/k").unwrap()), (b"draft".to_vec(), b"kept".to_vec()));
        assert_eq!((again.save("/d/f", b"saved"), again.save("/k", b"saved")), (Ok(6), Ok(3)));
        assert_eq!(again.session("/k").unwrap().handle(), 4);
        assert_eq!(again.renew(), Ok(()));
        // The store that the bytes are of is as it was.
        assert_eq!((store.checkpoint().unwrap(), session.handle(), other.handle()), (bytes, 1, 2));
        assert_eq!((session.close(), reader.close()), (Ok(Some(5)), Ok(())));
    }
}

#[test]
fn each_number_is_its_place_among_what_is_held() {
    let mut store = aged();
    let files: Vec<Option<u64>> = (0..6).map(|it| store.file_across(it).unwrap()).collect();
    assert_eq!(files, [None, None, Some(1), Some(2), None, None]);
    let versions: Vec<Option<u64>> = (0..6).map(|it| store.version_across(2, it).unwrap()).collect();
    assert_eq!(versions, [None, None, None, Some(1), Some(2), None]);
    let directories: Vec<Option<u64>> = (0..4).map(|it| store.directory_across(it).unwrap()).collect();
    assert_eq!(directories, [Some(0), Some(1), Some(2), None]);
    store.renew().unwrap();
    let paths: Vec<(String, Node)> = store.walk("/").unwrap().into_iter().map(|it| (it.path, it.node)).collect();
    let wanted = [("/d", Node::Directory(2)), ("/d/f", Node::File(1)), ("/k", Node::File(2))];
    assert_eq!(paths, wanted.map(|(path, node)| (path.to_owned(), node)));
    assert_eq!(
        (store.read(at("/d/f", 15)).unwrap(), store.read(version("/d/f", 2)).unwrap()),
        (b"two".to_vec(), b"three".to_vec())
    );
    let made = Counts { events: 0, files: 2, directories: 2, names: 4, versions: 4, handles: 0, groups: 1, members: 2, marks: 1 };
    assert_eq!((store.counts(), store.groups().unwrap()[0].members.clone()), (made, vec![2, 1]));
    store.unmark("g", 15).unwrap();
    assert_eq!(store.due(), Ok(vec![Removable { since: 20, file: 1, number: 1 }]));
    assert_eq!((store.save("/d/f", b"four"), store.create("/n"), store.mkdir("/e")), (Ok(3), Ok(3), Ok(3)));
}

#[test]
fn a_store_that_is_full_goes_on() {
    let mut store = Options::new().limits(Limits { versions: 20, ..Limits::default() }).open().unwrap();
    store.set_default("/", &Policy::KeepOne).unwrap();
    let mut saved: u32 = 0;
    for _ in 0..30 {
        while store.save("/f", &saved.to_be_bytes()).is_ok() {
            saved += 1;
        }
        assert_eq!(store.pass(u64::MAX).end, PassEnd::Finished);
        store.renew().unwrap();
    }
    // 19 saves of a new file, whose version 1 is empty, and then 19 each time.
    assert_eq!((saved, store.counts().versions, store.read("/f").unwrap()), (30 * 19, 1, (saved - 1).to_be_bytes().to_vec()));
}

#[test]
fn what_lines_have_opened_is_refused() {
    let mut store = aged();
    assert_eq!(store.line("open read /k").unwrap(), "ok handle 1\n");
    let before = store.checkpoint().unwrap();
    assert_eq!(store.renew(), Err(Error::HandlesOpen));
    assert_eq!(store.checkpoint().unwrap(), before);
    store.line("close 1").unwrap();
    assert_eq!(store.renew(), Ok(()));
}

#[test]
fn a_renewed_history_begins_anew() {
    let mut store = Options::new().history(true).open().unwrap();
    store.save("/f", b"one").unwrap();
    store.renew().unwrap();
    let history = store.history().unwrap();
    assert_eq!((history.folded, history.lines), (1, vec![]));
    let mut store = Options::new().limits(Limits { events: 0, ..Limits::default() }).open().unwrap();
    assert_eq!(store.renew(), Ok(()));
    assert_eq!(Store::from_checkpoint(&store.checkpoint().unwrap(), true).unwrap_err(), Error::HistoryFull);
}

#[test]
fn wrong_bytes_are_refused() {
    let bytes = SMALL.concat();
    for end in 0..bytes.len() {
        assert_eq!(Store::from_checkpoint(&bytes[..end], false).unwrap_err(), Error::BadCheckpoint, "cut at {end}");
    }
    for bit in 0..8 * bytes.len() {
        let mut flipped = bytes.clone();
        flipped[bit / 8] ^= 1 << (bit % 8);
        assert_eq!(Store::from_checkpoint(&flipped, false).unwrap_err(), Error::BadCheckpoint, "bit {bit}");
    }
    for other in [&b"a text\n"[..], &[0; 1000], &[255; 1000], &[&bytes[..], b"\0"].concat(), &bytes.repeat(2)] {
        assert_eq!(Store::from_checkpoint(other, true).unwrap_err(), Error::BadCheckpoint);
    }
}
