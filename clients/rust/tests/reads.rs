//! Reads of each length near those at which other calls make them, in stores with and without a history.

use elephant::{at, version, Error, Options, Policy, Store};

const LENGTHS: [usize; 9] = [0, 1, 100, 4_095, 4_096, 4_097, 12_293, 1_048_575, 1_048_576];

fn stores() -> [Store; 2] {
    [Store::new().unwrap(), Options::new().history(true).open().unwrap()]
}

/// Bytes of which no two slots of 512 are alike.
fn content(length: usize) -> Vec<u8> {
    (0..).flat_map(|it: u32| it.to_le_bytes()).take(length).collect()
}

#[test]
fn each_length_is_read_by_each_call() {
    for store in stores() {
        store.set_default("/", &Policy::KeepAll).unwrap();
        for (made, length) in (0..).zip(LENGTHS) {
            let wanted = content(length);
            store.save("/f", &wanted).unwrap();
            store.tick(10).unwrap();
            let (mut reader, session) = (store.reader("/f").unwrap(), store.session("/f").unwrap());
            let found = [
                store.read("/f").unwrap(),
                store.read(at("/f", 10 * made + 9)).unwrap(),
                store.read(version("/f", made + 2)).unwrap(),
                reader.contents().unwrap().to_vec(),
                session.contents().unwrap(),
            ];
            for (way, bytes) in found.iter().enumerate() {
                assert!(*bytes == wanted, "{length} bytes, way {way}");
            }
        }
    }
}

#[test]
fn a_removed_version_says_which_one_is_held_before_it() {
    for store in stores() {
        store.set_default("/", &Policy::KeepOne).unwrap();
        for bytes in [b"two", b"six", b"ten"] {
            store.save("/f", bytes).unwrap();
        }
        let reader = store.reader(version("/f", 2)).unwrap();
        assert_eq!(store.pass(9).removed, 2);
        // The last call before has no detail.
        assert_eq!(store.read("/none"), Err(Error::NoEntry));
        assert_eq!(store.read(version("/f", 1)), Err(Error::Forgotten { last: None }));
        assert_eq!(store.read(version("/f", 3)), Err(Error::Forgotten { last: Some(2) }));
        reader.close().unwrap();
    }
}

#[test]
fn a_read_is_an_event_only_for_a_history() {
    let [plain, kept] = stores();
    for store in [&plain, &kept] {
        store.save("/f", b"one").unwrap();
        store.tick(5).unwrap();
        assert_eq!(store.read("/f").unwrap(), b"one");
    }
    assert_eq!(plain.tell().unwrap(), "ok now 5 1970-01-01T00:00:05Z\n");
    assert_eq!(kept.tell(), kept.line("read /f"));
    assert_eq!(kept.history().unwrap().lines, ["save /f 6f6e65", "tick 5", "read /f", "read /f"]);
}
