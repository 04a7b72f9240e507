//! A store in a file: what is committed is there, and nothing else is. `tools/library/c_file` attacks the code of C below it.
#![cfg(feature = "file")]

use elephant::{version, Error, FileError, FileOptions, FileStore, FileSync, Limits, PassEnd, Policy};
use std::env;
use std::fs;
use std::io::{BufRead, BufReader, Read, Write};
use std::mem;
use std::path::{Path, PathBuf};
use std::process::{Command, Stdio};
use std::time::Duration;

// ENOENT, EINVAL and EFBIG.
const NO_FILE: i32 = 2;
const INVALID: i32 = 22;
const TOO_LONG: i32 = 27;

// A test that runs itself again, in a process that may be killed, gives it the path of the file by this.
const PATH: &str = "ELEPHANT_FILE_OF_TEST";

// A folder of the test's own, which goes with it.
struct Folder(PathBuf);

impl Folder {
    fn new(test: &str) -> Folder {
        let path = env::temp_dir().join(format!("elephant-{test}-{}", std::process::id()));
        fs::create_dir_all(&path).unwrap();
        Folder(path)
    }

    fn journal(&self) -> PathBuf {
        self.0.join("store.journal")
    }
}

impl Drop for Folder {
    fn drop(&mut self) {
        fs::remove_dir_all(&self.0).unwrap();
    }
}

// Makes a content the only one that the store holds of its file, and commits that.
fn keep_one(store: &FileStore, content: &[u8]) {
    store.set_default("/", &Policy::KeepOne).unwrap();
    store.save("/f", content).unwrap();
    store.tick(1).unwrap();
    assert_eq!(store.pass(u64::MAX).end, PassEnd::Finished);
    store.commit().unwrap();
}

#[test]
fn what_is_committed_is_there_again() {
    let folder = Folder::new("committed");
    let store = FileStore::open(folder.journal()).unwrap();
    assert!(store.info().is_new);
    store.save("/f", b"one").unwrap();
    store.commit().unwrap();
    store.save("/f", b"two").unwrap();
    drop(store);
    let store = FileStore::open(folder.journal()).unwrap();
    assert!(!store.info().is_new);
    assert_eq!(store.read("/f").unwrap(), b"one");
    assert_eq!(store.info().length, fs::metadata(folder.journal()).unwrap().len());
}

#[test]
fn a_commit_of_nothing_writes_nothing() {
    let folder = Folder::new("nothing");
    let store = FileStore::open(folder.journal()).unwrap();
    let before = store.info();
    assert_eq!(store.unlink("/no"), Err(Error::NoEntry));
    store.commit().unwrap();
    assert_eq!(store.info(), before);
}

#[test]
fn one_opener_has_the_file_and_others_look() {
    let folder = Folder::new("openers");
    let store = FileStore::open(folder.journal()).unwrap();
    store.save("/f", b"one").unwrap();
    store.commit().unwrap();
    assert_eq!(FileStore::open(folder.journal()).unwrap_err(), FileError::Locked);
    let looking = FileOptions { read_only: true, ..FileOptions::default() }.open(folder.journal()).unwrap();
    assert_eq!(looking.read("/f").unwrap(), b"one");
    assert_eq!(looking.commit(), Err(FileError::ReadOnly));
    drop(store);
    FileStore::open(folder.journal()).unwrap();
}

#[test]
fn a_rollback_goes_back_to_the_last_commit() {
    let folder = Folder::new("rollback");
    let mut store = FileStore::open(folder.journal()).unwrap();
    store.save("/f", b"one").unwrap();
    store.commit().unwrap();
    store.save("/f", b"two").unwrap();
    store.rollback().unwrap();
    assert_eq!(store.read("/f").unwrap(), b"one");
    assert_eq!(store.save("/f", b"three").unwrap(), 3);
    store.commit().unwrap();
    drop(store);
    assert_eq!(FileStore::open(folder.journal()).unwrap().read("/f").unwrap(), b"three");
}

#[test]
fn a_session_may_be_open_at_a_commit() {
    let folder = Folder::new("session");
    let store = FileStore::open(folder.journal()).unwrap();
    store.create("/f").unwrap();
    let mut session = store.session("/f").unwrap();
    session.write_all(b"one").unwrap();
    store.commit().unwrap();
    session.write_all(b" more").unwrap();
    assert_eq!(session.close().unwrap(), Some(2));
    store.commit().unwrap();
    drop(store);
    assert_eq!(FileStore::open(folder.journal()).unwrap().read("/f").unwrap(), b"one more");
}

// A session that is never dropped stays open in the file.
#[test]
fn what_was_open_at_the_last_commit_is_closed() {
    let folder = Folder::new("left-open");
    let store = FileStore::open(folder.journal()).unwrap();
    store.create("/f").unwrap();
    let session = store.session("/f").unwrap();
    session.write_at(0, b"one").unwrap();
    store.commit().unwrap();
    mem::forget(session);
    drop(store);
    let looking = FileOptions { read_only: true, ..FileOptions::default() }.open(folder.journal()).unwrap();
    assert_eq!((looking.read("/f"), looking.versions("/f").unwrap().len()), (Ok(vec![]), 1));
    drop(looking);
    let store = FileStore::open(folder.journal()).unwrap();
    assert_eq!(store.read("/f").unwrap(), b"one");
    assert_eq!(store.save("/f", b"two"), Ok(3));
}

#[test]
fn a_rollback_closes_what_was_open_at_the_last_commit() {
    let folder = Folder::new("rolled-back");
    let mut store = FileStore::open(folder.journal()).unwrap();
    store.create("/f").unwrap();
    let session = store.session("/f").unwrap();
    session.write_at(0, b"one").unwrap();
    store.commit().unwrap();
    assert_eq!(session.close(), Ok(Some(2)));
    store.save("/f", b"two").unwrap();
    store.rollback().unwrap();
    assert_eq!((store.read("/f"), store.save("/f", b"three")), (Ok(b"one".to_vec()), Ok(3)));
}

#[test]
fn a_second_opener_waits() {
    let folder = Folder::new("waits");
    let store = FileStore::open(folder.journal()).unwrap();
    keep_one(&store, b"one");
    let path = folder.journal();
    let waiting = std::thread::spawn(move || {
        let options = FileOptions { wait: Duration::from_secs(60), ..FileOptions::default() };
        options.open(path).unwrap().read("/f")
    });
    std::thread::sleep(Duration::from_millis(100));
    keep_one(&store, b"two");
    drop(store);
    assert_eq!(waiting.join().unwrap(), Ok(b"two".to_vec()));
}

#[test]
fn a_long_file_is_compacted_by_itself_or_by_a_call() {
    let folder = Folder::new("compacted");
    let options = FileOptions { no_compaction: true, ..FileOptions::default() };
    let store = options.open(folder.journal()).unwrap();
    (1..=12).for_each(|it| keep_one(&store, &vec![it; 100_000]));
    assert!(store.info().length > 1_200_000 && store.info().compactions == 0);
    store.tidy().unwrap();
    assert!(store.info().length < 200_000 && store.info().compactions == 1);
    drop(store);
    let store = FileStore::open(folder.journal()).unwrap();
    // With the one that is held, ten are longer than 1 MiB.
    (1..=12).for_each(|it| keep_one(&store, &vec![it; 100_000]));
    assert!(store.info().length < 400_000 && store.info().compactions == 1 && store.info().tidied.is_ok());
    assert_eq!(store.read("/f").unwrap(), vec![12; 100_000]);
}

#[test]
fn a_store_near_its_limits_gets_fresh_numbers_by_itself() {
    let folder = Folder::new("goes-on");
    let limits = Limits { versions: 20, ..Limits::default() };
    let options = FileOptions { limits, no_renewal: true, ..FileOptions::default() };
    let store = options.open(folder.journal()).unwrap();
    (1..=17).for_each(|it| keep_one(&store, &[it]));
    assert_eq!((store.counts().versions, store.info().renewals), (18, 0));
    drop(store);
    // The limits are those of the file.
    let store = FileStore::open(folder.journal()).unwrap();
    assert_eq!((store.counts().versions, store.info().renewals), (1, 1));
    // Each 17 more make 18.
    (1..=34).for_each(|it| keep_one(&store, &[it]));
    assert_eq!((store.counts().versions, store.info().renewals), (1, 3));
    assert_eq!(store.read("/f").unwrap(), [34]);
    let session = store.session("/f").unwrap();
    (1..=17).for_each(|it| {
        store.save("/g", &[it]).unwrap();
        store.commit().unwrap();
    });
    assert_eq!(store.info().tidied, Err(FileError::Store(Error::HandlesOpen)));
    session.abandon().unwrap();
}

#[test]
fn a_new_file_and_fresh_numbers_keep_the_store() {
    let folder = Folder::new("renewed");
    let mut store = FileStore::open(folder.journal()).unwrap();
    store.mkdir("/no").unwrap();
    store.rmdir("/no").unwrap();
    assert_eq!(store.mkdir("/d").unwrap(), 2);
    store.save("/d/f", b"one").unwrap();
    store.compact().unwrap();
    assert_eq!((store.info().compactions, store.info().renewals), (1, 0));
    store.renew().unwrap();
    assert_eq!((store.info().compactions, store.info().renewals), (1, 1));
    assert_eq!(store.read("/d/f").unwrap(), b"one");
    store.save("/d/f", b"two").unwrap();
    store.commit().unwrap();
    drop(store);
    let store = FileStore::open(folder.journal()).unwrap();
    assert_eq!((store.read(version("/d/f", 2)).unwrap(), store.read("/d/f").unwrap()), (b"one".to_vec(), b"two".to_vec()));
}

#[test]
fn an_open_handle_keeps_the_numbers() {
    let folder = Folder::new("handle");
    let mut store = FileStore::open(folder.journal()).unwrap();
    store.create("/f").unwrap();
    store.line("open write /f").unwrap();
    assert_eq!(store.renew(), Err(FileError::Store(Error::HandlesOpen)));
    assert_eq!(store.info().renewals, 0);
}

#[test]
fn a_damaged_change_is_found_and_set_aside() {
    let folder = Folder::new("damaged");
    let store = FileStore::open(folder.journal()).unwrap();
    store.save("/f", b"one").unwrap();
    store.commit().unwrap();
    let whole = store.info().length;
    store.save("/f", b"two").unwrap();
    store.commit().unwrap();
    store.save("/f", b"three").unwrap();
    store.commit().unwrap();
    drop(store);
    let mut bytes = fs::read(folder.journal()).unwrap();
    bytes[usize::try_from(whole).unwrap() + 20] ^= 1;
    fs::write(folder.journal(), bytes).unwrap();
    assert_eq!(FileStore::open(folder.journal()).unwrap_err(), FileError::Damaged { place: whole });
    let store = FileOptions { repair: true, ..FileOptions::default() }.open(folder.journal()).unwrap();
    assert_eq!((store.info().copy, store.info().length), (Some(1), whole));
    assert_eq!(store.read("/f").unwrap(), b"one");
    assert!(folder.0.join("store.journal.damaged-1").is_file());
}

#[test]
fn other_bytes_and_paths_are_no_store() {
    let folder = Folder::new("none");
    fs::write(folder.journal(), b"twenty bytes of text").unwrap();
    assert_eq!(FileStore::open(folder.journal()).unwrap_err(), FileError::Store(Error::BadJournal));
    let missing = FileStore::open(folder.0.join("no/store.journal")).unwrap_err();
    assert_eq!(missing, FileError::System { call: "open", errno: NO_FILE });
    assert_eq!(std::io::Error::from(missing).kind(), std::io::ErrorKind::NotFound);
    let cut = FileStore::open("a\0b").unwrap_err();
    assert_eq!(cut, FileError::System { call: "open", errno: INVALID });
}

#[test]
fn a_file_that_was_taken_away_takes_no_change() {
    let folder = Folder::new("lost");
    let store = FileStore::open(folder.journal()).unwrap();
    fs::remove_file(folder.journal()).unwrap();
    store.save("/f", b"one").unwrap();
    assert_eq!(store.commit(), Err(FileError::Lost));
}

#[test]
fn the_options_are_those_of_the_file() {
    let folder = Folder::new("options");
    let limits = Limits { files: 1, ..Limits::default() };
    let options = FileOptions { history: true, sync: FileSync::Asked, limits, ..FileOptions::default() };
    let store = options.open(folder.journal()).unwrap();
    store.note(b"ticket 7").unwrap();
    store.create("/f").unwrap();
    assert_eq!(store.create("/g"), Err(Error::Full(elephant::Limit::Files)));
    store.commit().unwrap();
    store.sync().unwrap();
    drop(store);
    let store = options.open(folder.journal()).unwrap();
    assert_eq!(store.line("history").unwrap(), "ok history 1 2\n- note 7469636b65742037\n- create /f\n");
}

// A command that runs a test of this file again, with a path.
fn again(test: &str, path: &Path, program: &str) -> Command {
    let mut command = Command::new("sh");
    command.arg("-c").arg(program).arg("sh").arg(env::current_exe().unwrap()).args(["--exact", test, "--nocapture"]);
    command.env(PATH, path).stdout(Stdio::piped());
    command
}

// The last number that a process told to have committed.
fn last_told(lines: &str) -> u64 {
    lines.lines().filter_map(|it| it.strip_prefix("committed ")).next_back().map_or(0, |it| it.parse().unwrap())
}

fn number_in(store: &FileStore) -> u64 {
    let Ok(content) = store.read("/f") else { return 0 };
    let number = u64::from_le_bytes(content[..8].try_into().unwrap());
    assert_eq!((content, store.read("/g").unwrap()), (content_of(number), content_of(number + 1)));
    number
}

fn content_of(number: u64) -> Vec<u8> {
    let length = [8, 700, 3000, 20_000][usize::try_from(number % 4).unwrap()];
    number.to_le_bytes().iter().copied().cycle().take(length).collect()
}

// Commits numbers, each in two files, and tells them.
fn commit_numbers(store: &FileStore) -> FileError {
    store.set_default("/", &Policy::KeepOne).unwrap();
    for number in number_in(store) + 1.. {
        store.save("/f", &content_of(number)).unwrap();
        store.save("/g", &content_of(number + 1)).unwrap();
        store.tick(1).unwrap();
        assert_eq!(store.pass(u64::MAX).end, PassEnd::Finished);
        if let Err(error) = store.commit() {
            return error;
        }
        println!("committed {number}");
    }
    unreachable!("numbers have no end here")
}

#[test]
fn a_killed_process_loses_nothing_that_was_committed() {
    if let Some(path) = env::var_os(PATH) {
        let limits = Limits { versions: 200, ..Limits::default() };
        commit_numbers(&FileOptions { limits, ..FileOptions::default() }.open(path).unwrap());
        return;
    }
    let folder = Folder::new("killed");
    for kill in 0..12 {
        let mut child =
            again("a_killed_process_loses_nothing_that_was_committed", &folder.journal(), "exec \"$@\"").spawn().unwrap();
        let mut told = BufReader::new(child.stdout.take().unwrap());
        let mut lines = String::new();
        while last_told(&lines) == 0 {
            assert_ne!(told.read_line(&mut lines).unwrap(), 0, "{lines}");
        }
        std::thread::sleep(Duration::from_millis(kill * 7));
        child.kill().unwrap();
        child.wait().unwrap();
        told.read_to_string(&mut lines).unwrap();
        // A line that was cut off by the kill may have a part of its number.
        let whole = lines.rfind('\n').map_or("", |end| &lines[..end]);
        let store = FileStore::open(folder.journal()).unwrap();
        let (committed, found) = (last_told(whole), number_in(&store));
        assert!(found == committed || found == committed + 1, "{found} is found and not {committed}");
    }
}

// A limit of a file's length stands for the disk.
#[test]
fn a_full_disk_leaves_the_file_as_before() {
    if let Some(path) = env::var_os(PATH) {
        let store = FileOptions { no_compaction: true, ..FileOptions::default() }.open(&path).unwrap();
        let full = FileError::System { call: "pwrite", errno: TOO_LONG };
        assert_eq!(commit_numbers(&store), full);
        assert_eq!(store.commit(), Err(full));
        let looking = FileOptions { read_only: true, ..FileOptions::default() }.open(&path).unwrap();
        println!("looked {} {}", number_in(&looking), number_in(&store));
        return;
    }
    let folder = Folder::new("full");
    let command = "trap '' XFSZ; ulimit -f 400; exec \"$@\"";
    let told = again("a_full_disk_leaves_the_file_as_before", &folder.journal(), command).output().unwrap();
    let lines = String::from_utf8(told.stdout).unwrap();
    assert!(told.status.success(), "{lines}");
    let committed = last_told(&lines);
    assert!(committed > 10, "{lines}");
    assert!(lines.contains(&format!("looked {committed} {}\n", committed + 1)), "{lines}");
    let mut store = FileStore::open(folder.journal()).unwrap();
    assert_eq!(number_in(&store), committed);
    store.save("/f", b"more").unwrap();
    store.rollback().unwrap();
    assert_eq!(number_in(&store), committed);
}
