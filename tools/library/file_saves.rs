//! Saves numbered contents into a store in a file by the Rust crate, as `clients/c/tests/file_saves.c` does it in C.
//!
//!     file_saves run PATH COUNT COMPACT SYNC VERSIONS
//!
//! `file_faults.c` and `file_preload.c` are loaded before the C library: they count the calls of the system, and write what this tells
//! them.

use elephant::{Error, FileError, FileOptions, FileStore, FileSync, Limits, PassEnd, Policy};
use std::env;
use std::ffi::{c_void, CString};
use std::mem;
use std::os::raw::{c_char, c_ulong};
use std::process::exit;
use std::ptr;

const LENGTHS: [usize; 7] = [40, 8, 700, 3000, 100, 20_000, 450];
const PATHS: [&str; 2] = ["/one", "/two"];
const TRIES: usize = 4;

extern "C" {
    fn dlsym(handle: *mut c_void, name: *const c_char) -> *mut c_void;
}

// A function of file_faults.c.
fn fault_function(name: &str) -> *mut c_void {
    let name = CString::new(name).unwrap();
    // SAFETY: it is the name of a function, which the loader looks for in all that is loaded.
    let found = unsafe { dlsym(ptr::null_mut(), name.as_ptr()) };
    assert!(!found.is_null(), "file_faults.c isn't loaded");
    found
}

fn note(what: &str, number: u64) {
    let word = CString::new(what).unwrap();
    // SAFETY: the function has this type.
    unsafe {
        let call: unsafe extern "C" fn(*const c_char, c_ulong) = mem::transmute(fault_function("note_in_log"));
        call(word.as_ptr(), number);
    }
}

fn calls_made() -> c_ulong {
    // SAFETY: the function has this type.
    unsafe {
        let call: unsafe extern "C" fn() -> c_ulong = mem::transmute(fault_function("faults_counted"));
        call()
    }
}

fn say(what: &str, number: u64) {
    note(what, number);
    println!("{what} {number}");
}

// The content of a number: its bytes, and then bytes that follow from it. Every third has long runs of zeros.
fn content_of(number: u64, of: usize) -> Vec<u8> {
    let kind = (usize::try_from(number).unwrap() + of) % LENGTHS.len();
    let mut state = number.wrapping_mul(2_654_435_761).wrapping_add(of as u64);
    let mut made = number.to_le_bytes().to_vec();
    for _ in 0..LENGTHS[kind] {
        state = state.wrapping_mul(6_364_136_223_846_793_005).wrapping_add(1_442_695_040_888_963_407);
        made.push(if number % 3 == 0 { 0 } else { (state >> 56) as u8 });
    }
    made
}

// The number of what the path has, 0 if it has nothing yet. Any other content ends the program.
fn number_at(store: &FileStore, of: usize) -> u64 {
    let content = match store.read(PATHS[of]) {
        Err(Error::NoEntry) => return 0,
        found => found.unwrap(),
    };
    let number = u64::from_le_bytes(content[..8].try_into().unwrap());
    assert!(content == content_of(number, of), "{} has by halves {number}", PATHS[of]);
    number
}

fn number_in(store: &FileStore) -> u64 {
    let number = number_at(store, 0);
    assert_eq!(number_at(store, 1), number);
    number
}

fn change(store: &FileStore, number: u64) {
    if number_in(store) == 0 {
        store.set_default("/", &Policy::KeepOne).unwrap();
    }
    for (of, path) in PATHS.iter().enumerate() {
        store.save(path, &content_of(number, of)).unwrap();
    }
    assert_eq!(store.pass(100).end, PassEnd::Finished);
    note("try", number);
}

fn opened(path: &str, sync: FileSync, versions: u64) -> Result<FileStore, FileError> {
    let limits = Limits {
        events: 1000,
        files: 100,
        directories: 100,
        names: 1000,
        versions,
        handles: 1000,
        groups: 10,
        members: 10,
        marks: 10,
    };
    let store = FileOptions { limits, sync, ..FileOptions::default() }.open(path);
    if let Err(error) = &store {
        eprintln!("{path}: {error}");
    }
    store
}

// Makes a call, or tries again, and at last writes a new file. Returns whether all is in the file.
fn is_kept(store: &FileStore, mut call: fn(&FileStore) -> Result<(), FileError>) -> bool {
    for _ in 0..TRIES {
        match call(store) {
            Ok(()) => return true,
            Err(error) => {
                eprintln!("commit: {error}");
                if error == FileError::Stuck {
                    call = FileStore::compact;
                }
            }
        }
    }
    false
}

// Makes a change and commits it. If that fails, every other one is given up, and the next one made in its place.
fn is_changed(store: &mut FileStore, number: &mut u64) -> bool {
    *number += 1;
    change(store, *number);
    match store.commit() {
        Ok(()) => return true,
        Err(error) => eprintln!("commit: {error}"),
    }
    if *number % 2 == 1 && store.rollback().is_ok() {
        *number += 1;
        change(store, *number);
    }
    is_kept(store, FileStore::commit)
}

// Closes the file and opens it again, which makes all of it durable. After a failed sync it stops, since the memory here still has what a
// disk has lost.
fn reopened(store: FileStore, path: &str, sync: FileSync, versions: u64, number: u64) -> Option<FileStore> {
    drop(store);
    let store = match opened(path, sync, versions) {
        Err(FileError::System { call: "fdatasync", .. }) => return None,
        Err(_) => opened(path, sync, versions).ok()?,
        Ok(store) => store,
    };
    assert_eq!(number_in(&store), number);
    note("has", number);
    Some(store)
}

fn run(path: &str, count: u64, compact: u64, sync: u64, versions: u64) -> i32 {
    let how = if sync > 1 { FileSync::Asked } else { FileSync::Each };
    let Ok(mut store) = opened(path, how, versions) else { return 3 };
    let mut number = number_in(&store);
    say("has", number);
    for made in 1..=count {
        if !is_changed(&mut store, &mut number) {
            break;
        }
        if made == count / 2 {
            match reopened(store, path, how, versions, number) {
                None => return 3,
                Some(again) => store = again,
            }
        }
        if sync > 1 && made % sync != 0 {
            continue;
        }
        if sync > 1 && !is_kept(&store, FileStore::sync) {
            break;
        }
        say("ack", number);
        if compact > 0 && made % compact == 0 {
            is_kept(&store, FileStore::compact);
        }
    }
    drop(store);
    eprintln!("{} calls", calls_made());
    0
}

fn main() {
    let words: Vec<String> = env::args().skip(1).collect();
    let number = |at: usize| words[at].parse().unwrap();
    exit(run(&words[1], number(2), number(3), number(4), number(5)));
}
