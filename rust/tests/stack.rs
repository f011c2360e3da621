//! The deepest calls in a thread with no more stack than README.md states for lists of that length. `cargo run --release --example stack`
//! measures how much they need. And what happens to a call with less.
use std::env;
use std::process::Command;
use std::thread;

use ferigulan::{calls, file_length, fresh, index_len, Refusal, Store, LONGEST_LABEL};

mod common;
use common::files::{file, ints};
use common::towers::{deep, memory_lengths, Tower, TOWERS};

const KIB: usize = 1024;

macro_rules! enough {
    ($($test:ident: $length:literal words, $stack:literal KiB;)*) => {$(
        #[test]
        fn $test() {
            enough($length, $stack * KIB);
        }
    )*};
}

// By the length of the list: how much stack is enough for a thread that makes any call. One test a line.
enough! {
    lists_of_94: 94 words, 32 KiB;
    lists_of_512: 512 words, 128 KiB;
    lists_of_4_096: 4_096 words, 176 KiB;
    lists_of_65_536: 65_536 words, 208 KiB;
    lists_of_1_048_576: 1_048_576 words, 336 KiB;
}

fn enough(length: usize, bytes: usize) {
    let all = move || {
        TOWERS.into_iter().for_each(|shape| run(length, shape));
        full_file(length, length);
    };
    let thread = thread::Builder::new().stack_size(bytes).spawn(all).expect("a thread");
    thread.join().expect("the thread's calls end");
}

// A list that does not fit on an opened store: its index is made anew, without the bits of row 1, which alone take 128 KiB in so long a list.
#[test]
fn a_refused_list_needs_little() {
    const LENGTH: usize = 1_048_576;
    let mut words = vec![0; LENGTH];
    Store::fresh(&mut words).expect("the length is right");
    // all words but one are in use: a word of 0 is the empty name
    words[0] = LENGTH as u64 - 1;
    let before = words.clone();
    let (mut index, mut memory) = (vec![0; index_len(LENGTH)], vec![0; 6_000]);
    let mut store = Store::from_words(&mut words).expect("a store");
    let mut opened = store.open(&mut index, &mut memory).expect("room for the index");
    let merged = thread::scope(|scope| {
        let merge = || opened.meet_list(&[fresh::INT_ZERO, fresh::INT_ONE, fresh::INT_TWO]);
        thread::Builder::new().stack_size(32 * KIB).spawn_scoped(scope, merge).expect("a thread").join()
    });
    assert_eq!(merged.expect("the call ends"), Err(Refusal::NoRoom));
    assert!(words == before, "a refusal changes no word");
}

// What a load needs goes by the file as well as by the list: it tests all of the file before it sees that the list is too short.
#[test]
fn the_largest_file_and_a_short_list() {
    let load = || full_file(1_048_576, 94);
    thread::Builder::new().stack_size(336 * KIB).spawn(load).expect("a thread").join().expect("the load ends");
}

/// Set for the process that is to end.
const TOO_LITTLE: &str = "FERIGULAN_TOO_LITTLE_STACK";

// Such a call is safe all the same: it ends the process at the guard page, as Rust's own code does, and writes nothing beyond.
#[test]
fn too_little_stack_ends_the_process() {
    if env::var_os(TOO_LITTLE).is_some() {
        return enough(1_048_576, 64 * KIB);
    }
    let mut again = Command::new(env::current_exe().expect("a program knows its path"));
    let output = again.args(["--exact", "too_little_stack_ends_the_process"]).env(TOO_LITTLE, "1").output().expect("it starts");
    let message = String::from_utf8_lossy(&output.stderr);
    assert!(!output.status.success() && message.contains("has overflowed its stack"), "{}: {message}", output.status);
}

/// Loads the file of a full store of this many words, with the longest label, into a list, and saves it where it fits.
fn full_file(used: usize, length: usize) {
    let words = ints(used);
    let (used, file) = (94 + words.len(), file(&[b'x'; LONGEST_LABEL], &words));
    let mut list = vec![0; length];
    let loaded = calls::load(&mut list, &file);
    assert_eq!(loaded, if used <= length { Ok(LONGEST_LABEL) } else { Err(Refusal::NoRoom) });
    if loaded.is_ok() {
        assert!(saved(&list) == file, "another file");
    }
}

fn saved(words: &[u64]) -> Vec<u8> {
    let mut file = vec![0; file_length(LONGEST_LABEL, words[0] as usize)];
    assert_eq!(calls::save(words, &[b'x'; LONGEST_LABEL], &mut file), Ok(file.len()));
    file
}

/// Every call on one tower, plain and opened, the search for an entry, and saving and loading.
fn run(length: usize, shape: Tower) {
    let mut deep = deep(length, shape);
    assert_eq!(calls::load(&mut vec![0; length], &saved(deep.words())), Ok(LONGEST_LABEL));
    assert_eq!(calls::find_entry(deep.words(), &[0; 4]).map(|search| search.handle), Ok(None));
    let (mut index, mut memory) = (vec![0; index_len(length)], vec![0; memory_lengths(length)[0]]);
    for call in deep.calls() {
        let mut output = call.output();
        let plain = deep.plain(|words| call.on_words(words, &mut output));
        for m in memory_lengths(length) {
            let opened = deep.opened(&mut index, &mut memory[..m], |opened| call.on_opened(opened, &mut output));
            assert_eq!(opened, plain, "{length} words, {shape:?}: {call:?}");
        }
    }
}
