//! The search for an entry by its words (document 02, Slip 2), in its three forms: what it finds, and how many entries it does not pass over.
use ferigulan::{calls, fresh, index_len, Handle, Refusal, Search, Store};

mod common;
use common::play::Play;

fn found(handle: Handle, count: u64) -> Search {
    Search { handle: Some(handle), count }
}

fn absent(count: u64) -> Search {
    Search { handle: None, count }
}

/// What all three forms tell, on words that are a store. They leave every word.
fn told(words: &[u64], entry: &[u64]) -> Search {
    let mut others = words.to_vec();
    let mut store = Store::from_words(&mut others).expect("a store");
    let by_store = store.find_entry(entry);
    let mut index = vec![0; index_len(words.len())];
    let by_opened = store.open(&mut index, &mut []).expect("an index that is long enough").find_entry(entry);
    let by_function = calls::find_entry(words, entry).expect("a store");
    assert_eq!((by_store, by_opened), (by_function, by_function), "{entry:?}");
    assert_eq!(others, words);
    by_function
}

fn fresh_words(length: usize) -> Vec<u64> {
    let mut words = vec![0; length];
    calls::fresh(&mut words).expect("a length that is allowed");
    words
}

#[test]
fn in_a_fresh_store() {
    let words = fresh_words(94);
    for (entry, search) in [
        // the Ints are at 9, 12, 15, 22, 25, 28 and so on, twelve of them
        (&[261, 0, 0][..], found(fresh::INT_ZERO, 1)),
        (&[261, 2, 2], found(fresh::INT_TWO, 6)),
        (&[261, 3, 3], absent(12)),
        (&[264, 1], found(fresh::STRUCT_TOP, 1)),
        (&[264, 3], found(fresh::STRUCT_BOT, 2)),
        (&[131_591, 8, 7], found(fresh::IF_FALSE, 4)),
        (&[131_591, 8, 9], absent(4)),
        (&[262_144, 1_414_480_420], found(fresh::NAME_BOT, 2)),
        (&[522, 18, 1], found(fresh::PTR_NULL, 3)),
        (&[257], found(fresh::BOT, 1)),
        // no entry has this head: the empty name, the empty tuple, a deeper Int, a kind that there is not
        (&[0], absent(0)),
        (&[263], absent(0)),
        (&[517, 0, 0], absent(0)),
        (&[u64::MAX, 0, 0], absent(0)),
    ] {
        assert_eq!(told(&words, entry), search, "{entry:?}");
    }
}

/// An entry is equal where it has just these words: not where these are some of its own, or it is some of them.
#[test]
fn of_another_length() {
    let words = fresh_words(200);
    for entry in [&[261, 2][..], &[261], &[261, 2, 2, 0], &[261, 2, 2, 261, 0, 0]] {
        assert_eq!(told(&words, entry), absent(12), "{entry:?}");
    }
    assert_eq!(told(&words, &[257, 258]), absent(1));
}

/// It counts as one whose head is 0, as the empty name's is.
#[test]
fn of_no_words() {
    let mut words = fresh_words(200);
    assert_eq!(told(&words, &[]), absent(0));
    let empty = calls::get_str(&mut words, b"").expect("there is room");
    assert_eq!(told(&words, &[]), absent(1));
    assert_eq!(told(&words, &[0]), found(empty, 1));
}

#[test]
fn what_was_made_is_found() {
    let mut words = fresh_words(200);
    let three = calls::get_int(&mut words, 3).expect("there is room");
    assert_eq!(told(&words, &[261, 3, 3]), found(three, 13));
    assert_eq!(told(&words, &[261, 9, 9]), absent(13));
}

/// The lowest equal entry wins over a copy, and what stands behind it is not counted.
#[test]
fn copies() {
    let mut words = fresh_words(200);
    let three = calls::get_int(&mut words, 3).expect("there is room");
    words[97] = 261;
    words[0] = 100;
    assert_eq!(told(&words, &[261, 0, 0]), found(fresh::INT_ZERO, 1));
    words[98..100].copy_from_slice(&[3, 3]);
    assert_eq!(told(&words, &[261, 3, 3]), found(three, 13));
    assert_eq!(told(&words, &[261, 9, 9]), absent(14));
}

#[test]
fn not_well_formed() {
    let mut words = fresh_words(200);
    words[5] = 7;
    for words in [&[][..], &[0; 93], &[0; 200], &words, &vec![0; 1_048_577]] {
        for entry in [&[][..], &[0], &[261, 0, 0]] {
            assert_eq!(calls::find_entry(words, entry), Err(Refusal::NotWellFormed));
        }
    }
}

/// How many words an entry has, by document 01's table.
fn size(head: u64) -> usize {
    let n = (head / 65_536) as usize;
    match head % 256 {
        0 => 1 + n.div_ceil(8),
        1..=4 => 1,
        7 => 1 + n,
        8 => 2 + 3 * n,
        9 => 2,
        _ => 3,
    }
}

/// Every entry of a store that random calls have made is found where it stands, with itself as the last that is counted.
#[test]
fn every_entry_is_found_where_it_stands() {
    let mut words = fresh_words(3_000);
    let mut play = Play::new(2);
    for _ in 0..1_000 {
        let call = play.call();
        let told = call.on_words(&mut words, &mut call.output());
        play.learn(&call, told);
    }
    let (mut at, mut heads) = (1, Vec::new());
    while at < words[0] as usize {
        heads.push(words[at]);
        let entry = &words[at..at + size(words[at])];
        let same_head = heads.iter().filter(|head| **head == entry[0]).count();
        assert_eq!(calls::find_entry(&words, entry), Ok(found(Handle::new(at as u64), same_head as u64)));
        at += entry.len();
    }
    assert!(heads.len() > 200, "{} entries", heads.len());
}
