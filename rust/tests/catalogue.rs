//! The saved catalogue (document 02, Slip 3): what is written, what is taken, what is turned back and in which order, and that a loaded
//! store goes on as the one that was saved.
use ferigulan::{calls, file_length, fresh, index_len, memory_len, Refusal, Store, LONGEST_FILE, LONGEST_LABEL};

mod common;
use common::files::{file, ints, trailed};
use common::play::Play;

/// What a byte of a file, or a word of a list, is before a call.
const BEFORE: u8 = 77;
const LEFT: u64 = 7;

fn fresh_words(length: usize) -> Vec<u64> {
    let mut words = vec![0; length];
    calls::fresh(&mut words).expect("a length that is allowed");
    words
}

/// A store that random calls have made, and the player who made it.
fn grown(seed: u64, length: usize, count: usize) -> (Vec<u64>, Play) {
    let (mut words, mut play) = (fresh_words(length), Play::new(seed));
    for _ in 0..count {
        let call = play.call();
        let told = call.on_words(&mut words, &mut call.output());
        play.learn(&call, told);
    }
    (words, play)
}

fn saved(words: &[u64], label: &[u8]) -> Vec<u8> {
    let mut bytes = vec![BEFORE; file_length(label.len(), words[0] as usize)];
    assert_eq!(calls::save(words, label, &mut bytes), Ok(bytes.len()));
    bytes
}

/// What a load into a list of this length answers. Refused, it has left every word; accepted, no word behind the store is left.
fn load(bytes: &[u8], length: usize) -> Result<usize, Refusal> {
    let mut words = vec![LEFT; length];
    let loaded = calls::load(&mut words, bytes);
    match loaded {
        Ok(_) => assert!(calls::well_formed(&words)),
        Err(_) => assert!(words.iter().all(|word| *word == LEFT), "a refused load has written"),
    }
    loaded
}

/// What a save into so many bytes answers. Refused, it has left every byte.
fn save(words: &[u64], label: &[u8], length: usize) -> Result<usize, Refusal> {
    let mut bytes = vec![BEFORE; length];
    let told = calls::save(words, label, &mut bytes);
    let kept = told.map_or(0, |length| length);
    assert!(bytes[kept..].iter().all(|byte| *byte == BEFORE), "bytes behind the file were written");
    told
}

// ---- the writer

#[test]
fn the_bytes_are_label_words_and_trailer() {
    let mut words = fresh_words(100);
    assert_eq!(saved(&words, b""), [0; 16]);
    calls::get_int(&mut words, 3).expect("there is room");
    assert_eq!(saved(&words, b"ab"), file(b"ab", &[261, 3, 3]));
    assert_eq!(file_length(2, 97), 42);
}

#[test]
fn the_list_is_not_in_the_file() {
    let (words, _) = grown(3, 2_000, 300);
    let used = words[0] as usize;
    let longer = [&words[..], &[0; 500]].concat();
    assert_eq!(saved(&words, b"x"), saved(&words[..used], b"x"));
    assert_eq!(saved(&words, b"x"), saved(&longer, b"x"));
    assert_ne!(saved(&words, b"x"), saved(&words, b"y"));
}

#[test]
fn what_the_writer_turns_back() {
    let words = fresh_words(94);
    for (list, label, length, told) in [
        (&words[..], 0, 16, Ok(16)),
        (&words, 0, 40, Ok(16)),
        (&words, 0, 15, Err(Refusal::OutputTooShort)),
        (&words, LONGEST_LABEL, 271, Ok(271)),
        (&words, LONGEST_LABEL, 270, Err(Refusal::OutputTooShort)),
        (&words, LONGEST_LABEL + 1, 0, Err(Refusal::TooMany)),
        (&words, LONGEST_LABEL + 1, 300, Err(Refusal::TooMany)),
        (&words[..93], LONGEST_LABEL + 1, 0, Err(Refusal::NotWellFormed)),
        (&[], 0, 0, Err(Refusal::NotWellFormed)),
    ] {
        assert_eq!(save(list, &vec![b'a'; label], length), told, "{} words, {label}, {length}", list.len());
    }
    let mut damaged = words;
    damaged[5] = 7;
    assert_eq!(save(&damaged, b"", 100), Err(Refusal::NotWellFormed));
}

// ---- the reader

#[test]
fn a_trailer_that_does_not_fit() {
    let (label, word) = (b"a".as_slice(), [0].as_slice());
    let bad = [
        vec![],
        vec![0; 15],
        vec![0; 17],
        trailed(b"", &[], 1, 0),
        trailed(b"", &[], 0, 1),
        trailed(label, &[], 0, 0),
        trailed(label, word, 0, 1),
        trailed(label, word, 1, 0),
        trailed(label, word, 1, 2),
        trailed(label, word, 9, 1),
        // sums that wrap
        trailed(b"", &[], 0, 1 << 61),
        trailed(b"", &[], (-8_i64) as u64, 1),
        trailed(label, word, 1, (1 << 61) + 1),
        trailed(b"", &[], u64::MAX, u64::MAX),
    ];
    for bytes in bad {
        assert_eq!(load(&bytes, 200), Err(Refusal::BadTrailer), "{bytes:?}");
    }
    // eight bytes are a label or a word, as the trailer says
    assert_eq!(load(&trailed(b"aaaaaaaa", &[], 8, 0), 200), Ok(8));
    assert_eq!(load(&trailed(b"aaaaaaaa", &[], 0, 1), 200), Err(Refusal::BadWords));
}

/// Words behind the fresh ones, and whether they are taken.
#[test]
fn words_that_are_no_store() {
    for (words, told) in [
        (&[][..], Ok(1)),
        // the empty name, once
        (&[0], Ok(1)),
        (&[0, 0], Err(Refusal::BadWords)),
        (&[261, 3, 3], Ok(1)),
        // copies of fresh entries, and of an entry of the file
        (&[261, 0, 0], Err(Refusal::BadWords)),
        (&[257], Err(Refusal::BadWords)),
        (&[261, 3, 3, 261, 3, 3], Err(Refusal::BadWords)),
        // an entry that is not ended, and one of no kind
        (&[261, 3], Err(Refusal::BadWords)),
        (&[13], Err(Refusal::BadWords)),
        // handles: of no entry, of itself, of a name
        (&[7 + 256 + 65_536, 2], Err(Refusal::BadWords)),
        (&[7 + 512 + 65_536, 94], Err(Refusal::BadWords)),
        (&[7 + 256 + 65_536, 1], Err(Refusal::BadWords)),
        // depths
        (&[7 + 512 + 65_536, 9], Ok(1)),
        (&[7 + 768 + 65_536, 9], Err(Refusal::BadWords)),
        // fill bytes, and a name of 256 bytes
        (&[65_536, 0x61], Ok(1)),
        (&[65_536, 0x6161], Err(Refusal::BadWords)),
        (&[[256 * 65_536].as_slice(), &[1; 32]].concat(), Err(Refusal::BadWords)),
        // a float of no size
        (&[262, 80, 0], Err(Refusal::BadWords)),
    ] {
        assert_eq!(load(&file(b"x", words), 200), told, "{words:?}");
    }
}

/// 1, 14, 15, 5, 12: each before those behind it.
#[test]
fn the_order_of_refusals() {
    let (long, word, bad) = (vec![b'a'; 256], [0].as_slice(), [257].as_slice());
    assert_eq!(load(&[], 93), Err(Refusal::NotWellFormed));
    assert_eq!(load(&file(b"", word), 93), Err(Refusal::NotWellFormed));
    assert_eq!(load(&file(b"", word), 1_048_577), Err(Refusal::NotWellFormed));
    assert_eq!(load(&trailed(&long, bad, 255, 1), 94), Err(Refusal::BadTrailer));
    assert_eq!(load(&file(&long, bad), 94), Err(Refusal::BadWords));
    assert_eq!(load(&file(&long, word), 94), Err(Refusal::TooMany));
    assert_eq!(load(&file(&long[1..], word), 94), Err(Refusal::NoRoom));
    assert_eq!(load(&file(&long[1..], word), 95), Ok(255));
    assert_eq!(load(&file(&long, &[]), 94), Err(Refusal::TooMany));
}

/// The writer takes a store with copies, the reader does not take its file.
#[test]
fn copies() {
    let mut words = fresh_words(100);
    words[0] = 96;
    assert_eq!(load(&saved(&words, b""), 100), Err(Refusal::BadWords));
    let mut words = fresh_words(100);
    words[0] = 97;
    words[94..97].copy_from_slice(&[261, 2, 2]);
    assert_eq!(load(&saved(&words, b""), 100), Err(Refusal::BadWords));
}

/// A copy of any entry at the end of a long file, wherever the first one stands: the reader looks for copies in as many passes as the file is
/// long.
#[test]
fn copies_in_long_files() {
    for length in [4_096, 4_099, 65_536, 65_539, 131_072, 1_048_576] {
        let words = ints(length);
        assert_eq!(load(&file(b"long", &words), length), Ok(4));
        let entries = words.len() / 3;
        for i in 0..24 {
            let (mut copied, at) = (words.clone(), 3 * (i * (entries - 2) / 23));
            let (before, last) = copied.split_at_mut(words.len() - 3);
            last.copy_from_slice(&before[at..at + 3]);
            assert_eq!(load(&file(b"long", &copied), length), Err(Refusal::BadWords), "{length} words, a copy of the entry at {at}");
        }
    }
}

/// The hash of the library's crate `distinct`, one word further.
fn mix(h: u64, w: u64) -> u64 {
    let t = h.wrapping_add(w);
    (t % (1 << 32) * 2_654_435_761).wrapping_add(t / (1 << 32) * 2_246_822_519)
}

/// Ints that all have one hash are no copies for that, and a copy among them is found wherever it stands. The reader goes another way with
/// them, without the hash.
fn of_one_hash(length: usize) {
    let one_hash = |k| [261, k, mix(mix(0, 261), k).wrapping_neg()];
    let words: Vec<u64> = (0..(length as u64 - 97) / 3).flat_map(one_hash).collect();
    assert_eq!(load(&file(b"", &words), length), Ok(0));
    for i in 0..8 {
        let (mut copied, at) = (words.clone(), 3 * (i * (words.len() / 3 - 1) / 7));
        copied.extend_from_within(at..at + 3);
        assert_eq!(load(&file(b"", &copied), length), Err(Refusal::BadWords), "{length} words, a copy of the entry at {at}");
    }
}

#[test]
fn entries_of_one_hash() {
    of_one_hash(2_000);
    of_one_hash(4_200);
}

#[test]
fn entries_of_one_hash_in_long_files() {
    of_one_hash(65_536);
    of_one_hash(262_144);
}

/// A label of each length, so that the words stand at every byte; and the file itself at every alignment.
#[test]
fn every_offset() {
    let (words, _) = grown(5, 600, 150);
    for length in 0..=LONGEST_LABEL {
        let label: Vec<u8> = (0..length).map(|i| i as u8).collect();
        let bytes = saved(&words, &label);
        let moved = [&vec![BEFORE; length % 8], &bytes[..]].concat();
        let mut others = vec![LEFT; 600];
        let (store, read) = Store::load_from(&mut others, &moved[length % 8..]).expect("a file");
        assert_eq!((read, store.words()), (&label[..], &words[..]), "a label of {length} bytes");
    }
    assert_eq!(save(&words, &[0; 256], 10_000), Err(Refusal::TooMany));
}

// ---- round trips

#[test]
fn a_loaded_store_is_the_one_that_was_saved() {
    for (seed, length) in [(0, 94), (1, 94), (2, 97), (3, 512), (4, 512), (5, 4_096), (6, 4_096), (7, 5_000), (8, 20_000)] {
        let (words, _) = grown(seed, length, 400);
        let bytes = saved(&words, b"lift 3");
        let used = words[0] as usize;
        for longer in [used, used + 1, length.max(used), length + 1_000] {
            let mut others = vec![LEFT; longer];
            assert_eq!(calls::load(&mut others, &bytes), Ok(6));
            assert_eq!(others[..used], words[..used]);
            assert!(others[used..].iter().all(|word| *word == 0));
            assert_eq!(saved(&others, b"lift 3"), bytes);
        }
        assert_eq!(load(&bytes, used.max(95) - 1), if used > 94 { Err(Refusal::NoRoom) } else { Ok(6) });
    }
}

/// The same calls on the store that was grown, on the loaded one, and on the loaded one opened: the same answers, and the same words.
#[test]
fn a_loaded_store_goes_on_as_the_grown_one() {
    for seed in 0..8 {
        let (mut words, mut play) = grown(seed, 4_000, 300);
        let bytes = saved(&words, b"");
        let (mut plain, mut under) = (vec![LEFT; 4_000], vec![LEFT; 4_000]);
        let (mut index, mut memory) = (vec![LEFT; index_len(4_000)], vec![LEFT; memory_len(4_000)]);
        let (mut store, _) = Store::load_from(&mut plain, &bytes).expect("a file");
        let (mut lower, _) = Store::load_from(&mut under, &bytes).expect("a file");
        let mut opened = lower.open(&mut index, &mut memory).expect("an index that is long enough");
        for _ in 0..300 {
            let call = play.call();
            let mut outputs = [call.output(), call.output(), call.output()];
            let told = call.on_words(&mut words, &mut outputs[0]);
            assert_eq!(call.on_store(&mut store, &mut outputs[1]), told, "{call:?}");
            assert_eq!(call.on_opened(&mut opened, &mut outputs[2]), told, "{call:?}");
            assert!(outputs[0] == outputs[1] && outputs[0] == outputs[2]);
            play.learn(&call, told);
        }
        assert!(store.words() == words && opened.words() == words);
        let mut files = [saved(&words, b"on"), saved(&words, b"on"), saved(&words, b"on")];
        assert_eq!(store.save_into(b"on", &mut files[1]), Ok(files[0].len()));
        assert_eq!(opened.save_into(b"on", &mut files[2]), Ok(files[0].len()));
        assert!(files[0] == files[1] && files[0] == files[2]);
    }
}

/// An opened store is saved as it is, also when its file has no room; and what was saved is loaded into the words of another.
#[test]
fn an_opened_store_is_saved_and_loaded_over() {
    let (mut words, mut index, mut memory) = (vec![LEFT; 300], vec![0; index_len(300)], vec![0; 60]);
    let mut store = Store::fresh(&mut words).expect("300 words are enough");
    let mut opened = store.open(&mut index, &mut memory).expect("an index that is long enough");
    let counter = opened.make_int(0, 7).expect("there is room");
    let mut bytes = vec![BEFORE; 100];
    assert_eq!(opened.save_into(&[0; 256], &mut bytes), Err(Refusal::TooMany));
    assert_eq!(opened.save_into(b"lift", &mut bytes[..43]), Err(Refusal::OutputTooShort));
    assert!(bytes.iter().all(|byte| *byte == BEFORE));
    assert_eq!(opened.save_into(b"lift", &mut bytes), Ok(44));
    let eight = opened.get_int(8).expect("there is room");
    let (mut loaded, label) = Store::load_from(&mut words, &bytes[..44]).expect("a file");
    assert_eq!((label, loaded.used()), (&b"lift"[..], 97));
    let mut opened = loaded.open(&mut index, &mut memory).expect("an index that is long enough");
    assert_eq!(opened.make_int(0, 7), Ok(counter));
    assert_eq!(opened.int_max(eight), Err(Refusal::NoEntry));
    assert_eq!(opened.meet(counter, fresh::INT_TWO), Ok(counter));
}

/// The bytes that every build has to load, and to write again.
#[test]
fn the_golden_catalogue() {
    let bytes = include_bytes!("../../tests/golden.catalogue");
    let mut words = vec![LEFT; 500];
    let (store, label) = Store::load_from(&mut words, bytes).expect("a file");
    assert_eq!((label, file_length(label.len(), store.used())), (&b"golden"[..], bytes.len()));
    assert_eq!(saved(store.words(), b"golden"), bytes);
}

#[test]
fn the_largest_file() {
    let length = 1_048_576;
    let (label, words) = ([b'a'; LONGEST_LABEL], ints(length));
    // two words are left, which one Bot each would fill, but for being there already: names fill them
    let words = [&words[..], &[65_536, 0x61][..length - 94 - words.len()]].concat();
    let bytes = file(&label, &words);
    assert_eq!((94 + words.len(), bytes.len()), (length, LONGEST_FILE));
    let mut list = vec![LEFT; length];
    let (store, read) = Store::load_from(&mut list, &bytes).expect("the largest file");
    assert_eq!((read, store.used()), (&label[..], length));
    let mut again = vec![BEFORE; LONGEST_FILE];
    assert_eq!(store.save_into(&label, &mut again), Ok(LONGEST_FILE));
    assert!(again == bytes);
    // one word more is no store of any allowed length, whatever the list
    let longer = file(&label, &[&words[..], &[0]].concat());
    assert_eq!(load(&longer, length), Err(Refusal::BadWords));
    assert_eq!(load(&longer, 94), Err(Refusal::BadWords));
    assert_eq!(load(&bytes, length - 1), Err(Refusal::NoRoom));
}

// ---- damage

/// Each byte of a small file changed, and the file cut at each length: the answer is that of the words made by hand.
#[test]
fn damaged_files() {
    let (words, _) = grown(9, 400, 80);
    let bytes = saved(&words, b"ab");
    for at in 0..bytes.len() {
        for change in [1, 0x80, 0xff] {
            let mut damaged = bytes.clone();
            damaged[at] ^= change;
            match load(&damaged, 400) {
                Ok(2) => (),
                Err(Refusal::BadWords) => assert!(at >= 2 && at < bytes.len() - 16, "byte {at}"),
                Err(Refusal::BadTrailer) => assert!(at >= bytes.len() - 16, "byte {at}"),
                told => panic!("byte {at}: {told:?}"),
            }
            assert!(at >= 2 || load(&damaged, 400) == Ok(2), "a label may be anything");
        }
    }
    for length in 0..bytes.len() {
        assert_eq!(load(&bytes[..length], 400), Err(Refusal::BadTrailer), "cut at {length}");
    }
}
