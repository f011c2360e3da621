//! Document 02, Slip 3: the saved catalogue.

mod common;
mod rebuilt;

use common::List;
use reading::{load, save, Call, Reply};

/// A file of a label, words and the trailer that fits them.
fn file(label: &[u8], words: &[u64]) -> Vec<u8> {
    with_trailer(label, words, label.len() as u64, words.len() as u64)
}

fn with_trailer(label: &[u8], words: &[u64], start: u64, number: u64) -> Vec<u8> {
    let trailer = [start, number];
    let after = words.iter().chain(&trailer).flat_map(|word| word.to_le_bytes());
    label.iter().copied().chain(after).collect()
}

/// What a list of sevens answers to a file.
fn into_sevens(length: usize, file: &[u8]) -> Reply {
    List { words: vec![7; length] }.load(file)
}

fn refused(row: u8) -> Reply {
    Reply::Refused(row)
}

/// A list with entries of every kind that a file can hold.
fn some_of_each() -> List {
    let mut list = List::fresh(400);
    let (empty, name) = (list.name(b""), list.name(b"a name of 18 bytes"));
    list.int(-3, 4);
    list.int(4, -3);
    list.float(-0.0);
    list.handle(&Call::GetTuple(&[]));
    let tuple = list.handle(&Call::GetTuple(&[5, 6, 7]));
    let with_fields = list.handle(&Call::GetStruct(name, &[empty, tuple, 4_294_967_295, 1, name, 9, 0, 0]));
    let reference = list.handle(&Call::MakeStructFref(name));
    let pointer = list.handle(&Call::GetMemPtr(reference, 1));
    list.handle(&Call::GetMemPtr(with_fields, 0));
    list.handle(&Call::GetMem(3, pointer));
    list
}

#[test]
fn the_file_of_one_int() {
    let mut list = List::fresh(97);
    list.int(3, -1);
    let mut bytes = vec![b'a', b'b', 5, 1, 0, 0, 0, 0, 0, 0, 3, 0, 0, 0, 0, 0, 0, 0];
    bytes.extend([255; 8]);
    bytes.extend([2, 0, 0, 0, 0, 0, 0, 0, 3, 0, 0, 0, 0, 0, 0, 0]);
    assert_eq!(list.file(b"ab"), bytes);
}

/// "The loader fills a lent list with the store written and zeroes its rest", whatever stands there.
#[test]
fn what_is_written_is_loaded() {
    let mut list = some_of_each();
    let file = list.file(b"label");
    let used = list.used() as usize;
    for length in [used, used + 1, 400, 5000] {
        let mut other = List { words: (0..length as u64).map(|i| i.wrapping_mul(0x9e37_79b9_7f4a_7c15)).collect() };
        assert_eq!(other.load(&file), Reply::Number(5));
        assert!(other.words[..used] == list.words[..used] && other.words[used..].iter().all(|&word| word == 0));
        // "Equal label and store mean equal bytes", whatever the list's length
        assert_eq!(other.file(b"label"), file);
    }
    assert_eq!(into_sevens(used - 1, &file), refused(12));
}

#[test]
fn labels() {
    let mut list = some_of_each();
    for length in [0, 1, 255] {
        let label = vec![b'l'; length];
        assert_eq!(into_sevens(400, &list.file(&label)), Reply::Number(length as u64));
    }
    assert_eq!(list.save(&[b'l'; 256], &mut [7; 5000]), refused(5));
    assert_eq!(into_sevens(400, &file(&[b'l'; 256], &[0])), refused(5));
    assert_eq!(into_sevens(400, &file(&[b'l'; 70_000], &[0])), refused(5));
}

/// The words stand at any byte, not only at every eighth.
#[test]
fn words_at_every_byte() {
    let mut list = some_of_each();
    let used = list.used() as usize;
    for length in 0..=255 {
        // a label of words that would be entries, were they read as such
        let label: Vec<u8> = [5, 1, 0, 0, 0, 0, 0, 0].into_iter().cycle().take(length).collect();
        let bytes = list.file(&label);
        assert_eq!(bytes[..length], label);
        let mut other = List { words: vec![7; used] };
        assert_eq!(other.load(&bytes), Reply::Number(length as u64));
        assert!(other.words == list.words[..used]);
    }
}

/// The writer: 1, 5, 11.
#[test]
fn order_of_the_writer() {
    let (mut list, long) = (List::fresh(94), [0; 256]);
    assert_eq!(save(&[7; 94], &long, &mut []), refused(1));
    assert_eq!(save(&[7; 93], &long, &mut []), refused(1));
    assert_eq!(save(&vec![0; 1_048_577], b"", &mut [0; 99]), refused(1));
    assert_eq!(list.save(&long, &mut []), refused(5));
    assert_eq!(list.save(&long[1..], &mut [7; 270]), refused(11));
    assert_eq!(list.save(&long[1..], &mut [7; 271]), Reply::Number(271));
    assert_eq!(list.save(b"", &mut [7; 15]), refused(11));
    assert_eq!(list.save(b"", &mut [7; 100]), Reply::Number(16));
}

/// The loader: 1 (the list's length only), 14, 15, 5, 12. Each file has all faults from the second on, and then one fewer.
#[test]
fn order_of_the_loader() {
    let long = [0; 256];
    let no_trailer_fits = with_trailer(&long, &[257], 256, 2);
    let no_store = file(&long, &[257]);
    let label_too_long = file(&long, &[0]);
    let good = file(&long[1..], &[0]);
    for length in [0, 1, 93, 1_048_577] {
        assert_eq!(load(&mut vec![7; length], &no_trailer_fits), refused(1));
        assert_eq!(load(&mut vec![7; length], &good), refused(1));
    }
    assert_eq!(into_sevens(94, &no_trailer_fits), refused(14));
    assert_eq!(into_sevens(94, &no_store), refused(15));
    assert_eq!(into_sevens(94, &label_too_long), refused(5));
    assert_eq!(into_sevens(94, &good), refused(12));
    assert_eq!(into_sevens(95, &good), Reply::Number(255));
}

#[test]
fn a_trailer_is_there_and_fits() {
    for length in 0..16 {
        assert_eq!(into_sevens(94, &vec![0; length]), refused(14), "{length} bytes");
    }
    assert_eq!(into_sevens(94, &[0; 16]), Reply::Number(0));
    for (start, number, row) in [(8, 0, None), (0, 1, Some(15)), (7, 0, Some(14)), (9, 0, Some(14)), (0, 0, Some(14)), (8, 1, Some(14))] {
        let bytes = with_trailer(b"eightchr", &[], start, number);
        assert_eq!(into_sevens(200, &bytes), row.map_or(Reply::Number(8), refused), "{start} and {number}");
    }
}

/// "trailer [..] not fitting the length": sums that fit modulo 2 to the 64 do not fit.
#[test]
fn sums_do_not_wrap() {
    let last = u64::MAX;
    for (start, number) in [(0, 1 << 61), (last - 7, 1), (8, last >> 3), (8, last), (16, last - 1), (1 << 63, 1 << 60), (last - 15, 2)] {
        assert_eq!(start.wrapping_add(number.wrapping_mul(8)), 0, "a sum that wraps to the length");
        assert_eq!(into_sevens(200, &with_trailer(b"", &[], start, number)), refused(14), "{start} and {number}");
    }
    // a good file but for that
    let words = [65_536, 97];
    for number in [2 + (1 << 61), 2 + (7 << 61), 2 + (1 << 63)] {
        assert_eq!(into_sevens(200, &with_trailer(b"l", &words, 1, number)), refused(14), "{number}");
    }
    assert_eq!(into_sevens(200, &with_trailer(b"l", &words, 1, 2)), Reply::Number(1));
}

/// Entries that fill so many words: names that all differ, of 32 words but for the last, so that few of them fill the longest list.
fn names(words: usize) -> Vec<u64> {
    let name = |i: usize| {
        let mut name = vec![i as u64; (words - 32 * i).min(32)];
        name[0] = 8 * (name.len() as u64 - 1) * 65_536;
        name
    };
    (0..words.div_ceil(32)).flat_map(name).collect()
}

/// "words that behind the fresh ones form no store of any allowed length": whatever the lent list's length.
#[test]
fn a_store_of_no_allowed_length() {
    let (longest, longer) = (file(b"", &names(1_048_482)), file(b"", &names(1_048_483)));
    assert_eq!(load(&mut vec![7; 1_048_576], &longest), Reply::Number(0));
    assert_eq!(load(&mut vec![7; 1_048_575], &longest), refused(12));
    for length in [94, 1_048_575, 1_048_576] {
        assert_eq!(load(&mut vec![7; length], &longer), refused(15), "{length} words");
    }
}

/// "or one with two equal entries": the fresh ones count, and what a label has does not.
#[test]
fn equal_entries() {
    for entry in [&[257][..], &[258], &[259], &[260], &[261, 0, 0], &[262, 64, 0], &[264, 1], &[131_591, 7, 8], &[522, 18, 1]] {
        assert_eq!(into_sevens(200, &file(b"", entry)), refused(15), "{entry:?}");
    }
    assert_eq!(into_sevens(200, &file(b"", &[0])), Reply::Number(0));
    assert_eq!(into_sevens(200, &file(b"", &[0, 0])), refused(15));
    assert_eq!(into_sevens(200, &file(b"", &[261, 7, 7, 261, 7, 7])), refused(15));
    assert_eq!(into_sevens(200, &file(b"", &[261, 7, 7, 261, 7, 8])), Reply::Number(0));
    // a tuple and, elsewhere, an Int have the same words behind their heads
    assert_eq!(into_sevens(200, &file(b"", &[131_591, 5, 6, 261, 5, 6])), Reply::Number(0));
}

/// The writer tests row 1 alone, and so writes a store with copies; "It takes just the files that the writer makes from stores grown by
/// calls".
#[test]
fn copies_are_written_and_not_loaded() {
    let mut list = List::fresh(200);
    let int = list.int(3, 4);
    assert_eq!(into_sevens(200, &list.file(b"")), Reply::Number(0));
    list.copy(int, 3);
    assert_eq!(into_sevens(200, &list.file(b"")), refused(15));
}

#[test]
fn words_that_are_no_entries() {
    // an unfinished entry, handles of no entry, of a later one and of itself, a wrong depth, kinds 12 and 13, n too large, no zero fill
    let words: [&[u64]; 11] = [
        &[261, 3],
        &[66_055, 2],
        &[66_055, 96, 0],
        &[66_055, 94],
        &[66_311, 9],
        &[524, 1, 5],
        &[13],
        &[1 << 24],
        &[65_536, 0x6161],
        &[522, 9, 0],
        &[262, 63, 0],
    ];
    for entry in words {
        assert_eq!(into_sevens(200, &file(b"", entry)), refused(15), "{entry:?}");
    }
    assert_eq!(into_sevens(200, &file(b"", &[66_055, 9])), Reply::Number(0));
}

/// "A loaded store counts as grown from a fresh one": makers alone make it, entry by entry, each entry a new one.
#[test]
fn each_changed_byte_is_refused_or_gives_a_grown_store() {
    let mut list = some_of_each();
    let good = list.file(b"lab");
    let mut accepted = 0;
    for at in 0..good.len() {
        for byte in (0..=255).filter(|&byte| byte != good[at]) {
            let mut bytes = good.clone();
            bytes[at] = byte;
            let mut other = vec![7; 300];
            match load(&mut other, &bytes) {
                Reply::Number(3) => {
                    accepted += 1;
                    assert!(rebuilt::is_rebuilt(&other), "byte {at} set to {byte}");
                }
                // a label of another length, or no label that fits
                Reply::Refused(14 | 15) => assert!(other.iter().all(|&word| word == 7)),
                reply => panic!("byte {at} set to {byte}: {reply:?}"),
            }
        }
    }
    // the label's three bytes, the bytes of names, ends of Ints, bits and aliases
    assert!(accepted > 3 * 255, "{accepted}");
}

#[test]
fn each_cut_is_refused() {
    let mut list = some_of_each();
    let good = list.file(b"lab");
    for length in 0..good.len() {
        let reply = into_sevens(300, &good[..length]);
        assert!(matches!(reply, Reply::Refused(14 | 15)), "cut to {length}: {reply:?}");
    }
}

/// Calls on a loaded store answer what they answer on the grown one.
#[test]
fn a_loaded_store_is_as_the_grown_one() {
    let mut list = some_of_each();
    let bytes = list.file(b"");
    let mut other = List { words: vec![7; list.words.len()] };
    assert_eq!(other.load(&bytes), Reply::Number(0));
    let handles: Vec<u64> = (94..list.used()).collect();
    for &a in &handles {
        for call in [Call::Dual(a), Call::Glb(a), Call::Meet(a, 91), Call::MakeRo(a), Call::GetTuple(&[a, 9]), Call::Kind(a)] {
            assert_eq!(other.call(&call), list.call(&call), "{call:?}");
            assert!(other.words == list.words, "{call:?}");
        }
    }
}
