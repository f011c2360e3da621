//! Document 02, Slip 2: the search for an equal entry, and the number of entries not passed over.

mod common;

use common::List;
use reading::{answer, Call, Reply};

fn search(list: &mut List, entry: &[u64]) -> Reply {
    list.call(&Call::FindEntry(entry))
}

fn found(handle: u64, count: u64) -> Reply {
    Reply::Searched(Some(handle), count)
}

fn absent(count: u64) -> Reply {
    Reply::Searched(None, count)
}

/// "exactly those of equal head up to the one found": the fresh Ints are at 9, 12, 15, 22, 25, 28 and six more.
#[test]
fn those_of_equal_head_are_counted() {
    let mut list = List::fresh(94);
    assert_eq!(search(&mut list, &[261, 0, 0]), found(9, 1));
    assert_eq!(search(&mut list, &[261, 2, 2]), found(28, 6));
    assert_eq!(search(&mut list, &[261, 3, 3]), absent(12));
    assert_eq!(search(&mut list, &[131_591, 8, 7]), found(73, 4));
    assert_eq!(search(&mut list, &[522, 18, 1]), found(88, 3));
    assert_eq!(search(&mut list, &[258]), found(6, 1));
}

/// A head is the whole word: kind, depth and n.
#[test]
fn another_head_is_passed_over() {
    let mut list = List::fresh(200);
    let pair = list.handle(&Call::GetTuple(&[64, 64]));
    assert_eq!(search(&mut list, &[131_847, 64, 64]), found(pair, 1));
    assert_eq!(search(&mut list, &[131_591, 64, 64]), absent(4));
    assert_eq!(search(&mut list, &[65_799, 64]), absent(0));
    assert_eq!(search(&mut list, &[261 + (1 << 32), 0, 0]), absent(0));
}

/// All its words, and no others: not the first of them, nor more.
#[test]
fn an_entry_of_another_length_is_not_equal() {
    let mut list = List::fresh(200);
    for entry in [&[261][..], &[261, 0], &[261, 0, 0, 0], &[261, 0, 0, 261, 1, 1]] {
        assert_eq!(search(&mut list, entry), absent(12), "{entry:?}");
    }
}

/// "The lowest equal entry still wins", and what stands behind it is not counted.
#[test]
fn copies() {
    let mut list = List::fresh(200);
    let three = list.int(3, 3);
    let (zero, copy) = (list.copy(9, 3), list.copy(three, 3));
    assert_eq!((three, zero, copy), (94, 97, 100));
    assert_eq!(search(&mut list, &[261, 0, 0]), found(9, 1));
    assert_eq!(search(&mut list, &[261, 3, 3]), found(three, 13));
    assert_eq!(search(&mut list, &[261, 9, 9]), absent(15));
}

/// Zero words behind the used ones are no empty names; those that are used are.
#[test]
fn empty_names() {
    let mut list = List::fresh(200);
    assert_eq!(search(&mut list, &[0]), absent(0));
    let first = list.append(&[0]);
    list.append(&[0]);
    assert_eq!(search(&mut list, &[0]), found(first, 1));
    assert_eq!(search(&mut list, &[]), absent(2));
}

#[test]
fn row_one_alone_refuses() {
    for words in [&mut [][..], &mut [0; 93], &mut [0; 94], &mut [7; 200]] {
        assert_eq!(answer(words, &Call::FindEntry(&[261, 0, 0]), &mut []), Reply::Refused(1));
    }
    let mut list = List::fresh(94);
    assert_eq!(search(&mut list, &[u64::MAX; 2000]), absent(0));
}

/// It appends nothing, also where the list is full; what is made next is found as the last of its head.
#[test]
fn what_is_made_is_found() {
    let mut list = List::fresh(97);
    assert_eq!(search(&mut list, &[261, 3, 4]), absent(12));
    assert_eq!((list.int(3, 4), list.used()), (94, 97));
    assert_eq!(search(&mut list, &[261, 3, 4]), found(94, 13));
    assert_eq!(search(&mut list, &[261, 3, 5]), absent(13));
}
