//! Document 02, Slip 3: "A saved catalogue". Writer and reader go from the slip's sentences alone: a file is taken apart by its trailer, and
//! its words are put behind the fresh ones into a list of our own, which row 1 and a search for equal entries then judge.

use std::collections::HashSet;

use crate::entry::{length, MOST};
use crate::fresh;
use crate::refusals::{refuse_if, Refusal};
use crate::row_one::{kinds_at, length_is_right, LONGEST};

/// "eight bytes each, lowest byte first".
const WORD: usize = 8;

/// "A trailer of two such words closes it".
const TRAILER: usize = 2 * WORD;

/// "The store's used words from 94 on": the fresh ones are not written.
const FIRST: usize = fresh::WORDS.len();

/// The call. "The writer answers the file's length". Bytes past the file keep, as "words of an output past its answer keep".
pub fn save(words: &[u64], label: &[u8], output: &mut [u8]) -> Result<u64, Refusal> {
    refuse_if(kinds_at(words).is_none(), 1)?;
    // "Row 5 covers a label over 255 bytes, row 11 the writer's output."
    refuse_if(label.len() > MOST, 5)?;
    let file = written(&words[FIRST..words[0] as usize], label);
    refuse_if(output.len() < file.len(), 11)?;
    output[..file.len()].copy_from_slice(&file);
    Ok(file.len() as u64)
}

/// "The file is a label of 0 to 255 bytes, then the store's used words from 94 on [..]. A trailer of two such words closes it: the byte
/// position where the words start, and their number."
fn written(words: &[u64], label: &[u8]) -> Vec<u8> {
    let trailer = [label.len() as u64, words.len() as u64];
    let after = words.iter().chain(&trailer).flat_map(|word| word.to_le_bytes());
    label.iter().copied().chain(after).collect()
}

/// The call. "the reader works back from the end and answers the label's" length.
pub fn load(words: &mut [u64], file: &[u8]) -> Result<u64, Refusal> {
    // "of row 1 it tests that list's length only"
    refuse_if(!length_is_right(words), 1)?;
    // "14, trailer missing or not fitting the length, after 1"
    let (label, after) = parts(file).ok_or(14)?;
    // "15, words that behind the fresh ones form no store of any allowed length, or one with two equal entries, after 14"
    let store = store_of(after).filter(|store| kinds_at(store).is_some() && all_differ(store)).ok_or(15)?;
    refuse_if(label.len() > MOST, 5)?;
    // "row 12 covers a list too short"
    refuse_if(words.len() < store.len(), 12)?;
    // "The loader fills a lent list with the store written and zeroes its rest"
    let (front, rest) = words.split_at_mut(store.len());
    front.copy_from_slice(&store);
    rest.fill(0);
    Ok(label.len() as u64)
}

/// The label and the words' bytes; None where the trailer does not say how long the file is. In 128 bits no sum wraps.
fn parts(file: &[u8]) -> Option<(&[u8], &[u8])> {
    let (before, trailer) = file.split_at_checked(file.len().checked_sub(TRAILER)?)?;
    let (start, number) = (word(&trailer[..WORD]), word(&trailer[WORD..]));
    let fits = u128::from(start) + 8 * u128::from(number) == before.len() as u128;
    fits.then(|| before.split_at(start as usize))
}

fn word(bytes: &[u8]) -> u64 {
    bytes.iter().rev().fold(0, |word, &byte| word * 256 + u64::from(byte))
}

/// The words behind the fresh ones, in a list that is just long enough; None where no list is.
fn store_of(bytes: &[u8]) -> Option<Vec<u64>> {
    let used = FIRST + bytes.len() / WORD;
    if used > LONGEST {
        return None;
    }
    let mut store = fresh::WORDS.to_vec();
    store[0] = used as u64;
    store.extend(bytes.chunks_exact(WORD).map(word));
    Some(store)
}

/// Whether no two entries of a store, the fresh ones among them, have equal words.
fn all_differ(store: &[u64]) -> bool {
    let mut entries = HashSet::new();
    let mut rest = &store[1..];
    while let [head, ..] = rest {
        let (entry, behind) = rest.split_at(length(*head));
        if !entries.insert(entry) {
            return false;
        }
        rest = behind;
    }
    true
}
