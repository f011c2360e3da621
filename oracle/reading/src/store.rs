//! The store that a call works on: words known to be well formed, where its entries start, and the search for equal ones.

use std::collections::HashMap;

use crate::entry::{kind, length, Handle};
use crate::kind::NO_ENTRY;
use crate::refusals::{Made, Refusal};

/// What is known of a store's words besides the words.
pub struct Marks {
    /// For each used word the kind of the entry that starts there, or `NO_ENTRY`.
    kinds: Vec<u8>,
    /// Each entry's words with the lowest handle of an entry equal to them; None while entries are sought by going through all.
    index: Option<HashMap<Box<[u64]>, Handle>>,
    scans: usize,
}

/// A call that has gone through all entries so often makes an index: otherwise its work could grow with the square of the list.
const MOST_SCANS: usize = 32;

impl Marks {
    pub fn new(kinds: Vec<u8>) -> Marks {
        Marks { kinds, index: None, scans: 0 }
    }

    pub fn with_index(words: &[u64], kinds: Vec<u8>) -> Marks {
        Marks { index: Some(index(words)), ..Marks::new(kinds) }
    }
}

/// The handles of the entries from this position on.
fn handles_from(words: &[u64], first: u64) -> impl Iterator<Item = Handle> + '_ {
    let inside = |at: &u64| *at < words[0];
    std::iter::successors(Some(first).filter(inside), move |&at| Some(at + length(words[at as usize]) as u64).filter(inside))
}

fn entry_at(words: &[u64], handle: Handle) -> &[u64] {
    let at = handle as usize;
    &words[at..at + length(words[at])]
}

fn index(words: &[u64]) -> HashMap<Box<[u64]>, Handle> {
    let mut index = HashMap::new();
    for handle in handles_from(words, 1) {
        index.entry(entry_at(words, handle).into()).or_insert(handle);
    }
    index
}

/// A store for one call.
pub struct Store<'w> {
    words: &'w mut [u64],
    marks: &'w mut Marks,
    /// Entries may be appended up to here.
    end: u64,
}

impl<'w> Store<'w> {
    pub fn new(words: &'w mut [u64], marks: &'w mut Marks) -> Store<'w> {
        let end = words.len() as u64;
        Store { words, marks, end }
    }

    pub fn words(&self) -> &[u64] {
        self.words
    }

    /// "Word 0 is the number of words used."
    pub fn used(&self) -> u64 {
        self.words[0]
    }

    /// None where the handle starts no entry.
    pub fn kind_at(&self, handle: Handle) -> Option<u8> {
        self.marks.kinds.get(handle as usize).copied().filter(|&kind| kind != NO_ENTRY)
    }

    /// In rising order.
    pub fn handles(&self) -> impl Iterator<Item = Handle> + '_ {
        handles_from(self.words, 1)
    }

    pub fn entry(&self, handle: Handle) -> &[u64] {
        entry_at(self.words, handle)
    }

    /// "Making an entry hands back the lowest handle of an equal entry, else appends one." 12 where it does not fit.
    pub fn make(&mut self, entry: &[u64]) -> Made {
        match self.find(entry) {
            Some(handle) => Ok(handle),
            None => self.append(entry),
        }
    }

    /// The lowest handle of an entry with just these words.
    fn find(&mut self, entry: &[u64]) -> Option<Handle> {
        if self.marks.index.is_none() && self.marks.scans < MOST_SCANS {
            self.marks.scans += 1;
            let same = |&at: &Handle| self.words[at as usize] == entry[0] && self.entry(at) == entry;
            return handles_from(self.words, 1).find(same);
        }
        self.marks.index.get_or_insert_with(|| index(self.words)).get(entry).copied()
    }

    fn append(&mut self, entry: &[u64]) -> Made {
        let handle = self.used();
        // 12: "the entries to append do not fit"
        if self.end - handle < entry.len() as u64 {
            return Err(12);
        }
        let at = handle as usize;
        self.words[at..at + entry.len()].copy_from_slice(entry);
        self.words[0] += entry.len() as u64;
        self.marks.kinds.resize(at + entry.len(), NO_ENTRY);
        self.marks.kinds[at] = kind(entry[0]);
        if let Some(index) = &mut self.marks.index {
            index.insert(entry.into(), handle);
        }
        Ok(handle)
    }

    /// From now on each entry that is not there is answered 12.
    pub fn append_nothing(&mut self) {
        self.end = self.used();
    }

    /// "store and outputs keep every word": takes back the entries appended since so many words were used.
    fn restore(&mut self, used: u64) {
        if let Some(index) = &mut self.marks.index {
            for handle in handles_from(self.words, used) {
                index.remove(entry_at(self.words, handle));
            }
        }
        let appended = used as usize..self.used() as usize;
        self.words[appended].fill(0);
        self.words[0] = used;
        self.marks.kinds.truncate(used as usize);
    }

    /// Works on the store; where that ends in a refusal the store is left as it was.
    pub fn or_restore<T>(&mut self, work: impl FnOnce(&mut Self) -> Result<T, Refusal>) -> Result<T, Refusal> {
        let used = self.used();
        let answer = work(self);
        if answer.is_err() {
            self.restore(used);
        }
        answer
    }
}
