//! `diff`: what only one of two catalogues holds. Entries are compared as what they are, not by their handles, which differ between stores.
use crate::entries::{kind_name, Entry};
use crate::file::{good, Catalogue};
use crate::label::label;
use crate::put;
use crate::readable::readable;
use crate::shared::command::{usage, Failure, Status};
use crate::summary::{entries, saved_entries};
use crate::walk::walk;
use std::collections::{HashMap, HashSet};
use std::ffi::OsStr;
use std::io::{self, Write};

/// Gives equal entries of two stores one number: that of their words, with the numbers of their parts in the place of handles. Parts come
/// first in a store, so each has its number when it is asked for.
#[derive(Default)]
struct Numbers {
    of: HashMap<Vec<u64>, u64>,
}

impl Numbers {
    fn number(&mut self, entry: &Entry, of_part: &HashMap<u64, u64>) -> u64 {
        let mut key = vec![entry.kind.number(), entry.n];
        key.extend(entry.words);
        for part in entry.parts() {
            key[2 + part] = of_part[&entry.words[part]];
        }
        let next = self.of.len() as u64;
        *self.of.entry(key).or_insert(next)
    }

    /// The number of each entry of a store, by its handle.
    fn of_store(&mut self, words: &[u64]) -> HashMap<u64, u64> {
        let mut numbers = HashMap::new();
        for entry in walk(words).filter_map(|step| step.entry) {
            let number = self.number(&entry, &numbers);
            numbers.insert(entry.handle, number);
        }
        numbers
    }
}

/// One of the two, with the numbers of its entries.
struct Side {
    name: String,
    catalogue: Catalogue,
    numbers: HashMap<u64, u64>,
}

impl Side {
    /// The entries that the other has not.
    fn alone(&self, other: &Side) -> Vec<Entry<'_>> {
        let there: HashSet<u64> = other.numbers.values().copied().collect();
        saved_entries(&self.catalogue.words).filter(|entry| !there.contains(&self.numbers[&entry.handle])).collect()
    }

    fn put_alone(&self, alone: &[Entry], out: &mut impl Write) -> io::Result<()> {
        if alone.is_empty() {
            return Ok(());
        }
        writeln!(out, "only in {}: {}", self.name, entries(alone.len()))?;
        let words = &self.catalogue.words;
        alone
            .iter()
            .try_for_each(|entry| writeln!(out, "{:>7}  {:<6}  {}", entry.handle, kind_name(entry.kind), readable(words, entry.handle)))
    }
}

pub fn diff(a: &OsStr, b: &OsStr) -> Result<Status, Failure> {
    if a == "-" && b == "-" {
        return usage("diff takes standard input for one of the two alone".to_string());
    }
    let mut numbers = Numbers::default();
    let mut side = |file: &OsStr| {
        let (bytes, catalogue) = good(file)?;
        Ok(Side { name: bytes.name, numbers: numbers.of_store(&catalogue.words), catalogue })
    };
    let (a, b) = (side(a)?, side(b)?);
    let (only_a, only_b) = (a.alone(&b), b.alone(&a));
    let same_label = a.catalogue.label == b.catalogue.label;
    let same = same_label && only_a.is_empty() && only_b.is_empty();
    put(if same { Status::Fine } else { Status::Wanting }, |out| {
        if same_label {
            writeln!(out, "label of both: {}", label(&a.catalogue.label))?;
        } else {
            writeln!(out, "label of {}: {}", a.name, label(&a.catalogue.label))?;
            writeln!(out, "label of {}: {}", b.name, label(&b.catalogue.label))?;
        }
        a.put_alone(&only_a, out)?;
        b.put_alone(&only_b, out)?;
        let in_both = saved_entries(&a.catalogue.words).count() - only_a.len();
        writeln!(out, "in both: {}{}", entries(in_both), order(&a, &b))
    })
}

/// Whether what both hold has the same handles in both.
fn order(a: &Side, b: &Side) -> &'static str {
    let b_handles: HashMap<u64, u64> = b.numbers.iter().map(|(handle, number)| (*number, *handle)).collect();
    let moved = |(handle, number): (&u64, &u64)| b_handles.get(number).is_some_and(|other| other != handle);
    if a.numbers.iter().any(moved) {
        ", some of them at other handles"
    } else {
        ""
    }
}
