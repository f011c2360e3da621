//! The entries of a list's words, as far as these are a store: what calls by chance are made of. Nothing here decides what a call answers.

use crate::filling::Shelf;

#[derive(Clone, Copy)]
pub struct Entry {
    pub handle: u64,
    pub kind: u8,
    pub depth: u64,
    /// How many words it has, its head included.
    pub size: usize,
    /// How many types a walk over it meets if it visits shared parts again and again.
    pub visits: u64,
    /// Whether it is a memory type or a forward reference, or has one among its parts, or theirs.
    pub reaches_mem_or_fref: bool,
}

/// The entries in the order of their handles, up to the first word that is not read yet.
pub struct Entries {
    pub list: Vec<Entry>,
    end: usize,
}

impl Default for Entries {
    fn default() -> Self {
        Entries { list: vec![], end: 1 }
    }
}

impl Entries {
    /// Reads on to the end of the used words, or to where they are no entries.
    pub fn read_on(&mut self, words: &[u64]) {
        let used = words.first().map_or(0, |used| (*used).min(words.len() as u64)) as usize;
        while self.end < used {
            let head = words[self.end];
            let (kind, depth, n) = (head as u8, head / 256 % 256, (head / 65_536 % 256) as usize);
            let Some(size) = size_of(kind, n).filter(|size| self.end + size <= used) else {
                return;
            };
            let entry = &words[self.end..self.end + size];
            let parts = || types_within(entry).filter_map(|k| self.at(entry[k]));
            let visits = parts().map(|part| part.visits).fold(1, u64::saturating_add);
            let reaches_mem_or_fref = [9, 11].contains(&kind) || parts().any(|part| part.reaches_mem_or_fref);
            self.list.push(Entry { handle: self.end as u64, kind, depth, size, visits, reaches_mem_or_fref });
            self.end += size;
        }
    }

    /// The entry that a handle starts.
    pub fn at(&self, handle: u64) -> Option<&Entry> {
        self.list.binary_search_by_key(&handle, |entry| entry.handle).ok().map(|place| &self.list[place])
    }

    /// The handles from this word on.
    pub fn handles_from(&self, word: usize) -> Vec<u64> {
        let first = self.list.partition_point(|entry| (entry.handle as usize) < word);
        self.list[first..].iter().map(|entry| entry.handle).collect()
    }
}

impl Shelf for Entries {
    fn used(&self) -> usize {
        self.end
    }

    fn count(&self) -> usize {
        self.list.len()
    }

    fn entry(&self, place: usize) -> (u64, u8, u64) {
        let entry = &self.list[place];
        (entry.handle, entry.kind, entry.depth)
    }
}

fn size_of(kind: u8, n: usize) -> Option<usize> {
    match kind {
        0 => Some(1 + n.div_ceil(8)),
        1..=4 => Some(1),
        5 | 6 | 10 | 11 => Some(3),
        7 => Some(1 + n),
        8 => Some(2 + 3 * n),
        9 => Some(2),
        _ => None,
    }
}

/// Which words of an entry are handles of types.
fn types_within(entry: &[u64]) -> impl Iterator<Item = usize> {
    let (first, step) = match entry[0] as u8 {
        7 => (1, 1),
        8 => (3, 3),
        10 => (1, entry.len()),
        11 => (2, entry.len()),
        _ => (entry.len(), 1),
    };
    (first..entry.len()).step_by(step)
}
