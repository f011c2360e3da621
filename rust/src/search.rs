use crate::{calls, Handle};

/// What the search for an entry tells: see [`Store::find_entry`](crate::Store::find_entry).
#[derive(Clone, Copy, PartialEq, Eq, Debug)]
pub struct Search {
    /// The lowest handle of an equal entry, or `None` where there is no such entry.
    pub handle: Option<Handle>,
    /// How many entries were not passed over: those of an equal head, up to the one found and with it, or all of them where none is found.
    pub count: u64,
}

impl Search {
    /// What it tells of a store's words, which are well formed: it refuses no others.
    pub(crate) fn in_store(words: &[u64], entry: &[u64]) -> Search {
        calls::find_entry(words, entry).expect("a store's words are well formed")
    }
}
