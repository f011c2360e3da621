//! Document 02, Slip 2: "the search for an equal entry", and beside its answer "the number of entries not passed over".

use crate::entry::Handle;
use crate::store::Store;

/// The handle of the entry found, if there is one, and the number.
pub fn find_entry(store: &Store, entry: &[u64]) -> (Option<Handle>, u64) {
    // "The lowest equal entry still wins."
    let found = store.handles().find(|&handle| store.entry(handle) == entry);
    // "exactly those of equal head up to the one found, or all of equal head where none is found"; the one found is among them
    let up_to_it = store.handles().take_while(|&handle| found.is_none_or(|found| handle <= found));
    let count = up_to_it.filter(|&handle| store.entry(handle)[0] == head(entry)).count();
    (found, count as u64)
}

/// What is sought may have no words, as no entry of a store has: a word that is not there reads as 0.
fn head(entry: &[u64]) -> u64 {
    entry.first().copied().unwrap_or(0)
}
