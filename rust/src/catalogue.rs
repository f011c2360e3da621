/// How many bytes the label of a saved store has at most.
pub const LONGEST_LABEL: usize = 255;

/// How many bytes the longest file has: that of a store of 1,048,576 words, all of them used, with the longest label.
pub const LONGEST_FILE: usize = file_length(LONGEST_LABEL, 1_048_576);

/// How many words every store begins with, which no file holds.
const FRESH: usize = 94;

/// How many bytes a trailer has: two words.
const TRAILER: usize = 16;

/// How many bytes the file of a store has: with a label of so many bytes, and so many words used.
///
/// ```
/// use ferigulan::{file_length, Store};
///
/// let mut words = [0; 200];
/// let mut store = Store::fresh(&mut words)?;
/// assert_eq!(file_length(0, store.used()), 16);
/// store.make_int(0, 7)?;
/// assert_eq!(file_length(4, store.used()), 4 + 8 * 3 + 16);
/// # Ok::<(), ferigulan::Refusal>(())
/// ```
///
/// # Panics
///
/// Where the words are fewer than the 94 that every store uses.
pub const fn file_length(label: usize, used: usize) -> usize {
    assert!(used >= FRESH, "a store uses 94 words at least");
    label + 8 * (used - FRESH) + TRAILER
}
