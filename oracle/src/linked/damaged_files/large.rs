//! Files of many entries, all of them different, or but for one.

use crate::linked::catalogues::File;

/// Where in a cycle of words each entry starts, and its size: an Int, a name, a tuple of that Int, a forward reference of that name, memory.
const ENTRIES: [(usize, usize); 5] = [(0, 3), (3, 2), (5, 2), (7, 2), (9, 3)];
const CYCLE: usize = 12;

pub const PARTS: usize = ENTRIES.len();

/// No store has more.
pub const MOST_CYCLES: usize = (1_048_576 - 94) / CYCLE;

/// Entries of five kinds over and over, no two of them equal.
pub fn mixed(cycles: usize) -> Vec<u64> {
    let cycle = |i: usize| {
        let (handle, i) = ((94 + CYCLE * i) as u64, i as u64);
        [261, i + 3, i + 1000, 8 * 65_536, i, 66_055, handle, 265, handle + 3, 523, i, 5]
    };
    (0..cycles).flat_map(cycle).collect()
}

/// The same with one of the last cycle's entries equal to that of another cycle.
pub fn with_copy(words: &[u64], part: usize, from: usize) -> Vec<u64> {
    let mut words = words.to_vec();
    let ((start, size), last) = (ENTRIES[part], words.len() - CYCLE);
    let from = CYCLE * from + start;
    words.copy_within(from..from + size, last + start);
    words
}

/// A file of so many words: names that all differ, of 32 words but for the last.
pub fn of_names(words: usize) -> Vec<u8> {
    let name = |i: usize| {
        let mut name = vec![i as u64; (words - 32 * i).min(32)];
        name[0] = 8 * (name.len() as u64 - 1) * 65_536;
        name
    };
    File { label: vec![], words: (0..words.div_ceil(32)).flat_map(name).collect() }.bytes()
}
