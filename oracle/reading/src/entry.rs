//! An entry's words, by the store's table.

use crate::kind;

/// "A handle is the position of an entry's first word."
pub type Handle = u64;

/// "n from 0 to 255".
pub const MOST: usize = 255;

/// "depth is right and at most 32".
pub const DEEPEST: u64 = 32;

/// "The head word is kind + 256 × depth + 65,536 × n".
pub const fn head(kind: u8, depth: u64, n: usize) -> u64 {
    kind as u64 + 256 * depth + 65_536 * n as u64
}

/// A head has no bits above n.
pub const HEADS_END: u64 = 1 << 24;

pub const fn kind(head: u64) -> u8 {
    (head % 256) as u8
}

pub fn depth(head: u64) -> u64 {
    head / 256 % 256
}

pub const fn n(head: u64) -> usize {
    (head / 65_536 % 256) as usize
}

/// How many words an entry has, its head included.
pub const fn length(head: u64) -> usize {
    match kind(head) {
        kind::NAME => 1 + n(head).div_ceil(8),
        kind::BOT | kind::TOP | kind::CTRL | kind::XCTRL => 1,
        kind::TUPLE => 1 + n(head),
        kind::STRUCT => 2 + 3 * n(head),
        kind::FREF => 2,
        _ => 3,
    }
}

/// "1 + the deepest type within (0 if none)", for these types within.
pub fn depth_around(words: &[u64], types: impl IntoIterator<Item = Handle>) -> u64 {
    1 + types.into_iter().map(|t| depth(words[t as usize])).max().unwrap_or(0)
}

/// "Depth: names 0; others 1 + the deepest type within (0 if none)."
pub fn right_depth(words: &[u64], entry: &[u64]) -> u64 {
    match kind(entry[0]) {
        kind::NAME => 0,
        kind::TUPLE => depth_around(words, entry[1..].iter().copied()),
        kind::STRUCT => depth_around(words, entry[2..].chunks_exact(3).map(|field| field[1])),
        kind::MEM_PTR => depth_around(words, [entry[1]]),
        kind::MEM => depth_around(words, [entry[2]]),
        _ => depth_around(words, []),
    }
}

/// A name's words after the head: "n bytes, eight a word, lowest first, zero fill".
pub fn name_words(bytes: &[u8]) -> Vec<u64> {
    let word = |eight: &[u8]| eight.iter().rev().fold(0, |word, &byte| word * 256 + u64::from(byte));
    bytes.chunks(8).map(word).collect()
}
