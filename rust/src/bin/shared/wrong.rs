//! What is wrong with words that are not well formed, in document 01's words. The verdict itself is the library's (row 1); this says why,
//! and is outside what is proved.
use crate::entries::{counts, kind_name, Entry};
use crate::spelling::grouped;
use ferigulan::{calls, Kind};
use std::fmt;

/// How many words a store may have, at least and at most.
pub const SHORTEST: usize = 94;
pub const LONGEST: usize = 1_048_576;

const LARGEST_ALIAS: u64 = 4_294_967_295;

/// What is wrong, and at which word if it is one.
pub struct Wrong {
    pub at: Option<usize>,
    pub what: String,
}

impl fmt::Display for Wrong {
    fn fmt(&self, f: &mut fmt::Formatter<'_>) -> fmt::Result {
        match self.at {
            Some(at) => write!(f, "word {at}: {}", self.what),
            None => f.write_str(&self.what),
        }
    }
}

/// What is wrong at a word.
pub fn wrong(at: usize, what: String) -> Option<Wrong> {
    Some(Wrong { at: Some(at), what })
}

/// How many words are in use: what word 0 says, and no more than there are.
pub fn used(words: &[u64]) -> usize {
    words.first().map_or(0, |used| usize::try_from(*used).unwrap_or(usize::MAX).min(words.len()))
}

/// What is wrong with the list as a whole: its length, word 0, the fresh words, the words past the used ones.
pub fn in_list(words: &[u64]) -> Vec<Wrong> {
    [length(words), used_count(words), fresh_words(words), unused_words(words)].into_iter().flatten().collect()
}

/// "94 to 1,048,576 of them"
fn length(words: &[u64]) -> Option<Wrong> {
    let n = words.len();
    let what = || format!("the list has {} words, not {SHORTEST} to {}", grouped(n as u64), grouped(LONGEST as u64));
    (!(SHORTEST..=LONGEST).contains(&n)).then(|| Wrong { at: None, what: what() })
}

/// "word 0 is from 94 to the list's length"
fn used_count(words: &[u64]) -> Option<Wrong> {
    let (used, n) = (*words.first()?, words.len());
    if (SHORTEST as u64..=n as u64).contains(&used) {
        return None;
    }
    wrong(0, format!("{used}, not from {SHORTEST} to the list's length, {n}"))
}

/// "words 1 to 93 are the fresh ones"
pub fn fresh_words(words: &[u64]) -> Option<Wrong> {
    let mut fresh = [0; SHORTEST];
    calls::fresh(&mut fresh).ok()?;
    let at = (1..words.len().min(SHORTEST)).find(|i| words[*i] != fresh[*i])?;
    wrong(at, format!("{}, not the fresh store's {}", words[at], fresh[at]))
}

/// "all words past them are 0"
fn unused_words(words: &[u64]) -> Option<Wrong> {
    let used = used(words);
    let at = used + words[used..].iter().position(|word| *word != 0)?;
    wrong(at, format!("{}, not 0, past the words used", words[at]))
}

/// What is wrong with an entry by itself: "n is 0 for the other kinds", "every value is one a maker accepts".
pub fn in_values(entry: &Entry) -> Option<Wrong> {
    if entry.n != 0 && !counts(entry.kind) {
        return wrong(entry.handle as usize, format!("n is {}, where 0 is right for {}", entry.n, kind_name(entry.kind)));
    }
    let (i, what) = match entry.kind {
        Kind::Name => zero_fill(entry),
        Kind::Float => float(entry.words[0], entry.words[1]),
        Kind::Struct => (3..entry.words.len()).step_by(3).find_map(|i| alias(i, entry.words[i] / 2)),
        Kind::MemPtr => flag(1, entry.words[1]),
        Kind::Mem => alias(0, entry.words[0]),
        _ => None,
    }?;
    wrong(entry.handle as usize + 1 + i, what)
}

/// Which word after the head is wrong, and how.
type InWord = Option<(usize, String)>;

fn zero_fill(name: &Entry) -> InWord {
    let bits = 8 * (name.n % 8);
    let last = name.words.len().checked_sub(1)?;
    (bits != 0 && name.words[last] >> bits != 0).then(|| (last, "no zero fill behind the name's bytes".to_string()))
}

fn float(stored_size: u64, bits: u64) -> InWord {
    let size = stored_size.wrapping_sub(64) as i64;
    match size {
        0 => None,
        -64 | -32 | 32 | 64 if bits == 0 => None,
        -64 | -32 | 32 | 64 => Some((1, format!("size {size}, not 0, with bits not 0"))),
        _ => Some((0, format!("float size {size}, not 0, ±32, ±64"))),
    }
}

fn alias(i: usize, alias: u64) -> InWord {
    (alias > LARGEST_ALIAS).then(|| (i, format!("alias {alias}, over {}", grouped(LARGEST_ALIAS))))
}

fn flag(i: usize, flag: u64) -> InWord {
    (flag > 1).then(|| (i, format!("flag {flag}, not 0 or 1")))
}
