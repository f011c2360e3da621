//! The library, by one of the ways to it: the crate `ferigulan`, or its functions as C declares them.

use reading::{Call, Reply};

/// A lent list and the calls on it.
pub trait Door {
    /// What the library replies; or what it did that no call may do.
    fn answer(&mut self, call: &Call, output: &mut [u64]) -> Result<Reply, String>;

    /// Writes the list's store and a label as a file: likewise.
    fn save(&mut self, label: &[u8], file: &mut [u8]) -> Result<Reply, String>;

    /// Loads a file into the list, which is not open: likewise.
    fn load(&mut self, file: &[u8]) -> Result<Reply, String>;

    fn words(&self) -> &[u64];

    /// The words to be written by a planted mistake, where that can be done.
    fn words_mut(&mut self) -> Option<&mut [u64]>;
}

/// What the list is opened with.
pub struct Lists<'l> {
    pub words: &'l mut [u64],
    pub index: &'l mut [u64],
    pub memory: &'l mut [u64],
}

/// A list with guard words before and behind it, which nobody may write.
pub struct Guarded {
    all: Vec<u64>,
}

const GUARDS: usize = 16;
const GUARD: u64 = 0x5afe_0b0d_1e5a_fe00;

impl Guarded {
    pub fn new(words: impl ExactSizeIterator<Item = u64>) -> Guarded {
        let mut all = Vec::with_capacity(words.len() + 2 * GUARDS);
        all.extend([GUARD; GUARDS]);
        all.extend(words);
        all.extend([GUARD; GUARDS]);
        Guarded { all }
    }

    pub fn filled(length: usize, word: u64) -> Guarded {
        Guarded::new(std::iter::repeat_n(word, length))
    }

    /// The same list if it has this length, else another with any words in it.
    pub fn with_length(self, length: usize) -> Guarded {
        match self.words().len() == length {
            true => self,
            false => Guarded::new((0..length).map(|i| (i as u64).wrapping_mul(0x9e37_79b9_7f4a_7c15))),
        }
    }

    /// The list, and the guard words around it.
    pub fn split(&mut self) -> (&mut [u64], [&[u64]; 2]) {
        let (before, rest) = self.all.split_at_mut(GUARDS);
        let (words, behind) = rest.split_at_mut(rest.len() - GUARDS);
        (words, [before, behind])
    }

    pub fn words(&self) -> &[u64] {
        &self.all[GUARDS..self.all.len() - GUARDS]
    }
}

/// Whether guard words are what they were. The compiler is not to know that nobody may have written them.
pub fn are_kept(guards: &[&[u64]]) -> bool {
    guards.iter().all(|guard| std::hint::black_box(*guard).iter().all(|word| *word == GUARD))
}
