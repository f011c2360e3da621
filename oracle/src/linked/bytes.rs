//! Bytes that the library is lent: a file, or an output for one.

/// Bytes with guard bytes before and behind them, which nobody may write.
pub struct GuardedBytes {
    all: Vec<u8>,
    /// How many guard bytes stand before them.
    before: usize,
}

const GUARDS: usize = 64;
const GUARD: u8 = 0xa7;

impl GuardedBytes {
    /// The bytes, from this place of a word on (modulo 8): a file may stand anywhere.
    pub fn new(bytes: impl ExactSizeIterator<Item = u8>, place: usize) -> GuardedBytes {
        let before = GUARDS + place % 8;
        let mut all = Vec::with_capacity(before + bytes.len() + GUARDS);
        all.resize(before, GUARD);
        all.extend(bytes);
        all.resize(all.len() + GUARDS, GUARD);
        GuardedBytes { all, before }
    }

    pub fn bytes(&self) -> &[u8] {
        &self.all[self.before..self.all.len() - GUARDS]
    }

    pub fn bytes_mut(&mut self) -> &mut [u8] {
        let end = self.all.len() - GUARDS;
        &mut self.all[self.before..end]
    }

    /// Whether the guard bytes are what they were. The compiler is not to know that nobody may have written them.
    pub fn are_guards_kept(&self) -> bool {
        let all = std::hint::black_box(&self.all[..]);
        let (before, behind) = (&all[..self.before], &all[all.len() - GUARDS..]);
        before.iter().chain(behind).all(|byte| *byte == GUARD)
    }
}
