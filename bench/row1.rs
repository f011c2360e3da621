// Row 1 written by hand in Rust, for comparison: document 01's rules, one pass over the words, a bitset of where entries start. Of the library it takes the fresh words alone.
use crate::stores::Store;

const SHORTEST: usize = 94;
const LONGEST: usize = 1_048_576;
const DEEPEST: u64 = 32;
const MOST: u64 = 255;
const LARGEST_ALIAS: u64 = 4_294_967_295;
// no kind: the head of a handle that starts no earlier entry
const NONE: u64 = 255;

pub struct Row1 {
    fresh: Vec<u64>,
    starts: Vec<u64>,
}

// The used words, the bits of the entries before one of them, and where that one begins.
struct Entry<'a> {
    words: &'a [u64],
    starts: &'a [u64],
    at: usize,
}

impl Entry<'_> {
    // The head of the earlier entry that a handle starts.
    #[inline(always)]
    fn head(&self, handle: u64) -> u64 {
        let h = handle as usize;
        if h >= self.at {
            return NONE;
        }
        // SAFETY: h is below `at`, which is the place of a used word, and there is a bit for each of them.
        let (bits, word) = unsafe { (*self.starts.get_unchecked(h / 64), *self.words.get_unchecked(h)) };
        if bits >> (h % 64) & 1 == 1 {
            word
        } else {
            NONE
        }
    }

    #[inline(always)]
    fn is_name(&self, handle: u64) -> bool {
        self.head(handle) % 256 == 0
    }

    // The depth of the earlier entry that a handle starts, where its kind is from low to high.
    #[inline(always)]
    fn depth(&self, handle: u64, low: u64, high: u64) -> Option<u64> {
        let head = self.head(handle);
        only((head % 256).wrapping_sub(low) <= high - low)?;
        Some(head / 256 % 256)
    }

    // The number of words, where the entry is right. Its kind is looked at once, so that the place of the next one is known early.
    #[inline(always)]
    fn size(&self) -> Option<usize> {
        // SAFETY: `at` is the place of a used word.
        let left = unsafe { self.words.get_unchecked(self.at..) };
        let head = left[0];
        let (depth, n) = (head / 256 % 256, head / 65_536);
        // the rest of the head of a type without parts: depth 1, no count
        let flat = only(head / 256 == 1);
        match head % 256 {
            0 => name(depth, n, left),
            1..=4 => flat.map(|_| 1),
            5 => flat.and(left.first_chunk::<3>()).map(|_| 3),
            6 => {
                let [_, size, bits] = flat.and(left.first_chunk())?;
                only(*size == 64 || *bits == 0 && *size <= 128 && size % 32 == 0).map(|_| 3)
            }
            7 => self.tuple(depth, n, left),
            8 => self.structure(depth, n, left),
            9 => {
                let [_, name] = flat.and(left.first_chunk())?;
                only(self.is_name(*name)).map(|_| 2)
            }
            10 => {
                let [_, to, nil] = left.first_chunk()?;
                only(n == 0 && *nil <= 1 && around(depth, self.depth(*to, 8, 9)?)).map(|_| 3)
            }
            11 => {
                let [_, alias, t] = left.first_chunk()?;
                only(n == 0 && *alias <= LARGEST_ALIAS && around(depth, self.depth(*t, 1, 11)?)).map(|_| 3)
            }
            _ => None,
        }
    }

    #[inline(always)]
    fn tuple(&self, depth: u64, n: u64, left: &[u64]) -> Option<usize> {
        let parts = left.get(1..1 + n as usize)?;
        let mut deepest = 0;
        for t in parts {
            deepest = deepest.max(self.depth(*t, 1, 11)?);
        }
        only(n <= MOST && around(depth, deepest)).map(|_| 1 + parts.len())
    }

    #[inline(always)]
    fn structure(&self, depth: u64, n: u64, left: &[u64]) -> Option<usize> {
        let fields = left.get(2..2 + 3 * n as usize)?;
        let mut deepest = 0;
        for f in fields.chunks_exact(3) {
            only(self.is_name(f[0]) && f[2] <= 2 * LARGEST_ALIAS + 1)?;
            deepest = deepest.max(self.depth(f[1], 1, 11)?);
        }
        only(n <= MOST && self.is_name(left[1]) && around(depth, deepest)).map(|_| 2 + fields.len())
    }
}

#[inline(always)]
fn name(depth: u64, n: u64, left: &[u64]) -> Option<usize> {
    let bytes = left.get(1..1 + n.div_ceil(8) as usize)?;
    only(depth == 0 && n <= MOST && (n % 8 == 0 || bytes.last()? >> (8 * (n % 8)) == 0)).map(|_| 1 + bytes.len())
}

// Whether a depth is that of a type around the deepest of its parts.
#[inline(always)]
fn around(depth: u64, deepest: u64) -> bool {
    depth == 1 + deepest && depth <= DEEPEST
}

#[inline(always)]
fn only(right: bool) -> Option<()> {
    right.then_some(())
}

impl Row1 {
    pub fn new() -> Row1 {
        Row1 { fresh: Store::fresh(SHORTEST).words, starts: vec![0; LONGEST / 64] }
    }

    pub fn holds(&mut self, words: &[u64]) -> bool {
        if !(SHORTEST..=LONGEST).contains(&words.len()) || words[1..SHORTEST] != self.fresh[1..] {
            return false;
        }
        if !(SHORTEST as u64..=words.len() as u64).contains(&words[0]) {
            return false;
        }
        let (words, unused) = words.split_at(words[0] as usize);
        if unused.iter().fold(0, |all, w| all | w) != 0 {
            return false;
        }
        let starts = &mut self.starts[..words.len().div_ceil(64)];
        starts.fill(0);
        let mut at = 1;
        while at < words.len() {
            let Some(size) = (Entry { words, starts, at }).size() else { return false };
            // SAFETY: `at` is the place of a used word, and there is a bit for each of them.
            unsafe { *starts.get_unchecked_mut(at / 64) |= 1 << (at % 64) };
            at += size;
        }
        true
    }
}
