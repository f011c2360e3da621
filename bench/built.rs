// A store that is built word by word, since plain calls would take minutes to make a large one; with each entry stands the call that would make it.
use crate::calls::{make, Call};
use crate::stores::Store;

pub struct Built {
    pub words: Vec<u64>,
    // the calls, and the handles that they answer
    pub made: Vec<(Call, u64)>,
}

// Handles of the fresh store: the Ints of all numbers and of the bytes.
pub const INT: u64 = 25;
pub const BYTE: u64 = 40;

pub fn head(kind: u64, depth: u64, n: usize) -> u64 {
    kind + 256 * depth + 65_536 * n as u64
}

// The entry of a name: its bytes, eight a word.
pub fn name_entry(bytes: &[u8]) -> Vec<u64> {
    let word = |eight: &[u8]| eight.iter().rev().fold(0, |w, byte| 256 * w + *byte as u64);
    [head(0, 0, bytes.len())].into_iter().chain(bytes.chunks(8).map(word)).collect()
}

impl Built {
    pub fn fresh(len: usize) -> Built {
        Built { words: Store::fresh(len).words, made: Vec::new() }
    }

    pub fn used(&self) -> usize {
        self.words[0] as usize
    }

    // Each entry is to be one that is not there yet.
    fn put(&mut self, call: Call, entry: &[u64]) -> u64 {
        let at = self.used();
        self.words[at..at + entry.len()].copy_from_slice(entry);
        self.words[0] += entry.len() as u64;
        self.made.push((call, at as u64));
        at as u64
    }

    // The depth of a type around these.
    fn around(&self, types: impl Iterator<Item = u64>) -> u64 {
        1 + types.map(|h| self.words[h as usize] / 256 % 256).max().unwrap_or(0)
    }

    pub fn name(&mut self, text: &str) -> u64 {
        self.put(make::name(text.as_bytes()), &name_entry(text.as_bytes()))
    }

    pub fn int(&mut self, min: u64, max: u64) -> u64 {
        self.put(make::int(min, max), &[head(5, 1, 0), min, max])
    }

    // A constant.
    pub fn float(&mut self, x: f64) -> u64 {
        self.put(make::float(x), &[head(6, 1, 0), 64, x.to_bits()])
    }

    pub fn tuple(&mut self, types: &[u64]) -> u64 {
        let mut entry = vec![head(7, self.around(types.iter().copied()), types.len())];
        entry.extend(types);
        self.put(make::tuple(types), &entry)
    }

    // Four words a field: name, type, alias, final.
    fn struct_entry(&self, name: u64, fields: &[u64]) -> Vec<u64> {
        let depth = self.around(fields.chunks(4).map(|f| f[1]));
        let mut entry = vec![head(8, depth, fields.len() / 4), name];
        entry.extend(fields.chunks(4).flat_map(|f| [f[0], f[1], 2 * f[2] + f[3]]));
        entry
    }

    pub fn structure(&mut self, name: u64, fields: &[u64]) -> u64 {
        self.put(make::structure(name, fields), &self.struct_entry(name, fields))
    }

    pub fn fref(&mut self, name: u64) -> u64 {
        self.put(make::fref(name), &[head(9, 1, 0), name])
    }

    pub fn pointer(&mut self, to: u64, nil: u64) -> u64 {
        let depth = self.around([to].into_iter());
        self.put(make::pointer(to, nil), &[head(10, depth, 0), to, nil])
    }

    pub fn memory(&mut self, alias: u64, t: u64) -> u64 {
        let depth = self.around([t].into_iter());
        self.put(make::memory(alias, t), &[head(11, depth, 0), alias, t])
    }

    // The names of an array of bytes and of its fields.
    pub fn array_names(&mut self) -> [u64; 3] {
        ["[u8]", "#", "[]"].map(|text| self.name(text))
    }

    // An array of bytes, with two aliases that no other has.
    pub fn array(&mut self, [name, length, body]: [u64; 3], g: u64) -> u64 {
        let (x, y) = (2 * g + 1, 2 * g + 2);
        let entry = self.struct_entry(name, &[length, INT, x, 1, body, BYTE, y, 0]);
        self.put(make::array(INT, x, BYTE, y, b"u8"), &entry)
    }
}

// How many words an entry has.
fn size(head: u64) -> usize {
    let (kind, n) = (head % 256, head as usize / 65_536);
    match kind {
        0 => 1 + n.div_ceil(8),
        1..=4 => 1,
        7 => 1 + n,
        8 => 2 + 3 * n,
        9 => 2,
        _ => 3,
    }
}

// The handles and heads of the entries between two places.
pub fn heads(words: &[u64], from: usize, to: usize) -> impl Iterator<Item = (usize, u64)> + '_ {
    let mut next = from;
    std::iter::from_fn(move || {
        let (at, head) = (next, *words[..to].get(next)?);
        next += size(head);
        Some((at, head))
    })
}

// How many entries stand between two places.
pub fn entries(words: &[u64], from: usize, to: usize) -> usize {
    heads(words, from, to).count()
}

// At most so many of all, from all over, in fours that stay together: their kinds take turns.
pub fn spread<T: Clone>(all: &[T], most: usize) -> Vec<T> {
    let (have, want) = (all.len() / 4, (most / 4).min(all.len() / 4));
    if have == 0 {
        return all[..all.len().min(most)].to_vec();
    }
    (0..want).flat_map(|i| all[4 * (i * have / want)..][..4].to_vec()).collect()
}
