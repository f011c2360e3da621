// Stores of one kind of entries, or of a mixture, as full as they get; the same in each run.
#![cfg_attr(not(all(search, catalogue)), allow(dead_code))]
use crate::built::{head, Built, INT};
use crate::random::Random;

const SEED: u64 = 0x9e37_79b9_7f4a_7c15;

// Appends with `more` as long as there is room for its longest, of so many words, and for an Int behind it; it is told how often it was called before.
fn full(len: usize, longest: usize, mut more: impl FnMut(&mut Built, u64)) -> Built {
    let mut b = Built::fresh(len);
    let mut k = 100;
    while b.used() + longest + 3 <= len {
        more(&mut b, k);
        k += 1;
    }
    b
}

// The k-th name of so many bytes.
fn text(k: u64, bytes: u64) -> String {
    format!("{k:x<width$}", width = bytes as usize)
}

// Fields with this name and type, and aliases that no other struct has.
fn fields(k: u64, n: u64, name: u64, of: u64) -> Vec<u64> {
    (0..n).flat_map(|i| [name, of, 32 * k + i, i % 2]).collect()
}

pub fn ints(len: usize) -> Built {
    full(len, 3, |b, k| {
        b.int(k, k + 7);
    })
}

// The hash of crates/distinct, which the loader looks for copies with, one word further.
fn mix(h: u64, w: u64) -> u64 {
    let t = h.wrapping_add(w);
    (t % (1 << 32) * 2_654_435_761).wrapping_add(t / (1 << 32) * 2_246_822_519)
}

// Ints that all have one hash there: the upper end takes back what the lower one has put in.
pub fn ints_of_one_hash(len: usize) -> Built {
    full(len, 3, |b, k| {
        b.int(k, mix(mix(0, head(5, 1, 0)), k).wrapping_neg());
    })
}

// Each with the name and the Int that its fields have.
pub fn structs(len: usize) -> Built {
    let mut random = Random(SEED);
    full(len, 2 + 3 + 2 + 3 * 19, |b, k| {
        let (name, int) = (b.name(&text(k, 8)), b.int(k, k + 7));
        b.structure(name, &fields(k, random.below(20), name, int));
    })
}

pub fn long_names(len: usize) -> Built {
    let mut random = Random(SEED);
    full(len, 1 + 15, |b, k| {
        b.name(&text(k, 16 + random.below(105)));
    })
}

pub fn short_names(len: usize) -> Built {
    full(len, 1 + 1, |b, k| {
        b.name(&text(k, 8));
    })
}

pub fn equal_names(len: usize) -> Built {
    full(len, 1 + 3, |b, k| {
        b.name(&text(k, 20));
    })
}

// Ints, names, pairs, structs of 1 to 6 fields and pointers; of an Int at most one pair is made, and of a struct at most one pointer.
pub fn mixture(len: usize) -> Built {
    let mut random = Random(SEED);
    let (mut name, mut ints, mut structs) = (1, Vec::new(), Vec::new());
    full(len, 2 + 3 * 6, |b, k| match random.below(5) {
        0 => name = b.name(&text(k, 6 + random.below(20))),
        1 if !ints.is_empty() => {
            b.tuple(&[ints.pop().unwrap(), INT]);
        }
        2 => structs.push(b.structure(name, &fields(k, 1 + random.below(6), name, INT))),
        3 if !structs.is_empty() => {
            b.pointer(structs.pop().unwrap(), k % 2);
        }
        _ => ints.push(b.int(k, k + 7)),
    })
}
