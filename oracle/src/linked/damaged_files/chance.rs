//! Files by chance.

use super::good::Good;
use crate::linked::catalogues::{broken, number, File, WAYS};
use crate::random::Random;

/// Heads of entries, right ones and wrong ones.
const HEADS: &[u64] =
    &[0, 65_536, 131_072, 257, 261, 261, 262, 263, 264, 265, 522, 523, 65_799, 131_335, 131_591, 65_800, 66_056, 524, 13, 1 << 24];

/// A file, and how many words its store has, or would have.
pub fn file(random: &mut Random, good: &[Good]) -> (Vec<u8>, usize) {
    let one = &good[random.below(good.len())];
    match random.below(8) {
        0 => (bytes(random), one.used),
        1 => with_used(words(random)),
        2 => with_used(spliced(random, good)),
        _ => (broken_often(random, one), one.used),
    }
}

fn with_used(file: File) -> (Vec<u8>, usize) {
    (file.bytes(), file.store().len())
}

/// Any bytes, and behind them now and then a trailer that fits but for a wrap.
fn bytes(random: &mut Random) -> Vec<u8> {
    let most = random.of(&[16, 24, 300]);
    let length = random.below(most + 1);
    let mut bytes: Vec<u8> = (0..length).map(|_| random.word() as u8).collect();
    if random.percent(60) {
        let (length, number) = (length as u64, number(random));
        bytes.extend(length.wrapping_sub(number.wrapping_mul(8)).to_le_bytes());
        bytes.extend(number.to_le_bytes());
    }
    bytes
}

/// Words that look like entries, with a trailer that fits.
fn words(random: &mut Random) -> File {
    let many = random.below(12);
    let word = |random: &mut Random| match random.below(4) {
        0 => random.of(HEADS),
        1 => random.below(110) as u64,
        2 => random.below(3) as u64,
        _ => number(random),
    };
    let words = (0..many).map(|i| if i % 3 == 0 { random.of(HEADS) } else { word(random) }).collect();
    File { label: (0..random.below(270)).map(|i| i as u8).collect(), words }
}

/// The first words of one good file, and some of another behind them.
fn spliced(random: &mut Random, good: &[Good]) -> File {
    let read = |good: &Good| File::read(&good.bytes).expect("a good file's trailer fits");
    let (mut first, second) = (read(&good[random.below(good.len())]), read(&good[random.below(good.len())]));
    first.words.truncate(random.below(first.words.len() + 1));
    let from = random.below(second.words.len() + 1);
    first.words.extend(&second.words[from..]);
    first
}

/// A good file, changed in one way or in some.
fn broken_often(random: &mut Random, good: &Good) -> Vec<u8> {
    let mut file = good.bytes.clone();
    for _ in 0..random.of(&[1, 1, 1, 2, 4]) {
        file = broken(&file, random.below(WAYS) as u64, number(random), number(random));
    }
    file
}
