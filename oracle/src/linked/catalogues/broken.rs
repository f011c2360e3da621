//! The ways in which a file is broken, or changed into another good one.

use super::file::File;
use crate::linked::entries::Entries;
use crate::random::Random;

/// How many ways there are.
pub const WAYS: usize = 17;

/// A number for a way: a small one, mostly, since places are taken modulo what there is; or any.
pub fn number(random: &mut Random) -> u64 {
    match random.below(4) {
        0 => random.word() >> random.below(64),
        1 => random.below(16) as u64,
        2 => (random.below(16) as u64).wrapping_neg(),
        _ => random.below(100_000) as u64,
    }
}

/// The file changed in this way, of which the two numbers say what is taken where.
pub fn broken(file: &[u8], way: u64, a: u64, b: u64) -> Vec<u8> {
    match File::read(file) {
        Some(read) if way >= 3 => changed(read, way, a, b),
        _ => changed_bytes(file, way, a, b),
    }
}

/// A place among so many, or none where there are none.
fn place(number: u64, many: usize) -> Option<usize> {
    (many > 0).then(|| (number % many as u64) as usize)
}

fn changed_bytes(file: &[u8], way: u64, a: u64, b: u64) -> Vec<u8> {
    let mut bytes = file.to_vec();
    match way % 3 {
        // a byte
        0 => {
            if let Some(at) = place(a, bytes.len()) {
                bytes[at] = b as u8;
            }
        }
        // cut
        1 => bytes.truncate(place(a, bytes.len()).unwrap_or(0)),
        // longer
        _ => bytes.resize(bytes.len() + 1 + a as usize % 40, b as u8),
    }
    bytes
}

fn changed(mut file: File, way: u64, a: u64, b: u64) -> Vec<u8> {
    let (start, number, many) = (file.label.len() as u64, file.words.len() as u64, file.words.len());
    match way {
        // words as a part of the label and the other way round, also where the sum wraps
        3 => return file.with_trailer(start.wrapping_add(a.wrapping_mul(8)), number.wrapping_sub(a)),
        4 => return file.with_trailer(start, number.wrapping_add((1 + a % 7) << 61)),
        5 => return file.with_trailer(start.wrapping_add(a), number),
        6 => return file.with_trailer(start, number.wrapping_add(a)),
        7 => return file.with_trailer(a, b),
        // words exchanged, one in the place of another, another word, a bit
        8 => {
            if let (Some(first), Some(second)) = (place(a, many), place(b, many)) {
                file.words.swap(first, second);
            }
        }
        9 => {
            if let (Some(first), Some(second)) = (place(a, many), place(b, many)) {
                file.words[first] = file.words[second];
            }
        }
        10 => {
            if let Some(at) = place(a, many) {
                file.words[at] = b;
            }
        }
        11 => {
            if let Some(at) = place(a, many) {
                file.words[at] ^= 1 << (b % 64);
            }
        }
        // an entry once more, one of the fresh store's too; a new one, or an equal one by chance
        12 => file.words.extend(some_entry(&file, a)),
        13 => file.words.extend([5 + 256, a, b]),
        // a longer label, fewer words, and a part of the words once more
        14 => file.label.resize(file.label.len() + 1 + a as usize % 600, b as u8),
        15 => file.words.truncate(place(a, many).unwrap_or(0)),
        _ => {
            if let (Some(from), Some(to)) = (place(a, many), place(b, many)) {
                file.words.extend_from_within(from..to.max(from));
            }
        }
    }
    file.bytes()
}

/// The words of an entry of the store, among the fresh ones in half of the cases.
fn some_entry(file: &File, number: u64) -> Vec<u64> {
    let store = file.store();
    let mut entries = Entries::default();
    entries.read_on(&store);
    let all = if number % 2 == 0 { 35 } else { entries.list.len() };
    let entry = &entries.list[(number / 2 % all.min(entries.list.len()) as u64) as usize];
    store[entry.handle as usize..entry.handle as usize + entry.size].to_vec()
}
