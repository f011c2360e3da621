//! Row 1: "store length out of limits, or not well formed". One pass over the words.

use crate::entry::{depth, kind, length, n, right_depth, DEEPEST, HEADS_END};
use crate::fresh;
use crate::kind::{self, Kinds, NO_ENTRY};
use crate::refusals::{alias_is_accepted, flag_is_accepted, float_is_accepted};

/// "A lent list of 64-bit words, 94 to 1,048,576 of them."
pub const LONGEST: usize = 1_048_576;

pub fn length_is_right(words: &[u64]) -> bool {
    (94..=LONGEST).contains(&words.len())
}

/// For each used word the kind of the entry that starts there, or `NO_ENTRY`; None where row 1 applies.
pub fn kinds_at(words: &[u64]) -> Option<Vec<u8>> {
    // "words 1 to 93 are the fresh ones, word 0 is from 94 to the list's length"
    if !length_is_right(words) || words[1..94] != fresh::WORDS[1..] || !(94..=words.len() as u64).contains(&words[0]) {
        return None;
    }
    // "all words past them are 0"
    let (used, unused) = words.split_at(words[0] as usize);
    if unused.iter().any(|&word| word != 0) {
        return None;
    }
    // "entries fill the used words"; the fresh ones do up to word 94
    let mut kinds = vec![NO_ENTRY; used.len()];
    kinds[..94].copy_from_slice(&fresh::KINDS);
    let mut at = 94;
    while at < used.len() {
        let entry = used.get(at..at + length(used[at]))?;
        if !head_is_right(entry[0]) || !parts_are_right(&kinds, entry) || !depth_is_right(used, entry) {
            return None;
        }
        kinds[at] = kind(entry[0]);
        at += entry.len();
    }
    Some(kinds)
}

/// "n is 0 for the other kinds."
fn head_is_right(head: u64) -> bool {
    let has_n = matches!(kind(head), kind::NAME | kind::TUPLE | kind::STRUCT);
    head < HEADS_END && kind(head) <= kind::MEM && (has_n || n(head) == 0)
}

/// "each handle starts an earlier entry of the right kind", and "every value is one a maker accepts". The kinds are those of the entries
/// before.
fn parts_are_right(kinds: &[u8], entry: &[u64]) -> bool {
    let starts = |handle: u64, right: Kinds| kinds.get(handle as usize).is_some_and(|&kind| right.has(kind));
    match kind(entry[0]) {
        // "zero fill" behind those of the n bytes that stand in the last word, where they do not fill it
        kind::NAME => match n(entry[0]) % 8 {
            0 => true,
            bytes => entry[entry.len() - 1] >> (8 * bytes) == 0,
        },
        // "sz + 64, constant's bits"
        kind::FLOAT => float_is_accepted(entry[1].wrapping_sub(64), entry[2]),
        // "n type handles"
        kind::TUPLE => entry[1..].iter().all(|&t| starts(t, Kinds::TYPES)),
        // "name handle; n times: field name, type, 2 × alias + final"
        kind::STRUCT => {
            let is_field = |f: &[u64]| starts(f[0], Kinds::NAMES) && starts(f[1], Kinds::TYPES) && alias_is_accepted(f[2] / 2);
            starts(entry[1], Kinds::NAMES) && entry[2..].chunks_exact(3).all(is_field)
        }
        kind::FREF => starts(entry[1], Kinds::NAMES),
        // "struct or forward reference handle, nil"
        kind::MEM_PTR => starts(entry[1], Kinds::STRUCTS) && flag_is_accepted(entry[2]),
        // "alias, type handle"
        kind::MEM => alias_is_accepted(entry[1]) && starts(entry[2], Kinds::TYPES),
        _ => true,
    }
}

/// "depth is right and at most 32"
fn depth_is_right(words: &[u64], entry: &[u64]) -> bool {
    depth(entry[0]) == right_depth(words, entry) && depth(entry[0]) <= DEEPEST
}
