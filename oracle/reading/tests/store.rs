//! The store: the fresh words and row 1.

mod common;

use common::List;
use reading::{answer, well_formed, Call, Reply};

/// The 94 words, worked out from the sentence by hand.
#[rustfmt::skip]
const FRESH: [u64; 94] = [
    94,
    262_144, 0x504f_5424, 262_144, 0x544f_4224,
    257, 258, 259, 260,
    261, 0, 0, 261, 1, 1, 261, 0, 1,
    264, 1, 264, 3,
    261, 0x7fff_ffff_ffff_ffff, 0x8000_0000_0000_0000, 261, 0x8000_0000_0000_0000, 0x7fff_ffff_ffff_ffff, 261, 2, 2,
    261, 0xffff_ffff_ffff_ff80, 0x7f, 261, 0xffff_ffff_ffff_8000, 0x7fff, 261, 0xffff_ffff_8000_0000, 0x7fff_ffff,
    261, 0, 0xff, 261, 0, 0xffff, 261, 0, 0xffff_ffff,
    262, 0, 0, 262, 32, 0, 262, 64, 0, 262, 96, 0, 262, 128, 0,
    131_591, 7, 7, 131_591, 8, 8, 131_591, 7, 8, 131_591, 8, 7,
    523, 0xffff_ffff, 6, 523, 0xffff_ffff, 5,
    522, 20, 1, 522, 18, 0, 522, 18, 1, 522, 20, 0,
];

#[test]
fn a_fresh_store() {
    for length in [94, 95, 400, 1_048_576] {
        let list = List::fresh(length);
        assert_eq!(list.words[..94], FRESH);
        assert!(list.words[94..].iter().all(|&word| word == 0));
    }
    for length in [0, 1, 93, 1_048_577] {
        let mut words = vec![7; length];
        assert_eq!(answer(&mut words, &Call::Fresh, &mut []), Reply::Refused(1));
        assert!(words.iter().all(|&word| word == 7));
    }
}

/// A list whose last entry is this one; whether row 1 takes it.
fn takes(before: &[&[u64]], entry: &[u64]) -> bool {
    let mut list = List::fresh(2000);
    for part in before {
        list.append(part);
    }
    let at = list.used() as usize;
    list.words[at..at + entry.len()].copy_from_slice(entry);
    list.words[0] += entry.len() as u64;
    let taken = well_formed(&list.words);
    assert_eq!(list.call(&Call::GetBool(1)), if taken { Reply::Handle(12) } else { Reply::Refused(1) });
    taken
}

#[test]
fn word_zero_and_the_length() {
    for (length, used, right) in
        [(94, 94, true), (94, 93, false), (94, 95, false), (200, 200, true), (200, 201, false), (200, u64::MAX, false)]
    {
        let mut list = List::fresh(length);
        list.words[0] = used;
        assert_eq!(well_formed(&list.words), right, "{length} words, {used} used");
    }
    assert!(!well_formed(&[]));
    assert!(!well_formed(&vec![0; 1_048_577]));
}

#[test]
fn each_fresh_word_is_wanted() {
    for at in 1..94 {
        for bit in [0, 7, 8, 16, 24, 63] {
            let mut list = List::fresh(200);
            list.words[at] ^= 1 << bit;
            assert!(!well_formed(&list.words), "bit {bit} of word {at}");
        }
    }
}

#[test]
fn unused_words_are_zero() {
    for at in 94..200 {
        let mut list = List::fresh(200);
        list.words[at] = 1;
        assert!(!well_formed(&list.words), "word {at}");
    }
}

#[test]
fn heads() {
    // a second Bot; other depths, an n, bits above n
    assert!(takes(&[], &[257]));
    for head in [1, 513, 257 + 65_536, 257 + (1 << 24), 257 + (1 << 63)] {
        assert!(!takes(&[], &[head]), "head {head}");
    }
    // kinds that there are none of, and kind 12's look-alike in three words
    for kind in 12..256 {
        assert!(!takes(&[], &[kind + 256, 0, 0]), "kind {kind}");
    }
    // names: depth 0
    assert!(takes(&[], &[0]) && takes(&[], &[65_536, 255]) && !takes(&[], &[256]) && !takes(&[], &[65_536 + 256, 1]));
}

#[test]
fn names_have_zero_fill() {
    assert!(takes(&[], &[3 * 65_536, 0xff_ffff]) && !takes(&[], &[3 * 65_536, 0x100_0000]));
    assert!(takes(&[], &[8 * 65_536, u64::MAX]));
    assert!(takes(&[], &[9 * 65_536, u64::MAX, 255]) && !takes(&[], &[9 * 65_536, u64::MAX, 256]));
    // 255 bytes need 32 words; the last has seven of them
    let mut name = vec![u64::MAX; 33];
    (name[0], name[32]) = (255 * 65_536, u64::MAX >> 8);
    assert!(takes(&[], &name));
    name[32] = u64::MAX;
    assert!(!takes(&[], &name));
}

#[test]
fn values_of_floats() {
    for sz in 0..=300 {
        assert_eq!(takes(&[], &[262, sz, 0]), [0, 32, 64, 96, 128].contains(&sz), "size word {sz}");
        assert_eq!(takes(&[], &[262, sz, 1]), sz == 64, "size word {sz} with bits");
    }
    assert!(takes(&[], &[262, 64, u64::MAX]) && !takes(&[], &[262, u64::MAX - 31, 0]));
}

#[test]
fn handles_start_earlier_entries_of_the_right_kind() {
    let tuple = |t| [7 + 512 + 65_536, t];
    for (t, right) in [(5, true), (9, true), (0, false), (1, false), (2, false), (10, false), (94, false), (96, false), (u64::MAX, false)] {
        assert_eq!(takes(&[], &tuple(t)), right, "a tuple of {t}");
    }
    for (name, right) in [(1, true), (3, true), (2, false), (5, false), (94, false)] {
        assert_eq!(takes(&[], &[265, name]), right, "a forward reference with the name {name}");
        assert_eq!(takes(&[], &[264, name]), right, "a struct with the name {name}");
        assert_eq!(takes(&[], &[8 + 512 + 65_536, 1, name, 9, 0]), right, "a field with the name {name}");
    }
    for (to, right) in [(18, true), (94, true), (1, false), (9, false), (82, false), (19, false)] {
        assert_eq!(takes(&[&[265, 1]], &[522, to, 0]), right, "a pointer to {to}");
    }
    assert!(takes(&[], &[523, 0, 5]) && !takes(&[], &[523, 0, 1]) && !takes(&[], &[523, 0, 97]));
}

#[test]
fn flags_and_aliases() {
    assert!(takes(&[], &[522, 18, 1]) && !takes(&[], &[522, 18, 2]));
    assert!(takes(&[], &[523, 4_294_967_295, 5]) && !takes(&[], &[523, 4_294_967_296, 5]));
    let field = |value| [8 + 512 + 65_536, 1, 1, 9, value];
    assert!(takes(&[], &field((1 << 33) - 1)) && !takes(&[], &field(1 << 33)));
}

#[test]
fn depths() {
    // the deepest of two types counts, wherever it stands
    assert!(takes(&[], &[7 + 768 + 2 * 65_536, 5, 64]) && takes(&[], &[7 + 768 + 2 * 65_536, 64, 5]));
    assert!(!takes(&[], &[7 + 512 + 2 * 65_536, 5, 64]) && !takes(&[], &[7 + 1024 + 2 * 65_536, 5, 64]));
    assert!(takes(&[], &[263]) && !takes(&[], &[519]));
    let mut tower: Vec<Vec<u64>> = vec![vec![257]];
    for depth in 2..=33 {
        let below = if depth == 2 { 94 } else { 95 + 2 * (depth - 3) };
        let entry = vec![7 + 256 * depth + 65_536, below];
        let before: Vec<&[u64]> = tower.iter().map(|entry| entry.as_slice()).collect();
        assert_eq!(takes(&before, &entry), depth <= 32, "depth {depth}");
        if depth <= 32 {
            tower.push(entry);
        }
    }
}

#[test]
fn entries_fill_the_used_words() {
    for (entry, used) in [(&[261, 0, 0][..], 2), (&[261, 0, 0], 1), (&[65_536, 0], 1), (&[8 + 512 + 65_536, 1, 1, 9, 0], 4)] {
        let mut list = List::fresh(200);
        list.words[94..94 + entry.len()].copy_from_slice(entry);
        list.words[0] = 94 + used;
        assert!(!well_formed(&list.words), "{used} words of {entry:?}");
    }
}
