//! Row 1 once more, by way of the makers: entry by entry, each must be one that its maker accepts and makes of just these words on the
//! store before it. "every value is one a maker accepts".

use reading::{answer, Call, Reply};

/// Whether the makers would make all entries from word 94 on. The words up to there are fresh.
pub fn is_rebuilt(words: &[u64]) -> bool {
    let mut fresh = vec![0; words.len()];
    if answer(&mut fresh, &Call::Fresh, &mut []) != Reply::Done
        || words[1..94] != fresh[1..94]
        || words[0] < 94
        || words[0] > words.len() as u64
    {
        return false;
    }
    let used = words[0] as usize;
    let mut at = 94;
    while at < used {
        match made_length(&words[..at], &words[at..used]) {
            Some(length) => at += length,
            None => return false,
        }
    }
    words[used..].iter().all(|&word| word == 0)
}

/// The length of the first entry of `rest`, None where no maker makes it.
fn made_length(before: &[u64], rest: &[u64]) -> Option<usize> {
    let n = (rest[0] / 65_536) as usize;
    let word = |i: usize| rest.get(i).copied();
    let after = |from: usize, length: usize| rest.get(from..from + length).map(<[u64]>::to_vec);
    let entry = match rest[0] % 256 {
        _ if n > 255 => None,
        0 => {
            let bytes: Vec<u8> = after(1, n.div_ceil(8))?.iter().flat_map(|word| word.to_le_bytes()).take(n).collect();
            made(before, &Call::GetStr(&bytes))
        }
        kind @ 1..=4 => Some(vec![kind + 256]),
        5 => made(before, &Call::MakeInt(word(1)?, word(2)?)),
        6 => made(before, &Call::MakeFloat(word(1)?.wrapping_sub(64), word(2)?)),
        7 => made(before, &Call::GetTuple(&after(1, n)?)),
        8 => {
            let fields: Vec<u64> = after(2, 3 * n)?.chunks(3).flat_map(|f| [f[0], f[1], f[2] / 2, f[2] % 2]).collect();
            made(before, &Call::GetStruct(word(1)?, &fields))
        }
        9 => made(before, &Call::MakeStructFref(word(1)?)),
        10 => made(before, &Call::GetMemPtr(word(1)?, word(2)?)),
        11 => made(before, &Call::GetMem(word(1)?, word(2)?)),
        _ => None,
    }?;
    rest.starts_with(&entry).then_some(entry.len())
}

/// The words of the entry that a maker makes on a store: what it appends, or the equal entry that is there.
fn made(before: &[u64], call: &Call) -> Option<Vec<u64>> {
    let mut words = [before, &[0; 1000]].concat();
    words[0] = before.len() as u64;
    let Reply::Handle(handle) = answer(&mut words, call, &mut []) else { return None };
    let at = handle as usize;
    let n = words[at] as usize / 65_536;
    let length = [1 + n.div_ceil(8), 1, 1, 1, 1, 3, 3, 1 + n, 2 + 3 * n, 2, 3, 3][words[at] as usize % 256];
    Some(words[at..at + length].to_vec())
}
