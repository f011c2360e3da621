//! The calls that make a store's entries again, one after the other.

use crate::script::Call;

/// The maker that makes the entry at this place of a store's used words: none behind the last, and none for a kind that the fresh store
/// alone has.
pub fn entry_maker(words: &[u64], at: u64) -> Option<Call> {
    let entry = words.get(at as usize..*words.first()? as usize)?;
    let head = *entry.first()?;
    let n = (head / 65_536 % 256) as usize;
    let call = |name: &'static str, numbers: &[u64]| Some(Call { name, numbers: numbers.to_vec(), text: vec![] });
    match head % 256 {
        0 => {
            let text = entry[1..].iter().flat_map(|word| word.to_le_bytes()).take(n).collect();
            Some(Call { name: "str", numbers: vec![], text })
        }
        5 => call("int", entry.get(1..3)?),
        6 => call("float", &[entry.get(1)?.wrapping_sub(64), *entry.get(2)?]),
        7 => call("tuple", entry.get(1..=n)?),
        8 => {
            let fields = entry.get(2..2 + 3 * n)?.chunks_exact(3).flat_map(|field| [field[0], field[1], field[2] / 2, field[2] % 2]);
            Some(Call { name: "struct", numbers: entry[1..2].iter().copied().chain(fields).collect(), text: vec![] })
        }
        9 => call("fref", entry.get(1..2)?),
        10 => call("ptr", entry.get(1..3)?),
        11 => call("mem", entry.get(1..3)?),
        _ => None,
    }
}
