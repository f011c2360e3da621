//! Why a file is no catalogue, in plain words and with the place. The verdict is the library's; this reads the file again, by itself, and is
//! outside what is proved.
use crate::entries::{kind_name, Entry};
use crate::spelling::grouped;
use crate::walk::{walk, Step};
use crate::wrong::{Wrong, LONGEST, SHORTEST};
use ferigulan::{calls, Refusal, LONGEST_LABEL};
use std::collections::HashMap;

/// How many bytes a trailer has, and a word.
const TRAILER: usize = 16;
const WORD: usize = 8;

/// What is wrong first.
pub struct Reason {
    pub refusal: Refusal,
    pub lines: Vec<String>,
}

impl Reason {
    /// Nothing where the file is one that the reader takes, as far as this program can tell.
    pub fn of(file: &[u8]) -> Option<Reason> {
        let (start, count) = match trailer(file) {
            Ok(trailer) => trailer,
            Err(line) => return Some(Reason { refusal: Refusal::BadTrailer, lines: vec![line] }),
        };
        if let Some(lines) = in_words(file, start, count) {
            return Some(Reason { refusal: Refusal::BadWords, lines });
        }
        let line = || format!("the label has {} bytes, over {LONGEST_LABEL}", grouped(start as u64));
        (start > LONGEST_LABEL).then(|| Reason { refusal: Refusal::TooMany, lines: vec![line()] })
    }
}

fn word(file: &[u8], at: usize) -> u64 {
    file[at..at + WORD].iter().rev().fold(0, |sum, byte| sum << 8 | u64::from(*byte))
}

/// The byte where the words start, and their number, as a trailer that fits says; or why there is none.
fn trailer(file: &[u8]) -> Result<(usize, usize), String> {
    let n = file.len();
    let Some(end) = n.checked_sub(TRAILER) else {
        return Err(format!("the trailer is missing: it has {TRAILER} bytes, and the file {n}"));
    };
    let (start, count) = (word(file, end), word(file, end + WORD));
    // a sum of 64 bits might wrap, and seem to fit
    let sum = u128::from(start) + 8 * u128::from(count) + TRAILER as u128;
    if sum != n as u128 {
        let says = format!("the trailer, from byte {end} on, says that the words start at byte {start} and are {count}");
        return Err(format!("{says}: that makes {start} + 8 x {count} + {TRAILER} = {sum} bytes, and the file has {n}"));
    }
    Ok((start as usize, count as usize))
}

/// The first entry that is wrong, and why.
fn in_words(file: &[u8], start: usize, count: usize) -> Option<Vec<String>> {
    let used = SHORTEST + count;
    if used > LONGEST {
        let most = grouped(LONGEST as u64);
        return Some(vec![format!("{} words and the {SHORTEST} fresh ones are more than a store has, {most}", grouped(count as u64))]);
    }
    let mut words = vec![0; SHORTEST];
    calls::fresh(&mut words).ok()?;
    words[0] = used as u64;
    words.extend((0..count).map(|i| word(file, start + WORD * i)));
    let place = Place { start };
    let mut seen = HashMap::new();
    walk(&words).find_map(|step| place.in_step(&step).or_else(|| place.in_copy(step.entry?, &mut seen, &words)))
}

/// Where the words of a file start.
struct Place {
    start: usize,
}

impl Place {
    /// The byte of the file at which a word of the store begins.
    fn byte(&self, at: usize) -> usize {
        self.start + WORD * (at - SHORTEST)
    }

    /// "handle 97, byte 26 of the file", or just the handle of a fresh entry, which no file holds.
    fn handle(&self, handle: usize) -> String {
        if handle < SHORTEST {
            return format!("handle {handle} of the fresh ones");
        }
        format!("handle {handle}, byte {} of the file", self.byte(handle))
    }

    fn first(&self, handle: usize, kind: &str) -> String {
        format!("the first entry that is wrong is that at {}{kind}", self.handle(handle))
    }

    fn in_step(&self, step: &Step) -> Option<Vec<String>> {
        let Wrong { at, what } = step.wrong.as_ref()?;
        let at = (*at)?;
        let handle = step.entry.map_or(at, |entry| entry.handle as usize);
        let kind = step.entry.map_or(String::new(), |entry| format!(", {}", kind_name(entry.kind)));
        let which = if at == handle { "its head".to_string() } else { format!("its word {at}, byte {} of the file", self.byte(at)) };
        Some(vec![self.first(handle, &kind), format!("{which}: {what}")])
    }

    /// Whether an entry is equal to one before it.
    fn in_copy<'a>(&self, entry: Entry<'a>, seen: &mut HashMap<&'a [u64], u64>, words: &'a [u64]) -> Option<Vec<String>> {
        let handle = entry.handle as usize;
        let whole = &words[handle..=handle + entry.words.len()];
        let before = *seen.entry(whole).or_insert(entry.handle);
        let kind = format!(", {}", kind_name(entry.kind));
        (before != entry.handle)
            .then(|| vec![self.first(handle, &kind), format!("it is equal to the entry at {}", self.handle(before as usize))])
    }
}
