//! A dumped store as a list of its entries. That the words are well formed is the library's answer (row 1); the rest is for people, and
//! outside what is proved.
use crate::rows::{columns, title};
use crate::script::{number, shown};
use crate::walk::{walk, Step};
use crate::wrong::{fresh_words, in_list, used, SHORTEST};
use crate::Failure;
use ferigulan::calls;
use std::io::{self, BufWriter, Write};

/// How the words are written: as numbers, or as eight bytes each, the lowest first.
#[derive(Clone, Copy)]
pub enum Written {
    Numbers,
    Bytes,
}

/// Lists the store whose words a file holds. Tells whether it is well formed.
pub fn show(name: &str, file: &[u8], written: Written) -> Result<bool, Failure> {
    let words = match written {
        Written::Numbers => from_numbers(name, file),
        Written::Bytes => from_bytes(name, file),
    };
    let words = words.map_err(Failure::Usage)?;
    let mut out = BufWriter::new(io::stdout());
    whole(name, &words, &mut out).and_then(|()| out.flush()).map_err(Failure::Write)?;
    Ok(calls::well_formed(&words))
}

fn from_numbers(name: &str, file: &[u8]) -> Result<Vec<u64>, String> {
    let mut words = Vec::new();
    for (i, line) in file.split(|byte| *byte == b'\n').enumerate() {
        for word in line.split(u8::is_ascii_whitespace).filter(|word| !word.is_empty()) {
            words.push(
                number(word).ok_or_else(|| {
                    format!("{name}:{}: '{}' is no word of a store: give what dump or dumpall prints", i + 1, shown(word))
                })?,
            );
        }
    }
    Ok(words)
}

fn from_bytes(name: &str, file: &[u8]) -> Result<Vec<u64>, String> {
    let words = file.chunks_exact(8);
    if !words.remainder().is_empty() {
        return Err(format!("{name}: {} bytes are no whole words of 8 bytes", file.len()));
    }
    Ok(words.map(|word| word.iter().rev().fold(0, |sum, byte| sum << 8 | u64::from(*byte))).collect())
}

fn whole(name: &str, words: &[u64], out: &mut impl Write) -> io::Result<()> {
    writeln!(out, "{name}: {} words used, {}", used(words), verdict(words))?;
    wrong_in_list(words, out)?;
    rows(words, 0, out)
}

/// Whether the words are well formed, by the library; and where they are not, what is wrong first.
pub fn verdict(words: &[u64]) -> String {
    let list = format!("well formed as a list of {} words", words.len());
    if calls::well_formed(words) {
        return list;
    }
    let first = in_list(words).into_iter().next().or_else(|| walk(words).find_map(|step| step.wrong));
    format!("not {list}: {}", first.map_or(String::new(), |wrong| wrong.to_string()))
}

/// The entries that are not the fresh store's, where that is at the beginning, and what is wrong.
pub fn entries_made(words: &[u64], out: &mut impl Write) -> io::Result<()> {
    wrong_in_list(words, out)?;
    rows(words, if fresh_words(words).is_none() { SHORTEST as u64 } else { 0 }, out)
}

/// What else is wrong with the list as a whole.
fn wrong_in_list(words: &[u64], out: &mut impl Write) -> io::Result<()> {
    in_list(words).iter().skip(1).try_for_each(|wrong| writeln!(out, "         ! {wrong}"))
}

/// The entries from a handle on, up to the first that cannot be read; below each what is wrong with it.
fn rows(words: &[u64], from: u64, out: &mut impl Write) -> io::Result<()> {
    writeln!(out, "{}", title())?;
    for Step { entry, wrong, is_sound } in walk(words) {
        if let Some(entry) = entry.filter(|entry| entry.handle >= from) {
            writeln!(out, "{}", columns(words, &entry, is_sound))?;
        }
        if let Some(wrong) = wrong {
            let end = if entry.is_none() { "; nothing is read from here on" } else { "" };
            writeln!(out, "         ! {wrong}{end}")?;
        }
    }
    Ok(())
}
