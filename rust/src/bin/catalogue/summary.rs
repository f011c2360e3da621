//! A catalogue in numbers.
use crate::entries::{kind_name, Entry};
use crate::spelling::grouped;
use crate::walk::walk;
use crate::wrong::SHORTEST;
use ferigulan::Kind;

/// The entries that the file holds: those behind the fresh ones.
pub fn saved_entries(words: &[u64]) -> impl Iterator<Item = Entry<'_>> {
    walk(words).filter_map(|step| step.entry).filter(|entry| entry.handle >= SHORTEST as u64)
}

/// How many words a catalogue has, and how many entries of each kind.
pub fn summary(words: &[u64]) -> String {
    let kinds: Vec<Kind> = saved_entries(words).map(|entry| entry.kind).collect();
    let of_kind = |kind: &Kind| kinds.iter().filter(|other| *other == kind).count();
    let all = (0..).map_while(Kind::from_number).map(|kind| (kind, of_kind(&kind)));
    let by_kind: Vec<String> = all.filter(|(_, n)| *n > 0).map(|(kind, n)| counted(n, kind_name(kind))).collect();
    let (words, entries) = (counted(words.len() - SHORTEST, "word"), entries(kinds.len()));
    if by_kind.is_empty() {
        return format!("{words}, {entries}");
    }
    format!("{words}, {entries}: {}", by_kind.join(", "))
}

pub fn entries(n: usize) -> String {
    format!("{} {}", grouped(n as u64), if n == 1 { "entry" } else { "entries" })
}

pub fn counted(n: usize, of: &str) -> String {
    format!("{} {of}{}", grouped(n as u64), if n == 1 { "" } else { "s" })
}
