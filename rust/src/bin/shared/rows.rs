//! Entries as a table, a row each.
use crate::entries::{kind_name, Entry};
use crate::readable::readable;
use crate::spelling::row;

/// What stands above the columns.
pub fn title() -> String {
    format!("{:>7}  {:<6}  {:>5}  {:>3}  {:<32}  words after the head", "handle", "kind", "depth", "n", "type")
}

/// An entry, with its type if no part of it is wrong.
pub fn columns(words: &[u64], entry: &Entry, is_sound: bool) -> String {
    let ty = if is_sound { readable(words, entry.handle) } else { "?".to_string() };
    let after = row(entry.words);
    let columns = format!("{:>7}  {:<6}  {:>5}  {:>3}  {ty:<32}  {after}", entry.handle, kind_name(entry.kind), entry.depth, entry.n);
    columns.trim_end().to_string()
}
