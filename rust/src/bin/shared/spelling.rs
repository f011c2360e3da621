//! Numbers, words and bytes as text.
use std::fmt::Write;

/// Words in a row, a space between two.
pub fn row(words: &[u64]) -> String {
    let mut out = String::new();
    for (i, word) in words.iter().enumerate() {
        let space = if i > 0 { " " } else { "" };
        let _ = write!(out, "{space}{word}");
    }
    out
}

/// Bytes, a pair of hex digits each.
pub fn hex(bytes: &[u8]) -> String {
    bytes.iter().fold(String::with_capacity(2 * bytes.len()), |mut out, byte| {
        let _ = write!(out, "{byte:02x}");
        out
    })
}

/// A number with a comma after each thousand.
pub fn grouped(n: u64) -> String {
    if n < 1000 {
        return n.to_string();
    }
    format!("{},{:03}", grouped(n / 1000), n % 1000)
}
