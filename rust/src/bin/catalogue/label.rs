//! Labels are bytes: shown as text where they are text that can be printed, else in hex.
use crate::names::{is_printed, quoted};
use crate::spelling::hex;

pub fn label(bytes: &[u8]) -> String {
    let text = std::str::from_utf8(bytes).ok().filter(|text| text.chars().all(is_printed));
    match (text, bytes.len()) {
        (Some(_), 0) => "none".to_string(),
        (Some(_), n) => format!("{}, {}", quoted(bytes, usize::MAX), count(n)),
        (None, n) => format!("hex {}, {}", hex(bytes), count(n)),
    }
}

fn count(n: usize) -> String {
    format!("{n} {}", if n == 1 { "byte" } else { "bytes" })
}
