//! Names and lines as text that a terminal shows as it stands: they are bytes, and may be no UTF-8 or hold what cannot be printed.
use std::fmt::Write;

/// Bytes as text of at most `most` characters, and then `..`. What is no UTF-8 or cannot be printed is escaped, and so are the characters
/// of `also`.
pub fn escaped(bytes: &[u8], also: &[char], most: usize) -> String {
    let mut text = Text { out: String::new(), left: most };
    for chunk in bytes.utf8_chunks() {
        let whole = chunk.valid().chars().all(|c| text.push(&printed(c, also)))
            && chunk.invalid().iter().all(|byte| text.push(&format!("\\x{byte:02x}")));
        if !whole {
            text.out.push_str("..");
            break;
        }
    }
    text.out
}

struct Text {
    out: String,
    left: usize,
}

impl Text {
    /// Adds a character, or the escape that stands for it, if there is room.
    fn push(&mut self, piece: &str) -> bool {
        let size = piece.chars().count();
        let fits = size <= self.left;
        if fits {
            self.left -= size;
            self.out.push_str(piece);
        }
        fits
    }
}

fn printed(c: char, also: &[char]) -> String {
    let mut out = String::new();
    if also.contains(&c) {
        out.push('\\');
        out.push(c);
    } else if c.is_ascii_control() {
        let _ = write!(out, "\\x{:02x}", u32::from(c));
    } else if is_printed(c) {
        out.push(c);
    } else {
        out.extend(c.escape_unicode());
    }
    out
}

/// Whether a terminal shows a character as it stands.
pub fn is_printed(c: char) -> bool {
    !c.is_ascii_control() && (c.is_ascii() || c.escape_debug().count() == 1)
}

/// A name by itself, between quotes.
pub fn quoted(name: &[u8], most: usize) -> String {
    format!("\"{}\"", escaped(name, &['"', '\\'], most))
}

/// A name within a type: bare where it cannot be mistaken for something else, as the compiler's names are.
pub fn within(name: &[u8], most: usize) -> String {
    match std::str::from_utf8(name) {
        Ok(text) if !text.is_empty() && text.chars().all(is_bare) => escaped(name, &[], most),
        _ => quoted(name, most),
    }
}

fn is_bare(c: char) -> bool {
    c.is_alphanumeric() || "_$#[]".contains(c)
}
