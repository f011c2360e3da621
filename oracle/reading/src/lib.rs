//! A second reading of document 01, and of document 02's requests that have landed: each call on whatever words, written from the
//! documents, the readings of their open points and the original Rust alone. It shares nothing with the library beside which it is run:
//! where the two differ, one of them reads a document wrongly.
//!
//! The modules go in document 01's order: the store (`entry`, `fresh`, `row_one`, `store`, `making`, `types`), the calls turned back
//! (`refusals`), and then the calls; document 02's search for an entry is in `search`, its saved catalogue in `catalogue`. Sentences in
//! quotes are a document's, 01's where no slip is named.

mod call;
mod catalogue;
mod dual;
mod entry;
mod finals;
mod float;
mod fresh;
mod glb_lub;
mod held;
mod int;
mod kind;
mod makers;
mod making;
mod meet;
mod refusals;
mod row_one;
mod scalars;
mod search;
mod store;
mod structs;
mod types;

pub use call::{Call, Reply};
pub use held::Held;
use store::{Marks, Store};

/// Row 1, the length included: whether a call other than `fresh` takes these words.
pub fn well_formed(words: &[u64]) -> bool {
    row_one::kinds_at(words).is_some()
}

/// The call on whatever words. Afterwards words and output hold what the document says; `StructFields` and `Offsets` alone use the output.
pub fn answer(words: &mut [u64], call: &Call, output: &mut [u64]) -> Reply {
    // "One call writes a fresh store into a lent list [..]; of row 1 it tests the length only".
    if let Call::Fresh = call {
        return match fresh::write(words) {
            true => Reply::Done,
            false => Reply::Refused(1),
        };
    }
    match row_one::kinds_at(words) {
        Some(kinds) => Store::new(words, &mut Marks::new(kinds)).answer(call, output),
        None => Reply::Refused(1),
    }
}

/// Document 02, Slip 3: writes the store and a label as a file. Afterwards the output holds what the slip says; the answer is the file's
/// length.
pub fn save(words: &[u64], label: &[u8], output: &mut [u8]) -> Reply {
    catalogue::save(words, label, output).map_or_else(Reply::Refused, Reply::Number)
}

/// Document 02, Slip 3: fills the words, whatever they hold, with the store of a file. The answer is the label's length.
pub fn load(words: &mut [u64], file: &[u8]) -> Reply {
    catalogue::load(words, file).map_or_else(Reply::Refused, Reply::Number)
}
