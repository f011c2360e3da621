//! Answers: as the program `calls` prints them, and what they mean to a reader.
use crate::entries::kind_name;
use crate::names::quoted;
use crate::readable::{constant, float_size, readable};
use crate::spelling::{grouped, hex, row};
use crate::wrong::used;
use ferigulan::{Handle, Kind, Reading, Refusal, Search, LONGEST_LABEL};

/// What a line of the script answers.
pub enum Answer {
    Accepted,
    Refused(Refusal),
    Handle(Handle),
    Kind(Kind),
    Number(u64),
    Signed(i64),
    Mask(i64),
    LogSize(u64),
    Flag(bool),
    /// The constant of a Float, if it has one.
    Value(f64),
    Reading(Reading),
    Absent,
    /// The entry that was looked for, if there is one, and how many entries were not passed over.
    Search(Search),
    /// How many words of the output were filled.
    Filled(usize),
    /// How long the file is that was written, and all bytes of its output.
    Saved(usize, Vec<u8>),
    /// The label of the file that was loaded.
    Loaded(Vec<u8>),
    /// The kept file.
    File(Vec<u8>),
    /// The used words of the list.
    Used,
    /// All words of the list.
    All,
}

pub fn found(place: Option<u64>) -> Answer {
    place.map_or(Answer::Absent, Answer::Number)
}

pub fn int_value(value: Option<i64>) -> Answer {
    value.map_or(Answer::Absent, Answer::Signed)
}

pub fn float_value(value: Option<f64>) -> Answer {
    value.map_or(Answer::Absent, Answer::Value)
}

pub fn size(size: i8) -> Answer {
    Answer::Signed(size.into())
}

impl Answer {
    /// The answer as `calls` prints it, with the words of the list and of the output.
    pub fn plain(&self, words: &[u64], output: &[u64]) -> String {
        match self {
            Answer::Accepted => "ok".to_string(),
            Answer::Refused(refusal) => format!("-{}", refusal.number()),
            Answer::Handle(handle) => handle.to_string(),
            Answer::Kind(kind) => kind.number().to_string(),
            Answer::Number(n) | Answer::LogSize(n) => n.to_string(),
            Answer::Signed(n) | Answer::Mask(n) => format!("={n}"),
            Answer::Flag(yes) => u8::from(*yes).to_string(),
            Answer::Value(value) => value.to_bits().to_string(),
            Answer::Reading(Reading::Constant(value)) => format!("constant {}", value.to_bits()),
            Answer::Reading(Reading::Sized(size)) => format!("size ={size}"),
            Answer::Absent => "absent".to_string(),
            Answer::Search(Search { handle: Some(handle), count }) => format!("{handle} {count}"),
            Answer::Search(Search { handle: None, count }) => format!("absent {count}"),
            Answer::Filled(n) if output.is_empty() => format!("{n} :"),
            Answer::Filled(n) => format!("{n} : {}", row(output)),
            Answer::Saved(n, output) => format!("{n} : {}", hex(output)),
            Answer::Loaded(label) => label.len().to_string(),
            Answer::File(bytes) => hex(bytes),
            Answer::Used => row(&words[..used(words)]),
            Answer::All => row(words),
        }
    }

    /// What the answer means, in a few words: a handle's type, a refusal's condition. Where a call answers a handle, the words are well
    /// formed: it has tested them, and a call keeps them so.
    pub fn meaning(&self, words: &[u64]) -> String {
        match self {
            Answer::Refused(refusal) => refusal.to_string(),
            Answer::Handle(handle) => readable(words, handle.word()),
            Answer::Kind(kind) => kind_name(*kind).to_string(),
            Answer::Mask(mask) => format!("{mask:#x}"),
            Answer::LogSize(0) => "1 byte".to_string(),
            Answer::LogSize(log) => 1_u64.checked_shl(*log as u32).map_or(String::new(), |bytes| format!("{bytes} bytes")),
            Answer::Flag(yes) => if *yes { "yes" } else { "no" }.to_string(),
            Answer::Value(value) | Answer::Reading(Reading::Constant(value)) => constant(value.to_bits()),
            Answer::Reading(Reading::Sized(size)) => float_size(*size),
            Answer::Search(Search { handle: Some(handle), count }) => {
                format!("{}, with {}", readable(words, handle.word()), compared(*count))
            }
            Answer::Search(Search { handle: None, count }) => compared(*count),
            Answer::Loaded(label) => format!("the label {}; {} words used", quoted(label, LONGEST_LABEL), used(words)),
            Answer::Accepted | Answer::Number(_) | Answer::Signed(_) | Answer::Absent => String::new(),
            Answer::Filled(_) | Answer::Saved(..) | Answer::File(_) | Answer::Used | Answer::All => String::new(),
        }
    }
}

/// How many entries a search has not passed over.
fn compared(count: u64) -> String {
    let entries = if count == 1 { "entry" } else { "entries" };
    format!("{} {entries} not passed over", grouped(count))
}
