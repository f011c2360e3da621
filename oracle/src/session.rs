//! A lent list, and the calls on it one after the other: row 1, the other rows, the Rust, and then row 12 or the answer.

use crate::ask::{ask, Clock, Told};
use crate::rebuilt::entry_maker;
use crate::rows::refusal;
use crate::script::{read_line, Call, Line};
use crate::store::{Store, LONGEST, SHORTEST};
use original::sea_of_nodes::types::Types;
use std::fmt;
use std::panic::{catch_unwind, AssertUnwindSafe};

/// What a line answers.
#[derive(Clone, Debug, PartialEq)]
pub enum Answer {
    /// A handle, or another number.
    Number(u64),
    Signed(i64),
    Flag(bool),
    /// There is no such number.
    Absent,
    /// The readings of a float: a constant's bits, or a size.
    Constant(u64),
    Size(i8),
    Refused(u8),
    Accepted,
    Words(Vec<u64>),
    /// An output: the words that were filled, and the length of the whole. All words behind the filled ones are what they were.
    Filled(Vec<u64>, usize),
    /// The entry that was looked for, if there is one, and how many were not passed over.
    Searched(Option<u64>, u64),
    /// A file that was written, and the length of the output. All bytes behind the file are what they were.
    Saved(Vec<u8>, usize),
    /// No call. The line itself is printed after it.
    Malformed,
    /// The Rust cannot be asked, for this reason: not to be compared.
    NotHeld(String),
}

impl fmt::Display for Answer {
    fn fmt(&self, f: &mut fmt::Formatter<'_>) -> fmt::Result {
        match self {
            Answer::Number(n) => write!(f, "{n}"),
            Answer::Signed(n) => write!(f, "={n}"),
            Answer::Absent => f.write_str("absent"),
            Answer::Constant(bits) => write!(f, "constant {bits}"),
            Answer::Size(size) => write!(f, "size ={size}"),
            Answer::Flag(yes) => write!(f, "{}", u8::from(*yes)),
            Answer::Refused(row) => write!(f, "-{row}"),
            Answer::Accepted => f.write_str("ok"),
            Answer::Words(words) => {
                let words: Vec<String> = words.iter().map(u64::to_string).collect();
                f.write_str(&words.join(" "))
            }
            Answer::Filled(words, length) => {
                write!(f, "{} :", words.len())?;
                let kept = std::iter::repeat_n(&KEPT, length - words.len());
                words.iter().chain(kept).try_for_each(|word| write!(f, " {word}"))
            }
            Answer::Saved(file, length) => {
                write!(f, "{} : ", file.len())?;
                let kept = std::iter::repeat_n(&KEPT_BYTE, length - file.len());
                file.iter().chain(kept).try_for_each(|byte| write!(f, "{byte:02x}"))
            }
            Answer::Searched(Some(handle), count) => write!(f, "{handle} {count}"),
            Answer::Searched(None, count) => write!(f, "absent {count}"),
            Answer::Malformed => f.write_str("?"),
            Answer::NotHeld(reason) => write!(f, "! {reason}"),
        }
    }
}

/// How many words a list and an output may have: where they have more, the line is no call.
#[derive(Clone, Copy)]
pub struct Room {
    pub words: u64,
    pub output: u64,
}

/// The program `calls` has room for lists of this many words.
const MOST_WORDS: u64 = 65_536;

/// It has room for outputs of this many, each of which holds this number before the call.
pub const MOST_OUTPUT: u64 = 4096;
pub const KEPT: u64 = 7777;

/// The output of a file holds this before the call.
pub const KEPT_BYTE: u8 = 0x77;

pub const ROOM_OF_CALLS: Room = Room { words: MOST_WORDS, output: MOST_OUTPUT };

/// The list that calls are lent.
enum Lent<'a, 't> {
    /// Words that are no store: never well formed, since `fresh` was not called on them.
    Plain(Vec<u64>),
    Store(Store<'a, 't>),
    /// Words that the Rust's types do not stand for any more, since one was poked or a type could not be held. The length is still known;
    /// the words are until a call may have changed them.
    Lost(usize, Option<Vec<u64>>),
}

pub struct Session<'a, 't> {
    types: &'a Types<'t>,
    lent: Lent<'a, 't>,
    /// The list as `keep` found it, if its words were known: the empty one before.
    kept: Option<Vec<u64>>,
    room: Room,
    pub clock: Clock,
}

impl<'a, 't> Session<'a, 't> {
    pub fn new(types: &'a Types<'t>) -> Self {
        Session::with_room(types, ROOM_OF_CALLS)
    }

    pub fn with_room(types: &'a Types<'t>, room: Room) -> Self {
        Session { types, lent: Lent::Plain(vec![]), kept: Some(vec![]), room, clock: Clock::default() }
    }

    /// One that takes lists as long as a store may be, as the library does.
    pub fn with_long_lists(types: &'a Types<'t>) -> Self {
        Session::with_room(types, Room { words: LONGEST as u64, output: MOST_OUTPUT })
    }

    pub fn store(&self) -> Option<&Store<'a, 't>> {
        match &self.lent {
            Lent::Store(store) => Some(store),
            _ => None,
        }
    }

    /// Runs a line of a script: no answer for a comment.
    pub fn run_line(&mut self, line: &str) -> Option<Answer> {
        let answer = match read_line(line) {
            Line::Empty => return None,
            Line::Malformed => Answer::Malformed,
            Line::Call(call) => self.run(&call),
        };
        Some(answer)
    }

    pub fn run(&mut self, call: &Call) -> Answer {
        match (call.name, &call.numbers[..]) {
            ("list" | "fresh", [n, ..]) if *n > self.room.words => Answer::Malformed,
            ("fields" | "offsets", [_, length]) if *length > self.room.output => Answer::Malformed,
            ("list", [n]) => self.lend(*n, 0),
            ("list", [n, value]) => self.lend(*n, *value),
            ("fresh", []) => self.fresh(),
            ("fresh", [n]) => {
                self.lend(*n, 0);
                self.fresh()
            }
            ("peek" | "poke", [i, ..]) if *i >= self.length() as u64 => Answer::Malformed,
            ("peek", [i]) => self.all_words().map_or_else(lost, |words| Answer::Number(words[*i as usize])),
            ("poke", [i, value]) => self.poke(*i as usize, *value),
            ("dump", []) => self.all_words().map_or_else(lost, |words| Answer::Words(used_of(words))),
            ("dumpall", []) => self.all_words().map_or_else(lost, Answer::Words),
            ("check", []) => match &self.lent {
                Lent::Plain(_) => Answer::Flag(false),
                Lent::Store(_) => Answer::Flag(true),
                Lent::Lost(..) => lost(),
            },
            // what an opened store answers is no other than what the same store answers otherwise
            ("open", []) => match &self.lent {
                Lent::Plain(_) => Answer::Refused(1),
                Lent::Store(_) => Answer::Accepted,
                Lent::Lost(..) => lost(),
            },
            ("close", []) => Answer::Accepted,
            ("keep", []) => self.keep(),
            ("kept", []) => self.all_words().zip(self.kept.as_ref()).map_or_else(lost, |(now, kept)| Answer::Flag(now == *kept)),
            // it finds its types by a hash, so that there is no count to compare
            ("find_entry", _) => Answer::NotHeld("the Rust has no such search".to_string()),
            ("save" | "file" | "fpoke" | "fcut" | "fadd", _) => Answer::NotHeld("the Rust has no catalogue".to_string()),
            ("load" | "reload", _) => {
                self.lent = Lent::Lost(self.length(), None);
                lost()
            }
            ("meet_rep", _) => call.written_out().map_or(Answer::Malformed, |list| self.call(&list)),
            _ => self.call(call),
        }
    }

    fn keep(&mut self) -> Answer {
        self.kept = self.all_words();
        self.kept.as_ref().map_or_else(lost, |_| Answer::Accepted)
    }

    fn lend(&mut self, n: u64, value: u64) -> Answer {
        self.lent = Lent::Plain(vec![value; n as usize]);
        Answer::Accepted
    }

    fn fresh(&mut self) -> Answer {
        let length = self.length();
        if !(SHORTEST..=LONGEST).contains(&length) {
            return Answer::Refused(1);
        }
        self.lent = Lent::Store(Store::fresh(self.types, length));
        Answer::Accepted
    }

    fn length(&self) -> usize {
        match &self.lent {
            Lent::Plain(words) => words.len(),
            Lent::Store(store) => store.length,
            Lent::Lost(length, _) => *length,
        }
    }

    fn all_words(&self) -> Option<Vec<u64>> {
        match &self.lent {
            Lent::Plain(words) => Some(words.clone()),
            Lent::Store(store) => {
                let mut words = store.words.clone();
                words.resize(store.length, 0);
                Some(words)
            }
            Lent::Lost(_, words) => words.clone(),
        }
    }

    /// The list's words up to some place, behind which all are 0; nothing where the Rust's types do not stand for the list any more.
    fn known_words(&self) -> Option<&[u64]> {
        match &self.lent {
            Lent::Plain(words) => Some(words),
            Lent::Store(store) => Some(&store.words),
            Lent::Lost(..) => None,
        }
    }

    /// A word of the list, where it is known.
    pub fn word(&self, at: usize) -> Option<u64> {
        self.known_words().map(|known| known.get(at).copied().unwrap_or(0))
    }

    /// The first of these words that is known not to be the list's.
    pub fn first_other_word(&self, words: &[u64]) -> Option<usize> {
        let known = self.known_words()?;
        match words.split_at_checked(known.len()) {
            Some((used, rest)) if used == known && is_zero(rest) => None,
            _ => (0..words.len()).find(|at| self.word(*at) != Some(words[*at])),
        }
    }

    fn poke(&mut self, i: usize, value: u64) -> Answer {
        let mut words = self.all_words();
        if let Some(words) = &mut words {
            words[i] = value;
        }
        self.lent = Lent::Lost(self.length(), words);
        Answer::Accepted
    }

    /// The store that was loaded into a list, made anew by the Rust: its makers have to make each entry, and each as a new one. Says where
    /// they do not; what the Rust cannot hold is lost.
    pub fn load(&mut self, words: &[u64]) -> Result<(), u64> {
        self.lend(words.len() as u64, 0);
        self.fresh();
        let mut at = SHORTEST as u64;
        while let Some(call) = entry_maker(words, at) {
            match self.run(&call) {
                Answer::Number(handle) if handle == at => at = self.store().map_or(0, |store| store.words.len() as u64),
                Answer::NotHeld(_) => return Ok(()),
                _ => return Err(at),
            }
        }
        Ok(())
    }

    /// A call of the documents: refused by its own rows, or answered by the Rust.
    fn call(&mut self, call: &Call) -> Answer {
        let store = match &mut self.lent {
            Lent::Plain(_) => return Answer::Refused(1),
            Lent::Lost(_, words) => {
                *words = None;
                return lost();
            }
            Lent::Store(store) => store,
        };
        if let Some(row) = refusal(store, call) {
            return Answer::Refused(row);
        }
        let clock = &mut self.clock;
        let told = catch_unwind(AssertUnwindSafe(|| ask(store, call, clock)));
        let reason = match told {
            Ok(Told::Said(answer)) => return answer,
            Ok(Told::Made(made)) => return store.append(&made).map_or(Answer::Refused(12), Answer::Number),
            Ok(Told::NotHeld(reason)) => reason,
            Err(_) => "the Rust panicked",
        };
        self.lent = Lent::Lost(self.length(), None);
        Answer::NotHeld(reason.to_string())
    }
}

/// Whether all words are 0: many at once, since lists are long.
fn is_zero(words: &[u64]) -> bool {
    words.chunks(64).all(|chunk| chunk.iter().fold(0, |all, word| all | word) == 0)
}

/// The words that word 0 counts, and no more than there are.
fn used_of(mut words: Vec<u64>) -> Vec<u64> {
    let used = words.first().map_or(0, |n| (*n).min(words.len() as u64));
    words.truncate(used as usize);
    words
}

fn lost() -> Answer {
    Answer::NotHeld("the Rust's types do not stand for this list any more".to_string())
}
