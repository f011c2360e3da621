//! The calls that a step is. Most steps are one; `put W..` is the pokes that put an entry of these words behind the used ones, `fill SEED WORDS`
//! many makers, and `raise WORDS` the pokes that fill a list at once: with empty names, which are zero words, and an Int behind them. `meet_rep`
//! is one with its list written out, `search` one for an entry that is there (searches.rs), and steps with files are the calls of catalogues.rs.

use super::catalogues;
use super::model::Model;
use super::searches::search;
use super::typed::{output_length, typed};
use crate::filling::Filler;
use crate::script::Call;
use crate::session::Room;
use crate::steps::Step;
use crate::store::LONGEST;
use std::collections::VecDeque;

/// A list may be a word too long, to be refused, and an output as long as a list.
pub const ROOM: Room = Room { words: LONGEST as u64 + 1, output: LONGEST as u64 };

/// The largest file with the longest label, and some bytes more.
const MOST_BYTES: u64 = 8 * LONGEST as u64 + 1000;

pub enum Unfolded {
    Calls(VecDeque<Call>),
    Filling(Filler),
}

impl Unfolded {
    pub fn nothing() -> Unfolded {
        Unfolded::Calls(VecDeque::new())
    }

    /// The step with its arguments as numbers.
    pub fn new(step: &Step, numbers: Vec<u64>, model: &Model) -> Unfolded {
        match (step.name, &numbers[..]) {
            ("put", entry) => return Unfolded::Calls(pokes(model.used(), entry, model)),
            ("search", numbers) => return Unfolded::Calls([search(numbers, model)].into()),
            ("save_about" | "list_about" | "reload_about" | "load_broken", numbers) => {
                return Unfolded::Calls(catalogues::calls(step.name, numbers, &step.text, model).into())
            }
            ("raise", [words]) => return Unfolded::Calls(pokes(*words as usize, &[5 + 256, 0, 7], model)),
            _ => {}
        }
        let call = Call { name: step.name, numbers, text: step.text.clone() };
        match Filler::of(&call) {
            Some(filler) => Unfolded::Filling(filler),
            None => Unfolded::Calls(call.written_out().into_iter().collect()),
        }
    }

    /// The next call that can be run. Only an open store is filled: there are too many calls for a test of the whole list before each.
    pub fn next_call(&mut self, model: &Model, is_open: bool) -> Option<Call> {
        loop {
            let call = match self {
                Unfolded::Calls(calls) => calls.pop_front(),
                Unfolded::Filling(filler) if is_open && model.entries.list.len() > 1 => filler.next_call(&model.entries),
                Unfolded::Filling(_) => None,
            }?;
            if can_run(&call, model) {
                return Some(call);
            }
        }
    }
}

/// Pokes that append an entry of these words behind so many used ones, if it fits: the last one sets word 0.
fn pokes(used: usize, entry: &[u64], model: &Model) -> VecDeque<Call> {
    let words = model.words();
    if used < model.used() || used == 0 || used + entry.len() > words.len() {
        return VecDeque::new();
    }
    let other = entry.iter().enumerate().map(|(k, word)| (used + k, *word)).filter(|(at, word)| words[*at] != *word);
    let all = other.chain([(0, (used + entry.len()) as u64)]);
    all.map(|(at, word)| Call { name: "poke", numbers: vec![at as u64, word], text: vec![] }).collect()
}

/// Whether there is room for what a line asks for, and a walk comes to its end soon.
fn can_run(call: &Call, model: &Model) -> bool {
    match (call.name, &call.numbers[..]) {
        ("list" | "fresh", [n, ..]) => *n <= ROOM.words,
        ("poke", [at, _]) => *at < model.words().len() as u64,
        ("open", [memory, more]) => *memory <= 8 * ROOM.words && *more as i64 <= LONGEST as i64,
        ("save", [length]) => *length <= MOST_BYTES,
        ("load", _) => catalogues::can_load(&call.text),
        ("reload", _) => catalogues::can_load(&model.file),
        ("fresh" | "check" | "open" | "close", _) => true,
        _ => typed(call).is_some() && output_length(call) as u64 <= ROOM.output && !model.is_long_walk(call),
    }
}
