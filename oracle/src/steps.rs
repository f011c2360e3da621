//! Calls whose handles are named by where they come from. A list of such calls keeps its sense when calls are left out of it and all
//! handles move, which is how a difference is made small.

use crate::filling::Filler;
use crate::script::Call;
use crate::session::{Answer, Session};
use crate::store::Entry;
use std::collections::HashMap;

#[derive(Clone, Copy, Debug, PartialEq)]
pub enum Arg {
    Number(u64),
    /// The handle that the step of this id answered.
    Answer(usize),
    /// One of the entries that the step of this id appended, counted from 0: the last one where it appended fewer.
    Appended(usize, usize),
    /// A word of such an entry, counted from its head.
    Within(usize, usize, u64),
    /// A place behind the used words: the first of them, or so many further.
    Behind(u64),
}

impl Arg {
    pub fn refers_to(&self) -> Option<usize> {
        match self {
            Arg::Number(_) | Arg::Behind(_) => None,
            Arg::Answer(id) | Arg::Appended(id, _) | Arg::Within(id, _, _) => Some(*id),
        }
    }
}

#[derive(Clone, Debug)]
pub struct Step {
    pub id: usize,
    pub name: &'static str,
    pub args: Vec<Arg>,
    pub text: Vec<u8>,
}

/// A call with plain numbers, and what the Rust answered.
#[derive(Clone)]
pub struct Asked {
    pub call: Call,
    pub answer: Answer,
}

impl Asked {
    /// The answer as the program has to print it: the line itself behind the mark where it is no call.
    pub fn line(&self) -> String {
        match &self.answer {
            Answer::Malformed => format!("? {}", self.call),
            answer => answer.to_string(),
        }
    }
}

/// What steps refer to: what each answered, and the handles of what it appended.
#[derive(Default)]
pub struct Outcomes {
    of: HashMap<usize, (u64, Vec<u64>)>,
}

impl Outcomes {
    pub fn note(&mut self, id: usize, answer: &Answer, appended: Vec<u64>) {
        let answer = match answer {
            Answer::Number(n) => *n,
            _ => 0,
        };
        self.of.insert(id, (answer, appended));
    }

    /// The number that an argument stands for: 0, which is no handle, where its step answered or appended no such thing.
    pub fn number(&self, arg: Arg, used: usize) -> u64 {
        let appended = |id: usize, k: usize| self.of.get(&id).and_then(|(_, all)| all.get(k).or(all.last())).copied();
        match arg {
            Arg::Number(n) => n,
            Arg::Answer(id) => self.of.get(&id).map_or(0, |outcome| outcome.0),
            Arg::Appended(id, k) => appended(id, k).unwrap_or(0),
            Arg::Within(id, k, offset) => appended(id, k).map_or(0, |handle| handle + offset),
            Arg::Behind(k) => used as u64 + k,
        }
    }
}

/// Runs steps on the Rust.
pub struct Runner<'a, 't> {
    pub session: Session<'a, 't>,
    outcomes: Outcomes,
}

impl<'a, 't> Runner<'a, 't> {
    pub fn new(session: Session<'a, 't>) -> Self {
        Runner { session, outcomes: Outcomes::default() }
    }

    pub fn run(&mut self, step: &Step) -> Asked {
        let numbers = step.args.iter().map(|arg| self.number(*arg)).collect();
        let call = Call { name: step.name, numbers, text: step.text.clone() };
        let before = self.entries().len();
        let answer = match Filler::of(&call) {
            Some(filler) => self.fill(filler),
            None => self.session.run(&call),
        };
        let appended = self.entries().iter().skip(before).map(|entry| entry.handle).collect();
        self.outcomes.note(step.id, &answer, appended);
        Asked { call, answer }
    }

    /// Many calls as one step.
    fn fill(&mut self, mut filler: Filler) -> Answer {
        while let Some(call) = self.session.store().and_then(|store| filler.next_call(store)) {
            self.session.run(&call);
        }
        Answer::Accepted
    }

    pub fn number(&self, arg: Arg) -> u64 {
        self.outcomes.number(arg, self.session.store().map_or(0, |store| store.words.len()))
    }

    fn entries(&self) -> &[Entry<'t>] {
        self.session.store().map_or(&[][..], |store| &store.entries)
    }
}
