//! A lent list as the reading has it, and what steps refer to.

use super::catalogues;
use super::entries::Entries;
use super::typed::{answer, loaded, output, saved, typed};
use crate::generate::{ends_soon, MOST_VISITS};
use crate::script::Call;
use crate::session::{Answer, KEPT_BYTE};
use crate::steps::{Arg, Outcomes, Step};
use reading::Held;

/// The list's words: tested anew for each call, or once and held.
enum Words {
    Plain(Vec<u64>),
    Held(Held),
}

pub struct Model {
    words: Words,
    /// Whether words that are well formed are held.
    holds: bool,
    /// Whether the words are not what calls alone have left: poked, or never a store.
    pub is_damaged: bool,
    /// Whether a file was loaded, and calls alone have changed the words since then.
    pub is_loaded: bool,
    pub entries: Entries,
    pub outcomes: Outcomes,
    /// The output of the last call, and that of the last file.
    pub output: Vec<u64>,
    pub bytes: Vec<u8>,
    /// The file that was last written: the empty one before.
    pub file: Vec<u8>,
    /// Whether it brought back the store, when a step last wrote one.
    pub file_is_good: bool,
}

impl Model {
    pub fn new(holds: bool) -> Model {
        let words = Words::Plain(vec![]);
        let (entries, outcomes) = (Entries::default(), Outcomes::default());
        Model {
            words,
            holds,
            is_damaged: true,
            is_loaded: false,
            entries,
            outcomes,
            output: vec![],
            bytes: vec![],
            file: vec![],
            file_is_good: false,
        }
    }

    pub fn words(&self) -> &[u64] {
        match &self.words {
            Words::Plain(words) => words,
            Words::Held(held) => held.words(),
        }
    }

    /// How many words are used, where word 0 tells.
    pub fn used(&self) -> usize {
        let words = self.words();
        words.first().map_or(0, |used| (*used).min(words.len() as u64)) as usize
    }

    pub fn is_well_formed(&self) -> bool {
        match &self.words {
            Words::Plain(words) => reading::well_formed(words),
            Words::Held(_) => true,
        }
    }

    /// Another list, or the same with other words.
    fn lend(&mut self, words: Vec<u64>) -> Answer {
        (self.is_damaged, self.is_loaded) = (true, false);
        self.entries = Entries::default();
        self.entries.read_on(&words);
        self.words = Words::Plain(words);
        if self.holds {
            self.hold();
        }
        Answer::Accepted
    }

    fn take_words(&mut self) -> Vec<u64> {
        match &mut self.words {
            Words::Plain(words) => std::mem::take(words),
            Words::Held(held) => held.words().to_vec(),
        }
    }

    fn hold(&mut self) {
        if let Words::Plain(words) = &mut self.words {
            match Held::new(std::mem::take(words)) {
                Ok(held) => self.words = Words::Held(held),
                Err(back) => *words = back,
            }
        }
    }

    /// Runs a line: a call, or one that is about the list.
    pub fn run(&mut self, call: &Call) -> Answer {
        self.output = output(call);
        match (call.name, &call.numbers[..]) {
            ("list", [n]) => self.lend(vec![0; *n as usize]),
            ("list", [n, value]) => self.lend(vec![*value; *n as usize]),
            ("fresh", [n]) => {
                self.lend(vec![0; *n as usize]);
                self.fresh()
            }
            ("fresh", []) => self.fresh(),
            ("poke", [i, value]) => {
                let mut words = self.take_words();
                words[*i as usize] = *value;
                self.lend(words)
            }
            ("check", []) => Answer::Flag(self.is_well_formed()),
            ("save", [length]) => self.save(&call.text, *length as usize),
            ("load", []) => self.load(&call.text),
            ("reload", []) => self.load(&self.file.clone()),
            _ => self.call(call),
        }
    }

    fn fresh(&mut self) -> Answer {
        let mut words = self.take_words();
        let reply = reading::answer(&mut words, &reading::Call::Fresh, &mut []);
        self.lend(words);
        self.is_damaged = reply != reading::Reply::Done;
        answer(&reading::Call::Fresh, reply, &[])
    }

    /// An accepted file is kept.
    fn save(&mut self, label: &[u8], length: usize) -> Answer {
        let mut output = vec![KEPT_BYTE; length];
        let reply = reading::save(self.words(), label, &mut output);
        let answer = saved(reply, &output);
        if let Answer::Saved(file, _) = &answer {
            self.file.clone_from(file);
        }
        self.bytes = output;
        answer
    }

    fn load(&mut self, file: &[u8]) -> Answer {
        let before = (self.is_damaged, self.is_loaded);
        let mut words = self.take_words();
        let reply = reading::load(&mut words, file);
        self.lend(words);
        let is_refused = matches!(reply, reading::Reply::Refused(_));
        (self.is_damaged, self.is_loaded) = if is_refused { before } else { (false, true) };
        loaded(reply)
    }

    fn call(&mut self, call: &Call) -> Answer {
        let typed = typed(call).unwrap_or_else(|| panic!("{call}: no call of document 01"));
        let reply = match &mut self.words {
            Words::Plain(words) => reading::answer(words, &typed, &mut self.output),
            Words::Held(held) => held.answer(&typed, &mut self.output),
        };
        let words = match &self.words {
            Words::Plain(words) => words,
            Words::Held(held) => held.words(),
        };
        self.entries.read_on(words);
        answer(&typed, reply, &self.output)
    }

    /// The number that an argument stands for now.
    pub fn number(&self, arg: Arg) -> u64 {
        self.outcomes.number(arg, self.used())
    }

    pub fn numbers(&self, step: &Step) -> Vec<u64> {
        step.args.iter().map(|arg| self.number(*arg)).collect()
    }

    /// Writes down what a step answered, and the entries that it appended: those from this word on. Of a list that was filled at once it is the
    /// last one alone.
    pub fn note(&mut self, step: &Step, answer: &Answer, from: usize) {
        let mut appended = self.entries.handles_from(from);
        if step.name == "raise" {
            appended.drain(..appended.len().saturating_sub(1));
        }
        self.outcomes.note(step.id, answer, appended);
        if step.name == "save_about" {
            self.file_is_good = catalogues::is_good(self);
        }
    }

    /// Whether a walk over what a call is given takes too many visits: shared parts are visited again and again, by the original and by the
    /// reading, which takes longer ones.
    pub fn is_long_walk(&self, call: &Call) -> bool {
        let most = if self.is_damaged { MOST_VISITS_ALONE } else { MOST_VISITS };
        let visits = |handle: &u64| self.entries.at(*handle).map_or(0, |entry| entry.visits);
        !ends_soon(call.name, most, call.numbers.iter().map(visits))
    }
}

/// How many visits a walk may take on words that the original cannot be asked about.
const MOST_VISITS_ALONE: u64 = 50_000;
