//! A list of steps on the library, on the reading and, as far as it can hold the types, on the original: after each call the replies, all words of
//! the list and of the output, and the guard words around what the library was lent are compared.

mod catalogue;
mod opening;

use super::by_c::ByC;
use super::by_crate::Plain;
use super::door::{are_kept, Door, Guarded};
use super::law::Law;
use super::model::Model;
use super::planted::Plant;
use super::tally::{Circumstances, Tally};
use super::typed::{answer, output_length, typed};
use super::unfolded::Unfolded;
use super::verdict::{answers, word, Difference};
use crate::script::Call;
use crate::session::{Answer, Session, KEPT};
use crate::steps::{Asked, Step};
use ferigulan::calls;

/// How a list is run. It stays the same while the list is made short.
#[derive(Clone, Copy)]
pub struct Way {
    pub by: By,
    /// Whether the reading tests a list once and holds it, or tests it anew for each call.
    pub holds: bool,
    /// A mistake to be found.
    pub plant: Option<Plant>,
}

/// Which way to the library.
#[derive(Clone, Copy, PartialEq)]
pub enum By {
    Crate,
    C,
}

pub struct Trial<'s, 'a, 't> {
    way: Way,
    steps: &'s [Step],
    /// How many steps were begun, and what is left of the last of them; the used words at its begin, and its last answer.
    begun: usize,
    rest: Unfolded,
    from: usize,
    last: Answer,
    model: Model,
    original: Session<'a, 't>,
    calls: u64,
    law: Law,
    /// What the last opening was lent, and the lengths of list and memory.
    index: Guarded,
    memory: Guarded,
    last_lengths: [usize; 2],
    tally: &'s mut Tally,
    /// What is told of the list where it shows a difference: the steps' numbers, the calls with their answers, and the first that is of the
    /// last step.
    keeps_lines: bool,
    pub numbers: Vec<Vec<u64>>,
    pub asked: Vec<Asked>,
    pub first_of_last: usize,
}

/// While a list is filled its words are compared once for so many calls.
const FILLING_CALLS: u64 = 4096;

impl<'s, 'a, 't> Trial<'s, 'a, 't> {
    pub fn new(way: Way, steps: &'s [Step], original: Session<'a, 't>, tally: &'s mut Tally, keeps_lines: bool) -> Self {
        Trial {
            way,
            steps,
            begun: 0,
            rest: Unfolded::nothing(),
            from: 0,
            last: Answer::Accepted,
            model: Model::new(way.holds),
            original,
            calls: 0,
            law: Law::default(),
            index: Guarded::filled(0, 0),
            memory: Guarded::filled(0, 0),
            last_lengths: [0; 2],
            tally,
            keeps_lines,
            numbers: vec![],
            asked: vec![],
            first_of_last: 0,
        }
    }

    /// The step that was last begun.
    pub fn at(&self) -> usize {
        self.begun.saturating_sub(1)
    }

    /// Runs all steps, up to the first difference.
    pub fn run(&mut self) -> Result<(), Difference> {
        let mut lent = Guarded::filled(0, 0);
        let mut next = self.next_call(false);
        while let Some(call) = next {
            next = match call.name {
                "list" | "poke" => {
                    self.change(&call, &mut lent);
                    self.next_call(false)
                }
                "close" => {
                    self.write_down(&call, Answer::Accepted);
                    self.next_call(false)
                }
                "open" => self.opened(&call, &mut lent)?,
                "fresh" if !call.numbers.is_empty() => {
                    lent = Guarded::filled(call.numbers[0] as usize, 0);
                    self.plain(call, &mut lent)?
                }
                _ => self.plain(call, &mut lent)?,
            };
        }
        Ok(())
    }

    /// The next call of the steps.
    fn next_call(&mut self, is_open: bool) -> Option<Call> {
        loop {
            if let Some(call) = self.rest.next_call(&self.model, is_open) {
                return Some(call);
            }
            if let Some(step) = self.steps.get(self.at()).filter(|_| self.begun > 0) {
                self.model.note(step, &self.last, self.from);
            }
            let step = self.steps.get(self.begun)?;
            self.begun += 1;
            self.from = self.model.used();
            self.last = Answer::Accepted;
            let numbers = self.model.numbers(step);
            if self.keeps_lines {
                self.numbers.push(numbers.clone());
                self.first_of_last = self.asked.len();
            }
            self.rest = Unfolded::new(step, numbers, &self.model);
        }
    }

    /// A line that changes the list by other means than a call.
    fn change(&mut self, call: &Call, lent: &mut Guarded) {
        match (call.name, &call.numbers[..]) {
            ("poke", [at, word]) => lent.split().0[*at as usize] = *word,
            (_, numbers) => *lent = Guarded::filled(numbers[0] as usize, numbers.get(1).copied().unwrap_or(0)),
        }
        self.original.run(call);
        let answer = self.model.run(call);
        self.write_down(call, answer);
    }

    fn write_down(&mut self, call: &Call, answer: Answer) {
        if self.keeps_lines {
            self.asked.push(Asked { call: call.clone(), answer: answer.clone() });
        }
        self.last = answer;
    }

    fn plain(&mut self, first: Call, lent: &mut Guarded) -> Result<Option<Call>, Difference> {
        let (words, guards) = lent.split();
        match self.way.by {
            By::Crate => self.stretch(Some(first), &mut Plain(words), &guards, false),
            By::C => self.stretch(Some(first), &mut ByC::Plain(words), &guards, false),
        }
    }

    /// Runs calls up to the first that is for somebody else, which it hands back.
    fn stretch(&mut self, first: Option<Call>, door: &mut dyn Door, guards: &[&[u64]], is_open: bool) -> Result<Option<Call>, Difference> {
        let mut next = match first {
            Some(call) => {
                self.call(&call, door, guards, is_open)?;
                self.next_call(is_open)
            }
            None => self.next_call(is_open),
        };
        while let Some(call) = next {
            if is_for_the_list(&call, is_open) {
                return Ok(Some(call));
            }
            self.call(&call, door, guards, is_open)?;
            next = self.next_call(is_open);
        }
        Ok(None)
    }

    /// One call on all sides.
    fn call(&mut self, call: &Call, door: &mut dyn Door, guards: &[&[u64]], is_open: bool) -> Result<(), Difference> {
        match call.name {
            "save" => return self.save(call, door, guards, is_open),
            "load" | "reload" => return self.load(call, door, guards),
            _ => {}
        }
        self.calls += 1;
        let is_filling = matches!(self.rest, Unfolded::Filling(_));
        let original = Some(self.original.run(call)).filter(|answer| !matches!(answer, Answer::NotHeld(_)));
        let reading = self.model.run(call);
        let told = Circumstances { is_filling, has_original: original.is_some(), ..self.circumstances(is_open) };
        self.tally.add(call, &reading, &told);
        self.write_down(call, reading);
        let mut output = Guarded::filled(output_length(call), KEPT);
        let (lent_output, around) = output.split();
        let library = self.ask(call, door, lent_output).map_err(|what| Difference::new(format!("; {what}")))?;
        if library != self.last || original.as_ref().is_some_and(|answer| *answer != self.last) {
            return Err(Difference::new(answers(original.as_ref(), &self.last, &library)));
        }
        if !are_kept(guards) || !are_kept(&around) {
            return Err(Difference::new("; a word beside a lent list was written".to_string()));
        }
        if is_filling && self.calls % FILLING_CALLS != 0 {
            return Ok(());
        }
        self.compare_words(door.words(), output.words())?;
        self.compare_with_the_law(call, is_open)
    }

    /// What a call is made on that the reading alone answers.
    fn circumstances(&self, is_open: bool) -> Circumstances {
        Circumstances {
            length: self.model.words().len(),
            is_open,
            is_damaged: self.model.is_damaged,
            is_loaded: self.model.is_loaded,
            is_filling: false,
            by: self.way.by,
            has_original: false,
        }
    }

    /// Lists of the same types have to give one handle, in a store that calls alone have made.
    fn compare_with_the_law(&mut self, call: &Call, is_open: bool) -> Result<(), Difference> {
        match (call.name, &self.last) {
            ("fresh", _) => self.law = Law::default(),
            ("meet_list", Answer::Number(handle)) if !self.model.is_damaged => {
                let earlier = self.law.note(&call.numbers, *handle, &self.model.entries, &mut self.tally.merges);
                self.tally.merges.opened += u64::from(is_open);
                if let Some(earlier) = earlier {
                    return Err(Difference::new(format!("; the same types gave {earlier} before")));
                }
            }
            _ => {}
        }
        Ok(())
    }

    fn ask(&self, call: &Call, door: &mut dyn Door, output: &mut [u64]) -> Result<Answer, String> {
        if call.name == "check" {
            return Ok(Answer::Flag(calls::well_formed(door.words())));
        }
        let typed = typed(call).expect("a call of document 01");
        let reply = match &self.way.plant {
            Some(plant) => plant.answer(door, &typed, output),
            None => door.answer(&typed, output),
        };
        Ok(answer(&typed, reply?, output))
    }

    fn compare_words(&self, words: &[u64], output: &[u64]) -> Result<(), Difference> {
        let (reading, of_reading) = (self.model.words(), &self.model.output[..]);
        let other = |ours: &[u64], theirs: &[u64]| (0..ours.len().max(theirs.len())).find(|i| ours.get(*i) != theirs.get(*i));
        if words != reading {
            let at = other(words, reading).unwrap_or(0);
            return Err(Difference::new(word("word", at, self.original.word(at), reading[at], words[at])));
        }
        if let Some(at) = self.original.first_other_word(words) {
            return Err(Difference::new(word("word", at, self.original.word(at), reading[at], words[at])));
        }
        if output != of_reading {
            let at = other(output, of_reading).unwrap_or(0);
            return Err(Difference::new(word("word of the output", at, None, of_reading[at], output[at])));
        }
        Ok(())
    }
}

/// Whether a line is about the list, and no call on it as it is now.
fn is_for_the_list(call: &Call, is_open: bool) -> bool {
    match call.name {
        "list" | "poke" | "open" | "close" => true,
        "fresh" => is_open || !call.numbers.is_empty(),
        "load" | "reload" => is_open,
        _ => false,
    }
}
