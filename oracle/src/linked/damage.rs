//! Lists on damaged words, which the original cannot hold: a list of calls by chance, as the original ran it, and among its calls pokes that
//! make equal entries, other types of the same kind, or words that are no store; and calls that only the reading answers, as with structs of
//! 125 to 255 fields and names that are no UTF-8. The reading runs each step at once, so that later ones take what is there.

mod again;
mod any_call;
mod copies;
mod large;
mod pokes;

use super::model::Model;
use super::unfolded::Unfolded;
use crate::generate::{list, Menu};
use crate::random::Random;
use crate::session::Answer;
use crate::steps::{Arg, Step};
use std::collections::HashMap;

pub struct Damaging {
    random: Random,
    model: Model,
    steps: Vec<Step>,
    next_id: usize,
    /// Whether the list is opened again after each line that changes it, mostly; and whether it is open.
    opens: bool,
    is_open: bool,
    /// What the list was last opened with.
    last_opening: Vec<Arg>,
    /// How a step says that it means the entry of a handle; and copies of entries by the handle of what they are copies of.
    origins: HashMap<u64, Arg>,
    copies: HashMap<u64, Arg>,
}

/// The damaged list of this seed.
pub fn damaged(seed: u64, menu: &Menu, holds: bool) -> Vec<Step> {
    let list = list(seed, menu);
    let mut random = Random::new(!seed);
    let opens = random.percent(60);
    let next_id = list.steps.len();
    let (origins, copies) = (HashMap::new(), HashMap::new());
    let mut damaging =
        Damaging { random, model: Model::new(holds), steps: vec![], next_id, opens, is_open: false, last_opening: vec![], origins, copies };
    // few pokes in some lists, many in others
    let often = damaging.random.of(&[1, 3, 8]);
    for (i, step) in list.steps.iter().enumerate() {
        damaging.listed(step);
        if i > 0 && damaging.random.percent(often) {
            damaging.some_damage();
        }
        if i > 0 && damaging.random.percent(25) {
            damaging.some_call();
        }
        if i > 0 && damaging.random.below(150) == 0 {
            damaging.large_struct();
        }
    }
    damaging.steps
}

impl Damaging {
    /// A step of the list, now and then with an equal entry in the place of one.
    fn listed(&mut self, step: &Step) {
        let mut step = step.clone();
        for arg in &mut step.args {
            let number = self.model.number(*arg);
            let is_handle = !matches!(arg, Arg::Number(_)) || number > 4;
            if let Some(copy) = self.copies.get(&number).filter(|_| is_handle) {
                if self.random.percent(40) {
                    *arg = *copy;
                }
            }
        }
        self.take(step);
    }

    /// A step of our own; hands back its id. One that changes the list is mostly followed by an opening, in lists that are opened.
    fn run(&mut self, name: &'static str, args: Vec<Arg>, text: Vec<u8>) -> usize {
        let id = self.step(name, args, text);
        if ["list", "fresh", "poke", "put"].contains(&name) && self.opens && self.random.percent(70) {
            self.last_opening = opening(&mut self.random, self.model.words().len());
            self.open_again();
        }
        id
    }

    /// A step of our own, with nothing behind it.
    fn step(&mut self, name: &'static str, args: Vec<Arg>, text: Vec<u8>) -> usize {
        let id = self.next_id;
        self.next_id += 1;
        self.take(Step { id, name, args, text });
        id
    }

    /// Opens the list, whatever it is, with a memory and an index of the same lengths as before.
    fn open_again(&mut self) {
        self.step("open", self.last_opening.clone(), vec![]);
    }

    /// Runs a step on the reading and writes it down.
    fn take(&mut self, step: Step) {
        let from = self.model.used();
        let mut unfolded = Unfolded::new(&step, self.model.numbers(&step), &self.model);
        let mut last = Answer::Accepted;
        while let Some(call) = unfolded.next_call(&self.model, self.is_open) {
            match call.name {
                "open" | "close" => self.is_open = call.name == "open" && self.model.is_well_formed(),
                "list" | "fresh" | "poke" => self.is_open = false,
                _ => {}
            }
            if !["open", "close"].contains(&call.name) {
                last = self.model.run(&call);
            }
        }
        if ["list", "fresh"].contains(&step.name) {
            self.origins.clear();
            self.copies.clear();
        }
        self.model.note(&step, &last, from);
        if !["list", "fresh", "poke"].contains(&step.name) {
            let new = self.model.entries.handles_from(from);
            self.origins.extend(new.into_iter().enumerate().map(|(k, handle)| (handle, Arg::Appended(step.id, k))));
        }
        self.steps.push(step);
    }

    /// How a step says that it means the entry of this handle.
    fn origin(&self, handle: u64) -> Arg {
        self.origins.get(&handle).copied().unwrap_or(Arg::Number(handle))
    }

    /// How a step says that it means a word of the entry of this handle.
    fn word_of(&self, handle: u64, k: usize) -> Arg {
        match self.origins.get(&handle) {
            Some(Arg::Appended(id, place)) => Arg::Within(*id, *place, k as u64),
            _ => Arg::Number(handle + k as u64),
        }
    }
}

/// What a store of n words is opened with: the memory's length, and how many words the index has above those that it needs.
pub fn opening(random: &mut Random, n: usize) -> Vec<Arg> {
    let memory = match random.below(20) {
        0 | 1 => 0,
        2 => random.below(6),
        3 => random.of(&[6, 7, 11, 12, 13]),
        4 | 5 => 64,
        6 => random.between(0, 2000),
        7 => n,
        8 => 6 * n + random.between(1, 50),
        _ => 6 * n,
    };
    let more = match random.below(20) {
        0 => random.of(&[-1, -1, -2, -(n as i64), i64::from(i32::MIN)]),
        1..=3 => random.between(1, 100) as i64,
        _ => 0,
    };
    vec![Arg::Number(memory as u64), Arg::Number(more as u64)]
}
