// The stores of the part `growth`, and what is measured on them: a set is a store with calls of each function.
use crate::asked::{all_new, all_there, Asked};
use crate::calls::Lent;
use crate::clock::{clock, rounds};
use crate::measure::{check_plain, memory, once, plain_once, stretch, told, New};
use crate::open_store::Open;
use crate::program::Program;
use crate::script::{figure, Script};

// Of plain calls at least so many are measured.
const SAMPLE: usize = 12;
// How often `oracle measure` runs a block again and again (its measure.rs).
const RUST_ROUNDS: usize = 30;

// The best of all rounds, in nanoseconds.
#[derive(Clone, Copy)]
pub struct Best {
    pub ns: f64,
    pub rounds: usize,
}

impl Best {
    pub const NONE: Best = Best { ns: f64::MAX, rounds: 0 };

    pub fn add(&mut self, rounds: usize, ns: f64) {
        self.ns = self.ns.min(ns);
        self.rounds += rounds;
    }
}

// The calls of one function.
pub struct Work {
    pub asked: Asked,
    told: Vec<String>,
    pub appended: f64,
    pub plain: Best,
    pub opened: Best,
    pub rust: Best,
}

impl Work {
    fn new(asked: Asked, told: Vec<String>, appended: f64) -> Work {
        Work { asked, told, appended, plain: Best::NONE, opened: Best::NONE, rust: Best::NONE }
    }

    // Some of the calls: whole families, so that the mix is that of all. New calls append, so that their answers go by those before them: the first.
    fn sample(&self, first: bool) -> std::ops::Range<usize> {
        let (n, unit) = (self.asked.calls.len(), self.asked.unit);
        let size = (SAMPLE.div_ceil(unit) * unit).min(n);
        let from = if first { 0 } else { (n / unit / 2 * unit).min(n - size) };
        from..from + size
    }
}

pub struct Set {
    pub name: &'static str,
    pub words: Vec<u64>,
    pub open: Open,
    script: Script,
    pub works: Vec<Work>,
}

// How many families are asked about: twelve calls each, so that there is a call for each 256 words.
fn families(len: usize) -> usize {
    (len / 3_072).max(1)
}

// With the memory of answers that the README advises.
fn open(words: Vec<u64>) -> Open {
    let n = words.len();
    Open::new(words, memory(6 * n))
}

// How much room calls take: on a program of as many families as are asked about, all of them on one store, or each function's on the same.
fn room(families: usize, calls: fn(&Program, usize) -> Vec<Asked>, on_one: bool) -> usize {
    let p = Program::new(Program::length(families, 800 * families + 1_000), families);
    let (mut s, mut most, mut lent) = (open(p.built.words.clone()), 0, Lent::new());
    for asked in calls(&p, families) {
        stretch(&mut s, &asked.calls, &mut lent);
        most = most.max(s.used() - p.built.used());
        if !on_one {
            s.start(&p.built.words);
        }
    }
    most
}

impl Set {
    // A store with all answers behind the program.
    pub fn there(len: usize) -> Set {
        let n = families(len);
        let mut p = Program::new(len, Program::families(len, room(n, all_there, true), n));
        let (asked, mut s, mut lent) = (all_there(&p, n), open(p.built.words.clone()), Lent::new());
        for call in asked.iter().flat_map(|asked| &asked.calls) {
            let used = s.used();
            stretch(&mut s, std::slice::from_ref(call), &mut lent);
            if s.used() > used {
                p.built.made.push((call.clone(), lent.answer));
            }
        }
        let mut script = Script::fresh(len, &p.built.made);
        let work = |asked: Asked| {
            let told = told(&mut s, &asked.calls);
            script.block(asked.of.name, &asked.calls, &told);
            Work::new(asked, told, 0.0)
        };
        let works = asked.into_iter().map(work).collect();
        Set { name: "there", words: s.words.clone(), open: s, script, works }
    }

    // A store with room for what the new calls of any function make.
    pub fn new(len: usize) -> Set {
        let n = families(len);
        let p = Program::new(len, Program::families(len, room(n, all_new, false), n));
        let (words, mut s) = (p.built.words.clone(), open(p.built.words.clone()));
        let work = |asked: Asked| {
            let New { told, appended, .. } = New::run(&mut s, &words, &asked.calls);
            Work::new(asked, told, appended)
        };
        let works = all_new(&p, n).into_iter().map(work).collect();
        Set { name: "new", open: s, script: Script::fresh(len, &p.built.made), words, works }
    }

    // The plain calls that are measured have to tell what the opened ones did.
    pub fn check(&self) {
        for work in &self.works {
            let sample = work.sample(self.name == "new");
            check_plain(&self.words, &work.asked.calls[sample.clone()], &work.told[sample]);
        }
    }

    // Calls whose answers are there, asked again and again.
    pub fn pass_there(&mut self, oracle: Option<&str>) {
        let (mut w, mut lent, s) = (self.words.clone(), Lent::new(), &mut self.open);
        for work in &mut self.works {
            let (calls, sample) = (&work.asked.calls, work.sample(false));
            work.opened.add(8, rounds(8, || stretch(s, calls, &mut lent)) / calls.len() as f64);
            (0..4).for_each(|_| work.plain.add(1, plain_once(&mut w, &calls[sample.clone()], &mut lent)));
        }
        assert!(w == self.words && s.words == self.words, "an answer was not there");
        let rust = self.script.times(oracle, 1);
        for work in &mut self.works {
            if let Some(ns) = figure(&rust, work.asked.of.name, 2) {
                work.rust.add(RUST_ROUNDS, ns);
            }
        }
    }

    // New calls: each round on the same words, opened anew, and in a new arena.
    pub fn pass_new(&mut self, oracle: Option<&str>) {
        let (mut w, mut lent, none) = (self.words.clone(), Lent::new(), clock());
        let turns = (200_000 / self.words.len()).clamp(2, 20);
        for work in &mut self.works {
            let (calls, sample) = (&work.asked.calls, work.sample(true));
            for _ in 0..3 {
                w.copy_from_slice(&self.words);
                work.plain.add(1, plain_once(&mut w, &calls[sample.clone()], &mut lent));
            }
            for _ in 0..2 * turns {
                let ns = once(&mut self.open, &self.words, calls, &mut lent) - none / calls.len() as f64;
                work.opened.add(1, ns.max(0.0));
            }
            let mut script = self.script.clone();
            script.block("new", calls, &work.told);
            if let Some(ns) = figure(&script.times(oracle, turns), "new", 0) {
                work.rust.add(turns, ns);
            }
        }
    }
}
