//! Files by chance. Steps that are made here write a store's file, load it again into lists of any length and any words, and load files that are
//! broken: `save_about` writes into an output that is so many bytes longer than the file (or shorter), `list_about` lends a list that is so many
//! words longer than the kept file's store (or shorter), with any words in it, `reload_about` loads the kept file, and `load_broken` loads it
//! changed in one of the ways of broken.rs. So they keep their sense when a list is made short.

mod broken;
mod file;

use super::model::Model;
use super::unfolded::ROOM;
use crate::random::Random;
use crate::script::Call;
use crate::steps::{Arg, Step};
pub use broken::{broken, number, WAYS};
pub use file::File;

/// How many steps in a thousand have files behind them, and how many lists in a hundred end with some.
const OFTEN: usize = 10;
const AT_THE_END: usize = 30;

/// A file of more bytes is not loaded: the original would make all its entries anew each time, and scripts would be long.
const MOST_BYTES: usize = 400_000;

pub fn can_load(file: &[u8]) -> bool {
    file.len() <= MOST_BYTES
}

/// The calls that such a step is.
pub fn calls(name: &str, numbers: &[u64], text: &[u8], model: &Model) -> Vec<Call> {
    match (name, numbers) {
        ("save_about", &[more]) => {
            let used = model.used().saturating_sub(94);
            let length = (text.len() + 8 * used + 16).saturating_add_signed(more as isize);
            vec![Call { name: "save", numbers: vec![length as u64], text: text.to_vec() }]
        }
        ("list_about", &[_, _, seed]) | ("reload_about", &[seed]) if seed % 10 > 0 && !model.file_is_good => vec![],
        ("list_about", &[more, word, seed]) => list_about(more, word, seed, &model.file),
        ("reload_about", _) => vec![Call { name: "reload", numbers: vec![], text: vec![] }],
        ("load_broken", &[way, a, b]) => vec![Call { name: "load", numbers: vec![], text: broken(&model.file, way, a, b) }],
        _ => vec![],
    }
}

/// Whether the kept file can be loaded, and brings back the store as it is, or the list is none: else the calls behind it would mean little.
pub fn is_good(model: &Model) -> bool {
    let mut words = File::read(&model.file).filter(|_| can_load(&model.file)).map_or(vec![], |file| file.store());
    let is_loaded = matches!(reading::load(&mut words, &model.file), reading::Reply::Number(_));
    is_loaded && (words == model.words()[..model.used()] || !model.is_well_formed())
}

/// A list of one word over and over, with pokes of others.
fn list_about(more: u64, word: u64, seed: u64, file: &[u8]) -> Vec<Call> {
    let used = File::read(file).map_or(94, |file| file.store().len());
    let length = used.saturating_add_signed(more as isize).min(ROOM.words as usize);
    let mut random = Random::new(seed);
    let call = |name, numbers| Call { name, numbers, text: vec![] };
    let mut calls = vec![call("list", vec![length as u64, word])];
    let pokes = if length == 0 { 0 } else { seed as usize % 4 };
    calls.extend((0..pokes).map(|_| call("poke", vec![random.below(length) as u64, random.word() >> random.below(64)])));
    calls
}

/// A label: mostly a short one, now and then about as long as it may be.
fn label(random: &mut Random) -> Vec<u8> {
    let length = match random.below(20) {
        0..=4 => 0,
        5..=9 => random.below(9),
        10 => 255,
        11 => 256,
        12 => random.between(250, 300),
        _ => random.below(64),
    };
    (0..length).map(|_| random.word() as u8).collect()
}

/// How much longer than the file an output is: as long, mostly.
fn more_bytes(random: &mut Random) -> i64 {
    match random.below(20) {
        0 | 1 => -1,
        2 => -(random.below(40) as i64),
        3 => i64::from(i32::MIN),
        4 | 5 => 1,
        6..=9 => random.below(40) as i64,
        _ => 0,
    }
}

/// How much longer than the store a list is: mostly so that the calls behind have room.
fn more_words(random: &mut Random) -> i64 {
    match random.below(20) {
        0 | 1 => 0,
        2 => 1,
        3..=5 => random.below(40) as i64,
        6..=9 => random.below(400) as i64,
        _ => random.between(400, 6000) as i64,
    }
}

/// Lists that are too short for the store, or for any.
fn fewer_words(random: &mut Random) -> i64 {
    match random.below(6) {
        0 => i64::from(i32::MIN),
        1 => -(random.below(400) as i64) - 1,
        _ => -1,
    }
}

struct Making<'r> {
    random: &'r mut Random,
    steps: Vec<Step>,
    next_id: usize,
    /// The last opening of the list, where it is open.
    open: Option<Vec<Arg>>,
}

impl Making<'_> {
    fn step(&mut self, name: &'static str, numbers: &[u64], text: Vec<u8>) {
        let args = numbers.iter().map(|number| Arg::Number(*number)).collect();
        self.push(Step { id: self.next_id, name, args, text });
    }

    fn push(&mut self, step: Step) {
        self.next_id = self.next_id.max(step.id + 1);
        self.steps.push(step);
    }

    fn list_about(&mut self, more: i64) {
        let (word, seed) = (self.random.word() >> self.random.below(64), self.random.word());
        self.step("list_about", &[more as u64, word, seed], vec![]);
    }

    fn reload(&mut self) {
        let seed = self.random.word();
        self.step("reload_about", &[seed], vec![]);
    }

    /// Writes a file, loads broken ones and then mostly the file itself, into the list as it is or another one.
    fn files(&mut self) {
        let label = label(self.random);
        for _ in 0..self.random.of(&[1, 1, 2, 3]) {
            let more = more_bytes(self.random);
            self.step("save_about", &[more as u64], label.clone());
        }
        if self.random.percent(70) {
            // so that there is a file to be loaded
            let label = if label.len() > 255 { vec![] } else { label.clone() };
            self.step("save_about", &[0], label);
        }
        let (takes_another, is_short) = (self.random.percent(60), self.random.percent(25));
        if takes_another {
            let more = if is_short { fewer_words(self.random) } else { more_words(self.random) };
            self.list_about(more);
        }
        for _ in 0..self.random.of(&[0, 1, 1, 2, 4]) {
            let (way, a, b) = (self.random.below(WAYS) as u64, number(self.random), number(self.random));
            self.step("load_broken", &[way, a, b], vec![]);
        }
        if takes_another && (is_short || self.random.percent(30)) {
            self.reload();
            let more = more_words(self.random);
            self.list_about(more);
        }
        if takes_another || self.random.percent(80) {
            self.reload();
        }
        if self.random.percent(30) {
            self.step("save_about", &[0], label);
        }
        if let Some(args) = self.open.clone().filter(|_| self.random.percent(70)) {
            let id = self.next_id;
            self.push(Step { id, name: "open", args, text: vec![] });
        }
    }
}

/// The steps with files among them.
pub fn with_catalogues(steps: Vec<Step>, random: &mut Random) -> Vec<Step> {
    let next_id = steps.iter().map(|step| step.id + 1).max().unwrap_or(0);
    let mut making = Making { random, steps: Vec::with_capacity(steps.len() + steps.len() / 10), next_id, open: None };
    let mut is_list = false;
    for step in steps {
        match step.name {
            "open" => making.open = Some(step.args.clone()),
            "close" | "list" | "fresh" | "poke" | "put" => making.open = None,
            _ => {}
        }
        is_list |= ["list", "fresh"].contains(&step.name);
        making.push(step);
        if is_list && making.random.below(1000) < OFTEN {
            making.files();
        }
    }
    if making.random.percent(AT_THE_END) {
        making.files();
    }
    making.steps
}
