//! Lists whose words are poked: a list of calls by chance, as the Rust ran it, and among its calls pokes that make equal entries, other
//! types of the same kind, or words that are no store. What the words are is followed as well as can be: after some pokes a call answers
//! otherwise than it did on the Rust, and then later handles may be any numbers.

use crate::generate::{list, Menu};
use crate::random::Random;
use crate::script::Call;
use crate::session::Session;
use crate::steps::{Arg, Asked, Step};
use crate::values;
use original::datastructures::arena::DroplessArena;
use original::sea_of_nodes::types::Types;
use std::collections::HashMap;

/// The first handle that is not of the fresh store.
const OWN: u64 = 94;

/// An entry as it stands in the poked list.
#[derive(Clone, Copy)]
struct Place {
    handle: u64,
    kind: u8,
    size: usize,
}

struct Poking {
    random: Random,
    lines: Vec<String>,
    /// The lent list's length, and its used words as they should be by now.
    length: usize,
    words: Vec<u64>,
    places: Vec<Place>,
    /// Where the Rust's entries stand, and copies of entries by the handle of what they are copies of.
    moved: HashMap<u64, u64>,
    copies: HashMap<u64, u64>,
}

/// The lines of the list of this seed.
pub fn poked(seed: u64, menu: &Menu) -> Vec<String> {
    let list = list(seed, menu);
    let arena = DroplessArena::new();
    let types = Types::new(&arena);
    let mut session = Session::new(&types);
    let mut poking = Poking {
        random: Random::new(!seed),
        lines: vec![],
        length: 0,
        words: vec![],
        places: vec![],
        moved: HashMap::new(),
        copies: HashMap::new(),
    };
    let count = list.steps.len();
    for (i, (step, asked)) in list.steps.iter().zip(&list.asked).enumerate() {
        session.run(&asked.call);
        poking.call(step, asked);
        let Some(store) = session.store() else { continue };
        if step.name == "fresh" {
            poking.start(store.length);
        }
        let known = poking.moved.len();
        for place in known..store.entries.len() {
            poking.take(store.entries[place].handle, store.words_at(place));
        }
        // the more of the list is behind it, the less is lost when its words go another way
        if poking.random.below(100) < 2 + 6 * i / count {
            poking.some_poke(i, count);
        }
    }
    poking.lines.extend(["check", "dumpall"].map(str::to_string));
    poking.lines
}

impl Poking {
    /// A call of the list, with its handles as they are here, and now and then an equal entry in the place of one.
    fn call(&mut self, step: &Step, asked: &Asked) {
        let mut numbers = asked.call.numbers.clone();
        for (number, arg) in numbers.iter_mut().zip(&step.args) {
            let is_handle = !matches!(arg, Arg::Number(_));
            if is_handle {
                *number = self.moved.get(number).copied().unwrap_or(*number);
            }
            if let Some(copy) = self.copies.get(number).filter(|_| is_handle || *number > 4) {
                if self.random.percent(40) {
                    *number = *copy;
                }
            }
        }
        self.lines.push(Call { numbers, ..asked.call.clone() }.to_string());
    }

    fn start(&mut self, length: usize) {
        self.length = length;
        self.words = vec![0];
        self.places.clear();
        self.moved.clear();
        self.copies.clear();
    }

    /// Takes over an entry that the Rust has appended.
    fn take(&mut self, handle: u64, words: &[u64]) {
        let mut words = words.to_vec();
        for k in handles_in(&words) {
            words[k] = self.moved.get(&words[k]).copied().unwrap_or(words[k]);
        }
        let here = self.append(&words);
        self.moved.insert(handle, here);
    }

    fn append(&mut self, words: &[u64]) -> u64 {
        let handle = self.words.len() as u64;
        self.words.extend(words);
        self.words[0] = self.words.len() as u64;
        self.places.push(Place { handle, kind: words[0] as u8, size: words.len() });
        handle
    }

    fn poke(&mut self, at: usize, value: u64) {
        self.lines.push(format!("poke {at} {value}"));
    }

    fn some_poke(&mut self, i: usize, count: usize) {
        match self.random.below(10) {
            0..=3 => self.copy(),
            4 | 5 => self.other_value(2 * i > count),
            6 | 7 => self.damage(),
            8 => self.second_entry(),
            _ => {
                let again = self.random.of(&["fresh", "check", "dump", "peek 0"]);
                // a fresh store in the middle makes most later handles wrong
                if again != "fresh" || 4 * i > 3 * count {
                    self.lines.push(again.to_string());
                }
            }
        }
    }

    /// A further entry equal to one that is there, which the makers never make.
    fn copy(&mut self) {
        let place = self.random.of(&self.places);
        let words = self.entry(place);
        self.put(&words, Some(place.handle));
    }

    /// An entry that no maker makes, since one is there: a second Bot and the like; or a tuple or pointer that is new.
    fn second_entry(&mut self) {
        let types: Vec<Place> = self.places.iter().filter(|place| place.kind > 0).copied().collect();
        let part = self.random.of(&types);
        let depth = self.words[part.handle as usize] / 256 % 256;
        let words = match self.random.below(4) {
            0 => vec![u64::from(self.random.of(&[1u8, 2, 3, 4])) + 256],
            _ if depth >= 32 => vec![5 + 256, 0, 0],
            1 if part.kind == 8 || part.kind == 9 => vec![10 + 256 * (depth + 1), part.handle, self.random.below(2) as u64],
            2 => vec![11 + 256 * (depth + 1), values::alias(&mut self.random), part.handle],
            _ => vec![7 + 256 * (depth + 1) + 65_536 * 2, part.handle, part.handle],
        };
        self.put(&words, None);
    }

    /// Puts an entry behind the used words, where there is room.
    fn put(&mut self, words: &[u64], copy_of: Option<u64>) {
        let at = self.words.len();
        if at == 0 || at + words.len() > self.length {
            return;
        }
        let handle = self.append(words);
        for (k, word) in words.iter().enumerate().filter(|(_, word)| **word != 0) {
            self.poke(at + k, *word);
        }
        self.poke(0, self.words[0]);
        if let Some(original) = copy_of {
            self.copies.insert(original, handle);
        }
    }

    /// Another value in an entry, which stays right: an Int's end, a Float's bits, a name's byte, a flag or an alias. Two entries may be equal
    /// then, or one may be no more what a later call would find. It is put back after some calls unless it may stay.
    fn other_value(&mut self, may_stay: bool) {
        let own: Vec<Place> = self.places.iter().filter(|place| place.handle >= OWN).copied().collect();
        if own.is_empty() {
            return;
        }
        let place = self.random.of(&own);
        let words = self.entry(place);
        let (k, value) = match place.kind {
            5 => (self.random.between(1, 2), values::int(&mut self.random)),
            6 if words[1] == 64 => (2, values::float(&mut self.random)),
            0 if words.len() > 1 => (1, words[1] ^ 1),
            8 if words.len() > 2 => {
                let k = 4 + 3 * self.random.below((words.len() - 2) / 3);
                let alias = values::alias(&mut self.random);
                (k, self.random.of(&[words[k] ^ 1, 2 * alias]))
            }
            10 => (2, words[2] ^ 1),
            11 => (1, values::alias(&mut self.random)),
            7 if words.len() > 1 => (1, words[self.random.between(1, words.len() - 1)]),
            _ => return,
        };
        let at = place.handle as usize + k;
        self.poke(at, value);
        if may_stay && self.random.percent(60) {
            self.words[at] = value;
            return;
        }
        self.some_again();
        self.poke(at, self.words[at]);
    }

    /// Words that are no store, some calls on them, and mostly the right word again.
    fn damage(&mut self) {
        if self.words.is_empty() {
            return;
        }
        let used = self.words.len();
        let place = self.random.of(&self.places);
        let head = self.words[place.handle as usize];
        let (at, value) = match self.random.below(6) {
            0 => (0, self.random.of(&[0, 93, used as u64 - 1, used as u64 + 1, self.length as u64, self.length as u64 + 1, u64::MAX])),
            1 => (self.random.between(1, 93), values::int(&mut self.random)),
            2 if used < self.length => (self.random.between(used, self.length - 1), 1 + values::int(&mut self.random) % 1000),
            3 => (place.handle as usize, self.random.of(&[head ^ 1, head ^ 256, head ^ 65_536, head + (1 << 24), head | 15])),
            _ => {
                let at = place.handle as usize + self.random.below(place.size);
                let trouble = values::trouble(&mut self.random);
                (at, self.random.of(&[0, self.words[at] ^ 1, place.handle, used as u64, trouble]))
            }
        };
        self.poke(at, value);
        self.some_again();
        if self.random.percent(85) {
            // a word past the used ones is 0
            self.poke(at, self.words.get(at).copied().unwrap_or(0));
        }
    }

    /// Some lines that were there, once more.
    fn some_again(&mut self) {
        for _ in 0..self.random.below(4) {
            let line = self.lines[self.random.below(self.lines.len())].clone();
            if !["fresh", "list", "poke"].contains(&line.split(' ').next().unwrap_or("")) {
                self.lines.push(line);
            }
        }
    }

    fn entry(&self, place: Place) -> Vec<u64> {
        self.words[place.handle as usize..place.handle as usize + place.size].to_vec()
    }
}

/// Which words of an entry are handles.
fn handles_in(words: &[u64]) -> Vec<usize> {
    match words[0] as u8 {
        7 => (1..words.len()).collect(),
        8 => (1..words.len()).filter(|k| *k == 1 || k % 3 != 1).collect(),
        9 | 10 => vec![1],
        11 => vec![2],
        _ => vec![],
    }
}
