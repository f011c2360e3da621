//! Pokes: words that somebody else wrote.

use super::Damaging;
use crate::linked::entries::Entry;
use crate::steps::Arg;
use crate::values;

/// The first handle that is not of the fresh store.
const OWN: u64 = 94;

impl Damaging {
    pub(super) fn some_damage(&mut self) {
        if self.model.words().len() < 94 || self.model.entries.list.len() < 35 {
            return self.again_fresh();
        }
        match self.random.below(100) {
            0..=29 => self.copy(),
            30..=44 => self.second_entry(),
            45..=54 => self.other_value(),
            55..=64 => self.ask_poke_ask(),
            65..=84 => self.spoil(),
            85..=89 => self.empty_names(),
            90..=94 => self.many_words(),
            95 => self.no_store(),
            96 => self.again_fresh(),
            _ => drop(self.run("check", vec![], vec![])),
        }
    }

    pub(super) fn any_entry(&mut self) -> Entry {
        let count = self.model.entries.list.len();
        let from = if self.random.percent(40) { count.saturating_sub(20) } else { 0 };
        self.model.entries.list[self.random.between(from, count - 1)]
    }

    pub(super) fn entry_words(&self, entry: Entry) -> Vec<u64> {
        let start = entry.handle as usize;
        self.model.words().get(start..start + entry.size).unwrap_or(&[]).to_vec()
    }

    /// The words of an entry as arguments: its handles by where they come from.
    pub(super) fn as_args(&self, words: &[u64]) -> Vec<Arg> {
        let is_handle = |k: usize| match words[0] as u8 {
            7 => k > 0,
            8 => k == 1 || (k > 1 && k % 3 != 1),
            9 | 10 => k == 1,
            11 => k == 2,
            _ => false,
        };
        words.iter().enumerate().map(|(k, word)| if is_handle(k) { self.origin(*word) } else { Arg::Number(*word) }).collect()
    }

    /// An entry that no maker makes, since one is there: a second Bot and the like; or one that is new.
    fn second_entry(&mut self) {
        let part = self.any_entry();
        let (kind, depth) = (part.kind, part.depth);
        let sizes = [0, 32, 96, 128];
        let words = match self.random.below(6) {
            0 => vec![u64::from(self.random.of(&[1u8, 2, 3, 4])) + 256],
            1 => vec![6 + 256, self.random.of(&sizes), 0],
            2 if kind == 0 => vec![9 + 256, part.handle],
            _ if depth >= 32 || kind == 0 => vec![5 + 256, 0, self.random.below(3) as u64],
            3 if kind == 8 || kind == 9 => vec![10 + 256 * (depth + 1), part.handle, self.random.below(2) as u64],
            4 => vec![11 + 256 * (depth + 1), values::alias(&mut self.random), part.handle],
            _ => vec![7 + 256 * (depth + 1) + 65_536 * 2, part.handle, part.handle],
        };
        self.run("put", self.as_args(&words), vec![]);
    }

    /// An entry that is not of the fresh store and has a word that may be another one.
    pub(super) fn own_entry(&mut self) -> Option<Entry> {
        let own: Vec<Entry> = self.model.entries.list.iter().filter(|entry| entry.handle >= OWN && entry.size > 1).copied().collect();
        if own.is_empty() {
            return None;
        }
        Some(self.random.of(&own))
    }

    fn other_value(&mut self) {
        if let Some(entry) = self.own_entry() {
            let args = self.other_word(entry);
            self.run("poke", args, vec![]);
        }
    }

    /// Another value in an entry, which mostly stays right: two entries may be equal then, or one may be no more what a later call would find.
    /// Hands back the word and its value.
    pub(super) fn other_word(&mut self, entry: Entry) -> Vec<Arg> {
        let words = self.entry_words(entry);
        let (k, value) = match entry.kind {
            0 => self.other_byte(&words),
            5 => (self.random.between(1, 2), values::int(&mut self.random)),
            6 if words[1] == 64 => (2, values::float(&mut self.random)),
            6 => (1, self.random.of(&[0, 32, 64, 96, 128])),
            7 => (1, words[self.random.between(1, words.len() - 1)]),
            8 if words.len() > 2 => self.other_field(&words),
            8 | 9 => (1, self.another_of_kind(0)),
            10 => (2, words[2] ^ 1),
            _ => (1, values::alias(&mut self.random)),
        };
        let value = if value < OWN { Arg::Number(value) } else { self.origin(value) };
        vec![self.word_of(entry.handle, k), value]
    }

    /// A name's first word with another byte in it: another name, one that is no UTF-8, or the same as another one.
    fn other_byte(&mut self, words: &[u64]) -> (usize, u64) {
        let n = (words[0] >> 16) as usize;
        let shift = 8 * self.random.below(n.clamp(1, 8));
        let byte = self.random.of(&[0x61, 0x80, 0xff, 0, 0xc3]);
        (1, (words[1] & !(0xff << shift)) | (byte << shift))
    }

    /// Another name, type, alias or flag of a field.
    fn other_field(&mut self, words: &[u64]) -> (usize, u64) {
        let field = 2 + 3 * self.random.below((words.len() - 2) / 3);
        match self.random.below(4) {
            0 => (field, self.another_of_kind(0)),
            1 => (field + 1, words[2 + 3 * self.random.below((words.len() - 2) / 3) + 1]),
            2 => (field + 2, words[field + 2] ^ 1),
            _ => (field + 2, 2 * values::alias(&mut self.random)),
        }
    }

    fn another_of_kind(&mut self, kind: u8) -> u64 {
        let all: Vec<u64> = self.model.entries.list.iter().filter(|entry| entry.kind == kind).map(|entry| entry.handle).collect();
        if all.is_empty() {
            return 1;
        }
        self.random.of(&all)
    }

    /// Words that are mostly no store, some calls on them, and mostly the right word again.
    fn spoil(&mut self) {
        let (used, length) = (self.model.used(), self.model.words().len());
        let entry = self.any_entry();
        let head = self.model.words()[entry.handle as usize];
        let (at, value) = match self.random.below(8) {
            0 | 1 => (Arg::Number(0), self.other_used(used as u64, length as u64)),
            2 => (Arg::Number(self.random.between(1, 93) as u64), values::int(&mut self.random)),
            3 if used < length => (Arg::Behind(self.random.below(length - used) as u64), 1 + values::int(&mut self.random) % 1000),
            4 => (Arg::Number(length as u64 - 1), values::int(&mut self.random)),
            5 => {
                let heads =
                    [head ^ 1, head ^ 256, head ^ 65_536, head.wrapping_add(1 << 24), head | 15, head.wrapping_add(256), head ^ (1 << 63)];
                (self.word_of(entry.handle, 0), self.random.of(&heads))
            }
            _ => {
                let k = self.random.below(entry.size);
                let word = self.model.words()[entry.handle as usize + k];
                let trouble = values::trouble(&mut self.random);
                (self.word_of(entry.handle, k), self.random.of(&[0, word ^ 1, entry.handle, used as u64, trouble]))
            }
        };
        let right = self.model.words().get(self.model.number(at) as usize).copied();
        self.run("poke", vec![at, Arg::Number(value)], vec![]);
        for _ in 0..self.random.below(6) {
            self.some_call();
        }
        if let Some(right) = right.filter(|_| self.random.percent(85)) {
            self.run("poke", vec![at, Arg::Number(right)], vec![]);
        }
    }

    fn other_used(&mut self, used: u64, length: u64) -> u64 {
        self.random.of(&[0, 1, 93, 94, used - 1, used + 1, length, length + 1, length - 1, 1 << 32, u64::MAX])
    }

    /// Word 0 raised over zero words: each is an empty name.
    fn empty_names(&mut self) {
        let left = self.model.words().len() - self.model.used();
        if left > 0 {
            let count = self.random.between(1, left.min(5));
            self.run("put", vec![Arg::Number(0); count], vec![]);
        }
    }

    /// Many words by chance: in the entries, or behind them.
    fn many_words(&mut self) {
        let length = self.model.words().len();
        for _ in 0..self.random.between(2, 8) {
            let at = self.random.below(length) as u64;
            let value = match self.random.below(3) {
                0 => self.random.word(),
                1 => self.random.below(12) as u64 + 256,
                _ => self.random.below(length) as u64,
            };
            self.run("poke", vec![Arg::Number(at), Arg::Number(value)], vec![]);
        }
        for _ in 0..self.random.below(6) {
            self.some_call();
        }
        if self.random.percent(70) {
            self.again_fresh();
        }
    }

    /// A list that was never a store, or whose length is none: fresh in it, and calls.
    fn no_store(&mut self) {
        let length = self.random.weighted(&[(20, 93), (20, 94), (10, 0), (10, 1), (20, 500), (1, 1_048_577), (1, 1_048_576)]);
        let value = if self.random.percent(50) { 0 } else { values::int(&mut self.random) };
        self.run("list", [length, value].map(Arg::Number).to_vec(), vec![]);
        if value == 0 && self.random.percent(60) {
            self.fresh_words();
        }
        for _ in 0..self.random.between(1, 5) {
            self.some_call();
        }
        self.again_fresh();
        for _ in 0..self.random.between(0, 5) {
            self.some_call();
        }
        if self.random.percent(50) {
            let length = values::length(&mut self.random) as u64;
            self.run("fresh", vec![Arg::Number(length)], vec![]);
        }
    }

    /// The words of a fresh store, in a list that may be too short or too long for one.
    fn fresh_words(&mut self) {
        let mut words = [0; 94];
        reading::answer(&mut words, &reading::Call::Fresh, &mut []);
        for (at, word) in words.into_iter().enumerate().filter(|(_, word)| *word != 0) {
            self.step("poke", [at as u64, word].map(Arg::Number).to_vec(), vec![]);
        }
    }

    fn again_fresh(&mut self) {
        self.run("fresh", vec![], vec![]);
    }
}
