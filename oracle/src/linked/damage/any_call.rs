//! Calls of all kinds on whatever words there are, also such as the original cannot be asked.

use super::Damaging;
use crate::generate::{all_asks, MAKERS};
use crate::linked::entries::Entry;
use crate::rows::LONGEST_LIST;
use crate::steps::Arg;
use crate::values;

const NAMES: &[u8] = &[0];
const INTS: &[u8] = &[5];
const FLOATS: &[u8] = &[6];
const STRUCTS: &[u8] = &[8, 9];
const TYPES: &[u8] = &[1, 2, 3, 4, 5, 6, 7, 8, 9, 10, 11];

/// How many elements or fields there are where there are many.
const MANY: &[usize] = &[100, 125, 126, 200, 254, 255, 256, 257, 300];

impl Damaging {
    pub(super) fn some_call(&mut self) {
        let all: Vec<(usize, &'static str)> = MAKERS.iter().chain(all_asks()).copied().collect();
        let name = self.random.weighted(&all);
        let (args, text) = self.given(name);
        let args = self.spoilt(name, args);
        self.run(name, args, text);
    }

    /// The arguments of a call, and its text.
    fn given(&mut self, name: &str) -> (Vec<Arg>, Vec<u8>) {
        let number = |n: u64| Arg::Number(n);
        let args = match name {
            "get_bool" => vec![self.flag()],
            "int" => values::range(&mut self.random).map(number).to_vec(),
            "float" => vec![number(values::float(&mut self.random))],
            "str" => return (vec![], self.text()),
            "tuple" => self.parts(),
            "struct" => self.fields(),
            "fref" => vec![self.one(NAMES)],
            "ptr" => vec![self.one(STRUCTS), self.flag()],
            "mem" => vec![self.alias(), self.one(TYPES)],
            "ary" => return (vec![self.one(INTS), self.alias(), self.one(TYPES), self.alias()], self.text()),
            "meet" | "isa" | "join" => self.two(),
            "meet_list" => self.merged(),
            "meet_rep" => vec![number(self.list_length() as u64), self.one(TYPES)],
            "min" | "max" | "value" | "mask" => vec![self.one(INTS)],
            "sz" | "is_f32" | "float_value" | "reading" => vec![self.one(FLOATS)],
            "name" | "is_ary" | "ary_base" | "ary_scale" => vec![self.one(STRUCTS)],
            "fields" | "offsets" | "offset" | "find" | "find_alias" => self.struct_and_number(name),
            _ => vec![self.one(TYPES)],
        };
        (args, vec![])
    }

    fn entries_of(&self, kinds: &[u8]) -> Vec<Entry> {
        self.model.entries.list.iter().filter(|entry| kinds.contains(&entry.kind)).copied().collect()
    }

    /// An entry of one of these kinds: often a late one, often one that has a copy, or the copy.
    pub(super) fn one(&mut self, kinds: &[u8]) -> Arg {
        let all = self.entries_of(kinds);
        if all.is_empty() {
            return Arg::Number(5);
        }
        let from = if self.random.percent(50) { all.len().saturating_sub(15) } else { 0 };
        let entry = self.random.of(&all[from..]);
        match self.copies.get(&entry.handle) {
            Some(copy) if self.random.percent(50) => *copy,
            _ => self.origin(entry.handle),
        }
    }

    /// Two types: a type and its copy, two of one kind and length, or any.
    pub(super) fn two(&mut self) -> Vec<Arg> {
        let a = self.one(TYPES);
        let handle = self.model.number(a);
        let b = match (self.random.below(10), self.copies.get(&handle)) {
            (0..=2, Some(copy)) => *copy,
            (0..=7, _) => {
                let word = |handle: u64| self.model.words().get(handle as usize).map_or(0, |head| head & 0xff_00ff);
                let head = word(handle);
                let alike = self.model.entries.list.iter().filter(|entry| word(entry.handle) == head);
                let alike: Vec<u64> = alike.map(|entry| entry.handle).collect();
                if alike.is_empty() {
                    a
                } else {
                    let handle = self.random.of(&alike);
                    self.origin(handle)
                }
            }
            _ => self.one(TYPES),
        };
        self.random.of(&[[a, b], [b, a]]).to_vec()
    }

    /// Handles of two types that may be copies, and of a third: few, or now and then so many that the list is about too long.
    fn merged(&mut self) -> Vec<Arg> {
        let mut types = self.two();
        types.push(self.one(TYPES));
        let count = match self.random.below(30) {
            0 => self.list_length(),
            _ => self.random.below(8),
        };
        (0..count).map(|_| self.random.of(&types)).collect()
    }

    /// How many handles a list has: one or none, about as many as are allowed, or far more.
    fn list_length(&mut self) -> usize {
        self.random.of(&[0, 1, LONGEST_LIST, LONGEST_LIST, LONGEST_LIST + 1, LONGEST_LIST + 1, 20_000])
    }

    pub(super) fn flag(&mut self) -> Arg {
        Arg::Number(self.random.below(2) as u64)
    }

    fn alias(&mut self) -> Arg {
        Arg::Number(values::alias(&mut self.random))
    }

    /// A name's bytes: often no UTF-8, seldom about as many as are allowed.
    fn text(&mut self) -> Vec<u8> {
        match self.random.below(12) {
            0..=3 => values::name(&mut self.random),
            4 => (0..self.random.between(250, 258)).map(|_| self.random.word() as u8).collect(),
            5 | 6 => vec![0xff; self.random.below(20)],
            _ => (0..self.random.below(12)).map(|_| self.random.word() as u8).collect(),
        }
    }

    fn count(&mut self) -> usize {
        values::count(&mut self.random, MANY)
    }

    fn parts(&mut self) -> Vec<Arg> {
        (0..self.count()).map(|_| self.one(TYPES)).collect()
    }

    /// A field list: any; or that of a struct which is there, with other types and finals, and with copies of its names.
    fn fields(&mut self) -> Vec<Arg> {
        let structs = self.entries_of(&[8]);
        if structs.is_empty() || self.random.percent(30) {
            let count = if self.random.percent(6) { self.random.of(MANY) } else { self.count() };
            let mut args = vec![self.one(NAMES)];
            for _ in 0..count {
                args.extend([self.one(NAMES), self.one(TYPES), self.alias(), self.flag()]);
            }
            return args;
        }
        let like = self.random.of(&structs);
        let words = self.model.words()[like.handle as usize..like.handle as usize + like.size].to_vec();
        let mut args = vec![self.same_or_copy(words[1])];
        for field in words[2..].chunks(3) {
            let ty = if self.random.percent(30) { self.one(TYPES) } else { self.same_or_copy(field[1]) };
            let is_final = if self.random.percent(30) { self.flag() } else { Arg::Number(field[2] % 2) };
            args.extend([self.same_or_copy(field[0]), ty, Arg::Number(field[2] / 2), is_final]);
        }
        args
    }

    fn same_or_copy(&mut self, handle: u64) -> Arg {
        match self.copies.get(&handle) {
            Some(copy) if self.random.percent(50) => *copy,
            _ => self.origin(handle),
        }
    }

    /// A struct, and the name, alias, index or length of the output that goes with it.
    fn struct_and_number(&mut self, name: &str) -> Vec<Arg> {
        let s = self.one(STRUCTS);
        let handle = self.model.number(s) as usize;
        let entry = self.model.entries.at(handle as u64).filter(|entry| entry.kind == 8).copied();
        let words = entry.map_or(vec![], |entry| self.model.words()[handle..handle + entry.size].to_vec());
        let fields: Vec<&[u64]> = words.get(2..).unwrap_or(&[]).chunks(3).collect();
        let field = if fields.is_empty() { None } else { Some(self.random.of(&fields)) };
        let second = match name {
            "fields" => Arg::Number(self.length_for(4 * fields.len())),
            "offsets" => Arg::Number(self.length_for(fields.len() + 1)),
            "offset" => Arg::Number(self.random.between(0, fields.len() + 2) as u64),
            "find_alias" => field.map_or(Arg::Number(0), |field| Arg::Number(field[2] / 2)),
            _ => match field {
                Some(field) if self.random.percent(60) => self.same_or_copy(field[0]),
                _ => self.one(NAMES),
            },
        };
        vec![s, second]
    }

    /// The length of an output for so many words.
    pub(super) fn length_for(&mut self, wanted: usize) -> u64 {
        let length = match self.random.below(60) {
            0..=29 => wanted,
            30..=41 => wanted.saturating_sub(1),
            42..=54 => wanted + self.random.between(1, 9),
            55 | 56 => 0,
            57 | 58 => self.random.between(0, 2 * wanted + 2),
            _ => self.random.of(&[4096, 4097, 10_000, 70_000]),
        };
        length as u64
    }

    /// Now and then an argument that is refused: a troublesome number, a handle of any kind, a place inside or behind the entries.
    fn spoilt(&mut self, name: &str, mut args: Vec<Arg>) -> Vec<Arg> {
        if args.is_empty() || !self.random.percent(10) {
            return args;
        }
        let place = self.random.below(args.len());
        let handle = self.any_handle();
        args[place] = match self.random.below(5) {
            0 => Arg::Number(values::trouble(&mut self.random)),
            1 => self.origin(handle),
            2 => self.word_of(handle, 1),
            3 => Arg::Behind(self.random.below(3) as u64),
            _ => Arg::Number(self.random.word()),
        };
        if ["struct", "tuple", "meet_list"].contains(&name) && self.random.percent(40) {
            args.truncate(args.len() - self.random.below(args.len().min(4)));
        }
        args
    }

    fn any_handle(&mut self) -> u64 {
        match self.model.entries.list.len() {
            0 => 0,
            count => self.model.entries.list[self.random.below(count)].handle,
        }
    }
}
